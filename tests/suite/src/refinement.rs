//! Leaf counts from refinement strings.
use crate::calls::{written, Calls};
use crate::model::{MAX_LEAVES, MAX_TREES};
use crate::random::Random;
use crate::refinement_model::{self as model, children, MAX_DEPTH};
use crate::refusals::expect_seen;
use crate::{cases, Run, Test};
use std::ptr;

pub const TESTS: &[Test] = &[
    ("refinement: examples", examples),
    ("refinement: every short string", every_short),
    ("refinement: random refinements", random_refinements),
    ("refinement: each byte changed, each length cut", damaged),
    ("refinement: as deep as may be, and deeper", deep),
    ("refinement: a small stack", small_stack),
    ("refinement: shapes without strings", other_shapes),
    ("refinement: the most leaves, and more", most_leaves),
    ("refinement: random lists", random_lists),
    ("refinement: damaged lists", damaged_lists),
    ("refinement: lists at the limits", list_limits),
    ("refinement: the first refusal of a list", first_refusal),
    ("refinement: buffers of each length", each_buffer),
    ("refinement: null pointers with count 0", null_pointers),
    ("seen: each refusal from every refinement call", seen_refusals),
];

#[repr(C)]
#[derive(Clone, Copy, Debug, PartialEq, Eq)]
pub struct Leaves {
    pub refusal: u32,
    pub upright: u32,
    pub inverted: u32,
    pub leaves: u32,
}

#[repr(C)]
#[derive(Clone, Copy, Debug, PartialEq, Eq)]
pub struct Count {
    pub refusal: u32,
    pub count: u32,
}

extern "C" {
    fn vejgodat_count_leaves(shape: u32, bits: *const u8, bits_len: usize) -> Leaves;
    fn vejgodat_leaf_counts(
        shapes: *const u32,
        shapes_len: usize,
        lengths: *const u32,
        lengths_len: usize,
        bits: *const u8,
        bits_len: usize,
        out: *mut u32,
        out_len: usize,
    ) -> Count;
}

fn refused(refusal: u32) -> Leaves {
    Leaves { refusal, upright: 0, inverted: 0, leaves: 0 }
}

fn counted(upright: u32, inverted: u32) -> Leaves {
    Leaves { refusal: 0, upright, inverted, leaves: upright + inverted }
}

impl Calls {
    pub fn count_leaves(&mut self, shape: u32, bits: &[u8]) -> Leaves {
        let expected = match model::count_leaves(shape, bits) {
            Ok(leaves) => counted(leaves.upright as u32, leaves.inverted as u32),
            Err(refusal) => refused(refusal),
        };
        let place = self.place();
        let at = self.object.put(bits, place);
        let got = unsafe { vejgodat_count_leaves(shape, at, bits.len()) };
        let said = || format!("count_leaves {shape}, {} bytes {:?}", bits.len(), &bits[..bits.len().min(100)]);
        assert_eq!(got, expected, "{}", said());
        assert!(self.object.bytes() == bits, "{}: input changed", said());
        self.note("count_leaves", got.refusal);
        got
    }

    pub fn leaf_counts(&mut self, shapes: &[u32], lengths: &[u32], bits: &[u8], before: &[u32]) -> (Count, Vec<u32>) {
        let answer = model::leaf_counts(shapes, lengths, bits, before.len());
        let expected = match &answer {
            Ok(counts) => Count { refusal: 0, count: counts.len() as u32 },
            Err(refusal) => Count { refusal: *refusal, count: 0 },
        };
        let places = [self.place(), self.place(), self.place(), self.place()];
        let shapes_at = self.list.put_numbers(shapes, places[0]);
        let lengths_at = self.other_list.put_numbers(lengths, places[1]);
        let bits_at = self.object.put(bits, places[2]);
        let out_at = self.out.put_numbers(before, places[3]);
        let got = unsafe {
            vejgodat_leaf_counts(
                shapes_at,
                shapes.len(),
                lengths_at,
                lengths.len(),
                bits_at,
                bits.len(),
                out_at,
                before.len(),
            )
        };
        let said = || {
            let some = |list: &[u32]| format!("{} {:?}", list.len(), &list[..list.len().min(20)]);
            format!("leaf_counts shapes {}, lengths {}, {} bytes, buffer of {}", some(shapes), some(lengths), bits.len(), before.len())
        };
        assert_eq!(got, expected, "{}", said());
        let after = written(before, &answer);
        assert!(self.out.numbers() == after, "{}: wrote other counts", said());
        assert!(self.list.numbers() == shapes && self.other_list.numbers() == lengths, "{}: input changed", said());
        assert!(self.object.bytes() == bits, "{}: strings changed", said());
        self.note("leaf_counts", got.refusal);
        (got, after)
    }
}

/// A refinement's string, and how many leaves of each kind it has, counted as it is made: an element is refined in
/// `chance` of 256 cases.
fn grow(random: &mut Random, shape: u32, chance: u64, depth: u32, inverted: bool, bits: &mut Vec<u8>, leaves: &mut [u32; 2]) {
    if depth == MAX_DEPTH || bits.len() > 20_000 || !random.chance(chance) {
        bits.push(0);
        leaves[usize::from(inverted)] += 1;
        return;
    }
    bits.push(1);
    if shape == 1 {
        for kind in [inverted, inverted, !inverted, inverted] {
            grow(random, shape, chance, depth + 1, kind, bits, leaves);
        }
    } else {
        for _ in 0..children(shape).unwrap() {
            grow(random, shape, chance, depth + 1, inverted, bits, leaves);
        }
    }
}

fn string(random: &mut Random, shape: u32) -> (Vec<u8>, [u32; 2]) {
    let chance = match shape {
        0 | 1 => random.pick(&[0, 32, 60, 64, 70, 90]),
        _ => random.pick(&[0, 16, 28, 32, 35, 45]),
    };
    let (mut bits, mut leaves) = (Vec::new(), [0, 0]);
    // the root is refined more often than the others
    if random.chance(200) {
        bits.push(1);
        for child in 0..children(shape).unwrap() {
            grow(random, shape, chance, 1, shape == 1 && child == 2, &mut bits, &mut leaves);
        }
    } else {
        grow(random, shape, chance, 0, false, &mut bits, &mut leaves);
    }
    (bits, leaves)
}

/// Every element refined to the depth.
fn full(shape: u32, depth: u32) -> Vec<u8> {
    let mut level = vec![0u8];
    for _ in 0..depth {
        let mut next = Vec::with_capacity(level.len() * 9);
        next.push(1);
        for _ in 0..children(shape).unwrap() {
            next.extend_from_slice(&level);
        }
        level = next;
    }
    level
}

/// Refined elements inside one another, each the child of that place.
fn nested(shape: u32, depth: u32, place: usize) -> Vec<u8> {
    let mut bits = vec![0u8];
    for _ in 0..depth {
        let mut outer = vec![1];
        outer.extend(vec![0; place]);
        outer.extend(bits);
        outer.extend(vec![0; children(shape).unwrap() - 1 - place]);
        bits = outer;
    }
    bits
}

fn examples(run: &mut Run) {
    for (shape, bits, expected) in [
        (1, &[1, 0, 0, 1, 0, 0, 0, 0, 0][..], counted(4, 3)),
        (1, &[1, 0, 0, 0, 1, 0, 0, 0, 0], counted(5, 2)),
        (1, &[0], counted(1, 0)),
        (1, &[1, 0, 0, 0, 0], counted(3, 1)),
        (0, &[1, 0, 0, 1, 0, 0, 0, 0, 0], counted(7, 0)),
        (2, &[1, 0, 0, 0, 0, 0, 0, 0, 0], counted(8, 0)),
        (3, &[1, 0, 0, 0, 0, 0, 0, 0, 0], counted(8, 0)),
        (2, &[1, 0, 0, 0, 0], refused(23)),
        (0, &[], refused(23)),
        (0, &[2], refused(23)),
        (0, &[0, 0], refused(23)),
        (4, &[0], refused(24)),
        (5, &[0], refused(24)),
    ] {
        assert_eq!(run.calls.count_leaves(shape, bits), expected, "{shape} {bits:?}");
    }
    for shape in 0..4 {
        let ones = |n: usize| [vec![1; n], vec![0; (children(shape).unwrap() - 1) * n + 1]].concat();
        assert_eq!(run.calls.count_leaves(shape, &ones(20)).refusal, 0);
        assert_eq!(run.calls.count_leaves(shape, &ones(21)), refused(23));
    }
}

fn every_short(run: &mut Run) {
    for length in 0..=9 {
        cases::every_list(length, 0, 2, |list| {
            let bits: Vec<u8> = list.iter().map(|&bit| bit as u8).collect();
            for shape in 0..5 {
                run.calls.count_leaves(shape, &bits);
            }
        });
    }
    for length in 10..=14 {
        cases::every_list(length, 0, 1, |list| {
            let bits: Vec<u8> = list.iter().map(|&bit| bit as u8).collect();
            for shape in 0..3 {
                run.calls.count_leaves(shape, &bits);
            }
        });
    }
}

fn random_refinements(run: &mut Run) {
    run.cases(20_000, |random, calls| {
        let shape = random.number(0, 3);
        let (bits, leaves) = string(random, shape);
        assert_eq!(calls.count_leaves(shape, &bits), counted(leaves[0], leaves[1]));
        // under another shape the string may be another's
        calls.count_leaves(random.number(0, 3), &bits);
    });
}

fn damaged(run: &mut Run) {
    run.cases(300, |random, calls| {
        let shape = random.number(0, 3);
        let (mut bits, _) = string(random, shape);
        while bits.len() > 600 {
            bits = string(random, shape).0;
        }
        for at in 0..bits.len() {
            let byte = bits[at];
            for other in [byte ^ 1, byte ^ 2, 2, 128, 255] {
                bits[at] = other;
                assert_eq!(calls.count_leaves(shape, &bits), refused(23));
            }
            bits[at] = byte;
            assert_eq!(calls.count_leaves(shape, &bits[..at]), refused(23));
        }
        for left in [&[0][..], &[1], &[7], &[0; 9]] {
            assert_eq!(calls.count_leaves(shape, &[&bits, left].concat()), refused(23));
        }
        calls.count_leaves(shape, &random.bytes(bits.len()));
    });
}

fn deep(run: &mut Run) {
    for shape in 0..4 {
        for place in 0..children(shape).unwrap() {
            for depth in 0..=MAX_DEPTH + 3 {
                let got = run.calls.count_leaves(shape, &nested(shape, depth, place));
                assert_eq!(got.refusal, if depth <= MAX_DEPTH { 0 } else { 23 }, "{shape} {place} {depth}");
            }
        }
        // far more refined elements than any depth
        assert_eq!(run.calls.count_leaves(shape, &[1; 100_000]), refused(23));
    }
}

/// The calls go no deeper than the string may.
fn small_stack(run: &mut Run) {
    run.calls.count_leaves(0, &[0]);
    let strings: Vec<(u32, Vec<u8>)> =
        (0..4).flat_map(|shape| [nested(shape, 20, 3), nested(shape, 21, 2), vec![1; 1 << 20]].map(|bits| (shape, bits))).collect();
    let thread = std::thread::Builder::new().stack_size(32 << 10).spawn(move || {
        strings.iter().map(|(shape, bits)| unsafe { vejgodat_count_leaves(*shape, bits.as_ptr(), bits.len()) }.refusal).collect::<Vec<u32>>()
    });
    assert_eq!(thread.unwrap().join().unwrap(), [0, 23, 23].repeat(4));
}

fn other_shapes(run: &mut Run) {
    for shape in [4, 5, 6, 7, 8, 255, 256, 257, 65_536, 1 << 24, 1 << 31, u32::MAX - 1, u32::MAX] {
        for bits in [&[0][..], &[1, 0, 0, 0, 0], &[], &[9], &[1; 30]] {
            assert_eq!(run.calls.count_leaves(shape, bits), refused(24));
        }
    }
}

fn most_leaves(run: &mut Run) {
    for shape in 0..4 {
        let children = children(shape).unwrap();
        let most = full(shape, if children == 4 { 12 } else { 8 });
        let got = run.calls.count_leaves(shape, &most);
        assert_eq!((got.refusal, got.leaves), (0, MAX_LEAVES));
        // one more element refined: at the string's beginning, and at its end
        let first = most.iter().position(|&bit| bit == 0).unwrap();
        for at in [first, most.len() - 1] {
            let more = [&most[..at], &[1], &vec![0; children], &most[at + 1..]].concat();
            assert_eq!(run.calls.count_leaves(shape, &more), refused(25));
            // 23 comes before 25
            assert_eq!(run.calls.count_leaves(shape, &more[..more.len() - 1]), refused(23));
            // trees before and behind it in a list
            let length = more.len() as u32;
            let bits = [&[0], &more[..], &[0]].concat();
            assert_eq!(run.calls.leaf_counts(&[shape; 3], &[1, length, 1], &bits, &[7; 4]).0.refusal, 25);
        }
        // one element fewer refined
        let less = [&most[..first - 1], &most[first + children - 1..]].concat();
        let less = [&less[..first - 1], &[0], &less[first..]].concat();
        assert_eq!(run.calls.count_leaves(shape, &less).leaves, MAX_LEAVES + 1 - children as u32);
        // each tree has its limit, and the total has none
        let (length, short) = (most.len() as u32, less.len() as u32);
        let (got, out) =
            run.calls.leaf_counts(&[shape; 3], &[length, short, length], &[&most[..], &less, &most].concat(), &[7; 4]);
        assert_eq!((got.refusal, got.count), (0, 3));
        assert_eq!(out, [MAX_LEAVES, MAX_LEAVES + 1 - children as u32, MAX_LEAVES, 7]);
    }
}

/// Trees of random shapes: shapes, lengths, strings.
fn list(random: &mut Random, trees: usize) -> (Vec<u32>, Vec<u32>, Vec<u8>) {
    let (mut shapes, mut lengths, mut all) = (Vec::new(), Vec::new(), Vec::new());
    for _ in 0..trees {
        let shape = random.number(0, 3);
        let mut bits = string(random, shape).0;
        if all.len() > 50_000 {
            bits = vec![0];
        }
        shapes.push(shape);
        lengths.push(bits.len() as u32);
        all.extend(bits);
    }
    (shapes, lengths, all)
}

fn random_lists(run: &mut Run) {
    run.cases(2_000, |random, calls| {
        let trees = random.pick(&[1, 2, 3, 10, 60]);
        let (shapes, lengths, bits) = list(random, trees);
        let before = vec![random.next() as u32; trees + random.below(4) as usize];
        let (got, out) = calls.leaf_counts(&shapes, &lengths, &bits, &before);
        assert_eq!((got.refusal, got.count), (0, trees as u32));
        // the table from leaf counts takes them
        let ranks = random.number(1, 9);
        assert_eq!(calls.table_from_leaves(ranks, &out[..trees], &[0; 80]).0.refusal, 0);
    });
}

fn damaged_lists(run: &mut Run) {
    run.cases(4_000, |random, calls| {
        let trees = random.pick(&[1, 2, 3, 10]);
        let (mut shapes, mut lengths, mut bits) = list(random, trees);
        let at = random.below(trees as u64) as usize;
        let byte = random.below(bits.len() as u64) as usize;
        match random.below(8) {
            0 => bits[byte] ^= 1,
            1 => bits[byte] = random.next() as u8,
            2 => lengths[at] = lengths[at].wrapping_add(random.pick(&[1, 2, u32::MAX, 1 << 31])),
            3 => shapes[at] = random.pick(&[0, 1, 2, 3, 4, 5, u32::MAX]),
            4 => bits.truncate(byte),
            5 => bits.push(0),
            6 => {
                // the right sum, with a border at a wrong place
                if at + 1 < trees {
                    lengths[at] += 1;
                    lengths[at + 1] -= 1;
                }
            }
            _ => lengths.truncate(at),
        }
        let before = vec![random.next() as u32; trees];
        calls.leaf_counts(&shapes, &lengths, &bits, &before);
    });
}

fn list_limits(run: &mut Run) {
    let leaf = |trees: usize| (vec![3; trees], vec![1; trees], vec![0; trees]);
    for trees in [1, 2, MAX_TREES] {
        let (shapes, lengths, bits) = leaf(trees);
        let (got, out) = run.calls.leaf_counts(&shapes, &lengths, &bits, &vec![9; trees + 1]);
        assert_eq!((got.refusal, got.count), (0, trees as u32));
        assert!(out[..trees].iter().all(|&count| count == 1) && out[trees] == 9);
        assert_eq!(run.calls.leaf_counts(&shapes, &lengths[1..], &bits, &vec![9; trees]).0.refusal, 6);
        assert_eq!(run.calls.leaf_counts(&shapes[1..], &lengths, &bits, &vec![9; trees]).0.refusal, 6);
    }
    let (shapes, lengths, bits) = leaf(MAX_TREES + 1);
    assert_eq!(run.calls.leaf_counts(&shapes, &lengths, &bits, &vec![9; MAX_TREES + 1]).0.refusal, 6);
    assert_eq!(run.calls.leaf_counts(&[], &[], &[], &[]).0.refusal, 6);
    // a tree without a string, and lengths whose sum wraps
    assert_eq!(run.calls.leaf_counts(&[0, 0], &[1, 0], &[0], &[9; 2]).0.refusal, 23);
    assert_eq!(run.calls.leaf_counts(&[0, 0, 0], &[1, u32::MAX, 1], &[0], &[9; 3]).0.refusal, 23);
}

/// Each check of all trees before the next, wherever the trees stand that fail them.
fn first_refusal(run: &mut Run) {
    let many = {
        let most = full(2, 8);
        [&most[..most.len() - 1], &[1], &[0; 8]].concat()
    };
    // of three trees one may have a bad shape, one a bad string, one too many leaves
    for places in [[0, 1, 2], [1, 2, 0], [2, 0, 1], [2, 1, 0], [0, 2, 1], [1, 0, 2]] {
        for broken in 0..8u32 {
            let (mut shapes, mut strings) = ([2; 3], [vec![0], vec![0], vec![0]]);
            if broken & 1 != 0 {
                shapes[places[0]] = 4;
            }
            if broken & 2 != 0 {
                strings[places[1]] = vec![0, 0];
            }
            if broken & 4 != 0 {
                strings[places[2]] = many.clone();
            }
            let lengths: Vec<u32> = strings.iter().map(|string| string.len() as u32).collect();
            let bits = strings.concat();
            for (room, short) in [(3, 0), (2, 22)] {
                let failing = [(broken & 1) * 24, (broken & 2) / 2 * 23, (broken & 4) / 4 * 25, short];
                let expected = failing.iter().copied().find(|&number| number > 0).unwrap_or(0);
                let before = vec![1; room];
                assert_eq!(run.calls.leaf_counts(&shapes, &lengths, &bits, &before).0.refusal, expected);
                if broken & 4 == 0 {
                    assert_eq!(run.calls.leaf_counts(&shapes, &lengths[..2], &bits, &before).0.refusal, 6);
                }
            }
        }
    }
}

fn each_buffer(run: &mut Run) {
    run.cases(50, |random, calls| {
        let (shapes, lengths, bits) = list(random, 12);
        for room in 0..=14 {
            let before: Vec<u32> = (0..room).map(|_| random.next() as u32).collect();
            let (got, _) = calls.leaf_counts(&shapes, &lengths, &bits, &before);
            assert_eq!(got.refusal, if room < 12 { 22 } else { 0 });
        }
    });
}

fn null_pointers(run: &mut Run) {
    run.calls.count_leaves(0, &[0]);
    let null = ptr::null::<u8>();
    unsafe {
        assert_eq!(vejgodat_count_leaves(1, null, 0), refused(23));
        assert_eq!(vejgodat_count_leaves(9, null, 0), refused(24));
        let got = vejgodat_leaf_counts(null.cast(), 0, null.cast(), 0, null, 0, ptr::null_mut(), 0);
        assert_eq!(got, Count { refusal: 6, count: 0 });
        let got = vejgodat_leaf_counts(&1, 1, &1, 1, &0, 1, ptr::null_mut(), 0);
        assert_eq!(got, Count { refusal: 22, count: 0 });
    }
}

fn seen_refusals(run: &mut Run) {
    expect_seen(run, &[("count_leaves", &[23, 24, 25]), ("leaf_counts", &[6, 22, 23, 24, 25])]);
}
