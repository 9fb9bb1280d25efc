//! Trees near a probe. The second implementation compares floats by their bits alone. Needs the group `part`.
use crate::calls::{written, Calls};
use crate::cases;
use crate::mesh_cases::{self as meshes, place, put};
use crate::mesh_model::number_at;
use crate::model::{bytes_of, Answer};
use crate::part::words;
use crate::part_model::{self, HEADER, TREE};
use crate::random::Random;
use crate::refinement::Count;
use crate::refusals::{expect_seen, kinds};
use crate::second::Case;
use crate::{Run, Test};

pub const TESTS: &[Test] = &[
    ("probes: every two of the odd values as a box, with every probe of them", odd_values),
    ("probes: random parts, boxes and probes", random_parts),
    ("probes: any tree data and any bits", any_bits),
    ("probes: a point is where its three slabs are", slabs),
    ("probes: a bad box that isn't met, a bad probe with a bad box, a list one short", by_hand),
    ("probes: a rank without trees", no_trees),
    ("probes: first refusal", refusals),
    ("probes: each byte of the part changed", each_byte),
    ("probes: many trees", many_trees),
    ("seen: each refusal from the three calls with a probe", seen_refusals),
];

extern "C" {
    fn vejgodat_trees_at_point(
        part: *const u8,
        part_len: usize,
        table: *const u8,
        table_len: usize,
        rank: u32,
        x: f32,
        y: f32,
        z: f32,
        out: *mut u32,
        out_len: usize,
    ) -> Count;
    fn vejgodat_trees_below(
        part: *const u8,
        part_len: usize,
        table: *const u8,
        table_len: usize,
        rank: u32,
        axis: u32,
        limit: f32,
        out: *mut u32,
        out_len: usize,
    ) -> Count;
    fn vejgodat_trees_between(
        part: *const u8,
        part_len: usize,
        table: *const u8,
        table_len: usize,
        rank: u32,
        axis: u32,
        lower: f32,
        upper: f32,
        out: *mut u32,
        out_len: usize,
    ) -> Count;
}

/// A probe, each float as its bits.
#[derive(Clone, Copy, Debug)]
enum Probe {
    Point([u32; 3]),
    HalfSpace(u32, u32),
    Slab(u32, u32, u32),
}

use Probe::{HalfSpace, Point, Slab};

const ZERO: u32 = 0;
const MINUS_ZERO: u32 = 0x8000_0000;
const ONE: u32 = 0x3f80_0000;
const MINUS_ONE: u32 = 0xbf80_0000;
const INFINITY: u32 = 0x7f80_0000;
const MINUS_INFINITY: u32 = 0xff80_0000;

/// Both zeros, the smallest and largest denormals, the smallest normal numbers, ones, the largest numbers, infinities.
const NUMBERS: [u32; 14] = [
    ZERO,
    MINUS_ZERO,
    0x0000_0001,
    0x8000_0001,
    0x007f_ffff,
    0x807f_ffff,
    0x0080_0000,
    0x8080_0000,
    ONE,
    MINUS_ONE,
    0x7f7f_ffff,
    0xff7f_ffff,
    INFINITY,
    MINUS_INFINITY,
];

/// Quiet and signalling, of either sign, with the least and the most digits.
const NANS: [u32; 6] = [0x7fc0_0000, 0x7f80_0001, 0x7fff_ffff, 0xffc0_0000, 0xff80_0001, 0xffff_ffff];

fn values() -> Vec<u32> {
    NUMBERS.into_iter().chain(NANS).collect()
}

/// Where a float stands among all numbers, by its sign and its other bits; none for a NaN.
fn standing(bits: u32) -> Option<i64> {
    let (field, digits) = (bits >> 23 & 255, bits & 0x007f_ffff);
    let size = i64::from(bits & 0x7fff_ffff);
    match (field, digits) {
        (255, 1..) => None,
        _ if bits >> 31 == 1 => Some(-size),
        _ => Some(size),
    }
}

/// From the lower to the higher, both included.
type Span = [i64; 2];

/// What a probe asks of each axis; 31 where it asks nothing sensible.
fn asked(probe: Probe) -> Answer<[Span; 3]> {
    let all = [i64::MIN, i64::MAX];
    let number = |bits| standing(bits).ok_or(31_u32);
    let on = |axis: u32, slab: Span| {
        let mut slabs = [all; 3];
        *slabs.get_mut(axis as usize).ok_or(31_u32)? = slab;
        Ok(slabs)
    };
    match probe {
        Point(at) => {
            let mut slabs = [all; 3];
            for (slab, bits) in slabs.iter_mut().zip(at) {
                *slab = [number(bits)?; 2];
            }
            Ok(slabs)
        }
        HalfSpace(axis, limit) => on(axis, [i64::MIN, number(limit)?]),
        Slab(axis, lower, upper) => {
            let slab = [number(lower)?, number(upper)?];
            if slab[0] > slab[1] {
                return Err(31);
            }
            on(axis, slab)
        }
    }
}

/// The box of each tree, low and high on each axis; 32 where one is none.
fn boxes(part: &[u8]) -> Answer<Vec<[Span; 3]>> {
    let trees = part[HEADER..].chunks(TREE).take(number_at(part, 20) as usize);
    trees
        .map(|record| {
            let mut corners = [[0; 2]; 3];
            for (at, bytes) in record[40..].chunks(4).enumerate() {
                let bits = u32::from_le_bytes(bytes.try_into().unwrap());
                corners[at % 3][at / 3] = standing(bits).ok_or(32_u32)?;
            }
            if corners.iter().any(|[low, high]| low > high) {
                return Err(32);
            }
            Ok(corners)
        })
        .collect()
}

/// The second implementation: a probe is a slab on each axis, and a box is met where it meets all of them.
fn near(part: &[u8], table: &[u8], rank: u32, probe: Probe, room: usize) -> Answer<Vec<u32>> {
    match part_model::check_part(part, table, rank) {
        0 => {}
        refusal => return Err(refusal),
    }
    let slabs = asked(probe)?;
    let meets = |corners: &[Span; 3]| {
        corners.iter().zip(slabs).all(|(&[low, high], [lower, upper])| low <= upper && lower <= high)
    };
    let met: Vec<u32> = (0..).zip(&boxes(part)?).filter(|(_, corners)| meets(corners)).map(|(tree, _)| tree).collect();
    if room < met.len() {
        return Err(22);
    }
    Ok(met)
}

impl Calls {
    fn trees_near(&mut self, part: &[u8], table: &[u8], rank: u32, probe: Probe, before: &[u32]) -> (Count, Vec<u32>) {
        let answer = near(part, table, rank, probe, before.len());
        let (a, b, c) = (self.place(), self.place(), self.place());
        let (part_at, table_at) = (self.object.put(part, a), self.old.put(table, b));
        let out = self.out.put_numbers(before, c);
        let (part_len, table_len, out_len) = (part.len(), table.len(), before.len());
        let float = f32::from_bits;
        let (call, got) = unsafe {
            match probe {
                Point([x, y, z]) => (
                    "trees_at_point",
                    vejgodat_trees_at_point(
                        part_at,
                        part_len,
                        table_at,
                        table_len,
                        rank,
                        float(x),
                        float(y),
                        float(z),
                        out,
                        out_len,
                    ),
                ),
                HalfSpace(axis, limit) => (
                    "trees_below",
                    vejgodat_trees_below(
                        part_at,
                        part_len,
                        table_at,
                        table_len,
                        rank,
                        axis,
                        float(limit),
                        out,
                        out_len,
                    ),
                ),
                Slab(axis, lower, upper) => (
                    "trees_between",
                    vejgodat_trees_between(
                        part_at,
                        part_len,
                        table_at,
                        table_len,
                        rank,
                        axis,
                        float(lower),
                        float(upper),
                        out,
                        out_len,
                    ),
                ),
            }
        };
        let said = || format!("{probe:x?} for {rank} in {}: {}", crate::calls::show(table), words(part));
        let expected = match &answer {
            Ok(met) => Count { refusal: 0, count: met.len() as u32 },
            Err(refusal) => Count { refusal: *refusal, count: 0 },
        };
        assert_eq!(got, expected, "{}", said());
        let after = written(before, &answer);
        assert!(self.out.numbers() == after, "{}: another list", said());
        assert!(self.object.bytes() == part && self.old.bytes() == table, "{}: input changed", said());
        self.note(call, got.refusal);
        (got, after)
    }
}

/// Low and high corner into the record at a byte.
fn put_box(bytes: &mut [u8], record: usize, low: [u32; 3], high: [u32; 3]) {
    for (at, bits) in low.into_iter().chain(high).enumerate() {
        put(bytes, record + 40 + 4 * at, bits);
    }
}

/// The box from 0 to 1 on each axis.
fn put_unit(bytes: &mut [u8], record: usize) {
    put_box(bytes, record, [ZERO; 3], [ONE; 3]);
}

/// A quadrilateral alone, dimension 2, and its table.
fn alone() -> (Vec<u8>, Vec<u8>) {
    let table = bytes_of(&[0, 1]);
    let mut part = part_model::cut_part(&meshes::apart(&[0], 0), &table, 0, None).unwrap();
    put_unit(&mut part, HEADER);
    (part, table)
}

/// The part of rank 1 under the triangles' new table, which has trees 0 and 1 and ghost 2, with boxes side by side.
fn two_triangles() -> (Vec<u8>, Vec<u8>) {
    let case = Case::triangles();
    let mut part = case.new_part(1);
    put_box(&mut part, HEADER, [MINUS_ONE, ZERO, ZERO], [ZERO, ONE, ONE]);
    put_unit(&mut part, HEADER + TREE);
    (part, case.new)
}

fn odd_values(run: &mut Run) {
    let (part, table) = alone();
    let values = values();
    let mut met = 0;
    for (case, &low) in values.iter().enumerate() {
        for &high in &values {
            let axis = (case % 3) as u32;
            let mut part = part.clone();
            put(&mut part, HEADER + 40 + 4 * axis as usize, low);
            put(&mut part, HEADER + 52 + 4 * axis as usize, high);
            for &value in &values {
                let mut point = [ONE, ZERO, MINUS_ZERO];
                point[axis as usize] = value;
                for probe in [Point(point), HalfSpace(axis, value), HalfSpace((axis + 1) % 3, value)] {
                    met += run.calls.trees_near(&part, &table, 0, probe, &[7]).0.count;
                }
                for &upper in &values {
                    met += run.calls.trees_near(&part, &table, 0, Slab(axis, value, upper), &[7]).0.count;
                }
            }
        }
    }
    assert!(met > 3_000, "{met} met");
}

/// A number out of a few, so that they meet: mostly plain ones, some odd ones.
fn some_number(random: &mut Random) -> u32 {
    match random.below(8) {
        0 => random.pick(&NUMBERS),
        1 => random.pick(&[ZERO, MINUS_ZERO]),
        _ => (random.between(-6, 6) as f32).to_bits(),
    }
}

fn some_probe(random: &mut Random) -> Probe {
    match random.below(3) {
        0 => Point([(); 3].map(|()| some_number(random))),
        1 => HalfSpace(random.number(0, 2), some_number(random)),
        _ => {
            let mut limits = [some_number(random), some_number(random)];
            limits.sort_by_key(|&bits| standing(bits));
            Slab(random.number(0, 2), limits[0], limits[1])
        }
    }
}

/// A probe with something wrong, or nothing.
fn spoilt_probe(random: &mut Random) -> Probe {
    let nan = random.pick(&NANS);
    match (some_probe(random), random.below(3)) {
        (Point(mut at), _) => {
            at[random.below(3) as usize] = nan;
            Point(at)
        }
        (HalfSpace(axis, _), 0) => HalfSpace(axis, nan),
        (HalfSpace(_, limit), _) => HalfSpace(random.pick(&[3, 4, 255, 256, 1 << 31, u32::MAX]), limit),
        (Slab(axis, _, upper), 0) => Slab(axis, nan, upper),
        (Slab(axis, lower, upper), 1) => Slab(axis, upper, lower),
        (Slab(_, lower, upper), _) => Slab(random.pick(&[3, 6, u32::MAX]), lower, upper),
    }
}

/// Sound boxes in all trees of a part.
fn fill_boxes(random: &mut Random, part: &mut [u8]) {
    for tree in 0..number_at(part, 20) as usize {
        let sides = [(); 3].map(|()| {
            let mut side = [some_number(random), some_number(random)];
            side.sort_by_key(|&bits| standing(bits));
            side
        });
        put_box(part, HEADER + TREE * tree, sides.map(|side| side[0]), sides.map(|side| side[1]));
    }
}

/// A random part with its table and rank; the tree data is any.
fn random_part(random: &mut Random) -> (Vec<u8>, Vec<u8>, u32) {
    let trees = meshes::count(random);
    let mesh = meshes::sound(random, trees);
    let ranks = random.number(1, 4);
    let table = bytes_of(&cases::table(random, ranks as usize, trees as u32));
    let rank = random.below(ranks.into()) as u32;
    (part_model::cut_part(&mesh, &table, rank, None).unwrap(), table, rank)
}

fn random_parts(run: &mut Run) {
    let (mut some, mut all, mut dimensions) = (0, 0, [0; 2]);
    while run.lacks(
        some > 1_000 && all > 300 && dimensions.iter().all(|&parts| parts > 500),
        format_args!("{some} times some of the trees, {all} times all"),
    ) {
        run.cases(2_000, |random, calls| {
            let (mut part, table, rank) = random_part(random);
            fill_boxes(random, &mut part);
            let n = number_at(&part, 20) as usize;
            dimensions[number_at(&part, 0) as usize - 2] += 1;
            for _ in 0..10 {
                let probe = if random.chance(40) { spoilt_probe(random) } else { some_probe(random) };
                let mut part = part.clone();
                if n > 0 && random.chance(24) {
                    let tree = random.below(n as u64) as usize;
                    put(&mut part, HEADER + TREE * tree + 40 + 4 * random.below(6) as usize, random.pick(&values()));
                }
                let room = random.pick(&[0, 1, n / 2, n, n + 3]);
                let before: Vec<u32> = (0..room).map(|_| random.next() as u32).collect();
                let (got, _) = calls.trees_near(&part, &table, rank, probe, &before);
                if got.refusal == 22 {
                    // as many as there are, and one short
                    let met = near(&part, &table, rank, probe, n).unwrap().len();
                    assert_eq!(calls.trees_near(&part, &table, rank, probe, &vec![9; met]).0.refusal, 0);
                    assert_eq!(calls.trees_near(&part, &table, rank, probe, &vec![9; met - 1]).0.refusal, 22);
                }
                some += u32::from(got.count > 0 && (got.count as usize) < n);
                all += u32::from(got.count > 1 && got.count as usize == n);
            }
        });
    }
}

fn any_bits(run: &mut Run) {
    run.cases(3_000, |random, calls| {
        let (part, table, rank) = random_part(random);
        let mut bits = || random.next() as u32;
        for probe in [Point([bits(), bits(), bits()]), HalfSpace(bits() % 4, bits()), Slab(bits() % 4, bits(), bits())]
        {
            calls.trees_near(&part, &table, rank, probe, &[5; 60]);
        }
    });
}

fn slabs(run: &mut Run) {
    let mut met = 0;
    while run.lacks(met > 100, format_args!("{met} trees at points")) {
        run.cases(500, |random, calls| {
            let (mut part, table, rank) = random_part(random);
            fill_boxes(random, &mut part);
            let at = [(); 3].map(|()| some_number(random));
            let mut listed = |probe| {
                let (got, list) = calls.trees_near(&part, &table, rank, probe, &[0; 60]);
                assert_eq!(got.refusal, 0);
                list[..got.count as usize].to_vec()
            };
            let point = listed(Point(at));
            let slabs = [0, 1, 2].map(|axis| listed(Slab(axis as u32, at[axis], at[axis])));
            let in_all: Vec<u32> =
                slabs[0].iter().copied().filter(|tree| slabs[1].contains(tree) && slabs[2].contains(tree)).collect();
            assert_eq!(point, in_all);
            let below = listed(HalfSpace(1, at[1]));
            assert_eq!(below, listed(Slab(1, MINUS_INFINITY, at[1])));
            met += point.len();
        });
    }
}

fn by_hand(run: &mut Run) {
    let (part, table) = two_triangles();
    let mut near = |part: &[u8], probe: Probe, room: usize| {
        let (got, list) = run.calls.trees_near(part, &table, 1, probe, &vec![9; room]);
        (got.refusal, list[..got.count as usize].to_vec())
    };
    // the side where both meet belongs to both; -0 equals 0
    for zero in [ZERO, MINUS_ZERO] {
        assert_eq!(near(&part, Point([zero, zero, ONE]), 2), (0, vec![0, 1]));
        assert_eq!(near(&part, HalfSpace(0, zero), 5), (0, vec![0, 1]));
        assert_eq!(near(&part, Slab(0, zero, MINUS_ZERO), 2), (0, vec![0, 1]));
    }
    assert_eq!(near(&part, Slab(0, 1, ONE), 2), (0, vec![1]));
    assert_eq!(near(&part, HalfSpace(0, 0x8000_0001), 1), (0, vec![0]));
    assert_eq!(near(&part, HalfSpace(0, MINUS_INFINITY), 0), (0, vec![]));
    assert_eq!(near(&part, Point([MINUS_ONE, ONE, ONE]), 1), (0, vec![0]));
    // one short
    assert_eq!(near(&part, HalfSpace(1, INFINITY), 2), (0, vec![0, 1]));
    assert_eq!(near(&part, HalfSpace(1, INFINITY), 1), (22, vec![]));
    // a bad box in the tree that isn't met, and in both corners on each axis
    for corner in 0..6 {
        for (tree, probe) in [(0, Point([ONE; 3])), (1, Point([MINUS_ONE, ONE, ONE]))] {
            for nan in NANS {
                let mut part = part.clone();
                put(&mut part, HEADER + TREE * tree + 40 + 4 * corner, nan);
                assert_eq!(near(&part, probe, 0), (32, vec![]));
                // a bad probe comes first
                assert_eq!(near(&part, HalfSpace(3, ZERO), 0), (31, vec![]));
                assert_eq!(near(&part, Point([ZERO, ZERO, nan]), 0), (31, vec![]));
                assert_eq!(near(&part, Slab(0, ONE, ZERO), 0), (31, vec![]));
            }
        }
    }
    // low above high by the least there is, then equal
    let mut part = part;
    put_box(&mut part, HEADER + TREE, [ONE, ONE, ONE + 1], [ONE; 3]);
    assert_eq!(near(&part, HalfSpace(0, MINUS_ONE), 2), (32, vec![]));
    put_box(&mut part, HEADER + TREE, [ONE, ONE, ONE], [ONE; 3]);
    assert_eq!(near(&part, HalfSpace(0, MINUS_ONE), 2), (0, vec![0]));
    assert_eq!(near(&part, Point([ONE; 3]), 2), (0, vec![1]));
}

fn no_trees(run: &mut Run) {
    let table = bytes_of(&[0, 3, 3, 3]);
    let part = part_model::cut_part(&Case::triangles().mesh, &table, 1, None).unwrap();
    assert_eq!(number_at(&part, 20), 0);
    for (probe, refusal) in [
        (Point([ZERO; 3]), 0),
        (HalfSpace(2, INFINITY), 0),
        (Slab(0, ONE, ONE), 0),
        (HalfSpace(3, ZERO), 31),
        (Slab(u32::MAX, ZERO, ZERO), 31),
        (Point([ZERO, NANS[0], ZERO]), 31),
    ] {
        for room in [0, 2] {
            let (got, _) = run.calls.trees_near(&part, &table, 1, probe, &vec![4; room]);
            assert_eq!(got, Count { refusal, count: 0 });
        }
    }
}

fn refusals(run: &mut Run) {
    let (part, table) = two_triangles();
    let mut bad_part = part.clone();
    bad_part[HEADER + 39] = 16;
    let mut bad_box = part.clone();
    put(&mut bad_box, HEADER + 40, NANS[1]);
    let mut both = bad_part.clone();
    put(&mut both, HEADER + 40, NANS[1]);
    let probes = [
        (Point([ZERO; 3]), false),
        (Point([ZERO, ZERO, NANS[3]]), true),
        (HalfSpace(2, ONE), false),
        (HalfSpace(3, ONE), true),
        (Slab(1, ZERO, ONE), false),
        (Slab(1, ONE, ZERO), true),
    ];
    for (table_given, fails) in kinds().into_iter().chain([(table.clone(), 0)]) {
        for rank in [1, 2, 1_024, u32::MAX] {
            let bad_rank = rank as usize >= table_given.len() / 8 - usize::from(table_given.len() >= 8);
            for (given, spoilt_part, spoilt_box) in
                [(&part, false, false), (&bad_part, true, false), (&bad_box, false, true), (&both, true, true)]
            {
                let unsound = spoilt_part || table_given != table || rank != 1;
                for (probe, bad_probe) in probes {
                    for room in [0, 1, 2] {
                        let (got, _) = run.calls.trees_near(given, &table_given, rank, probe, &vec![3; room]);
                        let failing = [
                            (fails > 0, fails),
                            (bad_rank, 5),
                            (unsound, 8),
                            (bad_probe, 31),
                            (spoilt_box, 32),
                            (room < 2, 22),
                        ];
                        let first = failing.iter().find(|(fails, _)| *fails).map_or(0, |(_, number)| *number);
                        assert_eq!(got.refusal, first);
                    }
                }
            }
        }
    }
}

fn each_byte(run: &mut Run) {
    let (part, table) = two_triangles();
    let mut accepted = 0;
    for at in 0..part.len() {
        for change in [1, 16, 128, 255] {
            let mut part = part.clone();
            part[at] ^= change;
            for probe in [Point([ZERO; 3]), HalfSpace(0, ZERO), Slab(2, ONE, ONE)] {
                let (got, _) = run.calls.trees_near(&part, &table, 1, probe, &[8, 8, 8]);
                accepted += u32::from(got.refusal == 0);
            }
        }
    }
    assert!(accepted > 200, "{accepted} accepted");
}

fn many_trees(run: &mut Run) {
    let trees = 200_000;
    let table = bytes_of(&[0, 0, trees as i64]);
    let mut mesh = meshes::apart(&vec![3; trees], 0);
    for tree in 0..trees {
        let at = (tree as f32).to_bits();
        put_box(&mut mesh, place(tree), [at, ZERO, MINUS_ONE], [((tree + 1) as f32).to_bits(), ONE, ZERO]);
    }
    let part = part_model::cut_part(&mesh, &table, 1, None).unwrap();
    let before = vec![u32::MAX; trees];
    for probe in [
        Point([(1_234.0_f32).to_bits(), ONE, ZERO]),
        HalfSpace(0, (99_999.5_f32).to_bits()),
        HalfSpace(0, INFINITY),
        Slab(0, (199_998.0_f32).to_bits(), INFINITY),
        Slab(1, 0x3f80_0001, INFINITY),
    ] {
        run.calls.trees_near(&part, &table, 1, probe, &before);
        run.calls.trees_near(&part, &table, 1, probe, &before[1..]);
    }
}

fn seen_refusals(run: &mut Run) {
    for call in ["trees_at_point", "trees_below", "trees_between"] {
        expect_seen(run, &[(call, &[2, 3, 5, 8, 22, 31, 32])]);
    }
}
