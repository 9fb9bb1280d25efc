//! The table from leaf counts with the sums of their blocks.
use crate::calls::{bytes_written, length, show, written, Calls};
use crate::library::Length;
use crate::memory::Place;
use crate::model::{self, bytes_of, Answer, MAX_LEAVES, MAX_TREES};
use crate::random::Random;
use crate::refusals::expect_seen;
use crate::{Run, Test};

pub const TESTS: &[Test] = &[
    ("blocks: each number of trees around whole blocks", around),
    ("blocks: random", random_blocks),
    ("blocks: one wrong sum", one_wrong),
    ("blocks: a wrong number of sums", wrong_number),
    ("blocks: a million trees", million_trees),
    ("blocks: which check comes first", order),
    ("seen: refusals for blocks", seen),
];

extern "C" {
    fn vejgodat_table_from_blocks(
        ranks: u32,
        leaves: *const u32,
        leaves_len: usize,
        sums: *const u64,
        sums_len: usize,
        out: *mut u8,
        out_len: usize,
    ) -> Length;
}

/// The sum of each block, tree by tree.
fn sums_of(leaves: &[u32]) -> Vec<u64> {
    let mut sums = vec![0; leaves.len().div_ceil(256)];
    for (tree, &count) in leaves.iter().enumerate() {
        sums[tree >> 8] += u64::from(count);
    }
    sums
}

/// Pairs, pairs of pairs and so on; a lone sum goes up unchanged.
fn total_by_pairs(sums: &[u64]) -> u64 {
    let mut level = sums.to_vec();
    while level.len() > 1 {
        level = level.chunks(2).map(|pair| pair.iter().sum()).collect();
    }
    level[0]
}

/// The second implementation: the bytes written to a buffer of `room` bytes.
fn table_from_blocks(ranks: u32, leaves: &[u32], sums: &[u64], room: usize) -> Answer<Vec<u8>> {
    model::table_length(ranks)?;
    let within = !leaves.is_empty() && leaves.len() <= MAX_TREES;
    if !within || leaves.iter().any(|&count| count < 1 || count > MAX_LEAVES) || sums_of(leaves) != sums {
        return Err(6);
    }
    let total: u64 = leaves.iter().map(|&count| u64::from(count)).sum();
    assert_eq!(total_by_pairs(sums), total);
    model::table_from_leaves(ranks, leaves, room)
}

impl Calls {
    pub fn table_from_blocks(&mut self, ranks: u32, leaves: &[u32], sums: &[u64], before: &[u8]) -> (Length, Vec<u8>) {
        let answer = table_from_blocks(ranks, leaves, sums, before.len());
        let (a, b, c) = (self.place(), self.place(), self.place());
        let leaves_at = self.list.put_numbers(leaves, a);
        let sum_bytes: Vec<u8> = sums.iter().flat_map(|sum| sum.to_ne_bytes()).collect();
        let b = if let Place::Before(gap) = b { Place::Before(gap / 8 * 8) } else { b };
        let sums_at = self.object.put(&sum_bytes, b).cast::<u64>();
        let out_at = self.out.put(before, c);
        let got = unsafe {
            vejgodat_table_from_blocks(ranks, leaves_at, leaves.len(), sums_at, sums.len(), out_at, before.len())
        };
        let said = || {
            let some = (&leaves[..leaves.len().min(40)], &sums[..sums.len().min(10)]);
            format!("table_from_blocks {ranks} {} {} {some:?}, room {}", leaves.len(), sums.len(), before.len())
        };
        assert_eq!(got, length(bytes_written(&answer)), "{}", said());
        let after = written(before, &answer);
        assert!(self.out.bytes() == after, "{}: wrote {}, not {}", said(), show(self.out.bytes()), show(&after));
        assert!(self.list.numbers() == leaves && self.object.bytes() == sum_bytes, "{}: input changed", said());
        self.note("table_from_blocks", got.refusal);
        (got, after)
    }
}

/// With the right sums the table is that of the call without sums.
fn same(calls: &mut Calls, ranks: u32, leaves: &[u32]) {
    let before = vec![9; 8 * (ranks as usize + 1)];
    let (got, out) = calls.table_from_blocks(ranks, leaves, &sums_of(leaves), &before);
    let (plain, plain_out) = calls.table_from_leaves(ranks, leaves, &before);
    assert_eq!(got.refusal, 0);
    assert_eq!((got, out), (plain, plain_out));
}

fn counts(random: &mut Random, trees: usize) -> Vec<u32> {
    let high = random.pick(&[1, 2, 1_000, MAX_LEAVES]);
    (0..trees).map(|_| random.number(1, high)).collect()
}

fn around(run: &mut Run) {
    same(&mut run.calls, 3, &[1; 8]);
    let (_, out) = run.calls.table_from_blocks(3, &[1; 8], &[8], &[0; 32]);
    assert_eq!(out, bytes_of(&[0, 3, 6, 8]));
    run.cases(4, |random, calls| {
        for blocks in [0, 1, 2, 3, 4, 5, 7, 8, 9, 16, 17, 31] {
            for trees in [blocks * 256, blocks * 256 + 1, blocks * 256 + 2, blocks * 256 + 255] {
                if trees > 0 {
                    let leaves = counts(random, trees);
                    same(calls, random.pick(&[1, 2, 3, 64, 1_024]), &leaves);
                }
            }
        }
    });
}

fn random_blocks(run: &mut Run) {
    run.cases(1_500, |random, calls| {
        let most = random.pick(&[3, 300, 3_000]);
        let trees = random.number(1, most) as usize;
        let mut leaves = counts(random, trees);
        let mut sums = sums_of(&leaves);
        let at = random.below(sums.len() as u64) as usize;
        match random.below(8) {
            0 => sums[at] = sums[at].wrapping_add(random.pick(&[1, u64::MAX, 1 << 32, 1 << 63])),
            1 => sums[at] = random.next(),
            2 => sums.push(random.pick(&[0, 1])),
            3 => drop(sums.pop()),
            4 => {
                // the leaves change and the sums don't
                let tree = random.below(trees as u64) as usize;
                leaves[tree] = random.pick(&[0, 1, 2, MAX_LEAVES, MAX_LEAVES + 1]);
            }
            _ => {}
        }
        let ranks = random.pick(&[0, 1, 2, 3, 100, 1_024, u32::MAX]);
        let room = random.pick(&[8 * 1_025, 8 * 1_025, 8 * 1_025, 32, 31, 0]);
        calls.table_from_blocks(ranks, &leaves, &sums, &vec![1; room]);
    });
}

fn one_wrong(run: &mut Run) {
    let leaves: Vec<u32> = (0..513).map(|k| 1 + k % 7).collect();
    let right = sums_of(&leaves);
    for at in 0..3 {
        for change in [1, u64::MAX, 1 << 32] {
            let mut sums = right.clone();
            sums[at] = sums[at].wrapping_add(change);
            assert_eq!(run.calls.table_from_blocks(3, &leaves, &sums, &[0; 32]).0.refusal, 6, "{at} {change}");
        }
    }
    // two wrong ones with the right total
    let swapped = [right[0] - 1, right[1] + 1, right[2]];
    assert_eq!(run.calls.table_from_blocks(3, &leaves, &swapped, &[0; 32]).0.refusal, 6);
}

fn wrong_number(run: &mut Run) {
    for trees in [1, 255, 256, 257, 511, 512, 513] {
        let leaves = vec![1; trees];
        let right = sums_of(&leaves);
        assert_eq!(right.len(), (trees + 255) / 256);
        assert_eq!(run.calls.table_from_blocks(2, &leaves, &right, &[0; 24]).0.refusal, 0);
        assert_eq!(run.calls.table_from_blocks(2, &leaves, &right[1..], &[0; 24]).0.refusal, 6);
        let more = [&right[..], &[0]].concat();
        assert_eq!(run.calls.table_from_blocks(2, &leaves, &more, &[0; 24]).0.refusal, 6);
        assert_eq!(run.calls.table_from_blocks(2, &leaves, &[], &[0; 24]).0.refusal, 6);
    }
    assert_eq!(run.calls.table_from_blocks(2, &[], &[], &[0; 24]).0.refusal, 6);
}

fn million_trees(run: &mut Run) {
    for count in [1, MAX_LEAVES] {
        // a full block of largest counts is 2^32
        same(&mut run.calls, 1_024, &vec![count; MAX_TREES]);
    }
    same(&mut run.calls, 1_000, &(0..MAX_TREES as u32 - 1).map(|k| 1 + k % 1_000).collect::<Vec<u32>>());
    let leaves = vec![MAX_LEAVES; MAX_TREES];
    let mut sums = sums_of(&leaves);
    assert_eq!((sums.len(), sums[0]), (4_096, 1 << 32));
    for at in [0, 2_048, 4_095] {
        sums[at] += 1 << 32;
        assert_eq!(run.calls.table_from_blocks(3, &leaves, &sums, &[0; 32]).0.refusal, 6);
        sums[at] -= 1 << 32;
    }
    let leaves = vec![1; MAX_TREES + 1];
    let sums = sums_of(&leaves);
    assert_eq!(run.calls.table_from_blocks(3, &leaves, &sums, &[0; 32]).0.refusal, 6);
}

fn order(run: &mut Run) {
    for (ranks, bad_ranks) in [(3, 0), (0, 2), (u32::MAX, 2)] {
        for (leaves, sums, bad_leaves) in [
            (vec![4, 4], vec![8], 0),
            (vec![4, 4], vec![9], 6),
            (vec![4, 4], vec![8, 0], 6),
            (vec![4, 0], vec![4], 6),
            (vec![], vec![], 6),
        ] {
            for (room, bad_room) in [(32, 0), (31, 22), (0, 22)] {
                let (got, _) = run.calls.table_from_blocks(ranks, &leaves, &sums, &vec![5; room]);
                let first = [bad_ranks, bad_leaves, bad_room].into_iter().find(|&bad| bad > 0).unwrap_or(0);
                assert_eq!(got.refusal, first, "{ranks} {leaves:?} {sums:?} {room}");
            }
        }
    }
}

fn seen(run: &mut Run) {
    expect_seen(run, &[("table_from_blocks", &[2, 6, 22])]);
}
