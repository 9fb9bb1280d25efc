//! Tables, partitions and leaf counts to try, and ways to spoil them.
use crate::model::{self, Trees, MAX_TREES};
use crate::random::Random;

/// A valid partition. Every one can come out: a rank's end is not below the last one's, and what lies between is its own,
/// with or without the last tree of the ranks below.
pub fn partition(random: &mut Random, ranks: usize, trees: u32) -> Vec<Trees> {
    let trees = i128::from(trees);
    let any_tree = |random: &mut Random| i128::from(random.below(trees as u64 + 1));
    let mut ends: Vec<i128> = match random.below(4) {
        // anywhere
        0 => (0..ranks).map(|_| any_tree(random)).collect(),
        // at few places: many ranks empty, or on one tree
        1 => {
            let places: Vec<i128> = (0..1 + random.below(4)).map(|_| any_tree(random)).collect();
            (0..ranks).map(|_| random.pick(&places)).collect()
        }
        // even
        2 => (1..=ranks as i128).map(|p| trees * p / ranks as i128).collect(),
        // near the beginning or the end
        _ => (0..ranks).map(|_| if random.chance(128) { trees.min(2) } else { (trees - 1).max(0) }).collect(),
    };
    ends.sort_unstable();
    // all trees are covered from some rank on
    let covering = if random.chance(64) { random.below(ranks as u64) as usize } else { ranks - 1 };
    ends[covering..].fill(trees);
    let sharing = random.pick(&[0, 64, 128, 230, 256]);
    let mut last_end = 0;
    ends.iter()
        .map(|&end| {
            let shared = last_end > 0 && random.chance(sharing);
            let first = if shared { last_end - 1 } else { last_end };
            last_end = end;
            Trees { first, end }
        })
        .collect()
}

pub fn table(random: &mut Random, ranks: usize, trees: u32) -> Vec<i64> {
    model::table_of(&partition(random, ranks, trees)).expect("a valid partition")
}

/// First trees and counts for a call; an empty rank's first tree is any number.
pub fn lists(random: &mut Random, partition: &[Trees]) -> (Vec<u32>, Vec<u32>) {
    let firsts = partition.iter().map(|range| if range.is_empty() { number(random) } else { range.first as u32 });
    let firsts = firsts.collect();
    (firsts, partition.iter().map(|range| range.count() as u32).collect())
}

/// Any 32-bit number, often one at a limit.
pub fn number(random: &mut Random) -> u32 {
    let limits = [0, 1, 2, 1_024, 16_384, 1_048_576, 16_777_216, 1 << 31, u32::MAX];
    match random.below(3) {
        0 => random.next() as u32,
        1 => random.pick(&limits).wrapping_add(random.number(0, 4)).wrapping_sub(2),
        _ => random.number(0, 20),
    }
}

/// Any 64-bit entry, often one near 0, K or the end of its kind.
pub fn entry(random: &mut Random, trees: i64) -> i64 {
    match random.below(8) {
        0 => random.next() as i64,
        1 => random.pick(&[i64::MIN, i64::MIN + 1, i64::MAX, i64::MAX - 1, 1 << 32, -(1 << 32), 1 << 31, -(1 << 31)]),
        2 => random.pick(&[-1, 1]) * (MAX_TREES as i64 + random.between(-1, 1)),
        3 => random.pick(&[-1, 1]) * (trees + random.between(-1, 1)),
        4 => random.between(-1, 1),
        _ => random.between(-trees - 1, trees + 1),
    }
}

/// A table with one or two entries changed; it may still be valid.
pub fn spoilt_table(random: &mut Random, mut table: Vec<i64>) -> Vec<i64> {
    let trees = table[table.len() - 1];
    for _ in 0..1 + random.below(2) {
        let at = random.below(table.len() as u64) as usize;
        table[at] = match random.below(4) {
            0 => table[at].wrapping_neg(),
            1 => table[at].wrapping_add(random.pick(&[-2, -1, 1, 2])),
            2 => -1 - table[at],
            _ => entry(random, trees),
        };
    }
    table
}

/// A rank count up to 1,024, mostly small: the second implementation takes P² steps. Larger ones are in the group `ranks`.
pub fn ranks(random: &mut Random) -> usize {
    match random.below(16) {
        0 => 1_024,
        1 => random.number(1, 1_024) as usize,
        2 | 3 => random.number(1, 100) as usize,
        _ => random.number(1, 9) as usize,
    }
}

/// A tree count of any size up to the limit, mostly small.
pub fn trees(random: &mut Random) -> u32 {
    match random.below(32) {
        0 => MAX_TREES as u32,
        1 => random.number(1, MAX_TREES as u32),
        2 | 3 => random.number(1, 3_000),
        _ => random.number(1, 12),
    }
}

/// Every list of `length` numbers from `low` to `high`.
pub fn every_list(length: usize, low: i64, high: i64, mut visit: impl FnMut(&[i64])) {
    let mut list = vec![low; length];
    loop {
        visit(&list);
        let at = match list.iter().position(|&value| value < high) {
            Some(at) => at,
            None => return,
        };
        list[at] += 1;
        list[..at].fill(low);
    }
}

/// Every valid table of P ranks and K trees, by trying all entries from -K to K.
pub fn every_table(ranks: usize, trees: i64) -> Vec<Vec<i64>> {
    let mut tables = Vec::new();
    every_list(ranks + 1, -trees, trees, |table| {
        if table[ranks] == trees && model::is_valid(table) {
            tables.push(table.to_vec());
        }
    });
    tables
}
