//! The table from leaf counts.
use crate::cases;
use crate::library::Length;
use crate::model::{bytes_of, MAX_LEAVES, MAX_RANKS, MAX_TREES};
use crate::random::Random;
use crate::{Run, Test};

pub const TESTS: &[Test] = &[
    ("leaves: the document's two", documents),
    ("leaves: document 000's equation (4)", equation_four),
    ("leaves: every small list", every_small),
    ("leaves: random small totals", small_totals),
    ("leaves: random large totals", large_totals),
    ("leaves: a million trees", million_trees),
    ("leaves: counts outside the limits", outside),
    ("leaves: lists of no and of too many counts", list_lengths),
    ("leaves: ranks at the limits", rank_limits),
    ("leaves: buffers of each length", each_buffer),
];

fn refused(refusal: u32) -> Length {
    Length { refusal, length: 0 }
}

fn documents(run: &mut Run) {
    for (leaves, table) in [([4, 4], [0, -1, -2, 2]), ([1, 1], [0, 1, 2, 2])] {
        let (got, out) = run.calls.table_from_leaves(3, &leaves, &[9; 33]);
        assert_eq!(got, Length { refusal: 0, length: 32 });
        assert_eq!(out[..32], bytes_of(&table), "{leaves:?}");
        assert_eq!(out[32], 9);
    }
}

/// Ranks get 3, 3 and 2 leaves of 8. With one leaf in each tree these are trees; two trees of 4 leaves give the tables
/// of the equation.
fn equation_four(run: &mut Run) {
    let (_, out) = run.calls.table_from_leaves(3, &[1; 8], &[9; 32]);
    assert_eq!(out, bytes_of(&[0, 3, 6, 8]));
    let (_, out) = run.calls.table_from_leaves(3, &[4, 4], &[9; 32]);
    assert_eq!(out, bytes_of(&[0, -1, -2, 2]));
    // more ranks than leaves: the formula, and not the title of the request
    let (_, out) = run.calls.table_from_leaves(4, &[1, 1], &[9; 40]);
    assert_eq!(out, bytes_of(&[0, 1, 1, 2, 2]));
}

fn every_small(run: &mut Run) {
    for (trees, high) in [(1, 12), (2, 7), (3, 4), (4, 3), (6, 2)] {
        cases::every_list(trees, 0, high, |list| {
            let leaves: Vec<u32> = list.iter().map(|&count| count as u32).collect();
            for ranks in 1..=9 {
                let (got, out) = run.calls.table_from_leaves(ranks, &leaves, &[5; 90]);
                if got.refusal == 0 {
                    assert_eq!(run.calls.check_table(&out[..got.length as usize]), 0);
                }
            }
        });
    }
}

fn counts(random: &mut Random, trees: usize, high: u32) -> Vec<u32> {
    let rare = random.pick(&[0, 16, 128]);
    (0..trees)
        .map(|_| if random.chance(rare) { random.number(1, high) } else { random.number(1, high.min(3)) })
        .collect()
}

fn small_totals(run: &mut Run) {
    run.cases(4_000, |random, calls| {
        let trees = random.number(1, 40) as usize;
        let high = random.pick(&[1, 2, 10, 400]);
        let leaves = counts(random, trees, high);
        let ranks = cases::ranks(random) as u32;
        let room = 8 * (ranks as usize + 1) + random.below(20) as usize;
        let before = random.bytes(room);
        let (got, _) = calls.table_from_leaves(ranks, &leaves, &before);
        assert_eq!(got.refusal, 0);
    });
}

fn large_totals(run: &mut Run) {
    run.cases(1_500, |random, calls| {
        let trees = random.pick(&[1, 2, 3, 10, 1_000, 5_000]);
        let leaves: Vec<u32> = match random.below(3) {
            0 => (0..trees).map(|_| random.number(1, MAX_LEAVES)).collect(),
            1 => (0..trees).map(|_| MAX_LEAVES - random.number(0, 1)).collect(),
            _ => counts(random, trees, MAX_LEAVES),
        };
        let ranks = cases::ranks(random) as u32;
        let before = random.bytes(8 * (ranks as usize + 1));
        let (got, _) = calls.table_from_leaves(ranks, &leaves, &before);
        assert_eq!(got.refusal, 0);
    });
}

fn million_trees(run: &mut Run) {
    let before = vec![0x11; 8 * (MAX_RANKS + 1) + 5];
    let mut accepted = |leaves: &[u32], ranks: u32| {
        let (got, out) = run.calls.table_from_leaves(ranks, leaves, &before);
        assert_eq!(got, Length { refusal: 0, length: 8 * (u64::from(ranks) + 1) });
        out[..got.length as usize].to_vec()
    };
    let even = |ranks: i64| -> Vec<i64> { (0..=ranks).map(|p| p * MAX_TREES as i64 / ranks).collect() };
    // equal counts: both at the upper and the lower limit, ranks that divide K and ranks that don't
    for count in [1, MAX_LEAVES] {
        let leaves = vec![count; MAX_TREES];
        assert_eq!(accepted(&leaves, 1_024), bytes_of(&even(1_024)));
        assert_eq!(accepted(&leaves, 16_384), bytes_of(&even(16_384)));
        assert_eq!(accepted(&leaves, 1), bytes_of(&[0, MAX_TREES as i64]));
        accepted(&leaves, 1_023);
    }
    // nearly all leaves in the first, the last or a middle tree; then any
    for at in [0, MAX_TREES / 2, MAX_TREES - 1] {
        let mut leaves = vec![1; MAX_TREES];
        leaves[at] = MAX_LEAVES;
        accepted(&leaves, 1_024);
    }
    run.cases(3, |random, calls| {
        let leaves: Vec<u32> = (0..MAX_TREES).map(|_| random.number(1, MAX_LEAVES)).collect();
        let (got, _) = calls.table_from_leaves(random.pick(&[7, 1_000, 1_024]), &leaves, &before);
        assert_eq!(got.refusal, 0);
    });
}

fn outside(run: &mut Run) {
    let bad = [0, MAX_LEAVES + 1, MAX_LEAVES + 2, 1 << 25, 1 << 31, u32::MAX];
    // at each place of a short list
    for length in 1..=9 {
        for at in 0..length {
            for count in bad {
                let mut leaves = vec![MAX_LEAVES; length];
                assert_eq!(run.calls.table_from_leaves(3, &leaves, &[2; 40]).0.refusal, 0);
                leaves[at] = count;
                assert_eq!(run.calls.table_from_leaves(3, &leaves, &[2; 40]).0, refused(6), "{count} at {at}");
            }
        }
    }
    // at the ends of the longest list
    for at in [0, MAX_TREES - 1] {
        for count in [0, MAX_LEAVES + 1] {
            let mut leaves = vec![MAX_LEAVES; MAX_TREES];
            leaves[at] = count;
            assert_eq!(run.calls.table_from_leaves(1_024, &leaves, &[2; 8_200]).0, refused(6), "{count} at {at}");
        }
    }
    run.cases(20_000, |random, calls| {
        let trees = random.number(0, 6);
        let leaves: Vec<u32> = (0..trees).map(|_| cases::number(random)).collect();
        let ranks = if random.chance(200) { random.number(1, 9) } else { cases::number(random) };
        let room = random.below(90) as usize;
        let before = random.bytes(room);
        calls.table_from_leaves(ranks, &leaves, &before);
    });
}

fn list_lengths(run: &mut Run) {
    let room = [4; 32];
    assert_eq!(run.calls.table_from_leaves(3, &[], &room).0, refused(6));
    assert_eq!(run.calls.table_from_leaves(3, &[1], &room).0.refusal, 0);
    assert_eq!(run.calls.table_from_leaves(3, &vec![1; MAX_TREES], &room).0.refusal, 0);
    assert_eq!(run.calls.table_from_leaves(3, &vec![1; MAX_TREES + 1], &room).0, refused(6));
    assert_eq!(run.calls.table_from_leaves(3, &vec![1; MAX_TREES + 1_000], &room).0, refused(6));
}

fn rank_limits(run: &mut Run) {
    let room = [6; 8 * (MAX_RANKS + 6)];
    for ranks in [1, 2, 1_023, 1_024, 1_025, 16_384] {
        for leaves in [vec![1], vec![1, 1], vec![1_024], vec![1_023], vec![3, 5_000, 1], vec![2; 512], vec![1; 1_025]] {
            let (got, _) = run.calls.table_from_leaves(ranks, &leaves, &room);
            assert_eq!(got, Length { refusal: 0, length: 8 * (u64::from(ranks) + 1) });
        }
    }
    for ranks in [0, 16_385, 16_386, 1 << 16, 1 << 31, u32::MAX] {
        assert_eq!(run.calls.table_from_leaves(ranks, &[4, 4], &room).0, refused(2), "{ranks}");
    }
}

fn each_buffer(run: &mut Run) {
    run.cases(40, |random, calls| {
        let ranks = if random.chance(16) { 100 } else { random.number(1, 6) };
        let leaves = counts(random, 5, 20);
        let needed = 8 * (ranks as usize + 1);
        for room in 0..=needed + 20 {
            let before = random.bytes(room);
            let (got, _) = calls.table_from_leaves(ranks, &leaves, &before);
            assert_eq!(got, if room < needed { refused(22) } else { Length { refusal: 0, length: needed as u64 } });
        }
    });
}
