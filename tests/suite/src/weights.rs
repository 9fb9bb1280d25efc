//! The table from leaf counts for ranks of unequal speed.
use crate::calls::{bytes_written, length, show, written, Calls};
use crate::library::Length;
use crate::model::{self, bytes_of, Answer, MAX_LEAVES, MAX_RANKS, MAX_TREES};
use crate::random::Random;
use crate::refusals::expect_seen;
use crate::{Run, Test};

pub const TESTS: &[Test] = &[
    ("weights: by hand", by_hand),
    ("weights: every small list", every_small),
    ("weights: equal weights are equal shares", equal),
    ("weights: random", random_weights),
    ("weights: at the limits", limits),
    ("weights: a million trees", million_trees),
    ("weights: which check comes first", order),
    ("weights: buffers of each length", each_buffer),
    ("seen: refusals for weights", seen),
];

const MAX_WEIGHT: u32 = 65_535;

extern "C" {
    fn vejgodat_table_from_weights(
        weights: *const u32,
        weights_len: usize,
        leaves: *const u32,
        leaves_len: usize,
        out: *mut u8,
        out_len: usize,
    ) -> Length;
}

/// The second implementation: the bytes written to a buffer of `room` bytes.
fn table_from_weights(weights: &[u32], leaves: &[u32], room: usize) -> Answer<Vec<u8>> {
    let size = model::table_length(weights.len().min(u32::MAX as usize) as u32)?;
    if weights.iter().all(|&weight| weight == 0) || weights.iter().any(|&weight| weight > MAX_WEIGHT) {
        return Err(30);
    }
    if leaves.is_empty() || leaves.len() > MAX_TREES || leaves.iter().any(|&count| count < 1 || count > MAX_LEAVES) {
        return Err(6);
    }
    if (room as u64) < size {
        return Err(22);
    }
    let partition = model::leaves_by_weights(weights, leaves);
    Ok(bytes_of(&model::table_of(&partition).expect("weights give a valid partition")))
}

impl Calls {
    pub fn table_from_weights(&mut self, weights: &[u32], leaves: &[u32], before: &[u8]) -> (Length, Vec<u8>) {
        let answer = table_from_weights(weights, leaves, before.len());
        let (a, b, c) = (self.place(), self.place(), self.place());
        let weights_at = self.object.put_numbers(weights, a);
        let leaves_at = self.list.put_numbers(leaves, b);
        let out_at = self.out.put(before, c);
        let got = unsafe {
            vejgodat_table_from_weights(weights_at, weights.len(), leaves_at, leaves.len(), out_at, before.len())
        };
        let said = || {
            let some = (&weights[..weights.len().min(40)], &leaves[..leaves.len().min(40)]);
            format!("table_from_weights {} {} {some:?}, buffer of {}", weights.len(), leaves.len(), before.len())
        };
        assert_eq!(got, length(bytes_written(&answer)), "{}", said());
        let after = written(before, &answer);
        assert!(self.out.bytes() == after, "{}: wrote {}, not {}", said(), show(self.out.bytes()), show(&after));
        assert!(self.list.numbers() == leaves && self.object.numbers() == weights, "{}: input changed", said());
        self.note("table_from_weights", got.refusal);
        (got, after)
    }
}

/// A table of these entries is written.
fn gives(run: &mut Run, weights: &[u32], leaves: &[u32], entries: &[i64]) {
    let (got, out) = run.calls.table_from_weights(weights, leaves, &vec![9; 8 * entries.len()]);
    assert_eq!(got, Length { refusal: 0, length: 8 * entries.len() as u64 });
    assert_eq!(out, bytes_of(entries), "{weights:?} {leaves:?}");
}

fn by_hand(run: &mut Run) {
    // 8 leaves: 6, none, 2; 2 and 2/3 rounded up, 5 and 1/3 rounded down
    gives(run, &[3, 0, 1], &[1; 8], &[0, 6, 6, 8]);
    gives(run, &[1, 2], &[1; 8], &[0, 3, 8]);
    gives(run, &[2, 1], &[1; 8], &[0, 6, 8]);
    // inside trees
    gives(run, &[3, 0, 1], &[4, 4], &[0, 2, -2, 2]);
    // one rank has all
    gives(run, &[0, 0, 5, 0], &[1, 7, 2], &[0, 0, 0, 3, 3]);
    gives(run, &[1], &[1], &[0, 1]);
}

fn every_small(run: &mut Run) {
    for ranks in 1..=4 {
        crate::cases::every_list(ranks, 0, 3, |list| {
            let weights: Vec<u32> = list.iter().map(|&weight| weight as u32).collect();
            for leaves in [vec![1], vec![1, 1], vec![3], vec![2, 5], vec![1, 1, 1, 1, 1], vec![4, 1, 7], vec![0, 2]] {
                let (got, out) = run.calls.table_from_weights(&weights, &leaves, &[5; 50]);
                if got.refusal == 0 {
                    assert_eq!(run.calls.check_table(&out[..got.length as usize]), 0);
                }
            }
        });
    }
}

fn equal(run: &mut Run) {
    run.cases(800, |random, calls| {
        let ranks = random.pick(&[1, 2, 3, 7, 64, 1_000, 1_024]);
        let weight = random.pick(&[1, 2, 3, 255, MAX_WEIGHT]);
        let leaves: Vec<u32> = (0..random.number(1, 60)).map(|_| random.number(1, 50)).collect();
        let before = vec![7; 8 * (ranks + 1)];
        let (_, weighted) = calls.table_from_weights(&vec![weight; ranks], &leaves, &before);
        let (_, plain) = calls.table_from_leaves(ranks as u32, &leaves, &before);
        assert_eq!(weighted, plain, "{ranks} weights of {weight}");
    });
}

fn some_weights(random: &mut Random, ranks: usize) -> Vec<u32> {
    let high = random.pick(&[1, 2, 100, MAX_WEIGHT]);
    let zeros = random.pick(&[0, 64, 200, 250]);
    (0..ranks).map(|_| if random.chance(zeros) { 0 } else { random.number(0, high) }).collect()
}

fn random_weights(run: &mut Run) {
    run.cases(4_000, |random, calls| {
        let ranks = random.pick(&[1, 2, 3, 5, 17, 100, 1_023, 1_024, MAX_RANKS + 1, 0]);
        let mut weights = some_weights(random, ranks);
        if ranks > 0 && random.chance(20) {
            let at = random.below(ranks as u64) as usize;
            weights[at] = random.pick(&[MAX_WEIGHT + 1, u32::MAX, 1 << 31]);
        }
        let high = random.pick(&[1, 3, 1_000, MAX_LEAVES]);
        let low = if random.chance(10) { 0 } else { 1 };
        let leaves: Vec<u32> = (0..random.number(1, 200)).map(|_| random.number(low, high)).collect();
        let before = random.bytes(8 * (ranks + 1) + 8);
        let room = if random.chance(20) { random.below(before.len() as u64) as usize } else { before.len() };
        calls.table_from_weights(&weights, &leaves, &before[..room]);
    });
}

fn limits(run: &mut Run) {
    let refusal = |run: &mut Run, weights: &[u32]| run.calls.table_from_weights(weights, &[4, 4], &[1; 8_208]).0.refusal;
    assert_eq!(refusal(run, &[MAX_WEIGHT; 3]), 0);
    assert_eq!(refusal(run, &[0, 0, 1]), 0);
    assert_eq!(refusal(run, &[0; 3]), 30);
    assert_eq!(refusal(run, &[0]), 30);
    for at in 0..3 {
        let mut weights = [1; 3];
        weights[at] = MAX_WEIGHT + 1;
        assert_eq!(refusal(run, &weights), 30);
        weights[at] = u32::MAX;
        assert_eq!(refusal(run, &weights), 30);
    }
    assert_eq!(refusal(run, &[u32::MAX; 3]), 30);
    assert_eq!(refusal(run, &[]), 2);
    assert_eq!(refusal(run, &vec![0; MAX_RANKS as usize + 1]), 2);
    assert_eq!(run.calls.table_from_weights(&vec![0; MAX_RANKS as usize], &[1], &[]).0.refusal, 30);
}

fn million_trees(run: &mut Run) {
    let ranks = MAX_RANKS as usize;
    let before = vec![3; 8 * (ranks + 1)];
    // the largest products
    for count in [1, MAX_LEAVES] {
        let leaves = vec![count; MAX_TREES];
        run.calls.table_from_weights(&vec![MAX_WEIGHT; ranks], &leaves, &before);
        let mut weights = vec![MAX_WEIGHT; ranks];
        weights[0] = 1;
        run.calls.table_from_weights(&weights, &leaves, &before);
        let rising: Vec<u32> = (0..ranks as u32).map(|p| p * 31 % 65_536).collect();
        run.calls.table_from_weights(&rising, &leaves, &before);
    }
    let leaves = vec![1; MAX_TREES + 1];
    assert_eq!(run.calls.table_from_weights(&[1, 2], &leaves, &before).0.refusal, 6);
}

fn order(run: &mut Run) {
    for (weights, bad_weights) in [(vec![1, 2, 0], 0), (vec![], 2), (vec![0; 3], 30), (vec![1, 65_536, 2], 30)] {
        for (leaves, bad_leaves) in [(vec![4, 4], 0), (vec![], 6), (vec![0, 4], 6), (vec![1, MAX_LEAVES + 1], 6)] {
            for (room, bad_room) in [(32, 0), (31, 22), (0, 22)] {
                let (got, _) = run.calls.table_from_weights(&weights, &leaves, &vec![5; room]);
                let first = [bad_weights, bad_leaves, bad_room].into_iter().find(|&bad| bad > 0).unwrap_or(0);
                assert_eq!(got.refusal, first, "{weights:?} {leaves:?} {room}");
            }
        }
    }
}

fn each_buffer(run: &mut Run) {
    for room in 0..60 {
        let (got, _) = run.calls.table_from_weights(&[2, 0, 3, 1], &[3, 1, 4], &vec![room as u8; room]);
        assert_eq!(got.refusal, if room < 40 { 22 } else { 0 });
    }
}

fn seen(run: &mut Run) {
    expect_seen(run, &[("table_from_weights", &[2, 6, 22, 30])]);
}
