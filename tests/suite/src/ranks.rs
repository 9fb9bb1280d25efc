//! Up to 16,384 ranks (C-17): tables, sets, messages and areas on both sides of 1,024 ranks, and a stored area.
use crate::area::Progress;
use crate::area_model::{trees_at, words_at};
use crate::calls::{Calls, Tables};
use crate::library::Length;
use crate::mesh_cases::{self as meshes, apart, join, put};
use crate::model::{bytes_of, MAX_RANKS};
use crate::random::Random;
use crate::second::Case;
use crate::{Run, Test};

pub const TESTS: &[Test] = &[
    ("ranks: lengths of areas without trees", empty_areas),
    ("ranks: deliveries and closes at 1,024, 1,025 and 16,384", assembled),
    ("ranks: all ranks heard", all_heard),
    ("ranks: a bit of a rank that there isn't", bits_above),
    ("ranks: headers with a P above the limit", headers),
    ("ranks: senders and sets of 16,384 ranks", sets),
    ("ranks: a stored area of the release before", stored),
];

/// Rank p has tree p.
fn one_each(ranks: usize) -> Vec<i64> {
    (0..=ranks as i64).collect()
}

/// Rank q has the trees from `first` on, rank 0 those before; every other rank has none.
fn from_on(ranks: usize, q: usize, first: i64) -> Vec<i64> {
    let trees = ranks as i64;
    (0..=ranks).map(|p| if p == 0 { 0 } else { [first, trees][usize::from(p > q)] }).collect()
}

/// A mesh of as many trees as ranks, of which rank p has tree p, and q then all from `first` on.
fn gathering(random: &mut Random, ranks: usize, q: usize, first: i64) -> Case {
    let mesh = meshes::sound(random, ranks);
    Case { mesh, old: bytes_of(&one_each(ranks)), new: bytes_of(&from_on(ranks, q, first)), epoch: 17 }
}

/// The message by the library's own calls.
fn message(calls: &mut Calls, case: &Case, tables: &Tables, ends: [u32; 2]) -> Vec<u8> {
    let room = calls.part_length(&case.mesh, &case.old, ends[0]).length as usize;
    let (_, part) = calls.cut_part(&case.mesh, &case.old, ends[0], &vec![0; room]);
    let room = calls.message_length(&part, tables, ends).length as usize;
    calls.build_message(&part, tables, ends, case.epoch, &vec![0; room]).1
}

fn opened(calls: &mut Calls, case: &Case, tables: &Tables, q: u32) -> Vec<u8> {
    let room = calls.area_length(tables, q, case.dimension()).length as usize;
    calls.open_area(tables, q, case.dimension(), case.epoch, &vec![0xA5; room]).1
}

fn empty_areas(run: &mut Run) {
    for (ranks, length) in [(1_024, 16_560), (1_025, 18_496), (MAX_RANKS, 264_240)] {
        // all trees on rank 0
        let table = from_on(ranks, 0, 0);
        let tables = Tables::of(&table, &table);
        for dimension in [2, 3] {
            let rank = ranks as u32 - 1;
            assert_eq!(run.calls.area_length(&tables, rank, dimension), Length { refusal: 0, length }, "{ranks} ranks");
            let (got, area) = run.calls.open_area(&tables, rank, dimension, 9, &vec![7; length as usize]);
            assert_eq!(got.length, length);
            assert_eq!(run.calls.progress_of(&area), Progress { refusal: 0, heard: 0, due: 0 });
            assert_eq!(run.calls.close_area(&area, &[0; 32]).0, Length { refusal: 0, length: 32 });
            assert_eq!(run.calls.area_length(&tables, ranks as u32, dimension).refusal, 5);
        }
    }
    let table = from_on(MAX_RANKS + 1, 0, 0);
    let tables = Tables::of(&table, &table);
    assert_eq!(run.calls.area_length(&tables, 0, 2).refusal, 2);
    assert_eq!(run.calls.open_area(&tables, 0, 2, 9, &vec![7; 300_000]).0.refusal, 2);
}

/// The last ranks' trees go to one rank, in any order, with a repeat and a close before the last.
fn assembled(run: &mut Run) {
    for ranks in [1_024, 1_025, MAX_RANKS] {
        run.cases(2, |random, calls| {
            let q = random.number(1, ranks as u32 - 1);
            let first = ranks as i64 - random.number(2, 12) as i64;
            let case = gathering(random, ranks, q as usize, first);
            let tables = Tables::new(&case.old, &case.new);
            let mut senders: Vec<u32> = (first as u32..ranks as u32).collect();
            for at in (1..senders.len()).rev() {
                senders.swap(at, random.below(at as u64 + 1) as usize);
            }
            let mut area = opened(calls, &case, &tables, q);
            let due = senders.len() as u32;
            for (heard, &p) in senders.iter().enumerate() {
                assert_eq!(calls.progress_of(&area), Progress { refusal: 0, heard: heard as u32, due });
                assert_eq!(calls.part_of_area_length(&area).refusal, 20);
                let message = message(calls, &case, &tables, [p, q]);
                let (got, now) = calls.deliver(&area, &message);
                assert_eq!(got, 0, "{p} to {q} of {ranks}");
                assert_eq!(calls.deliver(&now, &message).0, 15);
                area = now;
            }
            let part = case.new_part(q);
            assert_eq!(calls.close_area(&area, &vec![0; part.len()]).1, part);
            // a bit of a rank that sends nothing
            let mut other = area;
            other[words_at(ranks)] ^= 1;
            assert_eq!(calls.progress_of(&other).refusal, 10);
        });
    }
}

/// Rank 0 gets the trees of all ranks: every bit is set but the last, which the last message sets.
fn all_heard(run: &mut Run) {
    for ranks in [1_025, MAX_RANKS] {
        // quadrilaterals without neighbours, so without ghosts
        let mesh = apart(&vec![0; ranks], 0);
        let case = Case { mesh, old: bytes_of(&one_each(ranks)), new: bytes_of(&from_on(ranks, 0, 0)), epoch: 4 };
        let tables = Tables::new(&case.old, &case.new);
        let mut area = case.fresh(0);
        let (words, slots) = (words_at(ranks), trees_at(ranks));
        area[slots..][..64 * (ranks - 1)].copy_from_slice(&case.mesh[8..][..64 * (ranks - 1)]);
        for p in 0..ranks - 1 {
            area[words + p / 8] |= 1 << (p % 8);
        }
        let message = message(&mut run.calls, &case, &tables, [ranks as u32 - 1, 0]);
        let (got, done) = run.calls.deliver(&area, &message);
        assert_eq!(got, 0);
        let all = ranks as u32;
        assert_eq!(run.calls.progress_of(&done), Progress { refusal: 0, heard: all, due: all });
    }
}

fn bits_above(run: &mut Run) {
    for ranks in [1_000, 1_023, 1_025, 16_383] {
        let table = from_on(ranks, 0, 0);
        let tables = Tables::of(&table, &table);
        let room = run.calls.area_length(&tables, 1, 2).length as usize;
        let (_, area) = run.calls.open_area(&tables, 1, 2, 3, &vec![0; room]);
        let bits = 8 * (trees_at(ranks) - words_at(ranks));
        for bit in [ranks, (ranks + bits) / 2, bits - 1] {
            let mut more = area.clone();
            more[words_at(ranks) + bit / 8] |= 1 << (bit % 8);
            assert_eq!(run.calls.progress_of(&more).refusal, 10, "bit {bit} of {ranks} ranks");
        }
    }
}

fn headers(run: &mut Run) {
    run.cases(1, |random, calls| {
        let case = gathering(random, MAX_RANKS, 5, MAX_RANKS as i64 - 1);
        let tables = Tables::new(&case.old, &case.new);
        let area = opened(calls, &case, &tables, 5);
        let sent = message(calls, &case, &tables, [MAX_RANKS as u32 - 1, 5]);
        for ranks in [MAX_RANKS as u32 + 1, MAX_RANKS as u32 - 1, 1_024, 0, u32::MAX] {
            let mut other = area.clone();
            put(&mut other, 12, ranks);
            assert_eq!(calls.progress_of(&other).refusal, 10);
            assert_eq!(calls.deliver(&other, &sent).0, 10);
            let mut other = sent.clone();
            put(&mut other, 12, ranks);
            assert_eq!(calls.deliver(&area, &other).0, 12);
        }
        // longer tables in an area of one rank more than there may be
        let mut longer = vec![0; 264_240 + 400];
        longer[..32].copy_from_slice(&area[..32]);
        put(&mut longer, 12, MAX_RANKS as u32 + 1);
        assert_eq!(calls.progress_of(&longer).refusal, 10);
    });
}

fn sets(run: &mut Run) {
    let ranks = MAX_RANKS;
    let trees = ranks as i64;
    // one tree on each rank, all on rank 0, all on the last, tree 0 on every rank, shares with empty ranks between
    let tables: [Vec<i64>; 5] = [
        one_each(ranks),
        from_on(ranks, 0, 0),
        (0..=ranks).map(|p| if p < ranks { 0 } else { trees }).collect(),
        (0..=ranks).map(|p| [-1, 0, trees][usize::from(p == 0) + 2 * usize::from(p == ranks)]).collect(),
        (0..=ranks as i64).map(|p| if p % 2 == 0 { p } else { -p - 1 }).collect(),
    ];
    let room = vec![3; ranks];
    for (at, old) in tables.iter().enumerate() {
        let new = &tables[(at + 1) % tables.len()];
        assert_eq!(run.calls.check_table(&bytes_of(old)), 0, "table {at}");
        let mut pair = Tables::of(old, new);
        for q in [0, 1, 63, 64, 1_024, 8_191, 16_383] {
            run.calls.receive_set(&mut pair, q, &room);
            for k in [0, 1, q, 16_383] {
                run.calls.sender_of(&mut pair, k, q);
            }
        }
    }
    // each rank sends its tree to the next but one, and back
    let shifted: Vec<i64> = (0..=trees).map(|p| if p == 0 { 0 } else { (p + 1).min(trees) }).collect();
    let mut pair = Tables::of(&tables[0], &shifted);
    for p in [0, 1, 2, 1_023, 1_024, 1_025, 16_382, 16_383] {
        let (got, _) = run.calls.send_set(&mut pair, p, &room);
        assert_eq!(got.refusal, 0);
        run.calls.trees_sent(&mut pair, p, p.saturating_sub(1));
        run.calls.trees_sent(&mut pair, p, 16_383);
    }
    assert_eq!(run.calls.send_set(&mut pair, 16_384, &room).0.refusal, 5);
}

/// What the release before wrote: each word of eight bytes, and how often it stands there. Six quadrilaterals in a row;
/// of 70 ranks, rank 64 had trees 0 and 1, rank 69 the others; rank 5 gets trees 1, 2 and 3, and has heard rank 64.
const STORED: [(usize, &str); 26] = [
    (1, "0300000002000000"),
    (1, "0600000046000000"),
    (1, "0500000003000000"),
    (1, "0100000000000000"),
    (65, "0000000000000000"),
    (5, "0200000000000000"),
    (1, "0600000000000000"),
    (1, "0000000000000000"),
    (5, "0100000000000000"),
    (1, "0400000000000000"),
    (64, "0600000000000000"),
    (1, "0000000000000000"),
    (1, "0100000000000000"),
    (14, "0000000000000000"),
    (1, "0100000000000000"),
    (1, "0000000002000000"),
    (1, "0100000001000000"),
    (1, "ffffffffffffffff"),
    (1, "0100020300000000"),
    (3, "b1b1b1b1b1b1b1b1"),
    (17, "0000000000000000"),
    (1, "0000000001000000"),
    (1, "0000000000000000"),
    (1, "ffffffffffffffff"),
    (1, "0000020300000000"),
    (55, "0000000000000000"),
];

fn stored(run: &mut Run) {
    let word = |digits: &str| u64::from_str_radix(digits, 16).unwrap().to_be_bytes();
    let area: Vec<u8> = STORED.iter().flat_map(|&(times, digits)| word(digits).repeat(times)).collect();
    assert_eq!(area.len(), 1_968);
    let mut mesh = apart(&[0; 6], 0);
    for k in 0..6 {
        if k < 5 {
            join(&mut mesh, (k, 1), (k + 1, 0), 0);
        }
        mesh[meshes::place(k) + 40..meshes::place(k + 1)].fill(0xB0 + k as u8);
    }
    let old: Vec<i64> = (0..=70).map(|p| if p <= 64 { 0 } else { [2, 6][usize::from(p == 70)] }).collect();
    let new: Vec<i64> = (0..=70).map(|p| [0, 1, 4, 6][(p > 0) as usize + (p > 5) as usize + (p > 6) as usize]).collect();
    let case = Case { mesh, old: bytes_of(&old), new: bytes_of(&new), epoch: 3 };
    let calls = &mut run.calls;
    assert_eq!(calls.progress_of(&area), Progress { refusal: 0, heard: 1, due: 2 });
    let messages = case.messages();
    assert_eq!(calls.deliver(&area, &messages[&[64, 5]]).0, 15);
    let (got, done) = calls.deliver(&area, &messages[&[69, 5]]);
    assert_eq!(got, 0);
    let part = case.new_part(5);
    assert_eq!(calls.close_area(&done, &vec![0; part.len()]).1, part);
}
