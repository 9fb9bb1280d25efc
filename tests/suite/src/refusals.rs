//! The first check that fails gives its number, whichever argument fails it. Last: what was seen in the whole run.
use crate::calls::Tables;
use crate::mesh_model::Fault;
use crate::model::{bytes_of, MAX_LEAVES};
use crate::{Run, Test};
use std::collections::BTreeSet;

pub const TESTS: &[Test] = &[
    ("refusals: two tables, in both orders, with ranks and buffers", two_tables),
    ("refusals: one table and a rank", one_table),
    ("refusals: writing a table", writing),
    ("refusals: leaf counts", leaves),
    ("seen: each refusal from every call that can give it", seen_refusals),
    ("seen: both orders of two tables", seen_orders),
    ("seen: sound meshes, and each sentence broken", seen_faults),
];

/// The smallest of the numbers of the checks that fail.
pub fn first_of(failing: &[u32]) -> u32 {
    failing.iter().copied().filter(|&number| number > 0).min().unwrap_or(0)
}

/// Tables of every kind, with the check that each fails by itself.
pub fn kinds() -> Vec<(Vec<u8>, u32)> {
    let valid: [&[i64]; 3] = [&[0, -2, 3, 5], &[0, -3, -4, 5], &[0, 0, 0, 5]];
    let other_ranks: [&[i64]; 2] = [&[0, 5], &[0, 1, 2, 3, 5]];
    let other_trees: [&[i64]; 2] = [&[0, 1, 2, 4], &[0, 1, 2, 6]];
    let invalid: [&[i64]; 4] = [&[0, 4, 3, 5], &[0, -4, -3, 5], &[0, 0, 0, 0], &[-1, 1]];
    let mut kinds = Vec::new();
    kinds.extend(valid.map(|table| (bytes_of(table), 0)));
    kinds.extend(other_ranks.map(|table| (bytes_of(table), 0)));
    kinds.extend(other_trees.map(|table| (bytes_of(table), 0)));
    kinds.extend(invalid.map(|table| (bytes_of(table), 3)));
    kinds.extend([0, 7, 8, 15, 31, 33, 131_088].map(|length| (vec![0; length], 2)));
    kinds
}

fn two_tables(run: &mut Run) {
    let kinds = kinds();
    for (old, old_fails) in &kinds {
        for (new, new_fails) in &kinds {
            let mut tables = Tables::new(old, new);
            // P or K differ; where no table can be read, an earlier check fails anyway
            let differ = old.len() != new.len() || old.rchunks(8).next() != new.rchunks(8).next();
            let so_far = first_of(&[*old_fails, *new_fails, if differ { 4 } else { 0 }]);
            let said = |refusal: u32, failing: &[u32]| {
                let expected = if so_far > 0 { so_far } else { first_of(failing) };
                assert_eq!(
                    refusal, expected,
                    "old fails {old_fails}, new {new_fails}, differ {differ}, then {failing:?}"
                );
            };
            for rank in [0, 1_024, u32::MAX] {
                let bad_rank = if rank > 0 { 5 } else { 0 };
                for other in [0, 1_048_576, u32::MAX] {
                    let bad_other = if other > 0 { 5 } else { 0 };
                    said(run.calls.sender_of(&mut tables, other, rank).refusal, &[bad_rank, bad_other]);
                    said(run.calls.trees_sent(&mut tables, other, rank).refusal, &[bad_rank, bad_other]);
                }
                for room in [0, 3] {
                    let (send, _) = run.calls.send_set(&mut tables, rank, &vec![9; room]);
                    let (receive, _) = run.calls.receive_set(&mut tables, rank, &vec![9; room]);
                    for refusal in [send.refusal, receive.refusal] {
                        if room > 0 {
                            said(refusal, &[bad_rank]);
                        } else if refusal != 0 {
                            said(refusal, &[bad_rank, 22]);
                        } else {
                            assert!(so_far == 0 && bad_rank == 0, "accepted");
                        }
                    }
                }
            }
        }
    }
}

fn one_table(run: &mut Run) {
    for (table, fails) in kinds() {
        assert_eq!(run.calls.check_table(&table), fails);
        for rank in [0, 1_024, u32::MAX] {
            let bad_rank = if rank > 0 { 5 } else { 0 };
            assert_eq!(run.calls.table_range(&table, rank).refusal, first_of(&[fails, bad_rank]));
        }
    }
}

fn writing(run: &mut Run) {
    for (ranks, bad_ranks) in [(3, 0), (0, 2), (16_385, 2), (u32::MAX, 2)] {
        for (first, count, bad_lists) in [
            (vec![0, 1, 2], vec![1, 1, 1], 0),
            (vec![0, 1, 2], vec![1, 1], 6),
            (vec![0, 1], vec![1, 1, 1], 6),
            (vec![], vec![], 6),
            (vec![0, 1, 3], vec![1, 1, 1], 6),
            (vec![0, 0, 0], vec![0, 0, 0], 6),
            (vec![0; 16_385], vec![1; 16_385], 6),
        ] {
            for (room, bad_room) in [(32, 0), (40, 0), (31, 22), (8, 22), (0, 22)] {
                let (got, _) = run.calls.write_table(ranks, &first, &count, &vec![5; room]);
                assert_eq!(
                    got.refusal,
                    first_of(&[bad_ranks, bad_lists, bad_room]),
                    "{ranks} {first:?} {count:?} {room}"
                );
            }
        }
    }
}

fn leaves(run: &mut Run) {
    for (ranks, bad_ranks) in [(3, 0), (0, 2), (16_385, 2), (u32::MAX, 2)] {
        for (leaves, bad_leaves) in
            [(vec![4, 4], 0), (vec![], 6), (vec![0, 4], 6), (vec![4, 0], 6), (vec![1, MAX_LEAVES + 1], 6)]
        {
            for (room, bad_room) in [(32, 0), (40, 0), (31, 22), (8, 22), (0, 22)] {
                let (got, _) = run.calls.table_from_leaves(ranks, &leaves, &vec![5; room]);
                assert_eq!(got.refusal, first_of(&[bad_ranks, bad_leaves, bad_room]), "{ranks} {leaves:?} {room}");
            }
        }
    }
}

fn seen_refusals(run: &mut Run) {
    let can_give: [(&'static str, &[u32]); 11] = [
        ("check_table", &[2, 3]),
        ("table_length", &[2]),
        ("table_range", &[2, 3, 5]),
        ("write_table", &[2, 6, 22]),
        ("table_from_leaves", &[2, 6, 22]),
        ("sender_of", &[2, 3, 4, 5]),
        ("trees_sent", &[2, 3, 4, 5]),
        ("send_set", &[2, 3, 4, 5, 22]),
        ("receive_set", &[2, 3, 4, 5, 22]),
        ("corners", &[]),
        ("check_mesh", &[7]),
    ];
    expect_seen(run, &can_give);
    let seen: BTreeSet<&str> = run.calls.seen.refusals.keys().copied().collect();
    assert_eq!(run.calls.seen.listed, seen, "the calls of all groups");
}

/// Of each call exactly these refusals were seen, and that it accepts.
pub fn expect_seen(run: &mut Run, can_give: &[(&'static str, &[u32])]) {
    for (call, numbers) in can_give {
        let expected = [0].iter().chain(*numbers).copied().collect();
        assert_eq!(run.calls.seen.refusals.get(call), Some(&expected), "{call}");
        run.calls.seen.listed.insert(call);
    }
}

fn seen_orders(run: &mut Run) {
    for call in ["sender_of", "trees_sent", "send_set", "receive_set"] {
        for old in [0, 2, 3] {
            for new in [0, 2, 3] {
                let seen = run.calls.seen.tables.get(call).map_or(false, |states| states.contains(&(old, new)));
                assert!(seen, "{call}: no call with an old table of {old} and a new one of {new}");
            }
        }
    }
}

fn seen_faults(run: &mut Run) {
    let seen = &run.calls.seen.faults;
    let times = |faults: &[Fault]| seen.get(&faults.iter().copied().collect()).copied().unwrap_or(0);
    let refused: u64 = seen.iter().filter(|(faults, _)| !faults.is_empty()).map(|(_, times)| times).sum();
    assert!(times(&[]) > 100_000 && refused > 100_000, "{} sound, {refused} refused", times(&[]));
    // a wrong dimension is no shape's
    assert!(times(&[Fault::Dimension, Fault::OtherDimension]) > 1_000);
    for fault in [
        Fault::Limits,
        Fault::Length,
        Fault::Order,
        Fault::Shape,
        Fault::Zeros,
        Fault::Region,
        Fault::Unused,
        Fault::Boundary,
        Fault::OtherDimension,
        Fault::Orientation,
        Fault::Corners,
        Fault::Answer,
    ] {
        assert!(times(&[fault]) > 100, "only {fault:?} was broken {} times", times(&[fault]));
    }
}
