//! Who sends: the sender of a tree, the trees from rank to rank, the sets of a rank.
use crate::calls::{Calls, Tables};
use crate::cases;
use crate::library::{self, Range, Ranks, Sender};
use crate::model::{bytes_of, MAX_RANKS, MAX_TREES};
use crate::{Run, Test};
use std::ptr;

pub const TESTS: &[Test] = &[
    ("pattern: the document's plan", documents_plan),
    ("pattern: the document's empty send set", documents_corner),
    ("pattern: the document's three triangles", documents_triangles),
    ("pattern: every pair of small tables", every_pair),
    ("pattern: random pairs, every answer", random_pairs),
    ("pattern: trees on many ranks", many_ranks),
    ("pattern: random pairs of many ranks", large_pairs),
    ("pattern: a million trees on 1,024 ranks", largest),
    ("pattern: both sides of each message agree", both_sides),
    ("pattern: set buffers of each length", each_buffer),
    ("pattern: each byte of either table changed", each_byte),
    ("pattern: each length of either table cut", each_cut),
    ("pattern: ranks and trees out of range", out_of_range),
    ("pattern: tables of other ranks or trees", other_tables),
    ("pattern: null pointers with count 0", null_pointers),
];

/// Every sender, range and set of a pair, with ranks and trees one beyond the limits.
fn everything(calls: &mut Calls, tables: &mut Tables, ranks: u32, trees: u32) {
    for q in 0..=ranks {
        for k in 0..=trees {
            calls.sender_of(tables, k, q);
        }
        for p in 0..=ranks {
            calls.trees_sent(tables, p, q);
        }
        let room = vec![0xDEAD_BEEF; ranks as usize + 1];
        calls.send_set(tables, q, &room);
        calls.receive_set(tables, q, &room);
    }
}

fn sent(first: u32, count: u32) -> Range {
    Range { refusal: 0, first, count }
}

fn documents_plan(run: &mut Run) {
    let mut tables = Tables::of(&[0, -2, 3, 5], &[0, -3, -4, 5]);
    everything(&mut run.calls, &mut tables, 3, 5);
    let moves = [((0, 0), (0, 2)), ((1, 0), (2, 1)), ((1, 1), (2, 1)), ((2, 1), (3, 1)), ((2, 2), (3, 2))];
    for p in 0..3 {
        for q in 0..3 {
            let expected = moves.iter().find(|message| message.0 == (p, q)).map_or((0, 0), |message| message.1);
            assert_eq!(run.calls.trees_sent(&mut tables, p, q), sent(expected.0, expected.1), "{p} to {q}");
        }
    }
    let (got, list) = run.calls.send_set(&mut tables, 1, &[99; 3]);
    assert_eq!((got, list), (Ranks { refusal: 0, count: 2, smallest: 0, largest: 1 }, vec![0, 1, 99]));
    let (got, list) = run.calls.receive_set(&mut tables, 1, &[99; 3]);
    assert_eq!((got, list), (Ranks { refusal: 0, count: 2, smallest: 1, largest: 2 }, vec![1, 2, 99]));
}

fn documents_corner(run: &mut Run) {
    let mut tables = Tables::of(&[0, -1, 2], &[0, 0, 2]);
    everything(&mut run.calls, &mut tables, 2, 2);
    let empty = Ranks { refusal: 0, count: 0, smallest: -1, largest: -2 };
    assert_eq!(run.calls.send_set(&mut tables, 0, &[99; 2]), (empty, vec![99; 2]));
    assert_eq!(run.calls.send_set(&mut tables, 0, &[]), (empty, vec![]));
    assert_eq!(run.calls.receive_set(&mut tables, 0, &[99; 2]), (empty, vec![99; 2]));
    let one = Ranks { refusal: 0, count: 1, smallest: 1, largest: 1 };
    assert_eq!(run.calls.send_set(&mut tables, 1, &[99; 2]), (one, vec![1, 99]));
    assert_eq!(run.calls.sender_of(&mut tables, 0, 1), Sender { refusal: 0, sender: 1 });
    assert_eq!(run.calls.sender_of(&mut tables, 0, 0), Sender { refusal: 0, sender: -1 });
}

fn documents_triangles(run: &mut Run) {
    let mut tables = Tables::of(&[0, 1, 3, 3], &[0, -1, 2, 3]);
    everything(&mut run.calls, &mut tables, 3, 3);
    for (p, q, first, count) in [(0, 0, 0, 1), (0, 1, 0, 1), (1, 1, 1, 1), (1, 2, 2, 1), (1, 0, 0, 0), (2, 2, 0, 0)] {
        assert_eq!(run.calls.trees_sent(&mut tables, p, q), sent(first, count), "{p} to {q}");
    }
}

fn every_pair(run: &mut Run) {
    let mut pairs = 0;
    for (ranks, trees) in
        [(1, 1), (1, 3), (2, 1), (2, 2), (2, 4), (3, 1), (3, 2), (3, 3), (3, 4), (4, 1), (4, 2), (4, 3), (5, 1), (5, 2)]
    {
        let all = cases::every_table(ranks, trees);
        for old in &all {
            for new in &all {
                everything(&mut run.calls, &mut Tables::of(old, new), ranks as u32, trees as u32);
                pairs += 1;
            }
        }
    }
    assert!(pairs > 2_000, "{pairs} pairs");
}

fn random_pairs(run: &mut Run) {
    run.cases(1_500, |random, calls| {
        let (ranks, trees) = (random.number(1, 12), random.number(1, 20));
        let old = cases::table(random, ranks as usize, trees);
        let new = cases::table(random, ranks as usize, trees);
        everything(calls, &mut Tables::of(&old, &new), ranks, trees);
    });
}

fn many_ranks(run: &mut Run) {
    run.cases(24, |random, calls| {
        let (ranks, trees) = (random.number(100, 300), random.number(1, 4));
        let old = cases::table(random, ranks as usize, trees);
        let new = cases::table(random, ranks as usize, trees);
        let mut tables = Tables::of(&old, &new);
        for q in 0..ranks {
            for k in 0..trees {
                calls.sender_of(&mut tables, k, q);
            }
            let room = vec![7; ranks as usize];
            calls.send_set(&mut tables, q, &room);
            calls.receive_set(&mut tables, q, &room);
            for _ in 0..20 {
                calls.trees_sent(&mut tables, random.below(ranks.into()) as u32, q);
            }
        }
    });
    // one tree on all 1,024 ranks, before, after or both
    let one = |first: i64| -> Vec<i64> {
        (0..=1_024)
            .map(|p| match p {
                0 => 0,
                1_024 => 1,
                _ => first,
            })
            .collect()
    };
    for (old, new) in [(-1, -1), (-1, 0), (0, -1), (-1, 1), (1, -1), (0, 1), (1, 0)] {
        let mut tables = Tables::of(&one(old), &one(new));
        for q in (0..1_024).step_by(73).chain([1, 1_022, 1_023]) {
            calls_at(&mut run.calls, &mut tables, q, &[0], &[0, 1, 500, 1_023, q]);
        }
    }
}

/// Some senders and ranges of one receiver, and both sets.
fn calls_at(calls: &mut Calls, tables: &mut Tables, q: u32, trees: &[u32], senders: &[u32]) {
    for &k in trees {
        calls.sender_of(tables, k, q);
    }
    for &p in senders {
        calls.trees_sent(tables, p, q);
    }
    calls.send_set(tables, q, &[5; MAX_RANKS]);
    calls.receive_set(tables, q, &[5; MAX_RANKS]);
}

fn large_pairs(run: &mut Run) {
    run.cases(16, |random, calls| {
        let ranks = if random.chance(128) { 1_024 } else { random.number(400, 1_024) };
        let trees = random.pick(&[1, 30, 1_000, 1_024, 5_000, 20_000]);
        let old = cases::table(random, ranks as usize, trees);
        let new = cases::table(random, ranks as usize, trees);
        let mut tables = Tables::of(&old, &new);
        for q in 0..ranks {
            let trees: Vec<u32> = (0..4).map(|_| random.below(trees.into()) as u32).collect();
            let senders: Vec<u32> = (0..4).map(|_| random.below(ranks.into()) as u32).collect();
            calls_at(calls, &mut tables, q, &trees, &senders);
            // the trees it has, and the ranks that send them
            let (got, list) = calls.receive_set(&mut tables, q, &vec![0; ranks as usize]);
            for &p in &list[..got.count as usize] {
                let range = calls.trees_sent(&mut tables, p, q);
                calls.sender_of(&mut tables, range.first, q);
                calls.sender_of(&mut tables, range.first + range.count - 1, q);
                calls.sender_of(&mut tables, range.first + range.count / 2, q);
            }
        }
    });
}

fn largest(run: &mut Run) {
    run.cases(3, |random, calls| {
        let (ranks, trees) = (1_024, MAX_TREES as u32);
        let old = cases::table(random, ranks, trees);
        let new = cases::table(random, ranks, trees);
        let mut tables = Tables::of(&old, &new);
        for q in 0..ranks as u32 {
            let trees: Vec<u32> = (0..6).map(|_| random.below(trees.into()) as u32).collect();
            let senders: Vec<u32> = (0..6).map(|_| random.below(ranks as u64) as u32).collect();
            calls_at(calls, &mut tables, q, &trees, &senders);
        }
        calls_at(calls, &mut tables, 1_023, &[0, 1, trees - 2, trees - 1], &[0, 1_023]);
    });
}

/// Of the library's own answers alone: q is in the send set of p exactly when p is in the receive set of q, exactly then
/// are there trees from p to q, and each tree that q has comes from its sender and from nobody else.
fn both_sides(run: &mut Run) {
    run.cases(200, |random, calls| {
        let (ranks, trees) = (random.number(1, 30), random.number(1, 40));
        let old = cases::table(random, ranks as usize, trees);
        let new = cases::table(random, ranks as usize, trees);
        let mut tables = Tables::of(&old, &new);
        let room = vec![u32::MAX; ranks as usize];
        let mut sets = |calls: &mut Calls, send: bool| -> Vec<Vec<u32>> {
            let one = |rank| {
                let (got, list) = if send {
                    calls.send_set(&mut tables, rank, &room)
                } else {
                    calls.receive_set(&mut tables, rank, &room)
                };
                let list = list[..got.count as usize].to_vec();
                assert!(list.windows(2).all(|two| two[0] < two[1]), "ascending");
                assert_eq!(got.smallest, list.first().map_or(-1, |&rank| rank as i32));
                assert_eq!(got.largest, list.last().map_or(-2, |&rank| rank as i32));
                list
            };
            (0..ranks).map(one).collect()
        };
        let (sends, receives) = (sets(calls, true), sets(calls, false));
        for q in 0..ranks {
            let has = calls.table_range(&tables.new.clone(), q);
            let mut comes = 0;
            for p in 0..ranks {
                let range = calls.trees_sent(&mut tables, p, q);
                comes += range.count;
                assert_eq!(sends[p as usize].contains(&q), range.count > 0);
                assert_eq!(receives[q as usize].contains(&p), range.count > 0);
                for k in range.first..range.first + range.count {
                    assert_eq!(calls.sender_of(&mut tables, k, q), Sender { refusal: 0, sender: p as i32 });
                }
            }
            assert_eq!(comes, has.count, "each tree of {q} comes once");
        }
    });
}

fn each_buffer(run: &mut Run) {
    let mut short = 0;
    while run.lacks(short > 1_000, format_args!("{short} too short")) {
        run.cases(300, |random, calls| {
            let (ranks, trees) = (random.number(1, 10), random.number(1, 30));
            let old = cases::table(random, ranks as usize, trees);
            let new = cases::table(random, ranks as usize, trees);
            let mut tables = Tables::of(&old, &new);
            for rank in 0..ranks {
                for room in 0..=ranks as usize + 2 {
                    let before: Vec<u32> = (0..room).map(|_| random.next() as u32).collect();
                    let (send, _) = calls.send_set(&mut tables, rank, &before);
                    let (receive, _) = calls.receive_set(&mut tables, rank, &before);
                    for got in [send, receive] {
                        assert!(got.refusal == 0 || got.refusal == 22 && room < ranks as usize);
                        short += u32::from(got.refusal == 22);
                    }
                }
            }
        });
    }
}

const SMALL_PAIRS: [(&[i64], &[i64]); 4] = [
    (&[0, -2, 3, 5], &[0, -3, -4, 5]),
    (&[0, 3, -3, 5], &[0, 0, 0, 5]),
    (&[0, -1, 2], &[0, 0, 2]),
    (&[0, 300], &[0, 300]),
];

/// One of each call.
fn one_of_each(calls: &mut Calls, old: &[u8], new: &[u8], tree: u32, p: u32, q: u32) {
    let mut tables = Tables::new(old, new);
    calls.sender_of(&mut tables, tree, q);
    calls.trees_sent(&mut tables, p, q);
    calls.send_set(&mut tables, p, &[3; 4]);
    calls.receive_set(&mut tables, q, &[3; 4]);
}

fn each_byte(run: &mut Run) {
    for (old, new) in SMALL_PAIRS {
        let (old, new) = (bytes_of(old), bytes_of(new));
        for at in 0..old.len() {
            for value in 0..=255 {
                let mut changed = old.clone();
                changed[at] = value;
                let rank = u32::from(value) % (old.len() as u32 / 8 - 1);
                one_of_each(&mut run.calls, &changed, &new, u32::from(value) % 6, rank, 0);
                let mut changed = new.clone();
                changed[at] = value;
                one_of_each(&mut run.calls, &old, &changed, u32::from(value) % 6, 0, rank);
            }
        }
    }
}

fn each_cut(run: &mut Run) {
    for (old, new) in SMALL_PAIRS {
        let (old, new) = (bytes_of(old), bytes_of(new));
        for length in 0..=old.len() {
            for other in 0..=new.len() {
                one_of_each(&mut run.calls, &old[..length], &new[..other], 0, 0, 0);
            }
            one_of_each(&mut run.calls, &[&old[..], &old[..length]].concat(), &new, 0, 0, 0);
            one_of_each(&mut run.calls, &old, &[&new[..], &new[..length]].concat(), 0, 0, 0);
        }
    }
}

fn out_of_range(run: &mut Run) {
    let (old, new) = (&[0, -2, 3, 5], &[0, -3, -4, 5]);
    let mut tables = Tables::of(old, new);
    let out = [3, 4, 5, 6, 1_023, 1_024, 1 << 16, 1 << 31, (1 << 31) + 1, u32::MAX - 1, u32::MAX];
    let calls = &mut run.calls;
    for bad in out {
        let none = Range { refusal: 5, first: 0, count: 0 };
        assert_eq!(calls.sender_of(&mut tables, 0, bad), Sender { refusal: 5, sender: 0 });
        assert_eq!(calls.trees_sent(&mut tables, bad, 0), none);
        assert_eq!(calls.trees_sent(&mut tables, 0, bad), none);
        assert_eq!(calls.trees_sent(&mut tables, bad, bad), none);
        assert_eq!(calls.send_set(&mut tables, bad, &[1; 3]).0.refusal, 5);
        assert_eq!(calls.receive_set(&mut tables, bad, &[1; 3]).0.refusal, 5);
        if bad >= 5 {
            assert_eq!(calls.sender_of(&mut tables, bad, 0), Sender { refusal: 5, sender: 0 });
            assert_eq!(calls.sender_of(&mut tables, bad, bad), Sender { refusal: 5, sender: 0 });
        }
    }
    // a tree that isn't the receiver's, and one that is none
    assert_eq!(calls.sender_of(&mut tables, 4, 0), Sender { refusal: 0, sender: -1 });
    assert_eq!(calls.sender_of(&mut tables, 5, 0), Sender { refusal: 5, sender: 0 });
    run.cases(3_000, |random, calls| {
        let (ranks, trees) = (cases::ranks(random), random.number(1, 30));
        let old = cases::table(random, ranks, trees);
        let new = cases::table(random, ranks, trees);
        let mut tables = Tables::of(&old, &new);
        let (a, b) = (cases::number(random), cases::number(random));
        calls.sender_of(&mut tables, a, b);
        calls.trees_sent(&mut tables, a, b);
        calls.send_set(&mut tables, a, &[0; MAX_RANKS]);
        calls.receive_set(&mut tables, b, &[0; MAX_RANKS]);
    });
}

fn other_tables(run: &mut Run) {
    let mut differed = 0;
    while run.lacks(differed > 3_000, format_args!("{differed} differed")) {
        run.cases(10_000, |random, calls| {
            let (ranks, trees) = (random.number(1, 4), random.number(1, 4));
            let (other_ranks, other_trees) = (random.number(1, 4), random.number(1, 4));
            let mut old = cases::table(random, ranks as usize, trees);
            let mut new = cases::table(random, other_ranks as usize, other_trees);
            if random.chance(32) {
                old = cases::spoilt_table(random, old);
            }
            if random.chance(32) {
                new = cases::spoilt_table(random, new);
            }
            let mut tables = Tables::of(&old, &new);
            let (a, b) = (random.number(0, 4), random.number(0, 4));
            differed += u32::from(calls.sender_of(&mut tables, a, b).refusal == 4);
            calls.trees_sent(&mut tables, a, b);
            let room = random.below(5) as usize;
            calls.send_set(&mut tables, a, &vec![8; room]);
            calls.receive_set(&mut tables, b, &vec![8; room]);
        });
    }
}

/// A null pointer with count 0 is an empty list: the answers are those of the checks.
fn null_pointers(run: &mut Run) {
    let (bytes, list, out_bytes, out_list) = (ptr::null(), ptr::null(), ptr::null_mut(), ptr::null_mut());
    let table = bytes_of(&[0, 1]);
    let (at, length) = (table.as_ptr(), table.len());
    let none = Range { refusal: 2, first: 0, count: 0 };
    let nobody = Sender { refusal: 2, sender: 0 };
    let no_ranks = |refusal| Ranks { refusal, count: 0, smallest: 0, largest: 0 };
    let no_length = |refusal| library::Length { refusal, length: 0 };
    unsafe {
        assert_eq!(library::vejgodat_check_table(bytes, 0), 2);
        assert_eq!(library::vejgodat_check_mesh(bytes, 0), 7);
        assert_eq!(library::vejgodat_table_range(bytes, 0, 0), none);
        assert_eq!(library::vejgodat_write_table(1, list, 0, list, 0, out_bytes, 0), no_length(6));
        assert_eq!(library::vejgodat_write_table(1, [0].as_ptr(), 1, [1].as_ptr(), 1, out_bytes, 0), no_length(22));
        assert_eq!(library::vejgodat_table_from_leaves(1, list, 0, out_bytes, 0), no_length(6));
        assert_eq!(library::vejgodat_table_from_leaves(1, [1].as_ptr(), 1, out_bytes, 0), no_length(22));
        assert_eq!(library::vejgodat_sender_of(bytes, 0, bytes, 0, 0, 0), nobody);
        assert_eq!(library::vejgodat_sender_of(at, length, bytes, 0, 0, 0), nobody);
        assert_eq!(library::vejgodat_trees_sent(bytes, 0, bytes, 0, 0, 0), none);
        assert_eq!(library::vejgodat_trees_sent(bytes, 0, at, length, 0, 0), none);
        for set in [library::vejgodat_send_set, library::vejgodat_receive_set] {
            assert_eq!(set(bytes, 0, bytes, 0, 0, out_list, 0), no_ranks(2));
            let copy = table.clone();
            assert_eq!(set(at, length, copy.as_ptr(), length, 0, out_list, 0), no_ranks(22));
            // an empty set needs no room
            let (old, new) = (bytes_of(&[0, -1, 2]), bytes_of(&[0, 0, 2]));
            let empty = Ranks { refusal: 0, count: 0, smallest: -1, largest: -2 };
            assert_eq!(set(old.as_ptr(), 24, new.as_ptr(), 24, 0, out_list, 0), empty);
        }
    }
    // made above without a comparison with the model
    run.calls.seen.calls += 17;
}
