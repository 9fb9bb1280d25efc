//! The nearest holder sends (C-21): the request's examples, a tree on many ranks, and an area of the rule before it.
use crate::area_model::{trees_at, words_at};
use crate::calls::Tables;
use crate::library::Sender;
use crate::second::Case;
use crate::{mesh_cases, Run, Test};

pub const TESTS: &[Test] = &[
    ("nearest: the request's examples", examples),
    ("nearest: a tree on four hundred ranks", many_holders),
    ("nearest: an area of the rule before", area_before),
];

/// The table by which every rank has tree 0, the only one.
fn on_all(ranks: usize) -> Vec<i64> {
    let mut table = vec![-1; ranks + 1];
    (table[0], table[ranks]) = (0, 1);
    table
}

fn examples(run: &mut Run) {
    let cases: [(&[i64], u32, i32); 4] =
        [(&[0, -1, 1, 1], 2, 1), (&[0, 1, -1, 1], 1, 0), (&[0, 1, 1, -1, 1], 2, 3), (&[0, 0, -1, 1], 0, 1)];
    for (old, receiver, sender) in cases {
        let mut tables = Tables::of(old, &on_all(old.len() - 1));
        assert_eq!(run.calls.sender_of(&mut tables, 0, receiver), Sender { refusal: 0, sender }, "{old:?}");
    }
}

/// An empty rank after each rank that has the tree; all get it, and no rank sends it to more than itself and the one after it.
fn many_holders(run: &mut Run) {
    let holders = 400;
    let ranks = 2 * holders;
    let mut old: Vec<i64> = (0..ranks).map(|p| if p % 2 == 0 { -1 } else { 1 }).collect();
    old[0] = 0;
    old.push(1);
    let mut tables = Tables::of(&old, &on_all(ranks));
    let room = vec![0; ranks];
    for p in 0..ranks as u32 {
        let (got, list) = run.calls.send_set(&mut tables, p, &room);
        let expected: &[u32] = if p % 2 == 0 { &[p, p + 1] } else { &[] };
        assert_eq!(got.count as usize, expected.len(), "the send set of {p}");
        assert_eq!(&list[..expected.len()], expected, "the send set of {p}");
        let (got, list) = run.calls.receive_set(&mut tables, p, &room);
        assert_eq!((got.count, list[0]), (1, p - p % 2), "the receive set of {p}");
    }
}

/// Rank 2 gets tree 0 from rank 1, and got it from rank 0 by the rule before: an area that has heard rank 0 is not sound.
fn area_before(run: &mut Run) {
    let mesh = mesh_cases::apart(&[0], 0);
    let tables = Tables::of(&[0, -1, 1, 1], &on_all(3));
    let case = Case { mesh: mesh.clone(), old: tables.old.clone(), new: tables.new.clone(), epoch: 7 };
    let mut area = case.fresh(2);
    assert_eq!(run.calls.progress_of(&area).refusal, 0);
    let (words, slot) = (words_at(3), trees_at(3));
    area[slot..][..64].copy_from_slice(&mesh[8..][..64]);
    for (heard, refusal) in [(1, 0), (0, 10), (2, 10)] {
        area[words] = 1 << heard;
        assert_eq!(run.calls.progress_of(&area).refusal, refusal, "heard {heard}");
    }
}
