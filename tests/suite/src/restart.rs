//! Parts on another number of ranks. The second implementation gives a partition other ranks, and not its table, and writes
//! a part again from its decoded records. Needs the groups `part`, `message` and `area`.
use crate::calls::{bytes_written, length, show, written, Calls, Tables};
use crate::cases;
use crate::library::Length;
use crate::mesh_cases as meshes;
use crate::mesh_model::number_at;
use crate::model::{self, bytes_of, Answer, Trees, MAX_RANKS};
use crate::part::{other_values, words};
use crate::part_model::{faults, fits, header, Part, Share, HEADER};
use crate::refusals::{expect_seen, kinds};
use crate::second::Case;
use crate::{Run, Test};

pub const TESTS: &[Test] = &[
    ("restart: the triangles by hand", by_hand),
    ("restart: every small table with up to five ranks", small_tables),
    ("restart: random and spoilt tables there and back", random_tables),
    ("restart: the largest tables", largest),
    ("restart: empty parts of random meshes", empty_parts),
    ("restart: random parts there and back", there_and_back),
    ("restart: a part with each byte changed, and each buffer", each_byte),
    ("restart: first refusal", refusals),
    ("restart: every pair of 1 to 7 ranks, moved", moved),
    ("seen: each refusal from the restart calls", seen_refusals),
];

extern "C" {
    fn vejgodat_pad_table(table: *const u8, table_len: usize, ranks: u32, out: *mut u8, out_len: usize) -> Length;
    fn vejgodat_empty_part(
        table: *const u8,
        table_len: usize,
        rank: u32,
        dimension: u32,
        out: *mut u8,
        out_len: usize,
    ) -> Length;
    fn vejgodat_relabel_part(
        part: *const u8,
        part_len: usize,
        table: *const u8,
        table_len: usize,
        rank: u32,
        other: *const u8,
        other_len: usize,
        other_rank: u32,
        out: *mut u8,
        out_len: usize,
    ) -> Length;
}

/// The one table of the partition with so many ranks: those of both have the same trees, those of one alone have none.
fn padded(table: &[u8], ranks: u32, room: usize) -> Answer<Vec<u8>> {
    model::entries(table)?;
    model::table_length(ranks)?;
    let mut partition = model::ranges(&model::table(table)?);
    let ranks = ranks as usize;
    if partition.iter().skip(ranks).any(|range| !range.is_empty()) {
        return Err(64);
    }
    partition.resize(ranks, Trees { first: 0, end: 0 });
    fits(bytes_of(&model::table_of(&partition).expect("a valid partition")), Some(room))
}

fn empty(table: &[u8], rank: u32, dimension: u32, room: usize) -> Answer<Vec<u8>> {
    let share = Share::new(table, rank)?;
    if ![2, 3].contains(&dimension) {
        return Err(5);
    }
    if share.count() > 0 {
        return Err(64);
    }
    fits(header([dimension, share.trees, share.ranks, rank, share.first(), 0, 0, 0]), Some(room))
}

/// A table and a rank.
type Seat<'a> = (&'a [u8], u32);

fn relabelled(part: &[u8], (table, rank): Seat, (other, other_rank): Seat, room: usize) -> Answer<Vec<u8>> {
    let checks: [fn(&[u8]) -> Option<u32>; 2] =
        [|table| model::entries(table).err(), |table| model::table(table).err()];
    for check in checks {
        if let Some(refusal) = check(table).or(check(other)) {
            return Err(refusal);
        }
    }
    let (from, to) = (Share::new(table, rank)?, Share::new(other, other_rank)?);
    if !faults(part, &from).is_empty() {
        return Err(8);
    }
    if (from.trees, &from.range) != (to.trees, &to.range) {
        return Err(65);
    }
    let part = Part { share: to, ..Part::decode(part, &from) };
    fits(part.encode().expect("a sound part"), Some(room))
}

impl Calls {
    fn pad_table(&mut self, table: &[u8], ranks: u32, before: &[u8]) -> (Length, Vec<u8>) {
        let answer = padded(table, ranks, before.len());
        let (a, b) = (self.place(), self.place());
        let (table_at, out) = (self.old.put(table, a), self.out.put(before, b));
        let got = unsafe { vejgodat_pad_table(table_at, table.len(), ranks, out, before.len()) };
        let said = || format!("pad_table to {ranks} of {}", show(table));
        self.compare("pad_table", got, &answer, before, said)
    }

    fn empty_part(&mut self, table: &[u8], rank: u32, dimension: u32, before: &[u8]) -> (Length, Vec<u8>) {
        let answer = empty(table, rank, dimension, before.len());
        let (a, b) = (self.place(), self.place());
        let (table_at, out) = (self.old.put(table, a), self.out.put(before, b));
        let got = unsafe { vejgodat_empty_part(table_at, table.len(), rank, dimension, out, before.len()) };
        let said = || format!("empty_part of {rank}, dimension {dimension}, in {}", show(table));
        self.compare("empty_part", got, &answer, before, said)
    }

    fn relabel_part(&mut self, part: &[u8], from: Seat, to: Seat, before: &[u8]) -> (Length, Vec<u8>) {
        let answer = relabelled(part, from, to, before.len());
        let ((table, rank), (other, other_rank)) = (from, to);
        let (a, b, c, d) = (self.place(), self.place(), self.place(), self.place());
        let (part_at, table_at) = (self.object.put(part, a), self.old.put(table, b));
        let (other_at, out) = (self.new.put(other, c), self.out.put(before, d));
        let (n, m, k) = (part.len(), table.len(), other.len());
        let got =
            unsafe { vejgodat_relabel_part(part_at, n, table_at, m, rank, other_at, k, other_rank, out, before.len()) };
        assert!(self.object.bytes() == part && self.old.bytes() == table && self.new.bytes() == other, "input changed");
        let said =
            || format!("relabel_part {rank} of {} to {other_rank} of {}: {}", show(table), show(other), words(part));
        self.compare("relabel_part", got, &answer, before, said)
    }

    /// The answer and the buffer are the second implementation's.
    fn compare(
        &mut self,
        name: &'static str,
        got: Length,
        answer: &Answer<Vec<u8>>,
        before: &[u8],
        said: impl Fn() -> String,
    ) -> (Length, Vec<u8>) {
        assert_eq!(got, length(bytes_written(answer)), "{}", said());
        let after = written(before, answer);
        assert!(self.out.bytes() == after, "{}: wrote other bytes", said());
        self.note(name, got.refusal);
        (got, after)
    }
}

fn by_hand(run: &mut Run) {
    let case = Case::triangles();
    // {0,1,3,3}: rank 2 has no trees
    for (ranks, entries) in [(2, &[0, 1, 3][..]), (3, &[0, 1, 3, 3]), (5, &[0, 1, 3, 3, 3, 3])] {
        let (got, table) = run.calls.pad_table(&case.old, ranks, &[9; 60]);
        assert_eq!((got.refusal, got.length as usize), (0, 8 * entries.len()));
        assert!(
            table[..8 * entries.len()] == bytes_of(entries) && table[8 * entries.len()..].iter().all(|&byte| byte == 9)
        );
    }
    assert_eq!(run.calls.pad_table(&case.old, 1, &[9; 60]).0.refusal, 64);
    // O[2] of {0,3,-3,3} is K, and rank 2 still has a tree
    assert_eq!(run.calls.pad_table(&bytes_of(&[0, 3, -3, 3]), 1, &[9; 60]).0.refusal, 64);
    let (_, part) = run.calls.empty_part(&case.old, 2, 2, &[9; 32]);
    assert_eq!(
        part,
        [[2, 0, 0, 0], [3, 0, 0, 0], [3, 0, 0, 0], [2, 0, 0, 0], [3, 0, 0, 0], [0; 4], [0; 4], [0; 4]].concat()
    );
    assert_eq!(run.calls.empty_part(&case.old, 1, 2, &[9; 32]).0.refusal, 64);
    let part = case.old_part(1);
    let other = bytes_of(&[0, 0, 0, 1, 3]);
    let (got, moved) = run.calls.relabel_part(&part, (&case.old, 1), (&other, 3), &vec![9; part.len()]);
    assert_eq!(got.refusal, 0);
    assert_eq!(moved[8..16], [4, 0, 0, 0, 3, 0, 0, 0]);
    assert!(moved[..8] == part[..8] && moved[16..] == part[16..]);
}

fn small_tables(run: &mut Run) {
    for trees in 1..=3 {
        for ranks in 1..=4 {
            for table in cases::every_table(ranks, trees) {
                for to in 0..=5 {
                    run.calls.pad_table(&bytes_of(&table), to, &[7; 48]);
                }
            }
        }
    }
}

fn random_tables(run: &mut Run) {
    let mut back = 0;
    run.cases(4_000, |random, calls| {
        let ranks = random.number(1, 40) as usize;
        let trees = cases::trees(random).min(3_000);
        let mut table = cases::table(random, ranks, trees);
        if random.chance(64) {
            table = cases::spoilt_table(random, table);
        }
        let table = bytes_of(&table);
        let to = if random.chance(32) { cases::number(random) } else { random.number(0, 50) };
        let room = (8 * (to.min(60) as usize + 1) + random.below(3) as usize).saturating_sub(1);
        let (got, there) = calls.pad_table(&table, to, &random.bytes(room));
        if got.refusal == 0 {
            let there = &there[..got.length as usize];
            let (got, again) = calls.pad_table(there, ranks as u32, &random.bytes(table.len()));
            assert!(got.refusal == 0 && again == table, "another table came back");
            back += 1;
        }
    });
    assert!(back > 500, "{back} tables came back");
}

fn largest(run: &mut Run) {
    let table = bytes_of(&[0, 5]);
    let long = vec![1; 8 * MAX_RANKS + 8];
    let (got, there) = run.calls.pad_table(&table, MAX_RANKS as u32, &long);
    assert_eq!(got.refusal, 0);
    assert_eq!(run.calls.pad_table(&there, 1, &[0; 16]).1, table);
    for ranks in [0, MAX_RANKS as u32 + 1, u32::MAX] {
        assert_eq!(run.calls.pad_table(&table, ranks, &long).0.refusal, 2);
    }
    assert_eq!(run.calls.pad_table(&table, MAX_RANKS as u32, &long[1..]).0.refusal, 22);
}

fn empty_parts(run: &mut Run) {
    let mut written = 0;
    run.cases(2_000, |random, calls| {
        let ranks = random.number(1, 6) as usize;
        let trees = meshes::count(random).min(20);
        let mesh = meshes::sound(random, trees);
        let table = bytes_of(&cases::table(random, ranks, trees as u32));
        let rank = random.number(0, ranks as u32);
        let dimension = if random.chance(16) { cases::number(random) } else { number_at(&mesh, 0) };
        let room = 30 + random.below(5) as usize;
        let (got, part) = calls.empty_part(&table, rank, dimension, &random.bytes(room));
        if got.refusal == 0 {
            assert_eq!(calls.check_part(&part[..32], &table, rank), 0);
            if dimension == number_at(&mesh, 0) {
                assert_eq!(calls.cut_part(&mesh, &table, rank, &[0; 32]).1, part[..32]);
            }
            written += 1;
        }
    });
    assert!(written > 100, "{written} empty parts");
}

fn there_and_back(run: &mut Run) {
    let mut accepted = [0, 0];
    run.cases(1_500, |random, calls| {
        let ranks = random.number(1, 5) as usize;
        let trees = meshes::count(random).min(60);
        let mesh = meshes::sound(random, trees);
        let entries = cases::table(random, ranks, trees as u32);
        let table = bytes_of(&entries);
        let rank = random.number(0, ranks as u32 - 1);
        // with other ranks, with one entry other, or any table
        let other = match random.below(3) {
            0 => bytes_of(&[&entries[..], &vec![trees as i64; random.below(4) as usize]].concat()),
            1 => bytes_of(&cases::spoilt_table(random, entries)),
            _ => bytes_of(&cases::table(random, ranks, trees as u32)),
        };
        let length = calls.part_length(&mesh, &table, rank).length as usize;
        let (_, part) = calls.cut_part(&mesh, &table, rank, &vec![0; length]);
        let to = if random.chance(64) { random.number(0, 5) } else { rank };
        let after = random.below(9) as usize;
        let (got, there) = calls.relabel_part(&part, (&table, rank), (&other, to), &random.bytes(length + after));
        accepted[usize::from(got.refusal == 0)] += 1;
        if got.refusal == 0 {
            let there = &there[..length];
            assert_eq!(calls.cut_part(&mesh, &other, to, &vec![0; length]).1, there);
            let (_, back) = calls.relabel_part(there, (&other, to), (&table, rank), &vec![3; length]);
            assert!(back == part, "another part came back");
        }
    });
    assert!(accepted.iter().all(|&many| many > 200), "{accepted:?}");
}

fn each_byte(run: &mut Run) {
    let case = Case::triangles();
    let part = case.old_part(1);
    let other = bytes_of(&[0, 1, 3]);
    for at in 0..part.len() {
        for value in other_values(part[at]) {
            let mut damaged = part.clone();
            damaged[at] = value;
            run.calls.relabel_part(&damaged, (&case.old, 1), (&other, 1), &vec![5; part.len()]);
        }
    }
    for end in 0..part.len() {
        assert_eq!(
            run.calls.relabel_part(&part[..end], (&case.old, 1), (&other, 1), &vec![5; part.len()]).0.refusal,
            8
        );
    }
    for room in 0..part.len() + 3 {
        let refusal = if room < part.len() { 22 } else { 0 };
        assert_eq!(run.calls.relabel_part(&part, (&case.old, 1), (&other, 1), &vec![5; room]).0.refusal, refusal);
        run.calls.empty_part(&case.old, 2, 2, &vec![5; room]);
        run.calls.pad_table(&case.old, 9, &vec![5; room]);
    }
}

/// The first number of the list that isn't 0.
fn first(numbers: &[u32]) -> u32 {
    numbers.iter().copied().find(|&number| number != 0).unwrap_or(0)
}

fn refusals(run: &mut Run) {
    let case = Case::triangles();
    let part = case.old_part(1);
    let mut bad = part.clone();
    bad[HEADER + 39] = 16;
    let with_own = || kinds().into_iter().chain([(case.old.clone(), 0)]);
    for (table, fails) in with_own() {
        for ranks in [0, 1, 3, 16_385] {
            run.calls.pad_table(&table, ranks, &[1; 31]);
        }
        for rank in [0, 2, 9] {
            for dimension in [1, 2, 3, 4] {
                run.calls.empty_part(&table, rank, dimension, &[1; 31]);
            }
        }
        for (other, other_fails) in with_own() {
            for [rank, other_rank] in [[1, 1], [1, 2], [9, 1], [1, 9]] {
                for (given, sound) in [(&part, true), (&bad, false)] {
                    for room in [part.len() - 1, part.len()] {
                        let tables = [fails, other_fails];
                        let lengths = if tables.contains(&2) { 2 } else { first(&tables) };
                        let far = if rank > 4 || other_rank > 4 { 5 } else { 0 };
                        let (got, _) =
                            run.calls.relabel_part(given, (&table, rank), (&other, other_rank), &vec![3; room]);
                        // what fails before the part is looked at
                        if lengths != 0 || far != 0 {
                            assert_eq!(got.refusal, first(&[lengths, far]));
                        } else if table == case.old && other == case.old && rank == 1 {
                            let differ = if other_rank == rank { 0 } else { 65 };
                            let short = if room < part.len() { 22 } else { 0 };
                            assert_eq!(got.refusal, first(&[if sound { 0 } else { 8 }, differ, short]));
                        }
                    }
                }
            }
        }
    }
}

/// What P ranks have is given the larger number of ranks, moved, and given Q ranks.
fn moved(run: &mut Run) {
    let sizes = (1..=7).flat_map(|p| (1..=7).map(move |q| (p, q)));
    let sizes: Vec<(u32, u32)> = sizes.collect();
    let mut turn = 0;
    run.cases(2 * sizes.len() as u64, |random, calls| {
        let (p, q) = sizes[turn % sizes.len()];
        turn += 1;
        let m = p.max(q);
        let trees = random.number(1, 12);
        let mesh = meshes::sound(random, trees as usize);
        let dimension = number_at(&mesh, 0);
        let [old, new] = [p, q].map(|ranks| bytes_of(&cases::table(random, ranks as usize, trees)));
        let tables = [&old, &new].map(|table| calls.pad_table(table, m, &vec![0; 8 * (m as usize + 1)]).1);
        let pair = Tables::new(&tables[0], &tables[1]);
        let parts: Vec<Vec<u8>> = (0..m)
            .map(|rank| {
                if rank >= p {
                    return calls.empty_part(&tables[0], rank, dimension, &[0; 32]).1;
                }
                let length = calls.part_length(&mesh, &old, rank).length as usize;
                let (_, part) = calls.cut_part(&mesh, &old, rank, &vec![0; length]);
                calls.relabel_part(&part, (&old, rank), (&tables[0], rank), &vec![0; length]).1
            })
            .collect();
        for rank in 0..q {
            let size = calls.area_length(&pair, rank, dimension).length as usize;
            let (_, mut area) = calls.open_area(&pair, rank, dimension, 7, &vec![0; size]);
            for (sender, part) in parts.iter().enumerate() {
                let ends = [sender as u32, rank];
                let length = calls.message_length(part, &pair, ends);
                if length.refusal == 0 {
                    let (_, message) = calls.build_message(part, &pair, ends, 7, &vec![0; length.length as usize]);
                    area = calls.deliver(&area, &message).1;
                }
            }
            let length = calls.part_of_area_length(&area).length as usize;
            let (_, joined) = calls.close_area(&area, &vec![0; length]);
            let (got, part) = calls.relabel_part(&joined, (&tables[1], rank), (&new, rank), &vec![0; length]);
            assert_eq!(got.refusal, 0);
            assert_eq!(calls.cut_part(&mesh, &new, rank, &vec![0; length]).1, part);
        }
    });
}

fn seen_refusals(run: &mut Run) {
    expect_seen(
        run,
        &[("pad_table", &[2, 3, 64, 22]), ("empty_part", &[2, 3, 5, 64, 22]), ("relabel_part", &[2, 3, 5, 8, 65, 22])],
    );
}
