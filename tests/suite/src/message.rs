//! Messages: the check of the layout, the length, and building one. Needs the group `part`.
use crate::calls::{bytes_written, length, shown, written, Calls, Tables};
use crate::cases;
use crate::library::Length;
use crate::mesh_cases::{self as meshes, apart, put};
use crate::mesh_model::{number_at, Link, Record, UNUSED};
use crate::message_model::{self, Fault, Message};
use crate::model::{bytes_of, Pair};
use crate::part::{self, other_values, set, words};
use crate::part_model::{self, header, GHOST, HEADER, TREE};
use crate::random::Random;
use crate::refusals::{expect_seen, first_of, kinds};
use crate::second::{triangle_messages, Case};
use crate::{Run, Test};
use std::cell::RefCell;
use std::collections::{BTreeMap, BTreeSet};
use std::ptr;

pub const TESTS: &[Test] = &[
    ("message: the document's three triangles", documents_triangles),
    ("message: every pair of small tables", every_pair),
    ("message: random meshes, every pair", random_messages),
    ("message: each tree and each ghost once", each_once),
    ("message: many ranks and trees", many),
    ("message: buffers of each length", each_buffer),
    ("message: each byte changed", each_byte),
    ("message: each length cut", each_cut),
    ("message: one field damaged", one_field_damaged),
    ("message: several fields damaged", several_damaged),
    ("message: any counts, any bytes", any_bytes),
    ("message: each byte of the part changed", each_byte_of_part),
    ("message: damaged parts", damaged_parts),
    ("message: each byte of either table changed", each_byte_of_tables),
    ("message: other tables, any rank", other_tables),
    ("message: the first refusal", refusals),
    ("message: null pointers with count 0", null_pointers),
    ("seen: each refusal from every message call", seen_refusals),
    ("seen: messages in layout, and each sentence broken", seen_faults),
];

extern "C" {
    fn vejgodat_check_message(message: *const u8, message_len: usize) -> u32;
    fn vejgodat_message_length(
        part: *const u8,
        part_len: usize,
        old: *const u8,
        old_len: usize,
        new: *const u8,
        new_len: usize,
        sender: u32,
        receiver: u32,
    ) -> Length;
    fn vejgodat_build_message(
        part: *const u8,
        part_len: usize,
        old: *const u8,
        old_len: usize,
        new: *const u8,
        new_len: usize,
        sender: u32,
        receiver: u32,
        epoch: u32,
        out: *mut u8,
        out_len: usize,
    ) -> Length;
}

thread_local! {
    /// how often a message broke exactly these sentences; none is one in layout
    static FAULTS: RefCell<BTreeMap<BTreeSet<Fault>, u64>> = RefCell::default();
}

impl Calls {
    pub fn check_message(&mut self, message: &[u8]) -> u32 {
        let faults = message_model::faults(message);
        let expected = if faults.is_empty() { 0 } else { 11 };
        let place = self.place();
        let at = self.object.put(message, place);
        let got = unsafe { vejgodat_check_message(at, message.len()) };
        assert_eq!(got, expected, "check_message, {faults:?}: {}", words(message));
        assert!(self.object.bytes() == message, "check_message changed the message");
        self.note("check_message", got);
        FAULTS.with(|seen| *seen.borrow_mut().entry(faults).or_default() += 1);
        got
    }

    pub fn message_length(&mut self, part: &[u8], tables: &Tables, [p, q]: [u32; 2]) -> Length {
        let answer = message_model::build_message(part, &tables.old, &tables.new, [p, q], 0, None);
        let place = self.place();
        let at = self.object.put(part, place);
        let (a, a_len, b, b_len) = self.put_tables(tables);
        let got = unsafe { vejgodat_message_length(at, part.len(), a, a_len, b, b_len, p, q) };
        let said = || format!("message_length {p} to {q}, {}: {}", shown(tables), words(part));
        assert_eq!(got, length(bytes_written(&answer)), "{}", said());
        assert!(self.object.bytes() == part, "{}: the part changed", said());
        self.note_tables("message_length", got.refusal, tables);
        got
    }

    /// The answer, and the buffer after it.
    pub fn build_message(
        &mut self,
        part: &[u8],
        tables: &Tables,
        [p, q]: [u32; 2],
        epoch: u32,
        before: &[u8],
    ) -> (Length, Vec<u8>) {
        let answer = message_model::build_message(part, &tables.old, &tables.new, [p, q], epoch, Some(before.len()));
        let (place, out_place) = (self.place(), self.place());
        let at = self.object.put(part, place);
        let out = self.out.put(before, out_place);
        let (a, a_len, b, b_len) = self.put_tables(tables);
        let got = unsafe { vejgodat_build_message(at, part.len(), a, a_len, b, b_len, p, q, epoch, out, before.len()) };
        let said = || format!("build_message {p} to {q}, {}: {}", shown(tables), words(part));
        assert_eq!(got, length(bytes_written(&answer)), "{}", said());
        let after = written(before, &answer);
        let now = self.out.bytes();
        assert!(now == after, "{}: wrote {}, not {}", said(), words(now), words(&after));
        assert!(self.object.bytes() == part, "{}: the part changed", said());
        self.note_tables("build_message", got.refusal, tables);
        (got, after)
    }

    /// The length, and the message in a buffer of that length; none where there is no tree.
    fn message(&mut self, part: &[u8], tables: &Tables, ends: [u32; 2], epoch: u32) -> Option<Vec<u8>> {
        let length = self.message_length(part, tables, ends);
        let (got, message) = self.build_message(part, tables, ends, epoch, &vec![0xEE; length.length as usize]);
        assert_eq!(got, length);
        if got.refusal == 0 {
            Some(message)
        } else {
            None
        }
    }
}

fn tables_of(case: &Case) -> Tables {
    Tables::new(&case.old, &case.new)
}

/// Any case with some messages of the given senders; small.
fn any_case(random: &mut Random, trees: usize) -> Case {
    let (trees, ranks) = (meshes::count(random).min(trees), random.number(1, 5) as usize);
    Case::random(random, trees, ranks)
}

/// A message of the case, if it has one with ghosts, else any.
pub fn any_message(random: &mut Random, case: &Case) -> Vec<u8> {
    let messages: Vec<Vec<u8>> = case.messages().into_iter().map(|(_, message)| message).collect();
    for _ in 0..4 {
        let message = random.pick(&messages);
        if number_at(&message, 28) > 0 {
            return message;
        }
    }
    random.pick(&messages)
}

/// The place of each record of a message in layout.
pub fn places(message: &[u8]) -> Vec<usize> {
    let (trees, ghosts) = (number_at(message, 24) as usize, number_at(message, 28) as usize);
    let ghosts_at = HEADER + TREE * trees;
    (0..trees).map(|at| HEADER + TREE * at).chain((0..ghosts).map(|at| ghosts_at + GHOST * at)).collect()
}

fn near(random: &mut Random, now: u32, trees: u32) -> u32 {
    match random.below(7) {
        0 | 1 => random.number(0, trees),
        2 => trees.wrapping_add(random.number(0, 2)).wrapping_sub(1),
        3 => now ^ 1 << random.below(32),
        4 => now.wrapping_add(random.pick(&[1, u32::MAX])),
        5 => UNUSED,
        _ => cases::number(random),
    }
}

/// One field of a message in layout becomes another number, mostly one that is near.
pub fn one_field(random: &mut Random, message: &[u8]) -> Vec<u8> {
    let mut message = message.to_vec();
    let (places, trees) = (places(&message), number_at(&message, 8));
    if places.is_empty() || random.chance(48) {
        let at = 4 * random.below(8) as usize;
        let word = near(random, number_at(&message, at), trees);
        put(&mut message, at, word);
        return message;
    }
    let at = random.pick(&places);
    let record = Record::decode(&message[at..]);
    let (limit, faces) = (record.face_limit() as u8, record.faces().len() as u64);
    let face = if faces > 0 && random.chance(200) { random.below(faces) } else { random.below(6) } as usize;
    match random.below(8) {
        0 => {
            let number = near(random, record.number, trees);
            put(&mut message, at, number);
        }
        1 => message[at + 4] = if random.chance(200) { random.below(8) as u8 } else { random.next() as u8 },
        2 => message[at + random.pick(&[5, 6, 7, 38, 39])] = random.pick(&[0, 1, 15, 16, 255]),
        3 | 4 => {
            let number = near(random, record.neighbours[face], trees);
            put(&mut message, at + 8 + 4 * face, number);
        }
        5 => {
            let step = random.pick(&[1, 255, limit, limit.wrapping_neg()]);
            message[at + 32 + face] = message[at + 32 + face].wrapping_add(step);
        }
        6 => message[at + 32 + face] = random.next() as u8,
        _ => message[at + random.below(40) as usize] ^= 1 << random.below(8),
    }
    message
}

/// Records come, go, change places, numbers or kind; links are any below K. Many of these are in layout.
pub fn several_fields(random: &mut Random, message: &[u8]) -> Vec<u8> {
    let mut message = Message::decode(message).expect("in layout");
    let (trees, ghosts) = (message.records.len() as u64, message.ghosts.len() as u64);
    let ghost = random.below(ghosts.max(1)) as usize;
    let tree = random.below(trees.max(1)) as usize;
    match random.below(12) {
        0 if ghosts > 0 => _ = message.ghosts.remove(ghost),
        1 if trees > 0 => _ = message.records.remove(tree),
        2 if ghosts > 0 => message.ghosts.swap(ghost, random.below(ghosts) as usize),
        3 if trees > 0 => message.records.swap(tree, random.below(trees) as usize),
        4 if ghosts > 0 => {
            let copy = message.ghosts[ghost].clone();
            message.ghosts.insert(ghost, copy);
        }
        5 if trees > 0 => {
            let copy = message.records[tree].clone();
            message.records.insert(tree, copy);
        }
        // a ghost with another number; also one that isn't below K
        6 if ghosts > 0 => {
            let low = if ghost > 0 { message.ghosts[ghost - 1].number.saturating_add(1) } else { 0 };
            let high = message.ghosts.get(ghost + 1).map_or(message.trees + 2, |next| next.number);
            message.ghosts[ghost].number = random.number(low, high.max(low));
        }
        // one of the trees as a ghost
        7 | 8 if trees > 0 => {
            let copy = message.records[tree].record.clone();
            let at = message.ghosts.iter().filter(|ghost| ghost.number < copy.number).count();
            message.ghosts.insert(at, copy);
        }
        // any links
        9 | 10 => {
            let (all, limit) = (message.trees, random.pick(&[1, 4, 9]));
            let records = message.records.iter_mut().map(|tree| &mut tree.record);
            for record in records.chain(&mut message.ghosts) {
                for face in 0..record.faces().len() {
                    if random.chance(100) {
                        let (neighbour, other) = (random.below(all.into()) as u32, random.below(4) as u32);
                        set(record, face, Link { neighbour, face: other, orientation: random.below(limit) as u32 });
                    }
                }
            }
        }
        // no records, perhaps another dimension
        _ => {
            message.records.clear();
            if random.chance(200) {
                message.ghosts.clear();
            }
            message.dimension = random.number(0, 5);
        }
    }
    message.encode()
}

// ---- tests

fn documents_triangles(run: &mut Run) {
    let case = Case::triangles();
    let tables = tables_of(&case);
    let expected: BTreeMap<[u32; 2], Vec<u8>> = triangle_messages().into_iter().collect();
    for p in 0..3 {
        let part = case.old_part(p);
        for q in 0..3 {
            let got = run.calls.message(&part, &tables, [p, q], 7);
            assert_eq!(got.as_ref(), expected.get(&[p, q]), "{p} to {q}");
            if let Some(message) = got {
                assert_eq!(run.calls.check_message(&message), 0);
            } else {
                assert_eq!(run.calls.message_length(&part, &tables, [p, q]).refusal, 9);
            }
        }
    }
}

/// Every message of the case, by the library alone.
fn all_messages(calls: &mut Calls, case: &Case) -> BTreeMap<[u32; 2], Vec<u8>> {
    let tables = tables_of(case);
    let mut messages = BTreeMap::new();
    for p in 0..case.ranks() {
        let part = case.old_part(p);
        for q in 0..case.ranks() {
            if let Some(message) = calls.message(&part, &tables, [p, q], case.epoch) {
                assert_eq!(calls.check_message(&message), 0);
                messages.insert([p, q], message);
            }
        }
    }
    messages
}

fn every_pair(run: &mut Run) {
    let mut messages = 0;
    while run.lacks(messages > 5_000, format_args!("{messages} messages")) {
        run.cases(2, |random, calls| {
            for (ranks, trees) in [(1, 1), (2, 1), (1, 2), (2, 2), (3, 2), (2, 3), (2, 4), (3, 3)] {
                let all = cases::every_table(ranks, trees);
                for old in &all {
                    for new in &all {
                        let mesh = meshes::sound(random, trees as usize);
                        let case = Case { mesh, old: bytes_of(old), new: bytes_of(new), epoch: random.next() as u32 };
                        messages += all_messages(calls, &case).len();
                    }
                }
            }
        });
    }
}

fn random_messages(run: &mut Run) {
    let (mut messages, mut with_ghosts) = (0, 0);
    while run.lacks(
        messages > 2_000 && with_ghosts > 500,
        format_args!("{messages} messages, {with_ghosts} with three ghosts or more"),
    ) {
        run.cases(2_000, |random, calls| {
            let case = any_case(random, 24);
            for message in all_messages(calls, &case).values() {
                messages += 1;
                with_ghosts += u32::from(number_at(message, 28) > 2);
            }
        });
    }
}

/// Of the library's own bytes alone: what a rank gets is, sorted, the trees and ghosts of its new part, each once.
fn each_once(run: &mut Run) {
    run.cases(200, |random, calls| {
        let case = any_case(random, 24);
        let messages = all_messages(calls, &case);
        let global = |record: &[u8]| number_at(record, 0);
        for q in 0..case.ranks() {
            let room = calls.part_length(&case.mesh, &case.new, q).length as usize;
            let (_, part) = calls.cut_part(&case.mesh, &case.new, q, &vec![0; room]);
            let (mut trees, mut ghosts): (Vec<&[u8]>, Vec<&[u8]>) = (Vec::new(), Vec::new());
            for message in messages.iter().filter(|(ends, _)| ends[1] == q).map(|(_, message)| message) {
                let (records, rest) = message[HEADER..].split_at(TREE * number_at(message, 24) as usize);
                trees.extend(records.chunks(TREE));
                ghosts.extend(rest.chunks(GHOST));
            }
            trees.sort_by_key(|record| global(record));
            ghosts.sort_by_key(|record| global(record));
            let (own, others) = part[HEADER..].split_at(TREE * number_at(&part, 20) as usize);
            assert_eq!(ghosts.concat(), others, "the ghosts of {q}");
            let first = number_at(&part, 16) as usize;
            let in_mesh = &case.mesh[meshes::place(first)..meshes::place(first + own.len() / TREE)];
            assert_eq!(trees.concat(), in_mesh, "the trees of {q}");
        }
    });
}

fn many(run: &mut Run) {
    run.cases(12, |random, calls| {
        let (trees, ranks) = (random.number(100, 1_500), random.pick(&[7, 60, 1_024]));
        let case = Case::random(random, trees as usize, ranks);
        let mut tables = tables_of(&case);
        let mut made = 0;
        for _ in 0..12 {
            let q = random.below(ranks as u64) as u32;
            let (set, list) = calls.receive_set(&mut tables, q, &vec![0; ranks]);
            if set.count > 0 && made < 4 {
                made += 1;
                let p = random.pick(&list[..set.count as usize]);
                let message = calls.message(&case.old_part(p), &tables, [p, q], case.epoch).expect("a tree");
                assert_eq!(calls.check_message(&message), 0);
            }
        }
    });
}

fn each_buffer(run: &mut Run) {
    run.cases(30, |random, calls| {
        let case = any_case(random, 5);
        let tables = tables_of(&case);
        let message = any_message(random, &case);
        let ends = [number_at(&message, 16), number_at(&message, 20)];
        let part = case.old_part(ends[0]);
        for room in 0..message.len() + 9 {
            let before = random.bytes(room);
            let (got, _) = calls.build_message(&part, &tables, ends, case.epoch, &before);
            assert_eq!(got.refusal, if room < message.len() { 22 } else { 0 });
        }
        calls.build_message(&part, &tables, ends, case.epoch, &vec![0; 3 * message.len()]);
    });
}

fn each_byte(run: &mut Run) {
    let mut messages: Vec<Vec<u8>> = triangle_messages().into_iter().map(|(_, message)| message).collect();
    run.cases(40, |random, _| {
        let case = any_case(random, 5);
        messages.push(any_message(random, &case));
    });
    for (at_case, message) in messages.iter().enumerate() {
        assert_eq!(run.calls.check_message(message), 0);
        let mut changed = message.clone();
        for at in 0..message.len() {
            let byte = message[at];
            let values = if at_case < 4 { (0..=255).collect() } else { other_values(byte) };
            for value in values {
                changed[at] = value;
                run.calls.check_message(&changed);
            }
            changed[at] = byte;
        }
    }
}

fn each_cut(run: &mut Run) {
    run.cases(60, |random, calls| {
        let case = any_case(random, 5);
        let message = any_message(random, &case);
        let longer = [message.clone(), random.bytes(70)].concat();
        for length in 0..=longer.len() {
            assert_eq!(calls.check_message(&longer[..length]), if length == message.len() { 0 } else { 11 });
            calls.check_message(&longer[length..]);
        }
        // other counts of the same length in all, and the header says so
        for trees in 0..12 {
            for ghosts in 0..12 {
                let mut other = message.clone();
                put(&mut other, 24, trees);
                put(&mut other, 28, ghosts);
                calls.check_message(&other);
            }
        }
    });
}

fn one_field_damaged(run: &mut Run) {
    run.cases(6_000, |random, calls| {
        let case = any_case(random, 12);
        let message = any_message(random, &case);
        for _ in 0..12 {
            calls.check_message(&one_field(random, &message));
        }
    });
}

fn several_damaged(run: &mut Run) {
    let mut fine = 0;
    while run.lacks(fine > 5_000, format_args!("only {fine} in layout")) {
        run.cases(6_000, |random, calls| {
            let case = any_case(random, 12);
            let message = any_message(random, &case);
            for _ in 0..8 {
                let other = several_fields(random, &message);
                fine += u32::from(calls.check_message(&other) == 0 && other != message);
                if message_model::check_message(&other) == 0 {
                    calls.check_message(&one_field(random, &other));
                }
            }
        });
    }
}

fn any_bytes(run: &mut Run) {
    // 64 t + 40 g is as long as the message, but for what is beyond 32 bits
    for (trees, ghosts) in [
        (1 << 26, 0),
        (1 << 27, 0),
        (0, 1 << 29),
        (1 << 26, 1 << 29),
        (u32::MAX, u32::MAX),
        (5 << 24, u32::MAX / 8 + 1),
    ] {
        for (a, b) in [(0, 0), (1, 0), (0, 1), (2, 3)] {
            let words = [0, 2, 9, 1, 0, 0, (trees as u32).wrapping_add(a), (ghosts as u32).wrapping_add(b)];
            for length in [0, 40, 64, 104, 128, 248] {
                run.calls.check_message(&[header(words), vec![0; length]].concat());
            }
        }
    }
    run.cases(30_000, |random, calls| {
        let (trees, ghosts) = (random.number(0, 3), random.number(0, 3));
        let words = [random.next() as u32, random.number(2, 3), cases::number(random), cases::number(random)];
        let [epoch, dimension, all, ranks] = words;
        let mask = random.pick(&[0, 1, 3, 7, 255]);
        let mut message = header([epoch, dimension, all, ranks, cases::number(random), 0, trees, ghosts]);
        let records = random.bytes(TREE * trees as usize + GHOST * ghosts as usize);
        message.extend(records.iter().map(|byte| byte & mask));
        calls.check_message(&message);
        // header words that the layout doesn't bound
        let case = any_case(random, 4);
        let mut message = any_message(random, &case);
        for at in [0, 12, 16, 20] {
            put(&mut message, at, cases::number(random));
        }
        assert_eq!(calls.check_message(&message), 0);
        put(&mut message, 8, cases::number(random));
        calls.check_message(&message);
        let length = random.below(200) as usize;
        calls.check_message(&random.bytes(length));
    });
}

fn each_byte_of_part(run: &mut Run) {
    let mut built = 0;
    while run.lacks(built > 1_000, format_args!("{built} built")) {
        let mut cases = vec![(Case::triangles(), [1, 1]), (Case::triangles(), [1, 2]), (Case::triangles(), [0, 0])];
        run.cases(20, |random, _| {
            let case = any_case(random, 5);
            let message = any_message(random, &case);
            cases.push((case, [number_at(&message, 16), number_at(&message, 20)]));
        });
        for (case, ends) in &cases {
            let tables = tables_of(case);
            let mut part = case.old_part(ends[0]);
            for at in 0..part.len() {
                let byte = part[at];
                for value in other_values(byte) {
                    part[at] = value;
                    let (got, _) = run.calls.build_message(&part, &tables, *ends, 9, &[0xEE; 1_600]);
                    built += u32::from(got.refusal == 0);
                }
                part[at] = byte;
            }
            let longer = [&part[..], &[0; 9]].concat();
            for length in 0..longer.len() {
                run.calls.build_message(&longer[..length], &tables, *ends, 9, &[0xEE; 1_600]);
                run.calls.message_length(&longer[..length], &tables, *ends);
            }
        }
    }
}

/// Parts that are sound, but of no mesh that the other ranks have, give messages too.
fn damaged_parts(run: &mut Run) {
    let mut built = 0;
    while run.lacks(built > 3_000, format_args!("{built} built")) {
        run.cases(5_000, |random, calls| {
            let trees = meshes::count(random).min(12);
            let of_part = part::Case::random(random, trees);
            let ranks = of_part.table.len() / 8 - 1;
            let new = bytes_of(&cases::table(random, ranks, trees as u32));
            let tables = Tables::new(&of_part.table, &new);
            for _ in 0..6 {
                let part = if random.chance(128) {
                    part::several_fields(random, &of_part)
                } else {
                    part::one_field(random, &of_part)
                };
                let ends = [of_part.rank, random.below(ranks as u64) as u32];
                let message = calls.message(&part, &tables, ends, 1);
                if let Some(message) = message {
                    built += 1;
                    assert_eq!(calls.check_message(&message), 0);
                }
            }
        });
    }
}

fn each_byte_of_tables(run: &mut Run) {
    let case = Case::triangles();
    for ends in [[0, 0], [1, 1], [1, 2], [2, 2]] {
        let part = case.old_part(ends[0]);
        for at in 0..case.old.len() {
            for value in (0..=255).step_by(3).chain([1, 2, 4, 5, 254]) {
                let (mut old, mut new) = (case.old.clone(), case.new.clone());
                old[at] = value;
                new[at] = value;
                for tables in [Tables::new(&old, &case.new), Tables::new(&case.old, &new), Tables::new(&old, &new)] {
                    run.calls.message_length(&part, &tables, ends);
                    run.calls.build_message(&part, &tables, ends, 7, &[0xEE; 200]);
                }
            }
            for tables in [Tables::new(&case.old[..at], &case.new), Tables::new(&case.old, &case.new[..at])] {
                run.calls.message_length(&part, &tables, ends);
                run.calls.build_message(&part, &tables, ends, 7, &[0xEE; 200]);
            }
        }
    }
}

fn other_tables(run: &mut Run) {
    let mut refused = [0; 10];
    while run.lacks([0, 3, 4, 5, 8, 9].iter().all(|&number| refused[number] > 100), format_args!("{refused:?}")) {
        run.cases(6_000, |random, calls| {
            let case = any_case(random, 8);
            let ranks = case.ranks();
            let any_rank = |random: &mut Random| {
                if random.chance(240) {
                    random.below(u64::from(ranks) + 1) as u32
                } else {
                    cases::number(random)
                }
            };
            let part = case.old_part(random.below(ranks.into()) as u32);
            for _ in 0..4 {
                let (other_ranks, other_trees) = (random.number(1, 5) as usize, random.number(1, 9));
                let other = cases::table(random, other_ranks, other_trees);
                let spoilt = cases::spoilt_table(random, other.clone());
                let pick = |random: &mut Random, good: &Vec<u8>| match random.below(16) {
                    0 => bytes_of(&other),
                    1 => bytes_of(&spoilt),
                    _ => good.clone(),
                };
                let tables = Tables::new(&pick(random, &case.old), &pick(random, &case.new));
                let ends = [any_rank(random), any_rank(random)];
                let got = calls.message_length(&part, &tables, ends);
                refused[got.refusal as usize] += 1;
                calls.build_message(&part, &tables, ends, cases::number(random), &vec![1; got.length as usize]);
            }
        });
    }
}

/// Each argument good or bad by itself: the smallest number of those that fail.
fn refusals(run: &mut Run) {
    let mesh = apart(&[1; 5], 4);
    let calls = &mut run.calls;
    for (old, old_fails) in kinds() {
        for (new, new_fails) in kinds() {
            let tables = Tables::new(&old, &new);
            let differ = old.len() != new.len() || old.rchunks(8).next() != new.rchunks(8).next();
            let so_far = first_of(&[old_fails, new_fails, if differ { 4 } else { 0 }]);
            let first = |failing: &[u32]| if so_far > 0 { so_far } else { first_of(failing) };
            for [p, q] in [[0, 0], [2, 2], [0, 2], [1_024, 0], [0, u32::MAX]] {
                let good = part_model::cut_part(&mesh, &old, p, None).unwrap_or_default();
                let bad_good = if good.is_empty() { 8 } else { 0 };
                let (mut bad_rank, mut none) = (0, 0);
                if let Ok(mut pair) = Pair::new(&old, &new) {
                    if p.max(q) >= pair.ranks() {
                        bad_rank = 5;
                    } else if pair.trees_sent(p, q).1 == 0 {
                        none = 9;
                    }
                }
                for (part, bad_part) in [(&good[..], bad_good), (&mesh[..], 8), (&[], 8)] {
                    let got = calls.message_length(part, &tables, [p, q]);
                    assert_eq!(got.refusal, first(&[bad_rank, bad_part, none]));
                    for (room, bad_room) in [(2_000, 0), (31, 22), (0, 22)] {
                        let (got, _) = calls.build_message(part, &tables, [p, q], 5, &vec![3; room]);
                        assert_eq!(got.refusal, first(&[bad_rank, bad_part, none, bad_room]));
                    }
                }
            }
        }
    }
}

fn null_pointers(run: &mut Run) {
    let (null, out) = (ptr::null(), ptr::null_mut());
    let case = Case::triangles();
    let part = case.old_part(0);
    let (at, len) = (part.as_ptr(), part.len());
    let (a, b) = (case.old.as_ptr(), case.new.as_ptr());
    let refused = |refusal| Length { refusal, length: 0 };
    unsafe {
        assert_eq!(vejgodat_check_message(null, 0), 11);
        assert_eq!(vejgodat_message_length(null, 0, null, 0, null, 0, 0, 0), refused(2));
        assert_eq!(vejgodat_message_length(null, 0, a, 32, null, 0, 0, 0), refused(2));
        assert_eq!(vejgodat_message_length(null, 0, a, 32, b, 32, 0, 0), refused(8));
        assert_eq!(vejgodat_build_message(null, 0, null, 0, null, 0, 0, 0, 0, out, 0), refused(2));
        assert_eq!(vejgodat_build_message(null, 0, a, 32, b, 32, 0, 0, 0, out, 0), refused(8));
        assert_eq!(vejgodat_build_message(at, len, a, 32, b, 32, 0, 2, 0, out, 0), refused(9));
        assert_eq!(vejgodat_build_message(at, len, a, 32, b, 32, 0, 0, 0, out, 0), refused(22));
    }
    // made above without a comparison with the model
    run.calls.seen.calls += 8;
}

fn seen_refusals(run: &mut Run) {
    expect_seen(
        run,
        &[
            ("check_message", &[11]),
            ("message_length", &[2, 3, 4, 5, 8, 9]),
            ("build_message", &[2, 3, 4, 5, 8, 9, 22]),
        ],
    );
    for call in ["message_length", "build_message"] {
        let states = &run.calls.seen.tables[call];
        for old in [0, 2, 3] {
            for new in [0, 2, 3] {
                assert!(states.contains(&(old, new)), "{call}: no call with an old table of {old}, a new one of {new}");
            }
        }
    }
}

fn seen_faults(_: &mut Run) {
    let seen = FAULTS.with(|seen| seen.borrow().clone());
    let times = |faults: &[Fault]| seen.get(&faults.iter().copied().collect()).copied().unwrap_or(0);
    let refused: u64 = seen.iter().filter(|(faults, _)| !faults.is_empty()).map(|(_, times)| times).sum();
    assert!(times(&[]) > 10_000 && refused > 10_000, "{} in layout, {refused} refused", times(&[]));
    for fault in [
        Fault::Dimension,
        Fault::Length,
        Fault::Form(part_model::Fault::Shape),
        Fault::Form(part_model::Fault::Zeros),
        Fault::Form(part_model::Fault::Region),
        Fault::Form(part_model::Fault::Unused),
        Fault::Form(part_model::Fault::Boundary),
        Fault::OtherDimension,
        Fault::Neighbour,
        Fault::Order,
        Fault::GhostOrder,
    ] {
        assert!(times(&[fault]) > 20, "only {fault:?} was broken {} times", times(&[fault]));
    }
}
