//! Assembly: open, deliver, progress and close. Needs the groups `part` and `message`.
use crate::area_model::{self, trees_at, words_at, Area, Fault};
use crate::calls::{bytes_written, length, shown, written, Calls, Tables};
use crate::cases;
use crate::library::Length;
use crate::mesh_cases::{self as meshes, apart, join, put};
use crate::mesh_model::{number_at, Record};
use crate::message;
use crate::message_model::{self, Message};
use crate::model::{bytes_of, Pair, MAX_RANKS, MAX_TREES};
use crate::part::{other_values, words};
use crate::part_model::{header, Share, Tree, GHOST, HEADER, TREE};
use crate::random::Random;
use crate::refusals::{expect_seen, first_of, kinds};
use crate::second::{permutations, triangle_messages, Case, TABLES};
use crate::{Run, Test};
use std::cell::RefCell;
use std::collections::{BTreeMap, BTreeSet};
use std::ptr;

pub const TESTS: &[Test] = &[
    ("area: the document's three triangles", documents_triangles),
    ("area: every pair of small tables", every_pair),
    ("area: random repartitions with repeats, strays and closes", repartitions),
    ("area: every order of up to five senders", every_order),
    ("area: random orders of many senders", many_senders),
    ("area: 1,024 ranks", many_ranks),
    ("area: buffers of each length", each_buffer),
    ("area: each byte changed", each_byte),
    ("area: each length cut", each_cut),
    ("area: one field damaged", one_field_damaged),
    ("area: several fields damaged", several_damaged),
    ("area: each byte of the message changed", each_byte_of_message),
    ("area: damaged messages", damaged_messages),
    ("area: any header of a message", any_message_header),
    ("area: wrong messages fill it, and close sees it", wrong_parts),
    ("area: F ghosts for each filled slot, and one more", filled_bound),
    ("area: ghosts already held", held_ghosts),
    ("area: open's first refusal", open_refusals),
    ("area: any bytes", any_bytes),
    ("area: null pointers with count 0", null_pointers),
    ("area: trees at the limits", tree_limits),
    ("seen: each refusal from every area call", seen_refusals),
    ("seen: sound areas, and each sentence broken", seen_faults),
];

#[repr(C)]
#[derive(Clone, Copy, Debug, PartialEq, Eq)]
pub struct Progress {
    pub refusal: u32,
    pub heard: u32,
    pub due: u32,
}

extern "C" {
    fn vejgodat_area_length(
        old: *const u8,
        old_len: usize,
        new: *const u8,
        new_len: usize,
        rank: u32,
        dimension: u32,
    ) -> Length;
    fn vejgodat_open_area(
        old: *const u8,
        old_len: usize,
        new: *const u8,
        new_len: usize,
        rank: u32,
        dimension: u32,
        epoch: u32,
        out: *mut u8,
        out_len: usize,
    ) -> Length;
    fn vejgodat_deliver(area: *mut u8, area_len: usize, message: *const u8, message_len: usize) -> u32;
    fn vejgodat_progress_of(area: *const u8, area_len: usize) -> Progress;
    fn vejgodat_part_of_area_length(area: *const u8, area_len: usize) -> Length;
    fn vejgodat_close_area(area: *const u8, area_len: usize, out: *mut u8, out_len: usize) -> Length;
}

thread_local! {
    /// how often an area broke exactly these sentences; none is a sound one
    static FAULTS: RefCell<BTreeMap<BTreeSet<Fault>, u64>> = RefCell::default();
}

impl Calls {
    pub fn area_length(&mut self, tables: &Tables, rank: u32, dimension: u32) -> Length {
        let answer = area_model::open_area(&tables.old, &tables.new, rank, dimension, 0, None);
        let (a, a_len, b, b_len) = self.put_tables(tables);
        let got = unsafe { vejgodat_area_length(a, a_len, b, b_len, rank, dimension) };
        assert_eq!(got, length(bytes_written(&answer)), "area_length {rank}, {dimension}, {}", shown(tables));
        self.note_tables("area_length", got.refusal, tables);
        got
    }

    /// The answer, and the buffer after it.
    pub fn open_area(
        &mut self,
        tables: &Tables,
        rank: u32,
        dimension: u32,
        epoch: u32,
        before: &[u8],
    ) -> (Length, Vec<u8>) {
        let answer = area_model::open_area(&tables.old, &tables.new, rank, dimension, epoch, Some(before.len()));
        let (a, a_len, b, b_len) = self.put_tables(tables);
        let place = self.place();
        let out = self.out.put(before, place);
        let got = unsafe { vejgodat_open_area(a, a_len, b, b_len, rank, dimension, epoch, out, before.len()) };
        let said = || format!("open_area {rank}, {dimension}, {}", shown(tables));
        assert_eq!(got, length(bytes_written(&answer)), "{}", said());
        let after = written(before, &answer);
        let now = self.out.bytes();
        assert!(now == after, "{}: wrote {}, not {}", said(), words(now), words(&after));
        self.note_tables("open_area", got.refusal, tables);
        (got, after)
    }

    /// The refusal, and the area after it.
    pub fn deliver(&mut self, area: &[u8], message: &[u8]) -> (u32, Vec<u8>) {
        let answer = area_model::deliver(area, message);
        let (a, b) = (self.place(), self.place());
        let (area_at, message_at) = (self.object.put(area, a), self.list.put(message, b));
        let got = unsafe { vejgodat_deliver(area_at, area.len(), message_at, message.len()) };
        let said = || format!("deliver {}: to {}", words(message), words(area));
        assert_eq!(got, answer.as_ref().err().copied().unwrap_or(0), "{}", said());
        let after = written(area, &answer);
        let now = self.object.bytes();
        assert!(now == after, "{}: wrote {}, not {}", said(), words(now), words(&after));
        assert!(self.list.bytes() == message, "{}: the message changed", said());
        self.note("deliver", got);
        (got, after)
    }

    pub fn progress_of(&mut self, area: &[u8]) -> Progress {
        let expected = match area_model::progress(area) {
            Ok((heard, due)) => Progress { refusal: 0, heard, due },
            Err(refusal) => Progress { refusal, heard: 0, due: 0 },
        };
        let place = self.place();
        let at = self.object.put(area, place);
        let got = unsafe { vejgodat_progress_of(at, area.len()) };
        assert_eq!(got, expected, "progress_of {}", words(area));
        assert!(self.object.bytes() == area, "progress_of changed the area");
        self.note("progress_of", got.refusal);
        let faults = area_model::read(area).err().unwrap_or_default();
        FAULTS.with(|seen| *seen.borrow_mut().entry(faults).or_default() += 1);
        got
    }

    pub fn part_of_area_length(&mut self, area: &[u8]) -> Length {
        let answer = area_model::close_area(area, None);
        let place = self.place();
        let at = self.object.put(area, place);
        let got = unsafe { vejgodat_part_of_area_length(at, area.len()) };
        assert_eq!(got, length(bytes_written(&answer)), "part_of_area_length {}", words(area));
        assert!(self.object.bytes() == area, "part_of_area_length changed the area");
        self.note("part_of_area_length", got.refusal);
        got
    }

    /// The answer, and the buffer after it.
    pub fn close_area(&mut self, area: &[u8], before: &[u8]) -> (Length, Vec<u8>) {
        let answer = area_model::close_area(area, Some(before.len()));
        let (a, b) = (self.place(), self.place());
        let (at, out) = (self.object.put(area, a), self.out.put(before, b));
        let got = unsafe { vejgodat_close_area(at, area.len(), out, before.len()) };
        assert_eq!(got, length(bytes_written(&answer)), "close_area {}", words(area));
        let after = written(before, &answer);
        let now = self.out.bytes();
        assert!(now == after, "close_area {}: wrote {}, not {}", words(area), words(now), words(&after));
        assert!(self.object.bytes() == area, "close_area changed the area");
        self.note("close_area", got.refusal);
        (got, after)
    }

    /// Every call on an area but deliver.
    fn read_area(&mut self, area: &[u8]) -> u32 {
        let progress = self.progress_of(area);
        let length = self.part_of_area_length(area);
        let (got, _) = self.close_area(area, &vec![0xEE; length.length as usize]);
        assert_eq!(got, length);
        assert_eq!(progress.refusal == 10, length.refusal == 10);
        length.refusal
    }
}

// ---- cases

/// A case with few trees and ranks.
fn any_case(random: &mut Random, trees: usize) -> Case {
    if random.chance(100) {
        return Case::gathering(random);
    }
    let (trees, ranks) = (meshes::count(random).min(trees), random.number(1, 5) as usize);
    Case::random(random, trees, ranks)
}

/// A receiver of the case and the messages for it; mostly one that gets some.
fn any_receiver(random: &mut Random, case: &Case) -> (u32, Vec<Vec<u8>>) {
    let messages = case.messages();
    let receivers: Vec<u32> = messages.keys().map(|ends| ends[1]).collect();
    let q = if random.chance(240) { random.pick(&receivers) } else { random.below(case.ranks().into()) as u32 };
    (q, messages.into_iter().filter(|(ends, _)| ends[1] == q).map(|(_, message)| message).collect())
}

/// The area after some of the messages, by the model.
fn after(area: &[u8], messages: &[Vec<u8>]) -> Vec<u8> {
    messages.iter().fold(area.to_vec(), |area, message| area_model::deliver(&area, message).expect("a first delivery"))
}

/// A sound area of the case, some of its senders heard; and its messages.
fn any_area(random: &mut Random, case: &Case) -> (Vec<u8>, Vec<Vec<u8>>) {
    let (q, mut messages) = any_receiver(random, case);
    for at in (1..messages.len()).rev() {
        messages.swap(at, random.below(at as u64 + 1) as usize);
    }
    let heard = if random.chance(100) { messages.len() } else { random.below(messages.len() as u64 + 1) as usize };
    (after(&case.fresh(q), &messages[..heard]), messages)
}

/// Ghosts outside the new range, strictly ascending, in form; any links.
fn any_ghosts(random: &mut Random, area: &Area, count: usize) -> Vec<Record> {
    let mut numbers: Vec<u32> = (0..area.share.trees).filter(|&k| !area.share.holds(k)).collect();
    while numbers.len() > count {
        numbers.remove(random.below(numbers.len() as u64) as usize);
    }
    let shapes: &[u8] = if area.dimension == 2 { &[0, 1] } else { &[2, 3, 4, 5] };
    numbers.iter().map(|&number| any_record(random, number, shapes)).collect()
}

/// A record in form whose links are any.
fn any_record(random: &mut Random, number: u32, shapes: &[u8]) -> Record {
    let all = apart(&[random.pick(shapes)], 0);
    let mut record = meshes::record(&all, 0);
    record.number = number;
    for face in 0..record.faces().len() {
        record.neighbours[face] = if random.chance(128) { number } else { cases::number(random) };
        record.codes[face] = if record.neighbours[face] == number { face as u8 } else { random.next() as u8 };
    }
    record
}

/// One field of a sound area becomes another number, mostly one that is near.
fn one_field(random: &mut Random, area: &[u8]) -> Vec<u8> {
    let read = area_model::read(area).expect("a sound area");
    let ranks = read.share.ranks as usize;
    let mut bytes = area.to_vec();
    let near = |random: &mut Random, now: u32| match random.below(5) {
        0 => now.wrapping_add(random.pick(&[1, u32::MAX, 2])),
        1 => now ^ 1 << random.below(32),
        2 => random.number(0, read.share.trees + 1),
        _ => cases::number(random),
    };
    let slots = trees_at(ranks);
    match random.below(8) {
        0 => {
            let at = 4 * random.below(8) as usize;
            let word = near(random, number_at(&bytes, at));
            put(&mut bytes, at, word);
        }
        // an entry of a table
        1 => {
            let at = HEADER + 8 * random.below(2 * (ranks as u64 + 1)) as usize;
            let entry = i64::from_le_bytes(bytes[at..at + 8].try_into().unwrap());
            let other = match random.below(4) {
                0 => -entry,
                1 => -1 - entry,
                2 => entry + random.pick(&[-1, 1]),
                _ => cases::entry(random, read.share.trees.into()),
            };
            bytes[at..at + 8].copy_from_slice(&other.to_le_bytes());
        }
        // a bit of the heard words, mostly of a rank
        2 | 3 => {
            let sender = if random.chance(180) { random.below(ranks as u64 + 1) } else { random.below(1_024) } as usize;
            bytes[words_at(ranks) + sender / 8] ^= 1 << (sender % 8);
        }
        _ if area.len() > slots => {
            let at = slots + random.below((area.len() - slots) as u64) as usize;
            bytes[at] = random.pick(&[0, 1, 2, 128, 255, bytes[at].wrapping_add(1), bytes[at] ^ 4]);
        }
        _ => bytes[random.below(area.len() as u64) as usize] = random.next() as u8,
    }
    bytes
}

/// Slots and ghosts change as a whole. Some of these areas are sound.
fn several_fields(random: &mut Random, area: &[u8]) -> Vec<u8> {
    let mut read = area_model::read(area).expect("a sound area");
    let (trees, ghosts, room) = (read.trees.len() as u64, read.ghosts.len() as u64, read.room());
    let ghost = random.below(ghosts.max(1)) as usize;
    let slot = random.below(trees.max(1)) as usize;
    let shapes: &[u8] = if random.chance(200) == (read.dimension == 2) { &[0, 1] } else { &[2, 3, 4, 5] };
    match random.below(12) {
        // any ghosts, up to all slots
        0 | 1 => {
            let count = if random.chance(128) { room } else { random.below(room as u64 + 1) as usize };
            read.ghosts = any_ghosts(random, &read, count);
        }
        2 if ghosts > 0 => _ = read.ghosts.remove(ghost),
        3 if ghosts > 0 => read.ghosts.swap(ghost, random.below(ghosts) as usize),
        4 if ghosts > 0 && read.ghosts.len() < room => {
            let copy = read.ghosts[ghost].clone();
            read.ghosts.insert(ghost, copy);
        }
        // a ghost of the new range, or not below K
        5 if read.ghosts.len() < room => {
            let number = if random.chance(128) {
                random.number(read.share.first(), read.share.range.end as u32)
            } else {
                read.share.trees.saturating_add(random.number(0, 3))
            };
            let at = read.ghosts.iter().filter(|ghost| ghost.number < number).count();
            read.ghosts.insert(at, any_record(random, number, shapes));
        }
        // the record of a slot
        6 | 7 if trees > 0 && read.trees[slot].is_some() => {
            let number = read.share.first() + slot as u32;
            let record = any_record(random, number, shapes);
            read.trees[slot] = Some(Tree { record, data: random.bytes(24) });
        }
        8 if trees > 0 => {
            let other = random.below(trees) as usize;
            read.trees.swap(slot, other);
        }
        9 if trees > 0 => {
            read.trees[slot] = match read.trees[slot] {
                Some(_) => None,
                None => {
                    let record = any_record(random, read.share.first() + slot as u32, shapes);
                    Some(Tree { record, data: vec![0; 24] })
                }
            };
        }
        // all senders heard, whatever they sent
        10 => {
            let shapes: &[u8] = if read.dimension == 2 { &[0, 1] } else { &[2, 3, 4, 5] };
            read.heard = read.due();
            for slot in 0..read.trees.len() {
                if read.trees[slot].is_none() {
                    let record = any_record(random, read.share.first() + slot as u32, shapes);
                    read.trees[slot] = Some(Tree { record, data: random.bytes(24) });
                }
            }
        }
        // one more ghost slot in the count, or a record behind the last ghost
        _ => {
            let at = trees_at(read.share.ranks as usize) + TREE * trees as usize + GHOST * ghosts as usize;
            let mut bytes = read.encode();
            if random.chance(128) || at + GHOST > bytes.len() {
                let count = (ghosts as u32).wrapping_add(random.pick(&[1, u32::MAX, room as u32 + 1]));
                put(&mut bytes, 24, count);
            } else {
                bytes[at + random.below(GHOST as u64) as usize] = 1;
            }
            return bytes;
        }
    }
    read.encode()
}

// ---- tests

fn documents_triangles(run: &mut Run) {
    let case = Case::triangles();
    let tables = Tables::new(&case.old, &case.new);
    let messages = triangle_messages();
    let rank = 1;
    let length = run.calls.area_length(&tables, rank, 2).length as usize;
    let (_, fresh) = run.calls.open_area(&tables, rank, 2, 7, &vec![0xEE; length]);
    let entries = bytes_of(&TABLES.concat());
    let expected = [header([7, 2, 3, 3, 1, 2, 0, 0]), entries.clone(), vec![0; 128 + 2 * 64 + 8 * 40]].concat();
    assert_eq!(fresh, expected);
    let bits = |byte: u8| [vec![byte], vec![0; 127]].concat();
    let (zero, one, two) = (&messages[1].1[HEADER..], &messages[2].1[HEADER..HEADER + TREE], &messages[2].1[96..]);
    let of_zero = [header([7, 2, 3, 3, 1, 2, 0, 0]), entries.clone(), bits(1), zero.to_vec(), vec![0; 64 + 8 * 40]];
    let ghosts = [two.to_vec(), vec![0; 7 * 40]].concat();
    let of_one =
        [header([7, 2, 3, 3, 1, 2, 1, 0]), entries.clone(), bits(2), vec![0; 64], one.to_vec(), ghosts.clone()];
    let of_both = [header([7, 2, 3, 3, 1, 2, 1, 0]), entries, bits(3), zero.to_vec(), one.to_vec(), ghosts].concat();
    for (order, half) in [([1, 2], of_zero.concat()), ([2, 1], of_one.concat())] {
        let mut area = fresh.clone();
        for (at, next) in order.into_iter().enumerate() {
            assert_eq!(run.calls.progress_of(&area), Progress { refusal: 0, heard: at as u32, due: 2 });
            assert_eq!(run.calls.close_area(&area, &[9; 400]), (Length { refusal: 20, length: 0 }, vec![9; 400]));
            assert_eq!(run.calls.deliver(&area, &messages[0].1), (13, area.clone()));
            assert_eq!(run.calls.deliver(&area, &messages[3].1), (13, area.clone()));
            let (got, after) = run.calls.deliver(&area, &messages[next].1);
            assert_eq!(got, 0);
            assert_eq!(run.calls.deliver(&after, &messages[next].1), (15, after.clone()));
            area = after;
            assert_eq!(area, if at == 0 { half.clone() } else { of_both.clone() });
        }
        assert_eq!(run.calls.progress_of(&area), Progress { refusal: 0, heard: 2, due: 2 });
        let part = case.new_part(rank);
        assert_eq!(run.calls.close_area(&area, &vec![9; part.len()]).1, part);
    }
}

/// Open an area for each rank, deliver what it gets in a random order, and close it.
fn repartition(random: &mut Random, calls: &mut Calls, case: &Case) {
    let tables = Tables::new(&case.old, &case.new);
    let messages = case.messages();
    for q in 0..case.ranks() {
        let length = calls.area_length(&tables, q, case.dimension());
        let tail_length = random.pick(&[0, 0, 1, 40, 64]);
        let tail = random.bytes(tail_length);
        let before = [random.bytes(length.length as usize), tail.clone()].concat();
        let (got, mut area) = calls.open_area(&tables, q, case.dimension(), case.epoch, &before);
        assert_eq!(got, length);
        let mut rest: Vec<&Vec<u8>> =
            messages.iter().filter(|(ends, _)| ends[1] == q).map(|(_, message)| message).collect();
        let due = rest.len() as u32;
        let others: Vec<&Vec<u8>> =
            messages.iter().filter(|(ends, _)| ends[1] != q).map(|(_, message)| message).collect();
        let mut heard: Vec<&Vec<u8>> = Vec::new();
        while !rest.is_empty() {
            assert_eq!(calls.read_area(&area), 20);
            let room = random.below(300) as usize;
            calls.close_area(&area, &vec![3; room]);
            if !others.is_empty() {
                let stray: &Vec<u8> = random.pick(&others);
                assert_eq!(calls.deliver(&area, stray).0, 13);
            }
            if !heard.is_empty() {
                let again: &Vec<u8> = random.pick(&heard);
                assert_eq!(calls.deliver(&area, again).0, 15);
            }
            let next = rest.swap_remove(random.below(rest.len() as u64) as usize);
            let (got, now) = calls.deliver(&area, next);
            assert_eq!(got, 0);
            area = now;
            heard.push(next);
            assert_eq!(calls.progress_of(&area), Progress { refusal: 0, heard: heard.len() as u32, due });
        }
        assert!(area.ends_with(&tail), "bytes behind the area");
        let room = calls.part_length(&case.mesh, &case.new, q).length as usize;
        let (_, part) = calls.cut_part(&case.mesh, &case.new, q, &vec![1; room]);
        assert_eq!(calls.part_of_area_length(&area), Length { refusal: 0, length: room as u64 });
        assert_eq!(calls.close_area(&area, &vec![7; room - 1]).0.refusal, 22);
        let (got, joined) = calls.close_area(&area, &vec![7; room + 3]);
        assert_eq!(got, Length { refusal: 0, length: room as u64 });
        assert_eq!(joined, [part, vec![7; 3]].concat());
    }
}

fn every_pair(run: &mut Run) {
    run.cases(1, |random, calls| {
        for (ranks, trees) in [(1, 1), (2, 1), (1, 2), (2, 2), (3, 2), (2, 3)] {
            let all = cases::every_table(ranks, trees);
            for old in &all {
                for new in &all {
                    let mesh = meshes::sound(random, trees as usize);
                    let case = Case { mesh, old: bytes_of(old), new: bytes_of(new), epoch: random.next() as u32 };
                    repartition(random, calls, &case);
                }
            }
        }
    });
}

fn repartitions(run: &mut Run) {
    run.cases(300, |random, calls| {
        let case = any_case(random, 24);
        repartition(random, calls, &case);
    });
}

/// Every order of one message of each sender, each with a repeat and a stray somewhere; all areas and parts are equal.
fn every_order(run: &mut Run) {
    let mut of_senders = [0; 7];
    while run.lacks(of_senders[1..=5].iter().all(|&number| number >= 4), format_args!("{of_senders:?}")) {
        run.cases(400, |random, calls| {
            let case = any_case(random, 12);
            let (q, messages) = any_receiver(random, &case);
            // some of each number, up to 120 orders each
            if messages.len() > 5 || of_senders[messages.len()] == 12 {
                return;
            }
            of_senders[messages.len()] += 1;
            let strays: Vec<Vec<u8>> =
                case.messages().into_iter().filter(|(ends, _)| ends[1] != q).map(|(_, m)| m).collect();
            let mut ends = BTreeSet::new();
            for order in permutations(messages.len()) {
                let mut area = case.fresh(q);
                let repeat_at = random.below(messages.len() as u64 + 1) as usize;
                for (at, &next) in order.iter().enumerate() {
                    if at == repeat_at && at > 0 {
                        let again = random.pick(&order[..at]);
                        assert_eq!(calls.deliver(&area, &messages[again]), (15, area.clone()));
                        if !strays.is_empty() {
                            assert_eq!(calls.deliver(&area, &random.pick(&strays)), (13, area.clone()));
                        }
                    }
                    let (got, now) = calls.deliver(&area, &messages[next]);
                    assert_eq!(got, 0);
                    area = now;
                }
                let (got, joined) = calls.close_area(&area, &[6; 4_000]);
                assert_eq!(got.refusal, 0);
                ends.insert((area, joined));
            }
            assert_eq!(ends.len(), 1);
        });
    }
}

/// A checkpoint's fingerprint of a part (FNV-1a, 64 bits).
fn fingerprint(bytes: &[u8]) -> u64 {
    bytes.iter().fold(0xcbf2_9ce4_8422_2325, |hash, &byte| (hash ^ u64::from(byte)).wrapping_mul(0x100_0000_01b3))
}

/// 3,000 orders, each with a repeat somewhere: the areas, the parts and their fingerprints are equal.
fn many_senders(run: &mut Run) {
    run.cases(60, |random, calls| {
        let (ranks, trees) = (random.number(6, 24), random.number(20, 50));
        let mut case = Case::random(random, trees as usize, ranks as usize);
        let q = random.number(0, ranks - 1);
        // each rank had some of them
        let old: Vec<i64> = (0..=ranks).map(|p| i64::from(p * trees / ranks)).collect();
        case.old = bytes_of(&old);
        case.new = bytes_of(&(0..=ranks).map(|p| if p <= q { 0 } else { i64::from(trees) }).collect::<Vec<i64>>());
        let messages: Vec<Vec<u8>> = case.messages().into_iter().map(|(_, message)| message).collect();
        assert!(messages.len() > 5);
        let last = after(&case.fresh(q), &messages);
        let part = case.new_part(q);
        let mut fingerprints = BTreeSet::new();
        for _ in 0..50 {
            let mut order: Vec<usize> = (0..messages.len()).collect();
            for at in (1..order.len()).rev() {
                order.swap(at, random.below(at as u64 + 1) as usize);
            }
            let mut area = case.fresh(q);
            let repeat = random.below(order.len() as u64) as usize;
            for (at, next) in order.into_iter().enumerate() {
                let (got, now) = calls.deliver(&area, &messages[next]);
                assert_eq!(got, 0);
                area = now;
                if at == repeat {
                    assert_eq!(calls.deliver(&area, &messages[next]), (15, area.clone()));
                }
            }
            assert!(area == last, "another order, another area");
            let joined = calls.close_area(&area, &vec![0; part.len()]).1;
            assert_eq!(joined, part);
            fingerprints.insert(fingerprint(&joined));
        }
        assert_eq!(fingerprints.len(), 1);
    });
}

fn many_ranks(run: &mut Run) {
    run.cases(3, |random, calls| {
        let ranks = random.pick(&[1_024, 1_000, 65]);
        let trees = ranks as u32;
        let mut case = Case::random(random, trees as usize, ranks);
        case.old = bytes_of(&(0..=ranks as i64).collect::<Vec<i64>>());
        let q = random.below(ranks as u64) as u32;
        case.new =
            bytes_of(&(0..=ranks).map(|p| if p as u32 <= q { 0 } else { i64::from(trees) }).collect::<Vec<i64>>());
        let mut area = case.fresh(q);
        let mut heard = 0;
        for p in [0, 1, 31, 32, 33, 63, 64, ranks as u32 / 2, ranks as u32 - 2, ranks as u32 - 1] {
            let part = case.old_part(p);
            let message = message_model::build_message(&part, &case.old, &case.new, [p, q], case.epoch, None).unwrap();
            let (got, now) = calls.deliver(&area, &message);
            heard += u32::from(got == 0);
            area = now;
            assert_eq!(calls.progress_of(&area), Progress { refusal: 0, heard, due: trees });
        }
        // all heard: every slot by hand, each as in the mesh
        let mut full = area_model::read(&area).expect("a sound area");
        full.heard = (0..ranks as u32).collect();
        full.ghosts.clear();
        full.trees = (0..ranks).map(|k| Some(Tree::decode(&case.mesh[meshes::place(k)..]))).collect();
        let full = full.encode();
        assert_eq!(calls.progress_of(&full), Progress { refusal: 0, heard: trees, due: trees });
        let part = case.new_part(q);
        assert_eq!(calls.close_area(&full, &vec![0; part.len()]).1, part);
        // a bit of a rank that there isn't
        if ranks < 1_024 {
            let mut more = full;
            more[words_at(ranks) + ranks / 8] |= 1 << (ranks % 8);
            assert_eq!(calls.read_area(&more), 10);
        }
    });
}

fn each_buffer(run: &mut Run) {
    run.cases(12, |random, calls| {
        let case = any_case(random, 4);
        let tables = Tables::new(&case.old, &case.new);
        let (q, messages) = any_receiver(random, &case);
        let fresh = case.fresh(q);
        if fresh.len() > 2_500 {
            return;
        }
        for room in 0..fresh.len() + 9 {
            let before = random.bytes(room);
            let (got, _) = calls.open_area(&tables, q, case.dimension(), case.epoch, &before);
            assert_eq!(got.refusal, if room < fresh.len() { 22 } else { 0 });
        }
        let (area, part) = (after(&fresh, &messages), case.new_part(q));
        for room in 0..part.len() + 9 {
            let before = random.bytes(room);
            let (got, _) = calls.close_area(&area, &before);
            assert_eq!(got.refusal, if room < part.len() { 22 } else { 0 });
        }
    });
}

/// Small areas, each with a message that it may get.
fn small_areas(run: &mut Run) -> Vec<(Vec<u8>, Vec<u8>)> {
    let triangles = Case::triangles();
    let messages: Vec<Vec<u8>> = triangle_messages().into_iter().map(|(_, message)| message).collect();
    let fresh = triangles.fresh(1);
    let mut areas = vec![
        (fresh.clone(), messages[1].clone()),
        (after(&fresh, &messages[1..2]), messages[2].clone()),
        (after(&fresh, &messages[1..3]), messages[1].clone()),
    ];
    while run.lacks(areas.len() > 6, format_args!("{} areas", areas.len())) {
        run.cases(12, |random, _| {
            let case = any_case(random, 4);
            let (area, messages) = any_area(random, &case);
            if area.len() < 1_200 && !messages.is_empty() {
                areas.push((area, random.pick(&messages)));
            }
        });
    }
    areas
}

fn each_byte(run: &mut Run) {
    for (area, message) in small_areas(run) {
        let mut changed = area.clone();
        for at in 0..area.len() {
            for value in other_values(area[at]) {
                changed[at] = value;
                run.calls.read_area(&changed);
                run.calls.deliver(&changed, &message);
            }
            changed[at] = area[at];
        }
    }
}

fn each_cut(run: &mut Run) {
    for (area, message) in small_areas(run) {
        let longer = [area.clone(), vec![0xC5; 50]].concat();
        for length in 0..=longer.len() {
            let got = run.calls.read_area(&longer[..length]);
            assert_eq!(got == 10, length < area.len());
            let (got, _) = run.calls.deliver(&longer[..length], &message);
            assert_eq!(got == 10, length < area.len());
            run.calls.read_area(&longer[length..]);
        }
    }
}

/// Every call on the area, and a delivery.
fn read_and_deliver(random: &mut Random, calls: &mut Calls, area: &[u8], messages: &[Vec<u8>]) -> u32 {
    let got = calls.read_area(area);
    if !messages.is_empty() {
        let message = random.pick(messages);
        let (delivered, after) = calls.deliver(area, &message);
        assert_eq!(delivered == 10, got == 10);
        if delivered == 0 {
            calls.read_area(&after);
        }
    }
    got
}

fn one_field_damaged(run: &mut Run) {
    run.cases(3_000, |random, calls| {
        let case = any_case(random, 6);
        let (area, messages) = any_area(random, &case);
        for _ in 0..8 {
            let damaged = one_field(random, &area);
            read_and_deliver(random, calls, &damaged, &messages);
        }
    });
}

fn several_damaged(run: &mut Run) {
    let mut answers = [0; 22];
    while run.lacks([10, 20, 21].iter().all(|&number| answers[number] > 500), format_args!("{answers:?}")) {
        run.cases(3_000, |random, calls| {
            let case = any_case(random, 9);
            let (area, messages) = any_area(random, &case);
            for _ in 0..8 {
                let damaged = several_fields(random, &area);
                answers[read_and_deliver(random, calls, &damaged, &messages) as usize] += 1;
                if area_model::read(&damaged).is_ok() {
                    let twice =
                        if random.chance(128) { one_field(random, &damaged) } else { several_fields(random, &damaged) };
                    read_and_deliver(random, calls, &twice, &messages);
                }
            }
        });
    }
}

fn each_byte_of_message(run: &mut Run) {
    let mut seen = [0; 20];
    while run.lacks([11, 12, 13, 14, 16].iter().all(|&number| seen[number] > 10), format_args!("{seen:?}")) {
        for (area, message) in small_areas(run) {
            let mut changed = message.clone();
            for at in 0..message.len() {
                for value in other_values(message[at]) {
                    changed[at] = value;
                    seen[run.calls.deliver(&area, &changed).0 as usize] += 1;
                }
                changed[at] = message[at];
            }
            for length in 0..message.len() {
                assert_eq!(run.calls.deliver(&area, &message[..length]).0, 11);
            }
        }
    }
}

fn damaged_messages(run: &mut Run) {
    let mut seen = [0; 20];
    while run.lacks([0, 11, 12, 13, 15, 16, 17].iter().all(|&number| seen[number] > 100), format_args!("{seen:?}")) {
        run.cases(4_000, |random, calls| {
            let case = any_case(random, 9);
            let (area, messages) = any_area(random, &case);
            if messages.is_empty() {
                return;
            }
            for _ in 0..8 {
                let message = random.pick(&messages);
                let damaged = if random.chance(160) {
                    message::several_fields(random, &message)
                } else {
                    message::one_field(random, &message)
                };
                seen[calls.deliver(&area, &damaged).0 as usize] += 1;
            }
        });
    }
}

/// Any of the header's words is another, in any combination: the first check that fails gives its number.
fn any_message_header(run: &mut Run) {
    let mut seen = [0; 20];
    while run.lacks([0, 11, 12, 13, 14, 15].iter().all(|&number| seen[number] > 100), format_args!("{seen:?}")) {
        run.cases(4_000, |random, calls| {
            let case = any_case(random, 6);
            let (area, messages) = any_area(random, &case);
            if messages.is_empty() {
                return;
            }
            for _ in 0..8 {
                let mut message = random.pick(&messages);
                for at in [0, 4, 8, 12, 16, 20] {
                    if random.chance(50) {
                        let now = number_at(&message, at);
                        let other = match random.below(3) {
                            0 => now.wrapping_add(random.pick(&[1, u32::MAX])),
                            1 => random.below(case.ranks().into()) as u32,
                            _ => cases::number(random),
                        };
                        put(&mut message, at, other);
                    }
                }
                seen[calls.deliver(&area, &message).0 as usize] += 1;
            }
        });
    }
}

/// Messages in layout with the trees due, but links and ghosts of no mesh: accepted where they may be, refused at close.
fn wrong_parts(run: &mut Run) {
    let mut closed = [0; 23];
    while run.lacks(closed[0] > 200 && closed[21] > 200, format_args!("{closed:?}")) {
        run.cases(4_000, |random, calls| {
            let case = any_case(random, 9);
            let (q, messages) = any_receiver(random, &case);
            let mut area = case.fresh(q);
            for message in &messages {
                let mut wrong = message.clone();
                for _ in 0..random.below(3) {
                    let next = message::several_fields(random, &wrong);
                    if message_model::check_message(&next) == 0 {
                        wrong = next;
                    }
                }
                let (got, now) = calls.deliver(&area, &wrong);
                area = now;
                // what was refused is delivered as it should be
                if got != 0 {
                    area = calls.deliver(&area, message).1;
                }
            }
            closed[calls.read_area(&area) as usize] += 1;
        });
    }
}

/// The receiver of these has trees 0 to 4: two from rank 1, three from rank 2. All trees are boundary, but in the messages
/// each tree has another number, which is no tree of its own, across each face, and all of these come as ghosts.
fn most_ghosts(shape: u8, faces: usize) -> (Case, Vec<Message>) {
    let trees = 5 + 5 * faces + 1;
    let all = trees as i64;
    let (old, new) = (bytes_of(&[0, 0, 2, all]), bytes_of(&[0, 5, all, all]));
    let case = Case { mesh: apart(&vec![shape; trees], 0), old, new, epoch: 18 };
    let messages = case.messages();
    let filled = [1, 2].map(|p| {
        let mut message = Message::decode(&messages[&[p, 0]]).expect("in layout");
        for tree in &mut message.records {
            for face in 0..faces {
                let number = 5 + faces * tree.record.number as usize + face;
                tree.record.neighbours[face] = number as u32;
                tree.record.codes[face] = 0;
                message.ghosts.push(meshes::record(&case.mesh, number));
            }
        }
        message
    });
    (case, filled.to_vec())
}

/// F ghosts for each filled slot are reached exactly, and one more is too many.
fn filled_bound(run: &mut Run) {
    for (shape, faces) in [(0, 4), (2, 6)] {
        let (case, messages) = most_ghosts(shape, faces);
        for order in [[0, 1], [1, 0]] {
            let mut area = case.fresh(0);
            let mut filled = 0;
            for at in order {
                let message = &messages[at];
                // a ghost more, by hand: 10 before the delivery and after it
                let more = |area: &[u8]| {
                    let mut read = area_model::read(area).expect("a sound area");
                    read.ghosts.push(meshes::record(&case.mesh, 5 + 5 * faces));
                    read.encode()
                };
                assert_eq!(run.calls.read_area(&more(&area)), 10);
                assert_eq!(run.calls.deliver(&more(&area), &message.encode()).0, 10);
                // of the message's ghosts, one more can't be a neighbour
                let mut spoilt = message.clone();
                spoilt.ghosts.push(meshes::record(&case.mesh, 5 + 5 * faces));
                assert_eq!(run.calls.deliver(&area, &spoilt.encode()).0, 17);
                let (got, after) = run.calls.deliver(&area, &message.encode());
                assert_eq!(got, 0);
                area = after;
                filled += message.records.len();
                assert_eq!(number_at(&area, 24) as usize, faces * filled);
                assert_eq!(run.calls.progress_of(&area).refusal, 0);
            }
            // the ghosts stay and a sender with its trees goes
            for at in [0, 1] {
                let mut read = area_model::read(&area).expect("a sound area");
                read.heard.remove(&messages[at].sender);
                for tree in &messages[at].records {
                    read.trees[tree.record.number as usize] = None;
                }
                assert_eq!(run.calls.read_area(&read.encode()), 10);
            }
        }
    }
    // any ghosts, up to all slots: sound exactly where the filled slots allow them
    let mut answers = [0; 2];
    while run.lacks(answers[0] > 50 && answers[1] > 200, format_args!("{answers:?}")) {
        run.cases(2_000, |random, calls| {
            let case = any_case(random, 20);
            let (area, messages) = any_area(random, &case);
            let read = area_model::read(&area).expect("a sound area");
            let filled = read.room() * read.trees.iter().flatten().count() / read.trees.len().max(1);
            let count = random.pick(&[read.room(), filled, filled + 1, filled.saturating_sub(1)]);
            let ghosts = any_ghosts(random, &read, count.min(read.room()));
            let allowed = ghosts.len() <= filled;
            let spoilt = Area { ghosts, ..read }.encode();
            let got = read_and_deliver(random, calls, &spoilt, &messages);
            assert_eq!(got != 10, allowed);
            answers[usize::from(allowed)] += 1;
        });
    }
}

/// A row of nine quadrilaterals, three on each rank; rank 1 gets 2 to 6, with ghost 1 from rank 0 and 7 from rank 2.
fn held_ghosts(run: &mut Run) {
    let mut mesh = apart(&[0; 9], 0);
    for k in 0..8 {
        join(&mut mesh, (k, 1), (k + 1, 0), 0);
    }
    let case = Case { mesh, old: bytes_of(&[0, 3, 6, 9]), new: bytes_of(&[0, 2, 7, 9]), epoch: 3 };
    let messages = case.messages();
    let fresh = case.fresh(1);
    let first = after(&fresh, &[messages[&[0, 1]].clone()]);
    // tree 6 leads to tree 1 too, which comes as a ghost
    let mut twice = Message::decode(&messages[&[2, 1]]).expect("in layout");
    twice.records[0].record.neighbours[0] = 1;
    twice.ghosts.insert(0, meshes::record(&case.mesh, 1));
    assert_eq!(run.calls.deliver(&fresh, &twice.encode()).0, 0);
    for area in [&first, &after(&first, &[messages[&[1, 1]].clone()])] {
        assert_eq!(run.calls.deliver(area, &twice.encode()).0, 18);
        assert_eq!(run.calls.deliver(area, &messages[&[2, 1]]).0, 0);
        // 17 of any ghost before 18
        for number in [3, 8] {
            let mut local = twice.clone();
            local.ghosts.push(meshes::record(&case.mesh, number));
            local.ghosts.sort_by_key(|ghost| ghost.number);
            assert_eq!(run.calls.deliver(area, &local.encode()).0, 17);
        }
    }
}

fn open_refusals(run: &mut Run) {
    let calls = &mut run.calls;
    for (old, old_fails) in kinds() {
        for (new, new_fails) in kinds() {
            let tables = Tables::new(&old, &new);
            let so_far = Pair::new(&old, &new).err().unwrap_or(0);
            let differ = old.len() != new.len() || old.rchunks(8).next() != new.rchunks(8).next();
            assert_eq!(so_far, first_of(&[old_fails, new_fails, if differ { 4 } else { 0 }]));
            for rank in [0, 2, 1_024, u32::MAX] {
                let bad_rank = so_far == 0 && Share::new(&new, rank).is_err();
                for dimension in [2, 3, 0, 1, 4, 258, u32::MAX] {
                    let bad = if bad_rank || ![2, 3].contains(&dimension) { 5 } else { 0 };
                    let got = calls.area_length(&tables, rank, dimension);
                    assert_eq!(got.refusal, if so_far > 0 { so_far } else { bad });
                    for (room, bad_room) in [(3_000, 0), (191, 22), (0, 22)] {
                        let (got, _) = calls.open_area(&tables, rank, dimension, rank, &vec![8; room]);
                        assert_eq!(got.refusal, if so_far > 0 { so_far } else { first_of(&[bad, bad_room]) });
                    }
                }
            }
        }
    }
    run.cases(3_000, |random, calls| {
        let (ranks, trees) = (random.number(1, 5), random.number(1, 9));
        let old = cases::table(random, ranks as usize, trees);
        let mut new = cases::table(random, ranks as usize, trees);
        if random.chance(60) {
            new = cases::spoilt_table(random, new);
        }
        let tables = Tables::of(&old, &new);
        let rank = random.number(0, ranks);
        let dimension = random.number(1, 4);
        let length = calls.area_length(&tables, rank, dimension).length as usize;
        let before = random.bytes(length + 5);
        calls.open_area(&tables, rank, dimension, cases::number(random), &before);
    });
}

fn any_bytes(run: &mut Run) {
    run.cases(8_000, |random, calls| {
        let case = any_case(random, 4);
        let (area, messages) = any_area(random, &case);
        let ranks = case.ranks() as usize;
        let mut any = area.clone();
        // any words, slots or header
        let from = random.pick(&[0, HEADER, words_at(ranks), trees_at(ranks)]).min(any.len());
        let mask = random.pick(&[0, 1, 3, 255]);
        let bytes = random.bytes(any.len() - from);
        for (place, byte) in any[from..].iter_mut().zip(bytes) {
            *place = byte & mask;
        }
        read_and_deliver(random, calls, &any, &messages);
        let mut any = area;
        put(&mut any, 4 * random.below(8) as usize, cases::number(random));
        read_and_deliver(random, calls, &any, &messages);
        let length = random.below(300) as usize;
        calls.progress_of(&random.bytes(length));
    });
}

fn null_pointers(run: &mut Run) {
    let (null, out) = (ptr::null(), ptr::null_mut());
    let case = Case::triangles();
    let (a, b) = (case.old.as_ptr(), case.new.as_ptr());
    let mut area = case.fresh(0);
    let done = after(&area, &[triangle_messages()[0].1.clone()]);
    let refused = |refusal| Length { refusal, length: 0 };
    unsafe {
        assert_eq!(vejgodat_area_length(null, 0, null, 0, 0, 2), refused(2));
        assert_eq!(vejgodat_open_area(null, 0, null, 0, 0, 2, 0, out, 0), refused(2));
        assert_eq!(vejgodat_open_area(a, 32, b, 32, 0, 2, 0, out, 0), refused(22));
        assert_eq!(vejgodat_deliver(out, 0, null, 0), 10);
        assert_eq!(vejgodat_deliver(area.as_mut_ptr(), area.len(), null, 0), 11);
        assert_eq!(vejgodat_progress_of(null, 0), Progress { refusal: 10, heard: 0, due: 0 });
        assert_eq!(vejgodat_part_of_area_length(null, 0), refused(10));
        assert_eq!(vejgodat_close_area(null, 0, out, 0), refused(10));
        assert_eq!(vejgodat_close_area(area.as_ptr(), area.len(), out, 0), refused(20));
        assert_eq!(vejgodat_close_area(done.as_ptr(), done.len(), out, 0), refused(22));
    }
    assert_eq!(area, case.fresh(0));
    // made above without a comparison with the model
    run.calls.seen.calls += 10;
}

/// Lengths of the largest areas; one of many trees goes through a repartition.
fn tree_limits(run: &mut Run) {
    let all = MAX_TREES as i64;
    let on_first = |ranks| [vec![0], vec![all; ranks]].concat();
    let (few, many) = (on_first(1_024), on_first(MAX_RANKS));
    for (table, rank, words) in
        [(&vec![0, all], 0, 16), (&few, 0, 16), (&few, 1_023, 16), (&many, 0, 256), (&many, 16_383, 256)]
    {
        let tables = Tables::of(table, table);
        let trees = if rank == 0 { MAX_TREES as u64 } else { 0 };
        for (dimension, faces) in [(2, 4), (3, 6)] {
            let got = run.calls.area_length(&tables, rank, dimension);
            assert_eq!(got.length, 32 + 2 * 8 * table.len() as u64 + 8 * words + (64 + 40 * faces) * trees);
        }
    }
    run.cases(1, |random, calls| {
        let mut case = Case::random(random, 8_000, 5);
        case.old = bytes_of(&[0, 1_000, -3_000, 3_000, 6_000, 8_000]);
        case.new = bytes_of(&[0, -2_000, 4_000, -4_500, 4_500, 8_000]);
        let mut area = case.fresh(1);
        for (_, message) in case.messages().into_iter().filter(|(ends, _)| ends[1] == 1) {
            area = calls.deliver(&area, &message).1;
        }
        let part = case.new_part(1);
        assert!(calls.close_area(&area, &vec![0; part.len()]).1 == part);
    });
}

fn seen_refusals(run: &mut Run) {
    expect_seen(
        run,
        &[
            ("area_length", &[2, 3, 4, 5]),
            ("open_area", &[2, 3, 4, 5, 22]),
            ("deliver", &[10, 11, 12, 13, 14, 15, 16, 17, 18]),
            ("progress_of", &[10]),
            ("part_of_area_length", &[10, 20, 21]),
            ("close_area", &[10, 20, 21, 22]),
        ],
    );
    for call in ["area_length", "open_area"] {
        let states = &run.calls.seen.tables[call];
        for old in [0, 2, 3] {
            for new in [0, 2, 3] {
                assert!(states.contains(&(old, new)), "{call}: no call with an old table of {old}, a new one of {new}");
            }
        }
    }
}

fn seen_faults(_: &mut Run) {
    let seen = FAULTS.with(|seen| seen.borrow().clone());
    let times = |faults: &[Fault]| seen.get(&faults.iter().copied().collect()).copied().unwrap_or(0);
    let refused: u64 = seen.iter().filter(|(faults, _)| !faults.is_empty()).map(|(_, times)| times).sum();
    assert!(times(&[]) > 10_000 && refused > 10_000, "{} sound, {refused} refused", times(&[]));
    for fault in [
        Fault::Length,
        Fault::Dimension,
        Fault::Tables,
        Fault::Header,
        Fault::Bits,
        Fault::TreeForm,
        Fault::TreeNumber,
        Fault::GhostForm,
        Fault::GhostLimit,
        Fault::GhostRange,
        Fault::GhostOrder,
        Fault::GhostCount,
        Fault::OtherTrees,
        Fault::OtherGhosts,
    ] {
        assert!(times(&[fault]) > 20, "only {fault:?} was broken {} times", times(&[fault]));
    }
}
