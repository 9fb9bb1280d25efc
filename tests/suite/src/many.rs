//! Many messages under one check: build_all and deliver_all against the single calls of the second implementation. Needs
//! the groups `message` and `area`.
use crate::area_model;
use crate::calls::{show, written, Calls, Tables};
use crate::cases;
use crate::library::Length;
use crate::machine::{self, Links};
use crate::mesh_cases as meshes;
use crate::message_model::{self, message_of};
use crate::model::{bytes_of, Answer, Pair};
use crate::part::words;
use crate::part_model::{self, Share, HEADER, TREE};
use crate::random::Random;
use crate::refusals::{expect_seen, first_of, kinds};
use crate::second::Case;
use crate::{Run, Test};

pub const TESTS: &[Test] = &[
    ("many: the document's three triangles", triangles),
    ("many: random parts, tables and ranks", build_random),
    ("many: buffers of each length", build_lengths),
    ("many: parts with each byte changed", build_each_byte),
    ("many: first refusal of build_all", build_refusals),
    ("many: ranks that send nothing", build_nothing),
    ("many: built for all, delivered at once, closed", whole_run),
    ("many: messages of others, repeated, changed and cut, in any order", deliver_random),
    ("many: lists of answers of each length", deliver_lengths),
    ("many: each byte of a row of messages changed, and each cut", deliver_each_byte),
    ("many: counts in headers up to the largest", deliver_counts),
    ("many: areas with each byte changed", deliver_areas),
    ("many: bytes of no message", deliver_bytes),
    ("many: a tree to and from a thousand ranks", thousand),
    ("many: the whole machine, every part compared", whole_machine),
    ("many: null pointers with count 0", null),
    ("seen: each refusal from build_all and deliver_all", seen_refusals),
];

#[repr(C)]
#[derive(Clone, Copy, Debug, PartialEq, Eq)]
struct Many {
    refusal: u32,
    count: u32,
    length: u64,
}

#[repr(C)]
#[derive(Clone, Copy, Debug, PartialEq, Eq)]
struct Count {
    refusal: u32,
    count: u32,
}

extern "C" {
    fn vejgodat_build_all_length(
        part: *const u8,
        part_len: usize,
        old: *const u8,
        old_len: usize,
        new: *const u8,
        new_len: usize,
        sender: u32,
    ) -> Many;
    fn vejgodat_build_all(
        part: *const u8,
        part_len: usize,
        old: *const u8,
        old_len: usize,
        new: *const u8,
        new_len: usize,
        sender: u32,
        epoch: u32,
        out: *mut u8,
        out_len: usize,
    ) -> Many;
    fn vejgodat_deliver_all(
        area: *mut u8,
        area_len: usize,
        messages: *const u8,
        messages_len: usize,
        answers: *mut u32,
        answers_len: usize,
    ) -> Count;
}

// ---- the second implementation

/// The messages of a rank to all that it sends to, each by the single call.
fn messages_of(part: &[u8], old: &[u8], new: &[u8], p: u32, epoch: u32) -> Answer<Vec<Vec<u8>>> {
    let pair = Pair::new(old, new)?;
    if p >= pair.ranks() {
        return Err(5);
    }
    if !part_model::faults(part, &Share::new(old, p)?).is_empty() {
        return Err(8);
    }
    let mut messages = Vec::new();
    for q in 0..pair.ranks() {
        match message_of(part, old, new, [p, q], epoch) {
            Ok(message) => messages.push(message.encode()),
            Err(refusal) => assert_eq!(refusal, 9),
        }
    }
    Ok(messages)
}

/// Where the messages of a row end, from the last one's end backwards to none.
fn parted(bytes: &[u8]) -> Vec<&[u8]> {
    let word = |at: usize| u128::from(u32::from_le_bytes(bytes[at..at + 4].try_into().unwrap()));
    if bytes.is_empty() {
        return Vec::new();
    }
    let whole = bytes.len() >= HEADER && 32 + 64 * word(24) + 40 * word(28) <= bytes.len() as u128;
    let (message, rest) =
        bytes.split_at(if whole { (32 + 64 * word(24) + 40 * word(28)) as usize } else { bytes.len() });
    [vec![message], parted(rest)].concat()
}

/// The area and the answers after one delivery after the other.
fn deliver_each(area: &[u8], bytes: &[u8], room: usize) -> Answer<(Vec<u8>, Vec<u32>)> {
    if area_model::read(area).is_err() {
        return Err(10);
    }
    let messages = parted(bytes);
    if room < messages.len() {
        return Err(22);
    }
    let (mut area, mut answers) = (area.to_vec(), Vec::new());
    for message in messages {
        let answer = area_model::deliver(&area, message);
        answers.push(answer.as_ref().err().copied().unwrap_or(0));
        area = written(&area, &answer);
    }
    Ok((area, answers))
}

// ---- the calls, compared

impl Calls {
    fn build_all_length(&mut self, part: &[u8], tables: &Tables, p: u32) -> Many {
        let answer = messages_of(part, &tables.old, &tables.new, p, 0);
        let place = self.place();
        let at = self.object.put(part, place);
        let (a, a_len, b, b_len) = self.put_tables(tables);
        let got = unsafe { vejgodat_build_all_length(at, part.len(), a, a_len, b, b_len, p) };
        assert_eq!(got, many(&answer), "build_all_length of {p}, {}: {}", show(&tables.old), words(part));
        assert!(self.object.bytes() == part, "build_all_length changed the part");
        self.note_tables("build_all_length", got.refusal, tables);
        got
    }

    fn build_all(&mut self, part: &[u8], tables: &Tables, p: u32, epoch: u32, before: &[u8]) -> (Many, Vec<u8>) {
        let mut answer = messages_of(part, &tables.old, &tables.new, p, epoch);
        if answer.as_ref().map_or(false, |messages| messages.concat().len() > before.len()) {
            answer = Err(22);
        }
        let (place, out_place) = (self.place(), self.place());
        let at = self.object.put(part, place);
        let out = self.out.put(before, out_place);
        let (a, a_len, b, b_len) = self.put_tables(tables);
        let got = unsafe { vejgodat_build_all(at, part.len(), a, a_len, b, b_len, p, epoch, out, before.len()) };
        let said = || format!("build_all of {p}, {}: {}", show(&tables.old), words(part));
        assert_eq!(got, many(&answer), "{}", said());
        let after = written(before, &answer.map(|messages| messages.concat()));
        assert!(self.out.bytes() == after, "{}: other messages", said());
        assert!(self.object.bytes() == part, "{}: the part changed", said());
        self.note_tables("build_all", got.refusal, tables);
        (got, after)
    }

    /// The answer, the area and the list of answers after it.
    fn deliver_all(&mut self, area: &[u8], messages: &[u8], before: &[u32]) -> (Count, Vec<u8>, Vec<u32>) {
        let answer = deliver_each(area, messages, before.len());
        let (a, b, c) = (self.place(), self.place(), self.place());
        let (area_at, messages_at) = (self.object.put(area, a), self.list.put(messages, b));
        let list = self.out.put_numbers(before, c);
        let got = unsafe {
            vejgodat_deliver_all(area_at, area.len(), messages_at, messages.len(), list, before.len())
        };
        let said = || format!("deliver_all of {} bytes {}: to {}", messages.len(), words(messages), words(area));
        let expected = match &answer {
            Ok((_, answers)) => Count { refusal: 0, count: answers.len() as u32 },
            Err(refusal) => Count { refusal: *refusal, count: 0 },
        };
        assert_eq!(got, expected, "{}", said());
        let (area_after, answers) = match answer {
            Ok((after, answers)) => (after, Ok(answers)),
            Err(refusal) => (area.to_vec(), Err(refusal)),
        };
        let list_after = written(before, &answers);
        assert!(self.object.bytes() == area_after, "{}: another area", said());
        assert_eq!(self.out.numbers(), list_after, "{}", said());
        assert!(self.list.bytes() == messages, "{}: the messages changed", said());
        self.note("deliver_all", got.refusal);
        (got, area_after, list_after)
    }
}

fn many(answer: &Answer<Vec<Vec<u8>>>) -> Many {
    match answer {
        Ok(messages) => {
            Many { refusal: 0, count: messages.len() as u32, length: messages.concat().len() as u64 }
        }
        Err(refusal) => Many { refusal: *refusal, count: 0, length: 0 },
    }
}

// ---- building

fn triangles(run: &mut Run) {
    let case = Case::triangles();
    let tables = Tables::new(&case.old, &case.new);
    let expected = crate::second::triangle_messages();
    for p in 0..3 {
        let part = case.old_part(p);
        let row: Vec<u8> = expected.iter().filter(|(ends, _)| ends[0] == p).flat_map(|(_, m)| m.clone()).collect();
        let (got, after) = run.calls.build_all(&part, &tables, p, 7, &vec![0; row.len()]);
        assert_eq!(got, Many { refusal: 0, count: [2, 2, 0][p as usize], length: row.len() as u64 });
        assert_eq!(after, row);
    }
    for q in 0..3 {
        let all: Vec<u8> = expected.iter().flat_map(|(_, message)| message.clone()).collect();
        let (got, area, answers) = run.calls.deliver_all(&case.fresh(q), &all, &[9; 6]);
        assert_eq!(got, Count { refusal: 0, count: 4 });
        let due: Vec<u32> = expected.iter().map(|(ends, _)| if ends[1] == q { 0 } else { 13 }).collect();
        assert_eq!((&answers[..4], &answers[4..]), (&due[..], &[9, 9][..]));
        let part = case.new_part(q);
        assert_eq!(run.calls.close_area(&area, &vec![0; part.len()]).1, part);
    }
}

fn some_case(random: &mut Random) -> Case {
    let (trees, ranks) = (meshes::count(random), random.number(1, 9) as usize);
    Case::random(random, trees, ranks)
}

fn build_random(run: &mut Run) {
    let mut rows = 0;
    while run.lacks(rows > 500, format_args!("{rows} ranks with more than two messages")) {
        run.cases(1_500, |random, calls| {
            let case = some_case(random);
            let tables = Tables::new(&case.old, &case.new);
            for p in 0..case.ranks() {
                let part = case.old_part(p);
                let length = calls.build_all_length(&part, &tables, p);
                rows += u32::from(length.count > 2);
                let more = random.pick(&[0, 1, 31, 500]);
                let before: Vec<u8> = (0..length.length as usize + more).map(|_| random.next() as u8).collect();
                let (got, _) = calls.build_all(&part, &tables, p, case.epoch, &before);
                assert_eq!(got, length);
            }
        });
    }
}

fn build_lengths(run: &mut Run) {
    run.cases(40, |random, calls| {
        let case = Case::random(random, 6, 3);
        let tables = Tables::new(&case.old, &case.new);
        let p = random.number(0, 2);
        let part = case.old_part(p);
        let all = calls.build_all_length(&part, &tables, p).length as usize;
        for room in 0..all + 3 {
            let (got, _) = calls.build_all(&part, &tables, p, case.epoch, &vec![0x5A; room]);
            assert_eq!(got.refusal, if room < all { 22 } else { 0 });
        }
    });
}

fn build_each_byte(run: &mut Run) {
    let case = Case::triangles();
    let tables = Tables::new(&case.old, &case.new);
    let part = case.old_part(1);
    let (mut accepted, mut refused) = (0, 0);
    for at in 0..part.len() {
        for change in [1, 16, 128, 255] {
            let mut part = part.clone();
            part[at] ^= change;
            let got = run.calls.build_all(&part, &tables, 1, 7, &[3; 400]).0;
            assert_eq!(run.calls.build_all_length(&part, &tables, 1), got);
            *(if got.refusal == 0 { &mut accepted } else { &mut refused }) += 1;
        }
    }
    for length in 0..part.len() {
        assert_eq!(run.calls.build_all(&part[..length], &tables, 1, 7, &[3; 400]).0.refusal, 8);
    }
    assert!(accepted > 100 && refused > 300, "{accepted} accepted, {refused} refused");
}

fn build_refusals(run: &mut Run) {
    let case = Case::triangles();
    let part = case.old_part(1);
    let mut bad = part.clone();
    bad[HEADER + 39] = 16;
    let all: Vec<(Vec<u8>, u32)> = kinds().into_iter().chain([(case.old.clone(), 0), (case.new.clone(), 0)]).collect();
    for (old, old_fails) in &all {
        for (new, new_fails) in &all {
            let tables = Tables::new(old, new);
            let ranks = old.len() / 8 - usize::from(old.len() >= 8);
            for p in [1, 2, 3, 1_024, u32::MAX] {
                for part in [&part, &bad] {
                    for room in [0, 1_000] {
                        let (got, _) = run.calls.build_all(part, &tables, p, 7, &vec![1; room]);
                        let fails = |number: u32| *old_fails == number || *new_fails == number;
                        let first = [2, 3].into_iter().find(|&number| fails(number)).unwrap_or(0);
                        let agree = Pair::new(old, new).err().unwrap_or(0);
                        let bad_rank = if p as usize >= ranks { 5 } else { 0 };
                        let sound = old == &case.old && p == 1 && part != &bad;
                        let sends = messages_of(part, old, new, p, 7).map_or(false, |messages| !messages.is_empty());
                        let bad_room = if room == 0 && sends { 22 } else { 0 };
                        let expected = first_of(&[first, agree, bad_rank, if sound { 0 } else { 8 }, bad_room]);
                        assert_eq!(got.refusal, expected);
                        let length = run.calls.build_all_length(part, &tables, p);
                        assert_eq!(length.refusal, if expected == 22 { 0 } else { expected });
                    }
                }
            }
        }
    }
}

/// An empty send set is no refusal, and the part is checked all the same.
fn build_nothing(run: &mut Run) {
    let mesh = meshes::apart(&[1, 1], 0);
    for (old, new) in [([0, -1, 2], [0, 0, 2]), ([0, 0, 2], [0, 1, 2])] {
        let case = Case { mesh: mesh.clone(), old: bytes_of(&old), new: bytes_of(&new), epoch: 3 };
        let tables = Tables::new(&case.old, &case.new);
        let part = case.old_part(0);
        let nothing = Many { refusal: 0, count: 0, length: 0 };
        assert_eq!(run.calls.build_all_length(&part, &tables, 0), nothing);
        assert_eq!(run.calls.build_all(&part, &tables, 0, 3, &[]).0, nothing);
        assert_eq!(run.calls.build_all(&part, &tables, 0, 3, &[7; 99]), (nothing, vec![7; 99]));
        let mut bad = part.clone();
        bad[28] = 1;
        assert_eq!(run.calls.build_all(&bad, &tables, 0, 3, &[7; 99]).0.refusal, 8);
    }
}

// ---- delivering

fn fresh(calls: &mut Calls, case: &Case, tables: &Tables, q: u32, behind: usize) -> Vec<u8> {
    let Length { refusal, length } = calls.area_length(tables, q, case.dimension());
    assert_eq!(refusal, 0);
    calls.open_area(tables, q, case.dimension(), case.epoch, &vec![0xB0; length as usize + behind]).1
}

fn whole_run(run: &mut Run) {
    run.cases(600, |random, calls| {
        let case = some_case(random);
        let tables = Tables::new(&case.old, &case.new);
        let mut rows: Vec<Vec<u8>> = Vec::new();
        for p in 0..case.ranks() {
            let part = case.old_part(p);
            let length = calls.build_all_length(&part, &tables, p).length as usize;
            rows.push(calls.build_all(&part, &tables, p, case.epoch, &vec![0; length]).1);
        }
        for q in 0..case.ranks() {
            let mut order: Vec<usize> = (0..rows.len()).collect();
            for at in (1..order.len()).rev() {
                order.swap(at, random.below(at as u64 + 1) as usize);
            }
            let all: Vec<u8> = order.iter().flat_map(|&p| rows[p].clone()).collect();
            let area = fresh(calls, &case, &tables, q, 0);
            let (got, area, answers) = calls.deliver_all(&area, &all, &vec![1; parted(&all).len()]);
            assert_eq!(got.refusal, 0);
            assert!(answers.iter().all(|&answer| answer == 0 || answer == 13));
            let part = case.new_part(q);
            assert_eq!(calls.close_area(&area, &vec![0; part.len()]).1, part);
        }
    });
}

fn deliver_random(run: &mut Run) {
    let mut seen = std::collections::BTreeSet::new();
    run.cases(1_500, |random, calls| {
        let case = if random.chance(128) { Case::gathering(random) } else { some_case(random) };
        let tables = Tables::new(&case.old, &case.new);
        let messages: Vec<Vec<u8>> = case.messages().into_values().collect();
        let q = random.number(0, case.ranks() - 1);
        let mut area = fresh(calls, &case, &tables, q, random.pick(&[0, 1, 50]));
        for _ in 0..random.number(1, 3) {
            let mut row = Vec::new();
            for _ in 0..random.number(0, 8) {
                let mut message = random.pick(&messages);
                if random.chance(90) {
                    let at = random.below(message.len() as u64) as usize;
                    message[at] ^= 1 << random.below(8);
                }
                row.extend(message);
            }
            if random.chance(60) {
                row.truncate(random.below(row.len() as u64 + 1) as usize);
            }
            let count = parted(&row).len();
            let room = count + random.below(3) as usize;
            let (got, after, answers) = calls.deliver_all(&area, &row, &vec![77; room]);
            assert_eq!(got, Count { refusal: 0, count: count as u32 });
            seen.extend(answers[..count].iter().copied());
            area = after;
        }
    });
    for number in [0, 11, 12, 13, 14, 15, 16, 17] {
        assert!(seen.contains(&number), "no message got {number}: {seen:?}");
    }
}

fn deliver_lengths(run: &mut Run) {
    run.cases(100, |random, calls| {
        let case = Case::gathering(random);
        let tables = Tables::new(&case.old, &case.new);
        let row: Vec<u8> = case.messages().into_values().flatten().collect();
        let count = parted(&row).len();
        let area = fresh(calls, &case, &tables, random.number(0, case.ranks() - 1), 7);
        for room in 0..count + 3 {
            let (got, _, _) = calls.deliver_all(&area, &row, &vec![5; room]);
            assert_eq!(got.refusal, if room < count { 22 } else { 0 });
        }
    });
}

/// Rank 1 of the triangles, fresh, and the two messages for it.
fn small() -> (Vec<u8>, Vec<u8>) {
    let row = crate::second::triangle_messages()[1..3].iter().flat_map(|(_, message)| message.clone()).collect();
    (Case::triangles().fresh(1), row)
}

fn deliver_each_byte(run: &mut Run) {
    let (area, row) = small();
    let mut pieces = std::collections::BTreeSet::new();
    for at in 0..row.len() {
        for change in [1, 2, 16, 128, 255] {
            let mut row = row.clone();
            row[at] ^= change;
            pieces.insert(run.calls.deliver_all(&area, &row, &[4; 8]).0.count);
        }
    }
    for length in 0..row.len() {
        pieces.insert(run.calls.deliver_all(&area, &row[..length], &[4; 8]).0.count);
        run.calls.deliver_all(&area, &row[length..], &[4; 8]);
    }
    // none; one by a count too large, two as they are, three by a count too small
    assert!(pieces.is_superset(&[0, 1, 2, 3].into()), "{pieces:?}");
}

fn deliver_counts(run: &mut Run) {
    let (area, row) = small();
    let numbers = [0, 1, 2, 3, 1 << 20, 67_108_863, 67_108_864, 1 << 30, (1 << 31) - 1, 1 << 31, u32::MAX - 1, u32::MAX];
    for trees in numbers {
        for ghosts in numbers {
            let mut row = row.clone();
            row[24..28].copy_from_slice(&trees.to_le_bytes());
            row[28..32].copy_from_slice(&ghosts.to_le_bytes());
            let (got, _, _) = run.calls.deliver_all(&area, &row, &[4; 8]);
            assert!(got.refusal == 0 && got.count >= 1);
        }
    }
}

fn deliver_areas(run: &mut Run) {
    let (area, row) = small();
    let heard = run.calls.deliver_all(&area, &row[..parted(&row)[0].len()], &[0]).1;
    let (mut unsound, mut accepted) = (0, 0);
    for area in [area, heard] {
        for at in 0..area.len() {
            for change in [1, 255] {
                let mut area = area.clone();
                area[at] ^= change;
                let (got, _, _) = run.calls.deliver_all(&area, &row, &[4; 3]);
                *(if got.refusal == 10 { &mut unsound } else { &mut accepted }) += 1;
                // 10 before 22
                let (short, _, _) = run.calls.deliver_all(&area, &row, &[4]);
                assert_eq!(short.refusal, if got.refusal == 10 { 10 } else { 22 });
            }
        }
        for length in 0..area.len() {
            assert_eq!(run.calls.deliver_all(&area[..length], &row, &[4; 3]).0.refusal, 10);
        }
    }
    assert!(unsound > 500 && accepted > 30, "{unsound} unsound, {accepted} accepted");
}

fn deliver_bytes(run: &mut Run) {
    let (area, _) = small();
    let mut random = Random::new(1, "bytes", 0);
    for length in 0..200 {
        let bytes: Vec<u8> = (0..length).map(|_| random.next() as u8).collect();
        let (got, _, answers) = run.calls.deliver_all(&area, &bytes, &[4; 3]);
        let one = u32::from(length > 0);
        assert_eq!(got, Count { refusal: 0, count: one });
        assert_eq!(answers[0], if length > 0 { 11 } else { 4 });
    }
    // headers of nothing, end to end
    for count in 0..9 {
        let (got, _, answers) = run.calls.deliver_all(&area, &vec![0; HEADER * count], &[4; 9]);
        assert_eq!(got, Count { refusal: 0, count: count as u32 });
        assert!(answers[..count].iter().all(|&answer| answer == 11));
    }
}

/// One rank has all trees and each other gets one; and the way back.
fn thousand(run: &mut Run) {
    let (ranks, trees) = (1_000, 1_000);
    let mut random = Random::new(2, "thousand", 0);
    let mesh = meshes::sound(&mut random, trees);
    for root in [0, 500, 999] {
        let gathered: Vec<i64> = (0..=ranks as i64).map(|p| if p <= root { 0 } else { trees as i64 }).collect();
        let spread: Vec<i64> = (0..=ranks as i64).collect();
        let out = Case { mesh: mesh.clone(), old: bytes_of(&gathered), new: bytes_of(&spread), epoch: 1 };
        let tables = Tables::new(&out.old, &out.new);
        let part = out.old_part(root as u32);
        // the second implementation takes P and K for each of a thousand messages
        let place = run.calls.place();
        let at = run.calls.object.put(&part, place);
        let (a, a_len, b, b_len) = run.calls.put_tables(&tables);
        let length = unsafe { vejgodat_build_all_length(at, part.len(), a, a_len, b, b_len, root as u32) };
        assert_eq!((length.refusal, length.count), (0, 1_000));
        let (_, row) = build_row(&mut run.calls, &part, &tables, root as u32, length.length as usize);
        let messages = parted(&row);
        assert_eq!(messages.len(), 1_000);
        for q in [0, 1, 400, 999] {
            let one = message_model::build_message(&part, &out.old, &out.new, [root as u32, q as u32], 1, None);
            assert_eq!(Ok(messages[q].to_vec()), one);
        }
        run.calls.note_tables("build_all", 0, &tables);
        // back: each of a thousand ranks sends its tree to the root
        let back = Case { mesh: mesh.clone(), old: out.new.clone(), new: out.old.clone(), epoch: 1 };
        let tables = Tables::new(&back.old, &back.new);
        let mut row = Vec::new();
        for p in 0..ranks as u32 {
            let part = back.old_part(p);
            let (got, one) = build_row(&mut run.calls, &part, &tables, p, 64 + TREE * 8);
            assert_eq!((got.refusal, got.count), (0, 1));
            row.extend(&one[..got.length as usize]);
        }
        let mut area = back.fresh(root as u32);
        let mut answers = vec![4; 1_001];
        let got = unsafe {
            vejgodat_deliver_all(area.as_mut_ptr(), area.len(), row.as_ptr(), row.len(), answers.as_mut_ptr(), 1_001)
        };
        assert_eq!(got, Count { refusal: 0, count: 1_000 });
        assert!(answers[..1_000].iter().all(|&answer| answer == 0) && answers[1_000] == 4);
        let part = back.new_part(root as u32);
        assert_eq!(area_model::close_area(&area, Some(part.len())), Ok(part));
    }
}

/// The call alone, without the second implementation.
fn build_row(calls: &mut Calls, part: &[u8], tables: &Tables, p: u32, room: usize) -> (Many, Vec<u8>) {
    let (place, out_place) = (calls.place(), calls.place());
    let at = calls.object.put(part, place);
    let out = calls.out.put(&vec![0; room], out_place);
    let (a, a_len, b, b_len) = calls.put_tables(tables);
    let got = unsafe { vejgodat_build_all(at, part.len(), a, a_len, b, b_len, p, 1, out, room) };
    (got, calls.out.bytes().to_vec())
}

/// All ranks of a machine repartition: what bench/scale does up to 16,384 ranks.
fn whole_machine(run: &mut Run) {
    for links in [Links::Brick, Links::Random] {
        for (ranks, power) in [(4, 4), (16, 10), (64, 10), (256, 12)] {
            let mesh = machine::mesh(links, power);
            let sums = machine::repartition(&mesh, ranks, 4, run.seed);
            assert!(sums.messages >= sums.least_messages && sums.bytes > sums.least_bytes);
            run.calls.seen.calls += sums.calls;
        }
    }
}

fn null(run: &mut Run) {
    let none = std::ptr::null();
    let got = unsafe { vejgodat_build_all_length(none, 0, none, 0, none, 0, 0) };
    assert_eq!(got, Many { refusal: 2, count: 0, length: 0 });
    let got = unsafe { vejgodat_build_all(none, 0, none, 0, none, 0, 0, 0, std::ptr::null_mut(), 0) };
    assert_eq!(got, Many { refusal: 2, count: 0, length: 0 });
    let (mut area, _) = small();
    let numbers = std::ptr::null_mut();
    let got = unsafe { vejgodat_deliver_all(std::ptr::null_mut(), 0, none, 0, numbers, 0) };
    assert_eq!(got, Count { refusal: 10, count: 0 });
    let got = unsafe { vejgodat_deliver_all(area.as_mut_ptr(), area.len(), none, 0, numbers, 0) };
    assert_eq!(got, Count { refusal: 0, count: 0 });
    assert!(area == small().0);
    run.calls.note("deliver_all", 0);
}

fn seen_refusals(run: &mut Run) {
    expect_seen(
        run,
        &[
            ("build_all_length", &[2, 3, 4, 5, 8]),
            ("build_all", &[2, 3, 4, 5, 8, 22]),
            ("deliver_all", &[10, 22]),
        ],
    );
    let _ = cases::number;
}
