//! What is wrong with a header: the first wrong field of parts and whole meshes, and the fault beside it. Needs the
//! groups `part` and `faults`.
use crate::calls::{show, Calls};
use crate::cases;
use crate::headers_model::{self as model, WrongField};
use crate::mesh_cases::{self as meshes, put};
use crate::model::bytes_of;
use crate::part::{one_field, other_values, words, Case};
use crate::part_model::HEADER;
use crate::random::Random;
use crate::refusals::{expect_seen, first_of, kinds};
use crate::second::triangles;
use crate::{Run, Test};
use std::collections::BTreeMap;
use std::sync::Mutex;

pub const TESTS: &[Test] = &[
    ("headers: each field of a part, by hand", part_by_hand),
    ("headers: each field of a whole mesh, by hand", mesh_by_hand),
    ("headers: each byte of headers changed, and each length", header_bytes),
    ("headers: another rank, another table, another length", mistaken),
    ("headers: any numbers in a header", any_header),
    ("headers: first refusal", refusals),
    ("headers: null pointers with count 0", null_pointers),
    ("headers: the largest mesh", large),
    ("seen: each refusal from the header calls", seen_refusals),
    ("seen: each field of either object", seen_fields),
];

extern "C" {
    fn vejgodat_part_header(
        part: *const u8,
        part_len: usize,
        table: *const u8,
        table_len: usize,
        rank: u32,
    ) -> WrongField;
    fn vejgodat_mesh_header(mesh: *const u8, mesh_len: usize) -> WrongField;
}

/// How often each field was seen of a part and a mesh.
static SEEN: Mutex<BTreeMap<(&'static str, u32), u64>> = Mutex::new(BTreeMap::new());

/// The kind of a fault: header or length.
const HEADER_OR_LENGTH: u32 = 6;

impl Calls {
    fn field_noted(&mut self, call: &'static str, got: WrongField) -> WrongField {
        if got.field == 0 {
            assert_eq!(got, WrongField { refusal: got.refusal, ..WrongField::default() });
        } else {
            assert_eq!(got.refusal, 0);
            // a dimension or a K of 0 is wrong, too, where no single number is due
            assert!(got.due != got.found || got.due == 0 && [2, 3].contains(&got.field));
        }
        self.note(call, got.refusal);
        *SEEN.lock().unwrap().entry((call, got.field)).or_default() += 1;
        got
    }

    pub fn part_header(&mut self, part: &[u8], table: &[u8], rank: u32) -> WrongField {
        // the call for the first fault tells such a part as header or length, and refuses as this one does
        let fault = self.part_fault(part, table, rank);
        let (a, b) = (self.place(), self.place());
        let (part_at, table_at) = (self.object.put(part, a), self.old.put(table, b));
        let got = unsafe { vejgodat_part_header(part_at, part.len(), table_at, table.len(), rank) };
        assert_eq!(
            got,
            model::part_header(part, table, rank),
            "part_header of {rank} in {}: {}",
            show(table),
            words(part)
        );
        assert!(self.object.bytes() == part && self.old.bytes() == table, "part_header changed its input");
        assert_eq!((got.refusal, got.field != 0), (fault.refusal, fault.kind == HEADER_OR_LENGTH));
        self.field_noted("part_header", got)
    }

    pub fn mesh_header(&mut self, mesh: &[u8]) -> WrongField {
        let fault = self.mesh_fault(mesh);
        let place = self.place();
        let at = self.object.put(mesh, place);
        let got = unsafe { vejgodat_mesh_header(at, mesh.len()) };
        assert_eq!(got, model::mesh_header(mesh), "mesh_header of {}", words(mesh));
        assert!(self.object.bytes() == mesh, "mesh_header changed the mesh");
        assert_eq!((got.refusal, got.field != 0), (0, fault.kind == HEADER_OR_LENGTH));
        self.field_noted("mesh_header", got)
    }
}

fn wrong(field: u32, due: u64, found: u64) -> WrongField {
    WrongField { refusal: 0, field, due, found }
}

// ---- by hand

/// The part of rank 1 of the document's triangles under {0,-1,2,3}: trees 0 and 1, ghost 2, 200 bytes.
fn part_case(calls: &mut Calls, change: impl FnOnce(&mut Vec<u8>), expected: WrongField) {
    let case = Case::new(&triangles(), &bytes_of(&[0, -1, 2, 3]), 1);
    let mut part = case.part.clone();
    assert_eq!(part.len(), 200);
    change(&mut part);
    assert_eq!(calls.part_header(&part, &case.table, case.rank), expected);
}

fn part_by_hand(run: &mut Run) {
    let calls = &mut run.calls;
    part_case(calls, |_| (), WrongField::default());
    part_case(calls, |part| part.truncate(31), wrong(1, 32, 31));
    part_case(calls, |part| part[0] = 4, wrong(2, 0, 4));
    part_case(calls, |part| put(part, 4, 4), wrong(3, 3, 4));
    part_case(calls, |part| put(part, 8, 2), wrong(4, 3, 2));
    part_case(calls, |part| put(part, 12, 2), wrong(5, 1, 2));
    part_case(calls, |part| put(part, 16, 1), wrong(6, 0, 1));
    part_case(calls, |part| put(part, 20, 1), wrong(7, 2, 1));
    part_case(calls, |part| put(part, 28, 9), wrong(8, 0, 9));
    part_case(calls, |part| part.truncate(32), wrong(9, 200, 32));
    part_case(calls, |part| part.resize(256, 0), wrong(9, 200, 256));
    // the ghost count is no field of its own: the length is what it asks for
    part_case(calls, |part| put(part, 24, 2), wrong(9, 240, 200));
    part_case(calls, |part| put(part, 24, u32::MAX), wrong(9, 160 + 40 * u64::from(u32::MAX), 200));
    // a record that is wrong is no matter of the header
    part_case(calls, |part| part[HEADER + 4] = 6, WrongField::default());
    // the first of two
    part_case(calls, |part| (part[28], part[16]) = (1, 1), wrong(6, 0, 1));
    // another rank; the old table for the new one; another number of ranks; another number of trees
    let part = Case::new(&triangles(), &bytes_of(&[0, -1, 2, 3]), 1).part;
    for (table, rank, expected) in [
        (&[0, -1, 2, 3][..], 0, wrong(5, 0, 1)),
        (&[0, 1, 3, 3], 1, wrong(6, 1, 0)),
        (&[0, 0, 3, 3], 1, wrong(7, 3, 2)),
        (&[0, -1, 2, 3, 3], 1, wrong(4, 4, 3)),
        (&[0, -1, 2, 4], 1, wrong(3, 4, 3)),
    ] {
        assert_eq!(calls.part_header(&part, &bytes_of(table), rank), expected);
    }
}

fn mesh_case(calls: &mut Calls, change: impl FnOnce(&mut Vec<u8>), expected: WrongField) {
    let mut mesh = triangles();
    change(&mut mesh);
    assert_eq!(calls.mesh_header(&mesh), expected);
}

fn mesh_by_hand(run: &mut Run) {
    let calls = &mut run.calls;
    mesh_case(calls, |_| (), WrongField::default());
    mesh_case(calls, |mesh| mesh.truncate(7), wrong(1, 8, 7));
    mesh_case(calls, |mesh| mesh.truncate(0), wrong(1, 8, 0));
    mesh_case(calls, |mesh| mesh[0] = 1, wrong(2, 0, 1));
    mesh_case(calls, |mesh| put(mesh, 4, 0), wrong(3, 0, 0));
    mesh_case(calls, |mesh| put(mesh, 4, 1_048_577), wrong(3, 0, 1_048_577));
    mesh_case(calls, |mesh| put(mesh, 4, 1_048_576), wrong(9, 8 + (64 << 20), 200));
    mesh_case(calls, |mesh| put(mesh, 4, 4), wrong(9, 264, 200));
    mesh_case(calls, |mesh| mesh.truncate(8), wrong(9, 200, 8));
    mesh_case(calls, |mesh| mesh.push(0), wrong(9, 200, 201));
    mesh_case(calls, |mesh| mesh[12] = 6, WrongField::default());
    mesh_case(calls, |mesh| (mesh[0], mesh[4]) = (0, 0), wrong(2, 0, 0));
}

// ---- damaged

fn header_bytes(run: &mut Run) {
    run.cases(60, |random, calls| {
        let trees = random.number(1, 6) as usize;
        let case = Case::random(random, trees);
        assert_eq!(calls.part_header(&case.part, &case.table, case.rank), WrongField::default());
        assert_eq!(calls.mesh_header(&case.mesh), WrongField::default());
        for at in 0..HEADER {
            for value in other_values(case.part[at]) {
                let mut part = case.part.clone();
                part[at] = value;
                // the dimension may become the other one
                let other = at == 0 && (2..=3).contains(&value);
                assert_eq!(calls.part_header(&part, &case.table, case.rank).field == 0, other);
            }
        }
        for at in 0..8 {
            for value in other_values(case.mesh[at]) {
                let mut mesh = case.mesh.clone();
                mesh[at] = value;
                let other = at == 0 && (2..=3).contains(&value);
                assert_eq!(calls.mesh_header(&mesh).field == 0, other);
            }
        }
        for length in 0..case.part.len() as u64 {
            let due = if length < 32 { wrong(1, 32, length) } else { wrong(9, case.part.len() as u64, length) };
            assert_eq!(calls.part_header(&case.part[..length as usize], &case.table, case.rank), due);
        }
        for length in 0..case.mesh.len() as u64 {
            let due = if length < 8 { wrong(1, 8, length) } else { wrong(9, case.mesh.len() as u64, length) };
            assert_eq!(calls.mesh_header(&case.mesh[..length as usize]), due);
        }
    });
}

/// What users mistake: the rank, the table, P, and the length of the buffer for that of the part.
fn mistaken(run: &mut Run) {
    run.cases(4_000, |random, calls| {
        let trees = meshes::count(random).min(20);
        let case = Case::random(random, trees);
        let ranks = case.share().ranks;
        for rank in 0..ranks {
            let got = calls.part_header(&case.part, &case.table, rank);
            let other = if rank == case.rank { WrongField::default() } else { wrong(5, rank.into(), case.rank.into()) };
            assert_eq!(got, other);
        }
        let same_ranks = bytes_of(&cases::table(random, ranks as usize, trees as u32));
        calls.part_header(&case.part, &same_ranks, case.rank);
        let other_ranks = random.number(1, 6) as usize;
        calls.part_header(&case.part, &bytes_of(&cases::table(random, other_ranks, trees as u32)), case.rank);
        let other_trees = random.number(1, 20);
        calls.part_header(&case.part, &bytes_of(&cases::table(random, ranks as usize, other_trees)), case.rank);
        let mut buffer = case.part.clone();
        buffer.resize(case.part.len() + random.number(1, 200) as usize, 7);
        let (size, length) = (case.part.len() as u64, buffer.len() as u64);
        assert_eq!(calls.part_header(&buffer, &case.table, case.rank), wrong(9, size, length));
        calls.part_header(&one_field(random, &case), &case.table, case.rank);
    });
}

/// Numbers that are often those due.
fn any_header(run: &mut Run) {
    run.cases(20_000, |random, calls| {
        let (ranks, trees) = (random.number(1, 4) as usize, random.number(1, 6));
        let table = bytes_of(&cases::table(random, ranks, trees));
        let rank = random.below(ranks as u64 + 1) as u32;
        let any = |random: &mut Random, often: u32| if random.chance(230) { often } else { cases::number(random) };
        let share = Case::new(&meshes::apart(&vec![1; trees as usize], 0), &table, rank.min(ranks as u32 - 1)).share();
        let due = [2, share.trees, share.ranks, share.rank, share.first(), share.count(), random.number(0, 2), 0];
        let numbers = due.map(|number| any(random, number));
        let mut part: Vec<u8> = numbers.iter().flat_map(|number| number.to_le_bytes()).collect();
        let size = 64 * u64::from(numbers[5]) + 40 * u64::from(numbers[6]);
        let length = if size < 1_000 && random.chance(200) { size } else { random.below(300) };
        part.extend(random.bytes(length as usize));
        calls.part_header(&part, &table, rank);
        let mut mesh: Vec<u8> =
            [any(random, 3), any(random, trees)].iter().flat_map(|number| number.to_le_bytes()).collect();
        let length = if random.chance(200) { 64 * trees as usize } else { random.below(300) as usize };
        mesh.extend(random.bytes(length));
        calls.mesh_header(&mesh);
    });
}

// ---- refusals and limits

fn refusals(run: &mut Run) {
    let case = Case::new(&triangles(), &bytes_of(&[0, -1, 2, 3]), 1);
    for (table, fails) in kinds().into_iter().chain([(case.table.clone(), 0)]) {
        for rank in [0, 1, 2, 16_384, u32::MAX] {
            for part in [&case.part[..], &case.part[..20], &[]] {
                let bad_rank = if rank as usize >= table.len() / 8 - usize::from(table.len() >= 8) { 5 } else { 0 };
                let got = run.calls.part_header(part, &table, rank);
                assert_eq!(got.refusal, first_of(&[fails, bad_rank]));
            }
        }
    }
}

fn null_pointers(run: &mut Run) {
    let null = std::ptr::null();
    let table = bytes_of(&[0, 1]);
    let at = run.calls.old.put(&table, crate::memory::Place::Front);
    unsafe {
        assert_eq!(vejgodat_mesh_header(null, 0), wrong(1, 8, 0));
        assert_eq!(vejgodat_part_header(null, 0, null, 0, 0), WrongField { refusal: 2, ..WrongField::default() });
        assert_eq!(vejgodat_part_header(null, 0, at, table.len(), 0), wrong(1, 32, 0));
    }
    for call in ["mesh_header", "part_header"] {
        run.calls.note(call, 0);
    }
}

/// The largest mesh, of which no record is looked at.
fn large(run: &mut Run) {
    let mut mesh = vec![0; 8 + (64 << 20)];
    put(&mut mesh, 0, 3);
    put(&mut mesh, 4, 1 << 20);
    let length = mesh.len();
    for (found, expected) in [(length, WrongField::default()), (length - 1, wrong(9, length as u64, length as u64 - 1))]
    {
        let got = unsafe { vejgodat_mesh_header(mesh.as_ptr(), found) };
        assert_eq!(got, expected);
        run.calls.note("mesh_header", got.refusal);
    }
}

fn seen_refusals(run: &mut Run) {
    expect_seen(run, &[("mesh_header", &[]), ("part_header", &[2, 3, 5])]);
}

fn seen_fields(_: &mut Run) {
    let seen = SEEN.lock().unwrap();
    let objects: [(&'static str, &[u32]); 2] =
        [("part_header", &[0, 1, 2, 3, 4, 5, 6, 7, 8, 9]), ("mesh_header", &[0, 1, 2, 3, 9])];
    for (call, fields) in objects {
        for &field in fields {
            let times = seen.get(&(call, field)).copied().unwrap_or(0);
            assert!(times >= 100, "field {field} from {call}: {times} times");
        }
    }
}
