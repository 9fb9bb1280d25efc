//! Where an object fails: the first fault of tables, whole meshes and parts, and the check beside it. Needs the group
//! `part`.
use crate::calls::{show, Calls};
use crate::cases;
use crate::faults_model::{self as model, Fault, KINDS};
use crate::mesh_cases::{self as meshes, place, put};
use crate::mesh_model::{number_at, Link};
use crate::model::bytes_of;
use crate::part::{one_field, other_values, several_fields, words, Case};
use crate::part_model::{GHOST, HEADER, TREE};
use crate::refusals::{expect_seen, first_of, kinds};
use crate::second::triangles;
use crate::{Run, Test};
use std::collections::BTreeMap;
use std::sync::Mutex;

pub const TESTS: &[Test] = &[
    ("faults: each kind of a table, by hand", table_by_hand),
    ("faults: every small table", every_table),
    ("faults: random tables, spoilt tables, each byte and length", any_table),
    ("faults: each kind of a whole mesh, by hand", mesh_by_hand),
    ("faults: each byte of small meshes changed, and each length", mesh_bytes),
    ("faults: damaged meshes", damaged_meshes),
    ("faults: each kind of a part, by hand", part_by_hand),
    ("faults: each byte of small parts changed, and each length", part_bytes),
    ("faults: damaged parts", damaged_parts),
    ("faults: of another table or rank, first refusal", refusals),
    ("faults: null pointers with count 0", null_pointers),
    ("faults: a million trees, with the last one damaged", large),
    ("seen: each refusal from the fault calls", seen_refusals),
    ("seen: each kind of fault of each object", seen_kinds),
];

extern "C" {
    fn vejgodat_table_fault(table: *const u8, table_len: usize) -> Fault;
    fn vejgodat_mesh_fault(mesh: *const u8, mesh_len: usize) -> Fault;
    fn vejgodat_part_fault(
        part: *const u8,
        part_len: usize,
        table: *const u8,
        table_len: usize,
        rank: u32,
    ) -> Fault;
}

/// How often each kind was seen of a table, a mesh and a part.
static SEEN: Mutex<BTreeMap<(&'static str, u32), u64>> = Mutex::new(BTreeMap::new());

impl Calls {
    fn noted(&mut self, call: &'static str, got: Fault, check: u32) -> Fault {
        // beside a refusal all is 0; else the fault is what the check gives, and the kind is 0 exactly where it is
        if got.refusal != 0 {
            assert_eq!(got, Fault { refusal: got.refusal, ..Fault::default() });
            assert_eq!(check, got.refusal);
        } else {
            assert_eq!(got.fault, check);
            assert_eq!(got.kind == 0, got.fault == 0);
        }
        if got.fault == 0 {
            assert_eq!(got, Fault { refusal: got.refusal, ..Fault::default() });
        }
        self.note(call, got.refusal);
        *SEEN.lock().unwrap().entry((call, got.kind)).or_default() += 1;
        got
    }

    pub fn table_fault(&mut self, table: &[u8]) -> Fault {
        let check = self.check_table(table);
        let place = self.place();
        let at = self.old.put(table, place);
        let got = unsafe { vejgodat_table_fault(at, table.len()) };
        assert_eq!(got, model::table_fault(table), "table_fault {}", show(table));
        assert_eq!(self.old.bytes(), table, "table_fault changed the table");
        self.noted("table_fault", got, check)
    }

    pub fn mesh_fault(&mut self, mesh: &[u8]) -> Fault {
        let check = self.check_mesh(mesh);
        let place = self.place();
        let at = self.object.put(mesh, place);
        let got = unsafe { vejgodat_mesh_fault(at, mesh.len()) };
        assert_eq!(got, model::mesh_fault(mesh), "mesh_fault of {} bytes {:?}", mesh.len(), &mesh[..mesh.len().min(200)]);
        assert!(self.object.bytes() == mesh, "mesh_fault changed the mesh");
        self.noted("mesh_fault", got, check)
    }

    pub fn part_fault(&mut self, part: &[u8], table: &[u8], rank: u32) -> Fault {
        let check = self.check_part(part, table, rank);
        let (a, b) = (self.place(), self.place());
        let (part_at, table_at) = (self.object.put(part, a), self.old.put(table, b));
        let got = unsafe { vejgodat_part_fault(part_at, part.len(), table_at, table.len(), rank) };
        assert_eq!(got, model::part_fault(part, table, rank), "part_fault of {rank} in {}: {}", show(table), words(part));
        assert!(self.object.bytes() == part && self.old.bytes() == table, "part_fault changed its input");
        self.noted("part_fault", got, check)
    }
}

fn fault(fault: u32, kind: u32, at: u32, face: u32) -> Fault {
    Fault { refusal: 0, fault, kind, at, face }
}

// ---- tables

fn table_by_hand(run: &mut Run) {
    let cases: &[(&[i64], u32, u32)] = &[
        (&[-1, 1], 1, 0),
        (&[1, 2, 5], 1, 0),
        (&[0, 0], 2, 1),
        (&[0, 3, -5], 2, 2),
        (&[0, 3, 1_048_577], 2, 2),
        (&[0, 6, 5], 3, 1),
        (&[0, -6, 5], 3, 1),
        (&[0, 3, 0], 3, 1),
        (&[0, 4, 3, 5], 4, 1),
        (&[0, 3, -5, 2, 5], 4, 2),
        (&[0, -4, -3, 5], 5, 1),
        (&[0, 3, -4, -3, 5], 5, 2),
        (&[0, i64::MIN, 5], 3, 1),
        (&[0, 5, i64::MIN], 2, 2),
    ];
    for &(table, kind, at) in cases {
        assert_eq!(run.calls.table_fault(&bytes_of(table)), fault(3, kind, at, 0), "{table:?}");
    }
    for table in [&[0, 1][..], &[0, -1, 1], &[0, 0, 0, 5], &[0, 3, -3, 5], &[0, -3, -3, 5]] {
        assert_eq!(run.calls.table_fault(&bytes_of(table)), Fault::default());
    }
}

fn every_table(run: &mut Run) {
    for ranks in 1..=3 {
        cases::every_list(ranks + 1, -4, 4, |table| {
            run.calls.table_fault(&bytes_of(table));
        });
    }
}

fn any_table(run: &mut Run) {
    run.cases(4_000, |random, calls| {
        let (ranks, trees) = (cases::ranks(random), cases::trees(random));
        let table = cases::table(random, ranks, trees);
        assert_eq!(calls.table_fault(&bytes_of(&table)), Fault::default());
        for _ in 0..3 {
            let mut spoilt = cases::spoilt_table(random, table.clone());
            calls.table_fault(&bytes_of(&spoilt));
            let at = random.below(spoilt.len() as u64) as usize;
            spoilt[at] = cases::entry(random, trees.into());
            calls.table_fault(&bytes_of(&spoilt));
        }
        let length = random.below(200) as usize;
        let bytes = random.bytes(length);
        calls.table_fault(&bytes);
    });
    let table = bytes_of(&[0, -2, 3, -4, 5]);
    for at in 0..table.len() {
        for value in 0..=255 {
            let mut changed = table.clone();
            changed[at] = value;
            run.calls.table_fault(&changed);
        }
        run.calls.table_fault(&table[..at]);
    }
    for length in [8_192, 8_200, 8_208] {
        run.calls.table_fault(&vec![0; length]);
    }
}

// ---- whole meshes

/// Three triangles, then a change, then where it fails.
fn mesh_case(calls: &mut Calls, change: impl FnOnce(&mut Vec<u8>), expected: Fault) {
    let mut mesh = triangles();
    assert_eq!(calls.mesh_fault(&mesh), Fault::default());
    change(&mut mesh);
    assert_eq!(calls.mesh_fault(&mesh), expected);
}

fn mesh_by_hand(run: &mut Run) {
    let calls = &mut run.calls;
    mesh_case(calls, |mesh| mesh[0] = 4, fault(7, 6, 0, 0));
    mesh_case(calls, |mesh| mesh[4] = 4, fault(7, 6, 0, 0));
    mesh_case(calls, |mesh| mesh.truncate(mesh.len() - 1), fault(7, 6, 0, 0));
    mesh_case(calls, |mesh| mesh[place(1)] = 2, fault(7, 7, 1, 0));
    mesh_case(calls, |mesh| mesh[place(2) + 4] = 6, fault(7, 15, 0, 1));
    mesh_case(calls, |mesh| mesh[place(0) + 4] = 6, fault(7, 8, 0, 0));
    mesh_case(calls, |mesh| mesh[place(1) + 6] = 1, fault(7, 9, 1, 0));
    mesh_case(calls, |mesh| mesh[place(2) + 39] = 16, fault(7, 9, 2, 0));
    mesh_case(calls, |mesh| mesh[place(1) + 8 + 4 * 3] = 0, fault(7, 10, 1, 3));
    mesh_case(calls, |mesh| mesh[place(1) + 32 + 5] = 1, fault(7, 10, 1, 5));
    mesh_case(calls, |mesh| mesh[place(1) + 32 + 2] = 6, fault(7, 11, 1, 2));
    mesh_case(calls, |mesh| mesh[place(0) + 4] = 3, fault(7, 12, 0, 0));
    mesh_case(calls, |mesh| mesh[place(2) + 8] = 3, fault(7, 16, 0, 1));
    mesh_case(calls, |mesh| mesh[place(0) + 8] = 3, fault(7, 13, 0, 0));
    mesh_case(calls, |mesh| mesh[place(0) + 32] = 9, fault(7, 14, 0, 0));
    mesh_case(calls, |mesh| mesh[place(0) + 32] = 3, fault(7, 15, 0, 0));
    mesh_case(calls, |mesh| mesh[place(0) + 32] = 5, fault(7, 16, 0, 0));
    // nothing is wrong before the last tree but its neighbours' links
    mesh_case(calls, |mesh| put(mesh, place(2) + 16, 0), fault(7, 16, 2, 2));
    // the example of the request
    let mut mesh = meshes::apart(&[1; 7], 0);
    meshes::set_link(&mut mesh, (5, 2), Link { neighbour: 6, face: 1, orientation: 0 });
    assert_eq!(calls.mesh_fault(&mesh), fault(7, 16, 5, 2));
}

fn mesh_bytes(run: &mut Run) {
    let mut all = vec![triangles()];
    run.cases(20, |random, _| {
        let trees = random.number(1, 4) as usize;
        all.push(meshes::sound(random, trees));
    });
    for mesh in all {
        for at in 0..mesh.len() {
            let mut changed = mesh.clone();
            let mut flipped: Vec<u8> = (0..8).map(|bit| mesh[at] ^ 1 << bit).collect();
            flipped.extend(other_values(mesh[at]));
            for value in flipped {
                changed[at] = value;
                run.calls.mesh_fault(&changed);
            }
            assert_eq!(run.calls.mesh_fault(&mesh[..at]), fault(7, 6, 0, 0));
        }
    }
}

fn damaged_meshes(run: &mut Run) {
    run.cases(8_000, |random, calls| {
        let trees = meshes::count(random).min(16);
        let mut mesh = meshes::sound(random, trees);
        assert_eq!(calls.mesh_fault(&mesh), Fault::default());
        for _ in 0..3 {
            calls.mesh_fault(&meshes::one_field(random, &mesh));
            calls.mesh_fault(&meshes::several_fields(random, &mesh));
        }
        // several damages at once, the header whole
        for _ in 0..random.number(2, 4) {
            let at = 8 + random.below(mesh.len() as u64 - 8) as usize;
            mesh[at] = random.pick(&[0, 1, 2, 5, 6, 255, mesh[at] ^ 1]);
        }
        calls.mesh_fault(&mesh);
    });
}

// ---- parts

/// The part of rank 1 of the document's triangles under {0,-1,2,3}: trees 0 and 1, ghost 2.
fn part_case(calls: &mut Calls, change: impl FnOnce(&mut Vec<u8>), expected: Fault) {
    let case = Case::new(&triangles(), &bytes_of(&[0, -1, 2, 3]), 1);
    let mut part = case.part.clone();
    assert_eq!((number_at(&part, 20), number_at(&part, 24)), (2, 1));
    change(&mut part);
    assert_eq!(calls.part_fault(&part, &case.table, case.rank), expected);
}

fn part_by_hand(run: &mut Run) {
    let calls = &mut run.calls;
    let (one, ghost) = (HEADER + TREE, HEADER + 2 * TREE);
    part_case(calls, |_| (), Fault::default());
    for word in 0..8 {
        part_case(calls, |part| part[4 * word] ^= 4, fault(8, 6, 0, 0));
    }
    part_case(calls, |part| part.push(0), fault(8, 6, 0, 0));
    part_case(calls, |part| part[one] = 2, fault(8, 7, 1, 0));
    part_case(calls, |part| part[ghost] = 3, fault(8, 7, 2, 0));
    part_case(calls, |part| part[ghost] = 1, fault(8, 7, 2, 0));
    part_case(calls, |part| part[ghost + 4] = 6, fault(8, 15, 0, 1));
    part_case(calls, |part| part[one + 7] = 1, fault(8, 9, 1, 0));
    part_case(calls, |part| part[ghost + 39] = 16, fault(8, 9, 2, 0));
    part_case(calls, |part| part[ghost + 8 + 4 * 5] = 0, fault(8, 10, 2, 5));
    part_case(calls, |part| part[ghost + 34] = 6, fault(8, 11, 2, 2));
    part_case(calls, |part| part[one + 34] = 6, fault(8, 11, 1, 2));
    part_case(calls, |part| part[HEADER + 4] = 3, fault(8, 12, 0, 0));
    part_case(calls, |part| part[HEADER + 8 + 4] = 3, fault(8, 13, 0, 1));
    part_case(calls, |part| put(part, ghost + 16, 3), fault(8, 13, 2, 2));
    part_case(calls, |part| part[HEADER + 32] = 9, fault(8, 14, 0, 0));
    part_case(calls, |part| part[HEADER + 32] = 3, fault(8, 15, 0, 0));
    part_case(calls, |part| put(part, HEADER + 16, 1), fault(8, 16, 0, 2));
    // a ghost more, beside nothing: a tree of another mesh with the number 3
    let mesh = meshes::apart(&[1; 4], 0);
    let case = Case::new(&mesh, &bytes_of(&[0, 2, 4]), 0);
    let mut part = case.part.clone();
    part.extend(&mesh[place(3)..place(3) + GHOST]);
    put(&mut part, 24, 1);
    assert_eq!(calls.part_fault(&part, &case.table, 0), fault(8, 17, 2, 0));
    // ghosts 5, 9, 7: the link of 5 to 7, which isn't answered, isn't followed until they are in order
    let mut mesh = meshes::apart(&[1; 10], 0);
    for (face, ghost) in [5, 7, 9].into_iter().enumerate() {
        meshes::join(&mut mesh, (0, face), (ghost, 0), 0);
    }
    meshes::join(&mut mesh, (5, 1), (7, 1), 0);
    let case = Case::new(&mesh, &bytes_of(&[0, 1, 10]), 0);
    let mut part = case.part.clone();
    let ghost = |j: usize| HEADER + TREE + GHOST * j;
    part[ghost(0) + 33] = 2;
    assert_eq!(calls.part_fault(&part, &case.table, 0), fault(8, 16, 1, 1));
    let swapped = [&part[ghost(2)..], &part[ghost(1)..ghost(2)]].concat();
    part[ghost(1)..].copy_from_slice(&swapped);
    put(&mut part, HEADER + 12, 3);
    put(&mut part, HEADER + 16, 2);
    assert_eq!(calls.part_fault(&part, &case.table, 0), fault(8, 7, 3, 0));
}

fn part_bytes(run: &mut Run) {
    let triangles = triangles();
    let mut all: Vec<Case> = (0..3).map(|rank| Case::new(&triangles, &bytes_of(&[0, -1, 2, 3]), rank)).collect();
    run.cases(25, |random, _| {
        let trees = random.number(2, 6) as usize;
        all.push(Case::random(random, trees));
    });
    for case in all {
        assert_eq!(run.calls.part_fault(&case.part, &case.table, case.rank), Fault::default());
        for at in 0..case.part.len() {
            let mut changed = case.part.clone();
            let mut flipped: Vec<u8> = (0..8).map(|bit| case.part[at] ^ 1 << bit).collect();
            flipped.extend(other_values(case.part[at]));
            for value in flipped {
                changed[at] = value;
                run.calls.part_fault(&changed, &case.table, case.rank);
            }
            assert_eq!(run.calls.part_fault(&case.part[..at], &case.table, case.rank), fault(8, 6, 0, 0));
        }
    }
}

fn damaged_parts(run: &mut Run) {
    run.cases(8_000, |random, calls| {
        let trees = meshes::count(random).min(20);
        let case = Case::random(random, trees);
        assert_eq!(calls.part_fault(&case.part, &case.table, case.rank), Fault::default());
        for _ in 0..3 {
            calls.part_fault(&one_field(random, &case), &case.table, case.rank);
            calls.part_fault(&several_fields(random, &case), &case.table, case.rank);
        }
        // several damages at once, mostly in the ghosts, the header whole
        let mut part = case.part.clone();
        let ghosts_at = HEADER + TREE * case.share().count() as usize;
        for _ in 0..random.number(1, 4) {
            let from = if ghosts_at < part.len() && random.chance(180) { ghosts_at } else { HEADER };
            if from < part.len() {
                let at = from + random.below((part.len() - from) as u64) as usize;
                part[at] = random.pick(&[0, 1, 2, 5, 6, 255, part[at] ^ 1]);
            }
        }
        // a ghost's number becomes another ghost's, a tree's or any
        let ghosts = (part.len() - ghosts_at) / GHOST;
        if ghosts > 0 && random.chance(128) {
            let number = random.below(trees as u64 + 1) as u32;
            put(&mut part, ghosts_at + GHOST * random.below(ghosts as u64) as usize, number);
        }
        calls.part_fault(&part, &case.table, case.rank);
    });
}

// ---- refusals and limits

fn refusals(run: &mut Run) {
    let case = Case::new(&triangles(), &bytes_of(&[0, -1, 2, 3]), 1);
    let mut bad = case.part.clone();
    bad[HEADER + 5] = 1;
    for (table, fails) in kinds().into_iter().chain([(case.table.clone(), 0)]) {
        let got = run.calls.table_fault(&table);
        assert_eq!(got.refusal, if fails == 2 { 2 } else { 0 });
        for rank in [0, 1, 2, 1_024, u32::MAX] {
            for part in [&case.part, &bad] {
                let bad_rank = if rank as usize >= table.len() / 8 - usize::from(table.len() >= 8) { 5 } else { 0 };
                let got = run.calls.part_fault(part, &table, rank);
                assert_eq!(got.refusal, first_of(&[fails, bad_rank]));
                let sound = table == case.table && rank == 1 && part == &case.part;
                assert_eq!(got.fault, if got.refusal != 0 || sound { 0 } else { 8 });
            }
        }
    }
}

fn null_pointers(run: &mut Run) {
    let null = std::ptr::null();
    let table = bytes_of(&[0, 1]);
    let at = run.calls.old.put(&table, crate::memory::Place::Front);
    unsafe {
        assert_eq!(vejgodat_table_fault(null, 0), Fault { refusal: 2, ..Fault::default() });
        assert_eq!(vejgodat_mesh_fault(null, 0), fault(7, 6, 0, 0));
        assert_eq!(vejgodat_part_fault(null, 0, null, 0, 0), Fault { refusal: 2, ..Fault::default() });
        assert_eq!(vejgodat_part_fault(null, 0, at, table.len(), 0), fault(8, 6, 0, 0));
    }
    for call in ["table_fault", "mesh_fault", "part_fault"] {
        run.calls.note(call, 0);
    }
}

fn large(run: &mut Run) {
    let trees = 1_048_576;
    let mut mesh = meshes::apart(&vec![2; trees], 0);
    assert_eq!(run.calls.mesh_fault(&mesh), Fault::default());
    mesh[place(trees - 1) + 37] = 11;
    assert_eq!(run.calls.mesh_fault(&mesh), fault(7, 11, trees as u32 - 1, 5));
}

fn seen_refusals(run: &mut Run) {
    expect_seen(run, &[("table_fault", &[2]), ("mesh_fault", &[]), ("part_fault", &[2, 3, 5])]);
}

fn seen_kinds(_: &mut Run) {
    let seen = SEEN.lock().unwrap();
    let objects: [(&'static str, Vec<u32>); 3] = [
        ("table_fault", (0..=5).collect()),
        ("mesh_fault", [0].into_iter().chain(6..=16).collect()),
        ("part_fault", [0].into_iter().chain(6..=KINDS).collect()),
    ];
    for (call, kinds) in objects {
        for kind in kinds {
            let times = seen.get(&(call, kind)).copied().unwrap_or(0);
            assert!(times >= 5, "kind {kind} from {call}: {times} times");
        }
    }
}
