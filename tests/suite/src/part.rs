//! Parts: cutting one out, checking one, a face's neighbour, the lookup.
use crate::calls::{bytes_written, cut, length, written, Calls};
use crate::cases;
use crate::library::Length;
use crate::mesh_cases::{self as meshes, apart, join, put};
use crate::mesh_model::{number_at, Link, Record, UNUSED};
use crate::model::{bytes_of, Answer, MAX_TREES};
use crate::part_model::{self, header, Fault, Kind, Part, Share, GHOST, HEADER, TREE};
use crate::random::Random;
use crate::refusals::{expect_seen, first_of, kinds};
use crate::second::triangles;
use crate::{Run, Test};
use std::cell::RefCell;
use std::collections::{BTreeMap, BTreeSet};
use std::ptr;

pub const TESTS: &[Test] = &[
    ("part: the document's three triangles", documents_triangles),
    ("part: every table of few ranks and trees", every_table),
    ("part: random meshes, every rank", random_parts),
    ("part: each link is the mesh's", each_link),
    ("part: buffers of each length", each_buffer),
    ("part: each byte changed", each_byte),
    ("part: each length cut", each_cut),
    ("part: one field damaged", one_field_damaged),
    ("part: several fields damaged", several_damaged),
    ("part: of another table or rank", other_tables),
    ("part: any header, any bytes", any_bytes),
    ("part: tree data never matters", any_data),
    ("part: damaged meshes aren't cut", damaged_meshes),
    ("part: the first refusal", refusals),
    ("part: any index and face", any_index),
    ("part: the lookup", lookups),
    ("part: null pointers with count 0", null_pointers),
    ("part: trees at the limits", tree_limits),
    ("seen: each refusal from every part call", seen_refusals),
    ("seen: sound parts, and each sentence broken", seen_faults),
];

#[repr(C)]
#[derive(Clone, Copy, Debug, PartialEq, Eq)]
pub struct Neighbour {
    pub refusal: u32,
    pub shape: u32,
    pub kind: u32,
    pub index: u32,
    pub face: u32,
    pub orientation: u32,
}

#[repr(C)]
#[derive(Clone, Copy, Debug, PartialEq, Eq)]
pub struct Found {
    pub which: u32,
    pub offset: u64,
}

extern "C" {
    fn vejgodat_part_length(mesh: *const u8, mesh_len: usize, table: *const u8, table_len: usize, rank: u32) -> Length;
    fn vejgodat_cut_part(
        mesh: *const u8,
        mesh_len: usize,
        table: *const u8,
        table_len: usize,
        rank: u32,
        out: *mut u8,
        out_len: usize,
    ) -> Length;
    fn vejgodat_check_part(part: *const u8, part_len: usize, table: *const u8, table_len: usize, rank: u32) -> u32;
    fn vejgodat_neighbour_of(
        part: *const u8,
        part_len: usize,
        table: *const u8,
        table_len: usize,
        rank: u32,
        local: u32,
        face: u32,
    ) -> Neighbour;
    fn vejgodat_lookup(trees: *const u8, trees_len: usize, ghosts: *const u8, ghosts_len: usize, number: u32) -> Found;
}

thread_local! {
    /// how often a part broke exactly these sentences; none is a sound one
    static FAULTS: RefCell<BTreeMap<BTreeSet<Fault>, u64>> = RefCell::default();
}

/// Bytes for a message: as 32-bit numbers, cut where long.
pub fn words(bytes: &[u8]) -> String {
    let words: Vec<u32> = bytes.chunks_exact(4).take(120).map(|piece| number_at(piece, 0)).collect();
    cut(format!("{} bytes {words:?}", bytes.len()))
}

fn neighbour(answer: Answer<part_model::Neighbour>) -> Neighbour {
    match answer {
        Ok(there) => Neighbour {
            refusal: 0,
            shape: there.shape.into(),
            kind: match there.kind {
                Kind::Boundary => 0,
                Kind::Unused => 1,
                Kind::Local => 2,
                Kind::Ghost => 3,
            },
            index: there.index,
            face: there.face,
            orientation: there.orientation,
        },
        Err(refusal) => Neighbour { refusal, shape: 0, kind: 0, index: 0, face: 0, orientation: 0 },
    }
}

impl Calls {
    /// Put a mesh or part, and a table.
    fn put_both(&mut self, object: &[u8], table: &[u8]) -> (*const u8, usize, *const u8, usize) {
        let (a, b) = (self.place(), self.place());
        (self.object.put(object, a), object.len(), self.old.put(table, b), table.len())
    }

    fn note_both(&mut self, call: &'static str, refusal: u32, object: &[u8], table: &[u8]) {
        assert!(self.object.bytes() == object, "{call} changed a mesh or part that it only reads");
        assert!(self.old.bytes() == table, "{call} changed the table");
        self.note(call, refusal);
    }

    pub fn part_length(&mut self, mesh: &[u8], table: &[u8], rank: u32) -> Length {
        let expected = length(bytes_written(&part_model::cut_part(mesh, table, rank, None)));
        let (a, a_len, b, b_len) = self.put_both(mesh, table);
        let got = unsafe { vejgodat_part_length(a, a_len, b, b_len, rank) };
        assert_eq!(got, expected, "part_length of {rank} in {}: {}", crate::calls::show(table), words(mesh));
        self.note_both("part_length", got.refusal, mesh, table);
        got
    }

    /// The answer, and the buffer after it.
    pub fn cut_part(&mut self, mesh: &[u8], table: &[u8], rank: u32, before: &[u8]) -> (Length, Vec<u8>) {
        let answer = part_model::cut_part(mesh, table, rank, Some(before.len()));
        let (a, a_len, b, b_len) = self.put_both(mesh, table);
        let place = self.place();
        let out = self.out.put(before, place);
        let got = unsafe { vejgodat_cut_part(a, a_len, b, b_len, rank, out, before.len()) };
        let said = || format!("cut_part of {rank} in {}: {}", crate::calls::show(table), words(mesh));
        assert_eq!(got, length(bytes_written(&answer)), "{}", said());
        let after = written(before, &answer);
        let now = self.out.bytes();
        assert!(now == after, "{}: wrote {}, not {}", said(), words(now), words(&after));
        self.note_both("cut_part", got.refusal, mesh, table);
        (got, after)
    }

    pub fn check_part(&mut self, part: &[u8], table: &[u8], rank: u32) -> u32 {
        let share = Share::new(table, rank);
        let faults = share.map(|share| part_model::faults(part, &share));
        let expected = match &faults {
            Err(refusal) => *refusal,
            Ok(faults) if faults.is_empty() => 0,
            Ok(_) => 8,
        };
        let (a, a_len, b, b_len) = self.put_both(part, table);
        let got = unsafe { vejgodat_check_part(a, a_len, b, b_len, rank) };
        assert_eq!(got, expected, "check_part of {rank}, {faults:?}, {}: {}", crate::calls::show(table), words(part));
        self.note_both("check_part", got, part, table);
        if let Ok(faults) = faults {
            FAULTS.with(|seen| *seen.borrow_mut().entry(faults).or_default() += 1);
        }
        got
    }

    pub fn neighbour_of(&mut self, part: &[u8], table: &[u8], rank: u32, local: u32, face: u32) -> Neighbour {
        let expected = neighbour(part_model::neighbour_of(part, table, rank, local, face));
        let (a, a_len, b, b_len) = self.put_both(part, table);
        let got = unsafe { vejgodat_neighbour_of(a, a_len, b, b_len, rank, local, face) };
        let said = || format!("rank {rank} in {}: {}", crate::calls::show(table), words(part));
        assert_eq!(got, expected, "neighbour_of {local}, {face}, {}", said());
        self.note_both("neighbour_of", got.refusal, part, table);
        got
    }

    pub fn lookup(&mut self, trees: &[u8], ghosts: &[u8], number: u32) -> Found {
        let expected = match part_model::lookup(trees, ghosts, number) {
            part_model::Found::None => Found { which: 0, offset: 0 },
            part_model::Found::Tree(at) => Found { which: 1, offset: at as u64 },
            part_model::Found::Ghost(at) => Found { which: 2, offset: at as u64 },
        };
        let (a, b) = (self.place(), self.place());
        let (trees_at, ghosts_at) = (self.object.put(trees, a), self.list.put(ghosts, b));
        let got = unsafe { vejgodat_lookup(trees_at, trees.len(), ghosts_at, ghosts.len(), number) };
        let said = || format!("lookup of {number}: {}, {}", words(trees), words(ghosts));
        assert_eq!(got, expected, "{}", said());
        assert!(self.object.bytes() == trees && self.list.bytes() == ghosts, "{}: input changed", said());
        self.note("lookup", 0);
        got
    }
}

// ---- cases

/// A mesh, a table of its trees, a rank, and the part.
pub struct Case {
    pub mesh: Vec<u8>,
    pub table: Vec<u8>,
    pub rank: u32,
    pub part: Vec<u8>,
}

impl Case {
    pub fn new(mesh: &[u8], table: &[u8], rank: u32) -> Case {
        let part = part_model::cut_part(mesh, table, rank, None).expect("a sound mesh");
        Case { mesh: mesh.to_vec(), table: table.to_vec(), rank, part }
    }

    /// Mostly one with trees and ghosts.
    pub fn random(random: &mut Random, trees: usize) -> Case {
        let mesh = meshes::sound(random, trees);
        let ranks = random.number(1, 5);
        for _ in 0..4 {
            let table = bytes_of(&cases::table(random, ranks as usize, trees as u32));
            let case = Case::new(&mesh, &table, random.number(0, ranks - 1));
            if number_at(&case.part, 24) > 0 {
                return case;
            }
        }
        let table = bytes_of(&cases::table(random, ranks as usize, trees as u32));
        Case::new(&mesh, &table, random.number(0, ranks - 1))
    }

    pub fn share(&self) -> Share {
        Share::new(&self.table, self.rank).expect("a rank of a valid table")
    }

    pub fn ghosts(&self) -> usize {
        number_at(&self.part, 24) as usize
    }

    /// The place of each record, trees before ghosts.
    fn places(&self) -> Vec<usize> {
        let trees = self.share().count() as usize;
        let ghosts_at = HEADER + TREE * trees;
        let ghosts = (0..self.ghosts()).map(|at| ghosts_at + GHOST * at);
        (0..trees).map(|at| HEADER + TREE * at).chain(ghosts).collect()
    }
}

/// A number that is near those that stand in a part.
fn near(random: &mut Random, now: u32, share: &Share, ghosts: usize) -> u32 {
    let held = share.count() + ghosts as u32;
    match random.below(8) {
        0 | 1 => random.number(0, held),
        2 => random.number(0, share.trees),
        3 => share.trees.wrapping_add(random.number(0, 2)).wrapping_sub(1),
        4 => now ^ 1 << random.below(32),
        5 => random.pick(&[
            UNUSED,
            share.first(),
            now.wrapping_add(share.first()),
            now.wrapping_sub(share.first()),
            now.wrapping_add(share.count()),
        ]),
        6 => now.wrapping_add(1),
        _ => cases::number(random),
    }
}

/// One field of a sound part becomes another number, mostly one that is near.
pub fn one_field(random: &mut Random, case: &Case) -> Vec<u8> {
    let (share, places, mut part) = (case.share(), case.places(), case.part.clone());
    if places.is_empty() || random.chance(32) {
        let at = 4 * random.below(8) as usize;
        let word = near(random, number_at(&part, at), &share, case.ghosts());
        put(&mut part, at, word);
        return part;
    }
    let at = random.pick(&places);
    let record = Record::decode(&part[at..]);
    let (limit, faces) = (record.face_limit() as u8, record.faces().len() as u64);
    let any_face = random.below(6) as usize;
    let face = if faces > 0 { random.below(faces) as usize } else { 0 };
    match random.below(10) {
        0 => {
            let number = near(random, record.number, &share, case.ghosts());
            put(&mut part, at, number);
        }
        1 => part[at + 4] = if random.chance(200) { random.below(8) as u8 } else { random.next() as u8 },
        2 => part[at + random.pick(&[5, 6, 7, 38, 39])] = random.pick(&[0, 1, 15, 16, 255]),
        3 => {
            let number = near(random, record.neighbours[any_face], &share, case.ghosts());
            put(&mut part, at + 8 + 4 * any_face, number);
        }
        4 => part[at + 32 + any_face] = random.next() as u8,
        5 | 6 => {
            let number = near(random, record.neighbours[face], &share, case.ghosts());
            put(&mut part, at + 8 + 4 * face, number);
        }
        7 => {
            let step = random.pick(&[1, 255, limit, limit.wrapping_neg()]);
            part[at + 32 + face] = part[at + 32 + face].wrapping_add(step);
        }
        8 => part[at + 32 + face] = random.below(6 * u64::from(limit)) as u8,
        _ => part[at + random.below(40) as usize] ^= 1 << random.below(8),
    }
    part
}

/// Store a link. A code is cut to its byte.
pub fn set(record: &mut Record, face: usize, link: Link) {
    record.neighbours[face] = link.neighbour;
    record.codes[face] = (link.orientation * record.face_limit() + link.face) as u8;
}

/// A face of a record becomes a boundary.
fn close_face(record: &mut Record, face: usize) {
    let neighbour = record.number;
    set(record, face, Link { neighbour, face: face as u32, orientation: 0 });
}

fn records(part: &mut Part) -> Vec<&mut Record> {
    part.trees.iter_mut().map(|tree| &mut tree.record).chain(&mut part.ghosts).collect()
}

/// Every link to one number leads to another.
fn rename(part: &mut Part, from: u32, to: u32) {
    for record in records(part) {
        for face in 0..record.faces().len() {
            if record.neighbours[face] == from {
                record.neighbours[face] = to;
            }
        }
    }
}

/// Ghosts come, go, change places or numbers; both ends of a link change. Some of these parts are sound again.
pub fn several_fields(random: &mut Random, case: &Case) -> Vec<u8> {
    let share = case.share();
    let mut part = Part::decode(&case.part, &share);
    let held: BTreeSet<u32> = records(&mut part).iter().map(|record| record.number).collect();
    let ghosts = part.ghosts.len();
    let any_ghost = if ghosts > 0 { random.below(ghosts as u64) as usize } else { 0 };
    let all: Vec<(usize, usize)> =
        records(&mut part).iter().enumerate().flat_map(|(at, r)| (0..r.faces().len()).map(move |f| (at, f))).collect();
    if all.is_empty() {
        return one_field(random, case);
    }
    let (a, b) = (random.pick(&all), random.pick(&all));
    let orientation = random.below(6) as u32;
    match random.below(13) {
        // a ghost goes; its neighbours lie at the boundary there
        0 if ghosts > 0 => {
            let gone = part.ghosts.remove(any_ghost).number;
            for tree in &mut part.trees {
                for face in 0..tree.record.faces().len() {
                    if tree.record.neighbours[face] == gone {
                        close_face(&mut tree.record, face);
                    }
                }
            }
        }
        // a ghost that no tree is next to, at its place; one of the trees as a ghost
        1 | 2 => {
            let number = random.below(share.trees.into()) as u32;
            let mut ghost = records(&mut part)[a.0].clone();
            ghost.number = number;
            for face in 0..ghost.faces().len() {
                close_face(&mut ghost, face);
            }
            if part.ghosts.iter().all(|other| other.number != number) {
                let at = part.ghosts.iter().filter(|other| other.number < number).count();
                part.ghosts.insert(at, ghost);
            }
        }
        // two ghosts change places
        3 if ghosts > 0 => {
            let other = random.below(ghosts as u64) as usize;
            part.ghosts.swap(any_ghost, other);
        }
        // a ghost twice
        4 if ghosts > 0 => {
            let copy = part.ghosts[any_ghost].clone();
            part.ghosts.insert(any_ghost, copy);
        }
        // the last ghost isn't below K
        5 if ghosts > 0 => {
            let last = part.ghosts[ghosts - 1].number;
            let number = share.trees.wrapping_add(random.pick(&[0, 1, 1 << 20, 1 << 31]));
            rename(&mut part, last, number);
            part.ghosts[ghosts - 1].number = number;
        }
        // a ghost gets another number, as its neighbours say
        6 if ghosts > 0 => {
            let low = if any_ghost > 0 { part.ghosts[any_ghost - 1].number + 1 } else { 0 };
            let high = part.ghosts.get(any_ghost + 1).map_or(share.trees, |ghost| ghost.number);
            let number = random.number(low, high - 1);
            if !held.contains(&number) {
                let now = part.ghosts[any_ghost].number;
                rename(&mut part, now, number);
                part.ghosts[any_ghost].number = number;
            }
        }
        // a ghost's link to a tree that isn't held gets another number, face or orientation
        7 | 8 if ghosts > 0 => {
            let number = near(random, 0, &share, ghosts);
            let ghost = &mut part.ghosts[any_ghost];
            let far = (0..ghost.faces().len()).find(|&face| !held.contains(&ghost.neighbours[face]));
            if let Some(face) = far {
                let mut link = ghost.link(face);
                match random.below(3) {
                    0 => link.neighbour = number,
                    1 => link.face = random.below(ghost.face_limit().into()) as u32,
                    _ => link.orientation = random.below(8) as u32,
                }
                set(ghost, face, link);
            }
        }
        // another orientation at both ends
        9 => {
            let mut all = records(&mut part);
            let (number, there) = (all[a.0].number, all[a.0].link(a.1));
            set(all[a.0], a.1, Link { orientation, ..there });
            for other in all.into_iter().filter(|other| other.number == there.neighbour) {
                set(other, there.face as usize, Link { neighbour: number, face: a.1 as u32, orientation });
            }
        }
        // two faces meet; those that they met lie at the boundary, or think that they meet them still
        10 | 11 => {
            let keep = random.chance(64);
            let mut all = records(&mut part);
            for end in [a, b] {
                let there = all[end.0].link(end.1);
                for other in all.iter_mut().filter(|other| other.number == there.neighbour && !keep) {
                    close_face(other, there.face as usize);
                }
            }
            for (from, to) in [(a, b), (b, a)] {
                let neighbour = all[to.0].number;
                set(all[from.0], from.1, Link { neighbour, face: to.1 as u32, orientation });
            }
        }
        // two records change places
        _ => {
            let numbers = [records(&mut part)[a.0].number, records(&mut part)[b.0].number];
            let records = [records(&mut part)[a.0].clone(), records(&mut part)[b.0].clone()];
            *self::records(&mut part)[a.0] = records[1].clone();
            *self::records(&mut part)[b.0] = records[0].clone();
            if random.chance(128) {
                self::records(&mut part)[a.0].number = numbers[0];
                self::records(&mut part)[b.0].number = numbers[1];
            }
        }
    }
    part.encode().unwrap_or_else(|| one_field(random, case))
}

// ---- tests

/// A part from its numbers: a header; trees with number, three neighbours and a byte of data; ghosts likewise.
fn by_hand(words: [u32; 8], trees: &[(u8, [u8; 3], u8)], ghosts: &[(u8, [u8; 3])]) -> Vec<u8> {
    let core = |number: u8, [a, b, c]: [u8; 3]| {
        let mut bytes = vec![number, 0, 0, 0, 1, 0, 0, 0, a, 0, 0, 0, b, 0, 0, 0, c, 0, 0, 0];
        bytes.extend([255; 12]);
        bytes.extend([1, 0, 2, 0, 0, 0, 0, 0]);
        bytes
    };
    let mut bytes = header(words);
    for &(number, neighbours, data) in trees {
        bytes.extend(core(number, neighbours));
        bytes.extend([data; 24]);
    }
    for &(number, neighbours) in ghosts {
        bytes.extend(core(number, neighbours));
    }
    bytes
}

fn documents_triangles(run: &mut Run) {
    let mesh = triangles();
    let table = bytes_of(&[0, -1, 2, 3]);
    let (g0, g1, g2) = ((0, [1, 2, 0]), (1, [2, 0, 1]), (2, [0, 1, 2]));
    let parts = [
        by_hand([2, 3, 3, 0, 0, 1, 2, 0], &[(0, [1, 2, 0], 0xA0)], &[g1, g2]),
        by_hand([2, 3, 3, 1, 0, 2, 1, 0], &[(0, [1, 2, 0], 0xA0), (1, [2, 0, 1], 0xA1)], &[g2]),
        by_hand([2, 3, 3, 2, 2, 1, 2, 0], &[(2, [1, 2, 0], 0xA2)], &[g0, g1]),
    ];
    for (rank, expected) in parts.iter().enumerate() {
        let rank = rank as u32;
        let (got, part) = run.calls.cut_part(&mesh, &table, rank, &vec![7; expected.len()]);
        assert_eq!(got, Length { refusal: 0, length: expected.len() as u64 });
        assert_eq!(&part, expected, "rank {rank}");
        everything(&mut run.calls, &mesh, &table, rank);
    }
    // of rank 1: tree 1 meets the ghost, tree 0 and the boundary; a triangle has no face 3
    let mut said = |face| run.calls.neighbour_of(&parts[1], &table, 1, 1, face);
    let answer = |kind, index, face| Neighbour { refusal: 0, shape: 1, kind, index, face, orientation: 0 };
    assert_eq!([said(0), said(1), said(2)], [answer(3, 2, 1), answer(2, 0, 0), answer(0, 1, 2)]);
    assert_eq!([said(3), said(5)], [answer(1, 0, 0), answer(1, 0, 0)]);
    // a rank without trees, at the end and between others
    for (table, rank, first) in [([0, 1, 3, 3], 2, 3), ([0, 1, 1, 3], 1, 1)] {
        let (_, part) = run.calls.cut_part(&mesh, &bytes_of(&table), rank, &[7; 33]);
        assert_eq!(part, [header([2, 3, 3, rank, first, 0, 0, 0]), vec![7]].concat());
        everything(&mut run.calls, &mesh, &bytes_of(&table), rank);
    }
}

/// Cut, check, ask for every face of every tree and look every number up.
fn everything(calls: &mut Calls, mesh: &[u8], table: &[u8], rank: u32) -> Vec<u8> {
    let length = calls.part_length(mesh, table, rank);
    assert_eq!(length.refusal, 0);
    let (got, part) = calls.cut_part(mesh, table, rank, &vec![0xEE; length.length as usize]);
    assert_eq!(got, length);
    assert_eq!(calls.check_part(&part, table, rank), 0);
    let (trees, ghosts) = (number_at(&part, 20), number_at(&part, 24));
    for local in 0..=trees {
        for face in 0..=6 {
            let there = calls.neighbour_of(&part, table, rank, local, face);
            assert_eq!(there.refusal, if local == trees || face == 6 { 5 } else { 0 });
        }
    }
    let (tree_records, ghost_records) = part[HEADER..].split_at(TREE * trees as usize);
    let first = number_at(&part, 16);
    let mut found = [0; 3];
    for number in 0..=number_at(mesh, 4) {
        let there = calls.lookup(tree_records, ghost_records, number);
        found[there.which as usize] += 1;
        let is_tree = first <= number && number < first + trees;
        assert_eq!(there.which == 1, is_tree, "tree {number}");
    }
    assert_eq!(found[1..], [trees, ghosts]);
    part
}

fn every_table(run: &mut Run) {
    let mut parts = 0;
    while run.lacks(parts > 1_000, format_args!("{parts} parts")) {
        run.cases(12, |random, calls| {
            for (ranks, trees) in [(1, 1), (2, 1), (3, 1), (1, 2), (2, 2), (3, 2), (2, 3), (3, 3)] {
                let mesh = meshes::sound(random, trees as usize);
                for table in cases::every_table(ranks, trees) {
                    for rank in 0..ranks {
                        everything(calls, &mesh, &bytes_of(&table), rank as u32);
                        parts += 1;
                    }
                }
            }
        });
    }
}

fn random_parts(run: &mut Run) {
    let (mut empty, mut all, mut many) = (0, 0, 0);
    while run
        .lacks(empty > 50 && all > 50 && many > 50, format_args!("{empty} empty, {all} whole, {many} with many ghosts"))
    {
        run.cases(1_500, |random, calls| {
            let trees = meshes::count(random).min(24);
            let mesh = meshes::sound(random, trees);
            let ranks = random.number(1, 6);
            let table = bytes_of(&cases::table(random, ranks as usize, trees as u32));
            for rank in 0..ranks {
                let part = everything(calls, &mesh, &table, rank);
                let (count, ghosts) = (number_at(&part, 20), number_at(&part, 24));
                empty += u32::from(count == 0);
                all += u32::from(count as usize == trees);
                many += u32::from(ghosts > 5);
            }
        });
    }
    // many ranks; cut and checked only
    run.cases(40, |random, calls| {
        let trees = random.number(1, 200) as usize;
        let mesh = meshes::sound(random, trees);
        let ranks = random.pick(&[7, 40, 1_024]);
        let table = bytes_of(&cases::table(random, ranks, trees as u32));
        for _ in 0..20 {
            let rank = random.below(ranks as u64) as u32;
            let length = calls.part_length(&mesh, &table, rank).length as usize;
            let (_, part) = calls.cut_part(&mesh, &table, rank, &vec![1; length]);
            assert_eq!(calls.check_part(&part, &table, rank), 0);
        }
    });
}

/// Of the library's own answers alone: each link of a part, read back, is the mesh's; each ghost is a neighbour of some
/// tree of the part; two parts agree on every record that both have.
fn each_link(run: &mut Run) {
    let mut kinds = [0; 4];
    while run.lacks(kinds.iter().all(|&kind| kind > 1_000), format_args!("{kinds:?}")) {
        run.cases(150, |random, calls| {
            let trees = meshes::count(random).min(20);
            let mesh = meshes::sound(random, trees);
            let ranks = random.number(1, 5);
            let table = bytes_of(&cases::table(random, ranks as usize, trees as u32));
            let core = |k: usize| &mesh[meshes::place(k)..meshes::place(k) + GHOST];
            for rank in 0..ranks {
                let length = calls.part_length(&mesh, &table, rank).length as usize;
                let (_, part) = calls.cut_part(&mesh, &table, rank, &vec![0; length]);
                let range = calls.table_range(&table, rank);
                let (first, count) = (range.first as usize, range.count as usize);
                let ghosts: Vec<&[u8]> = part[HEADER + TREE * count..].chunks(GHOST).collect();
                let mut met = BTreeSet::new();
                for local in 0..count {
                    let record = meshes::record(&mesh, first + local);
                    for face in 0..6 {
                        let got = calls.neighbour_of(&part, &table, rank, local as u32, face as u32);
                        kinds[got.kind as usize] += 1;
                        assert_eq!(got.shape, record.shape.into());
                        let index = got.index as usize;
                        let there = match got.kind {
                            1 => {
                                assert!(face >= record.faces().len());
                                continue;
                            }
                            0 | 2 => first + index,
                            _ => number_at(ghosts[index - count], 0) as usize,
                        };
                        let link = Link { neighbour: there as u32, face: got.face, orientation: got.orientation };
                        assert_eq!(link, record.link(face), "tree {}, face {face}", first + local);
                        assert_eq!(got.kind == 0, there == first + local && got.face as usize == face);
                        if got.kind == 3 {
                            met.insert(there);
                        }
                    }
                    let at = HEADER + TREE * local;
                    let data = meshes::place(first + local) + 38..meshes::place(first + local + 1);
                    assert_eq!(part[at + 38..at + 64], mesh[data], "region and tree data");
                }
                let numbers: Vec<usize> = ghosts.iter().map(|ghost| number_at(ghost, 0) as usize).collect();
                assert_eq!(numbers, met.into_iter().collect::<Vec<usize>>(), "each ghost once, ascending");
                for (&ghost, &number) in ghosts.iter().zip(&numbers) {
                    assert_eq!(ghost, core(number), "ghost {number}");
                }
            }
        });
    }
}

fn each_buffer(run: &mut Run) {
    run.cases(60, |random, calls| {
        let trees = random.number(1, 4) as usize;
        let case = Case::random(random, trees);
        let needed = case.part.len();
        for room in 0..needed + 9 {
            let before = random.bytes(room);
            let (got, _) = calls.cut_part(&case.mesh, &case.table, case.rank, &before);
            assert_eq!(got.refusal, if room < needed { 22 } else { 0 });
        }
        calls.cut_part(&case.mesh, &case.table, case.rank, &vec![0; 3 * needed]);
    });
}

/// Check the part, and ask for a face of it.
fn check_and_ask(calls: &mut Calls, part: &[u8], case: &Case, at: usize) -> u32 {
    let got = calls.check_part(part, &case.table, case.rank);
    let count = case.share().count().max(1) as usize;
    let there = calls.neighbour_of(part, &case.table, case.rank, (at % count) as u32, (at / count % 6) as u32);
    assert!(there.refusal == got || there.refusal == 5);
    got
}

/// Values for a byte: each bit changed, one more and less, and those at the ends of its kind.
pub fn other_values(byte: u8) -> Vec<u8> {
    let mut values: Vec<u8> = (0..8).map(|bit| byte ^ 1 << bit).collect();
    values.extend([byte.wrapping_add(1), byte.wrapping_sub(1), byte.wrapping_add(4), byte.wrapping_add(6), 0, 255]);
    values.retain(|&value| value != byte);
    values.sort_unstable();
    values.dedup();
    values
}

fn each_byte(run: &mut Run) {
    let triangles = triangles();
    let mut cases: Vec<Case> = Vec::new();
    for rank in 0..3 {
        cases.push(Case::new(&triangles, &bytes_of(&[0, -1, 2, 3]), rank));
        cases.push(Case::new(&triangles, &bytes_of(&[0, 1, 3, 3]), rank));
    }
    run.cases(30, |random, _| {
        let trees = random.number(2, 5) as usize;
        cases.push(Case::random(random, trees));
    });
    for (at_case, case) in cases.iter().enumerate() {
        assert_eq!(check_and_ask(&mut run.calls, &case.part, case, 0), 0);
        let mut part = case.part.clone();
        for at in 0..part.len() {
            let byte = part[at];
            // all values in the document's example
            let values =
                if at_case < 6 { (0..=255).filter(|&value| value != byte).collect() } else { other_values(byte) };
            for value in values {
                part[at] = value;
                let got = check_and_ask(&mut run.calls, &part, case, at + usize::from(value));
                let tree_data =
                    (HEADER..HEADER + TREE * case.share().count() as usize).contains(&at) && (at - HEADER) % TREE >= 40;
                assert!(!tree_data || got == 0, "tree data");
            }
            part[at] = byte;
        }
    }
}

fn each_cut(run: &mut Run) {
    run.cases(60, |random, calls| {
        let trees = random.number(1, 5) as usize;
        let case = Case::random(random, trees);
        let longer = [case.part.clone(), random.bytes(70)].concat();
        for length in 0..=longer.len() {
            let got = check_and_ask(calls, &longer[..length], &case, length);
            assert_eq!(got, if length == case.part.len() { 0 } else { 8 });
            check_and_ask(calls, &longer[length..], &case, length);
        }
        // another number of ghosts, and the header says so
        for ghosts in 0..case.ghosts() + 3 {
            let mut part = longer.clone();
            part.resize(HEADER + TREE * case.share().count() as usize + GHOST * ghosts, 0);
            put(&mut part, 24, ghosts as u32);
            check_and_ask(calls, &part, &case, ghosts);
        }
    });
}

fn one_field_damaged(run: &mut Run) {
    run.cases(8_000, |random, calls| {
        let trees = meshes::count(random).min(16);
        let case = Case::random(random, trees);
        for at in 0..12 {
            let part = one_field(random, &case);
            check_and_ask(calls, &part, &case, at);
        }
    });
}

fn several_damaged(run: &mut Run) {
    let mut sound = 0;
    while run.lacks(sound > 5_000, format_args!("only {sound} sound again")) {
        run.cases(8_000, |random, calls| {
            let trees = meshes::count(random).min(16);
            let case = Case::random(random, trees);
            for at in 0..12 {
                let part = several_fields(random, &case);
                sound += u32::from(check_and_ask(calls, &part, &case, at) == 0 && part != case.part);
            }
            let twice = Case { part: several_fields(random, &case), ..case };
            if part_model::check_part(&twice.part, &twice.table, twice.rank) == 0 {
                check_and_ask(calls, &several_fields(random, &twice), &twice, 0);
            }
        });
    }
}

fn other_tables(run: &mut Run) {
    let mut refused = [0; 9];
    while run.lacks([0, 3, 5, 8].iter().all(|&number| refused[number] > 1_000), format_args!("{refused:?}")) {
        run.cases(8_000, |random, calls| {
            let trees = meshes::count(random).min(9);
            let case = Case::random(random, trees);
            let ranks = case.table.len() / 8 - 1;
            // the same table and each rank; another table; other counts
            for rank in 0..=ranks as u32 {
                refused[calls.check_part(&case.part, &case.table, rank) as usize] += 1;
            }
            let other = bytes_of(&cases::table(random, ranks, trees as u32));
            refused[calls.check_part(&case.part, &other, case.rank) as usize] += 1;
            let (other_ranks, other_trees) = (random.number(1, 5), random.number(1, 9));
            let other = cases::table(random, other_ranks as usize, other_trees);
            let spoilt = cases::spoilt_table(random, other.clone());
            for table in [other, spoilt] {
                let table = bytes_of(&table);
                refused[calls.check_part(&case.part, &table, case.rank) as usize] += 1;
                calls.neighbour_of(&case.part, &table, case.rank, 0, 0);
                calls.part_length(&case.mesh, &table, case.rank);
                calls.cut_part(&case.mesh, &table, case.rank, &vec![3; case.part.len()]);
            }
        });
    }
}

fn any_bytes(run: &mut Run) {
    run.cases(30_000, |random, calls| {
        let trees = random.number(1, 4) as usize;
        let case = Case::random(random, trees);
        let share = case.share();
        let ghosts = if random.chance(200) { random.number(0, 3) } else { cases::number(random) };
        let mut part = header([
            random.number(2, 3),
            share.trees,
            share.ranks,
            share.rank,
            share.first(),
            share.count(),
            ghosts,
            0,
        ]);
        let records = TREE * share.count() as usize + GHOST * ghosts.min(4) as usize;
        let mask = random.pick(&[0, 1, 3, 7, 255]);
        part.extend(random.bytes(records).iter().map(|byte| byte & mask));
        check_and_ask(calls, &part, &case, 0);
        // a random record in a sound part
        let places = case.places();
        if !places.is_empty() {
            let at = random.pick(&places);
            let mut part = case.part.clone();
            let core: Vec<u8> = random.bytes(GHOST).iter().map(|byte| byte & mask).collect();
            let from = if random.chance(128) { 0 } else { 8 };
            part[at + from..at + GHOST].copy_from_slice(&core[from..]);
            check_and_ask(calls, &part, &case, 0);
        }
        // a word of the header at its limits
        let mut part = case.part.clone();
        put(&mut part, 4 * random.below(8) as usize, cases::number(random));
        check_and_ask(calls, &part, &case, 0);
        let length = random.below(200) as usize;
        let any = random.bytes(length);
        check_and_ask(calls, &any, &case, 0);
    });
}

fn any_data(run: &mut Run) {
    let mut answers = [0; 9];
    while run.lacks(answers[0] > 1_000 && answers[8] > 500, format_args!("{answers:?}")) {
        run.cases(5_000, |random, calls| {
            let trees = meshes::count(random).min(12);
            let case = Case::random(random, trees);
            let mut part = if random.chance(128) { several_fields(random, &case) } else { case.part.clone() };
            let before = check_and_ask(calls, &part, &case, 0);
            for local in 0..case.share().count() as usize {
                let at = HEADER + TREE * local;
                part[at + 40..at + 64].copy_from_slice(&random.bytes(24));
            }
            assert_eq!(check_and_ask(calls, &part, &case, 0), before);
            answers[before as usize] += 1;
        });
    }
}

fn damaged_meshes(run: &mut Run) {
    let mut refused = [0; 8];
    while run.lacks(refused[0] > 1_000 && refused[7] > 1_000, format_args!("{refused:?}")) {
        run.cases(10_000, |random, calls| {
            let trees = meshes::count(random).min(12);
            let case = Case::random(random, trees);
            for at in 0..4 {
                let damaged = match at {
                    0 | 1 => meshes::one_field(random, &case.mesh),
                    2 => meshes::several_fields(random, &case.mesh),
                    _ => case.mesh[..random.below(case.mesh.len() as u64) as usize].to_vec(),
                };
                let got = calls.part_length(&damaged, &case.table, case.rank);
                let (cut, _) = calls.cut_part(&damaged, &case.table, case.rank, &vec![9; got.length as usize]);
                assert_eq!(got, cut);
                refused[got.refusal as usize] += 1;
            }
            // one tree more or less than the table's K
            let other = if trees > 1 && random.chance(128) { trees - 1 } else { trees + 1 };
            let mesh = meshes::sound(random, other);
            assert_eq!(calls.part_length(&mesh, &case.table, case.rank).refusal, 7);
            assert_eq!(calls.cut_part(&mesh, &case.table, case.rank, &[9; 40]).0.refusal, 7);
        });
    }
}

/// Each argument good or bad by itself: the smallest number of those that fail.
fn refusals(run: &mut Run) {
    let mesh = apart(&[1; 5], 4);
    let mut bad_mesh = mesh.clone();
    bad_mesh[8 + 5] = 1;
    let calls = &mut run.calls;
    for (table, fails) in kinds() {
        for rank in [0, 1, 1_024, u32::MAX] {
            let share = Share::new(&table, rank);
            let bad_rank = if share.is_err() && fails == 0 { 5 } else { 0 };
            let other_trees = share.as_ref().map_or(false, |share| share.trees != 5);
            for (mesh, bad) in [(&mesh[..], other_trees), (&bad_mesh[..], true), (&[], true)] {
                let bad_mesh = if bad { 7 } else { 0 };
                let failing = first_of(&[fails, bad_rank, bad_mesh]);
                assert_eq!(calls.part_length(mesh, &table, rank).refusal, failing);
                for (room, bad_room) in [(2_000, 0), (31, 22), (0, 22)] {
                    let (got, _) = calls.cut_part(mesh, &table, rank, &vec![1; room]);
                    assert_eq!(got.refusal, first_of(&[fails, bad_rank, bad_mesh, bad_room]));
                }
            }
            let good = part_model::cut_part(&mesh, &table, rank, None).unwrap_or_default();
            let bad_good = if good.is_empty() { 8 } else { 0 };
            for (part, bad_part) in [(&good[..], bad_good), (&mesh[..], 8), (&[], 8)] {
                assert_eq!(calls.check_part(part, &table, rank), first_of(&[fails, bad_rank, bad_part]));
                let count = share.as_ref().map_or(0, |share| share.count());
                for (local, bad_local) in [(0, count == 0), (count, true), (u32::MAX, true)] {
                    for (face, bad_face) in [(0, false), (5, false), (6, true), (u32::MAX, true)] {
                        let index = if bad_local || bad_face { 5 } else { 0 };
                        let got = calls.neighbour_of(part, &table, rank, local, face);
                        assert_eq!(got.refusal, first_of(&[fails, bad_rank, index, bad_part]));
                    }
                }
            }
        }
    }
}

fn any_index(run: &mut Run) {
    run.cases(20_000, |random, calls| {
        let trees = meshes::count(random).min(9);
        let case = Case::random(random, trees);
        let local = if random.chance(128) { random.number(0, trees as u32) } else { cases::number(random) };
        let face = if random.chance(200) { random.number(0, 6) } else { cases::number(random) };
        let rank = if random.chance(200) { case.rank } else { cases::number(random) };
        calls.neighbour_of(&case.part, &case.table, rank, local, face);
        calls.check_part(&case.part, &case.table, rank);
        calls.part_length(&case.mesh, &case.table, rank);
        calls.cut_part(&case.mesh, &case.table, rank, &vec![0; case.part.len()]);
    });
}

fn lookups(run: &mut Run) {
    let mut which = [0; 3];
    while run.lacks(which.iter().all(|&number| number > 10_000), format_args!("{which:?}")) {
        run.cases(40_000, |random, calls| {
            // few numbers, so that they come twice and in both; a tail that would have the number
            let numbers = random.pick(&[1, 2, 4, 30]);
            let mut records = |size: usize| {
                let length = size as u64 * random.below(6) + random.below(size as u64);
                let mut bytes = random.bytes(length as usize);
                for at in (0..bytes.len()).step_by(size) {
                    if at + 4 <= bytes.len() {
                        put(&mut bytes, at, random.below(numbers) as u32);
                    }
                }
                bytes
            };
            let (trees, ghosts) = (records(TREE), records(GHOST));
            for number in 0..numbers.min(5) as u32 {
                which[calls.lookup(&trees, &ghosts, number).which as usize] += 1;
            }
            let number = cases::number(random);
            calls.lookup(&trees, &ghosts, number);
            calls.lookup(&ghosts, &trees, number);
            let length = random.below(300) as usize;
            let any = random.bytes(length);
            let number = if any.len() > 3 { number_at(&any, 0) } else { 0 };
            calls.lookup(&any, &trees, number);
            calls.lookup(&trees, &any, number);
        });
    }
    // a single number that differs in one bit
    for bit in 0..32 {
        let mut record = vec![0; TREE];
        put(&mut record, 0, 1 << bit);
        for other in 0..32 {
            let there = run.calls.lookup(&record, &record[..GHOST], 1 << other);
            assert_eq!(there.which, u32::from(bit == other));
            assert_eq!(run.calls.lookup(&[], &record[..GHOST], 1 << other).which, 2 * u32::from(bit == other));
        }
    }
    // each tail
    let record = [vec![5, 0, 0, 0], vec![0; 60]].concat();
    for length in 0..=TREE {
        assert_eq!(run.calls.lookup(&record[..length], &[], 5).which, u32::from(length == TREE));
        assert_eq!(run.calls.lookup(&[], &record[..length], 5).which, if length >= GHOST { 2 } else { 0 });
    }
}

fn null_pointers(run: &mut Run) {
    let (null, out) = (ptr::null(), ptr::null_mut());
    let (mesh, table) = (apart(&[1], 0), bytes_of(&[0, 1]));
    let (at, length, table_at, table_length) = (mesh.as_ptr(), mesh.len(), table.as_ptr(), table.len());
    let refused = |refusal| Length { refusal, length: 0 };
    let nothing = |refusal| neighbour(Err(refusal));
    unsafe {
        assert_eq!(vejgodat_part_length(null, 0, null, 0, 0), refused(2));
        assert_eq!(vejgodat_part_length(null, 0, table_at, table_length, 0), refused(7));
        assert_eq!(vejgodat_cut_part(null, 0, null, 0, 0, out, 0), refused(2));
        assert_eq!(vejgodat_cut_part(null, 0, table_at, table_length, 0, out, 0), refused(7));
        assert_eq!(vejgodat_cut_part(at, length, table_at, table_length, 0, out, 0), refused(22));
        assert_eq!(vejgodat_check_part(null, 0, null, 0, 0), 2);
        assert_eq!(vejgodat_check_part(null, 0, table_at, table_length, 0), 8);
        assert_eq!(vejgodat_neighbour_of(null, 0, null, 0, 0, 0, 0), nothing(2));
        assert_eq!(vejgodat_neighbour_of(null, 0, table_at, table_length, 0, 0, 0), nothing(8));
        assert_eq!(vejgodat_lookup(null, 0, null, 0, 0), Found { which: 0, offset: 0 });
        // the same records as trees and as ghosts
        let found = vejgodat_lookup(at.add(8), TREE, at.add(8), TREE, 0);
        assert_eq!(found, Found { which: 1, offset: 0 });
        assert_eq!(vejgodat_lookup(null, 0, at.add(8), TREE, 0), Found { which: 2, offset: 0 });
    }
    // made above without a comparison with the model
    run.calls.seen.calls += 12;
}

fn tree_limits(run: &mut Run) {
    let shape = 3;
    let mut mesh = apart(&vec![shape; MAX_TREES], 5);
    let last = MAX_TREES - 1;
    join(&mut mesh, (0, 1), (last, 2), 1);
    for k in 0..last {
        join(&mut mesh, (k, 0), (k + 1, 3), (k % 2) as u32);
    }
    let all = MAX_TREES as i64;
    // everything
    let table = bytes_of(&[0, all, all]);
    let (got, mut part) = run.calls.cut_part(&mesh, &table, 0, &vec![0; HEADER + TREE * MAX_TREES]);
    assert_eq!(got.length as usize, part.len());
    assert_eq!(run.calls.check_part(&part, &table, 0), 0);
    // the last byte that matters
    let at = part.len() - 25;
    part[at] = 16;
    assert_eq!(run.calls.check_part(&part, &table, 0), 8);
    // one tree with two ghosts far apart
    let table = bytes_of(&[0, 1, all]);
    let (_, part) = run.calls.cut_part(&mesh, &table, 0, &[0; HEADER + TREE + 2 * GHOST]);
    assert_eq!([HEADER + TREE, HEADER + TREE + GHOST].map(|at| number_at(&part, at)), [1, last as u32]);
    assert_eq!(run.calls.check_part(&part, &table, 0), 0);
}

fn seen_refusals(run: &mut Run) {
    expect_seen(
        run,
        &[
            ("part_length", &[2, 3, 5, 7]),
            ("cut_part", &[2, 3, 5, 7, 22]),
            ("check_part", &[2, 3, 5, 8]),
            ("neighbour_of", &[2, 3, 5, 8]),
            ("lookup", &[]),
        ],
    );
}

fn seen_faults(_: &mut Run) {
    let seen = FAULTS.with(|seen| seen.borrow().clone());
    let times = |faults: &[Fault]| seen.get(&faults.iter().copied().collect()).copied().unwrap_or(0);
    let refused: u64 = seen.iter().filter(|(faults, _)| !faults.is_empty()).map(|(_, times)| times).sum();
    assert!(times(&[]) > 10_000 && refused > 10_000, "{} sound, {refused} refused", times(&[]));
    for fault in [
        Fault::Dimension,
        Fault::Header,
        Fault::Length,
        Fault::Order,
        Fault::GhostOrder,
        Fault::Shape,
        Fault::Zeros,
        Fault::Region,
        Fault::Unused,
        Fault::Boundary,
        Fault::OtherDimension,
        Fault::Index,
        Fault::Limit,
        Fault::Ghosts,
        Fault::Orientation,
        Fault::Corners,
        Fault::Answer,
        Fault::FarNumber,
        Fault::FarOrientation,
    ] {
        assert!(times(&[fault]) > 20, "only {fault:?} was broken {} times", times(&[fault]));
    }
}
