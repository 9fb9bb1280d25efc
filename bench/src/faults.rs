//! The first fault of a whole mesh, and of a part: of a sound one, and of one whose last tree or last ghost is damaged,
//! beside a check and beside a search in one pass.
use crate::fast::{self, number, CORNERS, FACES};
use crate::part::{check_part, cut_part, head_refusal, quarters, Set, GHOST, HEADER, TREE};
use crate::{brick, row, tangle, times};
use std::hint::black_box;

#[repr(C)]
#[derive(Clone, Copy, Debug, PartialEq, Eq)]
struct Fault {
    refusal: u32,
    fault: u32,
    kind: u32,
    at: u32,
    face: u32,
}

extern "C" {
    fn vejgodat_mesh_fault(mesh: *const u8, mesh_len: usize) -> Fault;
    fn vejgodat_part_fault(part: *const u8, part_len: usize, table: *const u8, table_len: usize, rank: u32) -> Fault;
}

const NONE: Fault = Fault { refusal: 0, fault: 0, kind: 0, at: 0, face: 0 };

/// What is wrong with a record of dimension 3, its faces apart.
fn record_kind(record: &[u8], in_order: bool) -> u32 {
    let wrong =
        [(!in_order, 7), (record[4] > 5, 8), (record[5..8] != [0; 3] || record[39] > 15, 9), (record[4] < 2, 12)];
    wrong.iter().find(|(wrong, _)| *wrong).map_or(0, |(_, kind)| *kind)
}

/// What is wrong with a face: with its form, or with its link to a neighbour.
fn face_kind(record: &[u8], own: u32, face: usize, link: impl FnOnce(u32) -> u32) -> u32 {
    let (neighbour, code) = (number(record, 8 + 4 * face), record[32 + face]);
    if face >= FACES[record[4] as usize] {
        10 * u32::from(neighbour != u32::MAX || code != 0)
    } else if neighbour == own && code as usize % 6 == face && code >= 6 {
        11
    } else {
        link(neighbour)
    }
}

/// Whether the orientation of a link is none of the face's.
fn turned(record: &[u8], face: usize) -> bool {
    record[32 + face] / 6 >= CORNERS[record[4] as usize][face]
}

/// What is wrong with a link to a record whose own link should lead back to `back`.
fn link_kind(record: &[u8], face: usize, there: &[u8], back: u32) -> u32 {
    let code = record[32 + face];
    let (orientation, other) = (code / 6, (code % 6) as usize);
    let other_corners = CORNERS.get(there[4] as usize).map_or(0, |corners| corners[other]);
    let f = if there[4] < 2 { 4 } else { 6 };
    let answer = there[32 + other];
    if turned(record, face) {
        14
    } else if other_corners != CORNERS[record[4] as usize][face] {
        15
    } else if number(there, 8 + 4 * other) != back || (answer % f, answer / f) != (face as u8, orientation) {
        16
    } else {
        0
    }
}

/// The first fault of the records of a mesh of dimension 3: its kind, the tree and the face.
fn search(mesh: &[u8]) -> Option<(u32, u32, u32)> {
    let (records, _) = mesh[8..].as_chunks::<64>();
    for (k, record) in records.iter().enumerate() {
        let k = k as u32;
        let kind = record_kind(record, number(record, 0) == k);
        if kind != 0 {
            return Some((kind, k, 0));
        }
        for face in 0..6 {
            let kind = face_kind(record, k, face, |neighbour| {
                records.get(neighbour as usize).map_or(13, |there| link_kind(record, face, there, k))
            });
            if kind != 0 {
                return Some((kind, k, face as u32));
            }
        }
    }
    None
}

/// The first fault of the records of a part of dimension 3 whose header is sound.
fn search_part(part: &[u8]) -> Option<(u32, u32, u32)> {
    let [trees, first, count] = [4, 16, 20].map(|at| number(part, at));
    let (own, ghosts) = part[HEADER..].split_at(TREE * count as usize);
    let (own, ghosts) = (own.as_chunks::<TREE>().0, ghosts.as_chunks::<GHOST>().0);
    for (i, record) in own.iter().enumerate() {
        let i = i as u32;
        let kind = record_kind(record, number(record, 0) == first + i);
        if kind != 0 {
            return Some((kind, i, 0));
        }
        for face in 0..6 {
            let kind = face_kind(record, i, face, |index| {
                if index < count {
                    link_kind(record, face, &own[index as usize], i)
                } else {
                    let ghost = ghosts.get((index - count) as usize);
                    ghost.map_or(13, |ghost| link_kind(record, face, ghost, first + i))
                }
            });
            if kind != 0 {
                return Some((kind, i, face as u32));
            }
        }
    }
    // the ghosts before the first that is out of order are found by their numbers
    let mut held = Set::new(trees as usize);
    let (mut found, mut least) = (0, 0);
    for ghost in ghosts {
        let tree = number(ghost, 0);
        if tree >= trees || tree.wrapping_sub(first) < count || tree < least {
            break;
        }
        held.insert(tree);
        (found, least) = (found + 1, tree + 1);
    }
    held.count();
    for (j, record) in ghosts[..found].iter().enumerate() {
        let (at, tree) = (count + j as u32, number(record, 0));
        let kind = record_kind(record, true);
        if kind != 0 {
            return Some((kind, at, 0));
        }
        let mut met = false;
        for face in 0..6 {
            let kind = face_kind(record, tree, face, |neighbour| {
                if neighbour.wrapping_sub(first) < count {
                    met = true;
                    link_kind(record, face, &own[(neighbour - first) as usize], at)
                } else if neighbour >= trees {
                    13
                } else if held.holds(neighbour) {
                    link_kind(record, face, &ghosts[held.position(neighbour) as usize], tree)
                } else {
                    14 * u32::from(turned(record, face))
                }
            });
            if kind != 0 {
                return Some((kind, at, face as u32));
            }
        }
        if !met {
            return Some((17, at, 0));
        }
    }
    (found < ghosts.len()).then_some((7, count + found as u32, 0))
}

/// The same as the library answers it: the table, the rank and the header are looked at first.
fn part_search(part: &[u8], table: &[u8], rank: u32) -> Fault {
    let refusal = head_refusal(part, table, rank);
    match refusal {
        0 => search_part(part).map_or(NONE, |(kind, at, face)| Fault { fault: 8, kind, at, face, ..NONE }),
        8 => Fault { fault: 8, kind: 6, ..NONE },
        _ => Fault { refusal, ..NONE },
    }
}

fn mesh_fault(name: &str, power: u32, mut mesh: Vec<u8>) {
    let library = |mesh: &[u8]| unsafe { vejgodat_mesh_fault(mesh.as_ptr(), mesh.len()) };
    assert_eq!((library(&mesh), search(&mesh)), (NONE, None));
    for damaged in [false, true] {
        if damaged {
            // a byte behind the last shape that is to be zero
            let last = mesh.len() - 64;
            mesh[last + 5] = 1;
            let (kind, at, face) = search(&mesh).expect("a fault");
            assert_eq!(library(&mesh), Fault { refusal: 0, fault: 7, kind, at, face });
            assert_eq!((kind, at), (9, (1 << power) - 1));
        }
        let mesh = &mesh[..];
        let all = times(
            (1 << 24) >> power,
            1,
            [
                &mut || _ = black_box(library(black_box(mesh))),
                &mut || _ = black_box(fast::check_mesh(black_box(mesh))),
                &mut || _ = black_box(search(black_box(mesh))),
            ],
        );
        let which = if damaged { "its last tree damaged" } else { "sound" };
        row(&format!("first fault of a mesh of 2^{power} {name}, {which}"), Some(1 << power), all);
    }
}

/// The library's answers and the search's are the same for parts with one byte of a record changed.
fn same_faults(part: &[u8], table: &[u8], rank: u32) {
    let mut part = part.to_vec();
    let mut kinds = 0u32;
    let mut state = 1u64;
    let mut next = |below: usize| {
        state = state.wrapping_mul(6364136223846793005).wrapping_add(1442695040888963407);
        (state >> 33) as usize % below
    };
    for _ in 0..20_000 {
        let (place, byte) = (HEADER + next(part.len() - HEADER), next(4) as u8);
        let before = part[place];
        part[place] = if byte == 3 { next(256) as u8 } else { before ^ (1 << byte) };
        let library = unsafe { vejgodat_part_fault(part.as_ptr(), part.len(), table.as_ptr(), table.len(), rank) };
        assert_eq!(library, part_search(&part, table, rank), "byte {place}");
        kinds |= 1 << library.kind;
        part[place] = before;
    }
    assert!(kinds.count_ones() >= 9, "kinds {kinds:b}");
}

/// A quarter of the mesh.
fn part_fault(name: &str, power: u32, mesh: &[u8], compared: bool) {
    let (table, rank) = (quarters(1 << power), 1);
    let table = &table[..];
    let mut part = vec![0u8; 2 * mesh.len()];
    let length = cut_part::<false>(mesh, table, rank, &mut part).expect("a part");
    part.truncate(length);
    if compared {
        return same_faults(&part, table, rank);
    }
    let library =
        |part: &[u8]| unsafe { vejgodat_part_fault(part.as_ptr(), part.len(), table.as_ptr(), table.len(), rank) };
    let (trees, ghosts) = (number(&part, 20), number(&part, 24));
    let last_tree = HEADER + TREE * (trees as usize - 1);
    let last_ghost = part.len() - GHOST;
    let damages = [
        ("sound", None),
        ("its last tree damaged", Some((last_tree, trees - 1))),
        ("its last ghost damaged", Some((last_ghost, trees + ghosts - 1))),
    ];
    for (which, damage) in damages {
        // a byte behind the shape that is to be zero
        let expected = damage.map_or(NONE, |(_, at)| Fault { fault: 8, kind: 9, at, ..NONE });
        damage.iter().for_each(|(place, _)| part[place + 5] = 1);
        let check = check_part(&part, table, rank);
        assert_eq!((library(&part), part_search(&part, table, rank), check), (expected, expected, expected.fault));
        let all = times(
            (1 << 26) >> power,
            1,
            [
                &mut || _ = black_box(library(black_box(&part))),
                &mut || _ = black_box(check_part(black_box(&part), table, rank)),
                &mut || _ = black_box(part_search(black_box(&part), table, rank)),
            ],
        );
        row(
            &format!("first fault of a quarter of 2^{power} {name}, {ghosts} ghosts, {which}"),
            Some(trees as usize),
            all,
        );
        damage.iter().for_each(|(place, _)| part[place + 5] = 0);
    }
}

pub fn rows() {
    println!("\nThe first fault of a mesh and of a part, beside a check alone and beside a search in one pass, both in Rust.\n");
    println!("| call | library, µs | ns per tree | ratio to the check | ratio to a search | |");
    println!("|---|---:|---:|---:|---:|---:|");
    part_fault("", 8, &brick([2, 3, 3]), true);
    part_fault("", 8, &tangle(8), true);
    for powers in [[4, 6, 6], [6, 7, 7]] {
        mesh_fault("hexahedra, a brick", powers.iter().sum(), brick(powers));
    }
    for power in [16, 20] {
        mesh_fault("tetrahedra, random links", power, tangle(power));
    }
    for powers in [[4, 6, 6], [6, 7, 7]] {
        part_fault("hexahedra, a brick", powers.iter().sum(), &brick(powers), false);
    }
    for power in [16, 20] {
        part_fault("tetrahedra, random links", power, &tangle(power), false);
    }
}
