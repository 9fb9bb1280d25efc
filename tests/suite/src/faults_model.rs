//! The second implementation of the first fault: every fault of every place is gathered, in the order that the
//! documents give them, and the least is the answer.
use crate::mesh_model::{number_at, Link, Record, MAX_REGION, SHAPES, UNUSED};
use crate::model::{MAX_RANKS, MAX_TREES};
use crate::part_model::{Share, GHOST, HEADER, TREE};
use std::collections::BTreeSet;

#[repr(C)]
#[derive(Clone, Copy, Debug, Default, PartialEq, Eq)]
pub struct Fault {
    pub refusal: u32,
    pub fault: u32,
    pub kind: u32,
    pub at: u32,
    pub face: u32,
}

pub const KINDS: u32 = 17;

/// Where in a record a kind is asked: without a face, at a face, or last.
#[derive(Clone, Copy, Debug, PartialEq, Eq, PartialOrd, Ord)]
enum Turn {
    Record,
    Face(u32),
    Last,
}

/// The faults of an object, in their order: place, turn, kind.
type Faults = BTreeSet<(u32, Turn, u32)>;

fn least(fault: u32, faults: &Faults) -> Fault {
    faults.first().map_or(Fault::default(), |&(at, turn, kind)| {
        let face = if let Turn::Face(face) = turn { face } else { 0 };
        Fault { refusal: 0, fault, kind, at, face }
    })
}

/// 2, or the least entry at which something is wrong.
pub fn table_fault(table: &[u8]) -> Fault {
    if table.len() % 8 != 0 || table.len() < 16 || table.len() / 8 - 1 > MAX_RANKS {
        return Fault { refusal: 2, ..Fault::default() };
    }
    let entries: Vec<i64> = table.chunks(8).map(|piece| i64::from_le_bytes(piece.try_into().unwrap())).collect();
    let last = entries.len() - 1;
    // a negative K is above every entry, and is reported itself
    let trees = u128::from(entries[last] as u64);
    let mut faults = Faults::new();
    let mut wrong = |at: usize, kind: u32| faults.insert((at as u32, Turn::Record, kind));
    if entries[0] != 0 {
        wrong(0, 1);
    }
    if trees < 1 || trees > MAX_TREES as u128 {
        wrong(last, 2);
    }
    for (at, entry) in entries.iter().enumerate() {
        if u128::from(entry.unsigned_abs()) > trees {
            wrong(at, 3);
        }
    }
    for (rank, pair) in entries.windows(2).enumerate() {
        let first = if pair[0] >= 0 { i128::from(pair[0]) } else { -i128::from(pair[0]) - 1 };
        let count = i128::from(pair[1].unsigned_abs()) - first;
        if count < 0 {
            wrong(rank, 4);
        }
        if count == 0 && pair[0] < 0 {
            wrong(rank, 5);
        }
    }
    least(3, &faults)
}

/// What is wrong with a record by itself, which calls itself `own` at a boundary.
fn alone(faults: &mut Faults, at: u32, record: &Record, own: u32, in_order: bool, dimension: u32) {
    let mut wrong = |turn: Turn, kind: u32| faults.insert((at, turn, kind));
    if !in_order {
        wrong(Turn::Record, 7);
    }
    match SHAPES.get(record.shape as usize) {
        None => wrong(Turn::Record, 8),
        Some(shape) => shape.0 != dimension && wrong(Turn::Record, 12),
    };
    if record.zeros != [0; 3] || record.region > MAX_REGION {
        wrong(Turn::Record, 9);
    }
    for face in 0..6 {
        let link = record.link(face);
        if face >= record.faces().len() {
            if record.neighbours[face] != UNUSED || record.codes[face] != 0 {
                wrong(Turn::Face(face as u32), 10);
            }
        } else if link.neighbour == own && link.face as usize == face && link.orientation != 0 {
            wrong(Turn::Face(face as u32), 11);
        }
    }
}

/// What is wrong with a link to a record, which is to lead back to this number.
fn linked(faults: &mut Faults, at: u32, record: &Record, face: usize, back: u32, other: &Record) {
    let (link, corners) = (record.link(face), record.faces()[face]);
    let mut wrong = |kind: u32| faults.insert((at, Turn::Face(face as u32), kind));
    if link.orientation >= corners {
        wrong(14);
    }
    if other.faces().get(link.face as usize).copied().unwrap_or(0) != corners {
        wrong(15);
    }
    let expected = Link { neighbour: back, face: face as u32, orientation: link.orientation };
    if other.link(link.face as usize) != expected {
        wrong(16);
    }
}

pub fn mesh_fault(mesh: &[u8]) -> Fault {
    let headless = Fault { refusal: 0, fault: 7, kind: 6, at: 0, face: 0 };
    if mesh.len() < 8 {
        return headless;
    }
    let (dimension, trees) = (number_at(mesh, 0), number_at(mesh, 4));
    let limits = trees >= 1 && trees as usize <= MAX_TREES;
    if !(2..=3).contains(&dimension) || !limits || mesh.len() != 8 + 64 * trees as usize {
        return headless;
    }
    let records: Vec<Record> = mesh[8..].chunks(64).map(Record::decode).collect();
    let mut faults = Faults::new();
    for (k, record) in records.iter().enumerate() {
        let at = k as u32;
        alone(&mut faults, at, record, at, record.number == at, dimension);
        for face in 0..record.faces().len() {
            match records.get(record.neighbours[face] as usize) {
                None => {
                    faults.insert((at, Turn::Face(face as u32), 13));
                }
                Some(other) => linked(&mut faults, at, record, face, at, other),
            }
        }
    }
    least(7, &faults)
}

/// 2, 3, 5, or the least record at which something is wrong.
pub fn part_fault(part: &[u8], table: &[u8], rank: u32) -> Fault {
    let share = match Share::new(table, rank) {
        Err(refusal) => return Fault { refusal, ..Fault::default() },
        Ok(share) => share,
    };
    let headless = Fault { refusal: 0, fault: 8, kind: 6, at: 0, face: 0 };
    if part.len() < HEADER {
        return headless;
    }
    let (first, count) = (share.first(), share.count());
    let words: Vec<u32> = (0..8).map(|word| number_at(part, 4 * word)).collect();
    let (dimension, ghost_count) = (words[0], words[6]);
    let length = HEADER as u128 + TREE as u128 * u128::from(count) + GHOST as u128 * u128::from(ghost_count);
    let expected = [dimension, share.trees, share.ranks, rank, first, count, ghost_count, 0];
    if !(2..=3).contains(&dimension) || words != expected || part.len() as u128 != length {
        return headless;
    }
    let ghosts_at = HEADER + TREE * count as usize;
    let trees: Vec<Record> = part[HEADER..ghosts_at].chunks(TREE).map(Record::decode).collect();
    let ghosts: Vec<Record> = part[ghosts_at..].chunks(GHOST).map(Record::decode).collect();
    let in_order = |j: usize| {
        let number = ghosts[j].number;
        number < share.trees && !share.holds(number) && (j == 0 || ghosts[j - 1].number < number)
    };
    // those that can be found by their number
    let ordered = (0..ghosts.len()).position(|j| !in_order(j)).unwrap_or(ghosts.len());
    let mut faults = Faults::new();
    for (i, tree) in trees.iter().enumerate() {
        let at = i as u32;
        alone(&mut faults, at, tree, at, u64::from(tree.number) == u64::from(first) + i as u64, dimension);
        for face in 0..tree.faces().len() {
            let index = tree.neighbours[face] as usize;
            if let Some(other) = trees.get(index) {
                linked(&mut faults, at, tree, face, at, other);
            } else if let Some(ghost) = ghosts.get(index - trees.len()) {
                linked(&mut faults, at, tree, face, tree.number, ghost);
            } else {
                faults.insert((at, Turn::Face(face as u32), 13));
            }
        }
    }
    for (j, ghost) in ghosts.iter().enumerate() {
        let at = count + j as u32;
        alone(&mut faults, at, ghost, ghost.number, in_order(j), dimension);
        for (face, &neighbour) in ghost.met().iter().enumerate() {
            if share.holds(neighbour) {
                linked(&mut faults, at, ghost, face, at, &trees[(neighbour - first) as usize]);
            } else if let Some(other) = ghosts[..ordered].iter().find(|other| other.number == neighbour) {
                linked(&mut faults, at, ghost, face, ghost.number, other);
            } else {
                if neighbour >= share.trees {
                    faults.insert((at, Turn::Face(face as u32), 13));
                }
                if ghost.link(face).orientation >= ghost.faces()[face] {
                    faults.insert((at, Turn::Face(face as u32), 14));
                }
            }
        }
        if !ghost.met().iter().any(|&neighbour| share.holds(neighbour)) {
            faults.insert((at, Turn::Last, 17));
        }
    }
    least(8, &faults)
}
