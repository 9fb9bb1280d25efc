//! The second implementation of parts. To write one, records keep global neighbours until the end. To check one, every
//! record is decoded first, then document 01's sentences are checked one by one, each on the whole part.
use crate::mesh_model::{self, number_at, Link, Record, MAX_REGION, SHAPES, UNUSED};
use crate::model::{self, Answer, Trees};
use std::collections::{BTreeMap, BTreeSet};

pub const HEADER: usize = 32;
pub const TREE: usize = 64;
pub const GHOST: usize = 40;

/// A rank of a valid table.
#[derive(Clone, Debug)]
pub struct Share {
    pub trees: u32,
    pub ranks: u32,
    pub rank: u32,
    /// f(p)
    pub range: Trees,
}

impl Share {
    /// 2 and 3 of the table, 5 of the rank.
    pub fn new(table: &[u8], rank: u32) -> Answer<Share> {
        let table = model::table(table)?;
        let ranks = table.len() as u32 - 1;
        if rank >= ranks {
            return Err(5);
        }
        Ok(Share { trees: table[ranks as usize] as u32, ranks, rank, range: model::range(&table, rank as usize) })
    }

    pub fn count(&self) -> u32 {
        self.range.count() as u32
    }

    pub fn first(&self) -> u32 {
        self.range.first as u32
    }

    pub fn holds(&self, tree: u32) -> bool {
        self.range.holds(tree.into())
    }
}

// ---- writing

/// A tree's record and its tree data.
#[derive(Clone, Debug, PartialEq, Eq)]
pub struct Tree {
    pub record: Record,
    pub data: Vec<u8>,
}

impl Tree {
    pub fn decode(bytes: &[u8]) -> Tree {
        Tree { record: Record::decode(bytes), data: bytes[GHOST..TREE].to_vec() }
    }

    pub fn encode(&self) -> Vec<u8> {
        self.record.encode(&self.data)
    }
}

/// The trees and ghosts of a part, all neighbours as global numbers.
#[derive(Clone, Debug)]
pub struct Part {
    pub dimension: u32,
    pub share: Share,
    pub trees: Vec<Tree>,
    pub ghosts: Vec<Record>,
}

/// Eight numbers.
pub fn header(words: [u32; 8]) -> Vec<u8> {
    words.iter().flat_map(|word| word.to_le_bytes()).collect()
}

impl Part {
    /// The bytes, none where a tree has a neighbour that isn't held.
    pub fn encode(&self) -> Option<Vec<u8>> {
        let Share { trees, ranks, rank, .. } = self.share;
        let (first, count) = (self.share.first(), self.share.count());
        let positions: BTreeMap<u32, u32> =
            self.ghosts.iter().enumerate().map(|(at, ghost)| (ghost.number, at as u32)).collect();
        let mut bytes = header([self.dimension, trees, ranks, rank, first, count, self.ghosts.len() as u32, 0]);
        for tree in &self.trees {
            let mut local = tree.clone();
            for face in 0..local.record.faces().len() {
                let neighbour = local.record.neighbours[face];
                local.record.neighbours[face] =
                    if self.share.holds(neighbour) { neighbour - first } else { count + positions.get(&neighbour)? };
            }
            bytes.extend(local.encode());
        }
        for ghost in &self.ghosts {
            bytes.extend(ghost.core());
        }
        Some(bytes)
    }

    /// The trees and ghosts of a sound part.
    pub fn decode(bytes: &[u8], share: &Share) -> Part {
        let count = share.count() as usize;
        let ghosts_at = HEADER + TREE * count;
        let ghosts: Vec<Record> = bytes[ghosts_at..].chunks(GHOST).map(Record::decode).collect();
        let mut trees: Vec<Tree> = bytes[HEADER..ghosts_at].chunks(TREE).map(Tree::decode).collect();
        for tree in &mut trees {
            for face in 0..tree.record.faces().len() {
                let index = tree.record.neighbours[face] as usize;
                tree.record.neighbours[face] =
                    if index < count { share.first() + index as u32 } else { ghosts[index - count].number };
            }
        }
        Part { dimension: number_at(bytes, 0), share: share.clone(), trees, ghosts }
    }
}

/// Every tree outside the range with a face neighbour in it.
pub fn ghosts_of(records: &[Record], range: &Trees) -> BTreeSet<u32> {
    let in_range = |&tree: &u32| range.holds(tree.into());
    let ghosts = records.iter().filter(|record| !in_range(&record.number) && record.met().iter().any(in_range));
    ghosts.map(|record| record.number).collect()
}

/// The part of a mesh: 2, 3, 5, 7.
pub fn part_of(mesh: &[u8], table: &[u8], rank: u32) -> Answer<Part> {
    let share = Share::new(table, rank)?;
    if !mesh_model::faults(mesh).is_empty() || number_at(mesh, 4) != share.trees {
        return Err(7);
    }
    let records: Vec<Record> = mesh[8..].chunks(TREE).map(Record::decode).collect();
    let ghosts = ghosts_of(&records, &share.range).iter().map(|&tree| records[tree as usize].clone()).collect();
    let trees = (share.range.first..share.range.end).map(|k| Tree::decode(&mesh[8 + TREE * k as usize..]));
    let trees = trees.collect();
    Ok(Part { dimension: number_at(mesh, 0), share, trees, ghosts })
}

/// The bytes written to a buffer of `room` bytes; none for the call that gives the length alone.
pub fn cut_part(mesh: &[u8], table: &[u8], rank: u32, room: Option<usize>) -> Answer<Vec<u8>> {
    let part = part_of(mesh, table, rank)?;
    let bytes = part.encode().expect("the neighbours of a rank's trees are its trees and ghosts");
    fits(bytes, room)
}

/// 22 where the bytes don't fit.
pub fn fits(bytes: Vec<u8>, room: Option<usize>) -> Answer<Vec<u8>> {
    match room {
        Some(room) if room < bytes.len() => Err(22),
        _ => Ok(bytes),
    }
}

// ---- checking

/// The sentence that a part breaks.
#[derive(Clone, Copy, Debug, PartialEq, Eq, PartialOrd, Ord)]
pub enum Fault {
    /// dimension 2 or 3
    Dimension,
    /// header as table and rank say
    Header,
    /// exact length
    Length,
    /// trees in order
    Order,
    /// ghosts ascend
    GhostOrder,
    /// shape 0 to 5
    Shape,
    /// zero bytes zero
    Zeros,
    /// region up to 4,095
    Region,
    /// unused faces marked so
    Unused,
    /// boundaries with orientation 0
    Boundary,
    /// shapes of the dimension
    OtherDimension,
    /// a tree's neighbour is a local index
    Index,
    /// the ghosts are below K
    Limit,
    /// the ghosts are exactly the neighbours of the trees outside f(p)
    Ghosts,
    /// between two records held: orientation below the corners of the face
    Orientation,
    /// between two records held: both faces with as many corners
    Corners,
    /// between two records held: answered by the link back with the same orientation
    Answer,
    /// a ghost's link to a tree not held: below K, outside f(p)
    FarNumber,
    /// a ghost's link to a tree not held: orientation below the corners of its own face
    FarOrientation,
}

/// What of 'in form' a record breaks, which calls itself `own` at a boundary.
pub fn form_faults(record: &Record, own: u32) -> BTreeSet<Fault> {
    let mut faults = BTreeSet::new();
    if record.shape > 5 {
        faults.insert(Fault::Shape);
    }
    if record.zeros != [0; 3] {
        faults.insert(Fault::Zeros);
    }
    if record.region > MAX_REGION {
        faults.insert(Fault::Region);
    }
    for face in record.faces().len()..6 {
        if record.shape <= 5 && (record.neighbours[face] != UNUSED || record.codes[face] != 0) {
            faults.insert(Fault::Unused);
        }
    }
    for face in 0..record.faces().len() {
        let link = record.link(face);
        if link.neighbour == own && link.face as usize == face && link.orientation != 0 {
            faults.insert(Fault::Boundary);
        }
    }
    faults
}

/// Every sentence that the part breaks: none where it is sound. Records are read only where header and length fit.
pub fn faults(bytes: &[u8], share: &Share) -> BTreeSet<Fault> {
    if bytes.len() < HEADER {
        return BTreeSet::from([Fault::Length]);
    }
    let mut faults = BTreeSet::new();
    let word = |at: usize| number_at(bytes, 4 * at);
    let (dimension, ghost_count) = (word(0), word(6));
    let (first, count) = (share.first(), share.count());
    if dimension != 2 && dimension != 3 {
        faults.insert(Fault::Dimension);
    }
    let said = [word(1), word(2), word(3), word(4), word(5), word(7)];
    if said != [share.trees, share.ranks, share.rank, first, count, 0] {
        faults.insert(Fault::Header);
    }
    let length = HEADER as u128 + TREE as u128 * u128::from(count) + GHOST as u128 * u128::from(ghost_count);
    if bytes.len() as u128 != length {
        faults.insert(Fault::Length);
        return faults;
    }
    let ghosts_at = HEADER + TREE * count as usize;
    let trees: Vec<Record> = bytes[HEADER..ghosts_at].chunks(TREE).map(Record::decode).collect();
    let ghosts: Vec<Record> = bytes[ghosts_at..].chunks(GHOST).map(Record::decode).collect();
    assert_eq!((trees.len(), ghosts.len()), (count as usize, ghost_count as usize));

    if trees.iter().enumerate().any(|(at, tree)| u64::from(tree.number) != u64::from(first) + at as u64) {
        faults.insert(Fault::Order);
    }
    if ghosts.windows(2).any(|two| two[0].number >= two[1].number) {
        faults.insert(Fault::GhostOrder);
    }
    for (at, tree) in trees.iter().enumerate() {
        faults.extend(form_faults(tree, at as u32));
    }
    for ghost in &ghosts {
        faults.extend(form_faults(ghost, ghost.number));
    }
    let other_dimension = |record: &&Record| record.shape <= 5 && SHAPES[record.shape as usize].0 != dimension;
    if trees.iter().chain(&ghosts).any(|record| other_dimension(&record)) {
        faults.insert(Fault::OtherDimension);
    }
    if ghosts.iter().any(|ghost| ghost.number >= share.trees) {
        faults.insert(Fault::Limit);
    }

    // every record held, by global number and with global neighbours; a tree's number is that of its place
    let mut held: BTreeMap<u32, Record> = BTreeMap::new();
    for ghost in &ghosts {
        held.insert(ghost.number, ghost.clone());
    }
    let mut outside: BTreeSet<u32> = BTreeSet::new();
    for (at, tree) in trees.iter().enumerate() {
        let mut global = Record { number: first + at as u32, ..tree.clone() };
        for face in 0..tree.faces().len() {
            let index = tree.neighbours[face];
            global.neighbours[face] = if index < count {
                first + index
            } else if let Some(ghost) = ghosts.get((index - count) as usize) {
                ghost.number
            } else {
                faults.insert(Fault::Index);
                UNUSED
            };
        }
        outside.extend(global.met().iter().filter(|&&tree| tree != UNUSED && !share.holds(tree)));
        held.insert(global.number, global);
    }
    if outside != ghosts.iter().map(|ghost| ghost.number).collect() {
        faults.insert(Fault::Ghosts);
    }

    for (&number, record) in &held {
        for (face, &corners) in record.faces().iter().enumerate() {
            let link = record.link(face);
            if let Some(neighbour) = held.get(&link.neighbour) {
                if link.orientation >= corners {
                    faults.insert(Fault::Orientation);
                }
                // no such face of the neighbour: nothing there has corners or answers
                let other = neighbour.faces().get(link.face as usize);
                if other != Some(&corners) {
                    faults.insert(Fault::Corners);
                }
                let back = Link { neighbour: number, face: face as u32, orientation: link.orientation };
                if other.is_none() || neighbour.link(link.face as usize) != back {
                    faults.insert(Fault::Answer);
                }
            } else if !share.holds(number) {
                if link.neighbour >= share.trees || share.holds(link.neighbour) {
                    faults.insert(Fault::FarNumber);
                }
                if link.orientation >= corners {
                    faults.insert(Fault::FarOrientation);
                }
            }
        }
    }
    faults
}

/// 2, 3, 5, 8.
pub fn check_part(part: &[u8], table: &[u8], rank: u32) -> u32 {
    match Share::new(table, rank) {
        Err(refusal) => refusal,
        Ok(share) if !faults(part, &share).is_empty() => 8,
        Ok(_) => 0,
    }
}

// ---- reading

#[derive(Clone, Copy, Debug, PartialEq, Eq)]
pub enum Kind {
    Boundary,
    Unused,
    Local,
    Ghost,
}

#[derive(Clone, Copy, Debug, PartialEq, Eq)]
pub struct Neighbour {
    pub shape: u8,
    pub kind: Kind,
    pub index: u32,
    pub face: u32,
    pub orientation: u32,
}

/// What lies across a face of a local tree: 2, 3, 5, 8.
pub fn neighbour_of(part: &[u8], table: &[u8], rank: u32, local: u32, face: u32) -> Answer<Neighbour> {
    let share = Share::new(table, rank)?;
    if local >= share.count() || face >= 6 {
        return Err(5);
    }
    if !faults(part, &share).is_empty() {
        return Err(8);
    }
    let record = Record::decode(&part[HEADER + TREE * local as usize..]);
    let shape = record.shape;
    if face as usize >= record.faces().len() {
        return Ok(Neighbour { shape, kind: Kind::Unused, index: 0, face: 0, orientation: 0 });
    }
    let link = record.link(face as usize);
    let kind = if link.neighbour == local && link.face == face {
        Kind::Boundary
    } else if link.neighbour < share.count() {
        Kind::Local
    } else {
        Kind::Ghost
    };
    Ok(Neighbour { shape, kind, index: link.neighbour, face: link.face, orientation: link.orientation })
}

/// Where the record with a number is.
#[derive(Clone, Copy, Debug, PartialEq, Eq)]
pub enum Found {
    None,
    Tree(usize),
    Ghost(usize),
}

/// The first record with that number, trees before ghosts. A tail shorter than a record isn't read.
pub fn lookup(trees: &[u8], ghosts: &[u8], number: u32) -> Found {
    let place = |bytes: &[u8], size: usize| {
        let at = bytes.chunks_exact(size).position(|record| number_at(record, 0) == number);
        at.map(|at| at * size)
    };
    match (place(trees, TREE), place(ghosts, GHOST)) {
        (Some(at), _) => Found::Tree(at),
        (None, Some(at)) => Found::Ghost(at),
        (None, None) => Found::None,
    }
}
