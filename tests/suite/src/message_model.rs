//! The second implementation of messages: the rule for ghosts by search over ranks and neighbours.
use crate::mesh_model::{number_at, Record, SHAPES};
use crate::model::{Answer, Pair};
use crate::part_model::{self, fits, form_faults, header, Part, Share, Tree, GHOST, HEADER, TREE};
use std::collections::BTreeSet;

/// A message, neighbours as global numbers.
#[derive(Clone, Debug)]
pub struct Message {
    pub epoch: u32,
    pub dimension: u32,
    pub trees: u32,
    pub ranks: u32,
    pub sender: u32,
    pub receiver: u32,
    pub records: Vec<Tree>,
    pub ghosts: Vec<Record>,
}

impl Message {
    pub fn encode(&self) -> Vec<u8> {
        let counts = [self.records.len() as u32, self.ghosts.len() as u32];
        let [sender, receiver] = [self.sender, self.receiver];
        let words = [self.epoch, self.dimension, self.trees, self.ranks, sender, receiver, counts[0], counts[1]];
        let trees = self.records.iter().flat_map(|tree| tree.encode());
        let ghosts = self.ghosts.iter().flat_map(|ghost| ghost.core());
        header(words).into_iter().chain(trees).chain(ghosts).collect()
    }

    /// The message in layout, 11 where it isn't.
    pub fn decode(bytes: &[u8]) -> Answer<Message> {
        if !faults(bytes).is_empty() {
            return Err(11);
        }
        let word = |at: usize| number_at(bytes, 4 * at);
        let (records, ghosts) = bytes[HEADER..].split_at(TREE * word(6) as usize);
        Ok(Message {
            epoch: word(0),
            dimension: word(1),
            trees: word(2),
            ranks: word(3),
            sender: word(4),
            receiver: word(5),
            records: records.chunks(TREE).map(Tree::decode).collect(),
            ghosts: ghosts.chunks(GHOST).map(Record::decode).collect(),
        })
    }
}

// ---- layout

/// The sentence of the layout that a message breaks.
#[derive(Clone, Copy, Debug, PartialEq, Eq, PartialOrd, Ord)]
pub enum Fault {
    /// dimension 2 or 3
    Dimension,
    /// exact length
    Length,
    /// in form
    Form(part_model::Fault),
    /// shapes of the dimension
    OtherDimension,
    /// neighbours of used faces below the message's K
    Neighbour,
    /// trees strictly ascending
    Order,
    /// ghosts strictly ascending
    GhostOrder,
}

/// Every sentence that the message breaks: none where it is in layout. Records are read only where the length fits.
pub fn faults(bytes: &[u8]) -> BTreeSet<Fault> {
    if bytes.len() < HEADER {
        return BTreeSet::from([Fault::Length]);
    }
    let mut faults = BTreeSet::new();
    let word = |at: usize| number_at(bytes, 4 * at);
    let (dimension, trees) = (word(1), word(2));
    if dimension != 2 && dimension != 3 {
        faults.insert(Fault::Dimension);
    }
    let length = HEADER as u128 + TREE as u128 * u128::from(word(6)) + GHOST as u128 * u128::from(word(7));
    if bytes.len() as u128 != length {
        faults.insert(Fault::Length);
        return faults;
    }
    let (records, ghosts) = bytes[HEADER..].split_at(TREE * word(6) as usize);
    let records: Vec<Record> = records.chunks(TREE).map(Record::decode).collect();
    let ghosts: Vec<Record> = ghosts.chunks(GHOST).map(Record::decode).collect();
    for record in records.iter().chain(&ghosts) {
        faults.extend(form_faults(record, record.number).into_iter().map(Fault::Form));
        if record.shape <= 5 && SHAPES[record.shape as usize].0 != dimension {
            faults.insert(Fault::OtherDimension);
        }
        if record.met().iter().any(|&neighbour| neighbour >= trees) {
            faults.insert(Fault::Neighbour);
        }
    }
    let ascending = |records: &[Record]| records.windows(2).all(|two| two[0].number < two[1].number);
    if !ascending(&records) {
        faults.insert(Fault::Order);
    }
    if !ascending(&ghosts) {
        faults.insert(Fault::GhostOrder);
    }
    faults
}

pub fn check_message(bytes: &[u8]) -> u32 {
    if faults(bytes).is_empty() {
        0
    } else {
        11
    }
}

// ---- building

/// The ranks that consider a ghost for q: those that send q a face neighbour of it. None where it isn't a ghost of q.
pub fn considering(pair: &Pair, ghost: &Record, q: u32) -> BTreeSet<u32> {
    if pair.new[q as usize].holds(ghost.number.into()) {
        return BTreeSet::new();
    }
    ghost.met().iter().filter_map(|&neighbour| pair.sender(neighbour, q)).collect()
}

/// p sends what it considers if it is q, or if q doesn't consider it and p is the smallest rank that does.
pub fn sends_ghost(considering: &BTreeSet<u32>, p: u32, q: u32) -> bool {
    let smallest = considering.iter().next() == Some(&p);
    considering.contains(&p) && (p == q || !considering.contains(&q) && smallest)
}

/// What one rank sends to another: 2, 3, 4, 5, 8, 9.
pub fn message_of(part: &[u8], old: &[u8], new: &[u8], [p, q]: [u32; 2], epoch: u32) -> Answer<Message> {
    let pair = Pair::new(old, new)?;
    if p >= pair.ranks() || q >= pair.ranks() {
        return Err(5);
    }
    let share = Share::new(old, p)?;
    if !part_model::faults(part, &share).is_empty() {
        return Err(8);
    }
    let part = Part::decode(part, &share);
    let sent = |tree: &&Tree| pair.sender(tree.record.number, q) == Some(p);
    let records: Vec<Tree> = part.trees.iter().filter(sent).cloned().collect();
    if records.is_empty() {
        return Err(9);
    }
    // p has a neighbour of the ghost, so the ghost is a tree or a ghost of p
    let held = part.trees.iter().map(|tree| &tree.record).chain(&part.ghosts);
    let mut ghosts: Vec<Record> =
        held.filter(|record| sends_ghost(&considering(&pair, record, q), p, q)).cloned().collect();
    ghosts.sort_by_key(|ghost| ghost.number);
    let (dimension, trees, ranks) = (part.dimension, share.trees, share.ranks);
    Ok(Message { epoch, dimension, trees, ranks, sender: p, receiver: q, records, ghosts })
}

/// The bytes written to a buffer of `room` bytes; none for the call that gives the length alone.
pub fn build_message(
    part: &[u8],
    old: &[u8],
    new: &[u8],
    ends: [u32; 2],
    epoch: u32,
    room: Option<usize>,
) -> Answer<Vec<u8>> {
    fits(message_of(part, old, new, ends, epoch)?.encode(), room)
}
