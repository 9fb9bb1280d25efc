//! The second implementation of assembly: an area is decoded, changed and encoded again.
use crate::mesh_model::{number_at, Record};
use crate::message_model::Message;
use crate::model::{self, Answer, Pair, MAX_RANKS};
use crate::part_model::{self, fits, form_faults, header, Part, Share, Tree, GHOST, HEADER, TREE};
use std::collections::BTreeSet;

/// How many heard words an area of so many ranks has.
pub fn words(ranks: usize) -> usize {
    if ranks <= 1_024 {
        16
    } else {
        256
    }
}

#[derive(Clone, Debug)]
pub struct Area {
    pub epoch: u32,
    pub dimension: u32,
    pub old: Vec<u8>,
    pub new: Vec<u8>,
    /// under the new table
    pub share: Share,
    pub heard: BTreeSet<u32>,
    /// the slots of the new range
    pub trees: Vec<Option<Tree>>,
    pub ghosts: Vec<Record>,
}

/// F of a dimension.
pub fn face_limit(dimension: u32) -> usize {
    if dimension == 2 {
        4
    } else {
        6
    }
}

/// Where the heard words of an area of so many ranks are.
pub fn words_at(ranks: usize) -> usize {
    HEADER + 2 * 8 * (ranks + 1)
}

/// Where its tree slots begin.
pub fn trees_at(ranks: usize) -> usize {
    words_at(ranks) + 8 * words(ranks)
}

impl Area {
    /// The number of ghost slots.
    pub fn room(&self) -> usize {
        face_limit(self.dimension) * self.trees.len()
    }

    pub fn pair(&self) -> Pair {
        Pair::new(&self.old, &self.new).expect("valid tables of the same P and K")
    }

    /// The ranks from which a tree comes.
    pub fn due(&self) -> BTreeSet<u32> {
        self.pair().receive_set(self.share.rank)
    }

    pub fn encode(&self) -> Vec<u8> {
        let Share { trees, ranks, rank, .. } = self.share;
        let ghosts = self.ghosts.len();
        assert!(ghosts <= self.room());
        let mut bytes =
            header([self.epoch, self.dimension, trees, ranks, rank, self.trees.len() as u32, ghosts as u32, 0]);
        bytes.extend(&self.old);
        bytes.extend(&self.new);
        let mut words = vec![0u64; words(ranks as usize)];
        for &sender in &self.heard {
            words[sender as usize / 64] |= 1 << (sender % 64);
        }
        bytes.extend(words.iter().flat_map(|word| word.to_le_bytes()));
        for slot in &self.trees {
            bytes.extend(slot.as_ref().map_or(vec![0; TREE], |tree| tree.encode()));
        }
        for ghost in &self.ghosts {
            bytes.extend(ghost.core());
        }
        bytes.extend(vec![0; GHOST * (self.room() - ghosts)]);
        bytes
    }
}

// ---- open

/// The fresh area: 2, 3, 4, 5.
pub fn fresh(old: &[u8], new: &[u8], rank: u32, dimension: u32, epoch: u32) -> Answer<Area> {
    let pair = Pair::new(old, new)?;
    if rank >= pair.ranks() || dimension != 2 && dimension != 3 {
        return Err(5);
    }
    let share = Share::new(new, rank)?;
    let trees = vec![None; share.count() as usize];
    let (old, new) = (old.to_vec(), new.to_vec());
    Ok(Area { epoch, dimension, old, new, share, heard: BTreeSet::new(), trees, ghosts: Vec::new() })
}

/// The bytes written to a buffer of `room` bytes; none for the call that gives the length alone.
pub fn open_area(
    old: &[u8],
    new: &[u8],
    rank: u32,
    dimension: u32,
    epoch: u32,
    room: Option<usize>,
) -> Answer<Vec<u8>> {
    fits(fresh(old, new, rank, dimension, epoch)?.encode(), room)
}

// ---- soundness

/// The sentence that an area breaks.
#[derive(Clone, Copy, Debug, PartialEq, Eq, PartialOrd, Ord)]
pub enum Fault {
    /// long enough
    Length,
    /// dimension 2 or 3
    Dimension,
    /// tables valid
    Tables,
    /// header as they say
    Header,
    /// bits set only for ranks of the receive set
    Bits,
    /// the slot of a tree due from a heard sender has a record in form
    TreeForm,
    /// with that tree's number
    TreeNumber,
    /// held ghosts are in form
    GhostForm,
    /// below K
    GhostLimit,
    /// outside the new range
    GhostRange,
    /// strictly ascending
    GhostOrder,
    /// at most F × the filled tree slots
    GhostCount,
    /// all other slots are zero: of trees
    OtherTrees,
    /// of ghosts
    OtherGhosts,
}

/// The area, or every sentence that it breaks. Tables are read only where P is within its limits, slots only where the
/// header fits the tables.
pub fn read(bytes: &[u8]) -> Result<Area, BTreeSet<Fault>> {
    let mut faults = BTreeSet::new();
    let one = |fault| Err(BTreeSet::from([fault]));
    if bytes.len() < HEADER {
        return one(Fault::Length);
    }
    let word = |at: usize| number_at(bytes, 4 * at);
    let (epoch, dimension, ranks, rank) = (word(0), word(1), word(3), word(4));
    if dimension != 2 && dimension != 3 {
        faults.insert(Fault::Dimension);
    }
    if ranks < 1 || ranks as usize > MAX_RANKS {
        faults.insert(Fault::Header);
        return Err(faults);
    }
    let table = 8 * (ranks as usize + 1);
    if bytes.len() < HEADER + 2 * table {
        faults.insert(Fault::Length);
        return Err(faults);
    }
    let (old, new) = (&bytes[HEADER..HEADER + table], &bytes[HEADER + table..HEADER + 2 * table]);
    if model::check_table(old) != 0 || model::check_table(new) != 0 {
        faults.insert(Fault::Tables);
        return Err(faults);
    }
    let share = match Share::new(new, rank) {
        Ok(share) => share,
        Err(_) => {
            faults.insert(Fault::Header);
            return Err(faults);
        }
    };
    let both_trees = Share::new(old, rank).map(|old| [old.trees, share.trees]);
    if both_trees != Ok([word(2), word(2)]) || word(5) != share.count() || word(7) != 0 {
        faults.insert(Fault::Header);
    }
    if !faults.is_empty() {
        return Err(faults);
    }

    let count = share.count() as usize;
    let ghosts_at = trees_at(ranks as usize) + TREE * count;
    let room = face_limit(dimension) * count;
    if bytes.len() < ghosts_at + GHOST * room {
        return one(Fault::Length);
    }
    let bit = |sender: u32| {
        let word = &bytes[words_at(ranks as usize) + 8 * (sender as usize / 64)..][..8];
        u64::from_le_bytes(word.try_into().unwrap()) >> (sender % 64) & 1 == 1
    };
    let heard: BTreeSet<u32> = (0..64 * words(ranks as usize) as u32).filter(|&sender| bit(sender)).collect();
    let pair = Pair::new(old, new).expect("valid tables of the same P and K");
    if !heard.is_subset(&pair.receive_set(rank)) {
        faults.insert(Fault::Bits);
    }
    let mut trees = Vec::new();
    for (at, slot) in bytes[trees_at(ranks as usize)..ghosts_at].chunks(TREE).enumerate() {
        let number = share.first() + at as u32;
        let sender = pair.sender(number, rank).expect("a tree of the new range");
        if heard.contains(&sender) {
            let tree = Tree::decode(slot);
            if !form_faults(&tree.record, tree.record.number).is_empty() {
                faults.insert(Fault::TreeForm);
            }
            if tree.record.number != number {
                faults.insert(Fault::TreeNumber);
            }
            trees.push(Some(tree));
        } else {
            if slot != [0; TREE] {
                faults.insert(Fault::OtherTrees);
            }
            trees.push(None);
        }
    }
    let slots: Vec<&[u8]> = bytes[ghosts_at..ghosts_at + GHOST * room].chunks(GHOST).collect();
    let held = word(6) as usize;
    let filled = trees.iter().flatten().count();
    if held > face_limit(dimension) * filled {
        faults.insert(Fault::GhostCount);
    }
    if held > room {
        return Err(faults);
    }
    let ghosts: Vec<Record> = slots[..held].iter().map(|slot| Record::decode(slot)).collect();
    if slots[held..].iter().any(|slot| *slot != [0; GHOST]) {
        faults.insert(Fault::OtherGhosts);
    }
    for ghost in &ghosts {
        if !form_faults(ghost, ghost.number).is_empty() {
            faults.insert(Fault::GhostForm);
        }
        if ghost.number >= share.trees {
            faults.insert(Fault::GhostLimit);
        }
        if share.holds(ghost.number) {
            faults.insert(Fault::GhostRange);
        }
    }
    if ghosts.windows(2).any(|two| two[0].number >= two[1].number) {
        faults.insert(Fault::GhostOrder);
    }
    if faults.is_empty() {
        Ok(Area { epoch, dimension, old: old.to_vec(), new: new.to_vec(), share, heard, trees, ghosts })
    } else {
        Err(faults)
    }
}

// ---- deliver, progress, close

/// The bytes of the area after the message: 10 to 18.
pub fn deliver(area: &[u8], message: &[u8]) -> Answer<Vec<u8>> {
    let mut area = read(area).map_err(|_| 10u32)?;
    let message = Message::decode(message)?;
    let [trees, ranks, rank] = [area.share.trees, area.share.ranks, area.share.rank];
    let [epoch, dimension] = [area.epoch, area.dimension];
    if [message.epoch, message.dimension, message.trees, message.ranks] != [epoch, dimension, trees, ranks] {
        return Err(12);
    }
    if message.receiver != rank {
        return Err(13);
    }
    if !area.due().contains(&message.sender) {
        return Err(14);
    }
    if area.heard.contains(&message.sender) {
        return Err(15);
    }
    let pair = area.pair();
    let range = area.share.range.first as u32..area.share.range.end as u32;
    let due: Vec<u32> = range.filter(|&k| pair.sender(k, rank) == Some(message.sender)).collect();
    if message.records.iter().map(|tree| tree.record.number).collect::<Vec<u32>>() != due {
        return Err(16);
    }
    let near: BTreeSet<u32> = message.records.iter().flat_map(|tree| tree.record.met().to_vec()).collect();
    if message.ghosts.iter().any(|ghost| area.share.holds(ghost.number) || !near.contains(&ghost.number)) {
        return Err(17);
    }
    let held: BTreeSet<u32> = area.ghosts.iter().map(|ghost| ghost.number).collect();
    if message.ghosts.iter().any(|ghost| held.contains(&ghost.number)) {
        return Err(18);
    }
    for tree in message.records {
        let slot = (tree.record.number - area.share.first()) as usize;
        area.trees[slot] = Some(tree);
    }
    area.ghosts.extend(message.ghosts);
    area.ghosts.sort_by_key(|ghost| ghost.number);
    area.heard.insert(message.sender);
    Ok(area.encode())
}

/// How many senders are heard, and how many are due: 10.
pub fn progress(area: &[u8]) -> Answer<(u32, u32)> {
    let area = read(area).map_err(|_| 10u32)?;
    Ok((area.heard.len() as u32, area.due().len() as u32))
}

/// The part written to a buffer of `room` bytes; none for the call that gives the length alone. 10, 20, 21, 22.
pub fn close_area(area: &[u8], room: Option<usize>) -> Answer<Vec<u8>> {
    let area = read(area).map_err(|_| 10u32)?;
    if area.heard != area.due() {
        return Err(20);
    }
    let trees = area.trees.into_iter().map(|slot| slot.expect("each tree is due from some sender")).collect();
    let part = Part { dimension: area.dimension, share: area.share, trees, ghosts: area.ghosts };
    let bytes = part.encode().ok_or(21u32)?;
    if !part_model::faults(&bytes, &part.share).is_empty() {
        return Err(21);
    }
    fits(bytes, room)
}
