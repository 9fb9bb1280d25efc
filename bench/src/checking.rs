//! Checking versions of the calls on areas: they make the library's checks and leave the buffers as they were when they
//! refuse.
use crate::area::{close, deliver, open, places};
use crate::fast::{check_table, number, CORNERS, FACES, MAX_TREES};
use crate::message::senders;
use crate::part::{range, Set, GHOST, HEADER, TREE};

fn long(bytes: &[u8], at: usize) -> u64 {
    u64::from_le_bytes(bytes[at..at + 8].try_into().unwrap())
}

/// The refusal of two tables (2, 3, 4), or 0.
fn check_tables(old: &[u8], new: &[u8]) -> u32 {
    let (a, b) = (check_table(old), check_table(new));
    if a != 0 || b != 0 {
        return if a == 2 || b == 2 { 2 } else { 3 };
    }
    if old.len() != new.len() || old[old.len() - 8..] != new[new.len() - 8..] {
        return 4;
    }
    0
}

pub fn open_checked(tables: [&[u8]; 2], rank: u32, dimension: u32, out: &mut [u8]) -> Result<usize, u32> {
    let refusal = check_tables(tables[0], tables[1]);
    if refusal != 0 {
        return Err(refusal);
    }
    let ranks = tables[0].len() / 8 - 1;
    if rank as usize >= ranks || !(2..=3).contains(&dimension) {
        return Err(5);
    }
    let (first, end) = range(tables[1], rank);
    let slots = TREE + if dimension == 2 { 4 } else { 6 } * GHOST;
    if out.len() < HEADER + 2 * tables[0].len() + 8 * words(ranks) + slots * (end - first) as usize {
        return Err(22);
    }
    Ok(open(tables, rank, out))
}

/// The number of words of heard senders.
pub fn words(ranks: usize) -> usize {
    if ranks <= 1_024 {
        16
    } else {
        256
    }
}

/// A record in form, by F of its own shape; its own number stands in it.
fn in_form(record: &[u8]) -> bool {
    let shape = number(record, 4) as usize;
    if shape > 5 || record[39] > 15 {
        return false;
    }
    let faces = FACES[shape];
    let whole = if shape < 2 { 4 } else { 6 };
    let own = number(record, 0);
    (0..faces).all(|face| {
        let code = record[32 + face];
        number(record, 8 + 4 * face) != own || code % whole != face as u8 || code < whole
    }) && (faces..6).all(|face| number(record, 8 + 4 * face) == u32::MAX && record[32 + face] == 0)
}

fn zero(bytes: &[u8]) -> bool {
    let (words, rest) = bytes.as_chunks::<8>();
    words.iter().fold(0, |all, word| all | u64::from_le_bytes(*word)) == 0 && rest.iter().all(|&byte| byte == 0)
}

/// Whether an area is sound (10); its length is looked at first.
fn area_sound(area: &[u8]) -> bool {
    if area.len() < HEADER {
        return false;
    }
    let [dimension, trees, ranks, rank, count, ghosts] = [4, 8, 12, 16, 20, 24].map(|at| number(area, at));
    let table = 8 * (ranks as usize + 1);
    if !(2..=3).contains(&dimension) || number(area, 28) != 0 || !(1..=16_384).contains(&ranks) || rank >= ranks {
        return false;
    }
    if count > MAX_TREES as u32 || area.len() < HEADER + 2 * table {
        return false;
    }
    let (old, new) = (&area[HEADER..HEADER + table], &area[HEADER + table..HEADER + 2 * table]);
    if check_tables(old, new) != 0 || long(new, table - 8) != u64::from(trees) {
        return false;
    }
    let (first, end) = range(new, rank);
    let faces = if dimension == 2 { 4 } else { 6 };
    let (_, words_at, trees_at, ghosts_at) = places(area);
    let length = ghosts_at + faces * GHOST * count as usize;
    if end - first != count || area.len() < length {
        return false;
    }
    // one step for each rank: the slots of what it sends are filled where it is heard, else zero
    let slots = area[trees_at..ghosts_at].as_chunks::<TREE>().0;
    let mut filled = 0;
    let mut sound = true;
    senders(old, new, rank, |sender, from, to| {
        let heard = area[words_at + sender as usize / 8] >> (sender % 8) & 1 == 1;
        let range = (from - first) as usize..(to - first) as usize;
        if heard {
            filled += range.len();
            for (slot, k) in slots[range].iter().zip(from..) {
                sound &= number(slot, 0) == k && in_form(slot);
            }
        } else {
            sound &= zero(slots[range].as_flattened());
        }
    });
    if !sound {
        return false;
    }
    // no bit of another rank
    let mut due = vec![0u64; (trees_at - words_at) / 8];
    senders(old, new, rank, |sender, _, _| due[sender as usize / 64] |= 1 << (sender % 64));
    if due.iter().enumerate().any(|(at, &due)| long(area, words_at + 8 * at) & !due != 0) {
        return false;
    }
    if ghosts as usize > faces * filled {
        return false;
    }
    let (held, rest) = area[ghosts_at..length].split_at(GHOST * ghosts as usize);
    let mut last = None;
    for ghost in held.as_chunks::<GHOST>().0 {
        let k = number(ghost, 0);
        if k >= trees || k.wrapping_sub(first) < count || last.is_some_and(|last| k <= last) || !in_form(ghost) {
            return false;
        }
        last = Some(k);
    }
    zero(rest)
}

/// Whether a message is in layout (11).
fn in_layout(message: &[u8]) -> bool {
    if message.len() < HEADER {
        return false;
    }
    let [dimension, trees, count, ghosts] = [4, 8, 24, 28].map(|at| number(message, at));
    let length = HEADER as u64 + TREE as u64 * u64::from(count) + GHOST as u64 * u64::from(ghosts);
    if !(2..=3).contains(&dimension) || message.len() as u64 != length {
        return false;
    }
    let shapes = if dimension == 2 { 0..=1 } else { 2..=5 };
    let (own, others) = message[HEADER..].split_at(TREE * count as usize);
    let fits = |record: &[u8], last: &mut Option<u32>| {
        let k = number(record, 0);
        let ascends = last.is_none_or(|last| k > last);
        *last = Some(k);
        ascends
            && in_form(record)
            && shapes.contains(&record[4])
            && (0..FACES[record[4] as usize]).all(|face| number(record, 8 + 4 * face) < trees)
    };
    let (mut last, mut last_ghost) = (None, None);
    own.as_chunks::<TREE>().0.iter().all(|record| fits(record, &mut last))
        && others.as_chunks::<GHOST>().0.iter().all(|record| fits(record, &mut last_ghost))
}

pub fn deliver_checked(area: &mut [u8], message: &[u8]) -> u32 {
    if !area_sound(area) {
        return 10;
    }
    if !in_layout(message) {
        return 11;
    }
    if [0, 4, 8, 12].iter().any(|&at| number(area, at) != number(message, at)) {
        return 12;
    }
    let rank = number(area, 16);
    if number(message, 20) != rank {
        return 13;
    }
    let (new, words_at, _, ghosts_at) = places(area);
    let old = &area[HEADER..HEADER + new.len()];
    let sender = number(message, 16);
    let mut due = None;
    senders(old, new, rank, |p, from, to| {
        if p == sender {
            due = Some((from, to));
        }
    });
    let Some((from, to)) = due else { return 14 };
    if area[words_at + sender as usize / 8] >> (sender % 8) & 1 == 1 {
        return 15;
    }
    let (own, others) = message[HEADER..].split_at(TREE * number(message, 24) as usize);
    let (own, others) = (own.as_chunks::<TREE>().0, others.as_chunks::<GHOST>().0);
    if own.len() != (to - from) as usize || number(&own[0], 0) != from || number(&own[own.len() - 1], 0) != to - 1 {
        return 16;
    }
    let (first, end) = range(new, rank);
    let trees = number(area, 8);
    let mut near = Set::new(trees as usize);
    for record in own {
        for face in 0..FACES[record[4] as usize] {
            near.insert(number(record, 8 + 4 * face));
        }
    }
    for ghost in others {
        let k = number(ghost, 0);
        if k >= trees || k.wrapping_sub(first) < end - first || !near.holds(k) {
            return 17;
        }
    }
    let mut held = Set::new(trees as usize);
    for ghost in area[ghosts_at..ghosts_at + GHOST * number(area, 24) as usize].as_chunks::<GHOST>().0 {
        held.insert(number(ghost, 0));
    }
    if others.iter().any(|ghost| held.holds(number(ghost, 0))) {
        return 18;
    }
    deliver(area, message);
    0
}

/// Whether the part that closing would write is sound (21): the slots' neighbours are global numbers.
fn joined_sound<const F: u8, const LOW: u8, const HIGH: u8>(area: &[u8]) -> bool {
    let (new, _, trees_at, ghosts_at) = places(area);
    let (first, end) = range(new, number(area, 16));
    let (trees, count) = (number(area, 8), end - first);
    let own = area[trees_at..ghosts_at].as_chunks::<TREE>().0;
    let ghosts = area[ghosts_at..ghosts_at + GHOST * number(area, 24) as usize].as_chunks::<GHOST>().0;
    let mut held = Set::new(trees as usize);
    for ghost in ghosts {
        held.insert(number(ghost, 0));
    }
    held.count();
    let find = |k: u32| -> Option<&[u8]> {
        if k.wrapping_sub(first) < count {
            Some(&own[(k - first) as usize])
        } else if k < trees && held.holds(k) {
            Some(&ghosts[held.position(k) as usize])
        } else {
            None
        }
    };
    let corners = |record: &[u8], face: usize| CORNERS.get(record[4] as usize).map_or(0, |corners| corners[face]);
    let links = |record: &[u8], tree: bool| {
        let mut met = tree;
        let sound = (LOW..=HIGH).contains(&record[4])
            && (0..FACES[record[4] as usize]).all(|face| {
                let (k, code) = (number(record, 8 + 4 * face), record[32 + face]);
                let (orientation, other) = (code / F, (code % F) as usize);
                met |= k.wrapping_sub(first) < count;
                if orientation >= corners(record, face) {
                    return false;
                }
                let Some(there) = find(k) else { return !tree && k < trees };
                corners(there, other) == corners(record, face)
                    && number(there, 8 + 4 * other) == number(record, 0)
                    && there[32 + other] == (orientation * F).wrapping_add(face as u8)
            });
        sound && met
    };
    own.iter().all(|record| links(record, true)) && ghosts.iter().all(|record| links(record, false))
}

pub fn close_checked(area: &[u8], out: &mut [u8]) -> Result<usize, u32> {
    if !area_sound(area) {
        return Err(10);
    }
    let (new, words_at, trees_at, _) = places(area);
    let (mut due, mut heard) = (0, 0);
    senders(&area[HEADER..HEADER + new.len()], new, number(area, 16), |_, _, _| due += 1);
    for at in (words_at..trees_at).step_by(8) {
        heard += long(area, at).count_ones();
    }
    if heard < due {
        return Err(20);
    }
    let sound = match number(area, 4) {
        2 => joined_sound::<4, 0, 1>(area),
        _ => joined_sound::<6, 2, 5>(area),
    };
    if !sound {
        return Err(21);
    }
    if out.len() < HEADER + TREE * number(area, 20) as usize + GHOST * number(area, 24) as usize {
        return Err(22);
    }
    Ok(close(area, out))
}
