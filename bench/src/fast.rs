//! Fast versions of the calls. With CHECKS they make the library's checks; without, they trust their input: tables are
//! valid and alike, leaf counts and lengths within their limits, buffers long enough.

pub const MAX_TREES: i64 = 1_048_576;
const MAX_LEAVES: u32 = 16_777_216;

pub fn entry(table: &[u8], p: usize) -> i64 {
    i64::from_le_bytes(table[8 * p..8 * p + 8].try_into().unwrap())
}

fn entries(table: &[u8]) -> impl Iterator<Item = i64> + '_ {
    table.chunks_exact(8).map(|piece| i64::from_le_bytes(piece.try_into().unwrap()))
}

/// O[p] or -O[p] - 1.
pub fn first(entry: i64) -> i64 {
    entry ^ (entry >> 63)
}

pub fn check_table(table: &[u8]) -> u32 {
    if table.len() % 8 != 0 || table.len() < 16 || table.len() > 131_080 {
        return 2;
    }
    let trees = entry(table, table.len() / 8 - 1);
    if entry(table, 0) != 0 || !(1..=MAX_TREES).contains(&trees) {
        return 3;
    }
    let mut sound = true;
    let mut last = 0;
    for next in entries(&table[8..]) {
        sound &= -trees <= next && next <= trees;
        sound &= next.wrapping_abs().wrapping_sub(first(last)) >= i64::from(last < 0);
        last = next;
    }
    if sound {
        0
    } else {
        3
    }
}

/// The length written, or the refusal.
pub fn table_from_leaves<const CHECKS: bool>(ranks: u32, leaves: &[u32], out: &mut [u8]) -> Result<usize, u32> {
    let length = 8 * (ranks as usize + 1);
    if CHECKS {
        if !(1..=16_384).contains(&ranks) {
            return Err(2);
        }
        if leaves.is_empty() || leaves.len() > MAX_TREES as usize {
            return Err(6);
        }
        if leaves.iter().fold(false, |bad, &count| bad | (count.wrapping_sub(1) >= MAX_LEAVES)) {
            return Err(6);
        }
        if out.len() < length {
            return Err(22);
        }
    }
    let total: u64 = leaves.iter().map(|&count| u64::from(count)).sum();
    let ranks = u64::from(ranks);
    let mut cut = 0;
    // trees that begin below the cut, and the leaves in them
    let (mut trees, mut before) = (0i64, 0u64);
    let mut counts = leaves.iter();
    for (p, place) in out[..length].chunks_exact_mut(8).enumerate() {
        while before < cut {
            let Some(&count) = counts.next() else { break };
            before += u64::from(count);
            trees += 1;
        }
        let next = (total * (p as u64 + 1)).div_ceil(ranks);
        let shared = before != cut && next != cut && (p as u64) < ranks;
        place.copy_from_slice(&(if shared { -trees } else { trees }).to_le_bytes());
        cut = next;
    }
    Ok(length)
}

/// Visit the ranks to which p sends, ascending.
fn receivers(old: &[u8], new: &[u8], p: usize, mut visit: impl FnMut(u32)) {
    let (start, end) = (first(entry(old, p)), entry(old, p + 1).abs());
    if start == end {
        return;
    }
    // of two ranks a < b that have a tree, b is nearer to q exactly where a + b < 2 q
    let has_trees = |r: &usize| first(entry(old, *r)) < entry(old, *r + 1).abs();
    let lower = (0..p).rev().find(has_trees);
    let upper = (p + 1..old.len() / 8 - 1).find(has_trees);
    let later = entry(old, p).abs();
    let earlier = upper.map_or(end, |n| end.min(first(entry(old, n))));
    let to_lower = lower.map_or(0, |m| (m + p) / 2 + 1);
    let to_upper = upper.map_or(usize::MAX, |n| (n + p) / 2 + 1);
    let mut here = 0;
    for (q, next) in entries(&new[8..]).enumerate() {
        let from = if q < to_lower { later } else { start };
        let to = if q < to_upper { end } else { earlier };
        if from.max(first(here)) < to.min(next.abs()) {
            visit(q as u32);
        }
        here = next;
    }
}

/// The number of ranks in the set, or the refusal.
pub fn send_set<const CHECKS: bool>(old: &[u8], new: &[u8], rank: u32, out: &mut [u32]) -> Result<usize, u32> {
    if CHECKS {
        let (a, b) = (check_table(old), check_table(new));
        if a != 0 || b != 0 {
            return Err(if a == 2 || b == 2 { 2 } else { 3 });
        }
        if old.len() != new.len() || old[old.len() - 8..] != new[new.len() - 8..] {
            return Err(4);
        }
        if rank as usize >= old.len() / 8 - 1 {
            return Err(5);
        }
        // a buffer of P entries is never too short
        if out.len() < old.len() / 8 - 1 {
            let mut count = 0;
            receivers(old, new, rank as usize, |_| count += 1);
            if out.len() < count {
                return Err(22);
            }
        }
    }
    let mut count = 0;
    receivers(old, new, rank as usize, |q| {
        out[count] = q;
        count += 1;
    });
    Ok(count)
}

/// The corners of each face of each shape; 0 where it has no such face.
pub const CORNERS: [[u8; 8]; 6] = [
    [2, 2, 2, 2, 0, 0, 0, 0],
    [2, 2, 2, 0, 0, 0, 0, 0],
    [4, 4, 4, 4, 4, 4, 0, 0],
    [3, 3, 3, 3, 0, 0, 0, 0],
    [4, 4, 4, 3, 3, 0, 0, 0],
    [3, 3, 3, 3, 4, 0, 0, 0],
];
pub const FACES: [usize; 6] = [4, 3, 6, 4, 5, 5];

pub fn number(bytes: &[u8], at: usize) -> u32 {
    u32::from_le_bytes(bytes[at..at + 4].try_into().unwrap())
}

/// The records of a mesh of one dimension, of which F and the shapes are known when it is compiled.
fn sound<const F: u8, const LOW: u32, const HIGH: u32>(records: &[[u8; 64]]) -> bool {
    for (k, record) in records.iter().enumerate() {
        // the shape and the zeros behind it are one number
        let shape = number(record, 4);
        if number(record, 0) != k as u32 || !(LOW..=HIGH).contains(&shape) || record[39] > 15 {
            return false;
        }
        let corners = &CORNERS[shape as usize];
        let faces = FACES[shape as usize];
        for face in 0..faces {
            let neighbour = number(record, 8 + 4 * face);
            let code = record[32 + face];
            let (orientation, other) = (code / F, (code % F) as usize);
            let Some(there) = records.get(neighbour as usize) else { return false };
            let answered = number(there, 8 + 4 * other) == k as u32
                && there[32 + other] == (orientation * F).wrapping_add(face as u8);
            let other_corners = CORNERS.get(there[4] as usize).map_or(0, |corners| corners[other]);
            let boundary = neighbour == k as u32 && other == face;
            let turned = if boundary { orientation != 0 } else { orientation >= corners[face] };
            if !answered || other_corners != corners[face] || turned {
                return false;
            }
        }
        for face in faces..6 {
            if number(record, 8 + 4 * face) != u32::MAX || record[32 + face] != 0 {
                return false;
            }
        }
    }
    true
}

pub fn check_mesh(mesh: &[u8]) -> u32 {
    let Some((header, records)) = mesh.split_first_chunk::<8>() else { return 7 };
    let (dimension, trees) = (number(header, 0), number(header, 4) as usize);
    let (records, rest) = records.as_chunks::<64>();
    if trees == 0 || trees > MAX_TREES as usize || records.len() != trees || !rest.is_empty() {
        return 7;
    }
    let sound = match dimension {
        2 => sound::<4, 0, 1>(records),
        3 => sound::<6, 2, 5>(records),
        _ => false,
    };
    if sound {
        0
    } else {
        7
    }
}
