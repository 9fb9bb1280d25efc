//! A second implementation of document 02's refinement strings, with a list of the elements that are still to come
//! instead of recursion.
use crate::model::{Answer, MAX_LEAVES, MAX_TREES};

pub const MAX_DEPTH: u32 = 20;

/// How many children an element has; none for the shapes that have no strings.
pub fn children(shape: u32) -> Option<usize> {
    match shape {
        0 | 1 => Some(4),
        2 | 3 => Some(8),
        _ => None,
    }
}

#[derive(Clone, Copy, Debug, Default, PartialEq, Eq)]
pub struct Leaves {
    pub upright: u64,
    pub inverted: u64,
}

impl Leaves {
    pub fn all(&self) -> u64 {
        self.upright + self.inverted
    }
}

/// The leaves, if the string is one of the shape; the shape is one that has strings.
fn read(shape: u32, bits: &[u8]) -> Option<Leaves> {
    let children = children(shape).unwrap();
    // the elements to come, the next one last: depth, and whether it is inverted
    let mut to_come = vec![(0, false)];
    let mut leaves = Leaves::default();
    for &bit in bits {
        let (depth, inverted) = to_come.pop()?;
        match bit {
            0 if inverted => leaves.inverted += 1,
            0 => leaves.upright += 1,
            1 if depth < MAX_DEPTH => {
                for child in (0..children).rev() {
                    // corner 0, corner 1, the middle, corner 2
                    let turns = shape == 1 && child == 2;
                    to_come.push((depth + 1, inverted != turns));
                }
            }
            _ => return None,
        }
    }
    to_come.is_empty().then_some(leaves)
}

pub fn count_leaves(shape: u32, bits: &[u8]) -> Answer<Leaves> {
    children(shape).ok_or(24u32)?;
    let leaves = read(shape, bits).ok_or(23u32)?;
    if leaves.all() > u64::from(MAX_LEAVES) {
        return Err(25);
    }
    Ok(leaves)
}

/// The count of each tree; each check of all trees before the next.
pub fn leaf_counts(shapes: &[u32], lengths: &[u32], bits: &[u8], room: usize) -> Answer<Vec<u32>> {
    if shapes.len() != lengths.len() || shapes.is_empty() || shapes.len() > MAX_TREES {
        return Err(6);
    }
    if shapes.iter().any(|&shape| children(shape).is_none()) {
        return Err(24);
    }
    let mut rest = bits;
    let mut counts = Vec::new();
    for (&shape, &length) in shapes.iter().zip(lengths) {
        if rest.len() < length as usize {
            return Err(23);
        }
        let (string, behind) = rest.split_at(length as usize);
        counts.push(read(shape, string).ok_or(23u32)?.all());
        rest = behind;
    }
    if !rest.is_empty() {
        return Err(23);
    }
    if counts.iter().any(|&count| count > u64::from(MAX_LEAVES)) {
        return Err(25);
    }
    if room < shapes.len() {
        return Err(22);
    }
    Ok(counts.into_iter().map(|count| count as u32).collect())
}
