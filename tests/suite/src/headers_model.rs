//! The second implementation of the first wrong field of a header: every wrong field is gathered with what is due and
//! what stands there, and the least is the answer.
use crate::mesh_model::number_at;
use crate::model::MAX_TREES;
use crate::part_model::{Share, GHOST, HEADER, TREE};
use std::collections::BTreeMap;

#[repr(C)]
#[derive(Clone, Copy, Debug, Default, PartialEq, Eq)]
pub struct WrongField {
    pub refusal: u32,
    pub field: u32,
    pub due: u64,
    pub found: u64,
}

/// What is due and what stands there, of each wrong field.
type Wrong = BTreeMap<u32, (u64, u64)>;

fn least(wrong: &Wrong) -> WrongField {
    wrong.first_key_value().map_or(WrongField::default(), |(&field, &(due, found))| WrongField {
        refusal: 0,
        field,
        due,
        found,
    })
}

/// The dimension is the first number of either header.
fn dimension(bytes: &[u8], wrong: &mut Wrong) {
    let dimension = number_at(bytes, 0);
    if dimension != 2 && dimension != 3 {
        wrong.insert(2, (0, dimension.into()));
    }
}

/// 2, 3, 5, or the first wrong field.
pub fn part_header(part: &[u8], table: &[u8], rank: u32) -> WrongField {
    let share = match Share::new(table, rank) {
        Err(refusal) => return WrongField { refusal, ..WrongField::default() },
        Ok(share) => share,
    };
    let length = part.len() as u64;
    let mut wrong = Wrong::new();
    if part.len() < HEADER {
        wrong.insert(1, (HEADER as u64, length));
        return least(&wrong);
    }
    dimension(part, &mut wrong);
    // field, place and due of the numbers that table and rank give
    for (field, at, due) in [
        (3, 4, share.trees),
        (4, 8, share.ranks),
        (5, 12, rank),
        (6, 16, share.first()),
        (7, 20, share.count()),
        (8, 28, 0),
    ] {
        let found = number_at(part, at);
        if found != due {
            wrong.insert(field, (due.into(), found.into()));
        }
    }
    let size =
        HEADER as u64 + TREE as u64 * u64::from(number_at(part, 20)) + GHOST as u64 * u64::from(number_at(part, 24));
    if length != size {
        wrong.insert(9, (size, length));
    }
    least(&wrong)
}

pub fn mesh_header(mesh: &[u8]) -> WrongField {
    let length = mesh.len() as u64;
    let mut wrong = Wrong::new();
    if length < 8 {
        wrong.insert(1, (8, length));
        return least(&wrong);
    }
    dimension(mesh, &mut wrong);
    let trees = u64::from(number_at(mesh, 4));
    if !(1..=MAX_TREES as u64).contains(&trees) {
        wrong.insert(3, (0, trees));
    }
    if length != 8 + 64 * trees {
        wrong.insert(9, (8 + 64 * trees, length));
    }
    least(&wrong)
}
