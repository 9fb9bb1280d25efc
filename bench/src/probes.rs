//! The trees near a probe, in a part whose trees are unit cubes.
use crate::part::{check_part, cut_part, put, quarters, HEADER, TREE};
use crate::{brick, row, times};
use std::hint::black_box;

#[repr(C)]
#[derive(Debug, PartialEq)]
struct Count {
    refusal: u32,
    count: u32,
}

extern "C" {
    fn vejgodat_trees_at_point(
        part: *const u8,
        part_len: usize,
        table: *const u8,
        table_len: usize,
        rank: u32,
        x: f32,
        y: f32,
        z: f32,
        out: *mut u32,
        out_len: usize,
    ) -> Count;
    fn vejgodat_trees_below(
        part: *const u8,
        part_len: usize,
        table: *const u8,
        table_len: usize,
        rank: u32,
        axis: u32,
        limit: f32,
        out: *mut u32,
        out_len: usize,
    ) -> Count;
}

/// Low corner, then high corner.
fn corners(record: &[u8; TREE]) -> [f32; 6] {
    let (numbers, _) = record[40..].as_chunks::<4>();
    [0, 1, 2, 3, 4, 5].map(|at| f32::from_le_bytes(numbers[at]))
}

/// The count, or the refusal. The trusting one takes a sound part with sound boxes and a long list.
fn list<const CHECKS: bool>(
    part: &[u8],
    table: &[u8],
    rank: u32,
    meets: impl Fn([f32; 6]) -> bool,
    out: &mut [u32],
) -> Result<usize, u32> {
    if CHECKS {
        match check_part(part, table, rank) {
            0 => {}
            refusal => return Err(refusal),
        }
    }
    let trees = u32::from_le_bytes(part[20..24].try_into().unwrap()) as usize;
    let (records, _) = part[HEADER..HEADER + TREE * trees].as_chunks::<TREE>();
    if CHECKS {
        let mut met = 0;
        for record in records {
            let corners = corners(record);
            if !(0..3).all(|axis| corners[axis] <= corners[3 + axis]) {
                return Err(32);
            }
            met += usize::from(meets(corners));
        }
        if out.len() < met {
            return Err(22);
        }
    }
    let mut count = 0;
    for (tree, record) in records.iter().enumerate() {
        if meets(corners(record)) {
            out[count] = tree as u32;
            count += 1;
        }
    }
    Ok(count)
}

fn probe_rows(power: u32, mesh: &[u8]) {
    let (table, rank) = (quarters(1 << power), 1);
    let mut mesh = mesh.to_vec();
    for (tree, record) in mesh[8..].chunks_mut(TREE).enumerate() {
        let low = [tree % 32, tree / 32 % 32, tree / 1_024];
        for axis in 0..3 {
            put(record, 40 + 4 * axis, (low[axis] as f32).to_bits());
            put(record, 52 + 4 * axis, ((low[axis] + 1) as f32).to_bits());
        }
    }
    let mut part = vec![0u8; 2 * mesh.len()];
    let length = cut_part::<true>(&mesh, &table, rank, &mut part).unwrap();
    let (part, table) = (&part[..length], &table[..]);
    let trees = 1 << (power - 2);
    let [mut a, mut b, mut c] = [(); 3].map(|()| vec![u32::MAX; trees + 1]);

    let at = [12.5, 20.5, (1 << (power - 10)) as f32 * 0.4];
    let inside = |corners: [f32; 6]| (0..3).all(|axis| corners[axis] <= at[axis] && at[axis] <= corners[3 + axis]);
    let library = |part: &[u8], out: &mut [u32]| unsafe {
        vejgodat_trees_at_point(
            part.as_ptr(),
            part.len(),
            table.as_ptr(),
            table.len(),
            rank,
            at[0],
            at[1],
            at[2],
            out.as_mut_ptr(),
            out.len(),
        )
    };
    let got = library(part, &mut a);
    assert_eq!(list::<false>(part, table, rank, inside, &mut b), Ok(got.count as usize));
    assert_eq!(list::<true>(part, table, rank, inside, &mut c), Ok(got.count as usize));
    assert!(got.refusal == 0 && got.count > 0 && a == b && a == c, "the same trees");
    let all = times(
        (1 << 25) >> power,
        1,
        [
            &mut || _ = black_box(library(black_box(part), &mut a)),
            &mut || _ = black_box(list::<false>(black_box(part), table, rank, inside, &mut b)),
            &mut || _ = black_box(list::<true>(black_box(part), table, rank, inside, &mut c)),
        ],
    );
    row(&format!("{} of {trees} trees at a point", got.count), Some(trees), all);

    let limit = 15.5;
    let below = |corners: [f32; 6]| corners[1] <= limit;
    let library = |part: &[u8], out: &mut [u32]| unsafe {
        vejgodat_trees_below(
            part.as_ptr(),
            part.len(),
            table.as_ptr(),
            table.len(),
            rank,
            1,
            limit,
            out.as_mut_ptr(),
            out.len(),
        )
    };
    let got = library(part, &mut a);
    assert_eq!(list::<false>(part, table, rank, below, &mut b), Ok(got.count as usize));
    assert_eq!(list::<true>(part, table, rank, below, &mut c), Ok(got.count as usize));
    assert!(got.refusal == 0 && got.count > 0 && a == b && a == c, "the same trees");
    let all = times(
        (1 << 25) >> power,
        1,
        [
            &mut || _ = black_box(library(black_box(part), &mut a)),
            &mut || _ = black_box(list::<false>(black_box(part), table, rank, below, &mut b)),
            &mut || _ = black_box(list::<true>(black_box(part), table, rank, below, &mut c)),
        ],
    );
    row(&format!("{} of {trees} trees below a limit", got.count), Some(trees), all);
}

pub fn rows() {
    for powers in [[4, 5, 5], [4, 6, 6], [6, 6, 6], [6, 7, 7]] {
        probe_rows(powers.iter().sum(), &brick(powers));
    }
}
