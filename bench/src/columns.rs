//! Parts stored by columns, and back.
use crate::library::Length;
use crate::part::{check_part, quarters, GHOST, HEADER, TREE};
use crate::{brick, bytes_of, row, tangle, times};
use std::hint::black_box;

type Turn = unsafe extern "C" fn(*const u8, usize, *const u8, usize, u32, *mut u8, usize) -> Length;

extern "C" {
    fn vejgodat_part_to_columns(
        part: *const u8,
        part_len: usize,
        table: *const u8,
        table_len: usize,
        rank: u32,
        out: *mut u8,
        out_len: usize,
    ) -> Length;
    fn vejgodat_columns_to_part(
        columns: *const u8,
        columns_len: usize,
        table: *const u8,
        table_len: usize,
        rank: u32,
        out: *mut u8,
        out_len: usize,
    ) -> Length;
    fn vejgodat_check_part(part: *const u8, part_len: usize, table: *const u8, table_len: usize, rank: u32) -> u32;
    fn vejgodat_cut_part(
        mesh: *const u8,
        mesh_len: usize,
        table: *const u8,
        table_len: usize,
        rank: u32,
        out: *mut u8,
        out_len: usize,
    ) -> Length;
}

fn call(turn: Turn, bytes: &[u8], table: &[u8], rank: u32, out: &mut [u8]) -> Length {
    let (a, b) = (bytes.as_ptr(), table.as_ptr());
    unsafe { turn(a, bytes.len(), b, table.len(), rank, out.as_mut_ptr(), out.len()) }
}

/// Records of a width to columns, or back: 64 records at a time, a column of them together.
fn turn<const WIDTH: usize, const BACK: bool>(from: &[u8], to: &mut [u8]) {
    let count = from.len() / WIDTH;
    for first in (0..count).step_by(64) {
        let last = count.min(first + 64);
        for j in 0..WIDTH {
            for i in first..last {
                let (row, column) = (WIDTH * i + j, count * j + i);
                if BACK {
                    to[row] = from[column];
                } else {
                    to[column] = from[row];
                }
            }
        }
    }
}

fn trusting<const BACK: bool>(from: &[u8], to: &mut [u8]) {
    let count = u32::from_le_bytes(from[20..24].try_into().unwrap()) as usize;
    let ghosts = HEADER + TREE * count;
    to[..HEADER].copy_from_slice(&from[..HEADER]);
    turn::<TREE, BACK>(&from[HEADER..ghosts], &mut to[HEADER..ghosts]);
    turn::<GHOST, BACK>(&from[ghosts..], &mut to[ghosts..from.len()]);
}

/// The second version of a way back that checks: it turns into its own memory and checks the part there, so that the
/// buffer stays as it was when it refuses.
fn checking(file: &[u8], table: &[u8], rank: u32, own: &mut [u8], out: &mut [u8]) -> u32 {
    trusting::<true>(file, own);
    let refusal = check_part(own, table, rank);
    if refusal == 0 {
        out.copy_from_slice(own);
    }
    refusal
}

fn column_rows(name: &str, mesh: &[u8], table: &[u8], rank: u32) {
    let mut part = vec![0u8; 2 * mesh.len()];
    let got = call(vejgodat_cut_part, mesh, table, rank, &mut part);
    assert_eq!(got.refusal, 0);
    part.truncate(got.length as usize);
    let count = u32::from_le_bytes(part[20..24].try_into().unwrap()) as usize;
    let [mut a, mut b, mut c, mut own] = [(); 4].map(|()| vec![0u8; part.len()]);
    assert_eq!(call(vejgodat_part_to_columns, &part, table, rank, &mut a).refusal, 0);
    trusting::<false>(&part, &mut b);
    assert!(a == b, "the same file");
    let file = a.clone();
    assert_eq!(call(vejgodat_columns_to_part, &file, table, rank, &mut a).refusal, 0);
    assert_eq!(checking(&file, table, rank, &mut own, &mut c), 0);
    assert!(a == part && c == part, "the same part");
    let repeats = ((1 << 24) / count).max(5);
    let all = times(
        repeats,
        1,
        [
            &mut || _ = black_box(call(vejgodat_part_to_columns, black_box(&part), table, rank, &mut a)),
            &mut || trusting::<false>(black_box(&part), &mut b),
            &mut || {
                assert_eq!(check_part(black_box(&part), table, rank), 0);
                trusting::<false>(black_box(&part), &mut c)
            },
        ],
    );
    row(&format!("{count} trees of {name} to columns"), Some(count), all);
    let there = all[0];
    let all = times(
        repeats,
        1,
        [
            &mut || _ = black_box(call(vejgodat_columns_to_part, black_box(&file), table, rank, &mut a)),
            &mut || trusting::<true>(black_box(&file), &mut b),
            &mut || assert_eq!(checking(black_box(&file), table, rank, &mut own, &mut c), 0),
        ],
    );
    row(&format!("{count} trees of {name} back"), Some(count), all);
    let back = all[0];
    let check = || unsafe { vejgodat_check_part(part.as_ptr(), part.len(), table.as_ptr(), table.len(), rank) };
    let [one, two, three] =
        times(repeats, 1, [&mut || _ = black_box(check()), &mut || _ = black_box(check()), &mut || _ = black_box(check())]);
    let check = one.min(two).min(three);
    println!(
        "| that part's check; {:.2} times it to columns, {:.2} times back | {:.2} | | | | |",
        there / check,
        back / check,
        check / 1_000.0
    );
}

pub fn rows() {
    println!("\nParts by columns, and back.\n");
    println!("| call | library, µs | ns per tree | ratio to trusting | ratio to checking | |");
    println!("|---|---:|---:|---:|---:|---:|");
    for powers in [[4, 5, 5], [6, 6, 6]] {
        let power: i64 = powers.iter().sum();
        column_rows("a brick", &brick(powers.map(|power| power as u32)), &bytes_of([0, 1 << power].into_iter()), 0);
    }
    column_rows("a brick, a quarter of it", &brick([6, 7, 7]), &quarters(1 << 20), 1);
    column_rows("random links, a quarter of them", &tangle(16), &quarters(1 << 16), 1);
}
