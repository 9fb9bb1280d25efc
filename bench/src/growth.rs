//! Calls for all messages over the number of ranks and messages: what grows, and in which order of the ghosts.
use crate::area::library_open;
use crate::many::{build_all, deliver_all, shortest};
use crate::part::cut_part;
use crate::{brick, bytes_of, mesh_of, quick, random};

const TREES: usize = 9;
const GHOSTS: usize = 6 * TREES;

/// Rank 0 sends one of 2^20 trees to all of P ranks, which share it.
fn one_tree(mesh: &[u8], ranks: i64) {
    let trees = 1 << 20;
    let old = bytes_of((0..=ranks).map(|p| p.min(1) + if p == ranks { trees - 1 } else { 0 }));
    let new = bytes_of((0..=ranks).map(|p| if p == ranks { trees } else { -p.min(1) }));
    let mut part = vec![0; 1 << 12];
    let length = cut_part::<false>(mesh, &old, 0, &mut part).unwrap();
    part.truncate(length);
    let mut out = vec![0; 1 << 23];
    let got = build_all(&part, [&old, &new], 0, &mut out);
    assert_eq!((got.refusal, i64::from(got.count)), (0, ranks));
    let time = shortest(3, || (), |()| _ = build_all(&part, [&old, &new], 0, &mut out));
    row(&format!("one of 2^20 trees to {ranks} ranks"), got.count as usize, got.length as usize, time);
}

fn row(name: &str, messages: usize, bytes: usize, time: f64) {
    println!("| {name} | {:.2} | {:.2} | {:.2} |", time / 1e6, time / 1e3 / messages as f64, time / bytes as f64);
}

/// Messages of nine hexahedra each, all with 54 ghosts of their own, to rank 0: the numbers of the ghosts rise or fall with
/// the senders.
fn ghosts(messages: usize, falling: bool) -> ([Vec<u8>; 2], Vec<Vec<u8>>) {
    let (trees, ghosts) = (TREES * messages, GHOSTS * messages);
    let ghost = |at: usize| trees + if falling { ghosts - 1 - at } else { at };
    let links: Vec<Vec<_>> = (0..trees + ghosts)
        .map(|k| {
            (0..6)
                .map(|face| match k.checked_sub(trees) {
                    None => (ghost(6 * k + face), 0, 0),
                    Some(at) if face == 0 => {
                        let at = if falling { ghosts - 1 - at } else { at };
                        (at / 6, at % 6, 0)
                    }
                    Some(_) => (k, face, 0),
                })
                .collect()
        })
        .collect();
    let mesh = mesh_of(2, &links);
    let (ranks, all) = (messages as i64 + 1, (trees + ghosts) as i64);
    let old = bytes_of((0..=ranks).map(|p| if p == ranks { all } else { TREES as i64 * p }));
    let new = bytes_of((0..=ranks).map(|p| match p {
        0 => 0,
        _ if p == ranks => all,
        _ => trees as i64,
    }));
    let record = |k: usize, size: usize| &mesh[8 + 64 * k..8 + 64 * k + size];
    let message = |p: usize| {
        let header = [1, 3, all as u32, ranks as u32, p as u32, 0, TREES as u32, GHOSTS as u32];
        let mut bytes: Vec<u8> = header.into_iter().flat_map(u32::to_le_bytes).collect();
        (TREES * p..TREES * (p + 1)).for_each(|k| bytes.extend(record(k, 64)));
        let mut numbers: Vec<usize> = (GHOSTS * p..GHOSTS * (p + 1)).map(ghost).collect();
        numbers.sort_unstable();
        numbers.into_iter().for_each(|k| bytes.extend(record(k, 40)));
        bytes
    };
    ([old, new], (0..messages).map(message).collect())
}

fn delivered(name: &str, messages: usize, falling: bool, mixed: bool) {
    let ([old, new], mut all) = ghosts(messages, falling);
    if mixed {
        let mut below = random();
        (1..messages).rev().for_each(|at| all.swap(at, below(at + 1)));
    }
    let row_of = all.concat();
    let mut fresh = vec![0; 512 * TREES * messages + 16 * messages + (1 << 16)];
    let length = library_open([&old, &new], 0, &mut fresh).length as usize;
    fresh.truncate(length);
    let mut answers = vec![9; messages];
    let mut deliver = |area: &mut Vec<u8>| {
        let got = deliver_all(area, &row_of, &mut answers);
        assert_eq!((got.refusal, got.count as usize), (0, messages));
        assert!(answers.iter().all(|&answer| answer == 0));
    };
    let repeats = if messages < 2_048 { 5 } else { 1 };
    let time = shortest(repeats, || fresh.clone(), &mut deliver);
    let ghosts = GHOSTS * messages;
    row(&format!("{messages} messages with {ghosts} ghosts, {name}"), messages, row_of.len() + fresh.len(), time);
}

pub fn rows() {
    println!();
    println!("| messages | ms | µs a message | ns a byte |");
    println!("|---|---:|---:|---:|");
    let mesh = brick([6, 7, 7]);
    for ranks in [1_024, 4_096, 16_384] {
        one_tree(&mesh, ranks);
    }
    let sizes: &[usize] = if quick() { &[1_023] } else { &[1_023, 4_095, 16_383] };
    for &messages in sizes {
        delivered("ascending", messages, false, false);
        delivered("in random order", messages, false, true);
        delivered("descending", messages, true, false);
    }
}
