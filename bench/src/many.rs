//! Many messages under one check: a rank that sends 65,536 trees to S ranks, and one that gets them from S, beside the
//! single calls one after the other and the trusting versions.
use crate::area::{deliver, library_deliver, library_open};
use crate::fast::number;
use crate::message::{build_message, library_build};
use crate::part::cut_part;
use crate::{brick, bytes_of, now, shorter};
use std::hint::black_box;

#[repr(C)]
pub struct Many {
    pub refusal: u32,
    pub count: u32,
    pub length: u64,
}

#[repr(C)]
pub struct Count {
    pub refusal: u32,
    pub count: u32,
}

extern "C" {
    fn vejgodat_build_all(
        part: *const u8,
        part_len: usize,
        old: *const u8,
        old_len: usize,
        new: *const u8,
        new_len: usize,
        sender: u32,
        epoch: u32,
        out: *mut u8,
        out_len: usize,
    ) -> Many;
    fn vejgodat_deliver_all(
        area: *mut u8,
        area_len: usize,
        messages: *const u8,
        messages_len: usize,
        answers: *mut u32,
        answers_len: usize,
    ) -> Count;
}

pub fn build_all(part: &[u8], [old, new]: [&[u8]; 2], p: u32, out: &mut [u8]) -> Many {
    let (a, b) = ((old.as_ptr(), old.len()), (new.as_ptr(), new.len()));
    unsafe {
        vejgodat_build_all(part.as_ptr(), part.len(), a.0, a.1, b.0, b.1, p, 1, out.as_mut_ptr(), out.len())
    }
}

pub fn deliver_all(area: &mut [u8], messages: &[u8], answers: &mut [u32]) -> Count {
    unsafe {
        vejgodat_deliver_all(
            area.as_mut_ptr(),
            area.len(),
            messages.as_ptr(),
            messages.len(),
            answers.as_mut_ptr(),
            answers.len(),
        )
    }
}

/// The shortest time in nanoseconds, with something made anew before each turn.
pub fn shortest<T>(repeats: usize, make: impl Fn() -> T, mut turn: impl FnMut(&mut T)) -> f64 {
    let mut best = f64::INFINITY;
    for _ in 0..repeats {
        let mut it = make();
        let began = now();
        turn(black_box(&mut it));
        best = shorter(best, now() - began);
    }
    best
}

fn row(name: &str, [together, apart, trusting]: [f64; 3]) {
    let (ms, ratio, to_trusting) = (apart / 1e6, apart / together, together / trusting);
    println!("| {name} | {:.2} | {ms:.2} | {ratio:.1} | {to_trusting:.2} |", together / 1e6);
}

/// Of 2^17 trees the first half is on one rank and on S ranks, the rest on another: so there are ghosts.
fn many(ranks: i64, mesh: &[u8]) {
    let half = 65_536;
    let one = bytes_of((0..=ranks + 1).map(|p| match p {
        0 => 0,
        p if p <= ranks => half,
        _ => 2 * half,
    }));
    let each = bytes_of((0..=ranks + 1).map(|p| if p <= ranks { half * p / ranks } else { 2 * half }));
    let cut = |table: &[u8], rank: u32| {
        let mut part = vec![0; 2 * mesh.len()];
        let length = cut_part::<false>(mesh, table, rank, &mut part).unwrap();
        part.truncate(length);
        part
    };
    let repeats = 5;

    // from one rank to S
    let tables = [&one[..], &each[..]];
    let part = cut(&one, 0);
    let mut a = vec![0; 4 * part.len()];
    let got = build_all(&part, tables, 0, &mut a);
    assert_eq!((got.refusal, got.count as i64), (0, ranks));
    let mut b = vec![0; a.len()];
    let mut singly = |build: &dyn Fn(u32, &mut [u8]) -> usize| {
        let mut at = 0;
        for q in 0..ranks as u32 {
            at += build(q, &mut b[at..]);
        }
        assert_eq!(at, got.length as usize);
    };
    let call = |q: u32, out: &mut [u8]| library_build(&part, tables, [0, q], out).length as usize;
    let trusting = |q: u32, out: &mut [u8]| build_message::<false>(&part, tables, [0, q], 1, out).unwrap();
    let times = [
        shortest(repeats, || (), |()| _ = build_all(&part, tables, 0, &mut a)),
        shortest(if ranks > 100 { 1 } else { repeats }, || (), |()| singly(&call)),
        shortest(repeats, || (), |()| singly(&trusting)),
    ];
    assert!(a == b, "the same messages");
    row(&format!("{ranks} messages built, 65,536 of 2^17 hexahedra, a brick"), times);

    // from S ranks to one
    let tables = [&each[..], &one[..]];
    let mut messages = Vec::new();
    for p in 0..ranks as u32 {
        let part = cut(&each, p);
        let mut message = vec![0; 8 * part.len()];
        let length = build_message::<false>(&part, tables, [p, 0], 1, &mut message).unwrap();
        message.truncate(length);
        messages.push(message);
    }
    // in an order that mixes them
    let order: Vec<usize> = (0..messages.len()).map(|i| i * 7_919 % messages.len()).collect();
    let row_of: Vec<u8> = order.iter().flat_map(|&i| messages[i].clone()).collect();
    let mut fresh = vec![0; 8 * mesh.len()];
    let length = library_open(tables, 0, &mut fresh).length as usize;
    fresh.truncate(length);
    let (mut a, mut b, mut c) = (fresh.clone(), fresh.clone(), fresh.clone());
    let mut answers = vec![9; messages.len()];
    assert_eq!(deliver_all(&mut a, &row_of, &mut answers).count as usize, messages.len());
    assert!(answers.iter().all(|&answer| answer == 0));
    let singly = |area: &mut Vec<u8>| {
        for &i in &order {
            assert_eq!(library_deliver(area, &messages[i]), 0);
        }
    };
    let trusting = |area: &mut Vec<u8>| order.iter().for_each(|&i| deliver(area, &messages[i]));
    singly(&mut b);
    trusting(&mut c);
    assert!(a == b && a == c, "the same area");
    let times = [
        shortest(repeats, || fresh.clone(), |area| _ = deliver_all(area, &row_of, &mut answers)),
        shortest(if ranks > 100 { 1 } else { repeats }, || fresh.clone(), singly),
        shortest(repeats, || fresh.clone(), trusting),
    ];
    let ghosts = number(&a, 24);
    row(&format!("{ranks} messages delivered, 65,536 of 2^17 hexahedra, a brick, {ghosts} ghosts"), times);
}

pub fn rows() {
    println!();
    println!("| messages | together, ms | one call each, ms | times as fast | ratio to trusting |");
    println!("|---|---:|---:|---:|---:|");
    let mesh = brick([5, 6, 6]);
    for ranks in [1, 16, 256, 1_000] {
        many(ranks, &mesh);
    }
}
