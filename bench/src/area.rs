//! Opening an area, delivering a message, closing, and a whole repartition. The versions here trust and make no check;
//! checking.rs has those that do.
use crate::fast::{number, FACES};
use crate::library::Length;
use crate::checking::{close_checked, deliver_checked, open_checked, words};
use crate::message::{build_message, library_build, moved};
use crate::part::{cut_part, put, quarters, range, Set, GHOST, HEADER, TREE};
use crate::{bricks, floor, floor_row, now, repeats, shorter, tangle, turned, Read};
use std::cell::RefCell;
use std::hint::black_box;

extern "C" {
    fn vejgodat_open_area(
        old: *const u8,
        old_len: usize,
        new: *const u8,
        new_len: usize,
        rank: u32,
        dimension: u32,
        epoch: u32,
        out: *mut u8,
        out_len: usize,
    ) -> Length;
    fn vejgodat_deliver(area: *mut u8, area_len: usize, message: *const u8, message_len: usize) -> u32;
    fn vejgodat_close_area(area: *const u8, area_len: usize, out: *mut u8, out_len: usize) -> Length;
}

pub fn library_open([old, new]: [&[u8]; 2], rank: u32, out: &mut [u8]) -> Length {
    let (a, b) = ((old.as_ptr(), old.len()), (new.as_ptr(), new.len()));
    unsafe { vejgodat_open_area(a.0, a.1, b.0, b.1, rank, 3, 1, out.as_mut_ptr(), out.len()) }
}

pub fn library_deliver(area: &mut [u8], message: &[u8]) -> u32 {
    unsafe { vejgodat_deliver(area.as_mut_ptr(), area.len(), message.as_ptr(), message.len()) }
}

pub fn library_close(area: &[u8], out: &mut [u8]) -> Length {
    unsafe { vejgodat_close_area(area.as_ptr(), area.len(), out.as_mut_ptr(), out.len()) }
}

/// The fresh area for epoch 1 and dimension 3.
pub fn open([old, new]: [&[u8]; 2], rank: u32, out: &mut [u8]) -> usize {
    let (first, end) = range(new, rank);
    let count = end - first;
    let trees = number(new, new.len() - 8);
    let header = [1, 3, trees, old.len() as u32 / 8 - 1, rank, count, 0, 0];
    for (at, word) in header.into_iter().enumerate() {
        put(out, 4 * at, word);
    }
    let words_at = HEADER + 2 * old.len();
    out[HEADER..HEADER + old.len()].copy_from_slice(old);
    out[HEADER + old.len()..words_at].copy_from_slice(new);
    let length = words_at + 8 * words(old.len() / 8 - 1) + (TREE + 6 * GHOST) * count as usize;
    out[words_at..length].fill(0);
    length
}

/// The new table, and where heard words, tree slots and ghost slots begin.
pub fn places(area: &[u8]) -> (&[u8], usize, usize, usize) {
    let table = 8 * (number(area, 12) as usize + 1);
    let words_at = HEADER + 2 * table;
    let trees_at = words_at + 8 * words(table / 8 - 1);
    (&area[HEADER + table..words_at], words_at, trees_at, trees_at + TREE * number(area, 20) as usize)
}

/// Any message of the area that wasn't delivered yet.
pub fn deliver(area: &mut [u8], message: &[u8]) {
    let (new, words_at, trees_at, ghosts_at) = places(area);
    let (first, _) = range(new, number(area, 16));
    let (trees, ghosts) = (number(message, 24) as usize, number(message, 28) as usize);
    let (records, others) = message[HEADER..].split_at(TREE * trees);
    let slot = trees_at + TREE * (number(records, 0) - first) as usize;
    area[slot..slot + records.len()].copy_from_slice(records);
    // from the last ghost on, the larger of both goes to its place
    let held = number(area, 24) as usize;
    let others = others.as_chunks::<GHOST>().0;
    let slots = area[ghosts_at..ghosts_at + GHOST * (held + ghosts)].as_chunks_mut::<GHOST>().0;
    let (mut a, mut b) = (held, ghosts);
    while b > 0 {
        if a > 0 && number(&slots[a - 1], 0) > number(&others[b - 1], 0) {
            slots[a + b - 1] = slots[a - 1];
            a -= 1;
        } else {
            slots[a + b - 1] = others[b - 1];
            b -= 1;
        }
    }
    put(area, 24, (held + ghosts) as u32);
    let sender = number(message, 16) as usize;
    area[words_at + sender / 8] |= 1 << (sender % 8);
}

/// The part of an area with all its messages.
pub fn close(area: &[u8], out: &mut [u8]) -> usize {
    let (new, _, trees_at, ghosts_at) = places(area);
    let rank = number(area, 16);
    let (first, end) = range(new, rank);
    let count = end - first;
    let [dimension, trees, ranks, ghosts] = [4, 8, 12, 24].map(|at| number(area, at));
    for (at, word) in [dimension, trees, ranks, rank, first, count, ghosts, 0].into_iter().enumerate() {
        put(out, 4 * at, word);
    }
    let records = &area[ghosts_at..ghosts_at + GHOST * ghosts as usize];
    let mut held = Set::new(trees as usize);
    for ghost in records.as_chunks::<GHOST>().0 {
        held.insert(number(ghost, 0));
    }
    held.count();
    let out_ghosts = HEADER + TREE * count as usize;
    let slots = area[trees_at..ghosts_at].as_chunks::<TREE>().0;
    for (record, out) in slots.iter().zip(out[HEADER..out_ghosts].as_chunks_mut::<TREE>().0) {
        *out = *record;
        for face in 0..FACES[record[4] as usize] {
            let local = number(record, 8 + 4 * face).wrapping_sub(first);
            let local = if local < count { local } else { count + held.position(local.wrapping_add(first)) };
            put(out, 8 + 4 * face, local);
        }
    }
    out[out_ghosts..out_ghosts + records.len()].copy_from_slice(records);
    out_ghosts + records.len()
}

/// The shortest time of each version in nanoseconds; what it needs is made before, untimed.
pub fn times<T, const N: usize>(
    wanted: usize,
    mut prepare: impl FnMut() -> T,
    mut versions: [&mut dyn FnMut(&mut T); N],
) -> [f64; N] {
    let mut best = [f64::INFINITY; N];
    for _ in 0..repeats(wanted) {
        for (version, best) in versions.iter_mut().zip(&mut best) {
            let mut given = prepare();
            let began = now();
            version(&mut given);
            *best = shorter(*best, now() - began);
        }
    }
    best
}

/// What the checks of an area name: its tables and words, the cores of its tree slots, its ghost slots.
pub fn area_reads(area: &[u8]) -> [Read<'_>; 3] {
    let (_, _, trees_at, ghosts_at) = places(area);
    [Read::All(&area[..trees_at]), Read::Cores(&area[trees_at..ghosts_at]), Read::All(&area[ghosts_at..])]
}

/// The rows of one rank that gets trees from the rank before: `what` says which. The parts are those of that rank and its own.
pub fn rank_rows(what: &str, tables: [&[u8]; 2], rank: u32, parts: [&[u8]; 2], expected: &[u8], wanted: usize) {
    let (lower, [old, new]) = (rank - 1, tables);
    let mut messages = Vec::new();
    for (p, part) in [lower, rank].into_iter().zip(parts) {
        let mut message = vec![0; 2 * part.len()];
        let length = build_message::<false>(part, tables, [p, rank], 1, &mut message).unwrap();
        message.truncate(length);
        messages.push(message);
    }
    let count = number(expected, 20) as usize;
    let size = HEADER + 2 * old.len() + 8 * words(old.len() / 8 - 1) + (TREE + 6 * GHOST) * count;
    let mut fresh = vec![0; size];
    assert_eq!(library_open(tables, rank, &mut fresh).length as usize, size);
    let [mut a, mut b] = [(); 2].map(|()| vec![1; size]);
    assert_eq!(open(tables, rank, &mut a), size);
    assert_eq!(open_checked(tables, rank, 3, &mut b), Ok(size));
    assert!(fresh == a && fresh == b, "the same area");
    // One buffer for all: of two as large, one may lie in larger pages. It is cleared before each call, so that all begin alike.
    let area = RefCell::new(a);
    let all = times(
        4 * wanted,
        || area.borrow_mut().fill(0),
        [
            &mut |()| _ = black_box(library_open(black_box(tables), rank, &mut area.borrow_mut())),
            &mut |()| _ = black_box(open(black_box(tables), rank, &mut area.borrow_mut())),
            &mut |()| _ = black_box(open_checked(black_box(tables), rank, 3, &mut area.borrow_mut())),
            &mut |()| floor(&[Read::All(black_box(old)), Read::All(black_box(new))], &mut area.borrow_mut()),
        ],
    );
    floor_row(&format!("open an area for {what}"), Some(count), all);

    let (mut a, mut b, mut c) = (fresh.clone(), fresh.clone(), fresh.clone());
    for message in &messages {
        assert_eq!((library_deliver(&mut a, message), deliver_checked(&mut c, message)), (0, 0));
        deliver(&mut b, message);
        assert!(a == b && a == c, "the same area");
    }
    assert_eq!((library_deliver(&mut a, &messages[0]), deliver_checked(&mut c, &messages[0])), (15, 15));
    let full = a;
    // the second message, so that ghosts are merged
    let mut half = fresh.clone();
    deliver(&mut half, &messages[1]);
    let message = &messages[0][..];
    let trees = number(message, 24) as usize;
    let (own, others) = message[HEADER..].split_at(TREE * trees);
    let mut plain = vec![0; message.len()];
    let all = times(
        wanted,
        || half.clone(),
        [
            &mut |area: &mut Vec<u8>| _ = black_box(library_deliver(area, black_box(message))),
            &mut |area: &mut Vec<u8>| deliver(black_box(area), black_box(message)),
            &mut |area: &mut Vec<u8>| _ = black_box(deliver_checked(area, black_box(message))),
            &mut |area: &mut Vec<u8>| {
                floor(&area_reads(black_box(area)), &mut []);
                floor(&[Read::Cores(black_box(own)), Read::All(black_box(others))], &mut plain);
            },
        ],
    );
    floor_row(&format!("deliver {trees} for {what}, {} ghosts", number(message, 28)), Some(trees), all);

    let [mut a, mut b, mut c] = [(); 3].map(|()| vec![0; expected.len()]);
    let got = library_close(&full, &mut a);
    assert_eq!((got.refusal, got.length as usize), (0, close(&full, &mut b)));
    assert_eq!(close_checked(&full, &mut c), Ok(expected.len()));
    assert!(a == b && a == c && a == expected, "the part of the mesh");
    let full = &full[..];
    let mut plain = expected.to_vec();
    let out = RefCell::new(&mut plain);
    let all = times(
        wanted,
        || (),
        [
            &mut |()| _ = black_box(library_close(black_box(full), &mut out.borrow_mut())),
            &mut |()| _ = black_box(close(black_box(full), &mut out.borrow_mut())),
            &mut |()| _ = black_box(close_checked(black_box(full), &mut out.borrow_mut())),
            &mut |()| floor(&area_reads(black_box(full)), &mut out.borrow_mut()),
        ],
    );
    floor_row(&format!("close {what}, {} ghosts", number(expected, 24)), Some(count), all);

    // what one process does: its messages built, the area opened, two delivered, closed
    let part = parts[1];
    let ends = [[rank, rank], [rank, rank + 1]];
    let (mut area, mut other_area) = (fresh.clone(), fresh);
    let (mut message, mut other_message) = (vec![0; 2 * part.len()], vec![0; 2 * part.len()]);
    let mut whole = || {
        for ends in ends {
            assert_eq!(library_build(part, tables, ends, &mut message).refusal, 0);
        }
        assert_eq!(library_open(tables, rank, &mut area).refusal, 0);
        for message in &messages {
            assert_eq!(library_deliver(&mut area, message), 0);
        }
        assert_eq!(library_close(&area, &mut a).length as usize, expected.len());
    };
    let mut trusting = || {
        for ends in ends {
            build_message::<false>(part, tables, ends, 1, &mut other_message).unwrap();
        }
        open(tables, rank, &mut other_area);
        for message in &messages {
            deliver(&mut other_area, message);
        }
        assert_eq!(close(&other_area, &mut b), expected.len());
    };
    let (mut third_area, mut third_message) = (vec![0; size], vec![0; 2 * part.len()]);
    let mut checking = || {
        for ends in ends {
            build_message::<true>(part, tables, ends, 1, &mut third_message).unwrap();
        }
        open_checked(tables, rank, 3, &mut third_area).unwrap();
        for message in &messages {
            assert_eq!(deliver_checked(&mut third_area, message), 0);
        }
        assert_eq!(close_checked(&third_area, &mut c), Ok(expected.len()));
    };
    let all = times(wanted, || (), [&mut |()| whole(), &mut |()| trusting(), &mut |()| checking()]);
    assert!(a == b && a == c && a == expected, "the same part");
    crate::row(&format!("whole repartition of {what}"), Some(count), all);
}

/// Rank 2 of four: it keeps 57 % of its trees and gets as many new ones from rank 1, which sends the rest to itself.
fn area_rows(name: &str, power: u32, mesh: &[u8]) {
    let (old, new) = (quarters(1 << power), moved(1 << power));
    let cut = |table: &[u8], p: u32| {
        let mut part = vec![0; 2 * mesh.len()];
        let length = cut_part::<false>(mesh, table, p, &mut part).unwrap();
        part.truncate(length);
        part
    };
    let (parts, expected) = ([cut(&old, 1), cut(&old, 2)], cut(&new, 2));
    let what = format!("{} of 2^{power} {name}", number(&expected, 20));
    let wanted = ((1 << 24) >> power).max(32);
    rank_rows(&what, [&old, &new], 2, [&parts[0], &parts[1]], &expected, wanted);
}

pub fn rows() {
    for (power, mesh) in bricks() {
        area_rows("hexahedra, a brick", power, &mesh);
    }
    for power in [14, 16] {
        area_rows("tetrahedra, random links", power, &tangle(power));
    }
    area_rows("hexahedra, a brick with turned links", 16, &turned());
}
