//! Building a message.
use crate::fast::{self, check_table, number, FACES};
use crate::library::Length;
use crate::part::{check_part, cut_part, part_reads, put, quarters, range, Set, GHOST, HEADER, TREE};
use crate::{bricks, bytes_of, floor, floor_row, powers, tangle, times, turned};
use std::hint::black_box;

extern "C" {
    fn vejgodat_build_message(
        part: *const u8,
        part_len: usize,
        old: *const u8,
        old_len: usize,
        new: *const u8,
        new_len: usize,
        sender: u32,
        receiver: u32,
        epoch: u32,
        out: *mut u8,
        out_len: usize,
    ) -> Length;
}

/// The library's call.
pub fn library_build(part: &[u8], [old, new]: [&[u8]; 2], [p, q]: [u32; 2], out: &mut [u8]) -> Length {
    let (a, b) = ((old.as_ptr(), old.len()), (new.as_ptr(), new.len()));
    unsafe {
        vejgodat_build_message(part.as_ptr(), part.len(), a.0, a.1, b.0, b.1, p, q, 1, out.as_mut_ptr(), out.len())
    }
}

/// The first tree from p to q and one past the last.
fn sent(old: &[u8], new: &[u8], p: u32, q: u32) -> (u32, u32) {
    let (mut first, mut end) = range(old, p);
    let (new_first, new_end) = range(new, q);
    if first < end {
        // of two ranks a < b that have a tree, b is nearer to q exactly where a + b < 2 q
        let has_trees = |r: &u32| range(old, *r).0 < range(old, *r).1;
        if (0..p).rev().find(has_trees).is_some_and(|lower| 2 * q <= lower + p) {
            first = fast::entry(old, p as usize).unsigned_abs() as u32;
        }
        let ranks = old.len() as u32 / 8 - 1;
        if let Some(upper) = (p + 1..ranks).find(has_trees).filter(|upper| upper + p < 2 * q) {
            end = end.min(range(old, upper).0);
        }
    }
    (first.max(new_first), end.min(new_end))
}

/// Visit the ranks that send q a tree, ascending, each with its first tree and one past the last. Linear in the ranks.
pub fn senders(old: &[u8], new: &[u8], q: u32, mut visit: impl FnMut(u32, u32, u32)) {
    let (new_first, new_end) = range(new, q);
    let (mut lower, mut here): (Option<u32>, Option<u32>) = (None, None);
    let ranks = old.len() as u32 / 8 - 1;
    let with_trees = (0..ranks).filter(|&p| range(old, p).0 < range(old, p).1);
    for next in with_trees.map(Some).chain([None]) {
        if let Some(p) = here {
            let (mut first, mut end) = range(old, p);
            if lower.is_some_and(|lower| 2 * q <= lower + p) {
                first = fast::entry(old, p as usize).unsigned_abs() as u32;
            }
            if let Some(upper) = next.filter(|upper| upper + p < 2 * q) {
                end = end.min(range(old, upper).0);
            }
            let (from, to) = (first.max(new_first), end.min(new_end));
            if from < to {
                visit(p, from, to);
            }
        }
        (lower, here) = (here, next);
    }
}

/// The length written, or the refusal. The trusting one takes valid tables, a sound part, a tree and a long buffer.
pub fn build_message<const CHECKS: bool>(
    part: &[u8],
    [old, new]: [&[u8]; 2],
    [p, q]: [u32; 2],
    epoch: u32,
    out: &mut [u8],
) -> Result<usize, u32> {
    if CHECKS {
        let (a, b) = (check_table(old), check_table(new));
        if a != 0 || b != 0 {
            return Err(if a == 2 || b == 2 { 2 } else { 3 });
        }
        if old.len() != new.len() || old[old.len() - 8..] != new[new.len() - 8..] {
            return Err(4);
        }
        if p.max(q) as usize >= old.len() / 8 - 1 {
            return Err(5);
        }
        if check_part(part, old, p) != 0 {
            return Err(8);
        }
    }
    let (from, to) = sent(old, new, p, q);
    if CHECKS && from >= to {
        return Err(9);
    }
    let [trees, ranks, first, count, ghosts] = [4, 8, 16, 20, 24].map(|at| number(part, at));
    let (own, others) = part[HEADER..].split_at(TREE * count as usize);
    let (own, others) = (own.as_chunks::<TREE>().0, others.as_chunks::<GHOST>().0);
    let global = |index: u32| {
        if index < count {
            first + index
        } else {
            number(&others[(index - count) as usize], 0)
        }
    };
    let (new_first, new_end) = range(new, q);
    let new_count = new_end - new_first;
    let mut near = Set::new((count + ghosts) as usize);
    for record in &own[(from - first) as usize..(to - first) as usize] {
        for face in 0..FACES[record[4] as usize] {
            let index = number(record, 8 + 4 * face);
            if global(index).wrapping_sub(new_first) >= new_count {
                near.insert(index);
            }
        }
    }
    // q considers what is next to a tree that it keeps; a lower rank than p what is next to a tree below p's
    let (kept, kept_end) = range(old, q);
    let lowest = fast::entry(old, p as usize).unsigned_abs() as u32;
    let others_send = |tree: u32| {
        let comes = tree.wrapping_sub(new_first) < new_count;
        comes && (kept <= tree && tree < kept_end || tree < lowest)
    };
    let (mut locals, mut lower, mut higher) = (Vec::new(), Vec::new(), Vec::new());
    near.each(|index| {
        let record: &[u8] = if index < count { &own[index as usize] } else { &others[(index - count) as usize] };
        let mut neighbours = (0..FACES[record[4] as usize]).map(|face| number(record, 8 + 4 * face));
        let sends = p == q
            || !neighbours.any(|neighbour| others_send(if index < count { global(neighbour) } else { neighbour }));
        if sends {
            let list = if index < count {
                &mut locals
            } else if global(index) < first {
                &mut lower
            } else {
                &mut higher
            };
            list.push(index);
        }
    });
    let ghost_count = locals.len() + lower.len() + higher.len();
    let ghosts_at = HEADER + TREE * (to - from) as usize;
    let length = ghosts_at + GHOST * ghost_count;
    if CHECKS && out.len() < length {
        return Err(22);
    }
    let words = [epoch, number(part, 0), trees, ranks, p, q, to - from, ghost_count as u32];
    for (at, word) in words.into_iter().enumerate() {
        put(out, 4 * at, word);
    }
    let rename = |record: &mut [u8]| {
        for face in 0..FACES[record[4] as usize] {
            let neighbour = global(number(record, 8 + 4 * face));
            put(record, 8 + 4 * face, neighbour);
        }
    };
    let records = &own[(from - first) as usize..(to - first) as usize];
    for (record, out) in records.iter().zip(out[HEADER..ghosts_at].as_chunks_mut::<TREE>().0) {
        *out = *record;
        rename(out);
    }
    let all = lower.iter().chain(&locals).chain(&higher);
    for (&index, out) in all.zip(out[ghosts_at..length].as_chunks_mut::<GHOST>().0) {
        if index < count {
            *out = *own[index as usize].first_chunk().unwrap();
            rename(out);
        } else {
            *out = others[(index - count) as usize];
        }
    }
    Ok(length)
}

/// The same quarters, moved by 43 % of their trees: each rank sends so many to the next.
pub fn moved(trees: i64) -> Vec<u8> {
    let step = trees / 4 * 43 / 100;
    bytes_of([0, trees / 4 - step, trees / 2 - step, trees / 4 * 3 - step, trees].into_iter())
}

fn message_row(name: &str, power: u32, mesh: &[u8]) {
    let (old, new) = (quarters(1 << power), moved(1 << power));
    let (tables, ends) = ([&old[..], &new[..]], [1, 2]);
    let mut part = vec![0; 2 * mesh.len()];
    let length = cut_part::<false>(mesh, &old, 1, &mut part).unwrap();
    let part = &part[..length];
    let [mut a, mut b, mut c] = [(); 3].map(|()| vec![0u8; 2 * length]);
    let got = library_build(part, tables, ends, &mut a);
    assert_eq!(got.refusal, 0);
    assert_eq!(build_message::<false>(part, tables, ends, 1, &mut b), Ok(got.length as usize));
    assert_eq!(build_message::<true>(part, tables, ends, 1, &mut c), Ok(got.length as usize));
    assert!(a == b && a == c, "the same message");
    let trees = number(&a, 24) as usize;
    let name = format!("message of {trees} of 2^{power} {name}, {} ghosts", number(&a, 28));
    let mut d = vec![0; got.length as usize];
    let all = times(
        (1 << 26) >> power,
        1,
        [
            &mut || _ = black_box(library_build(black_box(part), tables, ends, &mut a)),
            &mut || _ = black_box(build_message::<false>(black_box(part), tables, ends, 1, &mut b)),
            &mut || _ = black_box(build_message::<true>(black_box(part), tables, ends, 1, &mut c)),
            &mut || floor(&part_reads(black_box(part)), &mut d),
        ],
    );
    floor_row(&name, Some(trees), all);
}

pub fn rows() {
    for (power, mesh) in bricks() {
        message_row("hexahedra, a brick", power, &mesh);
    }
    for &power in powers() {
        message_row("tetrahedra, random links", power, &tangle(power));
    }
    message_row("hexahedra, a brick with turned links", 16, &turned());
}
