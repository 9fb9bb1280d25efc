//! The whole machine in one process: every rank builds its messages, gets those for it in random order, and closes. What
//! the ranks then have is compared with the cut. Without the suite: bench/src/bin/scale.rs.
use crate::library::Length;

const HEADER: usize = 32;
const TREE: usize = 64;
const GHOST: usize = 40;

#[repr(C)]
struct Many {
    refusal: u32,
    count: u32,
    length: u64,
}

#[repr(C)]
struct Count {
    refusal: u32,
    count: u32,
}

extern "C" {
    fn vejgodat_cut_part(
        mesh: *const u8,
        mesh_len: usize,
        table: *const u8,
        table_len: usize,
        rank: u32,
        out: *mut u8,
        out_len: usize,
    ) -> Length;
    fn vejgodat_build_all_length(
        part: *const u8,
        part_len: usize,
        old: *const u8,
        old_len: usize,
        new: *const u8,
        new_len: usize,
        sender: u32,
    ) -> Many;
    fn vejgodat_build_all(
        part: *const u8,
        part_len: usize,
        old: *const u8,
        old_len: usize,
        new: *const u8,
        new_len: usize,
        sender: u32,
        epoch: u32,
        out: *mut u8,
        out_len: usize,
    ) -> Many;
    fn vejgodat_area_length(
        old: *const u8,
        old_len: usize,
        new: *const u8,
        new_len: usize,
        rank: u32,
        dimension: u32,
    ) -> Length;
    fn vejgodat_open_area(
        old: *const u8,
        old_len: usize,
        new: *const u8,
        new_len: usize,
        rank: u32,
        dimension: u32,
        epoch: u32,
        out: *mut u8,
        out_len: usize,
    ) -> Length;
    fn vejgodat_deliver_all(
        area: *mut u8,
        area_len: usize,
        messages: *const u8,
        messages_len: usize,
        answers: *mut u32,
        answers_len: usize,
    ) -> Count;
    fn vejgodat_close_area(area: *const u8, area_len: usize, out: *mut u8, out_len: usize) -> Length;
    fn clock_gettime(clock: i32, time: *mut [i64; 2]) -> i32;
}

/// The nanoseconds that this thread had a processor (Linux on x86-64).
fn now() -> f64 {
    let mut time = [0; 2];
    assert_eq!(unsafe { clock_gettime(3, &mut time) }, 0, "clock_gettime");
    time[0] as f64 * 1e9 + time[1] as f64
}

/// Random numbers below a bound.
pub fn random(seed: u64) -> impl FnMut(usize) -> usize {
    let mut state = seed;
    move |n| {
        state = state.wrapping_mul(6_364_136_223_846_793_005).wrapping_add(1_442_695_040_888_963_407);
        ((u128::from(state) * n as u128) >> 64) as usize
    }
}

fn shuffled(n: usize, below: &mut impl FnMut(usize) -> usize) -> Vec<usize> {
    let mut all: Vec<usize> = (0..n).collect();
    for at in (1..n).rev() {
        all.swap(at, below(at + 1));
    }
    all
}

fn word(bytes: &[u8], at: usize) -> u32 {
    u32::from_le_bytes([bytes[at], bytes[at + 1], bytes[at + 2], bytes[at + 3]])
}

// ---- meshes

#[derive(Clone, Copy, PartialEq, Eq)]
pub enum Links {
    /// hexahedra in rows, rows in layers
    Brick,
    /// tetrahedra whose faces meet at random
    Random,
}

/// A mesh of 2^power trees, each with data of its own.
pub fn mesh(links: Links, power: u32) -> Vec<u8> {
    let (trees, mut below) = (1usize << power, random(2_026));
    let sizes = [1usize << (power / 3), 1 << ((power + 1) / 3), 1 << ((power + 2) / 3)];
    let steps = [1, sizes[0], sizes[0] * sizes[1]];
    let (shape, faces) = if links == Links::Brick { (2, 6) } else { (3, 4) };
    // of each face the neighbour, its face and the orientation
    let mut all = vec![(0, 0, 0u8); trees * faces];
    if links == Links::Brick {
        for (at, link) in all.iter_mut().enumerate() {
            let (k, face) = (at / 6, at % 6);
            let (step, place) = (steps[face / 2], k / steps[face / 2] % sizes[face / 2]);
            *link = match face % 2 {
                0 if place > 0 => (k - step, face + 1, 0),
                1 if place < sizes[face / 2] - 1 => (k + step, face - 1, 0),
                _ => (k, face, 0),
            };
        }
    } else {
        for pair in shuffled(trees * faces, &mut below).chunks(2) {
            let orientation = below(3) as u8;
            all[pair[0]] = (pair[1] / faces, pair[1] % faces, orientation);
            all[pair[1]] = (pair[0] / faces, pair[0] % faces, orientation);
        }
    }
    let mut mesh = [3u32.to_le_bytes(), (trees as u32).to_le_bytes()].concat();
    for (k, links) in all.chunks(faces).enumerate() {
        let mut record = [0u8; TREE];
        record[..4].copy_from_slice(&(k as u32).to_le_bytes());
        record[4] = shape;
        record[8..32].fill(255);
        for (face, &(neighbour, other, orientation)) in links.iter().enumerate() {
            record[8 + 4 * face..12 + 4 * face].copy_from_slice(&(neighbour as u32).to_le_bytes());
            record[32 + face] = orientation * 6 + other as u8;
        }
        record[GHOST..].iter_mut().for_each(|byte| *byte = below(256) as u8);
        mesh.extend(record);
    }
    mesh
}

/// The numbers across the faces of a record.
fn neighbours(record: &[u8]) -> impl Iterator<Item = u32> + '_ {
    (0..if record[4] == 2 { 6 } else { 4 }).map(move |face| word(record, 8 + 4 * face))
}

// ---- tables

/// The old table and the new one: the same number of trees on each rank, then each rank p sends 43 % of its trees to p + 1
/// (document 000, section 5.2). Every third rank shares its first tree with the rank before, in both.
pub fn tables(ranks: usize, trees: usize) -> [Vec<i64>; 2] {
    let share = trees / ranks;
    [0, share * 43 / 100].map(|moved| {
        let entry = |p: usize| match p {
            0 => 0,
            _ if p == ranks => trees as i64,
            _ if p % 3 == 1 => -((p * share - moved) as i64),
            _ => (p * share - moved) as i64,
        };
        (0..=ranks).map(entry).collect()
    })
}

/// The first tree of a rank and one past its last.
fn range(table: &[i64], rank: usize) -> (usize, usize) {
    let first = if table[rank] < 0 { -table[rank] - 1 } else { table[rank] };
    (first as usize, table[rank + 1].unsigned_abs() as usize)
}

fn bytes_of(table: &[i64]) -> Vec<u8> {
    table.iter().flat_map(|entry| entry.to_le_bytes()).collect()
}

// ---- the cut

/// The ghosts of a range of trees, ascending.
fn ghosts_of(mesh: &[u8], (first, end): (usize, usize)) -> Vec<u32> {
    let own = &mesh[8 + TREE * first..8 + TREE * end];
    let outside = |&tree: &u32| (tree as usize) < first || end <= tree as usize;
    let mut ghosts: Vec<u32> = own.chunks(TREE).flat_map(neighbours).filter(outside).collect();
    ghosts.sort_unstable();
    ghosts.dedup();
    ghosts
}

/// The part of a rank.
fn part_of(mesh: &[u8], table: &[i64], rank: usize) -> Vec<u8> {
    let (first, end) = range(table, rank);
    let ghosts = ghosts_of(mesh, (first, end));
    let ranks = table.len() - 1;
    let words = [word(mesh, 0), word(mesh, 4), ranks as u32, rank as u32, first as u32, (end - first) as u32];
    let mut part: Vec<u8> = words.iter().flat_map(|word| word.to_le_bytes()).collect();
    part.extend((ghosts.len() as u64).to_le_bytes());
    part.extend(&mesh[8 + TREE * first..8 + TREE * end]);
    for record in part[HEADER..].chunks_mut(TREE) {
        for face in 0..if record[4] == 2 { 6 } else { 4 } {
            let tree = word(record, 8 + 4 * face);
            let local = match ghosts.binary_search(&tree) {
                Ok(place) => end - first + place,
                Err(_) => tree as usize - first,
            };
            record[8 + 4 * face..12 + 4 * face].copy_from_slice(&(local as u32).to_le_bytes());
        }
    }
    for &ghost in &ghosts {
        let at = 8 + TREE * ghost as usize;
        part.extend(&mesh[at..at + GHOST]);
    }
    part
}

/// The bytes of every tree and ghost of a rank's new part that its old part lacks.
fn lacking(mesh: &[u8], [old, new]: [&[i64]; 2], rank: usize) -> u64 {
    let (had, has) = (range(old, rank), range(new, rank));
    let held = |tree: usize| had.0 <= tree && tree < had.1;
    let known = ghosts_of(mesh, had);
    let trees = (has.0..has.1).filter(|&tree| !held(tree)).count() as u64;
    let ghosts = ghosts_of(mesh, has);
    let lacks = ghosts.iter().filter(|&ghost| !held(*ghost as usize) && known.binary_search(ghost).is_err());
    TREE as u64 * trees + GHOST as u64 * lacks.count() as u64
}

// ---- one repartition of all ranks

/// The first n bytes of a buffer that is used again and again, so that its pages are there already.
fn room(buffer: &mut Vec<u8>, n: usize) -> &mut [u8] {
    if buffer.len() < n {
        buffer.resize(n, 0);
    }
    &mut buffer[..n]
}

/// What all ranks took together. Bytes and messages are those to other ranks.
#[derive(Clone, Default)]
pub struct Sums {
    pub calls: u64,
    /// nanoseconds
    pub build: f64,
    pub deliver: f64,
    pub close: f64,
    pub messages: u64,
    pub bytes: u64,
    /// ranks that lack something, and the bytes of what they lack
    pub least_messages: u64,
    pub least_bytes: u64,
    pub largest_area: usize,
    pub largest_part: usize,
}

/// Repartition a mesh over so many ranks. Every part is compared with this file's cut, and that with the library's on as
/// many ranks as `cuts` says.
pub fn repartition(mesh: &[u8], ranks: usize, cuts: usize, seed: u64) -> Sums {
    let trees = word(mesh, 4) as usize;
    let [old, new] = tables(ranks, trees);
    let (a, b) = (bytes_of(&old), bytes_of(&new));
    let mut below = random(seed);
    let mut sums = Sums::default();
    let [mut messages, mut area, mut part] = [Vec::new(), Vec::new(), Vec::new()];

    // each rank builds, in random order: of each receiver the messages in the order in which they were sent
    let mut sent: Vec<Vec<Vec<u8>>> = vec![Vec::new(); ranks];
    for p in shuffled(ranks, &mut below) {
        let part = part_of(mesh, &old, p);
        sums.largest_part = sums.largest_part.max(part.len());
        let began = now();
        let length = unsafe {
            vejgodat_build_all_length(part.as_ptr(), part.len(), a.as_ptr(), a.len(), b.as_ptr(), b.len(), p as u32)
        };
        sums.build += now() - began;
        assert_eq!(length.refusal, 0, "build_all_length of rank {p}");
        let row = room(&mut messages, length.length as usize);
        let began = now();
        let built = unsafe {
            let (from, to) = ((part.as_ptr(), part.len()), (row.as_mut_ptr(), row.len()));
            vejgodat_build_all(from.0, from.1, a.as_ptr(), a.len(), b.as_ptr(), b.len(), p as u32, 1, to.0, to.1)
        };
        sums.build += now() - began;
        assert_eq!(
            (built.refusal, built.count, built.length),
            (0, length.count, length.length),
            "build_all of rank {p}"
        );
        let mut rest = &*row;
        while !rest.is_empty() {
            let size = HEADER + TREE * word(rest, 24) as usize + GHOST * word(rest, 28) as usize;
            let receiver = word(rest, 20) as usize;
            sent[receiver].push(rest[..size].to_vec());
            if receiver != p {
                sums.messages += 1;
                sums.bytes += size as u64;
            }
            rest = &rest[size..];
        }
        sums.calls += 2;
    }

    // each rank gets them, and closes
    for q in shuffled(ranks, &mut below) {
        let order = shuffled(sent[q].len(), &mut below);
        let row: Vec<u8> = order.iter().flat_map(|&i| sent[q][i].iter().copied()).collect();
        let (rank, count) = (q as u32, sent[q].len());
        sent[q].clear();
        let length = unsafe { vejgodat_area_length(a.as_ptr(), a.len(), b.as_ptr(), b.len(), rank, 3) };
        assert_eq!(length.refusal, 0, "area_length of rank {q}");
        let area = room(&mut area, length.length as usize);
        sums.largest_area = sums.largest_area.max(area.len());
        let mut answers = vec![9; count];
        let began = now();
        let (opened, got) = unsafe {
            let to = (area.as_mut_ptr(), area.len());
            (
                vejgodat_open_area(a.as_ptr(), a.len(), b.as_ptr(), b.len(), rank, 3, 1, to.0, to.1),
                vejgodat_deliver_all(to.0, to.1, row.as_ptr(), row.len(), answers.as_mut_ptr(), count),
            )
        };
        sums.deliver += now() - began;
        assert_eq!((opened.refusal, got.refusal, got.count as usize), (0, 0, count), "deliver_all to rank {q}");
        assert!(answers.iter().all(|&answer| answer == 0), "answers to rank {q}");
        let part = room(&mut part, HEADER + TREE * word(area, 20) as usize + GHOST * word(area, 24) as usize);
        let began = now();
        let closed = unsafe { vejgodat_close_area(area.as_ptr(), area.len(), part.as_mut_ptr(), part.len()) };
        sums.close += now() - began;
        assert_eq!((closed.refusal, closed.length as usize), (0, part.len()), "close_area of rank {q}");
        let cut = part_of(mesh, &new, q);
        assert!(*part == *cut, "the part of rank {q}");
        sums.largest_part = sums.largest_part.max(part.len());
        sums.calls += 4;
        if q * cuts % ranks < cuts {
            let cut = unsafe {
                let to = (part.as_mut_ptr(), part.len());
                vejgodat_cut_part(mesh.as_ptr(), mesh.len(), b.as_ptr(), b.len(), rank, to.0, to.1)
            };
            assert_eq!((cut.refusal, cut.length as usize), (0, part.len()), "cut_part of rank {q}");
            assert!(*part == *part_of(mesh, &new, q), "the cut of rank {q}");
            sums.calls += 1;
        }
        let bytes = lacking(mesh, [&old, &new], q);
        sums.least_bytes += bytes;
        sums.least_messages += u64::from(bytes > 0);
    }
    sums
}
