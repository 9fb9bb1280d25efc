//! Prints ratios of times: the library's over those of fast Rust versions, same buffers, same run, the minimum of many
//! repeats taken in turn. Every answer is compared first.
mod fast;
#[path = "../../tests/suite/src/library.rs"]
#[allow(dead_code)]
mod library;

use std::hint::black_box;

/// Declares the modules of further rows, and prints these in order.
macro_rules! groups {
    ($($group:ident)*) => {
        $(mod $group;)*

        fn group_rows() {
            $(if wanted(stringify!($group)) { $group::rows(); })*
        }
    };
}

/// Whether a group of rows is wanted: all are where none is named.
fn wanted(group: &str) -> bool {
    let mut names = std::env::args().skip(1).filter(|word| !word.starts_with("--")).peekable();
    names.peek().is_none() || names.any(|name| name == group)
}

mod checking;

groups! {
    bricks
    part
    probes
    message
    triangles
    area
    fixed
    ranks
    faults
    columns
    many
    growth
}

const RANKS: i64 = 1_024;

extern "C" {
    fn clock_gettime(clock: i32, time: *mut [i64; 2]) -> i32;
}

/// The nanoseconds that this thread had a processor (Linux on x86-64): a long call is interrupted where others work.
fn now() -> f64 {
    let mut time = [0; 2];
    assert_eq!(unsafe { clock_gettime(3, &mut time) }, 0, "clock_gettime");
    time[0] as f64 * 1e9 + time[1] as f64
}

/// Whether only the smaller meshes are wanted, with fewer repeats: `bench/run --quick`.
pub fn quick() -> bool {
    std::env::args().any(|word| word == "--quick")
}

/// The repeats of a row, fewer where it is to be quick.
pub fn repeats(wanted: usize) -> usize {
    if quick() {
        (wanted / 32).max(3)
    } else {
        wanted
    }
}

/// The shorter of two times; the clock of a virtual machine may stand still, which is no time.
fn shorter(best: f64, time: f64) -> f64 {
    if time > 0.0 {
        best.min(time)
    } else {
        best
    }
}

/// The shortest time of one call in nanoseconds, of each version, taken in turn.
fn times<const N: usize>(wanted: usize, calls: usize, mut versions: [&mut dyn FnMut(); N]) -> [f64; N] {
    let mut best = [f64::INFINITY; N];
    for _ in 0..repeats(wanted) {
        for (version, best) in versions.iter_mut().zip(&mut best) {
            let began = now();
            for _ in 0..calls {
                version();
            }
            *best = shorter(*best, (now() - began) / calls as f64);
        }
    }
    best
}

/// What is read for the floor: all bytes, or the 40 core bytes of each tree record.
pub enum Read<'a> {
    All(&'a [u8]),
    Cores(&'a [u8]),
}

/// The floor: every byte that the checks name read once by wide loads, every byte of the answer written once.
fn floor(reads: &[Read], out: &mut [u8]) {
    let words = |bytes: &[u8]| bytes.as_chunks::<8>().0.iter().fold(0, |all, word| all ^ u64::from_le_bytes(*word));
    let mut all = 0;
    for read in reads {
        all ^= match read {
            Read::All(bytes) => words(bytes),
            Read::Cores(bytes) => bytes.as_chunks::<64>().0.iter().fold(0, |all, record| all ^ words(&record[..40])),
        };
    }
    black_box(out).fill(black_box(all) as u8 & 1);
}

fn print_row(name: &str, trees: Option<usize>, [library, trusting, checking]: [f64; 3], floor: Option<f64>) {
    let each = trees.map_or(String::new(), |trees| format!("{:.3}", library / trees as f64));
    let (to_trusting, to_checking) = (library / trusting, library / checking);
    let to_floor = floor.map_or(String::new(), |floor| format!("{:.1}", library / floor));
    println!("| {name} | {:.2} | {each} | {to_trusting:.2} | {to_checking:.2} | {to_floor} |", library / 1_000.0);
}

fn row(name: &str, trees: Option<usize>, all: [f64; 3]) {
    print_row(name, trees, all, None);
}

fn floor_row(name: &str, trees: Option<usize>, [library, trusting, checking, floor]: [f64; 4]) {
    print_row(name, trees, [library, trusting, checking], Some(floor));
}

fn bytes_of(entries: impl Iterator<Item = i64>) -> Vec<u8> {
    entries.flat_map(|entry| entry.to_le_bytes()).collect()
}

/// A table of the largest mesh: uneven shares, every third rank sharing its first tree.
fn large_table(ranks: i64, shift: i64) -> Vec<u8> {
    let share = (1 << 20) / ranks;
    bytes_of((0..=ranks).map(|p| {
        let inside = p > 0 && p < ranks;
        let cut = p * share + if inside { (p * 37 + shift) % (share * 800 / 1_024) } else { 0 };
        if inside && p % 3 == 1 {
            -cut
        } else {
            cut
        }
    }))
}

fn table_check(ranks: i64) {
    let table = large_table(ranks, 0);
    let library = |table: &[u8]| unsafe { library::vejgodat_check_table(table.as_ptr(), table.len()) };
    assert_eq!((library(&table), fast::check_table(&table)), (0, 0));
    let table = &table[..];
    let all = times(
        5_000 * 1_024 / ranks as usize,
        20,
        [
            &mut || _ = black_box(library(black_box(table))),
            &mut || _ = black_box(fast::check_table(black_box(table))),
            &mut || _ = black_box(fast::check_table(black_box(table))),
            &mut || floor(&[Read::All(black_box(table))], &mut []),
        ],
    );
    floor_row(&format!("table check, P = {ranks}"), None, all);
}

fn from_leaves(power: u32) {
    let trees = 1usize << power;
    let leaves: Vec<u32> = (0..trees as u32).map(|k| 1 + k.wrapping_mul(2_654_435_761) % 1_000).collect();
    let leaves = &leaves[..];
    let library = |leaves: &[u32], out: &mut [u8]| unsafe {
        let ranks = RANKS as u32;
        library::vejgodat_table_from_leaves(ranks, leaves.as_ptr(), leaves.len(), out.as_mut_ptr(), out.len())
    };
    let [mut a, mut b, mut c] = [(); 3].map(|()| vec![0u8; 8 * (RANKS as usize + 1)]);
    assert_eq!(library(leaves, &mut a).refusal, 0);
    assert_eq!(fast::table_from_leaves::<false>(RANKS as u32, leaves, &mut b), Ok(a.len()));
    assert_eq!(fast::table_from_leaves::<true>(RANKS as u32, leaves, &mut c), Ok(a.len()));
    assert!(a == b && a == c, "the same table");
    let bytes: Vec<u8> = leaves.iter().flat_map(|count| count.to_le_bytes()).collect();
    let mut d = a.clone();
    let all = times(
        (1 << 28) / trees,
        1,
        [
            &mut || _ = black_box(library(black_box(leaves), &mut a)),
            &mut || _ = black_box(fast::table_from_leaves::<false>(RANKS as u32, black_box(leaves), &mut b)),
            &mut || _ = black_box(fast::table_from_leaves::<true>(RANKS as u32, black_box(leaves), &mut c)),
            &mut || floor(&[Read::All(black_box(&bytes))], &mut d),
        ],
    );
    floor_row(&format!("table from 2^{power} leaf counts, P = 1,024"), Some(trees), all);
}

fn send_set(name: &str, old: &[u8], new: &[u8], rank: u32) {
    let library = |old: &[u8], new: &[u8], out: &mut [u32]| unsafe {
        let (a, b) = ((old.as_ptr(), old.len()), (new.as_ptr(), new.len()));
        library::vejgodat_send_set(a.0, a.1, b.0, b.1, rank, out.as_mut_ptr(), out.len())
    };
    let ranks = old.len() / 8 - 1;
    let [mut a, mut b, mut c] = [(); 3].map(|()| vec![u32::MAX; ranks]);
    let got = library(old, new, &mut a);
    assert_eq!(got.refusal, 0);
    assert_eq!(fast::send_set::<false>(old, new, rank, &mut b), Ok(got.count as usize));
    assert_eq!(fast::send_set::<true>(old, new, rank, &mut c), Ok(got.count as usize));
    assert!(a == b && a == c, "the same set");
    let mut d = vec![0; 4 * got.count as usize];
    let all = times(
        5_000 * 1_024 / ranks,
        10,
        [
            &mut || _ = black_box(library(black_box(old), black_box(new), &mut a)),
            &mut || _ = black_box(fast::send_set::<false>(black_box(old), black_box(new), rank, &mut b)),
            &mut || _ = black_box(fast::send_set::<true>(black_box(old), black_box(new), rank, &mut c)),
            &mut || floor(&[Read::All(black_box(old)), Read::All(black_box(new))], &mut d),
        ],
    );
    floor_row(&format!("send set of {} ranks, P = {ranks}, {name}", got.count), None, all);
}

/// A mesh of trees of one shape, with the link of each face: neighbour, its face, orientation.
fn mesh_of(shape: u8, links: &[Vec<(usize, usize, u8)>]) -> Vec<u8> {
    let mut mesh = [3u32.to_le_bytes(), (links.len() as u32).to_le_bytes()].concat();
    for (k, links) in links.iter().enumerate() {
        let mut record = [0u8; 64];
        record[..4].copy_from_slice(&(k as u32).to_le_bytes());
        record[4] = shape;
        record[8..32].fill(255);
        for (face, &(neighbour, other, orientation)) in links.iter().enumerate() {
            record[8 + 4 * face..12 + 4 * face].copy_from_slice(&(neighbour as u32).to_le_bytes());
            record[32 + face] = orientation * 6 + other as u8;
        }
        mesh.extend(record);
    }
    mesh
}

/// Hexahedra in rows, rows in layers: what lies outside is the boundary.
fn brick(powers: [u32; 3]) -> Vec<u8> {
    let sizes = powers.map(|power| 1usize << power);
    let steps = [1, sizes[0], sizes[0] * sizes[1]];
    let links = |k: usize| {
        (0..6).map(move |face: usize| {
            let (step, at) = (steps[face / 2], k / steps[face / 2] % sizes[face / 2]);
            match face % 2 {
                0 if at > 0 => (k - step, face + 1, 0),
                1 if at < sizes[face / 2] - 1 => (k + step, face - 1, 0),
                _ => (k, face, 0),
            }
        })
    };
    mesh_of(2, &(0..sizes.iter().product()).map(|k| links(k).collect()).collect::<Vec<_>>())
}

/// Random numbers below a bound.
fn random() -> impl FnMut(usize) -> usize {
    let mut state = 2_026u64;
    move |n| {
        state = state.wrapping_mul(6_364_136_223_846_793_005).wrapping_add(1_442_695_040_888_963_407);
        ((u128::from(state) * n as u128) >> 64) as usize
    }
}

/// 2^16 hexahedra of a brick, each turned as it may: its links have random orientations.
fn turned() -> Vec<u8> {
    let mut mesh = brick([4, 6, 6]);
    let mut below = random();
    let code = |tree: usize, face: usize| 8 + 64 * tree + 32 + face;
    for tree in 0..1 << 16 {
        for face in 0..6 {
            let other = fast::number(&mesh, 8 + 64 * tree + 8 + 4 * face) as usize;
            if tree < other {
                let there = usize::from(mesh[code(tree, face)]);
                let turn = 6 * below(4);
                mesh[code(tree, face)] = (turn + there) as u8;
                mesh[code(other, there)] = (turn + face) as u8;
            }
        }
    }
    mesh
}

/// Tetrahedra whose faces meet at random, with random orientations: the neighbours lie anywhere in the buffer.
fn tangle(power: u32) -> Vec<u8> {
    let mut below = random();
    let mut ends: Vec<usize> = (0..4 << power).collect();
    for at in (1..ends.len()).rev() {
        ends.swap(at, below(at + 1));
    }
    let mut links = vec![vec![(0, 0, 0); 4]; 1 << power];
    for pair in ends.chunks(2) {
        let orientation = below(3) as u8;
        for (from, to) in [(pair[0], pair[1]), (pair[1], pair[0])] {
            links[from / 4][from % 4] = (to / 4, to % 4, orientation);
        }
    }
    mesh_of(3, &links)
}

fn mesh_check(name: &str, power: u32, mut mesh: Vec<u8>) {
    let library = |mesh: &[u8]| unsafe { library::vejgodat_check_mesh(mesh.as_ptr(), mesh.len()) };
    assert_eq!((library(&mesh), fast::check_mesh(&mesh)), (0, 0));
    // another code of the last face
    let last = mesh.len() - 64 + if mesh[12] == 2 { 37 } else { 35 };
    mesh[last] ^= 6;
    assert_eq!((library(&mesh), fast::check_mesh(&mesh)), (7, 7));
    mesh[last] ^= 6;
    let mesh = &mesh[..];
    let all = times(
        (1 << 25) >> power,
        1,
        [
            &mut || _ = black_box(library(black_box(mesh))),
            &mut || _ = black_box(fast::check_mesh(black_box(mesh))),
            &mut || _ = black_box(fast::check_mesh(black_box(mesh))),
            &mut || floor(&[Read::Cores(black_box(&mesh[8..]))], &mut []),
        ],
    );
    // there is one version, timed twice
    let [library, one, again, least] = all;
    let best = one.min(again);
    floor_row(&format!("check of a mesh of 2^{power} {name}"), Some(1 << power), [library, best, best, least]);
}

/// The powers of two of the meshes' sizes.
fn powers() -> &'static [u32] {
    if quick() {
        &[14, 16]
    } else {
        &[14, 16, 18, 20]
    }
}

/// The bricks, each with the power of two of its size.
fn bricks() -> impl Iterator<Item = (u32, Vec<u8>)> {
    let all = [[4, 5, 5], [4, 6, 6], [6, 6, 6], [6, 7, 7]];
    all.into_iter().take(powers().len()).map(|powers| (powers.iter().sum(), brick(powers)))
}

fn main() {
    println!("| call | library, µs | ns per tree | ratio to trusting | ratio to checking | ratio to the floor |");
    println!("|---|---:|---:|---:|---:|---:|");
    if wanted("tables") {
        for ranks in [RANKS, 16_384] {
            table_check(ranks);
        }
        for &power in powers() {
            from_leaves(power);
        }
        // shares that move a little; all trees from one rank to all
        for ranks in [RANKS, 16_384] {
            send_set("a middle rank", &large_table(ranks, 0), &large_table(ranks, 400), ranks as u32 / 2);
            let on_first = bytes_of((0..=ranks).map(|p| if p == 0 { 0 } else { 1 << 20 }));
            send_set("rank 0 had all", &on_first, &large_table(ranks, 0), 0);
        }
        for (power, mesh) in bricks() {
            mesh_check("hexahedra, a brick", power, mesh);
        }
        for &power in powers() {
            mesh_check("tetrahedra, random links", power, tangle(power));
        }
        mesh_check("hexahedra, a brick with turned links", 16, turned());
    }
    group_rows();
}
