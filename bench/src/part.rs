//! Cutting a part and checking one.
use crate::fast::{self, check_mesh, check_table, number, CORNERS, FACES, MAX_TREES};
use crate::library::Length;
use crate::{bricks, bytes_of, floor, floor_row, powers, tangle, times, turned, Read};
use std::hint::black_box;

extern "C" {
    fn vejgodat_cut_part(
        mesh: *const u8,
        mesh_len: usize,
        table: *const u8,
        table_len: usize,
        rank: u32,
        out: *mut u8,
        out_len: usize,
    ) -> Length;
    fn vejgodat_check_part(part: *const u8, part_len: usize, table: *const u8, table_len: usize, rank: u32) -> u32;
}

pub const HEADER: usize = 32;
pub const TREE: usize = 64;
pub const GHOST: usize = 40;

/// A set of trees, and the position of each in it.
pub struct Set {
    words: Vec<u64>,
    /// how many are in the words before
    before: Vec<u32>,
}

impl Set {
    pub fn new(trees: usize) -> Set {
        Set { words: vec![0; trees / 64 + 1], before: Vec::new() }
    }

    pub fn insert(&mut self, tree: u32) {
        self.words[tree as usize / 64] |= 1 << (tree % 64);
    }

    pub fn holds(&self, tree: u32) -> bool {
        self.words[tree as usize / 64] >> (tree % 64) & 1 == 1
    }

    /// Count them, when all are in; positions are known from then on.
    pub fn count(&mut self) -> usize {
        let mut count = 0;
        self.before = Vec::with_capacity(self.words.len());
        for word in &self.words {
            self.before.push(count);
            count += word.count_ones();
        }
        count as usize
    }

    pub fn position(&self, tree: u32) -> u32 {
        let lower = self.words[tree as usize / 64] & ((1 << (tree % 64)) - 1);
        self.before[tree as usize / 64] + lower.count_ones()
    }

    /// Visit them, ascending.
    pub fn each(&self, mut visit: impl FnMut(u32)) {
        for (at, &word) in self.words.iter().enumerate() {
            let mut word = word;
            while word != 0 {
                visit(at as u32 * 64 + word.trailing_zeros());
                word &= word - 1;
            }
        }
    }
}

pub fn put(bytes: &mut [u8], at: usize, number: u32) {
    bytes[at..at + 4].copy_from_slice(&number.to_le_bytes());
}

/// The first tree of a rank and one past its last.
pub fn range(table: &[u8], rank: u32) -> (u32, u32) {
    (fast::first(fast::entry(table, rank as usize)) as u32, fast::entry(table, rank as usize + 1).unsigned_abs() as u32)
}

/// The length written, or the refusal. The trusting one takes a sound mesh, a rank of its table and a long buffer.
pub fn cut_part<const CHECKS: bool>(mesh: &[u8], table: &[u8], rank: u32, out: &mut [u8]) -> Result<usize, u32> {
    if CHECKS {
        match check_table(table) {
            0 => {}
            refusal => return Err(refusal),
        }
        if rank as usize >= table.len() / 8 - 1 {
            return Err(5);
        }
        if check_mesh(mesh) != 0 || i64::from(number(mesh, 4)) != fast::entry(table, table.len() / 8 - 1) {
            return Err(7);
        }
    }
    let (first, end) = range(table, rank);
    let trees = number(mesh, 4);
    let count = end - first;
    let (records, _) = mesh[8..].as_chunks::<TREE>();
    let own = &records[first as usize..end as usize];
    let mut ghosts = Set::new(trees as usize);
    for record in own {
        for face in 0..FACES[record[4] as usize] {
            let neighbour = number(record, 8 + 4 * face);
            if neighbour.wrapping_sub(first) >= count {
                ghosts.insert(neighbour);
            }
        }
    }
    let ghost_count = ghosts.count();
    let ghosts_at = HEADER + TREE * own.len();
    let length = ghosts_at + GHOST * ghost_count;
    if CHECKS && out.len() < length {
        return Err(22);
    }
    let words = [number(mesh, 0), trees, table.len() as u32 / 8 - 1, rank, first, count, ghost_count as u32, 0];
    for (at, word) in words.into_iter().enumerate() {
        put(out, 4 * at, word);
    }
    for (record, out) in own.iter().zip(out[HEADER..ghosts_at].as_chunks_mut::<TREE>().0) {
        *out = *record;
        for face in 0..FACES[record[4] as usize] {
            let local = number(record, 8 + 4 * face).wrapping_sub(first);
            let local = if local < count { local } else { count + ghosts.position(local.wrapping_add(first)) };
            put(out, 8 + 4 * face, local);
        }
    }
    let mut places = out[ghosts_at..length].as_chunks_mut::<GHOST>().0.iter_mut();
    ghosts.each(|tree| *places.next().unwrap() = *records[tree as usize].first_chunk().unwrap());
    Ok(length)
}

/// Whether a face's code says that it meets `face` of a record, and that one's code the other way.
fn answered<const F: u8>(code: u8, face: usize, there: &[u8], back: u32) -> bool {
    let other = (code % F) as usize;
    number(there, 8 + 4 * other) == back && there[32 + other] == (code - code % F).wrapping_add(face as u8)
}

/// The records of a part of one dimension; header and length fit.
fn sound<const F: u8, const LOW: u32, const HIGH: u32>(part: &[u8], trees: u32, first: u32, count: u32) -> bool {
    let (own, ghosts) = part[HEADER..].split_at(TREE * count as usize);
    let (own, ghosts) = (own.as_chunks::<TREE>().0, ghosts.as_chunks::<GHOST>().0);
    let mut held = Set::new(trees as usize);
    let mut last = None;
    for ghost in ghosts {
        let tree = number(ghost, 0);
        if tree >= trees || tree.wrapping_sub(first) < count || last.map_or(false, |last| tree <= last) {
            return false;
        }
        held.insert(tree);
        last = Some(tree);
    }
    held.count();
    let form = |record: &[u8]| {
        let shape = number(record, 4);
        (LOW..=HIGH).contains(&shape)
            && record[39] < 16
            && (FACES[shape as usize]..6).all(|face| number(record, 8 + 4 * face) == u32::MAX && record[32 + face] == 0)
    };
    let corners_of = |record: &[u8], face: usize| CORNERS.get(record[4] as usize).map_or(0, |corners| corners[face]);
    for (at, record) in own.iter().enumerate() {
        if number(record, 0) != first + at as u32 || !form(record) {
            return false;
        }
        for face in 0..FACES[record[4] as usize] {
            let index = number(record, 8 + 4 * face);
            let (there, back): (&[u8], u32) = if index < count {
                (&own[index as usize], at as u32)
            } else if let Some(ghost) = ghosts.get((index - count) as usize) {
                (ghost, first + at as u32)
            } else {
                return false;
            };
            let code = record[32 + face];
            let (orientation, other) = (code / F, (code % F) as usize);
            let boundary = index == at as u32 && other == face;
            let corners = corners_of(record, face);
            let turned = if boundary { orientation != 0 } else { orientation >= corners };
            if turned || corners_of(there, other) != corners || !answered::<F>(code, face, there, back) {
                return false;
            }
        }
    }
    for (at, record) in ghosts.iter().enumerate() {
        if !form(record) {
            return false;
        }
        let own_number = number(record, 0);
        let mut met = false;
        for face in 0..FACES[record[4] as usize] {
            let neighbour = number(record, 8 + 4 * face);
            let code = record[32 + face];
            let (orientation, other) = (code / F, (code % F) as usize);
            let corners = corners_of(record, face);
            let boundary = neighbour == own_number && other == face;
            if if boundary { orientation != 0 } else { orientation >= corners } || neighbour >= trees {
                return false;
            }
            let (there, back): (&[u8], u32) = if neighbour.wrapping_sub(first) < count {
                met = true;
                (&own[(neighbour - first) as usize], count + at as u32)
            } else if held.holds(neighbour) {
                (&ghosts[held.position(neighbour) as usize], own_number)
            } else {
                continue;
            };
            if corners_of(there, other) != corners || !answered::<F>(code, face, there, back) {
                return false;
            }
        }
        if !met {
            return false;
        }
    }
    true
}

/// What is refused before the records are looked at: the table, the rank, then the part's header and length.
pub fn head_refusal(part: &[u8], table: &[u8], rank: u32) -> u32 {
    match check_table(table) {
        0 => {}
        refusal => return refusal,
    }
    let ranks = table.len() / 8 - 1;
    if rank as usize >= ranks {
        return 5;
    }
    let (first, end) = range(table, rank);
    let (trees, count) = (fast::entry(table, ranks) as u32, end - first);
    if part.len() < HEADER
        || [4, 8, 12, 16, 20, 28].map(|at| number(part, at)) != [trees, ranks as u32, rank, first, count, 0]
        || !(2..=3).contains(&number(part, 0))
    {
        return 8;
    }
    let ghosts = number(part, 24) as usize;
    8 * u32::from(part.len() != HEADER + TREE * count as usize + GHOST * ghosts)
}

pub fn check_part(part: &[u8], table: &[u8], rank: u32) -> u32 {
    let refusal = head_refusal(part, table, rank);
    if refusal != 0 {
        return refusal;
    }
    let [trees, first, count, ghosts] = [4, 16, 20, 24].map(|at| number(part, at));
    let sound = ghosts <= MAX_TREES as u32
        && match number(part, 0) {
            2 => sound::<4, 0, 1>(part, trees, first, count),
            _ => sound::<6, 2, 5>(part, trees, first, count),
        };
    if sound {
        0
    } else {
        8
    }
}

/// Four ranks; the second shares its first tree.
pub fn quarters(trees: i64) -> Vec<u8> {
    bytes_of([0, -(trees / 4), trees / 2, trees / 4 * 3, trees].into_iter())
}

fn part_rows(name: &str, power: u32, mesh: &[u8]) {
    let (table, rank) = (quarters(1 << power), 1);
    let table = &table[..];
    let library = |mesh: &[u8], out: &mut [u8]| unsafe {
        vejgodat_cut_part(mesh.as_ptr(), mesh.len(), table.as_ptr(), table.len(), rank, out.as_mut_ptr(), out.len())
    };
    let [mut a, mut b, mut c] = [(); 3].map(|()| vec![0u8; 2 * mesh.len()]);
    let got = library(mesh, &mut a);
    assert_eq!(got.refusal, 0);
    assert_eq!(cut_part::<false>(mesh, table, rank, &mut b), Ok(got.length as usize));
    assert_eq!(cut_part::<true>(mesh, table, rank, &mut c), Ok(got.length as usize));
    assert!(a == b && a == c, "the same part");
    let mut d = vec![0; got.length as usize];
    let all = times(
        (1 << 24) >> power,
        1,
        [
            &mut || _ = black_box(library(black_box(mesh), &mut a)),
            &mut || _ = black_box(cut_part::<false>(black_box(mesh), table, rank, &mut b)),
            &mut || _ = black_box(cut_part::<true>(black_box(mesh), table, rank, &mut c)),
            &mut || floor(&[Read::Cores(black_box(&mesh[8..]))], &mut d),
        ],
    );
    floor_row(&format!("cut a quarter of 2^{power} {name}"), Some(1 << power), all);

    let part = &mut a[..got.length as usize];
    let library =
        |part: &[u8]| unsafe { vejgodat_check_part(part.as_ptr(), part.len(), table.as_ptr(), table.len(), rank) };
    assert_eq!((library(part), check_part(part, table, rank)), (0, 0));
    // a region above the limit in the last ghost
    let last = part.len() - 1;
    part[last] = 16;
    assert_eq!((library(part), check_part(part, table, rank)), (8, 8));
    part[last] = 0;
    let part = &part[..];
    let [library, one, again, least] = times(
        (1 << 26) >> power,
        1,
        [
            &mut || _ = black_box(library(black_box(part))),
            &mut || _ = black_box(check_part(black_box(part), table, rank)),
            &mut || _ = black_box(check_part(black_box(part), table, rank)),
            &mut || floor(&part_reads(black_box(part)), &mut []),
        ],
    );
    // there is one version, timed twice
    let best = one.min(again);
    let name = format!("check of that part, {} ghosts", number(part, 24));
    floor_row(&name, Some(1 << (power - 2)), [library, best, best, least]);
}

/// What the checks of a part name: the cores of its trees, and its ghosts.
pub fn part_reads(part: &[u8]) -> [Read<'_>; 2] {
    let (own, ghosts) = part[HEADER..].split_at(TREE * number(part, 20) as usize);
    [Read::Cores(own), Read::All(ghosts)]
}

pub fn rows() {
    for (power, mesh) in bricks() {
        part_rows("hexahedra, a brick", power, &mesh);
    }
    for &power in powers() {
        part_rows("tetrahedra, random links", power, &tangle(power));
    }
    part_rows("hexahedra, a brick with turned links", 16, &turned());
}
