//! Whole meshes to try, and ways to damage them.
use crate::cases;
use crate::mesh_model::{number_at, Link, Record, SHAPES, UNUSED};
use crate::random::Random;
use std::collections::BTreeMap;

/// A face of a tree.
pub type End = (usize, usize);

/// A mesh whose faces all lie at the boundary, with the same byte throughout its tree data.
pub fn apart(shapes: &[u8], data: u8) -> Vec<u8> {
    let dimension = SHAPES[shapes[0] as usize].0;
    let mut bytes = [dimension.to_le_bytes(), (shapes.len() as u32).to_le_bytes()].concat();
    for (k, &shape) in shapes.iter().enumerate() {
        let mut record =
            Record { number: k as u32, shape, zeros: [0; 3], region: 0, neighbours: [UNUSED; 6], codes: [0; 6] };
        for face in 0..record.faces().len() {
            (record.neighbours[face], record.codes[face]) = (k as u32, face as u8);
        }
        bytes.extend(record.encode(&[data; 24]));
    }
    bytes
}

/// The place of a tree's record.
pub fn place(tree: usize) -> usize {
    8 + 64 * tree
}

pub fn trees(mesh: &[u8]) -> usize {
    (mesh.len() - 8) / 64
}

pub fn record(mesh: &[u8], tree: usize) -> Record {
    Record::decode(&mesh[place(tree)..place(tree + 1)])
}

/// Every face of every tree, with its corners.
pub fn ends(mesh: &[u8]) -> Vec<(End, u32)> {
    let of_tree = |k| record(mesh, k).faces().iter().enumerate().map(move |(face, &corners)| ((k, face), corners));
    (0..trees(mesh)).flat_map(of_tree).collect()
}

pub fn link(mesh: &[u8], (tree, face): End) -> Link {
    record(mesh, tree).link(face)
}

/// Store a link. A code is cut to its byte.
pub fn set_link(mesh: &mut [u8], (tree, face): End, link: Link) {
    let code = link.orientation * record(mesh, tree).face_limit() + link.face;
    put(mesh, place(tree) + 8 + 4 * face, link.neighbour);
    mesh[place(tree) + 32 + face] = code as u8;
}

/// Store both links of two faces that meet.
pub fn join(mesh: &mut [u8], a: End, b: End, orientation: u32) {
    for (from, to) in [(a, b), (b, a)] {
        set_link(mesh, from, Link { neighbour: to.0 as u32, face: to.1 as u32, orientation });
    }
}

pub fn put(bytes: &mut [u8], at: usize, number: u32) {
    bytes[at..at + 4].copy_from_slice(&number.to_le_bytes());
}

/// A number of trees up to some dozens, mostly small.
pub fn count(random: &mut Random) -> usize {
    random.pick(&[1, 2, 3, 4, 6, 9, 20, 60]).min(1 + random.below(60) as usize)
}

/// A sound mesh: any faces with as many corners meet with any common orientation, or lie at the boundary.
pub fn sound(random: &mut Random, trees: usize) -> Vec<u8> {
    let all: &[u8] = random.pick(&[&[0, 1][..], &[2, 3, 4, 5]]);
    let shapes: Vec<u8> = if random.chance(100) { vec![random.pick(all)] } else { all.to_vec() };
    let mut mesh = apart(&(0..trees).map(|_| random.pick(&shapes)).collect::<Vec<u8>>(), 0);
    let mut groups: BTreeMap<u32, Vec<End>> = BTreeMap::new();
    for (end, corners) in ends(&mesh) {
        groups.entry(corners).or_default().push(end);
    }
    let boundary = random.pick(&[0, 0, 20, 128, 250]);
    let turned = random.chance(200);
    let near = random.chance(80);
    for (corners, mut group) in groups {
        // near: a tree meets itself, or the next one several times
        let reach = if near { 4 } else { group.len() as u64 };
        for at in 0..group.len() {
            let other = at + random.below(reach.min((group.len() - at) as u64)) as usize;
            group.swap(at, other);
        }
        while let Some(a) = group.pop() {
            if random.chance(boundary) {
                continue;
            }
            if let Some(b) = group.pop() {
                join(&mut mesh, a, b, if turned { random.below(corners.into()) as u32 } else { 0 });
            }
        }
    }
    for tree in 0..trees {
        fill_data(random, &mut mesh, tree);
        // none, or any region, as the data happens to be
        let at = place(tree);
        if mesh[at + 42] % 2 == 1 {
            (mesh[at + 38], mesh[at + 39]) = (mesh[at + 40], mesh[at + 41] % 16);
        }
    }
    mesh
}

/// Any tree data.
pub fn fill_data(random: &mut Random, mesh: &mut [u8], tree: usize) {
    let data = random.bytes(24);
    mesh[place(tree) + 40..place(tree) + 64].copy_from_slice(&data);
}

fn any_end(random: &mut Random, mesh: &[u8]) -> End {
    let tree = random.below(trees(mesh) as u64) as usize;
    (tree, random.below(record(mesh, tree).faces().len() as u64) as usize)
}

/// A number for a neighbour: below K, near K, its own, one high bit more, or any.
fn neighbour(random: &mut Random, now: u32, trees: usize) -> u32 {
    match random.below(6) {
        0 | 1 => random.below(trees as u64) as u32,
        2 => (trees as u32).wrapping_add(random.number(0, 2)).wrapping_sub(1),
        3 => now ^ 1 << random.below(32),
        4 => UNUSED,
        _ => cases::number(random),
    }
}

/// One field of a sound mesh becomes another number, mostly one that is near.
pub fn one_field(random: &mut Random, mesh: &[u8]) -> Vec<u8> {
    let mut mesh = mesh.to_vec();
    let k = trees(&mesh);
    let (tree, face) = any_end(random, &mesh);
    let at = place(tree);
    let limit = record(&mesh, tree).face_limit() as u8;
    match random.below(12) {
        0 => {
            let dimension = if random.chance(128) { random.number(0, 5) } else { cases::number(random) };
            put(&mut mesh, 0, dimension);
        }
        1 => {
            let trees = neighbour(random, k as u32, k);
            put(&mut mesh, 4, trees);
        }
        2 => {
            let number = neighbour(random, tree as u32, k);
            put(&mut mesh, at, number);
        }
        3 | 4 => mesh[at + 4] = if random.chance(200) { random.below(8) as u8 } else { random.next() as u8 },
        5 => mesh[at + random.pick(&[5, 6, 7, 38, 39])] = random.pick(&[0, 1, 15, 16, 255]),
        // faces that the shape doesn't have as well
        6 => {
            let face = random.below(6) as usize;
            let number = neighbour(random, number_at(&mesh, at + 8 + 4 * face), k);
            put(&mut mesh, at + 8 + 4 * face, number);
        }
        7 => mesh[at + 32 + random.below(6) as usize] = random.next() as u8,
        8 => {
            let number = neighbour(random, link(&mesh, (tree, face)).neighbour, k);
            put(&mut mesh, at + 8 + 4 * face, number);
        }
        9 => {
            mesh[at + 32 + face] =
                mesh[at + 32 + face].wrapping_add(random.pick(&[1, 255, limit, limit.wrapping_neg()]))
        }
        10 => mesh[at + 32 + face] = random.below(6 * u64::from(limit)) as u8,
        _ => mesh[at + random.below(40) as usize] ^= 1 << random.below(8),
    }
    mesh
}

/// Both ends of a link change, one end moves, or records change places; some of these meshes are sound again.
pub fn several_fields(random: &mut Random, mesh: &[u8]) -> Vec<u8> {
    let mut mesh = mesh.to_vec();
    let (a, b) = (any_end(random, &mesh), any_end(random, &mesh));
    let there = link(&mesh, a);
    let partner = (there.neighbour as usize, there.face as usize);
    let other = link(&mesh, b);
    let orientation = random.below(6) as u32;
    match random.below(6) {
        // another orientation at both ends
        0 => join(&mut mesh, a, partner, orientation),
        // two faces meet; those that they met lie at the boundary
        1 | 2 => {
            let others = [partner, (other.neighbour as usize, other.face as usize)];
            for end in others {
                join(&mut mesh, end, end, 0);
            }
            join(&mut mesh, a, b, orientation);
        }
        // two faces meet, and others think that they meet these
        3 => join(&mut mesh, a, b, orientation),
        // two links change places
        4 => {
            set_link(&mut mesh, a, other);
            set_link(&mut mesh, b, there);
        }
        // two records change places, with or without their numbers
        _ => {
            let (from, to) = (place(a.0), place(b.0));
            let keep = if random.chance(128) { 4 } else { 0 };
            for at in keep..64 {
                mesh.swap(from + at, to + at);
            }
        }
    }
    mesh
}
