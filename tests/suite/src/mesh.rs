//! The check of a whole mesh.
use crate::calls::Calls;
use crate::cases;
use crate::mesh_cases::{self as meshes, apart, join, link, place, put, set_link};
use crate::mesh_model::{Link, SHAPES};
use crate::model::MAX_TREES;
use crate::{Run, Test};
use std::collections::BTreeSet;

pub const TESTS: &[Test] = &[
    ("corners: every small shape and face, and any numbers", every_corners),
    ("mesh: the document's three triangles", documents_triangles),
    ("mesh: every one of a single tree", every_single),
    ("mesh: every one of two triangles", every_two),
    ("mesh: every two faces with every orientation", every_two_faces),
    ("mesh: random sound ones", random_sound),
    ("mesh: each byte changed", each_byte),
    ("mesh: each length cut", each_cut),
    ("mesh: one field damaged", one_field),
    ("mesh: several fields damaged", several_fields),
    ("mesh: any header and any length", any_header),
    ("mesh: any bytes", any_bytes),
    ("mesh: tree data never matters", any_data),
    ("mesh: trees at the limits", tree_limits),
];

/// Face 0 of each meets face 1 of the next, after 2 comes 0; face 2 is the boundary; orientation 0.
fn triangles() -> Vec<u8> {
    let mut mesh = apart(&[1, 1, 1], 0);
    for k in 0..3 {
        join(&mut mesh, (k, 0), ((k + 1) % 3, 1), 0);
    }
    mesh
}

fn every_corners(run: &mut Run) {
    for shape in 0..300 {
        for face in 0..300 {
            run.calls.corners(shape, face);
        }
    }
    run.cases(100_000, |random, calls| {
        let mut any =
            |small| if random.below(2) == 0 { random.below(small) as u32 } else { random.below(1 << 32) as u32 };
        let (shape, face) = (any(8), any(8));
        calls.corners(shape, face);
    });
    for number in [u32::MAX, u32::MAX - 1, 1 << 31] {
        assert_eq!(run.calls.corners(number, number), 0);
    }
}

fn documents_triangles(run: &mut Run) {
    let mesh = triangles();
    assert_eq!(run.calls.check_mesh(&mesh), 0);
    let mut by_hand = vec![2, 0, 0, 0, 3, 0, 0, 0];
    for k in 0..3u8 {
        by_hand.extend([k, 0, 0, 0, 1, 0, 0, 0]);
        by_hand.extend([(k + 1) % 3, 0, 0, 0, (k + 2) % 3, 0, 0, 0, k, 0, 0, 0]);
        by_hand.extend([255; 12]);
        by_hand.extend([1, 0, 2, 0, 0, 0, 0, 0]);
        by_hand.extend([0; 24]);
    }
    assert_eq!(mesh, by_hand);
}

/// Neighbour 0 throughout, and every code: the sound ones are the ways to pair some faces, each pair with an orientation.
fn every_single(run: &mut Run) {
    // 4 faces: no pair, one of 6, two in 3 ways; 3 faces: no pair, one of 3
    for (shape, codes, expected) in [(0u8, 16, 1 + 6 * 2 + 3 * 4), (1, 20, 1 + 3 * 2), (3, 24, 1 + 6 * 3 + 3 * 9)] {
        let faces = SHAPES[shape as usize].1.len();
        let mut mesh = apart(&[shape], 0);
        let mut sound = 0;
        cases::every_list(faces, 0, codes - 1, |list| {
            for (face, &code) in list.iter().enumerate() {
                mesh[place(0) + 32 + face] = code as u8;
            }
            sound += u64::from(run.calls.check_mesh(&mesh) == 0);
        });
        assert_eq!(sound, expected, "shape {shape}");
    }
}

/// Each face meets any face with orientation 0: the sound ones are the ways to pair some of six.
fn every_two(run: &mut Run) {
    let mut mesh = apart(&[1, 1], 0);
    let mut sound = 0;
    cases::every_list(6, 0, 5, |list| {
        for (at, &to) in list.iter().enumerate() {
            let link = Link { neighbour: to as u32 / 3, face: to as u32 % 3, orientation: 0 };
            set_link(&mut mesh, (at / 3, at % 3), link);
        }
        sound += u64::from(run.calls.check_mesh(&mesh) == 0);
    });
    assert_eq!(sound, 76);
}

fn every_two_faces(run: &mut Run) {
    let all = || (0..6u8).flat_map(|shape| SHAPES[shape as usize].1.iter().enumerate().map(move |face| (shape, face)));
    let (mut sound, mut calls) = (0u64, 0u64);
    for (shape, (face, corners)) in all() {
        let dimension = SHAPES[shape as usize].0;
        let limit = if dimension == 2 { 4 } else { 6 };
        for (other_shape, (other_face, other_corners)) in all() {
            let alike = dimension == SHAPES[other_shape as usize].0 && corners == other_corners;
            for orientation in 0..=(255 - 5) / limit {
                let fits = alike && orientation < *corners;
                let mut mesh = apart(&[shape, other_shape], 0);
                join(&mut mesh, (0, face), (1, other_face), orientation);
                assert_eq!(run.calls.check_mesh(&mesh) == 0, fits, "{shape} {face}, {other_shape} {other_face}");
                sound += u64::from(fits);
                calls += 1;
                // the same tree at both ends, and a face that meets itself
                if shape == other_shape {
                    let mut mesh = apart(&[shape], 0);
                    join(&mut mesh, (0, face), (0, other_face), orientation);
                    let fits = fits && (face != other_face || orientation == 0);
                    assert_eq!(run.calls.check_mesh(&mesh) == 0, fits, "{shape} {face}, {other_face}");
                }
            }
        }
    }
    // 7 faces of 2 corners, 10 of 3 and 10 of 4
    assert_eq!(sound, 7 * 7 * 2 + 10 * 10 * 3 + 10 * 10 * 4);
    assert!(calls > 10 * sound);
}

fn random_sound(run: &mut Run) {
    let (mut boundaries, mut own, mut twice, mut turned) = (0, 0, 0, 0);
    let mut shapes = BTreeSet::new();
    while run.lacks(
        boundaries > 10_000 && own > 10_000 && twice > 10_000 && turned > 10_000,
        format_args!("{boundaries}, {own}, {twice}, {turned}"),
    ) {
        run.cases(60_000, |random, calls| {
            let trees = meshes::count(random);
            let mesh = meshes::sound(random, trees);
            assert_eq!(calls.check_mesh(&mesh), 0);
            let mut met = BTreeSet::new();
            for (end, corners) in meshes::ends(&mesh) {
                let there = link(&mesh, end);
                let neighbour = there.neighbour as usize;
                shapes.insert((meshes::record(&mesh, end.0).shape, meshes::record(&mesh, neighbour).shape));
                turned += u64::from(there.orientation == corners - 1);
                if end == (neighbour, there.face as usize) {
                    boundaries += 1;
                } else if neighbour == end.0 {
                    own += 1;
                } else if !met.insert((end.0, neighbour)) {
                    twice += 1;
                }
            }
        });
    }
    // two of dimension 2; of dimension 3 all but hexahedron and tetrahedron can meet
    assert_eq!(shapes.len(), 2 * 2 + 4 * 4 - 2);
}

/// A sound mesh with one byte changed is refused, but for the tree data, and a prism at the boundary may be a pyramid.
fn each_byte_of(calls: &mut Calls, mesh: &[u8]) {
    assert_eq!(calls.check_mesh(mesh), 0);
    let mut changed = mesh.to_vec();
    for at in 0..mesh.len() {
        let in_record = at.checked_sub(8).map(|at| at % 64);
        for value in (0..=255).filter(|&value| value != mesh[at]) {
            changed[at] = value;
            let got = calls.check_mesh(&changed);
            match in_record {
                Some(38 | 40..) => assert_eq!(got, 0, "byte {at} is {value}"),
                Some(39) => assert_eq!(got, if value < 16 { 0 } else { 7 }, "byte {at} is {value}"),
                Some(4) if [mesh[at], value].iter().all(|shape| [4, 5].contains(shape)) => {}
                _ => assert_eq!(got, 7, "byte {at} is {value}"),
            }
        }
        changed[at] = mesh[at];
    }
}

fn each_byte(run: &mut Run) {
    each_byte_of(&mut run.calls, &triangles());
    for shape in 0..6 {
        each_byte_of(&mut run.calls, &apart(&[shape], 7));
    }
    run.cases(24, |random, calls| {
        let trees = random.number(1, 3) as usize;
        let mesh = meshes::sound(random, trees);
        each_byte_of(calls, &mesh);
    });
}

fn each_cut(run: &mut Run) {
    run.cases(60, |random, calls| {
        let trees = random.number(1, 4) as usize;
        let mesh = meshes::sound(random, trees);
        let longer = [mesh.clone(), random.bytes(70)].concat();
        for length in 0..=longer.len() {
            assert_eq!(calls.check_mesh(&longer[..length]), if length == mesh.len() { 0 } else { 7 });
            calls.check_mesh(&longer[length..]);
        }
        // fewer trees, and the count says so: sound where nobody meets those that are gone
        for fewer in 0..trees {
            let mut mesh = mesh[..place(fewer)].to_vec();
            put(&mut mesh, 4, fewer as u32);
            calls.check_mesh(&mesh);
        }
    });
}

fn one_field(run: &mut Run) {
    run.cases(60_000, |random, calls| {
        let trees = meshes::count(random);
        let mesh = meshes::sound(random, trees);
        for _ in 0..8 {
            calls.check_mesh(&meshes::one_field(random, &mesh));
        }
    });
}

fn several_fields(run: &mut Run) {
    let mut sound = 0;
    while run.lacks(sound > 10_000, format_args!("only {sound} sound")) {
        run.cases(60_000, |random, calls| {
            let trees = meshes::count(random);
            let mesh = meshes::sound(random, trees);
            for _ in 0..6 {
                sound += u64::from(calls.check_mesh(&meshes::several_fields(random, &mesh)) == 0);
            }
            let changed = meshes::several_fields(random, &mesh);
            calls.check_mesh(&meshes::one_field(random, &changed));
        });
    }
}

fn any_header(run: &mut Run) {
    let limit = MAX_TREES as u32;
    // from 2^26 trees on, 64 K is beyond 32 bits
    let wide = 1 << 26;
    let counts = [0, 1, 2, 3, 4, 255, 256, limit - 1, limit, limit + 1, limit + 2, wide - 1, wide, wide + 1, wide + 2];
    let counts = [&counts[..], &[wide + 3, 2 * wide + 2, 1 << 31, (1 << 31) + 2, u32::MAX - 1, u32::MAX]].concat();
    for trees in 1..=3 {
        for shape in 0..6 {
            let mesh = apart(&vec![shape; trees], 0);
            for dimension in [0, 1, 2, 3, 4, 5, 6, 258, 259, 2 << 8, 2 << 16, 3 << 24, 1 << 31, u32::MAX] {
                for &count in &counts {
                    let mut mesh = mesh.clone();
                    put(&mut mesh, 0, dimension);
                    put(&mut mesh, 4, count);
                    let fits = dimension == SHAPES[shape as usize].0 && count as usize == trees;
                    assert_eq!(run.calls.check_mesh(&mesh) == 0, fits, "{dimension} {count}");
                    for length in (0..=9).chain([71, 72, 73, 135, 136, 137]) {
                        run.calls.check_mesh(&mesh[..length.min(mesh.len())]);
                    }
                }
            }
        }
    }
    run.cases(60_000, |random, calls| {
        let length = random.below(400) as usize;
        let mut mesh = vec![0; length.max(8)];
        put(&mut mesh, 0, random.number(1, 4));
        put(&mut mesh, 4, cases::number(random));
        calls.check_mesh(&mesh[..length]);
    });
}

fn any_bytes(run: &mut Run) {
    run.cases(60_000, |random, calls| {
        let trees = random.number(0, 4) as usize;
        let mask = random.pick(&[1, 3, 7, 255]);
        let mut mesh = random.bytes(place(trees));
        for byte in &mut mesh {
            *byte &= mask;
        }
        put(&mut mesh, 0, random.number(2, 3));
        put(&mut mesh, 4, trees as u32);
        assert_eq!(calls.check_mesh(&mesh), 7);
        // a random core record in a sound mesh
        if trees > 0 {
            let tree = random.below(trees as u64) as usize;
            let other = meshes::sound(random, trees);
            mesh[..place(tree)].copy_from_slice(&other[..place(tree)]);
            mesh[place(tree + 1)..].copy_from_slice(&other[place(tree + 1)..]);
            calls.check_mesh(&mesh);
        }
    });
}

fn any_data(run: &mut Run) {
    let mut answers = [0; 8];
    while run.lacks(answers[0] > 5_000 && answers[7] > 5_000, format_args!("{answers:?}")) {
        run.cases(60_000, |random, calls| {
            let trees = meshes::count(random);
            let mut mesh = meshes::sound(random, trees);
            if random.chance(128) {
                mesh = meshes::several_fields(random, &mesh);
            }
            let before = calls.check_mesh(&mesh);
            for tree in 0..trees {
                if random.chance(200) {
                    meshes::fill_data(random, &mut mesh, tree);
                } else {
                    // as if it were another record
                    let from = place(random.below(trees as u64) as usize) + random.pick(&[0, 8, 16]);
                    mesh.copy_within(from..from + 24, place(tree) + 40);
                }
            }
            assert_eq!(calls.check_mesh(&mesh), before);
            answers[before as usize] += 1;
        });
    }
}

fn tree_limits(run: &mut Run) {
    for shape in [0, 3] {
        let mut shapes = vec![shape; MAX_TREES + 1];
        let mut more = apart(&shapes, 3);
        assert_eq!(run.calls.check_mesh(&more), 7, "one tree more than the limit");
        // the count is that of the limit, then the length too
        put(&mut more, 4, MAX_TREES as u32);
        assert_eq!(run.calls.check_mesh(&more), 7);
        assert_eq!(run.calls.check_mesh(&more[..more.len() - 64]), 0);

        shapes.pop();
        let mut mesh = apart(&shapes, 5);
        let last = MAX_TREES - 1;
        join(&mut mesh, (0, 1), (last, 2), 1);
        for k in 0..last {
            join(&mut mesh, (k, 0), (k + 1, 3), (k % 2) as u32);
        }
        assert_eq!(run.calls.check_mesh(&mesh), 0);
        // each neighbour beyond the last, at either end
        for (end, neighbour) in [((0, 1), last + 1), ((last, 2), last + 1), ((last, 2), MAX_TREES * 2 + last)] {
            let there = link(&mesh, end);
            set_link(&mut mesh, end, Link { neighbour: neighbour as u32, ..there });
            assert_eq!(run.calls.check_mesh(&mesh), 7);
            set_link(&mut mesh, end, there);
        }
        // the last byte that matters
        let at = mesh.len() - 25;
        mesh[at] = 16;
        assert_eq!(run.calls.check_mesh(&mesh), 7);
        mesh[at] = 15;
        mesh[at + 1] = 1;
        assert_eq!(run.calls.check_mesh(&mesh), 0);
    }
}
