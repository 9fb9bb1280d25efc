//! Bricks: every small one, random ones up to the limits, and the refusals. Needs the groups `mesh` and `part`.
use crate::calls::{bytes_written, length, written, Calls};
use crate::cases;
use crate::library::Length;
use crate::mesh_cases;
use crate::mesh_model::Record;
use crate::model::{bytes_of, Answer};
use crate::random::Random;
use crate::refusals::expect_seen;
use crate::{Run, Test};
use std::collections::BTreeMap;
use std::ptr;

pub const TESTS: &[Test] = &[
    ("brick: all extents up to 4 with all flags", small),
    ("brick: a tree that meets itself, two trees that meet twice", short_axes),
    ("brick: any number but 0 is yes", flags),
    ("brick: random extents", random_extents),
    ("brick: the longest and the largest", largest),
    ("brick: random parts of bricks", parts),
    ("brick: extents outside their limits, before the buffer", outside),
    ("brick: buffers of each length", each_buffer),
    ("brick: null pointers with count 0", null_pointers),
    ("seen: each refusal from the brick calls", seen_refusals),
];

const MOST: u32 = 64;

extern "C" {
    fn vejgodat_brick_length(a: u32, b: u32, c: u32) -> Length;
    fn vejgodat_write_brick(
        a: u32,
        b: u32,
        c: u32,
        periodic_a: u32,
        periodic_b: u32,
        periodic_c: u32,
        out: *mut u8,
        out_len: usize,
    ) -> Length;
}

/// The second implementation: the places are gone through in the order of their numbers, and a face's neighbour is
/// looked up by its place.
fn brick(extents: [u32; 3], periodic: [u32; 3]) -> Vec<u8> {
    let [a, b, c] = extents.map(i64::from);
    let mut numbers = BTreeMap::new();
    for z in 0..c {
        for y in 0..b {
            for x in 0..a {
                numbers.insert([x, y, z], numbers.len() as u32);
            }
        }
    }
    let mut records = vec![Vec::new(); numbers.len()];
    for (place, &number) in &numbers {
        let mut record = Record { number, shape: 2, zeros: [0; 3], neighbours: [0; 6], codes: [0; 6], region: 0 };
        for axis in 0..3 {
            for (side, step) in [(0, -1), (1, 1)] {
                let face = 2 * axis + side;
                let mut there = *place;
                there[axis] += step;
                if periodic[axis] != 0 {
                    there[axis] = there[axis].rem_euclid(i64::from(extents[axis]));
                }
                let (neighbour, code) = match numbers.get(&there) {
                    Some(&neighbour) => (neighbour, 2 * axis + 1 - side),
                    None => (number, face),
                };
                record.neighbours[face] = neighbour;
                record.codes[face] = code as u8;
            }
        }
        records[number as usize] = record.encode(&[0; 24]);
    }
    let mut mesh = vec![3, 0, 0, 0];
    mesh.extend((numbers.len() as u32).to_le_bytes());
    mesh.extend(records.concat());
    mesh
}

fn within(extents: [u32; 3]) -> bool {
    extents.iter().all(|extent| (1..=MOST).contains(extent))
}

fn answer(extents: [u32; 3], periodic: [u32; 3], room: usize) -> Answer<Vec<u8>> {
    if !within(extents) {
        return Err(26);
    }
    let mesh = brick(extents, periodic);
    if room < mesh.len() {
        return Err(22);
    }
    Ok(mesh)
}

impl Calls {
    pub fn brick_length(&mut self, extents: [u32; 3]) -> Length {
        let expected = if within(extents) {
            Ok(8 + 64 * extents.iter().map(|&extent| u64::from(extent)).product::<u64>())
        } else {
            Err(26)
        };
        let got = unsafe { vejgodat_brick_length(extents[0], extents[1], extents[2]) };
        assert_eq!(got, length(expected), "brick_length {extents:?}");
        self.note("brick_length", got.refusal);
        got
    }

    pub fn write_brick(&mut self, extents: [u32; 3], periodic: [u32; 3], before: &[u8]) -> (Length, Vec<u8>) {
        let answer = answer(extents, periodic, before.len());
        let place = self.place();
        let out = self.out.put(before, place);
        let ([a, b, c], [p, q, r]) = (extents, periodic);
        let got = unsafe { vejgodat_write_brick(a, b, c, p, q, r, out, before.len()) };
        let said = || format!("write_brick {extents:?} {periodic:?}, buffer of {}", before.len());
        assert_eq!(got, length(bytes_written(&answer)), "{}", said());
        let after = written(before, &answer);
        assert!(self.out.bytes() == after, "{}: other bytes", said());
        self.note("write_brick", got.refusal);
        (got, after)
    }
}

/// Both calls: the mesh, which the library and the second implementation's check find sound.
fn sound_brick(calls: &mut Calls, extents: [u32; 3], periodic: [u32; 3]) -> Vec<u8> {
    let length = calls.brick_length(extents).length as usize;
    // what stood there before doesn't matter, and one byte more stays
    let (got, mut mesh) = calls.write_brick(extents, periodic, &vec![0xA5; length + 1]);
    assert_eq!((got.length as usize, mesh.pop()), (length, Some(0xA5)), "{extents:?} {periodic:?}");
    assert_eq!(calls.check_mesh(&mesh), 0, "{extents:?} {periodic:?}");
    mesh
}

fn all_flags() -> impl Iterator<Item = [u32; 3]> {
    (0..8).map(|bits| [bits & 1, bits >> 1 & 1, bits >> 2])
}

fn small(run: &mut Run) {
    for a in 1..=4 {
        for b in 1..=4 {
            for c in 1..=4 {
                for periodic in all_flags() {
                    sound_brick(&mut run.calls, [a, b, c], periodic);
                }
            }
        }
    }
}

fn short_axes(run: &mut Run) {
    for axis in 0..3 {
        let mut periodic = [0; 3];
        periodic[axis] = 1;
        let alone = mesh_cases::record(&sound_brick(&mut run.calls, [1; 3], periodic), 0);
        for face in 0..6 {
            let across = if face / 2 == axis { face ^ 1 } else { face };
            assert_eq!((alone.neighbours[face], alone.codes[face]), (0, across as u8), "axis {axis}, face {face}");
        }
        let mut extents = [1; 3];
        extents[axis] = 2;
        let mesh = sound_brick(&mut run.calls, extents, periodic);
        for tree in 0..2 {
            let record = mesh_cases::record(&mesh, tree);
            for face in [2 * axis, 2 * axis + 1] {
                let met = (record.neighbours[face], record.codes[face]);
                assert_eq!(met, (1 - tree as u32, (face ^ 1) as u8), "axis {axis}, tree {tree}, face {face}");
            }
        }
    }
}

fn flags(run: &mut Run) {
    for axis in 0..3 {
        for value in [1, 2, 255, 256, 65_536, 1 << 31, u32::MAX] {
            let mut periodic = [0; 3];
            periodic[axis] = value;
            sound_brick(&mut run.calls, [3, 2, 4], periodic);
        }
    }
}

/// Extents with a product of some thousands at most, one of them long now and then.
fn extents(random: &mut Random) -> [u32; 3] {
    let mut extents = [0; 3].map(|_: u32| random.number(1, 12));
    if random.chance(64) {
        extents[random.below(3) as usize] = random.number(1, MOST);
    }
    extents
}

fn some_flags(random: &mut Random) -> [u32; 3] {
    [0; 3].map(|_: u32| random.pick(&[0, 1, 7]))
}

fn random_extents(run: &mut Run) {
    run.cases(300, |random, calls| {
        sound_brick(calls, extents(random), some_flags(random));
    });
}

fn largest(run: &mut Run) {
    for axis in 0..3 {
        for periodic in all_flags() {
            let mut extents = [1; 3];
            extents[axis] = MOST;
            sound_brick(&mut run.calls, extents, periodic);
            extents[(axis + 1) % 3] = MOST;
            sound_brick(&mut run.calls, extents, periodic);
        }
    }
    for periodic in [[0; 3], [1, 0, 1], [1; 3]] {
        sound_brick(&mut run.calls, [MOST; 3], periodic);
    }
}

fn parts(run: &mut Run) {
    run.cases(100, |random, calls| {
        let extents = extents(random);
        let mesh = sound_brick(calls, extents, some_flags(random));
        let trees = extents.iter().product();
        let ranks = random.number(1, 6);
        let table = bytes_of(&cases::table(random, ranks as usize, trees));
        let rank = random.number(0, ranks - 1);
        let length = calls.part_length(&mesh, &table, rank).length as usize;
        let (got, part) = calls.cut_part(&mesh, &table, rank, &vec![0; length]);
        assert_eq!(got.refusal, 0);
        assert_eq!(calls.check_part(&part, &table, rank), 0);
    });
}

fn outside(run: &mut Run) {
    for axis in 0..3 {
        for value in [0, MOST + 1, 128, 255, 256, 65_536, 1 << 31, u32::MAX] {
            for other in [1, MOST, 0, MOST + 1] {
                let mut extents = [other; 3];
                extents[axis] = value;
                assert_eq!(run.calls.brick_length(extents).refusal, 26);
                for room in [0, 8, 72, 1_000] {
                    assert_eq!(run.calls.write_brick(extents, [1, 0, 1], &vec![7; room]).0.refusal, 26);
                }
            }
        }
    }
}

fn each_buffer(run: &mut Run) {
    run.cases(60, |random, calls| {
        let extents = [0; 3].map(|_: u32| random.number(1, 3));
        let periodic = some_flags(random);
        let length = calls.brick_length(extents).length as usize;
        for room in [0, 1, 7, 8, 9, 63, 71, 72, length - 64, length - 1, length, length + 1, length + 64] {
            let (got, _) = calls.write_brick(extents, periodic, &random.bytes(room));
            assert_eq!(got.refusal, if room < length { 22 } else { 0 });
        }
    });
    let (got, _) = run.calls.write_brick([MOST; 3], [0; 3], &vec![1; 8 + 64 * 262_144 - 1]);
    assert_eq!(got.refusal, 22);
}

fn null_pointers(run: &mut Run) {
    for (extents, refusal) in [([1, 2, 3], 22), ([0, 2, 3], 26), ([1, 2, 65], 26)] {
        let [a, b, c] = extents;
        let got = unsafe { vejgodat_write_brick(a, b, c, 0, 1, 0, ptr::null_mut(), 0) };
        assert_eq!(got, Length { refusal, length: 0 });
        run.calls.note("write_brick", got.refusal);
    }
}

fn seen_refusals(run: &mut Run) {
    expect_seen(run, &[("brick_length", &[26]), ("write_brick", &[26, 22])]);
}
