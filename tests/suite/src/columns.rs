//! Parts stored by columns, and back. The second implementation lists the bytes of each column, and checks the part that
//! the columns give. Needs the group `part`.
use crate::calls::{bytes_written, length, written, Calls};
use crate::cases;
use crate::library::Length;
use crate::mesh_cases as meshes;
use crate::mesh_model::number_at;
use crate::model::{bytes_of, Answer};
use crate::part::{other_values, words};
use crate::part_model::{self, fits, Share, GHOST, HEADER, TREE};
use crate::refusals::{expect_seen, kinds};
use crate::second::Case;
use crate::{Run, Test};
use std::io::Write;
use std::process::{Command, Stdio};

pub const TESTS: &[Test] = &[
    ("columns: a part written out by hand", by_hand),
    ("columns: random parts there and back", there_and_back),
    ("columns: each byte of small files changed", each_byte),
    ("columns: damaged parts, and their files", damaged),
    ("columns: each length, and each buffer", each_length),
    ("columns: counts in the header that no length fits", large_counts),
    ("columns: first refusal", refusals),
    ("columns: parts of a brick packed by stock compressors", packed),
    ("seen: each refusal from the column calls", seen_refusals),
];

extern "C" {
    fn vejgodat_part_to_columns(
        part: *const u8,
        part_len: usize,
        table: *const u8,
        table_len: usize,
        rank: u32,
        out: *mut u8,
        out_len: usize,
    ) -> Length;
    fn vejgodat_columns_to_part(
        columns: *const u8,
        columns_len: usize,
        table: *const u8,
        table_len: usize,
        rank: u32,
        out: *mut u8,
        out_len: usize,
    ) -> Length;
}

/// Byte 0 of every record, byte 1 of every record and so on.
fn columns(records: &[u8], width: usize) -> Vec<u8> {
    (0..width).flat_map(|byte| records.iter().skip(byte).step_by(width).copied()).collect()
}

/// The column file of a part of its length.
pub fn file_of(part: &[u8]) -> Vec<u8> {
    let (trees, ghosts) = part[HEADER..].split_at(TREE * number_at(part, 20) as usize);
    [part[..HEADER].to_vec(), columns(trees, TREE), columns(ghosts, GHOST)].concat()
}

/// The records of columns, each put together by itself.
fn records(columns: &[u8], width: usize) -> Vec<u8> {
    let count = columns.len() / width;
    let record = |at: usize| (0..width).map(move |byte| columns[count * byte + at]);
    (0..count).flat_map(record).collect()
}

/// The part of a file, where the header's counts give its length.
fn part_of(file: &[u8]) -> Option<Vec<u8>> {
    let counts = (file.len() >= HEADER).then(|| [20, 24].map(|at| u64::from(number_at(file, at))));
    let [trees, ghosts] = counts?;
    if file.len() as u64 != HEADER as u64 + TREE as u64 * trees + GHOST as u64 * ghosts {
        return None;
    }
    let (trees, ghosts) = file[HEADER..].split_at(TREE * trees as usize);
    Some([file[..HEADER].to_vec(), records(trees, TREE), records(ghosts, GHOST)].concat())
}

fn to_columns(part: &[u8], table: &[u8], rank: u32, room: usize) -> Answer<Vec<u8>> {
    match part_model::check_part(part, table, rank) {
        0 => fits(file_of(part), Some(room)),
        refusal => Err(refusal),
    }
}

fn to_part(file: &[u8], table: &[u8], rank: u32, room: usize) -> Answer<Vec<u8>> {
    let share = Share::new(table, rank)?;
    let part = part_of(file).ok_or(33u32)?;
    if !part_model::faults(&part, &share).is_empty() {
        return Err(33);
    }
    fits(part, Some(room))
}

impl Calls {
    fn turn(&mut self, back: bool, object: &[u8], table: &[u8], rank: u32, before: &[u8]) -> (Length, Vec<u8>) {
        let second = if back { to_part } else { to_columns };
        let answer = second(object, table, rank, before.len());
        let (a, b, c) = (self.place(), self.place(), self.place());
        let (object_at, table_at) = (self.object.put(object, a), self.old.put(table, b));
        let out = self.out.put(before, c);
        let (name, call): (_, unsafe extern "C" fn(_, _, _, _, _, _, _) -> _) = match back {
            true => ("columns_to_part", vejgodat_columns_to_part),
            false => ("part_to_columns", vejgodat_part_to_columns),
        };
        let got = unsafe { call(object_at, object.len(), table_at, table.len(), rank, out, before.len()) };
        let said = || format!("{name} of {rank} in {}: {}", crate::calls::show(table), words(object));
        assert_eq!(got, length(bytes_written(&answer)), "{}", said());
        let after = written(before, &answer);
        assert!(self.out.bytes() == after, "{}: wrote other bytes", said());
        assert!(self.object.bytes() == object && self.old.bytes() == table, "{}: input changed", said());
        self.note(name, got.refusal);
        (got, after)
    }

    pub fn part_to_columns(&mut self, part: &[u8], table: &[u8], rank: u32, before: &[u8]) -> (Length, Vec<u8>) {
        self.turn(false, part, table, rank, before)
    }

    pub fn columns_to_part(&mut self, file: &[u8], table: &[u8], rank: u32, before: &[u8]) -> (Length, Vec<u8>) {
        self.turn(true, file, table, rank, before)
    }
}

fn by_hand(run: &mut Run) {
    let case = Case::triangles();
    let part = case.new_part(1);
    let (got, file) = run.calls.part_to_columns(&part, &case.new, 1, &vec![9; part.len() + 3]);
    assert_eq!((got.refusal, got.length), (0, part.len() as u64));
    // two trees and a ghost: numbers 0 and 1, then 2
    assert_eq!(file[..HEADER], part[..HEADER]);
    assert_eq!(file[HEADER..HEADER + 10], [0, 1, 0, 0, 0, 0, 0, 0, 1, 1]);
    assert_eq!(file[HEADER + 2 * 63..HEADER + 2 * 64], [0xA0, 0xA1]);
    assert_eq!(file[HEADER + 2 * 64..part.len()], part[HEADER + 2 * 64..], "a single ghost stays as it is");
    assert_eq!(file[part.len()..], [9; 3]);
    let (got, again) = run.calls.columns_to_part(&file[..part.len()], &case.new, 1, &vec![7; part.len()]);
    assert_eq!((got.refusal, again), (0, part));
}

fn there_and_back(run: &mut Run) {
    // a square has 16 records, and 2,048 go together
    let mut sizes = [0; 4];
    let mut long = 0;
    while run.lacks(sizes.iter().all(|&size| size > 10) && long > 2, format_args!("{sizes:?}, {long} long")) {
        run.cases(500, |random, calls| {
            let trees = match random.below(50) {
                0 => random.number(2_049, 2_200) as usize,
                1..=10 => random.number(60, 300) as usize,
                _ => meshes::count(random),
            };
            let mesh = meshes::sound(random, trees);
            let ranks = if trees > 2_048 { 1 } else { random.number(1, 5) };
            let table = bytes_of(&cases::table(random, ranks as usize, trees as u32));
            for rank in 0..ranks {
                let length = calls.part_length(&mesh, &table, rank).length as usize;
                let (_, part) = calls.cut_part(&mesh, &table, rank, &vec![0; length]);
                let behind = random.below(9) as usize;
                let (got, file) = calls.part_to_columns(&part, &table, rank, &random.bytes(length + behind));
                assert_eq!((got.refusal, got.length as usize), (0, length));
                let (got, back) = calls.columns_to_part(&file[..length], &table, rank, &random.bytes(length + behind));
                assert_eq!((got.refusal, got.length as usize), (0, length));
                assert!(back[..length] == part, "another part came back");
                let (n, g) = (number_at(&part, 20), number_at(&part, 24));
                sizes[usize::from(n > 16) + 2 * usize::from(g > 16)] += 1;
                long += usize::from(n > 2_048);
            }
        });
    }
}

fn each_byte(run: &mut Run) {
    run.cases(25, |random, calls| {
        let trees = random.number(2, 5) as usize;
        let mesh = meshes::sound(random, trees);
        let table = bytes_of(&cases::table(random, 2, trees as u32));
        let length = calls.part_length(&mesh, &table, 0).length as usize;
        let (_, part) = calls.cut_part(&mesh, &table, 0, &vec![0; length]);
        let file = file_of(&part);
        for at in 0..length {
            for value in other_values(file[at]) {
                let mut damaged = file.clone();
                damaged[at] = value;
                let (got, _) = calls.columns_to_part(&damaged, &table, 0, &vec![5; length]);
                assert!(got.refusal == 0 || got.refusal == 33);
            }
        }
    });
}

fn damaged(run: &mut Run) {
    let mut accepted = [0, 0];
    while run.lacks(accepted.iter().all(|&many| many > 500), format_args!("{accepted:?}")) {
        run.cases(4_000, |random, calls| {
            let trees = meshes::count(random).min(20);
            let mesh = meshes::sound(random, trees);
            let table = bytes_of(&cases::table(random, 2, trees as u32));
            let rank = random.number(0, 1);
            let length = calls.part_length(&mesh, &table, rank).length as usize;
            let (_, mut part) = calls.cut_part(&mesh, &table, rank, &vec![0; length]);
            for _ in 0..random.number(1, 3) {
                let at = random.below(length as u64) as usize;
                part[at] = random.pick(&[0, 1, 2, 3, 255, part[at] ^ 1, part[at].wrapping_add(6)]);
            }
            let (there, _) = calls.part_to_columns(&part, &table, rank, &vec![1; length]);
            // the header may say another number of trees now: the file has the damaged header, and some records by columns
            let mut file = file_of(&of_fitting_count(&part, length));
            file[..HEADER].copy_from_slice(&part[..HEADER]);
            let (back, _) = calls.columns_to_part(&file, &table, rank, &vec![1; length]);
            assert_eq!(there.refusal == 0, back.refusal == 0);
            accepted[usize::from(there.refusal == 0)] += 1;
        });
    }
}

/// The part with a count of trees that its length allows.
fn of_fitting_count(part: &[u8], length: usize) -> Vec<u8> {
    let mut part = part.to_vec();
    let count = (number_at(&part, 20) as usize).min((length - HEADER) / TREE);
    part[20..24].copy_from_slice(&(count as u32).to_le_bytes());
    part
}

fn each_length(run: &mut Run) {
    let case = Case::triangles();
    let part = case.new_part(1);
    let file = file_of(&part);
    let mut longer = file.clone();
    longer.extend([0; 70]);
    for end in (0..longer.len()).filter(|&end| end != file.len()) {
        assert_eq!(run.calls.columns_to_part(&longer[..end], &case.new, 1, &vec![3; 400]).0.refusal, 33);
    }
    for room in 0..file.len() + 9 {
        let refusal = if room < file.len() { 22 } else { 0 };
        assert_eq!(run.calls.part_to_columns(&part, &case.new, 1, &vec![3; room]).0.refusal, refusal);
        assert_eq!(run.calls.columns_to_part(&file, &case.new, 1, &vec![3; room]).0.refusal, refusal);
    }
}

fn large_counts(run: &mut Run) {
    let case = Case::triangles();
    let file = file_of(&case.new_part(1));
    for at in [20, 24] {
        for count in [0, 1, 2, 3, 4, 1 << 20, 1 << 26, (1 << 31) - 1, 1 << 31, u32::MAX - 1, u32::MAX] {
            let mut other = file.clone();
            other[at..at + 4].copy_from_slice(&count.to_le_bytes());
            let refusal = if other == file { 0 } else { 33 };
            assert_eq!(run.calls.columns_to_part(&other, &case.new, 1, &vec![0; file.len()]).0.refusal, refusal);
        }
    }
}

fn refusals(run: &mut Run) {
    let case = Case::triangles();
    let part = case.new_part(1);
    let file = file_of(&part);
    let mut bad = part.clone();
    bad[HEADER + 39] = 16;
    for (table, fails) in kinds().into_iter().chain([(case.new.clone(), 0)]) {
        for rank in [1, 2, 1_024, u32::MAX] {
            for sound in [true, false] {
                for room in [0, part.len() - 1, part.len()] {
                    let is_its = table == case.new && rank == 1 && sound;
                    let bad_rank = if rank as usize >= table.len() / 8 - usize::from(table.len() >= 8) { 5 } else { 0 };
                    let bad_room = if room < part.len() { 22 } else { 0 };
                    let first = |number: u32| {
                        let numbers = [fails, bad_rank, if is_its { 0 } else { number }, bad_room];
                        numbers.into_iter().find(|&number| number != 0).unwrap_or(0)
                    };
                    let before = vec![3; room];
                    let given = if sound { &part } else { &bad };
                    assert_eq!(run.calls.part_to_columns(given, &table, rank, &before).0.refusal, first(8));
                    let given = if sound { file.clone() } else { file_of(&bad) };
                    assert_eq!(run.calls.columns_to_part(&given, &table, rank, &before).0.refusal, first(33));
                }
            }
        }
    }
}

/// A brick of hexahedra, 2^power a side, the data of each tree its corner as three floating point numbers, or zero.
fn brick(power: u32, corners: bool) -> Vec<u8> {
    let side = 1u32 << power;
    let count = side.pow(3);
    let mut mesh = [3u32.to_le_bytes(), count.to_le_bytes()].concat();
    for tree in 0..count {
        let corner = [0, 1, 2].map(|axis| tree >> (power * axis) & (side - 1));
        mesh.extend(tree.to_le_bytes());
        mesh.extend([2, 0, 0, 0]);
        let mut codes = [0; 8];
        for face in 0..6u32 {
            let (axis, up) = (face / 2, face % 2 == 1);
            let inside = if up { corner[axis as usize] + 1 < side } else { corner[axis as usize] > 0 };
            let stride = 1u32 << (power * axis);
            let there = if up { tree.wrapping_add(stride) } else { tree.wrapping_sub(stride) };
            mesh.extend(if inside { there } else { tree }.to_le_bytes());
            codes[face as usize] = if inside { face ^ 1 } else { face } as u8;
        }
        mesh.extend(codes);
        let at = corner.map(|place| if corners { f64::from(place) / f64::from(side) } else { 0.0 });
        mesh.extend(at.iter().flat_map(|place| place.to_le_bytes()));
    }
    mesh
}

/// What a program makes of the bytes; none where it isn't there.
fn through(program: &str, argument: &str, bytes: &[u8]) -> Option<Vec<u8>> {
    let piped = Command::new(program).args([argument, "-c"]).stdin(Stdio::piped()).stdout(Stdio::piped()).spawn();
    let mut child = piped.ok()?;
    let mut input = child.stdin.take().unwrap();
    let bytes = bytes.to_vec();
    let writer = std::thread::spawn(move || input.write_all(&bytes));
    let output = child.wait_with_output().unwrap();
    writer.join().unwrap().unwrap();
    assert!(output.status.success(), "{program} failed");
    Some(output.stdout)
}

fn packed(run: &mut Run) {
    let mut programs = 0;
    for (said, corners) in [("zero", false), ("its corner", true)] {
        let mesh = brick(5, corners);
        let table = bytes_of(&[0, 1 << 14, 1 << 15]);
        let length = run.calls.part_length(&mesh, &table, 0).length as usize;
        let (_, part) = run.calls.cut_part(&mesh, &table, 0, &vec![0; length]);
        let (_, file) = run.calls.part_to_columns(&part, &table, 0, &vec![0; length]);
        for program in ["gzip", "xz"] {
            let Some(rows) = through(program, "-9", &part) else { continue };
            let turned = through(program, "-9", &file).unwrap();
            let unpacked = through(program, "-d", &turned).unwrap();
            assert_eq!(run.calls.columns_to_part(&unpacked, &table, 0, &vec![0; length]).1, part);
            println!("        {program} -9, tree data {said}: {length} bytes, {} packed, {} by columns", rows.len(), turned.len());
            programs += 1;
        }
    }
    assert!(programs > 0, "neither gzip nor xz is there");
}

fn seen_refusals(run: &mut Run) {
    expect_seen(run, &[("part_to_columns", &[2, 3, 5, 8, 22]), ("columns_to_part", &[2, 3, 5, 33, 22])]);
}
