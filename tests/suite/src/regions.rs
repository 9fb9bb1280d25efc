//! Region numbers: the limit in each object, how they travel, the bytes of the last release, and the counts. Needs the
//! groups `part`, `message` and `area`.
use crate::calls::{written, Calls, Tables};
use crate::cases;
use crate::mesh_cases::{self as meshes, place};
use crate::mesh_model::{number_at, MAX_REGION};
use crate::model::{bytes_of, Answer};
use crate::part::words;
use crate::part_model::{self, HEADER, TREE};
use crate::refusals::{expect_seen, first_of, kinds};
use crate::second::Case;
use crate::{Run, Test};

pub const TESTS: &[Test] = &[
    ("regions: each value of byte 39, and the limit, in every record of every object", limits),
    ("regions: linked records differ, and each keeps its own", kept),
    ("regions: a part and an area of the release without them", saved),
    ("regions: counts of random parts", counts),
    ("regions: first refusal of the counts", refusals),
    ("regions: counts with each byte of the part changed", each_byte),
    ("seen: each refusal from region_counts", seen_refusals),
];

/// How many there are.
const REGIONS: usize = MAX_REGION as usize + 1;

extern "C" {
    fn vejgodat_region_counts(
        part: *const u8,
        part_len: usize,
        table: *const u8,
        table_len: usize,
        rank: u32,
        out: *mut u32,
        out_len: usize,
    ) -> u32;
}

/// Where the region of the record at a byte stands.
fn region_at(record: usize) -> std::ops::Range<usize> {
    record + 38..record + 40
}

fn region(bytes: &[u8], record: usize) -> u16 {
    u16::from_le_bytes(bytes[region_at(record)].try_into().unwrap())
}

/// The second implementation: a tally by region, from the largest to the smallest.
fn tally(part: &[u8], table: &[u8], rank: u32, room: usize) -> Answer<Vec<u32>> {
    match part_model::check_part(part, table, rank) {
        0 if room < REGIONS => Err(22),
        0 => {
            let mut all: Vec<u16> =
                (0..number_at(part, 20) as usize).map(|tree| region(part, HEADER + TREE * tree)).collect();
            all.sort_unstable();
            let below = |limit: usize| all.partition_point(|&region| usize::from(region) < limit) as u32;
            Ok((0..REGIONS).map(|region| below(region + 1) - below(region)).collect())
        }
        refusal => Err(refusal),
    }
}

impl Calls {
    pub fn region_counts(&mut self, part: &[u8], table: &[u8], rank: u32, before: &[u32]) -> (u32, Vec<u32>) {
        let answer = tally(part, table, rank, before.len());
        let (a, b, c) = (self.place(), self.place(), self.place());
        let (part_at, table_at) = (self.object.put(part, a), self.old.put(table, b));
        let out = self.out.put_numbers(before, c);
        let got = unsafe {
            vejgodat_region_counts(part_at, part.len(), table_at, table.len(), rank, out, before.len())
        };
        let said = || format!("region_counts of {rank} in {}: {}", crate::calls::show(table), words(part));
        assert_eq!(got, answer.as_ref().err().copied().unwrap_or(0), "{}", said());
        let after = written(before, &answer);
        assert!(self.out.numbers() == after, "{}: other counts", said());
        assert!(self.object.bytes() == part && self.old.bytes() == table, "{}: input changed", said());
        self.note("region_counts", got);
        (got, after)
    }
}

/// The three triangles, their tables, and of rank 1: its part under the new table, a message to it and its area.
struct Objects {
    case: Case,
    part: Vec<u8>,
    message: Vec<u8>,
    area: Vec<u8>,
}

impl Objects {
    fn new(calls: &mut Calls) -> Objects {
        let case = Case::triangles();
        let tables = Tables::new(&case.old, &case.new);
        let part = case.new_part(1);
        let length = calls.area_length(&tables, 1, 2).length as usize;
        let (_, mut area) = calls.open_area(&tables, 1, 2, case.epoch, &vec![0; length]);
        let messages = crate::second::triangle_messages();
        for (_, message) in &messages[1..3] {
            area = calls.deliver(&area, message).1;
        }
        Objects { case, part, message: messages[2].1.clone(), area }
    }
}

fn limits(run: &mut Run) {
    let objects = Objects::new(&mut run.calls);
    let values: Vec<u16> = (0..=255).map(|high| high << 8).chain([1, 4_094, 4_095, 4_096, 4_097, u16::MAX]).collect();
    let area_trees = crate::area_model::trees_at(3);
    for value in values {
        let with = |bytes: &[u8], record: usize| {
            let mut bytes = bytes.to_vec();
            bytes[region_at(record)].copy_from_slice(&value.to_le_bytes());
            bytes
        };
        let or = |refusal: u32| if value <= MAX_REGION { 0 } else { refusal };
        for tree in 0..3 {
            assert_eq!(run.calls.check_mesh(&with(&objects.case.mesh, place(tree))), or(7), "tree {tree}, {value}");
        }
        // two trees and a ghost
        for record in [HEADER, HEADER + TREE, HEADER + 2 * TREE] {
            let part = with(&objects.part, record);
            assert_eq!(run.calls.check_part(&part, &objects.case.new, 1), or(8), "part, {record}, {value}");
            assert_eq!(run.calls.region_counts(&part, &objects.case.new, 1, &[5; REGIONS]).0, or(8));
        }
        // a tree and a ghost
        for record in [HEADER, HEADER + TREE] {
            let message = with(&objects.message, record);
            assert_eq!(run.calls.check_message(&message), or(11), "message, {record}, {value}");
        }
        // two slots and a ghost; the regions of messages need not agree with anything
        for record in [area_trees, area_trees + TREE, area_trees + 2 * TREE] {
            let area = with(&objects.area, record);
            assert_eq!(run.calls.progress_of(&area).refusal, or(10), "area, {record}, {value}");
            assert_eq!(run.calls.close_area(&area, &vec![0; objects.part.len()]).0.refusal, or(10));
        }
    }
}

fn kept(run: &mut Run) {
    let mut differ = 0;
    while run.lacks(differ > 1_000, format_args!("{differ} links between different regions")) {
        run.cases(300, |random, calls| {
            let trees = meshes::count(random).min(12);
            let mut case = Case::random(random, trees, 3);
            for tree in 0..trees {
                let value = random.below(REGIONS as u64) as u16;
                case.mesh[region_at(place(tree))].copy_from_slice(&value.to_le_bytes());
            }
            assert_eq!(calls.check_mesh(&case.mesh), 0);
            let of_tree = |number: u32| region(&case.mesh, place(number as usize));
            for tree in 0..trees as u32 {
                let met = meshes::record(&case.mesh, tree as usize);
                differ += met.met().iter().filter(|&&other| of_tree(other) != of_tree(tree)).count();
            }
            let tables = Tables::new(&case.old, &case.new);
            for rank in 0..3 {
                let dimension = number_at(&case.mesh, 0);
                let length = calls.area_length(&tables, rank, dimension).length as usize;
                let (_, mut area) = calls.open_area(&tables, rank, dimension, case.epoch, &vec![0; length]);
                for sender in 0..3 {
                    let length = calls.part_length(&case.mesh, &case.old, sender).length as usize;
                    let (_, part) = calls.cut_part(&case.mesh, &case.old, sender, &vec![0; length]);
                    let length = calls.message_length(&part, &tables, [sender, rank]);
                    if length.refusal == 9 {
                        continue;
                    }
                    let room = vec![0; length.length as usize];
                    let (_, message) = calls.build_message(&part, &tables, [sender, rank], case.epoch, &room);
                    let (got, after) = calls.deliver(&area, &message);
                    assert_eq!(got, 0);
                    area = after;
                }
                let length = calls.part_of_area_length(&area);
                assert_eq!(length.refusal, 0);
                let (_, part) = calls.close_area(&area, &vec![0; length.length as usize]);
                let (n, g) = (number_at(&part, 20) as usize, number_at(&part, 24) as usize);
                let records = (0..n).map(|at| HEADER + TREE * at).chain((0..g).map(|at| HEADER + TREE * n + 40 * at));
                for record in records {
                    assert_eq!(region(&part, record), of_tree(number_at(&part, record)));
                }
            }
        });
    }
}

/// What the release before regions wrote for the document's triangles: the part of rank 1 under the old table, and its
/// area with both messages delivered, without the empty slots at its end.
const OLD_PART: &str = "\
    020000000300000003000000010000000100000002000000010000000000000001000000010000000100000002000000\
    00000000ffffffffffffffffffffffff0100020000000000a1a1a1a1a1a1a1a1a1a1a1a1a1a1a1a1a1a1a1a1a1a1a1a1\
    0200000001000000020000000000000001000000ffffffffffffffffffffffff0100020000000000a2a2a2a2a2a2a2a2\
    a2a2a2a2a2a2a2a2a2a2a2a2a2a2a2a20000000001000000010000000200000000000000ffffffffffffffffffffffff\
    0100020000000000";
const OLD_AREA: &str = "\
    070000000200000003000000030000000100000002000000010000000000000000000000000000000100000000000000\
    030000000000000003000000000000000000000000000000ffffffffffffffff02000000000000000300000000000000\
    030000000000000000000000000000000000000000000000000000000000000000000000000000000000000000000000\
    000000000000000000000000000000000000000000000000000000000000000000000000000000000000000000000000\
    000000000000000000000000000000000000000000000000000000000000000000000000010000000100000002000000\
    00000000ffffffffffffffffffffffff0100020000000000a0a0a0a0a0a0a0a0a0a0a0a0a0a0a0a0a0a0a0a0a0a0a0a0\
    0100000001000000020000000000000001000000ffffffffffffffffffffffff0100020000000000a1a1a1a1a1a1a1a1\
    a1a1a1a1a1a1a1a1a1a1a1a1a1a1a1a10200000001000000000000000100000002000000ffffffffffffffffffffffff\
    010002";

fn bytes_from(hex: &str) -> Vec<u8> {
    let digits: Vec<char> = hex.chars().filter(|digit| !digit.is_whitespace()).collect();
    digits.chunks(2).map(|pair| u8::from_str_radix(&pair.iter().collect::<String>(), 16).unwrap()).collect()
}

fn saved(run: &mut Run) {
    let case = Case::triangles();
    let part = bytes_from(OLD_PART);
    assert_eq!(run.calls.check_part(&part, &case.old, 1), 0);
    let (got, counts) = run.calls.region_counts(&part, &case.old, 1, &[7; REGIONS + 2]);
    assert_eq!((got, counts[0], counts[1], counts[REGIONS]), (0, 2, 0, 7));
    let mut area = bytes_from(OLD_AREA);
    area.resize(672, 0);
    assert_eq!(run.calls.progress_of(&area), crate::area::Progress { refusal: 0, heard: 2, due: 2 });
    let expected = case.new_part(1);
    assert_eq!(run.calls.close_area(&area, &vec![0; expected.len()]).1, expected);
}

fn counts(run: &mut Run) {
    let mut many = 0;
    while run.lacks(many > 50, format_args!("{many} parts with many trees of one region")) {
        run.cases(400, |random, calls| {
            let trees = meshes::count(random);
            let mut mesh = meshes::sound(random, trees);
            let some: Vec<u16> = (0..random.pick(&[1, 2, 5])).map(|_| random.below(REGIONS as u64) as u16).collect();
            for tree in 0..trees {
                mesh[region_at(place(tree))].copy_from_slice(&random.pick(&some).to_le_bytes());
            }
            let ranks = random.number(1, 4);
            let table = bytes_of(&cases::table(random, ranks as usize, trees as u32));
            for rank in 0..ranks {
                let length = calls.part_length(&mesh, &table, rank).length as usize;
                let (_, part) = calls.cut_part(&mesh, &table, rank, &vec![0; length]);
                let room = random.pick(&[REGIONS, REGIONS + 1, REGIONS + 300]);
                let before: Vec<u32> = (0..room).map(|_| random.next() as u32).collect();
                let (got, after) = calls.region_counts(&part, &table, rank, &before);
                assert_eq!(got, 0);
                assert_eq!(after[..REGIONS].iter().sum::<u32>(), number_at(&part, 20));
                many += u32::from(after[..REGIONS].iter().any(|&count| count > 5));
            }
        });
    }
}

fn refusals(run: &mut Run) {
    let objects = Objects::new(&mut run.calls);
    let mut bad = objects.part.clone();
    bad[HEADER + 39] = 16;
    for (table, fails) in kinds().into_iter().chain([(objects.case.new.clone(), 0)]) {
        for rank in [1, 2, 1_024, u32::MAX] {
            for part in [&objects.part, &bad] {
                for room in [0, 1, REGIONS - 1, REGIONS] {
                    let sound = table == objects.case.new && rank == 1 && part == &objects.part;
                    let bad_rank = if rank as usize >= table.len() / 8 - usize::from(table.len() >= 8) { 5 } else { 0 };
                    let bad_part = if sound { 0 } else { 8 };
                    let bad_room = if room < REGIONS { 22 } else { 0 };
                    let (got, _) = run.calls.region_counts(part, &table, rank, &vec![3; room]);
                    assert_eq!(got, first_of(&[fails, bad_rank, bad_part, bad_room]));
                }
            }
        }
    }
}

fn each_byte(run: &mut Run) {
    let objects = Objects::new(&mut run.calls);
    let mut accepted = 0;
    for at in 0..objects.part.len() {
        for change in [1, 16, 128, 255] {
            let mut part = objects.part.clone();
            part[at] ^= change;
            let (got, _) = run.calls.region_counts(&part, &objects.case.new, 1, &[9; REGIONS]);
            accepted += u32::from(got == 0);
        }
    }
    // any tree data; in three records any byte 38, and byte 39 with bit 0 changed
    assert_eq!(accepted, 2 * 24 * 4 + 3 * 4 + 3);
}

fn seen_refusals(run: &mut Run) {
    expect_seen(run, &[("region_counts", &[2, 3, 5, 8, 22])]);
}
