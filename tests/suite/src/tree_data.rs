//! Tree data that isn't sent shows nowhere (C-24): pairs of parts and of whole meshes that differ in it alone, through
//! the same calls. Needs the groups `part`, `message`, `area` and `regions`.
use crate::calls::{Calls, Tables};
use crate::cases;
use crate::library::Length;
use crate::mesh_cases::{self as meshes, place};
use crate::mesh_model::number_at;
use crate::model::{bytes_of, Pair};
use crate::part::{self, other_values};
use crate::part_model::{Share, HEADER, TREE};
use crate::random::Random;
use crate::second::Case;
use crate::{Run, Test};
use std::collections::BTreeMap;

pub const TESTS: &[Test] = &[
    ("tree data: of trees that aren't sent, messages show none", unsent),
    ("tree data: of trees that aren't sent, damaged parts and calls refused show none", unsent_refused),
    ("tree data: checks, neighbours, regions, lengths and refusals read none", unread),
    ("tree data: of trees outside the new range, areas and their parts show none", outside),
];

/// How many regions a part is asked for.
const REGIONS: usize = 4_096;

/// Where the data of a tree record stands.
fn data(record: usize) -> std::ops::Range<usize> {
    record + 40..record + 64
}

/// Other data in the record: every byte another one, or a single bit.
fn change(random: &mut Random, bytes: &mut [u8], record: usize) {
    if random.chance(128) {
        for byte in &mut bytes[data(record)] {
            *byte = random.pick(&other_values(*byte));
        }
    } else {
        bytes[record + 40 + random.below(24) as usize] ^= 1 << random.below(8);
    }
}

/// The part with other data in its trees that pass, and how many these are. It may be any bytes: the trees are those that
/// the header counts and the bytes have.
fn other_part(random: &mut Random, part: &[u8], pass: impl Fn(u32) -> bool) -> (Vec<u8>, usize) {
    let mut other = part.to_vec();
    if part.len() < HEADER {
        return (other, 0);
    }
    let count = number_at(part, 20).min(((part.len() - HEADER) / TREE) as u32);
    let passing: Vec<u32> = (0..count).filter(|&at| pass(number_at(part, 16).wrapping_add(at))).collect();
    for &at in &passing {
        change(random, &mut other, HEADER + TREE * at as usize);
    }
    (other, passing.len())
}

fn any_case(random: &mut Random, trees: usize) -> Case {
    let (trees, ranks) = (meshes::count(random).min(trees), random.number(1, 5) as usize);
    Case::random(random, trees, ranks)
}

/// A buffer that is too short, exact or longer, of any content.
fn buffer(random: &mut Random, length: u64) -> Vec<u8> {
    let length = length as usize;
    let room = match random.below(6) {
        0 => length.saturating_sub(1),
        1 => random.below(length as u64 + 1) as usize,
        2 | 3 => length,
        _ => length + random.below(70) as usize,
    };
    random.bytes(room)
}

/// Length and message of both parts are the same, in the same buffer.
fn same_message(
    random: &mut Random,
    calls: &mut Calls,
    [one, other]: [&[u8]; 2],
    tables: &Tables,
    ends: [u32; 2],
    epoch: u32,
) -> (Length, Vec<u8>) {
    let length = calls.message_length(one, tables, ends);
    assert_eq!(calls.message_length(other, tables, ends), length);
    let before = buffer(random, length.length);
    let built = calls.build_message(one, tables, ends, epoch, &before);
    assert_eq!(calls.build_message(other, tables, ends, epoch, &before), built, "{ends:?}");
    built
}

fn unsent(run: &mut Run) {
    let (mut hidden_of_built, mut shown) = (0, 0);
    while run.lacks(hidden_of_built > 1_000 && shown > 1_000, format_args!("{hidden_of_built}, {shown}")) {
        run.cases(400, |random, calls| {
            let case = any_case(random, 24);
            let tables = Tables::new(&case.old, &case.new);
            let pair = Pair::new(&case.old, &case.new).expect("two tables of a case");
            for p in 0..case.ranks() {
                let room = calls.part_length(&case.mesh, &case.old, p).length as usize;
                let (_, part) = calls.cut_part(&case.mesh, &case.old, p, &vec![0; room]);
                for q in 0..case.ranks() {
                    let sends = |k: u32| pair.sender(k, q) == Some(p);
                    let (other, hidden) = other_part(random, &part, |k| !sends(k));
                    assert_eq!(hidden > 0, other != part);
                    let (got, _) = same_message(random, calls, [&part, &other], &tables, [p, q], case.epoch);
                    hidden_of_built += if got.refusal == 0 { hidden } else { 0 };
                    // what is sent shows, so the calls read the part that they are given
                    let (sent, trees) = other_part(random, &part, sends);
                    let room = vec![0; calls.message_length(&part, &tables, [p, q]).length as usize];
                    let both = [&part, &sent].map(|part| calls.build_message(part, &tables, [p, q], case.epoch, &room));
                    assert_eq!(both[0].0, both[1].0);
                    assert_eq!(trees > 0, both[0].1 != both[1].1);
                    shown += trees;
                }
            }
        });
    }
}

fn unsent_refused(run: &mut Run) {
    let mut refusals: BTreeMap<u32, usize> = BTreeMap::new();
    run.cases(1_500, |random, calls| {
        let case = any_case(random, 12);
        let ranks = case.ranks();
        let [mut p, mut q] = [(); 2].map(|()| random.number(0, ranks - 1));
        let mut part = case.old_part(p);
        let mut tables = Tables::new(&case.old, &case.new);
        match random.below(5) {
            0 => {
                let at = random.below(part.len() as u64) as usize;
                part[at] = random.pick(&other_values(part[at]));
            }
            1 => part.truncate(random.below(part.len() as u64) as usize),
            2 => (p, q) = (random.number(0, ranks), random.number(0, ranks)),
            _ => {
                let entries = cases::table(random, ranks as usize, meshes::trees(&case.mesh) as u32);
                let mut spoilt = bytes_of(&cases::spoilt_table(random, entries));
                if random.chance(64) {
                    spoilt.truncate(random.below(spoilt.len() as u64) as usize);
                }
                tables =
                    if random.chance(128) { Tables::new(&spoilt, &case.new) } else { Tables::new(&case.old, &spoilt) };
            }
        }
        // what p sends q under the call's own tables and ranks
        let pair = Pair::new(&tables.old, &tables.new).ok().filter(|_| q < ranks);
        let sends = |k: u32| pair.as_ref().map_or(false, |pair| pair.sender(k, q) == Some(p));
        let (other, hidden) = other_part(random, &part, |k| !sends(k));
        let (got, _) = same_message(random, calls, [&part, &other], &tables, [p, q], case.epoch);
        *refusals.entry(got.refusal).or_default() += hidden;
    });
    for refusal in [0, 2, 3, 4, 5, 8, 9, 22] {
        assert!(refusals.get(&refusal).map_or(false, |&hidden| hidden > 0), "{refusal}: {refusals:?}");
    }
}

fn unread(run: &mut Run) {
    let mut changed = 0;
    while run.lacks(changed > 500, format_args!("{changed}")) {
        run.cases(400, |random, calls| {
            let trees = meshes::count(random).min(12);
            let case = part::Case::random(random, trees);
            let one = if random.chance(128) { case.part.clone() } else { part::one_field(random, &case) };
            let (other, trees_changed) = other_part(random, &one, |_| true);
            changed += trees_changed;
            let (table, rank) = (&case.table, case.rank);
            assert_eq!(calls.check_part(&one, table, rank), calls.check_part(&other, table, rank));
            let count = Share::new(table, rank).expect("a rank of the table").count();
            for local in 0..count + 1 {
                for face in 0..7 {
                    let both = [&one, &other].map(|part| calls.neighbour_of(part, table, rank, local, face));
                    assert_eq!(both[0], both[1]);
                }
            }
            let both = [&one, &other].map(|part| calls.region_counts(part, table, rank, &[7; REGIONS + 1]));
            assert_eq!(both[0], both[1]);
            let ranks = case.share().ranks;
            let new = bytes_of(&cases::table(random, ranks as usize, trees as u32));
            let tables = Tables::new(table, &new);
            for q in 0..ranks {
                let length = calls.message_length(&one, &tables, [rank, q]);
                assert_eq!(calls.message_length(&other, &tables, [rank, q]), length);
                let before = buffer(random, length.length);
                let both = [&one, &other].map(|part| calls.build_message(part, &tables, [rank, q], 3, &before).0);
                assert_eq!(both[0], both[1]);
            }
        });
    }
}

/// What a rank builds, through the C interface, from its part of a mesh.
fn built(calls: &mut Calls, case: &Case, mesh: &[u8]) -> BTreeMap<[u32; 2], Vec<u8>> {
    let tables = Tables::new(&case.old, &case.new);
    let mut messages = BTreeMap::new();
    for p in 0..case.ranks() {
        let room = calls.part_length(mesh, &case.old, p).length as usize;
        let (_, part) = calls.cut_part(mesh, &case.old, p, &vec![0; room]);
        for q in 0..case.ranks() {
            let length = calls.message_length(&part, &tables, [p, q]);
            if length.refusal == 0 {
                let room = vec![0; length.length as usize];
                messages.insert([p, q], calls.build_message(&part, &tables, [p, q], case.epoch, &room).1);
            }
        }
    }
    messages
}

fn outside(run: &mut Run) {
    let (mut closed, mut strays, mut hidden) = (0, 0, 0);
    while run.lacks(closed > 50 && strays > 100 && hidden > 500, format_args!("{closed}, {strays}, {hidden}")) {
        run.cases(500, |random, calls| {
            let case = any_case(random, 16);
            let q = random.number(0, case.ranks() - 1);
            let share = Share::new(&case.new, q).expect("a rank of the table");
            let mut mesh = case.mesh.clone();
            for tree in (0..meshes::trees(&mesh)).filter(|&tree| !share.holds(tree as u32)) {
                change(random, &mut mesh, place(tree));
                hidden += 1;
            }
            assert_eq!(calls.check_mesh(&mesh), 0);
            let messages = built(calls, &case, &case.mesh);
            let others = built(calls, &case, &mesh);
            assert!(messages.keys().eq(others.keys()));
            assert!(messages.iter().all(|(ends, message)| ends[1] != q || *message == others[ends]));
            // both in the same buffer, which is longer than the area
            let tables = Tables::new(&case.old, &case.new);
            let length = calls.area_length(&tables, q, case.dimension()).length as usize;
            let tail = random.pick(&[0, 1, 64]);
            let before = random.bytes(length + tail);
            let mut areas = [(); 2].map(|()| calls.open_area(&tables, q, case.dimension(), case.epoch, &before));
            let ends: Vec<[u32; 2]> = messages.keys().copied().collect();
            let for_q: Vec<[u32; 2]> = ends.iter().copied().filter(|ends| ends[1] == q).collect();
            for _ in 0..random.below(3 * ends.len() as u64 + 2) {
                assert_eq!(areas[0], areas[1]);
                if random.chance(64) {
                    let room = random.below(600) as usize;
                    let out = random.bytes(room);
                    let both = [0, 1].map(|at| calls.close_area(&areas[at].1, &out));
                    assert_eq!(both[0], both[1]);
                    continue;
                }
                let ends = if for_q.is_empty() || random.chance(80) { random.pick(&ends) } else { random.pick(&for_q) };
                let [one, other] = [&messages, &others].map(|messages| &messages[&ends]);
                strays += u64::from(one != other);
                let both = [calls.deliver(&areas[0].1, one), calls.deliver(&areas[1].1, other)];
                assert_eq!(both[0], both[1]);
                assert!(one == other || both[0].0 == 13);
                (areas[0].1, areas[1].1) = (both[0].1.clone(), both[1].1.clone());
            }
            assert_eq!(areas[0], areas[1]);
            assert_eq!(calls.progress_of(&areas[0].1), calls.progress_of(&areas[1].1));
            let length = calls.part_of_area_length(&areas[0].1);
            assert_eq!(calls.part_of_area_length(&areas[1].1), length);
            let out = random.bytes(length.length as usize);
            let both = [0, 1].map(|at| calls.close_area(&areas[at].1, &out));
            assert_eq!(both[0], both[1]);
            closed += u64::from(both[0].0.refusal == 0);
        });
    }
}
