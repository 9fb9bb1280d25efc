//! The second implementation against itself: what document 01 says of its objects together. No call of the library.
use crate::area_model::{self, close_area, deliver, open_area, progress};
use crate::cases;
use crate::mesh_cases::{self as meshes, apart, join};
use crate::mesh_model::{number_at, Link, Record};
use crate::message_model::{build_message, check_message, Message};
use crate::model::{bytes_of, Pair};
use crate::part_model::{check_part, cut_part, faults, ghosts_of, lookup, neighbour_of};
use crate::part_model::{Fault, Found, Kind, Part, Share, Tree, GHOST, HEADER, TREE};
use crate::random::Random;
use crate::{Run, Test};
use std::collections::{BTreeMap, BTreeSet};

pub const TESTS: &[Test] = &[
    ("second: parts of random meshes", parts),
    ("second: the document's three triangles", documents_triangles),
    ("second: each tree and each ghost in one message", once),
    ("second: every order of up to five senders", orders),
    ("second: every order with repeats and strays, as lists", lists),
    ("second: areas and messages that are spoilt", spoilt),
];

/// The document's three triangles: face 0 of each meets face 1 of the next, after 2 comes 0; face 2 is the boundary;
/// orientation 0. Tree data that tells them apart.
pub fn triangles() -> Vec<u8> {
    let mut mesh = apart(&[1, 1, 1], 0);
    for k in 0..3 {
        join(&mut mesh, (k, 0), ((k + 1) % 3, 1), 0);
        mesh[meshes::place(k) + 40..meshes::place(k + 1)].fill(0xA0 + k as u8);
    }
    mesh
}

#[rustfmt::skip]
const CORES: [[u8; 40]; 3] = [
    [
        0, 0, 0, 0,  1,  0, 0, 0,
        1, 0, 0, 0,  2, 0, 0, 0,  0, 0, 0, 0,  255, 255, 255, 255,  255, 255, 255, 255,  255, 255, 255, 255,
        1, 0, 2, 0, 0, 0,  0, 0,
    ],
    [
        1, 0, 0, 0,  1,  0, 0, 0,
        2, 0, 0, 0,  0, 0, 0, 0,  1, 0, 0, 0,  255, 255, 255, 255,  255, 255, 255, 255,  255, 255, 255, 255,
        1, 0, 2, 0, 0, 0,  0, 0,
    ],
    [
        2, 0, 0, 0,  1,  0, 0, 0,
        0, 0, 0, 0,  1, 0, 0, 0,  2, 0, 0, 0,  255, 255, 255, 255,  255, 255, 255, 255,  255, 255, 255, 255,
        1, 0, 2, 0, 0, 0,  0, 0,
    ],
];

/// The old and the new table of the triangles.
pub const TABLES: [[i64; 4]; 2] = [[0, 1, 3, 3], [0, -1, 2, 3]];

/// The messages of the triangles in epoch 7: sender, receiver and bytes.
pub fn triangle_messages() -> Vec<([u32; 2], Vec<u8>)> {
    #[rustfmt::skip]
    let headers: [[u8; 32]; 4] = [
        [7, 0, 0, 0, 2, 0, 0, 0, 3, 0, 0, 0, 3, 0, 0, 0, 0, 0, 0, 0, 0, 0, 0, 0, 1, 0, 0, 0, 2, 0, 0, 0],
        [7, 0, 0, 0, 2, 0, 0, 0, 3, 0, 0, 0, 3, 0, 0, 0, 0, 0, 0, 0, 1, 0, 0, 0, 1, 0, 0, 0, 0, 0, 0, 0],
        [7, 0, 0, 0, 2, 0, 0, 0, 3, 0, 0, 0, 3, 0, 0, 0, 1, 0, 0, 0, 1, 0, 0, 0, 1, 0, 0, 0, 1, 0, 0, 0],
        [7, 0, 0, 0, 2, 0, 0, 0, 3, 0, 0, 0, 3, 0, 0, 0, 1, 0, 0, 0, 2, 0, 0, 0, 1, 0, 0, 0, 2, 0, 0, 0],
    ];
    let [zero, one, two] = CORES;
    vec![
        ([0, 0], [&headers[0][..], &zero, &[0xA0; 24], &one, &two].concat()),
        ([0, 1], [&headers[1][..], &zero, &[0xA0; 24]].concat()),
        ([1, 1], [&headers[2][..], &one, &[0xA1; 24], &two].concat()),
        ([1, 2], [&headers[3][..], &two, &[0xA2; 24], &zero, &one].concat()),
    ]
}

/// A mesh, two tables of its trees and an epoch.
pub struct Case {
    pub mesh: Vec<u8>,
    pub old: Vec<u8>,
    pub new: Vec<u8>,
    pub epoch: u32,
}

impl Case {
    pub fn random(random: &mut Random, trees: usize, ranks: usize) -> Case {
        let mesh = meshes::sound(random, trees);
        let [old, new] = [(); 2].map(|()| bytes_of(&cases::table(random, ranks, trees as u32)));
        Case { mesh, old, new, epoch: cases::number(random) }
    }

    /// One rank gets all trees, which up to five others have.
    pub fn gathering(random: &mut Random) -> Case {
        let (ranks, trees) = (random.number(1, 6), random.number(1, 12));
        let mut case = Case::random(random, trees as usize, ranks as usize);
        let q = random.number(0, ranks - 1);
        case.new = bytes_of(&(0..=ranks).map(|p| if p <= q { 0 } else { i64::from(trees) }).collect::<Vec<i64>>());
        case
    }

    pub fn triangles() -> Case {
        let [old, new] = TABLES.map(|table| bytes_of(&table));
        Case { mesh: triangles(), old, new, epoch: 7 }
    }

    pub fn ranks(&self) -> u32 {
        self.old.len() as u32 / 8 - 1
    }

    pub fn dimension(&self) -> u32 {
        number_at(&self.mesh, 0)
    }

    pub fn old_part(&self, rank: u32) -> Vec<u8> {
        cut_part(&self.mesh, &self.old, rank, None).expect("a sound mesh")
    }

    pub fn new_part(&self, rank: u32) -> Vec<u8> {
        cut_part(&self.mesh, &self.new, rank, None).expect("a sound mesh")
    }

    /// All messages, by sender and receiver.
    pub fn messages(&self) -> BTreeMap<[u32; 2], Vec<u8>> {
        let mut messages = BTreeMap::new();
        for p in 0..self.ranks() {
            let part = self.old_part(p);
            for q in 0..self.ranks() {
                if let Ok(message) = build_message(&part, &self.old, &self.new, [p, q], self.epoch, None) {
                    messages.insert([p, q], message);
                }
            }
        }
        messages
    }

    pub fn fresh(&self, rank: u32) -> Vec<u8> {
        open_area(&self.old, &self.new, rank, self.dimension(), self.epoch, None).expect("a rank of both tables")
    }
}

/// Every order of the numbers below n.
pub fn permutations(n: usize) -> Vec<Vec<usize>> {
    if n == 0 {
        return vec![vec![]];
    }
    let mut all = Vec::new();
    for shorter in permutations(n - 1) {
        for at in 0..n {
            let mut longer = shorter.clone();
            longer.insert(at, n - 1);
            all.push(longer);
        }
    }
    all
}

/// A part cut out is sound and reads back as the mesh; its ghosts are those of the definition.
fn parts(run: &mut Run) {
    run.cases(400, |random, _| {
        let trees = meshes::count(random);
        let mesh = meshes::sound(random, trees);
        let ranks = random.number(1, 6);
        let table = bytes_of(&cases::table(random, ranks as usize, trees as u32));
        for rank in 0..ranks {
            let part = cut_part(&mesh, &table, rank, None).expect("a sound mesh");
            assert_eq!(cut_part(&mesh, &table, rank, Some(part.len())), Ok(part.clone()));
            assert_eq!(cut_part(&mesh, &table, rank, Some(part.len() - 1)), Err(22));
            assert_eq!(check_part(&part, &table, rank), 0);
            let share = Share::new(&table, rank).unwrap();
            let read = Part::decode(&part, &share);
            assert_eq!(read.encode(), Some(part.clone()));
            let mut ghosts = BTreeSet::new();
            for (local, tree) in read.trees.iter().enumerate() {
                let k = share.first() as usize + local;
                assert_eq!(tree.encode(), mesh[meshes::place(k)..meshes::place(k + 1)]);
                for (face, &neighbour) in tree.record.met().iter().enumerate() {
                    let there = neighbour_of(&part, &table, rank, local as u32, face as u32).unwrap();
                    let number = match there.kind {
                        Kind::Boundary | Kind::Local => share.first() + there.index,
                        Kind::Ghost => read.ghosts[(there.index - share.count()) as usize].number,
                        Kind::Unused => panic!("a used face"),
                    };
                    let link = Link { neighbour: number, face: there.face, orientation: there.orientation };
                    assert_eq!(link, meshes::link(&mesh, (k, face)));
                    if !share.holds(neighbour) {
                        ghosts.insert(neighbour);
                    }
                }
            }
            assert_eq!(
                read.ghosts.iter().map(|ghost| ghost.number).collect::<Vec<u32>>(),
                ghosts.iter().copied().collect::<Vec<u32>>()
            );
            for ghost in &read.ghosts {
                let at = meshes::place(ghost.number as usize);
                assert_eq!(ghost.core(), mesh[at..at + GHOST]);
            }
            let (tree_records, ghost_records) = part[HEADER..].split_at(TREE * read.trees.len());
            for k in 0..trees as u32 {
                let number = match lookup(tree_records, ghost_records, k) {
                    Found::Tree(at) => number_at(tree_records, at),
                    Found::Ghost(at) => number_at(ghost_records, at),
                    Found::None => {
                        assert!(!share.holds(k) && !ghosts.contains(&k));
                        continue;
                    }
                };
                assert_eq!(number, k);
            }
            // another rank's part, unless both are the same but for the rank
            let other = cut_part(&mesh, &table, (rank + 1) % ranks, None).unwrap();
            if ranks > 1 {
                assert!(faults(&other, &share).contains(&Fault::Header));
            }
        }
    });
}

fn documents_triangles(_: &mut Run) {
    let case = Case::triangles();
    let messages: Vec<([u32; 2], Vec<u8>)> = case.messages().into_iter().collect();
    assert_eq!(messages, triangle_messages());
    for p in 0..3 {
        for q in 0..3 {
            let got = build_message(&case.old_part(p), &case.old, &case.new, [p, q], 7, None);
            let there = messages.iter().any(|(ends, _)| *ends == [p, q]);
            assert_eq!(got.err(), if there { None } else { Some(9) }, "{p} to {q}");
        }
    }
    for q in 0..3 {
        let mut area = case.fresh(q);
        // 32, 2 tables of 32, 128, and 64 + 4 * 40 for each tree
        assert_eq!(area.len(), 32 + 64 + 128 + 224 * [1, 2, 1][q as usize]);
        for (ends, message) in &messages {
            assert_eq!(check_message(message), 0);
            match deliver(&area, message) {
                Ok(after) if ends[1] == q => area = after,
                got => assert_eq!(got, Err(13)),
            }
        }
        assert_eq!(close_area(&area, None), Ok(case.new_part(q)));
    }
}

/// The message from p to q by the definition over the whole mesh, not over a part.
fn message_by_mesh(case: &Case, p: u32, q: u32) -> Option<Vec<u8>> {
    let pair = Pair::new(&case.old, &case.new).unwrap();
    let records: Vec<Record> = case.mesh[8..].chunks(TREE).map(Record::decode).collect();
    let sends = |r: u32, k: u32| pair.sender(k, q) == Some(r);
    let trees = (0..pair.trees).filter(|&k| sends(p, k));
    let trees: Vec<Tree> = trees.map(|k| Tree::decode(&case.mesh[meshes::place(k as usize)..])).collect();
    let considers = |r: u32, ghost: &Record| {
        ghosts_of(&records, &pair.new[q as usize]).contains(&ghost.number) && ghost.met().iter().any(|&k| sends(r, k))
    };
    let ghosts = records.iter().filter(|ghost| {
        considers(p, ghost)
            && (p == q || !considers(q, ghost) && (0..pair.ranks()).find(|&r| considers(r, ghost)) == Some(p))
    });
    if trees.is_empty() {
        return None;
    }
    let message = Message {
        epoch: case.epoch,
        dimension: case.dimension(),
        trees: pair.trees,
        ranks: pair.ranks(),
        sender: p,
        receiver: q,
        records: trees,
        ghosts: ghosts.cloned().collect(),
    };
    Some(message.encode())
}

fn once(run: &mut Run) {
    let (mut ghosts_sent, mut kept) = (0, 0);
    while run.lacks(ghosts_sent > 1_000 && kept > 100, format_args!("{ghosts_sent} ghosts, {kept} kept")) {
        run.cases(300, |random, _| {
            let (trees, ranks) = (meshes::count(random).min(20), random.number(1, 6) as usize);
            let case = Case::random(random, trees, ranks);
            let messages = case.messages();
            for q in 0..ranks as u32 {
                let part = case.new_part(q);
                let part = Part::decode(&part, &Share::new(&case.new, q).unwrap());
                let (mut came, mut ghosts_came): (Vec<u32>, Vec<u32>) = (Vec::new(), Vec::new());
                for p in 0..ranks as u32 {
                    assert_eq!(messages.get(&[p, q]), message_by_mesh(&case, p, q).as_ref(), "{p} to {q}");
                    if let Some(message) = messages.get(&[p, q]) {
                        let message = Message::decode(message).expect("in layout");
                        came.extend(message.records.iter().map(|tree| tree.record.number));
                        ghosts_came.extend(message.ghosts.iter().map(|ghost| ghost.number));
                        ghosts_sent += message.ghosts.len();
                        kept += u32::from(p == q && !message.ghosts.is_empty());
                    }
                }
                came.sort_unstable();
                ghosts_came.sort_unstable();
                assert_eq!(came, part.trees.iter().map(|tree| tree.record.number).collect::<Vec<u32>>());
                assert_eq!(ghosts_came, part.ghosts.iter().map(|ghost| ghost.number).collect::<Vec<u32>>());
            }
        });
    }
}

/// Whatever the order, the area is that of the heard set: each state is reached from each that lacks one sender.
fn orders(run: &mut Run) {
    let mut of_senders = [0; 6];
    while run.lacks(of_senders.iter().all(|&number| number > 20), format_args!("{of_senders:?}")) {
        run.cases(1_500, |random, _| {
            let ranks = random.number(1, 6) as usize;
            let trees = meshes::count(random).min(12);
            let case = if random.chance(128) { Case::gathering(random) } else { Case::random(random, trees, ranks) };
            let messages = case.messages();
            for q in 0..case.ranks() {
                let mine: Vec<(u32, &Vec<u8>)> = messages
                    .iter()
                    .filter(|(ends, _)| ends[1] == q)
                    .map(|(ends, message)| (ends[0], message))
                    .collect();
                if mine.len() > 5 {
                    continue;
                }
                of_senders[mine.len()] += 1;
                let mut areas: Vec<Option<Vec<u8>>> = vec![None; 1 << mine.len()];
                areas[0] = Some(case.fresh(q));
                for heard in 0..areas.len() {
                    let area = areas[heard].clone().expect("reached from a smaller one");
                    let senders = heard.count_ones();
                    assert_eq!(progress(&area), Ok((senders, mine.len() as u32)));
                    let all = heard == areas.len() - 1;
                    assert_eq!(close_area(&area, None), if all { Ok(case.new_part(q)) } else { Err(20) });
                    for (at, (_, message)) in mine.iter().enumerate() {
                        let got = deliver(&area, message);
                        if heard >> at & 1 == 1 {
                            assert_eq!(got, Err(15));
                            continue;
                        }
                        let next = &mut areas[heard | 1 << at];
                        match next {
                            Some(next) => assert_eq!(got.as_ref(), Ok(&*next), "heard {heard:b}, then {at}"),
                            None => *next = Some(got.expect("a first delivery")),
                        }
                    }
                }
            }
        });
    }
}

/// Lists of calls in every order, with a repeat, a stray and a close between any two of them.
fn lists(run: &mut Run) {
    let mut closed = 0;
    while run.lacks(closed > 500, format_args!("{closed} closed")) {
        run.cases(200, |random, _| {
            let case = Case::gathering(random);
            let messages = case.messages();
            for q in 0..case.ranks() {
                let mine: Vec<&Vec<u8>> =
                    messages.iter().filter(|(ends, _)| ends[1] == q).map(|(_, message)| message).collect();
                let strays: Vec<&Vec<u8>> =
                    messages.iter().filter(|(ends, _)| ends[1] != q).map(|(_, message)| message).collect();
                if mine.len() > 4 {
                    continue;
                }
                let part = case.new_part(q);
                let mut ends = BTreeSet::new();
                for order in permutations(mine.len()) {
                    let mut area = case.fresh(q);
                    for (at, &next) in order.iter().enumerate() {
                        assert_eq!(close_area(&area, Some(random.below(9) as usize)), Err(20));
                        if at > 0 {
                            let again = random.pick(&order[..at]);
                            assert_eq!(deliver(&area, mine[again]), Err(15));
                        }
                        if !strays.is_empty() {
                            let stray: &Vec<u8> = random.pick(&strays);
                            assert_eq!(deliver(&area, stray), Err(13));
                        }
                        area = deliver(&area, mine[next]).expect("a first delivery");
                    }
                    assert_eq!(close_area(&area, Some(part.len() - 1)), Err(22));
                    assert_eq!(close_area(&area, Some(part.len())), Ok(part.clone()));
                    closed += 1;
                    ends.insert(area);
                }
                assert_eq!(ends.len(), 1);
            }
        });
    }
}

/// What the later checks say of crafted areas and messages.
fn spoilt(_: &mut Run) {
    // nine quadrilaterals in a row; rank 0 had all
    let mut mesh = apart(&[0; 9], 0);
    for k in 0..8 {
        join(&mut mesh, (k, 1), (k + 1, 0), 0);
    }
    let case_of = |new: [i64; 3]| Case { mesh: mesh.clone(), old: bytes_of(&[0, 9, 9]), new: bytes_of(&new), epoch: 3 };
    let filled = |area: &[u8], ghosts: &[usize]| {
        let read = area_model::read(area).expect("a sound area");
        let ghosts = ghosts.iter().map(|&k| meshes::record(&mesh, k)).collect();
        area_model::Area { ghosts, ..read }.encode()
    };

    // it keeps trees 0 and 1, and gets ghost 2
    let case = case_of([0, 2, 9]);
    let (area, message) = (case.fresh(0), case.messages()[&[0, 0]].clone());
    assert_eq!(filled(&area, &[]), area);
    // a ghost in an area that has heard nobody
    assert_eq!(deliver(&filled(&area, &[2]), &message), Err(10));
    assert_eq!(deliver(&filled(&area, &[8]), &message), Err(10));
    // another orientation is found when the part is joined
    let mut turned = Message::decode(&message).expect("in layout");
    turned.records[0].record.codes[1] = 4;
    let turned = deliver(&area, &turned.encode()).expect("in layout, and the trees due");
    assert_eq!(close_area(&turned, None), Err(21));

    // one filled slot allows four ghosts
    let case = case_of([0, 1, 9]);
    let (area, message) = (case.fresh(0), case.messages()[&[0, 0]].clone());
    let area = deliver(&area, &message).expect("a first delivery");
    assert_eq!(progress(&filled(&area, &[1, 4, 5, 6])), Ok((1, 1)));
    assert_eq!(progress(&filled(&area, &[4, 5, 6])), Ok((1, 1)));
}
