//! Each call of the library, compared with the model: the answer, every byte of the buffers, and the bytes around them.
use crate::library::{self, Length, Range, Ranks, Sender};
use crate::memory::{Arena, Place};
use crate::mesh_model::{self, Fault};
use crate::model::{self, Answer, Pair};
use crate::random::Random;
use std::collections::{BTreeMap, BTreeSet};

/// What a table is by itself: 0, 2 or 3.
type State = u32;

/// Which refusals were seen from which call. Only answers that the model agrees with are noted.
#[derive(Default)]
pub struct Seen {
    pub refusals: BTreeMap<&'static str, BTreeSet<u32>>,
    /// the calls of which a test knows what they can give
    pub listed: BTreeSet<&'static str>,
    /// for the calls with two tables: what the old and the new one are by themselves
    pub tables: BTreeMap<&'static str, BTreeSet<(State, State)>>,
    /// how often a mesh broke exactly these sentences; none is a sound one
    pub faults: BTreeMap<BTreeSet<Fault>, u64>,
    pub calls: u64,
}

impl Seen {
    /// What another run has seen, too.
    pub fn add(&mut self, other: Seen) {
        for (call, numbers) in other.refusals {
            self.refusals.entry(call).or_default().extend(numbers);
        }
        self.listed.extend(other.listed);
        for (call, states) in other.tables {
            self.tables.entry(call).or_default().extend(states);
        }
        for (faults, times) in other.faults {
            *self.faults.entry(faults).or_default() += times;
        }
        self.calls += other.calls;
    }
}

/// Room for the largest part.
const LARGEST: usize = 112 << 20;

pub struct Calls {
    pub seen: Seen,
    random: Random,
    pub old: Arena,
    pub new: Arena,
    pub list: Arena,
    pub other_list: Arena,
    pub out: Arena,
    /// a mesh, a part, a message or an area
    pub object: Arena,
}

/// An old and a new table, and what the model thinks of them.
pub struct Tables {
    pub old: Vec<u8>,
    pub new: Vec<u8>,
    pub pair: Answer<Pair>,
    states: (State, State),
}

impl Tables {
    pub fn new(old: &[u8], new: &[u8]) -> Tables {
        let states = (model::check_table(old), model::check_table(new));
        Tables { old: old.to_vec(), new: new.to_vec(), pair: Pair::new(old, new), states }
    }

    pub fn of(old: &[i64], new: &[i64]) -> Tables {
        Tables::new(&model::bytes_of(old), &model::bytes_of(new))
    }

    /// The pair, with the rank in its limits.
    fn with_rank(&mut self, rank: u32) -> Answer<&mut Pair> {
        let pair = self.pair.as_mut().map_err(|refusal| *refusal)?;
        if rank >= pair.ranks() {
            return Err(5);
        }
        Ok(pair)
    }
}

/// Bytes for a message: tables as their entries, cut where long.
pub fn show(bytes: &[u8]) -> String {
    let text = if bytes.len() % 8 == 0 {
        let entries: Vec<i64> = bytes.chunks(8).map(|piece| i64::from_le_bytes(piece.try_into().unwrap())).collect();
        format!("{entries:?}")
    } else {
        format!("{} bytes {bytes:?}", bytes.len())
    };
    cut(text)
}

pub fn cut(text: String) -> String {
    if text.len() <= 600 {
        return text;
    }
    format!("{}.. ({} characters)", &text[..600], text.len())
}

/// The buffer after an accepted call that writes at its beginning, or as it was.
pub fn written<T: Copy>(before: &[T], answer: &Answer<Vec<T>>) -> Vec<T> {
    let mut after = before.to_vec();
    if let Ok(values) = answer {
        after[..values.len()].copy_from_slice(values);
    }
    after
}

impl Calls {
    pub fn new() -> Calls {
        let tables = || Arena::new(200_000);
        let list = || Arena::new(4 * model::MAX_TREES + 8_192);
        Calls {
            seen: Seen::default(),
            random: Random::new(1, "places", 0),
            old: tables(),
            new: tables(),
            list: list(),
            other_list: list(),
            out: Arena::new(LARGEST),
            object: Arena::new(LARGEST),
        }
    }

    /// A test begins: its places follow from the seed and its name.
    pub fn begin(&mut self, seed: u64, test: &str) {
        self.random = Random::new(seed, test, u64::MAX);
    }

    pub fn place(&mut self) -> Place {
        match self.random.below(4) {
            0 => Place::Front,
            1 | 2 => Place::Back,
            _ => Place::Before(1 + self.random.below(31) as usize),
        }
    }

    pub fn put_tables(&mut self, tables: &Tables) -> (*const u8, usize, *const u8, usize) {
        let (a, b) = (self.place(), self.place());
        let old = self.old.put(&tables.old, a);
        let mut new = self.new.put(&tables.new, b);
        // buffers that are only read may be the same
        if tables.old == tables.new && self.random.chance(128) {
            new = old;
        }
        (old, tables.old.len(), new, tables.new.len())
    }

    pub fn note(&mut self, call: &'static str, refusal: u32) {
        self.seen.refusals.entry(call).or_default().insert(refusal);
        self.seen.calls += 1;
    }

    pub fn note_tables(&mut self, call: &'static str, refusal: u32, tables: &Tables) {
        assert_eq!(self.old.bytes(), tables.old, "{call} changed the old table");
        assert_eq!(self.new.bytes(), tables.new, "{call} changed the new table");
        self.note(call, refusal);
        self.seen.tables.entry(call).or_default().insert(tables.states);
    }

    pub fn check_table(&mut self, table: &[u8]) -> u32 {
        let expected = model::check_table(table);
        let place = self.place();
        let at = self.old.put(table, place);
        let got = unsafe { library::vejgodat_check_table(at, table.len()) };
        assert_eq!(got, expected, "check_table {}", show(table));
        assert_eq!(self.old.bytes(), table, "check_table changed the table");
        self.note("check_table", got);
        got
    }

    pub fn table_length(&mut self, ranks: u32) -> Length {
        let expected = length(model::table_length(ranks));
        let got = unsafe { library::vejgodat_table_length(ranks) };
        assert_eq!(got, expected, "table_length {ranks}");
        self.note("table_length", got.refusal);
        got
    }

    pub fn table_range(&mut self, table: &[u8], rank: u32) -> Range {
        let expected = trees(model::table_range(table, rank));
        let place = self.place();
        let at = self.old.put(table, place);
        let got = unsafe { library::vejgodat_table_range(at, table.len(), rank) };
        assert_eq!(got, expected, "table_range of rank {rank} in {}", show(table));
        assert_eq!(self.old.bytes(), table, "table_range changed the table");
        self.note("table_range", got.refusal);
        got
    }

    /// The answer, and the buffer behind it where it is accepted.
    pub fn write_table(&mut self, ranks: u32, first: &[u32], count: &[u32], before: &[u8]) -> (Length, Vec<u8>) {
        let answer = model::write_table(ranks, first, count, before.len());
        let (a, b, c) = (self.place(), self.place(), self.place());
        let first_at = self.list.put_numbers(first, a);
        let count_at = self.other_list.put_numbers(count, b);
        let out_at = self.out.put(before, c);
        let got = unsafe {
            library::vejgodat_write_table(ranks, first_at, first.len(), count_at, count.len(), out_at, before.len())
        };
        let said =
            || cut(format!("write_table {ranks}, {} first {first:?}, {} count {count:?}", first.len(), count.len()));
        assert_eq!(got, length(bytes_written(&answer)), "{}", said());
        let after = written(before, &answer);
        assert!(self.out.bytes() == after, "{}: wrote {}, not {}", said(), show(self.out.bytes()), show(&after));
        assert!(self.list.numbers() == first && self.other_list.numbers() == count, "{}: input changed", said());
        self.note("write_table", got.refusal);
        (got, after)
    }

    pub fn table_from_leaves(&mut self, ranks: u32, leaves: &[u32], before: &[u8]) -> (Length, Vec<u8>) {
        let answer = model::table_from_leaves(ranks, leaves, before.len());
        let (a, b) = (self.place(), self.place());
        let leaves_at = self.list.put_numbers(leaves, a);
        let out_at = self.out.put(before, b);
        let got = unsafe { library::vejgodat_table_from_leaves(ranks, leaves_at, leaves.len(), out_at, before.len()) };
        let said = || {
            let some = &leaves[..leaves.len().min(40)];
            format!("table_from_leaves {ranks}, {} counts {some:?}, buffer of {}", leaves.len(), before.len())
        };
        assert_eq!(got, length(bytes_written(&answer)), "{}", said());
        let after = written(before, &answer);
        assert!(self.out.bytes() == after, "{}: wrote {}, not {}", said(), show(self.out.bytes()), show(&after));
        assert!(self.list.numbers() == leaves, "{}: input changed", said());
        self.note("table_from_leaves", got.refusal);
        (got, after)
    }

    pub fn sender_of(&mut self, tables: &mut Tables, tree: u32, receiver: u32) -> Sender {
        let expected = match tables.with_rank(receiver) {
            Ok(pair) if tree >= pair.trees => Err(5),
            Ok(pair) => Ok(pair.sender(tree, receiver)),
            Err(refusal) => Err(refusal),
        };
        let expected = match expected {
            Ok(Some(sender)) => Sender { refusal: 0, sender: sender as i32 },
            Ok(None) => Sender { refusal: 0, sender: -1 },
            Err(refusal) => Sender { refusal, sender: 0 },
        };
        let (old, old_len, new, new_len) = self.put_tables(tables);
        let got = unsafe { library::vejgodat_sender_of(old, old_len, new, new_len, tree, receiver) };
        assert_eq!(got, expected, "sender_of tree {tree} to {receiver}, {}", shown(tables));
        self.note_tables("sender_of", got.refusal, tables);
        got
    }

    pub fn trees_sent(&mut self, tables: &mut Tables, sender: u32, receiver: u32) -> Range {
        let expected = match tables.with_rank(receiver.max(sender)) {
            Ok(pair) => Ok(pair.trees_sent(sender, receiver)),
            Err(refusal) => Err(refusal),
        };
        let expected = trees(expected);
        let (old, old_len, new, new_len) = self.put_tables(tables);
        let got = unsafe { library::vejgodat_trees_sent(old, old_len, new, new_len, sender, receiver) };
        assert_eq!(got, expected, "trees_sent from {sender} to {receiver}, {}", shown(tables));
        self.note_tables("trees_sent", got.refusal, tables);
        got
    }

    pub fn send_set(&mut self, tables: &mut Tables, rank: u32, before: &[u32]) -> (Ranks, Vec<u32>) {
        let set = tables.with_rank(rank).map(|pair| pair.send_set(rank));
        self.set("send_set", library::vejgodat_send_set, set, tables, rank, before)
    }

    pub fn receive_set(&mut self, tables: &mut Tables, rank: u32, before: &[u32]) -> (Ranks, Vec<u32>) {
        let set = tables.with_rank(rank).map(|pair| pair.receive_set(rank));
        self.set("receive_set", library::vejgodat_receive_set, set, tables, rank, before)
    }

    fn set(
        &mut self,
        call: &'static str,
        function: unsafe extern "C" fn(*const u8, usize, *const u8, usize, u32, *mut u32, usize) -> Ranks,
        set: Answer<BTreeSet<u32>>,
        tables: &Tables,
        rank: u32,
        before: &[u32],
    ) -> (Ranks, Vec<u32>) {
        let list: Answer<Vec<u32>> = match set {
            Ok(set) if before.len() < set.len() => Err(22),
            Ok(set) => Ok(set.into_iter().collect()),
            Err(refusal) => Err(refusal),
        };
        let expected = match &list {
            Ok(list) => Ranks {
                refusal: 0,
                count: list.len() as u32,
                smallest: list.first().map_or(-1, |&rank| rank as i32),
                largest: list.last().map_or(-2, |&rank| rank as i32),
            },
            Err(refusal) => Ranks { refusal: *refusal, count: 0, smallest: 0, largest: 0 },
        };
        let (old, old_len, new, new_len) = self.put_tables(tables);
        let place = self.place();
        let out = self.out.put_numbers(before, place);
        let got = unsafe { function(old, old_len, new, new_len, rank, out, before.len()) };
        assert_eq!(got, expected, "{call} of {rank}, {}", shown(tables));
        let after = written(before, &list);
        let now = self.out.numbers();
        assert!(now == after, "{call} of {rank}, {}: wrote {now:?}, not {after:?}", shown(tables));
        self.note_tables(call, got.refusal, tables);
        (got, after)
    }

    pub fn corners(&mut self, shape: u32, face: u32) -> u32 {
        let faces = mesh_model::SHAPES.get(shape as usize).map_or(&[][..], |shape| shape.1);
        let expected = faces.get(face as usize).copied().unwrap_or(0);
        let got = unsafe { library::vejgodat_corners(shape, face) };
        assert_eq!(got, expected, "corners of face {face} of shape {shape}");
        self.note("corners", 0);
        got
    }

    pub fn check_mesh(&mut self, mesh: &[u8]) -> u32 {
        let faults = mesh_model::faults(mesh);
        let expected = if faults.is_empty() { 0 } else { 7 };
        let place = self.place();
        let at = self.object.put(mesh, place);
        let got = unsafe { library::vejgodat_check_mesh(at, mesh.len()) };
        let said = || cut(format!("{faults:?} of {} bytes {:?}", mesh.len(), &mesh[..mesh.len().min(200)]));
        assert_eq!(got, expected, "check_mesh {}", said());
        assert!(self.object.bytes() == mesh, "check_mesh changed the mesh: {}", said());
        self.note("check_mesh", got);
        *self.seen.faults.entry(faults).or_default() += 1;
        got
    }
}

pub fn shown(tables: &Tables) -> String {
    format!("old {} new {}", show(&tables.old), show(&tables.new))
}

/// How many bytes an accepted call writes.
pub fn bytes_written(answer: &Answer<Vec<u8>>) -> Answer<u64> {
    match answer {
        Ok(bytes) => Ok(bytes.len() as u64),
        Err(refusal) => Err(*refusal),
    }
}

pub fn length(answer: Answer<u64>) -> Length {
    match answer {
        Ok(length) => Length { refusal: 0, length },
        Err(refusal) => Length { refusal, length: 0 },
    }
}

fn trees(answer: Answer<(u32, u32)>) -> Range {
    match answer {
        Ok((first, count)) => Range { refusal: 0, first, count },
        Err(refusal) => Range { refusal, first: 0, count: 0 },
    }
}
