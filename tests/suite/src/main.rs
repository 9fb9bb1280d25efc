//! Tests of the C interface against a second implementation. Run: cargo run --release --offline [-- SEED [NAME]]
//! Where no seed is given, it is that of the environment variable VEJGODAT_SEED, and else always the same.
//! The last line is 'N passed, M failed'; the exit status is 0 only where nothing failed.
mod area_model;
mod calls;
mod cases;
mod faults_model;
mod headers_model;
mod library;
#[allow(dead_code)]
mod machine;
mod memory;
mod mesh_cases;
mod mesh_model;
mod message_model;
mod model;
mod part_model;
mod random;
mod refinement_model;
mod triangles_model;

use calls::Calls;
use random::Random;
use std::cell::RefCell;
use std::panic::{self, AssertUnwindSafe};
use std::thread;
use std::time::Instant;

/// A named test. It fails by a panic, or by making no call; those with these names make none.
pub type Test = (&'static str, fn(&mut Run));

const WITHOUT_CALLS: [&str; 3] = ["seen: ", "second: ", "frames: "];

/// Declares the modules with tests and lists those of each name in order.
macro_rules! groups {
    ($($list:ident { $($group:ident)* })*) => {
        $($(mod $group;)*)*

        $(fn $list() -> Vec<Test> {
            [$($group::TESTS),*].concat()
        })*
    };
}

// two lists of about the same time, which run beside each other, and what looks at all that both have seen
groups! {
    first_half {
        tables
        writing
        leaves
        weights
        blocks
        pattern
        mesh
        brick
        second
        part
        message
    }
    second_half {
        area
        refinement
        regions
        tree_data
        probes
        faults
        headers
        triangles
        columns
        restart
        many
    }
    rest {
        refusals
        nearest
        ranks
        frames
        symbols
    }
}

/// What a test is given.
pub struct Run {
    pub calls: Calls,
    seed: u64,
    name: &'static str,
    case: u64,
    drawn: u64,
    rounds: u64,
}

/// How often a test draws cases at most, until there are enough of each kind.
const ROUNDS: u64 = 20;

impl Run {
    fn new(seed: u64) -> Run {
        Run { calls: Calls::new(), seed, name: "", case: 0, drawn: 0, rounds: 0 }
    }

    /// Run numbered random cases, each with a generator of its own.
    pub fn cases(&mut self, number: u64, mut body: impl FnMut(&mut Random, &mut Calls)) {
        for _ in 0..number {
            self.case = self.drawn;
            self.drawn += 1;
            body(&mut Random::new(self.seed, self.name, self.case), &mut self.calls);
        }
    }

    /// Whether a test has to draw its cases, or more of them: there aren't enough of each kind. So no seed fails by bad luck; a
    /// kind that hardly ever comes up fails after some rounds, with the counts.
    pub fn lacks(&mut self, enough: bool, counts: std::fmt::Arguments) -> bool {
        assert!(enough || self.rounds < ROUNDS, "too few of a kind in {ROUNDS} rounds: {counts}");
        self.rounds += u64::from(!enough);
        !enough
    }

    /// Run the tests whose name has `wanted` in it: how many passed, and how many failed.
    fn all(&mut self, tests: Vec<Test>, wanted: &str) -> (u32, u32) {
        let (mut passed, mut failed) = (0, 0);
        for (name, test) in tests.into_iter().filter(|(name, _)| name.contains(wanted)) {
            let began = Instant::now();
            (self.name, self.case, self.drawn, self.rounds) = (name, 0, 0, 0);
            self.calls.begin(self.seed, name);
            let calls = self.calls.seen.calls;
            let mut ended = panic::catch_unwind(AssertUnwindSafe(|| test(self))).is_ok();
            let made = self.calls.seen.calls - calls;
            if ended && made == 0 && !WITHOUT_CALLS.iter().any(|start| name.starts_with(start)) {
                SAID.with(|said| *said.borrow_mut() = "it made no call".to_string());
                ended = false;
            }
            if ended {
                passed += 1;
                println!("ok      {name} ({made} calls, {:.1} s)", began.elapsed().as_secs_f64());
            } else {
                failed += 1;
                let said = SAID.with(|said| said.borrow().clone());
                println!("FAILED  {name}: seed {:#x}, case {}: {said}", self.seed, self.case);
            }
        }
        (passed, failed)
    }
}

thread_local! {
    /// what the last panic of the thread said, with its place
    static SAID: RefCell<String> = RefCell::default();
}

/// As much stack as a main thread has.
const STACK: usize = 8 << 20;

fn seed_of(text: &str) -> u64 {
    let number = match text.strip_prefix("0x") {
        Some(digits) => u64::from_str_radix(digits, 16),
        None => text.parse(),
    };
    number.expect("the seed is a number")
}

fn main() {
    let arguments: Vec<String> = std::env::args().skip(1).collect();
    let given = arguments.first().cloned().or(std::env::var("VEJGODAT_SEED").ok());
    let seed = given.map_or(0x5EED_2026, |text| seed_of(&text));
    let wanted = arguments.get(1).cloned().unwrap_or_default();

    panic::set_hook(Box::new(|panic| {
        let text = panic.to_string();
        SAID.with(|said| *said.borrow_mut() = text);
    }));

    println!("seed {seed:#x}");
    let halves = [first_half(), second_half()].map(|tests| {
        let wanted = wanted.clone();
        let half = thread::Builder::new().stack_size(STACK).spawn(move || {
            let mut run = Run::new(seed);
            let counts = run.all(tests, &wanted);
            (run.calls.seen, counts)
        });
        half.expect("a thread")
    });
    let mut run = Run::new(seed);
    let (mut passed, mut failed) = (0, 0);
    for half in halves {
        let (seen, counts) = half.join().expect("each test's panic is caught");
        run.calls.seen.add(seen);
        (passed, failed) = (passed + counts.0, failed + counts.1);
    }
    let counts = run.all(rest(), &wanted);
    (passed, failed) = (passed + counts.0, failed + counts.1);
    println!("{} calls compared", run.calls.seen.calls);
    println!("{passed} passed, {failed} failed");
    std::process::exit(if failed == 0 && passed > 0 { 0 } else { 1 });
}
