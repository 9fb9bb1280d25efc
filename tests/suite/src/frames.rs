//! The frames that the compiler makes. A frame of several pages is probed page by page, in a loop whose end is in r11.
//! clang 22.1.8 may make the frame after an early return, where r11 holds a value that is read later, and the probe
//! overwrites it. No proof sees that, so the archive's instructions are read: whatever r11 held, after a probe it is written
//! before it is read, on every way that the control flow has, through other symbols too.
use crate::{Run, Test};
use std::collections::{HashMap, HashSet};
use std::process::Command;

pub const TESTS: &[Test] =
    &[("frames: no stack probe overwrites a value", archive), ("frames: one that does is found", examples)];

/// A section's number, and a place in it.
type Place = (usize, u64);

/// The instructions of a listing as objdump -dr prints it, each with its place, its text and the symbol that its relocation
/// names; and the places of symbols and sections.
#[derive(Default)]
struct Listing {
    code: Vec<(Place, String, Option<String>)>,
    at: HashMap<Place, usize>,
    names: HashMap<String, Place>,
}

fn hexadecimal(text: &str) -> Option<u64> {
    u64::from_str_radix(text.trim().trim_start_matches("0x"), 16).ok()
}

fn parse(text: &str) -> Listing {
    let (mut listing, mut section) = (Listing::default(), 0);
    for line in text.lines() {
        if let Some(name) = line.strip_prefix("Disassembly of section ") {
            section += 1;
            listing.names.insert(name.trim_end_matches(':').to_string(), (section, 0));
        } else if let Some((place, name)) = line.strip_suffix(">:").and_then(|line| line.split_once(" <")) {
            listing.names.insert(name.to_string(), (section, hexadecimal(place).expect("a symbol's place")));
        } else if let Some((place, words)) =
            line.split_once(':').and_then(|(place, words)| Some((hexadecimal(place)?, words)))
        {
            let words: Vec<&str> = words.split('#').next().unwrap().split_whitespace().collect();
            match words[..] {
                [kind, name] if kind.starts_with("R_X86_64") => {
                    listing.code.last_mut().expect("an instruction").2 = Some(name.to_string())
                }
                _ => {
                    listing.at.insert((section, place), listing.code.len());
                    listing.code.push(((section, place), words.join(" "), None));
                }
            }
        }
    }
    listing
}

/// Where an instruction that jumps goes on: None where it is unknown, and nowhere in a function of another archive.
fn target(listing: &Listing, (place, text, symbol): &(Place, String, Option<String>)) -> Option<Option<usize>> {
    let place = match symbol {
        None => (place.0, hexadecimal(text.split(' ').nth(1)?)?),
        // the field ends 4 bytes after the place that the relocation counts from
        Some(symbol) => {
            let (name, offset) = match symbol.rsplit_once(['-', '+']) {
                Some((name, offset)) if symbol.contains("-0x") => (name, 4u64.wrapping_sub(hexadecimal(offset)?)),
                Some((name, offset)) if symbol.contains("+0x") => (name, 4 + hexadecimal(offset)?),
                _ => (&symbol[..], 4),
            };
            match listing.names.get(name) {
                None => return Some(None),
                Some((section, start)) => (*section, start + offset),
            }
        }
    };
    listing.at.get(&place).map(|&at| Some(at))
}

/// What an instruction does with r11, of which the lowest byte may be `known`.
enum Use {
    None,
    Read,
    Written,
    ByteWritten,
}

fn used(text: &str, known: bool) -> Use {
    if !text.contains("%r11") {
        return Use::None;
    }
    if text == "xor %r11d,%r11d" {
        return Use::Written;
    }
    let (name, rest) = text.split_once(' ').unwrap_or((text, ""));
    let moves = name.starts_with("mov") || name == "lea" || name == "pop";
    let read = |from: &str| from.replace("%r11b", if known { "" } else { "%r11" }).contains("%r11");
    if let Some(from) = rest.strip_suffix("%r11").or(rest.strip_suffix("%r11d")) {
        return if moves && !read(from) { Use::Written } else { Use::Read };
    }
    match rest.strip_suffix("%r11b") {
        Some(from) if (moves || name.starts_with("set")) && !read(from) => Use::ByteWritten,
        _ if read(rest) => Use::Read,
        _ => Use::None,
    }
}

/// Whether a value that r11 has at an instruction may be read. A jump through a table may lead anywhere.
fn read(listing: &Listing, from: usize) -> bool {
    let (mut open, mut seen) = (vec![(from, false)], HashSet::new());
    while let Some((at, known)) = open.pop() {
        if !seen.insert((at, known)) {
            continue;
        }
        let Some(instruction) = listing.code.get(at) else { return true };
        let text = &instruction.1[..];
        let known = match used(text, known) {
            Use::Read => return true,
            Use::Written => continue,
            Use::ByteWritten => true,
            Use::None => known,
        };
        // by the calling convention no function reads r11 at its start, and none keeps it
        if ["call", "ret", "ud2"].iter().any(|end| text.starts_with(end)) {
            continue;
        }
        if text.starts_with('j') {
            match target(listing, instruction) {
                None => return true,
                Some(target) => open.extend(target.map(|at| (at, known))),
            }
        }
        if !text.starts_with("jmp") {
            open.push((at + 1, known));
        }
    }
    false
}

/// The number of probes in a listing, and the places of those that overwrite a value.
fn overwritten(listing: &str) -> (usize, Vec<Place>) {
    let listing = parse(listing);
    let probes = (0..listing.code.len()).filter(|&at| listing.code[at].1 == "cmp %r11,%rsp");
    // the jump back to the next page follows
    let (number, wrong): (Vec<()>, Vec<Option<Place>>) =
        probes.map(|at| ((), read(&listing, at + 2).then(|| listing.code[at].0))).unzip();
    (number.len(), wrong.into_iter().flatten().collect())
}

fn archive(_: &mut Run) {
    let archive = concat!(env!("CARGO_MANIFEST_DIR"), "/../../target/lib/libvejgodat.a");
    let listing = Command::new("objdump").args(["-dr", "--no-show-raw-insn", archive]).output().expect("objdump");
    let listing = String::from_utf8_lossy(&listing.stdout);
    let (probes, wrong) = overwritten(&listing);
    // each frame is probed by one such loop, whatever is before it, in steps of a page or, by today's compiler, of three quarters of one
    let begun = listing
        .lines()
        .filter(|line| line.contains("%rsp") && line.contains("sub ") && (line.contains("$0x1000,") || line.contains("$0xc00,")))
        .count();
    assert!(probes > 0 && probes == begun, "{probes} probes, {begun} steps");
    assert!(wrong.is_empty(), "a value in r11 is lost at {wrong:x?}");
}

/// A function in a section of its own: first some lines, the probe from 20 on, and then some lines from 40 on.
fn function(before: &str, after: &str) -> String {
    format!(
        "Disassembly of section .text.f:\n\n0000000000000000 <f>:\n{before}\n 20:\tmov %rsp,%r11\n 23:\tsub $0x30000,%r11\n \
         2a:\tsub $0x1000,%rsp\n 31:\tmovq $0x0,(%rsp)\n 39:\tcmp %r11,%rsp\n 3c:\tjne 2a <f+0x2a>\n{after}\n 80:\tret\n"
    )
}

fn examples(_: &mut Run) {
    let lost = |before: &str, after: &str| {
        let (probes, wrong) = overwritten(&function(before, after));
        assert_eq!(probes, 1);
        wrong == [(1, 0x39)]
    };
    let set = " 0:\tmov 0x8(%rdi),%r11\n 4:\tja 80 <f+0x80>";
    let read = " 40:\tcmp %rcx,%r11";
    // where the value is set
    assert!(lost(" 0:\tja 80 <f+0x80>\n 6:\tmov 0x8(%rdi),%r11", read), "in the same block");
    assert!(lost(" 0:\tja 20 <f+0x20>\n 2:\tmov 0x8(%rdi),%r11", read), "in a branch");
    assert!(lost(" 0:\tmov 0x8(%rdi),%r11\n 4:\tdec %rcx\n 7:\tjne 0 <f>", read), "in a loop");
    assert!(
        lost(
            " 0:\tja 60 <f+0x60>\n 2:\tjmp 80 <f+0x80>",
            " 40:\tcmp %rcx,%r11\n 43:\tret\n 60:\tmov 0x8(%rdi),%r11\n 64:\tjmp 20 <f+0x20>"
        ),
        "in a block after the probe"
    );
    // where it is read
    let part = |relocation: &str, text: &str| {
        format!(" 40:\tjmp 45 <f+0x45>\n\t\t\t41: R_X86_64_PLT32\t{relocation}\nDisassembly of section .text.g:\n\n0000000000000000 <g>:\n 0:\tret\n\n0000000000000004 <f.cold>:\n 4:\t{text}\n 8:\tret\nDisassembly of section .text.h:\n\n0000000000000000 <h>:\n")
    };
    assert!(lost(set, &part("f.cold-0x4", "mov %r11,(%rsi)")), "in a part that is split off");
    assert!(lost(set, &part(".text.g", "mov %r11,(%rsi)")), "in such a part, by its section");
    assert!(!lost(set, &part("f.cold-0x4", "mov %r10,(%rsi)")), "the part reads another");
    assert!(!lost(set, &part("memcpy-0x4", "mov %r11,(%rsi)")), "a function elsewhere");
    assert!(lost(set, " 40:\tje 60 <f+0x60>\n 42:\tlea 0x1(%rcx),%r11\n 60:\tmov %r11,(%rsi)"), "on one way");
    assert!(lost(set, " 40:\tmov %r10,%rax\n 43:\tjmp *%rax"), "after a jump through a table, perhaps");
    assert!(lost(set, " 40:\tsete %r11b\n 44:\tadd $0x1,%r11"), "around a byte that is written");
    assert!(lost(set, " 40:\tcmovne %rax,%r11\n 44:\tret"), "where a move keeps it");
    assert!(lost(set, " 40:\tja 1000 <f+0x1000>"), "nobody knows where");
    // right ones
    assert!(!lost(set, " 40:\tlea -0x1(%rcx),%r11\n 44:\tcmp %rcx,%r11"), "written first");
    assert!(!lost(set, " 40:\tsete %r11b\n 44:\tmovzbl %r11b,%r11d\n 48:\tmov %r11,(%rsi)"), "a byte written first");
    assert!(!lost(set, " 40:\tcall 100 <g>\n 45:\tmov %r11,(%rsi)"), "a call may write it");
    assert!(!lost(set, " 40:\tje 44 <f+0x44>\n 42:\tjmp 80 <f+0x80>\n 44:\tje 40 <f+0x40>"), "read nowhere");
}
