//! Rows over P: what a call costs for each rank.
use crate::library::{self, Length};
use crate::{bytes_of, fast, times};
use std::hint::black_box;

#[repr(C)]
struct Progress {
    refusal: u32,
    heard: u32,
    due: u32,
}

extern "C" {
    fn vejgodat_open_area(
        old: *const u8,
        old_len: usize,
        new: *const u8,
        new_len: usize,
        rank: u32,
        dimension: u32,
        epoch: u32,
        out: *mut u8,
        out_len: usize,
    ) -> Length;
    fn vejgodat_progress_of(area: *const u8, area_len: usize) -> Progress;
}

/// Rank p had tree p; the middle rank gets the last 64, rank 0 the others.
fn over(ranks: i64) {
    let old = bytes_of(0..=ranks);
    let new = bytes_of((0..=ranks).map(|p| match p {
        0 => 0,
        _ if p <= ranks / 2 => ranks - 64,
        _ => ranks,
    }));
    let q = ranks as u32 / 2;
    let (a, b) = ((old.as_ptr(), old.len()), (new.as_ptr(), new.len()));
    let mut area = vec![0u8; 2_096 + 16 * ranks as usize + 64 * 224];
    let mut set = vec![0u32; ranks as usize];
    let mut out = area.clone();
    let receive = |set: &mut [u32]| unsafe {
        library::vejgodat_receive_set(a.0, a.1, b.0, b.1, q, set.as_mut_ptr(), set.len())
    };
    let open = |out: &mut [u8]| unsafe {
        vejgodat_open_area(a.0, a.1, b.0, b.1, q, 2, 1, out.as_mut_ptr(), out.len())
    };
    let progress = |area: &[u8]| unsafe { vejgodat_progress_of(area.as_ptr(), area.len()) };
    assert_eq!((receive(&mut set).count, open(&mut area).refusal), (64, 0));
    let got = progress(&area);
    assert_eq!((got.refusal, got.heard, got.due), (0, 0, 64));
    // both tables read and checked once, by the second version
    let mut tables = || _ = black_box(fast::check_table(black_box(&old)) + fast::check_table(black_box(&new)));
    let mut again = tables.clone();
    let calls: [(&str, &mut dyn FnMut()); 3] = [
        ("receive set of 64 ranks", &mut || _ = black_box(receive(&mut set))),
        ("open an area of 64 trees", &mut || _ = black_box(open(&mut out))),
        ("progress of an area of 64 trees", &mut || _ = black_box(progress(black_box(&area)))),
    ];
    for (name, call) in calls {
        let [library, one, two] = times(400, 4, [call, &mut tables, &mut again]);
        println!(
            "| {name} | {ranks} | {:.2} | {:.2} | {:.2} |",
            library / 1_000.0,
            library / ranks as f64,
            library / one.min(two)
        );
    }
}

pub fn rows() {
    println!();
    println!("| call | P | library, µs | ns per rank | ratio to checking both tables |");
    println!("|---|---:|---:|---:|---:|");
    for ranks in [1_024, 1_025, 4_096, 16_384] {
        over(ranks);
    }
}
