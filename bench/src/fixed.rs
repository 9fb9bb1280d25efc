//! Costs over the number of ranks, and of parts of few trees: what a call costs whatever the part.
use crate::area::rank_rows;
use crate::fast::number;
use crate::message::{build_message, library_build};
use crate::part::{cut_part, part_reads};
use crate::{brick, bytes_of, floor, floor_row, quick, times};
use std::hint::black_box;

/// A rank in the middle, of P, with `each` trees: it gets 43 % of them from the rank before, as each rank does.
fn middle_rank(ranks: u32, each_power: u32) {
    let (power, each) = (ranks.ilog2() + each_power, 1i64 << each_power);
    let mesh = brick([power / 3, (power + 1) / 3, (power + 2) / 3]);
    let step = (each * 43 / 100).max(1);
    let old = bytes_of((0..=i64::from(ranks)).map(|p| p * each));
    let new = bytes_of((0..=i64::from(ranks)).map(|p| {
        let inside = p > 0 && p < i64::from(ranks);
        p * each - if inside { step } else { 0 }
    }));
    let (tables, rank) = ([&old[..], &new[..]], ranks / 2);
    let cut = |table: &[u8], p: u32| {
        let mut part = vec![0; 1 << 20];
        let length = cut_part::<false>(&mesh, table, p, &mut part).unwrap();
        part.truncate(length);
        part
    };
    let parts = [cut(&old, rank - 1), cut(&old, rank)];
    let what = format!("{each} trees, P = {ranks}");
    let part = &parts[1][..];
    let ends = [rank, rank + 1];
    let [mut a, mut b, mut c] = [(); 3].map(|()| vec![0; 2 * part.len()]);
    let got = library_build(part, tables, ends, &mut a);
    assert_eq!(got.refusal, 0);
    assert_eq!(build_message::<true>(part, tables, ends, 1, &mut b), Ok(got.length as usize));
    assert!(a == b, "the same message");
    let sent = number(&a, 24) as usize;
    let mut d = vec![0; got.length as usize];
    let all = times(
        2_000,
        1,
        [
            &mut || _ = black_box(library_build(black_box(part), tables, ends, &mut a)),
            &mut || _ = black_box(build_message::<false>(black_box(part), tables, ends, 1, &mut b)),
            &mut || _ = black_box(build_message::<true>(black_box(part), tables, ends, 1, &mut c)),
            &mut || floor(&part_reads(black_box(part)), &mut d),
        ],
    );
    floor_row(&format!("message of {sent} of {what}"), Some(sent), all);
    rank_rows(&what, tables, rank, [&parts[0], part], &cut(&new, rank), 2_000);
}

pub fn rows() {
    for each_power in [3, 6] {
        middle_rank(1_024, each_power);
    }
    for ranks in if quick() { &[16, 256][..] } else { &[16, 64, 256, 4_096, 16_384] } {
        middle_rank(*ranks, 6);
    }
}
