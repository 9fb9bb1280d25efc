//! Bricks, against a Rust version that makes the same checks.
use crate::library::Length;
use crate::{row, times};
use std::hint::black_box;

extern "C" {
    fn vejgodat_write_brick(
        a: u32,
        b: u32,
        c: u32,
        periodic_a: u32,
        periodic_b: u32,
        periodic_c: u32,
        out: *mut u8,
        out_len: usize,
    ) -> Length;
}

/// Tree by tree, each record by whole words.
fn fast(extents: [u32; 3], periodic: [bool; 3], out: &mut [u8]) -> Result<usize, u32> {
    if extents.iter().any(|&extent| extent == 0 || extent > 64) {
        return Err(26);
    }
    let [a, b, c] = extents;
    let trees = a * b * c;
    let length = 8 + 64 * trees as usize;
    let out = out.get_mut(..length).ok_or(22u32)?;
    let (header, records) = out.split_at_mut(8);
    header[..4].copy_from_slice(&3u32.to_le_bytes());
    header[4..].copy_from_slice(&trees.to_le_bytes());
    let strides = [1, a, a * b];
    let mut at = [0; 3];
    for (k, record) in (0u32..).zip(records.chunks_exact_mut(64)) {
        let (mut pairs, mut codes) = ([0u64; 3], 0u64);
        for axis in 0..3 {
            let (last, around) = (extents[axis] - 1, (extents[axis] - 1) * strides[axis]);
            let (low_end, high_end) = (at[axis] == 0, at[axis] == last);
            let low = if !low_end {
                k - strides[axis]
            } else if periodic[axis] {
                k + around
            } else {
                k
            };
            let high = if !high_end {
                k + strides[axis]
            } else if periodic[axis] {
                k - around
            } else {
                k
            };
            pairs[axis] = u64::from(low) | u64::from(high) << 32;
            let (closed, face) = (!periodic[axis], 2 * axis as u64);
            codes |= (face + u64::from(!(closed && low_end))) << (16 * axis);
            codes |= (face + u64::from(closed && high_end)) << (16 * axis + 8);
        }
        let words = [u64::from(k) | 2 << 32, pairs[0], pairs[1], pairs[2], codes, 0, 0, 0];
        for (place, word) in record.chunks_exact_mut(8).zip(words) {
            place.copy_from_slice(&word.to_le_bytes());
        }
        at[0] += 1;
        if at[0] == a {
            at = [0, at[1] + 1, at[2]];
        }
        if at[1] == b {
            at = [at[0], 0, at[2] + 1];
        }
    }
    Ok(length)
}

pub fn rows() {
    for (powers, periodic) in [([4, 5, 5], [false; 3]), ([6, 6, 6], [false; 3]), ([6, 6, 6], [true, false, true])] {
        let extents = powers.map(|power: u32| 1u32 << power);
        let power: u32 = powers.iter().sum();
        let length = 8 + (64 << power);
        let library = |extents: [u32; 3], out: &mut [u8]| unsafe {
            let ([a, b, c], [p, q, r]) = (extents, periodic.map(u32::from));
            vejgodat_write_brick(a, b, c, p, q, r, out.as_mut_ptr(), out.len())
        };
        let [mut one, mut other] = [(); 2].map(|()| vec![0xA5u8; length]);
        assert_eq!(library(extents, &mut one), Length { refusal: 0, length: length as u64 });
        assert_eq!(fast(extents, periodic, &mut other), Ok(length));
        assert!(one == other, "the same mesh");
        let mut third = other.clone();
        let all = times(
            (1 << 26) >> power,
            1,
            [
                &mut || _ = black_box(library(black_box(extents), &mut one)),
                &mut || _ = black_box(fast(black_box(extents), periodic, &mut other)),
                &mut || _ = black_box(fast(black_box(extents), periodic, &mut third)),
            ],
        );
        // there is one version, timed twice
        let [library, once, again] = all;
        let axes = if periodic[0] { ", two axes periodic" } else { "" };
        let name = format!("write a brick of 2^{power} hexahedra{axes}");
        row(&name, Some(1 << power), [library, once.min(again), once.min(again)]);
    }
}
