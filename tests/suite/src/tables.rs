//! Offset tables: the check, the length and a rank's range.
use crate::calls::Calls;
use crate::cases;
use crate::library::Range;
use crate::model::{bytes_of, MAX_RANKS, MAX_TREES};
use crate::{Run, Test};

pub const TESTS: &[Test] = &[
    ("table: the document's nine", documents_tables),
    ("table: ranges of the document's", documents_ranges),
    ("table: every small one", every_small),
    ("table: each length", each_length),
    ("table: ranks at the limits", rank_limits),
    ("table: trees at the limits", tree_limits),
    ("table: each byte changed", each_byte),
    ("table: each length cut", each_cut),
    ("table: any entries", any_entries),
    ("table: random valid ones, and spoilt", random_tables),
    ("table: length for any rank count", lengths),
];

/// The check, and the range of each rank and of ranks that are none.
fn all_of(calls: &mut Calls, table: &[u8]) -> u32 {
    let refusal = calls.check_table(table);
    let ranks = (table.len() / 8).saturating_sub(1) as u32;
    for rank in (0..=ranks).chain([u32::MAX]) {
        calls.table_range(table, rank);
    }
    refusal
}

fn documents_tables(run: &mut Run) {
    let valid: [&[i64]; 5] = [&[0, 1], &[0, -1, 1], &[0, 0, 0, 5], &[0, 3, -3, 5], &[0, -3, -3, 5]];
    let refused: [&[i64]; 4] = [&[0, 0], &[-1, 1], &[0, 4, 3, 5], &[0, -4, -3, 5]];
    for table in valid {
        assert_eq!(run.calls.check_table(&bytes_of(table)), 0, "{table:?}");
    }
    for table in refused {
        assert_eq!(run.calls.check_table(&bytes_of(table)), 3, "{table:?}");
    }
}

fn documents_ranges(run: &mut Run) {
    let cases: [(&[i64], &[(u32, u32)]); 5] = [
        (&[0, 1], &[(0, 1)]),
        (&[0, -1, 1], &[(0, 1), (0, 1)]),
        (&[0, 0, 0, 5], &[(0, 0), (0, 0), (0, 5)]),
        (&[0, 3, -3, 5], &[(0, 3), (3, 0), (2, 3)]),
        (&[0, -3, -3, 5], &[(0, 3), (2, 1), (2, 3)]),
    ];
    for (table, ranges) in cases {
        for (rank, &(first, count)) in ranges.iter().enumerate() {
            let range = run.calls.table_range(&bytes_of(table), rank as u32);
            assert_eq!(range, Range { refusal: 0, first, count }, "rank {rank} of {table:?}");
        }
        let range = run.calls.table_range(&bytes_of(table), ranges.len() as u32);
        assert_eq!(range, Range { refusal: 5, first: 0, count: 0 });
    }
}

fn every_small(run: &mut Run) {
    let mut valid = 0;
    for ranks in 1..=4 {
        cases::every_list(ranks + 1, -4, 4, |table| {
            if all_of(&mut run.calls, &bytes_of(table)) == 0 {
                valid += 1;
            }
        });
    }
    assert!(valid > 100, "only {valid} valid");
}

fn each_length(run: &mut Run) {
    for length in (0..=8_300).chain(16_380..16_420).chain(131_060..131_100) {
        // all on the last rank: valid wherever the length is that of a table
        let mut table = vec![0; length];
        if let Some(at) = length.checked_sub(8) {
            table[at] = 1;
        }
        let of_a_table = length % 8 == 0 && (2..=16_385).contains(&(length / 8));
        assert_eq!(run.calls.check_table(&table), if of_a_table { 0 } else { 2 }, "{length} bytes");
        assert_eq!(run.calls.table_range(&table, 0).refusal, if of_a_table { 0 } else { 2 }, "{length} bytes");
        // no trees at all
        table.fill(0);
        assert_eq!(run.calls.check_table(&table), if of_a_table { 3 } else { 2 }, "{length} bytes");
    }
}

fn rank_limits(run: &mut Run) {
    for (ranks, expected) in [(1, 0), (2, 0), (1_024, 0), (1_025, 0), (16_383, 0), (16_384, 0), (16_385, 2), (20_000, 2)] {
        for table in [vec![0; ranks], (0..ranks as i64).collect(), (0..ranks as i64).map(|p| -p.min(7)).collect()] {
            let mut table: Vec<i64> = table;
            table.push(ranks.max(7) as i64);
            assert_eq!(run.calls.check_table(&bytes_of(&table)), expected, "{ranks} ranks");
            let last = run.calls.table_range(&bytes_of(&table), ranks as u32 - 1);
            assert_eq!(last.refusal, expected);
            let none = run.calls.table_range(&bytes_of(&table), ranks as u32);
            assert_eq!(none.refusal, if expected == 0 { 5 } else { expected });
        }
    }
}

fn tree_limits(run: &mut Run) {
    let limit = MAX_TREES as i64;
    let wide = 1i64 << 32;
    let accepted = [1, 2, limit - 1, limit];
    let refused =
        [0, -1, -limit, limit + 1, limit + 2, 1 << 31, wide - 1, wide, wide + 1, i64::MAX, i64::MIN, i64::MIN + 1];
    for (trees, expected) in accepted.map(|k| (k, 0)).into_iter().chain(refused.map(|k| (k, 3))) {
        for table in [vec![0, trees], vec![0, 0, trees], vec![0, trees, trees], vec![0, -1, 1, trees]] {
            assert_eq!(all_of(&mut run.calls, &bytes_of(&table)), expected, "{table:?}");
        }
    }
    // an entry beyond K, or one whose size cannot be told in 64 bits
    for entry in [limit + 1, -limit - 1, wide, -wide, i64::MAX, i64::MIN, i64::MIN + 1] {
        assert_eq!(all_of(&mut run.calls, &bytes_of(&[0, entry, limit])), 3, "{entry}");
        assert_eq!(all_of(&mut run.calls, &bytes_of(&[0, entry, entry, limit])), 3, "{entry}");
    }
    assert_eq!(all_of(&mut run.calls, &bytes_of(&[0, limit, limit])), 0);
    assert_eq!(all_of(&mut run.calls, &bytes_of(&[0, -limit, limit])), 0);
}

fn each_byte(run: &mut Run) {
    let tables: [&[i64]; 6] =
        [&[0, 1], &[0, -1, 1], &[0, 3, -3, 5], &[0, -2, 3, 5], &[0, 255, -257, 65_536], &[0, 0, -600_000, 1_048_576]];
    for table in tables {
        let table = bytes_of(table);
        for at in 0..table.len() {
            for value in 0..=255 {
                let mut changed = table.clone();
                changed[at] = value;
                all_of(&mut run.calls, &changed);
            }
        }
    }
}

fn each_cut(run: &mut Run) {
    run.cases(60, |random, calls| {
        let ranks = random.number(1, 7) as usize;
        let table = bytes_of(&cases::table(random, ranks, 9));
        let longer = [table.clone(), random.bytes(20)].concat();
        for length in 0..=longer.len() {
            all_of(calls, &longer[..length]);
            all_of(calls, &longer[length..]);
        }
    });
}

fn any_entries(run: &mut Run) {
    run.cases(60_000, |random, calls| {
        let trees = i64::from(cases::trees(random));
        let ranks = random.number(1, 6) as usize;
        let mut table: Vec<i64> = (0..=ranks).map(|_| cases::entry(random, trees)).collect();
        if random.chance(200) {
            table[0] = 0;
        }
        if random.chance(200) {
            table[ranks] = trees;
        }
        all_of(calls, &bytes_of(&table));
    });
}

fn random_tables(run: &mut Run) {
    run.cases(6_000, |random, calls| {
        let (ranks, trees) = (cases::ranks(random), cases::trees(random));
        let table = cases::table(random, ranks, trees);
        assert_eq!(calls.check_table(&bytes_of(&table)), 0);
        for _ in 0..ranks.min(12) {
            calls.table_range(&bytes_of(&table), random.below(ranks as u64) as u32);
        }
        calls.table_range(&bytes_of(&table), ranks as u32 - 1);
        calls.table_range(&bytes_of(&table), cases::number(random));
        for _ in 0..4 {
            let spoilt = bytes_of(&cases::spoilt_table(random, table.clone()));
            calls.check_table(&spoilt);
            calls.table_range(&spoilt, random.below(ranks as u64 + 1) as u32);
        }
    });
}

fn lengths(run: &mut Run) {
    for ranks in 0..=20_000 {
        let got = run.calls.table_length(ranks);
        let fits = (1..=MAX_RANKS as u32).contains(&ranks);
        assert_eq!((got.refusal, got.length), if fits { (0, 8 * u64::from(ranks) + 8) } else { (2, 0) });
    }
    for bit in 0..32 {
        for ranks in [(1u32 << bit) - 1, 1 << bit, (1 << bit) + 1] {
            run.calls.table_length(ranks);
        }
    }
    run.cases(10_000, |random, calls| {
        calls.table_length(random.next() as u32);
    });
    assert_eq!(run.calls.table_length(u32::MAX).refusal, 2);
}
