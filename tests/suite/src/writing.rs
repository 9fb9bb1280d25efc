//! The table of a partition.
use crate::calls::Calls;
use crate::cases;
use crate::library::Length;
use crate::model::{self, bytes_of, Trees, MAX_RANKS, MAX_TREES};
use crate::{Run, Test};

pub const TESTS: &[Test] = &[
    ("write: every small partition has the one table found by search", every_small),
    ("write: every small table comes back from its ranges", every_table_back),
    ("write: random valid partitions", random_partitions),
    ("write: spoilt partitions", spoilt),
    ("write: any numbers", any_numbers),
    ("write: sums beyond 32 bits", wide_sums),
    ("write: ranks and trees at the limits", limits),
    ("write: lists of other lengths", other_lengths),
    ("write: buffers of each length", each_buffer),
];

fn refused(refusal: u32) -> Length {
    Length { refusal, length: 0 }
}

fn every_small(run: &mut Run) {
    let (mut with_table, mut without) = (0, 0);
    for (ranks, high) in [(1, 5), (2, 4), (3, 3), (4, 2)] {
        let sets_of = |ranges: &[Trees]| -> Vec<_> { ranges.iter().map(Trees::set).collect() };
        let tables = (1..=2 * high).flat_map(|trees| cases::every_table(ranks, trees));
        let tables: Vec<_> = tables.map(|table| (sets_of(&model::ranges(&table)), table)).collect();
        cases::every_list(2 * ranks, 0, high, |list| {
            let list: Vec<u32> = list.iter().map(|&value| value as u32).collect();
            let (first, count) = list.split_at(ranks);
            // the tables whose ranges are these sets of trees
            let sets = sets_of(&model::partition(first, count));
            let found: Vec<&Vec<i64>> = tables.iter().filter(|table| table.0 == sets).map(|table| &table.1).collect();
            let (got, out) = run.calls.write_table(ranks as u32, first, count, &[7; 40]);
            match found[..] {
                [] => {
                    assert_eq!(got, refused(6), "{first:?} {count:?}");
                    without += 1;
                }
                [table] => {
                    assert_eq!(got, Length { refusal: 0, length: 8 * (ranks as u64 + 1) });
                    assert_eq!(out[..8 * (ranks + 1)], bytes_of(table), "{first:?} {count:?}");
                    with_table += 1;
                }
                _ => panic!("{first:?} {count:?} has the tables {found:?}"),
            }
        });
    }
    assert!(with_table > 500 && without > 5_000, "{with_table} with a table, {without} without");
}

fn every_table_back(run: &mut Run) {
    let mut tables = 0;
    for (ranks, trees) in [(1, 1), (1, 6), (2, 1), (2, 5), (3, 1), (3, 4), (4, 1), (4, 3), (5, 1), (5, 2)] {
        for table in cases::every_table(ranks, trees) {
            written_back(&mut run.calls, &table);
            tables += 1;
        }
    }
    assert!(tables > 300, "{tables}");
    run.cases(400, |random, calls| {
        let (ranks, trees) = (cases::ranks(random), cases::trees(random));
        let table = cases::table(random, ranks, trees);
        written_back(calls, &table);
    });
}

/// Read each range by the library, write them by the library, and get the table back.
fn written_back(calls: &mut Calls, table: &[i64]) {
    let bytes = bytes_of(table);
    let ranks = table.len() as u32 - 1;
    let ranges: Vec<_> = (0..ranks).map(|rank| calls.table_range(&bytes, rank)).collect();
    let first: Vec<u32> = ranges.iter().map(|range| range.first).collect();
    let count: Vec<u32> = ranges.iter().map(|range| range.count).collect();
    let (got, out) = calls.write_table(ranks, &first, &count, &vec![0xAA; bytes.len()]);
    assert_eq!(got.refusal, 0);
    assert_eq!(out, bytes);
}

fn random_partitions(run: &mut Run) {
    run.cases(4_000, |random, calls| {
        let (ranks, trees) = (cases::ranks(random), cases::trees(random));
        let partition = cases::partition(random, ranks, trees);
        let (first, count) = cases::lists(random, &partition);
        let before_length = 8 * (ranks + 1) + random.below(40) as usize;
        let before = random.bytes(before_length);
        let (got, out) = calls.write_table(ranks as u32, &first, &count, &before);
        assert_eq!(got, Length { refusal: 0, length: 8 * (ranks as u64 + 1) });
        assert_eq!(calls.check_table(&out[..8 * (ranks + 1)]), 0);
    });
}

fn spoilt(run: &mut Run) {
    let mut refusals = 0;
    run.cases(30_000, |random, calls| {
        let ranks = random.number(1, 9) as usize;
        let trees = if random.chance(16) { MAX_TREES as u32 } else { random.number(1, 12) };
        let partition = cases::partition(random, ranks, trees);
        let (mut first, mut count) = cases::lists(random, &partition);
        for _ in 0..1 + random.below(2) {
            let at = random.below(ranks as u64) as usize;
            let other = random.below(ranks as u64) as usize;
            let step = random.pick(&[1, u32::MAX, 2, u32::MAX - 1]);
            match random.below(7) {
                0 => first[at] = first[at].wrapping_add(step),
                1 => count[at] = count[at].wrapping_add(step),
                2 => count[at] = 0,
                3 => {
                    first.swap(at, other);
                    count.swap(at, other);
                }
                4 => {
                    first[at] = first[other];
                    count[at] = count[other];
                }
                5 => first[at] = cases::number(random),
                _ => count[at] = cases::number(random),
            }
        }
        let room = 8 * (ranks + 1) + random.below(9) as usize;
        let before = random.bytes(room);
        refusals += u32::from(calls.write_table(ranks as u32, &first, &count, &before).0.refusal == 6);
    });
    assert!((5_000..28_000).contains(&refusals), "{refusals} refused");
}

fn any_numbers(run: &mut Run) {
    run.cases(20_000, |random, calls| {
        let ranks = random.number(1, 5);
        let first: Vec<u32> = (0..ranks).map(|_| cases::number(random)).collect();
        let count: Vec<u32> = (0..ranks).map(|_| cases::number(random)).collect();
        let told = if random.chance(200) { ranks } else { cases::number(random) };
        let room = random.below(80) as usize;
        let before = random.bytes(room);
        calls.write_table(told, &first, &count, &before);
    });
}

fn wide_sums(run: &mut Run) {
    let most = u32::MAX;
    let cases: [(&[u32], &[u32]); 10] = [
        (&[0], &[most]),
        (&[1], &[most]),
        (&[most], &[1]),
        (&[most], &[2]),
        (&[most], &[most]),
        // right if first plus count is taken modulo 2^32
        (&[0, 5, 4], &[5, most, 3]),
        (&[0, 5], &[5, most - 3]),
        (&[0, most, 0], &[1, 2, 4]),
        (&[0, most], &[1, 1]),
        (&[0, 1 << 31, 1], &[1, 1 << 31, 1]),
    ];
    for (first, count) in cases {
        let (got, _) = run.calls.write_table(first.len() as u32, first, count, &[1; 64]);
        assert_eq!(got, refused(6), "{first:?} {count:?}");
    }
    // the same numbers do no harm where the count is 0
    let (got, out) = run.calls.write_table(4, &[most, 0, most, 1 << 31], &[0, 5, 0, 0], &[1; 64]);
    assert_eq!(got, Length { refusal: 0, length: 40 });
    assert_eq!(out[..40], bytes_of(&[0, 0, 5, 5, 5]));
}

fn limits(run: &mut Run) {
    let limit = MAX_TREES as u32;
    let room = vec![3; 8 * (MAX_RANKS + 1)];
    for (first, count, expected) in [
        (vec![0], vec![limit], 0),
        (vec![0], vec![limit + 1], 6),
        (vec![0, limit], vec![limit, 1], 6),
        (vec![0, limit - 1], vec![limit, 1], 0),
        (vec![0, limit - 1], vec![limit, 2], 6),
        (vec![0, limit - 1], vec![limit - 1, 1], 0),
        (vec![0, 0], vec![0, 0], 6),
        (vec![0], vec![0], 6),
        (vec![0], vec![1], 0),
        (vec![1], vec![1], 6),
    ] {
        let (got, _) = run.calls.write_table(first.len() as u32, &first, &count, &room);
        assert_eq!(got.refusal, expected, "{first:?} {count:?}");
    }
    for ranks in [1_023u32, 1_024, 1_025, 16_384] {
        // a tree each; all on tree 0; all trees on the last; an even share of the largest mesh
        let share = limit / ranks;
        let cases: [(Vec<u32>, Vec<u32>); 4] = [
            ((0..ranks).collect(), vec![1; ranks as usize]),
            (vec![0; ranks as usize], vec![1; ranks as usize]),
            (
                (0..ranks).map(|p| p << 20).collect(),
                (0..ranks).map(|p| if p + 1 == ranks { limit } else { 0 }).collect(),
            ),
            ((0..ranks).map(|p| p * share).collect(), vec![share; ranks as usize]),
        ];
        for (at, (mut first, count)) in cases.into_iter().enumerate() {
            if at == 2 {
                *first.last_mut().unwrap() = 0;
            }
            let (got, _) = run.calls.write_table(ranks, &first, &count, &room);
            assert_eq!(got, Length { refusal: 0, length: 8 * (u64::from(ranks) + 1) }, "case {at} of {ranks}");
        }
    }
    // every rank has all trees: far more than any table holds
    let (got, _) = run.calls.write_table(1_024, &[0; 1_024], &[limit; 1_024], &room);
    assert_eq!(got, refused(6));
    // rank counts outside the limits, with lists of that length where there can be one
    for ranks in [0, 16_385, 16_386, 65_536, 1 << 31, u32::MAX] {
        let held = ranks.min(20_000) as usize;
        let (got, _) = run.calls.write_table(ranks, &vec![0; held], &vec![1; held], &room);
        assert_eq!(got, refused(2), "{ranks}");
    }
}

fn other_lengths(run: &mut Run) {
    run.cases(300, |random, calls| {
        let ranks = random.number(1, 8) as usize;
        let trees = random.number(1, 12);
        let partition = cases::partition(random, ranks, trees);
        let (mut first, mut count) = cases::lists(random, &partition);
        // more entries that would say nothing
        first.extend([0; 3]);
        count.extend([0; 3]);
        let before = random.bytes(96);
        for first_length in 0..=ranks + 3 {
            for count_length in 0..=ranks + 3 {
                let (got, _) = calls.write_table(ranks as u32, &first[..first_length], &count[..count_length], &before);
                let expected = if first_length == ranks && count_length == ranks { 0 } else { 6 };
                assert_eq!(got.refusal, expected, "{ranks} ranks, lists of {first_length} and {count_length}");
            }
        }
    });
}

fn each_buffer(run: &mut Run) {
    run.cases(40, |random, calls| {
        let ranks = if random.chance(16) { 100 } else { random.number(1, 6) as usize };
        let trees = random.number(1, 12);
        let partition = cases::partition(random, ranks, trees);
        let (first, count) = cases::lists(random, &partition);
        let needed = 8 * (ranks + 1);
        for room in 0..=needed + 20 {
            let before = random.bytes(room);
            let (got, _) = calls.write_table(ranks as u32, &first, &count, &before);
            assert_eq!(got, if room < needed { refused(22) } else { Length { refusal: 0, length: needed as u64 } });
        }
    });
}
