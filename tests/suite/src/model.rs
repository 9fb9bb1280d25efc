//! The second implementation: document 01's sentences, plainly, by definition and by search. Nothing here is fast.
use std::collections::{BTreeMap, BTreeSet};

pub const MAX_RANKS: usize = 16_384;
pub const MAX_TREES: usize = 1_048_576;
pub const MAX_LEAVES: u32 = 16_777_216;

/// An answer, or the number of the first check that fails.
pub type Answer<T> = Result<T, u32>;

/// The trees first, first + 1 .. end - 1 of a rank.
#[derive(Clone, Debug, PartialEq, Eq)]
pub struct Trees {
    pub first: i128,
    pub end: i128,
}

impl Trees {
    pub fn count(&self) -> i128 {
        self.end - self.first
    }

    pub fn holds(&self, tree: i128) -> bool {
        self.first <= tree && tree < self.end
    }

    pub fn is_empty(&self) -> bool {
        self.count() == 0
    }

    pub fn set(&self) -> BTreeSet<i128> {
        (self.first..self.end).collect()
    }
}

// ---- tables

/// The entries of a table, 2 where no P within its limits has that length.
pub fn entries(bytes: &[u8]) -> Answer<Vec<i64>> {
    let of_some_rank_count = bytes.len() % 8 == 0 && (2..=MAX_RANKS + 1).contains(&(bytes.len() / 8));
    if !of_some_rank_count {
        return Err(2);
    }
    Ok(bytes.chunks(8).map(|piece| i64::from_le_bytes(piece.try_into().unwrap())).collect())
}

pub fn bytes_of(entries: &[i64]) -> Vec<u8> {
    entries.iter().flat_map(|entry| entry.to_le_bytes()).collect()
}

fn entry(table: &[i64], p: usize) -> i128 {
    i128::from(table[p])
}

/// f(p) by the formula.
pub fn range(table: &[i64], p: usize) -> Trees {
    let here = entry(table, p);
    let first = if here >= 0 { here } else { -here - 1 };
    Trees { first, end: entry(table, p + 1).abs() }
}

pub fn ranges(table: &[i64]) -> Vec<Trees> {
    (0..table.len() - 1).map(|p| range(table, p)).collect()
}

pub fn is_valid(table: &[i64]) -> bool {
    let ranks = table.len() - 1;
    let trees = entry(table, ranks);
    let begins = entry(table, 0) == 0;
    let ends = 1 <= trees && trees <= MAX_TREES as i128;
    let within = (0..=ranks).all(|p| -trees <= entry(table, p) && entry(table, p) <= trees);
    let counts = (0..ranks).all(|p| {
        let count = range(table, p).count();
        count >= 0 && (entry(table, p) >= 0 || count >= 1)
    });
    begins && ends && within && counts
}

/// The entries of a valid table, else 2 or 3.
pub fn table(bytes: &[u8]) -> Answer<Vec<i64>> {
    let table = entries(bytes)?;
    if is_valid(&table) {
        Ok(table)
    } else {
        Err(3)
    }
}

pub fn check_table(bytes: &[u8]) -> u32 {
    match table(bytes) {
        Ok(_) => 0,
        Err(refusal) => refusal,
    }
}

pub fn table_length(ranks: u32) -> Answer<u64> {
    if ranks == 0 || ranks as usize > MAX_RANKS {
        return Err(2);
    }
    Ok(8 * (u64::from(ranks) + 1))
}

/// The first tree and the count of a rank.
pub fn table_range(bytes: &[u8], rank: u32) -> Answer<(u32, u32)> {
    let table = table(bytes)?;
    if rank as usize >= table.len() - 1 {
        return Err(5);
    }
    let range = range(&table, rank as usize);
    Ok((range.first as u32, range.count() as u32))
}

// ---- writing

/// The one table of a partition, if it is valid. The ranges are those of ranks 0, 1 ..; an empty one has any first tree.
pub fn table_of(partition: &[Trees]) -> Option<Vec<i64>> {
    let some: Vec<&Trees> = partition.iter().filter(|range| !range.is_empty()).collect();
    let trees = some.iter().map(|range| range.end).max()?;
    if trees > MAX_TREES as i128 {
        return None;
    }
    // ascending, sharing only end trees: the last tree of a rank is not above the first of any rank behind it
    for (at, lower) in some.iter().enumerate() {
        for higher in &some[at + 1..] {
            if lower.end - 1 > higher.first {
                return None;
            }
        }
    }
    // covering all trees
    let mut covered = vec![false; trees as usize];
    for range in &some {
        for tree in range.first..range.end {
            covered[tree as usize] = true;
        }
    }
    if covered.contains(&false) {
        return None;
    }
    // O[P] is K. An empty rank has no negative entry, and its first tree is its end, |O[p+1]|.
    let ranks = partition.len();
    let mut table = vec![0; ranks + 1];
    table[ranks] = trees as i64;
    for p in (0..ranks).rev() {
        let here = &partition[p];
        table[p] = if here.is_empty() {
            table[p + 1].abs()
        } else if partition[..p].iter().any(|lower| lower.holds(here.first)) {
            -(here.first as i64) - 1
        } else {
            here.first as i64
        };
    }
    // it reads back
    assert!(is_valid(&table), "the model wrote {table:?}");
    for (read, written) in ranges(&table).iter().zip(partition) {
        assert!(read == written || read.is_empty() && written.is_empty(), "the model wrote {table:?}");
    }
    Some(table)
}

pub fn partition(firsts: &[u32], counts: &[u32]) -> Vec<Trees> {
    let both = firsts.iter().zip(counts);
    both.map(|(&first, &count)| Trees { first: first.into(), end: i128::from(first) + i128::from(count) }).collect()
}

/// The bytes written to a buffer of `room` bytes.
pub fn write_table(ranks: u32, firsts: &[u32], counts: &[u32], room: usize) -> Answer<Vec<u8>> {
    let length = table_length(ranks)?;
    if firsts.len() != ranks as usize || counts.len() != ranks as usize {
        return Err(6);
    }
    let table = table_of(&partition(firsts, counts)).ok_or(6u32)?;
    fits(bytes_of(&table), length, room)
}

fn fits(bytes: Vec<u8>, length: u64, room: usize) -> Answer<Vec<u8>> {
    assert_eq!(bytes.len() as u64, length);
    if room < bytes.len() {
        return Err(22);
    }
    Ok(bytes)
}

// ---- leaf counts

/// The partition by numbering the leaves tree by tree and collecting each rank's trees: for small totals.
pub fn leaves_by_numbering(ranks: usize, leaves: &[u32]) -> Vec<Trees> {
    let mut tree_of = Vec::new();
    for (tree, &count) in leaves.iter().enumerate() {
        for _ in 0..count {
            tree_of.push(tree as i128);
        }
    }
    let total = tree_of.len();
    // rank p has the leaves l with p <= l P / N < p + 1
    let share = |p: usize| {
        let own = |leaf: &usize| total * p <= leaf * ranks && leaf * ranks < total * (p + 1);
        let trees: BTreeSet<i128> = (0..total).filter(own).map(|leaf| tree_of[leaf]).collect();
        let range = match (trees.iter().next(), trees.iter().next_back()) {
            (Some(&first), Some(&last)) => Trees { first, end: last + 1 },
            _ => Trees { first: 0, end: 0 },
        };
        assert_eq!(range.set(), trees, "a rank's trees are consecutive");
        range
    };
    (0..ranks).map(share).collect()
}

/// a / b, rounded up.
pub fn rounded_up(a: i128, b: i128) -> i128 {
    -(-a).div_euclid(b)
}

/// The same from the number of leaves before each tree, in wide arithmetic: for any total.
pub fn leaves_by_sums(ranks: usize, leaves: &[u32]) -> Vec<Trees> {
    leaves_by_weights(&vec![1; ranks], leaves)
}

/// The partition for ranks of these weights, not all 0.
pub fn leaves_by_weights(weights: &[u32], leaves: &[u32]) -> Vec<Trees> {
    let mut before = vec![0i128];
    for &count in leaves {
        before.push(before[before.len() - 1] + i128::from(count));
    }
    let total = before[leaves.len()];
    // the tree k with before[k] <= leaf < before[k + 1]
    let tree_of = |leaf: i128| before.partition_point(|&b| b <= leaf) as i128 - 1;
    let whole: i128 = weights.iter().map(|&weight| i128::from(weight)).sum();
    let mut below = 0;
    let share = |&weight: &u32| {
        let from = rounded_up(total * below, whole);
        below += i128::from(weight);
        let to = rounded_up(total * below, whole);
        if from == to {
            return Trees { first: 0, end: 0 };
        }
        Trees { first: tree_of(from), end: tree_of(to - 1) + 1 }
    };
    weights.iter().map(share).collect()
}

/// The bytes written to a buffer of `room` bytes.
pub fn table_from_leaves(ranks: u32, leaves: &[u32], room: usize) -> Answer<Vec<u8>> {
    let length = table_length(ranks)?;
    if leaves.is_empty() || leaves.len() > MAX_TREES || leaves.iter().any(|&count| count < 1 || count > MAX_LEAVES) {
        return Err(6);
    }
    let partition = leaves_by_sums(ranks as usize, leaves);
    let total: u64 = leaves.iter().map(|&count| u64::from(count)).sum();
    if total <= 20_000 {
        let numbered = leaves_by_numbering(ranks as usize, leaves);
        assert_eq!(partition, numbered, "the model's two ways differ for {ranks} ranks, {leaves:?}");
    }
    let table = table_of(&partition).expect("leaf counts give a valid partition");
    fits(bytes_of(&table), length, room)
}

// ---- who sends

/// An old and a new partition of the same trees over the same ranks.
pub struct Pair {
    pub old: Vec<Trees>,
    pub new: Vec<Trees>,
    pub trees: u32,
    /// every tree's sender, collected when first asked for
    sent: Option<BTreeMap<(u32, u32), Trees>>,
}

impl Pair {
    /// 2 and 3 for either table, then 4.
    pub fn new(old: &[u8], new: &[u8]) -> Answer<Pair> {
        let (old, new) = (entries(old), entries(new));
        let (old, new) = (old?, new?);
        if !is_valid(&old) || !is_valid(&new) {
            return Err(3);
        }
        if old.len() != new.len() || old.last() != new.last() {
            return Err(4);
        }
        let trees = *old.last().unwrap() as u32;
        Ok(Pair { old: ranges(&old), new: ranges(&new), trees, sent: None })
    }

    pub fn ranks(&self) -> u32 {
        self.old.len() as u32
    }

    /// The sender of k to q, the old holder whose rank differs least from q, by search over all ranks; none where k isn't in f'(q).
    pub fn sender(&self, k: u32, q: u32) -> Option<u32> {
        let k = i128::from(k);
        if !self.new[q as usize].holds(k) {
            return None;
        }
        // of two at equal distance, the first is the lower
        let holders = (0..self.old.len() as u32).filter(|&p| self.old[p as usize].holds(k));
        let nearest = holders.min_by_key(|&p| p.abs_diff(q));
        Some(nearest.expect("every tree is on some rank"))
    }

    /// What each rank sends to each: from the sender of every tree of every rank.
    fn sent(&mut self) -> &BTreeMap<(u32, u32), Trees> {
        if self.sent.is_none() {
            let mut sent: BTreeMap<(u32, u32), Trees> = BTreeMap::new();
            for q in 0..self.ranks() {
                for k in self.new[q as usize].first..self.new[q as usize].end {
                    let p = self.sender(k as u32, q).expect("a tree of f'(q)");
                    let range = sent.entry((p, q)).or_insert(Trees { first: k, end: k });
                    assert_eq!(range.end, k, "the trees from {p} to {q} aren't one range");
                    range.end = k + 1;
                }
            }
            self.sent = Some(sent);
        }
        self.sent.as_ref().unwrap()
    }

    /// The first tree from p to q and their number; zeros where there is none.
    pub fn trees_sent(&mut self, p: u32, q: u32) -> (u32, u32) {
        match self.sent().get(&(p, q)) {
            Some(range) => (range.first as u32, range.count() as u32),
            None => (0, 0),
        }
    }

    /// Every q to which p sends a tree.
    pub fn send_set(&mut self, p: u32) -> BTreeSet<u32> {
        self.sent().keys().filter(|&&(from, _)| from == p).map(|&(_, to)| to).collect()
    }

    /// Every p from which q gets a tree.
    pub fn receive_set(&self, q: u32) -> BTreeSet<u32> {
        let trees = self.new[q as usize].first..self.new[q as usize].end;
        trees.map(|k| self.sender(k as u32, q).expect("a tree of f'(q)")).collect()
    }
}
