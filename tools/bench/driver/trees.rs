//! The rows of trees: the work of each by std's maps of whole keys, by hand over a sorted `Vec` of
//! pairs, and by Abseil's B-tree and JudySL where they were there.

use crate::clock::{Side, Times};
use crate::data::Keys;
use std::cmp::Ordering;
use std::collections::{BTreeMap, HashMap};
use std::hint::black_box;

type Key = Vec<u8>;
type Pair = (Key, u64);

/// What each of these functions takes: see those of the library's loops.
type TreeExport = unsafe extern "C" fn(
    u64,
    *const u8,
    usize,
    *const usize,
    usize,
    *const u8,
    usize,
    *const usize,
    usize,
    u64,
) -> u64;

#[rustfmt::skip]
unsafe extern "C" {
    fn bench_plain_tree(
        row: u64, bytes: *const u8, len: usize, ends: *const usize, count: usize,
        asked: *const u8, asked_len: usize, asked_ends: *const usize, asked_count: usize,
        rounds: u64,
    ) -> u64;
    fn bench_shared_tree(
        row: u64, bytes: *const u8, len: usize, ends: *const usize, count: usize,
        asked: *const u8, asked_len: usize, asked_ends: *const usize, asked_count: usize,
        rounds: u64,
    ) -> u64;
    #[cfg(absl)]
    fn bench_absl(
        row: u64, bytes: *const u8, len: usize, ends: *const usize, count: usize,
        asked: *const u8, asked_len: usize, asked_ends: *const usize, asked_count: usize,
        rounds: u64,
    ) -> u64;
    #[cfg(judy)]
    fn bench_judy(
        row: u64, bytes: *const u8, len: usize, ends: *const usize, count: usize,
        asked: *const u8, asked_len: usize, asked_ends: *const usize, asked_count: usize,
        rounds: u64,
    ) -> u64;
}

#[cfg(absl)]
const ABSL: Option<TreeExport> = Some(bench_absl);
#[cfg(not(absl))]
const ABSL: Option<TreeExport> = None;
#[cfg(judy)]
const JUDY: Option<TreeExport> = Some(bench_judy);
#[cfg(not(judy))]
const JUDY: Option<TreeExport> = None;

/// The columns of a table of trees, and the line below them.
pub const HEAD: &str = "| row | keys | plain tree | shared tree | BTreeMap | HashMap \
                        | sorted `Vec` by hand | absl::btree_map | JudySL |
|---|---|---|---|---|---|---|---|---|";

/// What a row of trees does: its name, its number in the library, and whether there is no such row
/// of plain trees. From [`IN_ORDER`] on it is the work of another row, on trees that were made of
/// ascending keys.
struct TreeRow {
    name: &'static str,
    number: u64,
    shared_alone: bool,
}

/// What the number of a row is more where its tree was made of ascending keys.
const IN_ORDER: u64 = 100;

impl TreeRow {
    const fn of(name: &'static str, number: u64) -> TreeRow {
        TreeRow { name, number, shared_alone: false }
    }

    const fn of_shared(name: &'static str, number: u64) -> TreeRow {
        TreeRow { name, number, shared_alone: true }
    }

    const fn of_ordered(name: &'static str, number: u64) -> TreeRow {
        TreeRow::of(name, IN_ORDER + number)
    }

    /// The number of its work, on whatever tree.
    fn work(&self) -> u64 {
        self.number % IN_ORDER
    }

    /// Whether its trees are made of ascending keys.
    fn is_ordered(&self) -> bool {
        self.number == 13 || self.number >= IN_ORDER
    }
}

const TREE_ROWS: [TreeRow; 20] = [
    TreeRow::of("build", 0),
    TreeRow::of("build, key by key", 12),
    TreeRow::of("build, in ascending order", 13),
    TreeRow::of("get", 1),
    TreeRow::of_shared("snapshot and insert", 2),
    TreeRow::of("iter", 3),
    TreeRow::of("iter, bytes read", 10),
    TreeRow::of("fold, bytes read", 14),
    TreeRow::of("values", 4),
    TreeRow::of_ordered("get, tree made in order", 1),
    TreeRow::of_ordered("iter, bytes read, tree made in order", 10),
    TreeRow::of_ordered("fold, bytes read, tree made in order", 14),
    TreeRow::of_ordered("values, tree made in order", 4),
    TreeRow::of_shared("into_iter of a snapshot", 5),
    TreeRow::of("union of two trees", 6),
    TreeRow::of("keys in one folder", 7),
    TreeRow::of("keys in one folder, bytes read", 11),
    TreeRow::of("keys in one folder, folded, bytes read", 15),
    TreeRow::of("longest beginning", 8),
    TreeRow::of("build, remove each key", 9),
];

/// From so many keys on a sorted list is not changed key by key, which takes time by the square of
/// their number, nor are whole maps cloned for one key.
const MANY: usize = 100_000;

/// Prints the table of what the rows that build take of memory, an amount each for a side.
#[cfg(counted)]
pub fn print_memory(names: [&str; 2], amounts: impl Fn(&Side) -> [usize; 2]) {
    for count in [10, 100, 1000, 10_000, MANY] {
        for row in TREE_ROWS.iter().filter(|row| [12, 13].contains(&row.number)) {
            let keys = if row.number == 13 { Keys::paths(count).ascending() } else { Keys::paths(count) };
            let taken = with_sides(row, &keys, |_, sides| sides.iter().map(&amounts).collect::<Vec<_>>());
            for (at, name) in names.iter().enumerate() {
                let cells = taken.iter().map(|it| format!("{:.1}", it[at] as f64 / count as f64));
                println!("| {}: {name} | {count} | {} |", row.name, cells.collect::<Vec<_>>().join(" | "));
            }
        }
    }
}

/// Prints the table of trees.
pub fn print(only: &str) {
    println!("{HEAD}");
    for count in [10, 100, 1000, 10_000, MANY] {
        let keys = Keys::paths(count);
        for row in TREE_ROWS.iter().filter(|row| row.name.contains(only)) {
            match row.number {
                2 | 9 if count == MANY => {}
                _ if row.is_ordered() => time_trees(row, &keys.ascending()),
                _ => time_trees(row, &keys),
            }
        }
    }
}

/// A row over trees of path-like keys.
fn time_trees(row: &TreeRow, keys: &Keys) {
    let times = with_sides(row, keys, Times::of);
    println!("| {} | {} | {} |", row.name, keys.list().count(), times.cells().join(" | "));
}

/// What is made of the operations of a row's round and its sides, in the order of the columns.
fn with_sides<R>(row: &TreeRow, keys: &Keys, work: impl FnOnce(usize, &[Side]) -> R) -> R {
    let list: Vec<Key> = keys.list().collect();
    let asked = match row.work() {
        1 => Keys::paths(list.len()),
        6 => Keys::paths(list.len() + 1),
        7 | 11 | 15 => Keys::folder("src/"),
        8 => keys.two_below(),
        _ => keys.clone(),
    };
    let maps = StdMaps::new(&list, asked.list().collect());
    let operations = match row.number {
        2 => 1,
        7 | 11 | 15 => maps.under().count().max(1),
        _ => list.len(),
    };
    let by_export = |export| by_export(export, row.number, keys, &asked);
    let sides = [
        if row.shared_alone { Side::none() } else { by_export(bench_plain_tree) },
        by_export(bench_shared_tree),
        Side::repeating(|| maps.by_btree(row.work())),
        Side::repeating(|| maps.by_hash(row.work())),
        Side::repeating(|| maps.by_hand(row.work())),
        ABSL.map_or(Side::none(), by_export),
        JUDY.map_or(Side::none(), by_export),
    ];
    work(operations, &sides)
}

/// The side of one flavour of trees, or of a map of another language.
fn by_export<'a>(export: TreeExport, row: u64, keys: &'a Keys, asked: &'a Keys) -> Side<'a> {
    let (a, a_len, a_ends, a_count) = keys.parts();
    let (b, b_len, b_ends, b_count) = asked.parts();
    // SAFETY: the pointers and lengths are those of the keys.
    Side::of(move |rounds| unsafe {
        export(row, a, a_len, a_ends, a_count, b, b_len, b_ends, b_count, rounds)
    })
}

/// The keys of a tree, each with its place, and those that are asked for or come in.
struct StdMaps {
    list: Vec<Key>,
    asked: Vec<Key>,
    sorted: BTreeMap<Key, u64>,
    other_sorted: BTreeMap<Key, u64>,
    hashed: HashMap<Key, u64>,
    other_hashed: HashMap<Key, u64>,
    pairs: Vec<Pair>,
    other_pairs: Vec<Pair>,
}

impl StdMaps {
    fn new(list: &[Key], asked: Vec<Key>) -> StdMaps {
        let sorted: BTreeMap<Key, u64> = numbered(list);
        let other_sorted: BTreeMap<Key, u64> = numbered(&asked);
        StdMaps {
            list: list.to_vec(),
            asked,
            hashed: sorted.clone().into_iter().collect(),
            other_hashed: other_sorted.clone().into_iter().collect(),
            pairs: sorted.clone().into_iter().collect(),
            other_pairs: other_sorted.clone().into_iter().collect(),
            sorted,
            other_sorted,
        }
    }

    /// The pairs whose keys begin with the first key that is asked for.
    fn under(&self) -> impl Iterator<Item = (&Key, &u64)> {
        let prefix = &self.asked[0];
        self.sorted.range(prefix.clone()..).take_while(move |(key, _)| key.starts_with(prefix))
    }

    /// The sum of what the keys that are asked for are bound to.
    fn finds<'a>(&'a self, get: impl Fn(&Key) -> Option<&'a u64>) -> u64 {
        self.asked.iter().filter_map(get).map(|number| number + 1).sum()
    }

    /// The sum of what the longest beginnings of the paths are bound to, and of their lengths: each
    /// beginning is looked up, the longest first.
    fn longest<'a>(&'a self, get: impl Fn(&[u8]) -> Option<&'a u64>) -> u64 {
        let longest = |path: &Key| (0..=path.len()).rev().find_map(|n| Some((n, get(&path[..n])?)));
        self.asked.iter().filter_map(longest).map(|(n, number)| number + n as u64).sum()
    }

    /// The sum of the values that come back where each key is taken out.
    fn removed(&self, mut remove: impl FnMut(&Key) -> Option<u64>) -> u64 {
        self.list.iter().filter_map(&mut remove).sum()
    }

    /// The pairs whose keys begin with the first key that is asked for, by a look at each.
    fn under_unordered(&self) -> impl Iterator<Item = (&Key, &u64)> {
        self.hashed.iter().filter(|(key, _)| key.starts_with(&self.asked[0]))
    }

    /// The same in a sorted list.
    fn under_in_list(&self) -> impl Iterator<Item = &Pair> {
        let prefix = &self.asked[0];
        let start = self.pairs.partition_point(|pair| pair.0 < *prefix);
        self.pairs[start..].iter().take_while(move |(key, _)| key.starts_with(prefix))
    }

    /// The work of a row on a sorted list.
    fn by_hand(&self, row: u64) -> u64 {
        match row {
            0 | 12 => {
                let mut pairs: Vec<Pair> = numbered(&self.list);
                pairs.sort();
                built(found(&pairs, &self.list[0]))
            }
            13 => built(found(&numbered::<Vec<Pair>>(&self.list), &self.list[0])),
            1 => self.finds(|key| found(&self.pairs, key)),
            2 => {
                let mut copy = self.pairs.clone();
                if let Ok(at) = copy.binary_search_by(|pair| pair.0.cmp(&self.list[0])) {
                    copy[at].1 = 7;
                }
                black_box(copy);
                1
            }
            3 => self.pairs.iter().map(|(key, value)| value + key.len() as u64).sum(),
            10 | 14 => self.pairs.iter().map(|(key, value)| value + bytes_of(key)).sum(),
            11 | 15 => self.under_in_list().map(|(key, value)| value + bytes_of(key)).sum(),
            4 => self.pairs.iter().map(|(_, value)| value).sum(),
            5 => cloned(self.pairs.iter().map(|(key, value)| (key, value))),
            6 => built(found(&united(&self.pairs, &self.other_pairs), &self.asked[0])),
            8 => self.longest(|key| found(&self.pairs, key)),
            9 => {
                let mut pairs: Vec<Pair> = numbered(&self.list);
                pairs.sort();
                let at = |pairs: &[Pair], key: &Key| pairs.binary_search_by(|it| it.0.cmp(key)).ok();
                self.removed(|key| at(&pairs, key).map(|place| pairs.remove(place).1))
            }
            _ => self.under_in_list().map(|(key, value)| value + key.len() as u64).sum(),
        }
    }
}

/// The work of a row on one kind of std's maps: by the fields that are such maps, and the pairs
/// whose keys begin with the first key that is asked for. A map without an order is walked in any.
macro_rules! by_map {
    ($work:ident, $map:ident, $own:ident, $other:ident, $under:ident) => {
        impl StdMaps {
            fn $work(&self, row: u64) -> u64 {
                match row {
                    0 | 13 => built(numbered::<$map<Key, u64>>(&self.list).get(&self.list[0])),
                    12 => {
                        let mut map = $map::new();
                        for (key, number) in self.list.iter().zip(0..) {
                            map.insert(key.clone(), number);
                        }
                        built(map.get(&self.list[0]))
                    }
                    1 => self.finds(|key| self.$own.get(key)),
                    2 => {
                        let mut copy = self.$own.clone();
                        copy.insert(self.list[0].clone(), 7);
                        black_box(copy);
                        1
                    }
                    3 => self.$own.iter().map(|(key, value)| value + key.len() as u64).sum(),
                    10 | 14 => self.$own.iter().map(|(key, value)| value + bytes_of(key)).sum(),
                    11 | 15 => self.$under().map(|(key, value)| value + bytes_of(key)).sum(),
                    4 => self.$own.values().sum(),
                    5 => cloned(self.$own.iter()),
                    6 => {
                        let mut both = self.$own.clone();
                        for (key, value) in &self.$other {
                            both.entry(key.clone()).or_insert(*value);
                        }
                        built(both.get(&self.asked[0]))
                    }
                    8 => self.longest(|key| self.$own.get(key)),
                    9 => {
                        let mut map: $map<Key, u64> = numbered(&self.list);
                        self.removed(|key| map.remove(key))
                    }
                    _ => self.$under().map(|(key, value)| value + key.len() as u64).sum(),
                }
            }
        }
    };
}

by_map!(by_btree, BTreeMap, sorted, other_sorted, under);
by_map!(by_hash, HashMap, hashed, other_hashed, under_unordered);

/// The sum of the bytes of a key, all of which a walk reads that does something with keys.
fn bytes_of(key: &Key) -> u64 {
    key.iter().map(|byte| u64::from(*byte)).sum()
}

/// Each key with its place.
fn numbered<M: FromIterator<Pair>>(keys: &[Key]) -> M {
    keys.iter().cloned().zip(0..).collect()
}

/// What a row that builds answers: a value that it can look up.
fn built(found: Option<&u64>) -> u64 {
    found.copied().unwrap_or(0)
}

/// The pairs as a walk by value gives them, each key cloned.
fn cloned<'a>(pairs: impl Iterator<Item = (&'a Key, &'a u64)>) -> u64 {
    pairs
        .map(|(key, value)| (key.clone(), *value))
        .map(|(key, value)| value + key.len() as u64)
        .sum()
}

fn found<'a>(pairs: &'a [Pair], key: &[u8]) -> Option<&'a u64> {
    pairs.binary_search_by(|pair| pair.0.as_slice().cmp(key)).ok().map(|at| &pairs[at].1)
}

/// Both lists as one; of two equal keys the left pair is kept.
fn united(left: &[Pair], right: &[Pair]) -> Vec<Pair> {
    let mut both = Vec::with_capacity(left.len() + right.len());
    let (mut left, mut right) = (left, right);
    while let ([a, a_rest @ ..], [b, b_rest @ ..]) = (left, right) {
        let order = a.0.cmp(&b.0);
        both.push(if order.is_le() { a.clone() } else { b.clone() });
        if order != Ordering::Greater {
            left = a_rest;
        }
        if order != Ordering::Less {
            right = b_rest;
        }
    }
    both.extend_from_slice(left);
    both.extend_from_slice(right);
    both
}
