//! The rows of maps: the work of each by std's maps and by hand over sorted `Vec`s of pairs.

use crate::clock::{Side, Times};
use crate::data::{Data, Numbers};
use crate::rows::{Case, Operation, Row, time_cases};
use std::cmp::Ordering;
use std::collections::{BTreeMap, HashMap};
use std::hint::black_box;

#[rustfmt::skip]
unsafe extern "C" {
    fn bench_maps(
        row: u64, left: *const u64, left_len: usize, m: usize,
        right: *const u64, right_len: usize, n: usize, rounds: u64,
    ) -> u64;
    fn bench_totals(
        left: *const u64, left_len: usize, m: usize,
        right: *const u64, right_len: usize, n: usize, rounds: u64,
    ) -> u64;
}

const MAP_ROWS: [Row; 8] = [
    Row::of("outer join", 0, Operation::Whole),
    Row::of("inner join", 1, Operation::Whole),
    Row::of("clone, outer join in place", 2, Operation::Whole),
    Row::of("clone, inner join in place", 3, Operation::Whole),
    Row::of("clone of a map", 4, Operation::Whole),
    Row::of("get of a map", 5, Operation::Single),
    Row::of("insert into a map, greatest first", 6, Operation::Moving),
    Row::of("clone, remove key by key", 7, Operation::Moving),
];

/// The row over total maps.
const TOTAL: Row = Row::of("greatest, key by key, of total maps", 0, Operation::Whole);

const ALL: usize = MAP_ROWS.len();
const JOINS: usize = 2;

const CASES: [Case; 6] = [
    (Data::Random, ALL, &[(4, 4), (8, 8), (64, 64), (1000, 1000), (100_000, 100_000)]),
    (Data::Random, JOINS, &[(1000, 100)]),
    (Data::Random, ALL, &[(1, 1000), (1000, 1), (10, 100_000)]),
    (Data::Random, JOINS, &[(1, 100_000), (100, 100_000), (1000, 100_000), (10_000, 100_000)]),
    (Data::Regular, JOINS, &[(8, 8), (64, 64), (1000, 1000), (100_000, 100_000)]),
    (Data::Clustered, JOINS, &[(1000, 100)]),
];

/// Prints the table of maps.
pub fn print(only: &str) {
    println!("| row | data | sizes | this library | BTreeMap | HashMap | sorted `Vec` by hand |");
    println!("|---|---|---|---|---|---|---|");
    time_cases(only, &MAP_ROWS, &TOTAL, &CASES, time_maps);
}

type Pairs = [(u64, u64)];

/// Two maps, as lists and as both of std's.
struct Maps {
    lists: [Vec<(u64, u64)>; 2],
    sorted: [BTreeMap<u64, u64>; 2],
    hashed: [HashMap<u64, u64>; 2],
}

impl Maps {
    /// The maps of each number to itself.
    fn new(a: &[u64], b: &[u64]) -> Maps {
        let lists = [a, b].map(|list| list.iter().map(|number| (*number, *number)).collect());
        let sorted = lists.each_ref().map(|list: &Vec<_>| list.iter().copied().collect());
        let hashed = lists.each_ref().map(|list| list.iter().copied().collect());
        Maps { lists, sorted, hashed }
    }
}

/// Rows over pairs of maps, and the one of total maps.
fn time_maps(rows: &[&Row], total: Option<&Row>, data: &Numbers) {
    let maps: Vec<Maps> = data.cut().map(|(a, b)| Maps::new(a, b)).collect();
    let (left, right, m, n) = (&data.left, &data.right, data.m, data.n);
    let (a, b, a_len, b_len) = (left.as_ptr(), right.as_ptr(), left.len(), right.len());
    for row in rows {
        let number = row.number;
        let sides = [
            // SAFETY: the pointers and lengths are those of the lists.
            Side::of(move |rounds| unsafe { bench_maps(number, a, a_len, m, b, b_len, n, rounds) }),
            Side::repeating(|| summed(&maps, |it| by_btree(number, &it.sorted, &it.lists[1]))),
            Side::repeating(|| summed(&maps, |it| by_hash(number, &it.hashed, &it.lists[1]))),
            Side::repeating(|| summed(&maps, |it| by_hand(number, &it.lists))),
        ];
        print_row(row, data, &sides);
    }
    if let Some(row) = total {
        let sides = [
            // SAFETY: as above.
            Side::of(move |rounds| unsafe { bench_totals(a, a_len, m, b, b_len, n, rounds) }),
            Side::repeating(|| summed(&maps, |it| greatest_by_btree(&it.sorted))),
            Side::repeating(|| summed(&maps, |it| greatest_by_hash(&it.hashed))),
            Side::repeating(|| summed(&maps, |it| greatest_by_hand(&it.lists))),
        ];
        print_row(row, data, &sides);
    }
}

/// The sum of what the work on each pair of maps answers.
fn summed(maps: &[Maps], work: impl Fn(&Maps) -> u64) -> u64 {
    maps.iter().map(work).sum()
}

fn print_row(row: &Row, data: &Numbers, sides: &[Side]) {
    let cells = Times::of(row.operations(data), sides).cells().join(" | ");
    println!("| {} | {} | {} | {cells} |", row.name, data.data.name(), data.sizes());
}

/// The functions of one kind of std's maps: the work of a row on two of them, of which the second
/// has these pairs, and the greatest of two values at each key of either.
macro_rules! by_map {
    ($map:ident, $work:ident, $greatest:ident) => {
        fn $work(row: u64, [a, b]: &[$map<u64, u64>; 2], pairs: &Pairs) -> u64 {
            let length = |map: $map<u64, u64>| black_box(map).len() as u64;
            match row {
                0 | 2 => {
                    let mut sums = a.clone();
                    for (key, value) in b {
                        let sum = sums.entry(*key).or_insert(0);
                        *sum = sum.wrapping_add(*value);
                    }
                    length(sums)
                }
                1 => {
                    let sum = |(key, v): (&u64, &u64)| Some((*key, v.wrapping_add(*b.get(key)?)));
                    length(a.iter().filter_map(sum).collect())
                }
                3 => {
                    let mut kept = a.clone();
                    kept.retain(|key, v| b.get(key).map(|w| *v = v.wrapping_add(*w)).is_some());
                    length(kept)
                }
                4 => length(a.clone()),
                5 => b.keys().filter(|key| a.contains_key(key)).count() as u64,
                7 => {
                    let mut rest = a.clone();
                    for key in b.keys() {
                        rest.remove(key);
                    }
                    length(rest)
                }
                _ => length(pairs.iter().rev().fold($map::new(), |mut map, (key, value)| {
                    map.insert(*key, *value);
                    map
                })),
            }
        }

        fn $greatest([a, b]: &[$map<u64, u64>; 2]) -> u64 {
            let mut greatest = a.clone();
            for (key, value) in b {
                greatest.entry(*key).and_modify(|old| *old = (*old).max(*value)).or_insert(*value);
            }
            black_box(greatest).len() as u64
        }
    };
}

by_map!(BTreeMap, by_btree, greatest_by_btree);
by_map!(HashMap, by_hash, greatest_by_hash);

/// The work of a row on two lists of pairs that ascend by key.
fn by_hand(row: u64, [a, b]: &[Vec<(u64, u64)>; 2]) -> u64 {
    let length = |list: Vec<(u64, u64)>| black_box(list).len() as u64;
    match row {
        0 => length(outer(a, b)),
        1 => length(inner(a, b)),
        2 => length(outer(&black_box(a.to_vec()), b)),
        3 => length(inner(&black_box(a.to_vec()), b)),
        4 => length(a.to_vec()),
        5 => {
            let is_found = |key| a.binary_search_by_key(key, |pair| pair.0).is_ok();
            b.iter().filter(|(key, _)| is_found(key)).count() as u64
        }
        7 => {
            let mut rest = a.to_vec();
            for (key, _) in b {
                if let Ok(place) = rest.binary_search_by_key(key, |pair| pair.0) {
                    rest.remove(place);
                }
            }
            length(rest)
        }
        _ => length(b.iter().rev().fold(Vec::new(), |mut list: Vec<(u64, u64)>, pair| {
            if let Err(place) = list.binary_search_by_key(&pair.0, |pair| pair.0) {
                list.insert(place, *pair);
            }
            list
        })),
    }
}

/// The greatest of two values at each key of either list.
fn greatest_by_hand([a, b]: &[Vec<(u64, u64)>; 2]) -> u64 {
    black_box(walk(a, b, true, u64::max)).len() as u64
}

fn outer(a: &Pairs, b: &Pairs) -> Vec<(u64, u64)> {
    walk(a, b, true, u64::wrapping_add)
}

fn inner(a: &Pairs, b: &Pairs) -> Vec<(u64, u64)> {
    walk(a, b, false, u64::wrapping_add)
}

/// One walk of both lists: `both` at shared keys, and the other pairs where `alone` says so.
fn walk(a: &Pairs, b: &Pairs, alone: bool, both: impl Fn(u64, u64) -> u64) -> Vec<(u64, u64)> {
    let mut out = Vec::with_capacity(if alone { a.len() + b.len() } else { a.len().min(b.len()) });
    let (mut i, mut j) = (0, 0);
    while i < a.len() && j < b.len() {
        match a[i].0.cmp(&b[j].0) {
            Ordering::Less => {
                if alone {
                    out.push(a[i]);
                }
                i += 1;
            }
            Ordering::Greater => {
                if alone {
                    out.push(b[j]);
                }
                j += 1;
            }
            Ordering::Equal => {
                out.push((a[i].0, both(a[i].1, b[j].1)));
                (i, j) = (i + 1, j + 1);
            }
        }
    }
    if alone {
        out.extend_from_slice(&a[i..]);
        out.extend_from_slice(&b[j..]);
    }
    out
}
