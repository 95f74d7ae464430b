//! The rows of sets: the work of each by std's `BTreeSet`, by hand over sorted lists, and by boost.

use crate::clock::{Side, Times};
use crate::data::{Data, Keys, Numbers};
use crate::lists::{Galloping, Plain, copied, fresh, length, work};
use crate::rows::{Case, Operation, Row, time_cases};
use std::collections::BTreeSet;
use std::hint::black_box;

#[rustfmt::skip]
unsafe extern "C" {
    fn bench_numbers(
        row: u64, left: *const u64, left_len: usize, m: usize,
        right: *const u64, right_len: usize, n: usize, rounds: u64,
    ) -> u64;
    fn bench_words(
        row: u64, left: *const u8, left_len: usize, left_ends: *const usize, left_count: usize,
        m: usize, right: *const u8, right_len: usize, right_ends: *const usize, right_count: usize,
        n: usize, rounds: u64,
    ) -> u64;
    fn bench_total_sets(
        left: *const u64, left_len: usize, m: usize,
        right: *const u64, right_len: usize, n: usize, rounds: u64,
    ) -> u64;
    #[cfg(flat_set)]
    fn bench_flat(
        row: u64, left: *const u64, left_len: usize, m: usize,
        right: *const u64, right_len: usize, n: usize, rounds: u64,
    ) -> u64;
}

const SET_ROWS: [Row; 13] = [
    Row::of("union", 0, Operation::Whole),
    Row::of("intersection", 1, Operation::Whole),
    Row::of("difference", 2, Operation::Whole),
    Row::of("symmetric difference", 3, Operation::Whole),
    Row::of("clone, union in place", 4, Operation::Whole),
    Row::of("clone, intersection in place", 5, Operation::Whole),
    Row::of("clone", 6, Operation::Whole),
    Row::of("subset", 7, Operation::Whole),
    Row::of("disjoint", 8, Operation::Whole),
    Row::of("contains", 9, Operation::Single),
    Row::of("insert, greatest first", 10, Operation::Moving),
    Row::of("first of a range", 11, Operation::Single),
    Row::of("from_unsorted", FROM_UNSORTED, Operation::Single),
];

/// The row whose lists are in any order.
const FROM_UNSORTED: u64 = 12;

/// The union of a set with the complement of another one: all but what the other one alone has. The
/// others make the elements that it lacks, a difference.
const TOTAL: Row = Row::of("union with a complement", 2, Operation::Whole);

const ALL: usize = SET_ROWS.len();
const IN_PLACE_TOO: usize = 6;
const FRESH: usize = 4;
const UNION_AND_INTERSECTION: usize = 2;

const CASES: [Case; 10] = [
    (Data::Random, ALL, &[(4, 4), (8, 8), (64, 64), (1000, 1000), (100_000, 100_000)]),
    (Data::Random, FRESH, &[(1_000_000, 1_000_000), (1000, 500), (1000, 100)]),
    (Data::Random, ALL, &[(1, 1000), (1000, 1), (10, 100_000)]),
    (Data::Random, FRESH, &[(100_000, 1000)]),
    (
        Data::Random,
        UNION_AND_INTERSECTION,
        &[(1, 100_000), (100, 100_000), (1000, 100_000), (10_000, 100_000)],
    ),
    (Data::Regular, IN_PLACE_TOO, &[(8, 8), (64, 64), (1000, 1000), (100_000, 100_000)]),
    (Data::Regular, FRESH, &[(1_000_000, 1_000_000)]),
    (Data::Runs, FRESH, &[(1000, 1000), (100_000, 100_000), (1_000_000, 1_000_000)]),
    (
        Data::Disjoint,
        FRESH,
        &[(8, 8), (64, 64), (1000, 1000), (100_000, 100_000), (1_000_000, 1_000_000)],
    ),
    (Data::Clustered, FRESH, &[(1000, 100)]),
];

/// Prints the table of sets.
pub fn print(only: &str) {
    println!(
        "| row | elements | data | sizes | this library | to the plain loop | plain loop \
         | galloping | memcpy | flat_set | BTreeSet |"
    );
    println!("|---|---|---|---|---|---|---|---|---|---|---|");
    time_cases(only, &SET_ROWS, &TOTAL, &CASES, time_sets);
}

/// Rows over pairs of sets of numbers, and those of words where the sets are not large.
fn time_sets(rows: &[&Row], total: Option<&Row>, data: &Numbers) {
    time_numbers(rows, total, data);
    if !rows.is_empty() && data.data == Data::Random && data.m * data.n <= 1_000_000 {
        time_words(rows, data);
    }
}

/// Pairs of lists, and the same as std's sets: what the sides in Rust work on.
struct Pairs<T> {
    lists: Vec<(Vec<T>, Vec<T>)>,
    trees: Vec<(BTreeSet<T>, BTreeSet<T>)>,
}

impl<T: Ord + Clone> Pairs<T> {
    fn new(lists: Vec<(Vec<T>, Vec<T>)>) -> Pairs<T> {
        let set = |list: &Vec<T>| list.iter().cloned().collect();
        let trees = lists.iter().map(|(a, b)| (set(a), set(b))).collect();
        Pairs { lists, trees }
    }

    /// The sum of what the work on each pair of lists answers.
    fn by_lists(&self, work: impl Fn(&[T], &[T]) -> u64) -> u64 {
        self.lists.iter().map(|(a, b)| work(a, b)).sum()
    }

    /// The same with std's sets.
    fn by_trees(&self, work: impl Fn(&BTreeSet<T>, &BTreeSet<T>) -> u64) -> u64 {
        self.trees.iter().map(|(a, b)| work(a, b)).sum()
    }

    /// The sides of a row: the library, the plain loop, galloping, `memcpy`, boost and std.
    fn sides<'a>(&'a self, row: u64, [ours, copies, flat]: [Side<'a>; 3]) -> [Side<'a>; 6] {
        let (plain, galloping) = if row < 4 {
            let (plain, galloping) = (fresh::<Plain, T>(row), fresh::<Galloping, T>(row));
            for (a, b) in &self.lists {
                assert!(plain(a, b) == galloping(a, b), "galloping goes wrong");
            }
            let side = |form: fn(&[T], &[T]) -> Vec<T>| {
                Side::repeating(move || self.by_lists(|a, b| length(form(a, b))))
            };
            (side(plain), side(galloping))
        } else {
            (Side::repeating(move || self.by_lists(|a, b| work(row, a, b))), Side::none())
        };
        let std_set = match row {
            FROM_UNSORTED => Side::repeating(move || self.by_lists(|_, b| collected(b))),
            _ => Side::repeating(move || self.by_trees(|a, b| by_btree(row, a, b))),
        };
        [ours, plain, galloping, copies, flat, std_set]
    }
}

/// Rows over pairs of sets of numbers, and the one of total sets.
fn time_numbers(rows: &[&Row], total: Option<&Row>, data: &Numbers) {
    let pairs = Pairs::new(data.cut().map(|(a, b)| (a.to_vec(), b.to_vec())).collect());
    let mixed = data.with_right_lists_mixed();
    let in_any_order = Pairs::new(mixed.cut().map(|(a, b)| (a.to_vec(), b.to_vec())).collect());
    for row in rows {
        let number = row.number;
        let (data, pairs) = match number {
            FROM_UNSORTED => (&mixed, &in_any_order),
            _ => (data, &pairs),
        };
        let (left, right, m, n) = (&data.left, &data.right, data.m, data.n);
        let (a, b, a_len, b_len) = (left.as_ptr(), right.as_ptr(), left.len(), right.len());
        // SAFETY: the pointers and lengths are those of the lists.
        let ours = Side::of(move |rounds| unsafe {
            bench_numbers(number, a, a_len, m, b, b_len, n, rounds)
        });
        let copies = match number {
            0 => Side::floor(|| pairs.by_lists(|a, b| length(copied(a, b)))),
            _ => Side::none(),
        };
        let sides = pairs.sides(number, [ours, copies, flat(number, data)]);
        print_row(row, "u64", data, &sides);
    }
    if let Some(row) = total {
        let (left, right, m, n) = (&data.left, &data.right, data.m, data.n);
        let (a, b, a_len, b_len) = (left.as_ptr(), right.as_ptr(), left.len(), right.len());
        // SAFETY: as above.
        let ours =
            Side::of(move |rounds| unsafe { bench_total_sets(a, a_len, m, b, b_len, n, rounds) });
        let turned = Pairs::new(pairs.lists.into_iter().map(|(a, b)| (b, a)).collect());
        print_row(row, "u64", data, &turned.sides(row.number, [ours, Side::none(), Side::none()]));
    }
}

/// The side of boost, where its headers were there.
#[cfg(flat_set)]
fn flat(row: u64, data: &Numbers) -> Side<'_> {
    if row >= 4 {
        return Side::none();
    }
    let (left, right) = (&data.left, &data.right);
    // SAFETY: the pointers and lengths are those of the lists.
    Side::of(move |rounds| unsafe {
        let (a, b) = (left.as_ptr(), right.as_ptr());
        bench_flat(row, a, left.len(), data.m, b, right.len(), data.n, rounds)
    })
}

/// Boost is no side of this program.
#[cfg(not(flat_set))]
fn flat(_row: u64, _data: &Numbers) -> Side<'_> {
    Side::none()
}

/// Rows over pairs of sets of words.
fn time_words(rows: &[&Row], data: &Numbers) {
    let (left, right) = (Keys::words(&data.left), Keys::words(&data.right));
    let cut = |keys: &Keys, n: usize| keys.texts().chunks(n).map(<[String]>::to_vec).collect();
    let (lefts, rights): (Vec<_>, Vec<_>) = (cut(&left, data.m), cut(&right, data.n));
    let pairs = Pairs::new(lefts.into_iter().zip(rights).collect());
    let (m, n) = (data.m, data.n);
    let (a, a_len, a_ends, a_count) = left.parts();
    let (b, b_len, b_ends, b_count) = right.parts();
    for row in rows.iter().filter(|row| row.number != FROM_UNSORTED) {
        let number = row.number;
        // SAFETY: the pointers and lengths are those of the keys.
        let ours = Side::of(move |rounds| unsafe {
            bench_words(number, a, a_len, a_ends, a_count, m, b, b_len, b_ends, b_count, n, rounds)
        });
        let sides = pairs.sides(number, [ours, Side::none(), Side::none()]);
        print_row(row, "String", data, &sides);
    }
}

/// The work of a row on two sets of std's.
fn by_btree<T: Ord + Clone>(row: u64, a: &BTreeSet<T>, b: &BTreeSet<T>) -> u64 {
    let length = |set: BTreeSet<T>| black_box(set).len() as u64;
    match row {
        0 => length(a.union(b).cloned().collect()),
        1 => length(a.intersection(b).cloned().collect()),
        2 => length(a.difference(b).cloned().collect()),
        3 => length(a.symmetric_difference(b).cloned().collect()),
        4 => {
            let mut copy = a.clone();
            copy.extend(b.iter().cloned());
            length(copy)
        }
        5 => {
            let mut copy = a.clone();
            copy.retain(|x| b.contains(x));
            length(copy)
        }
        6 => length(a.clone()),
        7 => u64::from(a.is_subset(b)),
        8 => u64::from(a.is_disjoint(b)),
        9 => b.iter().filter(|x| a.contains(x)).count() as u64,
        11 => b.iter().filter(|x| a.range(*x..).next().is_some()).count() as u64,
        _ => length(b.iter().rev().cloned().fold(BTreeSet::new(), |mut set, x| {
            set.insert(x);
            set
        })),
    }
}

/// The number of elements of a set of std's, made of a list in any order.
fn collected<T: Ord + Clone>(list: &[T]) -> u64 {
    black_box(list.iter().cloned().collect::<BTreeSet<T>>()).len() as u64
}

fn print_row(row: &Row, elements: &str, data: &Numbers, sides: &[Side; 6]) {
    let times = Times::of(row.operations(data), sides);
    let mut cells = times.cells();
    cells.insert(1, times.ratio(0, 1));
    let head = format!("| {} | {elements} | {} | {}", row.name, data.data.name(), data.sizes());
    println!("{head} | {} |", cells.join(" | "));
}
