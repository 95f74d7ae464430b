//! The rows of sets of intervals: the work of each by hand over a sorted `Vec` of ranges, and by a
//! `BTreeMap` from the starts to the ends.

use crate::clock::{Side, Times};
use crate::data::{Data, Numbers};
use std::collections::BTreeMap;

#[rustfmt::skip]
unsafe extern "C" {
    fn bench_intervals(
        row: u64, left: *const u64, left_len: usize, right: *const u64, right_len: usize,
        n: usize, rounds: u64,
    ) -> u64;
}

/// A start and the end behind it.
type Span = (u64, u64);

const ROWS: [&str; 3] = ["contains", "union", "intersection"];

/// Prints the table of sets of intervals.
pub fn print(only: &str) {
    println!("| row | intervals | this library | to by hand | sorted `Vec` by hand | BTreeMap |");
    println!("|---|---|---|---|---|---|");
    for count in [4, 8, 64, 1000, 100_000] {
        let data = Numbers::new(Data::Random, (2 * count, 2 * count));
        for row in (0..ROWS.len()).filter(|_| "interval".contains(only)) {
            time_intervals(row, count, &data);
        }
    }
}

/// A row over pairs of sets of so many random intervals each.
fn time_intervals(row: usize, count: usize, data: &Numbers) {
    let spans: Vec<(Vec<Span>, Vec<Span>)> =
        data.cut().map(|(left, right)| (spans(left), spans(right))).collect();
    let maps: Vec<(BTreeMap<u64, u64>, BTreeMap<u64, u64>)> = spans
        .iter()
        .map(|(left, right)| (left.iter().copied().collect(), right.iter().copied().collect()))
        .collect();
    let (left, right) = (&data.left, &data.right);
    // SAFETY: the pointers and lengths are those of the lists.
    let ours = Side::of(move |rounds| unsafe {
        let (a, b) = (left.as_ptr(), right.as_ptr());
        bench_intervals(row as u64, a, left.len(), b, right.len(), 2 * count, rounds)
    });
    let sides = [
        ours,
        Side::repeating(|| spans.iter().map(|(a, b)| by_hand(row, a, b)).sum()),
        Side::repeating(|| maps.iter().map(|(a, b)| by_btree(row, a, b)).sum()),
    ];
    let operations = if row == 0 { data.pairs() * 2 * count } else { data.pairs() };
    let times = Times::of(operations, &sides);
    let [ours, hand, btree] = times.cells().try_into().expect("three sides");
    println!("| {} of intervals | {count} | {ours} | {} | {hand} | {btree} |", ROWS[row], times.ratio(0, 1));
}

/// The ranges between the numbers, two by two.
fn spans(numbers: &[u64]) -> Vec<Span> {
    numbers.chunks(2).map(|ends| (ends[0], ends[1])).collect()
}

/// The ends of some spans, one by one.
fn ends(spans: &[Span]) -> impl Iterator<Item = u64> {
    spans.iter().flat_map(|span| [span.0, span.1])
}

/// The work of a row on sorted lists of spans that lie apart.
fn by_hand(row: usize, a: &[Span], b: &[Span]) -> u64 {
    let holds = |x| {
        let place = a.partition_point(|span| span.0 <= x);
        place > 0 && x < a[place - 1].1
    };
    match row {
        0 => ends(b).map(|x| u64::from(holds(x))).sum(),
        1 => 2 * united(a, b).len() as u64,
        _ => 2 * common(a, b).len() as u64,
    }
}

/// The spans of either list; those that touch become one.
fn united(a: &[Span], b: &[Span]) -> Vec<Span> {
    let mut both: Vec<Span> = Vec::with_capacity(a.len() + b.len());
    let (mut i, mut j) = (0, 0);
    while i < a.len() || j < b.len() {
        let next = if j == b.len() || i < a.len() && a[i].0 <= b[j].0 {
            i += 1;
            a[i - 1]
        } else {
            j += 1;
            b[j - 1]
        };
        match both.last_mut() {
            Some(last) if next.0 <= last.1 => last.1 = last.1.max(next.1),
            _ => both.push(next),
        }
    }
    both
}

/// What the spans of both lists have in common.
fn common(a: &[Span], b: &[Span]) -> Vec<Span> {
    let mut both = Vec::new();
    let (mut i, mut j) = (0, 0);
    while i < a.len() && j < b.len() {
        let span = (a[i].0.max(b[j].0), a[i].1.min(b[j].1));
        if span.0 < span.1 {
            both.push(span);
        }
        if a[i].1 <= b[j].1 {
            i += 1;
        } else {
            j += 1;
        }
    }
    both
}

/// The work of a row on maps from starts to ends.
fn by_btree(row: usize, a: &BTreeMap<u64, u64>, b: &BTreeMap<u64, u64>) -> u64 {
    let holds = |x: u64| a.range(..=x).next_back().is_some_and(|(_, end)| x < *end);
    match row {
        0 => b.iter().flat_map(|(start, end)| [*start, *end]).map(|x| u64::from(holds(x))).sum(),
        1 => {
            let mut both = a.clone();
            for (start, end) in b {
                add(&mut both, (*start, *end));
            }
            2 * both.len() as u64
        }
        _ => {
            let mut both = BTreeMap::new();
            for (start, end) in b {
                let before = a.range(..=*start).next_back().into_iter();
                let inside = a.range(start + 1..*end);
                for (from, to) in before.chain(inside) {
                    let span = (*from.max(start), *to.min(end));
                    if span.0 < span.1 {
                        both.insert(span.0, span.1);
                    }
                }
            }
            2 * both.len() as u64
        }
    }
}

/// Adds a span to a map of spans; those that touch become one.
fn add(map: &mut BTreeMap<u64, u64>, (mut start, mut end): Span) {
    if let Some((from, to)) = map.range(..=start).next_back().map(|(from, to)| (*from, *to)) {
        if start <= to {
            start = from;
            end = end.max(to);
        }
    }
    let inside: Vec<Span> = map.range(start..=end).map(|(from, to)| (*from, *to)).collect();
    for (from, to) in inside {
        map.remove(&from);
        end = end.max(to);
    }
    map.insert(start, end);
}
