//! The rows of tables of routes: the work of each by hand over the routes of each length, of which
//! those of the longest length are searched first, in a sorted list or in a `HashMap`.

use crate::clock::{Side, Times};
use crate::data::Routes;
use std::collections::HashMap;
use std::mem::take;

#[rustfmt::skip]
unsafe extern "C" {
    fn bench_routes(
        row: u64, addresses: *const u32, count: usize, lengths: *const usize, lengths_count: usize,
        hops: *const u8, hops_len: usize, hop_ends: *const usize, hops_count: usize,
        asked: *const u32, asked_count: usize, rounds: u64,
    ) -> u64;
}

const ROWS: [&str; 2] = ["route of an address", "build of a table of routes"];

/// How many addresses are looked up.
const ASKED: usize = 1_000_000;

/// Prints the table of tables of routes.
pub fn print(only: &str) {
    println!("| row | routes | this library | to the lists | sorted lists by hand | HashMaps by hand |");
    println!("|---|---|---|---|---|---|");
    let wanted: Vec<usize> = (0..ROWS.len()).filter(|row| ROWS[*row].contains(only)).collect();
    if !wanted.is_empty() {
        let routes = Routes::new(ASKED);
        wanted.into_iter().for_each(|row| time_routes(row, &routes));
    }
}

/// A row over a table of the routes.
fn time_routes(row: usize, routes: &Routes) {
    let sides = [ours(row, routes), by_hand::<Sorted>(row, routes), by_hand::<Hashed>(row, routes)];
    let count = routes.addresses.len();
    let operations = if row == 0 { routes.asked.len() } else { count };
    let times = Times::of(operations, &sides);
    let [ours, lists, maps] = times.cells().try_into().expect("three sides");
    println!("| {} | {count} | {ours} | {} | {lists} | {maps} |", ROWS[row], times.ratio(0, 1));
}

/// The side of this library.
fn ours(row: usize, routes: &Routes) -> Side<'_> {
    let (addresses, lengths, asked) = (&routes.addresses, &routes.lengths, &routes.asked);
    let (hops, hops_len, ends, hops_count) = routes.hops.parts();
    // SAFETY: the pointers and lengths are those of the lists.
    #[rustfmt::skip]
    let run = move |rounds| unsafe {
        bench_routes(
            row as u64, addresses.as_ptr(), addresses.len(), lengths.as_ptr(), lengths.len(),
            hops, hops_len, ends, hops_count, asked.as_ptr(), asked.len(), rounds,
        )
    };
    Side::of(run)
}

/// The side by hand that has the routes of each length in one kind of list or map.
fn by_hand<'a, L: OfLength + 'a>(row: usize, routes: &'a Routes) -> Side<'a> {
    let hops = routes.hops.texts();
    let table: Table<L> = Table::of(routes, &hops);
    Side::repeating(move || match row {
        0 => table.decided(&routes.asked),
        _ => Table::<L>::of(routes, &hops).decided(&routes.asked[..1]),
    })
}

/// The routes of each length that some have, the longest first.
struct Table<L>(Vec<(usize, L)>);

impl<L: OfLength> Table<L> {
    /// The table of routes with different prefixes.
    fn of(routes: &Routes, hops: &[String]) -> Table<L> {
        let mut lists: Vec<L> = (0..=32).map(|_| L::default()).collect();
        for ((address, length), hop) in routes.addresses.iter().zip(&routes.lengths).zip(hops) {
            lists[*length].add(*address, hop.clone());
        }
        lists.iter_mut().for_each(L::end);
        Table(lists.into_iter().enumerate().rev().filter(|(_, list)| !list.is_empty()).collect())
    }

    /// The length and the hop of the longest route that covers the address.
    fn decide(&self, address: u32) -> Option<(usize, &str)> {
        let start = |length| address & u32::MAX.checked_shl(32 - length as u32).unwrap_or(0);
        self.0.iter().find_map(|(length, list)| Some((*length, list.hop(start(*length))?)))
    }

    /// The sum of the lengths of the prefixes that decide, and of the names of their hops.
    fn decided(&self, asked: &[u32]) -> u64 {
        let decisions = asked.iter().filter_map(|address| self.decide(*address));
        decisions.map(|(length, hop)| (length + hop.len()) as u64).sum()
    }
}

/// The routes of one length, by the addresses that they begin with.
trait OfLength: Default {
    /// Adds a route.
    fn add(&mut self, start: u32, hop: String);

    /// Is called once, after the last route.
    fn end(&mut self) {}

    fn is_empty(&self) -> bool;

    fn hop(&self, start: u32) -> Option<&str>;
}

/// Sorted addresses, and the hops in their order.
#[derive(Default)]
struct Sorted {
    added: Vec<(u32, String)>,
    starts: Vec<u32>,
    hops: Vec<String>,
}

impl OfLength for Sorted {
    fn add(&mut self, start: u32, hop: String) {
        self.added.push((start, hop));
    }

    fn end(&mut self) {
        self.added.sort_unstable();
        (self.starts, self.hops) = take(&mut self.added).into_iter().unzip();
    }

    fn is_empty(&self) -> bool {
        self.starts.is_empty()
    }

    fn hop(&self, start: u32) -> Option<&str> {
        self.starts.binary_search(&start).ok().map(|at| self.hops[at].as_str())
    }
}

type Hashed = HashMap<u32, String>;

impl OfLength for Hashed {
    fn add(&mut self, start: u32, hop: String) {
        self.insert(start, hop);
    }

    fn is_empty(&self) -> bool {
        self.is_empty()
    }

    fn hop(&self, start: u32) -> Option<&str> {
        self.get(&start).map(String::as_str)
    }
}
