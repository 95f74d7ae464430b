//! Times the sets, maps, trees and tables of routes of the static library `bench_loops` beside std's
//! collections, loops written by hand over sorted lists, and boost's flat sets where they were there.
//!
//! Each row prints the median of several runs, in nanoseconds an operation. Before a row is timed
//! all sides must agree on a sum of lengths or finds.

mod clock;
mod data;
mod intervals;
mod lists;
mod maps;
#[cfg(counted)]
mod memory;
mod routes;
mod rows;
mod sets;
mod trees;

#[cfg(counted)]
fn main() {
    memory::print();
}

#[cfg(not(counted))]
fn main() {
    clock::keep_freed_memory();
    let only = std::env::args().nth(1).unwrap_or_default();
    sets::print(&only);
    println!();
    maps::print(&only);
    println!();
    trees::print(&only);
    println!();
    intervals::print(&only);
    println!();
    routes::print(&only);
}
