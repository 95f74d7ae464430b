//! What trees and std's maps of whole keys take: the bytes of a key at the peak, and the requests
//! for memory. `malloc` and its like are wrapped by the linker for all sides, so this is a program
//! of its own, and no row of it is timed.

use crate::clock::Side;
use crate::trees;
use std::sync::atomic::{AtomicUsize, Ordering::Relaxed};

/// How many bytes are in use, the most that were, and how often memory was asked for.
static IN_USE: AtomicUsize = AtomicUsize::new(0);
static PEAK: AtomicUsize = AtomicUsize::new(0);
static REQUESTS: AtomicUsize = AtomicUsize::new(0);

unsafe extern "C" {
    fn __real_malloc(bytes: usize) -> *mut u8;
    fn __real_calloc(count: usize, bytes: usize) -> *mut u8;
    fn __real_realloc(block: *mut u8, bytes: usize) -> *mut u8;
    fn __real_free(block: *mut u8);
    fn malloc_usable_size(block: *mut u8) -> usize;
}

/// How many bytes a block has, those that `malloc` rounds up to among them.
fn size(block: *mut u8) -> usize {
    // SAFETY: the block came from `malloc`, or there is none.
    unsafe { malloc_usable_size(block) }
}

/// Counts a request that gave the block.
fn given(block: *mut u8) -> *mut u8 {
    let now = IN_USE.fetch_add(size(block), Relaxed) + size(block);
    PEAK.fetch_max(now, Relaxed);
    REQUESTS.fetch_add(1, Relaxed);
    block
}

#[unsafe(no_mangle)]
extern "C" fn __wrap_malloc(bytes: usize) -> *mut u8 {
    // SAFETY: as `malloc`.
    given(unsafe { __real_malloc(bytes) })
}

#[unsafe(no_mangle)]
extern "C" fn __wrap_calloc(count: usize, bytes: usize) -> *mut u8 {
    // SAFETY: as `calloc`.
    given(unsafe { __real_calloc(count, bytes) })
}

#[unsafe(no_mangle)]
extern "C" fn __wrap_realloc(block: *mut u8, bytes: usize) -> *mut u8 {
    IN_USE.fetch_sub(size(block), Relaxed);
    // SAFETY: as `realloc`.
    given(unsafe { __real_realloc(block, bytes) })
}

#[unsafe(no_mangle)]
extern "C" fn __wrap_free(block: *mut u8) {
    IN_USE.fetch_sub(size(block), Relaxed);
    // SAFETY: as `free`.
    unsafe { __real_free(block) }
}

/// Prints the table of memory.
pub fn print() {
    println!("{}", trees::HEAD);
    trees::print_memory(["bytes a key at the peak", "requests a key"], taken);
}

/// The bytes at the peak of one round of a side's work, and the requests. What a side has before
/// its first round counts for nothing.
fn taken(side: &Side) -> [usize; 2] {
    let run = |rounds| {
        let (before, asked) = (IN_USE.load(Relaxed), REQUESTS.load(Relaxed));
        PEAK.store(before, Relaxed);
        side.run(rounds);
        [PEAK.load(Relaxed) - before, REQUESTS.load(Relaxed) - asked]
    };
    let ([built, asked_before], [peak, asked]) = (run(0), run(1));
    [peak - built, asked - asked_before]
}
