//! The operations written by hand over sorted `Vec`s.

use std::cmp::Ordering;
use std::hint::black_box;

/// A fresh list of two ascending ones.
pub type Fresh<T> = fn(&[T], &[T]) -> Vec<T>;

/// A way to walk two ascending lists.
pub trait Form {
    /// What stands on the left alone, on the right alone and in both, as the flags say.
    fn walk<T, const LEFT: bool, const RIGHT: bool, const BOTH: bool>(a: &[T], b: &[T]) -> Vec<T>
    where
        T: Ord + Clone;
}

/// The function of a row whose set is fresh.
pub fn fresh<F: Form, T: Ord + Clone>(row: u64) -> Fresh<T> {
    match row {
        0 => F::walk::<T, true, true, true>,
        1 => F::walk::<T, false, false, true>,
        2 => F::walk::<T, true, false, false>,
        _ => F::walk::<T, true, true, false>,
    }
}

/// The plain loop: element by element, by one comparison each.
pub struct Plain;

impl Form for Plain {
    fn walk<T, const LEFT: bool, const RIGHT: bool, const BOTH: bool>(a: &[T], b: &[T]) -> Vec<T>
    where
        T: Ord + Clone,
    {
        let mut out = with_room::<T, LEFT, RIGHT>(a, b);
        let (mut i, mut j) = (0, 0);
        while i < a.len() && j < b.len() {
            let (keep, from) = match a[i].cmp(&b[j]) {
                Ordering::Less => (LEFT, (&a[i], i += 1).0),
                Ordering::Greater => (RIGHT, (&b[j], j += 1).0),
                Ordering::Equal => (BOTH, (&a[i], i += 1, j += 1).0),
            };
            if keep {
                out.push(from.clone());
            }
        }
        hand_over::<T, LEFT>(&mut out, &a[i..]);
        hand_over::<T, RIGHT>(&mut out, &b[j..]);
        out
    }
}

/// Run by run: its end is found by steps that double and then by halving, and it is copied at once.
pub struct Galloping;

impl Form for Galloping {
    fn walk<T, const LEFT: bool, const RIGHT: bool, const BOTH: bool>(a: &[T], b: &[T]) -> Vec<T>
    where
        T: Ord + Clone,
    {
        let mut out = with_room::<T, LEFT, RIGHT>(a, b);
        let (mut left, mut right) = (a, b);
        while let ([x, left_rest @ ..], [y, right_rest @ ..]) = (left, right) {
            match x.cmp(y) {
                Ordering::Less => left = passed::<T, LEFT>(&mut out, left, y),
                Ordering::Greater => right = passed::<T, RIGHT>(&mut out, right, x),
                Ordering::Equal => {
                    if BOTH {
                        out.push(x.clone());
                    }
                    (left, right) = (left_rest, right_rest);
                }
            }
        }
        hand_over::<T, LEFT>(&mut out, left);
        hand_over::<T, RIGHT>(&mut out, right);
        out
    }
}

/// An empty list with room for the lists of which all is kept.
fn with_room<T, const LEFT: bool, const RIGHT: bool>(a: &[T], b: &[T]) -> Vec<T> {
    Vec::with_capacity(if LEFT { a.len() } else { 0 } + if RIGHT { b.len() } else { 0 })
}

fn hand_over<T: Clone, const KEEP: bool>(out: &mut Vec<T>, list: &[T]) {
    if KEEP {
        out.extend_from_slice(list);
    }
}

/// Hands over what is less than `limit`, as the first element is, and answers the rest.
#[inline(always)]
fn passed<'a, T, const KEEP: bool>(out: &mut Vec<T>, list: &'a [T], limit: &T) -> &'a [T]
where
    T: Ord + Clone,
{
    let (mut known, mut step) = (1, 1);
    while known + step <= list.len() && list[known + step - 1] < *limit {
        (known, step) = (known + step, step * 2);
    }
    let end = list.len().min(known + step - 1);
    let (run, rest) = list.split_at(known + list[known..end].partition_point(|x| x < limit));
    hand_over::<T, KEEP>(out, run);
    rest
}

/// Copies of both lists, one behind the other: what a union of numbers cannot be much faster than.
pub fn copied<T: Copy>(a: &[T], b: &[T]) -> Vec<T> {
    let mut out = Vec::with_capacity(a.len() + b.len());
    out.extend_from_slice(a);
    out.extend_from_slice(b);
    out
}

/// The length of a list, which is really made.
pub fn length<T>(list: Vec<T>) -> u64 {
    black_box(list).len() as u64
}

/// The work of a row whose set is no fresh one.
pub fn work<T: Ord + Clone>(row: u64, a: &[T], b: &[T]) -> u64 {
    match row {
        4 | 5 => length(fresh::<Plain, T>(row - 4)(&black_box(a.to_vec()), b)),
        6 => length(a.to_vec()),
        7 => u64::from(a.iter().all(|x| b.binary_search(x).is_ok())),
        8 => u64::from(!meet(a, b)),
        9 => b.iter().filter(|x| a.binary_search(x).is_ok()).count() as u64,
        11 => b.iter().filter(|x| a.partition_point(|y| y < x) < a.len()).count() as u64,
        12 => {
            let mut list = b.to_vec();
            list.sort();
            list.dedup();
            length(list)
        }
        _ => length(b.iter().rev().cloned().fold(Vec::new(), put)),
    }
}

/// Whether the lists have an element in common.
fn meet<T: Ord>(a: &[T], b: &[T]) -> bool {
    let (mut i, mut j) = (0, 0);
    while i < a.len() && j < b.len() {
        match a[i].cmp(&b[j]) {
            Ordering::Less => i += 1,
            Ordering::Greater => j += 1,
            Ordering::Equal => return true,
        }
    }
    false
}

fn put<T: Ord>(mut list: Vec<T>, x: T) -> Vec<T> {
    if let Err(place) = list.binary_search(&x) {
        list.insert(place, x);
    }
    list
}
