//! The clock, and what a row shows of it.

use std::hint::black_box;

/// Lets `malloc` keep all that is freed for the next request. Else a side would pay for fresh pages
/// where the one before it happened to give them back.
pub fn keep_freed_memory() {
    unsafe extern "C" {
        fn mallopt(parameter: i32, value: i32) -> i32;
    }
    const TRIM_THRESHOLD: i32 = -1;
    const MMAP_MAX: i32 = -4;
    // SAFETY: these are glibc's numbers, and no other thread runs.
    let are_set = unsafe { mallopt(TRIM_THRESHOLD, -1) == 1 && mallopt(MMAP_MAX, 0) == 1 };
    assert!(are_set, "malloc gives back what is freed");
}

/// One side of a row, which does the row's work as often as it is told and answers a checksum.
pub struct Side<'a> {
    run: Option<Box<dyn Fn(u64) -> u64 + 'a>>,
    is_compared: bool,
}

impl<'a> Side<'a> {
    /// A side that must answer what the others do.
    pub fn of(run: impl Fn(u64) -> u64 + 'a) -> Side<'a> {
        Side { run: Some(Box::new(run)), is_compared: true }
    }

    /// A side that does one round's work at a time.
    pub fn repeating(work: impl Fn() -> u64 + 'a) -> Side<'a> {
        Side::of(move |rounds| (0..rounds).fold(0, |sum, _| sum.wrapping_add(black_box(work()))))
    }

    /// The same, where the work is less than the row's and has an answer of its own.
    pub fn floor(work: impl Fn() -> u64 + 'a) -> Side<'a> {
        Side { is_compared: false, ..Side::repeating(work) }
    }

    /// No such side: its cell is a dash.
    pub fn none() -> Side<'a> {
        Side { run: None, is_compared: false }
    }

    /// As many rounds as take ten milliseconds, and four times as long as what is built before the
    /// first one.
    fn enough(&self) -> u64 {
        let nothing = self.seconds(0);
        let mut rounds = 1;
        while self.seconds(rounds) < nothing + (4.0 * nothing).max(0.01) && rounds < 1 << 24 {
            rounds *= 2;
        }
        rounds
    }

    /// Does the row's work so many times.
    pub fn run(&self, rounds: u64) {
        if let Some(run) = &self.run {
            black_box(run(rounds));
        }
    }

    /// The processor time of this thread that so many rounds take: other programs add nothing.
    fn seconds(&self, rounds: u64) -> f64 {
        let start = processor_time();
        self.run(rounds);
        processor_time() - start
    }
}

/// The nanoseconds an operation of each side, nine times; of a side that is none, no times.
pub struct Times(Vec<Vec<f64>>);

impl Times {
    /// Times the sides in turn, after all agreed on one round.
    pub fn of(operations: usize, sides: &[Side]) -> Times {
        let compared = sides.iter().filter(|side| side.is_compared);
        let answers: Vec<u64> =
            compared.flat_map(|side| side.run.as_ref()).map(|run| run(1)).collect();
        assert!(answers.iter().all(|it| *it == answers[0]), "the sides disagree: {answers:?}");
        let timed: Vec<usize> = (0..sides.len()).filter(|at| sides[*at].run.is_some()).collect();
        let rounds: Vec<u64> = timed.iter().map(|at| sides[*at].enough()).collect();
        let mut times = vec![Vec::new(); sides.len()];
        for _ in 0..9 {
            for (at, rounds) in timed.iter().zip(&rounds) {
                let took = sides[*at].seconds(*rounds) - sides[*at].seconds(0);
                times[*at].push(took.max(0.0) * 1e9 / *rounds as f64 / operations as f64);
            }
        }
        Times(times)
    }

    /// The medians, as cells of a table.
    pub fn cells(&self) -> Vec<String> {
        self.0.iter().map(|times| median(times.clone()).map_or("-".to_string(), shown)).collect()
    }

    /// The median of the ratios of a side to another one, each of two times that were taken one
    /// after the other.
    pub fn ratio(&self, side: usize, other: usize) -> String {
        let ratios = self.0[side].iter().zip(&self.0[other]).map(|(time, other)| time / other);
        median(ratios.collect()).map_or("-".to_string(), |ratio| format!("{ratio:.2}"))
    }
}

/// The middle one, if there is any.
fn median(mut numbers: Vec<f64>) -> Option<f64> {
    numbers.sort_by(f64::total_cmp);
    numbers.get(numbers.len() / 2).copied()
}

/// The processor time of this thread, in seconds.
fn processor_time() -> f64 {
    #[repr(C)]
    struct Time {
        seconds: i64,
        nanoseconds: i64,
    }
    unsafe extern "C" {
        fn clock_gettime(clock: i32, time: *mut Time) -> i32;
    }
    const THREAD_TIME: i32 = 3;
    let mut time = Time { seconds: 0, nanoseconds: 0 };
    // SAFETY: `time` is laid out as the `timespec` of 64-bit Linux, where 3 is the number of that
    // clock.
    assert_eq!(unsafe { clock_gettime(THREAD_TIME, &mut time) }, 0);
    time.seconds as f64 + time.nanoseconds as f64 / 1e9
}

/// Three digits.
fn shown(nanoseconds: f64) -> String {
    match nanoseconds {
        t if t < 100.0 => format!("{t:.1} ns"),
        t if t < 10_000.0 => format!("{t:.0} ns"),
        t if t < 10_000_000.0 => format!("{:.1} µs", t / 1e3),
        t => format!("{:.1} ms", t / 1e6),
    }
}
