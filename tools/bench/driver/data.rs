//! The numbers, keys and routes that are timed, the same in every run.

use std::collections::HashSet;

/// A generator of numbers that look random.
struct Random(u64);

impl Random {
    fn next(&mut self) -> u64 {
        self.0 = self.0.wrapping_mul(6364136223846793005).wrapping_add(1442695040888963407);
        self.0 >> 20
    }

    fn below(&mut self, limit: usize) -> usize {
        (self.next() % limit as u64) as usize
    }
}

/// How the elements of two lists follow each other.
#[derive(Clone, Copy, PartialEq)]
pub enum Data {
    /// Which list the next element is of cannot be foreseen. Half of the shorter list is in the
    /// longer one.
    Random,
    /// For ever an element of both lists, one of the longer and one of the shorter list, which are
    /// of one length.
    Regular,
    /// Runs of 64 elements of one list and then of the other, and some of both.
    Runs,
    /// All of one list, and then all of the other one.
    Disjoint,
    /// The shorter list lies among as many elements of the longer one as it has twice, at random;
    /// the rest of the longer one comes behind.
    Clustered,
}

impl Data {
    pub fn name(self) -> &'static str {
        match self {
            Data::Random => "random",
            Data::Regular => "regular",
            Data::Runs => "runs of 64",
            Data::Disjoint => "disjoint",
            Data::Clustered => "clustered",
        }
    }

    /// Where the next elements are, until one list or both have all.
    fn places(self, random: &mut Random, long: usize, short: usize) -> Vec<Place> {
        match self {
            Data::Random => mixed(random, long, short),
            Data::Regular => [Place::Both, Place::Long, Place::Short].repeat(short / 2),
            Data::Runs => runs(random, short),
            Data::Disjoint if random.below(2) == 0 => vec![Place::Short; short],
            Data::Disjoint => vec![Place::Long; long],
            Data::Clustered => mixed(random, 2 * short, short),
        }
    }
}

/// Which of a longer and a shorter list an element is in.
#[derive(Clone, Copy, PartialEq)]
enum Place {
    Long,
    Short,
    Both,
}

/// Half of the shorter list is in the longer one, in an order that cannot be foreseen.
fn mixed(random: &mut Random, long: usize, short: usize) -> Vec<Place> {
    let both = (short + random.below(2)) / 2;
    let mut rest = [(Place::Long, long - both), (Place::Short, short - both), (Place::Both, both)];
    let mut drawn = |count| {
        let mut at = random.below(count);
        for (place, rest) in &mut rest {
            if at < *rest {
                *rest -= 1;
                return *place;
            }
            at -= *rest;
        }
        Place::Long
    };
    (1..=long + short - both).rev().map(&mut drawn).collect()
}

/// Runs of 64 by turns, and a few elements of both lists between them, as many as `count` allows.
fn runs(random: &mut Random, mut count: usize) -> Vec<Place> {
    let mut places = Vec::new();
    let mut common = random.below(8);
    while count >= 64 + common {
        count -= 64 + common;
        places.extend([Place::Long; 64]);
        places.extend([Place::Both; 8].iter().take(common));
        places.extend([Place::Short; 64]);
        common = random.below(8);
    }
    places
}

/// Pairs of ascending lists, of `m` and of `n` numbers: so many pairs that no branch predictor
/// knows them by heart, where the lists are not long themselves.
pub struct Numbers {
    pub data: Data,
    pub left: Vec<u64>,
    pub m: usize,
    pub right: Vec<u64>,
    pub n: usize,
}

/// The least number of elements of all pairs.
const ELEMENTS: usize = 1 << 16;

impl Numbers {
    pub fn new(data: Data, (m, n): (usize, usize)) -> Numbers {
        let mut random = Random(m as u64 * 31 + n as u64);
        let (mut left, mut right) = (Vec::new(), Vec::new());
        for _ in 0..ELEMENTS.div_ceil(m + n) {
            let places = data.places(&mut random, m.max(n), m.min(n));
            let (long, short) = lists(&mut random, &places, m.max(n), m.min(n));
            let (a, b) = if m >= n { (long, short) } else { (short, long) };
            left.extend(a);
            right.extend(b);
        }
        Numbers { data, left, m, right, n }
    }

    /// The same, with each right list in an order that cannot be foreseen.
    pub fn with_right_lists_mixed(&self) -> Numbers {
        let mut random = Random(self.n as u64);
        let mut right = self.right.clone();
        for list in right.chunks_mut(self.n) {
            for at in (1..list.len()).rev() {
                list.swap(at, random.below(at + 1));
            }
        }
        Numbers { left: self.left.clone(), right, ..*self }
    }

    pub fn pairs(&self) -> usize {
        self.left.len() / self.m
    }

    pub fn cut(&self) -> impl Iterator<Item = (&[u64], &[u64])> {
        self.left.chunks(self.m).zip(self.right.chunks(self.n))
    }

    /// The sizes as the tables show them.
    pub fn sizes(&self) -> String {
        format!("{}, {}", self.m, self.n)
    }
}

/// Two lists of so many ascending numbers: those at the places first, and then the rest of the
/// longer list and that of the shorter one.
fn lists(random: &mut Random, places: &[Place], m: usize, n: usize) -> (Vec<u64>, Vec<u64>) {
    let (mut long, mut short) = (Vec::with_capacity(m), Vec::with_capacity(n));
    let mut last = 0;
    let mut next = || {
        last += 1 + random.below(32) as u64;
        last
    };
    for place in places {
        let number = next();
        if *place != Place::Short {
            long.push(number);
        }
        if *place != Place::Long {
            short.push(number);
        }
    }
    long.extend((long.len()..m).map(|_| next()));
    short.extend((short.len()..n).map(|_| next()));
    (long, short)
}

/// Keys as bytes, cut at the ends.
#[derive(Clone)]
pub struct Keys {
    bytes: Vec<u8>,
    ends: Vec<usize>,
}

impl Keys {
    fn of(keys: impl Iterator<Item = String>) -> Keys {
        let mut all = Keys { bytes: Vec::new(), ends: Vec::new() };
        for key in keys {
            all.bytes.extend(key.bytes());
            all.ends.push(all.bytes.len());
        }
        all
    }

    /// Words of sixteen letters, in the order of the numbers.
    pub fn words(numbers: &[u64]) -> Keys {
        Keys::of(numbers.iter().map(|number| format!("word{number:012}")))
    }

    /// Paths of files that lie two folders below each of the keys.
    pub fn two_below(&self) -> Keys {
        Keys::of(self.texts().into_iter().map(|key| key + "/static/index.html"))
    }

    /// One key.
    pub fn folder(name: &str) -> Keys {
        Keys::of(std::iter::once(name.to_string()))
    }

    /// Keys like the paths of files in folders.
    pub fn paths(count: usize) -> Keys {
        let mut random = Random(count as u64);
        let folders = ["src", "docs", "tests", "data", "assets", "images", "scripts", "vendor"];
        let mut folder = || folders[random.below(8)];
        let mut path = |i| format!("{}/{}/{}/file{i}", folder(), folder(), folder());
        Keys::of((0..count).map(&mut path))
    }

    /// The same keys in ascending order.
    pub fn ascending(&self) -> Keys {
        let mut texts = self.texts();
        texts.sort();
        Keys::of(texts.into_iter())
    }

    pub fn list(&self) -> impl Iterator<Item = Vec<u8>> {
        let starts = std::iter::once(0).chain(self.ends.iter().copied());
        starts.zip(&self.ends).map(|(start, end)| self.bytes[start..*end].to_vec())
    }

    /// The bytes and the ends, as the library takes them.
    pub fn parts(&self) -> (*const u8, usize, *const usize, usize) {
        (self.bytes.as_ptr(), self.bytes.len(), self.ends.as_ptr(), self.ends.len())
    }

    pub fn texts(&self) -> Vec<String> {
        self.list().map(|key| String::from_utf8_lossy(&key).into_owned()).collect()
    }
}

/// How many of 100000 routes have a prefix of each length: most have 24 bits, as in the tables of
/// routers, and few have eight.
const LENGTHS: [(usize, usize); 10] = [
    (24, 60_000),
    (23, 9_000),
    (22, 11_000),
    (21, 5_500),
    (20, 5_000),
    (19, 3_500),
    (18, 2_000),
    (17, 1_200),
    (16, 2_780),
    (8, 20),
];

/// Routes with different prefixes in any order, and addresses of which about half are in a route.
pub struct Routes {
    pub addresses: Vec<u32>,
    pub lengths: Vec<usize>,
    pub hops: Keys,
    pub asked: Vec<u32>,
}

impl Routes {
    pub fn new(asked: usize) -> Routes {
        let mut random = Random(asked as u64);
        let mut routes = Vec::new();
        for (length, count) in LENGTHS {
            let mut starts = HashSet::new();
            while starts.len() < count {
                let start = (random.below(1 << length) as u32) << (32 - length);
                if starts.insert(start) {
                    routes.push((start, length));
                }
            }
        }
        for at in (1..routes.len()).rev() {
            routes.swap(at, random.below(at + 1));
        }
        let mut ask = |_| {
            let anywhere = random.below(1 << 32) as u32;
            let (start, length) = routes[random.below(routes.len())];
            // Some of those that lie anywhere are in a route, too.
            if random.below(20) < 9 { start | anywhere >> length } else { anywhere }
        };
        let asked = (0..asked).map(&mut ask).collect();
        let hops = Keys::of(routes.iter().map(|_| format!("hop{}", random.below(64))));
        let (addresses, lengths) = routes.into_iter().unzip();
        Routes { addresses, lengths, hops, asked }
    }
}
