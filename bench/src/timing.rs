//! Times a row on its sides, which take turns.

use crate::row::{Round, Row};
use std::fmt::{self, Display, Formatter};
use std::hint::black_box;
use std::num::ParseFloatError;
use std::str::FromStr;
use std::time::Instant;

// How often each side is timed, at the least and at the most. The least time counts.
const TURNS: usize = 7;
const MOST_TURNS: usize = 14;

// A side agrees with itself, and need not be timed again, where its two least times differ by no more than this factor.
const AGREES: f64 = 1.02;

/// Nanoseconds an operation.
#[derive(Clone, Copy)]
pub struct Times {
    pub ours: f64,
    pub theirs: f64,
    pub plain: f64,
    /// Of the fourth side, where the row has one.
    pub fourth: Option<f64>,
}

impl Times {
    pub fn to_theirs(&self) -> f64 {
        self.ours / self.theirs
    }

    pub fn to_plain(&self) -> f64 {
        self.ours / self.plain
    }

    /// The lesser time of each side, by two builds.
    pub fn least(&self, other: Times) -> Times {
        Times {
            ours: self.ours.min(other.ours),
            theirs: self.theirs.min(other.theirs),
            plain: self.plain.min(other.plain),
            fourth: self.fourth.zip(other.fourth).map(|(a, b)| a.min(b)),
        }
    }
}

/// The times, with a space between.
impl Display for Times {
    fn fmt(&self, f: &mut Formatter<'_>) -> fmt::Result {
        write!(f, "{} {} {}", self.ours, self.theirs, self.plain)?;
        self.fourth.map_or(Ok(()), |time| write!(f, " {time}"))
    }
}

impl FromStr for Times {
    type Err = ParseFloatError;

    fn from_str(line: &str) -> Result<Times, ParseFloatError> {
        let mut numbers = line.split(' ');
        let mut next = || numbers.next().unwrap_or_default().parse();
        Ok(Times {
            ours: next()?,
            theirs: next()?,
            plain: next()?,
            fourth: next().ok(),
        })
    }
}

/// A row that was timed at a number of items.
pub struct Entry {
    pub row: &'static Row,
    pub items: u64,
    pub times: Times,
}

impl Entry {
    /// Times a row.
    ///
    /// # Panics
    ///
    /// If two sides differ in a checksum.
    pub fn new(row: &'static Row, items: u64) -> Entry {
        let times = time(row, items);
        Entry { row, items, times }
    }

    /// The time of the fourth side, where the row has one of this title.
    pub fn fourth(&self, title: &str) -> Option<f64> {
        let side = self.row.fourth.filter(|side| side.title() == title);
        side.and(self.times.fourth)
    }
}

/// The first two cells of a line.
impl Display for Entry {
    fn fmt(&self, f: &mut Formatter<'_>) -> fmt::Result {
        write!(f, "{} | 2^{}", self.row.name, self.items.trailing_zeros())
    }
}

// The least times of one side, in nanoseconds, and its checksums.
#[derive(Clone, Copy)]
struct Side {
    full: f64,
    // The least but one.
    second: f64,
    filling: f64,
    checksums: (u64, u64),
}

impl Side {
    const UNTIMED: Side = Side {
        full: f64::INFINITY,
        second: f64::INFINITY,
        filling: f64::INFINITY,
        checksums: (0, 0),
    };

    // Times the work once, with its rounds and with none.
    fn turn(&mut self, work: impl Fn(u64, u64) -> u64, n: u64, rounds: u64) {
        let (filling, checksum_filled) = timed(|| work(black_box(n), black_box(0)));
        let (full, checksum) = timed(|| work(black_box(n), black_box(rounds)));
        self.filling = self.filling.min(filling);
        self.second = self.second.min(self.full.max(full));
        self.full = self.full.min(full);
        self.checksums = (checksum_filled, checksum);
    }

    fn agrees(&self) -> bool {
        self.second <= self.full * AGREES
    }

    fn of_operation(&self, round: Round, operations: u64) -> f64 {
        let taken_off = match round {
            Round::Fills => 0.0,
            Round::Reads => self.filling,
        };
        (self.full - taken_off) / operations as f64
    }
}

/// Has the C library keep freed memory, so that no row pays for pages that come anew from the system.
///
/// It maps no block of its own for a large one, and gives none back. Both sides allocate by the same `malloc`. Where
/// the library isn't glibc, it does as it does.
pub fn settle_heap() {
    #[cfg(target_env = "gnu")]
    {
        // Of <malloc.h>.
        const M_TRIM_THRESHOLD: i32 = -1;
        const M_MMAP_MAX: i32 = -4;
        const NEVER: i32 = -1;

        unsafe extern "C" {
            fn mallopt(parameter: i32, value: i32) -> i32;
        }

        // SAFETY: it sets two numbers of the allocator, before there is a second thread.
        unsafe {
            mallopt(M_TRIM_THRESHOLD, NEVER);
            mallopt(M_MMAP_MAX, 0);
        }
    }
}

fn timed(work: impl Fn() -> u64) -> (f64, u64) {
    let start = Instant::now();
    let checksum = black_box(work());
    (start.elapsed().as_nanos() as f64, checksum)
}

// Times a row at `n` items.
fn time(row: &Row, n: u64) -> Times {
    // Where one round has more operations than a measurement, two turns have to do.
    let (turns, most_turns) = if row.operations < n {
        (2, 2)
    } else {
        (TURNS, MOST_TURNS)
    };
    let rounds = (row.operations / n).max(row.least_rounds);
    let ours = |n, rounds| (row.ours)(n, rounds);
    let fourth = row.fourth.map(|side| move |n, rounds| side.work(n, rounds));
    let mut works: Vec<&dyn Fn(u64, u64) -> u64> = vec![&ours, &row.theirs, &row.plain];
    works.extend(fourth.as_ref().map(|work| work as &dyn Fn(u64, u64) -> u64));
    let mut sides = vec![Side::UNTIMED; works.len()];
    for turn in 0..=most_turns {
        for (side, work) in sides.iter_mut().zip(&works) {
            side.turn(work, n, rounds);
        }
        for side in &sides {
            assert_eq!(sides[0].checksums, side.checksums, "{} at {n}", row.name);
        }
        // The first turn only warms up: memory, caches and the processor's clock.
        if turn == 0 {
            sides.fill(Side::UNTIMED);
        } else if turn >= turns && sides.iter().all(Side::agrees) {
            break;
        }
    }
    let of = |side: &Side| side.of_operation(row.round, rounds * n);
    Times {
        ours: of(&sides[0]),
        theirs: of(&sides[1]),
        plain: of(&sides[2]),
        fourth: sides.get(3).map(of),
    }
}
