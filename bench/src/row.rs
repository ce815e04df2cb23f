//! What a row is.

use crate::progress::Named;

/// Does a row's work on `n` items so many times, and returns a checksum.
pub type Work = fn(n: u64, rounds: u64) -> u64;

/// The same by C's calling convention, as the port exports it.
pub type ExportedWork = extern "C" fn(n: u64, rounds: u64) -> u64;

/// What a round does to the container.
#[derive(Clone, Copy, PartialEq)]
pub enum Round {
    /// Fills a new container and drops it.
    Fills,
    /// Reads or writes a container that is filled once, before the first round. The time of no rounds is taken off.
    Reads,
}

/// A fourth side that some rows have.
#[derive(Clone, Copy)]
pub enum Fourth {
    /// The standard library's container on which the port's stands, as the port's library exports it.
    Kit(ExportedWork),
    /// An interner by a hash table whose probes have no bound.
    Unbounded(Work),
}

impl Fourth {
    pub const KIT: &str = "The kit's";
    pub const UNBOUNDED: &str = "Unbounded hash table";

    /// The head of its column.
    pub fn title(self) -> &'static str {
        match self {
            Fourth::Kit(_) => Fourth::KIT,
            Fourth::Unbounded(_) => Fourth::UNBOUNDED,
        }
    }

    pub fn work(self, n: u64, rounds: u64) -> u64 {
        match self {
            Fourth::Kit(work) => work(n, rounds),
            Fourth::Unbounded(work) => work(n, rounds),
        }
    }
}

pub struct Row {
    pub name: &'static str,
    pub round: Round,
    pub ours: ExportedWork,
    pub theirs: Work,
    pub plain: Work,
    pub fourth: Option<Fourth>,
    /// How many operations a measurement has, unless that is fewer rounds than the least.
    pub operations: u64,
    /// How many rounds a measurement has at least.
    pub least_rounds: u64,
    /// The numbers of items that it is timed at, each a power of two.
    pub sizes: &'static [u64],
}

impl Named for Row {
    fn name(&self) -> &str {
        self.name
    }
}
