//! What every entry must answer, and what every lent element must hold afterwards, written straight from the scope document's sentences ("document 01"),
//! and from those of the change requests.
//!
//! It is for tests alone and is written to be held against the text: sums are summed, sets are sets, the greatest confluent set is found by
//! throwing out what violates the condition until nothing changes. It shares no code with the library and none of its ways of computing.

#![deny(missing_docs)]

mod file;
mod graph;
mod senses;
mod silent;

pub use file::{read, write, LONGEST_FILE};
pub use graph::{check, find, hops_of, Graph, Hop};
pub use senses::SENSES;
pub use silent::{audit, audit_and_faults, lowest_on_ring, mark, mark_fast, marked, reduce, round, shrink, survivors, Fault};

/// An answer: number, table and place, then the figures of the entry.
#[derive(Clone, Debug, PartialEq, Eq)]
pub struct Answer {
    /// 0, or the number of the refusal.
    pub number: u64,
    /// 2 only for graph 2 of the audit, else 1.
    pub table: u64,
    /// Where, as the table of answers says; 0 on acceptance.
    pub place: u64,
    /// Every other figure of the entry; all 0 with any number but 0.
    pub figures: Vec<u64>,
}

impl Answer {
    fn accepted(figures: Vec<u64>) -> Answer {
        Answer { number: 0, table: 1, place: 0, figures }
    }

    fn refused(refusal: Refusal, figures: usize) -> Answer {
        Answer { number: refusal.number, table: refusal.table, place: refusal.place, figures: vec![0; figures] }
    }

    /// The answer as the numbers that a caller is handed: number, table, place, figures.
    pub fn numbers(&self) -> Vec<u64> {
        let mut all = vec![self.number, self.table, self.place];
        all.extend(&self.figures);
        all
    }
}

/// A check that speaks.
#[derive(Clone, Copy, Debug, PartialEq, Eq)]
struct Refusal {
    number: u64,
    table: u64,
    place: u64,
}

fn refuse(number: u64, place: u64) -> Result<(), Refusal> {
    Err(Refusal { number, table: 1, place })
}

/// `result` in front of what lies past it in `before`.
fn written<T: Copy>(result: &[T], before: &[T]) -> Vec<T> {
    let mut after = result.to_vec();
    after.extend_from_slice(&before[result.len()..]);
    after
}
