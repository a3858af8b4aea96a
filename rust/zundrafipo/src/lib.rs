//! Silent-hop reduction for mode graphs (tau-confluence on labelled transition systems).
//!
//! This crate has safe wrappers over an archive in which every function is proved against its
//! contract. [`Graph::reduce`] makes a graph smaller by striking out confluent silent hops.
//! [`Graph::audit`] compares the result with the original: no faults means that the map between
//! them is a branching bisimulation that joins the initial states.
//!
//! ```
//! use zundrafipo::{Graph, Sense};
//!
//! // from, label, to and source line of each hop
//! let graph = Graph::new(4, 2, 0, vec![0, 0, 1, 3, 0, 1, 2, 4, 1, 1, 3, 5, 2, 0, 3, 2]);
//! let reduction = graph.reduce(Sense::R1)?;
//! assert_eq!(reduction.map, [0, 0, 1, 1]);
//! assert_eq!(reduction.graph, Graph::new(2, 2, 0, vec![0, 1, 1, 5]));
//! assert_eq!(graph.audit(&reduction.graph, &reduction.map)?.faults, 0);
//! # Ok::<(), zundrafipo::Refusal>(())
//! ```
//!
//! A [`Sense`] says which silent hops count as confluent. [`Sense::R1`] is strong confluence, and
//! the weaker ones can mark more hops. What one reduction leaves may have marked hops again:
//! [`Graph::shrink`] goes on until no hop is marked, and gives one map for all of it.
//!
//! A graph's hops are one flat list, four numbers a hop. [`Hop`] and [`Graph::hops`] are a typed
//! view of it, and [`Graph::from_hops`] makes a graph of hops. The fourth number is the line of the
//! source that the hop comes from, 0 for none. A short hop keeps the smallest nonzero line of the
//! hops that it comes from ([`Graph::reduce`]). Order, marking and audit do not look at lines.
//!
//! [`Graph::find`] says where in the list a hop stands. An audit that counts faults names the first
//! of them, and [`Fault::describe`] says it in words.
//!
//! No entry panics on what it is given. Numbers go to the archive unchanged, and whatever is not
//! admitted comes back as a [`Refusal`].
//!
//! The archive is made for x86-64 Linux, and so is this crate. For another target it does not
//! build.

#![deny(missing_docs)]

mod fault;
pub mod ffi;
mod file;
mod graph;
mod hop;
mod names;
mod refusal;
mod sense;
mod short;

pub use fault::{Audit, Fault};
pub use file::{read, read_into, Figures, File};
pub use graph::{hops_of, FastMarking, Found, Graph};
pub use hop::{Hop, Hops};
pub use names::{NameBlock, Names};
pub use refusal::Refusal;
pub use sense::Sense;
pub use short::{Reduction, ShortFigures, Shrinking, ShrunkFigures};

/// The most states a graph can have.
pub const MOST_STATES: usize = 1024;

/// The most labels a graph can have, with the silent one.
pub const MOST_LABELS: usize = 1024;

/// The most hops a graph can have.
pub const MOST_HOPS: usize = 4096;

/// How many numbers of a flat list a hop takes: from, label, to and line.
pub const NUMBERS_A_HOP: usize = 4;

/// The length of the longest legal file. The program takes files of up to 65,536 bytes.
pub const LONGEST_FILE: usize = 66_536;

/// Splits the answer of an entry: its figures, or the refusal.
fn judge<const N: usize>(number: u32, answer: [u64; N]) -> Result<[u64; N], Refusal> {
    if number == 0 {
        Ok(answer)
    } else {
        Err(Refusal { number, table: answer[1], place: answer[2] })
    }
}

/// A count or state number of an accepted graph, at most 65,535, or the number of tests of its
/// marking, at most 16,777,216.
fn figure(number: u64) -> u32 {
    u32::try_from(number).expect("a figure of an accepted graph fits 32 bits")
}

/// The length or place of a part of what was lent.
fn length(number: u64) -> usize {
    usize::try_from(number).expect("a length of what was lent fits a usize")
}
