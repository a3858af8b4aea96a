//! The entries in plain Rust, by the library's algorithms: a table of first places for the hops of a state, one binary search for a hop among them; for rings a
//! sweep and a search by depth, rounds for marks, words of 64 hops tried for those of the weaker senses, counting passes for the order of short hops, searches by
//! states for the audit, a table of what is known for the round question, a sorted table for names.
//!
//! `mark` under R1 alone goes another way, by repeated sweeps: that is what marking by rounds is compared with.
//!
//! It stands beside the library in the benchmarks and in the differential tests. Nothing here is proved.

mod audit;
mod check;
mod file;
mod mark;
mod reduce;
mod rings;
mod round;
mod rounds;
mod senses;
mod shrink;

pub use audit::audit;
pub use check::{check, find, hops_of};
pub use file::{read, write};
pub use mark::mark;
pub use reduce::reduce;
pub use round::round;
pub use rounds::mark_fast;
pub use shrink::shrink;

pub const MOST_STATES: usize = 1024;
pub const MOST_LABELS: usize = 1024;
pub const MOST_HOPS: usize = 4096;
pub const LONGEST_FILE: usize = 66_536;

/// From, label, to and line: how many numbers of a flat list a hop takes.
pub const NUMBERS: usize = 4;

/// Counts and initial state of a graph; its hops go beside it as a flat list.
#[derive(Clone, Copy, Debug, PartialEq, Eq)]
pub struct Shape {
    pub states: u32,
    pub labels: u32,
    pub initial: u32,
}

/// Number, table and place.
#[derive(Clone, Copy, Debug, PartialEq, Eq)]
pub struct Answer {
    pub number: u32,
    pub table: u32,
    pub place: usize,
}

pub const ACCEPTED: Answer = Answer { number: 0, table: 1, place: 0 };

pub(crate) fn refuse(number: u32, place: usize) -> Answer {
    Answer { number, table: 1, place }
}

/// State, label and hop counts and initial state of a short graph; all 0 with a refusal.
#[derive(Clone, Copy, Debug, Default, PartialEq, Eq)]
pub struct Short {
    pub states: u32,
    pub labels: u32,
    pub hops: u32,
    pub initial: u32,
}

/// How many faults an audit has, and of the first one kind, place and state; all 0 with a refusal.
#[derive(Clone, Copy, Debug, Default, PartialEq, Eq)]
pub struct Faults {
    pub count: u32,
    pub kind: u32,
    pub place: u32,
    pub state: u32,
}

/// What a file holds besides its hops; all 0 with a refusal.
#[derive(Clone, Copy, Debug, Default, PartialEq, Eq)]
pub struct Contents {
    pub states: u32,
    pub labels: u32,
    pub initial: u32,
    pub hops: u32,
    pub names_place: usize,
    pub names_len: usize,
}

#[inline]
pub(crate) fn hop_count(hops: &[u16]) -> usize {
    hops.len() / NUMBERS
}

#[inline]
pub(crate) fn from_at(hops: &[u16], place: usize) -> u16 {
    hops[NUMBERS * place]
}

#[inline]
pub(crate) fn label_at(hops: &[u16], place: usize) -> u16 {
    hops[NUMBERS * place + 1]
}

#[inline]
pub(crate) fn to_at(hops: &[u16], place: usize) -> u16 {
    hops[NUMBERS * place + 2]
}

/// From, label and to.
#[inline]
pub(crate) fn hop_at(hops: &[u16], place: usize) -> (u16, u16, u16) {
    let hop = &hops[NUMBERS * place..NUMBERS * place + NUMBERS];
    (hop[0], hop[1], hop[2])
}

/// The smaller of two lines that is not 0; 0 where both are. One less than no line is the highest number.
#[inline]
pub(crate) fn first_line(one: u16, other: u16) -> u16 {
    one.wrapping_sub(1).min(other.wrapping_sub(1)).wrapping_add(1)
}

/// A hop's sum, by which hops are compared: from, label and to, 16 bits each. The line has no part in it.
#[inline]
pub(crate) fn sum_of((from, label, to): (u16, u16, u16)) -> u64 {
    (u64::from(from) << 32) | (u64::from(label) << 16) | u64::from(to)
}

/// The first place between `first` and `past` of an ascending list whose hop is not below `hop`.
fn lower_between(hops: &[u16], hop: (u16, u16, u16), first: usize, past: usize) -> usize {
    let (mut low, mut high) = (first, past);
    let sought = sum_of(hop);
    while low < high {
        let middle = low + (high - low) / 2;
        if sum_of(hop_at(hops, middle)) < sought {
            low = middle + 1;
        } else {
            high = middle;
        }
    }
    low
}

/// The first place of each state's hops, and the hop count behind the last: the hops of `s` are the places `first[s]..first[s + 1]`.
pub(crate) fn first_places(states: usize, hops: &[u16]) -> Vec<u16> {
    let mut first = vec![0; states + 1];
    let mut place = 0;
    for (state, slot) in first.iter_mut().enumerate() {
        while place < hop_count(hops) && usize::from(from_at(hops, place)) < state {
            place += 1;
        }
        *slot = place as u16;
    }
    first
}

/// The places of a state's hops.
#[inline]
pub(crate) fn places(first: &[u16], state: u16) -> std::ops::Range<usize> {
    usize::from(first[usize::from(state)])..usize::from(first[usize::from(state) + 1])
}

/// The first place among the hops of its state whose hop is not below `hop`.
pub(crate) fn lower_row(hops: &[u16], first: &[u16], hop: (u16, u16, u16)) -> usize {
    let row = places(first, hop.0);
    lower_between(hops, hop, row.start, row.end)
}

/// Where a hop stands between `first` and `past` of an ascending list, or would stand.
#[inline]
pub(crate) fn find_between(hops: &[u16], hop: (u16, u16, u16), first: usize, past: usize) -> Result<usize, usize> {
    let place = lower_between(hops, hop, first, past);
    if place < past && sum_of(hop_at(hops, place)) == sum_of(hop) {
        Ok(place)
    } else {
        Err(place)
    }
}

/// The place of a hop, searched for among the hops of its state.
pub(crate) fn find_row(hops: &[u16], first: &[u16], hop: (u16, u16, u16)) -> Option<usize> {
    let row = places(first, hop.0);
    find_between(hops, hop, row.start, row.end).ok()
}
