//! The graph, checks 1 to 4, the search for a hop, and the hops of a state.

use crate::{refuse, Answer, Refusal};

/// "A hop is three 16-bit numbers: from, label, to." "Every hop gains a fourth number, its source line, 0 for none". Whether two are the same is asked of the first
/// three alone ([`Hop::first_three`]): nothing compares hops whole.
#[derive(Clone, Copy, Debug)]
pub struct Hop {
    /// The state it leaves.
    pub from: u64,
    /// Its label; 0 is silent.
    pub label: u64,
    /// The state it leads to.
    pub to: u64,
    /// Its source line; 0 for none.
    pub line: u64,
}

impl Hop {
    /// "Order and equality go by the first three".
    pub fn first_three(&self) -> (u64, u64, u64) {
        (self.from, self.label, self.to)
    }
}

/// A graph as it is lent: counts, initial state and one flat list, four numbers a hop.
#[derive(Clone, Copy, Debug)]
pub struct Graph<'a> {
    /// State count.
    pub states: u64,
    /// Label count.
    pub labels: u64,
    /// Initial state.
    pub initial: u64,
    /// The flat hop list.
    pub hops: &'a [u16],
}

impl Graph<'_> {
    /// The list as hops; numbers past the last whole hop are left out.
    pub fn hop_list(&self) -> Vec<Hop> {
        self.hops.chunks_exact(4).map(|h| Hop { from: h[0].into(), label: h[1].into(), to: h[2].into(), line: h[3].into() }).collect()
    }

    pub(crate) fn check_1_to_4(&self, table: u64) -> Result<(), Refusal> {
        self.first_fault().map_err(|refusal| Refusal { table, ..refusal })
    }

    fn first_fault(&self) -> Result<(), Refusal> {
        let hops = self.hop_list();
        // "A graph has a state count of 1 to 1,024, a label count of 1 to 1,024, an initial state, and 0 to 4,096 hops."
        let counts = (1..=1024).contains(&self.states) && (1..=1024).contains(&self.labels) && hops.len() <= 4096;
        // "1 speaks of multiples of four"
        if !counts || self.hops.len() % 4 != 0 {
            return refuse(1, 0);
        }
        if self.initial >= self.states {
            return refuse(2, 0);
        }
        let outside = |h: &Hop| h.from >= self.states || h.label >= self.labels || h.to >= self.states;
        if let Some(place) = hops.iter().position(outside) {
            return refuse(3, place as u64);
        }
        // "strictly ascending by from, then label, then to"
        let above = |a: &Hop, b: &Hop| b.first_three() > a.first_three();
        if let Some(place) = (1..hops.len()).find(|&i| !above(&hops[i - 1], &hops[i])) {
            return refuse(4, place as u64);
        }
        Ok(())
    }
}

/// The entry check. No figures.
pub fn check(graph: &Graph) -> Answer {
    match graph.check_1_to_4(1) {
        Ok(()) => Answer::accepted(vec![]),
        Err(refusal) => Answer::refused(refusal, 0),
    }
}

/// The entry find: "one search that tells whether a graph has a given hop should also return its place, or where it would stand". Figures: 1 or 0, and the place,
/// which either way is the number of hops that come before the given one.
pub fn find(graph: &Graph, from: u64, label: u64, to: u64) -> Answer {
    if let Err(refusal) = graph.check_1_to_4(1) {
        return Answer::refused(refusal, 2);
    }
    let (hops, given) = (graph.hop_list(), (from, label, to));
    let before = hops.iter().filter(|h| h.first_three() < given).count();
    let there = hops.iter().any(|h| h.first_three() == given);
    Answer::accepted(vec![u64::from(there), before as u64])
}

/// The entry hops of a state: where the part starts and how many numbers it has; 0 and 0 for the empty part.
pub fn hops_of(side: u64, state: u64, graph1: &Graph, graph2: &Graph) -> (u64, u64) {
    if graph1.check_1_to_4(1).is_err() || graph2.check_1_to_4(2).is_err() {
        return (0, 0);
    }
    let hops = match side {
        1 => graph1.hop_list(),
        2 => graph2.hop_list(),
        _ => vec![],
    };
    let count = hops.iter().filter(|h| h.from == state).count() as u64;
    match hops.iter().position(|h| h.from == state) {
        Some(first) => (4 * first as u64, 4 * count),
        None => (0, 0),
    }
}
