//! Reduces a silent chain once, and then until no hop is marked, in each sense.
//!
//! State i has a hop labelled 1 to itself where i is odd and to 0 where it is even, and one
//! labelled 2 the other way round. So only the first silent hop is marked, and each reduction takes
//! one state off the chain. Under R8 one reduction leaves a single state. Each state has a line of
//! its own, and what is left of the chain comes from the line of the last state.
//!
//!     cargo run -p zundrafipo --example shrink [STATES]
//!
//! Without a number the chain has three states.

use zundrafipo::{Graph, Hop, Sense};

fn chain(states: u16) -> Graph {
    let hops_of = |i: u16| {
        let (one, two) = if i % 2 == 1 { (i, 0) } else { (0, i) };
        let next = (i + 1 < states).then(|| Hop::new(i, 0, i + 1));
        next.into_iter().chain([Hop::new(i, 1, one), Hop::new(i, 2, two)]).map(move |hop| hop.with_line(i + 1))
    };
    Graph::from_hops(states.into(), 3, 0, (0..states).flat_map(hops_of))
}

fn main() -> Result<(), Box<dyn std::error::Error>> {
    let states = std::env::args().nth(1).map_or(Ok(3), |word| word.parse())?;
    let graph = chain(states);
    for sense in Sense::ALL {
        let once = graph.reduce(sense)?.graph;
        let last = graph.shrink(sense)?;
        let faults = graph.audit(&last.graph, &last.map)?.faults;
        let lines: Vec<u16> = last.graph.hops().map(|hop| hop.line).collect();
        println!(
            "{sense}: {states} states, reduced {}, shrunk {}; reductions: {}, faults: {faults}, lines {lines:?}",
            once.states, last.graph.states, last.reductions
        );
    }
    Ok(())
}
