//! Reduces P1, a graph of four states, and audits the result.
use zundrafipo::{Graph, Sense};

fn main() -> Result<(), zundrafipo::Refusal> {
    let graph = Graph::new(4, 2, 0, vec![0, 0, 1, 3, 0, 1, 2, 4, 1, 1, 3, 5, 2, 0, 3, 2]);
    let reduction = graph.reduce(Sense::R1)?;
    println!("{} states, map {:?}", reduction.graph.states, reduction.map);
    println!("{} faults", graph.audit(&reduction.graph, &reduction.map)?.faults);
    Ok(())
}
