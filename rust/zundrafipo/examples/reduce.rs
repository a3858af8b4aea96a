//! Reads a graph file from standard input, reduces the graph and audits the result. Prints the
//! state counts, the fault count, and from, label, to and line of each short hop.
//!
//!     cargo run -p zundrafipo --example reduce <FILE

use std::io::Read;

fn main() -> Result<(), Box<dyn std::error::Error>> {
    let mut bytes = vec![];
    std::io::stdin().read_to_end(&mut bytes)?;
    let file = zundrafipo::read(&bytes)?;
    let graph = &file.graph;
    let reduction = graph.reduce(zundrafipo::Sense::R1)?;
    let audit = graph.audit(&reduction.graph, &reduction.map)?;
    println!("{} states became {}, faults: {}", graph.states, reduction.graph.states, audit.faults);
    if let Some(fault) = audit.first {
        println!("the first: {}", fault.describe(graph, &reduction.graph, file.name_block));
    }
    for hop in reduction.graph.hops() {
        println!("{} {} {} {}", hop.from, hop.label, hop.to, hop.line);
    }
    Ok(())
}
