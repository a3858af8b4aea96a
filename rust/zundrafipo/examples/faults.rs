//! Audits P1 with three short graphs, and says in words which fault is first (P9).
//!
//!     cargo run -p zundrafipo --example faults
//!
//! Label 1 of P1 is named `pass`, and its hops come from lines 3, 4, 5 and 2. The first short graph
//! is the one that reducing leaves, the second lacks its hop, the third has one hop more.

use zundrafipo::{Graph, Hop, NameBlock, Refusal, Sense};

fn main() -> Result<(), Refusal> {
    let names = NameBlock::from_names(["pass"])?;
    let p1 = Graph::new(4, 2, 0, vec![0, 0, 1, 3, 0, 1, 2, 4, 1, 1, 3, 5, 2, 0, 3, 2]);
    let reduction = p1.reduce(Sense::R1)?;
    let more = reduction.graph.hops().chain([Hop::new(1, 1, 1)]);
    let others = [reduction.graph.clone(), Graph::new(2, 2, 0, vec![]), Graph::from_hops(2, 2, 0, more)];
    for short in &others {
        let audit = p1.audit(short, &reduction.map)?;
        match audit.first {
            None => println!("{} faults", audit.faults),
            Some(first) => println!("{} faults, the first: {}", audit.faults, first.describe(&p1, short, names.as_bytes())),
        }
    }
    Ok(())
}
