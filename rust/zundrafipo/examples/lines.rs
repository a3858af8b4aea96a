//! Says which line of the source each hop of a short graph comes from. Of several lines it is the
//! smallest. A hop that comes from no line has none.
//!
//!     cargo run -p zundrafipo --example lines [FILE]
//!
//! Without a file it is P1, written as a file with lines 3, 4, 5 and 2 and read again. States 0 and
//! 1 become one state, and so do states 2 and 3. Both 0 and 1 have a hop labelled 1 from the one
//! class to the other. The short hop comes from that of the representative, state 1, in line 5,
//! though the other hop's line is lower.

use zundrafipo::{read, Graph, Hop, Refusal, Sense};

fn p1() -> Result<Vec<u8>, Refusal> {
    let hops = [Hop::new(0, 0, 1).with_line(3), Hop::new(0, 1, 2).with_line(4), Hop::new(1, 1, 3).with_line(5), Hop::new(2, 0, 3).with_line(2)];
    Graph::from_hops(4, 2, 0, hops).write(b"")
}

fn main() -> Result<(), Box<dyn std::error::Error>> {
    let bytes = match std::env::args_os().nth(1) {
        Some(path) => std::fs::read(path)?,
        None => p1()?,
    };
    let graph = read(&bytes)?.graph;
    for hop in graph.reduce(Sense::R1)?.graph.hops() {
        let Hop { from, label, to, .. } = hop;
        match hop.source_line() {
            Some(line) => println!("({from},{label},{to}) comes from line {line}"),
            None => println!("({from},{label},{to}) comes from no line"),
        }
    }
    Ok(())
}
