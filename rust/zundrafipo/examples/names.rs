//! Prints the short graph of a graph file with names in the place of label numbers. The silent
//! label is `tau`, and a label without a name is its number. Lines are left out: the example
//! `lines` is about them.
//!
//!     cargo run -p zundrafipo --example names [FILE]
//!
//! Without a file it is P1, with label 1 named `pass`.

use zundrafipo::{read, File, Graph, Hop, NameBlock, Refusal, Sense};

fn p1() -> Result<Vec<u8>, Refusal> {
    let hops = [(0, 0, 1), (0, 1, 2), (1, 1, 3), (2, 0, 3)].map(|(from, label, to)| Hop::new(from, label, to));
    Graph::from_hops(4, 2, 0, hops).write(NameBlock::from_names(["pass"])?.as_bytes())
}

/// A name may hold any bytes: those that are not printable ASCII are escaped.
fn shown(file: &File, label: u16) -> String {
    if label == 0 {
        return "tau".to_string();
    }
    file.name(label).map_or_else(|| label.to_string(), |name| name.escape_ascii().to_string())
}

fn main() -> Result<(), Box<dyn std::error::Error>> {
    let bytes = match std::env::args_os().nth(1) {
        Some(path) => std::fs::read(path)?,
        None => p1()?,
    };
    let file = read(&bytes)?;
    for hop in file.graph.reduce(Sense::R1)?.graph.hops() {
        println!("{} {} {}", hop.from, shown(&file, hop.label), hop.to);
    }
    Ok(())
}
