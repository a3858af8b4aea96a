//! How the times of mark and reduce grow with the graph: where they grow like n log n, by about 2.2 from each size to the next.

use crate::asked;
use crate::inputs::{families, Family};
use crate::marking::plain_rounds;
use crate::show::{ratio, time};
use crate::timing::{agree, medians, Outputs, Timed};
use differential::entries::{self, Entries, Graph, Plain};

/// An entry of the library, or of the plain implementation where none is given.
type Entry = fn(Option<&dyn Entries>, &Graph, &mut Outputs) -> u32;

/// Of the library, or of the plain implementation where it is not linked.
pub fn table() {
    println!("| growth of | graph | 128 | 256 | factor | 512 | factor | 1,024 | factor |\n|---|---|---|---|---|---|---|---|---|");
    let mark: Entry = |library, graph, o| match library {
        Some(library) => library.mark(graph, 1, &mut o.marks, &mut o.answer),
        None => plain_rounds(graph, o),
    };
    let reduce: Entry = |library, graph, o| library.unwrap_or(&Plain).reduce(graph, 1, &mut o.map, &mut o.hops, &mut o.answer);
    for (name, entry) in [("mark", mark), ("reduce", reduce)] {
        for family in families().iter().filter(|family| asked(&format!("growth of {name}"), family.name)) {
            row(name, entry, family);
        }
    }
}

fn row(name: &str, entry: Entry, family: &Family) {
    let graphs = [128, 256, 512, 1024].map(family.of);
    let ways = graphs.each_ref().map(|graph| Some(Timed::new(move |o| entry(entries::library(), graph, o))));
    for (graph, way) in graphs.iter().zip(&ways) {
        let plain = Some(Timed::new(|o| entry(None, graph, o)));
        agree(&format!("{name} on {}, {} states", family.name, graph.states), &[&plain, way]);
    }
    let times = medians(ways);
    print!("| {name} | {} | {} |", family.name, time(times[0]));
    for two in times.windows(2) {
        print!(" {} | {} |", time(two[1]), ratio(two[1], two[0]));
    }
    println!();
}
