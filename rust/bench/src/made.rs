//! What the plain implementation makes of a graph, where it is the input of something else.

use crate::timing::Outputs;
use differential::entries::{Entries, Graph, Plain, NUMBERS};

/// The short graph and the map under R1.
pub fn reduced(graph: &Graph) -> (Graph, Vec<u16>) {
    reduced_in(1, graph)
}

/// The short graph and the map under a sense.
pub fn reduced_in(sense: u32, graph: &Graph) -> (Graph, Vec<u16>) {
    let mut o = Outputs::new();
    assert_eq!(Plain.reduce(graph, sense, &mut o.map, &mut o.hops, &mut o.answer), 0, "a graph without rings");
    o.hops.truncate(NUMBERS * o.answer[5] as usize);
    o.map.truncate(graph.states as usize);
    (Graph { states: o.answer[3] as u32, labels: o.answer[4] as u32, initial: o.answer[6] as u32, hops: o.hops }, o.map)
}

pub fn marks(graph: &Graph) -> Vec<u8> {
    let mut o = Outputs::new();
    assert_eq!(Plain.mark_fast(graph, &mut o.marks, &mut o.answer), 0, "a graph without rings");
    o.marks.truncate(graph.hop_count());
    o.marks
}

pub fn file(graph: &Graph, names: &[u8]) -> Vec<u8> {
    let mut o = Outputs::new();
    assert_eq!(Plain.write(graph, names, &mut o.file, &mut o.answer), 0, "a legal file");
    o.file.truncate(o.answer[3] as usize);
    o.file
}
