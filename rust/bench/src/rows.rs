//! The rows that are timed: entries on inputs.

use crate::inputs::{self, Named, Random};
use crate::timing::Outputs;
use crate::{made, marking, names, SENSES};
use differential::entries::{Entries, Graph, Plain};

/// The longest file before version 0.5.0.
const LONGEST_WITHOUT_LINES: usize = 58_344;

/// A call of one entry on one input.
type Call<'a> = &'a dyn Fn(&dyn Entries, &mut Outputs) -> u32;

/// A row: an entry on an input, what the plain implementation does for it, and the graph whose check it is held against.
pub struct Row<'a> {
    pub entry: &'a str,
    /// 1 for an entry that takes no sense.
    pub sense: u32,
    pub input: &'a str,
    /// Whether a file is read or written that archives before version 0.5.0 do not take: one with lines, or longer than theirs could be.
    pub new_file: bool,
    pub checked: Option<&'a Graph>,
    pub plain: &'a dyn Fn(&mut Outputs) -> u32,
    pub call: Call<'a>,
}

/// What is done with each row.
pub type Take<'a> = &'a dyn Fn(&Row);

/// An entry and the plain one.
fn row(take: Take, entry: &str, input: &str, checked: Option<&Graph>, call: Call) {
    take(&Row { entry, sense: 1, input, new_file: false, checked, plain: &|o| call(&Plain, o), call });
}

/// Reading or writing of a file, which may be one that there was not before version 0.5.0.
fn row_of_file(take: Take, entry: &str, input: &str, new_file: bool, call: Call) {
    take(&Row { entry, sense: 1, input, new_file, checked: None, plain: &|o| call(&Plain, o), call });
}

/// An entry in a sense, of which a weaker one is part of its name, and the plain one.
fn row_in(take: Take, (entry, sense): (&str, u32), input: &str, checked: Option<&Graph>, call: Call) {
    let entry = if sense == 1 { entry.to_string() } else { format!("{entry} R{sense}") };
    take(&Row { entry: &entry, sense, input, new_file: false, checked, plain: &|o| call(&Plain, o), call });
}

/// All but those of `mark_fast`, which has a table of its own.
pub fn all(take: Take) {
    let (graphs, markings, long) = (inputs::graphs(), inputs::markings(), inputs::long_markings());
    for Named { name, graph } in &graphs {
        row(take, "check", name, Some(graph), &|e, o| e.check(graph, &mut o.answer));
    }
    finds(take, &graphs);
    graphs.iter().for_each(|input| mark(take, input, Some(&input.graph)));
    markings.iter().chain(&long).for_each(|input| mark(take, input, None));
    for Named { name, graph } in &graphs {
        row(take, "reduce", name, Some(graph), &|e, o| e.reduce(graph, 1, &mut o.map, &mut o.hops, &mut o.answer));
    }
    for sense in [2, 3, 8] {
        weaker(take, sense, &graphs, true);
        weaker(take, sense, &markings, false);
        weaker(take, sense, &long, false);
        weaker(take, sense, &inputs::walks(), false);
    }
    let repetitions = inputs::repetitions();
    for sense in SENSES {
        shrink(take, sense, &graphs, true);
        shrink(take, sense, &repetitions, false);
    }
    audits(take, &graphs);
    rounds(take, &graphs);
    files(take);
}

/// The rows of `mark_fast`, without its table's repeated sweeps.
pub fn mark_fast(take: Take) {
    for Named { name, graph } in inputs::graphs().iter().chain(&inputs::markings()).chain(&inputs::long_markings()) {
        row(take, "mark_fast", name, None, &|e, o| e.mark_fast(graph, &mut o.marks, &mut o.answer));
    }
}

/// The hop in the middle of each graph; and of a full list hops at its ends, one that is not there, and many in no order, so that no search can be foreseen.
fn finds(take: Take, graphs: &[Named]) {
    let hop = |graph: &Graph, place: usize| graph.three_at(place).map(u32::from);
    for Named { name, graph } in graphs {
        let middle = hop(graph, graph.hop_count() / 2);
        row(take, "find", name, Some(graph), &|e, o| e.find(graph, middle, &mut o.answer));
    }
    let full = inputs::longest().graph;
    let last = full.hop_count() - 1;
    let ends = [("the first", hop(&full, 0)), ("the last", hop(&full, last)), ("one before all", [0; 3]), ("one out of range", [u32::MAX; 3])];
    for (which, asked) in ends {
        row(take, "find", &format!("4,096 hops, {which}"), Some(&full), &|e, o| e.find(&full, asked, &mut o.answer));
    }
    let mut random = Random::new();
    let strewn: Vec<[u32; 3]> = (0..64).map(|_| hop(&full, random.below(4096).into())).collect();
    row(take, "find", "4,096 hops, 64 of them one after the other, at random", None, &|e, o| {
        strewn.iter().map(|&asked| e.find(&full, asked, &mut o.answer)).sum()
    });
    let few = Graph { states: 4, labels: 2, initial: 0, hops: vec![0, 0, 1, 3, 0, 1, 2, 4, 1, 1, 3, 5, 2, 0, 3, 2] };
    row(take, "find", "P1, the last", Some(&few), &|e, o| e.find(&few, [2, 0, 3], &mut o.answer));
}

fn mark(take: Take, Named { name, graph }: &Named, checked: Option<&Graph>) {
    let plain = &|o: &mut Outputs| marking::plain_rounds(graph, o);
    take(&Row { entry: "mark", sense: 1, input: name, new_file: false, checked, plain, call: &|e, o| e.mark(graph, 1, &mut o.marks, &mut o.answer) });
}

/// Mark in a weaker sense, and reduce where it is asked for.
fn weaker(take: Take, sense: u32, graphs: &[Named], reduced: bool) {
    for Named { name, graph } in graphs {
        let checked = reduced.then_some(graph);
        row_in(take, ("mark", sense), name, checked, &|e, o| e.mark(graph, sense, &mut o.marks, &mut o.answer));
    }
    for Named { name, graph } in graphs.iter().filter(|_| reduced) {
        row_in(take, ("reduce", sense), name, Some(graph), &|e, o| e.reduce(graph, sense, &mut o.map, &mut o.hops, &mut o.answer));
    }
}

/// Shrink in a sense, held against check where that is asked for.
fn shrink(take: Take, sense: u32, graphs: &[Named], held: bool) {
    for Named { name, graph } in graphs {
        let checked = held.then_some(graph);
        row_in(take, ("shrink", sense), name, checked, &|e, o| e.shrink(graph, sense, &mut o.map, &mut o.hops, &mut o.answer));
    }
}

fn audits(take: Take, graphs: &[Named]) {
    for Named { name, graph } in graphs {
        let (short, map) = made::reduced(graph);
        row(take, "audit of reduce", name, Some(graph), &|e, o| e.audit(graph, &short, &map, &mut o.answer));
    }
    for Named { name, graph } in graphs {
        let map: Vec<u16> = (0..graph.states as u16).collect();
        row(take, "audit with itself", name, Some(graph), &|e, o| e.audit(graph, graph, &map, &mut o.answer));
    }
    for Named { name, graph } in graphs {
        let map = Random::new().shuffled(graph.states as u16);
        row(take, "audit by a map at random", name, Some(graph), &|e, o| e.audit(graph, graph, &map, &mut o.answer));
    }
    for (Named { name, graph: one }, two, map) in inputs::worst_audits().iter().chain(&inputs::faulty_audits()) {
        row(take, "audit", name, None, &|e, o| e.audit(one, two, map, &mut o.answer));
    }
}

fn rounds(take: Take, graphs: &[Named]) {
    for Named { name, graph: dense } in &inputs::dense_rounds() {
        for rounds in 1..=4 {
            row(take, "round question", &format!("{name}, {rounds} rounds"), None, &|e, o| e.round(dense, 0, rounds, &mut o.answer));
        }
        let last = dense.each_hop().rposition(|hop| hop[1] == 0).expect("a silent hop") as u64;
        row(take, "round question", &format!("{name}, 4 rounds, the last hop"), None, &|e, o| e.round(dense, last, 4, &mut o.answer));
    }
    for Named { name, graph } in graphs.iter().filter(|g| g.graph.hops[1] == 0) {
        row(take, "round question", &format!("{name}, 4 rounds"), Some(graph), &|e, o| e.round(graph, 0, 4, &mut o.answer));
    }
}

fn files(take: Take) {
    let Named { name, graph: longest } = inputs::longest();
    let (names, unlined) = (names::longest(), inputs::without_lines(&longest));
    let files = [
        (name, &longest, &names[..]),
        ("4,096 hops, lines, no names", &longest, &[]),
        ("the longest legal file without lines", &unlined, &names),
        ("4,096 hops, no lines, no names", &unlined, &[]),
    ];
    for (name, graph, names) in files {
        let lines = inputs::has_lines(graph);
        row_of_file(take, "write", name, lines, &|e, o| e.write(graph, names, &mut o.file, &mut o.answer));
    }
    let (bare, by_hand) = (Graph { states: 1, labels: 1024, initial: 0, hops: vec![] }, names::written_by_hand());
    row(take, "write", "1,023 names as a person writes them", None, &|e, o| e.write(&bare, &by_hand, &mut o.file, &mut o.answer));
    for (name, graph, names) in files {
        let (file, lines) = (made::file(graph, names), inputs::has_lines(graph));
        row_of_file(take, "read", name, lines, &|e, o| e.read(&file, &mut o.hops, &mut o.answer));
    }
    for names::NamedFile { name, file } in &names::files() {
        row_of_file(take, "read", name, file.len() > LONGEST_WITHOUT_LINES, &|e, o| e.read(file, &mut o.hops, &mut o.answer));
    }
}
