//! What each sense costs and what it buys: the time of mark, and how many states and hops reduce leaves.

use crate::inputs::{self, Named};
use crate::show::time;
use crate::timing::{medians, Timed};
use crate::{asked, made, marking, SENSES};
use differential::entries;

/// Of the library, or of the plain implementation where it is not linked, each graph of the tables and those on which walks are long.
pub fn table() {
    println!("| senses on | states, hops | R1 | leaves | R2 | leaves | R3 | leaves | R8 | leaves |\n|---|---|---|---|---|---|---|---|---|---|");
    let all = [inputs::graphs(), inputs::markings(), inputs::long_markings(), inputs::walks()];
    for input in all.iter().flatten().filter(|input| asked("senses", input.name)) {
        row(input);
    }
}

fn row(Named { name, graph }: &Named) {
    let ways = SENSES.map(|sense| {
        Some(Timed::new(move |o| match entries::library() {
            Some(library) => library.mark(graph, sense, &mut o.marks, &mut o.answer),
            None if sense == 1 => marking::plain_rounds(graph, o),
            None => entries::Entries::mark(&entries::Plain, graph, sense, &mut o.marks, &mut o.answer),
        }))
    });
    let times = medians(ways);
    print!("| {name} | {}, {} |", graph.states, graph.hop_count());
    for (sense, seconds) in SENSES.into_iter().zip(times) {
        let (short, _) = made::reduced_in(sense, graph);
        print!(" {} | {}, {} |", time(seconds), short.states, short.hop_count());
    }
    println!();
}
