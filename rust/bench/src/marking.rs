//! Marking by rounds, and the table of mark_fast, which has repeated sweeps beside them.

use crate::inputs::Named;
use crate::show::{ratio, time};
use crate::timing::{agree, medians, Outputs, Timed};
use differential::entries::{self, Entries, Graph, Plain};

/// What the library's mark under R1 is compared with: plain rounds, without the number of tests. The plain mark under R1 goes by sweeps.
pub fn plain_rounds(graph: &Graph, o: &mut Outputs) -> u32 {
    let number = Plain.mark_fast(graph, &mut o.marks, &mut o.answer);
    o.answer[3] = 0;
    number
}

pub fn head() {
    println!("| mark_fast on | tests | plain sweeps | plain rounds | library | to sweeps | to rounds |\n|---|---|---|---|---|---|---|");
}

/// Marking by repeated sweeps and by rounds, both plain, and by rounds of the library. The sweeps are left out where they are not wanted.
pub fn row(Named { name, graph }: &Named, swept: bool) {
    let fast = |e: &dyn Entries, o: &mut Outputs| e.mark_fast(graph, &mut o.marks, &mut o.answer);
    let rounds = Timed::new(|o| fast(&Plain, o));
    let tests = rounds.outputs.answer[3];
    let sweeps = swept.then(|| {
        Timed::new(|o| {
            o.answer[3] = tests;
            Plain.mark(graph, 1, &mut o.marks, &mut o.answer)
        })
    });
    let library = entries::library().map(|library| Timed::new(move |o| fast(library, o)));
    let ways = [sweeps, Some(rounds), library];
    agree(&format!("mark_fast on {name}"), &ways.each_ref());
    let [sweeps, rounds, library] = medians(ways);
    let (to_sweeps, to_rounds) = (ratio(library, sweeps), ratio(library, rounds));
    println!("| {name} | {tests} | {} | {} | {} | {to_sweeps} | {to_rounds} |", time(sweeps), time(rounds), time(library));
}
