//! What repetition costs and what it buys: what reduce and shrink leave in each sense, how many reductions shrink takes, and the times of both.

use crate::inputs::{self, Named};
use crate::show::{ratio, time};
use crate::timing::{library_or_plain, medians, Outputs, Timed};
use crate::{asked, SENSES};

pub fn head() {
    println!("| repetition on | states, hops | sense | reduce leaves | shrink leaves | reductions | reduce | shrink | ratio |\n|---|---|---|---|---|---|---|---|---|");
}

/// Of the library, or of the plain implementation where it is not linked.
pub fn table() {
    head();
    let all = [inputs::graphs(), inputs::markings(), inputs::long_markings(), inputs::repetitions()];
    all.iter().flatten().filter(|input| asked("repetition", input.name)).for_each(rows);
}

/// A row for each sense.
pub fn rows(Named { name, graph }: &Named) {
    for sense in SENSES {
        let reduce = Timed::new(|o| library_or_plain().reduce(graph, sense, &mut o.map, &mut o.hops, &mut o.answer));
        let shrink = Timed::new(|o| library_or_plain().shrink(graph, sense, &mut o.map, &mut o.hops, &mut o.answer));
        let [once, last] = [&reduce, &shrink].map(|way| leaves(&way.outputs));
        let reductions = shrink.outputs.answer[7];
        let [reduce, shrink] = medians([Some(reduce), Some(shrink)]);
        let (times, counts) = (ratio(shrink, reduce), format!("{}, {}", graph.states, graph.hop_count()));
        println!("| {name} | {counts} | R{sense} | {once} | {last} | {reductions} | {} | {} | {times} |", time(reduce), time(shrink));
    }
}

/// The states and hops of what a call left.
fn leaves(outputs: &Outputs) -> String {
    assert_eq!(outputs.answer[0], 0, "a graph without rings");
    format!("{}, {}", outputs.answer[3], outputs.answer[5])
}
