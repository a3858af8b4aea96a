//! Rings, marking, the round question, reducing once and again, and auditing.

use crate::graph::{check, Graph, Hop};
use crate::senses::{self, Walks};
use crate::{refuse, written, Answer, Refusal};
use std::collections::{BTreeMap, BTreeSet, HashSet};

/// An admitted graph: the list as it is, and the same hops once more put together by the state they leave.
pub(crate) struct Admitted {
    pub(crate) states: usize,
    list: Vec<Hop>,
    pub(crate) leaving: Vec<Vec<Hop>>,
}

impl Admitted {
    /// Only for a graph that checks 1 to 4 have passed.
    fn new(graph: &Graph) -> Admitted {
        let list = graph.hop_list();
        let mut leaving = vec![vec![]; graph.states as usize];
        for hop in &list {
            leaving[hop.from as usize].push(*hop);
        }
        Admitted { states: graph.states as usize, list, leaving }
    }

    fn has(&self, from: u64, label: u64, to: u64) -> bool {
        self.leaving[from as usize].iter().any(|h| h.first_three() == (from, label, to))
    }

    /// The states that `from` leads to by zero or more silent hops.
    fn leads_to(&self, from: u64) -> Vec<bool> {
        let mut reached = vec![false; self.states];
        reached[from as usize] = true;
        let mut waiting = vec![from];
        while let Some(state) = waiting.pop() {
            for hop in &self.leaving[state as usize] {
                if hop.label == 0 && !reached[hop.to as usize] {
                    reached[hop.to as usize] = true;
                    waiting.push(hop.to);
                }
            }
        }
        reached
    }

    /// "A ring is a closed walk of one or more silent hops".
    fn on_ring(&self, state: u64) -> bool {
        let reached = self.leads_to(state);
        self.list.iter().any(|h| h.label == 0 && h.to == state && reached[h.from as usize])
    }

    fn lowest_on_ring(&self) -> Option<u64> {
        (0..self.states as u64).find(|&s| self.on_ring(s))
    }

    fn no_ring(&self) -> Result<(), Refusal> {
        match self.lowest_on_ring() {
            Some(state) => refuse(5, state),
            None => Ok(()),
        }
    }
}

/// A set of pairs of states.
#[derive(Clone, PartialEq, Eq)]
pub(crate) struct Pairs {
    states: usize,
    held: Vec<bool>,
}

impl Pairs {
    fn silent_hops(graph: &Admitted) -> Pairs {
        let mut pairs = Pairs { states: graph.states, held: vec![false; graph.states * graph.states] };
        for hop in graph.list.iter().filter(|h| h.label == 0) {
            pairs.held[hop.from as usize * graph.states + hop.to as usize] = true;
        }
        pairs
    }

    pub(crate) fn has(&self, from: u64, to: u64) -> bool {
        self.held[from as usize * self.states + to as usize]
    }

    fn remove(&mut self, from: u64, to: u64) {
        self.held[from as usize * self.states + to as usize] = false;
    }
}

/// "for .. each hop s1, a, s3 there is an s4 such that s2 has a hop labelled a to s4, or a is silent and s4 = s2; and s3 = s4, or the silent
/// hop s3 to s4 is in U", for the hop `s1` to `s2`.
fn closes(graph: &Admitted, u: &Pairs, s1: u64, s2: u64) -> bool {
    graph.leaving[s1 as usize].iter().all(|tried| {
        let (a, s3) = (tried.label, tried.to);
        let second = |s4: u64| s3 == s4 || u.has(s3, s4);
        let answered = graph.leaving[s2 as usize].iter().any(|h| h.label == a && second(h.to));
        answered || (a == 0 && second(s2))
    })
}

/// What survives one round more than `before`: the silent hops for which the condition holds with "in U" read as "in `before`".
fn one_round(graph: &Admitted, before: &Pairs) -> Pairs {
    let mut after = Pairs::silent_hops(graph);
    for hop in graph.list.iter().filter(|h| h.label == 0) {
        if !closes(graph, before, hop.from, hop.to) {
            after.remove(hop.from, hop.to);
        }
    }
    after
}

/// All silent hops, less those that violate the condition of the sense, until nothing changes.
fn greatest(graph: &Admitted, sense: u64) -> Pairs {
    let mut u = Pairs::silent_hops(graph);
    loop {
        let walks = Walks::over(graph, sense, &u);
        let violates = |h: &&Hop| u.has(h.from, h.to) && !senses::closes(graph, sense, &u, &walks, h.from, h.to);
        let violators: Vec<&Hop> = graph.list.iter().filter(|h| h.label == 0).filter(violates).collect();
        if violators.is_empty() {
            return u;
        }
        for hop in violators {
            u.remove(hop.from, hop.to);
        }
    }
}

/// For a graph that checks 1 to 4 pass: the lowest state on a ring.
pub fn lowest_on_ring(graph: &Graph) -> Option<u64> {
    Admitted::new(graph).lowest_on_ring()
}

/// For a graph that checks 1 to 4 pass, with rings or without, and a sense: one 1 or 0 a hop, 1 for the hops of the marked set.
pub fn marked(graph: &Graph, sense: u64) -> Vec<u8> {
    let graph = Admitted::new(graph);
    marks_of(&graph, &greatest(&graph, sense))
}

/// For a graph that checks 1 to 4 pass: one 1 or 0 a hop, 1 for the silent hops that survive so many rounds.
pub fn survivors(graph: &Graph, rounds: u64) -> Vec<u8> {
    let graph = Admitted::new(graph);
    marks_of(&graph, &after_rounds(&graph, rounds))
}

fn after_rounds(graph: &Admitted, rounds: u64) -> Pairs {
    (0..rounds).fold(Pairs::silent_hops(graph), |u, _| one_round(graph, &u))
}

fn marks_of(graph: &Admitted, u: &Pairs) -> Vec<u8> {
    graph.list.iter().map(|h| u8::from(h.label == 0 && u.has(h.from, h.to))).collect()
}

/// The entry mark: the answer, and what the output for marks holds afterwards. No figures.
pub fn mark(graph: &Graph, sense: u64, marks: &[u8]) -> (Answer, Vec<u8>) {
    match try_mark(graph, sense, marks) {
        Ok(after) => (Answer::accepted(vec![]), after),
        Err(refusal) => (Answer::refused(refusal, 0), marks.to_vec()),
    }
}

fn try_mark(graph: &Graph, sense: u64, marks: &[u8]) -> Result<Vec<u8>, Refusal> {
    graph.check_1_to_4(1)?;
    senses::is_one(sense)?;
    let admitted = Admitted::new(graph);
    admitted.no_ring()?;
    if marks.len() < admitted.list.len() {
        refuse(6, 0)?;
    }
    Ok(written(&marked(graph, sense), marks))
}

/// The entry mark_fast: the answer, and what the output for marks holds afterwards. One figure: the number of tests.
pub fn mark_fast(graph: &Graph, marks: &[u8]) -> (Answer, Vec<u8>) {
    match try_mark(graph, 1, marks) {
        Ok(after) => {
            let admitted = Admitted::new(graph);
            let (survives, tests) = all_rounds(&admitted);
            assert!(after.starts_with(&marks_of(&admitted, &survives)), "the marked set is what survives every k");
            (Answer::accepted(vec![tests]), after)
        }
        Err(refusal) => (Answer::refused(refusal, 1), marks.to_vec()),
    }
}

/// What survives every round, and the number of tests. Wish 10: "the first tests every silent hop, each later one only those still marked that have a hop to try
/// and an s4 .. with s3 to s4 fallen in the round before". What falls in a round is in U for all tests of that round.
fn all_rounds(graph: &Admitted) -> (Pairs, u64) {
    let silent = graph.list.iter().filter(|h| h.label == 0);
    let mut tests = silent.clone().count() as u64;
    let mut before = Pairs::silent_hops(graph);
    loop {
        let now = one_round(graph, &before);
        let fallen = |s3: u64, s4: u64| before.has(s3, s4) && !now.has(s3, s4);
        tests += silent.clone().filter(|h| now.has(h.from, h.to) && has_try_that(graph, h.from, h.to, fallen)).count() as u64;
        if now == before {
            return (now, tests);
        }
        before = now;
    }
}

/// For the hop `s1` to `s2` there are a hop s1, a, s3 and an s4, where "s2 has a hop labelled a to s4, or a is silent and s4 = s2", with this of s3 and s4.
fn has_try_that(graph: &Admitted, s1: u64, s2: u64, of: impl Fn(u64, u64) -> bool) -> bool {
    graph.leaving[s1 as usize].iter().any(|tried| {
        let (a, s3) = (tried.label, tried.to);
        graph.leaving[s2 as usize].iter().any(|h| h.label == a && of(s3, h.to)) || (a == 0 && of(s3, s2))
    })
}

/// The entry that answers the round question. One figure: 1 or 0.
pub fn round(graph: &Graph, place: u64, rounds: u64) -> Answer {
    match try_round(graph, place, rounds) {
        Ok(survives) => Answer::accepted(vec![u64::from(survives)]),
        Err(refusal) => Answer::refused(refusal, 1),
    }
}

fn try_round(graph: &Graph, place: u64, rounds: u64) -> Result<bool, Refusal> {
    graph.check_1_to_4(1)?;
    let admitted = Admitted::new(graph);
    let asked = usize::try_from(place).ok().and_then(|p| admitted.list.get(p)).filter(|h| h.label == 0);
    match asked {
        None => refuse(9, 0).map(|()| false),
        Some(_) if rounds > 4 => refuse(10, 0).map(|()| false),
        Some(hop) => Ok(after_rounds(&admitted, rounds).has(hop.from, hop.to)),
    }
}

/// The entry reduce: the answer, and what the outputs for the map and for the short hops hold afterwards. Figures: the short graph's state, label and
/// hop counts and its initial state.
pub fn reduce(graph: &Graph, sense: u64, map: &[u16], short: &[u16]) -> (Answer, Vec<u16>, Vec<u16>) {
    match try_reduce(graph, sense, map, short) {
        Ok((figures, map, short)) => (Answer::accepted(figures), map, short),
        Err(refusal) => (Answer::refused(refusal, 4), map.to_vec(), short.to_vec()),
    }
}

type Reduced = (Vec<u64>, Vec<u16>, Vec<u16>);

fn try_reduce(graph: &Graph, sense: u64, map_before: &[u16], short_before: &[u16]) -> Result<Reduced, Refusal> {
    check_to_reduce(graph, sense, map_before, short_before)?;
    let short = short_graph(graph, sense);
    let figures = vec![short.states, graph.labels, short.hops.len() as u64 / 4, short.initial];
    Ok((figures, written(&short.map, map_before), written(&short.hops, short_before)))
}

fn check_to_reduce(graph: &Graph, sense: u64, map_before: &[u16], short_before: &[u16]) -> Result<(), Refusal> {
    graph.check_1_to_4(1)?;
    senses::is_one(sense)?;
    let admitted = Admitted::new(graph);
    admitted.no_ring()?;
    if map_before.len() < admitted.states || short_before.len() < 4 * admitted.list.len() {
        refuse(6, 0)?;
    }
    Ok(())
}

/// A short graph, whose label count is that of the graph it comes from, and the map to it.
struct Short {
    states: u64,
    initial: u64,
    hops: Vec<u16>,
    map: Vec<u16>,
    /// For each hop the places of the hops that it comes from.
    origins: Vec<Vec<usize>>,
}

/// For a graph without rings that checks 1 to 4 pass.
fn short_graph(graph: &Graph, sense: u64) -> Short {
    let admitted = Admitted::new(graph);
    let u = greatest(&admitted, sense);
    let classes = classes_of(&admitted, &u);
    // "each class has exactly one state that no marked hop leaves: its representative"
    let left = |s: usize| admitted.leaving[s].iter().any(|h| h.label == 0 && u.has(h.from, h.to));
    let stays: Vec<usize> = (0..admitted.states).filter(|&s| !left(s)).collect();
    let class_count = classes.iter().collect::<BTreeSet<_>>().len();
    let classes_that_have_one: BTreeSet<usize> = stays.iter().map(|&s| classes[s]).collect();
    assert!(stays.len() == class_count && classes_that_have_one.len() == class_count, "one representative a class");
    // "Representatives are renumbered 0, 1, 2 in ascending old order."
    let new = |s: usize| stays.iter().position(|&r| classes[r] == classes[s]).expect("a representative");
    let map: Vec<u16> = (0..admitted.states).map(|s| new(s) as u16).collect();
    // "for each hop r, a, t of a representative r, the hop new(r), a, map(t), once, in ascending order": each with the places of those hops
    let mut short: BTreeMap<(u16, u16, u16), Vec<usize>> = BTreeMap::new();
    for (place, hop) in admitted.list.iter().enumerate() {
        if let Ok(new) = stays.binary_search(&(hop.from as usize)) {
            short.entry((new as u16, hop.label as u16, map[hop.to as usize])).or_default().push(place);
        }
    }
    let hops = short.iter().flat_map(|(&(from, label, to), origins)| [from, label, to, line_of(&admitted.list, origins)]).collect();
    Short { states: stays.len() as u64, initial: map[graph.initial as usize].into(), hops, map, origins: short.into_values().collect() }
}

/// "A short hop carries the smallest nonzero line among the hops it comes from, else 0".
fn line_of(hops: &[Hop], origins: &[usize]) -> u16 {
    origins.iter().map(|&place| hops[place].line as u16).filter(|&line| line != 0).min().unwrap_or(0)
}

/// The entry shrink: the answer, and what the outputs for the map and for the last graph's hops hold afterwards. Figures: the last graph's state, label and hop counts
/// and its initial state, and the number of reductions.
pub fn shrink(graph: &Graph, sense: u64, map: &[u16], short: &[u16]) -> (Answer, Vec<u16>, Vec<u16>) {
    match try_shrink(graph, sense, map, short) {
        Ok((figures, map, short)) => (Answer::accepted(figures), map, short),
        Err(refusal) => (Answer::refused(refusal, 5), map.to_vec(), short.to_vec()),
    }
}

/// "Repeat, under a chosen sense, until no hop is marked, and return the last graph, one map from first states to last, and the number of reductions that marked
/// something. Outputs and refusals are as in reduce."
fn try_shrink(graph: &Graph, sense: u64, map_before: &[u16], short_before: &[u16]) -> Result<Reduced, Refusal> {
    check_to_reduce(graph, sense, map_before, short_before)?;
    let first = graph.hop_list();
    let itself = (0..first.len()).map(|place| vec![place]).collect();
    let map = (0..graph.states as u16).collect();
    let mut last = Short { states: graph.states, initial: graph.initial, hops: graph.hops.to_vec(), map, origins: itself };
    let mut reductions = 0;
    loop {
        let now = Graph { states: last.states, labels: graph.labels, initial: last.initial, hops: &last.hops };
        assert_eq!((check(&now).number, lowest_on_ring(&now)), (0, None), "5 is asked of the input alone: no short graph has a ring");
        let lines: Vec<u16> = last.origins.iter().map(|origins| line_of(&first, origins)).collect();
        assert!(
            now.hop_list().iter().map(|h| h.line as u16).eq(lines),
            "the line of the first graph's hops that a hop comes from through all reductions"
        );
        if !marked(&now, sense).contains(&1) {
            let figures = vec![last.states, graph.labels, last.hops.len() as u64 / 4, last.initial, reductions];
            return Ok((figures, written(&last.map, map_before), written(&last.hops, short_before)));
        }
        let next = short_graph(&now, sense);
        let map = last.map.iter().map(|&state| next.map[usize::from(state)]).collect();
        let origins = next.origins.iter().map(|places| places.iter().flat_map(|&place| last.origins[place].clone()).collect()).collect();
        last = Short { map, origins, ..next };
        reductions += 1;
    }
}

/// "A class is a set of states joined by marked hops taken either way." Each state with its class's lowest member.
fn classes_of(graph: &Admitted, u: &Pairs) -> Vec<usize> {
    let mut joined = vec![vec![]; graph.states];
    for hop in graph.list.iter().filter(|h| h.label == 0 && u.has(h.from, h.to)) {
        joined[hop.from as usize].push(hop.to as usize);
        joined[hop.to as usize].push(hop.from as usize);
    }
    let mut class = vec![usize::MAX; graph.states];
    for lowest in 0..graph.states {
        if class[lowest] != usize::MAX {
            continue;
        }
        class[lowest] = lowest;
        let mut waiting = vec![lowest];
        while let Some(state) = waiting.pop() {
            for &other in &joined[state] {
                if class[other] == usize::MAX {
                    class[other] = lowest;
                    waiting.push(other);
                }
            }
        }
    }
    class
}

/// A fault by the figures that name it: "its kind 1, 2 or 3 in document 01's order, the hop's place in its graph, and the state for kind 3; figures a kind lacks are
/// 0". Which comes first: kinds, and "within a kind, hops come in list order, then states ascending", the order of the figures.
#[derive(Clone, Copy, Debug, PartialEq, Eq, PartialOrd, Ord)]
pub struct Fault {
    /// 1 the initial states, 2 a hop of graph 1 that graph 2 lacks, 3 a hop of graph 2 that a state of graph 1 does not answer.
    pub kind: u64,
    /// The hop's place in its graph.
    pub place: u64,
    /// The state of graph 1.
    pub state: u64,
}

/// The entry audit. Figures: the fault count; kind, place and state of the first fault, 0 with none.
pub fn audit(graph1: &Graph, graph2: &Graph, map: &[u16]) -> Answer {
    audit_and_faults(graph1, graph2, map).0
}

/// The entry audit, and all faults in no order.
pub fn audit_and_faults(graph1: &Graph, graph2: &Graph, map: &[u16]) -> (Answer, Vec<Fault>) {
    match try_audit(graph1, graph2, map) {
        Ok(faults) => {
            let first = faults.iter().min().copied().unwrap_or(Fault { kind: 0, place: 0, state: 0 });
            (Answer::accepted(vec![faults.len() as u64, first.kind, first.place, first.state]), faults)
        }
        Err(refusal) => (Answer::refused(refusal, 4), vec![]),
    }
}

fn try_audit(graph1: &Graph, graph2: &Graph, map: &[u16]) -> Result<Vec<Fault>, Refusal> {
    graph1.check_1_to_4(1)?;
    graph2.check_1_to_4(2)?;
    if graph1.labels != graph2.labels {
        refuse(7, 0)?;
    }
    if map.len() as u64 != graph1.states {
        refuse(8, map.len() as u64)?;
    }
    if let Some(entry) = map.iter().position(|&m| u64::from(m) >= graph2.states) {
        refuse(8, entry as u64)?;
    }
    let map: Vec<u64> = map.iter().map(|&m| m.into()).collect();
    let (one, two) = (Admitted::new(graph1), Admitted::new(graph2));
    let mut faults = vec![];

    // "1 if the map of initial state 1 is not initial state 2"
    if map[graph1.initial as usize] != graph2.initial {
        faults.push(Fault { kind: 1, place: 0, state: 0 });
    }

    // "1 for each hop s, a, t of graph 1, unless a is silent and map(s) = map(t), or graph 2 has the hop map(s), a, map(t)"
    for (place, h) in (0..).zip(&one.list) {
        let (s, t) = (map[h.from as usize], map[h.to as usize]);
        if !((h.label == 0 && s == t) || two.has(s, h.label, t)) {
            faults.push(Fault { kind: 2, place, state: 0 });
        }
    }

    // "1 for each pair of a hop r, a, q of graph 2 and a state s with map(s) = r, unless a is silent and r = q, or s leads by zero or more silent
    // hops to some u with map(u) = r that has a hop a to some t with map(t) = q"
    let mut places_of = vec![vec![]; two.states];
    for (place, hop) in (0..).zip(&two.list) {
        places_of[hop.from as usize].push((place, hop));
    }
    for s in 0..one.states {
        let r = map[s];
        if places_of[r as usize].is_empty() {
            continue;
        }
        let reached = one.leads_to(s as u64);
        // what such a u offers: a label a, and q for the map of where it leads
        let offered: HashSet<(u64, u64)> = (0..one.states)
            .filter(|&u| reached[u] && map[u] == r)
            .flat_map(|u| one.leaving[u].iter().map(|h| (h.label, map[h.to as usize])))
            .collect();
        for &(place, hop) in &places_of[r as usize] {
            let (a, q) = (hop.label, hop.to);
            if !((a == 0 && r == q) || offered.contains(&(a, q))) {
                faults.push(Fault { kind: 3, place, state: s as u64 });
            }
        }
    }
    Ok(faults)
}
