//! One call of an entry against the checker: the returned number, every element of the answer and of every output, guard elements before and behind each
//! of them, and inputs that must stay as they are.

use crate::met::{
    fast_word, fault_word, find_word, graph_word, hops_of_condition, marked_word, read_word, reductions_word, round_word, sensed_word, short_word,
    shrink_in, smaller_word, write_word, Condition, Met,
};
use crate::random::Random;
use checker::Answer;
use differential::entries::{Entries, Graph, NUMBERS};
use std::fmt::Debug;

/// Guard elements on either side of what is lent.
const GUARDS: usize = 5;

/// An element that can be filled with noise.
pub trait Noise: Copy + PartialEq + Debug {
    fn noise(random: &mut Random) -> Self;
}

impl Noise for u8 {
    fn noise(random: &mut Random) -> u8 {
        random.next() as u8
    }
}

impl Noise for u16 {
    fn noise(random: &mut Random) -> u16 {
        random.next() as u16
    }
}

impl Noise for u64 {
    fn noise(random: &mut Random) -> u64 {
        random.next()
    }
}

/// Something lent for writing: noise between guard elements.
struct Lent<T> {
    all: Vec<T>,
    before: Vec<T>,
    len: usize,
}

impl<T: Noise> Lent<T> {
    fn new(random: &mut Random, len: usize) -> Lent<T> {
        let all: Vec<T> = (0..len + 2 * GUARDS).map(|_| T::noise(random)).collect();
        Lent { before: all.clone(), all, len }
    }

    fn part(&mut self) -> &mut [T] {
        &mut self.all[GUARDS..GUARDS + self.len]
    }

    fn held(&self) -> &[T] {
        &self.before[GUARDS..GUARDS + self.len]
    }

    /// What it holds now is `after` between the same guards.
    fn holds(&self, after: &[T]) -> bool {
        let behind = GUARDS + self.len;
        after.len() == self.len
            && self.all[..GUARDS] == self.before[..GUARDS]
            && self.all[GUARDS..behind] == *after
            && self.all[behind..] == self.before[behind..]
    }
}

/// How long an output or an answer is made.
#[derive(Clone, Copy)]
pub enum Length {
    /// Exactly so long.
    Exactly(usize),
    /// So long, or a little more or less, or anything up to it.
    About(usize),
    /// Mostly enough.
    AtLeast(usize),
}

impl Length {
    fn choose(self, random: &mut Random) -> usize {
        match self {
            Length::Exactly(len) => len,
            Length::About(needed) => match random.below(6) {
                0 => random.between(0, needed),
                1 => needed.saturating_sub(1),
                2 => needed + 1,
                3 => needed + random.below(9),
                _ => needed,
            },
            Length::AtLeast(needed) => needed + if random.percent(50) { 0 } else { random.below(4) },
        }
    }
}

/// What the checker says of a graph, a sense, and outputs for a map and for hops.
type Expected = fn(&checker::Graph, u64, &[u16], &[u16]) -> (Answer, Vec<u16>, Vec<u16>);
/// The same of what is compared, which also has an answer to write.
type Call = fn(&dyn Entries, &Graph, u32, &mut [u16], &mut [u16], &mut [u64]) -> u32;

/// An entry that writes a map and short hops.
struct Shortening {
    name: &'static str,
    /// The length of its answer.
    answer: usize,
    expected: Expected,
    call: Call,
    /// Its name in a sense, with what was met.
    met: fn(u32) -> &'static str,
    /// The condition that an accepted answer met.
    accepted: fn(&Graph, u32, &Answer) -> &'static str,
}

const REDUCE: Shortening = Shortening {
    name: "reduce",
    answer: 7,
    expected: checker::reduce,
    call: |entries, g, sense, map, short, answer| entries.reduce(g, sense, map, short, answer),
    met: |_| "reduce",
    accepted: |g, sense, answer| smaller_word(sense, answer.figures[0] < g.states.into()),
};

const SHRINK: Shortening = Shortening {
    name: "shrink",
    answer: 8,
    expected: checker::shrink,
    call: |entries, g, sense, map, short, answer| entries.shrink(g, sense, map, short, answer),
    met: shrink_in,
    accepted: |g, _, answer| reductions_word(g, answer.figures[4]),
};

/// Compares calls and counts them.
pub struct Comparer<'a> {
    pub entries: &'a dyn Entries,
    pub random: Random,
    pub calls: u64,
    pub met: Met,
    /// The length of answers: mostly enough, unless it is set.
    pub answer_len: Option<usize>,
}

impl<'a> Comparer<'a> {
    pub fn new(entries: &'a dyn Entries, seed: u64) -> Comparer<'a> {
        Comparer { entries, random: Random::new(seed), calls: 0, met: Met::new(), answer_len: None }
    }

    fn answer(&mut self, needed: usize) -> Lent<u64> {
        let len = match self.answer_len {
            Some(len) => len,
            None if self.random.percent(10) => self.random.between(0, needed + 2),
            None => Length::AtLeast(needed).choose(&mut self.random),
        };
        Lent::new(&mut self.random, len)
    }

    /// The returned number and the answer, with the condition that gave them; true where outputs must have been written.
    fn judge(&mut self, returned: u32, number: u64, expected: &[u64], met: Condition, answer: &Lent<u64>, what: &dyn Fn() -> String) -> bool {
        self.calls += 1;
        let fits = answer.len >= expected.len();
        if fits {
            self.met.count(met);
        } else {
            self.met.count_short_answer(met.0, number == 0);
        }
        let after = if fits { [expected, &answer.held()[expected.len()..]].concat() } else { answer.held().to_vec() };
        let number = if number == 0 && !fits { 6 } else { number };
        if u64::from(returned) != number || !answer.holds(&after) {
            self.fail(what, &format!("returned {number}, answer {after:?}"), &format!("returned {returned}, answer with guards {:?}", answer.all));
        }
        fits
    }

    fn output<T: Noise>(&self, lent: &Lent<T>, after: &[T], fits: bool, what: &dyn Fn() -> String) {
        let after = if fits { after } else { lent.held() };
        if !lent.holds(after) {
            let first = lent.part_differs(after);
            self.fail(
                what,
                &format!("output {}", brief(after)),
                &format!("output with {GUARDS} guards on either side {}; first difference at {first}", brief(&lent.all)),
            );
        }
    }

    fn fail(&self, what: &dyn Fn() -> String, expected: &str, found: &str) -> ! {
        eprintln!("MISMATCH of {} and the checker\n  call: {}\n  expected: {expected}\n  found: {found}", self.entries.name(), what());
        std::process::exit(1);
    }

    fn same_input<T: Noise>(&self, now: &[T], before: &[T], what: &dyn Fn() -> String) {
        if now != before {
            self.fail(what, "inputs as they were", "an input was altered");
        }
    }

    pub fn check(&mut self, g: &Graph) {
        let what = || format!("check {}", show(g));
        let input = g.hops.clone();
        let expected = checker::check(&g.lent());
        let mut answer = self.answer(3);
        let returned = self.entries.check(g, answer.part());
        let met = ("check", if expected.number == 0 { Some("0") } else { graph_word(g, expected.number, expected.place) });
        self.judge(returned, expected.number, &expected.numbers(), met, &answer, &what);
        self.same_input(&g.hops, &input, &what);
    }

    pub fn find(&mut self, g: &Graph, hop: [u32; 3]) -> Answer {
        let what = || format!("find {hop:?} in {}", show(g));
        let input = g.hops.clone();
        let [from, label, to] = hop.map(u64::from);
        let expected = checker::find(&g.lent(), from, label, to);
        let mut answer = self.answer(5);
        let returned = self.entries.find(g, hop, answer.part());
        let met = match expected.number {
            0 => find_word(g, hop, expected.figures[0] == 1, expected.figures[1]),
            number => graph_word(g, number, expected.place),
        };
        self.judge(returned, expected.number, &expected.numbers(), ("find", met), &answer, &what);
        self.same_input(&g.hops, &input, &what);
        expected
    }

    /// Where it accepts, also the marks.
    pub fn mark(&mut self, g: &Graph, sense: u32, len: Length) -> Option<Vec<u8>> {
        let len = len.choose(&mut self.random);
        let what = || format!("mark, sense {sense}, marks of {len}, {}", show(g));
        let input = g.hops.clone();
        let mut marks = Lent::<u8>::new(&mut self.random, len);
        let (expected, mut after) = checker::mark(&g.lent(), sense.into(), marks.held());
        let mut answer = self.answer(3);
        let returned = self.entries.mark(g, sense, marks.part(), answer.part());
        let count = g.hop_count();
        let met = match expected.number {
            0 => Some(marked_word(sense, after[..count].contains(&1))),
            5 => Some("5"),
            6 => Some("6"),
            number => sensed_word(g, sense, number, expected.place, len >= count),
        };
        let fits = self.judge(returned, expected.number, &expected.numbers(), ("mark", met), &answer, &what);
        self.output(&marks, &after, fits, &what);
        self.same_input(&g.hops, &input, &what);
        after.truncate(count);
        (expected.number == 0).then_some(after)
    }

    /// The marks must be those of mark too.
    pub fn mark_fast(&mut self, g: &Graph, len: Length) -> Answer {
        let what = || format!("mark_fast {}", show(g));
        let input = g.hops.clone();
        let len = len.choose(&mut self.random);
        let mut marks = Lent::<u8>::new(&mut self.random, len);
        let (expected, after) = checker::mark_fast(&g.lent(), marks.held());
        let (of_mark, after_mark) = checker::mark(&g.lent(), 1, marks.held());
        assert_eq!((&expected.numbers()[..3], &after), (&of_mark.numbers()[..], &after_mark), "mark and mark_fast of {g:?}");
        let mut answer = self.answer(4);
        let returned = self.entries.mark_fast(g, marks.part(), answer.part());
        let met = match expected.number {
            0 => Some(fast_word(g, expected.figures[0], &after)),
            5 => Some("5"),
            6 => Some("6"),
            number => graph_word(g, number, expected.place),
        };
        let fits = self.judge(returned, expected.number, &expected.numbers(), ("mark_fast", met), &answer, &what);
        self.output(&marks, &after, fits, &what);
        self.same_input(&g.hops, &input, &what);
        expected
    }

    /// Where it accepts, also what came out.
    pub fn reduce(&mut self, g: &Graph, sense: u32, map_len: Length, short_len: Length) -> Option<(Graph, Vec<u16>)> {
        let (_, short, map) = self.shortened(&REDUCE, g, sense, map_len, short_len)?;
        Some((short, map))
    }

    /// Where it accepts, also what came out, with the number of reductions; the laws of wish 13 must hold of it.
    pub fn shrink(&mut self, g: &Graph, sense: u32, map_len: Length, short_len: Length) -> Option<(Graph, Vec<u16>, u64)> {
        let (answer, last, map) = self.shortened(&SHRINK, g, sense, map_len, short_len)?;
        let reductions = answer.figures[4];
        let of = || format!("sense {sense} of {}", show(g));
        assert!(reductions < u64::from(g.states), "the number of reductions is below the first state count, not {reductions}: {}", of());
        assert!(sense != 8 || reductions <= 1, "one reduction at the most, not {reductions}: {}", of());
        assert_eq!(checker::audit(&g.lent(), &last.lent(), &map).numbers(), [0, 1, 0, 0, 0, 0, 0], "the map has no faults: {}", of());
        assert!(!checker::marked(&last.lent(), sense.into()).contains(&1), "no hop of the last graph is marked: {}", of());
        Some((last, map, reductions))
    }

    /// A call of reduce or shrink; where it accepts, the answer, the graph and the map.
    fn shortened(&mut self, entry: &Shortening, g: &Graph, sense: u32, map_len: Length, short_len: Length) -> Option<(Answer, Graph, Vec<u16>)> {
        let (map_len, short_len) = (map_len.choose(&mut self.random), short_len.choose(&mut self.random));
        let what = || format!("{}, sense {sense}, map of {map_len}, short hops of {short_len}, {}", entry.name, show(g));
        let input = g.hops.clone();
        let mut map = Lent::<u16>::new(&mut self.random, map_len);
        let mut short = Lent::<u16>::new(&mut self.random, short_len);
        let (expected, map_after, short_after) = (entry.expected)(&g.lent(), sense.into(), map.held(), short.held());
        let mut answer = self.answer(entry.answer);
        let returned = (entry.call)(self.entries, g, sense, map.part(), short.part(), answer.part());
        let met = match expected.number {
            0 => Some((entry.accepted)(g, sense, &expected)),
            number => short_word(g, sense, number, expected.place, map_len, short_len),
        };
        let met = ((entry.met)(sense), met);
        let fits = self.judge(returned, expected.number, &expected.numbers(), met, &answer, &what);
        self.output(&map, &map_after, fits, &what);
        self.output(&short, &short_after, fits, &what);
        self.same_input(&g.hops, &input, &what);
        if expected.number != 0 {
            return None;
        }
        let figures = &expected.figures;
        let hops = short_after[..NUMBERS * figures[2] as usize].to_vec();
        let short = Graph { states: figures[0] as u32, labels: figures[1] as u32, initial: figures[3] as u32, hops };
        Some((expected, short, map_after[..g.states as usize].to_vec()))
    }

    pub fn audit(&mut self, one: &Graph, two: &Graph, map: &[u16]) -> Answer {
        let what = || format!("audit, map {}, {}, {}", brief(map), show(one), show(two));
        let (expected, faults) = checker::audit_and_faults(&one.lent(), &two.lent(), map);
        let inputs = [one.hops.clone(), two.hops.clone(), map.to_vec()];
        let mut answer = self.answer(7);
        let returned = self.entries.audit(one, two, map, answer.part());
        let met = match (expected.number, expected.table) {
            (0, _) => ("audit", Some(fault_word(&faults))),
            (7, _) => ("audit", Some("7")),
            (8, _) if map.len() < one.states as usize => ("audit", Some("8 too short")),
            (8, _) if map.len() > one.states as usize => ("audit", Some("8 too long")),
            (8, _) => ("audit", Some("8 entry")),
            (number, 1) => ("audit, graph 1", graph_word(one, number, expected.place)),
            (number, _) => ("audit, graph 2", graph_word(two, number, expected.place)),
        };
        self.judge(returned, expected.number, &expected.numbers(), met, &answer, &what);
        for (now, before) in [&one.hops, &two.hops, map].into_iter().zip(&inputs) {
            self.same_input(now, before, &what);
        }
        expected
    }

    pub fn round(&mut self, g: &Graph, place: u64, rounds: u32) -> Answer {
        let what = || format!("round question, place {place}, rounds {rounds}, {}", show(g));
        let input = g.hops.clone();
        let expected = checker::round(&g.lent(), place, rounds.into());
        let mut answer = self.answer(4);
        let returned = self.entries.round(g, place, rounds, answer.part());
        let met = ("round question", round_word(g, place, expected.figures[0] == 1, expected.number, expected.place));
        self.judge(returned, expected.number, &expected.numbers(), met, &answer, &what);
        self.same_input(&g.hops, &input, &what);
        expected
    }

    pub fn hops_of(&mut self, side: u32, state: u32, one: &Graph, two: &Graph) {
        let what = || format!("hops of side {side}, state {state}, {}, {}", show(one), show(two));
        let (start, length) = checker::hops_of(side.into(), state.into(), &one.lent(), &two.lent());
        let mut answer = self.answer(2);
        let returned = self.entries.hops_of(side, state, one, two, answer.part());
        self.judge(returned, 0, &[start, length], hops_of_condition(side, state, one, two), &answer, &what);
    }

    pub fn read(&mut self, file: &[u8], len: Length) -> Answer {
        let len = len.choose(&mut self.random);
        let what = || format!("read, hops of {len}, file of {} bytes {}", file.len(), brief(file));
        let input = file.to_vec();
        let mut hops = Lent::<u16>::new(&mut self.random, len);
        let (expected, after) = checker::read(file, hops.held());
        let mut answer = self.answer(9);
        let returned = self.entries.read(file, hops.part(), answer.part());
        let met = ("read", read_word(file, expected.number, expected.place));
        let fits = self.judge(returned, expected.number, &expected.numbers(), met, &answer, &what);
        self.output(&hops, &after, fits, &what);
        self.same_input(file, &input, &what);
        expected
    }

    pub fn write(&mut self, g: &Graph, names: &[u8], len: Length) -> Answer {
        let len = len.choose(&mut self.random);
        let what = || format!("write, output of {len}, names {}, {}", brief(names), show(g));
        let inputs = (g.hops.clone(), names.to_vec());
        let mut out = Lent::<u8>::new(&mut self.random, len);
        let (expected, after) = checker::write(&g.lent(), names, out.held());
        let mut answer = self.answer(4);
        let returned = self.entries.write(g, names, out.part(), answer.part());
        let met = ("write", write_word(g, names, expected.number, expected.place));
        let fits = self.judge(returned, expected.number, &expected.numbers(), met, &answer, &what);
        self.output(&out, &after, fits, &what);
        self.same_input(&g.hops, &inputs.0, &what);
        self.same_input(names, &inputs.1, &what);
        expected
    }
}

impl<T: Noise> Lent<T> {
    fn part_differs(&self, after: &[T]) -> String {
        let now = &self.all[GUARDS..GUARDS + self.len];
        match now.iter().zip(after).position(|(a, b)| a != b) {
            Some(place) => format!("element {place}"),
            None => "a guard".to_string(),
        }
    }
}

fn brief<T: Debug>(list: &[T]) -> String {
    if list.len() <= 400 {
        format!("{list:?}")
    } else {
        format!("{:?} .. ({} elements)", &list[..400], list.len())
    }
}

fn show(g: &Graph) -> String {
    format!("graph of {} states, {} labels, initial {}, hops {}", g.states, g.labels, g.initial, brief(&g.hops))
}
