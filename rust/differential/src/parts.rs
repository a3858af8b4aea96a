//! What is compared.

use crate::compare::{Comparer, Length};
use crate::make::{self, Hops};
use crate::met::{beside_words, line_words, no_senses, turn_words, Turn};
use differential::entries::{Graph, NUMBERS};
use Length::{About, AtLeast, Exactly};

/// A graph of a list of three numbers a hop, without lines.
fn graph(states: u32, labels: u32, three: &[u16]) -> Graph {
    Graph { states, labels, initial: 0, hops: flat(three.chunks(3).map(|hop| [hop[0], hop[1], hop[2]])) }
}

/// A graph of a list of three numbers a hop, and its lines.
fn lined(states: u32, labels: u32, three: &[u16], lines: &[u16]) -> Graph {
    let mut g = graph(states, labels, three);
    assert_eq!(g.hop_count(), lines.len(), "a line a hop");
    g.hops.chunks_exact_mut(NUMBERS).zip(lines).for_each(|(hop, &line)| hop[3] = line);
    g
}

/// The longest list of hops of which every line is held against those of the hops that it comes from.
const FEW_HOPS: usize = 60;

/// R1, R2, R3 and R8.
const SENSES: [u32; 4] = [1, 2, 3, 8];

/// A sense, or at times what is none.
fn any_sense(c: &mut Comparer) -> u32 {
    match c.random.below(20) {
        0 => c.random.below(12) as u32,
        1 => c.random.next() as u32,
        _ => c.random.pick(&SENSES),
    }
}

/// Mark, reduce and shrink in each sense: R1's marks are among R2's and R3's, theirs among R8's, and what reduce and shrink left has no faults.
fn in_each_sense(c: &mut Comparer, g: &Graph) {
    let marked = SENSES.map(|sense| c.mark(g, sense, AtLeast(g.hop_count())));
    if let [Some(r1), Some(r2), Some(r3), Some(r8)] = &marked {
        for word in beside_words(g, &[r1, r2, r3, r8].map(Clone::clone)) {
            c.met.count(("marks of the senses", Some(word)));
        }
    }
    for (sense, marks) in SENSES.into_iter().zip(marked) {
        let (map_len, short_len) = (AtLeast(g.states.min(1030) as usize), AtLeast(g.hops.len()));
        match c.reduce(g, sense, map_len, short_len) {
            None => _ = c.shrink(g, sense, map_len, short_len),
            Some((short, map)) => {
                no_faults(c, g, &short, &map);
                if g.hop_count() <= FEW_HOPS {
                    for word in line_words(g, &marks.expect("what is reduced can be marked"), &map, &short) {
                        c.met.count(("line of a short hop", Some(word)));
                    }
                }
                shrunk(c, g, sense);
            }
        }
    }
}

fn no_faults(c: &mut Comparer, g: &Graph, short: &Graph, map: &[u16]) {
    let answer = c.audit(g, short, map);
    assert_eq!(answer.numbers(), [0, 1, 0, 0, 0, 0, 0], "what was left of {g:?} has no faults");
}

/// The number of reductions of a graph that shrink takes in a sense. What it left has no faults, and neither reduce nor shrink moves it.
fn shrunk(c: &mut Comparer, g: &Graph, sense: u32) -> u64 {
    let (last, map, reductions) = c.shrink(g, sense, AtLeast(g.states as usize), AtLeast(g.hops.len())).expect("a graph without rings");
    if reductions > 1 {
        no_faults(c, g, &last, &map);
        if g.hop_count() <= FEW_HOPS {
            one_by_one(c, g, sense, reductions, &last);
        }
    }
    if reductions > 0 {
        let (states, numbers) = (last.states as usize, last.hops.len());
        let (again, _) = c.reduce(&last, sense, AtLeast(states), AtLeast(numbers)).expect("no short graph has a ring");
        assert_eq!((again.states, &again.hops), (last.states, &last.hops), "reduce leaves what shrink left of {g:?}");
        let (_, _, more) = c.shrink(&last, sense, AtLeast(states), AtLeast(numbers)).expect("no short graph has a ring");
        assert_eq!(more, 0, "shrink leaves what it left of {g:?}");
    }
    reductions
}

/// "each reduction's rule in turn": so many reductions one by one leave what shrink left, lines too.
fn one_by_one(c: &mut Comparer, g: &Graph, sense: u32, reductions: u64, last: &Graph) {
    let (mut now, mut turns) = (g.clone(), vec![]);
    for _ in 0..reductions {
        let marks = checker::marked(&now.lent(), sense.into());
        let (short, map) = c.reduce(&now, sense, AtLeast(now.states as usize), AtLeast(now.hops.len())).expect("no short graph has a ring");
        turns.push(Turn { graph: now, marks, map, short: short.clone() });
        now = short;
    }
    assert_eq!((now.states, &now.hops), (last.states, &last.hops), "one by one the reductions leave what shrink left of {g:?}");
    for word in turn_words(&turns) {
        c.met.count(("line of a last hop", Some(word)));
    }
}

/// P1 to P10, and the examples of the limits.
pub fn worked(c: &mut Comparer) {
    let p1 = [0, 0, 1, 0, 1, 2, 1, 1, 3, 2, 0, 3];
    let p10 = [0, 0, 1, 0, 1, 2, 1, 1, 3, 2, 0, 3, 2, 2, 4];
    let graphs = [
        graph(4, 2, &p1),
        graph(4, 2, &p1[..9]),
        graph(3, 1, &[0, 0, 1, 0, 0, 2]),
        graph(3, 1, &[0, 0, 1, 0, 0, 2, 1, 0, 2]),
        graph(5, 2, &[0, 0, 1, 0, 0, 2, 1, 0, 3, 1, 1, 4, 2, 0, 3]),
        graph(2, 2, &[0, 0, 1, 0, 1, 0, 1, 1, 1]),
        graph(1, 1, &[0, 0, 0]),
        graph(3, 1, &[0, 0, 1, 1, 0, 2, 2, 0, 1]),
        graph(5, 3, &p10),
    ];
    c.answer_len = Some(9);
    for g in &graphs {
        whole(c, g);
        let lined = make::lined(&mut c.random, g.clone());
        whole(c, &lined);
    }
    let tests = [2, 1, 2, 3, 6, 1, 0, 0, 3];
    for (g, tests) in graphs.iter().zip(tests) {
        assert_eq!(c.mark_fast(g, AtLeast(g.hop_count())).figures, [tests], "tests of {g:?}");
    }
    let map = [0, 0, 1, 1];
    for (hops, figures) in [(&[0, 1, 1][..], [0, 0, 0, 0]), (&[], [2, 2, 1, 0]), (&[0, 1, 1, 1, 1, 1], [2, 3, 1, 2])] {
        assert_eq!(c.audit(&graphs[0], &graph(2, 2, hops), &map).figures, figures, "P9 with {hops:?}");
    }
    let by_states = c.audit(&graph(2, 3, &[0, 1, 0, 1, 2, 1]), &graph(1, 3, &[0, 1, 0, 0, 2, 0]), &[0, 0]);
    assert_eq!(by_states.figures, [2, 3, 0, 1], "hops before states");
    c.audit(&graph(3, 2, &[0, 0, 1, 1, 0, 2, 2, 1, 2]), &graph(2, 2, &[0, 0, 1, 0, 1, 0, 1, 0, 0]), &[0, 1, 0]);
    worked_senses(c);
    worked_shrinking(c);
    worked_lines(c);
    c.answer_len = None;
}

/// W13.6: the number of reductions of chains in each sense, alone, where it is as high as it can be, and with a state beside them.
fn worked_shrinking(c: &mut Comparer) {
    for states in [1, 2, 3, 4, 7, 12, 13] {
        let (_, hops) = make::one_a_reduction(states);
        for more in [0, 1] {
            let g = make::graph_of(usize::from(states) + more, 3, 0, &hops);
            whole(c, &g);
            let (all, once) = (u64::from(states) - 1, u64::from(states > 1));
            assert_eq!(SENSES.map(|sense| shrunk(c, &g, sense)), [all, all, all, once], "reductions of a chain of {states}");
        }
    }
}

/// M4 and M5: the lines of short hops, each of several hops of the representative and none of another member's; with those of P1, P6 and a chain of W13.6.
fn worked_lines(c: &mut Comparer) {
    let p1 = [0, 0, 1, 0, 1, 2, 1, 1, 3, 2, 0, 3];
    let p6 = [0, 0, 1, 0, 1, 0, 1, 1, 1];
    // state 0 has hops labelled 1 to 1, 2 and 3, which marked hops make one state
    let fan = [0, 1, 1, 0, 1, 2, 0, 1, 3, 1, 0, 3, 2, 0, 3];
    for (g, short) in [
        (lined(4, 2, &p1, &[3, 4, 5, 2]), vec![0, 1, 1, 5]),
        (lined(4, 2, &p1, &[0, 4, 0, 0]), vec![0, 1, 1, 0]),
        (lined(2, 2, &p6, &[3, 4, 5]), vec![0, 1, 0, 5]),
        (lined(4, 2, &fan, &[0, 7, 3, 1, 1]), vec![0, 1, 1, 3]),
        (lined(4, 2, &fan, &[3, 7, 9, 1, 1]), vec![0, 1, 1, 3]),
        (lined(4, 2, &fan, &[9, 7, 8, 1, 1]), vec![0, 1, 1, 7]),
        (lined(4, 2, &fan, &[0, 7, 0, 1, 1]), vec![0, 1, 1, 7]),
        (lined(4, 2, &fan, &[0, 0, 0, 1, 1]), vec![0, 1, 1, 0]),
        (lined(4, 2, &fan, &[65_535, 0, 65_535, 1, 1]), vec![0, 1, 1, 65_535]),
    ] {
        whole(c, &g);
        in_each_sense(c, &g);
        let (found, _) = c.reduce(&g, 1, AtLeast(g.states as usize), AtLeast(g.hops.len())).expect("no ring");
        assert_eq!(found.hops, short, "short hops of {g:?}");
    }
    let (_, chain) = make::one_a_reduction(3);
    let mut chain = make::graph_of(3, 3, 0, &chain);
    chain.hops.chunks_exact_mut(NUMBERS).zip(1..).for_each(|(hop, line)| hop[3] = line);
    let (last, _, _) = c.shrink(&chain, 1, AtLeast(3), AtLeast(chain.hops.len())).expect("no ring");
    assert_eq!(last.hops, [0, 1, 0, 7, 0, 2, 0, 8], "last hops of {chain:?}");
}

/// The case of wish 7 and graphs that tell the senses apart: which of the four mark a hop.
fn worked_senses(c: &mut Comparer) {
    for (g, place, marked) in [
        (graph(5, 2, &[0, 0, 1, 0, 1, 2, 1, 1, 3, 2, 0, 4, 4, 0, 3]), 0, [0, 0, 0, 1]),
        (graph(5, 2, &[0, 0, 1, 0, 1, 2, 1, 1, 3, 2, 0, 4, 4, 0, 3]), 3, [1, 1, 1, 1]),
        (graph(5, 2, &[0, 0, 1, 0, 1, 2, 1, 1, 3, 2, 0, 4, 4, 0, 3]), 4, [1, 1, 1, 1]),
        (graph(3, 2, &[0, 1, 0, 1, 0, 0, 1, 1, 2, 2, 0, 1]), 1, [0, 0, 0, 1]),
        (graph(2, 2, &[0, 1, 1, 1, 0, 0, 1, 1, 0]), 1, [0, 1, 0, 1]),
        (graph(3, 2, &[0, 0, 1, 0, 1, 0, 1, 0, 2, 2, 1, 1]), 0, [0, 0, 1, 1]),
        (graph(3, 2, &[1, 0, 2, 1, 1, 0, 2, 0, 0, 2, 1, 2]), 0, [0, 0, 0, 0]),
    ] {
        in_each_sense(c, &g);
        let found = SENSES.map(|sense| c.mark(&g, sense, AtLeast(g.hop_count())).expect("no ring")[place]);
        assert_eq!(found, marked, "the hop at {place} of {g:?} under R1, R2, R3 and R8");
    }
}

/// What a place loses where it is cut to 32 bits.
const HIGH: [u64; 4] = [1 << 32, 1 << 33, 1 << 63, u64::MAX << 32];

/// Every entry over one graph, with outputs of every length around the needed one and every round question.
fn whole(c: &mut Comparer, g: &Graph) {
    let (states, numbers) = (g.states as usize, g.hops.len());
    let hops = g.hop_count();
    c.check(g);
    for from in 0..=g.states {
        for label in 0..=g.labels {
            for to in 0..=g.states {
                c.find(g, [from, label, to]);
            }
        }
    }
    for sense in SENSES.into_iter().chain(no_senses()) {
        for len in 0..=hops + 2 {
            c.mark(g, sense, Exactly(len));
        }
        for len in 0..=states + 2 {
            c.reduce(g, sense, Exactly(len), AtLeast(numbers));
            c.shrink(g, sense, Exactly(len), AtLeast(numbers));
        }
        for len in 0..=numbers + 2 {
            c.reduce(g, sense, AtLeast(states), Exactly(len));
            c.shrink(g, sense, AtLeast(states), Exactly(len));
        }
    }
    (0..=hops + 2).for_each(|len| _ = c.mark_fast(g, Exactly(len)));
    for place in 0..=hops as u64 + 1 {
        for rounds in 0..=6 {
            c.round(g, place, rounds);
        }
        for high in HIGH {
            c.round(g, high + place, 1);
        }
    }
    let file = make::file(g, &[]);
    for len in 0..=file.len() + 2 {
        c.write(g, &[], Exactly(len));
    }
    for len in 0..=numbers + 2 {
        c.read(&file, Exactly(len));
    }
}

/// All graphs of up to 2 states and 2 labels, every map between any two of them, and short lists in any order.
pub fn all_small(c: &mut Comparer) {
    let mut graphs = vec![];
    for states in 1..=2u16 {
        for labels in 1..=2u16 {
            let all: Vec<[u16; 3]> = (0..states).flat_map(|s| (0..labels).flat_map(move |a| (0..states).map(move |t| [s, a, t]))).collect();
            for chosen in 0..1u32 << all.len() {
                let hops = flat((0..all.len()).filter(|i| chosen >> i & 1 == 1).map(|i| all[i]));
                for initial in 0..=states.into() {
                    let g = Graph { states: states.into(), labels: labels.into(), initial, hops: hops.clone() };
                    let g = make::lined(&mut c.random, g);
                    whole(c, &g);
                    let block = make::block(&mut c.random, usize::from(labels) - 1, 3);
                    c.write(&g, &block, About(make::file(&g, &block).len()));
                    if initial < states.into() {
                        graphs.push(g);
                    }
                }
            }
        }
    }
    for one in &graphs {
        for two in &graphs {
            for code in 0..two.states.pow(one.states) {
                let map: Vec<u16> = (0..one.states).map(|s| (code / two.states.pow(s) % two.states) as u16).collect();
                c.audit(one, two, &map);
            }
            let (side, state) = (c.random.below(4) as u32, c.random.below(3) as u32);
            c.hops_of(side, state, one, two);
        }
        // every map of a wrong length or with a wrong entry
        let two = graphs[c.random.below(graphs.len())].clone();
        for len in 0..=3 {
            for code in 0..3usize.pow(len) {
                let map: Vec<u16> = (0..len).map(|i| (code / 3usize.pow(i) % 3) as u16).collect();
                c.audit(one, &two, &map);
            }
        }
        for side in 0..=3 {
            for state in 0..=3 {
                c.hops_of(side, state, one, &two);
            }
        }
    }
    // lists of every length up to two hops, their lines any of two
    for len in 0..=8u32 {
        for code in 0..3usize.pow(len - len / 4) {
            let mut hops: Vec<u16> = (0..len - len / 4).map(|i| (code / 3usize.pow(i) % 3) as u16).collect();
            for at in (0..len as usize).filter(|at| at % NUMBERS == 3) {
                hops.insert(at, c.random.below(2) as u16);
            }
            for initial in 0..=2 {
                let g = Graph { states: 2, labels: 2, initial, hops: hops.clone() };
                c.check(&g);
                c.find(&g, [0, 1, 1]);
                let sense = any_sense(c);
                c.mark(&g, sense, About(2));
                c.mark_fast(&g, About(2));
                c.reduce(&g, sense, About(2), About(8));
                c.shrink(&g, sense, About(2), About(8));
                c.write(&g, &[], About(24));
            }
        }
    }
}

/// All graphs without a ring of up to 3 states and 2 labels, in each sense.
pub fn all_in_each_sense(c: &mut Comparer) {
    let mut count = 0;
    for (states, labels) in [(1u16, 1u16), (1, 2), (2, 1), (2, 2), (3, 1), (3, 2)] {
        let all: Vec<[u16; 3]> = (0..states).flat_map(|s| (0..labels).flat_map(move |a| (0..states).map(move |t| [s, a, t]))).collect();
        for rank in 0..1u32 << all.len() {
            let hops = flat((0..all.len()).filter(|i| rank >> i & 1 == 1).map(|i| all[i]));
            let initial = c.random.below(states.into()) as u32;
            let g = Graph { states: states.into(), labels: labels.into(), initial, hops };
            let g = make::lined(&mut c.random, g);
            if checker::lowest_on_ring(&g.lent()).is_none() {
                in_each_sense(c, &g);
                count += 1;
            }
        }
    }
    assert_eq!(count, 1 + 2 + 3 + 48 + 25 + 12_800, "the graphs without a ring");
}

/// Every list of two hops whose numbers are at an end or beside it, and in each that is in order every such hop and some out of range: which comes first hangs on each
/// of the three, and on their order.
pub fn pairs_of_hops(c: &mut Comparer) {
    let ends = [0, 1, 1022, 1023];
    let hop = |i: usize| [ends[i / 16], ends[i / 4 % 4], ends[i % 4]];
    for pair in 0..64 * 64 {
        let g = graph(1024, 1024, &[hop(pair / 64), hop(pair % 64)].concat());
        let g = make::lined(&mut c.random, g);
        c.check(&g);
        if pair / 64 < pair % 64 {
            (0..64).for_each(|i| _ = c.find(&g, hop(i).map(u32::from)));
            for (high, at) in make::ODD.into_iter().zip([0, 1, 2].into_iter().cycle()) {
                let mut hop = hop(c.random.below(64)).map(u32::from);
                hop[at] = high;
                c.find(&g, hop);
            }
        }
    }
}

/// Answers from nothing to two too many, over accepted and refused calls.
pub fn answers(c: &mut Comparer) {
    for g in
        [graph(4, 2, &[0, 0, 1, 0, 1, 2, 1, 1, 3, 2, 0, 3]), graph(2, 1, &[0, 0, 1, 1, 0, 0]), graph(0, 1, &[]), graph(3, 2, &[1, 0, 2, 0, 0, 1])]
    {
        let g = make::lined(&mut c.random, g);
        let file = make::file(&g, &[]);
        for len in 0..=11 {
            c.answer_len = Some(len);
            c.check(&g);
            c.find(&g, [0, 1, 2]);
            c.find(&g, [0, 1, 3]);
            for short in [g.hops.len(), g.hops.len().saturating_sub(1)] {
                for sense in [1, 2, 3, 8, 4] {
                    c.mark(&g, sense, Exactly(short / NUMBERS));
                    c.reduce(&g, sense, Exactly(g.states as usize), Exactly(short));
                    c.shrink(&g, sense, Exactly(g.states as usize), Exactly(short));
                }
                c.mark_fast(&g, Exactly(short / NUMBERS));
                c.read(&file, Exactly(short));
            }
            c.audit(&g, &g, &[0, 1, 2, 3]);
            c.audit(&g, &g, &[0, 1]);
            for place in 0..3 {
                c.round(&g, place, 1);
                c.round(&g, place, 5);
            }
            c.hops_of(1, 0, &g, &g);
            c.hops_of(1, 9, &g, &g);
            c.write(&g, &[], Exactly(file.len()));
            c.write(&g, &[], Exactly(file.len() - 1));
            c.write(&g, &[1, 7], Exactly(file.len() + 2));
        }
    }
    c.answer_len = None;
}

/// Every condition of every row, one at a time and for each entry that has it, whatever the sizes of the random parts.
pub fn conditions(c: &mut Comparer) {
    c.answer_len = Some(9);
    let p1 = graph(4, 2, &[0, 0, 1, 0, 1, 2, 1, 1, 3, 2, 0, 3]);
    for g in refused_graphs(&p1) {
        let (states, numbers) = (g.states as usize, g.hops.len());
        c.check(&g);
        c.find(&g, [0, 0, 1]);
        c.find(&g, [u32::MAX; 3]);
        for sense in [1, 2, 3, 8, 4] {
            c.mark(&g, sense, Exactly(g.hop_count()));
            c.reduce(&g, sense, Exactly(states), Exactly(numbers));
            c.shrink(&g, sense, Exactly(states), Exactly(numbers));
        }
        c.mark_fast(&g, Exactly(g.hop_count()));
        c.audit(&g, &p1, &vec![0; states]);
        c.audit(&p1, &g, &[0; 4]);
        c.round(&g, 0, 1);
        for (side, one, two) in [(1, &g, &p1), (2, &g, &p1), (1, &p1, &g), (2, &p1, &g)] {
            c.hops_of(side, 0, one, two);
        }
        c.read(&make::file(&g, &[]), Exactly(numbers));
        c.write(&g, &[], Exactly(checker::LONGEST_FILE));
    }
    other_senses(c, &p1);
    finds(c, &p1);
    first_faults(c);
    places_and_numbers_that_would_be_cut(c, &p1);
    files_and_blocks(c);
    c.answer_len = None;
}

/// Numbers that are no sense, on P1 and on a ring, with room and without: 19 comes before 5 and 6.
fn other_senses(c: &mut Comparer, p1: &Graph) {
    let ring = graph(4, 2, &[0, 0, 1, 1, 0, 0, 1, 1, 0, 2, 0, 3]);
    for sense in no_senses() {
        for g in [p1, &ring] {
            for (marks, map, short) in [(4, 4, 16), (3, 3, 16), (0, 4, 15), (0, 0, 0)] {
                c.mark(g, sense, Exactly(marks));
                c.reduce(g, sense, Exactly(map), Exactly(short));
                c.shrink(g, sense, Exactly(map), Exactly(short));
            }
        }
    }
}

/// Hops that are there and that are not, at both ends and between, and with each number out of range.
fn finds(c: &mut Comparer, p1: &Graph) {
    let lone = graph(1, 1, &[0, 0, 0]);
    for (g, hop, found, place) in [
        (&lone, [0, 0, 0], 1, 0),
        (&graph(1, 1, &[]), [0, 0, 0], 0, 0),
        (p1, [0, 0, 1], 1, 0),
        (p1, [1, 1, 3], 1, 2),
        (p1, [2, 0, 3], 1, 3),
        (p1, [0, 0, 0], 0, 0),
        (p1, [0, 1, 3], 0, 2),
        (p1, [3, 0, 0], 0, 4),
    ] {
        assert_eq!(c.find(g, hop).figures, [found, place], "find {hop:?} in {g:?}");
    }
    for high in [1024, 65_535, 65_536, u32::MAX] {
        for hop in [[high, 0, 0], [0, high, 0], [0, 0, high]] {
            assert_eq!(c.find(&lone, hop).figures, [0, 1], "find {hop:?} behind the only hop");
        }
        for (hop, place) in [([high, 0, 1], 4), ([0, high, 1], 2), ([0, 0, high], 1), ([high; 3], 4), ([1, high, high], 3)] {
            assert_eq!(c.find(p1, hop).figures, [0, place], "find {hop:?} in P1");
        }
    }
}

/// A first fault of each kind; of kind 3 at a hop that one or several states do not answer, and met at first or after faults of a lower state at later hops.
fn first_faults(c: &mut Comparer) {
    let one = graph(2, 2, &[0, 1, 1]);
    let elsewhere = Graph { initial: 1, ..one.clone() };
    for (two, map, figures) in [
        (&one, [0, 1], [0, 0, 0, 0]),
        (&one, [1, 0], [3, 1, 0, 0]),
        (&elsewhere, [1, 0], [2, 2, 0, 0]),
        (&graph(2, 2, &[0, 1, 0, 0, 1, 1]), [0, 1], [1, 3, 0, 0]),
    ] {
        assert_eq!(c.audit(&one, two, &map).figures, figures, "the first fault of {map:?} to {two:?}");
    }
    // all states in one class: state s answers the hops labelled with its letters
    let answering = |letters: &[&[u16]]| {
        let hops = (0..).zip(letters).flat_map(|(s, labels)| labels.iter().flat_map(move |&label| [s, label, s, 0])).collect();
        Graph { states: letters.len() as u32, labels: 4, initial: 0, hops }
    };
    let two = graph(1, 4, &[0, 1, 0, 0, 2, 0, 0, 3, 0]);
    for (letters, figures) in [
        (&[&[1, 2, 3][..], &[1, 2], &[1, 2]][..], [2, 3, 2, 1]),
        (&[&[1, 2], &[1, 3], &[1, 2, 3]], [2, 3, 1, 1]),
        (&[&[1, 2], &[3], &[2, 3]], [4, 3, 0, 1]),
        (&[&[], &[1, 2, 3]], [3, 3, 0, 0]),
    ] {
        let one = answering(letters);
        assert_eq!(c.audit(&one, &two, &vec![0; letters.len()]).figures, figures, "the first fault of states that answer {letters:?}");
    }
    let without = graph(1, 4, &[0, 1, 0]);
    assert_eq!(c.audit(&answering(&[&[1], &[1, 2]]), &without, &[0, 0]).figures, [1, 2, 2, 0], "a later hop of graph 1");
}

/// For each condition of rows 1 to 4 a graph that breaks no other: P1, altered.
fn refused_graphs(p1: &Graph) -> Vec<Graph> {
    let with = |alter: &dyn Fn(&mut Graph)| {
        let mut g = p1.clone();
        alter(&mut g);
        g
    };
    let many_hops = flat((0..4097).map(|i| [i / 4, 1, i % 4]));
    vec![
        with(&|g| g.states = 0),
        with(&|g| g.states = 1025),
        with(&|g| g.labels = 0),
        with(&|g| g.labels = 1025),
        Graph { states: 1024, labels: 2, initial: 0, hops: many_hops },
        with(&|g| g.hops.push(0)),
        with(&|g| g.hops.truncate(15)),
        with(&|g| g.hops.truncate(14)),
        with(&|g| g.initial = 4),
        with(&|g| g.initial = 1 << 16),
        with(&|g| g.hops[12] = 4),
        with(&|g| g.hops[13] = 2),
        with(&|g| g.hops[14] = 4),
        with(&|g| g.hops.extend([2, 0, 3, 0])),
        with(&|g| g.hops.extend([2, 0, 3, 1])),
        with(&|g| g.hops.extend([2, 0, 2, 0])),
        with(&|g| g.hops.extend([2, 0, 2, 1])),
    ]
}

/// Numbers over what is allowed that would be allowed if they were cut to 32, 16 or 8 bits.
fn places_and_numbers_that_would_be_cut(c: &mut Comparer, p1: &Graph) {
    for high in HIGH {
        for place in [0, 3] {
            assert_eq!(c.round(p1, high + place, 1).number, 9, "no hop at {high} + {place}");
        }
    }
    assert_eq!(c.round(p1, u64::MAX, 1).number, 9, "no hop at the highest place");
    for rounds in [1 << 8, 1 << 16, 1 << 31, u32::MAX - 3] {
        assert_eq!(c.round(p1, 0, rounds).number, 10, "{rounds} rounds");
    }
    for high in [1 << 8, 1 << 16, 1 << 31] {
        for (side, state) in [(1, high), (2, high + 2), (high + 1, 0), (high + 2, 0)] {
            c.hops_of(side, state, p1, p1);
        }
    }
}

/// Rows 6 and 11 to 14 of reading and writing, one condition a call.
fn files_and_blocks(c: &mut Comparer) {
    let (plain, lines) = (graph(4, 3, &[0, 1, 1]), lined(4, 3, &[0, 1, 1], &[9]));
    let names: &[u8] = &[1, 7, 2, 7, 7];
    for g in [&plain, &lines] {
        let whole = make::file(g, names);
        c.read(&whole, Exactly(3));
        let cut = &whole[..whole.len() - 1];
        let left_over = [&whole[..], &[0]].concat();
        for file in [&whole[..], cut, &left_over] {
            c.read(file, Exactly(4));
        }
        c.write(g, names, Exactly(whole.len() - 1));
        let too_many = [&[33][..], &[7; 33], &[1, 7]].concat();
        let blocks: [&[u8]; 8] = [&[], names, &[0, 1, 7], &[1, 7, 0], &too_many, &[1, 7, 1, 7], &[1, 7, 2, 7], &[1, 7, 1, 8, 0]];
        for block in blocks {
            c.write(g, block, Exactly(checker::LONGEST_FILE));
            c.read(&make::file(g, block), Exactly(4));
        }
    }
    let too_long = vec![0; checker::LONGEST_FILE + 1];
    let files: [&[u8]; 9] = [
        &[],
        &too_long,
        &[18, 4, 0, 2, 0],
        &[34, 4, 0, 2, 0],
        &[66, 4, 0, 2, 0],
        &[130, 4, 0, 2, 0],
        &[1, 4, 0, 2, 0, 0, 0],
        &[2, 4, 0, 2, 0, 0, 0],
        &[4, 4, 0, 1, 0],
    ];
    for file in files {
        c.read(file, Exactly(4));
    }
    files_with_lines(c);
}

/// Bit 3: without bit 1, over no hops, over lines that are cut, all 0, or have something behind them; and what it speaks before.
fn files_with_lines(c: &mut Comparer) {
    let hop = [0, 0, 1, 0, 1, 0];
    let field = |map: u8, labels: u8, count: u8, behind: &[u8]| {
        [&[map, 4, 0, labels, 0, count, 0][..], &hop.repeat(usize::from(count).min(1)), behind].concat()
    };
    let files = [
        (vec![8, 4, 0, 2, 0], [12, 0]),
        (vec![8, 4, 0, 2, 0, 0, 0], [13, 5]),
        (vec![12, 4, 0, 2, 0, 1, 7], [12, 0]),
        (field(10, 2, 0, &[]), [12, 0]),
        (field(10, 2, 0, &[1, 0]), [13, 7]),
        (field(10, 2, 1, &[]), [11, 13]),
        (field(10, 2, 1, &[1]), [11, 14]),
        (field(10, 2, 1, &[1, 0]), [0, 0]),
        (field(10, 2, 1, &[0, 1]), [0, 0]),
        (field(10, 2, 1, &[0, 0]), [12, 0]),
        (field(10, 2, 1, &[0, 0, 0]), [13, 15]),
        (field(10, 2, 1, &[1, 0, 0]), [13, 15]),
        (field(10, 1, 1, &[0, 0]), [12, 0]),
        (field(10, 1, 1, &[1, 0]), [3, 0]),
        // names: one that is cut, one that is refused, one that is not
        (field(14, 2, 1, &[2, 7]), [11, 15]),
        (field(14, 2, 1, &[1, 7]), [11, 15]),
        (field(14, 2, 1, &[1, 7, 0]), [11, 16]),
        (field(14, 2, 1, &[0, 0, 0]), [12, 0]),
        (field(14, 2, 1, &[0, 0, 1]), [14, 13]),
        (field(14, 2, 1, &[1, 7, 0, 0]), [12, 0]),
        (field(14, 2, 1, &[1, 7, 1, 0]), [0, 0]),
        (field(14, 2, 1, &[1, 7, 1, 0, 0]), [13, 17]),
        (field(14, 1, 1, &[1]), [11, 14]),
        (field(14, 1, 1, &[1, 0]), [12, 0]),
        // an initial state of 0 and a line that is cut
        ([&[11, 4, 0, 2, 0, 0, 0, 1, 0][..], &hop, &[1]].concat(), [11, 16]),
    ];
    for (file, [number, place]) in files {
        let answer = c.read(&file, Exactly(4));
        assert_eq!([answer.number, answer.place], [number, place], "read of {file:?}");
    }
}

/// Random small graphs, admitted ones and broken ones.
pub fn small(c: &mut Comparer, count: usize) {
    for _ in 0..count {
        let mut g = make::graph(&mut c.random, 7, 4, 16);
        if c.random.percent(25) {
            g = make::damaged(&mut c.random, &g);
        }
        every_entry(c, &g, 7);
    }
}

/// Every entry over one graph, each once or a few times.
fn every_entry(c: &mut Comparer, g: &Graph, other_states: usize) {
    let hops = g.hop_count();
    let states = (g.states as usize).min(1030);
    c.check(g);
    finds_about(c, g);
    in_each_sense(c, g);
    let sense = any_sense(c);
    c.mark(g, sense, About(hops));
    c.mark_fast(g, About(hops));
    let sense = any_sense(c);
    let (map_len, short_len) = if c.random.percent(50) { (AtLeast(states), AtLeast(g.hops.len())) } else { (About(states), About(g.hops.len())) };
    let reduced = c.reduce(g, sense, map_len, short_len);
    c.shrink(g, sense, map_len, short_len);
    for _ in 0..3 {
        let place = c.random.below(hops + 1) as u64;
        let place = match c.random.below(20) {
            0 => c.random.next(),
            1 => c.random.pick(&HIGH) + place,
            _ => place,
        };
        let rounds = if c.random.percent(90) { c.random.below(5) as u32 } else { c.random.next() as u32 };
        c.round(g, place, rounds);
    }
    if let Some((short, map)) = reduced {
        no_faults(c, g, &short, &map);
        audits_about(c, g, &short, &map);
    }
    let mut other = make::graph(&mut c.random, other_states, (g.labels as usize).clamp(1, 1024), hops.min(4096));
    if c.random.percent(90) {
        other.labels = g.labels;
    }
    if c.random.percent(10) {
        other = make::damaged(&mut c.random, &other);
    }
    let most = (other.states as usize).clamp(1, 1030);
    let map: Vec<u16> = (0..states).map(|_| c.random.below(most) as u16).collect();
    audits_about(c, g, &other, &map);
    let (side, state) = (c.random.between(1, 2) as u32, c.random.below(states + 2) as u32);
    c.hops_of(side, state, g, &other);
    let (side, state) = (c.random.below(4) as u32, c.random.next() as u32);
    c.hops_of(side, state, g, &other);
}

/// Searches for a hop that is there, for one that differs from it in a number, and for any.
fn finds_about(c: &mut Comparer, g: &Graph) {
    let counts = [g.states, g.labels, g.states].map(|count| count.clamp(1, 1030) as usize);
    let mut hop = counts.map(|count| c.random.below(count + 1) as u32);
    c.find(g, hop);
    if let Some(there) = g.hop_count().checked_sub(1).map(|last| c.random.between(0, last)) {
        hop = g.three_at(there).map(u32::from);
        c.find(g, hop);
    }
    let at = c.random.below(3);
    hop[at] = match c.random.below(4) {
        0 => c.random.pick(&make::ODD),
        1 => hop[at] + c.random.pick(&[1 << 16, 1 << 20, 1 << 31]),
        2 => hop[at] + 1,
        _ => hop[at].saturating_sub(1),
    };
    c.find(g, hop);
}

/// An audit, and others with the map or a graph altered in a place.
fn audits_about(c: &mut Comparer, one: &Graph, two: &Graph, map: &[u16]) {
    c.audit(one, two, map);
    let mut other = map.to_vec();
    match c.random.below(4) {
        0 => {
            other.pop();
        }
        1 => other.push(c.random.below(3) as u16),
        _ if !other.is_empty() => {
            let at = c.random.below(other.len());
            other[at] = if c.random.percent(50) { c.random.below(two.states as usize + 1) as u16 } else { c.random.next() as u16 };
        }
        _ => {}
    }
    c.audit(one, two, &other);
    let altered = make::damaged(&mut c.random, two);
    c.audit(one, &altered, map);
    if two.hop_count() > 0 {
        let mut fewer = two.clone();
        let at = NUMBERS * c.random.below(two.hop_count());
        fewer.hops.drain(at..at + NUMBERS);
        c.audit(one, &fewer, map);
    }
    // "marking and faults ignore the fourth"
    let relined = make::lined(&mut c.random, two.clone());
    assert_eq!(c.audit(one, &relined, map).figures[..], checker::audit(&one.lent(), &two.lent(), map).figures[..], "lines are no matter to an audit");
}

/// Markings of many rounds: chains, ladders, waves, fans and the like, random small ones and some large ones.
pub fn rounds(c: &mut Comparer, count: usize) {
    for _ in 0..count {
        let g = make::many_rounds(&mut c.random, 30);
        in_each_sense(c, &g);
        c.mark_fast(&g, About(g.hop_count()));
    }
    let mut tests_of = |(states, hops): (u16, make::Hops)| {
        let g = make::lined(&mut c.random, make::graph_of(states.into(), 3, 0, &hops));
        c.mark(&g, 1, Exactly(hops.len()));
        c.reduce(&g, 1, Exactly(states.into()), Exactly(g.hops.len()));
        c.shrink(&g, 1, Exactly(states.into()), Exactly(g.hops.len()));
        c.answer_len = Some(4);
        let tests = c.mark_fast(&g, Exactly(hops.len())).figures[0];
        c.answer_len = None;
        tests
    };
    for states in 2..40 {
        assert_eq!(tests_of(make::chain(states)), 2 * u64::from(states) - 3, "tests of a chain of {states}");
    }
    assert_eq!(tests_of(make::chain(1024)), 2045, "tests of the longest chain");
    for graph in [make::chain_to_one_end(1024), make::ladder(512), make::waves(20, 20), make::fans(5, 80, 80)] {
        tests_of(graph);
    }
    for graph in [make::layers(20, 25, 30), make::wide(300), make::answered_again(300), make::over_waves(12, 10, 6, 5), make::over_one(150, 4)] {
        tests_of(graph);
    }
}

/// Graphs of some hundred hops in each sense, so that there are more hops to try than one word has bits: random ones, such as take many rounds, and hubs with walks
/// before and behind what answers.
pub fn senses(c: &mut Comparer, count: usize) {
    for i in 0..count {
        let g = match i % 3 {
            0 => make::graph(&mut c.random, 60, 5, 400),
            1 => make::many_rounds(&mut c.random, 60),
            _ => make::hub(&mut c.random, 25),
        };
        in_each_sense(c, &g);
    }
    let graphs = [make::chain(150), make::chain_to_one_end(150), make::ladder(80), make::waves(10, 12), make::fans(5, 30, 40), make::over_one(60, 4)];
    for (states, hops) in graphs {
        let g = make::lined(&mut c.random, make::graph_of(states.into(), 3, 0, &hops));
        in_each_sense(c, &g);
    }
}

/// Graphs that take many reductions: random small ones and some large ones, and chains that take as many as there can be, under R1 the longest there is. Under R8 one
/// reduction does it all.
pub fn reductions(c: &mut Comparer, count: usize) {
    for _ in 0..count {
        let g = make::many_reductions(&mut c.random, 24);
        in_each_sense(c, &g);
        let sense = any_sense(c);
        c.shrink(&g, sense, About(g.states as usize), About(g.hops.len()));
    }
    for states in [40, 90] {
        let g = make::many_reductions(&mut c.random, states);
        in_each_sense(c, &g);
    }
    let reductions_of = |c: &mut Comparer, (states, hops): (u16, Hops), sense| {
        let g = make::lined(&mut c.random, make::graph_of(states.into(), 3, 0, &hops));
        shrunk(c, &g, sense)
    };
    assert_eq!(SENSES.map(|sense| reductions_of(c, make::one_a_reduction(120), sense)), [119, 119, 119, 1], "reductions of a chain of 120");
    assert_eq!(reductions_of(c, make::beside(make::one_a_reduction(100), make::chain(100)), 1), 99, "reductions beside a chain that falls");
    assert_eq!(reductions_of(c, make::one_a_reduction(1024), 1), 1023, "reductions of the longest chain under R1");
    assert_eq!(reductions_of(c, make::one_a_reduction(1024), 8), 1, "reductions of the longest chain under R8");
}

/// Random files and name blocks, whole ones and broken ones.
pub fn files(c: &mut Comparer, count: usize) {
    for i in 0..count {
        let mut g = make::graph(&mut c.random, 6, 5, 12);
        if c.random.percent(10) {
            g = make::damaged(&mut c.random, &g);
        }
        let names = match c.random.below(8) {
            0 | 1 => 0,
            2 => c.random.below(6),
            _ => (g.labels as usize).clamp(1, 6) - 1,
        };
        let longest = c.random.pick(&[1, 2, 4, 32]);
        let mut block = make::block(&mut c.random, names, longest);
        let mut file = make::file(&g, &block);
        match i % 5 {
            0 => {}
            4 => file = make::damaged_lines(&mut c.random, &g, &file),
            3 => {
                file = (0..c.random.below(24)).map(|_| if c.random.percent(60) { c.random.below(5) as u8 } else { c.random.next() as u8 }).collect();
                if let Some(first) = file.first_mut() {
                    *first &= 15;
                }
            }
            _ => file = make::damaged_bytes(&mut c.random, &file),
        }
        let answer = c.read(&file, About(g.hops.len()));
        if answer.number == 0 {
            written_again(c, &file);
        }
        if c.random.percent(30) {
            block = make::damaged_bytes(&mut c.random, &block);
        }
        let needed = make::file(&g, &block).len();
        c.write(&g, &block, About(needed));
    }
}

/// "A file read and written again has the same bytes".
fn written_again(c: &mut Comparer, file: &[u8]) {
    let (answer, hops) = checker::read(file, &vec![0; NUMBERS * 4096]);
    assert_eq!(answer.number, 0, "a file that was accepted");
    let figures = answer.figures;
    let g = Graph {
        states: figures[0] as u32,
        labels: figures[1] as u32,
        initial: figures[2] as u32,
        hops: hops[..NUMBERS * figures[3] as usize].to_vec(),
    };
    let block = &file[figures[4] as usize..(figures[4] + figures[5]) as usize];
    let answer = c.write(&g, block, Exactly(file.len()));
    assert_eq!(answer.figures, [file.len() as u64], "the same length again");
    assert_eq!(checker::write(&g.lent(), block, &vec![0; file.len()]).1, file, "the same bytes again");
}

/// Some files cut at each byte, with every value of byte 0 and every value of every byte in front of the hops.
pub fn every_damage(c: &mut Comparer) {
    for round in 0..40 {
        let g = make::graph(&mut c.random, 6, 5, 8);
        let names = g.labels as usize - 1;
        let block = if round % 2 == 0 { make::block(&mut c.random, names, 4) } else { vec![] };
        let file = make::file(&g, &block);
        for end in 0..file.len() {
            c.read(&file[..end], About(g.hops.len()));
            let mut longer = file.clone();
            longer.insert(end, c.random.next() as u8);
            c.read(&longer, About(g.hops.len()));
            for bit in 0..8 {
                let mut flipped = file.clone();
                flipped[end] ^= 1 << bit;
                c.read(&flipped, About(g.hops.len()));
            }
        }
        for at in 0..file.len().min(9) {
            for value in 0..=255 {
                let mut other = file.clone();
                other[at] = value;
                c.read(&other, AtLeast(g.hops.len()));
            }
        }
        for _ in 0..20 {
            let other = make::damaged_lines(&mut c.random, &g, &file);
            c.read(&other, AtLeast(g.hops.len()));
        }
        for end in 0..block.len() {
            c.write(&g, &block[..end], About(file.len()));
            for value in [0, 1, 32, 33, 255] {
                let mut other = block.clone();
                other[end] = value;
                c.write(&g, &other, About(file.len()));
            }
        }
    }
}

/// Random large graphs up to the limits.
pub fn large(c: &mut Comparer, count: usize) {
    for i in 0..count {
        let (states, labels, hops) = match i % 4 {
            0 => (1024, 3, 4096),
            1 => (1024, 1024, 4096),
            2 => (200, 4, 4096),
            _ => (1024, 1, 2000),
        };
        let mut g = make::graph(&mut c.random, states, labels, hops);
        if i % 10 == 9 {
            g = make::damaged(&mut c.random, &g);
        }
        every_entry(c, &g, states);
        let names = (g.labels as usize).clamp(1, 1024) - 1;
        let longest = c.random.pick(&[2, 5, 32]);
        let block = if i % 3 == 0 { vec![] } else { make::block(&mut c.random, names, longest) };
        let file = make::file(&g, &block);
        c.write(&g, &block, About(file.len()));
        if c.read(&file, About(g.hops.len())).number == 0 {
            written_again(c, &file);
        }
        for _ in 0..3 {
            let broken = make::damaged_bytes(&mut c.random, &file);
            c.read(&broken, About(g.hops.len()));
            let broken = make::damaged_bytes(&mut c.random, &block);
            c.write(&g, &broken, About(file.len()));
        }
    }
}

/// A flat list without lines.
fn flat(hops: impl Iterator<Item = [u16; 3]>) -> Vec<u16> {
    hops.flat_map(|[from, label, to]| [from, label, to, 0]).collect()
}

/// Graphs of the full size: chains, one class, the most faults, one more than is allowed.
pub fn limits(c: &mut Comparer) {
    let full = |states, labels, hops| Graph { states, labels, initial: states - 1, hops };
    let chain = full(1024, 1, flat((0..1023).map(|s| [s, 0, s + 1])));
    let chain_down = full(1024, 1, flat((1..1024).map(|s| [s, 0, s - 1])));
    let ring = full(1024, 1, flat((0..1024).map(|s| [s, 0, (s + 1) % 1024])));
    let late_ring = full(1024, 1, flat((0..1024).map(|s| if s == 1023 { [s, 0, 1022] } else { [s, 0, s + 1] })));
    let class = full(1024, 2, flat((0..1024).flat_map(|s| (1..=4).filter_map(move |d| (s + d < 1024).then_some([s, 0, s + d])))));
    let one_label =
        full(1024, 2, flat((0..1024).flat_map(|s| (0..4).map(move |d| [s, 1, (s + 7 * d) % 1024]).collect::<std::collections::BTreeSet<_>>())));
    let dense = full(91, 1, flat((0..91).flat_map(|s| (s + 1..91).map(move |t| [s, 0, t]))));
    let many_labels = full(4, 1024, flat((0..4).flat_map(|s| (0..1024).map(move |a| [s, a, 3]))));
    let rounds = round_graph(64);
    // a chain, and a chain that ends in a ring, through the states in no order
    let order = make::shuffled(&mut c.random, 1024);
    let strewn = |hops: Hops| make::graph_of(1024, 8, 1023, &hops);
    let along = || (0..1023).map(|i| (order[i], 0, order[i + 1]));
    let chain_strewn = strewn(along().collect());
    let ring_strewn = strewn(along().chain([(order[1023], 0, order[900])]).collect());
    // the images of one state's hops in descending order, and in no order: far from where they go
    let asked = || (1..8).flat_map(|a| (0..500).map(move |i| (0, a, 1 + i)));
    let descending = strewn(asked().chain((0..500).map(|i| (1 + i, 0, 1000 - i))).collect());
    let tos = make::shuffled(&mut c.random, 500);
    let mixed = strewn(asked().chain((0..500).map(|i| (1 + i, 0, 501 + tos[usize::from(i)]))).collect());
    // the same with images that repeat
    let repeated = strewn(asked().chain((0..500).map(|i| (1 + i, 0, 501 + tos[usize::from(i)] / 2))).collect());
    for g in
        [chain, chain_down, chain_strewn, ring, late_ring, ring_strewn, class, one_label, dense, many_labels, rounds, descending, mixed, repeated]
    {
        let g = make::lined(&mut c.random, g);
        every_entry(c, &g, 1024);
        every_entry(c, &g, 3);
        for _ in 0..20 {
            let place = c.random.below(g.hop_count()) as u64;
            c.round(&g, place, 4);
        }
        let file = make::file(&g, &[]);
        c.write(&g, &[], About(file.len()));
        c.read(&file, About(g.hops.len()));
    }
    let hops: Vec<u16> = flat((0..4097u16).map(|i| [i / 4, 1, i % 4]));
    for count in [4095, 4096, 4097] {
        for states in [1023, 1024, 1025] {
            for labels in [1, 2, 1024, 1025] {
                let g = Graph { states, labels, initial: 0, hops: hops[..NUMBERS * count].to_vec() };
                let g = make::lined(&mut c.random, g);
                c.check(&g);
                let sense = any_sense(c);
                c.mark(&g, sense, About(count));
                c.mark_fast(&g, About(count));
                c.reduce(&g, sense, About(states as usize), About(NUMBERS * count));
                c.shrink(&g, sense, About(states as usize), About(NUMBERS * count));
                c.round(&g, 0, 1);
                c.write(&g, &[], About(make::file(&g, &[]).len()));
                c.read(&make::file(&g, &[]), About(NUMBERS * count));
            }
        }
    }
    for extra in [1, 2, 3, 4] {
        let mut g = full(1024, 2, hops[..NUMBERS * 4096].to_vec());
        g.hops.extend(vec![0; extra]);
        c.check(&g);
        c.mark(&g, 8, About(4096));
        c.mark_fast(&g, About(4096));
    }
    let g = Graph { states: 3, labels: 1, initial: 0, hops: vec![0; 200_000] };
    c.check(&g);
    c.mark(&g, 8, About(70_000));
    c.mark_fast(&g, About(70_000));
    // every hop and every pair of a hop and a state is a fault, and so are the initial states
    let one = full(1024, 6, hops[..NUMBERS * 4096].to_vec());
    let two = Graph { states: 1024, labels: 6, initial: 1, hops: flat((0..4096u16).map(|i| [0, 2 + i / 1024, i % 1024])) };
    assert_eq!(c.audit(&one, &two, &[0; 1024]).figures, [4_198_401, 1, 0, 0]);
    c.audit(&one, &two, &vec![0; 70_000]);
    first_faults_at_the_limits(c);
    // each hop of a full list, and what stands on either side of it
    for place in 0..one.hop_count() {
        let [from, label, to] = one.three_at(place).map(u32::from);
        let place = place as u64;
        assert_eq!(c.find(&one, [from, label, to]).figures, [1, place], "each hop is found");
        c.find(&one, [from, label - 1, to]);
        c.find(&one, [from, label, to + 4]);
    }
}

/// All states in one class, and one row of graph 2 with all labels: no state answers the last hop, or only the last state does not; or each state lacks another hop,
/// the higher the state the earlier.
fn first_faults_at_the_limits(c: &mut Comparer) {
    let row = Graph { states: 1, labels: 1024, initial: 0, hops: flat((0..1024).map(|a| [0, a, 0])) };
    let of = |states: u16, hops: Hops| make::graph_of(states.into(), 1024, 0, &hops);
    let ring = of(1024, (0..1024).map(|s| (s, 0, (s + 1) % 1024)).chain((1..1023).map(|a| (1023, a, 1023))).collect());
    assert_eq!(c.audit(&ring, &row, &[0; 1024]).figures, [1024, 3, 1023, 0], "no state answers the last hop");
    let last = of(4, (0..4).flat_map(|s| (1..if s == 3 { 1023 } else { 1024 }).map(move |a| (s, a, s))).collect());
    assert_eq!(c.audit(&last, &row, &[0; 4]).figures, [1, 3, 1023, 3], "the last state does not answer the last hop");
    let falling = of(4, (0..4).flat_map(|s| (1..1024).filter(move |a| *a != 1023 - s).map(move |a| (s, a, s))).collect());
    assert_eq!(c.audit(&falling, &row, &[0; 4]).figures, [4, 3, 1020, 3], "the last state lacks the earliest hop");
}

/// A graph of `states` states with silent hops between most of them, in which most closings fail late.
fn round_graph(states: u16) -> Graph {
    let hops = flat((0..states).flat_map(|s| (0..states).filter(move |&t| s != t && (s * 7 + t * 3) % 64 != 1).map(move |t| [s, 0, t])).take(4096));
    Graph { states: states.into(), labels: 1, initial: 0, hops }
}

/// Files around the longest length, with counts over the limits and more names than labels can have.
pub fn large_files(c: &mut Comparer) {
    const LONGEST: usize = checker::LONGEST_FILE;
    let mut read = |file: &[u8]| {
        c.read(file, About(16));
    };
    for first in [0, 7, 8, 15, 16, 255] {
        for len in [58_344, 65_536, LONGEST - 1, LONGEST, LONGEST + 1, 70_000] {
            let mut file = vec![0; len];
            file[0] = first;
            read(&file);
        }
    }
    // counts of 65,535, with too little, just enough and too much behind them
    for map in 0..16u8 {
        read(&[map, 255, 255, 255, 255, 255, 255, 255, 255]);
        let mut file = vec![map, 255, 255, 255, 255, 255, 255];
        file.resize(LONGEST, 1);
        read(&file);
    }
    // as many hops as a file holds, one less and one more; with lines, and with lines all 0
    for (map, most, each) in [(2, (LONGEST - 7) / 6, 6), (10, (LONGEST - 7) / 8, 8)] {
        for byte in [0, 1] {
            for count in [most - 1, most, most + 1] {
                let mut file = vec![map, 4, 0, 2, 0];
                file.extend((count as u16).to_le_bytes());
                file.resize(7 + each * count.min(most), byte);
                read(&file);
                file.resize(7 + 6 * count.min(most), byte);
                read(&file);
            }
        }
    }
    // names of length 0, as many as a file of 65,535 labels holds, and what is left of the longest behind them
    for len in [5 + 65_534, LONGEST] {
        let mut file = vec![4, 1, 0, 255, 255];
        file.resize(len, 0);
        read(&file);
    }
    // names of length 255 and 33
    for len in [255u8, 33] {
        for count in [1, 2, 200u16] {
            let mut file = vec![4, 1, 0];
            file.extend((count + 1).to_le_bytes());
            for i in 0..count {
                file.push(len);
                file.extend(i.to_le_bytes());
                file.extend(vec![7; usize::from(len) - 2]);
            }
            read(&file);
            read(&file[..file.len() - 1]);
        }
    }
    most_names(c);
    longest_file(c);
}

/// As many names as a file holds, places past 65,535 among them, where one is the same as another, and none.
fn most_names(c: &mut Comparer) {
    const LONGEST: usize = checker::LONGEST_FILE;
    let mut read = |file: &[u8]| c.read(file, About(16));
    // all of one byte, then of two; all different, and with the last one repeated
    let pairs = (LONGEST - 5 - 2 * 256) / 3;
    let mut file = vec![4, 1, 0];
    file.extend((1 + 256 + pairs as u16).to_le_bytes());
    for i in 0..256 {
        file.extend([1, i as u8]);
    }
    for i in 0..pairs as u16 {
        file.push(2);
        file.extend(i.to_le_bytes());
    }
    read(&file);
    let last = file.len() - 2;
    for earlier in [0, 100, pairs as u16 - 2] {
        file[last..].copy_from_slice(&earlier.to_le_bytes());
        read(&file);
    }
    // as many names of two bytes as fit, ascending, descending and in no order; all different, and with one repeated, from early on and from past byte 65,535
    let most = ((LONGEST - 5) / 3) as u16;
    let mut names: Vec<u16> = (0..most).collect();
    for turn in 0..3 {
        match turn {
            0 => {}
            1 => names.reverse(),
            _ => names.sort_by_key(|&i| i.wrapping_mul(40_503)),
        }
        let mut file = vec![4, 1, 0];
        file.extend((most + 1).to_le_bytes());
        for i in &names {
            file.push(2);
            file.extend(i.to_be_bytes());
        }
        read(&file);
        let name_at = |i: usize| 5 + 3 * i;
        for (first, later) in [(1000, 18_000), (10, usize::from(most) - 1), (usize::from(most) - 100, usize::from(most) - 1)] {
            let mut file = file.clone();
            file.copy_within(name_at(first) + 1..name_at(first) + 3, name_at(later) + 1);
            read(&file);
        }
    }
}

/// The longest legal file, one byte less and one more, and the longest without lines.
fn longest_file(c: &mut Comparer) {
    let mut block = vec![];
    for label in 1..1024u16 {
        block.push(32);
        block.extend([0; 30]);
        block.extend(label.to_be_bytes());
    }
    let hops = flat((0..4096u16).map(|i| [i / 4, 1023, i % 4]));
    let mut g = Graph { states: 1024, labels: 1024, initial: 1023, hops };
    for (line, longest) in [(0, 58_344), (7, checker::LONGEST_FILE)] {
        // the last line alone is enough
        *g.hops.last_mut().expect("a hop") = line;
        let file = make::file(&g, &block);
        assert_eq!(file.len(), longest, "the longest file");
        for len in [longest - 1, longest, longest + 1] {
            c.write(&g, &block, Exactly(len));
        }
        for len in [NUMBERS * 4096 - 1, NUMBERS * 4096, NUMBERS * 4096 + 1] {
            c.read(&file, Exactly(len));
        }
        c.read(&file[..longest - 1], Exactly(NUMBERS * 4096));
        c.read(&[&file[..], &[0]].concat(), Exactly(NUMBERS * 4096));
        written_again(c, &file);
    }
    // a block of 1,023 names of length 255, and one longer
    let mut block: Vec<u8> = vec![];
    for label in 1..1024u16 {
        block.push(255);
        block.extend([0; 253]);
        block.extend(label.to_be_bytes());
    }
    c.write(&g, &block, About(checker::LONGEST_FILE));
    c.write(&g, &block[..block.len() - 1], About(checker::LONGEST_FILE));
    block.push(9);
    c.write(&g, &block, About(checker::LONGEST_FILE));
}
