//! The graphs that are timed.

use differential::entries::{Graph, NUMBERS};
use std::collections::BTreeSet;

/// A graph with its name in the table.
pub struct Named {
    pub name: &'static str,
    pub graph: Graph,
}

/// A kind of graph that is there in sizes from 128 to 1,024 states.
pub struct Family {
    pub name: &'static str,
    pub of: fn(u16) -> Graph,
}

type Hops = BTreeSet<[u16; 3]>;

/// Each hop has the line that it would have in a text with a head and a line a hop.
fn graph_of(states: u16, labels: u16, hops: impl IntoIterator<Item = [u16; 3]>) -> Graph {
    let hops: Hops = hops.into_iter().collect();
    assert!(hops.len() <= 4096, "{} hops", hops.len());
    let hops = hops.into_iter().zip(2..).flat_map(|([from, label, to], line)| [from, label, to, line]).collect();
    Graph { states: states.into(), labels: labels.into(), initial: 0, hops }
}

/// Whether some hop has a line, and so its file lines.
pub fn has_lines(graph: &Graph) -> bool {
    graph.each_hop().any(|hop| hop[3] != 0)
}

/// The same graph without lines.
pub fn without_lines(graph: &Graph) -> Graph {
    let hops = graph.each_hop().flat_map(|[from, label, to, _]| [from, label, to, 0]).collect();
    Graph { hops, ..*graph }
}

fn graph(name: &'static str, states: u16, labels: u16, hops: impl IntoIterator<Item = [u16; 3]>) -> Named {
    Named { name, graph: graph_of(states, labels, hops) }
}

/// xorshift.
pub struct Random(u64);

impl Random {
    /// Always from the same seed.
    pub fn new() -> Random {
        Random(0x2545_f491_4f6c_dd1d)
    }

    pub fn below(&mut self, bound: u16) -> u16 {
        self.0 ^= self.0 << 13;
        self.0 ^= self.0 >> 7;
        self.0 ^= self.0 << 17;
        ((self.0 >> 20) % u64::from(bound)) as u16
    }

    /// The numbers below a bound, each once.
    pub fn shuffled(&mut self, bound: u16) -> Vec<u16> {
        let mut order: Vec<u16> = (0..bound).collect();
        for i in (1..bound).rev() {
            order.swap(i.into(), self.below(i + 1).into());
        }
        order
    }
}

pub fn families() -> [Family; 9] {
    [
        Family { name: "chain, numbered along", of: |n| chain((0..n).collect()) },
        Family { name: "chain, numbered against", of: |n| chain((0..n).rev().collect()) },
        Family { name: "chain, numbered at random", of: |n| chain(Random::new().shuffled(n)) },
        Family { name: "grid, silent down, visible across", of: |n| grid(n, 1) },
        Family { name: "grid, all silent", of: |n| grid(n, 0) },
        Family { name: "random, no ring, 3 labels", of: |n| random(n, 3, 40) },
        Family { name: "random, no ring, 1 label", of: |n| random(n, 1, 100) },
        Family { name: "random, no ring, 1,024 labels", of: |n| random(n, 1024, 30) },
        Family { name: "one class", of: class },
    ]
}

pub fn graphs() -> Vec<Named> {
    let mut graphs: Vec<Named> = families().into_iter().map(|Family { name, of }| Named { name, graph: of(1024) }).collect();
    graphs.extend([
        Named { name: "grid, all silent, numbered against", graph: numbered_against(grid(1024, 0)) },
        graph("order of 91 states, all silent", 91, 1, (0..91).flat_map(|s| (s + 1..91).map(move |t| [s, 0, t]))),
        graph("visible hops only, one label", 1024, 2, (0..1024).flat_map(|s| (0..4).map(move |d| [s, 1, (s + 7 * d + 1) % 1024]))),
        images("3,500 images in descending order", (0..500).rev().collect()),
        images("3,500 images strewn at random", Random::new().shuffled(500)),
        repeated_images("3,500 images, ten of each and in descending order", (0..500).rev().collect()),
        repeated_images("3,500 images, ten of each and strewn at random", Random::new().shuffled(500)),
        falling(),
    ]);
    graphs
}

/// A silent hop from each state to the one behind it in the order.
fn chain(order: Vec<u16>) -> Graph {
    graph_of(order.len() as u16, 1, order.windows(2).map(|two| [two[0], 0, two[1]]))
}

/// 8 by 16, 16 by 16, 16 by 32 or 32 by 32 states.
fn grid(states: u16, across: u16) -> Graph {
    let height = 1 << states.ilog2().div_ceil(2);
    let width = states / height;
    let at = |x: u16, y: u16| height * x + y;
    let down = (0..width).flat_map(|x| (0..height - 1).map(move |y| [at(x, y), 0, at(x, y + 1)]));
    let over = (0..width - 1).flat_map(|x| (0..height).map(move |y| [at(x, y), across, at(x + 1, y)]));
    graph_of(states, 2, down.chain(over))
}

/// The same graph, with the last state numbered first.
fn numbered_against(graph: Graph) -> Graph {
    let last = graph.states as u16 - 1;
    graph_of(last + 1, graph.labels as u16, graph.each_hop().map(|[from, label, to, _]| [last - from, label, last - to]))
}

/// Four hops a state, so many of 100 of them silent and leading upward.
fn random(states: u16, labels: u16, silent: u16) -> Graph {
    let mut random = Random::new();
    let mut hops = Hops::new();
    while hops.len() < 4 * usize::from(states) {
        let (s, t) = (random.below(states), random.below(states));
        if labels == 1 || random.below(100) < silent {
            if s < t {
                hops.insert([s, 0, t]);
            }
        } else {
            hops.insert([s, 1 + random.below(labels - 1), t]);
        }
    }
    graph_of(states, labels, hops)
}

/// All states are one class: each has silent hops to the next four, and all of them are marked.
fn class(states: u16) -> Graph {
    graph_of(states, 1, (0..states).flat_map(|s| (s + 1..(s + 5).min(states)).map(move |t| [s, 0, t])))
}

/// State 0 has hops by each of seven labels to 500 states, whose representatives come in the given order; the new numbers of these ascend.
fn images(name: &'static str, order: Vec<u16>) -> Named {
    let joined = (1..).zip(order).map(|(s, end)| [s, 0, 501 + end]);
    let asked = (1..8).flat_map(|a| (0..500).map(move |i| [0, a, 1 + i]));
    graph(name, 1001, 8, joined.chain(asked))
}

/// The same with 50 representatives, each of ten states: of ten hops with different lines, some of them 0, one short hop is left, with the smallest.
fn repeated_images(name: &'static str, order: Vec<u16>) -> Named {
    let joined = (1..).zip(order).map(|(s, end)| [s, 0, 501 + end / 10]);
    let asked = (1..8).flat_map(|a| (0..500).map(move |i| [0, a, 1 + i]));
    let mut named = graph(name, 551, 8, joined.chain(asked));
    let mut random = Random::new();
    for hop in named.graph.hops.chunks_exact_mut(NUMBERS) {
        hop[3] = if random.below(3) == 0 { 0 } else { random.below(65_535) + 1 };
    }
    named
}

/// A ladder whose rungs fall one a sweep, from the far end, beside a block of 32 states whose 496 silent hops stay marked.
fn falling() -> Named {
    let (block, rungs) = (32, 490);
    let (left, right) = (|i: u16| block + i, |i: u16| block + rungs + i);
    let order = (0..block).flat_map(|s| (s + 1..block).map(move |t| [s, 0, t]));
    let rung = (0..rungs).map(|i| [left(i), 0, right(i)]);
    let rails = (0..rungs - 1).flat_map(|i| [[left(i), 1, left(i + 1)], [right(i), 1, right(i + 1)]]);
    let fault = [[left(rungs - 1), 2, 0]];
    graph("ladder that falls a rung a sweep, beside a block", block + 2 * rungs, 3, order.chain(rung).chain(rails).chain(fault))
}

/// Graphs that are timed for marking alone.
pub fn markings() -> Vec<Named> {
    let (layers, states) = layers(45);
    vec![
        {
            let (chain, states) = one_a_round(1024);
            graph("chain of 1,024 that falls a hop a round", states, 2, chain)
        },
        many_into("510 silent hops and 1,023 labels to a state with 510 silent hops", false),
        many_into("the same, one of the silent hops stays marked", true),
        answered_again(),
        graph("three layers of 45 states, silent hops between all", states, 1, layers),
        looked_at_again("two states with 44 labels over waves", 30, 30, (1, 1), 44),
        {
            let (block, states) = over_one(600, 350);
            graph("block of 350 and 2 states over a state whose 600 hops fall one a round", states, 3, block)
        },
    ]
}

/// The graphs on which marking by repeated sweeps takes longest, a second to minutes: sweeps are timed on them with a word of their own, and once.
pub fn long_markings() -> Vec<Named> {
    vec![
        {
            let (chain, states) = one_a_sweep(682);
            let (block, states) = looked_up_again(states, 8, 330);
            graph("chain that falls a hop a sweep, beside a block looked up again", states, 3, chain.into_iter().chain(block))
        },
        fans(),
        {
            let (chain, states) = waves(36, 60);
            graph("waves: 60 chains of 36 hops that fall one after the other", states, 3, chain)
        },
        looked_at_again("block of 17 and 23 states over waves, each fall tests all its 391 hops again", 56, 26, (17, 23), 1),
    ]
}

/// From each state to the next a silent hop and one labelled 1; the last has one labelled 1 to the first. A silent hop closes while the next one is marked, and so
/// one falls a round.
fn one_a_round(length: u16) -> (Hops, u16) {
    let along = (0..length - 1).flat_map(|s| [[s, 0, s + 1], [s, 1, s + 1]]);
    (along.chain([[length - 1, 1, 0]]).collect(), length)
}

/// State 0 has silent hops to 510 states and a hop by each visible label to state 1, which has silent hops to 510 others: for each of these that falls every hop
/// into 1 is gone over, unless nothing marked leaves 0. Something does where 0 also has a silent hop to a state that answers all labels and to which the 510 lead.
fn many_into(name: &'static str, stays: bool) -> Named {
    let silent = (0..510).flat_map(|i| [[0, 0, 2 + i], [1, 0, 512 + i]]);
    let labels = (1..1024).map(|a| [0, a, 1]);
    let kept = (0..510).map(|i| [2 + i, 0, 1022]).chain((1..1024).map(|a| [1022, a, 1])).chain([[0, 0, 1022]]);
    graph(name, 1023, 1024, silent.chain(labels).chain(kept.filter(|_| stays)))
}

/// States 0 and 1, a silent hop between them, and from both a hop labelled 1 to each state of a chain that falls a hop a round: whenever one falls the hop is tested
/// again.
fn answered_again() -> Named {
    let (chain, states) = one_a_sweep(680);
    let chain = chain.into_iter().map(|[from, label, to]| [2 + from, label, 2 + to]);
    let both = (0..680).flat_map(|i| [[0, 1, 2 + i], [1, 1, 2 + i]]);
    graph("two states with 680 hops, tested again 680 times", 2 + states, 3, chain.chain(both).chain([[0, 0, 1], [1, 1, 1 + states]]))
}

/// Three layers of so many states, with silent hops from each state to all of the next layer: most pairs of hops are met.
fn layers(width: u16) -> (Hops, u16) {
    let between = |s: u16| (0..width).flat_map(move |i| (0..width).map(move |j| [s + i, 0, s + width + j]));
    (between(0).chain(between(width)).collect(), 3 * width)
}

/// Five states with silent hops to each of 500, which lead to one: 2,500 hops that stay marked, beside a chain that falls a hop a sweep.
fn fans() -> Named {
    let fan = (0..5).flat_map(|s| (5..505).map(move |t| [s, 0, t])).chain((5..505).map(|t| [t, 0, 505]));
    let (hops, states) = beside((fan.collect(), 506), one_a_sweep(500));
    graph("five fans of 500, beside a chain that falls a hop a sweep", states, 3, hops)
}

/// State 0 has silent hops to so many ends, which fall one a round, the lowest first: it has a hop labelled 2 to itself, which each end answers by one to the end
/// before it. Silent hops lead from all of them to a hub, so that nothing else falls. Over it a block: so many states with a hop labelled 1 to 0, and with silent
/// hops to two that have one to each end. For each hop that falls all those silent hops are tested again, and look through the ends that have fallen. A sweep takes them all at once.
fn over_one(ends: u16, ones: u16) -> (Hops, u16) {
    let (hub, one) = (1 + ends, 2 + ends);
    let two = one + ones;
    let falling = (1..=hub).map(|e| [0, 0, e]).chain((1..hub).map(|e| [e, 0, hub]));
    let again = (2..hub).map(|e| [e, 2, e - 1]).chain([[0, 2, 0], [hub, 2, hub]]);
    let block = (one..two).flat_map(|s| [[s, 0, two], [s, 0, two + 1], [s, 1, 0]]).chain([[two, 0, two + 1]]);
    let answers = (two..two + 2).flat_map(|s| (1..hub).map(move |e| [s, 1, e]));
    (falling.chain(again).chain(block).chain(answers).collect(), two + 2)
}

/// Waves, and over them a block: silent hops from each of some states to each of others, the former with hops by so many labels to each state of the chains, the
/// latter by the same labels to each end. For each hop of the waves that falls all those silent hops are tested again, and every hop tried looks through the ends
/// whose chains have fallen, which are numbered first.
fn looked_at_again(name: &'static str, length: u16, chains: u16, (ones, twos): (u16, u16), labels: u16) -> Named {
    let (waves, one) = waves(length, chains);
    let turned = |s: u16| if s < length { s } else { 2 * length + chains - s };
    let waves = waves.into_iter().map(|[from, label, to]| [turned(from), label, turned(to)]);
    let two = one + ones;
    let silent = (one..two).flat_map(|s| (two..two + twos).map(move |t| [s, 0, t]));
    let order = (two..two + twos).flat_map(|s| (s + 1..two + twos).map(move |t| [s, 0, t]));
    let tried = (3..3 + labels).flat_map(|a| (one..two).flat_map(move |s| (0..length).map(move |t| [s, a, t])));
    let answers = (3..3 + labels).flat_map(|a| (two..two + twos).flat_map(move |s| (0..chains).map(move |j| [s, a, length + 1 + j])));
    graph(name, two + twos, 3 + labels, waves.chain(silent).chain(order).chain(tried).chain(answers))
}

/// A chain of states with a silent hop to the next and one to the state e; the last one's hop to e has nothing to close it. Whether a state's hop to e closes
/// hangs on the next state's hop to e, so that one mark falls a sweep. Label 2 is used, and the number of states is given too.
fn one_a_sweep(length: u16) -> (Hops, u16) {
    let e = length;
    let next = (0..length - 1).map(|i| [i, 0, i + 1]);
    let out = (0..length).map(|i| [i, 0, e]);
    (next.chain(out).chain([[length - 1, 2, 0]]).collect(), length + 1)
}

/// So many chains at once, each to a state e of its own; silent hops lead from each e to those after it. A chain begins to fall when the one to the next e has
/// fallen whole: its last state has a hop labelled 2 to its first, which e answers by one to the next e.
fn waves(length: u16, chains: u16) -> (Hops, u16) {
    let e = |j: u16| length + j;
    let next = (0..length - 1).map(|i| [i, 0, i + 1]);
    let out = (0..length).flat_map(|i| (0..chains).map(move |j| [i, 0, e(j)]));
    let order = (0..=chains).flat_map(|j| (j + 1..=chains).map(move |l| [e(j), 0, e(l)]));
    let again = (0..=chains).map(|j| [e(j), 2, e((j + 1).min(chains))]);
    (next.chain(out).chain(order).chain(again).chain([[length - 1, 2, 0]]).collect(), e(chains) + 1)
}

/// A block that stays marked: silent hops from each of so many states to those after it, and from each of them a hop labelled 1 to each of so many ends. To answer
/// a hop to the last end all ends are looked up.
fn looked_up_again(first: u16, states: u16, ends: u16) -> (Hops, u16) {
    let end = first + states;
    let order = (0..states).flat_map(|s| (s + 1..states).map(move |t| [first + s, 0, first + t]));
    let fan = (0..states).flat_map(|s| (0..ends).map(move |q| [first + s, 1, end + q]));
    (order.chain(fan).collect(), end + ends)
}

/// Graphs that are timed for marking in the weaker senses: many sweeps of them all, or walks that are long.
pub fn walks() -> Vec<Named> {
    let waves = |name, length, chains| {
        let (hops, states) = waves(length, chains);
        graph(name, states, 3, hops)
    };
    let strewn = |name, length, chains| {
        let (hops, states) = self::waves(length, chains);
        graph(name, states, 3, numbered(&Random::new().shuffled(states), hops))
    };
    vec![
        {
            let (chain, states) = one_a_sweep(1023);
            graph("chain of 1,023 to one end that falls a hop a sweep", states, 3, chain)
        },
        {
            let (chain, states) = two_waves(1020);
            graph("chain of 1,020 whose hops fall one a sweep, first to the end and then along it", states, 5, chain)
        },
        {
            let (hops, states) = beside((Hops::from([[0, 0, 1]]), 2), two_waves(1018));
            let hops = numbered(&Random::new().shuffled(states), hops);
            graph("one marked hop, beside a chain of 1,018 that falls so, numbered at random", states, 5, hops)
        },
        waves("waves: 7 chains of 500 hops that fall one after the other", 500, 7),
        waves("waves: 3 chains of 1,000 hops that fall one after the other", 1000, 3),
        strewn("waves: 7 chains of 500 hops, numbered at random", 500, 7),
        strewn("waves: 3 chains of 1,000 hops, numbered at random", 1000, 3),
        hub("hub of 500, 1,000 labels, 500 behind the target", (500, 1000, 500), true, None),
        hub("hub of 500, 1,000 labels, 500 before the hub", (500, 1000, 500), false, None),
        hub("hub of 300, 500 labels, 300 behind the target, 400 that fall apart from it", (300, 500, 300), true, Some((400, false))),
        hub("hub of 300, 500 labels, 300 behind the target, 400 that fall hung on their end", (300, 500, 300), true, Some((400, true))),
        hub("hub of 300, 500 labels, 300 before the hub, 400 that fall apart from it", (300, 500, 300), false, Some((400, false))),
        hub("hub of 300, 500 labels, 300 before the hub, 400 that fall hung on the target", (300, 500, 300), false, Some((400, true))),
        hub("hub of 100, 1,000 labels, 100 before the hub, 800 that fall hung on the target", (100, 1000, 100), false, Some((800, true))),
    ]
}

/// A chain of states with a silent hop and hops labelled 1 and 3 to the next, and a silent one to the end e, which has hops labelled 1, 3 and 4 to itself. In every sense the
/// hops to e fall one a sweep; and when the first state's has fallen, the last one but one's hop labelled 4 to the first is no longer answered by the last one's to e, and
/// the hops along the chain fall one a sweep too.
fn two_waves(length: u16) -> (Hops, u16) {
    let (e, last) = (length, length - 1);
    let along = (0..last).flat_map(|i| [0, 1, 3].map(|a| [i, a, i + 1]));
    let out = (0..length).map(|i| [i, 0, e]);
    let ends = [[last, 1, last], [last, 2, 0], [last, 3, last], [last, 4, e], [last - 1, 4, 0], [e, 1, e], [e, 3, e], [e, 4, e]];
    (along.chain(out).chain(ends).collect(), length + 1)
}

/// State 0 has silent hops to so many states, these to a hub; 0 and the hub have so many labels to one target. A silent chain of so many states stands behind the
/// target, or between those states and the hub. So many states may fall a hop a sweep, apart from the rest or hung on the end of what is behind the target.
fn hub(name: &'static str, (spokes, labels, chain): (u16, u16, u16), behind: bool, falling: Option<(u16, bool)>) -> Named {
    let hub = 1 + spokes;
    let (first, last, target) = (hub + 1, hub + chain, hub + chain + 1);
    let inward = move |s: u16| [[0, 0, s], [s, 0, if behind { hub } else { first }]];
    let links = (first..last).map(|s| [s, 0, s + 1]).chain([if behind { [target, 0, first] } else { [last, 0, hub] }]);
    let both = (3..3 + labels).flat_map(|a| [[0, a, target], [hub, a, target]]);
    let mut hops: Hops = (1..hub).flat_map(inward).chain(links).chain(both).collect();
    let mut states = target + 1;
    if let Some((length, hung)) = falling {
        let (chain, more) = one_a_sweep(length - 1);
        hops.extend(chain.into_iter().map(|[from, label, to]| [states + from, label, states + to]));
        if hung {
            hops.insert([if behind { last } else { target }, 0, states]);
        }
        states += more;
    }
    graph(name, states, 3 + labels, hops)
}

/// Graphs that are timed for shrinking: many reductions, beside a marking of some length that each of them does again.
pub fn repetitions() -> Vec<Named> {
    let chain = |name, order: Vec<u16>| {
        let (hops, states) = one_a_reduction(order.len() as u16);
        graph(name, states, 3, numbered(&order, hops))
    };
    vec![
        chain("chain of 1,024 that a reduction shortens by one, numbered along", (0..1024).collect()),
        chain("chain of 1,024 that a reduction shortens by one, numbered against", (0..1024).rev().collect()),
        chain("chain of 1,024 that a reduction shortens by one, numbered at random", Random::new().shuffled(1024)),
        {
            let (hops, states) = beside(one_a_reduction(400), one_a_round(600));
            graph("chain of 400 that a reduction shortens by one, beside one of 600 that falls a hop a round", states, 3, hops)
        },
        beside_over_one("chain of 100 that a reduction shortens by one, beside a block over a state whose 150 hops fall one a round", 100, 150, 100),
        beside_waves("chain of 40 that a reduction shortens by one, beside waves of 5 by 100, numbered at random", 40, 100, 5),
    ]
}

/// The graphs on which shrinking takes longest, up to minutes.
pub fn long_repetitions() -> Vec<Named> {
    vec![
        beside_over_one("chain of 338 that a reduction shortens by one, beside a block over a state whose 340 hops fall one a round", 338, 340, 340),
        beside_waves("chain of 340 that a reduction shortens by one, beside waves of 5 by 420, numbered at random", 340, 420, 5),
    ]
}

/// A silent chain in which state i has a hop labelled 1 to itself for odd i and to 0 for even i, and one labelled 2 the other way round. Under R1, R2 and R3 only the first
/// silent hop is marked, and a reduction leaves the chain that is one state shorter.
fn one_a_reduction(length: u16) -> (Hops, u16) {
    let silent = (1..length).map(|i| [i - 1, 0, i]);
    let visible = (0..length).flat_map(|i| if i % 2 == 1 { [[i, 1, i], [i, 2, 0]] } else { [[i, 1, 0], [i, 2, i]] });
    (silent.chain(visible).collect(), length)
}

/// The chain, and beside it the block over a state whose hops fall one a round, in which everything falls at last, and so again in each marking: the ends have a hop labelled
/// 3 to 0, which the hub answers by the last end, to which 0's hop falls last; so has the first of the two states, with label 4, and the second one answers.
fn beside_over_one(name: &'static str, length: u16, ends: u16, ones: u16) -> Named {
    let (mut block, states) = over_one(ends, ones);
    let (hub, two) = (1 + ends, states - 2);
    block.extend((1..hub).map(|e| [e, 3, 0]).chain([[hub, 3, ends], [two, 4, 0], [two + 1, 4, ends]]));
    let (hops, states) = beside(one_a_reduction(length), (block, states));
    graph(name, states, 5, hops)
}

/// The chain, and beside it waves in which everything falls at last: a state of the chains and the next one have hops by different labels, 3 and 4, to the last e, which
/// each e answers; and each e but the last has a hop by a label of its own to 0, which those after it answer by the first e, to which 0's hop falls last. The states are numbered
/// at random, so that the falls go here and there through the list.
fn beside_waves(name: &'static str, length: u16, wave: u16, chains: u16) -> Named {
    let (mut waves, states) = waves(wave, chains);
    let (e, last) = (|j: u16| wave + j, wave + chains);
    waves.extend((0..wave).map(|i| [i, 3 + i % 2, last]).chain((0..=chains).flat_map(|j| [[e(j), 3, last], [e(j), 4, last]])));
    waves.extend((0..chains).flat_map(|j| (j + 1..=chains).map(move |l| [e(l), 5 + j, e(0)]).chain([[e(j), 5 + j, 0]])));
    let (hops, states) = beside(one_a_reduction(length), (waves, states));
    graph(name, states, 5 + chains, numbered(&Random::new().shuffled(states), hops))
}

fn beside((one, first): (Hops, u16), (two, second): (Hops, u16)) -> (Hops, u16) {
    let two = two.into_iter().map(|[from, label, to]| [first + from, label, first + to]);
    (one.into_iter().chain(two).collect(), first + second)
}

/// The same hops with the states numbered in another order.
fn numbered(order: &[u16], hops: Hops) -> Hops {
    hops.into_iter().map(|[from, label, to]| [order[usize::from(from)], label, order[usize::from(to)]]).collect()
}

/// For the audit: all states on a ring of silent hops, a map to one state, and as many hops of that state as there can be; the ring goes through the states
/// in turn, or here and there.
pub fn worst_audits() -> Vec<(Named, Graph, Vec<u16>)> {
    let two = || graph("", 1024, 4, (0..1024).flat_map(|q| (0..4).map(move |a| [0, a, q]))).graph;
    let ring = (0..1024).flat_map(|s| (1..5).map(move |d| [s, 0, (s + d) % 1024]));
    let mut random = Random::new();
    let order = random.shuffled(1024);
    let mut strewn: Hops = (0..1024).map(|i| [order[i], 0, order[(i + 1) % 1024]]).collect();
    while strewn.len() < 4096 {
        strewn.insert([random.below(1024), 0, random.below(1024)]);
    }
    vec![
        (graph("all states on a silent ring, one class, 4,096 hops to answer", 1024, 4, ring), two(), vec![0; 1024]),
        (graph("the same, the ring and the other silent hops at random", 1024, 4, strewn), two(), vec![0; 1024]),
    ]
}

/// For the audit: as many faults as there can be; and a silent ring of 1,020 states in one class, one of which has 3,068 hops to four other states and so answers that
/// many hops of the class for all of them, behind which come some that none answers.
pub fn faulty_audits() -> Vec<(Named, Graph, Vec<u16>)> {
    let most = graph("4,198,401 faults", 1024, 6, (0..4096).map(|i| [i / 4, 1, i % 4]));
    let most_two = graph_of(1024, 6, (0..4096).map(|i| [0, 2 + i / 1024, i % 1024]));
    let ring = || (0..1020).map(|s| [s, 0, (s + 1) % 1020]);
    let row = |labels: u16, others: u16| (1..labels).flat_map(move |a| (0..4).map(move |i| [0, a, others + i]));
    let one = |name| graph(name, 1024, 1024, ring().chain(row(768, 1020)));
    let map: Vec<u16> = [vec![0; 1020], vec![1, 2, 3, 4]].concat();
    vec![
        (most, Graph { initial: 1, ..most_two }, vec![0; 1024]),
        (one("ring in one class, 3,068 hops answered"), graph_of(5, 1024, row(768, 1)), map.clone()),
        (one("ring in one class, 3,068 hops answered and the last one not"), graph_of(5, 1024, row(768, 1).chain([[0, 768, 0]])), map.clone()),
        (one("ring in one class, 3,068 hops answered and 1,024 not"), graph_of(5, 1024, row(1024, 1)), map),
    ]
}

/// For the round question: states with silent hops between most or all of them; each also has a visible hop, tried last, that nothing answers.
pub fn dense_rounds() -> Vec<Named> {
    let most = (0..64).flat_map(|s| (0..64).filter(move |&t| s != t && (s * 5 + t * 3) % 61 != 1).map(move |t| [s, 0, t]));
    let all = (0..63).flat_map(|s| (0..63).filter(move |&t| s != t).map(move |t| [s, 0, t]));
    vec![
        graph("64 states, silent hops between most", 64, 65, most.chain((0..64).map(|s| [s, 1 + s, 0]))),
        graph("63 states, silent hops between all", 63, 64, all.chain((0..63).map(|s| [s, 1 + s, 0]))),
    ]
}

/// The graph of the longest legal file.
pub fn longest() -> Named {
    let mut named = graph("the longest legal file", 1024, 1024, (0..4096).map(|i| [i / 4, 1023, i % 4]));
    named.graph.initial = 1023;
    named
}
