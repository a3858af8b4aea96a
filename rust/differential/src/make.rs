//! Graphs, name blocks and files to compare on.

use crate::random::Random;
use differential::entries::{Graph, NUMBERS};
use std::collections::BTreeSet;

pub type Hops = BTreeSet<(u16, u16, u16)>;

/// Without lines.
pub fn graph_of(states: usize, labels: usize, initial: usize, hops: &Hops) -> Graph {
    let hops = hops.iter().take(4096).flat_map(|&(from, label, to)| [from, label, to, 0]).collect();
    Graph { states: states as u32, labels: labels as u32, initial: initial as u32, hops }
}

/// The same graph with other lines: mostly low ones with many zeros among them, so that short hops come from several hops with lines and without; at times none, the
/// lines of a text, the highest, or any. Numbers behind the last whole hop stay.
pub fn lined(random: &mut Random, mut g: Graph) -> Graph {
    let kind = random.below(10);
    let zeros = random.pick(&[0, 20, 50, 50, 80, 95]);
    for (place, hop) in g.hops.chunks_exact_mut(NUMBERS).enumerate() {
        hop[3] = match kind {
            0 | 1 => 0,
            2 => place as u16 + 2,
            _ if random.percent(zeros) => 0,
            3 => 65_535,
            4 => random.next() as u16,
            _ if random.percent(5) => random.pick(&[255, 256, 257, 32_768, 65_534, 65_535]),
            _ => random.between(1, 9) as u16,
        };
    }
    g
}

/// An admitted graph of at most so many states, labels and hops.
pub fn graph(random: &mut Random, most_states: usize, most_labels: usize, most_hops: usize) -> Graph {
    let states = random.between(1, most_states);
    let labels = random.between(1, most_labels);
    let wanted = random.between(0, most_hops);
    let initial = random.below(states);
    let hops = match random.below(5) {
        0 => anything(random, states, labels, wanted),
        1 => without_rings(random, states, labels, wanted),
        2 | 3 => closing(random, states, labels, wanted),
        _ => product(random, states, labels),
    };
    lined(random, graph_of(states, labels, initial, &hops))
}

fn anything(random: &mut Random, states: usize, labels: usize, wanted: usize) -> Hops {
    (0..wanted).map(|_| (random.below(states) as u16, random.below(labels) as u16, random.below(states) as u16)).collect()
}

/// An order of the states along which silent hops are to lead.
fn order(random: &mut Random, states: usize) -> Vec<u16> {
    let mut order: Vec<u16> = (0..states as u16).collect();
    match random.below(4) {
        0 => order.reverse(),
        1 => {}
        _ => return shuffled(random, states),
    }
    order
}

/// The states in no order.
pub fn shuffled(random: &mut Random, states: usize) -> Vec<u16> {
    let mut order: Vec<u16> = (0..states as u16).collect();
    for i in (1..states).rev() {
        order.swap(i, random.below(i + 1));
    }
    order
}

fn without_rings(random: &mut Random, states: usize, labels: usize, wanted: usize) -> Hops {
    let order = order(random, states);
    let silent = random.between(10, 100);
    // near ones only, or any
    let reach = if random.percent(50) { 3.min(states) } else { states };
    let mut hops = Hops::new();
    for _ in 0..wanted {
        if random.percent(silent) || labels == 1 {
            let low = random.below(states);
            let high = low + random.below(reach);
            if low < high && high < states {
                hops.insert((order[low], 0, order[high]));
            }
        } else {
            hops.insert((random.below(states) as u16, random.between(1, labels - 1) as u16, random.below(states) as u16));
        }
    }
    hops
}

/// A graph without rings in which many silent hops are closed by added hops.
fn closing(random: &mut Random, states: usize, labels: usize, wanted: usize) -> Hops {
    let order = order(random, states);
    let mut rank = vec![0; states];
    for (i, &state) in order.iter().enumerate() {
        rank[usize::from(state)] = i;
    }
    let mut hops = Hops::new();
    for hop in without_rings(random, states, labels, wanted / 3 + 1) {
        let (from, label, to) = hop;
        if label != 0 || rank[usize::from(from)] < rank[usize::from(to)] {
            hops.insert(hop);
        } else if from != to {
            hops.insert((to, 0, from));
        }
    }
    for _ in 0..random.between(1, 4) {
        let now: Vec<_> = hops.iter().copied().collect();
        for &(s1, label, s2) in now.iter().filter(|h| h.1 == 0) {
            let start = now.partition_point(|h| h.0 < s1);
            for &(_, a, s3) in now[start..].iter().take_while(|h| h.0 == s1) {
                if (label, s2) == (a, s3) || hops.len() >= wanted.max(4) || random.percent(10) {
                    continue;
                }
                if a != 0 {
                    hops.insert((s2, a, s3));
                } else if rank[usize::from(s2)] < rank[usize::from(s3)] {
                    hops.insert((s2, 0, s3));
                } else {
                    hops.insert((s3, 0, s2));
                }
            }
        }
    }
    hops
}

/// Two graphs side by side, the one with silent hops only: every silent hop of the one is answered in the other.
fn product(random: &mut Random, states: usize, labels: usize) -> Hops {
    let width = random.between(1, states);
    let height = states / width;
    let at = |x: usize, y: usize| (x * height + y) as u16;
    let mut hops = Hops::new();
    for x in 0..width {
        for y in 0..height {
            if y + 1 < height {
                hops.insert((at(x, y), 0, at(x, y + 1)));
            }
            if labels > 1 && x + 1 < width {
                hops.insert((at(x, y), 1 + (x % (labels - 1)) as u16, at(x + 1, y)));
            }
        }
    }
    if labels > 2 && random.percent(50) {
        // a fault that spreads
        hops.insert((random.below(states) as u16, 2, random.below(states) as u16));
    }
    hops
}

/// A graph of up to about so many states whose marking takes many rounds, or in which much is fallen or answered at once: its states in any order, with a few hops
/// put in or left out.
pub fn many_rounds(random: &mut Random, most_states: usize) -> Graph {
    let size = random.between(4, most_states) as u16;
    let (states, mut hops) = match random.below(10) {
        0 => chain(size),
        1 => chain_to_one_end(size),
        2 => ladder(size / 2),
        3 => {
            let chains = random.between(1, 6) as u16;
            waves((size / 2).max(2), chains)
        }
        4 => fans(random.between(1, 3) as u16, (size / 3).max(1), (size / 2).max(2)),
        5 => layers(size.div_ceil(3), size.div_ceil(4), size.div_ceil(3)),
        6 => wide(size.min(24)),
        7 => answered_again(size),
        8 => over_waves(random.between(2, 7) as u16, random.between(1, 6) as u16, random.between(1, 3) as u16, random.between(1, 3) as u16),
        _ => over_one(size, random.between(1, 3) as u16),
    };
    alter(random, states, &mut hops);
    let mut labels = 3;
    if random.percent(40) {
        // rows that are longer than what leads to a state: hops that every state has
        labels = 3 + 20;
        let to = random.below(states.into()) as u16;
        hops.extend((0..states).flat_map(|s| (3..labels as u16).map(move |label| (s, label, to))));
    }
    let hops = renumbered(random, states, hops);
    let g = graph_of(states.into(), labels, random.below(states.into()), &hops);
    lined(random, g)
}

/// Puts a few hops in or leaves some out, of a graph in which silent hops lead upward: they do then, too.
fn alter(random: &mut Random, states: u16, hops: &mut Hops) {
    for _ in 0..random.below(4) {
        let (one, two) = (random.below(states.into()) as u16, random.below(states.into()) as u16);
        match random.below(4) {
            0 if one != two => _ = hops.insert((one.min(two), 0, one.max(two))),
            1 => _ = hops.insert((one, random.between(1, 2) as u16, two)),
            _ => {
                let at = random.below(hops.len());
                let hop = *hops.iter().nth(at).expect("a hop");
                hops.remove(&hop);
            }
        }
    }
}

/// The same graph with its states in any order.
fn renumbered(random: &mut Random, states: u16, hops: Hops) -> Hops {
    let name = order(random, states.into());
    hops.into_iter().map(|(from, label, to)| (name[usize::from(from)], label, name[usize::from(to)])).collect()
}

/// A graph of up to about so many states that takes many reductions under R1, R2 and R3: chains of which each takes off one state, alone, beside each other, beside
/// one that falls a hop a round, and chains whose states lead here and there. In any order, with a few hops put in or left out.
pub fn many_reductions(random: &mut Random, most_states: usize) -> Graph {
    let size = random.between(2, most_states) as u16;
    let (states, mut hops) = match random.below(5) {
        0 => one_a_reduction(size),
        1 => beside(one_a_reduction(size.div_ceil(2)), one_a_reduction((size / 2).max(1))),
        2 => beside(one_a_reduction(size.div_ceil(2)), chain((size / 2).max(2))),
        3 => beside(one_a_reduction(size.div_ceil(2)), ladder((size / 4).max(1))),
        _ => astray(random, size),
    };
    alter(random, states, &mut hops);
    let hops = renumbered(random, states, hops);
    let g = graph_of(states.into(), 3, random.below(states.into()), &hops);
    lined(random, g)
}

/// W13.6: a silent chain in which state i has a hop labelled 1 to itself for odd i and to 0 for even i, and one labelled 2 the other way round. Only its first silent hop
/// is marked, and the chain that a reduction leaves is one state shorter; under R8 they all are.
pub fn one_a_reduction(states: u16) -> (u16, Hops) {
    let silent = (1..states).map(|i| (i - 1, 0, i));
    let visible = (0..states).flat_map(|i| if i % 2 == 1 { [(i, 1, i), (i, 2, 0)] } else { [(i, 1, 0), (i, 2, i)] });
    (states, silent.chain(visible).collect())
}

/// A silent chain whose states have hops labelled 1 and 2 to themselves, to the first state or to the next.
fn astray(random: &mut Random, states: u16) -> (u16, Hops) {
    let mut hops: Hops = (1..states).map(|i| (i - 1, 0, i)).collect();
    for i in 0..states {
        for label in 1..3 {
            hops.insert((i, label, random.pick(&[0, i, i, (i + 1).min(states - 1)])));
        }
    }
    (states, hops)
}

/// Two graphs beside each other.
pub fn beside((first, one): (u16, Hops), (second, two): (u16, Hops)) -> (u16, Hops) {
    let two = two.into_iter().map(|(from, label, to)| (first + from, label, first + to));
    (first + second, one.into_iter().chain(two).collect())
}

/// State 0 has silent hops to some states, these to a hub, and both have hops by some labels to one target: a chain of silent hops stands behind the target or before
/// the hub, and another falls one hop a round, apart or hung on the first one's end. Walks before what answers, or behind it, are long. In any order, with a few hops put in or left out.
pub fn hub(random: &mut Random, most: usize) -> Graph {
    let [spokes, labels, chain, falling] = [0; 4].map(|_| random.between(1, most) as u16);
    let (states, hops) = hub_of(random.percent(50), random.percent(50), spokes, labels, chain, falling);
    let mut hops: Hops = hops.into_iter().filter(|_| !random.percent(1)).collect();
    if random.percent(30) {
        let (one, two) = (random.below(states.into()) as u16, random.below(states.into()) as u16);
        hops.insert((one, 1, two));
    }
    let hops = renumbered(random, states, hops);
    let g = graph_of(states.into(), usize::from(labels) + 3, random.below(states.into()), &hops);
    lined(random, g)
}

/// The hub without changes; labels 1 and 2 are those of the falling chain.
fn hub_of(after: bool, hung: bool, spokes: u16, labels: u16, chain: u16, falling: u16) -> (u16, Hops) {
    let hub = 1 + spokes;
    let links = hub + 1..hub + 1 + chain;
    let (target, fall) = (links.end, links.end + 1);
    let (first, last) = (links.start, links.end - 1);
    let mut hops: Hops = (1..hub).flat_map(|s| [(0, 0, s), (s, 0, if after { hub } else { first })]).collect();
    hops.extend(links.clone().skip(1).map(|s| (s - 1, 0, s)));
    let (end, behind) = if after { (last, first) } else { (target, target) };
    if after {
        // the hub answers by the chain's end, to which the target leads
        hops.insert((target, 0, behind));
    } else {
        hops.insert((last, 0, hub));
    }
    hops.extend((3..3 + labels).flat_map(|a| [(0, a, target), (hub, a, end)]));
    hops.extend((fall..fall + falling).flat_map(|s| [(s, 0, s + 1), (s, 1, s + 1)]));
    hops.insert((fall + falling, 1, fall));
    if hung {
        hops.insert((end, 0, fall));
    }
    (fall + falling + 1, hops)
}

/// From each state to the next a silent hop and one labelled 1, and one labelled 1 from the last to the first: a silent hop closes while the next one is marked,
/// and one falls a round.
pub fn chain(states: u16) -> (u16, Hops) {
    let along = (0..states - 1).flat_map(|s| [(s, 0, s + 1), (s, 1, s + 1)]);
    (states, along.chain([(states - 1, 1, 0)]).collect())
}

/// A silent hop from each state to the next and one to the last; the last one but one has a visible hop that nothing answers. The hops to the last fall one a
/// round, and the others are tested again beside them.
pub fn chain_to_one_end(states: u16) -> (u16, Hops) {
    let end = states - 1;
    let next = (0..end - 1).map(|s| (s, 0, s + 1));
    (states, next.chain((0..end).map(|s| (s, 0, end))).chain([(end - 1, 2, 0)]).collect())
}

/// Two rails of hops labelled 1 and silent rungs between them, which fall one a round from the far end.
pub fn ladder(rungs: u16) -> (u16, Hops) {
    let rung = (0..rungs).map(|i| (i, 0, rungs + i));
    let rails = (0..rungs - 1).flat_map(|i| [(i, 1, i + 1), (rungs + i, 1, rungs + i + 1)]);
    (2 * rungs, rung.chain(rails).chain([(rungs - 1, 2, 0)]).collect())
}

/// So many chains of such a length at once, each to an end of its own, that fall one after the other: the last state's hop labelled 2 is answered by each end with
/// one to the next end, and silent hops lead from each end to those after it.
pub fn waves(length: u16, chains: u16) -> (u16, Hops) {
    let end = |j: u16| length + j;
    let next = (0..length - 1).map(|i| (i, 0, i + 1));
    let out = (0..length).flat_map(|i| (0..chains).map(move |j| (i, 0, end(j))));
    let order = (0..=chains).flat_map(|j| (j + 1..=chains).map(move |l| (end(j), 0, end(l))));
    let again = (0..=chains).map(|j| (end(j), 2, end((j + 1).min(chains))));
    (end(chains) + 1, next.chain(out).chain(order).chain(again).chain([(length - 1, 2, 0)]).collect())
}

/// States with silent hops to each of so many others, and from those to one; beside them a chain to one end.
pub fn fans(states: u16, width: u16, length: u16) -> (u16, Hops) {
    let hub = states + width;
    let fan = (0..states).flat_map(|s| (states..hub).map(move |t| (s, 0, t))).chain((states..hub).map(|t| (t, 0, hub)));
    beside((hub + 1, fan.collect()), chain_to_one_end(length))
}

/// Three layers of so many states, with silent hops from each state to all of the next layer: none of the last hops closes, and then none of the first.
pub fn layers(first: u16, second: u16, third: u16) -> (u16, Hops) {
    let (end1, end2) = (first, first + second);
    let one = (0..end1).flat_map(|s| (end1..end2).map(move |t| (s, 0, t)));
    let two = (end1..end2).flat_map(|s| (end2..end2 + third).map(move |t| (s, 0, t)));
    (end2 + third, one.chain(two).collect())
}

/// State 0 has silent hops to so many states, as has state 1 to others, and many hops to state 1; only its hop to the last state stays marked, to which those states
/// lead. Of the hops into 1 each is gone over for each of 1's hops that fell.
pub fn wide(width: u16) -> (u16, Hops) {
    let last = 2 + 2 * width;
    let zero = (0..width).flat_map(|i| [(0, 0, 2 + i), (2 + i, 0, last)]);
    let one = (0..width).map(|i| (1, 0, 2 + width + i));
    let many = (1..3).flat_map(|a| [(0, a, 1), (last, a, 1)]);
    (last + 1, zero.chain(one).chain(many).chain([(0, 0, last)]).collect())
}

/// States 0 and 1, a silent hop between them, and from both a hop labelled 1 to each state of a chain to one end: whenever one of the chain falls the hop is
/// tested again.
pub fn answered_again(length: u16) -> (u16, Hops) {
    let (more, chain) = chain_to_one_end(length);
    let chain = chain.into_iter().map(|(from, label, to)| (2 + from, label, 2 + to));
    let both = (0..more).flat_map(|i| [(0, 1, 2 + i), (1, 1, 2 + i)]);
    (2 + more, chain.chain(both).chain([(0, 0, 1)]).collect())
}

/// Waves, and over them a block that is tested again whenever one of their hops falls: silent hops from each of some states to each of others, the former with a hop
/// labelled 1 to each state of the chains, the latter to each end.
pub fn over_waves(length: u16, chains: u16, ones: u16, twos: u16) -> (u16, Hops) {
    let (one, waves) = waves(length, chains);
    let (two, past) = (one + ones, one + ones + twos);
    let silent = (one..two).flat_map(|s| (two..past).map(move |t| (s, 0, t)));
    let order = (two..past).flat_map(|s| (s + 1..past).map(move |t| (s, 0, t)));
    let tried = (one..two).flat_map(|s| (0..length).map(move |t| (s, 1, t)));
    let answers = (two..past).flat_map(|s| (length..length + chains).map(move |e| (s, 1, e)));
    (past, waves.into_iter().chain(silent).chain(order).chain(tried).chain(answers).collect())
}

/// State 0 has silent hops to ends and to a hub, and those to ends fall one a round: its hop labelled 2 to itself is answered by each end with one to the end before.
/// Over it some states with a hop labelled 1 to 0 and a silent hop to one state that answers by all ends.
pub fn over_one(ends: u16, ones: u16) -> (u16, Hops) {
    let (hub, one, two) = (1 + ends, 2 + ends, 2 + ends + ones);
    let falling = (1..=hub).map(|e| (0, 0, e)).chain((1..hub).map(|e| (e, 0, hub)));
    let again = (2..hub).map(|e| (e, 2, e - 1)).chain([(0, 2, 0), (hub, 2, hub)]);
    let block = (one..two).flat_map(|s| [(s, 0, two), (s, 1, 0)]);
    (two + 1, falling.chain(again).chain(block).chain((1..hub).map(|e| (two, 1, e))).collect())
}

/// Numbers around each limit, and such as lose bits where a number is cut to 16.
pub const ODD: [u32; 12] = [0, 1, 2, 1023, 1024, 1025, 65_535, 65_536, 65_537, 70_000, 0x8000_0000, u32::MAX];

/// Breaks a graph in one place; it may stay admitted.
pub fn damaged(random: &mut Random, g: &Graph) -> Graph {
    let mut g = g.clone();
    let count = g.hop_count();
    match random.below(10) {
        0 => g.states = random.pick(&ODD),
        1 => g.labels = random.pick(&ODD),
        2 => g.initial = if random.percent(50) { random.pick(&ODD) } else { g.states.wrapping_add(random.below(3) as u32).wrapping_sub(1) },
        3 => g.hops.truncate(g.hops.len().saturating_sub(random.between(1, NUMBERS - 1))),
        4 => g.hops.push(random.below(4) as u16),
        5 if count > 1 => {
            let (i, j) = (random.below(count), random.below(count));
            for k in 0..NUMBERS {
                g.hops.swap(NUMBERS * i + k, NUMBERS * j + k);
            }
        }
        6 if count > 0 => {
            // the same again, or with another line
            let at = NUMBERS * random.below(count);
            let mut copy: Vec<u16> = g.hops[at..at + NUMBERS].to_vec();
            if random.percent(50) {
                copy[3] = random.pick(&[0, 1, copy[3].wrapping_add(1), 65_535]);
            }
            g.hops.splice(at..at, copy);
        }
        _ if count > 0 => {
            for _ in 0..random.between(1, 2) {
                let i = random.below(g.hops.len());
                g.hops[i] = match random.below(4) {
                    0 => g.states as u16,
                    1 => g.labels as u16,
                    2 => random.next() as u16,
                    _ => random.below(4) as u16,
                };
            }
        }
        _ => g.states = 0,
    }
    g
}

/// So many names, as a block: mostly different ones, or short ones from few bytes, so that some are the same; in some a length that is refused.
pub fn block(random: &mut Random, names: usize, longest: usize) -> Vec<u8> {
    let repeats = random.percent(20);
    let odd = random.percent(10).then(|| random.below(names + 1));
    let mut block = vec![];
    for i in 0..names {
        if odd == Some(i) {
            let len = random.pick(&[0, 33, 34, 255]);
            block.push(len);
            block.extend(vec![b'x'; len.into()]);
            continue;
        }
        let len = random.between(1, longest);
        if repeats || longest < 3 {
            block.push(len as u8);
            block.extend((0..len).map(|_| random.below(3) as u8));
        } else {
            let len = len.max(3);
            block.push(len as u8);
            block.extend((2..len).map(|_| random.next() as u8));
            block.extend((i as u16).to_be_bytes());
        }
    }
    block
}

/// Breaks a block or file in a few places.
pub fn damaged_bytes(random: &mut Random, bytes: &[u8]) -> Vec<u8> {
    let mut bytes = bytes.to_vec();
    for _ in 0..random.pick(&[1, 1, 1, 2, 3]) {
        let len = bytes.len();
        match random.below(7) {
            0 | 1 if len > 0 => bytes[random.below(len)] ^= 1 << random.below(8),
            2 => bytes.truncate(random.between(0, len)),
            3 => {
                let at = random.between(0, len);
                let noise: Vec<u8> = (0..random.between(1, 3)).map(|_| random.next() as u8).collect();
                bytes.splice(at..at, noise);
            }
            4 if len > 0 => {
                let at = random.below(len);
                bytes.remove(at);
            }
            5 if len > 0 => {
                let at = random.below(len.min(12));
                bytes[at] = random.pick(&[0, 1, 2, 4, 7, 8, 10, 15, 16, 32, 33, 255]);
            }
            6 if len > 0 => {
                let at = random.below(len);
                bytes[at] = random.pick(&[0, 1, 32, 33, 255]);
            }
            _ => bytes.push(random.next() as u8),
        }
    }
    bytes
}

/// The file of a graph and a block, without any check of either.
pub fn file(g: &Graph, block: &[u8]) -> Vec<u8> {
    let lined = g.each_hop().any(|hop| hop[3] != 0);
    let bits = [g.initial != 0, g.hop_count() > 0, !block.is_empty(), lined];
    let mut file = vec![(0..).zip(bits).map(|(bit, stands)| u8::from(stands) << bit).sum()];
    let put = |file: &mut Vec<u8>, number: u16| file.extend(number.to_le_bytes());
    put(&mut file, g.states as u16);
    put(&mut file, g.labels as u16);
    if g.initial != 0 {
        put(&mut file, g.initial as u16);
    }
    if g.hop_count() > 0 {
        put(&mut file, g.hop_count() as u16);
        g.each_hop().flat_map(|hop| [hop[0], hop[1], hop[2]]).for_each(|number| put(&mut file, number));
    }
    file.extend(block);
    if lined {
        g.each_hop().for_each(|hop| put(&mut file, hop[3]));
    }
    file
}

/// Whether a file's map byte says that lines stand at its end.
pub fn has_lines(file: &[u8]) -> bool {
    file.first().is_some_and(|map| map & 8 != 0)
}

/// Breaks the lines of a file that has some: they are all 0, or all but one; end early; have a byte behind them; or their bit does not stand. Where it has none, its bit
/// is set over no lines or over zeros.
pub fn damaged_lines(random: &mut Random, g: &Graph, file: &[u8]) -> Vec<u8> {
    let mut file = file.to_vec();
    if !has_lines(&file) {
        file[0] |= 8;
        if random.percent(50) {
            file.resize(file.len() + 2 * g.hop_count(), 0);
        }
        return file;
    }
    let lines = file.len() - 2 * g.hop_count();
    match random.below(6) {
        0 => file[lines..].fill(0),
        1 => {
            let (at, byte) = (random.between(lines, file.len() - 1), file[lines]);
            file[lines..].fill(0);
            file[at] = byte;
        }
        2 => file.truncate(random.between(lines, file.len() - 1)),
        3 => file.push(random.below(2) as u8),
        4 => file[0] &= !8,
        _ => {
            file[lines..].fill(0);
            file.truncate(random.between(lines, file.len()));
        }
    }
    file
}
