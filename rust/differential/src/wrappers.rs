//! The safe wrappers over the archive against the checker.

use crate::compare::Comparer;
use crate::make;
use differential::entries::{Graph, NUMBERS};
use zundrafipo::{Audit, Fault, Found, Hop, NameBlock, Refusal, Sense};

fn lent(g: &Graph) -> zundrafipo::Graph {
    zundrafipo::Graph::new(g.states, g.labels, g.initial, g.hops.clone())
}

/// The figures of an accepted answer, or the refusal.
fn split(answer: checker::Answer) -> Result<Vec<u64>, Refusal> {
    match answer.number {
        0 => Ok(answer.figures),
        number => Err(Refusal { number: number as u32, table: answer.table, place: answer.place }),
    }
}

pub fn wrappers(c: &mut Comparer, count: usize) {
    senses();
    for i in 0..count {
        let mut g = match i % 50 {
            0 => make::graph(&mut c.random, 300, 4, 900),
            1..=5 => make::many_reductions(&mut c.random, 12),
            _ => make::graph(&mut c.random, 7, 4, 16),
        };
        if c.random.percent(25) {
            g = make::damaged(&mut c.random, &g);
        }
        one_graph(c, &g);
        typed_views(c, &g);
        name_block(c);
        c.calls += 23;
    }
}

fn one_graph(c: &mut Comparer, g: &Graph) {
    let graph = lent(g);
    let hops = g.hop_count();
    assert_eq!(graph.check(), split(checker::check(&g.lent())).map(|_| ()), "check of {g:?}");

    Sense::ALL.into_iter().for_each(|sense| in_sense(g, sense));

    let (answer, marks) = checker::mark_fast(&g.lent(), &vec![0; hops]);
    let expected = split(answer).map(|figures| zundrafipo::FastMarking { marks: marks.iter().map(|&m| m == 1).collect(), tests: figures[0] as u32 });
    assert_eq!(graph.mark_fast(), expected, "mark_fast of {g:?}");

    let mut other = make::graph(&mut c.random, 5, (g.labels as usize).clamp(1, 9), 12);
    if c.random.percent(80) {
        other.labels = g.labels;
    }
    let most = other.states as usize + usize::from(c.random.percent(10));
    let map: Vec<u16> = (0..g.states.min(1030)).map(|_| c.random.below(most) as u16).collect();
    let expected = split(checker::audit(&g.lent(), &other.lent(), &map)).map(|figures| Audit { faults: figures[0], first: fault(&figures[1..]) });
    let audit = graph.audit(&lent(&other), &map);
    assert_eq!(audit, expected, "audit of {g:?} and {other:?} by {map:?}");
    if let Ok(Audit { first: Some(first), .. }) = audit {
        described(c, first, &graph, &lent(&other));
    }

    let mut hop = [g.states, g.labels, g.states].map(|count| c.random.below(count.min(1030) as usize + 1) as u16);
    if hops > 0 && c.random.percent(50) {
        hop = g.three_at(c.random.below(hops));
    }
    let [from, label, to] = hop.map(u64::from);
    let found = |figures: Vec<u64>| if figures[0] == 1 { Found::At(figures[1] as usize) } else { Found::Gap(figures[1] as usize) };
    let line = c.random.below(3) as u16;
    assert_eq!(
        graph.find(Hop::new(hop[0], hop[1], hop[2]).with_line(line)),
        split(checker::find(&g.lent(), from, label, to)).map(found),
        "find {hop:?} in {g:?}"
    );

    let (place, rounds) = (c.random.below(hops + 1) as u64, c.random.below(6) as u32);
    let expected = split(checker::round(&g.lent(), place, rounds.into())).map(|figures| figures[0] == 1);
    assert_eq!(graph.survives(place, rounds), expected, "{rounds} rounds of the hop at {place} of {g:?}");

    let (side, state) = (c.random.below(4) as u32, c.random.below(8) as u32);
    let (start, length) = checker::hops_of(side.into(), state.into(), &g.lent(), &other.lent());
    let list = if side == 2 { &other.hops } else { &g.hops };
    let two = lent(&other);
    let part = zundrafipo::hops_of(side, state, &graph, &two);
    assert_eq!(part, &list[start as usize..(start + length) as usize], "hops of {state} on side {side} of {g:?} and {other:?}");

    let names = if c.random.percent(50) { 0 } else { (g.labels as usize).clamp(1, 9) - 1 };
    let block = make::block(&mut c.random, names, 4);
    let (answer, out) = checker::write(&g.lent(), &block, &vec![0; checker::LONGEST_FILE]);
    let expected = split(answer).map(|figures| out[..figures[0] as usize].to_vec());
    assert_eq!(graph.write(&block), expected, "write of {g:?} with {block:?}");

    let mut file = make::file(g, &block);
    match c.random.below(4) {
        0 => file = make::damaged_bytes(&mut c.random, &file),
        1 => file = make::damaged_lines(&mut c.random, g, &file),
        _ => {}
    }
    let (answer, hops) = checker::read(&file, &vec![0; NUMBERS * 4096]);
    let expected = split(answer).map(|f| zundrafipo::File {
        graph: zundrafipo::Graph::new(f[0] as u32, f[1] as u32, f[2] as u32, hops[..NUMBERS * f[3] as usize].to_vec()),
        name_block: &file[f[4] as usize..(f[4] + f[5]) as usize],
    });
    assert_eq!(zundrafipo::read(&file), expected, "read of {file:?}");
}

/// Each number is a sense, or refused as the entries refuse it.
fn senses() {
    for number in (0..12).chain([258, 65_537, u32::MAX]) {
        let empty = checker::Graph { states: 1, labels: 1, initial: 0, hops: &[] };
        let expected = split(checker::mark(&empty, number.into(), &[]).0).map(|_| number);
        assert_eq!(Sense::try_from(number).map(Sense::number), expected, "sense {number}");
    }
    assert_eq!(Sense::default(), Sense::R1, "the sense of the program");
}

/// Mark, reduce and shrink in a sense.
fn in_sense(g: &Graph, sense: Sense) {
    let (graph, number) = (lent(g), sense.number().into());
    let (answer, marks) = checker::mark(&g.lent(), number, &vec![0; g.hop_count()]);
    assert_eq!(graph.mark(sense), split(answer).map(|_| marks.iter().map(|&m| m == 1).collect()), "mark of {g:?} under {sense}");

    let short_of = |figures: &[u64], hops: &[u16]| {
        zundrafipo::Graph::new(figures[0] as u32, figures[1] as u32, figures[3] as u32, hops[..NUMBERS * figures[2] as usize].to_vec())
    };
    let (map, hops) = (vec![0; (g.states as usize).min(1024)], vec![0; g.hops.len()]);
    let (answer, map_after, short) = checker::reduce(&g.lent(), number, &map, &hops);
    let expected = split(answer).map(|figures| zundrafipo::Reduction { graph: short_of(&figures, &short), map: map_after });
    assert_eq!(graph.reduce(sense), expected, "reduce of {g:?} under {sense}");

    let (answer, map_after, last) = checker::shrink(&g.lent(), number, &map, &hops);
    let shrinking = |figures: Vec<u64>| zundrafipo::Shrinking { graph: short_of(&figures, &last), map: map_after, reductions: figures[4] as u32 };
    assert_eq!(graph.shrink(sense), split(answer).map(shrinking), "shrink of {g:?} under {sense}");
}

/// The fault of an answer's figures.
fn fault(figures: &[u64]) -> Option<Fault> {
    let place = figures[1] as usize;
    let fault = match figures[0] {
        0 => return None,
        1 => Fault::Initial,
        2 => Fault::Lost { place },
        _ => Fault::MadeUp { place, state: figures[2] as u32 },
    };
    assert_eq!([fault.kind().into(), fault.place() as u64, fault.state().into()], figures, "the figures of {fault:?}");
    Some(fault)
}

/// A fault's sentence has its hop's numbers, and its line where it has one; of other graphs and with any bytes for names there is one too.
fn described(c: &mut Comparer, fault: Fault, one: &zundrafipo::Graph, two: &zundrafipo::Graph) {
    let numbers = match fault {
        Fault::Initial => format!("state {} of graph 1", one.initial),
        Fault::Lost { place } | Fault::MadeUp { place, .. } => {
            let graph = if fault.kind() == 2 { one } else { two };
            let hop = graph.hops().nth(place).expect("a hop of the graph");
            let line = format!(", from line {}, ", hop.line);
            assert_eq!(fault.describe(one, two, b"").contains(&line), hop.line != 0, "{fault:?} with {hop:?}");
            format!("hop ({},{},{})", hop.from, hop.label, hop.to)
        }
    };
    let names = make::block(&mut c.random, one.labels as usize - 1, 4);
    let sentence = fault.describe(one, two, &names);
    assert!(sentence.contains(&numbers), "{fault:?} as {sentence}");
    let names = make::damaged_bytes(&mut c.random, &names);
    let elsewhere = fault.describe(two, one, &names);
    assert!(!elsewhere.is_empty() && !fault.to_string().is_empty(), "{fault:?} as {elsewhere}");
}

/// The hops of a graph and of one of its states, as hops.
fn typed_views(c: &mut Comparer, g: &Graph) {
    let graph = lent(g);
    let expected: Vec<Hop> =
        g.lent().hop_list().iter().map(|h| Hop { from: h.from as u16, label: h.label as u16, to: h.to as u16, line: h.line as u16 }).collect();
    assert_eq!(graph.hops().len(), expected.len(), "hop count of {g:?}");
    assert_eq!(whole(graph.hops().rev()), whole(expected.iter().rev().copied()), "hops of {g:?}, the last first");
    let again = zundrafipo::Graph::from_hops(g.states, g.labels, g.initial, expected.clone());
    assert_eq!(again.flat_hops, g.hops[..NUMBERS * expected.len()], "hops of {g:?}, put together again");

    let state = c.random.below(8) as u32;
    let shown = checker::check(&g.lent()).number == 0;
    let expected: Vec<Hop> = expected.into_iter().filter(|h| shown && u32::from(h.from) == state).collect();
    assert_eq!(whole(graph.hops_of(state)), whole(expected), "hops of {state} of {g:?}");
}

/// All numbers of hops: hops themselves are compared without their lines.
fn whole(hops: impl IntoIterator<Item = Hop>) -> Vec<[u16; NUMBERS]> {
    hops.into_iter().map(<[u16; NUMBERS]>::from).collect()
}

/// A block put together name by name is refused where writing would refuse it.
fn name_block(c: &mut Comparer) {
    let (count, longest) = (c.random.below(9), c.random.pick(&[1, 2, 4, 32]));
    let block = make::block(&mut c.random, count, longest);
    let mut names: Vec<&[u8]> = vec![];
    let mut left = &block[..];
    while let Some((&length, behind)) = left.split_first() {
        let (name, rest) = behind.split_at(length.into());
        names.push(name);
        left = rest;
    }
    let g = Graph { states: 1, labels: count as u32 + 1, initial: 0, hops: vec![] };
    let expected = split(checker::write(&g.lent(), &block, &vec![0; checker::LONGEST_FILE]).0).map(|_| &block[..]);
    let found = NameBlock::from_names(&names);
    assert_eq!(found.as_ref().map(|made| made.as_bytes()).map_err(|refusal| *refusal), expected, "the block of {names:?}");
}
