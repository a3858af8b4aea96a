use crate::{find_between, first_places, hop_at, hop_count, places, refuse, sum_of};
use crate::{Answer, Shape, ACCEPTED, MOST_HOPS, MOST_LABELS, MOST_STATES, NUMBERS};

/// The entry check: one pass for 3, one for 4, which keeps the sum of the hop before.
pub fn check(shape: Shape, hops: &[u16]) -> Answer {
    let states_fit = (1..=MOST_STATES as u32).contains(&shape.states);
    let labels_fit = (1..=MOST_LABELS as u32).contains(&shape.labels);
    if !states_fit || !labels_fit || hops.len() % NUMBERS != 0 || hop_count(hops) > MOST_HOPS {
        return refuse(1, 0);
    }
    if shape.initial >= shape.states {
        return refuse(2, 0);
    }
    let (states, labels) = (shape.states as u16, shape.labels as u16);
    for (place, hop) in hops.chunks_exact(NUMBERS).enumerate() {
        if hop[0] >= states || hop[1] >= labels || hop[2] >= states {
            return refuse(3, place);
        }
    }
    let mut last = None;
    for place in 0..hop_count(hops) {
        let sum = Some(sum_of(hop_at(hops, place)));
        if last >= sum {
            return refuse(4, place);
        }
        last = sum;
    }
    ACCEPTED
}

/// The entry find: whether the graph has a hop, with its place or the number of hops before it. A number that 16 bits do not hold is as far out of range as their
/// highest, and comes behind the same hops.
pub fn find(shape: Shape, hops: &[u16], from: u32, label: u32, to: u32) -> (Answer, Result<usize, usize>) {
    let answer = check(shape, hops);
    if answer.number != 0 {
        return (answer, Err(0));
    }
    let [from, label, to] = [from, label, to].map(|number| number.min(u16::MAX.into()) as u16);
    (answer, find_between(hops, (from, label, to), 0, hop_count(hops)))
}

/// The outgoing hops of a state, as a part of that side's list.
pub fn hops_of<'a>(side: u32, state: u32, shape1: Shape, hops1: &'a [u16], shape2: Shape, hops2: &'a [u16]) -> &'a [u16] {
    if check(shape1, hops1).number != 0 || check(shape2, hops2).number != 0 {
        return &[];
    }
    let (shape, hops) = match side {
        1 => (shape1, hops1),
        2 => (shape2, hops2),
        _ => return &[],
    };
    if state >= shape.states {
        return &[];
    }
    let range = places(&first_places(shape.states as usize, hops), state as u16);
    &hops[NUMBERS * range.start..NUMBERS * range.end]
}
