use crate::rings::{reach, silent_hops};
use crate::{check, find_row, first_places, hop_at, hop_count, places, refuse, Answer, Faults, Shape, ACCEPTED};

/// The entry audit, with the fault count and the first fault.
pub fn audit(shape1: Shape, hops1: &[u16], shape2: Shape, hops2: &[u16], map: &[u16]) -> (Answer, Faults) {
    let answer = admitted(shape1, hops1, shape2, hops2, map);
    if answer.number != 0 {
        return (answer, Faults::default());
    }
    let first2 = first_places(shape2.states as usize, hops2);
    let images = images(hops1, hops2, &first2, map);
    let apart = initial_fault(shape1, shape2, map);
    let lost = lost(hops1, map, &images);
    let made_up = made_up(shape1, hops1, hops2, &first2, map, &images);
    (answer, first_of([apart, lost, made_up]))
}

/// All faults, with the first of the first kind that has any.
fn first_of(kinds: [Faults; 3]) -> Faults {
    let first = kinds.iter().find(|kind| kind.count > 0).copied().unwrap_or_default();
    Faults { count: kinds.iter().map(|kind| kind.count).sum(), ..first }
}

fn admitted(shape1: Shape, hops1: &[u16], shape2: Shape, hops2: &[u16], map: &[u16]) -> Answer {
    let one = check(shape1, hops1);
    if one.number != 0 {
        return one;
    }
    let two = check(shape2, hops2);
    if two.number != 0 {
        return Answer { table: 2, ..two };
    }
    if shape1.labels != shape2.labels {
        return refuse(7, 0);
    }
    if map.len() != shape1.states as usize {
        return refuse(8, map.len());
    }
    match map.iter().position(|&m| u32::from(m) >= shape2.states) {
        Some(entry) => refuse(8, entry),
        None => ACCEPTED,
    }
}

fn initial_fault(shape1: Shape, shape2: Shape, map: &[u16]) -> Faults {
    let apart = u32::from(u32::from(map[shape1.initial as usize]) != shape2.initial);
    Faults { count: apart, kind: apart, place: 0, state: 0 }
}

/// The place in graph 2 of a hop that it does not have: past all stamps.
const NOWHERE: u16 = 4096;

/// For each hop of graph 1 the place in graph 2 of what it is mapped to, which is searched for once.
fn images(hops1: &[u16], hops2: &[u16], first2: &[u16], map: &[u16]) -> Vec<u16> {
    let image = |place| {
        let (from, label, to) = hop_at(hops1, place);
        find_row(hops2, first2, (map[usize::from(from)], label, map[usize::from(to)])).map_or(NOWHERE, |place| place as u16)
    };
    (0..hop_count(hops1)).map(image).collect()
}

/// The hops of graph 1 that graph 2 does not match: they are not there, nor silent inside a class.
fn lost(hops1: &[u16], map: &[u16], images: &[u16]) -> Faults {
    let is_lost = |&place: &usize| {
        let (from, label, to) = hop_at(hops1, place);
        images[place] == NOWHERE && !(label == 0 && map[usize::from(from)] == map[usize::from(to)])
    };
    match (0..images.len()).find(is_lost) {
        None => Faults::default(),
        Some(first) => Faults { count: (first..images.len()).filter(is_lost).count() as u32, kind: 2, place: first as u32, state: 0 },
    }
}

/// The pairs of a hop of graph 2 and a state of graph 1 that nothing answers: from each state the silent hops are followed, and the hops of the states that are met
/// and have the same map stamp hops of graph 2. The states come in ascending order, so of those with a fault at the same place the first is kept.
fn made_up(shape1: Shape, hops1: &[u16], hops2: &[u16], first2: &[u16], map: &[u16], images: &[u16]) -> Faults {
    let states = shape1.states as usize;
    let first1 = first_places(states, hops1);
    let silent = silent_hops(hops1);
    let mut seen = [false; 1024];
    let mut queue = [0; 1024];
    let mut stamps = [0u16; 4096];
    let mut faults = Faults::default();
    for state in 0..states as u16 {
        reach(states, hops1, &first1, &silent, state, &mut seen, &mut queue);
        let r = map[usize::from(state)];
        let stamp = state + 1;
        for u in (0..states as u16).filter(|&u| seen[usize::from(u)] && map[usize::from(u)] == r) {
            for &image in &images[places(&first1, u)] {
                if let Some(slot) = stamps.get_mut(usize::from(image)) {
                    *slot = stamp;
                }
            }
        }
        let mut row = places(first2, r);
        let is_made_up = |&place: &usize| {
            let (_, label, to) = hop_at(hops2, place);
            !((label == 0 && to == r) || stamps[place] == stamp)
        };
        if let Some(first) = row.find(is_made_up) {
            faults.count += 1 + row.filter(is_made_up).count() as u32;
            if faults.kind == 0 || (first as u32) < faults.place {
                faults = Faults { count: faults.count, kind: 3, place: first as u32, state: state.into() };
            }
        }
    }
    faults
}
