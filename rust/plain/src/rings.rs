use crate::senses::is_sense;
use crate::{check, first_places, label_at, places, refuse, to_at, Answer, Shape, NUMBERS};

/// The table of first places of a graph that is admitted and has no ring, for what goes over the graph in a sense next; else the refusal.
pub(crate) fn ringless(shape: Shape, hops: &[u16], sense: u32) -> Result<Vec<u16>, Answer> {
    let checked = check(shape, hops);
    if checked.number != 0 {
        return Err(checked);
    }
    if !is_sense(sense) {
        return Err(refuse(19, 0));
    }
    let first = first_places(shape.states as usize, hops);
    match lowest_on_ring(shape.states as usize, hops, &first) {
        Some(state) => Err(refuse(5, state)),
        None => Ok(first),
    }
}

/// The lowest state on a ring. Where every state can be ranked there is none; else it is searched for from each that is not.
fn lowest_on_ring(states: usize, hops: &[u16], first: &[u16]) -> Option<usize> {
    let mut ranked = vec![false; states];
    if sweep(hops, first, &mut ranked) == states {
        return None;
    }
    rank_rest(hops, first, &mut ranked);
    if ranked.iter().all(|&ranked| ranked) {
        return None;
    }
    let silent = silent_hops(hops);
    let mut seen = [false; 1024];
    let mut queue = [0; 1024];
    (0..states).filter(|&state| !ranked[state]).find(|&state| {
        reach(states, hops, first, &silent, state as u16, &mut seen, &mut queue);
        let state = state as u16;
        hops.chunks_exact(NUMBERS).any(|hop| hop[1] == 0 && hop[2] == state && seen[usize::from(hop[0])])
    })
}

/// Goes down once from the highest state and ranks each whose silent hops lead to ranked ones: all of them, where silent hops lead upward. Gives their number.
fn sweep(hops: &[u16], first: &[u16], ranked: &mut [bool]) -> usize {
    let mut done = 0;
    for state in (0..ranked.len()).rev() {
        let mut silent = places(first, state as u16).take_while(|&place| label_at(hops, place) == 0);
        if silent.all(|place| ranked[usize::from(to_at(hops, place))]) {
            ranked[state] = true;
            done += 1;
        }
    }
    done
}

/// Ranks what the sweep left, depth first, a state when all its silent hops have been followed to ranked ones. Only a ring leads back to a state that was met and
/// has no rank: then the state that it is met from is left without one, and so are those that lead there.
fn rank_rest(hops: &[u16], first: &[u16], ranked: &mut [bool]) {
    let mut met = vec![false; ranked.len()];
    // the place of the silent hop that each state has come to
    let mut cursor = first.to_vec();
    let mut stack: Vec<u16> = vec![];
    for start in 0..ranked.len() {
        if !ranked[start] && !met[start] {
            met[start] = true;
            stack.push(start as u16);
        }
        while let Some(&state) = stack.last() {
            let place = usize::from(cursor[usize::from(state)]);
            if place == places(first, state).end || label_at(hops, place) != 0 {
                ranked[usize::from(state)] = true;
                stack.pop();
                continue;
            }
            let to = to_at(hops, place);
            if ranked[usize::from(to)] {
                cursor[usize::from(state)] += 1;
            } else if met[usize::from(to)] {
                stack.pop();
            } else {
                met[usize::from(to)] = true;
                stack.push(to);
            }
        }
    }
}

/// Whether each hop is silent.
pub(crate) fn silent_hops(hops: &[u16]) -> Vec<bool> {
    hops.chunks_exact(NUMBERS).map(|hop| hop[1] == 0).collect()
}

/// Notes the states that zero or more chosen hops lead to from `start`, breadth first.
pub(crate) fn reach(states: usize, hops: &[u16], first: &[u16], chosen: &[bool], start: u16, seen: &mut [bool], queue: &mut [u16]) {
    seen[..states].fill(false);
    seen[usize::from(start)] = true;
    queue[0] = start;
    let (mut head, mut tail) = (0, 1);
    while head < tail {
        for place in places(first, queue[head]).filter(|&place| chosen[place]) {
            let to = to_at(hops, place);
            if !seen[usize::from(to)] {
                seen[usize::from(to)] = true;
                queue[tail] = to;
                tail += 1;
            }
        }
        head += 1;
    }
}
