use crate::reduce::{admitted, marked, reduce_marked};
use crate::{first_places, hop_count, Answer, Shape, Short, ACCEPTED, NUMBERS};

/// The entry shrink: the last graph, and the number of reductions that marked something. The short graph of a graph that is admitted and has no ring is so too: neither
/// is asked again.
pub fn shrink(shape: Shape, hops: &[u16], sense: u32, map: &mut [u16], short: &mut [u16]) -> (Answer, Short, u32) {
    let mut first = match admitted(shape, hops, sense, map.len(), short.len()) {
        Err(refusal) => return (refusal, Short::default(), 0),
        Ok(first) => first,
    };
    let map = &mut map[..shape.states as usize];
    map.iter_mut().zip(0..).for_each(|(slot, state)| *slot = state);
    let mut last = Short { states: shape.states, labels: shape.labels, hops: hop_count(hops) as u32, initial: shape.initial };
    let (mut now, mut next, mut step) = (hops.to_vec(), vec![0; hops.len()], vec![0; map.len()]);
    let mut reductions = 0;
    loop {
        let marks = marked(sense, &now, &first);
        if !marks.contains(&1) {
            break;
        }
        let step = &mut step[..last.states as usize];
        last = reduce_marked(shape_of(last), &now, &marks, step, &mut next);
        put_behind(map, step);
        std::mem::swap(&mut now, &mut next);
        now.truncate(NUMBERS * last.hops as usize);
        reductions += 1;
        // R8 marks nothing of what its own reduction leaves
        if sense == 8 {
            break;
        }
        first = first_places(last.states as usize, &now);
    }
    short[..now.len()].copy_from_slice(&now);
    (ACCEPTED, last, reductions)
}

fn shape_of(Short { states, labels, initial, .. }: Short) -> Shape {
    Shape { states, labels, initial }
}

/// Lets the map lead on to where the next one leads.
fn put_behind(map: &mut [u16], next: &[u16]) {
    for slot in map {
        *slot = next[usize::from(*slot)];
    }
}
