use crate::rings::ringless;
use crate::senses::{self, Walks};
use crate::{find_row, from_at, hop_count, label_at, places, refuse, to_at, Answer, Shape, ACCEPTED};

/// The entry mark. Under R1 by repeated sweeps: what the rounds of `mark_fast` are compared with.
pub fn mark(shape: Shape, hops: &[u16], sense: u32, marks: &mut [u8]) -> Answer {
    let first = match admitted(shape, hops, sense, marks.len()) {
        Err(refusal) => return refusal,
        Ok(first) => first,
    };
    let marks = &mut marks[..hop_count(hops)];
    match Walks::of(sense) {
        None => set_marks(hops, &first, marks),
        Some(walks) => senses::set_marks(walks, hops, &first, marks),
    }
    ACCEPTED
}

/// The table of first places of a graph that a marking in a sense, with room for so many marks, takes; else the refusal.
pub(crate) fn admitted(shape: Shape, hops: &[u16], sense: u32, room: usize) -> Result<Vec<u16>, Answer> {
    let first = ringless(shape, hops, sense)?;
    if room < hop_count(hops) {
        return Err(refuse(6, 0));
    }
    Ok(first)
}

/// For an admitted graph and one element a hop: silent hops start marked; sweeps in list order, in place, until nothing changes.
fn set_marks(hops: &[u16], first: &[u16], marks: &mut [u8]) {
    for (place, mark) in marks.iter_mut().enumerate() {
        *mark = u8::from(label_at(hops, place) == 0);
    }
    let mut changed = true;
    while changed {
        changed = false;
        for place in 0..marks.len() {
            if marks[place] == 1 && !closes(hops, first, marks, place) {
                marks[place] = 0;
                changed = true;
            }
        }
    }
}

/// Every hop of the state that the hop at `place` leaves is closed. The hops tried and those that answer are passed once, label by label.
fn closes(hops: &[u16], first: &[u16], marks: &[u8], place: usize) -> bool {
    let s2 = to_at(hops, place);
    let answers = places(first, s2);
    let mut at = answers.start;
    for tried in places(first, from_at(hops, place)) {
        let (label, s3) = (label_at(hops, tried), to_at(hops, tried));
        while at < answers.end && label_at(hops, at) < label {
            at += 1;
        }
        if !((label == 0 && joined(hops, first, marks, s3, s2)) || answered(hops, first, marks, at..answers.end, label, s3)) {
            return false;
        }
    }
    true
}

/// A hop labelled `label` at the front of `range` answers the one to `s3`.
fn answered(hops: &[u16], first: &[u16], marks: &[u8], range: std::ops::Range<usize>, label: u16, s3: u16) -> bool {
    for place in range {
        if label_at(hops, place) != label {
            return false;
        }
        if joined(hops, first, marks, s3, to_at(hops, place)) {
            return true;
        }
    }
    false
}

/// `s3` is `s4`, or the silent hop between them is marked.
pub(crate) fn joined(hops: &[u16], first: &[u16], marks: &[u8], s3: u16, s4: u16) -> bool {
    s3 == s4 || find_row(hops, first, (s3, 0, s4)).is_some_and(|place| marks[place] == 1)
}
