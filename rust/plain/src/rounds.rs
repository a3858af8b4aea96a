use crate::mark::{admitted, joined};
use crate::{find_row, from_at, hop_count, label_at, lower_row, places, to_at, Answer, Shape, ACCEPTED};
use std::cmp::Ordering;
use std::ops::Range;

/// The entry mark_fast, with the number of tests.
pub fn mark_fast(shape: Shape, hops: &[u16], marks: &mut [u8]) -> (Answer, u32) {
    match admitted(shape, hops, 1, marks.len()) {
        Err(refusal) => (refusal, 0),
        Ok(first) => (ACCEPTED, set_marks(hops, &first, &mut marks[..hop_count(hops)])),
    }
}

/// For an admitted graph and one element a hop: silent hops start marked; the first round tests them all, each later one those for which a closing fell in the
/// round before. What falls in a round keeps its mark until the round is over. Gives the number of tests.
pub(crate) fn set_marks(hops: &[u16], first: &[u16], marks: &mut [u8]) -> u32 {
    let mut tests = 0;
    for (place, mark) in marks.iter_mut().enumerate() {
        *mark = u8::from(label_at(hops, place) == 0);
        tests += u32::from(*mark);
    }
    let mut fallen: Vec<u16> = vec![];
    for place in 0..marks.len() {
        if marks[place] == 1 && !closes(hops, first, marks, place) {
            fallen.push(place as u16);
        }
    }
    if fallen.is_empty() {
        return tests;
    }
    take_off(marks, &fallen);
    let mut later = Later::new(hops, first, marks);
    while !fallen.is_empty() {
        for &place in &fallen {
            later.note_fallen(marks, place.into());
        }
        tests += later.due.len() as u32;
        later.test(marks, &mut fallen);
        take_off(marks, &fallen);
    }
    tests
}

fn take_off(marks: &mut [u8], fallen: &[u16]) {
    for &place in fallen {
        marks[usize::from(place)] = 0;
    }
}

/// The hops into each state: those of `s` stand at `places[first[s]..first[s + 1]]`.
struct Entering {
    first: Vec<u16>,
    places: Vec<u16>,
}

/// Counted, then filled.
fn entering(states: usize, hops: &[u16]) -> Entering {
    let mut first = vec![0; states + 1];
    for place in 0..hop_count(hops) {
        first[usize::from(to_at(hops, place)) + 1] += 1;
    }
    for state in 0..states {
        first[state + 1] += first[state];
    }
    let mut next = first.clone();
    let mut places = vec![0; hop_count(hops)];
    for place in 0..hop_count(hops) {
        let slot = &mut next[usize::from(to_at(hops, place))];
        places[usize::from(*slot)] = place as u16;
        *slot += 1;
    }
    Entering { first, places }
}

/// What the rounds after the first go by.
struct Later<'a> {
    hops: &'a [u16],
    first: &'a [u16],
    entering: Entering,
    /// Whether a hop that the first round left marked leaves the state. Elsewhere there is nothing to test again.
    left: Vec<bool>,
    /// The hops to test in this round.
    due: Vec<u16>,
    /// Whether a hop is among them: it is tested once, however many closings fell.
    is_due: Vec<bool>,
    /// Whether a silent hop of the state fell in the round before. Of the hops tried only those to such a state can have lost their closing.
    shaken: Vec<bool>,
}

/// A state's row is gone over unless it is longer than the hops into s4 by more than this: it stands in one place, and those are strewn.
const ROW_AHEAD: usize = 16;

impl<'a> Later<'a> {
    fn new(hops: &'a [u16], first: &'a [u16], marks: &[u8]) -> Later<'a> {
        let states = first.len() - 1;
        let mut left = vec![false; states];
        for (place, &mark) in marks.iter().enumerate() {
            left[usize::from(from_at(hops, place))] |= mark == 1;
        }
        let count = hop_count(hops);
        let entering = entering(states, hops);
        Later { hops, first, entering, left, due: Vec::with_capacity(count), is_due: vec![false; count], shaken: vec![false; states] }
    }

    /// Notes the hops s1 to s2 for which the hop at `fallen`, s3 to s4, was a closing. Over the hops s1, a, s3 it looks for s2 where there is less to look at: among
    /// the silent hops of s1, or among the hops labelled a into s4.
    fn note_fallen(&mut self, marks: &[u8], fallen: usize) {
        let (s3, s4) = (from_at(self.hops, fallen), to_at(self.hops, fallen));
        self.shaken[usize::from(s3)] = true;
        let into_s4 = places(&self.entering.first, s4);
        for entry in places(&self.entering.first, s3) {
            let tried = usize::from(self.entering.places[entry]);
            let (s1, label) = (from_at(self.hops, tried), label_at(self.hops, tried));
            if !self.left[usize::from(s1)] {
                continue;
            }
            let row = places(self.first, s1);
            if row.len() <= into_s4.len() + ROW_AHEAD {
                self.note_along(marks, row, label, s4);
            } else {
                self.note_into(marks, s1, label, s4, into_s4.clone());
            }
        }
    }

    /// Notes the marked hops of a row to an s2 that answers `label` by `s4`.
    fn note_along(&mut self, marks: &[u8], row: Range<usize>, label: u16, s4: u16) {
        for place in row {
            if label_at(self.hops, place) != 0 {
                return;
            }
            if marks[place] == 1 && !self.is_due[place] {
                let s2 = to_at(self.hops, place);
                if (label == 0 && s2 == s4) || find_row(self.hops, self.first, (s2, label, s4)).is_some() {
                    self.note(place);
                }
            }
        }
    }

    /// Notes the marked hops of `s1` to an s2 that answers `label` by `s4`, by the hops into `s4`.
    fn note_into(&mut self, marks: &[u8], s1: u16, label: u16, s4: u16, into_s4: Range<usize>) {
        for entry in into_s4 {
            let answer = usize::from(self.entering.places[entry]);
            if label_at(self.hops, answer) == label {
                self.note_between(marks, s1, from_at(self.hops, answer));
            }
        }
        if label == 0 {
            self.note_between(marks, s1, s4);
        }
    }

    fn note_between(&mut self, marks: &[u8], s1: u16, s2: u16) {
        if let Some(place) = find_row(self.hops, self.first, (s1, 0, s2)) {
            if marks[place] == 1 && !self.is_due[place] {
                self.note(place);
            }
        }
    }

    fn note(&mut self, place: usize) {
        self.is_due[place] = true;
        self.due.push(place as u16);
    }

    /// Tests what is due, which then is nothing; `fallen` gives up what fell before and takes what fell now.
    fn test(&mut self, marks: &[u8], fallen: &mut Vec<u16>) {
        let before = fallen.len();
        for &place in &self.due {
            self.is_due[usize::from(place)] = false;
            if !closes_again(self.hops, self.first, marks, &self.shaken, place.into()) {
                fallen.push(place);
            }
        }
        for place in fallen.drain(..before) {
            self.shaken[usize::from(from_at(self.hops, place.into()))] = false;
        }
        self.due.clear();
    }
}

/// One test after the first round: every hop tried that leads to a shaken state is closed. The others are, as they were.
fn closes_again(hops: &[u16], first: &[u16], marks: &[u8], shaken: &[bool], place: usize) -> bool {
    let s2 = to_at(hops, place);
    let past = places(first, s2).end;
    for tried in places(first, from_at(hops, place)) {
        let (label, s3) = (label_at(hops, tried), to_at(hops, tried));
        if !shaken[usize::from(s3)] || find_row(hops, first, (s2, label, s3)).is_some() {
            continue;
        }
        let at = lower_row(hops, first, (s2, label, 0));
        if !((label == 0 && joined(hops, first, marks, s3, s2)) || answered(hops, first, marks, at..past, label, s3)) {
            return false;
        }
    }
    true
}

/// One test of the first round: every hop of the state that the hop at `place` leaves is closed. The hops tried and those that answer are both passed once, label by label (`at`) and
/// hop by hop (`same`): where s2 has the hop tried itself, s4 is s3 and nothing is looked up.
fn closes(hops: &[u16], first: &[u16], marks: &[u8], place: usize) -> bool {
    let s2 = to_at(hops, place);
    let answers = places(first, s2);
    let (mut at, mut same) = (answers.start, answers.start);
    for tried in places(first, from_at(hops, place)) {
        let (label, s3) = (label_at(hops, tried), to_at(hops, tried));
        while same < answers.end && (label_at(hops, same), to_at(hops, same)) < (label, s3) {
            same += 1;
        }
        if same < answers.end && (label_at(hops, same), to_at(hops, same)) == (label, s3) {
            continue;
        }
        while at < answers.end && label_at(hops, at) < label {
            at += 1;
        }
        if !((label == 0 && joined(hops, first, marks, s3, s2)) || answered(hops, first, marks, at..answers.end, label, s3)) {
            return false;
        }
    }
    true
}

/// A hop labelled `label` at the front of `range` answers the one to `s3`: a marked hop of `s3` leads where it leads. Both sides ascend there, and are passed once.
fn answered(hops: &[u16], first: &[u16], marks: &[u8], range: Range<usize>, label: u16, s3: u16) -> bool {
    let row = places(first, s3);
    let (mut closing, mut answer) = (row.start, range.start);
    while closing < row.end && label_at(hops, closing) == 0 && answer < range.end && label_at(hops, answer) == label {
        match to_at(hops, closing).cmp(&to_at(hops, answer)) {
            Ordering::Less => closing += 1,
            Ordering::Greater => answer += 1,
            Ordering::Equal if marks[closing] == 1 => return true,
            Ordering::Equal => {
                closing += 1;
                answer += 1;
            }
        }
    }
    false
}
