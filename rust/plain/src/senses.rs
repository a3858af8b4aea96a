//! Marking in the weaker senses: repeated sweeps over the hops tried, 64 of them at a time, a bit each in one word a state.

use crate::{from_at, hop_count, label_at, places, to_at, MOST_LABELS, MOST_STATES, NUMBERS};

/// Where a sense lets walks of marked hops stand; R1 lets none.
#[derive(Clone, Copy)]
pub(crate) struct Walks {
    /// Between s2 and the answering hop: R3 and R8.
    before: bool,
    /// Behind the answering hop: R2 and R8.
    after: bool,
    /// From s3 to s4, in place of one hop: R8.
    closing: bool,
}

impl Walks {
    /// Those of a sense, but for R1 and what is no sense.
    pub(crate) fn of(sense: u32) -> Option<Walks> {
        let walks = |before, after, closing| Some(Walks { before, after, closing });
        match sense {
            2 => walks(false, true, false),
            3 => walks(true, false, false),
            8 => walks(true, true, true),
            _ => None,
        }
    }
}

/// Whether a number is that of a sense.
pub(crate) fn is_sense(sense: u32) -> bool {
    matches!(sense, 1 | 2 | 3 | 8)
}

/// How many sweeps note nothing of what they touch: most graphs need no more.
const PLAIN_SWEEPS: usize = 4;

/// For an admitted graph without rings and one element a hop: silent hops start marked; sweeps until one takes nothing. Between two later sweeps only those batches are
/// run again that a fall can have touched, until none is due.
pub(crate) fn set_marks(walks: Walks, hops: &[u16], first: &[u16], marks: &mut [u8]) {
    for (place, mark) in marks.iter_mut().enumerate() {
        *mark = u8::from(label_at(hops, place) == 0);
    }
    let line = line(hops, first);
    let mut words = Words::new(walks, hops, first, &line);
    let mut plain = PLAIN_SWEEPS;
    while words.sweep(marks) {
        words.run_due(marks);
        plain = plain.saturating_sub(1);
        words.noting = plain == 0;
    }
}

/// The places of the silent hops, those that leave a hop's end before it. States are placed once all their silent hops lead to placed ones, by passes downward and
/// upward in turn.
fn line(hops: &[u16], first: &[u16]) -> Vec<u16> {
    let states = first.len() - 1;
    let mut line = vec![];
    let mut placed = vec![false; states];
    let (mut left, mut down) = (states, true);
    while left > 0 {
        for i in 0..states {
            let state = if down { states - 1 - i } else { i };
            let mut silent = places(first, state as u16).take_while(|&place| label_at(hops, place) == 0);
            if !placed[state] && silent.clone().all(|place| placed[usize::from(to_at(hops, place))]) {
                line.extend(silent.by_ref().map(|place| place as u16));
                placed[state] = true;
                left -= 1;
            }
        }
        down = !down;
    }
    line
}

/// A bit for each hop tried of the batch, at each state.
type Table = [u64; MOST_STATES];

struct Words<'a> {
    walks: Walks,
    hops: &'a [u16],
    first: &'a [u16],
    line: &'a [u16],
    /// Where the hops tried start.
    froms: Table,
    /// The labels of the hops tried.
    labels: [u64; MOST_LABELS],
    /// Where the hops tried end; then the states from which they close: where an answering hop may end.
    ends: Table,
    /// The states that have an answering hop, or lead to one.
    answers: Table,
    /// A bit for each batch, at each state: whether the state had any bit when the batch was last run.
    touched: Table,
    /// Whether what a batch touches is noted.
    noting: bool,
    /// The batches that are to be run again.
    due: u64,
}

impl<'a> Words<'a> {
    fn new(walks: Walks, hops: &'a [u16], first: &'a [u16], line: &'a [u16]) -> Words<'a> {
        let (froms, labels, ends, answers) = ([0; MOST_STATES], [0; MOST_LABELS], [0; MOST_STATES], [0; MOST_STATES]);
        Words { walks, hops, first, line, froms, labels, ends, answers, touched: [0; MOST_STATES], noting: false, due: 0 }
    }

    fn batches(&self) -> usize {
        hop_count(self.hops).div_ceil(64)
    }

    /// Tries every hop against every marked one; true where a mark was taken.
    fn sweep(&mut self, marks: &mut [u8]) -> bool {
        self.due = 0;
        let mut taken = false;
        for batch in 0..self.batches() {
            taken |= self.run(batch, marks);
        }
        taken
    }

    /// Runs the batches that are due, each until it is not, upward and downward by turns.
    fn run_due(&mut self, marks: &mut [u8]) {
        let (batches, mut down) = (self.batches(), false);
        while self.due != 0 {
            for i in 0..batches {
                let batch = if down { batches - 1 - i } else { i };
                while self.due >> batch & 1 == 1 {
                    self.due &= !(1 << batch);
                    self.run(batch, marks);
                }
            }
            down = !down;
        }
    }

    /// Tries the hops of a batch; true where a mark was taken.
    fn run(&mut self, batch: usize, marks: &mut [u8]) -> bool {
        self.start(64 * batch);
        self.close(marks);
        if self.walks.after {
            lead_back(self.hops, self.line, marks, &mut self.ends);
        }
        self.answer();
        if self.walks.before {
            lead_back(self.hops, self.line, marks, &mut self.answers);
        }
        if self.noting {
            self.touch(batch);
        }
        self.judge(marks)
    }

    /// Notes which states have anything in the tables of the batch.
    fn touch(&mut self, batch: usize) {
        for state in 0..self.first.len() - 1 {
            let any = u64::from(self.ends[state] | self.answers[state] != 0);
            self.touched[state] = self.touched[state] & !(1 << batch) | any << batch;
        }
    }

    /// The bits of the hops tried from `base` on.
    fn start(&mut self, base: usize) {
        let states = self.first.len() - 1;
        self.froms[..states].fill(0);
        self.ends[..states].fill(0);
        self.answers[..states].fill(0);
        self.labels.fill(0);
        for (bit, place) in (base..hop_count(self.hops).min(base + 64)).enumerate() {
            self.froms[usize::from(from_at(self.hops, place))] |= 1 << bit;
            self.labels[usize::from(label_at(self.hops, place))] |= 1 << bit;
            self.ends[usize::from(to_at(self.hops, place))] |= 1 << bit;
        }
    }

    /// From s3 on to s4: by one marked hop, for in the line no hop comes behind one that it leads to; against the line by walks.
    fn close(&mut self, marks: &[u8]) {
        let mut close = |place: &u16| {
            let place = usize::from(*place);
            if marks[place] == 1 {
                let (s3, s4) = (usize::from(from_at(self.hops, place)), usize::from(to_at(self.hops, place)));
                self.ends[s4] |= self.ends[s3];
            }
        };
        if self.walks.closing {
            self.line.iter().rev().for_each(&mut close);
        } else {
            self.line.iter().for_each(&mut close);
        }
    }

    /// A state answers where it has a hop of the label to a possible end, or the label is silent and the state itself is one.
    fn answer(&mut self) {
        let silent = self.labels[0];
        for state in 0..self.first.len() - 1 {
            self.answers[state] = self.ends[state] & silent;
        }
        for hop in self.hops.chunks_exact(NUMBERS) {
            self.answers[usize::from(hop[0])] |= self.ends[usize::from(hop[2])] & self.labels[usize::from(hop[1])];
        }
    }

    /// Takes the mark of each hop s1 to s2 that has a hop tried of s1 which s2 does not answer; true where there is one.
    fn judge(&mut self, marks: &mut [u8]) -> bool {
        let mut taken = false;
        for &place in self.line {
            let place = usize::from(place);
            let (s1, s2) = (usize::from(from_at(self.hops, place)), usize::from(to_at(self.hops, place)));
            if marks[place] == 1 && self.froms[s1] & !self.answers[s2] != 0 {
                marks[place] = 0;
                self.due |= self.touched[s1] | self.touched[s2];
                taken = true;
            }
        }
        taken
    }
}

/// Gives each state the bits of all that it leads to by marked hops.
fn lead_back(hops: &[u16], line: &[u16], marks: &[u8], table: &mut Table) {
    for &place in line {
        let place = usize::from(place);
        if marks[place] == 1 {
            let (from, to) = (usize::from(from_at(hops, place)), usize::from(to_at(hops, place)));
            table[from] |= table[to];
        }
    }
}
