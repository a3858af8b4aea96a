//! The entries in the form of the C interface, and of the plain implementation; those of the library are in `archive`.

/// From, label, to and line: how many numbers of a flat list a hop takes.
pub const NUMBERS: usize = 4;

/// A graph as it goes in; nothing is asked of it.
#[derive(Clone, Debug)]
pub struct Graph {
    pub states: u32,
    pub labels: u32,
    pub initial: u32,
    pub hops: Vec<u16>,
}

impl Graph {
    pub fn lent(&self) -> checker::Graph<'_> {
        checker::Graph { states: self.states.into(), labels: self.labels.into(), initial: self.initial.into(), hops: &self.hops }
    }

    /// How many whole hops the list has.
    pub fn hop_count(&self) -> usize {
        self.hops.len() / NUMBERS
    }

    /// From, label and to of the hop at a place.
    pub fn three_at(&self, place: usize) -> [u16; 3] {
        let at = NUMBERS * place;
        [self.hops[at], self.hops[at + 1], self.hops[at + 2]]
    }

    /// The line of the hop at a place.
    pub fn line_at(&self, place: usize) -> u16 {
        self.hops[NUMBERS * place + 3]
    }

    /// The hops, from, label, to and line.
    pub fn each_hop(&self) -> impl DoubleEndedIterator<Item = [u16; NUMBERS]> + ExactSizeIterator + '_ {
        self.hops.chunks_exact(NUMBERS).map(|hop| [hop[0], hop[1], hop[2], hop[3]])
    }
}

/// What is compared. Each writes its answer to `answer` and returns the number.
pub trait Entries {
    fn name(&self) -> &'static str;
    fn check(&self, g: &Graph, answer: &mut [u64]) -> u32;
    fn find(&self, g: &Graph, hop: [u32; 3], answer: &mut [u64]) -> u32;
    fn mark(&self, g: &Graph, sense: u32, marks: &mut [u8], answer: &mut [u64]) -> u32;
    fn mark_fast(&self, g: &Graph, marks: &mut [u8], answer: &mut [u64]) -> u32;
    fn reduce(&self, g: &Graph, sense: u32, map: &mut [u16], short: &mut [u16], answer: &mut [u64]) -> u32;
    fn shrink(&self, g: &Graph, sense: u32, map: &mut [u16], short: &mut [u16], answer: &mut [u64]) -> u32;
    fn audit(&self, one: &Graph, two: &Graph, map: &[u16], answer: &mut [u64]) -> u32;
    fn round(&self, g: &Graph, place: u64, rounds: u32, answer: &mut [u64]) -> u32;
    fn hops_of(&self, side: u32, state: u32, one: &Graph, two: &Graph, answer: &mut [u64]) -> u32;
    fn read(&self, file: &[u8], hops: &mut [u16], answer: &mut [u64]) -> u32;
    fn write(&self, g: &Graph, names: &[u8], out: &mut [u8], answer: &mut [u64]) -> u32;
}

/// The proved library, where it is linked (the feature `library`).
pub fn library() -> Option<&'static dyn Entries> {
    #[cfg(feature = "library")]
    return Some(&crate::archive::LINKED);
    #[cfg(not(feature = "library"))]
    None
}

/// The plain implementation.
pub struct Plain;

fn shape(g: &Graph) -> plain::Shape {
    plain::Shape { states: g.states, labels: g.labels, initial: g.initial }
}

/// Those of a short graph.
fn figures(short: plain::Short) -> [u64; 4] {
    [short.states, short.labels, short.hops, short.initial].map(u64::from)
}

/// Writes an answer where it fits; 6 where an accepted one does not.
fn give(found: plain::Answer, figures: &[u64], answer: &mut [u64]) -> u32 {
    if answer.len() < 3 + figures.len() {
        return if found.number == 0 { 6 } else { found.number };
    }
    answer[0] = found.number.into();
    answer[1] = found.table.into();
    answer[2] = found.place as u64;
    answer[3..3 + figures.len()].copy_from_slice(figures);
    found.number
}

/// Lets an entry write to copies of its outputs, which it takes over only where the answer fits.
fn with_copies<T: Copy>(output: &mut [T], fits: bool, entry: impl FnOnce(&mut [T]) -> u32) -> u32 {
    if fits {
        return entry(output);
    }
    entry(&mut output.to_vec())
}

impl Entries for Plain {
    fn name(&self) -> &'static str {
        "plain"
    }

    fn check(&self, g: &Graph, answer: &mut [u64]) -> u32 {
        give(plain::check(shape(g), &g.hops), &[], answer)
    }

    fn find(&self, g: &Graph, [from, label, to]: [u32; 3], answer: &mut [u64]) -> u32 {
        let (answered, found) = plain::find(shape(g), &g.hops, from, label, to);
        let (Ok(place) | Err(place)) = found;
        give(answered, &[found.is_ok().into(), place as u64], answer)
    }

    fn mark(&self, g: &Graph, sense: u32, marks: &mut [u8], answer: &mut [u64]) -> u32 {
        with_copies(marks, answer.len() >= 3, |marks| give(plain::mark(shape(g), &g.hops, sense, marks), &[], answer))
    }

    fn mark_fast(&self, g: &Graph, marks: &mut [u8], answer: &mut [u64]) -> u32 {
        with_copies(marks, answer.len() >= 4, |marks| {
            let (found, tests) = plain::mark_fast(shape(g), &g.hops, marks);
            give(found, &[tests.into()], answer)
        })
    }

    fn reduce(&self, g: &Graph, sense: u32, map: &mut [u16], short: &mut [u16], answer: &mut [u64]) -> u32 {
        let fits = answer.len() >= 7;
        with_copies(map, fits, |map| {
            with_copies(short, fits, |short| {
                let (found, short) = plain::reduce(shape(g), &g.hops, sense, map, short);
                give(found, &figures(short), answer)
            })
        })
    }

    fn shrink(&self, g: &Graph, sense: u32, map: &mut [u16], short: &mut [u16], answer: &mut [u64]) -> u32 {
        let fits = answer.len() >= 8;
        with_copies(map, fits, |map| {
            with_copies(short, fits, |short| {
                let (found, last, reductions) = plain::shrink(shape(g), &g.hops, sense, map, short);
                let [states, labels, hops, initial] = figures(last);
                give(found, &[states, labels, hops, initial, reductions.into()], answer)
            })
        })
    }

    fn audit(&self, one: &Graph, two: &Graph, map: &[u16], answer: &mut [u64]) -> u32 {
        let (found, faults) = plain::audit(shape(one), &one.hops, shape(two), &two.hops, map);
        give(found, &[faults.count.into(), faults.kind.into(), faults.place.into(), faults.state.into()], answer)
    }

    fn round(&self, g: &Graph, place: u64, rounds: u32, answer: &mut [u64]) -> u32 {
        let (found, survives) = plain::round(shape(g), &g.hops, place, rounds);
        give(found, &[survives.into()], answer)
    }

    fn hops_of(&self, side: u32, state: u32, one: &Graph, two: &Graph, answer: &mut [u64]) -> u32 {
        if answer.len() < 2 {
            return 6;
        }
        let part = plain::hops_of(side, state, shape(one), &one.hops, shape(two), &two.hops);
        let list = if side == 2 { &two.hops } else { &one.hops };
        let start = if part.is_empty() { 0 } else { (part.as_ptr() as usize - list.as_ptr() as usize) / 2 };
        answer[0] = start as u64;
        answer[1] = part.len() as u64;
        0
    }

    fn read(&self, file: &[u8], hops: &mut [u16], answer: &mut [u64]) -> u32 {
        with_copies(hops, answer.len() >= 9, |hops| {
            let (found, c) = plain::read(file, hops);
            let figures = [c.states.into(), c.labels.into(), c.initial.into(), c.hops.into(), c.names_place as u64, c.names_len as u64];
            give(found, &figures, answer)
        })
    }

    fn write(&self, g: &Graph, names: &[u8], out: &mut [u8], answer: &mut [u64]) -> u32 {
        with_copies(out, answer.len() >= 4, |out| {
            let (found, length) = plain::write(shape(g), &g.hops, names, out);
            give(found, &[length as u64], answer)
        })
    }
}
