use crate::{ffi, figure, judge, length, Audit, Fault, Hop, Hops, Refusal, Sense, LONGEST_FILE, MOST_HOPS, NUMBERS_A_HOP};
use std::ops::Range;

/// A mode graph (labelled transition system): counts, initial state and one flat list of hops.
/// [`Graph::hops`] gives them as [`Hop`]s.
///
/// The numbers may be any. Each entry checks them, and refuses what is not admitted. Two graphs are
/// equal where all their numbers are, the hops' lines too.
///
/// ```
/// use zundrafipo::{Graph, Hop};
///
/// let graph = Graph { states: 2, labels: 2, initial: 0, flat_hops: vec![0, 1, 1, 0] };
/// assert!(graph.check().is_ok());
/// assert_eq!(graph, Graph::new(2, 2, 0, vec![0, 1, 1, 0]));
/// assert_eq!(graph, Graph::from_hops(2, 2, 0, [Hop::new(0, 1, 1)]));
/// assert_ne!(graph, Graph::from_hops(2, 2, 0, [Hop::new(0, 1, 1).with_line(9)]));
/// ```
#[derive(Clone, Debug, PartialEq, Eq, Hash)]
pub struct Graph {
    /// State count, 1 to 1,024.
    pub states: u32,
    /// Label count, 1 to 1,024; label 0 is silent.
    pub labels: u32,
    /// The initial state.
    pub initial: u32,
    /// Four numbers a hop: from, label, to and the line of the source that it comes from, 0 for
    /// none. Hops are strictly ascending by the first three, and there are at most 4,096.
    pub flat_hops: Vec<u16>,
}

/// What [`Graph::mark_fast`] gives: the marks, and how many tests they took.
///
/// ```
/// use zundrafipo::{FastMarking, Graph};
///
/// let FastMarking { marks, tests } = Graph::new(3, 1, 0, vec![0, 0, 1, 0, 0, 0, 2, 0, 1, 0, 2, 0]).mark_fast()?;
/// assert_eq!(marks, [true, true, true]);
/// assert_eq!(tests, 3);
/// # Ok::<(), zundrafipo::Refusal>(())
/// ```
#[derive(Clone, Debug, PartialEq, Eq, Hash)]
pub struct FastMarking {
    /// Whether each hop, in list order, is marked, as [`Graph::mark`] has it under [`Sense::R1`].
    pub marks: Vec<bool>,
    /// The number of tests. The first round tests every silent hop. Each later round tests the hops
    /// that are still marked and have a hop to try with a closing that lost its mark in the round
    /// before.
    pub tests: u32,
}

/// Where [`Graph::find`] found a hop, or where it would stand.
///
/// ```
/// use zundrafipo::{Found, Graph, Hop, NUMBERS_A_HOP};
///
/// let mut graph = Graph::new(2, 2, 0, vec![0, 1, 1, 0]);
/// let missing = Hop::new(0, 0, 1);
/// if let Found::Gap(place) = graph.find(missing)? {
///     let at = NUMBERS_A_HOP * place;
///     graph.flat_hops.splice(at..at, <[u16; NUMBERS_A_HOP]>::from(missing));
/// }
/// assert_eq!(graph.find(missing)?, Found::At(0));
/// # Ok::<(), zundrafipo::Refusal>(())
/// ```
#[derive(Clone, Copy, Debug, PartialEq, Eq, Hash)]
pub enum Found {
    /// The graph has it, at this place.
    At(usize),
    /// The graph does not have it. So many hops come before it.
    Gap(usize),
}

impl Graph {
    /// A graph of these numbers, with its hops as a flat list. Nothing is checked yet.
    ///
    /// ```
    /// let graph = zundrafipo::Graph::new(3, 1, 0, vec![0, 0, 1, 0]);
    /// assert_eq!(graph.states, 3);
    /// ```
    pub fn new(states: u32, labels: u32, initial: u32, flat_hops: Vec<u16>) -> Graph {
        Graph { states, labels, initial, flat_hops }
    }

    /// A graph of these hops. Nothing is checked yet.
    ///
    /// The hops stay in the order in which they come, and a hop out of order is refused with 4. So
    /// sort them first, and keep each once. Hops that differ in the line alone are the same hop.
    ///
    /// ```
    /// use zundrafipo::{Graph, Hop};
    ///
    /// let mut hops = vec![Hop::new(1, 1, 0).with_line(7), Hop::new(0, 0, 1), Hop::new(1, 1, 0).with_line(8)];
    /// assert_eq!(Graph::from_hops(2, 2, 0, hops.clone()).check().unwrap_err().number, 4);
    /// hops.sort();
    /// hops.dedup();
    /// assert_eq!(Graph::from_hops(2, 2, 0, hops), Graph::new(2, 2, 0, vec![0, 0, 1, 0, 1, 1, 0, 7]));
    /// ```
    pub fn from_hops(states: u32, labels: u32, initial: u32, hops: impl IntoIterator<Item = Hop>) -> Graph {
        Graph::new(states, labels, initial, hops.into_iter().flat_map(<[u16; NUMBERS_A_HOP]>::from).collect())
    }

    /// The hops, in list order. Numbers past the last whole hop are left out.
    ///
    /// ```
    /// use zundrafipo::{Graph, Hop};
    ///
    /// let graph = Graph::new(3, 2, 0, vec![0, 0, 1, 0, 1, 1, 2, 0]);
    /// assert_eq!(graph.hops().len(), 2);
    /// assert_eq!(graph.hops().find(|hop| !hop.is_silent()), Some(Hop::new(1, 1, 2)));
    /// ```
    pub fn hops(&self) -> Hops<'_> {
        Hops::from(&self.flat_hops[..])
    }

    /// The outgoing hops of a state, as a part of the list. It is empty for a state that is not
    /// there, and if the graph is refused with 1 to 4. Each call checks the graph.
    ///
    /// ```
    /// use zundrafipo::{Graph, Hop};
    ///
    /// let graph = Graph::new(3, 2, 0, vec![0, 0, 1, 0, 1, 0, 2, 5, 1, 1, 0, 6]);
    /// assert_eq!(graph.hops_of(1).as_flat(), [1, 0, 2, 5, 1, 1, 0, 6]);
    /// assert_eq!(graph.hops_of(0).next(), Some(Hop::new(0, 0, 1)));
    /// assert_eq!(graph.hops_of(7).len(), 0);
    /// ```
    pub fn hops_of(&self, state: u32) -> Hops<'_> {
        let other = Graph::new(1, 1, 0, vec![]);
        Hops::from(&self.flat_hops[part_of(1, state, self, &other)])
    }

    /// Looks a hop up: gives its place in the list, or how many hops come before it. Its line is
    /// not looked at. Each call checks the graph as [`Graph::check`] does.
    ///
    /// ```
    /// use zundrafipo::{Found, Graph, Hop};
    ///
    /// let graph = Graph::new(4, 2, 0, vec![0, 0, 1, 0, 0, 1, 2, 0, 1, 1, 3, 0, 2, 0, 3, 0]);
    /// assert_eq!(graph.find(Hop::new(1, 1, 3))?, Found::At(2));
    /// assert_eq!(graph.find(Hop::new(1, 1, 2))?, Found::Gap(2));
    /// assert_eq!(graph.find(Hop::new(9, 9, 9))?, Found::Gap(4));
    /// assert_eq!(Graph::new(1, 2, 0, vec![0, 1, 1, 0]).find(Hop::new(0, 1, 1)).unwrap_err().number, 3);
    /// # Ok::<(), zundrafipo::Refusal>(())
    /// ```
    pub fn find(&self, hop: Hop) -> Result<Found, Refusal> {
        let mut answer = [0; 5];
        // SAFETY: each pointer comes with the length of its slice. The answer is borrowed alone.
        let number = unsafe {
            ffi::zf_find(
                self.states,
                self.labels,
                self.initial,
                self.flat_hops.as_ptr(),
                self.flat_hops.len(),
                hop.from.into(),
                hop.label.into(),
                hop.to.into(),
                answer.as_mut_ptr(),
                answer.len(),
            )
        };
        let [_, _, _, found, place] = judge(number, answer)?;
        Ok(if found == 1 { Found::At(length(place)) } else { Found::Gap(length(place)) })
    }

    /// Checks counts, initial state, and the range and order of the hops (refusals 1 to 4). It does
    /// not look for rings.
    ///
    /// ```
    /// use zundrafipo::Graph;
    ///
    /// assert!(Graph::new(1024, 1, 0, vec![]).check().is_ok());
    /// assert_eq!(Graph::new(1025, 1, 0, vec![]).check().unwrap_err().number, 1);
    /// assert_eq!(Graph::new(3, 1, 0, vec![1, 0, 0, 0, 0, 0, 1, 0]).check().unwrap_err().place, 1);
    /// ```
    pub fn check(&self) -> Result<(), Refusal> {
        let mut answer = [0; 3];
        // SAFETY: each pointer comes with the length of its slice. The answer is borrowed alone.
        let number = unsafe {
            ffi::zf_check(self.states, self.labels, self.initial, self.flat_hops.as_ptr(), self.flat_hops.len(), answer.as_mut_ptr(), answer.len())
        };
        judge(number, answer).map(|_| ())
    }

    /// Whether each hop, in list order, is marked: silent, and in some confluent set of the sense.
    ///
    /// ```
    /// use zundrafipo::{Graph, Sense};
    ///
    /// let graph = Graph::new(4, 2, 0, vec![0, 0, 1, 0, 0, 1, 2, 0, 1, 1, 3, 0, 2, 0, 3, 0]);
    /// assert_eq!(graph.mark(Sense::R1)?, [true, false, false, true]);
    ///
    /// let graph = Graph::new(2, 2, 0, vec![0, 1, 1, 0, 1, 0, 0, 0, 1, 1, 0, 0]);
    /// assert_eq!(graph.mark(Sense::R1)?, [false, false, false]);
    /// assert_eq!(graph.mark(Sense::R2)?, [false, true, false]);
    /// # Ok::<(), zundrafipo::Refusal>(())
    /// ```
    pub fn mark(&self, sense: Sense) -> Result<Vec<bool>, Refusal> {
        let mut marks = vec![0; (self.flat_hops.len() / NUMBERS_A_HOP).min(MOST_HOPS)];
        self.mark_into(sense, &mut marks)?;
        Ok(marks.iter().map(|&mark| mark == 1).collect())
    }

    /// Writes a 1 or a 0 for each hop to the front of `marks`. Nothing is written past them, and
    /// nothing at all with a refusal.
    ///
    /// ```
    /// use zundrafipo::{Graph, Sense};
    ///
    /// let mut marks = [9; 2];
    /// Graph::new(2, 1, 0, vec![0, 0, 1, 0]).mark_into(Sense::R8, &mut marks)?;
    /// assert_eq!(marks, [1, 9]);
    /// # Ok::<(), zundrafipo::Refusal>(())
    /// ```
    pub fn mark_into(&self, sense: Sense, marks: &mut [u8]) -> Result<(), Refusal> {
        let mut answer = [0; 3];
        // SAFETY: each pointer comes with the length of its slice. Outputs and answer are borrowed
        // alone.
        let number = unsafe {
            ffi::zf_mark(
                self.states,
                self.labels,
                self.initial,
                self.flat_hops.as_ptr(),
                self.flat_hops.len(),
                sense.number(),
                marks.as_mut_ptr(),
                marks.len(),
                answer.as_mut_ptr(),
                answer.len(),
            )
        };
        judge(number, answer).map(|_| ())
    }

    /// The marks of [`Graph::mark`] under [`Sense::R1`], with the number of tests that the rounds
    /// of the marking took.
    ///
    /// ```
    /// use zundrafipo::{Graph, Sense};
    ///
    /// let graph = Graph::new(5, 3, 0, vec![0, 0, 1, 0, 0, 1, 2, 0, 1, 1, 3, 0, 2, 0, 3, 0, 2, 2, 4, 0]);
    /// let marking = graph.mark_fast()?;
    /// assert_eq!(marking.marks, graph.mark(Sense::R1)?);
    /// assert_eq!(marking.tests, 3);
    /// # Ok::<(), zundrafipo::Refusal>(())
    /// ```
    pub fn mark_fast(&self) -> Result<FastMarking, Refusal> {
        let mut marks = vec![0; (self.flat_hops.len() / NUMBERS_A_HOP).min(MOST_HOPS)];
        let tests = self.mark_fast_into(&mut marks)?;
        Ok(FastMarking { marks: marks.iter().map(|&mark| mark == 1).collect(), tests })
    }

    /// Writes a 1 or a 0 for each hop to the front of `marks`, and gives the number of tests.
    /// Nothing is written past them, and nothing at all with a refusal.
    ///
    /// ```
    /// use zundrafipo::Graph;
    ///
    /// let mut marks = [9; 2];
    /// assert_eq!(Graph::new(2, 1, 0, vec![0, 0, 1, 0]).mark_fast_into(&mut marks)?, 1);
    /// assert_eq!(marks, [1, 9]);
    /// # Ok::<(), zundrafipo::Refusal>(())
    /// ```
    pub fn mark_fast_into(&self, marks: &mut [u8]) -> Result<u32, Refusal> {
        let mut answer = [0; 4];
        // SAFETY: each pointer comes with the length of its slice. Outputs and answer are borrowed
        // alone.
        let number = unsafe {
            ffi::zf_mark_fast(
                self.states,
                self.labels,
                self.initial,
                self.flat_hops.as_ptr(),
                self.flat_hops.len(),
                marks.as_mut_ptr(),
                marks.len(),
                answer.as_mut_ptr(),
                answer.len(),
            )
        };
        let [_, _, _, tests] = judge(number, answer)?;
        Ok(figure(tests))
    }

    /// Counts the faults of `map` as a map from this graph, graph 1, to `other`, graph 2, and names
    /// the first. Rings are allowed in both.
    ///
    /// ```
    /// use zundrafipo::{Fault, Graph};
    ///
    /// let graph = Graph::new(4, 2, 0, vec![0, 0, 1, 0, 0, 1, 2, 0, 1, 1, 3, 0, 2, 0, 3, 0]);
    /// assert_eq!(graph.audit(&Graph::new(2, 2, 0, vec![0, 1, 1, 0]), &[0, 0, 1, 1])?.faults, 0);
    /// let audit = graph.audit(&Graph::new(2, 2, 0, vec![]), &[0, 0, 1, 1])?;
    /// assert_eq!((audit.faults, audit.first), (2, Some(Fault::Lost { place: 1 })));
    /// # Ok::<(), zundrafipo::Refusal>(())
    /// ```
    pub fn audit(&self, other: &Graph, map: &[u16]) -> Result<Audit, Refusal> {
        let mut answer = [0; 7];
        // SAFETY: each pointer comes with the length of its slice. The answer is borrowed alone.
        let number = unsafe {
            ffi::zf_audit(
                self.states,
                self.labels,
                self.initial,
                self.flat_hops.as_ptr(),
                self.flat_hops.len(),
                other.states,
                other.labels,
                other.initial,
                other.flat_hops.as_ptr(),
                other.flat_hops.len(),
                map.as_ptr(),
                map.len(),
                answer.as_mut_ptr(),
                answer.len(),
            )
        };
        let [_, _, _, faults, kind, place, state] = judge(number, answer)?;
        Ok(Audit { faults, first: Fault::named(kind, place, state) })
    }

    /// Whether the silent hop at `place` survives `rounds`, 0 to 4, of the marking under
    /// [`Sense::R1`]. Rings are allowed.
    ///
    /// ```
    /// use zundrafipo::Graph;
    ///
    /// let graph = Graph::new(5, 3, 0, vec![0, 0, 1, 0, 0, 1, 2, 0, 1, 1, 3, 0, 2, 0, 3, 0, 2, 2, 4, 0]);
    /// assert!(graph.survives(0, 1)?);
    /// assert!(!graph.survives(0, 2)?);
    /// assert_eq!(graph.survives(1, 0).unwrap_err().number, 9);
    /// # Ok::<(), zundrafipo::Refusal>(())
    /// ```
    pub fn survives(&self, place: u64, rounds: u32) -> Result<bool, Refusal> {
        let mut answer = [0; 4];
        // SAFETY: each pointer comes with the length of its slice. The answer is borrowed alone.
        let number = unsafe {
            ffi::zf_round(
                self.states,
                self.labels,
                self.initial,
                self.flat_hops.as_ptr(),
                self.flat_hops.len(),
                place,
                rounds,
                answer.as_mut_ptr(),
                answer.len(),
            )
        };
        let [_, _, _, survives] = judge(number, answer)?;
        Ok(survives == 1)
    }

    /// The graph as a file, with a name block.
    ///
    /// The block has, for each label from 1 upward, a length byte of 1 to 32 and that many bytes.
    /// An empty block means no names. [`NameBlock`](crate::NameBlock) makes one. Where some hop has
    /// a line, the lines stand behind the names.
    ///
    /// ```
    /// use zundrafipo::Graph;
    ///
    /// let graph = Graph::new(2, 2, 0, vec![0, 1, 1, 0]);
    /// assert_eq!(graph.write(b"")?, [2, 2, 0, 2, 0, 1, 0, 0, 0, 1, 0, 1, 0]);
    /// assert_eq!(graph.write(b"\x04pass")?.len(), 18);
    /// let lined = Graph::new(2, 2, 0, vec![0, 1, 1, 300]);
    /// assert_eq!(lined.write(b"")?, [10, 2, 0, 2, 0, 1, 0, 0, 0, 1, 0, 1, 0, 44, 1]);
    /// # Ok::<(), zundrafipo::Refusal>(())
    /// ```
    pub fn write(&self, names: &[u8]) -> Result<Vec<u8>, Refusal> {
        let mut file = vec![0; LONGEST_FILE];
        let written = self.write_into(names, &mut file)?;
        file.truncate(written);
        Ok(file)
    }

    /// Writes the graph as a file to the front of `out`, and gives the file's length. Nothing is
    /// written past it, and nothing at all with a refusal.
    ///
    /// ```
    /// use zundrafipo::Graph;
    ///
    /// let mut out = [9; 6];
    /// assert_eq!(Graph::new(3, 1, 0, vec![]).write_into(b"", &mut out)?, 5);
    /// assert_eq!(out, [0, 3, 0, 1, 0, 9]);
    /// # Ok::<(), zundrafipo::Refusal>(())
    /// ```
    pub fn write_into(&self, names: &[u8], out: &mut [u8]) -> Result<usize, Refusal> {
        let mut answer = [0; 4];
        // SAFETY: each pointer comes with the length of its slice. Output and answer are borrowed
        // alone.
        let number = unsafe {
            ffi::zf_write(
                self.states,
                self.labels,
                self.initial,
                self.flat_hops.as_ptr(),
                self.flat_hops.len(),
                names.as_ptr(),
                names.len(),
                out.as_mut_ptr(),
                out.len(),
                answer.as_mut_ptr(),
                answer.len(),
            )
        };
        let [_, _, _, written] = judge(number, answer)?;
        Ok(length(written))
    }
}

/// The outgoing hops of a state, as a part of the flat list of the graph on that side, 1 or 2.
///
/// The part is empty for another side, for a state that is not there, and if either graph is
/// refused with 1 to 4. [`Hops::from`] gives the part as hops. For one graph there is
/// [`Graph::hops_of`].
///
/// ```
/// use zundrafipo::{hops_of, Graph};
///
/// let one = Graph::new(3, 2, 0, vec![0, 0, 1, 0, 1, 0, 2, 5, 1, 1, 0, 6]);
/// let two = Graph::new(1, 2, 0, vec![0, 1, 0, 0]);
/// assert_eq!(hops_of(1, 1, &one, &two), [1, 0, 2, 5, 1, 1, 0, 6]);
/// assert_eq!(hops_of(2, 0, &one, &two), [0, 1, 0, 0]);
/// assert!(hops_of(3, 0, &one, &two).is_empty());
/// ```
pub fn hops_of<'a>(side: u32, state: u32, one: &'a Graph, two: &'a Graph) -> &'a [u16] {
    let list = if side == 2 { &two.flat_hops } else { &one.flat_hops };
    &list[part_of(side, state, one, two)]
}

/// Where the outgoing hops of a state stand in the list of the graph on that side.
fn part_of(side: u32, state: u32, one: &Graph, two: &Graph) -> Range<usize> {
    let mut answer = [0; 2];
    // SAFETY: each pointer comes with the length of its slice. The answer is borrowed alone.
    unsafe {
        ffi::zf_hops_of(
            side,
            state,
            one.states,
            one.labels,
            one.initial,
            one.flat_hops.as_ptr(),
            one.flat_hops.len(),
            two.states,
            two.labels,
            two.initial,
            two.flat_hops.as_ptr(),
            two.flat_hops.len(),
            answer.as_mut_ptr(),
            answer.len(),
        )
    };
    let start = length(answer[0]);
    start..start + length(answer[1])
}
