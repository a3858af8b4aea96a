use crate::{ffi, figure, judge, length, Graph, Refusal, Sense, MOST_HOPS, MOST_STATES, NUMBERS_A_HOP};

/// What [`Graph::reduce`] gives: the short graph (the quotient), and the map to it.
///
/// ```
/// use zundrafipo::{Graph, Reduction, Sense};
///
/// let Reduction { graph, map } = Graph::new(2, 2, 1, vec![0, 0, 1, 3, 0, 1, 0, 4, 1, 1, 1, 5]).reduce(Sense::R1)?;
/// assert_eq!(map, [0, 0]);
/// assert_eq!(graph, Graph::new(1, 2, 0, vec![0, 1, 0, 5]));
/// # Ok::<(), zundrafipo::Refusal>(())
/// ```
#[derive(Clone, Debug, PartialEq, Eq, Hash)]
pub struct Reduction {
    /// The short graph.
    pub graph: Graph,
    /// The new state of each old one.
    pub map: Vec<u16>,
}

/// The counts and the initial state of a short graph whose hops are in a lent output
/// ([`Graph::reduce_into`]).
///
/// ```
/// use zundrafipo::{Graph, Sense, ShortFigures};
///
/// let (mut map, mut short) = ([0; 2], [0; 4]);
/// let figures = Graph::new(2, 1, 0, vec![0, 0, 1, 0]).reduce_into(Sense::R1, &mut map, &mut short)?;
/// assert_eq!(figures, ShortFigures { states: 1, labels: 1, hops: 0, initial: 0 });
/// # Ok::<(), zundrafipo::Refusal>(())
/// ```
#[derive(Clone, Copy, Debug, PartialEq, Eq, Hash)]
pub struct ShortFigures {
    /// State count.
    pub states: u32,
    /// Label count.
    pub labels: u32,
    /// Hop count. The output holds four numbers for each hop.
    pub hops: u32,
    /// Initial state.
    pub initial: u32,
}

/// What [`Graph::shrink`] gives: the last graph, the map to it, and how many reductions it took.
///
/// ```
/// use zundrafipo::{Graph, Sense, Shrinking};
///
/// let Shrinking { graph, map, reductions } = Graph::new(2, 2, 1, vec![0, 0, 1, 3, 0, 1, 0, 4, 1, 1, 1, 5]).shrink(Sense::R1)?;
/// assert_eq!((map, reductions), (vec![0, 0], 1));
/// assert_eq!(graph, Graph::new(1, 2, 0, vec![0, 1, 0, 5]));
/// # Ok::<(), zundrafipo::Refusal>(())
/// ```
#[derive(Clone, Debug, PartialEq, Eq, Hash)]
pub struct Shrinking {
    /// The last graph, in which no hop is marked.
    pub graph: Graph,
    /// The state of the last graph for each state of the first.
    pub map: Vec<u16>,
    /// The number of reductions that marked something.
    pub reductions: u32,
}

/// The counts and the initial state of a last graph whose hops are in a lent output, and the number
/// of reductions ([`Graph::shrink_into`]).
///
/// ```
/// use zundrafipo::{Graph, Sense, ShortFigures, ShrunkFigures};
///
/// let (mut map, mut last) = ([0; 2], [0; 4]);
/// let figures = Graph::new(2, 1, 0, vec![0, 0, 1, 0]).shrink_into(Sense::R1, &mut map, &mut last)?;
/// assert_eq!(figures, ShrunkFigures { last: ShortFigures { states: 1, labels: 1, hops: 0, initial: 0 }, reductions: 1 });
/// # Ok::<(), zundrafipo::Refusal>(())
/// ```
#[derive(Clone, Copy, Debug, PartialEq, Eq, Hash)]
pub struct ShrunkFigures {
    /// The counts and the initial state of the last graph.
    pub last: ShortFigures,
    /// The number of reductions that marked something.
    pub reductions: u32,
}

/// `zf_reduce` or `zf_shrink`.
type Entry = unsafe extern "C" fn(u32, u32, u32, *const u16, usize, u32, *mut u16, usize, *mut u16, usize, *mut u64, usize) -> u32;

impl Graph {
    /// The short graph, with the map to it. In the short graph each class of states joined by hops
    /// that the sense marks is one state.
    ///
    /// A short hop has the smallest nonzero line of the hops that it comes from, and 0 where none
    /// of them has a line. It comes from hops of the class's representative, the state that no
    /// marked hop leaves. It does not come from like hops of other states of the class.
    ///
    /// ```
    /// use zundrafipo::{Graph, Sense};
    ///
    /// let reduction = Graph::new(3, 1, 2, vec![0, 0, 1, 0, 0, 0, 2, 0, 1, 0, 2, 0]).reduce(Sense::R1)?;
    /// assert_eq!(reduction.map, [0, 0, 0]);
    /// assert_eq!(reduction.graph, Graph::new(1, 1, 0, vec![]));
    ///
    /// let graph = Graph::new(3, 2, 0, vec![0, 0, 1, 0, 0, 1, 0, 0, 1, 0, 2, 0, 2, 1, 1, 0]);
    /// assert_eq!(graph.reduce(Sense::default())?.map, [0, 1, 1]);
    /// assert_eq!(graph.reduce(Sense::R3)?.map, [0, 0, 0]);
    ///
    /// // states 1, 2 and 3 become one, and with them the three hops of state 0
    /// let graph = Graph::new(4, 2, 0, vec![0, 1, 1, 0, 0, 1, 2, 7, 0, 1, 3, 3, 1, 0, 3, 1, 2, 0, 3, 2]);
    /// assert_eq!(graph.reduce(Sense::R1)?.graph, Graph::new(2, 2, 0, vec![0, 1, 1, 3]));
    /// # Ok::<(), zundrafipo::Refusal>(())
    /// ```
    pub fn reduce(&self, sense: Sense) -> Result<Reduction, Refusal> {
        let (mut map, mut hops) = self.room();
        let figures = self.reduce_into(sense, &mut map, &mut hops)?;
        Ok(Reduction { graph: figures.graph(hops), map })
    }

    /// Writes the map to the front of `map`, and the short hops to the front of `short_hops`.
    /// Nothing is written past them, and nothing at all with a refusal. `map` needs one element a
    /// state of this graph, and `short_hops` as many as this graph's list has.
    ///
    /// ```
    /// use zundrafipo::{Graph, Sense};
    ///
    /// let (mut map, mut short) = ([9; 3], [9; 12]);
    /// let figures = Graph::new(2, 2, 0, vec![0, 0, 1, 3, 0, 1, 0, 4, 1, 1, 1, 5]).reduce_into(Sense::R1, &mut map, &mut short)?;
    /// assert_eq!((map, figures.hops), ([0, 0, 9], 1));
    /// assert_eq!(short, [0, 1, 0, 5, 9, 9, 9, 9, 9, 9, 9, 9]);
    /// # Ok::<(), zundrafipo::Refusal>(())
    /// ```
    pub fn reduce_into(&self, sense: Sense, map: &mut [u16], short_hops: &mut [u16]) -> Result<ShortFigures, Refusal> {
        let [_, _, _, states, labels, hops, initial] = self.shortened(ffi::zf_reduce, sense, map, short_hops)?;
        Ok(ShortFigures::of([states, labels, hops, initial]))
    }

    /// The last graph: what is left when this graph is reduced in the sense again and again, until
    /// no hop is marked. With it come one map from this graph's states to it, and the number of
    /// reductions that marked something.
    ///
    /// The number is below this graph's state count, and at most 1 under [`Sense::R8`]. In every
    /// sense the map has no faults.
    ///
    /// Each reduction gives lines by the rule of [`Graph::reduce`]. So a hop of the last graph has
    /// the smallest nonzero line of this graph's hops that it comes from through all reductions.
    ///
    /// ```
    /// use zundrafipo::{Graph, Sense};
    ///
    /// // a silent chain; label 1 leads from 0, 1 and 2 to 0, 1 and 0, label 2 to 0, 0 and 2
    /// let graph = Graph::new(3, 3, 0, vec![0, 0, 1, 1, 0, 1, 0, 2, 0, 2, 0, 3, 1, 0, 2, 4, 1, 1, 1, 5, 1, 2, 0, 6, 2, 1, 0, 7, 2, 2, 2, 8]);
    /// assert_eq!(graph.reduce(Sense::R1)?.graph.states, 2);
    ///
    /// let shrinking = graph.shrink(Sense::R1)?;
    /// assert_eq!(shrinking.reductions, 2);
    /// assert_eq!(shrinking.map, [0, 0, 0]);
    /// assert_eq!(shrinking.graph, Graph::new(1, 3, 0, vec![0, 1, 0, 7, 0, 2, 0, 8]));
    /// assert_eq!(graph.audit(&shrinking.graph, &shrinking.map)?.faults, 0);
    ///
    /// assert_eq!(graph.shrink(Sense::R8)?.reductions, 1);
    ///
    /// // nothing is marked in the last graph, which is its own last graph
    /// let again = shrinking.graph.shrink(Sense::R1)?;
    /// assert_eq!((again.reductions, &again.graph), (0, &shrinking.graph));
    /// # Ok::<(), zundrafipo::Refusal>(())
    /// ```
    pub fn shrink(&self, sense: Sense) -> Result<Shrinking, Refusal> {
        let (mut map, mut hops) = self.room();
        let ShrunkFigures { last, reductions } = self.shrink_into(sense, &mut map, &mut hops)?;
        Ok(Shrinking { graph: last.graph(hops), map, reductions })
    }

    /// Writes the map to the front of `map`, and the last graph's hops to the front of `last_hops`.
    /// Nothing is written past them, and nothing at all with a refusal. `map` needs one element a
    /// state of this graph, and `last_hops` as many as this graph's list has.
    ///
    /// ```
    /// use zundrafipo::{Graph, Sense};
    ///
    /// let (mut map, mut last) = ([9; 3], [9; 12]);
    /// let figures = Graph::new(2, 2, 0, vec![0, 0, 1, 3, 0, 1, 0, 4, 1, 1, 1, 5]).shrink_into(Sense::R1, &mut map, &mut last)?;
    /// assert_eq!((map, figures.last.hops, figures.reductions), ([0, 0, 9], 1, 1));
    /// assert_eq!(last, [0, 1, 0, 5, 9, 9, 9, 9, 9, 9, 9, 9]);
    /// # Ok::<(), zundrafipo::Refusal>(())
    /// ```
    pub fn shrink_into(&self, sense: Sense, map: &mut [u16], last_hops: &mut [u16]) -> Result<ShrunkFigures, Refusal> {
        let [_, _, _, states, labels, hops, initial, reductions] = self.shortened(ffi::zf_shrink, sense, map, last_hops)?;
        Ok(ShrunkFigures { last: ShortFigures::of([states, labels, hops, initial]), reductions: figure(reductions) })
    }

    /// Outputs for a map and for hops, as long as both entries need them.
    fn room(&self) -> (Vec<u16>, Vec<u16>) {
        (vec![0; length(self.states.into()).min(MOST_STATES)], vec![0; self.flat_hops.len().min(NUMBERS_A_HOP * MOST_HOPS)])
    }

    fn shortened<const N: usize>(&self, entry: Entry, sense: Sense, map: &mut [u16], hops: &mut [u16]) -> Result<[u64; N], Refusal> {
        let mut answer = [0; N];
        // SAFETY: each pointer comes with the length of its slice. Outputs and answer are borrowed
        // alone.
        let number = unsafe {
            entry(
                self.states,
                self.labels,
                self.initial,
                self.flat_hops.as_ptr(),
                self.flat_hops.len(),
                sense.number(),
                map.as_mut_ptr(),
                map.len(),
                hops.as_mut_ptr(),
                hops.len(),
                answer.as_mut_ptr(),
                answer.len(),
            )
        };
        judge(number, answer)
    }
}

impl ShortFigures {
    fn of([states, labels, hops, initial]: [u64; 4]) -> ShortFigures {
        ShortFigures { states: figure(states), labels: figure(labels), hops: figure(hops), initial: figure(initial) }
    }

    /// The graph whose hops are at the front of an output.
    fn graph(self, mut output: Vec<u16>) -> Graph {
        output.truncate(NUMBERS_A_HOP * length(self.hops.into()));
        Graph::new(self.states, self.labels, self.initial, output)
    }
}
