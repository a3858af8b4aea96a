use crate::{figure, length, Graph, Hop, Names};
use std::fmt;

/// What [`Graph::audit`] found.
///
/// ```
/// use zundrafipo::{Audit, Fault, Graph};
///
/// let graph = Graph::new(2, 2, 0, vec![0, 1, 1, 0]);
/// assert_eq!(graph.audit(&graph, &[0, 1])?, Audit { faults: 0, first: None });
/// assert_eq!(graph.audit(&graph, &[1, 0])?, Audit { faults: 3, first: Some(Fault::Initial) });
/// # Ok::<(), zundrafipo::Refusal>(())
/// ```
#[derive(Clone, Copy, Debug, PartialEq, Eq, Hash)]
pub struct Audit {
    /// The fault count, at most 4,198,401. It is 0 exactly when the map is a branching bisimulation
    /// that joins the initial states.
    pub faults: u64,
    /// The first fault, which is the least in the order of [`Fault`]. It is `None` exactly when
    /// there is no fault.
    pub first: Option<Fault>,
}

/// A fault of a map from graph 1 to graph 2: a place where the map is no branching bisimulation, or
/// does not join the initial states.
///
/// Faults are ordered by kind, then by the place of the hop, then by the state.
///
/// ```
/// use zundrafipo::{Fault, Graph};
///
/// let graph = Graph::new(4, 2, 0, vec![0, 0, 1, 0, 0, 1, 2, 0, 1, 1, 3, 0, 2, 0, 3, 0]);
/// let map = [0, 0, 1, 1];
/// let first = |hops| graph.audit(&Graph::new(2, 2, 0, hops), &map).map(|audit| audit.first);
/// assert_eq!(first(vec![0, 1, 1, 0])?, None);
/// assert_eq!(first(vec![0, 1, 1, 9])?, None);
/// assert_eq!(first(vec![])?, Some(Fault::Lost { place: 1 }));
/// assert_eq!(first(vec![0, 1, 1, 0, 1, 1, 1, 0])?, Some(Fault::MadeUp { place: 1, state: 2 }));
/// # Ok::<(), zundrafipo::Refusal>(())
/// ```
#[derive(Clone, Copy, Debug, PartialEq, Eq, PartialOrd, Ord, Hash)]
pub enum Fault {
    /// Kind 1: the map of the initial state of graph 1 is not that of graph 2.
    Initial,
    /// Kind 2: a hop of graph 1 that graph 2 does not have between the states to which its ends are
    /// mapped. A silent hop whose ends are mapped to one state is no fault.
    Lost {
        /// The hop's place in graph 1.
        place: usize,
    },
    /// Kind 3: a hop of graph 2, and a state of graph 1 that is mapped to where the hop starts and
    /// does not answer it.
    MadeUp {
        /// The hop's place in graph 2.
        place: usize,
        /// The state of graph 1.
        state: u32,
    },
}

impl Fault {
    /// The fault that an answer's figures name.
    pub(crate) fn named(kind: u64, place: u64, state: u64) -> Option<Fault> {
        match kind {
            1 => Some(Fault::Initial),
            2 => Some(Fault::Lost { place: length(place) }),
            3 => Some(Fault::MadeUp { place: length(place), state: figure(state) }),
            _ => None,
        }
    }

    /// 1, 2 or 3.
    ///
    /// ```
    /// use zundrafipo::Fault;
    ///
    /// let faults = [Fault::Initial, Fault::Lost { place: 7 }, Fault::MadeUp { place: 0, state: 3 }];
    /// assert_eq!(faults.map(|fault| fault.kind()), [1, 2, 3]);
    /// assert!(faults[0] < faults[1] && faults[1] < faults[2]);
    /// ```
    pub const fn kind(self) -> u32 {
        match self {
            Fault::Initial => 1,
            Fault::Lost { .. } => 2,
            Fault::MadeUp { .. } => 3,
        }
    }

    /// The place of the hop in its graph: in graph 1 for kind 2, in graph 2 for kind 3. It is 0 for
    /// kind 1.
    ///
    /// ```
    /// use zundrafipo::Fault;
    ///
    /// assert_eq!([Fault::Initial, Fault::Lost { place: 7 }].map(|fault| fault.place()), [0, 7]);
    /// ```
    pub const fn place(self) -> usize {
        match self {
            Fault::Initial => 0,
            Fault::Lost { place } | Fault::MadeUp { place, .. } => place,
        }
    }

    /// The state of graph 1 for kind 3; 0 for the other kinds.
    ///
    /// ```
    /// use zundrafipo::Fault;
    ///
    /// assert_eq!([Fault::Lost { place: 7 }, Fault::MadeUp { place: 0, state: 3 }].map(|fault| fault.state()), [0, 3]);
    /// ```
    pub const fn state(self) -> u32 {
        match self {
            Fault::Initial | Fault::Lost { .. } => 0,
            Fault::MadeUp { state, .. } => state,
        }
    }

    /// The fault as a sentence.
    ///
    /// It has the numbers of the hop, or of the initial states. It has the label's name where
    /// `names` has one, and the hop's source line where it has one. `names` is a name block as
    /// [`Graph::write`] takes it; empty means no names. If the graph has no hop at the place, the
    /// sentence is that of [`Fault`]'s `Display`.
    ///
    /// ```
    /// use zundrafipo::{Fault, Graph, NameBlock};
    ///
    /// let one = Graph::new(4, 2, 0, vec![0, 0, 1, 3, 0, 1, 2, 4, 1, 1, 3, 5, 2, 0, 3, 2]);
    /// let two = Graph::new(2, 2, 0, vec![0, 1, 1, 5, 1, 1, 1, 0]);
    /// let names = NameBlock::from_names(["pass"])?;
    /// let fault = one.audit(&two, &[0, 0, 1, 1])?.first.expect("two faults");
    /// assert_eq!(
    ///     fault.describe(&one, &two, names.as_bytes()),
    ///     "hop (1,1,1) \"pass\", at place 1 of graph 2, is made up: state 2 of graph 1 is mapped to 1 and does not answer it"
    /// );
    /// assert_eq!(
    ///     Fault::Lost { place: 0 }.describe(&one, &two, b""),
    ///     "silent hop (0,0,1), from line 3, at place 0 of graph 1, is lost: graph 2 has no such hop between what 0 and 1 are mapped to"
    /// );
    /// assert_eq!(Fault::Lost { place: 9 }.describe(&one, &two, b""), Fault::Lost { place: 9 }.to_string());
    /// # Ok::<(), zundrafipo::Refusal>(())
    /// ```
    pub fn describe(self, one: &Graph, two: &Graph, names: &[u8]) -> String {
        let hop_of = |graph: &Graph| graph.hops().nth(self.place());
        let (hop, graph, why) = match self {
            Fault::Initial => {
                return format!("initial state {} of graph 1 is not mapped to initial state {} of graph 2", one.initial, two.initial);
            }
            Fault::Lost { .. } => match hop_of(one) {
                Some(hop) => (hop, 1, format!("lost: graph 2 has no such hop between what {} and {} are mapped to", hop.from, hop.to)),
                None => return self.to_string(),
            },
            Fault::MadeUp { state, .. } => match hop_of(two) {
                Some(hop) => (hop, 2, format!("made up: state {state} of graph 1 is mapped to {} and does not answer it", hop.from)),
                None => return self.to_string(),
            },
        };
        let source = hop.source_line().map_or(String::new(), |line| format!(", from line {line}"));
        format!("{}{source}, at place {} of graph {graph}, is {why}", shown(hop, names), self.place())
    }
}

/// A hop by its numbers, with its label's name where there is one. A name may hold any bytes: those
/// that are not printable ASCII are escaped.
fn shown(hop: Hop, names: &[u8]) -> String {
    let Hop { from, label, to, .. } = hop;
    if hop.is_silent() {
        return format!("silent hop ({from},{label},{to})");
    }
    match (Names { left: names }).nth(usize::from(label) - 1) {
        Some(name) => format!("hop ({from},{label},{to}) \"{}\"", name.escape_ascii()),
        None => format!("hop ({from},{label},{to})"),
    }
}

/// The fault without the graphs. [`Fault::describe`] has the hop's numbers too.
///
/// ```
/// use zundrafipo::Fault;
///
/// assert_eq!(Fault::Initial.to_string(), "the initial state of graph 1 is not mapped to that of graph 2");
/// assert_eq!(Fault::Lost { place: 1 }.to_string(), "the hop at place 1 of graph 1 is lost in graph 2");
/// assert_eq!(
///     Fault::MadeUp { place: 1, state: 2 }.to_string(),
///     "the hop at place 1 of graph 2 is made up: state 2 of graph 1 does not answer it"
/// );
/// ```
impl fmt::Display for Fault {
    fn fmt(&self, f: &mut fmt::Formatter<'_>) -> fmt::Result {
        match self {
            Fault::Initial => write!(f, "the initial state of graph 1 is not mapped to that of graph 2"),
            Fault::Lost { place } => write!(f, "the hop at place {place} of graph 1 is lost in graph 2"),
            Fault::MadeUp { place, state } => {
                write!(f, "the hop at place {place} of graph 2 is made up: state {state} of graph 1 does not answer it")
            }
        }
    }
}
