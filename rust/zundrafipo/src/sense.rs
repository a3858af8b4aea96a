use crate::Refusal;
use std::fmt;

/// A notion of tau-confluence: which sets of silent hops count as confluent.
///
/// A set of silent hops is confluent in a sense when, for each hop s1 to s2 in it and each hop of
/// s1, with label a to s3, there is a hop labelled a that answers it, and a state s4 at which both
/// ways meet. Where a is silent no hop need answer. In every sense the answering hop may be any
/// hop. The senses differ in where hops of the set may stand besides:
///
/// | | before the answering hop | behind it, to s4 | from s3 to s4 |
/// |---|---|---|---|
/// | R1 | none, it leaves s2 | none, it leads to s4 | at most one |
/// | R2 | none | zero or more | at most one |
/// | R3 | zero or more | none | at most one |
/// | R8 | zero or more | zero or more | zero or more |
///
/// The marked hops are those that are in some confluent set of the sense. R1's are among R2's and
/// among R3's, and theirs are among R8's. In each sense the audit of what [`Graph::reduce`] leaves
/// counts no faults.
///
/// [`Graph::reduce`]: crate::Graph::reduce
///
/// ```
/// use zundrafipo::{Graph, Sense};
///
/// let graph = Graph::new(5, 2, 0, vec![0, 0, 1, 0, 0, 1, 2, 0, 1, 1, 3, 0, 2, 0, 4, 0, 4, 0, 3, 0]);
/// assert_eq!(graph.mark(Sense::R1)?, [false, false, false, true, true]);
/// assert_eq!(graph.mark(Sense::R8)?, [true, false, false, true, true]);
/// assert_eq!(Sense::ALL.map(|sense| graph.reduce(sense).map(|short| short.graph.states)), [Ok(3), Ok(3), Ok(3), Ok(2)]);
/// # Ok::<(), zundrafipo::Refusal>(())
/// ```
#[derive(Clone, Copy, Debug, Default, PartialEq, Eq, PartialOrd, Ord, Hash)]
pub enum Sense {
    /// Strong confluence: the answering hop leaves s2 and leads to s4. s4 is s3, or a marked hop
    /// leads from s3 to s4.
    #[default]
    R1 = 1,
    /// As R1, but zero or more marked hops lead from the end of the answering hop to s4.
    R2 = 2,
    /// As R1, but zero or more marked hops come before the answering hop.
    R3 = 3,
    /// Weak confluence: as R2 and R3 at once, and zero or more marked hops lead from s3 to s4.
    R8 = 8,
}

impl Sense {
    /// All four.
    ///
    /// ```
    /// use zundrafipo::Sense;
    ///
    /// assert_eq!(Sense::ALL.map(Sense::number), [1, 2, 3, 8]);
    /// ```
    pub const ALL: [Sense; 4] = [Sense::R1, Sense::R2, Sense::R3, Sense::R8];

    /// Its number.
    ///
    /// ```
    /// assert_eq!(zundrafipo::Sense::R8.number(), 8);
    /// ```
    pub const fn number(self) -> u32 {
        self as u32
    }
}

/// A number as a sense. Any other than 1, 2, 3 and 8 is refused with 19, as the library's entries
/// refuse it.
///
/// ```
/// use zundrafipo::Sense;
///
/// assert_eq!(Sense::try_from(3), Ok(Sense::R3));
/// let refusal = Sense::try_from(4).unwrap_err();
/// assert_eq!(refusal.to_string(), "refused with 19 (a sense that is not 1, 2, 3 or 8), table 1, place 0");
/// ```
impl TryFrom<u32> for Sense {
    type Error = Refusal;

    fn try_from(number: u32) -> Result<Sense, Refusal> {
        Sense::ALL.into_iter().find(|sense| sense.number() == number).ok_or(Refusal { number: 19, table: 1, place: 0 })
    }
}

/// `R1`, `R2`, `R3` or `R8`.
impl fmt::Display for Sense {
    fn fmt(&self, f: &mut fmt::Formatter<'_>) -> fmt::Result {
        write!(f, "R{}", self.number())
    }
}
