use crate::NUMBERS_A_HOP;
use std::cmp::Ordering;
use std::hash::{Hash, Hasher};
use std::iter::FusedIterator;
use std::num::NonZeroU16;

/// A hop (transition). Hops are ordered as a graph's list must be: by `from`, then `label`, then
/// `to`.
///
/// **Order, equality and hash leave the line out.** Hops that differ in the line alone are equal,
/// have the same hash, and are not both admitted in one graph. To compare lines too, compare
/// `[u16; 4]`s. Two [`Graph`](crate::Graph)s are equal only where their lines are.
///
/// ```
/// use zundrafipo::Hop;
///
/// let hop = Hop::new(0, 1, 2);
/// assert_eq!(hop, Hop { from: 0, label: 1, to: 2, line: 0 });
/// assert!(hop < Hop::new(0, 2, 0));
///
/// let lined = hop.with_line(40);
/// assert_eq!(lined, hop);
/// assert!(lined < Hop::new(0, 1, 3).with_line(7));
/// assert_ne!(<[u16; 4]>::from(lined), <[u16; 4]>::from(hop));
/// ```
#[derive(Clone, Copy, Debug)]
pub struct Hop {
    /// The state it leaves.
    pub from: u16,
    /// Its label. 0 is silent (tau).
    pub label: u16,
    /// The state it leads to.
    pub to: u16,
    /// The line of the source that it comes from, 0 for none.
    pub line: u16,
}

impl Hop {
    /// A hop of these numbers, without a line.
    ///
    /// ```
    /// let hop = zundrafipo::Hop::new(3, 0, 4);
    /// assert_eq!((hop.to, hop.line), (4, 0));
    /// ```
    pub const fn new(from: u16, label: u16, to: u16) -> Hop {
        Hop { from, label, to, line: 0 }
    }

    /// The same hop with this line. With 0 it has none.
    ///
    /// ```
    /// use zundrafipo::Hop;
    ///
    /// assert_eq!(Hop::new(3, 0, 4).with_line(12).line, 12);
    /// ```
    pub const fn with_line(self, line: u16) -> Hop {
        Hop { line, ..self }
    }

    /// Its line, where it has one.
    ///
    /// ```
    /// use zundrafipo::Hop;
    ///
    /// assert_eq!(Hop::new(3, 0, 4).with_line(12).source_line().map(u16::from), Some(12));
    /// assert_eq!(Hop::new(3, 0, 4).source_line(), None);
    /// ```
    pub const fn source_line(self) -> Option<NonZeroU16> {
        NonZeroU16::new(self.line)
    }

    /// Whether its label is 0.
    ///
    /// ```
    /// use zundrafipo::Hop;
    ///
    /// assert!(Hop::new(3, 0, 4).is_silent());
    /// assert!(!Hop::new(3, 1, 4).is_silent());
    /// ```
    pub const fn is_silent(self) -> bool {
        self.label == 0
    }
}

/// By `from`, `label` and `to`.
impl PartialEq for Hop {
    fn eq(&self, other: &Hop) -> bool {
        self.cmp(other).is_eq()
    }
}

impl Eq for Hop {}

/// By `from`, then `label`, then `to`.
impl PartialOrd for Hop {
    fn partial_cmp(&self, other: &Hop) -> Option<Ordering> {
        Some(self.cmp(other))
    }
}

/// By `from`, then `label`, then `to`.
impl Ord for Hop {
    fn cmp(&self, other: &Hop) -> Ordering {
        (self.from, self.label, self.to).cmp(&(other.from, other.label, other.to))
    }
}

/// Of `from`, `label` and `to`.
///
/// ```
/// use std::collections::HashSet;
/// use zundrafipo::Hop;
///
/// assert!(HashSet::from([Hop::new(0, 1, 2)]).contains(&Hop::new(0, 1, 2).with_line(5)));
/// ```
impl Hash for Hop {
    fn hash<H: Hasher>(&self, state: &mut H) {
        (self.from, self.label, self.to).hash(state);
    }
}

/// As they stand in a flat list: from, label, to and line.
impl From<[u16; NUMBERS_A_HOP]> for Hop {
    fn from([from, label, to, line]: [u16; NUMBERS_A_HOP]) -> Hop {
        Hop { from, label, to, line }
    }
}

/// As it stands in a flat list: from, label, to and line.
impl From<Hop> for [u16; NUMBERS_A_HOP] {
    fn from(hop: Hop) -> [u16; NUMBERS_A_HOP] {
        [hop.from, hop.label, hop.to, hop.line]
    }
}

/// A flat list of numbers, or a part of one, seen as hops: four numbers a hop. Numbers past the
/// last whole hop are left out.
///
/// [`Graph::hops`](crate::Graph::hops) and [`Graph::hops_of`](crate::Graph::hops_of) return it.
/// `Hops::from` makes one of any flat list.
///
/// ```
/// use zundrafipo::{Hop, Hops};
///
/// let hops = Hops::from(&[0, 0, 1, 7, 1, 2, 0, 0][..]);
/// assert_eq!(hops.len(), 2);
/// assert_eq!(hops.clone().map(|hop| hop.line).collect::<Vec<_>>(), [7, 0]);
/// assert_eq!(hops.collect::<Vec<_>>(), [Hop::new(0, 0, 1), Hop::new(1, 2, 0)]);
/// ```
#[derive(Clone, Debug)]
pub struct Hops<'a> {
    left: &'a [u16],
}

impl<'a> Hops<'a> {
    /// The numbers of the hops that are left, as a part of the list itself.
    ///
    /// ```
    /// let graph = zundrafipo::Graph::new(2, 2, 0, vec![0, 0, 1, 7, 1, 1, 0, 8]);
    /// let mut hops = graph.hops();
    /// hops.next();
    /// assert_eq!(hops.as_flat(), [1, 1, 0, 8]);
    /// ```
    pub fn as_flat(&self) -> &'a [u16] {
        self.left
    }
}

impl<'a> From<&'a [u16]> for Hops<'a> {
    fn from(flat: &'a [u16]) -> Hops<'a> {
        Hops { left: &flat[..flat.len() - flat.len() % NUMBERS_A_HOP] }
    }
}

impl Iterator for Hops<'_> {
    type Item = Hop;

    fn next(&mut self) -> Option<Hop> {
        let (&hop, left) = self.left.split_first_chunk::<NUMBERS_A_HOP>()?;
        self.left = left;
        Some(Hop::from(hop))
    }

    fn size_hint(&self) -> (usize, Option<usize>) {
        let count = self.left.len() / NUMBERS_A_HOP;
        (count, Some(count))
    }
}

impl DoubleEndedIterator for Hops<'_> {
    fn next_back(&mut self) -> Option<Hop> {
        let (left, &hop) = self.left.split_last_chunk::<NUMBERS_A_HOP>()?;
        self.left = left;
        Some(Hop::from(hop))
    }
}

impl ExactSizeIterator for Hops<'_> {}

impl FusedIterator for Hops<'_> {}
