use std::fmt;

/// Why an entry refused: the number, the table (which graph) and the place in it. If several
/// refusals apply, an entry returns the one that it asks first. `docs/REFERENCE.md` has the order
/// for each entry.
///
/// Places count from 0, that of a hop in hops.
///
/// | number | place |
/// |---|---|
/// | 3, 4 | the first such hop |
/// | 5 | the lowest state on a ring |
/// | 8 | the map's length where that is wrong, else the first such entry |
/// | 11 | the file's length |
/// | 13 | 66,536 for a file that is longer, else the first byte left over |
/// | 14, reading | the length byte of the first such name, counted from the file's start |
/// | 14, writing | the length of a block that ends early, else the first byte left over, else the length byte of the first such name, counted from the block's start |
/// | every other | 0 |
///
/// ```
/// use zundrafipo::{Graph, Sense};
///
/// let ring = Graph::new(3, 1, 0, vec![0, 0, 1, 0, 1, 0, 2, 0, 2, 0, 1, 0]);
/// let refusal = ring.mark(Sense::R1).unwrap_err();
/// assert_eq!((refusal.number, refusal.table, refusal.place), (5, 1, 1));
/// assert_eq!(refusal.to_string(), "refused with 5 (a ring of silent hops), table 1, place 1");
///
/// let error: Box<dyn std::error::Error> = refusal.into();
/// assert_eq!(error.downcast_ref(), Some(&refusal));
/// ```
#[derive(Clone, Copy, Debug, PartialEq, Eq, Hash)]
pub struct Refusal {
    /// 1 to 14, or 19.
    pub number: u32,
    /// 2 for graph 2 of an audit that is refused with 1 to 4, else 1.
    pub table: u64,
    /// Where, counted from 0.
    pub place: u64,
}

impl Refusal {
    /// When this number is returned.
    ///
    /// ```
    /// use zundrafipo::Graph;
    ///
    /// let refusal = Graph::new(3, 1, 70_000, vec![]).check().unwrap_err();
    /// assert_eq!(refusal.meaning(), "initial state not below the state count");
    ///
    /// let refusal = Graph::new(3, 1, 0, vec![0, 0, 1]).check().unwrap_err();
    /// assert_eq!(refusal.meaning(), "state, label or hop count outside its limits, or flat list length not a multiple of four");
    /// ```
    pub fn meaning(&self) -> &'static str {
        match self.number {
            1 => "state, label or hop count outside its limits, or flat list length not a multiple of four",
            2 => "initial state not below the state count",
            3 => "a hop's state or label not below its count",
            4 => "a hop not above the one before",
            5 => "a ring of silent hops",
            6 => {
                "an output shorter than: marks, one a hop; map, one a state; short hops, four a hop of the input; any other output, what it needs"
            }
            7 => "label counts of graphs 1 and 2 differ",
            8 => "map length not the state count of graph 1, else an entry not below the state count of graph 2",
            9 => "asked place not below the hop count, or its hop not silent",
            10 => "more than 4 rounds",
            11 => "file ends before its contents",
            12 => {
                "bits 4 to 7 of the map byte set, or a bit over a field that holds what absence means (0, no hops, names with label count at most 1, or lines all 0)"
            }
            13 => "file over 66,536 bytes, or bytes left over",
            14 => {
                "name length 0 or over 32, or a name equal to an earlier one; for writing, also a block of more or fewer names than labels 1 upward"
            }
            19 => "a sense that is not 1, 2, 3 or 8",
            _ => "no number of the table",
        }
    }
}

impl fmt::Display for Refusal {
    fn fmt(&self, f: &mut fmt::Formatter<'_>) -> fmt::Result {
        write!(f, "refused with {} ({}), table {}, place {}", self.number, self.meaning(), self.table, self.place)
    }
}

impl std::error::Error for Refusal {}
