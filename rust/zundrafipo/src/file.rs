use crate::{ffi, figure, judge, length, Graph, Names, Refusal, MOST_HOPS, NUMBERS_A_HOP};

/// A file that was read: its graph, and its name block as a part of the bytes that were lent.
///
/// ```
/// let file = zundrafipo::read(b"\x04\x01\x00\x03\x00\x01a\x02bc")?;
/// assert_eq!(file.graph, zundrafipo::Graph::new(1, 3, 0, vec![]));
/// assert_eq!(file.name_block, b"\x01a\x02bc");
/// assert_eq!(file.names().collect::<Vec<_>>(), [&b"a"[..], b"bc"]);
/// assert_eq!(file.graph.write(file.name_block)?, b"\x04\x01\x00\x03\x00\x01a\x02bc");
///
/// // one hop, its name and its line
/// let file = zundrafipo::read(b"\x0e\x01\x00\x02\x00\x01\x00\x00\x00\x01\x00\x00\x00\x01a\x07\x00")?;
/// assert_eq!(file.graph, zundrafipo::Graph::new(1, 2, 0, vec![0, 1, 0, 7]));
/// assert_eq!(file.name_block, b"\x01a");
/// # Ok::<(), zundrafipo::Refusal>(())
/// ```
#[derive(Clone, Debug, PartialEq, Eq)]
pub struct File<'a> {
    /// The graph.
    pub graph: Graph,
    /// The name block, which ends where the lines begin. It is empty for a file without names.
    pub name_block: &'a [u8],
}

impl<'a> File<'a> {
    /// The names of the labels from 1 upward.
    ///
    /// ```
    /// let file = zundrafipo::read(b"\x04\x01\x00\x02\x00\x04pass")?;
    /// assert_eq!(file.names().next(), Some(&b"pass"[..]));
    /// # Ok::<(), zundrafipo::Refusal>(())
    /// ```
    pub fn names(&self) -> Names<'a> {
        Names { left: self.name_block }
    }

    /// The name of a label. The silent label has none. In a file without names no label has one.
    ///
    /// ```
    /// let file = zundrafipo::read(b"\x04\x01\x00\x03\x00\x01a\x02bc")?;
    /// assert_eq!([0, 1, 2, 3].map(|label| file.name(label)), [None, Some(&b"a"[..]), Some(b"bc"), None]);
    /// # Ok::<(), zundrafipo::Refusal>(())
    /// ```
    pub fn name(&self, label: u16) -> Option<&'a [u8]> {
        self.names().nth(usize::from(label).checked_sub(1)?)
    }
}

/// The figures of a file whose hops are in a lent output ([`read_into`]).
///
/// ```
/// use zundrafipo::{read_into, Figures};
///
/// let figures = read_into(b"\x00\x03\x00\x01\x00", &mut [])?;
/// assert_eq!(figures, Figures { states: 3, labels: 1, initial: 0, hops: 0, names_place: 0, names_length: 0 });
/// # Ok::<(), zundrafipo::Refusal>(())
/// ```
#[derive(Clone, Copy, Debug, PartialEq, Eq, Hash)]
pub struct Figures {
    /// State count.
    pub states: u32,
    /// Label count.
    pub labels: u32,
    /// Initial state.
    pub initial: u32,
    /// Hop count. The output holds four numbers for each hop.
    pub hops: u32,
    /// The place of the name block in the file; 0 without names.
    pub names_place: usize,
    /// The length of the name block; 0 without names.
    pub names_length: usize,
}

/// Reads a graph file. Where the file has no lines, all lines are 0.
///
/// ```
/// use zundrafipo::{read, Graph};
///
/// let file = read(&[2, 2, 0, 2, 0, 1, 0, 0, 0, 1, 0, 1, 0])?;
/// assert_eq!(file.graph, Graph::new(2, 2, 0, vec![0, 1, 1, 0]));
/// let file = read(&[10, 2, 0, 2, 0, 1, 0, 0, 0, 1, 0, 1, 0, 44, 1])?;
/// assert_eq!(file.graph, Graph::new(2, 2, 0, vec![0, 1, 1, 300]));
/// assert_eq!(read(&[]).unwrap_err().number, 11);
/// # Ok::<(), zundrafipo::Refusal>(())
/// ```
pub fn read(file: &[u8]) -> Result<File<'_>, Refusal> {
    let mut hops = vec![0; NUMBERS_A_HOP * MOST_HOPS];
    let figures = read_into(file, &mut hops)?;
    hops.truncate(NUMBERS_A_HOP * length(figures.hops.into()));
    let graph = Graph::new(figures.states, figures.labels, figures.initial, hops);
    Ok(File { graph, name_block: &file[figures.names_place..figures.names_place + figures.names_length] })
}

/// Reads a graph file and writes its hops to the front of `hops`, which needs four numbers for each
/// hop of the file. Nothing is written past them, and nothing at all with a refusal.
///
/// ```
/// let mut hops = [9; 5];
/// let figures = zundrafipo::read_into(&[2, 2, 0, 2, 0, 1, 0, 0, 0, 1, 0, 1, 0], &mut hops)?;
/// assert_eq!((figures.hops, hops), (1, [0, 1, 1, 0, 9]));
/// # Ok::<(), zundrafipo::Refusal>(())
/// ```
pub fn read_into(file: &[u8], hops: &mut [u16]) -> Result<Figures, Refusal> {
    let mut answer = [0; 9];
    // SAFETY: each pointer comes with the length of its slice. Output and answer are borrowed
    // alone.
    let number = unsafe { ffi::zf_read(file.as_ptr(), file.len(), hops.as_mut_ptr(), hops.len(), answer.as_mut_ptr(), answer.len()) };
    let [_, _, _, states, labels, initial, count, place, block] = judge(number, answer)?;
    Ok(Figures {
        states: figure(states),
        labels: figure(labels),
        initial: figure(initial),
        hops: figure(count),
        names_place: length(place),
        names_length: length(block),
    })
}
