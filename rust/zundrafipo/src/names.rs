use crate::Refusal;
use std::iter::FusedIterator;

/// The most bytes that a name can have.
const LONGEST_NAME: usize = 32;

/// A name block (label table), made name by name for the labels from 1 upward.
/// [`Graph::write`](crate::Graph::write) takes it.
///
/// A name of no bytes, of more than 32, or with the bytes of an earlier name is refused when it is
/// added. The refusal is the one that writing would give: number 14, and the place where the length
/// byte would stand. A block with too many or too few names for a graph is refused by
/// [`Graph::write`](crate::Graph::write).
///
/// ```
/// use zundrafipo::{read, Graph, NameBlock};
///
/// let mut names = NameBlock::new();
/// names.push("pass")?.push("dump")?;
/// assert_eq!(names.as_bytes(), b"\x04pass\x04dump");
///
/// let file = Graph::new(2, 3, 0, vec![0, 1, 1, 0, 0, 2, 1, 0]).write(names.as_bytes())?;
/// assert_eq!(read(&file)?.names().collect::<Vec<_>>(), [b"pass", b"dump"]);
/// # Ok::<(), zundrafipo::Refusal>(())
/// ```
#[derive(Clone, Debug, Default, PartialEq, Eq, Hash)]
pub struct NameBlock {
    bytes: Vec<u8>,
}

impl NameBlock {
    /// A block without names.
    ///
    /// ```
    /// assert!(zundrafipo::NameBlock::new().as_bytes().is_empty());
    /// ```
    pub fn new() -> NameBlock {
        NameBlock::default()
    }

    /// The block of these names, the first for label 1.
    ///
    /// ```
    /// use zundrafipo::NameBlock;
    ///
    /// assert_eq!(NameBlock::from_names(["a", "bc"])?.as_bytes(), b"\x01a\x02bc");
    /// assert_eq!(NameBlock::from_names(["a", "bc", "a"]).unwrap_err().place, 5);
    /// # Ok::<(), zundrafipo::Refusal>(())
    /// ```
    pub fn from_names<N: AsRef<[u8]>>(names: impl IntoIterator<Item = N>) -> Result<NameBlock, Refusal> {
        let mut block = NameBlock::new();
        for name in names {
            block.push(name)?;
        }
        Ok(block)
    }

    /// Adds the name of the next label. With a refusal the block stays as it is.
    ///
    /// ```
    /// use zundrafipo::{NameBlock, Refusal};
    ///
    /// let mut names = NameBlock::new();
    /// assert_eq!(names.push(""), Err(Refusal { number: 14, table: 1, place: 0 }));
    /// names.push([255; 32])?;
    /// assert_eq!(names.push("x".repeat(33)).unwrap_err().place, 33);
    /// assert_eq!(names.names().count(), 1);
    /// # Ok::<(), zundrafipo::Refusal>(())
    /// ```
    pub fn push(&mut self, name: impl AsRef<[u8]>) -> Result<&mut NameBlock, Refusal> {
        let name = name.as_ref();
        match u8::try_from(name.len()) {
            Ok(length) if !name.is_empty() && name.len() <= LONGEST_NAME && self.names().all(|earlier| earlier != name) => {
                self.bytes.push(length);
                self.bytes.extend_from_slice(name);
                Ok(self)
            }
            _ => Err(Refusal { number: 14, table: 1, place: self.bytes.len() as u64 }),
        }
    }

    /// The names of the labels from 1 upward.
    ///
    /// ```
    /// let names = zundrafipo::NameBlock::from_names(["a", "bc"])?;
    /// assert_eq!(names.names().last(), Some(&b"bc"[..]));
    /// # Ok::<(), zundrafipo::Refusal>(())
    /// ```
    pub fn names(&self) -> Names<'_> {
        Names { left: &self.bytes }
    }

    /// The block: for each name a length byte and that many bytes.
    ///
    /// ```
    /// assert_eq!(zundrafipo::NameBlock::from_names(["on"])?.as_bytes(), [2, b'o', b'n']);
    /// # Ok::<(), zundrafipo::Refusal>(())
    /// ```
    pub fn as_bytes(&self) -> &[u8] {
        &self.bytes
    }
}

/// The names of a block in the order of their labels. [`File::names`](crate::File::names) and
/// [`NameBlock::names`] return it.
///
/// ```
/// let names: zundrafipo::Names = zundrafipo::read(b"\x00\x01\x00\x02\x00")?.names();
/// assert_eq!(names.count(), 0);
/// # Ok::<(), zundrafipo::Refusal>(())
/// ```
#[derive(Clone, Debug)]
pub struct Names<'a> {
    pub(crate) left: &'a [u8],
}

impl<'a> Iterator for Names<'a> {
    type Item = &'a [u8];

    fn next(&mut self) -> Option<&'a [u8]> {
        let (&length, behind) = self.left.split_first()?;
        let (name, left) = behind.split_at_checked(usize::from(length))?;
        self.left = left;
        Some(name)
    }
}

impl FusedIterator for Names<'_> {}
