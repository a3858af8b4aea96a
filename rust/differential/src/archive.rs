//! The functions of an archive, of the one that is linked or of one that was loaded while running, as the entries in one form.

use crate::entries::{Entries, Graph, NUMBERS};
use std::cell::RefCell;
use std::ffi::c_void;
use std::rc::Rc;

type Check = unsafe extern "C" fn(u32, u32, u32, *const u16, usize, *mut u64, usize) -> u32;
type Find = unsafe extern "C" fn(u32, u32, u32, *const u16, usize, u32, u32, u32, *mut u64, usize) -> u32;
type Mark = unsafe extern "C" fn(u32, u32, u32, *const u16, usize, u32, *mut u8, usize, *mut u64, usize) -> u32;
type MarkR1 = unsafe extern "C" fn(u32, u32, u32, *const u16, usize, *mut u8, usize, *mut u64, usize) -> u32;
/// Shrink has the same form.
type Reduce = unsafe extern "C" fn(u32, u32, u32, *const u16, usize, u32, *mut u16, usize, *mut u16, usize, *mut u64, usize) -> u32;
type ReduceR1 = unsafe extern "C" fn(u32, u32, u32, *const u16, usize, *mut u16, usize, *mut u16, usize, *mut u64, usize) -> u32;
type Audit = unsafe extern "C" fn(u32, u32, u32, *const u16, usize, u32, u32, u32, *const u16, usize, *const u16, usize, *mut u64, usize) -> u32;
type Round = unsafe extern "C" fn(u32, u32, u32, *const u16, usize, u64, u32, *mut u64, usize) -> u32;
type HopsOf = unsafe extern "C" fn(u32, u32, u32, u32, u32, *const u16, usize, u32, u32, u32, *const u16, usize, *mut u64, usize) -> u32;
type Read = unsafe extern "C" fn(*const u8, usize, *mut u16, usize, *mut u64, usize) -> u32;
type Write = unsafe extern "C" fn(u32, u32, u32, *const u16, usize, *const u8, usize, *mut u8, usize, *mut u64, usize) -> u32;

/// Mark and reduce. Those of archives before version 0.3.0 take no sense: theirs is R1.
enum Sensed {
    Asked { mark: Mark, reduce: Reduce },
    R1 { mark: MarkR1, reduce: ReduceR1 },
}

/// The functions, as `include/zundrafipo.h` declares them.
pub struct Archive {
    check: Check,
    /// The first archives have none.
    find: Option<Find>,
    /// Those of versions before 0.4.0 have none.
    shrink: Option<Reduce>,
    sensed: Sensed,
    mark_fast: MarkR1,
    audit: Audit,
    round: Round,
    hops_of: HopsOf,
    read: Read,
    write: Write,
}

/// The proved library that is linked.
#[cfg(feature = "library")]
pub static LINKED: Archive = {
    use zundrafipo::ffi::*;
    Archive {
        check: zf_check,
        find: Some(zf_find),
        shrink: Some(zf_shrink),
        sensed: Sensed::Asked { mark: zf_mark, reduce: zf_reduce },
        mark_fast: zf_mark_fast,
        audit: zf_audit,
        round: zf_round,
        hops_of: zf_hops_of,
        read: zf_read,
        write: zf_write,
    }
};

impl Archive {
    /// The functions that stand where they are said to, by name; null where there is none. It is said, too, whether mark and reduce take a sense: their names do not
    /// tell.
    ///
    /// # Safety
    ///
    /// Each address that is not null is that of the archive's function of this name, and stays it; mark and reduce are as is said.
    pub unsafe fn at(takes_sense: bool, address: impl Fn(&str) -> *mut c_void) -> Archive {
        use std::mem::transmute;
        let there = |name| {
            let address = address(name);
            assert!(!address.is_null(), "the archive has no {name}");
            address
        };
        let (mark, reduce) = (there("zf_mark"), there("zf_reduce"));
        let sensed = if takes_sense {
            Sensed::Asked { mark: transmute::<*mut c_void, Mark>(mark), reduce: transmute::<*mut c_void, Reduce>(reduce) }
        } else {
            Sensed::R1 { mark: transmute::<*mut c_void, MarkR1>(mark), reduce: transmute::<*mut c_void, ReduceR1>(reduce) }
        };
        Archive {
            check: transmute::<*mut c_void, Check>(there("zf_check")),
            find: transmute::<*mut c_void, Option<Find>>(address("zf_find")),
            shrink: transmute::<*mut c_void, Option<Reduce>>(address("zf_shrink")),
            sensed,
            mark_fast: transmute::<*mut c_void, MarkR1>(there("zf_mark_fast")),
            audit: transmute::<*mut c_void, Audit>(there("zf_audit")),
            round: transmute::<*mut c_void, Round>(there("zf_round")),
            hops_of: transmute::<*mut c_void, HopsOf>(there("zf_hops_of")),
            read: transmute::<*mut c_void, Read>(there("zf_read")),
            write: transmute::<*mut c_void, Write>(there("zf_write")),
        }
    }

    /// Whether its mark and reduce take a sense.
    pub fn takes_sense(&self) -> bool {
        matches!(self.sensed, Sensed::Asked { .. })
    }

    /// Whether it can look a hop up.
    pub fn finds(&self) -> bool {
        self.find.is_some()
    }

    /// Whether it can reduce until nothing is marked.
    pub fn shrinks(&self) -> bool {
        self.shrink.is_some()
    }
}

// SAFETY of every call: each pointer stands with the length of the slice it is of, and what is written to is borrowed alone.
impl Entries for Archive {
    fn name(&self) -> &'static str {
        "library"
    }

    fn check(&self, g: &Graph, answer: &mut [u64]) -> u32 {
        unsafe { (self.check)(g.states, g.labels, g.initial, g.hops.as_ptr(), g.hops.len(), answer.as_mut_ptr(), answer.len()) }
    }

    fn find(&self, g: &Graph, [from, label, to]: [u32; 3], answer: &mut [u64]) -> u32 {
        let find = self.find.expect("an archive with zf_find");
        let (hops, len) = (g.hops.as_ptr(), g.hops.len());
        unsafe { find(g.states, g.labels, g.initial, hops, len, from, label, to, answer.as_mut_ptr(), answer.len()) }
    }

    fn mark(&self, g: &Graph, sense: u32, marks: &mut [u8], answer: &mut [u64]) -> u32 {
        let (hops, len) = (g.hops.as_ptr(), g.hops.len());
        let (out, out_len) = (marks.as_mut_ptr(), marks.len());
        let (answer, answer_len) = (answer.as_mut_ptr(), answer.len());
        match self.sensed {
            Sensed::Asked { mark, .. } => unsafe { mark(g.states, g.labels, g.initial, hops, len, sense, out, out_len, answer, answer_len) },
            Sensed::R1 { mark, .. } => {
                assert_eq!(sense, 1, "an archive that takes a sense");
                unsafe { mark(g.states, g.labels, g.initial, hops, len, out, out_len, answer, answer_len) }
            }
        }
    }

    fn mark_fast(&self, g: &Graph, marks: &mut [u8], answer: &mut [u64]) -> u32 {
        let (hops, len) = (g.hops.as_ptr(), g.hops.len());
        let (out, out_len) = (marks.as_mut_ptr(), marks.len());
        unsafe { (self.mark_fast)(g.states, g.labels, g.initial, hops, len, out, out_len, answer.as_mut_ptr(), answer.len()) }
    }

    fn reduce(&self, g: &Graph, sense: u32, map: &mut [u16], short: &mut [u16], answer: &mut [u64]) -> u32 {
        let (hops, len) = (g.hops.as_ptr(), g.hops.len());
        let (map, map_len) = (map.as_mut_ptr(), map.len());
        let (short, short_len) = (short.as_mut_ptr(), short.len());
        let (answer, answer_len) = (answer.as_mut_ptr(), answer.len());
        let Graph { states, labels, initial, .. } = *g;
        match self.sensed {
            Sensed::Asked { reduce, .. } => unsafe {
                reduce(states, labels, initial, hops, len, sense, map, map_len, short, short_len, answer, answer_len)
            },
            Sensed::R1 { reduce, .. } => {
                assert_eq!(sense, 1, "an archive that takes a sense");
                unsafe { reduce(states, labels, initial, hops, len, map, map_len, short, short_len, answer, answer_len) }
            }
        }
    }

    fn shrink(&self, g: &Graph, sense: u32, map: &mut [u16], short: &mut [u16], answer: &mut [u64]) -> u32 {
        let shrink = self.shrink.expect("an archive with zf_shrink");
        let (hops, len) = (g.hops.as_ptr(), g.hops.len());
        let (map, map_len) = (map.as_mut_ptr(), map.len());
        let (short, short_len) = (short.as_mut_ptr(), short.len());
        let (answer, answer_len) = (answer.as_mut_ptr(), answer.len());
        unsafe { shrink(g.states, g.labels, g.initial, hops, len, sense, map, map_len, short, short_len, answer, answer_len) }
    }

    fn audit(&self, one: &Graph, two: &Graph, map: &[u16], answer: &mut [u64]) -> u32 {
        unsafe {
            (self.audit)(
                one.states,
                one.labels,
                one.initial,
                one.hops.as_ptr(),
                one.hops.len(),
                two.states,
                two.labels,
                two.initial,
                two.hops.as_ptr(),
                two.hops.len(),
                map.as_ptr(),
                map.len(),
                answer.as_mut_ptr(),
                answer.len(),
            )
        }
    }

    fn round(&self, g: &Graph, place: u64, rounds: u32, answer: &mut [u64]) -> u32 {
        let (hops, len) = (g.hops.as_ptr(), g.hops.len());
        unsafe { (self.round)(g.states, g.labels, g.initial, hops, len, place, rounds, answer.as_mut_ptr(), answer.len()) }
    }

    fn hops_of(&self, side: u32, state: u32, one: &Graph, two: &Graph, answer: &mut [u64]) -> u32 {
        unsafe {
            (self.hops_of)(
                side,
                state,
                one.states,
                one.labels,
                one.initial,
                one.hops.as_ptr(),
                one.hops.len(),
                two.states,
                two.labels,
                two.initial,
                two.hops.as_ptr(),
                two.hops.len(),
                answer.as_mut_ptr(),
                answer.len(),
            )
        }
    }

    fn read(&self, file: &[u8], hops: &mut [u16], answer: &mut [u64]) -> u32 {
        unsafe { (self.read)(file.as_ptr(), file.len(), hops.as_mut_ptr(), hops.len(), answer.as_mut_ptr(), answer.len()) }
    }

    fn write(&self, g: &Graph, names: &[u8], out: &mut [u8], answer: &mut [u64]) -> u32 {
        let (hops, len) = (g.hops.as_ptr(), g.hops.len());
        let (names, names_len) = (names.as_ptr(), names.len());
        let (out, out_len) = (out.as_mut_ptr(), out.len());
        let (answer, answer_len) = (answer.as_mut_ptr(), answer.len());
        unsafe { (self.write)(g.states, g.labels, g.initial, hops, len, names, names_len, out, out_len, answer, answer_len) }
    }
}

/// An archive before version 0.5.0, whose hops have three numbers: from, label and to. It is lent lists without the lines, which are made once for each graph, and writes
/// such lists. Files have no lines.
pub struct WithoutLines<'a> {
    archive: &'a Archive,
    /// The graphs that were lent, by the place of their lists, with what the archive is lent for them. They must stay where they are.
    lent: RefCell<Vec<(*const u16, Rc<Graph>)>>,
}

impl<'a> WithoutLines<'a> {
    pub fn new(archive: &'a Archive) -> WithoutLines<'a> {
        WithoutLines { archive, lent: RefCell::default() }
    }

    fn lend(&self, g: &Graph) -> Rc<Graph> {
        let mut lent = self.lent.borrow_mut();
        if let Some((_, without)) = lent.iter().find(|(place, _)| *place == g.hops.as_ptr()) {
            return without.clone();
        }
        let without = Rc::new(Graph { hops: without_lines(&g.hops), ..*g });
        lent.push((g.hops.as_ptr(), without.clone()));
        without
    }
}

/// A list of four numbers a hop as one of three.
pub fn without_lines(hops: &[u16]) -> Vec<u16> {
    hops.chunks_exact(NUMBERS).flat_map(|hop| [hop[0], hop[1], hop[2]]).collect()
}

impl Entries for WithoutLines<'_> {
    fn name(&self) -> &'static str {
        "library before 0.5.0"
    }

    fn check(&self, g: &Graph, answer: &mut [u64]) -> u32 {
        self.archive.check(&self.lend(g), answer)
    }

    fn find(&self, g: &Graph, hop: [u32; 3], answer: &mut [u64]) -> u32 {
        self.archive.find(&self.lend(g), hop, answer)
    }

    fn mark(&self, g: &Graph, sense: u32, marks: &mut [u8], answer: &mut [u64]) -> u32 {
        self.archive.mark(&self.lend(g), sense, marks, answer)
    }

    fn mark_fast(&self, g: &Graph, marks: &mut [u8], answer: &mut [u64]) -> u32 {
        self.archive.mark_fast(&self.lend(g), marks, answer)
    }

    fn reduce(&self, g: &Graph, sense: u32, map: &mut [u16], short: &mut [u16], answer: &mut [u64]) -> u32 {
        self.archive.reduce(&self.lend(g), sense, map, short, answer)
    }

    fn shrink(&self, g: &Graph, sense: u32, map: &mut [u16], short: &mut [u16], answer: &mut [u64]) -> u32 {
        self.archive.shrink(&self.lend(g), sense, map, short, answer)
    }

    fn audit(&self, one: &Graph, two: &Graph, map: &[u16], answer: &mut [u64]) -> u32 {
        self.archive.audit(&self.lend(one), &self.lend(two), map, answer)
    }

    fn round(&self, g: &Graph, place: u64, rounds: u32, answer: &mut [u64]) -> u32 {
        self.archive.round(&self.lend(g), place, rounds, answer)
    }

    fn hops_of(&self, side: u32, state: u32, one: &Graph, two: &Graph, answer: &mut [u64]) -> u32 {
        self.archive.hops_of(side, state, &self.lend(one), &self.lend(two), answer)
    }

    fn read(&self, file: &[u8], hops: &mut [u16], answer: &mut [u64]) -> u32 {
        self.archive.read(file, hops, answer)
    }

    fn write(&self, g: &Graph, names: &[u8], out: &mut [u8], answer: &mut [u64]) -> u32 {
        self.archive.write(&self.lend(g), names, out, answer)
    }
}
