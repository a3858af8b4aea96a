//! The archive's functions as `include/zundrafipo.h` declares them.
//!
//! A list of hops has four numbers a hop: from, label, to and line. That holds of inputs and of
//! outputs ([`NUMBERS_A_HOP`](crate::NUMBERS_A_HOP)).
//!
//! Each function writes its answer to `answer`: number, table and place, then its own figures. It
//! returns the number. The answer of [`zf_hops_of`] has figures alone. An answer that is too short
//! is refused with 6, after everything else was asked, and then nothing at all is written.
//!
//! Lengths count elements. A pointer has that many elements behind it; beside a length of 0 it may
//! be null. No output may overlap anything else that is lent in the same call. The safe functions
//! of this crate keep all that by themselves.

extern "C" {
    /// Checks a graph (refusals 1 to 4). Answer: 3 elements.
    pub fn zf_check(states: u32, labels: u32, initial: u32, hops: *const u16, hops_len: usize, answer: *mut u64, answer_len: usize) -> u32;

    /// Marks the hops of the greatest confluent set of a sense. Answer: 3 elements.
    pub fn zf_mark(
        states: u32,
        labels: u32,
        initial: u32,
        hops: *const u16,
        hops_len: usize,
        sense: u32,
        marks: *mut u8,
        marks_len: usize,
        answer: *mut u64,
        answer_len: usize,
    ) -> u32;

    /// Marks the hops of R1 by rounds. Answer: 4 elements, with the number of tests.
    pub fn zf_mark_fast(
        states: u32,
        labels: u32,
        initial: u32,
        hops: *const u16,
        hops_len: usize,
        marks: *mut u8,
        marks_len: usize,
        answer: *mut u64,
        answer_len: usize,
    ) -> u32;

    /// Reduces a graph in a sense. Answer: 7 elements, with the short graph's state count, label
    /// count, hop count and initial state.
    pub fn zf_reduce(
        states: u32,
        labels: u32,
        initial: u32,
        hops: *const u16,
        hops_len: usize,
        sense: u32,
        map: *mut u16,
        map_len: usize,
        short_hops: *mut u16,
        short_len: usize,
        answer: *mut u64,
        answer_len: usize,
    ) -> u32;

    /// Reduces in a sense again and again until no hop is marked. Answer: 8 elements, with the last
    /// graph's state count, label count, hop count and initial state, and the number of reductions
    /// that marked something.
    pub fn zf_shrink(
        states: u32,
        labels: u32,
        initial: u32,
        hops: *const u16,
        hops_len: usize,
        sense: u32,
        map: *mut u16,
        map_len: usize,
        short_hops: *mut u16,
        short_len: usize,
        answer: *mut u64,
        answer_len: usize,
    ) -> u32;

    /// Counts the faults of a map from graph 1 to graph 2 and names the first. Answer: 7 elements,
    /// with the fault count and the first fault's kind, place and state.
    pub fn zf_audit(
        states1: u32,
        labels1: u32,
        initial1: u32,
        hops1: *const u16,
        hops1_len: usize,
        states2: u32,
        labels2: u32,
        initial2: u32,
        hops2: *const u16,
        hops2_len: usize,
        map: *const u16,
        map_len: usize,
        answer: *mut u64,
        answer_len: usize,
    ) -> u32;

    /// The round question. Answer: 4 elements, with 1 or 0.
    pub fn zf_round(
        states: u32,
        labels: u32,
        initial: u32,
        hops: *const u16,
        hops_len: usize,
        place: u64,
        rounds: u32,
        answer: *mut u64,
        answer_len: usize,
    ) -> u32;

    /// Looks a hop up. Answer: 5 elements, with 1 or 0 and its place, or the number of hops before
    /// it.
    pub fn zf_find(
        states: u32,
        labels: u32,
        initial: u32,
        hops: *const u16,
        hops_len: usize,
        from: u32,
        label: u32,
        to: u32,
        answer: *mut u64,
        answer_len: usize,
    ) -> u32;

    /// The outgoing hops of a state. Answer: 2 elements, start and length in numbers of that side's
    /// list. Returns 0, or 6 for an answer that is too short.
    pub fn zf_hops_of(
        side: u32,
        state: u32,
        states1: u32,
        labels1: u32,
        initial1: u32,
        hops1: *const u16,
        hops1_len: usize,
        states2: u32,
        labels2: u32,
        initial2: u32,
        hops2: *const u16,
        hops2_len: usize,
        answer: *mut u64,
        answer_len: usize,
    ) -> u32;

    /// Reads a graph file. Answer: 9 elements, with state count, label count, initial state, hop
    /// count, place and length of the name block.
    pub fn zf_read(file: *const u8, file_len: usize, hops: *mut u16, hops_len: usize, answer: *mut u64, answer_len: usize) -> u32;

    /// Writes a graph file. Answer: 4 elements, with the file's length.
    pub fn zf_write(
        states: u32,
        labels: u32,
        initial: u32,
        hops: *const u16,
        hops_len: usize,
        names: *const u8,
        names_len: usize,
        out: *mut u8,
        out_len: usize,
        answer: *mut u64,
        answer_len: usize,
    ) -> u32;
}
