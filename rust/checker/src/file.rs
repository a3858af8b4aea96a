//! The file, read and written.

use crate::graph::Graph;
use crate::{refuse, written, Answer, Refusal};
use std::collections::HashSet;

/// "The longest legal file has 66,536 bytes".
pub const LONGEST_FILE: usize = 66_536;

/// A file that ends before its contents.
struct Ended;

/// Takes bytes off the front of a file.
struct Taker<'a> {
    bytes: &'a [u8],
    place: usize,
}

impl<'a> Taker<'a> {
    fn take(&mut self, count: usize) -> Result<&'a [u8], Ended> {
        if self.bytes.len() - self.place < count {
            return Err(Ended);
        }
        let taken = &self.bytes[self.place..self.place + count];
        self.place += count;
        Ok(taken)
    }

    fn byte(&mut self) -> Result<u8, Ended> {
        Ok(self.take(1)?[0])
    }

    /// "All numbers are 16-bit, low byte first."
    fn number(&mut self) -> Result<u16, Ended> {
        let two = self.take(2)?;
        Ok(u16::from(two[0]) + 256 * u16::from(two[1]))
    }

    /// A length byte and that many bytes, whatever the length; with the place of the length byte.
    fn name(&mut self) -> Result<(usize, &'a [u8]), Ended> {
        let place = self.place;
        let length = self.byte()?;
        Ok((place, self.take(length.into())?))
    }
}

/// What stands in a file, each field as it stands there.
struct Contents<'a> {
    states: u16,
    labels: u16,
    initial: Option<u16>,
    /// Three numbers a hop.
    hops: Option<Vec<u16>>,
    names: Option<Vec<(usize, &'a [u8])>>,
    /// One number a hop.
    lines: Option<Vec<u16>>,
    /// Where the names stand, if there are any, and where they end.
    name_block: std::ops::Range<usize>,
    end: usize,
}

fn contents(file: &[u8]) -> Result<Contents<'_>, Ended> {
    let mut taker = Taker { bytes: file, place: 0 };
    let map = taker.byte()?;
    let states = taker.number()?;
    let labels = taker.number()?;
    let initial = if map & 1 != 0 { Some(taker.number()?) } else { None };
    let hops = if map & 2 != 0 {
        let count = taker.number()?;
        let mut hops = vec![];
        for _ in 0..3 * usize::from(count) {
            hops.push(taker.number()?);
        }
        Some(hops)
    } else {
        None
    };
    let first_name = taker.place;
    let names = if map & 4 != 0 {
        let mut names = vec![];
        for _label in 1..labels {
            names.push(taker.name()?);
        }
        Some(names)
    } else {
        None
    };
    let name_block = first_name..taker.place;
    // "bit 3 stands for a list of lines, one number a hop, after the names"
    let lines = if map & 8 != 0 {
        let mut lines = vec![];
        for _hop in 0..hops.as_ref().map_or(0, |hops| hops.len() / 3) {
            lines.push(taker.number()?);
        }
        Some(lines)
    } else {
        None
    };
    Ok(Contents { states, labels, initial, hops, names, lines, name_block, end: taker.place })
}

/// The place of the first name whose length is 0 or over 32, or that is equal to an earlier one.
fn first_bad_name(names: &[(usize, &[u8])]) -> Option<usize> {
    let mut earlier = HashSet::new();
    names.iter().find(|(_, name)| name.is_empty() || name.len() > 32 || !earlier.insert(*name)).map(|(place, _)| *place)
}

/// The entry file read: the answer, and what the output for hops holds afterwards. Figures: state count, label count, initial state, hop count, place and
/// length of the name block.
pub fn read(file: &[u8], hops: &[u16]) -> (Answer, Vec<u16>) {
    match try_read(file, hops) {
        Ok((figures, after)) => (Answer::accepted(figures), after),
        Err(refusal) => (Answer::refused(refusal, 6), hops.to_vec()),
    }
}

fn try_read(file: &[u8], before: &[u16]) -> Result<(Vec<u64>, Vec<u16>), Refusal> {
    // "reading checks over-length, high bits, 11, left over, the rest of 12, 14, then 1 to 4, then 6"
    if file.len() > LONGEST_FILE {
        refuse(13, LONGEST_FILE as u64)?;
    }
    // "12 no longer speaks of bit 3, except over lines all 0": bits 4 to 7
    if file.first().is_some_and(|&map| map >= 16) {
        refuse(12, 0)?;
    }
    let contents = match contents(file) {
        Ok(contents) => contents,
        Err(Ended) => return refuse(11, file.len() as u64).map(|()| unreachable!()),
    };
    if contents.end < file.len() {
        refuse(13, contents.end as u64)?;
    }
    let no_hops = contents.hops.as_ref().is_some_and(|hops| hops.is_empty());
    let no_lines = contents.lines.as_ref().is_some_and(|lines| lines.iter().all(|&line| line == 0));
    if contents.initial == Some(0) || no_hops || (contents.names.is_some() && contents.labels <= 1) || no_lines {
        refuse(12, 0)?;
    }
    let names = contents.names.unwrap_or_default();
    if let Some(place) = first_bad_name(&names) {
        refuse(14, place as u64)?;
    }
    // "Absent means initial state 0, no hops, no names.", and no line is 0
    let three = contents.hops.unwrap_or_default();
    let lines = contents.lines.unwrap_or(vec![0; three.len() / 3]);
    let hops: Vec<u16> = three.chunks_exact(3).zip(lines).flat_map(|(h, line)| [h[0], h[1], h[2], line]).collect();
    let graph = Graph { states: contents.states.into(), labels: contents.labels.into(), initial: contents.initial.unwrap_or(0).into(), hops: &hops };
    graph.check_1_to_4(1)?;
    if before.len() < hops.len() {
        refuse(6, 0)?;
    }
    let (place, length) = if names.is_empty() { (0, 0) } else { (contents.name_block.start, contents.name_block.len()) };
    let figures = vec![graph.states, graph.labels, graph.initial, hops.len() as u64 / 4, place as u64, length as u64];
    Ok((figures, written(&hops, before)))
}

/// The entry file write: the answer, and what the output for bytes holds afterwards. One figure: the length.
pub fn write(graph: &Graph, block: &[u8], out: &[u8]) -> (Answer, Vec<u8>) {
    match try_write(graph, block, out) {
        Ok((length, after)) => (Answer::accepted(vec![length]), after),
        Err(refusal) => (Answer::refused(refusal, 1), out.to_vec()),
    }
}

fn try_write(graph: &Graph, block: &[u8], before: &[u8]) -> Result<(u64, Vec<u8>), Refusal> {
    // "writing checks 1 to 4, 14, 6"
    graph.check_1_to_4(1)?;
    if !block.is_empty() {
        check_block(graph.labels, block)?;
    }
    let file = file_of(graph, block);
    if before.len() < file.len() {
        refuse(6, 0)?;
    }
    Ok((file.len() as u64, written(&file, before)))
}

fn check_block(labels: u64, block: &[u8]) -> Result<(), Refusal> {
    let mut taker = Taker { bytes: block, place: 0 };
    let mut names = vec![];
    for _label in 1..labels {
        match taker.name() {
            Ok(name) => names.push(name),
            Err(Ended) => return refuse(14, block.len() as u64),
        }
    }
    if taker.place < block.len() {
        return refuse(14, taker.place as u64);
    }
    match first_bad_name(&names) {
        Some(place) => refuse(14, place as u64),
        None => Ok(()),
    }
}

fn file_of(graph: &Graph, block: &[u8]) -> Vec<u8> {
    let mut file = vec![0];
    let put = |file: &mut Vec<u8>, number: u64| file.extend([(number % 256) as u8, (number / 256) as u8]);
    put(&mut file, graph.states);
    put(&mut file, graph.labels);
    if graph.initial != 0 {
        file[0] += 1;
        put(&mut file, graph.initial);
    }
    if !graph.hops.is_empty() {
        file[0] += 2;
        put(&mut file, graph.hop_list().len() as u64);
        for hop in graph.hop_list() {
            put(&mut file, hop.from);
            put(&mut file, hop.label);
            put(&mut file, hop.to);
        }
    }
    if !block.is_empty() {
        file[0] += 4;
        file.extend(block);
    }
    if graph.hop_list().iter().any(|hop| hop.line != 0) {
        file[0] += 8;
        for hop in graph.hop_list() {
            put(&mut file, hop.line);
        }
    }
    file
}
