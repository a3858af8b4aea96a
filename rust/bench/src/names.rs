//! The blocks of names that are timed, and files of a state without hops that have them.

use crate::inputs::Random;
use plain::LONGEST_FILE;
use std::collections::BTreeSet;

/// A file with its name in the table.
pub struct NamedFile {
    pub name: &'static str,
    pub file: Vec<u8>,
}

/// What stands in a file without hops before the names.
const BEFORE_NAMES: usize = 5;
/// As many names of two bytes as fit.
const PAIRS: u16 = ((LONGEST_FILE - BEFORE_NAMES) / 3) as u16;

/// Those of more than 1,023 names are refused for that, but only when their names have passed.
pub fn files() -> Vec<NamedFile> {
    vec![
        file("22,177 different names of two bytes", (0..PAIRS).map(u16::to_le_bytes)),
        file("22,177 names of two bytes, descending", (0..PAIRS).rev().map(u16::to_be_bytes)),
        file("22,177 names of two bytes, at random", Random::new().shuffled(PAIRS).into_iter().map(u16::to_be_bytes)),
        file("19,446 names of two bytes, at random", Random::new().shuffled(19_446).into_iter().map(u16::to_be_bytes)),
        file("18,602 different names of two and three bytes, alike at first", alike()),
        file("1,023 names as a person writes them", by_hand()),
    ]
}

fn file<N: AsRef<[u8]>>(name: &'static str, names: impl IntoIterator<Item = N>) -> NamedFile {
    let names: Vec<N> = names.into_iter().collect();
    let mut file = vec![4, 1, 0];
    file.extend((names.len() as u16 + 1).to_le_bytes());
    file.extend(block(names));
    NamedFile { name, file }
}

/// Names one behind the other, each with its length byte in front.
fn block<N: AsRef<[u8]>>(names: impl IntoIterator<Item = N>) -> Vec<u8> {
    let mut block = vec![];
    for name in names {
        block.push(name.as_ref().len() as u8);
        block.extend(name.as_ref());
    }
    block
}

/// Different names of two and of three bytes, at random, that begin with one of forty bytes, those of three with one of eighty pairs: whether two of them
/// have the same length and the same first bytes cannot be foreseen.
fn alike() -> Vec<Vec<u8>> {
    let mut random = Random::new();
    let (mut seen, mut names, mut end) = (BTreeSet::new(), vec![], BEFORE_NAMES);
    loop {
        let longer = random.below(2) == 1;
        let mut name = vec![random.below(40) as u8];
        if longer {
            name.push(random.below(2) as u8);
        }
        name.push(random.below(256) as u8);
        if end + 1 + name.len() > LONGEST_FILE {
            return names;
        }
        if seen.insert(name.clone()) {
            end += 1 + name.len();
            names.push(name);
        }
    }
}

/// The block of the longest legal file: 1,023 names of 32 bytes that differ at their ends.
pub fn longest() -> Vec<u8> {
    let front = [b'n'; 30].as_slice();
    block((1..1024u16).map(|label| [front, &label.to_be_bytes()].concat()))
}

/// The same with so many of the names a byte shorter: the longest legal file is 1,000 bytes longer than what the program takes.
pub fn shorter(by: u16) -> Vec<u8> {
    let front = [b'n'; 30].as_slice();
    block((1..1024u16).map(|label| [&front[usize::from(label <= by)..], &label.to_be_bytes()].concat()))
}

/// The block of names that a person writes, alike in front and in order.
pub fn written_by_hand() -> Vec<u8> {
    block(by_hand())
}

fn by_hand() -> impl Iterator<Item = String> {
    (1..1024).map(|label| format!("mode_{label:04}"))
}
