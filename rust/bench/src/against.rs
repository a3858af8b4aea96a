//! Two archives beside each other. The machine's speed swings within seconds, and the place of the code alone moves some times by half and more: so each archive is
//! linked as a shared object at four places, all are loaded into this process and called by turns, and the best of the four lower quartiles counts.

use crate::asked;
use crate::folder::Folder;
use crate::rows::{self, Row};
use crate::show::{ratio, time};
use crate::timing::{sample, Outputs, Timed};
use differential::archive::{without_lines, Archive, WithoutLines};
use differential::entries::{Entries, NUMBERS};
use std::cell::RefCell;
use std::collections::BTreeMap;
use std::ffi::{c_char, c_void, CString};
use std::path::{Path, PathBuf};
use std::process::Command;
use std::time::Duration;

/// How many bytes stand before the code: all places that its functions, aligned to 16, can have in a line of 64.
const PLACES: [usize; 4] = [0, 16, 32, 48];
/// How many figures of an audit both have: the first fault is not in every archive.
const AUDIT: usize = 4;
/// So many samples of each, and for so long in all.
const MOST_SAMPLES: usize = 31;
const LONGEST: Duration = Duration::from_secs(6);

const RTLD_NOW: i32 = 2;

extern "C" {
    fn dlopen(path: *const c_char, flags: i32) -> *mut c_void;
    fn dlsym(object: *mut c_void, name: *const c_char) -> *mut c_void;
}

type Placed = [Archive; PLACES.len()];

/// The form of an archive's entries, which their names do not tell.
#[derive(Clone, Copy, PartialEq)]
pub enum Form {
    /// Before version 0.3.0 mark and reduce take no sense: the rows are those of R1. Nor do hops have lines.
    NoSense,
    /// Before version 0.5.0 hops have no lines: lists are lent without them, and files with lines, or longer than those without can be, have no rows.
    NoLines,
    /// As they are now.
    Now,
}

/// The rows that the words of the command line ask for, and what came out by entry. It is said in which form the entries of the old archive are. Entries that one of the
/// two has not, as shrink before 0.4.0, have no rows.
pub fn table(old: &str, new: &str, form: Form) {
    let folder = Folder::new();
    let [old, new] = [("old", old, form != Form::NoSense), ("new", new, true)]
        .map(|(name, archive, takes_sense)| PLACES.map(|place| loaded(&linked(&folder, name, Path::new(archive), place), takes_sense)));
    let ratios: RefCell<BTreeMap<String, Vec<f64>>> = RefCell::default();
    let take = |row: &Row| {
        let mut archives = old.iter().chain(&new);
        if archives.all(|archive| has(archive, row)) && (form == Form::Now || !row.new_file) && asked(row.entry, row.input) {
            ratios.borrow_mut().entry(row.entry.to_string()).or_default().push(beside(row, &old, &new, form == Form::Now));
        }
    };
    println!("| entry | input | old | new | ratio |\n|---|---|---|---|---|");
    rows::all(&take);
    rows::mark_fast(&take);
    println!("\n| entry | rows | mean ratio | least | most |\n|---|---|---|---|---|");
    for (entry, ratios) in ratios.take() {
        let mean = (ratios.iter().map(|ratio| ratio.ln()).sum::<f64>() / ratios.len() as f64).exp();
        let (least, most) = ratios.iter().fold((f64::MAX, 0f64), |(least, most), &ratio| (least.min(ratio), most.max(ratio)));
        println!("| {entry} | {} | {mean:.3} | {least:.2} | {most:.2} |", ratios.len());
    }
}

/// Whether an archive has the entry of a row, in the row's sense.
fn has(archive: &Archive, row: &Row) -> bool {
    let entry = match row.entry.split(' ').next() {
        Some("find") => archive.finds(),
        Some("shrink") => archive.shrinks(),
        _ => true,
    };
    entry && (row.sense == 1 || archive.takes_sense())
}

/// A row's ratio, new to old, of which the old one has lines or not.
fn beside(row: &Row, old: &Placed, new: &Placed, lines: bool) -> f64 {
    let unlined = old.each_ref().map(WithoutLines::new);
    let mut ways: [Option<Timed>; 2 * PLACES.len()] = std::array::from_fn(|way| {
        let archive: &dyn Entries = match way % 2 {
            0 if lines => &old[way / 2],
            0 => &unlined[way / 2],
            _ => &new[way / 2],
        };
        Some(Timed::new(move |o| (row.call)(archive, o)))
    });
    let mut left = ways.iter().flatten().enumerate().map(|(way, timed)| {
        let mut known = what_both_know(row, &timed.outputs);
        if !lines {
            known.hops = three_a_hop(row, &timed.outputs, way % 2 == 1);
        }
        known
    });
    let first = left.next();
    assert!(left.all(|other| Some(other) == first), "{} on {}: both must leave the same", row.entry, row.input);
    sample(&mut ways, MOST_SAMPLES, LONGEST);
    let times: Vec<f64> = ways.into_iter().flatten().map(Timed::lower_quartile).collect();
    let [old, new] = [0, 1].map(|side| times.iter().skip(side).step_by(2).copied().min_by(f64::total_cmp));
    println!("| {} | {} | {} | {} | {} |", row.entry, row.input, time(old), time(new), ratio(new, old));
    old.zip(new).map_or(1.0, |(old, new)| new / old)
}

/// All that a call left, but of an audit only the figures that every archive gives.
fn what_both_know(row: &Row, outputs: &Outputs) -> Outputs {
    let mut known = outputs.clone();
    if row.entry.starts_with("audit") {
        known.answer.truncate(AUDIT);
    }
    known
}

/// The hops that a call wrote without their lines, from three numbers a hop or from four.
fn three_a_hop(row: &Row, outputs: &Outputs, four: bool) -> Vec<u16> {
    let count = match row.entry.split(' ').next() {
        Some("reduce" | "shrink") => outputs.answer[5] as usize,
        Some("read") => outputs.answer[6] as usize,
        _ => 0,
    };
    if four {
        without_lines(&outputs.hops[..NUMBERS * count])
    } else {
        outputs.hops[..3 * count].to_vec()
    }
}

/// A shared object of an archive, with so many bytes before its code.
fn linked(folder: &Folder, name: &str, archive: &Path, place: usize) -> PathBuf {
    let before = folder.file("before.s", format!(".text\n.fill {place}, 1, 0x90\n.section .note.GNU-stack\n").as_bytes());
    let object = folder.path(&format!("{name}-{place}.so"));
    let whole = ["-Wl,-Bsymbolic,--whole-archive".as_ref(), archive.as_os_str(), "-Wl,--no-whole-archive".as_ref()];
    let status = Command::new("gcc").args(["-shared", "-o"]).arg(&object).arg(&before).args(whole).status().expect("gcc can be started");
    assert!(status.success(), "{} is not linked", archive.display());
    object
}

/// The functions of a shared object, which stays loaded, with mark and reduce that take a sense or do not.
fn loaded(object: &Path, takes_sense: bool) -> Archive {
    let text = |text: &str| CString::new(text).expect("a name without a zero");
    // SAFETY: the object is made of an archive with functions of these names, in the form that was said, and is never unloaded.
    unsafe {
        let opened = dlopen(text(object.to_str().expect("a folder with a plain name")).as_ptr(), RTLD_NOW);
        assert!(!opened.is_null(), "{} cannot be loaded", object.display());
        Archive::at(takes_sense, |name| dlsym(opened, text(name).as_ptr()))
    }
}
