//! Times each entry of the library beside a plain Rust implementation of the same algorithm, by turns in the same run, and prints a Markdown table: with the ratio
//! of the two, and with how many times the library's check of the same graph the library takes. A second table has mark_fast beside repeated sweeps too, a third
//! what each sense costs and what it buys, a fourth what repetition does, a fifth the growth of mark and reduce from 128 states to 1,024.
//!
//!     cargo run --release -p bench --features library [-- WORD]
//!
//! With a word only the rows that have it are timed. Some words ask for a table of their own:
//!
//! - `senses [WORD ..]`: the third table alone, or some of its rows;
//! - `repetition [WORD ..]`: the fourth table alone, or some of its rows;
//! - `growth`: the fifth table alone;
//! - `minutes`: mark_fast on the graphs on which repeated sweeps take a second to minutes, where these are left out else; swept once each. Then shrink on those on which
//!   it takes up to minutes, which are in no other table;
//! - `program PATH`: the program at the path beside the library's entries;
//! - `against OLD NEW [WORD ..]`: the archive at one path beside that at another, both loaded while it runs, so that none need be linked. `against-0.4 OLD NEW`: the
//!   old one is of a version before 0.5.0, whose hops have no lines. `against-0.2 OLD NEW`: it is of one before 0.3.0, whose mark and reduce take no sense either, and the
//!   rows are those of R1.
//!
//! Without the feature the plain implementation is timed alone. All must leave the same answer and the same outputs, or the run fails. Times are medians of
//! processor time.

mod against;
mod clock;
mod folder;
mod growth;
mod inputs;
mod made;
mod marking;
mod names;
mod program;
mod repetition;
mod report;
mod rows;
mod senses;
mod show;
mod timing;

use against::Form;
use differential::entries;
use rows::Row;
use show::{ratio, time};
use timing::{agree, library_or_plain, medians, Timed};

/// R1, R2, R3 and R8.
const SENSES: [u32; 4] = [1, 2, 3, 8];

fn main() {
    let words: Vec<String> = std::env::args().skip(1).collect();
    match words.iter().map(String::as_str).collect::<Vec<_>>()[..] {
        ["growth"] => growth::table(),
        ["senses", ..] => senses::table(),
        ["repetition", ..] => repetition::table(),
        ["minutes"] => minutes(),
        ["program", path] => program::table(path),
        ["against", old, new, ..] => against::table(old, new, Form::Now),
        ["against-0.4", old, new, ..] => against::table(old, new, Form::NoLines),
        ["against-0.2", old, new, ..] => against::table(old, new, Form::NoSense),
        ["program" | "against" | "against-0.4" | "against-0.2"] | [_, _, ..] => {
            let tables = "senses [WORD ..] | repetition [WORD ..] | growth | minutes | program PATH";
            eprintln!("usage: bench [WORD | {tables} | against OLD NEW [WORD ..] | against-0.4 OLD NEW [WORD ..] | against-0.2 OLD NEW [WORD ..]]");
            std::process::exit(2);
        }
        _ => everything(),
    }
}

/// Whether a word of the command line asks for a row, or there is none.
fn asked(entry: &str, input: &str) -> bool {
    let words: Vec<String> = std::env::args().skip(1).collect();
    let words = match words.first().map(String::as_str) {
        Some("against" | "against-0.4" | "against-0.2") => &words[3..],
        Some("senses" | "repetition") => &words[1..],
        _ => &words,
    };
    words.is_empty() || words.iter().any(|word| format!("{entry} on {input}").contains(word))
}

fn minutes() {
    marking::head();
    inputs::long_markings().iter().for_each(|input| marking::row(input, true));

    println!();
    repetition::head();
    inputs::long_repetitions().iter().for_each(repetition::rows);
}

fn everything() {
    println!("| entry | input | plain | library | ratio | times check |\n|---|---|---|---|---|---|");
    rows::all(&|row| {
        if asked(row.entry, row.input) {
            beside_plain(row);
        }
    });

    println!();
    marking::head();
    let (graphs, markings, long) = (inputs::graphs(), inputs::markings(), inputs::long_markings());
    let swept = graphs.iter().chain(&markings).map(|input| (input, true));
    for (input, swept) in swept.chain(long.iter().map(|input| (input, false))) {
        if asked("mark_fast", input.name) {
            marking::row(input, swept);
        }
    }

    println!();
    senses::table();

    println!();
    repetition::table();

    println!();
    growth::table();
}

/// A way of the library beside a plain one, and beside the check of a graph where one is given.
fn beside_plain(&Row { entry, input, checked, plain, call, .. }: &Row) {
    let plain = Some(Timed::new(plain));
    let library = entries::library().map(|library| Timed::new(move |o| call(library, o)));
    agree(&format!("{entry} on {input}"), &[&plain, &library]);
    let check = checked.map(|graph| Timed::new(move |o| library_or_plain().check(graph, &mut o.answer)));
    let [plain, library, check] = medians([plain, library, check]);
    let times_check = ratio(library.or(plain), check);
    println!("| {entry} | {input} | {} | {} | {} | {times_check} |", time(plain), time(library), ratio(library, plain));
}
