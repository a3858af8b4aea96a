//! The program beside what it does: the library's read and reduce of the same file, and the putting of the same lines into a buffer by plain Rust.

use crate::folder::Folder;
use crate::inputs::{self, Named};
use crate::report::Report;
use crate::show::{ratio, time};
use crate::timing::{library_or_plain, median, Timed};
use crate::{clock, made, names};
use differential::entries::Graph;
use std::fs::File;
use std::path::Path;
use std::process::{Command, Stdio};

const RUNS: usize = 100;

/// The program's time is that of its process less that of one that is given an empty file, which it refuses at once: to start a process takes as long as most
/// files do.
pub fn table(program: &str) {
    println!("| the program on | program | read | reduce | lines | sum | ratio | of the process, an empty file |\n|---|---|---|---|---|---|---|---|");
    let folder = Folder::new();
    let empty = folder.file("empty", &[]);
    let program = Path::new(program);
    let longest = inputs::longest().graph;
    let graphs = inputs::graphs();
    let inputs = graphs.iter().map(|Named { name, graph }| (*name, graph, vec![])).chain([(
        "the longest file that the program takes",
        &longest,
        names::shorter(1000),
    )]);
    for (name, graph, names) in inputs {
        row(program, name, graph, &made::file(graph, &names), &folder, &empty);
    }
}

fn row(program: &Path, name: &str, graph: &Graph, bytes: &[u8], folder: &Folder, empty: &Path) {
    let file = folder.file("graph", bytes);
    let report = Report::of(graph);
    let entries = library_or_plain();
    let lines = Timed::new(|o| {
        o.text.clear();
        report.put(&mut o.text);
        0
    });
    assert!(printed(program, &file) == lines.outputs.text, "{name}: the program prints other lines");
    let mut ways = [
        Timed::new(|o| entries.read(bytes, &mut o.hops, &mut o.answer)),
        Timed::new(|o| entries.reduce(graph, 1, &mut o.map, &mut o.hops, &mut o.answer)),
        lines,
    ];
    let (mut whole, mut nothing) = (vec![], vec![]);
    for _ in 0..RUNS {
        whole.push(process_time(program, &file));
        nothing.push(process_time(program, empty));
        ways.iter_mut().for_each(Timed::sample);
    }
    let nothing = median(nothing);
    let own = median(whole) - nothing;
    let [read, reduce, lines] = ways.map(Timed::median);
    let sum = read + reduce + lines;
    let [own, read, reduce, lines, sum, nothing] = [own, read, reduce, lines, sum, nothing].map(Some);
    println!(
        "| {name} | {} | {} | {} | {} | {} | {} | {} |",
        time(own),
        time(read),
        time(reduce),
        time(lines),
        time(sum),
        ratio(own, sum),
        time(nothing)
    );
}

/// The program with a file as its input.
fn command(program: &Path, file: &Path) -> Command {
    let mut command = Command::new(program);
    command.stdin(File::open(file).expect("the file was written"));
    command
}

fn printed(program: &Path, file: &Path) -> Vec<u8> {
    command(program, file).output().expect("the program can be started").stdout
}

/// The processor time of a run, in seconds.
fn process_time(program: &Path, file: &Path) -> f64 {
    let before = clock::of_children();
    let status = command(program, file).stdout(Stdio::null()).status().expect("the program can be started");
    assert!(status.success(), "the program ended with {status}");
    (clock::of_children() - before).as_secs_f64()
}
