//! Compares the library with the checker that is written from the scope document's sentences: every answer, figure and lent element, refused calls
//! too.
//!
//!     cargo run --release --features library [-- --seed N] [--small N] [--files N] [--large N] [--plain]
//!
//! Without the feature `library`, or with `--plain`, the plain implementation stands in for the library.

mod compare;
mod make;
mod met;
mod parts;
mod random;
#[cfg(feature = "library")]
mod wrappers;

use compare::Comparer;
use differential::entries::{self, Entries, Plain};
use std::time::Instant;

struct Options {
    seed: u64,
    small: usize,
    files: usize,
    large: usize,
    plain: bool,
}

fn options() -> Options {
    let mut options = Options { seed: 20_261_115, small: 100_000, files: 200_000, large: 400, plain: !cfg!(feature = "library") };
    let mut words = std::env::args().skip(1);
    while let Some(word) = words.next() {
        let mut number = || words.next().and_then(|n| n.parse().ok()).unwrap_or_else(|| usage());
        match word.as_str() {
            "--seed" => options.seed = number(),
            "--small" => options.small = number() as usize,
            "--files" => options.files = number() as usize,
            "--large" => options.large = number() as usize,
            "--plain" => options.plain = true,
            _ => usage(),
        }
    }
    options
}

fn usage() -> ! {
    eprintln!("usage: differential [--seed N] [--small N] [--files N] [--large N] [--plain]");
    std::process::exit(2);
}

fn chosen(plain: bool) -> &'static dyn Entries {
    match entries::library() {
        Some(library) if !plain => library,
        _ => &Plain,
    }
}

fn main() {
    let options = options();
    let entries = chosen(options.plain);
    println!("comparing: {}, seed {}", entries.name(), options.seed);
    let start = Instant::now();
    let mut comparer = Comparer::new(entries, options.seed);
    let mut part = |name: &str, run: &mut dyn FnMut(&mut Comparer)| {
        let (start, before) = (Instant::now(), comparer.calls);
        run(&mut comparer);
        println!("{name}: {} calls agree ({:.1} s)", comparer.calls - before, start.elapsed().as_secs_f64());
    };
    part("graphs worked by hand", &mut parts::worked);
    part("all graphs of up to 2 states and 2 labels", &mut parts::all_small);
    part("all graphs without a ring of up to 3 states and 2 labels, in each sense", &mut parts::all_in_each_sense);
    part("two hops of numbers at an end", &mut parts::pairs_of_hops);
    part("answers of every length", &mut parts::answers);
    part("every condition of every entry", &mut parts::conditions);
    part("random small graphs", &mut |c| parts::small(c, options.small));
    part("markings of many rounds", &mut |c| parts::rounds(c, options.small / 10));
    part("graphs of some hundred hops in each sense", &mut |c| parts::senses(c, options.small / 50));
    part("graphs of many reductions", &mut |c| parts::reductions(c, options.small / 20));
    part("random files", &mut |c| parts::files(c, options.files));
    part("every damage of a byte", &mut parts::every_damage);
    part("large graphs", &mut |c| parts::large(c, options.large));
    part("graphs at the limits", &mut parts::limits);
    part("large files", &mut parts::large_files);
    #[cfg(feature = "library")]
    if !options.plain {
        part("the safe wrappers", &mut |c| wrappers::wrappers(c, options.small / 10));
    }
    println!("what was met, by entry:");
    for line in comparer.met.lines() {
        println!("  {line}");
    }
    let missing = comparer.met.missing();
    if !missing.is_empty() {
        eprintln!("the comparison is too thin, never met:\n  {}", missing.join("\n  "));
        std::process::exit(1);
    }
    println!("{} calls agree, in {:.1} s", comparer.calls, start.elapsed().as_secs_f64());
}
