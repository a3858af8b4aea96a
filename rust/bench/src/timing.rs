//! Ways of doing something, timed by turns: the machine's speed changes from one minute to the next, and then it changes for all of them.

use crate::clock;
use differential::entries::{self, Entries, Plain, NUMBERS};
use std::hint::black_box;
use std::time::Duration;

/// So many samples of a way, and for so long in all; a way that takes longer is run once.
const MOST_SAMPLES: usize = 15;
const LONGEST: Duration = Duration::from_millis(3000);
/// A sample repeats what is fast until it lasts about so long.
const SAMPLE: Duration = Duration::from_millis(3);

/// Everything that entries write to, and the lines of a report.
#[derive(Clone, PartialEq, Debug)]
pub struct Outputs {
    pub marks: Vec<u8>,
    pub map: Vec<u16>,
    pub hops: Vec<u16>,
    pub file: Vec<u8>,
    pub answer: Vec<u64>,
    pub text: Vec<u8>,
}

impl Outputs {
    pub fn new() -> Outputs {
        Outputs {
            marks: vec![0; plain::MOST_HOPS],
            map: vec![0; plain::MOST_STATES],
            hops: vec![0; NUMBERS * plain::MOST_HOPS],
            file: vec![0; plain::LONGEST_FILE],
            answer: vec![0; 9],
            text: vec![],
        }
    }
}

/// The library, or the plain implementation where it is not linked.
pub fn library_or_plain() -> &'static dyn Entries {
    entries::library().unwrap_or(&Plain)
}

/// A way, with what it left and its samples in seconds.
pub struct Timed<'a> {
    call: Box<dyn Fn(&mut Outputs) -> u32 + 'a>,
    pub outputs: Outputs,
    repeats: u32,
    /// The first run, which is the only one where it was long.
    once: Duration,
    samples: Vec<f64>,
}

impl<'a> Timed<'a> {
    pub fn new(call: impl Fn(&mut Outputs) -> u32 + 'a) -> Timed<'a> {
        let mut timed = Timed { call: Box::new(call), outputs: Outputs::new(), repeats: 1, once: Duration::ZERO, samples: vec![] };
        timed.once = timed.run(1).max(Duration::from_nanos(20));
        timed.repeats = (SAMPLE.as_nanos() / timed.once.as_nanos()).clamp(1, 100_000) as u32;
        if timed.once > LONGEST {
            timed.samples.push(timed.once.as_secs_f64());
        }
        timed
    }

    fn run(&mut self, times: u32) -> Duration {
        let start = clock::now();
        for _ in 0..times {
            black_box((self.call)(black_box(&mut self.outputs)));
        }
        clock::now() - start
    }

    /// One more sample, unless the way is long.
    pub fn sample(&mut self) {
        if self.once <= LONGEST {
            let seconds = self.run(self.repeats).as_secs_f64() / f64::from(self.repeats);
            self.samples.push(seconds);
        }
    }

    pub fn median(self) -> f64 {
        median(self.samples)
    }

    /// What a quarter of the samples stay below: other work on the machine slows some of them down, but makes none faster.
    pub fn lower_quartile(self) -> f64 {
        ranked(self.samples, 4)
    }
}

pub fn median(samples: Vec<f64>) -> f64 {
    ranked(samples, 2)
}

/// The sample that one of so many parts of them stays below.
fn ranked(mut samples: Vec<f64>, parts: usize) -> f64 {
    samples.sort_by(f64::total_cmp);
    samples[samples.len() / parts]
}

/// Fails unless all ways that are there have left the same.
pub fn agree(what: &str, ways: &[&Option<Timed>]) {
    let mut outputs = ways.iter().filter_map(|way| way.as_ref()).map(|way| &way.outputs);
    let first = outputs.next();
    assert!(outputs.all(|other| Some(other) == first), "{what}: all must leave the same");
}

/// Samples the ways that are there by turns, and gives the median of each.
pub fn medians<const N: usize>(mut ways: [Option<Timed>; N]) -> [Option<f64>; N] {
    sample(&mut ways, MOST_SAMPLES, LONGEST);
    ways.map(|way| way.map(Timed::median))
}

/// Samples the ways that are there by turns, at most so often and for so long in all; but at least three times.
pub fn sample(ways: &mut [Option<Timed>], most: usize, longest: Duration) {
    let start = clock::now();
    for turn in 0..most {
        if turn >= 3 && clock::now() - start > longest {
            break;
        }
        ways.iter_mut().flatten().for_each(Timed::sample);
    }
}
