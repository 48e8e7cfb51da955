// The speed of the library beside the Rust original, in one process: least of many rounds, the two in turn.

mod face;
mod original;
#[cfg(any(liquid, volk))]
mod others;
mod work;

use std::time::Instant;
use work::{Side, Work, ELEMENTS};

const HELP: &str = "\
usage: run.sh [--rounds N] [NAME ...]

  --rounds N    so many rounds for each kind of work (default 60), in several passes over all; the least time of them counts
  NAME          only the work whose name begins so

A ratio of 2 says that the library takes half the original's time.";

/// How many times all kinds of work are gone through.
const PASSES: usize = 6;

/// The time of one round, in nanoseconds for an element: all elements in blocks of this size. What the round works on is
/// put in place before the clock starts.
fn round(side: &mut dyn Side, block: usize) -> f64 {
    side.ready();
    let start = Instant::now();
    side.run(block);
    start.elapsed().as_nanos() as f64 / ELEMENTS as f64
}

fn main() {
    let mut rounds = 60;
    let mut names = Vec::new();
    let mut words = std::env::args().skip(1);
    while let Some(word) = words.next() {
        match word.as_str() {
            "--rounds" => rounds = words.next().and_then(|n| n.parse().ok()).expect("--rounds wants a number"),
            "--help" => {
                println!("{HELP}");
                return;
            }
            _ => names.push(word),
        }
    }
    let measured = Measured { rounds, names };
    measured.table("Rust", work::all());
    #[cfg(liquid)]
    measured.other("liquid", others::liquid());
    #[cfg(volk)]
    measured.other("VOLK", others::volk());
}

struct Measured {
    rounds: usize,
    names: Vec<String>,
}

impl Measured {
    fn table(&self, theirs: &str, all: Vec<Work>) {
        println!("{:<36}{:>22}   {:>22}", "", "blocks of 262,144", "blocks of 2,048");
        println!("{:<36}{theirs:>8}{:>8}{:>6}   {theirs:>8}{:>8}{:>6}", "ns an element", "here", "ratio", "here", "ratio");
        let wanted = |name: &str| self.names.is_empty() || self.names.iter().any(|start| name.starts_with(start.as_str()));
        let mut all: Vec<Work> = all.into_iter().filter(|work| wanted(work.name)).collect();
        let mut least = vec![[[f64::MAX; 2]; 2]; all.len()];
        // In passes, so that a time at which the machine has something else to do does not fall on one row alone.
        for pass in 0..PASSES {
            for (work, least) in all.iter_mut().zip(&mut least) {
                for (block, [theirs, ours]) in [ELEMENTS, 2048].into_iter().zip(least) {
                    for _ in self.rounds * pass / PASSES..self.rounds * (pass + 1) / PASSES {
                        *theirs = theirs.min(round(&mut *work.theirs, block));
                        *ours = ours.min(round(&mut *work.ours, block));
                    }
                }
            }
        }
        for (work, [[theirs, ours], [short_theirs, short_ours]]) in all.iter().zip(least) {
            print!("{:<36}{theirs:>8.2}{ours:>8.2}{:>6.2}   ", work.name, theirs / ours);
            println!("{short_theirs:>8.2}{short_ours:>8.2}{:>6.2}", short_theirs / short_ours);
        }
    }

    #[cfg(any(liquid, volk))]
    fn other(&self, theirs: &str, all: Vec<Work>) {
        println!("\nbeside {theirs}, whose bits are others");
        self.table(theirs, all);
    }
}
