// The words that both programs of the comparison take, and the frame of a run.

use crate::plant::{self, Plant};
use crate::refusals::MOST;
use crate::report::Report;
use crate::sample;
use std::process::ExitCode;
use std::time::{Duration, Instant, SystemTime, UNIX_EPOCH};

const HELP: &str = "\
usage: run.sh [numbers | stages] [--seed N] [--count N] [--seconds N] [--all] [--plant NAME]
       run.sh [numbers | stages] --calls

  numbers       only the number work, against Rust's own
  stages        only the stages, against the Rust original; its source is looked for in
                ../shared/docs or in the folder that ORIGINAL names
  --seed N      the inputs that the seed N draws (default: from the clock; the first line has it)
  --count N     N random inputs, samples and bytes to the quickest checks, fewer to the slower
                ones (default 2000000); below a million, only some of the rows where every row of a
                few numbers is tried
  --seconds N   rounds with the seeds N, N + 1, .. until about so many seconds are spent, and at
                least one (default: one). A difference is shown with the seed of its round
  --all         also every f32 to the number work that takes one and is quick, and every cutoff to
                three taps: some minutes more
  --plant NAME  falsify the library's answers in this way before they are compared, to see that
                they are found; '--plant list' lists the ways
  --calls       list the library's calls that are compared
  --sample FILE add a sample of the judge's answers to the file; crates/vectors/data has its form
  --help        this text

Exit status: 0 all agree; 1 something differs; 2 bad usage.";

/// What a program compares: the ways in which it can falsify, its calls with the numbers that each
/// may give, and one round of its checks.
pub struct Program {
    pub plants: &'static [Plant],
    pub calls: Vec<(&'static str, &'static [u32])>,
    pub compare: fn(&Plan, &mut Report),
}

pub struct Plan {
    pub seed: u64,
    pub count: u64,
    pub all: bool,
    budget: Duration,
    sample: Option<String>,
}

// The stages' alone.
#[allow(dead_code)]
impl Plan {
    /// Of rows that are tried exhaustively, one in so many.
    pub fn stride(&self) -> usize {
        match self.count {
            0..=49_999 => 41,
            50_000..=999_999 => 9,
            _ => 1,
        }
    }

    /// Of streams that are cut at will, the longest; it is whole pairs.
    pub fn longest(&self) -> usize {
        MOST / self.stride() / 2 * 2
    }
}

impl Program {
    /// Reads the words, prints the line with the seed, and does its rounds.
    pub fn run(self) -> ExitCode {
        let plan = match self.read(std::env::args().skip(1)) {
            Ok(Ok(plan)) => plan,
            Ok(Err(text)) => {
                println!("{}", text);
                return ExitCode::SUCCESS;
            }
            Err(what) => {
                eprintln!("compare: {}\n{}", what, HELP);
                return ExitCode::from(2);
            }
        };
        println!("seed {} count {}", plan.seed, plan.count);
        let sampled = plan.sample.clone();
        let mut report = self.rounds(plan);
        report.numbers(&self.calls);
        if let Some(Err(what)) = sampled.map(|file| sample::write(&file, &self.calls)) {
            eprintln!("compare: {}", what);
            return ExitCode::from(2);
        }
        report.end()
    }

    /// The time that a round takes is known from those before it.
    fn rounds(&self, mut plan: Plan) -> Report {
        let (begun, mut report) = (Instant::now(), Report::default());
        loop {
            report.seed = plan.seed;
            (self.compare)(&plan, &mut report);
            report.rounds += 1;
            let spent = begun.elapsed();
            if spent + spent / report.rounds > plan.budget {
                return report;
            }
            plan.seed = plan.seed.wrapping_add(1);
            println!("round {}: seed {}", report.rounds + 1, plan.seed);
        }
    }

    /// A text in place of the plan where that is asked for.
    fn read(
        &self,
        mut words: impl Iterator<Item = String>,
    ) -> Result<Result<Plan, String>, String> {
        let clock = SystemTime::now()
            .duration_since(UNIX_EPOCH)
            .map_or(0, |t| t.as_nanos() as u64);
        let mut plan = Plan {
            seed: clock,
            count: 2_000_000,
            all: false,
            budget: Duration::ZERO,
            sample: None,
        };
        while let Some(word) = words.next() {
            match word.as_str() {
                "--help" => return Ok(Err(HELP.to_string())),
                "--calls" => return Ok(Err(self.listed())),
                "--all" => plan.all = true,
                "--seed" => plan.seed = number(&word, words.next())?,
                "--count" => plan.count = number(&word, words.next())?,
                "--seconds" => plan.budget = Duration::from_secs(number(&word, words.next())?),
                "--sample" => {
                    plan.sample = Some(words.next().ok_or("--sample needs a file")?);
                    sample::want();
                }
                "--plant" => match words.next().as_deref() {
                    None => return Err("--plant needs a name".to_string()),
                    Some("list") => return Ok(Err(plant::list(self.plants))),
                    Some(name) => plant::choose(name, self.plants)?,
                },
                _ => return Err(format!("{} is no option", word)),
            }
        }
        Ok(Ok(plan))
    }

    fn listed(&self) -> String {
        let names = self.calls.iter().map(|(call, _)| format!("tl_{call}"));
        names.collect::<Vec<_>>().join("\n")
    }
}

fn number(option: &str, word: Option<String>) -> Result<u64, String> {
    let word = word.ok_or(format!("{} needs a number", option))?;
    word.parse()
        .map_err(|_| format!("{} needs a number, not {}", option, word))
}
