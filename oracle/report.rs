// What the comparison prints: a line to a check, the first differing inputs, the sums at the end.

pub use crate::check::{Bound, Check};
use crate::plant;
use std::collections::BTreeMap;
use std::process::ExitCode;

#[derive(Default)]
pub struct Report {
    /// Of the round that runs. Only the first round prints every check, later ones what differs.
    pub seed: u64,
    pub rounds: u32,
    checks: u32,
    failed: u32,
    could: bool,
    planted: u64,
    missed: u64,
    given: BTreeMap<&'static str, [u64; 6]>,
}

impl Report {
    pub fn end_of(&mut self, check: Check) {
        self.checks += 1;
        self.could |= check.could();
        self.planted += check.planted;
        self.missed += check.missed;
        self.failed += u32::from(check.failed());
        if let Some(call) = check.call {
            self.given(call, [check.compared, 0, 0, 0, 0, 0]);
        }
        if self.rounds > 0 && !check.failed() {
            return;
        }
        println!(
            "{:<56} {:>11} compared, {:>9} differ{}",
            check.name,
            check.compared,
            check.differ,
            check.measured()
        );
        for line in &check.shown {
            println!("    seed {}: {}", self.seed, line);
        }
    }

    /// More inputs of a call, by the number that the judge gave each.
    pub fn given(&mut self, call: &'static str, times: [u64; 6]) {
        let all = self.given.entry(call).or_default();
        all.iter_mut().zip(times).for_each(|(sum, n)| *sum += n);
    }

    /// How many inputs each call had to each number. One that a call may give and never gave was
    /// not compared, and fails; `-` stands where the table has no such number for the call.
    pub fn numbers(&mut self, calls: &[(&'static str, &'static [u32])]) {
        self.checks += 1;
        println!("\n{:<32} inputs to the number", "call");
        let head: String = (0..6).map(|number| format!("{:>11}", number)).collect();
        println!("{:<32}{}", "", head);
        let mut never = 0;
        for (call, gives) in calls {
            let times = self.given.get(call).copied().unwrap_or_default();
            let cell = |number: usize| match (gives.contains(&(number as u32)), times[number]) {
                (false, 0) => "-".to_string(),
                (true, 0) => "NEVER".to_string(),
                (true, n) => n.to_string(),
                (false, n) => format!("{n}: WHY"),
            };
            let cells: Vec<String> = (0..6).map(cell).collect();
            never += cells
                .iter()
                .filter(|c| c.ends_with(char::is_alphabetic))
                .count();
            let row: String = cells.iter().map(|c| format!("{:>11}", c)).collect();
            println!("{:<32}{}", call, row);
        }
        self.failed += u32::from(never > 0);
        println!();
    }

    pub fn end(self) -> ExitCode {
        if let Some(plant) = plant::chosen() {
            let name = plant.name();
            if self.could {
                println!(
                    "plant {}: {} planted, {} missed",
                    name, self.planted, self.missed
                );
            } else {
                println!("plant {}: no call here has a place for it", name);
            }
        }
        println!(
            "compare: {} rounds, {} checks, {} failed",
            self.rounds, self.checks, self.failed
        );
        if self.failed == 0 {
            ExitCode::SUCCESS
        } else {
            ExitCode::FAILURE
        }
    }
}
