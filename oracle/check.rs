// One check of the comparison: how many inputs were compared, how many differ, the first of those.

use crate::plant::{self, Plant};
use crate::sample;
use crate::value::Value;

/// How far an answer may be from its reference, where not every bit has to agree.
#[derive(Clone, Copy)]
pub enum Bound {
    Exact,
    Distance(f64),
    Steps(u32),
}

pub struct Check {
    pub name: String,
    /// The call of the number work that it is of; a stage's calls are counted where they are made.
    pub call: Option<&'static str>,
    bound: Bound,
    pub compared: u64,
    pub differ: u64,
    worst: f64,
    worst_at: String,
    pub shown: Vec<String>,
    unfit: bool,
    plant: Option<Plant>,
    could: bool,
    pub planted: u64,
    pub missed: u64,
}

const SHOWN: usize = 5;
/// Where single answers are falsified, one in so many is.
const PLANTED: u64 = 1000;

impl Check {
    pub fn new(name: &str, bound: Bound) -> Check {
        Check {
            name: name.to_string(),
            call: None,
            bound,
            compared: 0,
            differ: 0,
            worst: 0.0,
            worst_at: String::new(),
            shown: Vec::new(),
            unfit: false,
            plant: plant::chosen(),
            could: false,
            planted: 0,
            missed: 0,
        }
    }

    /// A check of a call of the number work, by its name without `tl_`.
    pub fn of(call: &'static str, inputs: &str, bound: Bound) -> Check {
        Check {
            call: Some(call),
            ..Check::new(&format!("{call}, {inputs}"), bound)
        }
    }

    #[inline]
    pub fn equal<I: Value, A: Value>(&mut self, input: I, library: A, judge: A) {
        if let (true, Some(call)) = (sample::wanted(), self.call) {
            sample::single(call, &self.name, input, judge);
        }
        let (library, planted) = match self.plant {
            Some(Plant::LastBit) => self.off(library),
            _ => (library, false),
        };
        self.compared += 1;
        if !library.same(judge) {
            self.differs(input, library, judge);
        } else if planted {
            self.missed += 1;
        }
    }

    #[cold]
    fn off<A: Value>(&mut self, library: A) -> (A, bool) {
        self.could = true;
        if self.compared % PLANTED != 0 || library.off().same(library) {
            return (library, false);
        }
        self.planted += 1;
        (library.off(), true)
    }

    /// One more comparison, made elsewhere: what differed, told only if it is to be shown, and
    /// whether a difference was planted.
    pub fn count<D: FnOnce() -> String>(&mut self, difference: Option<D>, planted: bool) {
        self.compared += 1;
        self.planted += u64::from(planted);
        self.missed += u64::from(planted && difference.is_none());
        if let Some(told) = difference {
            self.differ += 1;
            self.show(told);
        }
    }

    /// Says that the plant has its place in a call of this check, fitting or not.
    pub fn could_plant(&mut self, could: bool) {
        self.could |= could;
    }

    /// Fails the check for a reason that is no difference.
    pub fn fail(&mut self, why: String) {
        self.unfit = true;
        self.shown.push(why);
    }

    fn show(&mut self, told: impl FnOnce() -> String) {
        if self.shown.len() < SHOWN {
            self.shown.push(told());
        }
    }

    /// The distance is the caller's to measure. One that is NaN is within no bound.
    #[inline]
    pub fn within<I: Value, A: Value>(&mut self, input: I, library: A, judge: A, distance: f64) {
        let allowed = match self.bound {
            Bound::Exact => 0.0,
            Bound::Distance(d) => d,
            Bound::Steps(n) => f64::from(n),
        };
        let planted = self.plant == Some(Plant::TooFar) && self.compared % PLANTED == 0;
        let distance = if planted {
            self.planted += 1;
            f64::from_bits(allowed.to_bits() + 1)
        } else if distance.is_nan() {
            f64::INFINITY
        } else {
            distance
        };
        self.compared += 1;
        if distance > self.worst {
            self.worst = distance;
            self.worst_at = format!(" at {}", input.shown());
        }
        if distance > allowed {
            self.differs(input, library, judge);
        } else if planted {
            self.missed += 1;
        }
    }

    #[cold]
    fn differs<I: Value, A: Value>(&mut self, input: I, library: A, judge: A) {
        self.differ += 1;
        self.show(|| {
            format!(
                "at {}: library {}, judge {}",
                input.shown(),
                library.shown(),
                judge.shown()
            )
        });
    }

    /// A check that compared nothing has shown nothing, and fails.
    pub fn failed(&self) -> bool {
        self.differ > 0 || self.compared == 0 || self.unfit
    }

    /// Whether the plant had its place in it.
    pub fn could(&self) -> bool {
        self.could || self.planted > 0
    }

    pub fn measured(&self) -> String {
        match self.bound {
            Bound::Exact => String::new(),
            Bound::Steps(n) => format!(", worst {} of {} steps{}", self.worst, n, self.worst_at),
            Bound::Distance(d) => format!(
                ", worst 2^{:.2} of 2^{:.2}{}",
                self.worst.log2(),
                d.log2(),
                self.worst_at
            ),
        }
    }
}
