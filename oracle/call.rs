// One call of a stage: what the library was handed and gave, held to what the judge says it gives.

use crate::falsify;
use crate::lent::Seen;
use crate::plant;
use crate::record::{Answer, Field};
use crate::report::{Bound, Check, Report};
use crate::sample::{self, Case, Numbers};
use crate::value::Value;

/// A call of the library, by its name without `tl_`, and the numbers that the paper's table lets it
/// give. The report's last table shows how often each was given, and fails on one that never was.
#[derive(Clone, Copy)]
pub struct Call {
    pub name: &'static str,
    pub gives: &'static [u32],
}

impl Call {
    pub const fn new(name: &'static str, gives: &'static [u32]) -> Call {
        Call { name, gives }
    }
}

/// What was handed in by value, and what came of the call.
pub struct Outcome {
    pub given: Vec<Field>,
    pub answer: Answer,
    pub lent: Vec<Seen>,
}

/// The judge's word on a call: its answer, and for each lent slice what is written, from the first
/// place on. Nothing else may change. Beside it, for the plants, where a struck sample's outputs
/// stand: the slice and the place in it.
pub struct Judged {
    pub answer: Answer,
    pub written: Vec<Vec<u32>>,
    pub silenced: Vec<(usize, usize)>,
}

impl Judged {
    pub fn new(answer: impl Into<Answer>, written: Vec<Vec<u32>>) -> Judged {
        Judged {
            answer: answer.into(),
            written,
            silenced: Vec::new(),
        }
    }
}

impl Outcome {
    fn difference(&self, judge: &Judged) -> Option<String> {
        let (library, right) = (&self.answer, &judge.answer);
        assert_eq!(self.lent.len(), judge.written.len(), "slices compared");
        assert_eq!(library.state.len(), right.state.len(), "fields compared");
        assert_eq!(library.counts.len(), right.counts.len(), "counts compared");
        if library.refusal != right.refusal {
            let (library, right) = (library.refusal, right.refusal);
            return Some(format!("library refuses with {library}, judge {right}"));
        }
        let fields = library.state.iter().chain(&library.counts);
        let mut both = fields.zip(right.state.iter().chain(&right.counts));
        if let Some((one, other)) = both.find(|(one, other)| !one.part.same(other.part)) {
            let other = other.part.shown();
            return Some(format!("library {}, judge {}", one.shown(), other));
        }
        let mut slices = self.lent.iter().zip(&judge.written);
        slices.find_map(|(seen, written)| seen.difference(written))
    }

    /// The case for the sample: the judge's answer, and the samples' slice first.
    fn judged(&self, judge: &Judged) -> Case {
        let mut lent: Vec<_> = self.lent.iter().zip(&judge.written).collect();
        lent.sort_by_key(|(seen, _)| seen.name != "input");
        let (mut given, mut answer) = (Numbers::default(), Numbers::default());
        self.given
            .iter()
            .for_each(|field| field.part.put(&mut given));
        judge.answer.refusal.put(&mut answer);
        let fields = judge.answer.state.iter().chain(&judge.answer.counts);
        fields.for_each(|field| field.part.put(&mut answer));
        let slices = lent.iter().map(|(seen, written)| seen.judged(written));
        Case {
            given,
            lent: slices.collect(),
            answer,
        }
    }

    fn shown(&self) -> String {
        let given = self.given.iter().map(Field::shown);
        let lent = self.lent.iter().map(Seen::handed);
        given.chain(lent).collect::<Vec<_>>().join(", ")
    }
}

/// A check of calls. It names the numbers that its inputs lead to, and fails if the judge never
/// gives one of them or gives another: inputs that all are refused would show little.
pub struct Calls {
    call: Call,
    check: Check,
    gives: Vec<u32>,
    given: [u64; 6],
}

impl Calls {
    pub fn new(call: Call, what: &str, gives: &[u32]) -> Calls {
        Calls {
            call,
            check: Check::new(&format!("{}, {}", call.name, what), Bound::Exact),
            gives: gives.to_vec(),
            given: [0; 6],
        }
    }

    /// Fails the check for a reason that is no difference.
    pub fn fail(&mut self, why: &str) {
        self.check.fail(why.to_string());
    }

    pub fn hold(
        &mut self,
        given: Vec<Field>,
        answer: impl Into<Answer>,
        lent: Vec<Seen>,
        judge: Judged,
    ) {
        let answer = answer.into();
        let mut library = Outcome {
            given,
            answer,
            lent,
        };
        if sample::wanted() {
            let (number, case) = (judge.answer.refusal, library.judged(&judge));
            sample::offer(self.call.name, number, &self.check.name, case);
        }
        let turn = self.given.iter().sum::<u64>() as usize;
        self.given[judge.answer.refusal as usize] += 1;
        let mut planted = false;
        if let Some(plant) = plant::chosen() {
            self.check
                .could_plant(falsify::could(plant, &self.call, &judge));
            planted = falsify::plant(plant, turn, &mut library, &judge);
        }
        let difference = library.difference(&judge);
        let told = difference.map(|what| move || format!("at {}: {}", library.shown(), what));
        self.check.count(told, planted);
    }

    pub fn end(mut self, report: &mut Report) {
        for (number, &times) in self.given.iter().enumerate() {
            if self.gives.contains(&(number as u32)) != (times > 0) {
                let why = format!(
                    "wrong inputs: {} of them lead to the number {}",
                    times, number
                );
                self.check.fail(why);
            }
        }
        report.given(self.call.name, self.given);
        report.end_of(self.check);
    }
}
