// A feedback stage's call over a block, held to the original's method behind the paper's table.

use crate::call::{Call, Calls, Judged};
use crate::laws::{Heard, Stage};
use crate::lent::{bits, Lent};
use crate::patterns::marks;
use crate::record::{CountedStriking, Field, Part, Record, Striking};
use crate::refusals::{Holds, MOST, NONE};
use crate::struck::{self, Run};

type InPlace<S> = unsafe extern "C" fn(S, *mut f32, usize) -> Striking<S>;
type Split<S> = unsafe extern "C" fn(S, *mut f32, usize, *mut f32, usize) -> Striking<S>;
type Into<S> = unsafe extern "C" fn(S, *const f32, usize, *mut f32, usize) -> CountedStriking<S>;

/// The forms of a C face: on a slice in place, on I and Q apart in place, from one slice into
/// another.
pub enum Face<S> {
    InPlace(InPlace<S>),
    Split(Split<S>),
    Into(Into<S>),
}

pub struct Way<S> {
    pub call: Call,
    pub face: Face<S>,
    /// Samples to a step: 2 where I and Q come in pairs.
    pub width: usize,
    /// Whether a state's settings keep their rules, and whether its stored numbers do.
    pub setting: fn(S) -> bool,
    pub stored: fn(S) -> bool,
    /// The original's method over a block: what it puts out is appended.
    pub original: fn(S, &[f32], &mut Vec<f32>) -> S,
}

impl<S: Record> Way<S> {
    /// One call; the library's state after it and what it put out. I and Q are taken apart first
    /// where the face wants it so, and the last sample of an odd number is then an I without a Q.
    pub fn put(&self, calls: &mut Calls, state: S, input: &[f32], room: usize) -> (S, Heard) {
        match self.face {
            Face::InPlace(library) => self.in_place(library, calls, state, input),
            Face::Into(library) => self.into(library, calls, state, input, room),
            Face::Split(library) => {
                let half = |from: usize| input.iter().skip(from).step_by(2).copied();
                let (i, q): (Vec<f32>, Vec<f32>) = (half(0).collect(), half(1).collect());
                self.split(library, calls, state, &i, &q)
            }
        }
    }

    pub fn has_room(&self) -> bool {
        matches!(self.face, Face::Into(_))
    }

    fn holds(&self, state: S, longest: usize) -> Holds {
        Holds {
            setting: !(self.setting)(state),
            state: !(self.stored)(state),
            limit: longest > MOST,
            ..Holds::default()
        }
    }

    fn run(&self, refusal: u32, state: S, input: &[f32]) -> Run<S> {
        match refusal {
            NONE => struck::run(state, self.width, input, self.original),
            _ => Run::none(state),
        }
    }

    fn in_place(
        &self,
        library: InPlace<S>,
        calls: &mut Calls,
        state: S,
        input: &[f32],
    ) -> (S, Heard) {
        let mut data = Lent::new("data", input);
        // Safety: here and below, each pointer and the length after it belong together.
        let answer = unsafe { library(state, data.start(), data.len()) };
        let refusal = Holds {
            length: input.len() % self.width != 0,
            ..self.holds(state, input.len())
        }
        .first();
        let run = self.run(refusal, state, input);
        let mut judge = Judged::new(run.answer(refusal), vec![bits(&run.out)]);
        judge.silenced = struck::places(0, &run.struck, self.width);
        let (out, struck) = (data.slice().to_vec(), answer.struck);
        calls.hold(state.fields(), answer, vec![data.seen()], judge);
        (answer.state, Heard { out, struck })
    }

    /// Over the shorter of the two, and the rest stays.
    pub fn split(
        &self,
        library: Split<S>,
        calls: &mut Calls,
        state: S,
        i: &[f32],
        q: &[f32],
    ) -> (S, Heard) {
        let (mut at_i, mut at_q) = (Lent::new("i", i), Lent::new("q", q));
        let answer = unsafe { library(state, at_i.start(), at_i.len(), at_q.start(), at_q.len()) };
        let refusal = self.holds(state, i.len().max(q.len())).first();
        let pairs: Vec<f32> = i.iter().zip(q).flat_map(|(&i, &q)| [i, q]).collect();
        let run = self.run(refusal, state, &pairs);
        let half = |from: usize| run.out.iter().skip(from).step_by(2).copied();
        let (right_i, right_q): (Vec<f32>, Vec<f32>) = (half(0).collect(), half(1).collect());
        let mut judge = Judged::new(run.answer(refusal), vec![bits(&right_i), bits(&right_q)]);
        judge.silenced = struck::places(1, &run.struck, 1);
        let both = at_i.slice().iter().zip(at_q.slice());
        let out = both.flat_map(|(&i, &q)| [i, q]).collect();
        let struck = answer.struck;
        calls.hold(
            state.fields(),
            answer,
            vec![at_i.seen(), at_q.seen()],
            judge,
        );
        (answer.state, Heard { out, struck })
    }

    /// One output to a step.
    fn into(
        &self,
        library: Into<S>,
        calls: &mut Calls,
        state: S,
        input: &[f32],
        room: usize,
    ) -> (S, Heard) {
        let mut from = Lent::new("input", input);
        let mut to = Lent::new("output", &marks(room, input.len()));
        let answer = unsafe { library(state, from.start(), from.len(), to.start(), to.len()) };
        let refusal = Holds {
            length: input.len() % self.width != 0,
            room: room < input.len() / self.width,
            ..self.holds(state, input.len())
        }
        .first();
        let run = self.run(refusal, state, input);
        let mut judge = Judged::new(run.answer_counted(refusal), vec![vec![], bits(&run.out)]);
        judge.silenced = struck::places(1, &run.struck, 1);
        let out = to.slice()[..answer.count.min(room)].to_vec();
        let struck = answer.struck;
        calls.hold(state.fields(), answer, vec![from.seen(), to.seen()], judge);
        (answer.state, Heard { out, struck })
    }
}

/// A making call that keeps its rules answers the original's new state, another one zeros.
pub fn make<S: Record>(
    calls: &mut Calls,
    given: Vec<Field>,
    answer: Striking<S>,
    setting: bool,
    original: impl FnOnce() -> S,
) {
    let refusal = Holds {
        setting: !setting,
        ..Holds::default()
    }
    .first();
    let state = match refusal {
        NONE => original(),
        _ => S::default(),
    };
    let judge = Run::none(state).answer(refusal);
    calls.hold(given, answer, vec![], Judged::new(judge, vec![]));
}

/// A stream of a stage: the way and the state that goes from call to call.
pub struct Fed<'a, S> {
    pub way: &'a Way<S>,
    pub state: S,
}

impl<S: Copy> Clone for Fed<'_, S> {
    fn clone(&self) -> Self {
        Fed { ..*self }
    }
}

impl<S: Record> Stage for Fed<'_, S> {
    fn width(&self) -> usize {
        self.way.width
    }

    fn feed(&mut self, calls: &mut Calls, block: &[f32]) -> Heard {
        let room = block.len() / self.way.width + block.len() % 3;
        let (state, heard) = self.way.put(calls, self.state, block, room);
        self.state = state;
        heard
    }

    fn kept(&self) -> Vec<Part> {
        let fields = self.state.fields().into_iter();
        fields.map(|field| field.part).collect()
    }
}
