// How each plant changes what the library gave.

use crate::call::{Call, Judged, Outcome};
use crate::lent::{is_nan, Seen};
use crate::plant::Plant;
use crate::record::{Field, Part};
use crate::refusals::{LENGTH, LIMIT, NONE, ROOM, SETTING, STATE};
use crate::value::Value;

pub const PLANTS: [Plant; 27] = [
    Plant::LastBit,
    Plant::OtherZero,
    Plant::Swap,
    Plant::SkipLast,
    Plant::Silence,
    Plant::RefusesAll,
    Plant::AcceptsSetting,
    Plant::AcceptsState,
    Plant::AcceptsLimit,
    Plant::AcceptsLength,
    Plant::AcceptsRoom,
    Plant::StateFirst,
    Plant::LengthFirst,
    Plant::RoomFirst,
    Plant::WritesOnRefusal,
    Plant::WritesPast,
    Plant::WritesBefore,
    Plant::WritesInput,
    Plant::OtherNan,
    Plant::StateOff,
    Plant::StateStays,
    Plant::StateOnRefusal,
    Plant::ZerosOnRefusal,
    Plant::CountOff,
    Plant::StruckOff,
    Plant::CountOnRefusal,
    Plant::StruckHeard,
];

/// Whether the plant has its place in such a call at all. If it has none in any call of a run, that
/// is said; a plant that has one and never fits is missed.
pub fn could(plant: Plant, call: &Call, judge: &Judged) -> bool {
    let gives = |number| call.gives.contains(&number);
    let counts = |name| judge.answer.counts.iter().any(|count| count.name == name);
    let stateful = !judge.answer.state.is_empty();
    match plant {
        // A zero is written or it is not; where one is, the plant fits.
        Plant::TooFar | Plant::OtherZero => false,
        Plant::AcceptsSetting => gives(SETTING),
        Plant::AcceptsState => gives(STATE),
        Plant::AcceptsLimit => gives(LIMIT),
        Plant::AcceptsLength => gives(LENGTH),
        Plant::AcceptsRoom => gives(ROOM),
        Plant::StateFirst => gives(SETTING) && gives(STATE),
        Plant::LengthFirst => gives(LIMIT) && gives(LENGTH),
        Plant::RoomFirst => gives(LENGTH) && gives(ROOM),
        Plant::StateOff | Plant::StateStays => stateful,
        Plant::StateOnRefusal | Plant::ZerosOnRefusal => stateful && call.gives.len() > 1,
        Plant::CountOff => counts("count"),
        Plant::StruckOff | Plant::StruckHeard => counts("struck"),
        Plant::CountOnRefusal => !judge.answer.counts.is_empty() && call.gives.len() > 1,
        _ => true,
    }
}

/// Whether the outcome is another now: a plant does not fit every call. Slices, places and fields
/// take turns.
pub fn plant(plant: Plant, turn: usize, library: &mut Outcome, judge: &Judged) -> bool {
    let accepted = judge.answer.refusal == NONE;
    let Outcome { answer, given, .. } = library;
    match plant {
        // A single number's plant.
        Plant::TooFar => false,
        Plant::AcceptsSetting => answers(library, judge, SETTING, NONE),
        Plant::AcceptsState => answers(library, judge, STATE, NONE),
        Plant::AcceptsLimit => answers(library, judge, LIMIT, NONE),
        Plant::AcceptsLength => answers(library, judge, LENGTH, NONE),
        Plant::AcceptsRoom => answers(library, judge, ROOM, NONE),
        Plant::StateFirst => answers(library, judge, SETTING, STATE),
        Plant::LengthFirst => answers(library, judge, LIMIT, LENGTH),
        Plant::RoomFirst => answers(library, judge, LENGTH, ROOM),
        Plant::RefusesAll if accepted => {
            for seen in &mut library.lent {
                seen.after.clone_from(&seen.before);
            }
            answers(library, judge, NONE, SETTING)
        }
        Plant::RefusesAll => false,
        Plant::StateOff => accepted && field(&mut answer.state, turn, Part::off),
        Plant::StateOnRefusal => !accepted && field(&mut answer.state, turn, Part::off),
        Plant::StateStays => accepted && stays(given, &mut answer.state),
        Plant::ZerosOnRefusal => !accepted && all(&mut answer.state, Part::zero),
        Plant::CountOff => accepted && named(&mut answer.counts, "count"),
        Plant::StruckOff => accepted && named(&mut answer.counts, "struck"),
        Plant::CountOnRefusal => !accepted && field(&mut answer.counts, turn, more),
        Plant::StruckHeard if judge.silenced.is_empty() => false,
        Plant::StruckHeard => {
            let (slice, place) = judge.silenced[turn % judge.silenced.len()];
            let seen = &mut library.lent[slice];
            put(seen, seen.front + place, 0x8000_0000, usize::MAX)
        }
        _ => {
            let slices = library.lent.len();
            (turn..turn + slices).any(|k| {
                let k = k % slices;
                let written = &judge.written[k];
                slice(plant, turn, &mut library.lent[k], written, accepted)
            })
        }
    }
}

fn answers(library: &mut Outcome, judge: &Judged, from: u32, to: u32) -> bool {
    let fits = judge.answer.refusal == from;
    if fits {
        library.answer.refusal = to;
    }
    fits
}

/// Whether the change of a field's number is one.
fn change(field: &mut Field, with: impl Fn(Part) -> Part) -> bool {
    let was = field.part;
    field.part = with(was);
    !was.same(field.part)
}

fn field(fields: &mut [Field], turn: usize, with: impl Fn(Part) -> Part) -> bool {
    !fields.is_empty() && change(&mut fields[turn % fields.len()], with)
}

fn all(fields: &mut [Field], with: impl Fn(Part) -> Part) -> bool {
    let changes = fields.iter_mut().map(|field| change(field, &with));
    changes.filter(|&changed| changed).count() > 0
}

/// A making call was handed no state, and a setting of the same name does not change it.
fn stays(given: &[Field], state: &mut [Field]) -> bool {
    let changes = state.iter_mut().map(|now| {
        let was = given.iter().find(|was| was.name == now.name);
        was.is_some_and(|was| change(now, |_| was.part))
    });
    changes.filter(|&changed| changed).count() > 0
}

fn named(counts: &mut [Field], name: &str) -> bool {
    let mut of_name = counts.iter_mut().filter(|count| count.name == name);
    of_name.next().is_some_and(|count| change(count, more))
}

fn more(count: Part) -> Part {
    match count {
        Part::Whole(n) => Part::Whole(n + 1),
        other => other,
    }
}

/// Whether the plant fits the slice, and so has changed it.
fn slice(plant: Plant, turn: usize, seen: &mut Seen, written: &[u32], accepted: bool) -> bool {
    let first = seen.front;
    let end = first + written.len();
    let none = written.is_empty();
    match plant {
        Plant::LastBit if !none => flip(seen, first + turn % written.len(), end),
        Plant::OtherZero => (first..end)
            .find(|&at| seen.after[at] & 0x7FFF_FFFF == 0)
            .is_some_and(|at| put(seen, at, seen.after[at] ^ 0x8000_0000, end)),
        Plant::Swap if written.len() > 1 => {
            let (one, other) = (seen.after[first], seen.after[first + 1]);
            put(seen, first, other, end) && put(seen, first + 1, one, end)
        }
        Plant::SkipLast if !none => put(seen, end - 1, seen.before[end - 1], end),
        Plant::Silence => (first..end).filter(|&at| put(seen, at, 0, end)).count() > 0,
        Plant::WritesOnRefusal if !accepted && seen.len > 0 => {
            flip(seen, first + turn % seen.len, end)
        }
        Plant::WritesPast if !none => flip(seen, end, end),
        Plant::WritesBefore => flip(seen, first - 1, end),
        Plant::WritesInput if accepted && none && seen.len > 0 => {
            flip(seen, first + turn % seen.len, end)
        }
        Plant::OtherNan => (end..first + seen.len)
            .find(|&at| is_nan(seen.after[at]) && is_nan(seen.after[at] ^ 1))
            .is_some_and(|at| flip(seen, at, end)),
        _ => false,
    }
}

fn flip(seen: &mut Seen, at: usize, end: usize) -> bool {
    put(seen, at, seen.after[at] ^ 1, end)
}

/// Whether it is a change: in a written place, not one from NaN to NaN.
fn put(seen: &mut Seen, at: usize, pattern: u32, end: usize) -> bool {
    let was = std::mem::replace(&mut seen.after[at], pattern);
    if (seen.front..end).contains(&at) {
        !seen.same(was, pattern)
    } else {
        was != pattern
    }
}
