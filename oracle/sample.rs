// A sample of the judge's answers, to be stored in crates/vectors/data and replayed with no Rust at
// hand. README.md there tells its form.
//
// Of each call and number a few cases are kept. They come from different checks, are short, and
// change as many of their slices as can be; which of those is left to a hash of their words.

use crate::refusals::{MOST, NONE};
use crate::value::Value;
use std::collections::BTreeMap;
use std::fs::OpenOptions;
use std::io::Write;
use std::sync::{Mutex, OnceLock};

/// The calls in the order of their numbers in the file.
const CALLS: &str = include_str!("../crates/vectors/data/calls.txt");

/// The most elements of a case's first slice, and of any other: so much the replay has room for.
const FIRST: usize = MOST + 2;
const OTHER: usize = 1024;
/// A case is short, long or too long by its words; one that is too long is taken where a call has
/// no other, and one above the last is not taken at all.
const SIZES: [usize; 3] = [48, 170, 410];
/// So many cases of each call and number: of the number work, of a call that is accepted, of one
/// that is refused.
const SINGLE: usize = 6;
const ACCEPTED: usize = 4;
const REFUSED: usize = 2;

/// In place of a slice's length after the call: it is as it was.
const STAYS: u32 = u32::MAX;

pub struct Slice {
    pub before: Vec<u32>,
    pub after: Vec<u32>,
}

/// Numbers that go by value.
#[derive(Default)]
pub struct Numbers {
    pub singles: Vec<u32>,
    pub patterns: Vec<u64>,
}

impl Numbers {
    fn words(&self) -> Vec<u32> {
        let halves = |pattern: &u64| [*pattern as u32, (pattern >> 32) as u32];
        let patterns = self.patterns.iter().flat_map(halves);
        self.singles.iter().copied().chain(patterns).collect()
    }
}

/// What is handed in by value, what is lent, what the judge says.
pub struct Case {
    pub given: Numbers,
    pub lent: Vec<Slice>,
    pub answer: Numbers,
}

/// By how many slices stay as they are and by hash, so that the first is the best.
type Row = BTreeMap<(usize, u64), Vec<u32>>;
/// By call and number, and then by size and check.
type Kept = BTreeMap<(&'static str, u32), BTreeMap<(usize, String), Row>>;

static SAMPLE: OnceLock<Mutex<Kept>> = OnceLock::new();

pub fn want() {
    SAMPLE.get_or_init(Mutex::default);
}

#[inline]
pub fn wanted() -> bool {
    SAMPLE.get().is_some()
}

/// A call of the number work: numbers in, one number out.
#[cold]
pub fn single<I: Value, A: Value>(call: &'static str, check: &str, input: I, judge: A) {
    let (mut given, mut answer) = (Numbers::default(), Numbers::default());
    input.put(&mut given);
    judge.put(&mut answer);
    let lent = Vec::new();
    let case = Case {
        given,
        lent,
        answer,
    };
    offer(call, NONE, check, case);
}

pub fn offer(call: &'static str, number: u32, check: &str, case: Case) {
    let Some(sample) = SAMPLE.get() else { return };
    let room = |k: usize| if k == 0 { FIRST } else { OTHER };
    let mut lent = case.lent.iter().enumerate();
    if lent.any(|(k, slice)| slice.before.len() > room(k)) {
        return;
    }
    let same = |slice: &&Slice| slice.before == slice.after;
    let stay = case.lent.iter().filter(same).count();
    let words = case.words();
    let Some(size) = SIZES.iter().position(|&size| words.len() <= size) else {
        return;
    };
    let mut kept = sample.lock().expect("one thread");
    let rows = kept.entry((call, number)).or_default();
    let row = rows.entry((size, check.to_string())).or_default();
    row.insert((stay, hash(&words)), words);
    if row.len() > SINGLE {
        row.pop_last();
    }
}

impl Case {
    /// All words but the call's and the length. A call that is lent anything has five slices, of
    /// which those that it does not have are empty.
    fn words(self) -> Vec<u32> {
        let Case {
            given,
            lent,
            answer,
        } = &self;
        let slices = if lent.is_empty() { 0 } else { 5 };
        assert!(lent.len() <= slices, "five slices at most");
        let (mut headers, mut places) = (vec![[0, 0, STAYS]; slices], Vec::new());
        for (header, Slice { before, after }) in headers.iter_mut().zip(lent) {
            let (told, stays) = (heads(before), after == before);
            let now = if stays { &[][..] } else { heads(after) };
            let after = if stays { STAYS } else { now.len() as u32 };
            *header = [before.len() as u32, told.len() as u32, after];
            places.extend([told, now].concat());
        }
        let counts = [
            given.singles.len(),
            given.patterns.len(),
            answer.singles.len(),
            answer.patterns.len(),
            slices,
        ];
        let counts = counts.map(|n| n as u32).to_vec();
        [
            counts,
            headers.concat(),
            given.words(),
            answer.words(),
            places,
        ]
        .concat()
    }
}

/// Without the zeros at its end.
fn heads(places: &[u32]) -> &[u32] {
    let last = places.iter().rposition(|&place| place != 0);
    &places[..last.map_or(0, |last| last + 1)]
}

/// FNV-1a, over words.
fn hash(words: &[u32]) -> u64 {
    let step = |h: u64, &word: &u32| (h ^ u64::from(word)).wrapping_mul(0x0000_0100_0000_01B3);
    words.iter().fold(0xCBF2_9CE4_8422_2325, step)
}

/// Adds the sample to the file. A call or a number of it that has no case is an error.
pub fn write(file: &str, calls: &[(&'static str, &'static [u32])]) -> Result<(), String> {
    let mut kept = SAMPLE.get().expect("wanted").lock().expect("one thread");
    let mut text = String::new();
    for &(call, gives) in calls {
        let place = CALLS.lines().position(|line| line.trim_end() == call);
        let place = place.ok_or(format!("calls.txt has no call {call}"))?;
        for &number in gives {
            let most = match (gives.len(), number) {
                (1, _) => SINGLE,
                (_, NONE) => ACCEPTED,
                _ => REFUSED,
            };
            let rows = kept.remove(&(call, number)).unwrap_or_default();
            let cases = chosen(&rows, most);
            if cases.is_empty() {
                return Err(format!("{call} has no short case with the number {number}"));
            }
            for case in cases {
                let words = case.iter().map(|word| format!(" {word:08X}"));
                let (case, size) = (words.collect::<String>(), case.len() + 2);
                text += &format!("{place:08X} {size:08X}{case}\n");
            }
        }
    }
    let add = OpenOptions::new().create(true).append(true).open(file);
    let added = add.and_then(|mut file| file.write_all(text.as_bytes()));
    added.map_err(|why| format!("{file}: {why}"))
}

/// Short ones and, of an accepted call, a long one; half as many where there are no short ones.
fn chosen(rows: &BTreeMap<(usize, String), Row>, most: usize) -> Vec<Vec<u32>> {
    let of = |size, most| in_turns(rows, size, most);
    let (mut short, long) = (of(0, most), most.div_ceil(2));
    match (short.is_empty(), most) {
        (false, ACCEPTED) => short.extend(of(1, 1)),
        (false, _) => {}
        (true, _) => short = of(1, long),
    }
    if short.is_empty() {
        short = of(2, long);
    }
    short
}

/// The best of each check, then the second best of each, until there are enough.
fn in_turns(rows: &BTreeMap<(usize, String), Row>, size: usize, most: usize) -> Vec<Vec<u32>> {
    let rows = rows.iter().filter(|((of, _), _)| *of == size);
    let turns = rows.map(|(_, row)| row.iter().enumerate());
    let mut all: Vec<_> = turns.flatten().collect();
    all.sort_by_key(|&(turn, (&(stay, hash), _))| (stay, turn, hash));
    let mut out: Vec<Vec<u32>> = Vec::new();
    for (_, (_, case)) in all {
        if out.len() < most && !out.contains(case) {
            out.push(case.clone());
        }
    }
    out
}
