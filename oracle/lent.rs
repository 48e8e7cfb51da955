// Lent slices: what the library may write in, what stands around it, and what became of both.

use crate::sample::Slice;
use crate::value::{canonical, Value};

// A slice in a C face: a pointer to read or to write, and a length.
pub type R = *const f32;
pub type W = *mut f32;
pub type N = usize;

/// An element of a lent slice.
pub trait Place: Copy {
    const FLOAT: bool;
    fn pattern(self) -> u32;
    fn fence(k: usize) -> Self;
}

impl Place for f32 {
    const FLOAT: bool = true;
    fn pattern(self) -> u32 {
        self.to_bits()
    }
    fn fence(k: usize) -> f32 {
        f32::from_bits(0xFFAB_CD00 + k as u32)
    }
}

impl Place for u8 {
    const FLOAT: bool = false;
    fn pattern(self) -> u32 {
        u32::from(self)
    }
    fn fence(k: usize) -> u8 {
        0xA5 ^ k as u8
    }
}

pub fn bits<T: Place>(places: &[T]) -> Vec<u32> {
    places.iter().map(|place| place.pattern()).collect()
}

/// A slice for the library, with a fence of places around it that are not lent. One that is lent to
/// be read goes out as `*mut` too, so that a write to it is seen.
pub struct Lent<T> {
    name: &'static str,
    places: Vec<T>,
    before: Vec<u32>,
    front: usize,
    len: usize,
}

const FENCE: usize = 8;
/// So many places of a slice are shown beside a difference.
const HEAD: usize = 8;

impl<T: Place> Lent<T> {
    pub fn new(name: &'static str, slice: &[T]) -> Lent<T> {
        // A longer fence for some lengths: a loop over several samples at a time must not hang on
        // where a slice begins.
        let front = FENCE + slice.len() % 7;
        let mut places: Vec<T> = (0..front).map(T::fence).collect();
        places.extend_from_slice(slice);
        places.extend((0..FENCE).map(T::fence));
        Lent {
            name,
            before: bits(&places),
            places,
            front,
            len: slice.len(),
        }
    }

    pub fn start(&mut self) -> *mut T {
        self.places.as_mut_ptr().wrapping_add(self.front)
    }

    pub fn len(&self) -> usize {
        self.len
    }

    /// What stands in it now.
    pub fn slice(&self) -> &[T] {
        &self.places[self.front..self.front + self.len]
    }

    pub fn seen(self) -> Seen {
        Seen {
            name: self.name,
            float: T::FLOAT,
            after: bits(&self.places),
            before: self.before,
            front: self.front,
            len: self.len,
        }
    }
}

/// A slice and its fence before and after a call, by patterns.
pub struct Seen {
    pub name: &'static str,
    float: bool,
    pub before: Vec<u32>,
    pub after: Vec<u32>,
    pub front: usize,
    pub len: usize,
}

impl Seen {
    /// In a place that is written, one NaN is as good as another.
    pub fn same(&self, one: u32, other: u32) -> bool {
        one == other || (self.float && is_nan(one) && is_nan(other))
    }

    /// The first place that is not as it should be: `written` from the slice's first place on, and
    /// all else with the bits that it had.
    pub fn difference(&self, written: &[u32]) -> Option<String> {
        assert!(written.len() <= self.len, "the judge writes past the slice");
        let end = self.front + written.len();
        for (at, (&now, &before)) in self.after.iter().zip(&self.before).enumerate() {
            let stays = !(self.front..end).contains(&at);
            let judge = if stays {
                before
            } else {
                written[at - self.front]
            };
            if now != judge && (stays || !self.same(now, judge)) {
                let told = format!(
                    "{}[{}] library {}, judge {}",
                    self.name,
                    at as i64 - self.front as i64,
                    self.shown(now),
                    self.shown(judge)
                );
                return Some(told + if stays { ", as it was" } else { "" });
            }
        }
        None
    }

    fn lent(&self) -> &[u32] {
        &self.before[self.front..self.front + self.len]
    }

    /// The slice before the call and after it, as the judge says, for the sample.
    pub fn judged(&self, written: &[u32]) -> Slice {
        let word = |&place: &u32| match self.float {
            true => canonical(place),
            false => place,
        };
        let stays = &self.lent()[written.len()..];
        Slice {
            before: self.lent().iter().map(word).collect(),
            after: written.iter().chain(stays).map(word).collect(),
        }
    }

    /// The slice as it was handed in: its length and its head.
    pub fn handed(&self) -> String {
        let slice = self.lent();
        let digits = if self.float { 8 } else { 2 };
        let head = slice.iter().take(HEAD).map(|p| format!(" {:0digits$X}", p));
        let head: String = head.collect();
        format!("{} of {}:{}", self.name, self.len, head)
    }

    fn shown(&self, pattern: u32) -> String {
        if self.float {
            f32::from_bits(pattern).shown()
        } else {
            format!("{:02X}", pattern)
        }
    }
}

pub fn is_nan(pattern: u32) -> bool {
    f32::from_bits(pattern).is_nan()
}
