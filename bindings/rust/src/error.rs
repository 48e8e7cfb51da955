//! The five refusals.

use std::fmt;

/// Why a call was refused: the first of these that applies. The number is that of the C face.
#[derive(Clone, Copy, Debug, PartialEq, Eq, Hash)]
pub enum Error {
    /// A setting, also one inside the stage, breaks its rule. NaN breaks every rule.
    Setting = 1,
    /// A stored float is not finite, or a hang counter is above its hang time. No call makes such a stage.
    State = 2,
    /// An input, or a slice that is worked on in place, has more than [`LONGEST`](crate::LONGEST) elements.
    Limit = 3,
    /// An interleaved slice is odd, or two lengths do not belong together.
    Length = 4,
    /// The output is shorter than what is put out. The calls of this crate make their own room, and never give it.
    Room = 5,
}

/// What a call answers.
pub type Result<T> = std::result::Result<T, Error>;

impl fmt::Display for Error {
    fn fmt(&self, f: &mut fmt::Formatter<'_>) -> fmt::Result {
        f.write_str(match self {
            Error::Setting => "a setting breaks its rule",
            Error::State => "the stage holds what no call stores",
            Error::Limit => "more than 262,144 elements",
            Error::Length => "an odd number of floats in pairs, or lengths that do not belong together",
            Error::Room => "the output is too short",
        })
    }
}

impl std::error::Error for Error {}

/// The number that the library gave, which is from 0 to 5.
pub(crate) fn accept(refusal: u32) -> Result<()> {
    match refusal {
        0 => Ok(()),
        1 => Err(Error::Setting),
        2 => Err(Error::State),
        3 => Err(Error::Limit),
        4 => Err(Error::Length),
        _ => Err(Error::Room),
    }
}
