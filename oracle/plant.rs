// Planted wrong answers: the ways in which a run may falsify what the library gave.
//
// A comparison that cannot fail shows nothing. So a run may change the library's answers in one of
// these ways before they are compared; the report then says how many it changed and how many of
// them the comparison missed. `oracle/plants.sh` tries every way.

use std::sync::OnceLock;

#[derive(Clone, Copy, PartialEq, Eq)]
pub enum Plant {
    LastBit,
    OtherZero,
    TooFar,
    Swap,
    SkipLast,
    Silence,
    RefusesAll,
    AcceptsSetting,
    AcceptsState,
    AcceptsLimit,
    AcceptsLength,
    AcceptsRoom,
    StateFirst,
    LengthFirst,
    RoomFirst,
    WritesOnRefusal,
    WritesPast,
    WritesBefore,
    WritesInput,
    OtherNan,
    StateOff,
    StateStays,
    StateOnRefusal,
    ZerosOnRefusal,
    CountOff,
    StruckOff,
    CountOnRefusal,
    StruckHeard,
}

impl Plant {
    fn told(self) -> (&'static str, &'static str) {
        match self {
            Plant::LastBit => (
                "last-bit",
                "one number that is given has its last bit flipped",
            ),
            Plant::OtherZero => ("other-zero", "one zero that is written has the other sign"),
            Plant::TooFar => ("too-far", "one number that has a bound is just beyond it"),
            Plant::Swap => (
                "swap",
                "the first two places written change places, as I and Q",
            ),
            Plant::SkipLast => ("skip-last", "the last place is not written"),
            Plant::Silence => ("silence", "0.0 is written everywhere"),
            Plant::RefusesAll => ("refuses-all", "every call is refused with 1"),
            Plant::AcceptsSetting => ("accepts-setting", "0 for the refusal 1"),
            Plant::AcceptsState => ("accepts-state", "0 for the refusal 2"),
            Plant::AcceptsLimit => ("accepts-limit", "0 for the refusal 3"),
            Plant::AcceptsLength => ("accepts-length", "0 for the refusal 4"),
            Plant::AcceptsRoom => ("accepts-room", "0 for the refusal 5"),
            Plant::StateFirst => ("state-first", "2 for the refusal 1"),
            Plant::LengthFirst => ("length-first", "4 for the refusal 3"),
            Plant::RoomFirst => ("room-first", "5 for the refusal 4"),
            Plant::WritesOnRefusal => ("writes-on-refusal", "a refused call changes a lent place"),
            Plant::WritesPast => ("writes-past", "the place after the last one is written too"),
            Plant::WritesBefore => ("writes-before", "the place before a slice is changed"),
            Plant::WritesInput => ("writes-input", "a slice that is lent to be read is changed"),
            Plant::OtherNan => ("other-nan", "a NaN that stays gets other bits"),
            Plant::StateOff => (
                "state-off",
                "a field of the new state has its last bit flipped",
            ),
            Plant::StateStays => (
                "state-stays",
                "an accepted call gives back the state handed in",
            ),
            Plant::StateOnRefusal => (
                "state-on-refusal",
                "a refused call changes a field of the state",
            ),
            Plant::ZerosOnRefusal => ("zeros-on-refusal", "a refused call gives back zeros"),
            Plant::CountOff => ("count-off", "one output too many is counted"),
            Plant::StruckOff => ("struck-off", "one struck sample too many is counted"),
            Plant::CountOnRefusal => ("count-on-refusal", "a refused call counts one"),
            Plant::StruckHeard => ("struck-heard", "a struck sample puts out -0.0 and not 0.0"),
        }
    }

    pub fn name(self) -> &'static str {
        self.told().0
    }
}

static CHOSEN: OnceLock<Plant> = OnceLock::new();

/// None in an honest run.
pub fn chosen() -> Option<Plant> {
    CHOSEN.get().copied()
}

pub fn choose(name: &str, plants: &[Plant]) -> Result<(), String> {
    let plant = plants
        .iter()
        .find(|plant| plant.name() == name)
        .ok_or(format!("{} is no plant of this program", name))?;
    CHOSEN
        .set(*plant)
        .map_err(|_| "one plant at a time".to_string())
}

pub fn list(plants: &[Plant]) -> String {
    let line = |plant: &Plant| format!("{:<18} {}", plant.name(), plant.told().1);
    plants.iter().map(line).collect::<Vec<_>>().join("\n")
}
