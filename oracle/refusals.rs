// Document 01's five numbers and its rules on settings, as the judge reads them.
//
// Taken from the paper's table and its section "Settings", and from nothing of the library's.

pub const NONE: u32 = 0;
pub const SETTING: u32 = 1;
pub const STATE: u32 = 2;
pub const LIMIT: u32 = 3;
pub const LENGTH: u32 = 4;
pub const ROOM: u32 = 5;

/// The most elements that an input or in-place sample slice may have.
pub const MOST: usize = 262_144;

/// Which of the five hold for a call. A call that a number never speaks of leaves it false.
#[derive(Default)]
pub struct Holds {
    pub setting: bool,
    pub state: bool,
    pub limit: bool,
    pub length: bool,
    pub room: bool,
}

impl Holds {
    /// The first that holds, in the table's order.
    pub fn first(self) -> u32 {
        if self.setting {
            SETTING
        } else if self.state {
            STATE
        } else if self.limit {
            LIMIT
        } else if self.length {
            LENGTH
        } else if self.room {
            ROOM
        } else {
            NONE
        }
    }
}

// The rules, each true of a setting that keeps it. They are comparisons that NaN fails, so NaN
// breaks each.

pub fn lowpass_taps(count: usize) -> bool {
    count % 2 == 1 && (3..=769).contains(&count)
}

pub fn cutoff(cutoff: f32) -> bool {
    cutoff >= 1.0 / 1024.0 && cutoff < 0.5
}

pub fn hilbert_taps(count: usize) -> bool {
    count % 2 == 1 && (3..=129).contains(&count)
}

pub fn factor(factor: usize) -> bool {
    (2..=64).contains(&factor)
}

/// Alpha, attack, decay.
pub fn unit(x: f32) -> bool {
    x >= 0.0 && x <= 1.0
}

/// Target, floor, rate.
pub fn above_zero(x: f32) -> bool {
    x > 0.0 && x.is_finite()
}

/// Tau, hang time.
pub fn not_below_zero(x: f32) -> bool {
    x >= 0.0 && x.is_finite()
}

/// The least number of samples that is above every hang time.
pub const HANG: usize = 16_777_216;

/// (time x rate) / 1000 in f32, before it is truncated.
pub fn hang(time: f32, rate: f32) -> bool {
    not_below_zero(time) && above_zero(rate) && time * rate / 1000.0 < HANG as f32
}

/// The alpha as computed is NaN where 1 / rate overflows.
pub fn deemphasis(rate: f32, tau: f32) -> bool {
    let dt = 1.0 / rate;
    above_zero(rate) && not_below_zero(tau) && unit(dt / (dt + tau))
}

pub fn increment(x: f64) -> bool {
    use std::f64::consts::PI;
    (-PI..=PI).contains(&x)
}

/// The increment as computed: 2 x PI x frequency, then divided by the rate.
pub fn frequency(frequency: f64, rate: f64) -> bool {
    let rate_kept = rate > 0.0 && rate.is_finite();
    let computed = 2.0 * std::f64::consts::PI * frequency / rate;
    frequency.is_finite() && rate_kept && increment(computed)
}
