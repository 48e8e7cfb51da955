// Document 01's sine, cosine and arctangent, step by step.
//
// It follows "Numbers under the stages" sentence by sentence. It judges the proved library and
// takes the place of `sin`, `cos` and `atan2` in the patched Rust original, so it borrows nothing
// from the library: every divisor and every 1/k is worked out at run time, and a slip in a table
// over there has no twin here. Rust rounds each f64 operation once and never fuses two, which is
// the paper's "one rounded f64 operation".

/// Bits 400921FB54442D18.
pub const PI: f64 = std::f64::consts::PI;
/// Bits 401921FB54442D18, exactly twice PI; so PI/2 and PI/4 below are exact too.
pub const TAU: f64 = std::f64::consts::TAU;
/// The paper's literal, near the tangent of PI/8. A q equal to it is still taken as it is.
pub const BOUND: f64 = 0.41421356237309503;

/// The angle less whole turns, from -PI to PI. Both ends are reached: PI stays PI.
///
/// `%` is C's fmod: exact, with the sign of x, so -0.0 and -TAU give -0.0. It makes NaN of an
/// infinity, and a NaN passes both comparisons.
pub fn reduce(x: f64) -> f64 {
    let r = x % TAU;
    if r > PI {
        r - TAU
    } else if r < -PI {
        r + TAU
    } else {
        r
    }
}

pub fn sine(x: f64) -> f64 {
    let r = reduce(x);
    let z = r * r;
    let mut t = 1.0;
    for k in (1..=13u32).rev() {
        t = 1.0 - (z * t) / f64::from(2 * k * (2 * k + 1));
    }
    r * t
}

/// The paper names r and z under "Sine" only; the cosine's are the same.
pub fn cosine(x: f64) -> f64 {
    let r = reduce(x);
    let z = r * r;
    let mut t = 1.0;
    for k in (1..=14u32).rev() {
        t = 1.0 - (z * t) / f64::from((2 * k - 1) * 2 * k);
    }
    t
}

/// The angle of the point (x, y), from -PI to PI. NaN if either number is, also beside a zero or an
/// infinity.
pub fn arctangent(y: f64, x: f64) -> f64 {
    if y.is_nan() || x.is_nan() {
        return f64::NAN;
    }
    let mut a = eighth(quotient(y.abs(), x.abs()));
    if y.abs() > x.abs() {
        a = PI / 2.0 - a;
    }
    // The sign bits and not comparisons with zero: (0, -0.0) lies at PI, and (-0.0, 1) at -0.0.
    if x.is_sign_negative() {
        a = PI - a;
    }
    if y.is_sign_negative() {
        a = -a;
    }
    a
}

/// Of two magnitudes, the smaller over the greater: 0 to 1, and never the NaN of 0/0 or of inf/inf.
fn quotient(one: f64, other: f64) -> f64 {
    if one == 0.0 && other == 0.0 {
        0.0
    } else if one.is_infinite() && other.is_infinite() {
        1.0
    } else if one < other {
        one / other
    } else {
        other / one
    }
}

/// The angle whose tangent is q, from 0 to PI/4.
fn eighth(q: f64) -> f64 {
    let (u, base) = if q > BOUND {
        ((q - 1.0) / (q + 1.0), PI / 4.0)
    } else {
        (q, 0.0)
    };
    let w = u * u;
    let mut t = 1.0 / 31.0;
    for k in (1..=29u32).rev().step_by(2) {
        t = 1.0 / f64::from(k) - w * t;
    }
    base + u * t
}

// "f32 users widen first and narrow last": nothing in between is rounded to f32.

pub fn sine_f32(x: f32) -> f32 {
    sine(f64::from(x)) as f32
}

pub fn cosine_f32(x: f32) -> f32 {
    cosine(f64::from(x)) as f32
}

pub fn arctangent_f32(y: f32, x: f32) -> f32 {
    arctangent(f64::from(y), f64::from(x)) as f32
}
