// Floats by their patterns: neighbours, edges, and random ones of each class.
//
// Evenly random bits hardly ever hit a subnormal, a power of two or its neighbour, so those are
// made on purpose.

use crate::rng::Rng;

pub const MAX: f32 = f32::MAX;
pub const INF: f32 = f32::INFINITY;
pub const NAN: f32 = f32::NAN;

/// The f32 that stands `by` patterns further on. It may leave the finite numbers, and that is
/// wanted.
pub fn beside_f32(x: f32, by: i64) -> f32 {
    f32::from_bits(x.to_bits().wrapping_add(by as u32))
}

pub fn beside_f64(x: f64, by: i64) -> f64 {
    f64::from_bits(x.to_bits().wrapping_add(by as u64))
}

/// 2^e, for e from -1074 to 1023; `powi` may go through a reciprocal, and that of 2^1074 is no f64.
pub fn power(e: i64) -> f64 {
    if e < -1022 {
        f64::from_bits(1 << (e + 1074))
    } else {
        f64::from_bits(((e + 1023) as u64) << 52)
    }
}

/// Where a class of f32 ends or a cast changes its answer, the patterns up to three away, and both
/// signs. The NaNs are quiet and signalling ones with digits at either end, so that one cut to
/// fewer digits could seem infinite.
pub fn edges_f32() -> Vec<f32> {
    let pi = std::f32::consts::PI;
    let mut all = Vec::new();
    for e in [
        -149, -148, -127, -126, -125, -75, -74, -1, 0, 1, 2, 22, 23, 24, 31, 32, 62, 63, 64, 126,
        127,
    ] {
        all.push(power(e) as f32);
    }
    all.extend([
        0.0,
        0.5,
        1.5,
        3.0,
        25.0,
        pi / 2.0,
        pi,
        2.0 * pi,
        3.0 * pi,
        f32::MAX,
        f32::INFINITY,
    ]);
    let mut out = Vec::new();
    for x in all {
        for by in -3..=3 {
            out.push(beside_f32(x, by));
            out.push(-beside_f32(x, by));
        }
    }
    out.extend(
        [
            0x7F80_0001u32,
            0x7FBF_FFFF,
            0x7FC0_0000,
            0x7FFF_FFFF,
            0xFF80_0001,
            0xFFC0_0000,
            0xFFFF_FFFF,
        ]
        .map(f32::from_bits),
    );
    out
}

/// The same of f64, with the ends of the f32 classes and the points where a narrowing to f32
/// changes its answer.
pub fn edges_f64() -> Vec<f64> {
    let pi = std::f64::consts::PI;
    let mut all = vec![
        0.0,
        0.5,
        1.5,
        3.0,
        f64::MAX,
        f64::INFINITY,
        f64::from(f32::MAX),
    ];
    for e in [
        -1074, -1073, -1023, -1022, -151, -150, -149, -148, -127, -126, -125, -27, -1, 0, 1, 23,
        24, 52, 53, 63, 64, 127, 128, 1023,
    ] {
        all.push(power(e));
    }
    // Half of the smallest subnormal is among the powers; next, the middle between the largest
    // subnormal and the smallest normal, and the overflow's threshold, from which on the nearest
    // f32 would need an exponent more.
    all.extend([power(-126) - power(-150), power(128) - power(103)]);
    for k in 1..=16 {
        all.push(f64::from(k) * pi);
        all.push(f64::from(k) * pi / 4.0);
    }
    let mut out = Vec::new();
    for x in all {
        for by in -3..=3 {
            out.push(beside_f64(x, by));
            out.push(-beside_f64(x, by));
        }
    }
    let nans = [
        0x7FF0_0000_0000_0001u64,
        0x7FF0_0000_1FFF_FFFF,
        0x7FF8_0000_0000_0000,
        0x7FFF_FFFF_FFFF_FFFF,
        0xFFF0_0000_0000_0001,
        0xFFF8_0000_0000_0000,
    ];
    out.extend(nans.map(f64::from_bits));
    out
}

/// At the ends of the rules on settings and beside them, and what breaks every rule.
pub fn ends_f32() -> Vec<f32> {
    let ends = [0.0, f32::MIN_POSITIVE, 0.5, 1.0, 2.0, f32::MAX];
    let mut out = Vec::new();
    for x in ends {
        let beside = [x, beside_f32(x, 1), f32::from_bits(x.to_bits().max(1) - 1)];
        out.extend(beside.into_iter().flat_map(|y| [y, -y]));
    }
    out.extend([0x7FC0_0000, 0x7F80_0001, 0xFFFF_FFFF].map(f32::from_bits));
    out
}

/// The same of f64, with PI and the turn among the ends.
pub fn ends_f64() -> Vec<f64> {
    let (pi, turn) = (std::f64::consts::PI, std::f64::consts::TAU);
    let ends = [0.0, f64::MIN_POSITIVE, 0.5, 1.0, pi, turn, f64::MAX];
    let mut out = Vec::new();
    for x in ends {
        let beside = [x, beside_f64(x, 1), f64::from_bits(x.to_bits().max(1) - 1)];
        out.extend(beside.into_iter().flat_map(|y| [y, -y]));
    }
    let nans = [
        0x7FF8_0000_0000_0000,
        0x7FF0_0000_0000_0001,
        0xFFFF_FFFF_FFFF_FFFF,
    ];
    out.extend(nans.map(f64::from_bits));
    out
}

/// What lent places hold before a call: a pattern for each, told apart by its place, and none that
/// a stage is likely to write. NaNs of both kinds are among them, as one that stays keeps its bits.
pub fn marks(len: usize, from: usize) -> Vec<f32> {
    let mark = |k: usize| {
        let place = (k / 4) as u32 & 0x001F_FFFF;
        f32::from_bits(match k % 4 {
            0 => 0x7FC0_0000 | place,
            1 => 0xFFA0_0000 | place,
            2 => 0x8040_0000 | place,
            _ => 0x4B00_0000 | place,
        })
    };
    (from..from + len).map(mark).collect()
}

/// A random f32: any bits, a subnormal of any size, or one near a power of two.
pub fn any_f32(rng: &mut Rng) -> f32 {
    let sign = (rng.next() as u32) & 0x8000_0000;
    match rng.below(4) {
        0 | 1 => f32::from_bits(rng.next() as u32),
        2 => f32::from_bits(sign | ((rng.next() as u32 & 0x007F_FFFF) >> rng.below(23))),
        _ => beside_f32(
            f32::from_bits(sign | ((rng.below(255) as u32) << 23)),
            rng.around(64),
        ),
    }
}

/// A random f64: any bits, a subnormal of any size, one near a power of two, or one of an exponent
/// that f32 has.
pub fn any_f64(rng: &mut Rng) -> f64 {
    let sign = rng.next() & (1 << 63);
    match rng.below(4) {
        0 => f64::from_bits(rng.next()),
        1 => f64::from_bits(sign | ((rng.next() >> 12) >> rng.below(52))),
        2 => beside_f64(
            f64::from_bits(sign | (rng.below(2047) << 52)),
            rng.around(64),
        ),
        _ => f64::from_bits(sign | ((rng.below(290) + 1023 - 155) << 52) | (rng.next() >> 12)),
    }
}
