// The values that are compared to the bit, and how far apart two of them are.

use crate::sample::Numbers;

/// A value that is compared to the bit. All NaNs count as one value (document 01).
pub trait Value: Copy {
    fn same(self, other: Self) -> bool;
    fn shown(self) -> String;
    /// For the sample: an f32 is a single, anything else a pattern of 64 bits. All NaNs are the same.
    fn put(self, numbers: &mut Numbers);
    /// With the last bit flipped, to be planted.
    fn off(self) -> Self {
        self
    }
}

impl Value for f32 {
    #[inline]
    fn same(self, other: f32) -> bool {
        self.to_bits() == other.to_bits() || (self.is_nan() && other.is_nan())
    }
    fn shown(self) -> String {
        format!("{:08X} ({:e})", self.to_bits(), self)
    }
    fn put(self, numbers: &mut Numbers) {
        numbers.singles.push(canonical(self.to_bits()));
    }
    fn off(self) -> f32 {
        f32::from_bits(self.to_bits() ^ 1)
    }
}

impl Value for f64 {
    #[inline]
    fn same(self, other: f64) -> bool {
        self.to_bits() == other.to_bits() || (self.is_nan() && other.is_nan())
    }
    fn shown(self) -> String {
        format!("{:016X} ({:e})", self.to_bits(), self)
    }
    fn put(self, numbers: &mut Numbers) {
        let nan = 0x7FF8 << 48;
        let pattern = if self.is_nan() { nan } else { self.to_bits() };
        numbers.patterns.push(pattern);
    }
    fn off(self) -> f64 {
        f64::from_bits(self.to_bits() ^ 1)
    }
}

impl Value for usize {
    #[inline]
    fn same(self, other: usize) -> bool {
        self == other
    }
    fn shown(self) -> String {
        format!("{:016X} ({})", self, self)
    }
    fn put(self, numbers: &mut Numbers) {
        numbers.patterns.push(self as u64);
    }
    fn off(self) -> usize {
        self ^ 1
    }
}

impl Value for u32 {
    #[inline]
    fn same(self, other: u32) -> bool {
        self == other
    }
    fn shown(self) -> String {
        self.to_string()
    }
    fn put(self, numbers: &mut Numbers) {
        numbers.patterns.push(u64::from(self));
    }
}

impl Value for bool {
    #[inline]
    fn same(self, other: bool) -> bool {
        self == other
    }
    fn shown(self) -> String {
        self.to_string()
    }
    fn put(self, numbers: &mut Numbers) {
        numbers.patterns.push(u64::from(self));
    }
    fn off(self) -> bool {
        !self
    }
}

impl<A: Value, B: Value> Value for (A, B) {
    #[inline]
    fn same(self, other: (A, B)) -> bool {
        self.0.same(other.0) && self.1.same(other.1)
    }
    fn shown(self) -> String {
        format!("{}, {}", self.0.shown(), self.1.shown())
    }
    fn put(self, numbers: &mut Numbers) {
        self.0.put(numbers);
        self.1.put(numbers);
    }
}

/// The one pattern for all NaNs of f32, and any other pattern itself.
pub fn canonical(pattern: u32) -> u32 {
    if f32::from_bits(pattern).is_nan() {
        0x7FC0_0000
    } else {
        pattern
    }
}

/// How many f32 lie between two, one end counted. Both zeros are one point; NaN is far from every
/// number.
pub fn steps_apart(a: f32, b: f32) -> f64 {
    if a.is_nan() || b.is_nan() {
        return if a.is_nan() && b.is_nan() {
            0.0
        } else {
            f64::INFINITY
        };
    }
    let line = |x: f32| {
        let size = i64::from(x.to_bits() & 0x7FFF_FFFF);
        if x.is_sign_negative() {
            -size
        } else {
            size
        }
    };
    (line(a) - line(b)).unsigned_abs() as f64
}
