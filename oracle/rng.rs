// Random numbers that a seed repeats: splitmix64, whose text is short enough to be read here.

pub struct Rng(u64);

impl Rng {
    /// A stream of its own for each name, so that one check's inputs do not hang on how many
    /// another one drew.
    pub fn new(seed: u64, stream: &str) -> Rng {
        let mut rng = Rng(seed);
        for byte in stream.bytes() {
            rng.0 = rng.next() ^ u64::from(byte);
        }
        rng
    }

    pub fn next(&mut self) -> u64 {
        self.0 = self.0.wrapping_add(0x9E37_79B9_7F4A_7C15);
        let z = (self.0 ^ (self.0 >> 30)).wrapping_mul(0xBF58_476D_1CE4_E5B9);
        let z = (z ^ (z >> 27)).wrapping_mul(0x94D0_49BB_1331_11EB);
        z ^ (z >> 31)
    }

    /// From 0 to n - 1; n is small beside 2^64, so the bias is far below anything seen here.
    pub fn below(&mut self, n: u64) -> u64 {
        ((u128::from(self.next()) * u128::from(n)) >> 64) as u64
    }

    /// From -n to n.
    pub fn around(&mut self, n: i64) -> i64 {
        self.below(2 * n as u64 + 1) as i64 - n
    }

    pub fn pick<T: Copy>(&mut self, from: &[T]) -> T {
        from[self.below(from.len() as u64) as usize]
    }

    pub fn coin(&mut self) -> bool {
        self.next() >> 63 == 1
    }

    /// From -1 to 1, evenly.
    pub fn unit(&mut self) -> f64 {
        (self.next() >> 10) as f64 / (1u64 << 53) as f64 - 1.0
    }
}
