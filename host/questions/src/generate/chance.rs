//! Numbers by chance, and those where something might go wrong.

/// Numbers by chance, from a seed (SplitMix64).
pub struct Chance(u64);

impl Chance {
    /// A source of chance that gives the same numbers for the same seed.
    pub fn new(seed: u64) -> Self {
        Self(seed)
    }

    /// Any number of 64 bits.
    pub fn number(&mut self) -> u64 {
        self.0 = self.0.wrapping_add(0x9e37_79b9_7f4a_7c15);
        let z = (self.0 ^ (self.0 >> 30)).wrapping_mul(0xbf58_476d_1ce4_e5b9);
        let z = (z ^ (z >> 27)).wrapping_mul(0x94d0_49bb_1331_11eb);
        z ^ (z >> 31)
    }

    /// A number below `n`, or 0 if there is none.
    pub fn below(&mut self, n: usize) -> usize {
        if n == 0 { 0 } else { (self.number() % n as u64) as usize }
    }

    /// True once in `n` times.
    pub fn once_in(&mut self, n: usize) -> bool {
        self.below(n) == 0
    }

    /// One of some things.
    pub fn one_of<T: Copy>(&mut self, things: &[T]) -> T {
        things[self.below(things.len())]
    }
}

/// Numbers where something might go wrong.
pub(crate) const AWKWARD: [u64; 40] = [
    0,
    1,
    2,
    3,
    4,
    5,
    6,
    7,
    8,
    9,
    10,
    15,
    16,
    17,
    31,
    32,
    33,
    60,
    61,
    62,
    63,
    64,
    65,
    255,
    256,
    65_535,
    65_536,
    (1 << 32) - 1,
    1 << 32,
    (1 << 40) - 1,
    1 << 40,
    (1 << 40) + 1,
    (1 << 63) - 2,
    (1 << 63) - 1,
    1 << 63,
    (1 << 63) + 1,
    u64::MAX / 3,
    u64::MAX - 2,
    u64::MAX - 1,
    u64::MAX,
];

/// What may stand where a decimal number should.
pub(crate) const NUMERALS: [&[u8]; 30] = [
    b"1",
    b"0",
    b"4",
    b"",
    b"00",
    b"01",
    b"+1",
    b"+0",
    b"+",
    b"-1",
    b"-0",
    b" 1",
    b"1 ",
    b"1\r",
    b"1\t2",
    b"18446744073709551615",
    b"18446744073709551616",
    b"000018446744073709551615",
    b"+18446744073709551615",
    b"+18446744073709551616",
    b"99999999999999999999",
    b"184467440737095516150",
    b"60",
    b"1,000",
    b"0x1",
    b"1e3",
    b"\xef\xbc\x91",
    b"1\n",
    b"\xff",
    b"++1",
];
/// How many of those make up every line of four numbers.
pub(crate) const NUMERALS_FOR_ALL: usize = 18;
