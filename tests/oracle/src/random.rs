//! A small generator of random numbers (SplitMix64), the same on every machine.

pub struct Random {
    state: u64,
}

/// Numbers at which something begins or ends: digits, limits, widths.
const EDGES: [u32; 26] = [
    0,
    1,
    2,
    3,
    9,
    10,
    63,
    64,
    65,
    99,
    100,
    1_023,
    1_024,
    1_025,
    65_535,
    65_536,
    999_999,
    1_000_000,
    1_000_001,
    999_999_999,
    1_000_000_000,
    2_147_483_647,
    2_147_483_648,
    4_294_967_293,
    4_294_967_294,
    4_294_967_295,
];

impl Random {
    pub fn new(seed: u64) -> Random {
        Random { state: seed }
    }

    /// Any 64 bits.
    pub fn bits(&mut self) -> u64 {
        self.state = self.state.wrapping_add(0x9E37_79B9_7F4A_7C15);
        let mut mixed = self.state;
        mixed = (mixed ^ (mixed >> 30)).wrapping_mul(0xBF58_476D_1CE4_E5B9);
        mixed = (mixed ^ (mixed >> 27)).wrapping_mul(0x94D0_49BB_1331_11EB);
        mixed ^ (mixed >> 31)
    }

    /// A number from 0 to one below the bound.
    pub fn below(&mut self, bound: u64) -> u64 {
        self.bits() % bound
    }

    pub fn index(&mut self, length: usize) -> usize {
        self.below(length as u64) as usize
    }

    /// A number from the first to the last, both included.
    pub fn between(&mut self, first: usize, last: usize) -> usize {
        first + self.index(last - first + 1)
    }

    pub fn one_in(&mut self, cases: u64) -> bool {
        self.below(cases) == 0
    }

    pub fn pick<T: Copy>(&mut self, items: &[T]) -> T {
        items[self.index(items.len())]
    }

    /// Any number, those at an edge or of few digits more often than others.
    pub fn number(&mut self) -> u32 {
        match self.below(4) {
            0 | 1 => self.pick(&EDGES),
            2 => self.bits() as u32,
            _ => (self.bits() as u32) >> self.below(32),
        }
    }
}
