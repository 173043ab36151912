//! A small generator of random numbers (splitmix64). It knows no clock: one
//! seed gives one run, on every machine.

const STEP: u64 = 0x9e37_79b9_7f4a_7c15;

pub struct Random {
    state: u64,
}

impl Random {
    pub fn new(seed: u64) -> Self {
        Self { state: seed }
    }

    /// The generator of one drawing of a run, so that each drawing can be made
    /// again without those before it.
    pub fn for_drawing(seed: u64, index: u64) -> Self {
        let of_run = Self::new(seed).word();
        let of_drawing = Self::new(index).word();
        Self::new(of_run.rotate_left(32) ^ of_drawing)
    }

    /// The generator that belongs to these bytes: its seed is their FNV-1a hash.
    pub fn of_bytes(bytes: &[u8]) -> Self {
        Self::new(bytes.iter().fold(0xcbf2_9ce4_8422_2325, |hash, byte| {
            (hash ^ u64::from(*byte)).wrapping_mul(0x0100_0000_01b3)
        }))
    }

    pub fn word(&mut self) -> u64 {
        self.state = self.state.wrapping_add(STEP);
        let mut mixed = self.state;
        mixed = (mixed ^ (mixed >> 30)).wrapping_mul(0xbf58_476d_1ce4_e5b9);
        mixed = (mixed ^ (mixed >> 27)).wrapping_mul(0x94d0_49bb_1331_11eb);
        mixed ^ (mixed >> 31)
    }

    /// A number from 0 to `count` - 1.
    pub fn below(&mut self, count: usize) -> usize {
        let scaled = u128::from(self.word()) * count as u128;
        (scaled >> 64) as usize
    }

    /// A whole number from `least` to `most`, both included.
    pub fn between(&mut self, least: i64, most: i64) -> i64 {
        let choices = (most - least + 1) as usize;
        least + self.below(choices) as i64
    }

    /// True once in `times`, on average.
    pub fn once_in(&mut self, times: usize) -> bool {
        self.below(times) == 0
    }

    pub fn pick<T: Copy>(&mut self, choices: &[T]) -> T {
        choices[self.below(choices.len())]
    }

    /// The value or its negation.
    pub fn either_sign(&mut self, value: f64) -> f64 {
        if self.once_in(2) {
            -value
        } else {
            value
        }
    }

    pub fn shuffle<T>(&mut self, list: &mut [T]) {
        for last in (1..list.len()).rev() {
            list.swap(last, self.below(last + 1));
        }
    }
}
