//! A small source of numbers fixed by its seed (splitmix64).

const STEP: u64 = 0x9E37_79B9_7F4A_7C15;
const FIRST_MIX: u64 = 0xBF58_476D_1CE4_E5B9;
const SECOND_MIX: u64 = 0x94D0_49BB_1331_11EB;

/// The source: its whole state is one number.
#[derive(Clone, Debug)]
pub struct Random(u64);

impl Random {
    /// A source that starts from a seed.
    pub fn new(seed: u64) -> Random {
        Random(seed)
    }

    /// The next 64 bits.
    pub fn bits(&mut self) -> u64 {
        self.0 = self.0.wrapping_add(STEP);
        let mixed = (self.0 ^ (self.0 >> 30)).wrapping_mul(FIRST_MIX);
        let mixed = (mixed ^ (mixed >> 27)).wrapping_mul(SECOND_MIX);
        mixed ^ (mixed >> 31)
    }

    /// The next 32 bits.
    pub fn number(&mut self) -> u32 {
        (self.bits() >> 32) as u32
    }

    /// The next 8 bits.
    pub fn byte(&mut self) -> u8 {
        (self.bits() >> 56) as u8
    }

    /// A number from 0 up to but not including the end.
    pub fn below(&mut self, end: usize) -> usize {
        (self.bits() % end as u64) as usize
    }

    /// True so many times in a hundred.
    pub fn chance(&mut self, percent: usize) -> bool {
        self.below(100) < percent
    }

    /// One of the things given.
    pub fn pick<T: Copy>(&mut self, things: &[T]) -> T {
        things[self.below(things.len())]
    }

    /// Fills bytes.
    pub fn fill(&mut self, bytes: &mut [u8]) {
        for byte in bytes {
            *byte = self.byte();
        }
    }
}
