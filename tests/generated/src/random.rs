//! A seeded source of numbers (splitmix64). It is written out here so that a
//! seed and an index give the same file on every machine and for ever.

const STEP: u64 = 0x9E37_79B9_7F4A_7C15;

pub struct Random {
    state: u64,
}

fn mixed(mut z: u64) -> u64 {
    z = (z ^ (z >> 30)).wrapping_mul(0xBF58_476D_1CE4_E5B9);
    z = (z ^ (z >> 27)).wrapping_mul(0x94D0_49BB_1331_11EB);
    z ^ (z >> 31)
}

impl Random {
    /// A source of its own for each seed and index.
    pub fn new(seed: u64, index: u64) -> Random {
        let seeded = mixed(seed.wrapping_add(STEP));
        Random {
            state: mixed(seeded ^ index.wrapping_mul(STEP)),
        }
    }

    pub fn next(&mut self) -> u64 {
        self.state = self.state.wrapping_add(STEP);
        mixed(self.state)
    }

    /// A number from 0 to `n` - 1. The bias of the remainder does not matter
    /// for the small numbers asked for here.
    pub fn below(&mut self, n: usize) -> usize {
        (self.next() % n as u64) as usize
    }

    /// A number from `low` to `high`, both included.
    pub fn between(&mut self, low: usize, high: usize) -> usize {
        low + self.below(high - low + 1)
    }

    /// True this many times in a hundred.
    pub fn percent(&mut self, chance: usize) -> bool {
        self.below(100) < chance
    }

    pub fn pick<T: Copy>(&mut self, items: &[T]) -> T {
        items[self.below(items.len())]
    }

    pub fn byte(&mut self) -> u8 {
        self.next() as u8
    }

    pub fn word(&mut self) -> u16 {
        self.next() as u16
    }
}
