//! Seeded words.

use labrador::{Element, Q};

/// SplitMix64.
pub struct Words {
    state: u64,
}

impl Words {
    pub fn seeded(seed: u64) -> Words {
        Words { state: seed }
    }

    /// Any word.
    pub fn free(&mut self) -> u32 {
        self.state = self.state.wrapping_add(0x9e37_79b9_7f4a_7c15);
        let mixed = (self.state ^ (self.state >> 30)).wrapping_mul(0xbf58_476d_1ce4_e5b9);
        let mixed = (mixed ^ (mixed >> 27)).wrapping_mul(0x94d0_49bb_1331_11eb);
        ((mixed ^ (mixed >> 31)) >> 32) as u32
    }

    /// 0 or 1.
    pub fn bit(&mut self) -> u32 {
        self.free() >> 31
    }

    /// A number modulo Q: a word at or above Q is drawn again.
    pub fn number(&mut self) -> u32 {
        loop {
            let word = self.free();
            if word < Q {
                return word;
            }
        }
    }

    /// Numbers modulo Q.
    pub fn numbers(&mut self, count: u64) -> Vec<u32> {
        (0..count).map(|_| self.number()).collect()
    }

    /// A number below a limit.
    pub fn below(&mut self, limit: u32) -> u32 {
        self.free() % limit
    }

    /// An element whose coefficients are from -size to size.
    pub fn within(&mut self, size: u32) -> Element {
        let mut centred = || match self.below(2 * size + 1) {
            number if number <= size => number,
            number => Q - (number - size),
        };
        Element { coeffs: std::array::from_fn(|_| centred()) }
    }
}
