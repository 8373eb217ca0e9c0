//! A small deterministic generator (splitmix64) and values that sit at limits.

use whapirohi_reference::capsule::MAX_VALUE;
use whapirohi_reference::plan::STATIC_LIMIT;

pub struct Random(u64);

impl Random {
    pub fn new(seed: u64) -> Random {
        Random(seed)
    }

    pub fn word(&mut self) -> u64 {
        self.0 = self.0.wrapping_add(0x9e37_79b9_7f4a_7c15);
        let mut z = self.0;
        z = (z ^ (z >> 30)).wrapping_mul(0xbf58_476d_1ce4_e5b9);
        z = (z ^ (z >> 27)).wrapping_mul(0x94d0_49bb_1331_11eb);
        z ^ (z >> 31)
    }

    pub fn wide(&mut self) -> u128 {
        u128::from(self.word()) << 64 | u128::from(self.word())
    }

    pub fn byte(&mut self) -> u8 {
        (self.word() >> 56) as u8
    }

    /// A number below `limit`, which is not 0.
    pub fn below(&mut self, limit: usize) -> usize {
        ((u128::from(self.word()) * limit as u128) >> 64) as usize
    }

    pub fn between(&mut self, first: usize, last: usize) -> usize {
        first + self.below(last - first + 1)
    }

    /// True once in `n` times.
    pub fn once_in(&mut self, n: usize) -> bool {
        self.below(n) == 0
    }

    pub fn pick<T: Copy>(&mut self, items: &[T]) -> T {
        items[self.below(items.len())]
    }

    pub fn bytes(&mut self, length: usize) -> Vec<u8> {
        let mut bytes = Vec::with_capacity(length + 8);
        while bytes.len() < length {
            bytes.extend_from_slice(&self.word().to_le_bytes());
        }
        bytes.truncate(length);
        bytes
    }

    /// A word at or beside a limit of the wire, or of any size.
    pub fn edge(&mut self) -> u64 {
        const VALUE: u64 = MAX_VALUE as u64;
        const STATIC: u64 = STATIC_LIMIT as u64;
        const LIMITS: [u64; 12] =
            [0, 1 << 6, 1 << 8, 1 << 14, 1 << 16, 1 << 30, 1 << 32, 1 << 62, 1 << 63, u64::MAX, VALUE, STATIC];
        match self.below(3) {
            0 => self.word() >> self.below(64),
            _ => self.pick(&LIMITS).wrapping_add(self.below(3) as u64).wrapping_sub(1),
        }
    }

    /// As `edge`, of numbers that have a form.
    pub fn edge_number(&mut self) -> u64 {
        self.edge() & ((1 << 62) - 1)
    }

    /// An output to lend: of a size around the least one now and then, and filled with anything.
    pub fn output(&mut self, least: usize) -> Vec<u8> {
        let size = match self.below(48) {
            0 => self.pick(&[0, 1, least / 2, least - 2, least - 1]),
            1 => self.below(least),
            2..=12 => least + self.below(8),
            _ => least,
        };
        self.bytes(size)
    }
}
