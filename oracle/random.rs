//! Repeatable random numbers (splitmix64), with words that are rich in the ends of the 32-bit range.

pub const SEED: u64 = 0x4d61_7475_7669_736f;

pub struct Random(u64);

impl Random {
    pub fn new(stream: u64) -> Self {
        Random(SEED ^ stream.wrapping_mul(0xd134_2543_de82_ef95))
    }

    pub fn next(&mut self) -> u64 {
        self.0 = self.0.wrapping_add(0x9e37_79b9_7f4a_7c15);
        let z = (self.0 ^ (self.0 >> 30)).wrapping_mul(0xbf58_476d_1ce4_e5b9);
        let z = (z ^ (z >> 27)).wrapping_mul(0x94d0_49bb_1331_11eb);
        z ^ (z >> 31)
    }

    /// A number below `n`.
    pub fn below(&mut self, n: usize) -> usize {
        ((self.next() as u128 * n as u128) >> 64) as usize
    }

    /// An unsigned word of any number of bits.
    pub fn sized(&mut self) -> u32 {
        let r = self.next();
        (r >> 32) as u32 >> (r & 31)
    }

    /// True once in `n` times.
    pub fn once_in(&mut self, n: usize) -> bool {
        self.below(n) == 0
    }

    pub fn one_of<T: Copy>(&mut self, choices: &[T]) -> T {
        choices[self.below(choices.len())]
    }

    /// A signed word: anywhere, around 0, at either end, around a power of two, of any size.
    pub fn word(&mut self) -> i32 {
        let r = self.next();
        let (high, size, small) = ((r >> 32) as i32, (r >> 8) as u32 & 31, (r >> 16) as i32 & 15);
        match r & 7 {
            0 | 1 => high,
            2 => small - 8,
            3 => i32::MIN + small,
            4 => i32::MAX - small,
            5 => (1i32 << size).wrapping_add(small - 8),
            6 => (-1i32 << size).wrapping_add(small - 8),
            _ => high >> size,
        }
    }

    /// A 64-bit number of any size, its ends included.
    pub fn long(&mut self) -> i64 {
        let r = self.next();
        match r & 3 {
            0 => r as i64,
            1 => self.next() as i64 >> (r >> 2 & 63),
            2 => i64::MIN.wrapping_add((r >> 2 & 15) as i64 - 8),
            _ => self.word() as i64,
        }
    }

    /// The seven words of a neighbourhood: of `word`, of anything, of two values (so that
    /// equal ones and ties abound), or all near one value.
    pub fn seven(&mut self) -> [i32; 7] {
        let (kind, a, b) = (self.below(4), self.word(), self.word());
        std::array::from_fn(|_| match kind {
            0 => self.word(),
            1 => self.next() as i32,
            2 => self.one_of(&[a, b]),
            _ => a.wrapping_add(self.below(7) as i32 - 3),
        })
    }

    /// The weighted state's memory for a width, any words: five a position, two halves of width + 2.
    pub fn memory(&mut self, width: usize) -> Vec<[u32; 5]> {
        (0..2 * (width + 2)).map(|_| [(); 5].map(|_| self.word() as u32)).collect()
    }

    /// The three words of a pixel: of `word`, of anything, around 0, or around both ends,
    /// which lie side by side modulo 2^32.
    pub fn three(&mut self) -> [i32; 3] {
        let kind = self.below(4);
        std::array::from_fn(|_| match kind {
            0 => self.word(),
            1 => self.next() as i32,
            2 => self.below(512) as i32 - 256,
            _ => i32::MIN.wrapping_add(self.below(512) as i32 - 256),
        })
    }
}
