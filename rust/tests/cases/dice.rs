//! A little random generator (splitmix64), so that a seed gives the same cases everywhere.
//! Beside plain numbers it gives the numbers at which things go wrong.

pub struct Dice {
    state: u64,
}

impl Dice {
    pub fn new(seed: u64) -> Dice {
        Dice { state: seed }
    }

    pub fn number(&mut self) -> u64 {
        self.state = self.state.wrapping_add(0x9E37_79B9_7F4A_7C15);
        let mixed = (self.state ^ (self.state >> 30)).wrapping_mul(0xBF58_476D_1CE4_E5B9);
        let mixed = (mixed ^ (mixed >> 27)).wrapping_mul(0x94D0_49BB_1331_11EB);
        mixed ^ (mixed >> 31)
    }

    /// A number under `end`, which is over zero.
    pub fn below(&mut self, end: u64) -> u64 {
        self.number() % end
    }

    pub fn index(&mut self, length: usize) -> usize {
        self.below(length as u64) as usize
    }

    /// A number in the closed range.
    pub fn between(&mut self, low: i32, high: i32) -> i32 {
        (i64::from(low) + self.below((i64::from(high) - i64::from(low) + 1) as u64) as i64) as i32
    }

    pub fn one_in(&mut self, times: u64) -> bool {
        self.below(times) == 0
    }

    pub fn pick<T: Copy>(&mut self, list: &[T]) -> T {
        list[self.index(list.len())]
    }

    pub fn pick_if_any<T: Copy>(&mut self, list: &[T]) -> Option<T> {
        (!list.is_empty()).then(|| self.pick(list))
    }

    pub fn bytes(&mut self, length: usize) -> Vec<u8> {
        let mut bytes = Vec::with_capacity(length + 8);
        while bytes.len() < length {
            bytes.extend(self.number().to_le_bytes());
        }
        bytes.truncate(length);
        bytes
    }

    /// A limit, amount or position that is seldom right: ends of the range, ends of 32 bits, and near zero.
    pub fn extreme(&mut self) -> i32 {
        let near = self.between(-2, 2);
        let middle = self.pick(&[0, 1_000_000, -1_000_000, 2_000_000, -2_000_000, 65_536, 4_096]) + near;
        self.pick(&[middle, i32::MIN, i32::MAX, i32::MIN + 1, i32::MAX - 1_000_000, i32::MIN + 1_000_000, near])
    }

    /// An array number that is mostly one of `count`.
    pub fn array(&mut self, count: usize) -> u32 {
        if self.one_in(10) {
            return self.pick(&[0, 5, 17, u32::MAX, count as u32 + 1, 256, 1 << 31]);
        }
        1 + self.index(count.max(1)) as u32
    }
}
