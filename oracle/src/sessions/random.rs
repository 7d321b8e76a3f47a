//! Numbers that look random and are the same in every run: splitmix64.

pub struct Random(u64);

impl Random {
    /// The numbers of one session. Each has its own, so that one can be made without those
    /// before it.
    pub fn new(seed: u64, session: u64) -> Random {
        Random(mixed(mixed(seed) ^ session))
    }

    pub fn next(&mut self) -> u64 {
        self.0 = self.0.wrapping_add(0x9E37_79B9_7F4A_7C15);
        mixed(self.0)
    }

    /// A number under `end`, which is not 0.
    pub fn below(&mut self, end: usize) -> usize {
        (self.next() >> 32) as usize % end
    }

    pub fn between(&mut self, low: usize, high: usize) -> usize {
        low + self.below(high - low + 1)
    }

    /// True once in `count` times.
    pub fn one_in(&mut self, count: usize) -> bool {
        self.below(count) == 0
    }

    pub fn pick<T: Copy>(&mut self, from: &[T]) -> T {
        from[self.below(from.len())]
    }

    pub fn byte(&mut self) -> u8 {
        self.next() as u8
    }

    pub fn bytes(&mut self, count: usize) -> Vec<u8> {
        (0..count).map(|_| self.byte()).collect()
    }

    /// `count` bytes, all the same if there are many, so that a script stays short.
    pub fn filler(&mut self, count: usize) -> Vec<u8> {
        if count > 40 {
            return vec![self.byte(); count];
        }
        self.bytes(count)
    }

    /// A number near `middle`: itself most often, else one of its neighbours.
    pub fn near(&mut self, middle: usize) -> usize {
        let off = self.pick(&[0, 0, 0, 1, 1, -1, -1, 2, -2, 3, -3, 4, -4, 5, -5, 7, -7]);
        middle.saturating_add_signed(off)
    }
}

fn mixed(number: u64) -> u64 {
    let number = (number ^ (number >> 30)).wrapping_mul(0xBF58_476D_1CE4_E5B9);
    let number = (number ^ (number >> 27)).wrapping_mul(0x94D0_49BB_1331_11EB);
    number ^ (number >> 31)
}
