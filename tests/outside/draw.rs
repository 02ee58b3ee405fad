//! Drawn numbers, the same in every run from the same seed (splitmix64).

pub struct Draw(u64);

impl Draw {
    pub fn new(seed: u64) -> Draw {
        Draw(seed)
    }

    /// Gives any 64 bits.
    pub fn word(&mut self) -> u64 {
        self.0 = self.0.wrapping_add(0x9e37_79b9_7f4a_7c15);
        let mut word = self.0;
        word = (word ^ word >> 30).wrapping_mul(0xbf58_476d_1ce4_e5b9);
        word = (word ^ word >> 27).wrapping_mul(0x94d0_49bb_1331_11eb);
        word ^ word >> 31
    }

    /// Gives a number under the limit.
    pub fn below(&mut self, limit: usize) -> usize {
        (self.word() % limit as u64) as usize
    }

    /// Gives a number of the range, both ends included.
    pub fn within(&mut self, low: usize, high: usize) -> usize {
        low + self.below(high - low + 1)
    }

    /// Gives one of these.
    pub fn one_of<T: Copy>(&mut self, choices: &[T]) -> T {
        choices[self.below(choices.len())]
    }

    /// Gives a node number out of range; the low bits alone may be in range.
    pub fn bad_node(&mut self) -> usize {
        self.one_of(&[1024, 1025, 2047, 32768, 65535])
    }

    /// Gives a port number out of range.
    pub fn bad_port(&mut self) -> usize {
        self.one_of(&[64, 65, 128, 255])
    }

    /// Gives a sequence number out of range.
    pub fn bad_seq(&mut self) -> usize {
        self.one_of(&[32768, 32769, 65535])
    }

    /// Gives this many bytes of noise.
    pub fn bytes(&mut self, count: usize) -> Vec<u8> {
        let mut bytes = Vec::with_capacity(count + 8);
        while bytes.len() < count {
            bytes.extend(self.word().to_le_bytes());
        }
        bytes.truncate(count);
        bytes
    }
}
