//! Drawn numbers, the same in every run from one seed.

pub struct Dice(u64);

impl Dice {
    pub fn new(seed: u64) -> Dice {
        Dice(seed)
    }

    /// Sixty-four drawn bits (splitmix).
    pub fn bits(&mut self) -> u64 {
        self.0 = self.0.wrapping_add(0x9E37_79B9_7F4A_7C15);
        let mut bits = self.0;
        bits = (bits ^ bits >> 30).wrapping_mul(0xBF58_476D_1CE4_E5B9);
        bits = (bits ^ bits >> 27).wrapping_mul(0x94D0_49BB_1331_11EB);
        bits ^ bits >> 31
    }

    /// One of 0 to `sides` - 1; 0 where there are no sides.
    pub fn roll(&mut self, sides: usize) -> usize {
        (self.bits() >> 16) as usize % sides.max(1)
    }

    pub fn between(&mut self, least: usize, most: usize) -> usize {
        least + self.roll(most.saturating_sub(least) + 1)
    }

    pub fn one_in(&mut self, sides: usize) -> bool {
        self.roll(sides) == 0
    }

    pub fn pick<T: Copy>(&mut self, from: &[T]) -> T {
        from[self.roll(from.len())]
    }

    pub fn byte(&mut self) -> u8 {
        self.bits() as u8
    }

    pub fn fill(&mut self, bytes: &mut [u8]) {
        for chunk in bytes.chunks_mut(8) {
            chunk.copy_from_slice(&self.bits().to_le_bytes()[..chunk.len()]);
        }
    }

    pub fn bytes(&mut self, count: usize) -> Vec<u8> {
        let mut bytes = vec![0; count];
        self.fill(&mut bytes);
        bytes
    }

    /// `count` bytes from a few.
    pub fn bytes_of(&mut self, few: &[u8], count: usize) -> Vec<u8> {
        (0..count).map(|_| self.pick(few)).collect()
    }

    /// Capital digits, all the same now and then.
    pub fn digits(&mut self, count: usize) -> Vec<u8> {
        const ALL: &[u8; 16] = b"0123456789ABCDEF";
        match self.roll(8) {
            0 => vec![self.pick(b"08F7"); count],
            _ => self.bytes(count).iter().map(|byte| ALL[usize::from(byte & 15)]).collect(),
        }
    }

    /// Changes one byte, if there is one, to another value.
    pub fn spoil_byte(&mut self, bytes: &mut [u8]) {
        let at = self.roll(bytes.len());
        if let Some(byte) = bytes.get_mut(at) {
            *byte ^= match self.roll(3) {
                0 => 1 << self.roll(8),
                _ => self.between(1, 255) as u8,
            };
        }
    }
}
