//! A small seeded generator of random numbers (splitmix64).

pub struct Random {
    state: u64,
}

impl Random {
    pub fn new(seed: u64) -> Self {
        Random { state: seed }
    }

    pub fn next(&mut self) -> u64 {
        self.state = self.state.wrapping_add(0x9E37_79B9_7F4A_7C15);
        let mut mixed = self.state;
        mixed = (mixed ^ (mixed >> 30)).wrapping_mul(0xBF58_476D_1CE4_E5B9);
        mixed = (mixed ^ (mixed >> 27)).wrapping_mul(0x94D0_49BB_1331_11EB);
        mixed ^ (mixed >> 31)
    }

    /// 0 to bound - 1; 0 for a bound of 0.
    pub fn below(&mut self, bound: u32) -> u32 {
        (((self.next() >> 32) * u64::from(bound)) >> 32) as u32
    }

    pub fn one_in(&mut self, chances: u32) -> bool {
        self.below(chances) == 0
    }

    pub fn byte(&mut self) -> u8 {
        (self.next() >> 56) as u8
    }

    /// One of the items. There must be at least one.
    pub fn pick<T: Copy>(&mut self, items: &[T]) -> T {
        items[self.below(items.len() as u32) as usize]
    }

    /// A number in one to eight hex digits, in upper or lower case, with or without leading zeros.
    pub fn writing(&mut self, number: u32) -> String {
        match self.below(10) {
            0 => format!("{number:x}"),
            1 => format!("{number:02x}"),
            2 => format!("{number:04X}"),
            3 => format!("{number:08X}"),
            4 => format!("{number:08x}"),
            _ => format!("{number:X}"),
        }
    }

    /// A byte string, in upper or lower case.
    pub fn digits(&mut self, bytes: &[u8]) -> String {
        let digits: &[u8; 16] = match self.one_in(4) {
            true => b"0123456789abcdef",
            false => b"0123456789ABCDEF",
        };
        let digit = |number: u8| char::from(digits[usize::from(number)]);
        bytes
            .iter()
            .flat_map(|byte| [digit(byte >> 4), digit(byte & 0x0F)])
            .collect()
    }

    /// A number of this many bits: often 0, all ones or a single bit.
    pub fn bits(&mut self, bits: u32) -> u32 {
        let all = u32::MAX >> 32u32.saturating_sub(bits).min(31);
        match self.below(8) {
            0 => 0,
            1 => all,
            2..=4 => 1 << self.below(bits),
            5 => (self.next() & self.next()) as u32 & all,
            _ => self.next() as u32 & all,
        }
    }
}
