//! Numbers for random runs.

/// Numbers that look random and are the same in every run.
pub struct Numbers(u64);

impl Numbers {
    pub fn new(seed: u64) -> Numbers {
        Numbers(seed.wrapping_mul(0x9e37_79b9_7f4a_7c15) | 1)
    }

    pub fn next(&mut self) -> u64 {
        self.0 ^= self.0 << 13;
        self.0 ^= self.0 >> 7;
        self.0 ^= self.0 << 17;
        self.0.wrapping_mul(0x2545_f491_4f6c_dd1d) >> 16
    }

    /// Below a bound.
    pub fn below(&mut self, bound: usize) -> usize {
        (self.next() % bound as u64) as usize
    }

    pub fn one_of<T: Copy>(&mut self, choices: &[T]) -> T {
        choices[self.below(choices.len())]
    }
}

/// An inner start that a field at this place may have: the piece's first byte,
/// the field's place, or one between.
pub fn allowed_inner(place: usize, numbers: &mut Numbers) -> usize {
    match numbers.below(4) {
        0 => 0,
        1 => place,
        _ => numbers.below(place + 1),
    }
}

/// Any inner start, mostly one that is allowed.
pub fn any_inner(place: usize, numbers: &mut Numbers) -> u32 {
    let allowed = allowed_inner(place, numbers) as u32;
    match numbers.below(40) {
        0..=1 => place as u32 + 1,
        2 => allowed + numbers.one_of(&[1 << 8, 1 << 16, 1 << 24, 1 << 31]),
        3 => u32::MAX - numbers.below(5) as u32,
        _ => allowed,
    }
}
