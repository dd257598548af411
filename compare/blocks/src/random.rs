//! Numbers from a seed: splitmix64, the same on every machine.

pub struct Random(u64);

/// One round of splitmix64's finish: a hash of 64 bits.
pub fn mixed(mut bits: u64) -> u64 {
    bits = (bits ^ (bits >> 30)).wrapping_mul(0xbf58476d1ce4e5b9);
    bits = (bits ^ (bits >> 27)).wrapping_mul(0x94d049bb133111eb);
    bits ^ (bits >> 31)
}

/// A number in -1..1 from 64 bits, exact in f32.
pub fn signed_unit(bits: u64) -> f32 {
    (bits >> 40) as f32 / (1 << 23) as f32 - 1.0
}

impl Random {
    pub fn new(seed: u64) -> Random {
        Random(mixed(seed.wrapping_add(0x9e3779b97f4a7c15)))
    }

    pub fn bits(&mut self) -> u64 {
        self.0 = self.0.wrapping_add(0x9e3779b97f4a7c15);
        mixed(self.0)
    }

    pub fn below(&mut self, count: u64) -> u64 {
        self.bits() % count
    }

    pub fn signed_unit(&mut self) -> f32 {
        signed_unit(self.bits())
    }

    pub fn pick<T: Copy>(&mut self, list: &[T]) -> T {
        list[self.below(list.len() as u64) as usize]
    }
}
