//! xorshift64*: the project's own generator, so that runs repeat and need no crate.
pub struct Prng(pub u64);

impl Prng {
    pub fn draw(&mut self) -> u64 {
        self.0 ^= self.0 >> 12;
        self.0 ^= self.0 << 25;
        self.0 ^= self.0 >> 27;
        self.0.wrapping_mul(0x2545_F491_4F6C_DD1D)
    }
    pub fn below(&mut self, n: usize) -> usize {
        ((self.draw() >> 11) % n as u64) as usize
    }
    pub fn bit(&mut self) -> bool {
        self.draw() >> 63 != 0
    }
    pub fn byte(&mut self) -> u8 {
        (self.draw() >> 56) as u8
    }
    pub fn bits(&mut self, n: usize) -> Vec<bool> {
        (0..n).map(|_| self.bit()).collect()
    }
    pub fn array<const N: usize>(&mut self) -> [bool; N] {
        std::array::from_fn(|_| self.bit())
    }
}
