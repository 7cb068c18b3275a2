//! Reliabilities of every size for the soft decoder of DCCH.
use crate::blocks::Kind;
use crate::channel::Channel;
use crate::prng::Prng;

/// The sizes of a block. Where one is below zero, the bit that it is for was received wrong.
#[derive(Clone, Copy, Debug, PartialEq, Eq)]
pub enum Sizes {
    /// The same throughout: ties as of hard bits.
    Equal,
    /// One and some noise, scaled.
    Noisy,
    /// 0 to 3.
    Small,
    /// Whole numbers up to 2^40, which is often one.
    Whole,
    /// Up to 1000.
    Uniform,
    /// Ones, and a quarter of zeros that take the bit's sign.
    Erased,
    Subnormal,
    /// Tenths: sums that are equal on paper round apart.
    Tenths,
    /// Around 2^53, where a one is lost or not.
    Rounding,
    /// Two of these make an infinity.
    Huge,
    /// Any finite number.
    Any,
}

pub const ALL_SIZES: [Sizes; 11] = [
    Sizes::Equal,
    Sizes::Noisy,
    Sizes::Small,
    Sizes::Whole,
    Sizes::Uniform,
    Sizes::Erased,
    Sizes::Subnormal,
    Sizes::Tenths,
    Sizes::Rounding,
    Sizes::Huge,
    Sizes::Any,
];

const MOST_WHOLE: u64 = 1 << 40;
const FRACTION: u64 = (1 << 52) - 1;

fn pick(p: &mut Prng, from: &[f64]) -> f64 {
    from[p.below(from.len())]
}

/// From 0 to 1.
fn unit(p: &mut Prng) -> f64 {
    (p.draw() >> 11) as f64 / (1u64 << 53) as f64
}

/// Around 0, seldom beyond 1.
fn noise(p: &mut Prng) -> f64 {
    (0..12).map(|_| unit(p) - 0.5).sum::<f64>() / 2.0
}

fn finite(p: &mut Prng) -> f64 {
    loop {
        let size = f64::from_bits(p.draw()).abs();
        if size.is_finite() {
            return size;
        }
    }
}

impl Sizes {
    fn one(self, p: &mut Prng) -> f64 {
        match self {
            Sizes::Equal => 1.0,
            Sizes::Noisy => 1.0 + noise(p),
            Sizes::Small => p.below(4) as f64,
            Sizes::Whole if p.below(4) == 0 => MOST_WHOLE as f64,
            Sizes::Whole => (p.draw() % (MOST_WHOLE + 1)) as f64,
            Sizes::Uniform => unit(p) * 1e3,
            Sizes::Erased => pick(p, &[0.0, 1.0, 1.0, 1.0]),
            Sizes::Subnormal => f64::from_bits(p.draw() & FRACTION >> p.below(52)),
            Sizes::Tenths => pick(p, &[0.1, 0.2, 0.3, 0.6, 0.7]),
            Sizes::Rounding => {
                let large = (1u64 << 53) as f64;
                pick(p, &[1.0, 1.0, 3.0, large / 2.0 + 1.0, large, large + 2.0])
            }
            Sizes::Huge => pick(p, &[1e308, 1.7e308, f64::MAX]),
            Sizes::Any => finite(p),
        }
    }
    /// As many as there are bits, negative for a one.
    pub fn draw(self, p: &mut Prng, bits: &[bool]) -> Vec<f64> {
        let scale = match self {
            Sizes::Equal | Sizes::Noisy => 10f64.powi(p.below(13) as i32 - 6),
            _ => 1.0,
        };
        bits.iter()
            .map(|bit| {
                let size = scale * self.one(p);
                if *bit { -size } else { size }
            })
            .collect()
    }
    pub fn block(self, p: &mut Prng, channel: Channel, kind: Kind) -> Vec<f64> {
        let bits = channel.block(p, kind);
        self.draw(p, &bits)
    }
}
