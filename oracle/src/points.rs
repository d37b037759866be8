//! Coordinates of all the kinds that leaves and boxes are tried on.

use crate::rng::Rng;

#[derive(Clone, Copy, Debug)]
pub enum Kind {
    /// Planted rows: whole multiples of a spacing.
    Lattice(f64),
    Random,
    /// Few distinct values, so many ties.
    Duplicates,
    /// Squares overflow.
    Huge,
    /// Squares underflow.
    Subnormal,
    /// Both zeros.
    Zeros,
}

pub const SPACINGS: [f64; 6] = [1.0, 0.1, 0.25, 0.3, 1.0 / 3.0, 2.5];

impl Kind {
    pub fn any(rng: &mut Rng) -> Kind {
        match rng.below(10) {
            0..=3 => Kind::Lattice(rng.pick(&SPACINGS)),
            4 | 5 => Kind::Random,
            6 => Kind::Duplicates,
            7 => Kind::Huge,
            8 => Kind::Subnormal,
            _ => Kind::Zeros,
        }
    }

    pub fn name(self) -> String {
        match self {
            Kind::Lattice(spacing) => format!("lattice {spacing:.3}"),
            other => format!("{other:?}").to_lowercase(),
        }
    }
}

/// Values of one kind; the two sides of a case share one source, or have two
/// whose lattices begin at different places.
pub struct Source {
    kind: Kind,
    /// Of a lattice, on each axis.
    lines: usize,
    origin: f64,
    scale: f64,
    few: [f64; 3],
}

impl Source {
    pub fn new(kind: Kind, rng: &mut Rng) -> Self {
        let other = rng.pick(&SPACINGS);
        let scale = rng.pick(&[1e-6, 1.0, 1.0, 1e3, 1e9]);
        Source {
            kind,
            lines: 12,
            origin: rng.pick(&[0.0, 0.0, 1.0, other, 7.0 * other, 1000.5]),
            scale,
            few: [(); 3].map(|_| (rng.unit() - 0.5) * scale),
        }
    }

    /// The same, with so many lines of a lattice on each axis.
    pub fn over_lines(self, lines: usize) -> Self {
        Source { lines, ..self }
    }

    /// The spacing of a lattice, else 1.
    pub fn spacing(&self) -> f64 {
        match self.kind {
            Kind::Lattice(spacing) => spacing,
            _ => 1.0,
        }
    }

    pub fn value(&self, rng: &mut Rng) -> f64 {
        match self.kind {
            Kind::Lattice(spacing) => (rng.below(self.lines) as f64 - 4.0) * spacing + self.origin,
            Kind::Random => (rng.unit() - 0.5) * self.scale,
            Kind::Duplicates => rng.pick(&self.few),
            Kind::Huge => between(1e150, 1e308, rng),
            Kind::Subnormal if rng.one_in(2) => f64::from_bits((rng.bits() & SIGN) | small(rng)),
            Kind::Subnormal => between(1e-162, 1e-150, rng),
            Kind::Zeros => rng.pick(&[0.0, -0.0, 0.0, -0.0, 1.0, -1.0]),
        }
    }
}

const SIGN: u64 = 1 << 63;

/// A few multiples of 5e-324.
fn small(rng: &mut Rng) -> u64 {
    rng.bits() >> (44 + rng.below(20))
}

/// Either sign, with a size from `low` up to `high`: each binary exponent is
/// about as likely as another.
fn between(low: f64, high: f64, rng: &mut Rng) -> f64 {
    let span = high.to_bits() - low.to_bits();
    f64::from_bits((low.to_bits() + rng.bits() % span) | (rng.bits() & SIGN))
}
