//! Pictures as the library takes them: 16-bit planes, row by row from the top left.

pub const WIDTH: usize = 480;
pub const HEIGHT: usize = 304;
pub const BIT_DEPTH: u8 = 10;
/// The largest sample.
pub const MAXIMUM: u16 = (1 << BIT_DEPTH) - 1;

/// The components, as indices of [`Planes`].
pub const Y: usize = 0;
pub const CB: usize = 1;
pub const CR: usize = 2;
pub const NAMES: [&str; 3] = ["Y", "Cb", "Cr"];

/// Luma, Cb and Cr.
pub type Planes = [Vec<u16>; 3];

/// What differs between two planes of one size.
#[derive(Clone, Copy, Debug, Default, PartialEq)]
pub struct Change {
    pub samples: u64,
    pub changed: u64,
    pub sum: u64,
    pub largest: u64,
    pub squares: u64,
}

impl Change {
    pub fn between(a: &[u16], b: &[u16]) -> Change {
        a.iter()
            .zip(b)
            .fold(Change::default(), |c, (&p, &q)| c.with(u64::from(p.abs_diff(q))))
    }

    fn with(self, distance: u64) -> Change {
        Change {
            samples: self.samples + 1,
            changed: self.changed + u64::from(distance > 0),
            sum: self.sum + distance,
            largest: self.largest.max(distance),
            squares: self.squares + distance * distance,
        }
    }

    /// Mean distance over all samples.
    pub fn mean(self) -> f64 {
        self.sum as f64 / self.samples as f64
    }

    /// Peak signal-to-noise ratio, in decibels.
    pub fn psnr(self) -> f64 {
        let peak = f64::from(MAXIMUM);
        10.0 * (peak * peak * self.samples as f64 / self.squares as f64).log10()
    }
}
