//! What the pictures show.
use crate::random::Random;

/// A slanted ramp, up and down, with noise. Its slant, length, height and noise are drawn anew for each square of 16 samples, so that
/// blocks of every class occur.
pub fn drawing(width: usize, height: usize, bit_depth: u8, random: &mut Random) -> Vec<u16> {
    let squares: Vec<Square> = (0..width.div_ceil(16) * height.div_ceil(16)).map(|_| Square::new(random)).collect();
    let (scale, max) = (1 << (bit_depth - 8), (1 << bit_depth) - 1);
    let mut plane = Vec::with_capacity(width * height);
    for y in 0..height {
        for x in 0..width {
            let square = &squares[y / 16 * width.div_ceil(16) + x / 16];
            let noise = random.below(square.noise * scale) as usize;
            plane.push((square.ramp(x, y) * scale as usize + noise).min(max) as u16);
        }
    }
    plane
}

/// In samples of 8 bits.
struct Square {
    across: usize,
    down: usize,
    length: usize,
    height: usize,
    noise: u64,
}

impl Square {
    fn new(random: &mut Random) -> Square {
        let mut one_of = |numbers: [usize; 4]| numbers[random.below(4) as usize];
        let length = one_of([4, 8, 16, 64]);
        // The ramp repeats after 2 * length, so a slant just below that rises the other way.
        let (across, down) = (one_of([0, 1, 1, 2]), one_of([0, 1, 2 * length - 1, 2 * length - 2]));
        Square {
            across,
            down,
            length,
            height: one_of([2, 20, 80, 200]),
            noise: one_of([1, 2, 8, 50]) as u64,
        }
    }

    /// Up over `length` and down again.
    fn ramp(&self, x: usize, y: usize) -> usize {
        let phase = (self.across * x + self.down * y) % (2 * self.length);
        phase.min(2 * self.length - phase) * self.height / self.length
    }
}
