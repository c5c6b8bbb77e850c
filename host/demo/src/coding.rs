//! What coding does to a picture: the transform of each 8 by 8 block, with its coefficients rounded to coarse steps. It leaves steps
//! between blocks, ripples along edges and grain, as a decoder's picture has them before the loop filter.
use crate::format::Format;
use crate::planes::{Planes, MAXIMUM};
use crate::scene::hash;

/// The cosine transform of eight samples in integers, as video standards have it. Each row's squares add up to about 2^15.
const TRANSFORM: [[i64; 8]; 8] = [
    [64, 64, 64, 64, 64, 64, 64, 64],
    [89, 75, 50, 18, -18, -50, -75, -89],
    [83, 36, -36, -83, -83, -36, 36, 83],
    [75, -18, -89, -50, 50, 89, 18, -75],
    [64, -64, -64, 64, 64, -64, -64, 64],
    [50, -89, 18, 75, -75, -18, 89, -50],
    [36, -83, 83, -36, -36, 83, -83, 36],
    [18, -50, 75, -89, 89, -75, 50, -18],
];

/// The step of each component's coefficients. A step of eight moves the mean of a block by one level.
const STEPS: [i64; 3] = [88, 44, 44];

type Block = [[i64; 8]; 8];

/// Multiplies two matrices, each given by its entry at a row and a column.
fn product(first: impl Fn(usize, usize) -> i64, second: impl Fn(usize, usize) -> i64) -> Block {
    matrix(|r, c| (0..8).map(|k| first(r, k) * second(k, c)).sum())
}

fn matrix(entry: impl Fn(usize, usize) -> i64) -> Block {
    std::array::from_fn(|r| std::array::from_fn(|c| entry(r, c)))
}

/// Rounds a coefficient to a multiple of the step, up or down by a chance from 0 to 2^16, so that the error has fine patterns too.
fn quantized(coefficient: i64, step: i64, chance: i64) -> i64 {
    // From an eighth to seven eighths of a step.
    let offset = step / 8 + ((step * 3 / 4 * chance) >> 16);
    (coefficient + offset).div_euclid(step) * step
}

/// The block as a decoder gets it back; the seed decides the chances.
fn coded(block: &Block, step: i64, seed: u32) -> Block {
    let half = product(|r, c| TRANSFORM[r][c], |r, c| block[r][c]);
    let coefficients = product(|r, c| half[r][c], |r, c| TRANSFORM[c][r]);
    // The two passes scale by 2^15, and so do the two back.
    let kept = matrix(|r, c| quantized(coefficients[r][c], step << 15, i64::from(hash(c as i64, r as i64, seed) >> 16)));
    let half = product(|r, c| TRANSFORM[c][r], |r, c| kept[r][c]);
    product(|r, c| half[r][c], |r, c| TRANSFORM[r][c]).map(|row| row.map(|v| (v + (1 << 29)) >> 30))
}

fn code_plane(plane: &[u16], width: usize, step: i64) -> Vec<u16> {
    let mut output = plane.to_vec();
    for top in (0..plane.len() / width).step_by(8) {
        for left in (0..width).step_by(8) {
            let start = top * width + left;
            let block = matrix(|r, c| i64::from(plane[start + r * width + c]));
            for (r, row) in coded(&block, step, start as u32).iter().enumerate() {
                for (c, &entry) in row.iter().enumerate() {
                    output[start + r * width + c] = entry.clamp(0, i64::from(MAXIMUM)) as u16;
                }
            }
        }
    }
    output
}

/// The picture after coding.
pub fn degraded(clean: &Planes, format: Format) -> Planes {
    [0, 1, 2].map(|component| code_plane(&clean[component], format.size(component).0, STEPS[component]))
}

#[cfg(test)]
mod tests {
    use super::*;

    #[test]
    fn fine_steps_give_the_block_back() {
        let block = matrix(|r, c| (37 * r + 91 * c) as i64 % 1024);
        let again = coded(&block, 1, 5);
        assert!((0..64).all(|k| (block[k / 8][k % 8] - again[k / 8][k % 8]).abs() <= 2));
    }
}
