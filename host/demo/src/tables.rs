//! The filters: a bank of eight parameter sets (APSs), the slices' choice among them, and fixed filters.
//!
//! A filter adds to a sample the weighted differences from its neighbours, so positive coefficients smooth. The fixed filters of the
//! standard are passed in by a caller who has its tables; those here are **stand-ins**, made by the same rules as the bank.
use crate::planes::BIT_DEPTH;
use raspbegonia::FixedTables;

/// Coefficients of a class without a direction, of a diagonal one and of a straight one, at full strength. Taps 0, 2 and 6 lie above
/// and below the sample, 9 to 11 beside it, the others aslant; the library turns them by the block's transpose, so that a filter
/// smooths along an edge.
const ROUND: [i32; 12] = [1, 2, 4, 2, 2, 5, 9, 5, 2, 1, 4, 9];
const DIAGONAL: [i32; 12] = [0, 0, 1, 5, 0, 1, 4, 14, 5, 0, 1, 4];
const STRAIGHT: [i32; 12] = [0, 0, 0, 0, 1, 3, 3, 3, 1, 5, 9, 16];
/// The five direction marks of a class: none, diagonal and strongly so, straight and strongly so.
const SHAPES: [[i32; 12]; 5] = [ROUND, DIAGONAL, DIAGONAL, STRAIGHT, STRAIGHT];

/// The shapes of the fixed filters, sixteen strengths each. There are 64; the map leaves the last sixteen unused.
const FIXED_SHAPES: [&[i32; 12]; 4] = [&ROUND, &DIAGONAL, &STRAIGHT, &STRAIGHT];

/// Strength of each APS in sixteenths by activity, from smooth blocks to busy ones, and the clip of its taps: how large a difference
/// may count.
const LUMA_SETS: [([i32; 5], i16); 8] = [
    ([18, 16, 14, 12, 10], 1 << BIT_DEPTH),
    ([14, 16, 18, 18, 18], 64),
    ([14, 16, 18, 18, 18], 40),
    ([12, 16, 20, 20, 20], 32),
    ([14, 14, 14, 12, 12], 96),
    ([12, 14, 18, 20, 20], 48),
    ([10, 12, 16, 18, 18], 80),
    ([10, 8, 6, 4, 2], 1 << BIT_DEPTH),
];

/// A chroma filter at full strength: taps 0 and 2 lie above and below, 4 and 5 beside the sample, 1 and 3 aslant.
const CHROMA: [i32; 6] = [4, 7, 12, 7, 4, 12];
/// Strength in sixteenths and clip of the eight alternatives.
const CHROMA_SETS: [(i32, i16); 8] = [
    (16, 1 << BIT_DEPTH),
    (16, 64),
    (16, 24),
    (16, 12),
    (10, 1 << BIT_DEPTH),
    (10, 32),
    (6, 1 << BIT_DEPTH),
    (4, 16),
];

/// Cross-component coefficients, powers of two as the standard's are: what a difference in luma adds to chroma. Water is bluer than
/// ice, so Cb falls where luma rises and Cr rises with it: the two have opposite signs.
const CROSS: [[i16; 7]; 4] = [
    [1, 1, 1, 0, 1, 0, 0],
    [2, 2, 2, 0, 2, 0, 0],
    [2, 2, 2, 1, 2, 1, 1],
    [4, 4, 4, 1, 4, 1, 1],
];

/// For each slice: how many luma APSs, which, then the APS of chroma, of Cb's and of Cr's cross-component filters.
pub const SLICE_PARAMS: [u8; 33] = [
    1, 0, 0, 0, 0, 0, 0, 0, 0, 4, 4, //
    5, 1, 2, 3, 4, 5, 0, 0, 2, 5, 5, //
    2, 6, 7, 0, 0, 0, 0, 0, 3, 6, 6,
];

pub struct Tables {
    pub bank: Vec<i16>,
    fixed_filters: Vec<i16>,
    fixed_map: Vec<u8>,
}

impl Tables {
    pub fn new() -> Tables {
        let fixed_filters = (0..64).flat_map(|k| scaled(FIXED_SHAPES[k / 16], 6 + k as i32 % 16)).collect();
        let fixed_map = (0..400).map(|k| fixed_entry(k / 25, k % 25)).collect();
        Tables {
            bank: (0..8).flat_map(aps).collect(),
            fixed_filters,
            fixed_map,
        }
    }

    pub fn fixed(&self) -> FixedTables<'_> {
        FixedTables {
            filters: &self.fixed_filters,
            map: &self.fixed_map,
        }
    }
}

/// A shape at a strength in sixteenths.
fn scaled(shape: &[i32], strength: i32) -> impl Iterator<Item = i16> + '_ {
    shape.iter().map(move |&v| ((v * strength + 8) >> 4) as i16)
}

/// Which fixed filter a class has in a set: its direction's shape, weaker the higher the activity is.
fn fixed_entry(set: usize, class: usize) -> u8 {
    let shape = [0, 1, 1, 2, 2][class / 5];
    let weakened = set.saturating_sub(class % 5);
    (16 * shape + weakened) as u8
}

/// An APS of the bank: 25 luma filters, 8 chroma alternatives, 4 cross-component filters of Cb and 4 of Cr.
fn aps(id: usize) -> Vec<i16> {
    let (strengths, clip) = LUMA_SETS[id];
    let mut numbers = Vec::new();
    for class in 0..25 {
        numbers.extend(scaled(&SHAPES[class / 5], strengths[class % 5]));
        numbers.extend([clip; 12]);
    }
    for (strength, clip) in CHROMA_SETS {
        numbers.extend(scaled(&CHROMA, strength));
        numbers.extend([clip; 6]);
    }
    numbers.extend(CROSS.iter().flatten());
    numbers.extend(CROSS.iter().flatten().map(|v| -v));
    numbers
}
