//! Class and transpose of each 4 by 4 block (8.8.5.3).

use crate::edges::{clip3, edges, line_rule, padded};
use crate::judge::{judge, Given, Output};
use crate::layout::{Cell, Ctb, Layout, Plane};

/// varTab of (1498).
const VAR_TAB: [u8; 16] = [0, 1, 2, 2, 2, 2, 2, 3, 3, 3, 3, 3, 3, 3, 3, 4];

/// transposeTable.
const TRANSPOSE_TABLE: [u8; 8] = [0, 1, 0, 2, 2, 3, 1, 3];

/// The gradient sums of (1476) to (1479).
#[derive(Clone, Copy, Debug, Default, PartialEq, Eq)]
pub struct Sums {
    pub v: i64,
    pub h: i64,
    pub d0: i64,
    pub d1: i64,
}

/// The rows minY to maxY of a block's window and its activity factor ac.
#[derive(Clone, Copy, Debug, PartialEq, Eq)]
pub(crate) struct Window {
    pub min_y: i64,
    pub max_y: i64,
    pub ac: i64,
}

/// Fills the class map, class + 32 × transpose, for every block of the picture.
pub fn classes(layout: &Layout, luma: &[u16], class_map: &mut [u8]) -> u8 {
    let output = Output {
        cell: Cell::square(4),
        length: class_map.len(),
    };
    let number = judge(
        layout,
        &Given {
            luma: Some(luma),
            output: Some(output),
            ..Given::default()
        },
    );
    if number != 0 {
        return number;
    }
    let plane = Plane::luma(layout, luma);
    let across = plane.width / 4;
    for (index, entry) in class_map.iter_mut().enumerate() {
        let x = 4 * (index as i64 % across);
        let y = 4 * (index as i64 / across);
        let ctb = layout.covering(x, y);
        let (x_ctb, y_ctb) = layout.origin(ctb);
        let (class, transpose) = block_class(layout, &plane, ctb, x - x_ctb, y - y_ctb);
        *entry = class + 32 * transpose;
    }
    0
}

/// filtIdx and transposeIdx of the block at ( x4, y4 ) inside the CTB.
pub(crate) fn block_class(layout: &Layout, plane: &Plane, ctb: Ctb, x4: i64, y4: i64) -> (u8, u8) {
    let window = window(layout, ctb, y4);
    let sums = gradient_sums(layout, plane, ctb, (x4, y4), window);
    class_of_sums(sums, window.ac, layout.bit_depth)
}

/// minY, maxY and ac: where the line rule is on, the window stops at the line-buffer boundary.
pub(crate) fn window(layout: &Layout, ctb: Ctb, y4: i64) -> Window {
    let size = layout.ctb_size();
    let on = line_rule(layout, ctb);
    let (min_y, max_y, ac) = if on && y4 == size - 8 {
        (-2, 3, 3)
    } else if on && y4 == size - 4 {
        (0, 5, 3)
    } else {
        (-2, 5, 2)
    };
    Window { min_y, max_y, ac }
}

/// (1470) to (1479). All neighbours take the clip positions of the block's first sample.
fn gradient_sums(layout: &Layout, plane: &Plane, ctb: Ctb, (x4, y4): (i64, i64), window: Window) -> Sums {
    let (x_ctb, y_ctb) = layout.origin(ctb);
    let edges = edges(layout, ctb, x4, y4);
    let sample = |i: i64, j: i64| {
        let position = (x_ctb + x4 + i, y_ctb + y4 + j);
        let (x, y) = padded(layout, plane, ctb, &edges, position);
        plane.at(x, y)
    };
    let mut sums = Sums::default();
    for j in window.min_y..=window.max_y {
        for i in -2..=5 {
            if i % 2 == 0 && j % 2 != 0 || i % 2 != 0 && j % 2 == 0 {
                continue;
            }
            let twice = sample(i, j) << 1;
            sums.h += (twice - sample(i - 1, j) - sample(i + 1, j)).abs();
            sums.v += (twice - sample(i, j - 1) - sample(i, j + 1)).abs();
            sums.d0 += (twice - sample(i - 1, j - 1) - sample(i + 1, j + 1)).abs();
            sums.d1 += (twice - sample(i + 1, j - 1) - sample(i - 1, j + 1)).abs();
        }
    }
    sums
}

/// (1480) to (1500): filtIdx and transposeIdx from the four sums.
pub fn class_of_sums(sums: Sums, ac: i64, bit_depth: u8) -> (u8, u8) {
    let (hv1, hv0, dir_hv) = if sums.v > sums.h {
        (sums.v, sums.h, 1)
    } else {
        (sums.h, sums.v, 3)
    };
    let (d1, d0, dir_d) = if sums.d0 > sums.d1 {
        (sums.d0, sums.d1, 0)
    } else {
        (sums.d1, sums.d0, 2)
    };
    let (hvd1, hvd0, dir1, dir2) = if d1 * hv0 > hv1 * d0 {
        (d1, d0, dir_d, dir_hv)
    } else {
        (hv1, hv0, dir_hv, dir_d)
    };
    let dir_s = strength(hvd1, hvd0);
    let transpose_idx = TRANSPOSE_TABLE[dir1 * 2 + (dir2 >> 1)];
    let mut filt_idx = activity(sums.h + sums.v, ac, bit_depth);
    if dir_s != 0 {
        filt_idx += (((dir1 as u8 & 1) << 1) + dir_s) * 5;
    }
    (filt_idx, transpose_idx)
}

/// dirS, (1497).
fn strength(hvd1: i64, hvd0: i64) -> u8 {
    if hvd1 * 2 > 9 * hvd0 {
        2
    } else if hvd1 > 2 * hvd0 {
        1
    } else {
        0
    }
}

/// avgVar, (1498) and (1499).
pub(crate) fn activity(sum_of_hv: i64, ac: i64, bit_depth: u8) -> u8 {
    VAR_TAB[clip3(0, 15, (sum_of_hv * ac) >> (bit_depth - 1)) as usize]
}
