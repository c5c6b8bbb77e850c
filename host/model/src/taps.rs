//! Tap positions, row offsets near the line-buffer boundary, and rounding (Tables 45 to 47).

use crate::edges::{clip3, padded, Edges};
use crate::layout::{Ctb, Layout, Plane};

/// idx for each transpose, (1460) to (1463).
pub(crate) const TAP_ORDER: [[usize; 12]; 4] = [
    [0, 1, 2, 3, 4, 5, 6, 7, 8, 9, 10, 11],
    [9, 4, 10, 8, 1, 5, 11, 7, 3, 0, 2, 6],
    [0, 3, 2, 1, 8, 7, 6, 5, 4, 9, 10, 11],
    [9, 8, 10, 4, 3, 7, 11, 5, 1, 0, 2, 6],
];

/// One filter as it lies in the filter bank: coefficients f and clips c.
#[derive(Clone, Debug)]
pub(crate) struct Filter {
    pub f: Vec<i64>,
    pub c: Vec<i64>,
}

/// Row offsets and shift for one row.
#[derive(Clone, Copy, Debug, PartialEq, Eq)]
pub(crate) struct Reach {
    pub y1: i64,
    pub y2: i64,
    pub y3: i64,
    pub shift: u8,
}

/// Table 45, by the luma row inside the CTB.
pub(crate) fn luma_reach(ctb_size: i64, line_rule: bool, y: i64) -> Reach {
    let (y1, y2, y3, shift) = match ctb_size - y {
        4 | 5 if line_rule => (0, 0, 0, 10),
        3 | 6 if line_rule => (1, 1, 1, 7),
        2 | 7 if line_rule => (1, 2, 2, 7),
        _ => (1, 2, 3, 7),
    };
    Reach { y1, y2, y3, shift }
}

/// Table 46, by the chroma row inside the CTB; there is no y3.
pub(crate) fn chroma_reach(ctb_height: i64, line_rule: bool, y: i64) -> Reach {
    let (y1, y2, shift) = match ctb_height - y {
        2 | 3 if line_rule => (0, 0, 10),
        1 | 4 if line_rule => (1, 1, 7),
        _ => (1, 2, 7),
    };
    Reach { y1, y2, y3: 0, shift }
}

/// Table 47, by the luma row inside the CTB: yP1 and yP2.
pub(crate) fn cross_reach(ctb_size: i64, line_rule: bool, y: i64) -> (i64, i64) {
    match ctb_size - y {
        4 | 5 if line_rule => (0, 0),
        3 | 6 if line_rule => (1, 1),
        _ => (1, 2),
    }
}

/// The first of the two positions of each tap of (1467); the second lies opposite.
pub(crate) fn luma_taps(reach: Reach) -> [(i64, i64); 12] {
    let Reach { y1, y2, y3, .. } = reach;
    [
        (0, y3),
        (1, y2),
        (0, y2),
        (-1, y2),
        (2, y1),
        (1, y1),
        (0, y1),
        (-1, y1),
        (-2, y1),
        (3, 0),
        (2, 0),
        (1, 0),
    ]
}

/// The same for (1508).
pub(crate) fn chroma_taps(reach: Reach) -> [(i64, i64); 6] {
    let Reach { y1, y2, .. } = reach;
    [(0, y2), (1, y1), (0, y1), (-1, y1), (2, 0), (1, 0)]
}

/// The one position of each tap of (1533).
pub(crate) fn cross_taps(y_p1: i64, y_p2: i64) -> [(i64, i64); 7] {
    [(0, -y_p1), (-1, 0), (1, 0), (-1, y_p1), (0, y_p1), (1, y_p1), (0, y_p2)]
}

/// The rounding of (1468), (1509) and (1534): 64 under either shift, floor.
pub(crate) fn rounded(sum: i64, shift: u8) -> i64 {
    (sum + 64) >> shift
}

/// What surrounds one sample: its plane, its CTB and its clip positions.
pub(crate) struct Surround<'a> {
    pub layout: &'a Layout<'a>,
    pub plane: &'a Plane<'a>,
    pub ctb: Ctb,
    pub edges: Edges,
}

impl Surround<'_> {
    /// The padded sample for a neighbour at ( x, y ) of the plane.
    pub(crate) fn at(&self, x: i64, y: i64) -> i64 {
        let (x, y) = padded(self.layout, self.plane, self.ctb, &self.edges, (x, y));
        self.plane.at(x, y)
    }

    /// The sum of (1467) or (1508) for the sample at ( x, y ) of the plane. Tap j
    /// takes coefficient and clip idx[ j ].
    pub(crate) fn paired_sum(&self, (x, y): (i64, i64), taps: &[(i64, i64)], idx: &[usize], filter: &Filter) -> i64 {
        let curr = self.at(x, y);
        let mut sum = 0;
        for (&(i, j), &index) in taps.iter().zip(idx) {
            let c = filter.c[index];
            let one = clip3(-c, c, self.at(x + i, y + j) - curr);
            let other = clip3(-c, c, self.at(x - i, y - j) - curr);
            sum += filter.f[index] * (one + other);
        }
        sum
    }

    /// The sum of (1533) for the luma sample at ( x, y ).
    pub(crate) fn cross_sum(&self, (x, y): (i64, i64), taps: &[(i64, i64)], f: &[i64]) -> i64 {
        let middle = self.at(x, y);
        let mut sum = 0;
        for (&(i, j), coefficient) in taps.iter().zip(f) {
            sum += coefficient * (self.at(x + i, y + j) - middle);
        }
        sum
    }
}
