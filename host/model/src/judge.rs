//! The causes for which a picture is rejected (01, the table of numbers, and 02).

use crate::layout::{Cell, Ctb, FixedTables, Layout, Parameters};

/// What an operation is given besides the layout; what is absent is not judged.
#[derive(Clone, Copy, Default)]
pub(crate) struct Given<'a> {
    pub component: Option<u8>,
    pub parameters: Option<&'a Parameters<'a>>,
    pub fixed: Option<&'a FixedTables<'a>>,
    pub luma: Option<&'a [u16]>,
    pub chroma: Option<&'a [u16]>,
    pub region: Option<&'a [u8]>,
    pub output: Option<Output>,
    /// Column and row of a luma sample.
    pub position: Option<(u32, u32)>,
    /// The length of the list for the causes of its clip positions.
    pub causes: Option<usize>,
}

/// An output plane: what one entry stands for, and its length.
#[derive(Clone, Copy)]
pub(crate) struct Output {
    pub cell: Cell,
    pub length: usize,
}

/// One cause: true where it applies. It may count on all earlier ones not applying.
type Cause = fn(&Layout, &Given) -> bool;

/// The causes in the order of their numbers, from 1.
const CAUSES: [Cause; 15] = [
    size,
    ctb_exponent,
    bit_depth,
    chroma_work,
    lengths,
    virtual_boundaries,
    tile_numbers,
    slice_map,
    subpictures,
    parameters,
    numbers,
    samples,
    addresses,
    region_bytes,
    outside,
];

/// The lowest number that applies, or 0.
pub(crate) fn judge(layout: &Layout, given: &Given) -> u8 {
    for (cause, number) in CAUSES.iter().zip(1..) {
        if cause(layout, given) {
            return number;
        }
    }
    0
}

/// 1: sizes are multiples of 8 from 8 to 4096.
fn size(layout: &Layout, _: &Given) -> bool {
    let good = |size: u32| size.is_multiple_of(8) && (8..=4096).contains(&size);
    !good(layout.width) || !good(layout.height)
}

/// 2: the exponent is 5, 6 or 7.
fn ctb_exponent(layout: &Layout, _: &Given) -> bool {
    !(5..=7).contains(&layout.ctb_log2)
}

/// 3: the depth is 8 to 12.
fn bit_depth(layout: &Layout, _: &Given) -> bool {
    !(8..=12).contains(&layout.bit_depth)
}

/// 4: the chroma format is 0 to 3; and, for work on chroma, there is chroma and the component is 0 or 1.
fn chroma_work(layout: &Layout, given: &Given) -> bool {
    layout.chroma > 3 || given.component.is_some_and(|component| layout.chroma == 0 || component > 1)
}

/// 5: the slice count, and the length of all that is given.
fn lengths(layout: &Layout, given: &Given) -> bool {
    !(1..=256).contains(&layout.slice_count) || boundary_lengths(layout) || parameter_lengths(layout, given) || plane_lengths(layout, given)
}

/// True where a length is not the one called for.
fn wrong(length: usize, called_for: i64) -> bool {
    length as i64 != called_for
}

fn boundary_lengths(layout: &Layout) -> bool {
    wrong(layout.tile_columns.len(), layout.ctb_columns())
        || wrong(layout.tile_rows.len(), layout.ctb_rows())
        || wrong(layout.slice_map.len(), layout.ctb_count())
        || wrong(layout.subpic_map.len(), layout.ctb_count())
        || wrong(layout.subpic_across.len(), 64)
}

fn parameter_lengths(layout: &Layout, given: &Given) -> bool {
    let slice_bytes = 11 * i64::from(layout.slice_count);
    given.parameters.is_some_and(|parameters| {
        wrong(parameters.slice_params.len(), slice_bytes)
            || wrong(parameters.bank.len(), 8 * 752)
            || wrong(parameters.ctb_params.len(), 8 * layout.ctb_count())
    }) || given
        .fixed
        .is_some_and(|fixed| wrong(fixed.filters.len(), 64 * 12) || wrong(fixed.map.len(), 16 * 25))
}

fn plane_lengths(layout: &Layout, given: &Given) -> bool {
    given.luma.is_some_and(|plane| wrong(plane.len(), layout.cells(Cell::LUMA)))
        || given
            .chroma
            .is_some_and(|plane| wrong(plane.len(), layout.cells(layout.chroma_cell())))
        || given
            .region
            .is_some_and(|region| wrong(region.len(), layout.cells(Cell::square(8))))
        || given.output.is_some_and(|output| wrong(output.length, layout.cells(output.cell)))
        || given.causes.is_some_and(|length| wrong(length, 4))
}

/// 6: virtual boundaries in either direction.
fn virtual_boundaries(layout: &Layout, _: &Given) -> bool {
    let apart = layout.ctb_size();
    bad_boundaries(layout.virtual_columns, i64::from(layout.width), apart)
        || bad_boundaries(layout.virtual_rows, i64::from(layout.height), apart)
}

/// 01: three at most, on the grid of 8, off the picture boundary, each S or more beyond the last.
fn bad_boundaries(boundaries: &[u16], size: i64, apart: i64) -> bool {
    let good = |position: i64| position % 8 == 0 && (8..=size - 8).contains(&position);
    boundaries.len() > 3
        || boundaries.iter().any(|&position| !good(i64::from(position)))
        || boundaries.windows(2).any(|pair| i64::from(pair[1]) - i64::from(pair[0]) < apart)
}

/// 7: tile numbers begin at 0 and stay or grow by one.
fn tile_numbers(layout: &Layout, _: &Given) -> bool {
    bad_tiles(layout.tile_columns) || bad_tiles(layout.tile_rows)
}

fn bad_tiles(tiles: &[u8]) -> bool {
    tiles.first() != Some(&0)
        || tiles
            .windows(2)
            .any(|pair| !(0..=1).contains(&(i64::from(pair[1]) - i64::from(pair[0]))))
}

/// The entries of the four CTBs round each inner corner of the grid: upper left,
/// upper right, lower left, lower right.
fn corners(layout: &Layout, map: &[u8]) -> Vec<[u8; 4]> {
    let entry = |column, row| map[layout.address(Ctb { column, row })];
    let mut found = Vec::new();
    for row in 1..layout.ctb_rows() {
        for column in 1..layout.ctb_columns() {
            found.push([
                entry(column - 1, row - 1),
                entry(column, row - 1),
                entry(column - 1, row),
                entry(column, row),
            ]);
        }
    }
    found
}

/// 8: slices lie below the slice count, and no corner breaks the slice rule.
fn slice_map(layout: &Layout, _: &Given) -> bool {
    let too_high = |&slice: &u8| u32::from(slice) >= layout.slice_count;
    layout.slice_map.iter().any(too_high) || corners(layout, layout.slice_map).into_iter().any(bad_slice_corner)
}

/// 01: where three of the four are alike, the odd one is neither upper right nor lower left.
fn bad_slice_corner([a, b, c, d]: [u8; 4]) -> bool {
    (a == c && c == d && b != a) || (a == b && b == d && c != a)
}

/// 9: subpicture numbers, flags, and corners.
fn subpictures(layout: &Layout, _: &Given) -> bool {
    layout.subpic_map.iter().any(|&number| number > 63)
        || layout.subpic_across.iter().any(|&flag| flag > 1)
        || corners(layout, layout.subpic_map).into_iter().any(bad_subpic_corner)
}

/// 01: three alike and one odd is not allowed, wherever the odd one is.
fn bad_subpic_corner(corner: [u8; 4]) -> bool {
    corner.iter().any(|number| {
        let alike = corner.iter().filter(|&other| other == number).count();
        alike == 3
    })
}

/// 10: slice parameters and CTB parameters.
fn parameters(layout: &Layout, given: &Given) -> bool {
    given
        .parameters
        .is_some_and(|parameters| parameters.slice_params.chunks(11).any(bad_slice_params) || any_bad_ctb_params(layout, parameters))
}

/// 01: the count and all ten APS ids are 0 to 7.
fn bad_slice_params(params: &[u8]) -> bool {
    params.iter().any(|&byte| byte > 7)
}

fn any_bad_ctb_params(layout: &Layout, parameters: &Parameters) -> bool {
    (0..layout.ctb_count()).any(|address| {
        let ctb = layout.ctb(address);
        let params = parameters.of_ctb(layout.address(ctb));
        let count = parameters.of_slice(layout.slice(ctb))[0];
        bad_ctb_params(params, count) || (layout.chroma == 0 && uses_chroma(params))
    })
}

/// 01: three flags, luma set, two alternatives, two cross-component indices.
fn bad_ctb_params(params: &[u8], count: u8) -> bool {
    params[..3].iter().any(|&flag| flag > 1)
        || i64::from(params[3]) > 15 + i64::from(count)
        || params[4..6].iter().any(|&alternative| alternative > 7)
        || params[6..].iter().any(|&index| index > 4)
}

/// 01: under chroma format 0 all of these bytes are 0.
fn uses_chroma(params: &[u8]) -> bool {
    params[1..3].iter().any(|&flag| flag != 0) || params[4..].iter().any(|&byte| byte != 0)
}

/// 11: coefficients, clips and entries of the fixed filter map.
fn numbers(layout: &Layout, given: &Given) -> bool {
    let bad_bank = |parameters: &Parameters| parameters.bank.chunks(752).any(|aps| bad_aps(aps, layout.bit_depth));
    let bad_fixed =
        |fixed: &FixedTables| fixed.filters.iter().any(|&number| bad_coefficient(number)) || fixed.map.iter().any(|&entry| entry > 63);
    given.parameters.is_some_and(bad_bank) || given.fixed.is_some_and(bad_fixed)
}

pub(crate) fn bad_aps(aps: &[i16], bit_depth: u8) -> bool {
    aps.iter().enumerate().any(|(index, &number)| {
        if is_clip(index) {
            !(0..=1i64 << bit_depth).contains(&i64::from(number))
        } else {
            bad_coefficient(number)
        }
    })
}

/// The order within an APS: 25 times 12 and 12, 8 times 6 and 6, then 56 coefficients.
pub(crate) fn is_clip(index: usize) -> bool {
    match index {
        0..600 => index % 24 >= 12,
        600..696 => (index - 600) % 12 >= 6,
        _ => false,
    }
}

fn bad_coefficient(number: i16) -> bool {
    !(-128..=127).contains(&number)
}

/// 12: samples of each input plane lie below 2 to the depth.
fn samples(layout: &Layout, given: &Given) -> bool {
    let too_high = |plane: &[u16]| plane.iter().any(|&sample| i64::from(sample) >= 1 << layout.bit_depth);
    given.luma.is_some_and(too_high) || given.chroma.is_some_and(too_high)
}

/// 13: listed addresses lie below the count of CTBs.
fn addresses(layout: &Layout, given: &Given) -> bool {
    given
        .parameters
        .is_some_and(|parameters| parameters.ctb_list.iter().any(|&address| i64::from(address) >= layout.ctb_count()))
}

/// 14: region bytes are 0 or 1.
fn region_bytes(_: &Layout, given: &Given) -> bool {
    given.region.is_some_and(|region| region.iter().any(|&byte| byte > 1))
}

/// 15: the position lies outside the picture.
fn outside(layout: &Layout, given: &Given) -> bool {
    given.position.is_some_and(|(x, y)| x >= layout.width || y >= layout.height)
}
