//! The ratios of chroma (02, card 4): plane sizes, the line-buffer boundary two chroma
//! rows up, and positions that each direction multiplies and divides by its own ratio.

use super::Given;
use crate::edges::{chroma_edges, edges, padded, Clip, Edges};
use crate::layout::{Ctb, Plane};

/// Each format with the width and height of a CTB of 32 in chroma.
const CTB_SIZES: [(u8, usize, usize); 3] = [(1, 16, 16), (2, 16, 32), (3, 32, 32)];

fn positions(clips: impl Iterator<Item = Option<Clip>>) -> Vec<Option<i64>> {
    clips.map(|clip| clip.map(|clip| clip.position)).collect()
}

/// Clip positions above and below chroma rows of the first CTB.
fn rows(given: &Given, range: std::ops::Range<i64>) -> (Vec<Option<i64>>, Vec<Option<i64>>) {
    let layout = given.layout();
    let found: Vec<Edges> = range.map(|y| chroma_edges(&layout, layout.ctb(0), 4, y)).collect();
    let top = positions(found.iter().map(|edges| edges.clip_top));
    let bottom = positions(found.iter().map(|edges| edges.clip_bottom));
    (top, bottom)
}

#[test]
fn plane_lengths() {
    let lengths = [(1, 24 * 20), (2, 24 * 40), (3, 48 * 40)];
    for (format, _) in lengths {
        for (_, length) in lengths {
            let mut given = Given::plain(48, 40, 5, 8).with_chroma_format(format);
            let right = given.chroma.len() == length;
            assert_eq!(right, lengths.contains(&(format, length)));
            given.chroma = vec![0; length];
            let number = if right { 0 } else { 5 };
            assert_eq!(given.numbers(), [0, 0, number, number, 0, 0], "format {format}, {length} samples");
        }
    }
}

/// The line-buffer boundary is 2 chroma rows up: luma row 28 where a chroma row is two
/// luma rows, 30 where it is one. Below a sample it counts up to 4 luma rows away.
#[test]
fn line_of_chroma() {
    let given = Given::plain(32, 32, 5, 8);
    let (none, line) = (None, Some(28));
    let (top, bottom) = rows(&given, 11..16);
    assert_eq!(top, [none, none, none, line, line]);
    assert_eq!(bottom, [none, line, line, none, none]);
    for format in [2, 3] {
        let given = Given::plain(32, 32, 5, 8).with_chroma_format(format);
        let line = Some(30);
        let (top, bottom) = rows(&given, 25..32);
        assert_eq!(top, [none, none, none, none, none, line, line]);
        assert_eq!(bottom, [none, line, line, line, line, none, none]);
    }
}

/// Whatever the chroma format, luma keeps its line 4 rows up, and so do the causes.
#[test]
fn line_of_luma() {
    for format in 0..4 {
        let mut given = Given::plain(32, 32, 5, 8);
        given.chroma_format = format;
        let layout = given.layout();
        let found: Vec<Edges> = (23..32).map(|y| edges(&layout, layout.ctb(0), 4, y)).collect();
        let (none, line) = (None, Some(28));
        let top = positions(found.iter().map(|edges| edges.clip_top));
        assert_eq!(top, [none, none, none, none, none, line, line, line, line]);
        let bottom = positions(found.iter().map(|edges| edges.clip_bottom));
        assert_eq!(bottom, [none, line, line, line, line, none, none, none, none]);
        let causes = [23, 24, 27, 28, 29, 31].map(|y| {
            given.position = (4, y);
            given.clip_causes()
        });
        let [open, above, below] = [[0, 0, 0, 0], [0, 1, 0, 0], [1, 0, 0, 0]].map(|sides| (0, sides.to_vec()));
        assert_eq!(causes, [open, above.clone(), above, below.clone(), below.clone(), below]);
    }
}

/// A virtual row at the CTB's bottom. In 4:2:0 it and the line never reach one sample; in
/// the others they meet at rows 28 and 29, where the virtual row is tested first. No sample
/// shows it: row 28 has offset 1 and row 29 offset 0, so neither reads row 30.
#[test]
fn line_and_virtual_row() {
    let mut given = Given::plain(32, 64, 5, 8);
    given.virtual_rows = vec![32];
    let bottom = |given: &Given, range| rows(given, range).1;
    let (none, far) = (None, Some(32));
    assert_eq!(bottom(&given, 11..16), [none, Some(28), Some(28), far, far]);
    for format in [2, 3] {
        let given = given.clone().with_chroma_format(format);
        let line = Some(30);
        assert_eq!(bottom(&given, 25..32), [none, line, line, far, far, far, far]);
        assert_eq!(rows(&given, 28..32).0, [none, none, line, line]);
    }
}

/// A closed bottom comes last: rows 28 and 29 end at the line, those below it at the side.
#[test]
fn line_and_closed_bottom() {
    let mut given = Given::plain(32, 64, 5, 8);
    given.tile_rows = vec![0, 1];
    given.across_tiles = false;
    let (line, side) = (Some(30), Some(32));
    for format in [2, 3] {
        let given = given.clone().with_chroma_format(format);
        assert_eq!(rows(&given, 25..32).1, [None, line, line, line, line, side, side]);
    }
}

/// Around the virtual column and row at 16, by luma samples: 0 to 2 after, 1 to 4 before.
/// The neighbour two samples on stops at the boundary's own column and row of the plane.
#[test]
fn each_direction_by_its_own_ratio() {
    for (format, column, row) in [(1, 8, 8), (2, 8, 16), (3, 16, 16)] {
        let mut given = Given::plain(32, 32, 5, 8).with_chroma_format(format);
        given.virtual_columns = vec![16];
        given.virtual_rows = vec![16];
        let layout = given.layout();
        let (ctb, plane) = (layout.ctb(0), Plane::chroma(&layout, &given.chroma));
        let moved = |x, y, dx, dy| padded(&layout, &plane, ctb, &chroma_edges(&layout, ctb, x, y), (x + dx, y + dy));
        assert_eq!(moved(column - 1, row - 1, 2, 2), (column - 1, row - 1), "format {format}");
        assert_eq!(moved(column - 2, row - 2, 2, 2), (column - 1, row - 1), "format {format}");
        assert_eq!(moved(column, row, -2, -2), (column, row), "format {format}");
        assert_eq!(moved(column + 1, row + 1, -2, -2), (column, row), "format {format}");
        assert_eq!(moved(column - 3, row - 3, 2, 2), (column - 1, row - 1), "format {format}");
        assert_eq!(moved(column + 2, row + 2, -2, -2), (column, row), "format {format}");
    }
}

/// The corner rule moves a neighbour to the CTB's first column in the plane.
#[test]
fn corner_by_ratio() {
    for (format, width, height) in CTB_SIZES {
        let mut given = Given::plain(64, 64, 5, 8).with_chroma_format(format);
        given.slice_count = 2;
        given.slice_map = vec![0, 1, 1, 1];
        given.across_slices = false;
        let layout = given.layout();
        let (ctb, plane) = (Ctb { column: 1, row: 1 }, Plane::chroma(&layout, &given.chroma));
        let (x, y) = (width as i64, height as i64);
        let found = chroma_edges(&layout, ctb, 0, 0);
        assert_eq!(padded(&layout, &plane, ctb, &found, (x - 1, y - 1)), (x, y - 1));
        assert_eq!(padded(&layout, &plane, ctb, &found, (x - 2, y)), (x - 2, y));
        assert_eq!(padded(&layout, &plane, ctb, &found, (x, y - 2)), (x, y - 2));
    }
}

/// A chroma tap two rows down and up, in a ramp of 3 for each row: the sum is 0 but where
/// the plane cuts one arm. A line 4 rows up would cut one at row 28 of full-height chroma.
#[test]
fn chroma_filter_beside_the_line() {
    for (format, width, height) in CTB_SIZES {
        let mut given = Given::plain(32, 32, 5, 8).with_chroma_format(format);
        given.chroma = (0..width * height).map(|index| 100 + 3 * (index / width) as u16).collect();
        given.ctb_params[1] = 1;
        given.ctb_params[4] = 7;
        given.slice_params[8] = 2;
        given.bank[752 * 2 + 600 + 12 * 7] = 64;
        given.bank[752 * 2 + 600 + 12 * 7 + 6] = 256;
        let (number, output) = given.filter_chroma(0);
        assert_eq!(number, 0);
        let change = |y: usize| i32::from(output[y * width + 5]) - i32::from(given.chroma[y * width + 5]);
        // Row 0 has +6 and 0, row 1 +6 and −3. The two rows beside the line have offset 0,
        // the last one has offset 1 with the plane below: 0 and −3, ( −192 + 64 ) >> 7.
        let mut expected = vec![0; height];
        (expected[0], expected[1], expected[height - 1]) = (3, 2, -1);
        assert_eq!((0..height).map(change).collect::<Vec<i32>>(), expected, "format {format}");
    }
}

/// The cross-component term in a luma ramp of 4 for each row, with the tap two rows down,
/// in full-height chroma: luma's line, four rows up, and Table 47 by the luma row.
#[test]
fn cross_component_beside_the_line() {
    for format in [2, 3] {
        let mut given = Given::plain(32, 32, 5, 8).with_chroma_format(format);
        given.luma = (0..1024).map(|index| 4 * (index / 32) as u16).collect();
        given.chroma.fill(50);
        given.ctb_params[6] = 1;
        given.bank[696 + 6] = 64;
        let (number, output) = given.filter_cross(0);
        assert_eq!(number, 0);
        let width = given.chroma.len() / 32;
        let change: Vec<i32> = (0..32).map(|y| i32::from(output[y * width]) - 50).collect();
        // Two rows down is 8 more: ( 64 * 8 + 64 ) >> 7 = 4. Rows 26 and 29 have offset 1,
        // rows 27 and 28 offset 0; the plane cuts the arm of row 30 to 1 and of row 31 to 0.
        let mut expected = vec![4; 32];
        expected[26..].copy_from_slice(&[2, 0, 0, 2, 2, 0]);
        assert_eq!(change, expected, "format {format}");
    }
}

/// A bright luma column 11 and row 11: the taps to the left and to the right read luma at
/// SubWidthC times the chroma column, those above and below at SubHeightC times the row.
#[test]
fn cross_component_reads_luma_by_ratio() {
    for (format, width, _) in CTB_SIZES {
        let (sub_width, sub_height) = (32 / width, if format == 1 { 2 } else { 1 });
        let mut given = Given::plain(32, 32, 5, 8).with_chroma_format(format);
        given.luma[11 * 32 + 11] = 128;
        given.chroma.fill(50);
        given.ctb_params[6] = 1;
        // Left, and straight below.
        given.bank[696 + 1] = 64;
        given.bank[696 + 4] = 64;
        let (_, output) = given.filter_cross(0);
        for (index, sample) in output.into_iter().enumerate() {
            // Where the bright sample is left of the luma position or below it, half of it
            // is added; at the sample itself both taps differ by −128.
            let change = match (index % width * sub_width, index / width * sub_height) {
                (12, 11) | (11, 10) => 64,
                (11, 11) => -50,
                _ => 0,
            };
            assert_eq!(i32::from(sample) - 50, change, "format {format}, sample {index}");
        }
    }
}
