//! What closes the sides of a sample (02, card 1), and in which order causes count.

use super::Given;
use crate::edges::{edges, padded, Clip, ClipCause};
use crate::layout::Plane;

const OPEN: u8 = 0;
const LINE: u8 = 1;
const VIRTUAL: u8 = 2;
const TILE: u8 = 3;
const SLICE: u8 = 4;
const SUBPICTURE: u8 = 5;

/// Top, bottom, left and right of a sample.
fn at(given: &Given, x: u32, y: u32) -> [u8; 4] {
    let mut asked = given.clone();
    asked.position = (x, y);
    let (number, causes) = asked.clip_causes();
    assert_eq!(number, 0);
    causes.try_into().unwrap()
}

/// Two by two CTBs of 32, each a tile, a slice and a subpicture of its own, and nothing filtered across.
fn four() -> Given {
    let mut given = Given::plain(64, 64, 5, 8);
    given.tile_columns = vec![0, 1];
    given.tile_rows = vec![0, 1];
    given.slice_count = 4;
    given.slice_params = vec![0; 44];
    given.slice_map = vec![0, 1, 2, 3];
    given.subpic_map = vec![0, 1, 2, 3];
    given.across_tiles = false;
    given.across_slices = false;
    given.subpic_across = vec![0; 64];
    assert_eq!(given.numbers(), [0; 6]);
    given
}

/// The bottom of column 16 at row 23 is open though the line lies 5 rows below it.
#[test]
fn p9_with_causes() {
    let given = Given::plain(32, 32, 5, 8);
    let column: Vec<[u8; 4]> = (22..30).map(|y| at(&given, 16, y)).collect();
    let (open, above, below) = ([OPEN; 4], [OPEN, LINE, OPEN, OPEN], [LINE, OPEN, OPEN, OPEN]);
    assert_eq!(column, [open, open, above, above, above, above, below, below]);
}

/// Nothing lies beyond the rim, so nothing closes it: all switches are off, and only the line is found.
#[test]
fn rim_is_open() {
    let mut given = Given::plain(32, 32, 5, 8);
    given.across_tiles = false;
    given.across_slices = false;
    given.subpic_across = vec![0; 64];
    for x in [0, 2, 16, 28, 31] {
        assert_eq!(at(&given, x, 0), [OPEN; 4]);
        assert_eq!(at(&given, x, 31), [LINE, OPEN, OPEN, OPEN]);
    }
    let four = four();
    assert_eq!(at(&four, 0, 0), [OPEN; 4]);
    assert_eq!(at(&four, 63, 63), [LINE, OPEN, OPEN, OPEN]);
}

/// A CTB's side closes 3 samples after it and 4 before it.
#[test]
fn reach_of_a_closed_side() {
    let given = four();
    let left: Vec<u8> = (32..37).map(|x| at(&given, x, 8)[2]).collect();
    let right: Vec<u8> = (26..32).map(|x| at(&given, x, 8)[3]).collect();
    let top: Vec<u8> = (32..37).map(|y| at(&given, 8, y)[0]).collect();
    assert_eq!((&left, &top), (&vec![TILE, TILE, TILE, OPEN, OPEN], &left));
    assert_eq!(right, [OPEN, OPEN, TILE, TILE, TILE, TILE]);
    // Above the tile's bottom lie the four rows below the line, so its causes do not mix.
    let bottom: Vec<u8> = (23..33).map(|y| at(&given, 8, y)[1]).collect();
    assert_eq!(bottom, [OPEN, LINE, LINE, LINE, LINE, TILE, TILE, TILE, TILE, OPEN]);
}

/// All three change across each side; each switch that is turned on leaves the next to close it.
#[test]
fn tile_before_slice_before_subpicture() {
    let mut given = four();
    let sides = |given: &Given| {
        let (end, start) = (at(given, 31, 31), at(given, 32, 32));
        [start[0], end[1], start[2], end[3]]
    };
    assert_eq!(sides(&given), [TILE; 4]);
    given.across_tiles = true;
    assert_eq!(sides(&given), [SLICE; 4]);
    given.across_slices = true;
    assert_eq!(sides(&given), [SUBPICTURE; 4]);
    given.subpic_across[3] = 1;
    assert_eq!(sides(&given), [OPEN, SUBPICTURE, OPEN, SUBPICTURE]);
    given.across_tiles = false;
    assert_eq!(sides(&given), [TILE; 4]);
}

/// The switch that counts is that of the sample's own CTB.
#[test]
fn own_subpicture_switch() {
    let mut given = Given::plain(64, 32, 5, 8);
    given.subpic_map = vec![0, 1];
    given.subpic_across[0] = 0;
    assert_eq!(at(&given, 31, 8), [OPEN, OPEN, OPEN, SUBPICTURE]);
    assert_eq!(at(&given, 32, 8), [OPEN; 4]);
    given.subpic_across = vec![1; 64];
    given.subpic_across[1] = 0;
    assert_eq!(at(&given, 31, 8), [OPEN; 4]);
    assert_eq!(at(&given, 32, 8), [OPEN, OPEN, SUBPICTURE, OPEN]);
}

/// Virtual boundaries on closed sides: the boundary counts.
#[test]
fn virtual_boundary_before_the_side() {
    let mut given = four();
    given.virtual_columns = vec![32];
    given.virtual_rows = vec![32];
    assert_eq!(at(&given, 31, 31), [LINE, VIRTUAL, OPEN, VIRTUAL]);
    assert_eq!(at(&given, 32, 32), [VIRTUAL, OPEN, VIRTUAL, OPEN]);
    assert_eq!(at(&given, 34, 34), [VIRTUAL, OPEN, VIRTUAL, OPEN]);
    assert_eq!(at(&given, 35, 35), [OPEN; 4]);
}

/// On the grid of 8 a virtual row and luma's line never reach one sample's side together, so
/// rows off the grid, which are rejected, show the order: at the top the line is tested
/// first, at the bottom the virtual row.
#[test]
fn line_and_virtual_row() {
    let mut given = Given::plain(32, 32, 5, 8);
    given.virtual_rows = vec![30];
    assert_eq!(given.clip_causes().0, 6);
    let layout = given.layout();
    let found = |y| edges(&layout, layout.ctb(0), 8, y);
    let line = clip(28, ClipCause::LineBufferBoundary);
    let boundary = clip(30, ClipCause::VirtualBoundary);
    assert_eq!([24, 26].map(|y| found(y).clip_bottom), [line, boundary]);
    assert_eq!([28, 29, 30, 31].map(|y| found(y).clip_top), [line; 4]);
    assert_eq!([28, 29, 30].map(|y| found(y).clip_bottom), [boundary, boundary, None]);
}

fn clip(position: i64, cause: ClipCause) -> Option<Clip> {
    Some(Clip { position, cause })
}

/// Padding goes by the same edges: the neighbour 4 samples away is moved exactly where a
/// cause is named. The farthest clip position above lies 3 rows up, below it 4 rows down.
#[test]
fn padding_moves_where_a_cause_is_named() {
    let mut given = four();
    given.virtual_columns = vec![16, 56];
    given.virtual_rows = vec![8, 48];
    given.across_slices = true;
    given.tile_rows = vec![0, 0];
    given.subpic_across[0] = 1;
    assert_eq!(given.numbers(), [0; 6]);
    let layout = given.layout();
    let plane = Plane::luma(&layout, &given.luma);
    let mut moves = 0;
    for (x, y) in (0..64).flat_map(|y| (0..64).map(move |x| (x, y))) {
        let ctb = layout.covering(x, y);
        let found = edges(&layout, ctb, x % 32, y % 32);
        let causes = at(&given, x as u32, y as u32);
        for (cause, (dx, dy)) in causes.into_iter().zip([(0, -4), (0, 4), (-4, 0), (4, 0)]) {
            let inside = ((x + dx).clamp(0, 63), (y + dy).clamp(0, 63));
            let moved = padded(&layout, &plane, ctb, &found, inside) != inside;
            assert_eq!(moved, cause != OPEN, "( {x}, {y} ) towards ( {dx}, {dy} )");
            moves += u32::from(moved);
        }
    }
    assert!(moves > 1000, "{moves}");
}
