//! What lies outside an isolated region never reaches a result inside it.

use super::{Given, Random};
use crate::judge::is_clip;
use crate::layout::Cell;

/// Vertical or horizontal bands of CTBs, or quarters, numbered from 0.
fn map(random: &mut Random, columns: usize, rows: usize) -> Vec<u8> {
    let cut_column = random.below(columns as u64 + 1) as usize;
    let cut_row = random.below(rows as u64 + 1) as usize;
    (0..columns * rows)
        .map(|address| {
            let right = u8::from(address % columns >= cut_column);
            right + 2 * u8::from(address / columns >= cut_row)
        })
        .collect()
}

/// Slices in raster order, so that corners can be cut.
fn raster_slices(random: &mut Random, count: usize) -> Vec<u8> {
    let first = random.below(count as u64 + 1) as usize;
    let second = random.below(count as u64 + 1) as usize;
    (0..count)
        .map(|address| u8::from(address >= first) + u8::from(address >= second))
        .collect()
}

fn tiles(random: &mut Random, count: usize) -> Vec<u8> {
    let mut tile = 0;
    (0..count)
        .map(|index| {
            tile += u8::from(index > 0 && random.yes());
            tile
        })
        .collect()
}

fn boundaries(random: &mut Random, size: u32) -> Vec<u16> {
    match random.below(3) {
        0 => vec![8 + 8 * random.below(u64::from(size) / 8 - 1) as u16],
        _ => vec![],
    }
}

/// A picture with random boundaries, filters and CTB parameters.
fn picture(random: &mut Random) -> Given {
    let width = 40 + 8 * random.below(8) as u32;
    let height = 40 + 8 * random.below(8) as u32;
    let plain = Given::plain(width, height, 5 + random.below(2) as u8, 8);
    let mut given = plain.with_chroma_format(1 + random.below(3) as u8);
    let (columns, rows) = (given.tile_columns.len(), given.tile_rows.len());
    given.slice_count = 4;
    given.slice_params = (0..44).map(|_| random.below(8) as u8).collect();
    given.across_tiles = random.below(3) != 0;
    given.across_slices = random.yes();
    given.tile_columns = tiles(random, columns);
    given.tile_rows = tiles(random, rows);
    given.slice_map = match random.below(2) {
        0 => map(random, columns, rows),
        _ => raster_slices(random, columns * rows),
    };
    given.subpic_map = map(random, columns, rows);
    given.subpic_across = (0..64).map(|_| random.below(2) as u8).collect();
    given.virtual_columns = boundaries(random, width);
    given.virtual_rows = boundaries(random, height);
    fill(random, &mut given);
    given
}

fn fill(random: &mut Random, given: &mut Given) {
    for (index, number) in given.bank.iter_mut().enumerate() {
        *number = match is_clip(index % 752) {
            true => random.below(257) as i16,
            false => random.below(256) as i16 - 128,
        };
    }
    for params in given.ctb_params.chunks_mut(8) {
        for (byte, bound) in params.iter_mut().zip([2, 2, 2, 16, 8, 8, 5, 5]) {
            *byte = random.below(bound) as u8;
        }
    }
    for (address, params) in given.ctb_params.chunks_mut(8).enumerate() {
        let count = given.slice_params[11 * usize::from(given.slice_map[address])];
        if count > 0 && random.yes() {
            params[3] = 16 + random.below(u64::from(count)) as u8;
        }
    }
    given.fixed_filters = (0..768).map(|_| random.below(256) as i16 - 128).collect();
    given.fixed_map = (0..400).map(|_| random.below(64) as u8).collect();
    given.luma.fill_with(|| random.below(256) as u16);
    given.chroma.fill_with(|| random.below(256) as u16);
}

/// The region of all blocks whose CTB, or side of a virtual boundary, meets a test.
fn region(given: &Given, random: &mut Random) -> Vec<u8> {
    let layout = given.layout();
    let kind = random.below(5);
    let wanted = layout.ctb(random.below(layout.ctb_count() as u64) as i64);
    let column = given.virtual_columns.first().map_or(0, |&position| i64::from(position));
    let row = given.virtual_rows.first().map_or(0, |&position| i64::from(position));
    let across = i64::from(given.width) / 8;
    (0..layout.cells(Cell::square(8)))
        .map(|block| {
            let (x, y) = (8 * (block % across), 8 * (block / across));
            let ctb = layout.covering(x, y);
            u8::from(match kind {
                0 => layout.slice(ctb) == layout.slice(wanted),
                1 => layout.tile(ctb) == layout.tile(wanted),
                2 => layout.subpic(ctb) == layout.subpic(wanted),
                3 => x < column,
                _ => y < row && x >= column,
            })
        })
        .collect()
}

/// The picture with other samples everywhere outside the region.
fn changed_outside(given: &Given, random: &mut Random) -> Given {
    let mut other = given.clone();
    let chroma = given.layout().chroma_cell();
    for (cell, plane) in [(Cell::LUMA, &mut other.luma), (chroma, &mut other.chroma)] {
        for (index, sample) in plane.iter_mut().enumerate() {
            if !inside(given, cell, index) {
                *sample = random.below(256) as u16;
            }
        }
    }
    other
}

/// Whether an entry of a plane or map lies in the region: its first luma sample does.
fn inside(given: &Given, cell: Cell, index: usize) -> bool {
    let width = i64::from(given.width) / cell.width;
    let (x, y) = (index as i64 % width * cell.width, index as i64 / width * cell.height);
    given.region[(y / 8 * (i64::from(given.width) / 8) + x / 8) as usize] == 1
}

/// True where two planes or maps agree inside the region.
fn agree<T: PartialEq>(given: &Given, cell: Cell, one: &[T], other: &[T]) -> bool {
    (0..one.len()).all(|index| one[index] == other[index] || !inside(given, cell, index))
}

/// Which of classes, luma, chroma and cross-component give equal results inside the region.
fn results_agree(given: &Given, other: &Given) -> [bool; 4] {
    let chroma = given.layout().chroma_cell();
    [
        agree(given, Cell::square(4), &given.classes().1, &other.classes().1),
        agree(given, Cell::LUMA, &given.filter_luma().1, &other.filter_luma().1),
        agree(given, chroma, &given.filter_chroma(0).1, &other.filter_chroma(0).1),
        agree(given, chroma, &given.filter_cross(1).1, &other.filter_cross(1).1),
    ]
}

#[test]
fn outside_never_reaches_isolated_regions() {
    let mut random = Random::new(3);
    // By chroma format: isolated regions, and open ones that each operation was seen to reach into.
    let (mut isolated, mut reached) = ([0; 4], [[0; 4]; 4]);
    for round in 0..900 {
        let mut given = picture(&mut random);
        given.region = region(&given, &mut random);
        if given.region.iter().all(|byte| *byte == given.region[0]) {
            continue;
        }
        let (number, answer) = given.isolated();
        assert_eq!((number, given.numbers()), (0, [0; 6]), "round {round}");
        let other = changed_outside(&given, &mut random);
        let alike = results_agree(&given, &other);
        assert!(answer == 0 || alike == [true; 4], "round {round}: {alike:?}");
        let format = usize::from(given.chroma_format);
        isolated[format] += i32::from(answer == 1);
        (0..4).for_each(|operation| reached[format][operation] += i32::from(!alike[operation]));
    }
    for format in 1..4 {
        let seen = reached[format].iter().all(|&count| count > 20);
        assert!(isolated[format] > 30 && seen, "{isolated:?} isolated, {reached:?} reached");
    }
}

/// 01: a slice, tile or subpicture is isolated whenever filtering across its sides is disabled.
#[test]
fn disabled_filtering_isolates_regions() {
    let mut random = Random::new(4);
    for round in 0..100 {
        let mut given = picture(&mut random);
        given.across_tiles = false;
        given.across_slices = false;
        given.subpic_across = vec![0; 64];
        given.region = region(&given, &mut random);
        assert_eq!(given.isolated(), (0, 1), "round {round}");
    }
}

/// Neither the whole picture nor an empty region has a step that leads out.
#[test]
fn whole_and_empty_regions() {
    let mut given = Given::plain(40, 48, 5, 8);
    assert_eq!(given.isolated(), (0, 1));
    given.region = vec![1; 30];
    assert_eq!(given.isolated(), (0, 1));
    given.region[0] = 0;
    assert_eq!(given.isolated(), (0, 0));
}

/// Steps round a corner whose upper left CTB is a slice of its own.
#[test]
fn diagonal_steps() {
    let mut given = Given::plain(64, 64, 5, 8);
    given.slice_count = 2;
    given.across_slices = false;
    given.slice_map = vec![0, 1, 1, 1];
    let layout = given.layout();
    let closed = |x, y, dx, dy| crate::region::step_closed(&layout, (x, y), dx, dy);
    assert!(closed(32, 32, -1, -1));
    assert!(!closed(32, 32, -1, 0) && !closed(32, 32, 0, -1));
    assert!(closed(31, 31, 1, 1));
    assert!(!closed(32, 32, -1, 1));
    assert!(closed(31, 32, 0, -1) && closed(31, 32, 1, -1));
    assert!(closed(32, 31, -1, 1));
    assert!(!closed(5, 5, 1, 1));
}
