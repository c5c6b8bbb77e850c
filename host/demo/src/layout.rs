//! How the picture is divided. In a stream tiles, slices and subpictures nest; here each division has lines of its own, so that each is
//! seen at work.
use crate::format::Format;
use crate::planes::{BIT_DEPTH, HEIGHT, WIDTH};
use raspbegonia::Picture;

pub const CTB_LOG2: u8 = 6;
/// Side of a CTB in luma samples.
pub const CTB: usize = 1 << CTB_LOG2;
/// CTBs in a row and in a column. The last ones are cut off by the picture's rim.
pub const CTB_COLUMNS: usize = WIDTH.div_ceil(CTB);
pub const CTB_ROWS: usize = HEIGHT.div_ceil(CTB);
pub const CTBS: usize = CTB_COLUMNS * CTB_ROWS;

pub const VIRTUAL_COLUMNS: [u16; 2] = [104, 296];
pub const VIRTUAL_ROWS: [u16; 2] = [88, 232];
/// Two by two tiles.
pub const TILE_COLUMNS: [u8; CTB_COLUMNS] = [0, 0, 0, 1, 1, 1, 1, 1];
pub const TILE_ROWS: [u8; CTB_ROWS] = [0, 0, 1, 1, 1];
/// Three slices, which follow each other in raster order.
pub const SLICE_COUNT: usize = 3;
const SLICE_STARTS: [usize; SLICE_COUNT] = [0, 5, 26];
/// Three subpictures: one at the left, two at the right. A 1 filters across that subpicture's sides.
pub const SUBPICTURE_SWITCHES: [u8; 3] = [1, 0, 1];

/// The tables of the division; the library borrows them.
pub struct Layout {
    pub slice_map: Vec<u8>,
    pub subpic_map: Vec<u8>,
    subpic_across: [u8; 64],
}

impl Layout {
    pub fn new() -> Layout {
        let mut subpic_across = [1; 64];
        subpic_across[..SUBPICTURE_SWITCHES.len()].copy_from_slice(&SUBPICTURE_SWITCHES);
        Layout {
            slice_map: (0..CTBS).map(slice_of).collect(),
            subpic_map: (0..CTBS).map(subpicture_of).collect(),
            subpic_across,
        }
    }

    /// The picture as every operation takes it, with filtering across tiles and across slices switched off.
    pub fn picture(&self, format: Format) -> Picture<'_> {
        Picture {
            width: WIDTH as u32,
            height: HEIGHT as u32,
            ctb_log2: CTB_LOG2,
            bit_depth: BIT_DEPTH,
            chroma_format: format.number(),
            slice_count: SLICE_COUNT as u32,
            across_tiles: false,
            across_slices: false,
            virtual_columns: &VIRTUAL_COLUMNS,
            virtual_rows: &VIRTUAL_ROWS,
            tile_columns: &TILE_COLUMNS,
            tile_rows: &TILE_ROWS,
            slice_map: &self.slice_map,
            subpic_map: &self.subpic_map,
            subpic_across: &self.subpic_across,
        }
    }

    /// The region of a subpicture: one number for each 8 by 8 luma block, 1 inside.
    pub fn subpicture_region(&self, number: u8) -> Vec<u8> {
        let blocks = (0..HEIGHT / 8).flat_map(|row| (0..WIDTH / 8).map(move |column| (column * 8, row * 8)));
        blocks.map(|(x, y)| u8::from(self.subpic_map[ctb_at(x, y)] == number)).collect()
    }
}

/// The address of the CTB that a luma sample lies in.
pub fn ctb_at(x: usize, y: usize) -> usize {
    y / CTB * CTB_COLUMNS + x / CTB
}

/// The tile of a CTB, numbered in raster order.
pub fn tile_of(ctb: usize) -> u8 {
    TILE_ROWS[ctb / CTB_COLUMNS] * 2 + TILE_COLUMNS[ctb % CTB_COLUMNS]
}

fn slice_of(ctb: usize) -> u8 {
    SLICE_STARTS.iter().filter(|&&start| start <= ctb).count() as u8 - 1
}

fn subpicture_of(ctb: usize) -> u8 {
    match (ctb % CTB_COLUMNS, ctb / CTB_COLUMNS) {
        (0..=5, _) => 0,
        (_, 0..=3) => 1,
        _ => 2,
    }
}
