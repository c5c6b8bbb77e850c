//! Regions of 8 by 8 luma blocks.
use crate::input::{Input, Operation};
use crate::random::Random;

/// A region by a test on the first luma sample of each block.
fn blocks(input: &Input, inside: impl Fn(usize, usize) -> bool) -> Vec<u8> {
    let (columns, rows) = (input.width as usize / 8, input.height as usize / 8);
    (0..columns * rows)
        .map(|k| u8::from(inside(8 * (k % columns), 8 * (k / columns))))
        .collect()
}

/// Between which virtual boundaries a position lies.
fn band(boundaries: &[u16], at: usize) -> usize {
    boundaries.iter().filter(|b| usize::from(**b) <= at).count()
}

/// The region of one slice, tile or subpicture, of a rectangle between virtual boundaries, of some CTBs or of blocks at random. Most
/// are closed on every side where switches are off; some are not.
pub fn some_region(random: &mut Random, input: &Input) -> Vec<u8> {
    let x = random.index(input.width as usize);
    let y = random.index(input.height as usize);
    let tile = |x: usize, y: usize| (input.tile_columns[x >> input.ctb_log2], input.tile_rows[y >> input.ctb_log2]);
    let slice = |x: usize, y: usize| input.slice_map[input.address(x, y)];
    let subpic = |x: usize, y: usize| input.subpic_map[input.address(x, y)];
    let piece = |x: usize, y: usize| (band(&input.virtual_columns, x), band(&input.virtual_rows, y));
    let density = 1 + random.below(12);
    let noise: Vec<bool> = (0..input.ctbs()).map(|_| random.flip()).collect();
    match random.below(8) {
        0 => blocks(input, |u, v| slice(u, v) == slice(x, y)),
        1 => blocks(input, |u, v| tile(u, v) == tile(x, y)),
        2 => blocks(input, |u, v| subpic(u, v) == subpic(x, y)),
        3 => blocks(input, |u, v| piece(u, v) == piece(x, y)),
        4 => blocks(input, |u, v| piece(u, v).0 == piece(x, y).0),
        5 => blocks(input, |u, v| noise[input.address(u, v)]),
        6 => (0..input.luma_length() / 64).map(|_| u8::from(random.once_in(density))).collect(),
        _ => blocks(input, |u, v| {
            piece(u, v) == piece(x, y) && slice(u, v) == slice(x, y) && tile(u, v) == tile(x, y)
        }),
    }
}

/// Whether entry k of an operation's output lies in the region: its first luma sample does.
pub fn output_inside(input: &Input, operation: Operation, k: usize) -> bool {
    // how many luma columns and rows an entry stands for
    let (columns, rows) = match operation {
        Operation::Classes => (4, 4),
        Operation::Luma => (1, 1),
        _ => input.picture().chroma_ratio().expect("a picture with chroma"),
    };
    let (columns, rows, width) = (columns as usize, rows as usize, (input.width / columns) as usize);
    luma_inside(input, columns * (k % width), rows * (k / width))
}

fn luma_inside(input: &Input, x: usize, y: usize) -> bool {
    input.region[y / 8 * (input.width as usize / 8) + x / 8] == 1
}

/// Whether a CTB has a sample in the region.
pub fn ctb_inside(input: &Input, address: usize) -> bool {
    let ctb = input.ctb() as usize;
    let (left, top) = (address % input.columns() * ctb, address / input.columns() * ctb);
    let right = (left + ctb).min(input.width as usize);
    let bottom = (top + ctb).min(input.height as usize);
    (top..bottom)
        .step_by(8)
        .any(|y| (left..right).step_by(8).any(|x| luma_inside(input, x, y)))
}
