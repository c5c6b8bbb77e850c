//! Random layouts that are accepted: sizes, virtual boundaries, tiles, slices, subpictures and switches.
use crate::input::Input;
use crate::random::Random;

/// Chroma formats to choose from or to go through in turn: 4:2:0, 4:2:2 and 4:4:4 as often as each other, luma alone once in ten.
pub const CHROMA_FORMATS: [u8; 10] = [1, 2, 3, 1, 2, 3, 1, 2, 3, 0];

/// A multiple of 8: often a few CTBs, whole or not, sometimes less than one.
fn size(random: &mut Random, ctb: u32) -> u32 {
    let most = if ctb == 128 { 384 } else { 4 * ctb };
    match random.below(6) {
        0 => 8 * random.between(1, i64::from(ctb / 8)) as u32,
        1 => ctb * random.between(1, i64::from(most / ctb)) as u32,
        _ => 8 * random.between(1, i64::from(most / 8)) as u32,
    }
}

/// Width and height; once in a while as long and thin as a picture can be.
fn sizes(random: &mut Random, ctb: u32) -> (u32, u32) {
    let other = 8 * random.between(448, 511) as u32;
    let (long, thin) = (random.pick(&[4096, other]), 8 * random.between(1, 3) as u32);
    match random.below(60) {
        0 => (long, thin),
        1 => (thin, long),
        _ => (size(random, ctb), size(random, ctb)),
    }
}

/// Up to three multiples of 8 inside the size, rising, at least a CTB apart.
pub fn virtual_boundaries(random: &mut Random, size: u32, ctb: u32) -> Vec<u16> {
    let mut found = Vec::new();
    let count = random.below(4);
    let mut first = 8;
    for _ in 0..count {
        if first + 8 > size {
            break;
        }
        // steps that are short, so that three fit
        let last = (size - 8).min(first + ctb);
        let any = 8 * random.between(i64::from(first / 8), i64::from(last / 8)) as u32;
        // now and then on a CTB's side, so that both can close one edge
        let side = any / ctb * ctb;
        let at = if side >= first && random.once_in(4) { side } else { any };
        found.push(at as u16);
        first = at + ctb;
    }
    found
}

/// From 0, each as the one before or one more.
pub fn tiles(random: &mut Random, count: usize) -> Vec<u8> {
    let steps = random.below(4);
    let mut number = 0;
    (0..count)
        .map(|k| {
            if k > 0 && steps > random.below(4) {
                number += 1;
            }
            number
        })
        .collect()
}

/// Of four CTBs round a corner (upper left a, upper right b, lower left c, lower right d), whether slices may lie like this.
pub fn slices_can_meet(a: u8, b: u8, c: u8, d: u8) -> bool {
    !(a == c && c == d && b != a) && !(a == b && b == d && c != a)
}

/// The same of subpictures: never exactly three of one number.
pub fn subpics_can_meet(a: u8, b: u8, c: u8, d: u8) -> bool {
    let most = [a, b, c, d].iter().map(|n| [a, b, c, d].iter().filter(|m| *m == n).count()).max();
    most != Some(3)
}

/// A map whose corners are all allowed: CTB by CTB a neighbour's number or any below `numbers`, whichever fits first; none where
/// nothing fits.
fn map(random: &mut Random, columns: usize, rows: usize, numbers: u64, allowed: fn(u8, u8, u8, u8) -> bool) -> Option<Vec<u8>> {
    let mut map: Vec<u8> = Vec::with_capacity(columns * rows);
    let change = 1 + random.below(6);
    for k in 0..columns * rows {
        let (x, y) = (k % columns, k / columns);
        let corner = (x > 0 && y > 0).then(|| (map[k - columns - 1], map[k - columns], map[k - 1]));
        let fits = |n: u8| corner.is_none_or(|(a, b, c)| allowed(a, b, c, n));
        let mut near = Vec::new();
        if x > 0 {
            near.push(map[k - 1]);
        }
        if y > 0 {
            near.push(map[k - columns]);
        }
        let mut chosen = None;
        for _ in 0..40 {
            let n = if near.is_empty() || random.once_in(change) {
                random.byte(numbers)
            } else {
                random.pick(&near)
            };
            if fits(n) {
                chosen = Some(n);
                break;
            }
        }
        map.push(chosen?);
    }
    Some(map)
}

/// Tries until one succeeds, since with few numbers a map can run into a corner that nothing fits; at last a map of one number.
fn some_map(random: &mut Random, columns: usize, rows: usize, numbers: u64, allowed: fn(u8, u8, u8, u8) -> bool) -> Vec<u8> {
    (0..20)
        .find_map(|_| map(random, columns, rows, numbers, allowed))
        .unwrap_or_else(|| vec![0; columns * rows])
}

/// Slices as a decoder has them: runs of CTBs in raster order.
fn raster_slices(random: &mut Random, ctbs: usize, count: u64) -> Vec<u8> {
    let mut number = 0;
    (0..ctbs)
        .map(|k| {
            if k > 0 && number + 1 < count && random.once_in(3) {
                number += 1;
            }
            number as u8
        })
        .collect()
}

/// The layout of an accepted picture; the tables of the filters, the planes and the outputs are still empty.
pub fn layout(random: &mut Random, ctb_log2: u8, chroma_format: u8) -> Input {
    let ctb = 1 << ctb_log2;
    let (width, height) = sizes(random, ctb);
    let (columns, rows) = (width.div_ceil(ctb) as usize, height.div_ceil(ctb) as usize);
    let slice_count = random.pick(&[1, 1, 2, 3, 5, 256]);
    let slice_map = match random.below(3) {
        0 => raster_slices(random, columns * rows, slice_count),
        _ => some_map(random, columns, rows, slice_count, slices_can_meet),
    };
    let subpics = random.pick(&[1, 2, 4, 64]);
    let across = random.below(4);
    Input {
        width,
        height,
        ctb_log2,
        bit_depth: random.between(8, 12) as u8,
        chroma_format,
        slice_count: slice_count as u32,
        across_tiles: random.flip(),
        across_slices: random.flip(),
        virtual_columns: virtual_boundaries(random, width, ctb),
        virtual_rows: virtual_boundaries(random, height, ctb),
        tile_columns: tiles(random, columns),
        tile_rows: tiles(random, rows),
        slice_map,
        subpic_map: some_map(random, columns, rows, subpics, subpics_can_meet),
        subpic_across: (0..64).map(|_| u8::from(across > random.below(4))).collect(),
        component: random.byte(2),
        slice_params: Vec::new(),
        bank: Vec::new(),
        ctb_params: Vec::new(),
        ctb_list: Vec::new(),
        fixed_filters: Vec::new(),
        fixed_map: Vec::new(),
        luma: Vec::new(),
        chroma: Vec::new(),
        region: Vec::new(),
        position: (0, 0),
        class_map: Vec::new(),
        luma_output: Vec::new(),
        chroma_output: Vec::new(),
        isolated: 0,
        causes: Vec::new(),
    }
}
