//! Ways to spoil an accepted input: at least one for each cause of rejection.
use crate::input::{Input, Operation};
use crate::position;
use crate::random::Random;

/// A way to spoil: the number that it leads to, which operations judge it, and the change. The change returns false where the input has
/// no place for it.
pub struct Damage {
    pub number: u8,
    pub name: &'static str,
    pub judged: fn(Operation) -> bool,
    pub spoil: fn(&mut Input, &mut Random) -> bool,
}

fn every(_: Operation) -> bool {
    true
}

fn filters(operation: Operation) -> bool {
    operation.is_filter()
}

fn component(operation: Operation) -> bool {
    operation.has_component()
}

fn luma_filter(operation: Operation) -> bool {
    operation == Operation::Luma
}

fn luma_plane(operation: Operation) -> bool {
    operation.reads_luma()
}

fn classes(operation: Operation) -> bool {
    operation == Operation::Classes
}

fn region(operation: Operation) -> bool {
    operation == Operation::Isolated
}

fn causes(operation: Operation) -> bool {
    operation == Operation::ClipCauses
}

/// Makes a list one longer or one shorter.
fn resize<T: Copy + Default>(list: &mut Vec<T>, random: &mut Random) -> bool {
    if random.flip() || list.pop().is_none() {
        list.push(T::default());
    }
    true
}

fn set<T>(place: &mut T, value: T) -> bool {
    *place = value;
    true
}

/// A byte that is too large: `first`, the least of them, half of the time, else any from there up.
fn over(random: &mut Random, first: u8) -> u8 {
    let last = random.pick(&[first, 255]);
    random.between(i64::from(first), i64::from(last)) as u8
}

/// Puts a number at a random place of a list.
fn put<T: Copy>(list: &mut [T], random: &mut Random, value: fn(&mut Random) -> T) -> bool {
    let value = value(random);
    put_number(list, random, value)
}

fn put_number<T: Copy>(list: &mut [T], random: &mut Random, value: T) -> bool {
    !list.is_empty() && set(&mut list[random.index(list.len())], value)
}

/// Puts a byte that is too large, from `first` up, at one of a random CTB's places.
fn ctb_parameter(input: &mut Input, random: &mut Random, places: &[usize], first: u8) -> bool {
    let at = 8 * random.index(input.ctbs()) + random.pick(places);
    set(&mut input.ctb_params[at], over(random, first))
}

/// The index of a random number of a kind in the bank: a luma or chroma clip, or any coefficient.
fn bank_place(random: &mut Random, clip: bool) -> usize {
    let aps = 752 * random.index(8);
    let half = if clip { 1 } else { 0 };
    aps + match random.below(if clip { 2 } else { 3 }) {
        0 => 24 * random.index(25) + 12 * half + random.index(12),
        1 => 600 + 12 * random.index(8) + 6 * half + random.index(6),
        _ => 696 + random.index(56),
    }
}

/// Makes one of four CTBs round a corner differ from the three others, which become equal: one of `which`, where 0 to 3 are upper left,
/// upper right, lower left and lower right.
fn odd_corner(input: &mut Input, random: &mut Random, map: fn(&mut Input) -> &mut Vec<u8>, which: &[usize]) -> bool {
    let (columns, rows) = (input.columns(), input.rows());
    if columns < 2 || rows < 2 || input.slice_count < 2 {
        return false;
    }
    let at = random.index(rows - 1) * columns + random.index(columns - 1);
    let (odd, number) = (random.pick(which), random.byte(2));
    for (k, place) in [at, at + 1, at + columns, at + columns + 1].into_iter().enumerate() {
        map(input)[place] = if k == odd { 1 - number } else { number };
    }
    true
}

/// A virtual boundary that is not allowed, in place of the list.
fn bad_boundaries(random: &mut Random, size: u32, ctb: u32) -> Vec<u16> {
    let size = size as u16;
    let inside = 8 * random.between(1, i64::from((size / 8).max(2) - 1)) as u16;
    match random.below(7) {
        0 => vec![inside + random.between(1, 7) as u16],
        1 => vec![0],
        2 => vec![size],
        3 => vec![size + 8 * random.between(0, 500) as u16],
        4 => vec![inside, inside],
        5 => vec![inside, inside + ctb as u16 - 8],
        _ => (0..4).map(|k| 8 + k * ctb as u16).collect(),
    }
}

const fn damage(number: u8, name: &'static str, judged: fn(Operation) -> bool, spoil: fn(&mut Input, &mut Random) -> bool) -> Damage {
    Damage {
        number,
        name,
        judged,
        spoil,
    }
}

/// Lowest number first. Applied from the last to the first, each finds the sizes that it needs still whole.
pub const DAMAGES: &[Damage] = &[
    damage(1, "width", every, |i, r| set(&mut i.width, bad_size(r))),
    damage(1, "height", every, |i, r| set(&mut i.height, bad_size(r))),
    damage(2, "CTB exponent", every, |i, r| {
        set(&mut i.ctb_log2, r.pick(&[0, 1, 4, 8, 31, 32, 64, 255]))
    }),
    damage(3, "bit depth", every, |i, r| {
        set(&mut i.bit_depth, r.pick(&[0, 7, 13, 16, 31, 32, 255]))
    }),
    damage(4, "chroma format", every, |i, r| set(&mut i.chroma_format, over(r, 4))),
    damage(4, NO_CHROMA, component, |i, _| set(&mut i.chroma_format, 0)),
    damage(4, "component", component, |i, r| set(&mut i.component, over(r, 2))),
    damage(5, "slice count", every, |i, r| {
        set(&mut i.slice_count, r.pick(&[0, 257, 1 << 16, u32::MAX]))
    }),
    damage(5, "tile columns' length", every, |i, r| resize(&mut i.tile_columns, r)),
    damage(5, "tile rows' length", every, |i, r| resize(&mut i.tile_rows, r)),
    damage(5, "slice map's length", every, |i, r| resize(&mut i.slice_map, r)),
    damage(5, "subpicture map's length", every, |i, r| resize(&mut i.subpic_map, r)),
    damage(5, "subpicture switches' length", every, |i, r| resize(&mut i.subpic_across, r)),
    damage(5, "slice parameters' length", filters, |i, r| resize(&mut i.slice_params, r)),
    damage(5, "bank's length", filters, |i, r| resize(&mut i.bank, r)),
    damage(5, "CTB parameters' length", filters, |i, r| resize(&mut i.ctb_params, r)),
    damage(5, "fixed filters' length", luma_filter, |i, r| resize(&mut i.fixed_filters, r)),
    damage(5, "fixed map's length", luma_filter, |i, r| resize(&mut i.fixed_map, r)),
    damage(5, "luma plane's length", luma_plane, |i, r| resize(&mut i.luma, r)),
    damage(5, "chroma plane's length", component, |i, r| resize(&mut i.chroma, r)),
    damage(5, "another chroma format", component, other_format),
    damage(5, "luma output's length", luma_filter, |i, r| resize(&mut i.luma_output, r)),
    damage(5, "chroma output's length", component, |i, r| resize(&mut i.chroma_output, r)),
    damage(5, "class map's length", classes, |i, r| resize(&mut i.class_map, r)),
    damage(5, "region's length", region, |i, r| resize(&mut i.region, r)),
    damage(5, "causes' length", causes, |i, r| resize(&mut i.causes, r)),
    damage(6, "virtual columns", every, |i, r| {
        set(&mut i.virtual_columns, bad_boundaries(r, i.width, 1 << i.ctb_log2))
    }),
    damage(6, "virtual rows", every, |i, r| {
        set(&mut i.virtual_rows, bad_boundaries(r, i.height, 1 << i.ctb_log2))
    }),
    damage(7, "first tile column", every, |i, r| set(&mut i.tile_columns[0], over(r, 1))),
    // 4,096 rows are 128 CTBs of 32, so no row can be followed by tile row 129
    damage(7, "tile row", every, |i, r| put(&mut i.tile_rows, r, |r| over(r, 129))),
    damage(8, "slice number", every, |i, r| {
        i.slice_count < 256 && put_number(&mut i.slice_map, r, i.slice_count as u8)
    }),
    damage(8, "slice corner", every, |i, r| odd_corner(i, r, |i| &mut i.slice_map, &[1, 2])),
    damage(9, "subpicture number", every, |i, r| put(&mut i.subpic_map, r, |r| over(r, 64))),
    damage(9, "subpicture switch", every, |i, r| put(&mut i.subpic_across, r, |r| over(r, 2))),
    damage(9, "subpicture corner", every, |i, r| {
        odd_corner(i, r, |i| &mut i.subpic_map, &[0, 1, 2, 3])
    }),
    damage(10, "slice parameter", filters, |i, r| put(&mut i.slice_params, r, |r| over(r, 8))),
    damage(10, "CTB flag", filters, |i, r| ctb_parameter(i, r, &[0, 1, 2], 2)),
    damage(10, "luma set", filters, bad_set),
    damage(10, "chroma alternative", filters, |i, r| ctb_parameter(i, r, &[4, 5], 8)),
    damage(10, "cross-component index", filters, |i, r| ctb_parameter(i, r, &[6, 7], 5)),
    damage(10, "chroma parameter without chroma", luma_filter, |i, r| {
        i.chroma_format == 0 && ctb_parameter(i, r, &[1, 2, 4, 5, 6, 7], 1)
    }),
    damage(11, "coefficient", filters, |i, r| {
        set(&mut i.bank[bank_place(r, false)], r.pick(&[-129, 128, i16::MIN, i16::MAX]))
    }),
    damage(11, "clip", filters, |i, r| {
        set(
            &mut i.bank[bank_place(r, true)],
            r.pick(&[-1, (1 << i.bit_depth) + 1, i16::MIN, i16::MAX]),
        )
    }),
    damage(11, "fixed coefficient", luma_filter, |i, r| {
        put(&mut i.fixed_filters, r, |r| r.pick(&[-129, 128]))
    }),
    damage(11, "fixed map entry", luma_filter, |i, r| put(&mut i.fixed_map, r, |r| over(r, 64))),
    damage(12, "luma sample", luma_plane, |i, r| bad_sample(&mut i.luma, r, i.bit_depth)),
    damage(12, "chroma sample", component, |i, r| bad_sample(&mut i.chroma, r, i.bit_depth)),
    damage(13, "address", filters, bad_address),
    damage(14, "region's entry", region, |i, r| put(&mut i.region, r, |r| over(r, 2))),
    damage(15, "position", causes, bad_position),
];

/// Spoils luma's input too: a CTB's chroma parameters are then to be 0.
pub const NO_CHROMA: &str = "no chroma";

/// Sizes on both sides of what is allowed, and sizes that are no multiple of 8.
fn bad_size(random: &mut Random) -> u32 {
    match random.below(3) {
        0 => random.pick(&[0, 4104, 8192, 1 << 16, 1 << 31, u32::MAX]),
        1 => random.between(1, 7) as u32,
        _ => (8 * random.between(1, 511) + random.between(1, 7)) as u32,
    }
}

/// A chroma format whose planes have another size.
fn other_format(input: &mut Input, random: &mut Random) -> bool {
    let next = 1 + (input.chroma_format + random.byte(2)) % 3;
    input.chroma_format != 0 && set(&mut input.chroma_format, next)
}

/// A sample of 2^bit depth or more.
fn bad_sample(plane: &mut [u16], random: &mut Random, bit_depth: u8) -> bool {
    let first = 1i64 << bit_depth;
    let last = random.pick(&[first, 65535]);
    let value = random.between(first, last) as u16;
    put_number(plane, random, value)
}

/// One over what the CTB's slice has.
fn bad_set(input: &mut Input, random: &mut Random) -> bool {
    let k = random.index(input.ctbs());
    let count = input.slice_params[11 * usize::from(input.slice_map[k])];
    set(&mut input.ctb_params[8 * k + 3], count.saturating_add(16))
}

/// The list gains an address that no CTB has, at a random place.
fn bad_address(input: &mut Input, random: &mut Random) -> bool {
    let first = input.ctbs() as u32;
    let address = random.pick(&[first, first + 1, u32::MAX]);
    let at = random.index(input.ctb_list.len() + 1);
    input.ctb_list.insert(at, address);
    true
}

/// A position that the picture does not have.
fn bad_position(input: &mut Input, random: &mut Random) -> bool {
    let outside = position::outside(random, input);
    set(&mut input.position, outside)
}
