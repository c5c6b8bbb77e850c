//! Luma positions to ask about.
use crate::input::Input;
use crate::random::Random;

/// A column or a row: mostly as near to a CTB's side, its line-buffer boundary or a virtual boundary as that can close a sample's side,
/// or one sample farther; else any. Columns have no line-buffer boundary; there it is a place like another.
fn near(random: &mut Random, size: u32, ctb: u32, boundaries: &[u16]) -> u32 {
    let side = i64::from(ctb) * random.between(0, i64::from(size.div_ceil(ctb)));
    let anchor = match random.below(4) {
        0 => return random.below(u64::from(size)) as u32,
        1 => side - 4,
        2 if !boundaries.is_empty() => i64::from(random.pick(boundaries)),
        _ => side,
    };
    (anchor + random.between(-5, 3)).clamp(0, i64::from(size) - 1) as u32
}

/// A position in the picture.
pub fn inside(random: &mut Random, input: &Input) -> (u32, u32) {
    (
        near(random, input.width, input.ctb(), &input.virtual_columns),
        near(random, input.height, input.ctb(), &input.virtual_rows),
    )
}

/// A position whose column, row or both are outside the picture.
pub fn outside(random: &mut Random, input: &Input) -> (u32, u32) {
    let (x, y) = inside(random, input);
    let beyond = |random: &mut Random, size: u32| random.pick(&[size, size + 1, size + 128, 1 << 16, 1 << 31, u32::MAX]);
    match random.below(3) {
        0 => (beyond(random, input.width), y),
        1 => (x, beyond(random, input.height)),
        _ => (beyond(random, input.width), beyond(random, input.height)),
    }
}

/// Either of them, now and then outside.
pub fn any(random: &mut Random, input: &Input) -> (u32, u32) {
    if random.once_in(20) {
        outside(random, input)
    } else {
        inside(random, input)
    }
}
