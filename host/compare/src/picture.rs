//! Random pictures that are accepted: a layout, filters, parameters, samples, and outputs that hold something else before the call.
use crate::input::Input;
use crate::layout::layout;
use crate::position;
use crate::random::Random;
use crate::region;

/// Coefficients: small ones, any, or the two ends.
pub(crate) fn coefficient(random: &mut Random, style: u64) -> i16 {
    let (first, last) = match style {
        0 => (-12, 12),
        1 => (-128, 127),
        2 => return random.pick(&[-128, 127]),
        _ => return if random.once_in(3) { random.between(-128, 127) as i16 } else { 0 },
    };
    random.between(first, last) as i16
}

/// The coefficients that H.266 can send of a cross-component filter.
const CROSS_COEFFICIENTS: [i16; 15] = [0, -1, 1, -2, 2, -4, 4, -8, 8, -16, 16, -32, 32, -64, 64];

/// One of these, in the same styles: small ones, any, the two ends, or mostly 0.
pub(crate) fn cross_coefficient(random: &mut Random, style: u64) -> i16 {
    match style {
        0 => random.pick(&CROSS_COEFFICIENTS[..9]),
        1 => random.pick(&CROSS_COEFFICIENTS),
        2 => random.pick(&[-64, 64]),
        _ if random.once_in(3) => random.pick(&CROSS_COEFFICIENTS),
        _ => 0,
    }
}

/// Clips: the powers that the standard's index stands for, any, or the two ends.
pub(crate) fn clip(random: &mut Random, style: u64, bit_depth: u8) -> i16 {
    let most = 1i64 << bit_depth;
    match style {
        0 => (most >> random.pick(&[0, 3, 5, 7])) as i16,
        1 => random.between(0, most) as i16,
        _ => random.pick(&[0, 1, most as i16]),
    }
}

/// Eight APSs of 752 numbers.
fn bank(random: &mut Random, bit_depth: u8) -> Vec<i16> {
    let mut bank = Vec::with_capacity(8 * 752);
    for _ in 0..8 {
        let (style, clips) = (random.below(4), random.below(3));
        for (filters, taps) in [(25, 12), (8, 6)] {
            for _ in 0..filters {
                bank.extend((0..taps).map(|_| coefficient(random, style)));
                bank.extend((0..taps).map(|_| clip(random, clips, bit_depth)));
            }
        }
        bank.extend((0..2 * 4 * 7).map(|_| coefficient(random, style)));
    }
    bank
}

/// Eleven numbers a slice.
fn slice_params(random: &mut Random, count: u32) -> Vec<u8> {
    let mut params = Vec::new();
    for _ in 0..count {
        params.push(random.byte(8));
        params.extend((0..10).map(|_| random.byte(8)));
    }
    params
}

/// Eight numbers of one CTB.
pub fn ctb_params(random: &mut Random, input: &Input, address: usize) -> [u8; 8] {
    let sets = 16 + input.slice_params[11 * usize::from(input.slice_map[address])];
    let flag = |random: &mut Random| u8::from(!random.once_in(5));
    if input.chroma_format == 0 {
        return [flag(random), 0, 0, random.byte(u64::from(sets)), 0, 0, 0, 0];
    }
    [
        flag(random),
        flag(random),
        flag(random),
        random.byte(u64::from(sets)),
        random.byte(8),
        random.byte(8),
        random.byte(5),
        random.byte(5),
    ]
}

/// All CTBs, in order or not, some of them, some twice and more, or none.
pub fn ctb_list(random: &mut Random, ctbs: usize) -> Vec<u32> {
    let all = 0..ctbs as u32;
    match random.below(6) {
        0 => Vec::new(),
        1 => all.rev().collect(),
        2 => all.filter(|_| random.flip()).collect(),
        3 => (0..random.below(3 * ctbs as u64))
            .map(|_| random.below(ctbs as u64) as u32)
            .collect(),
        _ => all.collect(),
    }
}

/// Samples of a plane: flat, any, the two ends, level or upright bars, a slanted ramp with some noise.
pub fn samples(random: &mut Random, width: usize, height: usize, bit_depth: u8) -> Vec<u16> {
    let most = (1u64 << bit_depth) - 1;
    let (style, flat, period) = (random.below(8), random.below(most + 1), 1 + random.below(7) as usize);
    let (across, down) = (random.below(12) as usize, random.below(12) as usize);
    let mut plane = Vec::with_capacity(width * height);
    for y in 0..height {
        for x in 0..width {
            plane.push(match style {
                0 => flat,
                1 => random.pick(&[0, most]),
                2 => most * ((x / period) as u64 % 2),
                3 => most * ((y / period) as u64 % 2),
                4 | 5 => ((across * x + down * y) as u64 + random.below(9)) % (most + 1),
                _ => random.below(most + 1),
            } as u16);
        }
    }
    plane
}

/// What stands in the causes of a position before the call.
pub fn causes(random: &mut Random) -> Vec<u8> {
    (0..4).map(|_| random.byte(256)).collect()
}

/// An accepted picture, whole. The outputs hold random numbers, so that what is not written shows.
pub fn picture(random: &mut Random, ctb_log2: u8, chroma_format: u8) -> Input {
    let mut input = layout(random, ctb_log2, chroma_format);
    let (width, height) = (input.width as usize, input.height as usize);
    let (chroma_width, chroma_height) = input.chroma_size();
    input.slice_params = slice_params(random, input.slice_count);
    input.bank = bank(random, input.bit_depth);
    input.ctb_params = (0..input.ctbs()).flat_map(|k| ctb_params(random, &input, k)).collect();
    input.ctb_list = ctb_list(random, input.ctbs());
    let style = random.below(4);
    input.fixed_filters = (0..768).map(|_| coefficient(random, style)).collect();
    input.fixed_map = (0..400).map(|_| random.byte(64)).collect();
    input.luma = samples(random, width, height, input.bit_depth);
    input.chroma = samples(random, chroma_width, chroma_height, input.bit_depth);
    input.region = region::some_region(random, &input);
    input.position = position::inside(random, &input);
    input.class_map = (0..input.luma_length() / 16).map(|_| random.byte(256)).collect();
    input.luma_output = (0..input.luma.len()).map(|_| random.next() as u16).collect();
    input.chroma_output = (0..input.chroma.len()).map(|_| random.next() as u16).collect();
    input.isolated = random.pick(&[0, 1, 255]);
    input.causes = causes(random);
    input
}
