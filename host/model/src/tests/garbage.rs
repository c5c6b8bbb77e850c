//! No input makes an operation panic, and a rejected picture leaves outputs alone.

use super::{Given, Random};
use crate::{FixedTables, Layout, Parameters};

fn bytes(random: &mut Random, most: u64, bound: u64) -> Vec<u8> {
    let length = random.below(most + 1);
    (0..length).map(|_| random.below(bound) as u8).collect()
}

fn words(random: &mut Random, most: u64, bound: u64) -> Vec<u16> {
    let length = random.below(most + 1);
    (0..length).map(|_| random.below(bound) as u16).collect()
}

fn signed(random: &mut Random, most: u64) -> Vec<i16> {
    let length = random.below(most + 1);
    (0..length).map(|_| random.next() as i16).collect()
}

/// Arbitrary numbers and lengths, now and then near to what is acceptable.
fn garbage(random: &mut Random) -> Given {
    let bound = [1, 2, 8, 256][random.below(4) as usize];
    Given {
        width: [8, 16, 0, random.next() as u32][random.below(4) as usize],
        height: [8, 16, 4096, random.next() as u32][random.below(4) as usize],
        ctb_log2: [5, 6, 7, random.next() as u8][random.below(4) as usize],
        bit_depth: [8, 12, 10, random.next() as u8][random.below(4) as usize],
        chroma_format: [0, 1, 2, 3, random.next() as u8][random.below(5) as usize],
        slice_count: [1, 256, 2, random.next() as u32][random.below(4) as usize],
        across_tiles: random.yes(),
        across_slices: random.yes(),
        virtual_columns: words(random, 4, 65536),
        virtual_rows: words(random, 4, 65536),
        tile_columns: bytes(random, 2, bound),
        tile_rows: bytes(random, 2, bound),
        slice_map: bytes(random, 2, bound),
        subpic_map: bytes(random, 2, bound),
        subpic_across: bytes(random, 70, bound),
        slice_params: bytes(random, 30, bound),
        bank: signed(random, 7000),
        ctb_params: bytes(random, 20, bound),
        ctb_list: words(random, 3, bound).into_iter().map(u32::from).collect(),
        fixed_filters: signed(random, 800),
        fixed_map: bytes(random, 500, bound),
        luma: words(random, 300, 65536),
        chroma: words(random, 100, 65536),
        region: bytes(random, 6, bound),
        position: (random.below(20) as u32, random.next() as u32 >> random.below(32)),
        causes: [4, 4, random.below(9) as usize][random.below(3) as usize],
    }
}

/// The highest number that an operation may return.
const HIGHEST: u8 = 15;

/// Runs all operations and checks numbers and untouched outputs.
fn run(given: &Given, component: u8) {
    let (number, classes) = given.classes();
    assert!(number <= HIGHEST && (number == 0 || classes.iter().all(|&each| each == 77)));
    let (number, answer) = given.isolated();
    assert!(number <= HIGHEST && (answer <= 1) == (number == 0));
    let (number, causes) = given.clip_causes();
    assert!(number <= HIGHEST && causes.iter().all(|&each| if number == 0 { each <= 5 } else { each == 77 }));
    for (number, output) in [given.filter_luma(), given.filter_chroma(component), given.filter_cross(component)] {
        assert!(number <= HIGHEST && (number == 0 || output.iter().all(|&each| each == 777)));
    }
}

#[test]
fn nothing_but_garbage() {
    let mut random = Random::new(1);
    for _ in 0..2000 {
        let given = garbage(&mut random);
        run(&given, random.below(3) as u8);
    }
}

/// A good picture in which a few fields are replaced by garbage.
#[test]
fn a_little_garbage() {
    let mut random = Random::new(2);
    let mut accepted = 0;
    for _ in 0..2000 {
        let given = spoilt(&mut random);
        run(&given, random.below(2) as u8);
        accepted += u32::from(given.filter_luma().0 == 0);
    }
    assert!(accepted > 20, "{accepted}");
}

fn spoilt(random: &mut Random) -> Given {
    let plain = Given::plain(8 + 8 * random.below(9) as u32, 40, 5, 8);
    let mut given = plain.with_chroma_format(1 + random.below(3) as u8);
    let bad = garbage(random);
    for _ in 0..random.below(4) {
        match random.below(16) {
            0 => given.width = bad.width,
            1 => given.ctb_log2 = bad.ctb_log2,
            2 => given.bit_depth = bad.bit_depth,
            3 => given.chroma_format = bad.chroma_format,
            4 => given.slice_count = bad.slice_count,
            5 => given.virtual_columns = bad.virtual_columns.clone(),
            6 => given.tile_rows = bad.tile_rows.clone(),
            7 => poke(random, &mut given.slice_map),
            8 => poke(random, &mut given.subpic_map),
            9 => poke(random, &mut given.slice_params),
            10 => poke(random, &mut given.ctb_params),
            11 => given.bank = bad.bank.clone(),
            12 => given.luma[7] = random.next() as u16,
            13 => given.position = bad.position,
            14 => given.causes = bad.causes,
            _ => given.ctb_list = bad.ctb_list.clone(),
        }
    }
    given
}

fn poke(random: &mut Random, table: &mut [u8]) {
    let index = random.below(table.len() as u64) as usize;
    table[index] = random.next() as u8;
}

#[test]
fn extreme_numbers() {
    let layout = Layout {
        width: u32::MAX,
        height: u32::MAX,
        ctb_log2: u8::MAX,
        bit_depth: u8::MAX,
        chroma: u8::MAX,
        slice_count: u32::MAX,
        across_tiles: false,
        across_slices: false,
        virtual_columns: &[u16::MAX; 9],
        virtual_rows: &[],
        tile_columns: &[],
        tile_rows: &[],
        slice_map: &[],
        subpic_map: &[],
        subpic_across: &[],
    };
    let parameters = Parameters {
        slice_params: &[],
        bank: &[],
        ctb_params: &[],
        ctb_list: &[u32::MAX],
    };
    let fixed = FixedTables { filters: &[], map: &[] };
    assert_eq!(crate::luma(&layout, &parameters, &fixed, &[], &mut []), 1);
    assert_eq!(crate::chroma(&layout, 9, &parameters, &[], &mut []), 1);
    assert_eq!(crate::isolated(&layout, &[], &mut 0), 1);
    assert_eq!(crate::clip_causes(&layout, u32::MAX, u32::MAX, &mut []), 1);
}

/// The largest values of everything, and the smallest, filter without overflow.
#[test]
fn extreme_filters() {
    for (coefficient, low, high) in [(127, 0, 4095), (-128, 0, 4095), (-128, 4095, 0)] {
        let mut given = Given::plain(40, 40, 5, 12).with_chroma_format(3);
        given.bank = vec![coefficient; 8 * 752];
        for aps in given.bank.chunks_mut(752) {
            (0..25).for_each(|class| aps[24 * class + 12..24 * class + 24].fill(4096));
            (0..8).for_each(|alt| aps[606 + 12 * alt..612 + 12 * alt].fill(4096));
        }
        given.slice_params = vec![7; 11];
        given.ctb_params = [1, 1, 1, 22, 7, 7, 4, 4].repeat(4);
        for (index, sample) in given.luma.iter_mut().enumerate() {
            *sample = if (index / 40 + index) % 2 == 0 { low } else { high };
        }
        given.chroma = given.luma.clone();
        for (number, output) in [given.filter_luma(), given.filter_chroma(0), given.filter_cross(1)] {
            assert_eq!(number, 0);
            assert!(output.iter().all(|&sample| sample < 4096));
        }
    }
}
