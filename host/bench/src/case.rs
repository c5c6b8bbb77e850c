//! What one measurement is made on: a picture, its tables and its planes, made from a seed.
use crate::drawing::drawing;
use crate::format::Format;
use crate::padded::Padded;
use crate::random::Random;
use raspbegonia::{FixedTables, Parameters, Picture};

/// All that the library and the C are given, and the two ways to spoil it.
pub struct Case {
    pub width: usize,
    pub height: usize,
    pub ctb_log2: u8,
    pub bit_depth: u8,
    pub format: Format,
    pub luma: Vec<u16>,
    pub chroma: Vec<u16>,
    pub padded_luma: Padded,
    pub padded_chroma: Padded,
    /// Luma whose last sample is out of range: what the classes are rejected for last.
    pub bad_luma: Vec<u16>,
    pub slice_params: Vec<u8>,
    pub slice_map: Vec<u8>,
    pub ctb_params: Vec<u8>,
    pub bank: Vec<i16>,
    pub fixed_filters: Vec<i16>,
    pub fixed_map: Vec<u8>,
    ctb_list: Vec<u32>,
    /// A list whose last address is out of range: what the filters are rejected for last.
    bad_list: Vec<u32>,
    tile_columns: Vec<u8>,
    tile_rows: Vec<u8>,
}

/// Which CTBs are filtered.
#[derive(Clone, Copy, PartialEq)]
pub enum Ctbs {
    All,
    /// Those whose flag or index comes out on at random, so that some are copied.
    Some,
}

impl Case {
    pub fn new(width: usize, height: usize, ctb_log2: u8, bit_depth: u8, format: Format, ctbs: Ctbs) -> Case {
        // The same every time for the same sizes.
        let mut random = Random(((width * 4099 + height) * 16 + usize::from(ctb_log2)) as u64 * 16 + u64::from(bit_depth));
        let luma = drawing(width, height, bit_depth, &mut random);
        let (chroma_width, chroma_height) = (width / format.ratio().0, height / format.ratio().1);
        let chroma = drawing(chroma_width, chroma_height, bit_depth, &mut random);
        let (columns, rows) = (width.div_ceil(1 << ctb_log2), height.div_ceil(1 << ctb_log2));
        let count = columns * rows;
        let mut bad_luma = luma.clone();
        bad_luma[width * height - 1] = 1 << bit_depth;
        let ctb_list: Vec<u32> = (0..count as u32).collect();
        let mut bad_list = ctb_list.clone();
        bad_list[count - 1] = count as u32;
        Case {
            width,
            height,
            ctb_log2,
            bit_depth,
            format,
            padded_luma: Padded::new(&luma, width, height),
            padded_chroma: Padded::new(&chroma, chroma_width, chroma_height),
            luma,
            chroma,
            bad_luma,
            // Seven luma APSs, then those of chroma and of cross-component filters.
            slice_params: vec![7, 6, 5, 4, 3, 2, 1, 0, 7, 3, 5],
            slice_map: vec![0; count],
            ctb_params: (0..count).flat_map(|address| ctb_params(address, ctbs, &mut random)).collect(),
            bank: (0..8).flat_map(|_| aps(bit_depth, &mut random)).collect(),
            fixed_filters: coefficients(64 * 12, &mut random),
            fixed_map: (0..16 * 25).map(|_| random.below(64) as u8).collect(),
            ctb_list,
            bad_list,
            tile_columns: vec![0; columns],
            tile_rows: vec![0; rows],
        }
    }

    /// For messages and tables; the operation's name has the format, where it depends on it.
    pub fn name(&self) -> String {
        format!(
            "{} by {}, {} bits, CTB {}",
            self.width,
            self.height,
            self.bit_depth,
            1 << self.ctb_log2
        )
    }

    pub fn picture(&self) -> Picture<'_> {
        Picture {
            width: self.width as u32,
            height: self.height as u32,
            ctb_log2: self.ctb_log2,
            bit_depth: self.bit_depth,
            chroma_format: self.format.number(),
            slice_count: 1,
            across_tiles: true,
            across_slices: true,
            virtual_columns: &[],
            virtual_rows: &[],
            tile_columns: &self.tile_columns,
            tile_rows: &self.tile_rows,
            slice_map: &self.slice_map,
            // One subpicture, number 0, as there is one slice.
            subpic_map: &self.slice_map,
            subpic_across: &[1; 64],
        }
    }

    pub fn parameters(&self) -> Parameters<'_> {
        Parameters {
            slice_params: &self.slice_params,
            bank: &self.bank,
            ctb_params: &self.ctb_params,
            ctb_list: &self.ctb_list,
        }
    }

    pub fn bad_parameters(&self) -> Parameters<'_> {
        Parameters {
            ctb_list: &self.bad_list,
            ..self.parameters()
        }
    }

    pub fn fixed(&self) -> FixedTables<'_> {
        FixedTables {
            filters: &self.fixed_filters,
            map: &self.fixed_map,
        }
    }
}

/// Sets, alternatives and indices go round by address: sets over the fixed ones and those of the seven APSs.
fn ctb_params(address: usize, ctbs: Ctbs, random: &mut Random) -> [u8; 8] {
    let [luma, cb, cr, cross_cb, cross_cr] = [(); 5].map(|_| u8::from(ctbs == Ctbs::All || random.below(4) > 0));
    let round = |step: usize, start: usize, count: usize| ((address * step + start) % count) as u8;
    let (alternative_cb, alternative_cr) = (round(1, 0, 8), round(1, 3, 8));
    let (index_cb, index_cr) = (cross_cb * (1 + round(1, 0, 4)), cross_cr * (1 + round(1, 1, 4)));
    [luma, cb, cr, round(5, 0, 23), alternative_cb, alternative_cr, index_cb, index_cr]
}

/// The 752 numbers of an APS: luma filters, chroma alternatives, cross-component filters.
fn aps(bit_depth: u8, random: &mut Random) -> Vec<i16> {
    let mut numbers = Vec::with_capacity(752);
    for (count, taps) in [(25, 12), (8, 6)] {
        for _ in 0..count {
            numbers.extend(coefficients(taps, random));
            numbers.extend((0..taps).map(|_| random.below((1 << bit_depth) + 1) as i16));
        }
    }
    numbers.extend(coefficients(2 * 4 * 7, random));
    numbers
}

/// Mostly small, so that few sums leave the range of a sample; one in eight is anything that is accepted.
fn coefficients(count: usize, random: &mut Random) -> Vec<i16> {
    let mut one = || {
        if random.below(8) == 0 {
            random.below(256) as i16 - 128
        } else {
            random.below(17) as i16 - 8
        }
    };
    (0..count).map(|_| one()).collect()
}
