//! Tests of the model against 01's worked examples, its table of causes, random input,
//! the independence of isolated regions, 02's bank files and its cross-component coefficients.

mod bank_files;
mod causes;
mod cross_coefficients;
mod faults;
mod formats;
mod garbage;
mod isolation;
mod samples;
mod worked;

use crate::{FixedTables, Layout, Parameters};

/// A small xorshift generator.
pub(crate) struct Random(u64);

impl Random {
    pub(crate) fn new(seed: u64) -> Random {
        Random(seed.wrapping_mul(0x9e37_79b9_7f4a_7c15) | 1)
    }

    pub(crate) fn next(&mut self) -> u64 {
        self.0 ^= self.0 << 13;
        self.0 ^= self.0 >> 7;
        self.0 ^= self.0 << 17;
        self.0
    }

    /// A number below `bound`.
    pub(crate) fn below(&mut self, bound: u64) -> u64 {
        (self.next() >> 11) % bound
    }

    pub(crate) fn yes(&mut self) -> bool {
        self.below(2) == 1
    }

    /// A cross-component coefficient that H.266 can send.
    pub(crate) fn cross_coefficient(&mut self) -> i16 {
        SENDABLE[self.below(15) as usize]
    }
}

/// 02: "0 or plus or minus 1, 2, 4, 8, 16, 32 or 64".
pub(crate) const SENDABLE: [i16; 15] = [-64, -32, -16, -8, -4, -2, -1, 0, 1, 2, 4, 8, 16, 32, 64];

/// Everything that the operations can be given, owned, all of it acceptable at first.
#[derive(Clone)]
pub(crate) struct Given {
    pub width: u32,
    pub height: u32,
    pub ctb_log2: u8,
    pub bit_depth: u8,
    pub chroma_format: u8,
    pub slice_count: u32,
    pub across_tiles: bool,
    pub across_slices: bool,
    pub virtual_columns: Vec<u16>,
    pub virtual_rows: Vec<u16>,
    pub tile_columns: Vec<u8>,
    pub tile_rows: Vec<u8>,
    pub slice_map: Vec<u8>,
    pub subpic_map: Vec<u8>,
    pub subpic_across: Vec<u8>,
    pub slice_params: Vec<u8>,
    pub bank: Vec<i16>,
    pub ctb_params: Vec<u8>,
    pub ctb_list: Vec<u32>,
    pub fixed_filters: Vec<i16>,
    pub fixed_map: Vec<u8>,
    pub luma: Vec<u16>,
    pub chroma: Vec<u16>,
    pub region: Vec<u8>,
    pub position: (u32, u32),
    /// How long the list for the causes is.
    pub causes: usize,
}

impl Given {
    /// 4:2:0, one tile, slice and subpicture, filtering across all sides enabled, all numbers 0, every CTB listed.
    pub(crate) fn plain(width: u32, height: u32, ctb_log2: u8, bit_depth: u8) -> Given {
        let columns = width.div_ceil(1 << ctb_log2) as usize;
        let rows = height.div_ceil(1 << ctb_log2) as usize;
        let count = columns * rows;
        let samples = (width * height) as usize;
        Given {
            width,
            height,
            ctb_log2,
            bit_depth,
            chroma_format: 1,
            slice_count: 1,
            across_tiles: true,
            across_slices: true,
            virtual_columns: vec![],
            virtual_rows: vec![],
            tile_columns: vec![0; columns],
            tile_rows: vec![0; rows],
            slice_map: vec![0; count],
            subpic_map: vec![0; count],
            subpic_across: vec![1; 64],
            slice_params: vec![0; 11],
            bank: vec![0; 8 * 752],
            ctb_params: vec![0; 8 * count],
            ctb_list: (0..count as u32).collect(),
            fixed_filters: vec![0; 768],
            fixed_map: vec![0; 400],
            luma: vec![0; samples],
            chroma: vec![0; samples / 4],
            region: vec![0; samples / 64],
            position: (0, 0),
            causes: 4,
        }
    }

    /// The same with chroma of a format from 1 to 3, all samples 0.
    pub(crate) fn with_chroma_format(mut self, format: u8) -> Given {
        self.chroma_format = format;
        let (layout, plane) = (self.layout(), self.layout().chroma_cell());
        self.chroma = vec![0; layout.cells(plane) as usize];
        self
    }

    pub(crate) fn layout(&self) -> Layout<'_> {
        Layout {
            width: self.width,
            height: self.height,
            ctb_log2: self.ctb_log2,
            bit_depth: self.bit_depth,
            chroma: self.chroma_format,
            slice_count: self.slice_count,
            across_tiles: self.across_tiles,
            across_slices: self.across_slices,
            virtual_columns: &self.virtual_columns,
            virtual_rows: &self.virtual_rows,
            tile_columns: &self.tile_columns,
            tile_rows: &self.tile_rows,
            slice_map: &self.slice_map,
            subpic_map: &self.subpic_map,
            subpic_across: &self.subpic_across,
        }
    }

    pub(crate) fn parameters(&self) -> Parameters<'_> {
        Parameters {
            slice_params: &self.slice_params,
            bank: &self.bank,
            ctb_params: &self.ctb_params,
            ctb_list: &self.ctb_list,
        }
    }

    pub(crate) fn fixed(&self) -> FixedTables<'_> {
        FixedTables {
            filters: &self.fixed_filters,
            map: &self.fixed_map,
        }
    }

    /// Runs the classes; the class map starts as 77 throughout.
    pub(crate) fn classes(&self) -> (u8, Vec<u8>) {
        let mut output = vec![77; self.luma.len() / 16];
        let number = crate::classes(&self.layout(), &self.luma, &mut output);
        (number, output)
    }

    /// Runs the luma filter; its output starts as 777 throughout.
    pub(crate) fn filter_luma(&self) -> (u8, Vec<u16>) {
        let mut output = vec![777; self.luma.len()];
        let (layout, parameters) = (self.layout(), self.parameters());
        let number = crate::luma(&layout, &parameters, &self.fixed(), &self.luma, &mut output);
        (number, output)
    }

    pub(crate) fn filter_chroma(&self, component: u8) -> (u8, Vec<u16>) {
        let mut output = vec![777; self.chroma.len()];
        let (layout, parameters) = (self.layout(), self.parameters());
        let number = crate::chroma(&layout, component, &parameters, &self.chroma, &mut output);
        (number, output)
    }

    pub(crate) fn filter_cross(&self, component: u8) -> (u8, Vec<u16>) {
        let mut output = vec![777; self.chroma.len()];
        let number = crate::cross_component(&self.layout(), component, &self.parameters(), &self.luma, &self.chroma, &mut output);
        (number, output)
    }

    pub(crate) fn isolated(&self) -> (u8, u8) {
        let mut answer = 77;
        let number = crate::isolated(&self.layout(), &self.region, &mut answer);
        (number, answer)
    }

    /// Asks what closes the sides of a sample; the list starts as 77 throughout.
    pub(crate) fn clip_causes(&self) -> (u8, Vec<u8>) {
        let mut causes = vec![77; self.causes];
        let (x, y) = self.position;
        let number = crate::clip_causes(&self.layout(), x, y, &mut causes);
        (number, causes)
    }

    /// The numbers of all operations, classes first; chroma work is for Cb.
    pub(crate) fn numbers(&self) -> [u8; 6] {
        [
            self.classes().0,
            self.filter_luma().0,
            self.filter_chroma(0).0,
            self.filter_cross(0).0,
            self.isolated().0,
            self.clip_causes().0,
        ]
    }
}
