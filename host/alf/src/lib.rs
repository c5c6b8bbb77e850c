//! The adaptive loop filter of H.266, proved, for Rust: a safe wrapper over `libalf_c.a`.
//!
//! Each operation judges what it is given before it works. It asks nothing of its caller: wrong sizes, lengths or numbers are answered
//! with a [`Fault`], and then every output is left as it was.
mod bank_file;
mod cause;
mod chroma_format;
mod fault;
mod ffi;

pub use bank_file::{bank_read, bank_read_number, bank_write, bank_write_number, BANK_FILE_BYTES, BANK_NUMBERS};
pub use cause::{ClipCause, ClipCauses};
pub use chroma_format::chroma_ratio;
pub use fault::Fault;

/// A picture's sizes, switches and boundary tables: what every operation is given.
#[derive(Clone, Copy, Debug)]
pub struct Picture<'a> {
    /// Multiples of 8, from 8 to 4,096.
    pub width: u32,
    pub height: u32,
    /// CtbLog2SizeY: 5, 6 or 7.
    pub ctb_log2: u8,
    /// 8 to 12.
    pub bit_depth: u8,
    /// ChromaArrayType: 0 for luma alone, 1 for 4:2:0, 2 for 4:2:2, 3 for 4:4:4. [`Picture::chroma_width`] and
    /// [`Picture::chroma_height`] are the size of the chroma planes.
    pub chroma_format: u8,
    /// How many slices have parameters, 1 to 256.
    pub slice_count: u32,
    /// A switch that is true filters across.
    pub across_tiles: bool,
    pub across_slices: bool,
    /// At most three each, rising, multiples of 8, at least a CTB apart.
    pub virtual_columns: &'a [u16],
    pub virtual_rows: &'a [u16],
    /// The tile column of each CTB column, the tile row of each CTB row.
    pub tile_columns: &'a [u8],
    pub tile_rows: &'a [u8],
    /// By CTB address.
    pub slice_map: &'a [u8],
    pub subpic_map: &'a [u8],
    /// 64 switches, 0 or 1: a 1 filters across that subpicture's sides.
    pub subpic_across: &'a [u8],
}

/// What the three filters are given beside the picture.
#[derive(Clone, Copy, Debug)]
pub struct Parameters<'a> {
    /// Eleven numbers a slice: count of luma APSs, seven luma APS ids, chroma APS id, Cb's and Cr's cross-component APS ids.
    pub slice_params: &'a [u8],
    /// Eight APSs of 752 numbers: 25 times 12 coefficients and 12 clips, 8 times 6 and 6, then 4 times 7 for Cb and 4 times 7 for Cr.
    pub bank: &'a [i16],
    /// Eight numbers a CTB: luma, Cb and Cr flags, luma set, Cb and Cr alternative, Cb and Cr cross-component index.
    pub ctb_params: &'a [u8],
    /// Addresses of the CTBs to filter, in any order.
    pub ctb_list: &'a [u32],
}

/// The fixed filters of the standard.
#[derive(Clone, Copy, Debug)]
pub struct FixedTables<'a> {
    /// AlfFixFiltCoeff: 64 times 12.
    pub filters: &'a [i16],
    /// AlfClassToFiltMap: 16 times 25.
    pub map: &'a [u8],
}

/// Writes class + 32 * transpose of each 4 by 4 luma block, row by row.
pub fn classes(picture: &Picture, luma: &[u16], class_map: &mut [u8]) -> Result<(), Fault> {
    Fault::from_answer(ffi::classes(picture, luma, class_map))
}

/// Writes the luma plane with each listed CTB whose flag is on filtered.
pub fn luma(picture: &Picture, parameters: &Parameters, fixed: &FixedTables, luma: &[u16], output: &mut [u16]) -> Result<(), Fault> {
    Fault::from_answer(ffi::luma(picture, parameters, fixed, luma, output))
}

/// Writes the plane of a component, 0 (Cb) or 1 (Cr), with each listed CTB whose flag is on filtered.
pub fn chroma(picture: &Picture, component: u8, parameters: &Parameters, chroma: &[u16], output: &mut [u16]) -> Result<(), Fault> {
    Fault::from_answer(ffi::chroma(picture, component, parameters, chroma, output))
}

/// Writes the filtered plane of a component with each listed CTB whose index is on corrected from the unfiltered luma plane.
pub fn cross_component(
    picture: &Picture,
    component: u8,
    parameters: &Parameters,
    luma: &[u16],
    chroma: &[u16],
    output: &mut [u16],
) -> Result<(), Fault> {
    Fault::from_answer(ffi::cross_component(picture, component, parameters, luma, chroma, output))
}

/// Whether the region, one number for each 8 by 8 luma block, 1 inside and 0 outside, is closed on every side.
pub fn isolated(picture: &Picture, region: &[u8]) -> Result<bool, Fault> {
    let mut answer = 0;
    isolated_number(picture, region, &mut answer)?;
    Ok(answer == 1)
}

/// The same by a number, as the C interface has it: `isolated` becomes 1 or 0, and stays as it was where the input is rejected.
pub fn isolated_number(picture: &Picture, region: &[u8], isolated: &mut u8) -> Result<(), Fault> {
    Fault::from_answer(ffi::isolated(picture, region, isolated))
}

/// What closes the sides of the luma sample in column `x` and row `y`, as far as its neighbours reach. The line-buffer boundary is
/// luma's, whatever the chroma format is.
pub fn clip_causes(picture: &Picture, x: u32, y: u32) -> Result<ClipCauses, Fault> {
    let mut numbers = [0; 4];
    clip_cause_numbers(picture, x, y, &mut numbers)?;
    Ok(ClipCauses::from_numbers(numbers))
}

/// The same by numbers, as the C interface has it: `causes` has four entries, top, bottom, left and right.
pub fn clip_cause_numbers(picture: &Picture, x: u32, y: u32, causes: &mut [u8]) -> Result<(), Fault> {
    Fault::from_answer(ffi::clip_causes(picture, x, y, causes))
}
