//! Banks as files (docs/bank-files.md).
use crate::{ffi, Fault};

/// The numbers of a bank: eight APSs of 752.
pub const BANK_NUMBERS: usize = 6016;

/// The bytes of the longest file, that of a bank in which no filter is all zero: the room that [`bank_write`] asks for.
pub const BANK_FILE_BYTES: usize = 10_508;

/// Writes the file of a bank at a bit depth to the front of `file`, which has at least [`BANK_FILE_BYTES`], and returns how many bytes
/// that is. The bytes behind them stay as they were.
pub fn bank_write(bit_depth: u8, bank: &[i16], file: &mut [u8]) -> Result<usize, Fault> {
    let mut length = 0;
    bank_write_number(bit_depth, bank, file, &mut length)?;
    Ok(length as usize)
}

/// The same with the number of the C interface: `length` stays as it was where the input is rejected.
pub fn bank_write_number(bit_depth: u8, bank: &[i16], file: &mut [u8], length: &mut u32) -> Result<(), Fault> {
    Fault::from_answer(ffi::bank_write(bit_depth, bank, file, length))
}

/// Reads a file that [`bank_write`] has made, without the room behind it, into the [`BANK_NUMBERS`] of a bank, and returns its bit
/// depth. Any other file is rejected.
pub fn bank_read(file: &[u8], bank: &mut [i16]) -> Result<u8, Fault> {
    let mut bit_depth = 0;
    bank_read_number(file, bank, &mut bit_depth)?;
    Ok(bit_depth)
}

/// The same with the number of the C interface: `bit_depth` stays as it was where the file is rejected.
pub fn bank_read_number(file: &[u8], bank: &mut [i16], bit_depth: &mut u8) -> Result<(), Fault> {
    Fault::from_answer(ffi::bank_read(file, bank, bit_depth))
}
