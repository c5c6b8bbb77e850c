//! Why an input is rejected.
use std::fmt;

/// The causes of rejection, in the order of their numbers. Where several apply, the lowest is returned; of a bank file, the lowest of
/// its first faulty field.
#[derive(Clone, Copy, Debug, PartialEq, Eq)]
#[repr(u8)]
pub enum Fault {
    PictureSize = 1,
    CtbSize = 2,
    BitDepth = 3,
    ChromaFormat = 4,
    Length = 5,
    VirtualBoundary = 6,
    Tile = 7,
    Slice = 8,
    Subpicture = 9,
    Parameter = 10,
    Filter = 11,
    Sample = 12,
    Address = 13,
    Region = 14,
    Position = 15,
    FieldCutShort = 16,
    FieldUnlisted = 17,
    FieldOutOfPlace = 18,
}

impl Fault {
    /// All of them, lowest first.
    pub const ALL: [Fault; 18] = [
        Fault::PictureSize,
        Fault::CtbSize,
        Fault::BitDepth,
        Fault::ChromaFormat,
        Fault::Length,
        Fault::VirtualBoundary,
        Fault::Tile,
        Fault::Slice,
        Fault::Subpicture,
        Fault::Parameter,
        Fault::Filter,
        Fault::Sample,
        Fault::Address,
        Fault::Region,
        Fault::Position,
        Fault::FieldCutShort,
        Fault::FieldUnlisted,
        Fault::FieldOutOfPlace,
    ];

    /// 1 to 18.
    pub fn number(self) -> u8 {
        self as u8
    }

    /// What is wrong, in a few words.
    pub fn meaning(self) -> &'static str {
        match self {
            Fault::PictureSize => "width or height is not a multiple of 8 from 8 to 4096",
            Fault::CtbSize => "CTB exponent is not 5, 6 or 7",
            Fault::BitDepth => "bit depth is not 8 to 12",
            Fault::ChromaFormat => {
                "chroma format is not 0 to 3, or a chroma filter was asked for a picture without chroma or a component that is not 0 or 1"
            }
            Fault::Length => {
                "slice count is not 1 to 256, or a plane, a table or the room for a bank file does not have the length called for"
            }
            Fault::VirtualBoundary => {
                "virtual boundaries are more than three, out of range, not multiples of 8, not rising or less than a CTB apart"
            }
            Fault::Tile => "tile numbers do not begin at 0 or do not rise by 0 or 1",
            Fault::Slice => "slice map has a number that is not below the slice count, or a corner that slices cannot have",
            Fault::Subpicture => "subpicture map has a number over 63 or a corner that subpictures cannot have, or a switch is not 0 or 1",
            Fault::Parameter => "a slice's or a CTB's parameters are out of range",
            Fault::Filter => "a coefficient, a clip or an entry of the fixed filter map is out of range",
            Fault::Sample => "an input sample is 2^bit depth or more",
            Fault::Address => "the list has an address that is not below the count of CTBs",
            Fault::Region => "an entry of the region is not 0 or 1",
            Fault::Position => "the position lies outside the picture",
            Fault::FieldCutShort => "a field of the bank file is cut short",
            Fault::FieldUnlisted => "a field of the bank file has a tag, a length or a leading number that is not listed",
            Fault::FieldOutOfPlace => {
                "a field of the bank file is out of place: the bit depth is not first, or a filter is out of order, repeated or all zero"
            }
        }
    }

    /// The library answers 0 where it accepts, else the number of a fault; its contract allows no other number.
    pub(crate) fn from_answer(number: u8) -> Result<(), Fault> {
        match number {
            0 => Ok(()),
            n => Err(Fault::ALL[usize::from(n) - 1]),
        }
    }
}

impl fmt::Display for Fault {
    fn fmt(&self, f: &mut fmt::Formatter) -> fmt::Result {
        write!(f, "fault {}: {}", self.number(), self.meaning())
    }
}

impl std::error::Error for Fault {}
