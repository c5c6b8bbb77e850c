//! What closes the sides of a sample.
use std::fmt;

/// Why the filters read nothing across a clip position, in the order of the numbers.
#[derive(Clone, Copy, Debug, PartialEq, Eq)]
#[repr(u8)]
pub enum ClipCause {
    /// There is no clip position on that side.
    Open = 0,
    LineBufferBoundary = 1,
    VirtualBoundary = 2,
    Tile = 3,
    Slice = 4,
    Subpicture = 5,
}

impl ClipCause {
    /// All of them, by number.
    pub const ALL: [ClipCause; 6] = [
        ClipCause::Open,
        ClipCause::LineBufferBoundary,
        ClipCause::VirtualBoundary,
        ClipCause::Tile,
        ClipCause::Slice,
        ClipCause::Subpicture,
    ];

    /// 0 to 5.
    pub fn number(self) -> u8 {
        self as u8
    }

    pub fn name(self) -> &'static str {
        match self {
            ClipCause::Open => "open",
            ClipCause::LineBufferBoundary => "line-buffer boundary",
            ClipCause::VirtualBoundary => "virtual boundary",
            ClipCause::Tile => "tile",
            ClipCause::Slice => "slice",
            ClipCause::Subpicture => "subpicture",
        }
    }
}

impl fmt::Display for ClipCause {
    fn fmt(&self, f: &mut fmt::Formatter) -> fmt::Result {
        f.pad(self.name())
    }
}

/// What closes each side of one luma sample.
#[derive(Clone, Copy, Debug, PartialEq, Eq)]
pub struct ClipCauses {
    pub top: ClipCause,
    pub bottom: ClipCause,
    pub left: ClipCause,
    pub right: ClipCause,
}

impl ClipCauses {
    /// The library writes 0 to 5 for each side; its contract allows no other number.
    pub(crate) fn from_numbers(numbers: [u8; 4]) -> ClipCauses {
        let [top, bottom, left, right] = numbers.map(|n| ClipCause::ALL[usize::from(n)]);
        ClipCauses { top, bottom, left, right }
    }

    /// Top, bottom, left, right: the order of the numbers.
    pub fn sides(self) -> [ClipCause; 4] {
        [self.top, self.bottom, self.left, self.right]
    }
}
