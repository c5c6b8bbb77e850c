//! What a chroma format says about the size of the chroma planes.
use crate::Picture;

/// SubWidthC and SubHeightC: how many luma columns and rows one chroma sample stands for. None where there is no chroma: for luma
/// alone, and for a number that is no format.
pub const fn chroma_ratio(chroma_format: u8) -> Option<(u32, u32)> {
    match chroma_format {
        1 => Some((2, 2)),
        2 => Some((2, 1)),
        3 => Some((1, 1)),
        _ => None,
    }
}

impl Picture<'_> {
    /// [`chroma_ratio`] of the picture's format.
    pub fn chroma_ratio(&self) -> Option<(u32, u32)> {
        chroma_ratio(self.chroma_format)
    }

    /// The width of a chroma plane; 0 where there is no chroma.
    pub fn chroma_width(&self) -> u32 {
        self.chroma_ratio().map_or(0, |(columns, _)| self.width / columns)
    }

    /// The height of a chroma plane; 0 where there is no chroma.
    pub fn chroma_height(&self) -> u32 {
        self.chroma_ratio().map_or(0, |(_, rows)| self.height / rows)
    }
}
