//! Chroma formats.
use raspbegonia::chroma_ratio;

#[derive(Clone, Copy, Debug, PartialEq)]
pub enum Format {
    Yuv420,
    Yuv422,
    Yuv444,
}

impl Format {
    pub const ALL: [Format; 3] = [Format::Yuv420, Format::Yuv422, Format::Yuv444];

    /// ChromaArrayType, as the library is given it.
    pub fn number(self) -> u8 {
        self as u8 + 1
    }

    /// How many luma samples a chroma sample spans, across and down.
    pub fn ratio(self) -> (usize, usize) {
        let (across, down) = chroma_ratio(self.number()).expect("each of these has chroma");
        (across as usize, down as usize)
    }

    pub fn name(self) -> &'static str {
        match self {
            Format::Yuv420 => "4:2:0",
            Format::Yuv422 => "4:2:2",
            Format::Yuv444 => "4:4:4",
        }
    }
}
