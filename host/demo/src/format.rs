//! Chroma formats: how large the planes are, and where their samples lie.
use crate::planes::{HEIGHT, WIDTH, Y};

#[derive(Clone, Copy, Debug, PartialEq)]
pub enum Format {
    Yuv420,
    Yuv444,
}

impl Format {
    pub fn name(self) -> &'static str {
        match self {
            Format::Yuv420 => "4:2:0",
            Format::Yuv444 => "4:4:4",
        }
    }

    /// ChromaArrayType, as the library takes it.
    pub fn number(self) -> u8 {
        match self {
            Format::Yuv420 => 1,
            Format::Yuv444 => 3,
        }
    }

    /// How many luma samples a chroma sample spans, across and down.
    fn chroma_ratio(self) -> (usize, usize) {
        let (across, down) = raspbegonia::chroma_ratio(self.number()).expect("each of these has chroma");
        (across as usize, down as usize)
    }

    /// The same for a sample of any component.
    pub fn ratio(self, component: usize) -> (usize, usize) {
        if component == Y {
            (1, 1)
        } else {
            self.chroma_ratio()
        }
    }

    /// Width and height of a component's plane.
    pub fn size(self, component: usize) -> (usize, usize) {
        let (across, down) = self.ratio(component);
        (WIDTH / across, HEIGHT / down)
    }

    /// Where the entry of a component's plane stands that belongs to a luma sample.
    pub fn place(self, component: usize, x: usize, y: usize) -> usize {
        let (across, down) = self.ratio(component);
        y / down * self.size(component).0 + x / across
    }

    /// The luma sample, column and row, that an entry of a component's plane lies at.
    pub fn luma_position(self, component: usize, place: usize) -> (usize, usize) {
        let ((across, down), width) = (self.ratio(component), self.size(component).0);
        (place % width * across, place / width * down)
    }
}

#[cfg(test)]
mod tests {
    use super::*;
    use crate::planes::CB;

    #[test]
    fn places_and_positions_belong_together() {
        for format in [Format::Yuv420, Format::Yuv444] {
            for component in [Y, CB] {
                let (width, height) = format.size(component);
                let back = |place: usize| format.luma_position(component, place);
                assert!((0..width * height).all(|place| format.place(component, back(place).0, back(place).1) == place));
            }
        }
    }
}
