//! Parts of pictures, enlarged and side by side.
use crate::draw;
use crate::filtered::Filtered;
use crate::png::Image;
use crate::text;

/// A part of the picture, in luma samples, and how often it is enlarged.
pub struct Part {
    left: usize,
    top: usize,
    width: usize,
    height: usize,
    pub zoom: usize,
}

/// Floes at the ice edge.
pub const FLOES: Part = Part {
    left: 308,
    top: 132,
    width: 80,
    height: 80,
    zoom: 5,
};

/// Melt ponds on the ice, cut by leads: what differs most in chroma.
pub const PONDS: Part = Part {
    left: 232,
    top: 36,
    width: 80,
    height: 64,
    zoom: 5,
};

/// What becomes of a picture.
pub const STAGES: [&str; 3] = ["coded", "filtered", "clean"];

/// Between panels, in pixels.
const GAP: usize = 8;

impl Part {
    /// A panel with the gap behind it.
    fn pitch(&self) -> (usize, usize) {
        (self.width * self.zoom + GAP, self.height * self.zoom + GAP)
    }
}

/// The part of some pictures, so many in a row.
fn panels(part: &Part, images: &[&Image], in_a_row: usize) -> Image {
    let (wide, high) = part.pitch();
    let rows = images.len().div_ceil(in_a_row);
    Image::new(wide * in_a_row - GAP, high * rows - GAP, |x, y| {
        if x % wide >= wide - GAP || y % high >= high - GAP {
            return [255; 3];
        }
        let image = images[y / high * in_a_row + x / wide];
        image.at(part.left + x % wide / part.zoom, part.top + y % high / part.zoom)
    })
}

/// The part of some pictures in one row.
pub fn row(part: &Part, images: &[&Image]) -> Image {
    panels(part, images, images.len())
}

/// Chroma alone, coded, filtered and clean: a row of panels for each format, with their names.
pub fn chroma(part: &Part, formats: &[&Filtered]) -> Image {
    let stages = |f: &Filtered| [&f.before, &f.outputs.planes, &f.clean].map(|planes| draw::chroma(planes, f.format));
    let images: Vec<Image> = formats.iter().flat_map(|f| stages(f)).collect();
    let mut image = panels(part, &images.iter().collect::<Vec<_>>(), STAGES.len());
    let (wide, high) = part.pitch();
    for (row, f) in formats.iter().enumerate() {
        for (column, stage) in STAGES.into_iter().enumerate() {
            text::label(&mut image, (column * wide, row * high), &format!("{} {stage}", f.format.name()));
        }
    }
    image
}
