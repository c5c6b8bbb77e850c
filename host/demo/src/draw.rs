//! Pictures for people, from planes and tables.
use crate::causes::Causes;
use crate::format::Format;
use crate::layout::{ctb_at, tile_of, Layout, CTB, VIRTUAL_COLUMNS, VIRTUAL_ROWS};
use crate::planes::{Planes, CB, CR, HEIGHT, WIDTH, Y};
use crate::png::Image;
use crate::text;
use raspbegonia::{ClipCause, ClipCauses};

/// How often a difference is amplified in `difference.png`.
pub const AMPLIFICATION: i32 = 8;
/// How often chroma is amplified in `chroma.png`.
pub const CHROMA_AMPLIFICATION: i32 = 3;
/// How often `classes.png`, `layout.png` and `causes.png` are enlarged.
pub const MAP_ZOOM: usize = 2;

/// From ten bits in video range to RGB by the matrix of BT.709, in integers of 2^-16.
fn rgb(y: u16, cb: u16, cr: u16) -> [u8; 3] {
    let (y, cb, cr) = (i64::from(y) - 64, i64::from(cb) - 512, i64::from(cr) - 512);
    // 255/876 for luma and 255/896 for chroma, times the matrix.
    let luma = 19_077 * y;
    let channels = [luma + 29_372 * cr, luma - 3_494 * cb - 8_731 * cr, luma + 34_610 * cb];
    channels.map(|v| ((v + (1 << 15)) >> 16).clamp(0, 255) as u8)
}

/// The middle of video range: (64 + 940) / 2 in luma, 512 in chroma.
const MIDDLES: [i32; 3] = [502, 512, 512];

/// The level that lies so many times a distance from the middle.
fn amplified(component: usize, times: i32, distance: i32) -> u16 {
    (MIDDLES[component] + times * distance).clamp(0, 1023) as u16
}

/// Planes as a colour picture; a chroma sample serves all luma samples that it spans.
pub fn picture(planes: &Planes, format: Format) -> Image {
    Image::new(WIDTH, HEIGHT, |x, y| {
        let [y, cb, cr] = [Y, CB, CR].map(|component| planes[component][format.place(component, x, y)]);
        rgb(y, cb, cr)
    })
}

/// What the filters added, amplified: mid grey where nothing changed, brighter where luma rose, tinged where chroma moved.
pub fn difference(before: &Planes, after: &Planes, format: Format) -> Image {
    let plane = |component: usize| {
        let pairs = after[component].iter().zip(&before[component]);
        let change = pairs.map(|(&a, &b)| i32::from(a) - i32::from(b));
        change.map(|change| amplified(component, AMPLIFICATION, change)).collect()
    };
    picture(&[Y, CB, CR].map(plane), format)
}

/// Chroma alone, amplified, with luma at mid grey.
pub fn chroma(planes: &Planes, format: Format) -> Image {
    let plane = |component: usize| {
        let distances = planes[component].iter().map(|&v| i32::from(v) - MIDDLES[component]);
        // No distance at all brings luma to the middle.
        let times = if component == Y { 0 } else { CHROMA_AMPLIFICATION };
        distances.map(|distance| amplified(component, times, distance)).collect()
    };
    picture(&[Y, CB, CR].map(plane), format)
}

/// The hue of each direction mark of a class: none, diagonal and strongly so, straight and strongly so.
const HUES: [[u8; 3]; 5] = [[150, 150, 150], [110, 190, 120], [40, 160, 70], [250, 180, 90], [225, 95, 35]];

/// The class map: a direction's hue, brighter the higher the activity is, and a dark line round each 4 by 4 block.
pub fn classes(class_map: &[u8]) -> Image {
    let side = 4 * MAP_ZOOM;
    Image::new(WIDTH * MAP_ZOOM, HEIGHT * MAP_ZOOM, |x, y| {
        let class = class_map[y / side * (WIDTH / 4) + x / side] % 32;
        let bright = 95 + 40 * u32::from(class % 5);
        let line = if x % side == 0 || y % side == 0 { 2 } else { 3 };
        HUES[usize::from(class / 5)].map(|v| (u32::from(v) * bright * line / (255 * 3)) as u8)
    })
}

const TINTS: [[u8; 3]; 3] = [[255, 165, 150], [170, 245, 170], [165, 185, 255]];
const TILE_LINE: [u8; 3] = [255, 220, 0];
const SLICE_LINE: [u8; 3] = [255, 255, 255];
const SUBPICTURE_LINE: [u8; 3] = [0, 230, 255];
const VIRTUAL_LINE: [u8; 3] = [255, 0, 200];
const LINE_BUFFER_LINE: [u8; 3] = [70, 205, 60];

/// The division of the picture, drawn over its luma, with a region hatched.
pub fn layout(layout: &Layout, isolated: &[u8], luma: &[u16]) -> Image {
    let mut image = Image::new(WIDTH * MAP_ZOOM, HEIGHT * MAP_ZOOM, |x, y| {
        let (x, y) = (x / MAP_ZOOM, y / MAP_ZOOM);
        let hatched = isolated[y / 8 * (WIDTH / 8) + x / 8] == 1 && (x + y) % 12 == 0;
        let grey = 30 + u32::from(luma[y * WIDTH + x]) / 6 + if hatched { 60 } else { 0 };
        let grid = if x % CTB == 0 || y % CTB == 0 { 3 } else { 4 };
        let tint = TINTS[usize::from(layout.slice_map[ctb_at(x, y)])];
        tint.map(|v| (grey * u32::from(v) * grid / (255 * 4)) as u8)
    });
    border(&mut image, SLICE_LINE, 1, |ctb| layout.slice_map[ctb]);
    border(&mut image, TILE_LINE, 2, tile_of);
    border(&mut image, SUBPICTURE_LINE, 2, |ctb| layout.subpic_map[ctb]);
    virtual_boundaries(&mut image);
    image
}

/// Draws a line of some pixels to each side of where a number of the CTBs changes.
fn border(image: &mut Image, colour: [u8; 3], reach: usize, number: impl Fn(usize) -> u8) {
    let at = |x: usize, y: usize| number(ctb_at(x.min(image.width - 1) / MAP_ZOOM, y.min(image.height - 1) / MAP_ZOOM));
    let differs = |x: usize, y: usize| {
        let (left, top) = (x.saturating_sub(reach), y.saturating_sub(reach));
        let corners = [at(left, top), at(x + reach, top), at(left, y + reach), at(x + reach, y + reach)];
        corners.iter().any(|&n| n != corners[0])
    };
    let line: Vec<bool> = (0..image.pixels.len()).map(|k| differs(k % image.width, k / image.width)).collect();
    image
        .pixels
        .iter_mut()
        .zip(line)
        .filter(|(_, drawn)| *drawn)
        .for_each(|(pixel, _)| *pixel = colour);
}

/// Draws dashed lines along the virtual boundaries.
fn virtual_boundaries(image: &mut Image) {
    const DASH: usize = 8;
    for column in VIRTUAL_COLUMNS.map(|v| usize::from(v) * MAP_ZOOM) {
        for y in (0..image.height).filter(|y| y % (2 * DASH) < DASH) {
            (column - 1..=column).for_each(|x| image.set(x, y, VIRTUAL_LINE));
        }
    }
    for row in VIRTUAL_ROWS.map(|v| usize::from(v) * MAP_ZOOM) {
        for x in (0..image.width).filter(|x| x % (2 * DASH) < DASH) {
            (row - 1..=row).for_each(|y| image.set(x, y, VIRTUAL_LINE));
        }
    }
}

/// The colour of a cause: that of its line in the layout.
fn cause_colour(cause: ClipCause) -> Option<[u8; 3]> {
    match cause {
        ClipCause::Open => None,
        ClipCause::LineBufferBoundary => Some(LINE_BUFFER_LINE),
        ClipCause::VirtualBoundary => Some(VIRTUAL_LINE),
        ClipCause::Tile => Some(TILE_LINE),
        ClipCause::Slice => Some(SLICE_LINE),
        ClipCause::Subpicture => Some(SUBPICTURE_LINE),
    }
}

/// The colour of what closes a sample's sides; where several do, stripes take turns.
fn closed_colour(causes: ClipCauses, stripe: usize) -> Option<[u8; 3]> {
    let colours: Vec<[u8; 3]> = causes.sides().into_iter().filter_map(cause_colour).collect();
    (!colours.is_empty()).then(|| colours[stripe % colours.len()])
}

/// What closes the sides of each sample, drawn over a dark luma, with the names of the colours below.
pub fn causes(causes: &Causes, luma: &[u16]) -> Image {
    const STRIPE: usize = 3;
    const ROOM: usize = 32;
    let high = HEIGHT * MAP_ZOOM;
    let mut image = Image::new(WIDTH * MAP_ZOOM, high + ROOM, |x, y| {
        if y >= high {
            return [0; 3];
        }
        let stripe = (x + y) / STRIPE;
        let (x, y) = (x / MAP_ZOOM, y / MAP_ZOOM);
        let dark = (u32::from(luma[y * WIDTH + x]) / 10) as u8;
        closed_colour(causes.at(x, y), stripe).map_or([dark; 3], |colour| colour.map(|v| v / 8 * 7 + dark / 4))
    });
    legend(&mut image, high, ROOM);
    image
}

/// A line of swatches with the causes' names.
fn legend(image: &mut Image, top: usize, room: usize) {
    const ZOOM: usize = 2;
    const GAP: usize = 8;
    let side = text::height(ZOOM);
    let top = top + (room - side) / 2;
    let mut left = GAP;
    for (cause, colour) in ClipCause::ALL.iter().filter_map(|cause| Some((cause, cause_colour(*cause)?))) {
        for (x, y) in (0..side).flat_map(|y| (0..side).map(move |x| (x, y))) {
            image.set(left + x, top + y, colour);
        }
        text::draw(image, (left + side + GAP, top), ZOOM, [255; 3], cause.name());
        left += side + text::width(cause.name(), ZOOM) + 3 * GAP;
    }
}

#[cfg(test)]
mod tests {
    use super::rgb;

    #[test]
    fn video_range_maps_to_black_and_white() {
        assert_eq!(rgb(64, 512, 512), [0; 3]);
        assert_eq!(rgb(940, 512, 512), [255; 3]);
        assert_eq!(rgb(0, 512, 512), [0; 3]);
    }
}
