//! A few small letters, for legends.
use crate::png::Image;

/// A letter's width and height with the gap to the next, before it is enlarged.
const WIDTH: usize = 6;
const HEIGHT: usize = 9;

/// Nine rows of five pixels, the leftmost in the highest bit: two for tall letters, five for all, two below the line.
type Glyph = [u8; HEIGHT];

#[rustfmt::skip]
const GLYPHS: [(char, Glyph); 23] = [
    (' ', [0, 0, 0, 0, 0, 0, 0, 0, 0]),
    ('-', [0, 0, 0, 0, 0b01110, 0, 0, 0, 0]),
    ('0', [0b01110, 0b10001, 0b10011, 0b10101, 0b11001, 0b10001, 0b01110, 0, 0]),
    ('2', [0b01110, 0b10001, 0b00001, 0b00110, 0b01000, 0b10000, 0b11111, 0, 0]),
    ('4', [0b00010, 0b00110, 0b01010, 0b10010, 0b11111, 0b00010, 0b00010, 0, 0]),
    (':', [0, 0, 0b00100, 0, 0, 0, 0b00100, 0, 0]),
    ('a', [0, 0, 0b01110, 0b00001, 0b01111, 0b10001, 0b01111, 0, 0]),
    ('b', [0b10000, 0b10000, 0b11110, 0b10001, 0b10001, 0b10001, 0b11110, 0, 0]),
    ('c', [0, 0, 0b01110, 0b10000, 0b10000, 0b10000, 0b01110, 0, 0]),
    ('d', [0b00001, 0b00001, 0b01111, 0b10001, 0b10001, 0b10001, 0b01111, 0, 0]),
    ('e', [0, 0, 0b01110, 0b10001, 0b11111, 0b10000, 0b01110, 0, 0]),
    ('f', [0b00110, 0b01000, 0b11110, 0b01000, 0b01000, 0b01000, 0b01000, 0, 0]),
    ('i', [0b00100, 0, 0b01100, 0b00100, 0b00100, 0b00100, 0b01110, 0, 0]),
    ('l', [0b01100, 0b00100, 0b00100, 0b00100, 0b00100, 0b00100, 0b01110, 0, 0]),
    ('n', [0, 0, 0b11110, 0b10001, 0b10001, 0b10001, 0b10001, 0, 0]),
    ('o', [0, 0, 0b01110, 0b10001, 0b10001, 0b10001, 0b01110, 0, 0]),
    ('p', [0, 0, 0b11110, 0b10001, 0b10001, 0b10001, 0b11110, 0b10000, 0b10000]),
    ('r', [0, 0, 0b10110, 0b11000, 0b10000, 0b10000, 0b10000, 0, 0]),
    ('s', [0, 0, 0b01111, 0b10000, 0b01110, 0b00001, 0b11110, 0, 0]),
    ('t', [0b01000, 0b01000, 0b11110, 0b01000, 0b01000, 0b01000, 0b00110, 0, 0]),
    ('u', [0, 0, 0b10001, 0b10001, 0b10001, 0b10001, 0b01111, 0, 0]),
    ('v', [0, 0, 0b10001, 0b10001, 0b10001, 0b01010, 0b00100, 0, 0]),
    ('y', [0, 0, 0b10001, 0b10001, 0b10001, 0b10001, 0b01111, 0b00001, 0b01110]),
];

fn glyph(letter: char) -> Option<Glyph> {
    GLYPHS.iter().find(|(each, _)| *each == letter).map(|(_, rows)| *rows)
}

/// How many pixels wide a text is.
pub fn width(text: &str, zoom: usize) -> usize {
    text.chars().count() * WIDTH * zoom
}

/// How many pixels high a line of text is.
pub fn height(zoom: usize) -> usize {
    HEIGHT * zoom
}

/// Draws a text with its upper left corner at a place. Letters without a glyph leave a gap.
pub fn draw(image: &mut Image, (left, top): (usize, usize), zoom: usize, colour: [u8; 3], text: &str) {
    for (k, letter) in text.chars().enumerate() {
        let rows = glyph(letter).unwrap_or_default();
        let lit = |x: usize, y: usize| rows[y] >> (WIDTH - 2 - x) & 1 == 1;
        for (x, y) in (0..HEIGHT * zoom).flat_map(|y| (0..(WIDTH - 1) * zoom).map(move |x| (x, y))) {
            if lit(x / zoom, y / zoom) {
                image.set(left + k * WIDTH * zoom + x, top + y, colour);
            }
        }
    }
}

/// Writes a name into a corner of a picture, white on a dark ground.
pub fn label(image: &mut Image, (left, top): (usize, usize), text: &str) {
    const ZOOM: usize = 2;
    const MARGIN: usize = 4;
    let (wide, high) = (width(text, ZOOM) + 2 * MARGIN, height(ZOOM) + 2 * MARGIN);
    for (x, y) in (0..high).flat_map(|y| (0..wide).map(move |x| (x, y))) {
        image.set(left + x, top + y, [0; 3]);
    }
    draw(image, (left + MARGIN, top + MARGIN), ZOOM, [255; 3], text);
}

#[cfg(test)]
mod tests {
    use super::glyph;
    use crate::closeup::STAGES;
    use crate::format::Format;
    use raspbegonia::ClipCause;

    #[test]
    fn every_name_can_be_written() {
        let missing = |name: &&str| name.chars().any(|letter| glyph(letter).is_none());
        let formats = [Format::Yuv420, Format::Yuv444].map(Format::name);
        let mut names = ClipCause::ALL.map(ClipCause::name).into_iter().chain(formats).chain(STAGES);
        assert_eq!(names.find(missing), None);
    }
}
