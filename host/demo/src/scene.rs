//! The built-in picture: an ice edge seen from above. Pack ice with leads (cracks of open water) and melt ponds lies at the upper left;
//! towards the dark water it breaks up into floes.
//!
//! Every number comes from integer hashes and from +, -, *, / and square root on f64, which give the same bits on every machine.
use crate::format::Format;
use crate::planes::{Planes, CB, CR, HEIGHT, WIDTH, Y};

/// A colour of a point: luma, Cb and Cr, on the scale of ten bits.
type Colour = [f64; 3];

const WATER: Colour = [165.0, 566.0, 466.0];
const GREASE_ICE: Colour = [290.0, 552.0, 480.0];
const POND: Colour = [590.0, 578.0, 432.0];
const ICE: Colour = [800.0, 524.0, 500.0];

/// A number that looks random, from a place and a seed.
pub fn hash(x: i64, y: i64, seed: u32) -> u32 {
    let mut h = (x as u32).wrapping_mul(0x8da6_b343) ^ (y as u32).wrapping_mul(0xd816_3841) ^ seed.wrapping_mul(0xcb1a_b31f);
    h = (h ^ (h >> 15)).wrapping_mul(0x2c1b_3c6d);
    h = (h ^ (h >> 12)).wrapping_mul(0x297a_2d39);
    h ^ (h >> 15)
}

/// The same, from 0 to below 1.
fn random(x: i64, y: i64, seed: u32) -> f64 {
    f64::from(hash(x, y, seed)) / 4_294_967_296.0
}

/// 0 up to `from`, 1 beyond `to`, and an S-shaped rise between them.
fn rise(from: f64, to: f64, value: f64) -> f64 {
    let t = ((value - from) / (to - from)).clamp(0.0, 1.0);
    t * t * (3.0 - 2.0 * t)
}

fn mix(a: f64, b: f64, t: f64) -> f64 {
    a + (b - a) * t
}

fn mix_colours(a: Colour, b: Colour, t: f64) -> Colour {
    [mix(a[Y], b[Y], t), mix(a[CB], b[CB], t), mix(a[CR], b[CR], t)]
}

/// Noise from -1 to 1: random numbers at whole places, smooth between them.
fn noise(x: f64, y: f64, seed: u32) -> f64 {
    let (column, row) = (x.floor(), y.floor());
    let (across, down) = (rise(0.0, 1.0, x - column), rise(0.0, 1.0, y - row));
    let at = |dx: i64, dy: i64| random(column as i64 + dx, row as i64 + dy, seed);
    2.0 * mix(mix(at(0, 0), at(1, 0), across), mix(at(0, 1), at(1, 1), across), down) - 1.0
}

/// Noise with details: each layer is twice as fine and half as strong as the one before.
fn fractal(x: f64, y: f64, seed: u32, layers: u32) -> f64 {
    let (mut sum, mut scale, mut weight) = (0.0, 1.0, 0.5);
    for layer in 0..layers {
        sum += weight * noise(x * scale, y * scale, seed + layer);
        scale *= 2.0;
        weight *= 0.5;
    }
    sum
}

/// A cell of an irregular honeycomb, seen from a point in it.
struct Cell {
    column: i64,
    row: i64,
    x: f64,
    y: f64,
    /// How far the point lies from the cell's border.
    border: f64,
}

/// The cell whose centre is nearest; centres are one in each square of a grid, at a random place in it.
fn cell_at(x: f64, y: f64, side: f64, seed: u32) -> Cell {
    let (column, row) = ((x / side).floor() as i64, (y / side).floor() as i64);
    let (mut near, mut second) = ((f64::MAX, 0, 0, 0.0, 0.0), (f64::MAX, 0, 0, 0.0, 0.0));
    for r in row - 2..=row + 2 {
        for c in column - 2..=column + 2 {
            let cx = (c as f64 + 0.15 + 0.7 * random(c, r, seed)) * side;
            let cy = (r as f64 + 0.15 + 0.7 * random(c, r, seed + 1)) * side;
            let centre = (squared(x - cx, y - cy), c, r, cx, cy);
            if centre.0 < near.0 {
                (near, second) = (centre, near);
            } else if centre.0 < second.0 {
                second = centre;
            }
        }
    }
    let apart = squared(near.3 - second.3, near.4 - second.4).sqrt();
    Cell {
        column: near.1,
        row: near.2,
        x: near.3,
        y: near.4,
        border: (second.0 - near.0) / (2.0 * apart),
    }
}

fn squared(x: f64, y: f64) -> f64 {
    x * x + y * y
}

/// How far a point lies from the ice edge, positive on the side of the ice.
fn into_ice(x: f64, y: f64) -> f64 {
    150.0 - 0.5 * (x - 185.0) - 0.866 * (y - 60.0) + 60.0 * fractal(x / 110.0, y / 110.0, 11, 3)
}

/// Open water: streaks along the wind, and grease ice, a grey slick, near the edge.
fn water(x: f64, y: f64) -> Colour {
    let streaks = 60.0 * fractal((x + 0.6 * y) / 70.0, (y - 0.6 * x) / 14.0, 31, 3);
    let slick = rise(-130.0, 10.0, into_ice(x, y)) * rise(-0.1, 0.5, fractal((x + 0.4 * y) / 34.0, (y - 0.4 * x) / 15.0, 41, 3));
    let mut colour = mix_colours(WATER, GREASE_ICE, slick);
    colour[Y] += streaks;
    colour
}

/// A point of ice; `shade`, from 0 to 1, is the whole plate's or floe's.
fn ice(x: f64, y: f64, shade: f64) -> Colour {
    let ponds = rise(0.26, 0.34, fractal(x / 30.0, y / 24.0, 51, 3)) * rise(10.0, 60.0, into_ice(x, y));
    let ridge = rise(0.9, 1.0, 1.0 - noise(x / 46.0, y / 46.0, 61).abs());
    let mut colour = mix_colours(ICE, POND, ponds);
    colour[Y] += 70.0 * (shade - 0.5) + 50.0 * fractal(x / 13.0, y / 13.0, 71, 3) + 60.0 * ridge * (1.0 - ponds);
    colour
}

/// How much of a plate of the pack is there at a point: 0 in a lead, 1 on the ice; and the plate's shade.
fn plate(x: f64, y: f64) -> (f64, f64) {
    let (wx, wy) = (
        x + 14.0 * fractal(x / 26.0, y / 26.0, 81, 3),
        y + 14.0 * fractal(x / 26.0, y / 26.0, 91, 3),
    );
    let cell = cell_at(wx, wy, 84.0, 101);
    let width = 3.2 * rise(-0.25, 0.45, fractal(x / 60.0, y / 60.0, 111, 2));
    (rise(width - 0.4, width + 0.4, cell.border), random(cell.column, cell.row, 121))
}

/// The same for a floe: fewer and farther apart the farther out they drift.
fn floe(x: f64, y: f64) -> (f64, f64) {
    let (wx, wy) = (
        x + 7.0 * fractal(x / 12.0, y / 12.0, 131, 2),
        y + 7.0 * fractal(x / 12.0, y / 12.0, 141, 2),
    );
    let cell = cell_at(wx, wy, 24.0, 151);
    let crowd = rise(-150.0, 25.0, into_ice(cell.x, cell.y));
    let gap = 4.5 - 3.6 * crowd;
    let there = random(cell.column, cell.row, 161) < crowd;
    (
        if there { rise(gap - 0.4, gap + 0.4, cell.border) } else { 0.0 },
        random(cell.column, cell.row, 171),
    )
}

/// The colour of a point of the scene.
fn colour(x: f64, y: f64) -> Colour {
    let pack = into_ice(x, y) + 12.0 * fractal(x / 10.0, y / 10.0, 181, 2) > 22.0;
    let (cover, shade) = if pack { plate(x, y) } else { floe(x, y) };
    mix_colours(water(x, y), ice(x, y, shade), cover)
}

/// The scene as it is, before any coding: of each component the mean of the four points that a luma sample has.
pub struct Scene([Vec<f64>; 3]);

impl Scene {
    pub fn new() -> Scene {
        let mut means = [Y, CB, CR].map(|_| vec![0.0; WIDTH * HEIGHT]);
        for y in 0..2 * HEIGHT {
            for x in 0..2 * WIDTH {
                let point = colour((x as f64 + 0.5) / 2.0, (y as f64 + 0.5) / 2.0);
                for component in [Y, CB, CR] {
                    means[component][y / 2 * WIDTH + x / 2] += point[component] / 4.0;
                }
            }
        }
        Scene(means)
    }

    /// The scene in a chroma format: a chroma sample is the mean over the luma samples that it spans.
    pub fn planes(&self, format: Format) -> Planes {
        [Y, CB, CR].map(|component| {
            let (width, height) = format.size(component);
            let (across, down) = format.ratio(component);
            let mut means = vec![0.0; width * height];
            for (k, value) in self.0[component].iter().enumerate() {
                means[format.place(component, k % WIDTH, k / WIDTH)] += value / (across * down) as f64;
            }
            // Video range: the levels that a picture in ten bits keeps to.
            means.iter().map(|v| (v + 0.5).floor().clamp(64.0, 940.0) as u16).collect()
        })
    }
}
