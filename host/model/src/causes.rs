//! What closes the sides of a luma sample (02, card 1).

use crate::edges::{edges, Clip};
use crate::judge::{judge, Given};
use crate::layout::Layout;

/// Writes the number of what closes the top, the bottom, the left and the right of the
/// luma sample at ( x, y ) of the picture, 0 where a side is open.
pub fn clip_causes(layout: &Layout, x: u32, y: u32, causes: &mut [u8]) -> u8 {
    let number = judge(
        layout,
        &Given {
            position: Some((x, y)),
            causes: Some(causes.len()),
            ..Given::default()
        },
    );
    if number == 0 {
        causes.copy_from_slice(&causes_at(layout, i64::from(x), i64::from(y)));
    }
    number
}

/// The numbers of the four edges of a sample, those that every filter pads by.
fn causes_at(layout: &Layout, x: i64, y: i64) -> [u8; 4] {
    let ctb = layout.covering(x, y);
    let (x_ctb, y_ctb) = layout.origin(ctb);
    let found = edges(layout, ctb, x - x_ctb, y - y_ctb);
    let number = |clip: Option<Clip>| clip.map_or(0, |clip| clip.cause as u8);
    [found.clip_top, found.clip_bottom, found.clip_left, found.clip_right].map(number)
}
