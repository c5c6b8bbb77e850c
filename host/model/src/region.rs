//! The test whether a region is isolated (01, "Edges and padding", on steps).

use crate::edges::closed_by;
use crate::judge::{judge, Given};
use crate::layout::Layout;

/// Writes 1 where no open step leads out of the region, else 0.
pub fn isolated(layout: &Layout, region: &[u8], isolated: &mut u8) -> u8 {
    let number = judge(
        layout,
        &Given {
            region: Some(region),
            ..Given::default()
        },
    );
    if number == 0 {
        *isolated = u8::from(isolated_region(layout, region));
    }
    number
}

/// 01: shut. No sample inside has an open step to one outside.
fn isolated_region(layout: &Layout, region: &[u8]) -> bool {
    for y in 0..i64::from(layout.height) {
        for x in 0..i64::from(layout.width) {
            if inside(layout, region, x, y) && leaks(layout, region, x, y) {
                return false;
            }
        }
    }
    true
}

/// A sample is inside when its 8 by 8 block is marked.
fn inside(layout: &Layout, region: &[u8], x: i64, y: i64) -> bool {
    region[((y / 8) * (i64::from(layout.width) / 8) + x / 8) as usize] == 1
}

fn in_picture(layout: &Layout, x: i64, y: i64) -> bool {
    (0..i64::from(layout.width)).contains(&x) && (0..i64::from(layout.height)).contains(&y)
}

/// True where one of the eight steps from a sample is open and ends outside the region.
fn leaks(layout: &Layout, region: &[u8], x: i64, y: i64) -> bool {
    for dy in -1..=1 {
        for dx in -1..=1 {
            let (to_x, to_y) = (x + dx, y + dy);
            if in_picture(layout, to_x, to_y) && !inside(layout, region, to_x, to_y) && !step_closed(layout, (x, y), dx, dy) {
                return true;
            }
        }
    }
    false
}

/// Whether a step is closed: a side step, or a diagonal one with its two side steps from
/// the same sample.
pub(crate) fn step_closed(layout: &Layout, from: (i64, i64), dx: i64, dy: i64) -> bool {
    if dx == 0 || dy == 0 {
        return side_step_closed(layout, from, dx, dy);
    }
    side_step_closed(layout, from, dx, 0) || side_step_closed(layout, from, 0, dy) || (dx == dy && into_other_slice(layout, from, dx, dy))
}

/// Closed on a virtual boundary and across a closed side.
fn side_step_closed(layout: &Layout, (x, y): (i64, i64), dx: i64, dy: i64) -> bool {
    let on_column = dx != 0 && holds(layout.virtual_columns, x.max(x + dx));
    let on_row = dy != 0 && holds(layout.virtual_rows, y.max(y + dy));
    let from = layout.covering(x, y);
    let to = layout.covering(x + dx, y + dy);
    on_column || on_row || (from != to && closed_by(layout, from, dx, dy).is_some())
}

/// A virtual boundary lies between its own position and the one before.
fn holds(boundaries: &[u16], position: i64) -> bool {
    boundaries.iter().any(|&boundary| i64::from(boundary) == position)
}

/// The step ends in another slice and filtering across slices is disabled.
fn into_other_slice(layout: &Layout, (x, y): (i64, i64), dx: i64, dy: i64) -> bool {
    let from = layout.slice(layout.covering(x, y));
    let to = layout.slice(layout.covering(x + dx, y + dy));
    !layout.across_slices && from != to
}
