//! Clip positions round a sample, their causes, and the padding of its neighbours (8.8.5.5 and 8.8.5.6).

use crate::layout::{Ctb, Layout, Plane};

/// What closes a side (02, card 1), by its number; 0 is a side without a clip position.
#[derive(Clone, Copy, Debug, PartialEq, Eq)]
pub(crate) enum ClipCause {
    LineBufferBoundary = 1,
    VirtualBoundary = 2,
    Tile = 3,
    Slice = 4,
    Subpicture = 5,
}

/// A clip position in the picture, and what put it there.
#[derive(Clone, Copy, Debug, PartialEq, Eq)]
pub(crate) struct Clip {
    pub position: i64,
    pub cause: ClipCause,
}

/// The clip positions of 8.8.5.5 (01: edges). An absent one is the clause's −128.
#[derive(Clone, Copy, Debug, PartialEq, Eq)]
pub(crate) struct Edges {
    pub clip_top: Option<Clip>,
    pub clip_bottom: Option<Clip>,
    pub clip_left: Option<Clip>,
    pub clip_right: Option<Clip>,
    pub clip_top_left_flag: bool,
    pub clip_bot_right_flag: bool,
}

/// Clip3 of the standard.
pub(crate) fn clip3(low: i64, high: i64, value: i64) -> i64 {
    if value < low {
        low
    } else if value > high {
        high
    } else {
        value
    }
}

/// applyAlfLineBufBoundary. 01: on when all S rows of the CTB lie in the picture.
pub(crate) fn line_rule(layout: &Layout, ctb: Ctb) -> bool {
    let (_, y_ctb) = layout.origin(ctb);
    y_ctb + layout.ctb_size() <= i64::from(layout.height)
}

/// 01: closed. Filtering across a CTB's side is disabled where tile, slice or
/// subpicture changes across it and the flag for that is 0; a subpicture's flag is
/// that of the CTB itself. The picture boundary is not closed: no CTB lies beyond.
/// Where several of the three do it, 02 has the tile count before the slice and the
/// slice before the subpicture.
pub(crate) fn closed_by(layout: &Layout, ctb: Ctb, columns: i64, rows: i64) -> Option<ClipCause> {
    let across = layout.beside(ctb, columns, rows)?;
    let own_flag = layout.subpic_across[usize::from(layout.subpic(ctb))];
    if layout.tile(ctb) != layout.tile(across) && !layout.across_tiles {
        return Some(ClipCause::Tile);
    }
    if layout.slice(ctb) != layout.slice(across) && !layout.across_slices {
        return Some(ClipCause::Slice);
    }
    (layout.subpic(ctb) != layout.subpic(across) && own_flag == 0).then_some(ClipCause::Subpicture)
}

/// 8.8.5.5 for the luma position ( x, y ) inside the CTB, wherever luma is filtered,
/// classified or read: scaleHeight is 2, which puts the line-buffer boundary 4 rows up.
pub(crate) fn edges(layout: &Layout, ctb: Ctb, x: i64, y: i64) -> Edges {
    edges_by_line(layout, ctb, (x, y), layout.ctb_size() - 4)
}

/// The same for the chroma filter's sample at ( x, y ) inside the chroma CTB: clip
/// positions are those of its luma position, but scaleHeight is SubHeightC, which puts
/// the line-buffer boundary 2 chroma rows up.
pub(crate) fn chroma_edges(layout: &Layout, ctb: Ctb, x: i64, y: i64) -> Edges {
    let sub = layout.chroma_cell();
    let line = layout.ctb_size() - 2 * sub.height;
    edges_by_line(layout, ctb, (x * sub.width, y * sub.height), line)
}

/// 8.8.5.5 with the line-buffer boundary at a luma row inside the CTB.
fn edges_by_line(layout: &Layout, ctb: Ctb, (x, y): (i64, i64), line: i64) -> Edges {
    Edges {
        clip_top: clip_top(layout, ctb, y, line),
        clip_bottom: clip_bottom(layout, ctb, y, line),
        clip_left: clip_left(layout, ctb, x),
        clip_right: clip_right(layout, ctb, x),
        clip_top_left_flag: other_slice_cut(layout, ctb, -1, -1),
        clip_bot_right_flag: other_slice_cut(layout, ctb, 1, 1),
    }
}

/// clipTopPos, (1511): the first of the line-buffer boundary, a virtual boundary, the CTB's closed top.
fn clip_top(layout: &Layout, ctb: Ctb, y: i64, line: i64) -> Option<Clip> {
    let (_, y_ctb) = layout.origin(ctb);
    clip_at(y >= line, y_ctb + line, ClipCause::LineBufferBoundary)
        .or_else(|| boundary_before(layout.virtual_rows, y_ctb + y))
        .or_else(|| clip_side(y < 3, y_ctb, closed_by(layout, ctb, 0, -1)))
}

/// clipBottomPos, (1512): the first of a virtual boundary, the line-buffer boundary, the CTB's closed bottom.
fn clip_bottom(layout: &Layout, ctb: Ctb, y: i64, line: i64) -> Option<Clip> {
    let (_, y_ctb) = layout.origin(ctb);
    let size = layout.ctb_size();
    boundary_after(layout.virtual_rows, y_ctb + y)
        .or_else(|| clip_at((1..=4).contains(&(line - y)), y_ctb + line, ClipCause::LineBufferBoundary))
        .or_else(|| clip_side(size - y < 5, y_ctb + size, closed_by(layout, ctb, 0, 1)))
}

/// clipLeftPos, (1513): a virtual boundary, else the CTB's closed left side.
fn clip_left(layout: &Layout, ctb: Ctb, x: i64) -> Option<Clip> {
    let (x_ctb, _) = layout.origin(ctb);
    boundary_before(layout.virtual_columns, x_ctb + x).or_else(|| clip_side(x < 3, x_ctb, closed_by(layout, ctb, -1, 0)))
}

/// clipRightPos, (1514): a virtual boundary, else the CTB's closed right side.
fn clip_right(layout: &Layout, ctb: Ctb, x: i64) -> Option<Clip> {
    let (x_ctb, _) = layout.origin(ctb);
    let size = layout.ctb_size();
    boundary_after(layout.virtual_columns, x_ctb + x).or_else(|| clip_side(size - x < 5, x_ctb + size, closed_by(layout, ctb, 1, 0)))
}

/// A clip position where a test holds.
fn clip_at(holds: bool, position: i64, cause: ClipCause) -> Option<Clip> {
    holds.then_some(Clip { position, cause })
}

/// A CTB's side as a clip position, where the sample is near to it and something closes it.
fn clip_side(near: bool, position: i64, closed_by: Option<ClipCause>) -> Option<Clip> {
    closed_by.and_then(|cause| clip_at(near, position, cause))
}

/// A virtual boundary at a picture position or 1 or 2 before it.
fn boundary_before(boundaries: &[u16], position: i64) -> Option<Clip> {
    boundary(boundaries, |boundary| (0..=2).contains(&(position - boundary)))
}

/// A virtual boundary 1 to 4 after a picture position.
fn boundary_after(boundaries: &[u16], position: i64) -> Option<Clip> {
    boundary(boundaries, |boundary| (1..=4).contains(&(boundary - position)))
}

/// The first virtual boundary that is near in the sense given.
fn boundary(boundaries: &[u16], near: impl Fn(i64) -> bool) -> Option<Clip> {
    let position = boundaries
        .iter()
        .map(|&boundary| i64::from(boundary))
        .find(|&boundary| near(boundary))?;
    clip_at(true, position, ClipCause::VirtualBoundary)
}

/// clipTopLeftFlag and clipBotRightFlag: the diagonal CTB is there and of another
/// slice, and filtering across slices is disabled.
fn other_slice_cut(layout: &Layout, ctb: Ctb, columns: i64, rows: i64) -> bool {
    let Some(diagonal) = layout.beside(ctb, columns, rows) else {
        return false;
    };
    !layout.across_slices && layout.slice(ctb) != layout.slice(diagonal)
}

/// Where a neighbour at ( x, y ) of the plane is read. The neighbour is clamped to
/// the plane, as in (1464) and (1465), then goes through 8.8.5.6.
pub(crate) fn padded(layout: &Layout, plane: &Plane, ctb: Ctb, edges: &Edges, (x, y): (i64, i64)) -> (i64, i64) {
    let x = clip3(0, plane.width - 1, x);
    let y = clip3(0, plane.height - 1, y);
    let rows = (edges.clip_top, edges.clip_bottom);
    let columns = (edges.clip_left, edges.clip_right);
    let y = clip_to(rows, plane.cell.height, plane.height, y);
    let x = clip_to(columns, plane.cell.width, plane.width, x);
    (corner_column(layout, plane, ctb, edges, x, y), y)
}

/// (1521) to (1528) in one direction: clip positions are divided by the plane's ratio in
/// that direction, then applied.
fn clip_to((before, after): (Option<Clip>, Option<Clip>), ratio: i64, size: i64, position: i64) -> i64 {
    let mut position = position;
    if let Some(clip) = before {
        position = clip3(clip.position / ratio, size - 1, position);
    }
    if let Some(clip) = after {
        position = clip3(0, clip.position / ratio - 1, position);
    }
    position
}

/// The end of 8.8.5.6: a neighbour past the upper left or lower right corner moves
/// to the CTB's first or last column. Its row stays.
fn corner_column(layout: &Layout, plane: &Plane, ctb: Ctb, edges: &Edges, x: i64, y: i64) -> i64 {
    let (first_column, first_row) = plane.origin(layout, ctb);
    let (columns, rows) = plane.ctb_sizes(layout);
    let last_column = first_column + columns - 1;
    let last_row = first_row + rows - 1;
    let open_top_left = edges.clip_top.is_none() && edges.clip_left.is_none();
    let open_bot_right = edges.clip_bottom.is_none() && edges.clip_right.is_none();
    if edges.clip_top_left_flag && open_top_left && x < first_column && y < first_row {
        return first_column;
    }
    if edges.clip_bot_right_flag && open_bot_right && x > last_column && y > last_row {
        return last_column;
    }
    x
}
