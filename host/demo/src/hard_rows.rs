//! Where the difference picture has hard rows: they show an edge that the filters do not reach across.
use crate::filtered::Filtered;
use crate::format::Format;
use crate::layout::CTB;
use crate::planes::{Change, CB, CR, Y};

/// An edge in the difference of a component: `row`, of the component's plane, is the row below it. Changes are means over the rows beside
/// the edge and the rows next to those.
pub struct HardRow {
    pub component: usize,
    pub format: Format,
    pub row: usize,
    pub beside: f64,
    pub around: f64,
}

impl HardRow {
    /// How many rows of the plane lie from the edge to the end of the CTB.
    pub fn to_ctb_end(&self) -> usize {
        let rows = CTB / self.format.ratio(self.component).1;
        rows - self.row % rows
    }
}

/// The row, of those that a clip position can lie above, at which the change falls most: what lies beside the edge was changed less
/// than what lies next to it, so the difference picture has a hard stripe there.
fn hardest(component: usize, format: Format, before: &[u16], after: &[u16]) -> HardRow {
    let (width, height) = format.size(component);
    // The line-buffer boundary lies four luma rows or two chroma rows above a CTB's end, the others at multiples of 8 luma rows.
    let step = if component == Y { 4 } else { 2 };
    let change = |row: usize| Change::between(&before[row * width..][..width], &after[row * width..][..width]).mean();
    let mean = |rows: [usize; 2]| rows.map(change).iter().sum::<f64>() / 2.0;
    let rows = (4..height - 2).step_by(step).map(|row| HardRow {
        component,
        format,
        row,
        beside: mean([row - 1, row]),
        around: (mean([row - 3, row - 2]) + mean([row + 1, row + 2])) / 2.0,
    });
    let fall = |hard: &HardRow| hard.around - hard.beside;
    rows.max_by(|a, b| fall(a).total_cmp(&fall(b)))
        .expect("the picture has more than four rows")
}

/// Of luma, which is the same in both formats, and of chroma in each. What the cross-component filter adds is left out: it has luma's
/// edges.
pub fn all(formats: [&Filtered; 2]) -> Vec<HardRow> {
    let half = formats[0];
    let luma = hardest(Y, half.format, &half.before[Y], &half.outputs.planes[Y]);
    let chroma =
        formats.map(|f| [(CB, 0), (CR, 1)].map(|(component, k)| hardest(component, f.format, &f.before[component], &f.outputs.chroma[k])));
    std::iter::once(luma).chain(chroma.into_iter().flatten()).collect()
}

#[cfg(test)]
mod tests {
    use super::*;
    use crate::planes::{HEIGHT, WIDTH};

    /// Stripes of two rows that changed less than the rest, and how much they did.
    fn hardest_of(component: usize, stripes: [(usize, u16); 2]) -> HardRow {
        let change = |row: usize| {
            stripes
                .iter()
                .find(|(edge, _)| row == edge - 1 || row == *edge)
                .map_or(8, |stripe| stripe.1)
        };
        let after: Vec<u16> = (0..WIDTH * HEIGHT).map(|k| change(k / WIDTH)).collect();
        hardest(component, Format::Yuv444, &vec![0; WIDTH * HEIGHT], &after)
    }

    #[test]
    fn the_row_with_the_deepest_stripe_is_hardest() {
        let hard = hardest_of(Y, [(100, 1), (200, 4)]);
        assert_eq!((hard.row, hard.beside, hard.around), (100, 1.0, 8.0));
        assert_eq!(hard.to_ctb_end(), 28);
    }

    #[test]
    fn chroma_has_clip_positions_where_luma_has_none() {
        assert_eq!(hardest_of(CB, [(62, 1), (200, 4)]).to_ctb_end(), 2);
        assert_eq!(hardest_of(Y, [(62, 1), (200, 4)]).row, 200);
    }
}
