//! What closes the sides of the picture's samples.
use crate::planes::{HEIGHT, WIDTH};
use raspbegonia::{ClipCause, ClipCauses, Fault, Picture};

/// The answer for every luma sample, row by row.
pub struct Causes(Vec<ClipCauses>);

/// Neighbouring columns that have the same on both sides of an edge between two rows: what closes the bottom of the upper row and the
/// top of the lower one. The two differ where only one of two subpictures is closed.
pub struct Run {
    pub first: usize,
    pub last: usize,
    pub upper: ClipCause,
    pub lower: ClipCause,
}

impl Causes {
    /// Asks about every sample.
    pub fn of(picture: &Picture) -> Result<Causes, Fault> {
        let ask = |k: usize| raspbegonia::clip_causes(picture, (k % WIDTH) as u32, (k / WIDTH) as u32);
        (0..WIDTH * HEIGHT).map(ask).collect::<Result<_, _>>().map(Causes)
    }

    pub fn at(&self, x: usize, y: usize) -> ClipCauses {
        self.0[y * WIDTH + x]
    }

    /// What closes the edge above a row, by columns. The row has to be a multiple of 4, as all clip positions are: then a closed bottom
    /// of the row above and a closed top of this one are closed here, and not some rows farther on.
    pub fn along(&self, row: usize) -> Vec<Run> {
        assert_eq!(row % 4, 0, "no clip position lies above row {row}");
        let mut runs: Vec<Run> = Vec::new();
        for x in 0..WIDTH {
            let (upper, lower) = (self.at(x, row - 1).bottom, self.at(x, row).top);
            match runs.last_mut() {
                Some(run) if (run.upper, run.lower) == (upper, lower) => run.last = x,
                _ => runs.push(Run {
                    first: x,
                    last: x,
                    upper,
                    lower,
                }),
            }
        }
        runs
    }
}

#[cfg(test)]
mod tests {
    use super::*;

    #[test]
    fn columns_are_joined_where_both_rows_have_the_same() {
        let open = ClipCauses {
            top: ClipCause::Open,
            bottom: ClipCause::Open,
            left: ClipCause::Open,
            right: ClipCause::Open,
        };
        let mut causes = Causes(vec![open; WIDTH * HEIGHT]);
        causes.0[7 * WIDTH + 100..8 * WIDTH].fill(ClipCauses {
            bottom: ClipCause::Subpicture,
            ..open
        });
        let runs = causes.along(8);
        let found: Vec<_> = runs.iter().map(|run| (run.first, run.last, run.upper, run.lower)).collect();
        let (none, closed) = (ClipCause::Open, ClipCause::Subpicture);
        assert_eq!(found, [(0, 99, none, none), (100, WIDTH - 1, closed, none)]);
    }
}
