//! Inputs that the library rejects, with a look at their output: it keeps what stood in it.
use crate::filter::{Filter, Setup};
use crate::layout::VIRTUAL_COLUMNS;
use crate::planes::MAXIMUM;
use raspbegonia::{Fault, Picture};

/// What was tried, the answer, and whether the output kept what stood in it.
pub struct Rejection {
    pub what: String,
    pub answer: Result<(), Fault>,
    pub untouched: bool,
}

/// Runs the luma filter into an output that holds a pattern, and looks at both after.
fn attempt(setup: Setup, what: String, picture: &Picture, ctb_params: &[u8], luma: &[u16]) -> Rejection {
    let pattern: Vec<u16> = (0..luma.len()).map(|k| k as u16 ^ 0x5a5a).collect();
    let mut output = pattern.clone();
    let answer = setup.filter_into(picture, Filter::Luma, ctb_params, luma, luma, &mut output);
    Rejection {
        what,
        answer,
        untouched: output == pattern,
    }
}

/// A virtual column where none may be, and a sample that ten bits do not hold.
pub fn attempts(setup: Setup, ctb_params: &[u8], luma: &[u16]) -> [Rejection; 2] {
    let columns = [VIRTUAL_COLUMNS[0] - 4, VIRTUAL_COLUMNS[1]];
    let picture = Picture {
        virtual_columns: &columns,
        ..setup.picture()
    };
    let column = attempt(setup, format!("a virtual column at {}", columns[0]), &picture, ctb_params, luma);
    let mut too_large = luma.to_vec();
    too_large[luma.len() / 2] = MAXIMUM + 1;
    let sample = attempt(
        setup,
        format!("a sample of {}", MAXIMUM + 1),
        &setup.picture(),
        ctb_params,
        &too_large,
    );
    [column, sample]
}
