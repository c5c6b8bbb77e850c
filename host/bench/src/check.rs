//! Small pictures through all sides, without timing: are the outputs equal?
use crate::case::{Case, Ctbs};
use crate::format::Format;
use crate::operations::{Operation, Output, SIDES};
use crate::timing::compare;

const OPERATIONS: [Operation; 6] = [
    Operation::Classes,
    Operation::Luma,
    Operation::Chroma(0),
    Operation::Chroma(1),
    Operation::CrossComponent(0),
    Operation::CrossComponent(1),
];

/// CTBs that are cut at the right and below; CTBs that all are whole; the smallest picture.
const SIZES: [(usize, usize); 3] = [(200, 136), (256, 128), (8, 8)];

/// How many comparisons were made, or what is wrong.
pub fn check(formats: &[Format]) -> Result<usize, String> {
    let (mut count, mut seen) = (0, [false; 128]);
    for case in cases(formats) {
        // Classes and luma are the same in every format: the first one will do.
        for operation in OPERATIONS.into_iter().filter(|each| case.format == formats[0] || each.has_format()) {
            check_one(operation, &case, &mut seen).map_err(|wrong| format!("{}: {wrong}", case.name()))?;
            count += 1;
        }
    }
    // Equal outputs would mean little of pictures that reach few classes.
    let every_class = (0..25).all(|class| (0..4).any(|transpose| seen[class + 32 * transpose]));
    let every_transpose = (0..4).all(|transpose| (0..25).any(|class| seen[class + 32 * transpose]));
    if every_class && every_transpose {
        Ok(count)
    } else {
        Err("the pictures do not reach every class and every transpose".into())
    }
}

/// Every size at every CTB size, some bit depths and every format that is asked for, with all CTBs filtered and with some.
fn cases(formats: &[Format]) -> impl Iterator<Item = Case> + '_ {
    let sizes = SIZES.into_iter().flat_map(|size| (5..=7).map(move |ctb_log2| (size, ctb_log2)));
    let depths = sizes.flat_map(|(size, ctb_log2)| [8, 10, 12].map(|bit_depth| (size, ctb_log2, bit_depth)));
    depths.flat_map(move |((width, height), ctb_log2, bit_depth)| {
        let make = move |format, ctbs| Case::new(width, height, ctb_log2, bit_depth, format, ctbs);
        formats
            .iter()
            .flat_map(move |&format| [Ctbs::All, Ctbs::Some].map(|ctbs| make(format, ctbs)))
    })
}

fn check_one(operation: Operation, case: &Case, seen: &mut [bool; 128]) -> Result<(), String> {
    let mut outputs = SIDES.map(|_| Output::new(operation, case));
    for (side, output) in SIDES.into_iter().zip(&mut outputs) {
        side.run(case, output)?;
    }
    operation.judge(case, &mut Output::new(operation, case))?;
    outputs[0].map.iter().for_each(|&class| seen[usize::from(class)] = true);
    compare(&outputs, case)
}
