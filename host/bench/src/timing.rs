//! Measures one operation on one case.
use crate::case::Case;
use crate::operations::{Operation, Output, Side, SIDES};
use std::hint::black_box;
use std::time::Instant;

/// The quickest calls, in nanoseconds a sample of the plane that is filtered or classified.
pub struct Times {
    /// By side, in the order of `SIDES`.
    pub sides: [f64; 4],
    pub judging: f64,
}

/// Read through before each call: more than the caches of a core hold, so that no call finds its planes there because of the one before.
const OTHER_DATA: usize = 8 << 20;

/// Calls take turns, so that a slow moment of the machine falls on all sides. Says where outputs differ.
pub fn measure(operation: Operation, case: &Case, calls: u32) -> Result<Times, String> {
    let mut outputs = SIDES.map(|_| Output::new(operation, case));
    let mut kept = Output::new(operation, case);
    let other_data = vec![1; OTHER_DATA];
    let (mut sides, mut judging) = ([f64::INFINITY; 4], f64::INFINITY);
    for _ in 0..calls {
        for (n, side) in SIDES.into_iter().enumerate() {
            sides[n] = sides[n].min(nanoseconds(&other_data, || side.run(case, &mut outputs[n]))?);
        }
        judging = judging.min(nanoseconds(&other_data, || operation.judge(case, &mut kept))?);
    }
    compare(&outputs, case)?;
    let samples = operation.samples(case) as f64;
    Ok(Times {
        sides: sides.map(|time| time / samples),
        judging: judging / samples,
    })
}

fn nanoseconds(other_data: &[u8], call: impl FnOnce() -> Result<(), String>) -> Result<f64, String> {
    black_box(other_data.iter().map(|&byte| u64::from(byte)).sum::<u64>());
    let start = Instant::now();
    call()?;
    Ok(start.elapsed().as_nanos() as f64)
}

/// Holds the outputs of the C, in the order of `SIDES`, against the library's.
pub fn compare(outputs: &[Output; 4], case: &Case) -> Result<(), String> {
    for (side, output) in SIDES.into_iter().zip(outputs).skip(1) {
        if let Some((place, library, c)) = outputs[0].first_difference(output) {
            let name = output.operation.name_in(case.format);
            let (column, row) = (place % columns(output.operation, case), place / columns(output.operation, case));
            return Err(format!(
                "outputs differ: {name} at column {column}, row {row}: {} has {library}, {} has {c}",
                Side::Library.name(),
                side.name()
            ));
        }
    }
    Ok(())
}

/// Of the class map or of the output plane.
fn columns(operation: Operation, case: &Case) -> usize {
    match operation {
        Operation::Classes => case.width / 4,
        Operation::Luma => case.width,
        Operation::Chroma(_) | Operation::CrossComponent(_) => case.width / case.format.ratio().0,
    }
}
