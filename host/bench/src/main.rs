//! Measures the proved library beside plain C. The options are in `options::HELP`.
mod baseline;
mod case;
mod check;
mod drawing;
mod format;
mod operations;
mod options;
mod padded;
mod random;
mod report;
mod timing;

use case::{Case, Ctbs};
use operations::Operation;
use options::{Command, Options};
use report::Line;
use std::process::ExitCode;

const MEASURED: [Operation; 4] = [
    Operation::Classes,
    Operation::Luma,
    Operation::Chroma(0),
    Operation::CrossComponent(0),
];

fn main() -> ExitCode {
    let done = match options::parse(std::env::args().skip(1)) {
        Ok(Command::Help) => {
            print!("{}", options::HELP);
            Ok(())
        }
        Ok(Command::Check(formats)) => check::check(&formats).map(|count| println!("{count} comparisons with the C: all outputs equal")),
        Ok(Command::Measure(options)) => measure(&options).map(|lines| report::print(&lines, options.calls)),
        Err(message) => {
            eprintln!("bench: {message}\n\n{}", options::HELP);
            return ExitCode::from(2);
        }
    };
    match done {
        Ok(()) => ExitCode::SUCCESS,
        Err(wrong) => {
            eprintln!("bench: {wrong}");
            ExitCode::FAILURE
        }
    }
}

fn measure(options: &Options) -> Result<Vec<Line>, String> {
    let mut lines = Vec::new();
    for &(width, height) in &options.sizes {
        for &bit_depth in &options.depths {
            for (nth, &format) in options.formats.iter().enumerate() {
                let case = Case::new(width, height, options.ctb_log2, bit_depth, format, Ctbs::All);
                for operation in MEASURED.into_iter().filter(|operation| nth == 0 || operation.has_format()) {
                    lines.push(line(operation, &case, options.calls)?);
                }
            }
        }
    }
    Ok(lines)
}

fn line(operation: Operation, case: &Case, calls: u32) -> Result<Line, String> {
    eprintln!("measuring {}: {}", case.name(), operation.name_in(case.format));
    Ok(Line {
        picture: case.name(),
        format: case.format,
        operation,
        times: timing::measure(operation, case, calls).map_err(|wrong| format!("{}: {wrong}", case.name()))?,
    })
}
