//! Filters a built-in picture with every operation of the library, writes pictures of what happened, and prints what changed.
mod causes;
mod choose;
mod closeup;
mod coding;
mod draw;
mod filter;
mod filtered;
mod format;
mod gallery;
mod hard_rows;
mod isolation;
mod layout;
mod planes;
mod png;
mod reject;
mod report;
mod scene;
mod tables;
mod text;

use crate::filter::Setup;
use crate::filtered::Filtered;
use crate::format::Format;
use crate::isolation::Rewriting;
use crate::planes::Y;
use crate::scene::Scene;
use raspbegonia::Fault;
use std::ffi::OsString;
use std::io::{self, Write};
use std::path::{Path, PathBuf};
use std::process::ExitCode;

const HELP: &str = "\
usage: demo [--out DIR]

Filters a built-in picture, in 4:2:0 and in 4:4:4, with every operation of the adaptive
loop filter, writes what it looked like before and after as PNG files, and prints what
changed.

  --out DIR   the folder for the pictures, made when missing (default: target/demo)
  --help      this text
";

/// The subpictures whose outside is rewritten: one whose switch is off, one whose switch is on.
const ISOLATED: u8 = 1;
const OPEN: u8 = 2;

/// What the command line asks for.
#[derive(Debug, PartialEq)]
enum Command {
    Help,
    Run(PathBuf),
}

fn command(mut arguments: impl Iterator<Item = OsString>) -> Result<Command, String> {
    let mut folder = PathBuf::from("target/demo");
    while let Some(argument) = arguments.next() {
        match argument.to_str() {
            Some("--help" | "-h") => return Ok(Command::Help),
            Some("--out") => match arguments.next() {
                Some(value) if !value.is_empty() => folder = value.into(),
                _ => return Err("--out needs a folder".into()),
            },
            _ => return Err(format!("unknown option: {}", argument.to_string_lossy())),
        }
    }
    Ok(Command::Run(folder))
}

/// Holds what was seen to what the library promises.
fn check(half: &Filtered, full: &Filtered, rewritings: &[Rewriting], rejections: &[reject::Rejection]) -> Result<(), String> {
    if half.outputs.class_map != full.outputs.class_map || half.outputs.planes[Y] != full.outputs.planes[Y] {
        return Err("classes or luma depend on the chroma format".into());
    }
    let broken = |r: &&Rewriting| (r.subpicture == ISOLATED && !r.isolated) || (r.isolated && r.inside.differ > 0);
    if let Some(r) = rewritings.iter().find(broken) {
        let format = r.format.name();
        return Err(format!("subpicture {} is not isolated as it should be in {format}", r.subpicture));
    }
    match rejections.iter().find(|r| r.answer.is_ok() || !r.untouched) {
        Some(r) => Err(format!("{} was accepted, or its output changed", r.what)),
        None => Ok(()),
    }
}

/// What to say where an operation rejects what it should accept.
fn rejected(setup: Setup, fault: Fault) -> String {
    format!("an operation rejected its input in {}: {fault}", setup.format.name())
}

/// Filters the scene in one chroma format, and again with what lies outside each of two subpictures rewritten.
fn filter_scene(setup: Setup, scene: &Scene) -> Result<(Filtered, [Rewriting; 2]), String> {
    let rejected = |fault| rejected(setup, fault);
    let filtered = Filtered::new(setup, scene).map_err(rejected)?;
    let rewrite = |subpicture| isolation::rewrite_outside(setup, subpicture, &filtered).map_err(rejected);
    let rewritings = [rewrite(ISOLATED)?, rewrite(OPEN)?];
    Ok((filtered, rewritings))
}

/// The demo from scene to report.
fn run(folder: &Path) -> Result<String, String> {
    let (layout, tables, scene) = (layout::Layout::new(), tables::Tables::new(), Scene::new());
    let [setup, full_setup] = [Format::Yuv420, Format::Yuv444].map(|format| Setup {
        layout: &layout,
        tables: &tables,
        format,
    });
    let (half, half_rewritings) = filter_scene(setup, &scene)?;
    let (full, full_rewritings) = filter_scene(full_setup, &scene)?;
    let rewritings = [half_rewritings, full_rewritings].concat();
    let rejections = reject::attempts(setup, &half.ctb_params, &half.before[Y]);
    check(&half, &full, &rewritings, &rejections)?;
    let causes = causes::Causes::of(&setup.picture()).map_err(|fault| rejected(setup, fault))?;
    let pictures = gallery::pictures(&layout, &layout.subpicture_region(ISOLATED), &causes, &half, &full);
    gallery::write(folder, &pictures)?;
    let formats = [&half, &full];
    Ok([
        report::picture(formats),
        report::changes(formats),
        report::choices(formats),
        report::classes(&half.outputs.class_map),
        report::quality(formats),
        report::hard_rows(&hard_rows::all(formats), &causes),
        report::isolation(&rewritings),
        report::rejections(&rejections),
        report::files(&pictures),
    ]
    .concat())
}

/// Prints to stdout; a closed pipe is an error like any other, not a panic.
fn print(text: &str) -> Result<(), String> {
    let mut stdout = io::stdout().lock();
    stdout
        .write_all(text.as_bytes())
        .and_then(|()| stdout.flush())
        .map_err(|e| format!("cannot print: {e}"))
}

/// A message on stderr, and the exit status. Nobody is left to tell when stderr is closed too.
fn fail(message: &str, status: u8) -> ExitCode {
    let _ = writeln!(io::stderr(), "demo: {message}");
    ExitCode::from(status)
}

fn main() -> ExitCode {
    let result = match command(std::env::args_os().skip(1)) {
        Err(message) => return fail(&format!("{message}\n{}", HELP.trim_end()), 2),
        Ok(Command::Help) => print(HELP),
        Ok(Command::Run(folder)) => run(&folder).and_then(|text| print(&text)),
    };
    result.map_or_else(|message| fail(&message, 1), |()| ExitCode::SUCCESS)
}

#[cfg(test)]
mod tests {
    use super::*;

    fn parse(arguments: &[&str]) -> Result<Command, String> {
        command(arguments.iter().map(OsString::from))
    }

    #[test]
    fn options() {
        assert_eq!(parse(&[]), Ok(Command::Run("target/demo".into())));
        assert_eq!(parse(&["--out", "x"]), Ok(Command::Run("x".into())));
        assert_eq!(parse(&["--help"]), Ok(Command::Help));
    }

    #[test]
    fn wrong_options() {
        assert!(parse(&["--out"]).is_err());
        assert!(parse(&["--out", ""]).is_err());
        assert!(parse(&["--fast"]).is_err());
        assert!(parse(&["picture"]).is_err());
    }
}
