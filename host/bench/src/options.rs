//! The command line.
use crate::format::Format;

pub const HELP: &str = "\
Measures the proved library beside plain C (gcc -O3, by blocks and by rows, and gcc -O3 -march=native) and prints
markdown tables. All get the same pictures, and their outputs must be equal; exit status 1 where they are not.

  --size WxH   a picture's size, multiples of 8 from 8 to 4096; may be repeated  (1920x1080 and 4096x2160)
  --depth B    bit depth, 8 to 12; may be repeated                               (8 and 10)
  --format F   chroma format, 420, 422 or 444; may be repeated                   (all three)
  --ctb L      CTB exponent, 5, 6 or 7                                           (7)
  --calls N    calls of each, of which the quickest counts                       (40)
  --check      no timing: small pictures at every CTB size, outputs held against each other;
               of the options above it heeds --format alone
  --help       this text

Classes and luma do not depend on the chroma format and are measured once for each size and depth.
";

pub struct Options {
    pub sizes: Vec<(usize, usize)>,
    pub depths: Vec<u8>,
    pub formats: Vec<Format>,
    pub ctb_log2: u8,
    pub calls: u32,
}

pub enum Command {
    Help,
    Check(Vec<Format>),
    Measure(Options),
}

/// An error is what to tell the user.
pub fn parse(mut arguments: impl Iterator<Item = String>) -> Result<Command, String> {
    let mut options = Options {
        sizes: Vec::new(),
        depths: Vec::new(),
        formats: Vec::new(),
        ctb_log2: 7,
        calls: 40,
    };
    let mut check = false;
    while let Some(option) = arguments.next() {
        let mut value = || arguments.next().ok_or(format!("{option} needs a value"));
        match option.as_str() {
            "--help" => return Ok(Command::Help),
            "--check" => check = true,
            "--size" => options.sizes.push(size(&value()?)?),
            "--depth" => options.depths.push(number("--depth", &value()?, 8, 12)? as u8),
            "--format" => options.formats.push(format(&value()?)?),
            "--ctb" => options.ctb_log2 = number("--ctb", &value()?, 5, 7)? as u8,
            "--calls" => options.calls = number("--calls", &value()?, 1, u32::MAX)?,
            _ => return Err(format!("unknown option {option}")),
        }
    }
    if options.sizes.is_empty() {
        options.sizes = vec![(1920, 1080), (4096, 2160)];
    }
    if options.depths.is_empty() {
        options.depths = vec![8, 10];
    }
    if options.formats.is_empty() {
        options.formats = Format::ALL.into();
    }
    Ok(if check {
        Command::Check(options.formats)
    } else {
        Command::Measure(options)
    })
}

fn number(option: &str, text: &str, least: u32, most: u32) -> Result<u32, String> {
    match text.parse() {
        Ok(number) if (least..=most).contains(&number) => Ok(number),
        _ => Err(format!("{option} {text}: wants a number from {least} to {most}")),
    }
}

/// Its name without the colons.
fn format(text: &str) -> Result<Format, String> {
    let found = Format::ALL.into_iter().find(|format| format.name().replace(':', "") == text);
    found.ok_or(format!("--format {text}: wants 420, 422 or 444"))
}

fn size(text: &str) -> Result<(usize, usize), String> {
    let side = |part: &str| {
        part.parse()
            .ok()
            .filter(|side: &usize| side.is_multiple_of(8) && (8..=4096).contains(side))
    };
    let sides = text.split_once('x').and_then(|(width, height)| Some((side(width)?, side(height)?)));
    sides.ok_or(format!("--size {text}: wants WxH, multiples of 8 from 8 to 4096"))
}
