//! Which kinds of picture a run has seen, and which causes of clip positions.
use crate::input::Input;
use crate::run::Outcome;
use raspbegonia::ClipCause;
use std::fmt;

/// The chroma formats by their numbers.
const FORMATS: [&str; 4] = ["luma alone", "4:2:0", "4:2:2", "4:4:4"];

/// A kind by its name, and whether a picture is of it.
type Kind = (&'static str, fn(&Input) -> bool);

const KINDS: &[Kind] = &[
    ("less than a CTB", |i| i.width < i.ctb() || i.height < i.ctb()),
    ("8 wide or high", |i| i.width == 8 || i.height == 8),
    ("last CTB row whole", |i| i.height % i.ctb() == 0),
    ("last CTB row cut", |i| i.height % i.ctb() != 0),
    ("4096 wide or high", |i| i.width == 4096 || i.height == 4096),
    ("virtual columns", |i| !i.virtual_columns.is_empty()),
    ("virtual rows", |i| !i.virtual_rows.is_empty()),
    ("three virtual boundaries", |i| {
        i.virtual_columns.len() == 3 || i.virtual_rows.len() == 3
    }),
    ("virtual row on a CTB's side", |i| {
        i.virtual_rows.iter().any(|row| u32::from(*row) % i.ctb() == 0)
    }),
    ("tiles, switch off", |i| {
        several(&i.tile_columns) && several(&i.tile_rows) && !i.across_tiles
    }),
    ("tiles, switch on", |i| {
        several(&i.tile_columns) && several(&i.tile_rows) && i.across_tiles
    }),
    ("slices, switch off", |i| several(&i.slice_map) && !i.across_slices),
    ("slices, switch on", |i| several(&i.slice_map) && i.across_slices),
    ("subpictures, mixed switches", mixed_subpictures),
    ("list empty", |i| i.ctb_list.is_empty()),
    ("list with repeats", |i| i.ctb_list.len() > i.ctbs()),
    ("flat", |i| !several(&i.luma)),
    ("extreme samples", |i| {
        several(&i.luma) && i.luma.iter().all(|n| *n == 0 || *n == (1 << i.bit_depth) - 1)
    }),
    ("8 bits", |i| i.bit_depth == 8),
    ("12 bits", |i| i.bit_depth == 12),
];

/// Whether a list has different numbers.
fn several<T: PartialEq>(list: &[T]) -> bool {
    list.iter().any(|n| *n != list[0])
}

/// Neighbouring subpictures of which one filters across its sides and another does not.
fn mixed_subpictures(input: &Input) -> bool {
    let switches: Vec<u8> = input.subpic_map.iter().map(|n| input.subpic_across[usize::from(*n)]).collect();
    several(&switches)
}

/// Pictures of one chroma format, and how many of them were of each kind.
struct Seen {
    pictures: usize,
    kinds: Vec<usize>,
}

impl Seen {
    fn nothing() -> Seen {
        Seen {
            pictures: 0,
            kinds: vec![0; KINDS.len()],
        }
    }

    fn add(&mut self, other: &Seen) {
        self.pictures += other.pictures;
        self.kinds.iter_mut().zip(&other.kinds).for_each(|(n, more)| *n += more);
    }

    /// The kinds that no picture was of.
    fn missing(&self) -> impl Iterator<Item = &'static str> + '_ {
        self.kinds.iter().zip(KINDS).filter(|(n, _)| **n == 0).map(|(_, kind)| kind.0)
    }
}

impl fmt::Display for Seen {
    fn fmt(&self, f: &mut fmt::Formatter) -> fmt::Result {
        let parts: Vec<String> = KINDS.iter().zip(&self.kinds).map(|(kind, n)| format!("{} {n}", kind.0)).collect();
        write!(f, "{} pictures: {}", self.pictures, parts.join(", "))
    }
}

/// How many pictures of each kind, by chroma format.
pub struct Coverage([Seen; 4]);

impl Default for Coverage {
    fn default() -> Self {
        Coverage(FORMATS.map(|_| Seen::nothing()))
    }
}

impl Coverage {
    pub fn count(&mut self, input: &Input) {
        self.0[usize::from(input.chroma_format)].add(&Seen {
            pictures: 1,
            kinds: KINDS.iter().map(|(_, is)| usize::from(is(input))).collect(),
        });
    }

    /// What another run has seen too.
    pub fn add(&mut self, other: &Coverage) {
        self.0.iter_mut().zip(&other.0).for_each(|(seen, more)| seen.add(more));
    }

    /// The pictures of each chroma format.
    pub fn pictures(&self) -> [usize; 4] {
        [0, 1, 2, 3].map(|format: usize| self.0[format].pictures)
    }

    /// The kinds that no picture was of, whatever its chroma format.
    pub fn missing(&self) -> Vec<&'static str> {
        self.all().missing().collect()
    }

    /// The kinds that no picture of some chroma format was of.
    pub fn missing_by_format(&self) -> Vec<String> {
        let formats = FORMATS.iter().zip(&self.0);
        formats
            .flat_map(|(format, seen)| seen.missing().map(move |kind| format!("{format}: {kind}")))
            .collect()
    }

    /// Pictures and kinds of each chroma format by itself, to be printed.
    pub fn by_format(&self) -> Vec<String> {
        FORMATS
            .iter()
            .zip(&self.0)
            .map(|(format, seen)| format!("{format}, {seen}"))
            .collect()
    }

    fn all(&self) -> Seen {
        let mut all = Seen::nothing();
        self.0.iter().for_each(|seen| all.add(seen));
        all
    }
}

impl fmt::Display for Coverage {
    fn fmt(&self, f: &mut fmt::Formatter) -> fmt::Result {
        let formats: Vec<String> = FORMATS
            .iter()
            .zip(self.pictures())
            .map(|(format, n)| format!("{format} {n}"))
            .collect();
        write!(f, "{}, {}", self.all(), formats.join(", "))
    }
}

/// The sides of a sample, in the order of the causes.
const SIDES: [&str; 4] = ["top", "bottom", "left", "right"];

/// Whether a cause can be that of a side: columns have no line-buffer boundary.
fn can_close(side: usize, cause: ClipCause) -> bool {
    cause != ClipCause::LineBufferBoundary || side < 2
}

/// How many positions had which cause on which side, and which cause stood behind which.
#[derive(Default)]
pub struct CauseCoverage {
    asked: usize,
    outside: usize,
    met: [[usize; 6]; 4],
    behind: [[usize; 6]; 6],
}

impl CauseCoverage {
    /// One position that was asked about.
    pub fn count(&mut self, outcome: &Outcome) {
        self.asked += 1;
        self.outside += usize::from(outcome.number == 15);
        if outcome.number == 0 {
            for (side, number) in outcome.output.iter().map(|n| usize::from(*n)).enumerate() {
                assert!(can_close(side, ClipCause::ALL[number]), "{} closed by number {number}", SIDES[side]);
                self.met[side][number] += 1;
            }
        }
    }

    /// On a side a first cause was taken away, and another showed.
    pub fn count_behind(&mut self, first: ClipCause, next: u16) {
        self.behind[usize::from(first.number())][usize::from(next)] += 1;
    }

    /// What was not met: a position outside, a cause on a side that it can close, a cause behind another.
    pub fn missing(&self) -> Vec<String> {
        let mut missing = self.never_behind();
        if self.outside == 0 {
            missing.push("no position outside".to_string());
        }
        for (side, name) in SIDES.iter().enumerate() {
            let met = |cause: &ClipCause| self.met[side][usize::from(cause.number())] > 0;
            let never = ClipCause::ALL.into_iter().filter(|cause| can_close(side, *cause) && !met(cause));
            missing.extend(never.map(|cause| format!("{name} never closed by {cause}")));
        }
        missing
    }

    /// Of the causes that can be taken away, each later one has to have stood behind each earlier one, or the order was not tried.
    fn never_behind(&self) -> Vec<String> {
        let from = usize::from(ClipCause::VirtualBoundary.number());
        let pairs = (from..6).flat_map(|first| (first + 1..6).map(move |next| (first, next)));
        pairs
            .filter(|(first, next)| self.behind[*first][*next] == 0)
            .map(|(first, next)| format!("{} never behind {}", ClipCause::ALL[next], ClipCause::ALL[first]))
            .collect()
    }
}

impl fmt::Display for CauseCoverage {
    fn fmt(&self, f: &mut fmt::Formatter) -> fmt::Result {
        write!(f, "{} positions asked, {} of them outside the picture", self.asked, self.outside)?;
        for (side, met) in SIDES.iter().zip(&self.met) {
            let parts: Vec<String> = ClipCause::ALL.iter().zip(met).map(|(cause, n)| format!("{cause} {n}")).collect();
            write!(f, "; {side}: {}", parts.join(", "))?;
        }
        Ok(())
    }
}
