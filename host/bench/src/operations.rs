//! The four operations that are measured, and who does them.
use crate::baseline::{NATIVE, O3, ROWS};
use crate::case::Case;
use crate::format::Format;
use raspbegonia::Fault;

/// The component, where there is one, is 0 (Cb) or 1 (Cr).
#[derive(Clone, Copy, Debug, PartialEq)]
pub enum Operation {
    Classes,
    Luma,
    Chroma(u8),
    CrossComponent(u8),
}

/// In the order of the table's columns.
#[derive(Clone, Copy, Debug, PartialEq)]
pub enum Side {
    Library,
    C,
    CRows,
    CNative,
}

pub const SIDES: [Side; 4] = [Side::Library, Side::C, Side::CRows, Side::CNative];

/// Of classes the map is written, of the filters the plane; the other is empty.
pub struct Output {
    pub operation: Operation,
    pub map: Vec<u8>,
    pub plane: Vec<u16>,
}

impl Operation {
    pub fn name(self) -> &'static str {
        match self {
            Operation::Classes => "classes",
            Operation::Luma => "luma",
            Operation::Chroma(0) => "chroma, Cb",
            Operation::Chroma(_) => "chroma, Cr",
            Operation::CrossComponent(0) => "cross-component, Cb",
            Operation::CrossComponent(_) => "cross-component, Cr",
        }
    }

    /// Classes and luma are the same in every format.
    pub fn has_format(self) -> bool {
        matches!(self, Operation::Chroma(_) | Operation::CrossComponent(_))
    }

    /// The name, with the chroma format where there is one.
    pub fn name_in(self, format: Format) -> String {
        if self.has_format() {
            format!("{}, {}", self.name(), format.name())
        } else {
            self.name().into()
        }
    }

    /// How many samples the plane has that is filtered or classified.
    pub fn samples(self, case: &Case) -> usize {
        match self {
            Operation::Classes | Operation::Luma => case.luma.len(),
            Operation::Chroma(_) | Operation::CrossComponent(_) => case.chroma.len(),
        }
    }

    /// What a spoilt input is rejected for: the last cause that the operation judges.
    fn last_fault(self) -> Fault {
        match self {
            Operation::Classes => Fault::Sample,
            _ => Fault::Address,
        }
    }

    /// Spoilt input is rejected at the last test, so that all the library does is judge.
    fn library(self, case: &Case, spoilt: bool, output: &mut Output) -> Result<(), Fault> {
        let picture = case.picture();
        let parameters = if spoilt { case.bad_parameters() } else { case.parameters() };
        match self {
            Operation::Classes => raspbegonia::classes(&picture, if spoilt { &case.bad_luma } else { &case.luma }, &mut output.map),
            Operation::Luma => raspbegonia::luma(&picture, &parameters, &case.fixed(), &case.luma, &mut output.plane),
            Operation::Chroma(component) => raspbegonia::chroma(&picture, component, &parameters, &case.chroma, &mut output.plane),
            Operation::CrossComponent(component) => {
                raspbegonia::cross_component(&picture, component, &parameters, &case.luma, &case.chroma, &mut output.plane)
            }
        }
    }

    /// Has the library judge an input that it must reject for its last cause.
    pub fn judge(self, case: &Case, output: &mut Output) -> Result<(), String> {
        match self.library(case, true, output) {
            Err(fault) if fault == self.last_fault() => Ok(()),
            Err(fault) => Err(format!(
                "{}: the spoilt input was rejected with {fault}, not with {}",
                self.name_in(case.format),
                self.last_fault()
            )),
            Ok(()) => Err(format!("{}: the spoilt input was accepted", self.name_in(case.format))),
        }
    }

    /// How many entries of the class map and of the output plane are written.
    fn lengths(self, case: &Case) -> (usize, usize) {
        match self {
            Operation::Classes => (case.luma.len() / 16, 0),
            _ => (0, self.samples(case)),
        }
    }
}

impl Side {
    pub fn name(self) -> &'static str {
        match self {
            Side::Library => "proved library",
            Side::C => "C -O3",
            Side::CRows => "by rows",
            Side::CNative => "native",
        }
    }

    pub fn run(self, case: &Case, output: &mut Output) -> Result<(), String> {
        let operation = output.operation;
        match self {
            Side::Library => {
                return operation
                    .library(case, false, output)
                    .map_err(|fault| format!("{}: the library rejected it: {fault}", operation.name_in(case.format)))
            }
            Side::C => O3.run(case, output),
            Side::CRows => ROWS.run(case, output),
            Side::CNative => NATIVE.run(case, output),
        }
        Ok(())
    }
}

impl Output {
    /// Filled with numbers that no operation writes, so that a place that is left out shows.
    pub fn new(operation: Operation, case: &Case) -> Output {
        let (blocks, samples) = operation.lengths(case);
        Output {
            operation,
            map: vec![u8::MAX; blocks],
            plane: vec![u16::MAX; samples],
        }
    }

    /// Whether it is as long as its operation on this case calls for.
    pub fn fits(&self, case: &Case) -> bool {
        (self.map.len(), self.plane.len()) == self.operation.lengths(case)
    }

    /// Where two outputs of one operation differ first: the place, and what stands there.
    pub fn first_difference(&self, other: &Output) -> Option<(usize, u16, u16)> {
        let maps = self.map.iter().zip(&other.map).map(|(&a, &b)| (a.into(), b.into()));
        let planes = self.plane.iter().zip(&other.plane).map(|(&a, &b)| (a, b));
        maps.chain(planes)
            .enumerate()
            .find(|(_, (a, b))| a != b)
            .map(|(place, (a, b))| (place, a, b))
    }
}
