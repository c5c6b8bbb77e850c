//! One operation on one input, by the library and by the model.
use crate::guarded::{Guarded, Side};
use crate::input::{Input, Operation};

/// The number returned, and every entry of the output after the call.
#[derive(Clone, Debug, PartialEq, Eq)]
pub struct Outcome {
    pub number: u8,
    pub output: Vec<u16>,
}

fn widened(bytes: &[u8]) -> Vec<u16> {
    bytes.iter().map(|n| u16::from(*n)).collect()
}

/// What stands in the operation's output before the call.
pub fn before(operation: Operation, input: &Input) -> Vec<u16> {
    match operation {
        Operation::Classes => widened(&input.class_map),
        Operation::Luma => input.luma_output.clone(),
        Operation::Chroma | Operation::CrossComponent => input.chroma_output.clone(),
        Operation::Isolated => vec![u16::from(input.isolated)],
        Operation::ClipCauses => widened(&input.causes),
    }
}

/// The input in guarded memory that cannot be written; all but its numbers and switches, which a call takes from the input itself.
pub struct Memory {
    side: Side,
    u8s: Vec<Guarded<u8>>,
    u16s: Vec<Guarded<u16>>,
    i16s: Vec<Guarded<i16>>,
    u32s: Vec<Guarded<u32>>,
}

impl Memory {
    pub fn new(input: &Input, side: Side) -> Self {
        let u8s = [
            &input.tile_columns,
            &input.tile_rows,
            &input.slice_map,
            &input.subpic_map,
            &input.subpic_across,
            &input.slice_params,
            &input.ctb_params,
            &input.fixed_map,
            &input.region,
        ];
        let u16s = [&input.virtual_columns, &input.virtual_rows, &input.luma, &input.chroma];
        let i16s = [&input.bank, &input.fixed_filters];
        Memory {
            side,
            u8s: u8s.iter().map(|v| Guarded::read_only(v, side)).collect(),
            u16s: u16s.iter().map(|v| Guarded::read_only(v, side)).collect(),
            i16s: i16s.iter().map(|v| Guarded::read_only(v, side)).collect(),
            u32s: vec![Guarded::read_only(&input.ctb_list, side)],
        }
    }

    fn picture<'a>(&'a self, input: &'a Input) -> raspbegonia::Picture<'a> {
        raspbegonia::Picture {
            virtual_columns: self.u16s[0].get(),
            virtual_rows: self.u16s[1].get(),
            tile_columns: self.u8s[0].get(),
            tile_rows: self.u8s[1].get(),
            slice_map: self.u8s[2].get(),
            subpic_map: self.u8s[3].get(),
            subpic_across: self.u8s[4].get(),
            ..input.picture()
        }
    }

    fn parameters(&self) -> raspbegonia::Parameters<'_> {
        raspbegonia::Parameters {
            slice_params: self.u8s[5].get(),
            bank: self.i16s[0].get(),
            ctb_params: self.u8s[6].get(),
            ctb_list: self.u32s[0].get(),
        }
    }

    fn fixed(&self) -> raspbegonia::FixedTables<'_> {
        raspbegonia::FixedTables {
            filters: self.i16s[1].get(),
            map: self.u8s[7].get(),
        }
    }

    /// A call whose output holds `old` before it. Where the model rejects, the output cannot be written either: a write is then a crash.
    fn call<T: Copy + Into<u16>>(&self, old: &[T], rejected: bool, call: impl FnOnce(&mut [T]) -> Answer) -> Outcome {
        let mut output = if rejected {
            Guarded::read_only(old, self.side)
        } else {
            Guarded::new(old, self.side)
        };
        let answer = call(output.get_mut());
        Outcome {
            number: number(answer),
            output: output.get().iter().map(|n| (*n).into()).collect(),
        }
    }
}

type Answer = Result<(), raspbegonia::Fault>;

fn number(answer: Answer) -> u8 {
    answer.map_or_else(|fault| fault.number(), |()| 0)
}

/// The library's outcome.
pub fn library(operation: Operation, input: &Input, side: Side, rejected: bool) -> Outcome {
    library_in(&Memory::new(input, side), operation, input, rejected)
}

/// The same, where the input stands in memory already.
fn library_in(memory: &Memory, operation: Operation, input: &Input, rejected: bool) -> Outcome {
    let (picture, parameters, fixed) = (memory.picture(input), memory.parameters(), memory.fixed());
    let (luma, chroma) = (memory.u16s[2].get(), memory.u16s[3].get());
    match operation {
        Operation::Classes => memory.call(&input.class_map, rejected, |map| raspbegonia::classes(&picture, luma, map)),
        Operation::Luma => memory.call(&input.luma_output, rejected, |output| {
            raspbegonia::luma(&picture, &parameters, &fixed, luma, output)
        }),
        Operation::Chroma => memory.call(&input.chroma_output, rejected, |output| {
            raspbegonia::chroma(&picture, input.component, &parameters, chroma, output)
        }),
        Operation::CrossComponent => memory.call(&input.chroma_output, rejected, |output| {
            raspbegonia::cross_component(&picture, input.component, &parameters, luma, chroma, output)
        }),
        Operation::Isolated => isolated(memory, &picture, input, rejected),
        Operation::ClipCauses => clip_causes(memory, &picture, input, rejected),
    }
}

/// The byte that the library is given; and the wrapper's yes or no has to be the same.
fn isolated(memory: &Memory, picture: &raspbegonia::Picture, input: &Input, rejected: bool) -> Outcome {
    let region = memory.u8s[8].get();
    let outcome = memory.call(&[input.isolated], rejected, |byte| {
        raspbegonia::isolated_number(picture, region, &mut byte[0])
    });
    let expected = match outcome.number {
        0 => Ok(outcome.output == [1]),
        fault => Err(fault),
    };
    let answer = raspbegonia::isolated(picture, region).map_err(|fault| fault.number());
    assert_eq!(answer, expected, "isolated by yes or no and by number");
    outcome
}

/// By numbers; and the wrapper's named causes have to be the same.
fn clip_causes(memory: &Memory, picture: &raspbegonia::Picture, input: &Input, rejected: bool) -> Outcome {
    let (x, y) = input.position;
    let outcome = memory.call(&input.causes, rejected, |causes| {
        raspbegonia::clip_cause_numbers(picture, x, y, causes)
    });
    if input.causes.len() == 4 {
        let named = raspbegonia::clip_causes(picture, x, y);
        let numbers = named.map(|causes| causes.sides().map(|cause| u16::from(cause.number())).to_vec());
        let expected = match outcome.number {
            0 => Ok(outcome.output.clone()),
            fault => Err(fault),
        };
        assert_eq!(numbers.map_err(|fault| fault.number()), expected, "causes by name and by number");
    }
    outcome
}

fn layout_of(input: &Input) -> model::Layout<'_> {
    model::Layout {
        width: input.width,
        height: input.height,
        ctb_log2: input.ctb_log2,
        bit_depth: input.bit_depth,
        chroma: input.chroma_format,
        slice_count: input.slice_count,
        across_tiles: input.across_tiles,
        across_slices: input.across_slices,
        virtual_columns: &input.virtual_columns,
        virtual_rows: &input.virtual_rows,
        tile_columns: &input.tile_columns,
        tile_rows: &input.tile_rows,
        slice_map: &input.slice_map,
        subpic_map: &input.subpic_map,
        subpic_across: &input.subpic_across,
    }
}

/// A call of the model whose output holds `old` before it.
fn filled<T: Copy + Into<u16>>(old: &[T], call: impl FnOnce(&mut [T]) -> u8) -> Outcome {
    let mut output = old.to_vec();
    let number = call(&mut output);
    Outcome {
        number,
        output: output.into_iter().map(T::into).collect(),
    }
}

/// The model's outcome.
pub fn model(operation: Operation, input: &Input) -> Outcome {
    let layout = layout_of(input);
    let parameters = model::Parameters {
        slice_params: &input.slice_params,
        bank: &input.bank,
        ctb_params: &input.ctb_params,
        ctb_list: &input.ctb_list,
    };
    let fixed = model::FixedTables {
        filters: &input.fixed_filters,
        map: &input.fixed_map,
    };
    let (luma, chroma, (x, y)) = (&input.luma, &input.chroma, input.position);
    match operation {
        Operation::Classes => filled(&input.class_map, |map| model::classes(&layout, luma, map)),
        Operation::Luma => filled(&input.luma_output, |output| model::luma(&layout, &parameters, &fixed, luma, output)),
        Operation::Chroma => filled(&input.chroma_output, |output| {
            model::chroma(&layout, input.component, &parameters, chroma, output)
        }),
        Operation::CrossComponent => filled(&input.chroma_output, |output| {
            model::cross_component(&layout, input.component, &parameters, luma, chroma, output)
        }),
        Operation::Isolated => filled(&[input.isolated], |answer| model::isolated(&layout, &input.region, &mut answer[0])),
        Operation::ClipCauses => filled(&input.causes, |causes| model::clip_causes(&layout, x, y, causes)),
    }
}

/// Runs both and returns the outcome, which must be the same; the first entry that differs is named.
pub fn agreed(operation: Operation, input: &Input, side: Side) -> Outcome {
    agreed_in(&Memory::new(input, side), operation, input)
}

/// The same, where the input stands in memory already.
pub fn agreed_in(memory: &Memory, operation: Operation, input: &Input) -> Outcome {
    let expected = model(operation, input);
    let found = library_in(memory, operation, input, expected.number != 0);
    if found != expected {
        let at = found.output.iter().zip(&expected.output).position(|(f, e)| f != e);
        let entry = at.map(|k| format!("entry {k} is {}, the model's {}", found.output[k], expected.output[k]));
        panic!(
            "{operation:?} of {} by {}, CTB {}, {} bits, chroma format {}, position {:?}: answer {}, the model's {}; {}",
            input.width,
            input.height,
            input.ctb(),
            input.bit_depth,
            input.chroma_format,
            input.position,
            found.number,
            expected.number,
            entry.unwrap_or_else(|| "the outputs are equal".into())
        );
    }
    found
}
