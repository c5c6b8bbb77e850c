//! Banks at random, their files and damaged files, and the two operations of bank files by the library and by the model.
use crate::guarded::{Guarded, Side};
use crate::picture::{clip, coefficient, cross_coefficient};
use crate::random::Random;
use raspbegonia::{BANK_FILE_BYTES, BANK_NUMBERS};

/// A filter in a bank: where its numbers begin, and how many coefficients and clips it has.
pub struct Filter {
    pub start: usize,
    pub coefficients: usize,
    pub clips: usize,
}

/// All filters of a bank: 200 for luma, 64 for chroma, 64 for cross-component, APS by APS.
pub fn filters() -> Vec<Filter> {
    let mut found = Vec::new();
    let mut start = 0;
    for _ in 0..8 {
        for (filters, coefficients, clips) in [(25, 12, 12), (8, 6, 6), (8, 7, 0)] {
            for _ in 0..filters {
                found.push(Filter {
                    start,
                    coefficients,
                    clips,
                });
                start += coefficients + clips;
            }
        }
    }
    assert_eq!(start, BANK_NUMBERS);
    found
}

/// An accepted bank in which one filter in `share` is not all zero. Its numbers are small, any or the two ends, or all 0 but one.
pub fn bank(random: &mut Random, bit_depth: u8, share: u64) -> Vec<i16> {
    let mut bank = vec![0; BANK_NUMBERS];
    for filter in filters() {
        if random.once_in(share) {
            let numbers = &mut bank[filter.start..filter.start + filter.coefficients + filter.clips];
            fill(random, numbers, filter.coefficients, bit_depth);
        }
    }
    bank
}

/// Draws the coefficients and clips of one filter, not all of them 0.
fn fill(random: &mut Random, numbers: &mut [i16], coefficients: usize, bit_depth: u8) {
    let only = random.once_in(4).then(|| random.index(numbers.len()));
    let (style, clips) = (random.below(4), random.below(3));
    for (k, number) in numbers.iter_mut().enumerate() {
        if only.is_none_or(|only| only == k) {
            *number = if k < coefficients {
                coefficient(random, style)
            } else {
                clip(random, clips, bit_depth)
            };
        }
    }
    if numbers.iter().all(|number| *number == 0) {
        numbers[random.index(coefficients)] = 1;
    }
}

/// Draws the cross-component filters that are not all zero anew, from the coefficients that H.266 can send.
pub fn mend_cross_filters(random: &mut Random, bank: &mut [i16]) {
    for filter in filters().iter().filter(|filter| filter.clips == 0) {
        let coefficients = &mut bank[filter.start..filter.start + filter.coefficients];
        if coefficients.iter().any(|coefficient| *coefficient != 0) {
            let style = random.below(4);
            coefficients.fill_with(|| cross_coefficient(random, style));
        }
    }
}

/// The file that the model writes of an accepted bank.
pub fn file(bit_depth: u8, bank: &[i16]) -> Vec<u8> {
    let (mut file, mut length) = (vec![0; BANK_FILE_BYTES], 0);
    assert_eq!(model::bank_write(bit_depth, bank, &mut file, &mut length), 0);
    file.truncate(length as usize);
    file
}

/// What a call of the writer returns and leaves: the whole room, and the length.
#[derive(Debug, PartialEq, Eq)]
pub struct Written {
    pub number: u8,
    pub room: Vec<u8>,
    pub length: u32,
}

/// What a call of the reader returns, and what stands in its outputs.
#[derive(Debug, PartialEq, Eq)]
pub struct Read {
    pub number: u8,
    pub bank: Vec<i16>,
    pub bit_depth: u8,
}

fn number(answer: Result<(), raspbegonia::Fault>) -> u8 {
    answer.map_or_else(|fault| fault.number(), |()| 0)
}

/// An output of the library; where the model rejects, it cannot be written.
fn output<T: Copy>(before: &[T], side: Side, rejected: bool) -> Guarded<T> {
    if rejected {
        Guarded::read_only(before, side)
    } else {
        Guarded::new(before, side)
    }
}

/// The library's outcome, where `room` and `length` stand in its outputs before the call.
pub fn library_write(bit_depth: u8, bank: &[i16], room: &[u8], length: u32, side: Side, rejected: bool) -> Written {
    let bank = Guarded::read_only(bank, side);
    let mut file = output(room, side, rejected);
    let mut written = output(&[length], side, rejected);
    let answer = raspbegonia::bank_write_number(bit_depth, bank.get(), file.get_mut(), &mut written.get_mut()[0]);
    Written {
        number: number(answer),
        room: file.get().to_vec(),
        length: written.get()[0],
    }
}

/// Writes by both and returns the outcome, which must be the same. What stands in the outputs before the call is drawn.
pub fn agreed_write(random: &mut Random, bit_depth: u8, bank: &[i16], room: usize) -> Written {
    let room: Vec<u8> = (0..room).map(|_| random.byte(256)).collect();
    let before = random.next() as u32;
    let (mut file, mut length) = (room.clone(), before);
    let number = model::bank_write(bit_depth, bank, &mut file, &mut length);
    let expected = Written {
        number,
        room: file,
        length,
    };
    let side = random.pick(&[Side::Before, Side::After]);
    let found = library_write(bit_depth, bank, &room, before, side, number != 0);
    assert!(
        found == expected,
        "the writer at depth {bit_depth} is not the model's: answer {}, the model's {number}",
        found.number
    );
    found
}

/// The outputs of the reader, for any number of files.
struct Outputs {
    bank: Guarded<i16>,
    bit_depth: Guarded<u8>,
}

impl Outputs {
    fn new(before: &Read, side: Side, rejected: bool) -> Outputs {
        Outputs {
            bank: output(&before.bank, side, rejected),
            bit_depth: output(&[before.bit_depth], side, rejected),
        }
    }
}

/// What the reader is given beside a file: outputs that hold the same before every call. Those for files that the model rejects cannot
/// be written.
pub struct Reader {
    side: Side,
    before: Read,
    open: Outputs,
    locked: Outputs,
}

impl Reader {
    /// Draws what stands in the outputs.
    pub fn new(random: &mut Random, bank_length: usize) -> Reader {
        let side = random.pick(&[Side::Before, Side::After]);
        let before = Read {
            number: 0,
            bank: vec![random.next() as i16; bank_length],
            bit_depth: random.byte(256),
        };
        Reader {
            side,
            open: Outputs::new(&before, side, false),
            locked: Outputs::new(&before, side, true),
            before,
        }
    }

    /// The model's outcome.
    pub fn model(&self, file: &[u8]) -> Read {
        let (mut bank, mut bit_depth) = (self.before.bank.clone(), self.before.bit_depth);
        let number = model::bank_read(file, &mut bank, &mut bit_depth);
        Read { number, bank, bit_depth }
    }

    /// The library's outcome.
    pub fn library(&mut self, file: &[u8], rejected: bool) -> Read {
        let file = Guarded::read_only(file, self.side);
        let outputs = if rejected { &mut self.locked } else { &mut self.open };
        if !rejected {
            outputs.bank.get_mut().copy_from_slice(&self.before.bank);
            outputs.bit_depth.get_mut()[0] = self.before.bit_depth;
        }
        let answer = raspbegonia::bank_read_number(file.get(), outputs.bank.get_mut(), &mut outputs.bit_depth.get_mut()[0]);
        Read {
            number: number(answer),
            bank: outputs.bank.get().to_vec(),
            bit_depth: outputs.bit_depth.get()[0],
        }
    }

    /// Reads by both and returns the outcome, which must be the same.
    pub fn agreed(&mut self, file: &[u8]) -> Read {
        let expected = self.model(file);
        let found = self.library(file, expected.number != 0);
        assert!(
            found == expected,
            "the reader is not the model's: answer {}, the model's {}; file {file:02x?}",
            found.number,
            expected.number
        );
        found
    }
}
