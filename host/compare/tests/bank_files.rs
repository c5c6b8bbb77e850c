//! Bank files: random banks are written and read back; wrong banks, depths, lengths and damaged files are answered as the model answers
//! them. Every file and bank stands in guarded memory; where the model rejects, the outputs cannot be written.
use compare::bank_files::{agreed_write, bank, file, filters, Reader};
use compare::field_damage::{damaged, fields, Fields, FIELD_DAMAGES};
use compare::random::Random;
use compare::seeds;
use raspbegonia::{bank_read, bank_write, BANK_FILE_BYTES, BANK_NUMBERS};
use std::fmt;
use std::fs;
use std::path::Path;

/// How many calls were answered with each number.
#[derive(Default)]
struct Answers([usize; 19]);

impl Answers {
    fn count(&mut self, number: u8) {
        self.0[usize::from(number)] += 1;
    }

    /// Those of some numbers that were never the answer.
    fn missing(&self, numbers: &[usize]) -> Vec<usize> {
        numbers.iter().copied().filter(|number| self.0[*number] == 0).collect()
    }
}

impl fmt::Display for Answers {
    fn fmt(&self, f: &mut fmt::Formatter) -> fmt::Result {
        let met = self.0.iter().enumerate().filter(|(_, n)| **n > 0);
        let parts: Vec<String> = met.map(|(number, n)| format!("{number}: {n}")).collect();
        write!(f, "{} calls, by answer {}", self.0.iter().sum::<usize>(), parts.join(", "))
    }
}

/// The wrapper's forms without a number to be written give the same.
fn by_the_wrapper(bit_depth: u8, numbers: &[i16], file: &[u8]) {
    let mut room = vec![0; BANK_FILE_BYTES];
    assert_eq!(bank_write(bit_depth, numbers, &mut room), Ok(file.len()));
    assert_eq!(&room[..file.len()], file);
    let mut found = vec![1; BANK_NUMBERS];
    assert_eq!(bank_read(file, &mut found), Ok(bit_depth));
    assert_eq!(found, numbers);
}

/// Whether a bank has a cross-component filter that H.266 cannot send; bank files take it as any other.
fn has_offender(bank: &[i16]) -> bool {
    !model::offending_cross_filters(bank).is_empty()
}

/// A random bank, from one with no filter to one with all: written by both into room of any size that is enough, and read back.
fn written_and_read_back(seed: u64, lengths: &mut Vec<usize>, with_offenders: &mut usize) {
    let mut random = Random::new(seed);
    let (bit_depth, share) = (8 + (seed % 5) as u8, random.pick(&[1, 1, 2, 10, 100, 400, 3000]));
    let numbers = bank(&mut random, bit_depth, share);
    let room = BANK_FILE_BYTES + random.pick(&[0, 0, 1, 700]);
    let written = agreed_write(&mut random, bit_depth, &numbers, room);
    assert_eq!(written.number, 0);
    let file = &written.room[..written.length as usize];
    let read = Reader::new(&mut random, BANK_NUMBERS).agreed(file);
    assert_eq!((read.number, read.bit_depth), (0, bit_depth));
    assert!(read.bank == numbers, "what is read is not what was written");
    by_the_wrapper(bit_depth, &numbers, file);
    lengths.push(file.len());
    *with_offenders += usize::from(has_offender(&numbers));
}

#[test]
fn banks_are_written_and_read_back() {
    let (mut lengths, mut with_offenders) = (Vec::new(), 0);
    let whole = seeds::run("banks", 11_000_000, 5000, |seed| {
        written_and_read_back(seed, &mut lengths, &mut with_offenders)
    });
    let least = lengths.iter().min().copied().unwrap_or(0);
    let most = lengths.iter().max().copied().unwrap_or(0);
    eprintln!("  banks: files of {least} to {most} bytes");
    eprintln!("  banks: {with_offenders} with a cross-component filter that H.266 cannot send");
    assert!(!whole || (least, most) == (4, BANK_FILE_BYTES), "no shortest or no longest file");
    assert!(!whole || with_offenders >= 1000, "too few filters that H.266 cannot send");
}

/// Room for a file: mostly enough.
fn some_room(random: &mut Random) -> usize {
    match random.below(5) {
        0 => BANK_FILE_BYTES - 1,
        1 => random.index(BANK_FILE_BYTES),
        _ => BANK_FILE_BYTES + random.index(3),
    }
}

/// A bank of another length, or with a number out of its range, or neither.
fn spoilt_bank(random: &mut Random, bit_depth: u8) -> Vec<i16> {
    let share = random.pick(&[1, 30, 1000]);
    let mut numbers = bank(random, bit_depth, share);
    match random.below(5) {
        0 => numbers.truncate(random.pick(&[0, 752, BANK_NUMBERS - 1])),
        1 => numbers.push(0),
        2 | 3 => {
            let filter = &filters()[random.index(328)];
            let k = random.index(filter.coefficients + filter.clips);
            let most = 1 << bit_depth;
            let bad = if k < filter.coefficients {
                random.pick(&[-129, 128, i16::MIN, i16::MAX])
            } else {
                random.pick(&[-1, most + 1, i16::MIN, i16::MAX])
            };
            numbers[filter.start + k] = bad;
        }
        _ => {}
    }
    numbers
}

#[test]
fn wrong_banks_depths_and_room() {
    let mut answers = Answers::default();
    let whole = seeds::run("wrong banks", 12_000_000, 5000, |seed| {
        let mut random = Random::new(seed);
        let bit_depth = 8 + random.byte(5);
        let numbers = spoilt_bank(&mut random, bit_depth);
        let said = if random.once_in(5) {
            random.pick(&[0, 7, 13, 32, 255])
        } else {
            bit_depth
        };
        let room = some_room(&mut random);
        let written = agreed_write(&mut random, said, &numbers, room);
        let wrapped = bank_write(said, &numbers, &mut vec![0; room]).map_err(|fault| fault.number());
        assert_eq!(wrapped.err().unwrap_or(0), written.number);
        answers.count(written.number);
    });
    eprintln!("  wrong banks: {answers}");
    assert!(
        !whole || answers.missing(&[0, 3, 5, 11]).is_empty(),
        "a number was never the answer"
    );
}

/// How many files are made of one random bank by damage.
const DAMAGED_FILES: usize = 40;

/// How many damaged files have to be compared.
const ENOUGH: usize = 100_000;

/// What a run over damaged files has done.
#[derive(Default)]
struct Damaged {
    files: usize,
    times: [usize; FIELD_DAMAGES.len()],
    answers: Answers,
    /// Accepted files with a cross-component filter that H.266 cannot send.
    with_offenders: usize,
}

/// The fields of a random bank's file: few of them as a rule, sometimes all that a bank can have.
fn some_fields(random: &mut Random) -> Fields {
    let share = match random.below(60) {
        0 => 1,
        1..8 => 10,
        _ => random.pick(&[60, 100, 150, 300]),
    };
    let bit_depth = 8 + random.byte(5);
    let numbers = bank(random, bit_depth, share);
    fields(&file(bit_depth, &numbers))
}

/// The answer is the model's; and an accepted file is what is written of it, so that it has no second form.
fn damaged_files(seed: u64, done: &mut Damaged) {
    let mut random = Random::new(seed);
    let sound = some_fields(&mut random);
    let bank_length = if random.once_in(100) {
        random.pick(&[0, BANK_NUMBERS - 1, BANK_NUMBERS + 1])
    } else {
        BANK_NUMBERS
    };
    let mut reader = Reader::new(&mut random, bank_length);
    for _ in 0..DAMAGED_FILES {
        if let Some(spoilt) = damaged(&mut random, &sound, &mut done.times) {
            let read = reader.agreed(&spoilt);
            done.files += 1;
            done.answers.count(read.number);
            match read.number {
                0 => {
                    by_the_wrapper(read.bit_depth, &read.bank, &spoilt);
                    done.with_offenders += usize::from(has_offender(&read.bank));
                }
                number => assert_eq!(bank_read(&spoilt, &mut vec![0; bank_length]).unwrap_err().number(), number),
            }
        }
    }
}

#[test]
fn files_that_were_damaged() {
    let mut done = Damaged::default();
    let whole = seeds::run("damaged files", 13_000_000, 3000, |seed| damaged_files(seed, &mut done));
    eprintln!("  damaged files: {} of them, {}", done.files, done.answers);
    eprintln!(
        "  damaged files: of the accepted ones {} with a cross-component filter that H.266 cannot send",
        done.with_offenders
    );
    if whole {
        assert!(done.files >= ENOUGH, "too few files were damaged");
        assert!(done.with_offenders >= 1000, "too few filters that H.266 cannot send");
        assert_eq!(
            done.answers.missing(&[0, 3, 5, 11, 16, 17, 18]),
            Vec::<usize>::new(),
            "never the answer"
        );
        let never = FIELD_DAMAGES.iter().zip(&done.times).filter(|(_, n)| **n == 0);
        assert_eq!(
            never.map(|(damage, _)| damage.name).collect::<Vec<_>>(),
            Vec::<&str>::new(),
            "never done"
        );
    }
}

/// Every prefix of a file: the whole fields in front of it are a file of their own, any other prefix ends in a field cut short.
fn prefixes(random: &mut Random, file: &[u8], answers: &mut Answers) {
    let mut ends = vec![0];
    for field in fields(file) {
        ends.push(ends[ends.len() - 1] + field.len());
    }
    let mut reader = Reader::new(random, BANK_NUMBERS);
    for length in 0..=file.len() {
        let expected = match length {
            0 => 18,
            _ if ends.contains(&length) => 0,
            _ => 16,
        };
        let read = reader.agreed(&file[..length]);
        assert_eq!(read.number, expected, "{length} bytes of {}", file.len());
        answers.count(read.number);
    }
}

#[test]
fn every_prefix_of_a_file() {
    let mut answers = Answers::default();
    seeds::run("prefixes", 14_000_000, 10, |seed| {
        let mut random = Random::new(seed);
        let share = if seed % 10 == 0 { 1 } else { 60 };
        let numbers = bank(&mut random, 12, share);
        prefixes(&mut random, &file(12, &numbers), &mut answers);
    });
    eprintln!("  prefixes: {answers}");
}

fn text(path: &str) -> String {
    let path = Path::new(env!("CARGO_MANIFEST_DIR")).join("../..").join(path);
    fs::read_to_string(&path).unwrap_or_else(|error| panic!("{}: {error}", path.display()))
}

/// The bytes of the page's worked file, from the rows `| offset | `bytes` | what they say |` of its table. The offsets have to be those of
/// the bytes.
fn worked_file(page: &str) -> Vec<u8> {
    let mut file = Vec::new();
    for line in page.lines() {
        let columns: Vec<&str> = line.split('|').map(str::trim).collect();
        let &["", offset, bytes, _, ""] = columns.as_slice() else {
            continue;
        };
        let Some(bytes) = bytes.strip_prefix('`').and_then(|bytes| bytes.strip_suffix('`')) else {
            continue;
        };
        let Ok(offset) = offset.parse::<usize>() else { continue };
        assert_eq!(offset, file.len(), "the offset of {line}");
        file.extend(
            bytes
                .split(' ')
                .map(|byte| u8::from_str_radix(byte, 16).unwrap_or_else(|_| panic!("{byte} in {line}"))),
        );
    }
    file
}

/// The bank of the page's worked file, as the page says it.
fn worked_bank() -> Vec<i16> {
    let mut bank = vec![0; BANK_NUMBERS];
    let mut put = |start: usize, numbers: &[i16]| bank[start..start + numbers.len()].copy_from_slice(numbers);
    put(20 * 24, &[2, -3, 5, -3, 1, -8, 14, -8, 1, 0, -11, 40]);
    put(20 * 24 + 12, &[1024, 1024, 1024, 1024, 1024, 1024, 128, 1024, 1024, 1024, 128, 32]);
    put(752 + 600 + 12, &[-2, 4, 7, 4, -2, 16]);
    put(752 + 600 + 12 + 6, &[1024, 1024, 128, 128, 32, 8]);
    put(7 * 752 + 696 + 28 + 2 * 7, &[0, 4, -8, 0, 16, -1, 0]);
    bank
}

#[test]
fn the_pages_worked_file_is_the_librarys() {
    let file = worked_file(&text("docs/bank-files.md"));
    assert_eq!(file.len(), 81, "a depth and three filters");
    by_the_wrapper(10, &worked_bank(), &file);
}

/// The bytes that the C example prints, in rows of hexadecimal numbers.
#[test]
fn the_c_example_writes_the_pages_worked_file() {
    let printed = text("examples/bank.stdout");
    let rows = printed.lines().filter_map(|line| line.strip_prefix("  "));
    let bytes: Vec<u8> = rows
        .flat_map(str::split_whitespace)
        .map(|byte| u8::from_str_radix(byte, 16).unwrap())
        .collect();
    assert_eq!(bytes, worked_file(&text("docs/bank-files.md")));
}

/// The drawing has a text of class `b` for each byte.
#[test]
fn the_drawing_shows_the_pages_worked_file() {
    let drawing = text("docs/bank-file.svg");
    let bytes: Vec<u8> = drawing
        .split(r#"class="b""#)
        .skip(1)
        .map(|rest| rest.split(['>', '<']).nth(1).expect("a text and its byte"))
        .map(|byte| u8::from_str_radix(byte, 16).unwrap())
        .collect();
    assert_eq!(bytes, worked_file(&text("docs/bank-files.md")));
}
