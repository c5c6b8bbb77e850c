//! The program `cross_filters`, which names the cross-component filters of a bank file that H.266 cannot send: how it is run, random files
//! for it, and what it has to print of them.
use crate::bank_files::{bank, file, filters, mend_cross_filters};
use crate::field_damage::{damaged, fields, FIELD_DAMAGES};
use crate::random::Random;
use raspbegonia::{BANK_FILE_BYTES, BANK_NUMBERS};
use std::fs::{self, File};
use std::io::{ErrorKind, Seek, Write};
use std::path::Path;
use std::process::{Command, Output, Stdio};
use std::sync::atomic::{AtomicUsize, Ordering};
use std::thread;
use std::time::Duration;

/// The most bytes that the program reads: the longest file, and a field of the largest length behind it.
pub const MOST_READ: usize = BANK_FILE_BYTES + 3 + 0xFFFF;

fn program(stdin: Stdio) -> Command {
    let path = Path::new(env!("CARGO_MANIFEST_DIR")).join("../../target/bin/cross_filters");
    assert!(
        path.exists(),
        "target/bin/cross_filters is missing: run `make compare` at the top of the repository"
    );
    let mut command = Command::new(path);
    command.stdin(stdin).stdout(Stdio::piped()).stderr(Stdio::piped());
    command
}

/// What was printed. The program ends well, also where it refuses a file.
fn text(output: Output) -> String {
    assert!(output.status.success(), "the program: {}", output.status);
    assert_eq!(String::from_utf8_lossy(&output.stderr), "", "the program's standard error");
    String::from_utf8(output.stdout).expect("the program prints text")
}

/// A file that is open and has no name any more, so that nothing is left of it, whatever happens.
fn opened(bytes: &[u8]) -> File {
    static OPENED: AtomicUsize = AtomicUsize::new(0);
    let name = format!("cross_filters.{}.{}", std::process::id(), OPENED.fetch_add(1, Ordering::Relaxed));
    let path = std::env::temp_dir().join(name);
    let mut file = File::options()
        .create_new(true)
        .read(true)
        .write(true)
        .open(&path)
        .expect("a new file");
    fs::remove_file(&path).expect("the file that was made");
    file.write_all(bytes).and_then(|()| file.rewind()).expect("room for a bank file");
    file
}

/// What the program prints of a file, of which it may leave the end unread.
pub fn printed(file: &[u8]) -> String {
    text(program(opened(file).into()).output().expect("the program runs"))
}

/// How it ends, what it prints, and what it says on standard error, where its input is a folder, which can be opened and not read.
pub fn of_a_folder() -> (Option<i32>, String, String) {
    let folder = File::open(env!("CARGO_MANIFEST_DIR")).expect("the folder of these tests");
    let output = program(folder.into()).output().expect("the program runs");
    let lossy = |bytes: &[u8]| String::from_utf8_lossy(bytes).into_owned();
    (output.status.code(), lossy(&output.stdout), lossy(&output.stderr))
}

/// What it prints of a file that comes through a pipe, piece by piece.
pub fn printed_in_pieces<'a>(pieces: impl Iterator<Item = &'a [u8]>) -> String {
    let mut child = program(Stdio::piped()).spawn().expect("the program runs");
    let mut pipe = child.stdin.take().expect("a pipe to its standard input");
    for piece in pieces {
        match pipe.write_all(piece) {
            // it has read enough
            Err(error) if error.kind() == ErrorKind::BrokenPipe => break,
            written => written.expect("the program reads"),
        }
        thread::sleep(Duration::from_millis(1));
    }
    drop(pipe);
    text(child.wait_with_output().expect("the program ends"))
}

/// What the model reads: a bank, or the number for which the file is refused.
fn read(file: &[u8]) -> Result<Vec<i16>, u8> {
    let (mut bank, mut bit_depth) = (vec![0; BANK_NUMBERS], 0);
    match model::bank_read(file, &mut bank, &mut bit_depth) {
        0 => Ok(bank),
        number => Err(number),
    }
}

/// What has to be printed of a file.
pub fn expected(file: &[u8]) -> String {
    match read(file) {
        Ok(bank) => {
            let offenders = model::offending_cross_filters(&bank).into_iter();
            let lines = offenders.map(|(aps, component, filter)| format!("{aps} {component} {filter}\n"));
            lines.collect()
        }
        Err(number) => format!("refused {number}\n"),
    }
}

/// The kinds of answer, by what is printed and by what the bank has.
pub const KINDS: [&str; 10] = [
    "no cross-component filter",
    "none of some",
    "one",
    "2 to 9",
    "10 or more",
    "refused 3",
    "refused 11",
    "refused 16",
    "refused 17",
    "refused 18",
];

/// Which of them a file's answer is.
pub fn kind(file: &[u8]) -> usize {
    let (answer, bank) = (expected(file), read(file).unwrap_or_default());
    if bank.is_empty() {
        let refused = KINDS.iter().position(|kind| *kind == answer.trim_end());
        return refused.unwrap_or_else(|| panic!("no kind: {answer}"));
    }
    match answer.lines().count() {
        0 => usize::from(cross_places().into_iter().any(|place| bank[place] != 0)),
        1 => 2,
        2..10 => 3,
        _ => 4,
    }
}

/// Where a bank has cross-component coefficients.
pub fn cross_places() -> Vec<usize> {
    let cross = filters().into_iter().filter(|filter| filter.clips == 0);
    cross.flat_map(|filter| filter.start..filter.start + filter.coefficients).collect()
}

/// A random bank's file: of any cross-component filters, or of those that can be sent but for a few coefficients at most.
fn some_file(random: &mut Random) -> Vec<u8> {
    let (bit_depth, share) = (8 + random.byte(5), random.pick(&[1, 5, 20, 60, 300, 3000]));
    let mut numbers = bank(random, bit_depth, share);
    if !random.once_in(4) {
        mend_cross_filters(random, &mut numbers);
        let places = cross_places();
        for _ in 0..random.pick(&[0, 0, 0, 1, 1, 3, 9]) {
            numbers[random.pick(&places)] = random.pick(&[3, -3, 5, 65, -65, 96, 127, -127, -128]);
        }
    }
    file(bit_depth, &numbers)
}

/// More behind a file than the program reads: a field of any length, and any bytes.
fn made_long(random: &mut Random, mut file: Vec<u8>) -> Vec<u8> {
    let length: u16 = random.pick(&[0xFFFF, 0xFFFF, 0x1000, 38, 10, 1, 0]);
    file.push(random.pick(&[0, 1, 2, 4, 9, 255]));
    file.extend(length.to_be_bytes());
    let whole = MOST_READ + 1 + random.index(3000);
    file.extend((file.len()..whole).map(|_| random.byte(256)));
    file
}

/// The ways to make a file of a random bank's.
pub const WAYS: [&str; 4] = ["as written", "damaged", "prefix", "longer than is read"];

/// A file, and which way it was made.
pub fn made_file(random: &mut Random) -> (usize, Vec<u8>) {
    let file = some_file(random);
    match random.below(8) {
        0..4 => (0, file),
        4 | 5 => match damaged(random, &fields(&file), &mut [0; FIELD_DAMAGES.len()]) {
            Some(spoilt) => (1, spoilt),
            None => (0, file),
        },
        6 => (2, file[..random.index(file.len())].to_vec()),
        _ => (3, made_long(random, file)),
    }
}
