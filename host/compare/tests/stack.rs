//! A call fits the stack that the header asks for, and the README and the header name the same number. Each function runs on a thread
//! whose stack has just this size, is painted beforehand and ends at an inaccessible page; what is no longer painted afterwards was
//! used.
use compare::bank_files::{agreed_write, bank, file, library_write, Reader};
use compare::guarded::Side;
use compare::input::{Input, Operation};
use compare::layout::CHROMA_FORMATS;
use compare::picture::picture;
use compare::random::Random;
use compare::run::{agreed, library, Outcome};
use raspbegonia::{BANK_FILE_BYTES, BANK_NUMBERS};
use std::ffi::c_void;
use std::ptr;

extern "C" {
    fn mmap(address: *mut c_void, length: usize, protection: i32, flags: i32, file: i32, offset: i64) -> *mut c_void;
    fn mprotect(address: *mut c_void, length: usize, protection: i32) -> i32;
    fn munmap(address: *mut c_void, length: usize) -> i32;
    fn pthread_attr_init(attributes: *mut Attributes) -> i32;
    fn pthread_attr_setstack(attributes: *mut Attributes, lowest: *mut c_void, size: usize) -> i32;
    fn pthread_attr_destroy(attributes: *mut Attributes) -> i32;
    fn pthread_create(
        thread: *mut usize,
        attributes: *const Attributes,
        start: extern "C" fn(*mut c_void) -> *mut c_void,
        data: *mut c_void,
    ) -> i32;
    fn pthread_join(thread: usize, result: *mut *mut c_void) -> i32;
}

/// pthread_attr_t of x86-64 Linux, 56 bytes; with room to spare.
#[repr(C, align(16))]
struct Attributes([u8; 128]);

const PAGE: usize = 4096;
const PAINT: u8 = 0xA5;

/// The number before " KB" in the first sentence that speaks of a stack of so many KB.
fn kilobytes(text: &str, before: &str) -> usize {
    let (_, rest) = text.split_once(before).unwrap_or_else(|| panic!("no \"{before}\""));
    let (number, _) = rest.split_once(" KB").expect("a number of KB");
    number.parse().unwrap_or_else(|_| panic!("{number} KB"))
}

/// What a call on a thread of its own has to do, and where that thread's stack was when it began.
struct Task<'a> {
    run: &'a mut dyn FnMut(),
    began: usize,
}

extern "C" fn start(data: *mut c_void) -> *mut c_void {
    // Safe: `stack_used` passes its task, which outlives the thread.
    let task = unsafe { &mut *(data as *mut Task) };
    let here = 0u8;
    task.began = ptr::addr_of!(here) as usize;
    (task.run)();
    ptr::null_mut()
}

/// How many bytes below its caller `run` used, on a stack of `size` bytes.
fn stack_used(size: usize, run: &mut dyn FnMut()) -> usize {
    let mut task = Task { run, began: 0 };
    // Safe: fresh memory, of which the lowest page stays inaccessible; the thread has ended before the memory is read and goes.
    unsafe {
        let memory = mmap(ptr::null_mut(), PAGE + size, 0, 0x22, -1, 0) as *mut u8;
        assert!(memory as isize != -1, "no memory for a stack of {size} bytes");
        let lowest = memory.add(PAGE);
        assert_eq!(mprotect(lowest as *mut c_void, size, 3), 0);
        ptr::write_bytes(lowest, PAINT, size);
        let mut attributes = Attributes([0; 128]);
        let mut thread = 0;
        assert_eq!(pthread_attr_init(&mut attributes), 0);
        assert_eq!(pthread_attr_setstack(&mut attributes, lowest as *mut c_void, size), 0);
        assert_eq!(
            pthread_create(&mut thread, &attributes, start, &mut task as *mut Task as *mut c_void),
            0
        );
        assert_eq!(pthread_join(thread, ptr::null_mut()), 0);
        pthread_attr_destroy(&mut attributes);
        let painted = (0..size).take_while(|k| *lowest.add(*k) == PAINT).count();
        munmap(memory as *mut c_void, PAGE + size);
        task.began - (lowest as usize + painted)
    }
}

/// Small and larger pictures of every CTB size and chroma format, some of which the operations reject.
fn pictures() -> Vec<Input> {
    let mut pictures = Vec::new();
    for seed in 0..4 {
        for ctb_log2 in 5..=7 {
            for chroma_format in CHROMA_FORMATS {
                let mut random = Random::new(10_000_000 + seed);
                pictures.push(picture(&mut random, ctb_log2, chroma_format));
            }
        }
    }
    pictures
}

/// The bytes that the header names.
fn named() -> usize {
    1024 * kilobytes(include_str!("../../../include/alf.h"), "a stack with ")
}

#[test]
fn the_readme_and_the_header_name_one_stack() {
    assert_eq!(1024 * kilobytes(include_str!("../../../README.md"), "a stack with "), named());
}

#[test]
fn every_call_fits_the_stack_that_the_header_names() {
    let size = named();
    let pictures = pictures();
    for operation in Operation::ALL {
        let mut most = 0;
        for input in &pictures {
            let expected = agreed(operation, input, Side::After);
            let mut found: Option<Outcome> = None;
            let used = stack_used(size, &mut || {
                found = Some(library(operation, input, Side::After, expected.number != 0))
            });
            assert_eq!(found, Some(expected), "{operation:?} on a stack of its own");
            most = most.max(used);
        }
        eprintln!("  stack, {operation:?}: at most {most} bytes of the {size} that the header names");
        assert!(most <= size, "{operation:?}");
    }
}

/// Few filters and all, and a file that ends too early.
#[test]
fn bank_files_fit_the_stack_that_the_header_names() {
    let (size, mut random) = (named(), Random::new(10_000_100));
    let (mut writing, mut reading) = (0, 0);
    for share in [1, 50, 4000] {
        let numbers = bank(&mut random, 12, share);
        let expected = agreed_write(&mut random, 12, &numbers, BANK_FILE_BYTES);
        let mut found = None;
        let room = vec![0; BANK_FILE_BYTES];
        writing = writing.max(stack_used(size, &mut || {
            found = Some(library_write(12, &numbers, &room, 0, Side::After, false).length)
        }));
        assert_eq!(found, Some(expected.length), "the writer on a stack of its own");

        let mut reader = Reader::new(&mut random, BANK_NUMBERS);
        let file = file(12, &numbers);
        for part in [&file[..], &file[..file.len() - 1]] {
            let (expected, mut found) = (reader.agreed(part), None);
            reading = reading.max(stack_used(size, &mut || found = Some(reader.library(part, expected.number != 0))));
            assert_eq!(found, Some(expected), "the reader on a stack of its own");
        }
    }
    eprintln!("  stack, bank files: at most {writing} bytes to write and {reading} to read of the {size} that the header names");
    assert!(writing.max(reading) <= size);
}
