//! Coefficients of cross-component filters: those that H.266 can send, which the cross-component filter takes wherever they stand; and the
//! program that names the filters of a bank file with others.
use compare::bank_files::file;
use compare::cross_filters::{cross_places, expected, kind, made_file, of_a_folder, printed, printed_in_pieces, KINDS, MOST_READ, WAYS};
use compare::random::Random;
use compare::seeds;
use raspbegonia::{Fault, FixedTables, Parameters, Picture, BANK_FILE_BYTES, BANK_NUMBERS};
use std::fs;
use std::path::{Path, PathBuf};

/// What H.266 can send, one by one.
const SENDABLE: [i16; 15] = [-64, -32, -16, -8, -4, -2, -1, 0, 1, 2, 4, 8, 16, 32, 64];

/// The smallest picture, in 4:2:0.
const PICTURE: Picture = Picture {
    width: 8,
    height: 8,
    ctb_log2: 5,
    bit_depth: 10,
    chroma_format: 1,
    slice_count: 1,
    across_tiles: true,
    across_slices: true,
    virtual_columns: &[],
    virtual_rows: &[],
    tile_columns: &[0],
    tile_rows: &[0],
    slice_map: &[0],
    subpic_map: &[0],
    subpic_across: &[1; 64],
};

/// Its one CTB is filtered by the luma filters of APS 6, alternative 0 of APS 2, Cb's cross-component filter 0 of APS 3 and Cr's filter 3
/// of APS 5.
fn parameters(bank: &[i16]) -> Parameters<'_> {
    Parameters {
        slice_params: &[1, 6, 0, 0, 0, 0, 0, 0, 2, 3, 5],
        bank,
        ctb_params: &[1, 1, 1, 16, 0, 0, 1, 4],
        ctb_list: &[0],
    }
}

/// Samples that no filter but one of zeros leaves as they are.
fn plane<const SAMPLES: usize>() -> [u16; SAMPLES] {
    std::array::from_fn(|k| (k * k * 37 % 1024) as u16)
}

/// The number that a filter answers with, and what stands in its output, which is 7,777 throughout before the call.
fn filtered<const SAMPLES: usize>(filter: impl FnOnce(&mut [u16]) -> Result<(), Fault>) -> (u8, [u16; SAMPLES]) {
    let mut output = [7777; SAMPLES];
    let answer = filter(&mut output);
    (answer.map_or_else(Fault::number, |()| 0), output)
}

fn luma(bank: &[i16]) -> (u8, [u16; 64]) {
    let fixed = FixedTables {
        filters: &[0; 768],
        map: &[0; 400],
    };
    filtered(|output| raspbegonia::luma(&PICTURE, &parameters(bank), &fixed, &plane::<64>(), output))
}

fn chroma(component: u8, bank: &[i16]) -> (u8, [u16; 16]) {
    filtered(|output| raspbegonia::chroma(&PICTURE, component, &parameters(bank), &plane::<16>(), output))
}

fn cross_component(component: u8, bank: &[i16]) -> (u8, [u16; 16]) {
    filtered(|output| raspbegonia::cross_component(&PICTURE, component, &parameters(bank), &plane::<64>(), &plane::<16>(), output))
}

/// A bank whose luma and chroma filters are all 7s, which is no cross-component coefficient that can be sent; its cross-component filters are 0.
fn plain_bank() -> Vec<i16> {
    let mut bank = vec![7; BANK_NUMBERS];
    cross_places().into_iter().for_each(|place| bank[place] = 0);
    bank
}

/// They are accepted; few of them change a sample.
#[test]
fn every_coefficient_that_can_be_sent_at_every_place() {
    let (mut bank, places) = (plain_bank(), cross_places());
    assert_eq!(places.len(), 448);
    let (mut accepted, mut changed) = (0, 0);
    for place in places {
        for coefficient in SENDABLE {
            bank[place] = coefficient;
            for component in [0, 1] {
                let (number, output) = cross_component(component, &bank);
                assert_eq!(number, 0, "{coefficient} at {place}");
                accepted += 1;
                changed += usize::from(output != plane());
            }
        }
        bank[place] = 0;
    }
    eprintln!("  cross-component coefficients: 448 places, {accepted} calls accepted, of which {changed} change a sample");
    assert_eq!(accepted, 448 * 15 * 2);
    // each component uses one filter: 7 places, and 14 coefficients that are not 0
    assert!(
        changed > 0 && changed <= 7 * 14 * 2,
        "changed by filters that are not used, or by none"
    );
}

/// The other two filters take every cross-component coefficient, and do the same.
#[test]
fn luma_and_chroma_take_every_coefficient() {
    let all = |bank: &[i16]| (luma(bank), chroma(0, bank), chroma(1, bank));
    let mut bank = plain_bank();
    let expected = all(&bank);
    assert_eq!((expected.0 .0, expected.1 .0, expected.2 .0), (0, 0, 0));
    assert!(expected.0 .1 != plane() && expected.1 .1 != plane());
    for coefficient in -128..=127 {
        // in the filter that is Cb's cross-component filter
        bank[3 * 752 + 696] = coefficient;
        assert!(all(&bank) == expected, "{coefficient}");
    }
    eprintln!("  luma and chroma: 256 cross-component coefficients accepted");
}

#[test]
fn the_program_names_the_filters_of_random_files() {
    let (mut ways, mut kinds) = ([0; WAYS.len()], [0; KINDS.len()]);
    let whole = seeds::run("cross_filters", 15_000_000, 800, |seed| {
        let (way, file) = made_file(&mut Random::new(seed));
        assert_eq!(printed(&file), expected(&file), "a file of {} bytes, {}", file.len(), WAYS[way]);
        ways[way] += 1;
        kinds[kind(&file)] += 1;
    });
    let ways: Vec<(&str, usize)> = WAYS.into_iter().zip(ways).collect();
    let kinds: Vec<(&str, usize)> = KINDS.into_iter().zip(kinds).collect();
    eprintln!("  cross_filters, how files were made: {ways:?}");
    eprintln!("  cross_filters, what was printed of them: {kinds:?}");
    let never: Vec<_> = ways.into_iter().chain(kinds).filter(|(_, files)| *files == 0).collect();
    assert!(!whole || never.is_empty(), "no such file: {never:?}");
}

/// A pipe gives what there is, so the program has to ask again.
#[test]
fn the_program_reads_a_file_that_comes_in_pieces() {
    let mut kinds = [0; KINDS.len()];
    seeds::run("cross_filters, in pieces", 16_000_000, 60, |seed| {
        let mut random = Random::new(seed);
        let (_, file) = made_file(&mut random);
        let pieces = file.chunks(1 + file.len() / (1 + random.index(6)));
        assert_eq!(printed_in_pieces(pieces), expected(&file), "a file of {} bytes", file.len());
        kinds[kind(&file)] += 1;
    });
    eprintln!("  cross_filters, in pieces: {:?}", KINDS.into_iter().zip(kinds).collect::<Vec<_>>());
}

/// Behind the longest file stands the longest field. Where its last byte is there it has a length that is not listed, else it is cut
/// short; what follows it changes nothing.
#[test]
fn the_program_reads_as_far_as_a_fault_can_lie() {
    let mut longest = file(12, &[1; BANK_NUMBERS]);
    assert_eq!((longest.len(), printed(&longest).as_str()), (BANK_FILE_BYTES, ""));
    assert_eq!(MOST_READ, 76_046);
    longest.extend([4, 0xFF, 0xFF]);
    longest.resize(200_000, 0);
    for (length, answer) in [
        (BANK_FILE_BYTES + 1, "refused 16\n"),
        (MOST_READ - 1, "refused 16\n"),
        (MOST_READ, "refused 17\n"),
        (MOST_READ + 1, "refused 17\n"),
        (200_000, "refused 17\n"),
    ] {
        let file = &longest[..length];
        assert_eq!(
            (printed(file).as_str(), expected(file).as_str()),
            (answer, answer),
            "{length} bytes"
        );
    }
}

/// What can't be read is no empty file: nothing is printed, and the exit status is 1.
#[test]
fn the_program_says_that_its_input_cannot_be_read() {
    let (status, stdout, stderr) = of_a_folder();
    assert_eq!(
        (status, stdout.as_str(), stderr.as_str()),
        (Some(1), "", "cross_filters: standard input can't be read\n")
    );
}

/// A bank by its filters: where each begins, and its numbers.
fn bank_of(filters: &[(usize, &[i16])]) -> Vec<i16> {
    let mut bank = vec![0; BANK_NUMBERS];
    for (start, numbers) in filters {
        bank[*start..start + numbers.len()].copy_from_slice(numbers);
    }
    bank
}

/// Where a cross-component filter begins.
const fn cross(aps: usize, component: usize, filter: usize) -> usize {
    752 * aps + 696 + 28 * component + 7 * filter
}

/// All that can be sent occurs in its cross-component filters; its luma and chroma filters have other coefficients.
fn clean_bank() -> Vec<i16> {
    bank_of(&[
        (20 * 24, &[2, -3, 5, -3, 1, -8, 14, -8, 1, 0, -11, 40]),
        (20 * 24 + 12, &[1024, 1024, 1024, 1024, 1024, 1024, 128, 1024, 1024, 1024, 128, 32]),
        (5 * 752 + 24 * 24, &[-128, 127, 3, 0, 0, 0, 0, 0, 0, 0, 0, 65]),
        (752 + 600 + 12, &[-2, 4, 7, 4, -2, 16, 1024, 1024, 128, 128, 32, 8]),
        (cross(0, 0, 0), &[0, 1, -1, 2, -2, 4, -4]),
        (cross(0, 1, 3), &[8, -8, 16, -16, 32, -32, 0]),
        (cross(4, 0, 1), &[64, 64, 64, 64, 64, 64, 64]),
        (cross(7, 1, 2), &[-64, 0, 0, 0, 0, 0, 1]),
    ])
}

/// Three cross-component filters cannot be sent; the others can. By component first they would come in another order.
fn offending_bank() -> Vec<i16> {
    bank_of(&[
        (3 * 24, &[7, 0, 0, 0, 0, 0, 0, 0, 0, 0, 0, 0, 64]),
        (6 * 752 + 600, &[0, 3, 0, 0, 0, 0, 0, 256]),
        (cross(0, 0, 2), &[0, 0, 0, 64, 0, 0, 0]),
        (cross(0, 1, 0), &[1, 2, 4, 8, 16, 32, 64]),
        (cross(0, 1, 3), &[0, 0, 0, 3, 0, 0, 0]),
        (cross(2, 0, 0), &[-128, 0, 0, 0, 0, 0, 0]),
        (cross(7, 1, 2), &[-1, -2, -4, -8, -16, -32, -64]),
        (cross(7, 1, 3), &[16, 0, 0, -2, 0, 0, 127]),
    ])
}

/// The file that is refused is the one with offenders without its last byte: of what stands in front of the fault nothing is printed.
fn described() -> [(&'static str, Vec<u8>); 4] {
    let offenders = file(8, &offending_bank());
    let cut_short = offenders[..offenders.len() - 1].to_vec();
    [
        ("clean", file(10, &clean_bank())),
        ("offenders", offenders),
        ("refused", cut_short),
        ("empty", Vec::new()),
    ]
}

fn at_the_top(name: &str) -> PathBuf {
    Path::new(env!("CARGO_MANIFEST_DIR")).join("../..").join(name)
}

fn stored(name: &str) -> PathBuf {
    at_the_top("examples/cross_filters").join(name)
}

#[test]
fn the_program_prints_what_is_stored() {
    for (name, described) in described() {
        let file = fs::read(stored(&format!("{name}.bank"))).expect("a stored file");
        let stdout = fs::read_to_string(stored(&format!("{name}.stdout"))).expect("a stored output");
        assert!(file == described, "{name}.bank is not the file that is described here");
        assert_eq!(stdout, expected(&file), "{name}.stdout");
        assert_eq!(printed(&file), stdout, "{name}.bank");
    }
}

/// What the program is run on where it is proved is one of them.
#[test]
fn the_program_is_proved_with_the_stored_offenders() {
    for (name, own) in [("offenders.bank", "stdin"), ("offenders.stdout", "stdout")] {
        let own = fs::read(at_the_top("crates/cross_filters").join(own)).expect("the program's own file");
        assert!(fs::read(stored(name)).expect("a stored file") == own, "{name}");
    }
}

/// Stored files open and are written again as they are, also one with cross-component filters that H.266 cannot send.
#[test]
fn stored_files_open_whatever_their_cross_component_filters() {
    for name in ["clean", "offenders"] {
        let file = fs::read(stored(&format!("{name}.bank"))).expect("a stored file");
        let (mut bank, mut again) = (vec![0; BANK_NUMBERS], vec![0; BANK_FILE_BYTES]);
        let bit_depth = raspbegonia::bank_read(&file, &mut bank).expect("a file that opens");
        assert_eq!(raspbegonia::bank_write(bit_depth, &bank, &mut again), Ok(file.len()));
        assert!(again[..file.len()] == file, "{name}.bank is written as another file");
        assert_eq!((luma(&bank).0, chroma(0, &bank).0, chroma(1, &bank).0), (0, 0, 0), "{name}");
    }
}
