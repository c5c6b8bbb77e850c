//! Bank files: what is written, what is read, and each number by itself and beside others.

use super::Random;
use crate::{bank_read, bank_write};

const BANK: usize = 8 * 752;
const ROOM: usize = 10_508;

/// The number and the file that was written; what must not be written is held to what stood there.
fn write(bit_depth: u8, bank: &[i16], room: usize) -> (u8, Vec<u8>) {
    let (mut file, mut length) = (vec![0xEE; room], 77);
    let number = bank_write(bit_depth, bank, &mut file, &mut length);
    if number != 0 {
        assert_eq!((length, file.iter().all(|&byte| byte == 0xEE)), (77, true), "written on rejection");
        return (number, Vec::new());
    }
    let rest = file.split_off(length as usize);
    assert!(rest.iter().all(|&byte| byte == 0xEE), "written behind the file");
    (0, file)
}

/// The file of a bank that is accepted.
fn written(bit_depth: u8, bank: &[i16]) -> Vec<u8> {
    let (number, file) = write(bit_depth, bank, ROOM);
    assert_eq!(number, 0);
    file
}

/// The number, and what is read: bank and depth stay as they were where the file is rejected.
fn read(file: &[u8]) -> Result<(u8, Vec<i16>), u8> {
    let (mut bank, mut bit_depth) = (vec![777; BANK], 99);
    match bank_read(file, &mut bank, &mut bit_depth) {
        0 => Ok((bit_depth, bank)),
        number => {
            assert_eq!((bit_depth, bank), (99, vec![777; BANK]), "written on rejection");
            Err(number)
        }
    }
}

/// The number alone.
fn number(fields: &[Vec<u8>]) -> u8 {
    read(&fields.concat()).err().unwrap_or(0)
}

fn field(tag: u8, value: &[u8]) -> Vec<u8> {
    let length = value.len() as u16;
    [&[tag, (length >> 8) as u8, length as u8], value].concat()
}

fn depth(bit_depth: u8) -> Vec<u8> {
    field(1, &[bit_depth])
}

/// A luma filter whose first coefficient is 1 and whose last clip is given.
fn luma_with_clip(aps: u8, filter: u8, clip: u16) -> Vec<u8> {
    let mut value = vec![0; 38];
    (value[0], value[1], value[2]) = (aps, filter, 1);
    value[36..].copy_from_slice(&clip.to_be_bytes());
    field(2, &value)
}

fn luma(aps: u8, filter: u8) -> Vec<u8> {
    luma_with_clip(aps, filter, 0)
}

/// A chroma alternative whose first clip is given.
fn chroma_with_clip(aps: u8, alternative: u8, clip: u16) -> Vec<u8> {
    let mut value = vec![0; 20];
    (value[0], value[1], value[7]) = (aps, alternative, 0xFF);
    value[8..10].copy_from_slice(&clip.to_be_bytes());
    field(3, &value)
}

fn chroma(aps: u8, alternative: u8) -> Vec<u8> {
    chroma_with_clip(aps, alternative, 0)
}

/// A cross-component filter whose last coefficient is 64.
fn cross(aps: u8, component: u8, filter: u8) -> Vec<u8> {
    field(4, &[aps, component, filter, 0, 0, 0, 0, 0, 0, 64])
}

/// A filter of zeros.
fn zeros(tag: u8, length: usize) -> Vec<u8> {
    field(tag, &vec![0; length])
}

/// A bank with all numbers within range, one in `share` of them not 0.
fn random_bank(random: &mut Random, bit_depth: u8, share: u64) -> Vec<i16> {
    let mut number = |index: usize| match (random.below(share), crate::judge::is_clip(index % 752)) {
        (0, true) => random.below((1 << bit_depth) + 1) as i16,
        (0, false) => random.below(256) as i16 - 128,
        _ => 0,
    };
    (0..BANK).map(&mut number).collect()
}

#[test]
fn a_bank_of_zeros_is_tag_1_alone() {
    for bit_depth in 8..=12 {
        let file = written(bit_depth, &[0; BANK]);
        assert_eq!(file, [1, 0, 1, bit_depth]);
        assert_eq!(read(&file), Ok((bit_depth, vec![0; BANK])));
    }
}

#[test]
fn a_full_bank_has_the_longest_file() {
    let file = written(8, &[1; BANK]);
    assert_eq!(file.len(), ROOM);
    assert_eq!(read(&file), Ok((8, vec![1; BANK])));
}

/// The three kinds by their bytes, coefficients and clips at both ends of their ranges.
#[test]
fn every_number_has_its_place() {
    let mut bank = vec![0; BANK];
    // APS 3: luma filter 24, then alternative 7; APS 7: Cr's filter 3.
    let luma = 3 * 752 + 24 * 24;
    (bank[luma], bank[luma + 11], bank[luma + 12], bank[luma + 23]) = (-128, 127, 1, 4096);
    let chroma = 3 * 752 + 600 + 7 * 12;
    (bank[chroma], bank[chroma + 5], bank[chroma + 6], bank[chroma + 11]) = (-1, 2, 256, 255);
    let cross = 7 * 752 + 696 + 28 + 3 * 7;
    (bank[cross], bank[cross + 6]) = (64, -64);
    let expected = [
        &[1, 0, 1, 12][..],
        &[2, 0, 38, 3, 24, 0x80, 0, 0, 0, 0, 0, 0, 0, 0, 0, 0, 0x7F, 0, 1],
        &[0; 20],
        &[0x10, 0, 3, 0, 20, 3, 7, 0xFF, 0, 0, 0, 0, 2, 1, 0],
        &[0; 8],
        &[0, 0xFF, 4, 0, 10, 7, 1, 3, 64, 0, 0, 0, 0, 0, 0xC0],
    ]
    .concat();
    assert_eq!(written(12, &bank), expected);
    assert_eq!(read(&expected), Ok((12, bank)));
}

#[test]
fn what_is_written_is_read_back() {
    let mut random = Random::new(3);
    for bit_depth in 8..=12 {
        for share in [1, 2, 20, 500, 3000] {
            let bank = random_bank(&mut random, bit_depth, share);
            assert_eq!(read(&written(bit_depth, &bank)), Ok((bit_depth, bank)));
        }
    }
}

/// 02, card 6: files with a cross-component filter that H.266 can't send still open and may be written again.
#[test]
fn cross_component_coefficients_are_not_judged() {
    for coefficient in -128..=127 {
        let mut bank = vec![0; BANK];
        (bank[696], bank[BANK - 1]) = (coefficient, 127);
        let file = written(8, &bank);
        assert_eq!(read(&file), Ok((8, bank)), "{coefficient}");
    }
}

#[test]
fn the_writer_judges_depth_lengths_and_numbers() {
    let bank = [0; BANK];
    for bit_depth in [0, 7, 13, 255] {
        assert_eq!(write(bit_depth, &bank, ROOM).0, 3);
    }
    for length in [0, BANK - 1, BANK + 1] {
        assert_eq!(write(10, &vec![0; length], ROOM).0, 5);
    }
    assert_eq!(write(10, &bank, ROOM + 1), write(10, &bank, ROOM));
    for room in [0, 4, ROOM - 1] {
        assert_eq!(write(10, &bank, room).0, 5);
    }
    for (index, wrong) in [(0, 128), (752 + 695, 1025), (BANK - 1, -129), (12, -1), (600, -129)] {
        let mut bank = [0; BANK];
        bank[index] = wrong;
        assert_eq!(write(10, &bank, ROOM).0, 11, "{wrong} at {index}");
    }
}

#[test]
fn the_writer_judges_lowest_first() {
    assert_eq!(write(7, &[999; 5], 0).0, 3);
    assert_eq!(write(8, &[999; BANK], ROOM - 1).0, 5);
    assert_eq!(write(8, &[999; BANK + 1], ROOM).0, 5);
    assert_eq!(write(8, &[999; BANK], ROOM).0, 11);
}

#[test]
fn the_reader_judges_the_banks_length_before_any_field() {
    for file in [&[][..], &[1], &[1, 0, 1, 7], &[1, 0, 1, 8]] {
        for length in [0, BANK - 1, BANK + 1] {
            let (mut bank, mut bit_depth) = (vec![777; length], 99);
            assert_eq!(bank_read(file, &mut bank, &mut bit_depth), 5);
            assert_eq!((bit_depth, bank), (99, vec![777; length]));
        }
    }
}

#[test]
fn depths() {
    for bit_depth in [0, 7, 13, 255] {
        assert_eq!(number(&[depth(bit_depth)]), 3);
        assert_eq!(number(&[depth(9), depth(bit_depth)]), 3, "in a second field too");
        assert_eq!(number(&[luma(0, 0), depth(bit_depth)]), 18, "the first faulty field decides");
    }
    assert_eq!(number(&[depth(8), depth(8)]), 18);
    assert_eq!(number(&[depth(8), luma(0, 0), depth(12)]), 18);
    assert_eq!(number(&[depth(8), luma(0, 0), depth(13)]), 3);
}

#[test]
fn clips() {
    for (bit_depth, most) in [(8, 256), (10, 1024), (12, 4096)] {
        assert_eq!(number(&[depth(bit_depth), luma_with_clip(0, 0, most)]), 0);
        assert_eq!(number(&[depth(bit_depth), luma_with_clip(0, 0, most + 1)]), 11);
        assert_eq!(number(&[depth(bit_depth), chroma_with_clip(0, 0, most)]), 0);
        assert_eq!(number(&[depth(bit_depth), chroma_with_clip(0, 0, most + 1)]), 11);
        assert_eq!(number(&[depth(bit_depth), chroma_with_clip(0, 0, 0xFFFF)]), 11);
    }
}

/// 11 is lower than 17 and 18.
#[test]
fn a_bad_clip_beside_other_faults() {
    for bad in [luma_with_clip(8, 0, 257), luma_with_clip(0, 25, 257), chroma_with_clip(0, 8, 257)] {
        assert_eq!(number(&[depth(8), bad]), 11, "a leading number is not listed");
    }
    assert_eq!(number(&[depth(8), luma(0, 1), luma_with_clip(0, 0, 257)]), 11, "out of order");
    assert_eq!(number(&[depth(8), luma(0, 0), luma_with_clip(0, 0, 257)]), 11, "repeated");
}

#[test]
fn no_clip_is_judged_before_a_good_tag_1() {
    assert_eq!(number(&[luma_with_clip(0, 0, 0xFFFF)]), 18);
    assert_eq!(number(&[luma_with_clip(0, 25, 0xFFFF)]), 17);
    assert_eq!(number(&[depth(7), luma_with_clip(0, 0, 0xFFFF)]), 3);
}

/// A clip stands in a field of listed length only.
#[test]
fn no_clip_is_judged_in_a_field_of_another_length() {
    let long = |length| field(2, &vec![0xFF; length]);
    for length in [0, 1, 37, 39, 300] {
        assert_eq!(number(&[depth(8), long(length)]), 17);
    }
}

#[test]
fn fields_cut_short() {
    let file = [depth(8), luma(0, 0), chroma(0, 0), cross(0, 0, 0)].concat();
    let whole = [4, 45, 68, 81];
    assert_eq!(file.len(), 81);
    for length in 1..=81 {
        let expected = if whole.contains(&length) { 0 } else { 16 };
        assert_eq!(read(&file[..length]).err().unwrap_or(0), expected, "{length} bytes");
    }
}

/// Of a field cut short nothing else is said: 3 and 11 are judged in a whole one, 17 and 18 are higher.
#[test]
fn cut_short_beats_the_rest() {
    for rest in [
        &[0][..],
        &[1],
        &[1, 0],
        &[1, 0, 1],
        &[9, 0, 1],
        &[2, 0xFF, 0xFF, 0, 0],
        &[1, 0, 2, 7],
    ] {
        assert_eq!(number(&[rest.to_vec()]), 16);
        assert_eq!(number(&[depth(8), rest.to_vec()]), 16);
    }
    let bad = luma_with_clip(9, 99, 0xFFFF);
    assert_eq!(number(&[depth(8), bad[..40].to_vec()]), 16);
}

#[test]
fn tags_and_lengths() {
    for tag in [0, 5, 6, 128, 255] {
        assert_eq!(number(&[field(tag, &[8])]), 17);
        assert_eq!(number(&[depth(8), field(tag, &[])]), 17);
    }
    for (tag, length) in [(1, 0), (1, 2), (2, 20), (2, 10), (3, 38), (3, 19), (4, 9), (4, 11), (4, 266)] {
        assert_eq!(number(&[depth(8), zeros(tag, length)]), 17, "tag {tag}, length {length}");
    }
    assert_eq!(number(&[field(1, &[7, 7])]), 17, "no depth in a field of another length");
}

#[test]
fn leading_numbers() {
    for bad in [
        luma(8, 0),
        luma(0, 25),
        chroma(8, 0),
        chroma(0, 8),
        cross(8, 0, 0),
        cross(0, 2, 0),
        cross(0, 0, 4),
    ] {
        assert_eq!(number(&[depth(8), bad.clone()]), 17);
        assert_eq!(number(&[bad]), 17, "in front too: lower than 18");
    }
    for (tag, length) in [(2, 38), (3, 20), (4, 10)] {
        assert_eq!(number(&[depth(8), field(tag, &vec![255; length])]), if tag == 4 { 17 } else { 11 });
    }
    for last in [luma(7, 24), chroma(7, 7), cross(7, 1, 3)] {
        assert_eq!(number(&[depth(8), last]), 0);
    }
}

#[test]
fn a_missing_tag_1() {
    assert_eq!(number(&[]), 18);
    for first in [luma(0, 0), chroma(0, 0), cross(0, 0, 0)] {
        assert_eq!(number(&[first.clone()]), 18);
        assert_eq!(number(&[first, depth(8)]), 18);
    }
}

/// Every filter behind itself, and behind one that comes later.
#[test]
fn order() {
    let rising = [
        luma(0, 0),
        luma(0, 24),
        luma(1, 0),
        luma(7, 24),
        chroma(0, 0),
        chroma(0, 7),
        chroma(1, 0),
        cross(0, 0, 0),
        cross(0, 0, 3),
        cross(0, 1, 0),
        cross(1, 0, 0),
        cross(7, 1, 3),
    ];
    assert_eq!(number(&[vec![depth(11)], rising.to_vec()].concat()), 0);
    for later in 0..rising.len() {
        for earlier in 0..=later {
            assert_eq!(number(&[depth(11), rising[later].clone(), rising[earlier].clone()]), 18);
        }
    }
}

#[test]
fn filters_of_zeros() {
    for (tag, length) in [(2, 38), (3, 20), (4, 10)] {
        assert_eq!(number(&[depth(8), zeros(tag, length)]), 18);
    }
    assert_eq!(number(&[depth(8), chroma_with_clip(0, 0, 1)]), 0);
    let mut clip_alone = zeros(2, 38);
    clip_alone[40] = 1;
    assert_eq!(
        number(&[depth(8), clip_alone]),
        0,
        "a filter with one clip and no coefficient is not of zeros"
    );
}

/// 02: "the reader accepts exactly what the writer can make".
#[test]
fn an_accepted_file_is_what_is_written_of_it() {
    let mut random = Random::new(4);
    let (mut accepted, mut rejected) = (0, 0);
    for _ in 0..3000 {
        let bank = random_bank(&mut random, 9, 900);
        let mut file = written(9, &bank);
        let at = random.below(file.len() as u64) as usize;
        file[at] ^= 1 << random.below(8);
        match read(&file) {
            Ok((bit_depth, bank)) => {
                assert_eq!(written(bit_depth, &bank), file);
                accepted += 1;
            }
            Err(_) => rejected += 1,
        }
    }
    assert!(accepted > 500 && rejected > 500, "{accepted} accepted, {rejected} rejected");
}

/// Any bytes, most of them as small as tags and lengths are, behind a good depth or not: never a panic, and only these numbers.
#[test]
fn nothing_but_garbage() {
    let mut random = Random::new(5);
    let mut answers = [0; 19];
    for _ in 0..20_000 {
        let bound = [3, 5, 40, 256][random.below(4) as usize];
        let front = if random.yes() { depth(8) } else { Vec::new() };
        let garbage: Vec<u8> = (0..random.below(60)).map(|_| random.below(bound) as u8).collect();
        answers[usize::from(number(&[front, garbage]))] += 1;
    }
    let met: Vec<usize> = (0..19).filter(|&number| answers[number] > 0).collect();
    assert!(met.iter().all(|number| [0, 3, 11, 16, 17, 18].contains(number)), "{met:?}");
}
