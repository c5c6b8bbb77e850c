//! A bank as a file (02, card 2): "a row of fields: a one-byte tag, a two-byte length, most
//! significant first, then the value".

use crate::judge::bad_aps;
use std::ops::{Range, RangeInclusive};

/// How many numbers an APS has, and a bank of eight.
const APS: usize = 752;
const BANK: usize = 8 * APS;

/// The bytes that the writer asks for: the depth and all filters of a bank, of 200, 64 and 64.
const ROOM: usize = 4 + 200 * 41 + 64 * 23 + 64 * 13;

const DEPTHS: RangeInclusive<u8> = 8..=12;

/// What a tag above 1 stands for: a filter whose value is its leading numbers, its
/// coefficients of one byte, its clips of two.
struct Kind {
    tag: u8,
    /// The leading numbers, the APS id first, lie below these.
    below: &'static [u8],
    coefficients: usize,
    clips: usize,
    /// Where the first filter of the kind stands in its APS.
    first: usize,
}

const KINDS: [Kind; 3] = [
    Kind {
        tag: 2,
        below: &[8, 25],
        coefficients: 12,
        clips: 12,
        first: 0,
    },
    Kind {
        tag: 3,
        below: &[8, 8],
        coefficients: 6,
        clips: 6,
        first: 600,
    },
    Kind {
        tag: 4,
        below: &[8, 2, 4],
        coefficients: 7,
        clips: 0,
        first: 696,
    },
];

impl Kind {
    /// The length of the value: 38, 20 and 10.
    fn length(&self) -> usize {
        self.below.len() + self.coefficients + 2 * self.clips
    }

    /// The leading numbers of every filter of the kind, rising.
    fn all(&self) -> Vec<Vec<u8>> {
        let mut all = vec![Vec::new()];
        for &below in self.below {
            let with = |front: &Vec<u8>, number| [front.as_slice(), &[number]].concat();
            all = all
                .iter()
                .flat_map(|front| (0..below).map(move |number| with(front, number)))
                .collect();
        }
        all
    }

    /// Where a filter stands in the bank: behind those of its APS with lower numbers.
    fn place(&self, leading: &[u8]) -> Range<usize> {
        let mut lower = 0;
        for (&number, &below) in leading.iter().zip(self.below).skip(1) {
            lower = lower * usize::from(below) + usize::from(number);
        }
        let numbers = self.coefficients + self.clips;
        let start = APS * usize::from(leading[0]) + self.first + lower * numbers;
        start..start + numbers
    }

    /// The field of a filter, of its coefficients and clips.
    fn field(&self, leading: &[u8], numbers: &[i16]) -> Vec<u8> {
        let (coefficients, clips) = numbers.split_at(self.coefficients);
        let mut field = vec![self.tag];
        field.extend((self.length() as u16).to_be_bytes());
        field.extend(leading);
        field.extend(coefficients.iter().map(|&coefficient| coefficient as i8 as u8));
        field.extend(clips.iter().flat_map(|clip| clip.to_be_bytes()));
        field
    }
}

/// Writes a bank to the front of `file`, and how many bytes that took to `length`.
pub fn bank_write(bit_depth: u8, bank: &[i16], file: &mut [u8], length: &mut u32) -> u8 {
    if !DEPTHS.contains(&bit_depth) {
        return 3;
    }
    if bank.len() != BANK || file.len() < ROOM {
        return 5;
    }
    if bank.chunks(APS).any(|aps| bad_aps(aps, bit_depth)) {
        return 11;
    }
    let fields = written(bit_depth, bank);
    file[..fields.len()].copy_from_slice(&fields);
    *length = fields.len() as u32;
    0
}

/// 02: tag 1 first, the rest by tag and leading numbers; a filter of zeros is left out.
fn written(bit_depth: u8, bank: &[i16]) -> Vec<u8> {
    let mut file = vec![1, 0, 1, bit_depth];
    for kind in &KINDS {
        for leading in kind.all() {
            let numbers = &bank[kind.place(&leading)];
            if numbers.iter().any(|&number| number != 0) {
                file.extend(kind.field(&leading, numbers));
            }
        }
    }
    file
}

/// Reads a file into a bank and a depth; the first faulty field decides.
pub fn bank_read(file: &[u8], bank: &mut [i16], bit_depth: &mut u8) -> u8 {
    if bank.len() != BANK {
        return 5;
    }
    match read(file) {
        Ok((depth, numbers)) => {
            bank.copy_from_slice(&numbers);
            *bit_depth = depth;
            0
        }
        Err(number) => number,
    }
}

/// Field by field, each with the lowest of 3, 11, 16, 17 and 18 that applies to it.
fn read(file: &[u8]) -> Result<(u8, Vec<i16>), u8> {
    let mut found = Found {
        bit_depth: None,
        last: (0, Vec::new()),
        bank: vec![0; BANK],
    };
    let mut rest = file;
    while !rest.is_empty() {
        let (tag, value, behind) = next_field(rest).ok_or(16)?;
        match listed(tag, value).ok_or(17)? {
            Content::Depth(depth) => found.add_depth(depth)?,
            Content::Filter(filter) => found.add_filter(filter)?,
        }
        rest = behind;
    }
    // A file without a field has no depth.
    Ok((found.bit_depth.ok_or(18)?, found.bank))
}

/// Tag and value of the first field, and what stands behind it; nothing where it is cut short.
fn next_field(file: &[u8]) -> Option<(u8, &[u8], &[u8])> {
    let (tag, length) = (*file.first()?, [*file.get(1)?, *file.get(2)?]);
    let end = 3 + usize::from(u16::from_be_bytes(length));
    Some((tag, file.get(3..end)?, &file[end..]))
}

/// What a whole field says.
enum Content {
    Depth(u8),
    Filter(Filter),
}

struct Filter {
    kind: &'static Kind,
    leading: Vec<u8>,
    coefficients: Vec<i16>,
    clips: Vec<u16>,
}

/// The content of a field of listed tag and length.
fn listed(tag: u8, value: &[u8]) -> Option<Content> {
    if let (1, &[depth]) = (tag, value) {
        return Some(Content::Depth(depth));
    }
    let kind = KINDS.iter().find(|kind| kind.tag == tag && kind.length() == value.len())?;
    let (leading, numbers) = value.split_at(kind.below.len());
    let (coefficients, clips) = numbers.split_at(kind.coefficients);
    Some(Content::Filter(Filter {
        kind,
        leading: leading.to_vec(),
        coefficients: coefficients.iter().map(|&byte| i16::from(byte as i8)).collect(),
        clips: clips.chunks(2).map(|pair| u16::from_be_bytes([pair[0], pair[1]])).collect(),
    }))
}

/// What the fields so far have said, all of them good.
struct Found {
    /// Absent before the first field.
    bit_depth: Option<u8>,
    /// Tag and leading numbers of the last filter.
    last: (u8, Vec<u8>),
    bank: Vec<i16>,
}

impl Found {
    fn add_depth(&mut self, depth: u8) -> Result<(), u8> {
        if !DEPTHS.contains(&depth) {
            return Err(3);
        }
        if self.bit_depth.is_some() {
            return Err(18);
        }
        self.bit_depth = Some(depth);
        Ok(())
    }

    fn add_filter(&mut self, filter: Filter) -> Result<(), u8> {
        let (kind, leading) = (filter.kind, filter.leading);
        let bad_clip = |depth: u8| filter.clips.iter().any(|&clip| clip > 1 << depth);
        if self.bit_depth.is_some_and(bad_clip) {
            return Err(11);
        }
        if leading.iter().zip(kind.below).any(|(number, below)| number >= below) {
            return Err(17);
        }
        let mut numbers = filter.coefficients;
        numbers.extend(filter.clips.iter().map(|&clip| clip as i16));
        let zero = numbers.iter().all(|&number| number == 0);
        let at = (kind.tag, leading);
        if self.bit_depth.is_none() || at <= self.last || zero {
            return Err(18);
        }
        self.bank[kind.place(&at.1)].copy_from_slice(&numbers);
        self.last = at;
        Ok(())
    }
}
