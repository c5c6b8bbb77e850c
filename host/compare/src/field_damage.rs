//! Ways to spoil a bank file, field by field.
use crate::bank_files;
use crate::random::Random;

/// The fields of a file, each with its tag and length in front; damaged, they are any bytes that stand one behind another.
pub type Fields = Vec<Vec<u8>>;

/// The fields of a file that the writer has made.
pub fn fields(file: &[u8]) -> Fields {
    let mut fields = Vec::new();
    let mut rest = file;
    while !rest.is_empty() {
        let (field, behind) = rest.split_at(3 + usize::from(rest[1]) * 256 + usize::from(rest[2]));
        fields.push(field.to_vec());
        rest = behind;
    }
    fields
}

/// A way to spoil a file. The change returns false where the file has no place for it.
pub struct FieldDamage {
    pub name: &'static str,
    pub spoil: fn(&mut Fields, &mut Random) -> bool,
}

const fn damage(name: &'static str, spoil: fn(&mut Fields, &mut Random) -> bool) -> FieldDamage {
    FieldDamage { name, spoil }
}

pub const FIELD_DAMAGES: &[FieldDamage] = &[
    damage("bit flipped", |fields, random| {
        at_any_byte(fields, random, |field, k, random| field[k] ^= 1 << random.below(8))
    }),
    damage("byte replaced", |fields, random| {
        at_any_byte(fields, random, |field, k, random| field[k] = random.byte(256))
    }),
    damage("byte inserted", |fields, random| {
        at_any_byte(fields, random, |field, k, random| field.insert(k, random.byte(5)))
    }),
    damage("byte removed", |fields, random| {
        at_any_byte(fields, random, |field, k, _| {
            field.remove(k);
        })
    }),
    damage("file cut", cut),
    damage("bytes appended", appended),
    damage("fields swapped", swapped),
    damage("field repeated", repeated),
    damage("field dropped", |fields, random| {
        in_any(fields, random, |fields, k, _| {
            fields.remove(k);
        })
    }),
    damage("filter inserted", inserted),
    damage("filter replaced", |fields, random| {
        in_any(fields, random, |fields, k, random| fields[k] = any_filter(random))
    }),
    damage("tag", |fields, random| {
        let tag = random.pick(&[0, 1, 2, 3, 4, 5, 6, 128, 255]);
        in_any(fields, random, |fields, k, _| put(&mut fields[k], 0, tag))
    }),
    damage("length", length),
    damage("value of another length", resized),
    damage("bit depth", |fields, random| {
        let bit_depth = random.pick(&[0, 7, 8, 9, 10, 11, 12, 13, 255]);
        with_tag(fields, random, &[1], |field, _| put(field, 3, bit_depth))
    }),
    damage("leading number", |fields, random| {
        let (at, number) = (3 + random.index(3), random.pick(&[0, 1, 2, 4, 7, 8, 24, 25, 255]));
        with_tag(fields, random, &[2, 3, 4], |field, _| put(field, at, number))
    }),
    damage("clip", |fields, random| with_tag(fields, random, &[2, 3], bad_clip)),
    damage("filter of zeros", |fields, random| {
        with_tag(fields, random, &[2, 3, 4], |field, _| {
            field.iter_mut().skip(6).for_each(|byte| *byte = 0)
        })
    }),
];

/// Spoils a file once, or a few times, and counts which damages were done; nothing where it is the same file then.
pub fn damaged(random: &mut Random, sound: &Fields, times: &mut [usize; FIELD_DAMAGES.len()]) -> Option<Vec<u8>> {
    let mut spoilt = sound.clone();
    for _ in 0..random.pick(&[1, 1, 1, 2, 3]) {
        let k = random.index(FIELD_DAMAGES.len());
        times[k] += usize::from((FIELD_DAMAGES[k].spoil)(&mut spoilt, random));
    }
    let spoilt = spoilt.concat();
    (spoilt != sound.concat()).then_some(spoilt)
}

/// Changes the fields at a random place of their list.
fn in_any(fields: &mut Fields, random: &mut Random, change: impl FnOnce(&mut Fields, usize, &mut Random)) -> bool {
    let some = !fields.is_empty();
    if some {
        let k = random.index(fields.len());
        change(fields, k, random);
    }
    some
}

/// Changes a field at a random byte. A field that earlier damages have emptied has none.
fn at_any_byte(fields: &mut Fields, random: &mut Random, change: fn(&mut Vec<u8>, usize, &mut Random)) -> bool {
    fields.retain(|field| !field.is_empty());
    in_any(fields, random, |fields, k, random| {
        let at = random.index(fields[k].len());
        change(&mut fields[k], at, random);
    })
}

/// Changes a random field of one of the tags.
fn with_tag(fields: &mut Fields, random: &mut Random, tags: &[u8], change: impl FnOnce(&mut Vec<u8>, &mut Random)) -> bool {
    let mut found: Vec<&mut Vec<u8>> = fields
        .iter_mut()
        .filter(|field| field.first().is_some_and(|tag| tags.contains(tag)))
        .collect();
    let some = !found.is_empty();
    if some {
        let k = random.index(found.len());
        change(found[k], random);
    }
    some
}

/// Puts a byte where the field has one.
fn put(field: &mut [u8], at: usize, byte: u8) {
    if let Some(place) = field.get_mut(at) {
        *place = byte;
    }
}

/// Nothing stays from a random byte on.
fn cut(fields: &mut Fields, random: &mut Random) -> bool {
    in_any(fields, random, |fields, k, random| {
        fields.truncate(k + 1);
        let length = random.index(fields[k].len() + 1);
        fields[k].truncate(length);
    })
}

/// A few bytes behind the file, as small as tags and lengths are.
fn appended(fields: &mut Fields, random: &mut Random) -> bool {
    let bytes = (0..1 + random.below(6)).map(|_| random.byte(5)).collect();
    fields.push(bytes);
    true
}

/// Neighbours, or any two.
fn swapped(fields: &mut Fields, random: &mut Random) -> bool {
    let some = fields.len() > 1;
    if some {
        let first = random.index(fields.len() - 1);
        let second = if random.flip() { first + 1 } else { random.index(fields.len()) };
        fields.swap(first, second);
    }
    some
}

/// Right behind itself, or anywhere.
fn repeated(fields: &mut Fields, random: &mut Random) -> bool {
    in_any(fields, random, |fields, k, random| {
        let at = if random.flip() { k + 1 } else { random.index(fields.len() + 1) };
        let field = fields[k].clone();
        fields.insert(at, field);
    })
}

fn inserted(fields: &mut Fields, random: &mut Random) -> bool {
    let at = random.index(fields.len() + 1);
    fields.insert(at, any_filter(random));
    true
}

/// A whole filter as the writer makes it: the last field of a bank that has few filters.
fn any_filter(random: &mut Random) -> Vec<u8> {
    let bit_depth = 8 + random.byte(5);
    let bank = bank_files::bank(random, bit_depth, 100);
    fields(&bank_files::file(bit_depth, &bank)).pop().expect("a file has a field")
}

/// The two bytes of a length: one more or less, another tag's, or any.
fn length(fields: &mut Fields, random: &mut Random) -> bool {
    in_any(fields, random, |fields, k, random| {
        let field = &mut fields[k];
        match random.below(4) {
            0 => put(field, 2, random.pick(&[0, 1, 10, 20, 38])),
            1 => put(field, 1, random.byte(3)),
            2 => put(field, 1 + random.index(2), random.byte(256)),
            _ => {
                let step = random.pick(&[1, 255]);
                let low = field.get(2).map_or(0, |low| low.wrapping_add(step));
                put(field, 2, low);
            }
        }
    })
}

/// One byte more or less in the value, and the length says so.
fn resized(fields: &mut Fields, random: &mut Random) -> bool {
    in_any(fields, random, |fields, k, random| {
        let field = &mut fields[k];
        if random.flip() || field.len() <= 3 {
            field.push(random.byte(2));
        } else {
            field.pop();
        }
        let length = field.len().saturating_sub(3) as u8;
        put(field, 2, length);
    })
}

/// One of a filter's last six clips: about what a depth allows, or any.
fn bad_clip(field: &mut Vec<u8>, random: &mut Random) {
    let (most, any) = (1u16 << (8 + random.below(5)), random.next() as u16);
    let clip = random.pick(&[most, most + 1, 0xFFFF, any]);
    let [high, low] = clip.to_be_bytes();
    let at = field.len().saturating_sub(2 * (1 + random.index(6)));
    put(field, at, high);
    put(field, at + 1, low);
}
