//! The proved direction test, which multiplies 16 bits by 16, beside multiplications that are wide enough: the comparison of two
//! products of any 32-bit numbers, the class of any four sums, and what the worked examples print of both.
use compare::random::Random;
use compare::seeds;
use model::{class_of_sums, Sums};
use std::collections::HashSet;

#[link(name = "direction_c", kind = "static")]
extern "C" {
    fn direction_product_less(a: u32, b: u32, c: u32, d: u32) -> bool;
    fn direction_class(v: u32, h: u32, d0: u32, d1: u32, factor: u32, depth: u32) -> u8;
}

/// How many different inputs a random test has at least; what is drawn twice counts once.
const DIFFERENT: usize = 1_000_000;

/// Sums stay below this, and are at most 262,080 in a picture.
const SUMS: u32 = 1 << 18;

fn product(a: u32, b: u32) -> u64 {
    u64::from(a) * u64::from(b)
}

/// The library's answer, which is that of 64 bits.
fn less([a, b, c, d]: [u32; 4]) -> bool {
    let answer = unsafe { direction_product_less(a, b, c, d) };
    assert_eq!(answer, product(a, b) < product(c, d), "{a} * {b} < {c} * {d}");
    answer
}

/// The library's class and transpose, which are the model's.
fn class([v, h, d0, d1]: [u32; 4], factor: u32, depth: u8) -> (u8, u8) {
    let number = unsafe { direction_class(v, h, d0, d1, factor, depth.into()) };
    let sums = Sums {
        v: v.into(),
        h: h.into(),
        d0: d0.into(),
        d1: d1.into(),
    };
    let found = (number % 32, number / 32);
    assert_eq!(
        found,
        class_of_sums(sums, factor.into(), depth),
        "{sums:?}, factor {factor}, depth {depth}"
    );
    found
}

/// A number of a random width, so that small ones are as likely as large ones.
fn of_any_width(random: &mut Random, bits: u64) -> u32 {
    (random.next() & ((1 << random.between(0, bits as i64)) - 1)) as u32
}

/// One level up or down, or none.
fn nudged(random: &mut Random, n: u32, limit: u32) -> u32 {
    match random.below(3) {
        0 => n.saturating_sub(1),
        1 => n.saturating_add(1).min(limit),
        _ => n,
    }
}

/// p q, r s, p r and q s: the first two have the product of the last two. Then one of the four is nudged.
fn nearly_equal(random: &mut Random, bits: u64, limit: u32) -> [u32; 4] {
    let [p, q, r, s] = [(); 4].map(|()| of_any_width(random, bits));
    let mut four = [p * q, r * s, p * r, q * s];
    let k = random.index(4);
    four[k] = nudged(random, four[k], limit);
    four
}

#[test]
fn products_of_random_numbers() {
    let mut different = HashSet::new();
    let (mut lesser, mut equal, mut by_low_words) = (0, 0, 0);
    let all = seeds::run("random products", 4_000_000, 1_050_000, |seed| {
        let mut random = Random::new(seed);
        let four = match random.below(3) {
            0 => [(); 4].map(|()| random.next() as u32),
            1 => [(); 4].map(|()| of_any_width(&mut random, 32)),
            _ => nearly_equal(&mut random, 16, u32::MAX),
        };
        if !different.insert(four) {
            return;
        }
        lesser += u64::from(less(four));
        let (one, other) = (product(four[0], four[1]), product(four[2], four[3]));
        equal += u64::from(one == other && one != 0);
        by_low_words += u64::from(one != other && one >> 32 != 0 && one >> 32 == other >> 32);
    });
    println!(
        "  {} different: {lesser} less, {equal} equal and not 0, {by_low_words} told apart by their low words alone though both reach 33 bits",
        different.len()
    );
    assert!(!all || different.len() >= DIFFERENT);
    assert!(!all || [lesser, equal, by_low_words].iter().all(|&n| n >= 10_000));
}

#[test]
fn products_of_edges() {
    let edges = [
        0,
        1,
        2,
        65_534,
        65_535,
        65_536,
        65_537,
        131_071,
        262_080,
        1 << 31,
        u32::MAX - 65_535,
        u32::MAX - 1,
        u32::MAX,
    ];
    for a in edges {
        for b in edges {
            for c in edges {
                for d in edges {
                    less([a, b, c, d]);
                }
            }
        }
    }
}

#[test]
fn classes_of_random_sums() {
    let mut different = HashSet::new();
    let mut seen = [[0u64; 4]; 25];
    let all = seeds::run("random sums", 6_000_000, 1_400_000, |seed| {
        let mut random = Random::new(seed);
        let four = match random.below(4) {
            0 => [(); 4].map(|()| random.below(SUMS.into()) as u32),
            1 => [(); 4].map(|()| of_any_width(&mut random, 18)),
            2 => nearly_equal(&mut random, 9, SUMS - 1),
            _ => {
                // about the limits of the strength: 9 to 2 and 2 to 1
                let unit = of_any_width(&mut random, 14);
                [9 * unit, 2 * unit, 4 * unit, 4 * unit].map(|n| nudged(&mut random, n, SUMS - 1))
            }
        };
        let (factor, depth) = (random.between(2, 3) as u32, random.between(8, 12) as u8);
        if !different.insert((four, factor, depth)) {
            return;
        }
        let (filter, transpose) = class(four, factor, depth);
        seen[usize::from(filter)][usize::from(transpose)] += 1;
    });
    let rarest = seen.iter().flatten().min().unwrap();
    println!(
        "  {} different; of 25 classes by 4 transposes the rarest was met {rarest} times",
        different.len()
    );
    assert!(!all || different.len() >= DIFFERENT);
    assert!(!all || *rarest > 0);
}

#[test]
fn no_class_outside() {
    let number = |sums: [u32; 4], factor, depth| unsafe { direction_class(sums[0], sums[1], sums[2], sums[3], factor, depth) };
    let largest = [SUMS - 1; 4];
    for (factor, depth) in [(0, 8), (3, 12)] {
        assert!(number(largest, factor, depth) < 128);
        for k in 0..4 {
            let mut sums = largest;
            sums[k] = SUMS;
            assert_eq!(number(sums, factor, depth), 255);
        }
    }
    for (factor, depth) in [(4, 8), (2, 7), (2, 13), (u32::MAX, 8), (2, u32::MAX)] {
        assert_eq!(number([0; 4], factor, depth), 255);
    }
}

/// What `worked_examples` prints, and is held to: every class in it, and every comparison of products.
#[test]
fn stored_answers() {
    let stored = include_str!("../../../crates/worked_examples/stdout");
    let (mut classes, mut products) = (0, 0);
    for line in stored.lines().filter(|line| line.contains("class")) {
        let words: Vec<&str> = line.split_whitespace().map(|word| word.trim_end_matches(',')).collect();
        let numbers: Vec<u32> = words.iter().filter_map(|word| word.parse().ok()).collect();
        let four = numbers[..4].try_into().unwrap();
        let depth = if line.starts_with('P') { 8 } else { 12 };
        let (filter, transpose) = class(four, 2, depth);
        assert_eq!([u32::from(filter), u32::from(transpose)], numbers[4..], "{line}");
        classes += 1;
        if words.contains(&"*") {
            let answer = if less(four) { "yes" } else { "no" };
            assert_eq!(words.last(), Some(&answer), "{line}");
            products += 1;
        }
    }
    // P3 to P7, nine times the largest sums, and five where it shows which gradient is the main one
    assert_eq!((classes, products), (19, 14));
}
