//! What closes the sides of a sample: many positions of random pictures, and again with each cause taken away. The library's answers
//! equal the model's everywhere.
use compare::coverage::CauseCoverage;
use compare::guarded::Side;
use compare::input::{Input, Operation};
use compare::layout::{layout, CHROMA_FORMATS};
use compare::picture::causes;
use compare::position;
use compare::random::Random;
use compare::run::{agreed_in, Memory, Outcome};
use compare::seeds;
use raspbegonia::ClipCause;

/// How many positions a picture is asked about.
const POSITIONS: usize = 40;

/// Asks about each position.
fn asked(input: &Input, positions: &[(u32, u32)], side: Side, coverage: &mut CauseCoverage) -> Vec<Outcome> {
    let memory = Memory::new(input, side);
    let mut input = input.clone();
    let mut outcomes = Vec::new();
    for position in positions {
        input.position = *position;
        let outcome = agreed_in(&memory, Operation::ClipCauses, &input);
        let outside = position.0 >= input.width || position.1 >= input.height;
        assert_eq!(outcome.number, if outside { 15 } else { 0 }, "{position:?}");
        coverage.count(&outcome);
        outcomes.push(outcome);
    }
    outcomes
}

/// How to let a cause close nothing. The line-buffer boundary can't be taken away.
type Removal = (ClipCause, fn(&mut Input));

const REMOVALS: [Removal; 4] = [
    (ClipCause::VirtualBoundary, |input| {
        input.virtual_columns.clear();
        input.virtual_rows.clear();
    }),
    (ClipCause::Tile, |input| input.across_tiles = true),
    (ClipCause::Slice, |input| input.across_slices = true),
    (ClipCause::Subpicture, |input| input.subpic_across.fill(1)),
];

/// Taking a cause away shows what stood behind it, and leaves every side that had another cause, or none, as it was.
fn nothing_else_moved(cause: ClipCause, with: &[Outcome], without: &[Outcome], coverage: &mut CauseCoverage) {
    let number = u16::from(cause.number());
    let pairs = with.iter().zip(without).filter(|(one, _)| one.number == 0);
    for (first, next) in pairs.flat_map(|(one, two)| one.output.iter().zip(&two.output)) {
        if *first == number {
            assert_ne!(*next, number, "{cause} is still there");
            coverage.count_behind(cause, *next);
        } else {
            assert_eq!(first, next, "{cause} was taken away");
        }
    }
}

fn one_picture(seed: u64, ctb_log2: u8, coverage: &mut CauseCoverage) {
    let mut random = Random::new(seed);
    let chroma_format = random.pick(&CHROMA_FORMATS);
    let mut input = layout(&mut random, ctb_log2, chroma_format);
    input.causes = causes(&mut random);
    let side = random.pick(&[Side::Before, Side::After]);
    let positions: Vec<_> = (0..POSITIONS).map(|_| position::any(&mut random, &input)).collect();
    let outcomes = asked(&input, &positions, side, coverage);
    for (cause, remove) in REMOVALS {
        let mut other = input.clone();
        remove(&mut other);
        let others = asked(&other, &positions, side, coverage);
        nothing_else_moved(cause, &outcomes, &others, coverage);
    }
}

/// So many pictures with CTBs of one size. Every cause has to be met on every side where it can be.
fn pictures(what: &str, ctb_log2: u8, first: u64, count: u64) {
    let mut coverage = CauseCoverage::default();
    let whole = seeds::run(what, first, count, |seed| one_picture(seed, ctb_log2, &mut coverage));
    eprintln!("  {what}: {coverage}");
    if whole {
        assert_eq!(coverage.missing(), Vec::<String>::new());
    }
}

#[test]
fn causes_with_ctbs_of_32() {
    pictures("causes, CTB 32", 5, 7_000_000, 500);
}

#[test]
fn causes_with_ctbs_of_64() {
    pictures("causes, CTB 64", 6, 8_000_000, 500);
}

#[test]
fn causes_with_ctbs_of_128() {
    pictures("causes, CTB 128", 7, 9_000_000, 500);
}
