//! Random pictures through every operation: the library's answers and outputs equal the model's, entry by entry.
use compare::coverage::Coverage;
use compare::guarded::Side;
use compare::input::Operation;
use compare::layout::CHROMA_FORMATS;
use compare::picture::picture;
use compare::random::Random;
use compare::run::agreed;
use compare::seeds;
use std::thread;

/// Every operation on one picture; of the components one. The chroma formats take turns by the seed.
fn all_operations(seed: u64, ctb_log2: u8, coverage: &mut Coverage) {
    let mut random = Random::new(seed);
    let chroma_format = CHROMA_FORMATS[(seed % CHROMA_FORMATS.len() as u64) as usize];
    let input = picture(&mut random, ctb_log2, chroma_format);
    let side = random.pick(&[Side::Before, Side::After]);
    coverage.count(&input);
    for operation in Operation::ALL {
        let outcome = agreed(operation, &input, side);
        let without_chroma = operation.has_component() && input.chroma_format == 0;
        assert_eq!(outcome.number, if without_chroma { 4 } else { 0 }, "{operation:?}");
    }
}

/// Pictures with CTBs of one size: the exponent, the first seed, and how many are meant.
struct Run(u8, u64, u64);

/// Larger CTBs make larger pictures, so there are fewer of them.
const RUNS: [Run; 3] = [Run(5, 1_000_000, 3400), Run(6, 2_000_000, 2200), Run(7, 3_000_000, 1100)];

/// How many pictures of each chroma format with chroma there have to be, over all runs.
const OF_EACH_FORMAT: usize = 2000;

/// What one run has seen, and whether it was whole. Each kind of picture that matters has to be in it.
fn pictures(Run(ctb_log2, first, count): Run) -> (Coverage, bool) {
    let what = format!("pictures, CTB {}", 1 << ctb_log2);
    let mut coverage = Coverage::default();
    let whole = seeds::run(&what, first, count, |seed| all_operations(seed, ctb_log2, &mut coverage));
    eprintln!("  {what}: {coverage}");
    if whole {
        assert_eq!(coverage.missing(), Vec::<&str>::new(), "no such picture was made");
    }
    (coverage, whole)
}

#[test]
fn random_pictures_of_every_ctb_size_and_chroma_format() {
    let threads = RUNS.map(|run| thread::spawn(|| pictures(run)));
    let (mut coverage, mut whole) = (Coverage::default(), true);
    for thread in threads {
        let (seen, run_whole) = thread.join().expect("each run agrees");
        coverage.add(&seen);
        whole &= run_whole;
    }
    eprintln!("  pictures, all CTB sizes: {coverage}");
    for line in coverage.by_format() {
        eprintln!("  pictures, {line}");
    }
    if whole {
        assert_eq!(coverage.missing_by_format(), Vec::<String>::new(), "no such picture was made");
        assert!(coverage.pictures()[1..].iter().all(|n| *n >= OF_EACH_FORMAT));
    }
}
