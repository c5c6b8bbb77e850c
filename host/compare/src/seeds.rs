//! Where a test begins, and how to repeat one case of it.
use std::env;
use std::time::Instant;

fn number(name: &str) -> Option<u64> {
    let text = env::var(name).ok()?;
    Some(text.parse().unwrap_or_else(|_| panic!("{name}={text}: a whole number is wanted")))
}

/// Calls `case` with a seed each, and prints the seeds. ALF_SEED is the first seed and ALF_CASES how many, where they are given; case k
/// of a run has the seed first + k, so a case that fails is repeated by its own seed and ALF_CASES=1. Returns whether as many cases
/// were run as the test means to: only then does it say something that a kind of case did not occur.
pub fn run(what: &str, first: u64, meant: u64, mut case: impl FnMut(u64)) -> bool {
    let first = number("ALF_SEED").unwrap_or(first);
    let count = number("ALF_CASES").unwrap_or(meant);
    let begin = Instant::now();
    let mut shown = 0;
    for k in 0..count {
        let seed = first.wrapping_add(k);
        let name = SeedOnPanic(what, seed);
        case(seed);
        std::mem::forget(name);
        let seconds = begin.elapsed().as_secs();
        if seconds >= shown + 20 {
            shown = seconds;
            eprintln!("  {what}: {} of {count} ({seconds} s)", k + 1);
        }
    }
    eprintln!("  {what}: {count} from seed {first}, {} s", begin.elapsed().as_secs());
    count >= meant
}

/// Dropped only where a case panics: then it says how to repeat that case.
struct SeedOnPanic<'a>(&'a str, u64);

impl Drop for SeedOnPanic<'_> {
    fn drop(&mut self) {
        eprintln!(
            "{}: failed at seed {}; to repeat it alone: ALF_SEED={} ALF_CASES=1",
            self.0, self.1, self.1
        );
    }
}
