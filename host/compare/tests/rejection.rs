//! Damaged input: the lowest number that applies, and nothing written. The outputs are in memory that cannot be written.
use compare::damage::{Damage, DAMAGES, NO_CHROMA};
use compare::guarded::Side;
use compare::input::{Input, Operation};
use compare::layout::CHROMA_FORMATS;
use compare::picture::picture;
use compare::random::Random;
use compare::run::{agreed, before};
use compare::seeds;
use raspbegonia::Fault;
use std::fmt;

/// Accepted, and the numbers that an operation on a picture can answer with; the higher ones are those of a bank file's fields.
const ANSWERS: usize = 1 + Fault::Position as usize;

/// What a test has really done: a seed whose picture has no place for its damage, or draws none, counts nowhere.
#[derive(Default)]
struct Done {
    inputs: usize,
    damages: usize,
    calls: usize,
    /// Calls by the number that they were answered with; 0 where the operation is not given what was damaged.
    answers: [usize; ANSWERS],
}

impl fmt::Display for Done {
    fn fmt(&self, f: &mut fmt::Formatter) -> fmt::Result {
        let rejected = self.calls - self.answers[0];
        let by_number: Vec<String> = (1..self.answers.len()).map(|n| format!("{n}: {}", self.answers[n])).collect();
        write!(
            f,
            "{} inputs really damaged, in {} places; of {} calls {rejected} rejected, by number {}",
            self.inputs,
            self.damages,
            self.calls,
            by_number.join(", ")
        )
    }
}

/// Runs every operation; where one judges a damage that was done, its number is the lowest of those, and its output is as it was.
fn judged(input: &Input, damages: &[&Damage], side: Side, done: &mut Done) {
    done.inputs += usize::from(!damages.is_empty());
    done.damages += damages.len();

    let without_chroma = damages.iter().any(|damage| damage.name == NO_CHROMA) || input.chroma_format == 0;
    for operation in Operation::ALL {
        let outcome = agreed(operation, input, side);
        done.calls += 1;
        done.answers[usize::from(outcome.number)] += 1;
        let lowest = damages
            .iter()
            .filter(|damage| (damage.judged)(operation))
            .map(|damage| damage.number)
            .min();
        let names: Vec<_> = damages.iter().map(|damage| damage.name).collect();
        if operation.has_component() && without_chroma {
            assert!(outcome.number > 0 && outcome.number <= 4, "{operation:?} without chroma: {names:?}");
        } else if operation != Operation::Luma || !without_chroma {
            assert_eq!(outcome.number, lowest.unwrap_or(0), "{operation:?}: {names:?}");
        }
        if outcome.number != 0 {
            assert_eq!(outcome.output, before(operation, input), "{operation:?}: {names:?}");
        }
    }
}

/// A small accepted picture, and on which side its memory is guarded.
fn small_picture(random: &mut Random) -> (Input, Side) {
    let chroma_format = random.pick(&CHROMA_FORMATS);
    (picture(random, 5, chroma_format), random.pick(&[Side::Before, Side::After]))
}

/// How many inputs have to be really damaged, of the 5,000 seeds of each test.
const INPUTS: usize = 4500;

/// Prints what was done; where the run was whole, there has to be enough of it, and each number has to have been the answer.
fn enough(what: &str, done: &Done, whole: bool) {
    eprintln!("  {what}: {done}");
    assert!(!whole || done.inputs >= INPUTS, "{what}: too few inputs were damaged");
    assert!(
        !whole || done.answers.iter().all(|n| *n > 0),
        "{what}: a number was never the answer"
    );
}

#[test]
fn one_damage() {
    let mut times = vec![0; DAMAGES.len()];
    let mut done = Done::default();
    let whole = seeds::run("one damage", 4_000_000, 5000, |seed| {
        let mut random = Random::new(seed);
        let (mut input, side) = small_picture(&mut random);
        let k = seed as usize % DAMAGES.len();
        if (DAMAGES[k].spoil)(&mut input, &mut random) {
            times[k] += 1;
            judged(&input, &[&DAMAGES[k]], side, &mut done);
        }
    });
    enough("one damage", &done, whole);
    if whole {
        let never = DAMAGES.iter().zip(&times).filter(|(_, n)| **n == 0);
        let missing: Vec<_> = never.map(|(damage, _)| damage.name).collect();
        assert!(missing.is_empty(), "never done: {missing:?}");
    }
}

#[test]
fn several_damages() {
    let mut done = Done::default();
    let whole = seeds::run("several damages", 5_000_000, 5000, |seed| {
        let mut random = Random::new(seed);
        let (mut input, side) = small_picture(&mut random);
        let share = 2 + random.below(20);
        let damages: Vec<&Damage> = DAMAGES
            .iter()
            .rev()
            .filter(|damage| random.once_in(share) && (damage.spoil)(&mut input, &mut random))
            .collect();
        judged(&input, &damages, side, &mut done);
    });
    enough("several damages", &done, whole);
}
