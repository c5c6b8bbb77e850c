//! Whatever is rewritten outside an isolated region, nothing inside it changes, for each operation that writes a plane or a map.
use compare::guarded::Side;
use compare::input::{Input, Operation};
use compare::layout::CHROMA_FORMATS;
use compare::picture::{ctb_list, ctb_params, picture, samples};
use compare::random::Random;
use compare::region::{ctb_inside, output_inside};
use compare::run::{agreed, library};
use compare::seeds;

/// Takes other samples where a plane is to be rewritten.
fn replace(plane: &mut [u16], with: &[u16], rewritten: impl Fn(usize) -> bool) {
    for (k, sample) in with.iter().enumerate().filter(|(k, _)| rewritten(*k)) {
        plane[k] = *sample;
    }
}

/// Other samples outside the region, other parameters of the CTBs without a sample in it; these listed or not anew; the list in another
/// order and with repeats.
fn rewritten(input: &Input, random: &mut Random) -> Input {
    let mut other = input.clone();
    let (width, height) = (input.width as usize, input.height as usize);
    let (chroma_width, chroma_height) = input.chroma_size();
    let luma = samples(random, width, height, input.bit_depth);
    let chroma = samples(random, chroma_width, chroma_height, input.bit_depth);
    replace(&mut other.luma, &luma, |k| !output_inside(input, Operation::Luma, k));
    replace(&mut other.chroma, &chroma, |k| !output_inside(input, Operation::Chroma, k));
    let outside: Vec<usize> = (0..input.ctbs()).filter(|k| !ctb_inside(input, *k)).collect();
    for k in &outside {
        let params = ctb_params(random, input, *k);
        other.ctb_params[8 * k..8 * k + 8].copy_from_slice(&params);
    }
    let listed = ctb_list(random, input.ctbs());
    other.ctb_list.retain(|k| !outside.contains(&(*k as usize)));
    other.ctb_list.extend(listed.iter().filter(|k| outside.contains(&(**k as usize))));
    for k in 0..other.ctb_list.len() {
        let with = random.index(other.ctb_list.len());
        other.ctb_list.swap(k, with);
        if random.once_in(4) {
            other.ctb_list.push(other.ctb_list[with]);
        }
    }
    other
}

/// How many entries of the output differ, inside the region and outside.
fn differences(input: &Input, operation: Operation, one: &[u16], two: &[u16]) -> (usize, usize) {
    let all = (0..one.len()).filter(|k| one[*k] != two[*k]);
    let (inside, outside): (Vec<usize>, Vec<usize>) = all.partition(|k| output_inside(input, operation, *k));
    (inside.len(), outside.len())
}

/// What was seen over all cases: of isolated regions that are neither empty nor all, and of the others.
#[derive(Default)]
struct Seen {
    isolated: usize,
    changed_outside: usize,
    open: usize,
    changed_inside_open: usize,
}

/// By chroma format, for the filters that work on chroma; first classes and luma, which know no format.
const SEEN_OF: [&str; 4] = ["classes and luma", "chroma of 4:2:0", "chroma of 4:2:2", "chroma of 4:4:4"];

/// How many regions were really compared: a region that is empty or the whole picture has no inside, or no outside, and is passed over.
#[derive(Default)]
struct Regions {
    isolated: usize,
    open: usize,
    passed_over: usize,
}

fn two_runs(seed: u64, seen: &mut [Seen; 4], regions: &mut Regions) {
    let mut random = Random::new(seed);
    let ctb_log2 = random.pick(&[5, 5, 6, 7]);
    let chroma_format = random.pick(&CHROMA_FORMATS);
    let input = picture(&mut random, ctb_log2, chroma_format);
    let inside = input.region.iter().filter(|n| **n == 1).count();
    if inside == 0 || inside == input.region.len() {
        regions.passed_over += 1;
        return;
    }
    let other = rewritten(&input, &mut random);
    let isolated = agreed(Operation::Isolated, &input, Side::After).output == [1];
    regions.isolated += usize::from(isolated);
    regions.open += usize::from(!isolated);
    for operation in Operation::WITH_PLANE {
        if operation.has_component() && input.chroma_format == 0 {
            continue;
        }
        let one = library(operation, &input, Side::After, false);
        let two = library(operation, &other, Side::After, false);
        assert_eq!((one.number, two.number), (0, 0));
        let (within, beyond) = differences(&input, operation, &one.output, &two.output);
        let format = if operation.has_component() { input.chroma_format } else { 0 };
        let seen = &mut seen[usize::from(format)];
        if isolated {
            assert_eq!(within, 0, "{operation:?}: {within} entries inside an isolated region changed");
            seen.isolated += 1;
            seen.changed_outside += usize::from(beyond > 0);
        } else {
            seen.open += 1;
            seen.changed_inside_open += usize::from(within > 0);
        }
    }
}

#[test]
fn rewriting_outside_changes_nothing_inside() {
    let mut seen = [(); 4].map(|()| Seen::default());
    let mut regions = Regions::default();
    let whole = seeds::run("isolation", 6_000_000, 5000, |seed| two_runs(seed, &mut seen, &mut regions));
    eprintln!(
        "  isolation: {} regions really compared, {} isolated and {} open; {} passed over, empty or the whole picture",
        regions.isolated + regions.open,
        regions.isolated,
        regions.open,
        regions.passed_over
    );
    for (name, seen) in SEEN_OF.iter().zip(&seen) {
        eprintln!(
            "  isolation, {name}: {} runs over isolated regions, {} of them changed outside; {} over open regions, {} of them changed inside",
            seen.isolated, seen.changed_outside, seen.open, seen.changed_inside_open
        );
        if whole {
            // the comparison sees changes where they may be, so that finding none inside says something
            assert!(seen.isolated >= 500 && 2 * seen.changed_outside > seen.isolated);
            assert!(seen.open >= 200 && 2 * seen.changed_inside_open > seen.open);
        }
    }
}
