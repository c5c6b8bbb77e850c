//! What lies outside an isolated region has no effect inside it: everything outside is rewritten, and the outputs are compared.
use crate::filter::{Outputs, Setup, CTB_NUMBERS};
use crate::filtered::Filtered;
use crate::format::Format;
use crate::layout::{CTB, CTBS, CTB_COLUMNS};
use crate::planes::{Planes, CB, CR, MAXIMUM, WIDTH, Y};
use raspbegonia::Fault;

/// How many classes and samples lie on one side of a region's border, and how many of them differ.
#[derive(Clone, Copy, Default)]
pub struct Count {
    pub all: u64,
    pub differ: u64,
}

/// What the isolation test says of a subpicture, and what rewriting everything outside did.
#[derive(Clone, Copy)]
pub struct Rewriting {
    pub format: Format,
    pub subpicture: u8,
    pub isolated: bool,
    pub inside: Count,
    pub outside: Count,
}

/// The parameters that CTBs outside get in place of their own.
const OTHER_PARAMS: [u8; CTB_NUMBERS] = [1, 1, 1, 0, 7, 7, 4, 4];

/// A region, one number for each 8 by 8 luma block.
struct Region(Vec<u8>);

impl Region {
    fn has(&self, (x, y): (usize, usize)) -> bool {
        self.0[y / 8 * (WIDTH / 8) + x / 8] == 1
    }

    /// Compares two planes inside or outside, given where each entry lies in luma.
    fn compare<T: PartialEq>(&self, inside: bool, position: impl Fn(usize) -> (usize, usize), a: &[T], b: &[T]) -> Count {
        let here = (0..a.len()).filter(|&k| self.has(position(k)) == inside);
        here.fold(Count::default(), |n, k| Count {
            all: n.all + 1,
            differ: n.differ + u64::from(a[k] != b[k]),
        })
    }

    /// Compares the classes and the samples of every component.
    fn compare_outputs(&self, inside: bool, format: Format, a: &Outputs, b: &Outputs) -> Count {
        let block = |k: usize| (k % (WIDTH / 4) * 4, k / (WIDTH / 4) * 4);
        let classes = self.compare(inside, block, &a.class_map, &b.class_map);
        let planes = [Y, CB, CR].map(|c| self.compare(inside, |k| format.luma_position(c, k), &a.planes[c], &b.planes[c]));
        planes.iter().fold(classes, |n, m| Count {
            all: n.all + m.all,
            differ: n.differ + m.differ,
        })
    }

    /// The picture with every sample outside turned into its negative.
    fn rewrite_samples(&self, format: Format, input: &Planes) -> Planes {
        [Y, CB, CR].map(|component| {
            let inside = |k: usize| self.has(format.luma_position(component, k));
            let samples = input[component].iter().enumerate();
            samples.map(|(k, &v)| if inside(k) { v } else { MAXIMUM - v }).collect()
        })
    }

    /// The parameters with those of every CTB outside replaced. A subpicture has only whole CTBs.
    fn rewrite_params(&self, ctb_params: &[u8]) -> Vec<u8> {
        let inside = |ctb: usize| self.has((ctb % CTB_COLUMNS * CTB, ctb / CTB_COLUMNS * CTB));
        let own = |ctb: usize| &ctb_params[ctb * CTB_NUMBERS..][..CTB_NUMBERS];
        (0..CTBS)
            .flat_map(|ctb| if inside(ctb) { own(ctb) } else { &OTHER_PARAMS })
            .copied()
            .collect()
    }
}

/// Rewrites samples and parameters outside a subpicture, filters again and compares with the outputs of before.
pub fn rewrite_outside(setup: Setup, subpicture: u8, filtered: &Filtered) -> Result<Rewriting, Fault> {
    let region = Region(setup.layout.subpicture_region(subpicture));
    let isolated = raspbegonia::isolated(&setup.picture(), &region.0)?;
    let (params, samples) = (
        region.rewrite_params(&filtered.ctb_params),
        region.rewrite_samples(setup.format, &filtered.before),
    );
    let again = setup.all(&params, &samples)?;
    let [inside, outside] = [true, false].map(|inside| region.compare_outputs(inside, setup.format, &filtered.outputs, &again));
    Ok(Rewriting {
        format: setup.format,
        subpicture,
        isolated,
        inside,
        outside,
    })
}
