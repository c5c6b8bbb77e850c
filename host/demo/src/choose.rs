//! The CTBs' parameters, found as an encoder finds them: every filter is tried on every CTB, and each CTB takes the one that brings it
//! nearest to the clean picture, or none.
use crate::filter::{Filter, Setup, CTB_NUMBERS};
use crate::format::Format;
use crate::layout::{ctb_at, Layout, CTBS};
use crate::planes::{Planes, CB, CR, Y};
use crate::tables::SLICE_PARAMS;
use raspbegonia::Fault;

/// Where a filter's flag (the cross-component filter has none) and its number stand in a CTB's parameters, and which numbers to try.
struct Stage {
    filter: Filter,
    component: usize,
    flag: Option<usize>,
    number: usize,
    candidates: std::ops::Range<u8>,
}

/// The squared error of each CTB in a component.
fn ctb_errors(format: Format, component: usize, plane: &[u16], clean: &[u16]) -> Vec<u64> {
    let mut errors = vec![0; CTBS];
    for (place, (&a, &b)) in plane.iter().zip(clean).enumerate() {
        let (x, y) = format.luma_position(component, place);
        errors[ctb_at(x, y)] += u64::from(a.abs_diff(b)).pow(2);
    }
    errors
}

/// Whether a CTB may use a number: a slice has the 16 fixed luma sets and as many more as it has luma APSs.
fn allowed(layout: &Layout, stage: &Stage, ctb: usize, candidate: u8) -> bool {
    let count = SLICE_PARAMS[11 * usize::from(layout.slice_map[ctb])];
    !matches!(stage.filter, Filter::Luma) || candidate < 16 + count
}

/// Writes a candidate into a CTB's parameters.
fn switch_on(stage: &Stage, ctb_params: &mut [u8], ctb: usize, candidate: u8) {
    if let Some(flag) = stage.flag {
        ctb_params[ctb * CTB_NUMBERS + flag] = 1;
    }
    ctb_params[ctb * CTB_NUMBERS + stage.number] = candidate;
}

/// Tries a stage's candidates and settles its part of the parameters.
fn settle(setup: Setup, stage: &Stage, luma: &[u16], input: &[u16], clean: &[u16], ctb_params: &mut [u8]) -> Result<(), Fault> {
    let errors_of = |plane: &[u16]| ctb_errors(setup.format, stage.component, plane, clean);
    let mut least = errors_of(input);
    for candidate in stage.candidates.clone() {
        let usable: Vec<usize> = (0..CTBS).filter(|&ctb| allowed(setup.layout, stage, ctb, candidate)).collect();
        let mut trial = vec![0; CTBS * CTB_NUMBERS];
        usable.iter().for_each(|&ctb| switch_on(stage, &mut trial, ctb, candidate));
        let errors = errors_of(&setup.filter(stage.filter, &trial, luma, input)?);
        for ctb in usable {
            if errors[ctb] < least[ctb] {
                least[ctb] = errors[ctb];
                switch_on(stage, ctb_params, ctb, candidate);
            }
        }
    }
    Ok(())
}

/// The parameters of every CTB: luma, Cb and Cr flags, luma set, Cb and Cr alternative, Cb and Cr cross-component index.
pub fn ctb_params(setup: Setup, input: &Planes, clean: &Planes) -> Result<Vec<u8>, Fault> {
    let mut params = vec![0; CTBS * CTB_NUMBERS];
    let luma = Stage {
        filter: Filter::Luma,
        component: Y,
        flag: Some(0),
        number: 3,
        candidates: 0..23,
    };
    settle(setup, &luma, &input[Y], &input[Y], &clean[Y], &mut params)?;
    for (c, component) in [CB, CR].into_iter().enumerate() {
        let number = c as u8;
        let chroma = Stage {
            filter: Filter::Chroma(number),
            component,
            flag: Some(1 + c),
            number: 4 + c,
            candidates: 0..8,
        };
        settle(setup, &chroma, &input[Y], &input[component], &clean[component], &mut params)?;
        let filtered = setup.filter(Filter::Chroma(number), &params, &input[Y], &input[component])?;
        let cross = Stage {
            filter: Filter::Cross(number),
            component,
            flag: None,
            number: 6 + c,
            candidates: 1..5,
        };
        settle(setup, &cross, &input[Y], &filtered, &clean[component], &mut params)?;
    }
    Ok(params)
}
