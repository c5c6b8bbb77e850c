//! The luma, chroma and cross-component filters (8.8.5.2, 8.8.5.4 and 8.8.5.7).

use crate::classes::block_class;
use crate::edges::{chroma_edges, clip3, edges, line_rule};
use crate::judge::{judge, Given, Output};
use crate::layout::{Cell, Ctb, FixedTables, Layout, Parameters, Plane};
use crate::taps::{chroma_reach, chroma_taps, cross_reach, cross_taps, luma_reach, luma_taps, rounded, Filter, Surround, TAP_ORDER};

/// Filters luma in each listed CTB whose luma flag is 1.
pub fn luma(layout: &Layout, parameters: &Parameters, fixed: &FixedTables, luma: &[u16], output: &mut [u16]) -> u8 {
    let given = Given {
        parameters: Some(parameters),
        fixed: Some(fixed),
        luma: Some(luma),
        output: Some(Output {
            cell: Cell::LUMA,
            length: output.len(),
        }),
        ..Given::default()
    };
    let number = judge(layout, &given);
    if number != 0 {
        return number;
    }
    output.copy_from_slice(luma);
    let plane = Plane::luma(layout, luma);
    for address in 0..layout.ctb_count() {
        let ctb = layout.ctb(address);
        if parameters.lists(address) && parameters.of_ctb(layout.address(ctb))[0] == 1 {
            luma_ctb(layout, parameters, fixed, &plane, ctb, output);
        }
    }
    0
}

/// Filters chroma of the component in each listed CTB whose flag for it is 1.
pub fn chroma(layout: &Layout, component: u8, parameters: &Parameters, chroma: &[u16], output: &mut [u16]) -> u8 {
    let given = Given {
        component: Some(component),
        parameters: Some(parameters),
        chroma: Some(chroma),
        output: Some(Output {
            cell: layout.chroma_cell(),
            length: output.len(),
        }),
        ..Given::default()
    };
    let number = judge(layout, &given);
    if number != 0 {
        return number;
    }
    output.copy_from_slice(chroma);
    let plane = Plane::chroma(layout, chroma);
    for address in 0..layout.ctb_count() {
        let ctb = layout.ctb(address);
        let flag = parameters.of_ctb(layout.address(ctb))[1 + usize::from(component)];
        if parameters.lists(address) && flag == 1 {
            let filter = chroma_filter(layout, parameters, component, ctb);
            chroma_ctb(layout, &plane, ctb, &filter, output);
        }
    }
    0
}

/// Adds the cross-component term in each listed CTB whose index for the component is
/// not 0. Luma comes unfiltered, chroma filtered.
pub fn cross_component(layout: &Layout, component: u8, parameters: &Parameters, luma: &[u16], chroma: &[u16], output: &mut [u16]) -> u8 {
    let given = Given {
        component: Some(component),
        parameters: Some(parameters),
        luma: Some(luma),
        chroma: Some(chroma),
        output: Some(Output {
            cell: layout.chroma_cell(),
            length: output.len(),
        }),
        ..Given::default()
    };
    let number = judge(layout, &given);
    if number != 0 {
        return number;
    }
    output.copy_from_slice(chroma);
    let luma_plane = Plane::luma(layout, luma);
    let chroma_plane = Plane::chroma(layout, chroma);
    for address in 0..layout.ctb_count() {
        let ctb = layout.ctb(address);
        let index = parameters.of_ctb(layout.address(ctb))[6 + usize::from(component)];
        if parameters.lists(address) && index != 0 {
            let f = cross_filter(layout, parameters, component, ctb);
            cross_ctb(layout, &luma_plane, &chroma_plane, ctb, &f, output);
        }
    }
    0
}

/// Widens numbers of a table.
fn widened(numbers: &[i16]) -> Vec<i64> {
    numbers.iter().map(|&number| i64::from(number)).collect()
}

/// (1454) to (1459): the filter for a class, by the CTB's luma set.
fn luma_filter(layout: &Layout, parameters: &Parameters, fixed: &FixedTables, ctb: Ctb, class: u8) -> Filter {
    let set = usize::from(parameters.of_ctb(layout.address(ctb))[3]);
    let class = usize::from(class);
    if set < 16 {
        let start = 12 * usize::from(fixed.map[25 * set + class]);
        return Filter {
            f: widened(&fixed.filters[start..start + 12]),
            c: vec![1 << layout.bit_depth; 12],
        };
    }
    let slice_params = parameters.of_slice(layout.slice(ctb));
    let aps = parameters.aps(slice_params[1 + set - 16]);
    let start = 24 * class;
    Filter {
        f: widened(&aps[start..start + 12]),
        c: widened(&aps[start + 12..start + 24]),
    }
}

/// (1506) and (1507): the chroma alternative of the CTB.
fn chroma_filter(layout: &Layout, parameters: &Parameters, component: u8, ctb: Ctb) -> Filter {
    let slice_params = parameters.of_slice(layout.slice(ctb));
    let aps = parameters.aps(slice_params[8]);
    let ctb_params = parameters.of_ctb(layout.address(ctb));
    let alt_idx = usize::from(ctb_params[4 + usize::from(component)]);
    let start = 25 * 24 + 12 * alt_idx;
    Filter {
        f: widened(&aps[start..start + 6]),
        c: widened(&aps[start + 6..start + 12]),
    }
}

/// (1532): the seven cross-component coefficients of the CTB; its index is not 0.
fn cross_filter(layout: &Layout, parameters: &Parameters, component: u8, ctb: Ctb) -> Vec<i64> {
    let component = usize::from(component);
    let slice_params = parameters.of_slice(layout.slice(ctb));
    let aps = parameters.aps(slice_params[9 + component]);
    let index = usize::from(parameters.of_ctb(layout.address(ctb))[6 + component]);
    let start = 25 * 24 + 8 * 12 + 28 * component + 7 * (index - 1);
    widened(&aps[start..start + 7])
}

/// 8.8.5.2. One class serves the sixteen samples of its block.
fn luma_ctb(layout: &Layout, parameters: &Parameters, fixed: &FixedTables, plane: &Plane, ctb: Ctb, output: &mut [u16]) {
    let (x_ctb, y_ctb) = layout.origin(ctb);
    let blocks = layout.ctb_size() / 4;
    for block in 0..blocks * blocks {
        let x4 = 4 * (block % blocks);
        let y4 = 4 * (block / blocks);
        if !plane.holds(x_ctb + x4, y_ctb + y4) {
            continue;
        }
        let (class, transpose) = block_class(layout, plane, ctb, x4, y4);
        let filter = luma_filter(layout, parameters, fixed, ctb, class);
        for y in y4..y4 + 4 {
            for x in x4..x4 + 4 {
                let value = luma_sample(layout, plane, ctb, (x, y), &filter, transpose);
                output[plane.index(x_ctb + x, y_ctb + y)] = value;
            }
        }
    }
}

/// (1464) to (1469) for the luma sample at ( x, y ) inside the CTB.
pub(crate) fn luma_sample(layout: &Layout, plane: &Plane, ctb: Ctb, (x, y): (i64, i64), filter: &Filter, transpose: u8) -> u16 {
    let (x_ctb, y_ctb) = layout.origin(ctb);
    let here = (x_ctb + x, y_ctb + y);
    let surround = Surround {
        layout,
        plane,
        ctb,
        edges: edges(layout, ctb, x, y),
    };
    let reach = luma_reach(layout.ctb_size(), line_rule(layout, ctb), y);
    let idx = TAP_ORDER[usize::from(transpose)];
    let sum = surround.paired_sum(here, &luma_taps(reach), &idx, filter);
    let curr = plane.at(here.0, here.1);
    stored(curr + rounded(sum, reach.shift), layout.bit_depth)
}

/// (1469), (1510) and (1536): the value clipped to the range of samples.
fn stored(value: i64, bit_depth: u8) -> u16 {
    clip3(0, (1 << bit_depth) - 1, value) as u16
}

/// The samples of a chroma CTB that lie in the plane: the position inside the CTB, and in the plane.
fn chroma_samples(layout: &Layout, plane: &Plane, ctb: Ctb) -> Vec<((i64, i64), (i64, i64))> {
    let (x_ctb_c, y_ctb_c) = plane.origin(layout, ctb);
    let (ctb_width_c, ctb_height_c) = plane.ctb_sizes(layout);
    (0..ctb_width_c * ctb_height_c)
        .map(|index| (index % ctb_width_c, index / ctb_width_c))
        .map(|(x, y)| ((x, y), (x_ctb_c + x, y_ctb_c + y)))
        .filter(|&(_, here)| plane.holds(here.0, here.1))
        .collect()
}

/// 8.8.5.4.
fn chroma_ctb(layout: &Layout, plane: &Plane, ctb: Ctb, filter: &Filter, output: &mut [u16]) {
    for (inside, here) in chroma_samples(layout, plane, ctb) {
        output[plane.index(here.0, here.1)] = chroma_sample(layout, plane, ctb, inside, here, filter);
    }
}

/// (1503) to (1510) for the chroma sample at ( x, y ) inside the chroma CTB, which is at
/// `here` in the plane.
fn chroma_sample(layout: &Layout, plane: &Plane, ctb: Ctb, (x, y): (i64, i64), here: (i64, i64), filter: &Filter) -> u16 {
    let surround = Surround {
        layout,
        plane,
        ctb,
        edges: chroma_edges(layout, ctb, x, y),
    };
    let (_, ctb_height_c) = plane.ctb_sizes(layout);
    let reach = chroma_reach(ctb_height_c, line_rule(layout, ctb), y);
    let idx = [0, 1, 2, 3, 4, 5];
    let sum = surround.paired_sum(here, &chroma_taps(reach), &idx, filter);
    let curr = plane.at(here.0, here.1);
    stored(curr + rounded(sum, reach.shift), layout.bit_depth)
}

/// 8.8.5.7 for one CTB.
fn cross_ctb(layout: &Layout, luma_plane: &Plane, chroma_plane: &Plane, ctb: Ctb, f: &[i64], output: &mut [u16]) {
    let sub = chroma_plane.cell;
    for ((x, y), here) in chroma_samples(layout, chroma_plane, ctb) {
        let curr = chroma_plane.at(here.0, here.1);
        let scaled_sum = cross_term(layout, luma_plane, ctb, (x * sub.width, y * sub.height), f);
        output[chroma_plane.index(here.0, here.1)] = stored(curr + scaled_sum, layout.bit_depth);
    }
}

/// scaledSum of (1534) for the chroma sample whose luma position inside the CTB is
/// ( x, y ). The neighbours are luma samples, so clip positions are taken as they are.
fn cross_term(layout: &Layout, luma_plane: &Plane, ctb: Ctb, (x, y): (i64, i64), f: &[i64]) -> i64 {
    let (x_ctb, y_ctb) = layout.origin(ctb);
    let surround = Surround {
        layout,
        plane: luma_plane,
        ctb,
        edges: edges(layout, ctb, x, y),
    };
    let (y_p1, y_p2) = cross_reach(layout.ctb_size(), line_rule(layout, ctb), y);
    let sum = surround.cross_sum((x_ctb + x, y_ctb + y), &cross_taps(y_p1, y_p2), f);
    let half = 1i64 << (layout.bit_depth - 1);
    clip3(-half, half - 1, rounded(sum, 7))
}
