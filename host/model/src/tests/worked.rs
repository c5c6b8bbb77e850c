//! The worked examples of 01, "Checked by hand".

use super::Given;
use crate::classes::{activity, class_of_sums, window, Sums, Window};
use crate::edges::{chroma_edges, edges, line_rule, padded, Clip, ClipCause};
use crate::filters::luma_sample;
use crate::layout::{Ctb, Plane};
use crate::taps::{chroma_reach, cross_reach, luma_reach, luma_taps, rounded, Filter, Reach, TAP_ORDER};

#[test]
fn p1_rounding_by_seven() {
    assert_eq!([-65, -64, 63, 64].map(|sum| rounded(sum, 7)), [-1, 0, 0, 1]);
}

#[test]
fn p2_rounding_by_ten() {
    assert_eq!([959, 960].map(|sum| rounded(sum, 10)), [0, 1]);
}

#[test]
fn p3_to_p7_classes_of_sums() {
    let class = |v, h, d0, d1| class_of_sums(Sums { v, h, d0, d1 }, 2, 8);
    assert_eq!(class(0, 0, 0, 0), (0, 3));
    assert_eq!(class(10, 2, 4, 4), (20, 2));
    assert_eq!(class(9, 2, 4, 4), (15, 2));
    assert_eq!(class(3, 3, 8, 1), (10, 1));
    assert_eq!(class(5, 0, 7, 0), (20, 0));
}

#[test]
fn p8_activity() {
    assert_eq!(activity(3839, 2, 10), 3);
    assert_eq!(activity(3840, 2, 10), 4);
}

#[test]
fn p9_clip_positions_at_line_buffer_boundary() {
    let given = Given::plain(32, 32, 5, 8);
    let layout = given.layout();
    let at = |y| edges(&layout, layout.ctb(0), 8, y);
    let line = Clip {
        position: 28,
        cause: ClipCause::LineBufferBoundary,
    };
    assert_eq!(at(23).clip_bottom, None);
    assert_eq!(at(24).clip_bottom, Some(line));
    assert_eq!(at(27).clip_top, None);
    assert_eq!(at(28).clip_top, Some(line));
    assert_eq!(at(28).clip_bottom, None);
}

/// Four CTBs of side 32, the upper left one a slice of its own, filtering across slices disabled.
fn corner_slice() -> Given {
    let mut given = Given::plain(64, 64, 5, 8);
    given.slice_count = 2;
    given.slice_params = vec![0; 22];
    given.slice_map = vec![0, 1, 1, 1];
    given.across_slices = false;
    given
}

#[test]
fn p10_upper_left_corner() {
    let given = corner_slice();
    let layout = given.layout();
    assert_eq!(given.numbers(), [0; 6]);
    let ctb = layout.covering(32, 32);
    let plane = Plane::luma(&layout, &given.luma);
    let found = edges(&layout, ctb, 0, 0);
    assert_eq!((found.clip_top, found.clip_left), (None, None));
    let moved = |x, y| padded(&layout, &plane, ctb, &found, (x, y));
    assert_eq!(moved(31, 31), (32, 31));
    assert_eq!(moved(29, 30), (32, 30));
    assert_eq!(moved(31, 32), (31, 32));
    assert_eq!(moved(32, 31), (32, 31));
}

#[test]
fn p10_not_with_filtering_across_slices_or_one_slice() {
    let mut enabled = corner_slice();
    enabled.across_slices = true;
    let mut alike = corner_slice();
    alike.slice_map = vec![1; 4];
    for given in [enabled, alike] {
        let layout = given.layout();
        let ctb = layout.covering(32, 32);
        let plane = Plane::luma(&layout, &given.luma);
        let found = edges(&layout, ctb, 0, 0);
        assert_eq!(padded(&layout, &plane, ctb, &found, (31, 31)), (31, 31));
    }
}

#[test]
fn p10_likewise_lower_right_and_chroma() {
    let mut given = corner_slice();
    given.slice_map = vec![1, 1, 1, 0];
    let layout = given.layout();
    assert_eq!(given.numbers(), [0; 6]);
    let ctb = layout.ctb(0);
    let luma = Plane::luma(&layout, &given.luma);
    // The line-buffer boundary is above row 31, so row 31 has no clip position below.
    let found = edges(&layout, ctb, 31, 31);
    assert_eq!((found.clip_bottom, found.clip_right), (None, None));
    assert_eq!(padded(&layout, &luma, ctb, &found, (33, 32)), (31, 32));
    let chroma = Plane::chroma(&layout, &given.chroma);
    let found = chroma_edges(&layout, ctb, 15, 15);
    assert_eq!(padded(&layout, &chroma, ctb, &found, (17, 16)), (15, 16));
    assert_eq!(padded(&layout, &chroma, ctb, &found, (17, 15)), (17, 15));
}

#[test]
fn p11_line_rule_at_the_picture_bottom() {
    let low = Ctb { column: 0, row: 1 };
    let whole = Given::plain(32, 64, 5, 8);
    let cut = Given::plain(32, 56, 5, 8);
    assert!(line_rule(&whole.layout(), low));
    assert!(!line_rule(&cut.layout(), low));
    let rows = |given: &Given, y4| {
        let Window { min_y, max_y, ac } = window(&given.layout(), low, y4);
        (min_y, max_y, ac)
    };
    assert_eq!([20, 24, 28].map(|y4| rows(&whole, y4)), [(-2, 5, 2), (-2, 3, 3), (0, 5, 3)]);
    assert_eq!([16, 20].map(|y4| rows(&cut, y4)), [(-2, 5, 2); 2]);
}

#[test]
fn p12_one_tap_and_its_clip() {
    let mut given = Given::plain(32, 32, 5, 8);
    given.luma = vec![10; 32 * 32];
    given.luma[8 * 32 + 9] = 14;
    let layout = given.layout();
    let plane = Plane::luma(&layout, &given.luma);
    let result = |clip: i64| {
        let mut filter = Filter {
            f: vec![0; 12],
            c: vec![clip; 12],
        };
        filter.f[11] = 64;
        luma_sample(&layout, &plane, layout.ctb(0), (8, 8), &filter, 0)
    };
    assert_eq!([256, 3, 2].map(result), [12, 12, 11]);
}

#[test]
fn sizes() {
    for (size, number) in [(8, 0), (4096, 0), (0, 1), (12, 1), (4104, 1)] {
        let mut given = Given::plain(if number == 0 { size } else { 8 }, 8, 7, 8);
        given.width = size;
        assert_eq!(given.numbers(), [number; 6], "width {size}");
        let mut given = Given::plain(8, if number == 0 { size } else { 8 }, 7, 8);
        given.height = size;
        assert_eq!(given.numbers(), [number; 6], "height {size}");
    }
}

#[test]
fn two_subpictures() {
    let mut given = Given::plain(64, 32, 5, 8);
    given.subpic_map = vec![0, 1];
    given.subpic_across[0] = 0;
    let left: Vec<u8> = (0..32).map(|block| u8::from(block % 8 < 4)).collect();
    given.region = left.clone();
    assert_eq!(given.isolated(), (0, 1));
    given.region = left.iter().map(|byte| 1 - byte).collect();
    assert_eq!(given.isolated(), (0, 0));
}

#[test]
fn tap_orders_are_permutations() {
    for order in TAP_ORDER {
        let mut sorted = order;
        sorted.sort();
        assert_eq!(sorted, [0, 1, 2, 3, 4, 5, 6, 7, 8, 9, 10, 11]);
    }
}

type Turn = fn((i64, i64)) -> (i64, i64);

/// A transposed filter is the diamond of taps turned or flipped; opposite positions are one tap.
#[test]
fn tap_orders_turn_the_diamond() {
    let positions = luma_taps(luma_reach(32, true, 0));
    let turns: [Turn; 4] = [|(x, y)| (x, y), |(x, y)| (y, x), |(x, y)| (-x, y), |(x, y)| (y, -x)];
    for (order, turn) in TAP_ORDER.into_iter().zip(turns) {
        for (tap, position) in positions.into_iter().enumerate() {
            let (x, y) = positions[order[tap]];
            assert!(turn(position) == (x, y) || turn(position) == (-x, -y));
        }
    }
}

/// 01, "Taps": the rows from S − 8 (T − 5 for chroma) to the bottom.
#[test]
fn reach_beside_line_buffer_boundary() {
    let luma = |y, on| {
        let Reach { y1, y2, y3, shift } = luma_reach(64, on, y);
        (y1, y2, y3, shift)
    };
    let far = (1, 2, 3, 7);
    let arms = [(1, 2, 2, 7), (1, 1, 1, 7), (0, 0, 0, 10)];
    let expected = [far, arms[0], arms[1], arms[2], arms[2], arms[1], arms[0], far];
    assert_eq!([56, 57, 58, 59, 60, 61, 62, 63].map(|y| luma(y, true)), expected);
    let chroma = |y, on| {
        let Reach { y1, y2, shift, .. } = chroma_reach(32, on, y);
        (y1, y2, shift)
    };
    let expected = [(1, 2, 7), (1, 1, 7), (0, 0, 10), (0, 0, 10), (1, 1, 7)];
    assert_eq!([27, 28, 29, 30, 31].map(|y| chroma(y, true)), expected);
    let cross = [56, 57, 58, 59, 60, 61, 62, 63].map(|y| cross_reach(64, true, y));
    let expected = [(1, 2), (1, 2), (1, 1), (0, 0), (0, 0), (1, 1), (1, 2), (1, 2)];
    assert_eq!(cross, expected);
    for y in 0..64 {
        assert_eq!((luma(y, false), cross_reach(64, false, y)), (far, (1, 2)));
        assert_eq!(chroma(y / 2, false), (1, 2, 7));
    }
}
