//! Whole runs of the filters whose samples are worked out by hand.

use super::Given;

/// Vertical stripes: every row alike, so transpose 3 holds and tap 11 takes
/// coefficient 6 where tap 6 takes coefficient 11.
fn stripes(clip: i16) -> Given {
    let mut given = Given::plain(32, 32, 5, 8);
    for (index, sample) in given.luma.iter_mut().enumerate() {
        *sample = if index % 8 == 4 { 14 } else { 10 };
    }
    given.slice_params[0] = 1;
    given.slice_params[1] = 5;
    given.ctb_params[0] = 1;
    given.ctb_params[3] = 16;
    for class in 0..25 {
        given.bank[752 * 5 + 24 * class + 6] = 64;
        given.bank[752 * 5 + 24 * class + 12 + 6] = clip;
    }
    given
}

#[test]
fn stripes_turn_the_filter() {
    let (number, classes) = stripes(256).classes();
    assert_eq!(number, 0);
    assert!(classes.iter().all(|entry| entry / 32 == 3));
    for (clip, beside) in [(256, 12), (3, 12), (2, 11)] {
        let (number, output) = stripes(clip).filter_luma();
        assert_eq!(number, 0);
        // Row 8 lies away from the line-buffer boundary; columns 3 and 5 stand beside a stripe.
        assert_eq!([output[8 * 32 + 3], output[8 * 32 + 5]], [beside; 2]);
        assert_eq!(output[8 * 32], 10);
    }
}

/// Beside the line-buffer boundary the shift is 10: ( 64 * 4 + 64 ) >> 10 is 0.
#[test]
fn rows_beside_line_buffer_boundary_shift_by_ten() {
    let (_, output) = stripes(256).filter_luma();
    let column: Vec<u16> = (24..32).map(|y| output[y * 32 + 3]).collect();
    assert_eq!(column, [12, 12, 12, 10, 10, 12, 12, 12]);
}

/// Fixed sets go through the map and have clip 2 to the depth.
#[test]
fn fixed_set() {
    let mut given = stripes(0);
    given.ctb_params[3] = 15;
    for class in 0..25 {
        given.fixed_map[25 * 15 + class] = 63;
    }
    given.fixed_filters[12 * 63 + 6] = 64;
    let (number, output) = given.filter_luma();
    assert_eq!((number, output[8 * 32 + 3]), (0, 12));
}

/// Only listed CTBs whose flag is on change, and repeats change nothing more.
#[test]
fn list_and_flag() {
    let mut given = Given::plain(96, 32, 5, 8);
    given.chroma = (0..48 * 16).map(|index| (index * 37 % 256) as u16).collect();
    for address in 0..3 {
        given.ctb_params[8 * address + 2] = u8::from(address != 1);
    }
    given.bank[600] = 32;
    given.bank[606] = 256;
    let (_, all) = given.filter_chroma(1);
    let differs = |output: &[u16], ctb: usize| (0..48 * 16).any(|index| index % 48 / 16 == ctb && output[index] != given.chroma[index]);
    assert_eq!([0, 1, 2].map(|ctb| differs(&all, ctb)), [true, false, true]);
    assert_eq!(given.filter_chroma(0), (0, given.chroma.clone()));
    let mut some = given.clone();
    some.ctb_list = vec![2, 1, 2, 2];
    let (_, output) = some.filter_chroma(1);
    assert_eq!([0, 1, 2].map(|ctb| differs(&output, ctb)), [false, false, true]);
    assert!((0..48 * 16).all(|index| index % 48 < 32 || output[index] == all[index]));
}

/// Cr takes its own flag and alternative.
#[test]
fn chroma_bytes_by_component() {
    let mut given = Given::plain(8, 8, 5, 8);
    given.chroma = [100, 110, 100, 110].repeat(4);
    given.ctb_params = vec![0, 1, 1, 0, 1, 2, 0, 0];
    for (alternative, coefficient) in [(1, 16), (2, 32)] {
        given.bank[600 + 12 * alternative + 5] = coefficient;
        given.bank[600 + 12 * alternative + 11] = 256;
    }
    // Column 1 has −10 on both sides: ( −320 + 64 ) >> 7 and ( −640 + 64 ) >> 7.
    assert_eq!(given.filter_chroma(0).1[5], 108);
    assert_eq!(given.filter_chroma(1).1[5], 105);
}

/// The cross-component term in a luma ramp of 4 for each row and coefficient 6.
#[test]
fn cross_component_beside_line_buffer_boundary() {
    let mut given = Given::plain(32, 32, 5, 8);
    given.luma = (0..1024).map(|index| 4 * (index / 32) as u16).collect();
    given.chroma = vec![50; 256];
    given.ctb_params[7] = 4;
    given.slice_params[10] = 3;
    given.bank[752 * 3 + 696 + 28 + 21 + 6] = 64;
    let (number, output) = given.filter_cross(1);
    assert_eq!(number, 0);
    let change: Vec<i32> = (0..16).map(|y| i32::from(output[y * 16]) - 50).collect();
    // Two rows down is 8 more: ( 64 * 8 + 64 ) >> 7 = 4. Luma row 26 has offset 1: 2.
    // Row 28 has offset 0. Row 30 has offset 2, cut by the plane to 1: 2.
    let expected = [4, 4, 4, 4, 4, 4, 4, 4, 4, 4, 4, 4, 4, 2, 0, 2];
    assert_eq!(change, expected);
    assert_eq!(given.filter_cross(0), (0, given.chroma.clone()));
}

/// (1534) clips the term to half the range, −128 to 127 at depth 8.
#[test]
fn cross_component_term_is_clipped() {
    let mut given = Given::plain(8, 8, 5, 8);
    given.luma[0] = 255;
    given.chroma = vec![200; 16];
    given.ctb_params[6] = 1;
    for coefficient in 0..7 {
        given.bank[696 + coefficient] = 127;
    }
    let (_, output) = given.filter_cross(0);
    // At ( 0, 0 ) five of the seven differ by −255, those that do not pad to ( 0, 0 ).
    assert_eq!(output[0], 72);
}
