//! Each cause of 01's table, and its rank among the others.

use super::{Given, SENDABLE};

/// An acceptable picture of 3 by 3 CTBs, with parameters of two slices.
fn good() -> Given {
    let mut given = Given::plain(96, 96, 5, 10);
    given.slice_count = 2;
    given.slice_params = vec![0; 22];
    given.slice_params[11] = 3;
    given
}

/// The numbers that the six operations return after a change.
fn after(change: impl Fn(&mut Given)) -> [u8; 6] {
    let mut given = good();
    change(&mut given);
    given.numbers()
}

/// The number where only the three filters judge.
fn filters(number: u8) -> [u8; 6] {
    [0, number, number, number, 0, 0]
}

#[test]
fn good_is_accepted() {
    assert_eq!(after(|_| ()), [0; 6]);
}

#[test]
fn picture() {
    assert_eq!(after(|given| given.height = 4), [1; 6]);
    assert_eq!(after(|given| given.ctb_log2 = 8), [2; 6]);
    assert_eq!(after(|given| given.ctb_log2 = 255), [2; 6]);
    assert_eq!(after(|given| given.bit_depth = 13), [3; 6]);
    assert_eq!(after(|given| given.bit_depth = 7), [3; 6]);
    assert_eq!(after(|given| given.chroma_format = 4), [4; 6]);
    assert_eq!(after(|given| given.chroma_format = 255), [4; 6]);
    assert_eq!(after(|given| given.chroma_format = 0), [0, 0, 4, 4, 0, 0]);
    for format in 1..4 {
        let given = good().with_chroma_format(format);
        assert_eq!(given.numbers(), [0; 6]);
        assert_eq!((given.filter_chroma(2).0, given.filter_cross(255).0), (4, 4));
    }
}

#[test]
fn lengths() {
    assert_eq!(after(|given| given.slice_count = 0), [5; 6]);
    assert_eq!(after(|given| given.slice_count = 257), [5; 6]);
    assert_eq!(after(|given| given.slice_count = 3), filters(5));
    assert_eq!(after(|given| given.tile_columns.push(0)), [5; 6]);
    assert_eq!(after(|given| given.tile_rows.clear()), [5; 6]);
    assert_eq!(after(|given| given.slice_map.push(0)), [5; 6]);
    assert_eq!(after(|given| given.subpic_map.push(0)), [5; 6]);
    assert_eq!(after(|given| given.subpic_across.push(0)), [5; 6]);
    assert_eq!(after(|given| given.bank.push(0)), filters(5));
    assert_eq!(after(|given| given.ctb_params.push(0)), filters(5));
    assert_eq!(after(|given| given.fixed_map.push(0)), [0, 5, 0, 0, 0, 0]);
    assert_eq!(after(|given| given.fixed_filters.clear()), [0, 5, 0, 0, 0, 0]);
    assert_eq!(after(|given| given.luma.clear()), [5, 5, 0, 5, 0, 0]);
    assert_eq!(after(|given| given.chroma.push(0)), [0, 0, 5, 5, 0, 0]);
    // The chroma of 4:2:0 is too short for the other formats.
    assert_eq!(after(|given| given.chroma_format = 2), [0, 0, 5, 5, 0, 0]);
    assert_eq!(after(|given| given.chroma_format = 3), [0, 0, 5, 5, 0, 0]);
    assert_eq!(after(|given| given.region.push(0)), [0, 0, 0, 0, 5, 0]);
    for length in [0, 3, 5, 64] {
        assert_eq!(after(|given| given.causes = length), [0, 0, 0, 0, 0, 5]);
    }
}

#[test]
fn output_lengths() {
    let given = good();
    let layout = given.layout();
    let parameters = given.parameters();
    let mut short = vec![9; 5];
    assert_eq!(crate::classes(&layout, &given.luma, &mut [9; 5]), 5);
    let number = crate::luma(&layout, &parameters, &given.fixed(), &given.luma, &mut short);
    assert_eq!(number, 5);
    let number = crate::chroma(&layout, 0, &parameters, &given.chroma, &mut short);
    assert_eq!(number, 5);
    let (luma, chroma) = (&given.luma, &given.chroma);
    let number = crate::cross_component(&layout, 0, &parameters, luma, chroma, &mut short);
    assert_eq!(number, 5);
    assert_eq!(short, [9; 5]);
}

#[test]
fn virtual_boundaries() {
    let columns = |list: &[u16]| after(|given| given.virtual_columns = list.to_vec());
    let rows = |list: &[u16]| after(|given| given.virtual_rows = list.to_vec());
    for boundaries in [&[8][..], &[88], &[8, 40, 72], &[16, 48], &[]] {
        assert_eq!(columns(boundaries), [0; 6]);
        assert_eq!(rows(boundaries), [0; 6]);
    }
    for boundaries in [&[0][..], &[96], &[12], &[8, 32], &[40, 8], &[40, 40], &[65528]] {
        assert_eq!(columns(boundaries), [6; 6]);
        assert_eq!(rows(boundaries), [6; 6]);
    }
    let mut wide = Given::plain(256, 8, 5, 8);
    wide.virtual_columns = vec![8, 40, 72];
    assert_eq!(wide.numbers(), [0; 6]);
    wide.virtual_columns.push(104);
    assert_eq!(wide.numbers(), [6; 6]);
}

#[test]
fn tiles() {
    let columns = |list: [u8; 3]| after(|given| given.tile_columns = list.to_vec());
    let rows = |list: [u8; 3]| after(|given| given.tile_rows = list.to_vec());
    assert_eq!(columns([0, 0, 1]), [0; 6]);
    assert_eq!(rows([0, 1, 2]), [0; 6]);
    assert_eq!(columns([1, 1, 1]), [7; 6]);
    assert_eq!(columns([0, 2, 2]), [7; 6]);
    assert_eq!(rows([0, 1, 0]), [7; 6]);
}

#[test]
fn slice_maps() {
    let map = |map: [u8; 9]| after(|given| given.slice_map = map.to_vec());
    assert_eq!(map([0, 0, 0, 0, 1, 1, 1, 1, 1]), [0; 6]);
    assert_eq!(map([1, 1, 1, 1, 1, 1, 1, 1, 0]), [0; 6]);
    assert_eq!(map([1, 0, 1, 1, 1, 1, 1, 1, 1]), [8; 6]);
    assert_eq!(map([0, 0, 0, 0, 0, 0, 0, 1, 0]), [8; 6]);
    assert_eq!(map([0, 0, 0, 0, 0, 0, 2, 2, 2]), [8; 6]);
    // The upper right CTB of the grid alone: its one corner breaks the rule.
    assert_eq!(map([0, 0, 1, 0, 0, 0, 0, 0, 0]), [8; 6]);
}

#[test]
fn subpictures() {
    let map = |map: [u8; 9]| after(|given| given.subpic_map = map.to_vec());
    assert_eq!(map([0, 63, 63, 0, 63, 63, 0, 63, 63]), [0; 6]);
    assert_eq!(map([0, 1, 1, 2, 3, 3, 2, 3, 3]), [0; 6]);
    assert_eq!(map([64, 64, 64, 64, 64, 64, 64, 64, 64]), [9; 6]);
    assert_eq!(map([0, 1, 1, 1, 1, 1, 1, 1, 1]), [9; 6]);
    assert_eq!(map([1, 1, 1, 1, 1, 1, 1, 1, 0]), [9; 6]);
    assert_eq!(after(|given| given.subpic_across[63] = 2), [9; 6]);
}

#[test]
fn slice_and_ctb_params() {
    for byte in 0..11 {
        assert_eq!(after(|given| given.slice_params[11 + byte] = 7), filters(0));
        assert_eq!(after(|given| given.slice_params[byte] = 8), filters(10));
    }
    for (byte, most) in [1, 1, 1, 15, 7, 7, 4, 4].into_iter().enumerate() {
        assert_eq!(after(|given| given.ctb_params[8 + byte] = most), filters(0));
        assert_eq!(after(|given| given.ctb_params[8 + byte] = most + 1), filters(10));
    }
    let set = |set: u8| {
        after(|given| {
            given.slice_map = vec![1; 9];
            given.ctb_params[3] = set;
        })
    };
    assert_eq!(set(18), filters(0));
    assert_eq!(set(19), filters(10));
}

#[test]
fn ctb_params_under_chroma_format_0() {
    for byte in 0..8 {
        let mut given = good();
        given.chroma_format = 0;
        given.ctb_params[64 + byte] = 1;
        let allowed = byte == 0 || byte == 3;
        assert_eq!(given.filter_luma().0, if allowed { 0 } else { 10 });
    }
}

#[test]
fn bank_and_fixed_filters() {
    let bank = |index: usize, number: i16| after(|given| given.bank[752 * 7 + index] = number);
    for coefficient in [0, 11, 24, 599 - 12, 600, 605, 684, 696, 723, 724, 751] {
        assert_eq!(bank(coefficient, -128), filters(0));
        assert_eq!(bank(coefficient, 127), filters(0));
        assert_eq!(bank(coefficient, -129), filters(11));
        assert_eq!(bank(coefficient, 128), filters(11));
    }
    for clip in [12, 23, 599, 606, 611, 695] {
        assert_eq!(bank(clip, 0), filters(0));
        assert_eq!(bank(clip, 1024), filters(0));
        assert_eq!(bank(clip, 1025), filters(11));
        assert_eq!(bank(clip, -1), filters(11));
    }
    assert_eq!(after(|given| given.fixed_filters[767] = 128), [0, 11, 0, 0, 0, 0]);
    assert_eq!(after(|given| given.fixed_map[399] = 63), [0; 6]);
    assert_eq!(after(|given| given.fixed_map[399] = 64), [0, 11, 0, 0, 0, 0]);
}

/// Whether H.266 can send them is judged neither by luma and chroma nor by the operations that have no bank.
#[test]
fn cross_coefficients() {
    let with = |coefficient: i16| after(|given| given.bank[752 + 696 + 3] = coefficient);
    for coefficient in -128..=127 {
        let [classes, luma, chroma, _, isolated, causes] = with(coefficient);
        assert_eq!([classes, luma, chroma, isolated, causes], [0; 5], "{coefficient}");
    }
    for coefficient in SENDABLE {
        assert_eq!(with(coefficient), [0; 6], "{coefficient}");
    }
    // What the luma and chroma filters of a bank are is not asked.
    for place in [0, 600] {
        assert_eq!(after(|given| given.bank[place] = 3), [0; 6]);
    }
}

#[test]
fn samples_addresses_region_and_position() {
    assert_eq!(after(|given| given.luma[95] = 1023), [0; 6]);
    assert_eq!(after(|given| given.luma[95] = 1024), [12, 12, 0, 12, 0, 0]);
    assert_eq!(after(|given| given.chroma[0] = 1024), [0, 0, 12, 12, 0, 0]);
    assert_eq!(after(|given| given.ctb_list = vec![8, 8, 0]), [0; 6]);
    assert_eq!(after(|given| given.ctb_list = vec![]), [0; 6]);
    assert_eq!(after(|given| given.ctb_list = vec![9]), filters(13));
    assert_eq!(after(|given| given.region[0] = 2), [0, 0, 0, 0, 14, 0]);
    assert_eq!(after(|given| given.position = (95, 95)), [0; 6]);
    for position in [(96, 0), (0, 96), (u32::MAX, 5), (5, u32::MAX)] {
        assert_eq!(after(|given| given.position = position), [0, 0, 0, 0, 0, 15]);
    }
}

/// All causes at once; then they are mended one after another.
#[test]
fn lowest_number_first() {
    let mut given = good();
    given.luma[0] = 5000;
    given.ctb_list.push(9);
    given.fixed_map[0] = 64;
    given.ctb_params[0] = 2;
    given.subpic_across[0] = 2;
    given.slice_map[0] = 2;
    given.tile_rows[0] = 1;
    given.virtual_rows = vec![1];
    given.fixed_filters.push(0);
    given.chroma_format = 4;
    given.bit_depth = 0;
    given.ctb_log2 = 0;
    given.width = 0;
    let mends: [fn(&mut Given); 13] = [
        |given| given.width = 96,
        |given| given.ctb_log2 = 5,
        |given| given.bit_depth = 10,
        |given| given.chroma_format = 1,
        |given| given.fixed_filters.truncate(768),
        |given| given.virtual_rows.clear(),
        |given| given.tile_rows[0] = 0,
        |given| given.slice_map[0] = 0,
        |given| given.subpic_across[0] = 1,
        |given| given.ctb_params[0] = 1,
        |given| given.fixed_map[0] = 0,
        |given| given.luma[0] = 0,
        |given| given.ctb_list.clear(),
    ];
    for (mend, number) in mends.into_iter().zip(1..) {
        assert_eq!(given.filter_luma(), (number, vec![777; 96 * 96]));
        mend(&mut given);
    }
    assert_eq!(given.filter_luma().0, 0);
}

/// A number, and how to mend its cause.
type Mend = (u8, fn(&mut Given));

/// The same for the causes of clip positions: their length stands before the boundary
/// tables, the position comes last.
#[test]
fn position_is_judged_last() {
    let mut given = good();
    given.position = (96, 96);
    given.subpic_across[0] = 2;
    given.slice_map[0] = 2;
    given.tile_rows[0] = 1;
    given.virtual_rows = vec![1];
    given.causes = 5;
    given.chroma_format = 4;
    given.bit_depth = 0;
    given.ctb_log2 = 0;
    given.width = 0;
    let mends: [Mend; 10] = [
        (1, |given| given.width = 96),
        (2, |given| given.ctb_log2 = 5),
        (3, |given| given.bit_depth = 10),
        (4, |given| given.chroma_format = 1),
        (5, |given| given.causes = 4),
        (6, |given| given.virtual_rows.clear()),
        (7, |given| given.tile_rows[0] = 0),
        (8, |given| given.slice_map[0] = 0),
        (9, |given| given.subpic_across[0] = 1),
        (15, |given| given.position = (95, 95)),
    ];
    for (number, mend) in mends {
        assert_eq!(given.clip_causes(), (number, vec![77; given.causes]));
        mend(&mut given);
    }
    assert_eq!(given.clip_causes().0, 0);
}

/// All causes of the cross-component filter at once.
#[test]
fn lowest_number_first_by_the_cross_component_filter() {
    let mut given = good();
    given.ctb_list.push(9);
    given.chroma[0] = 1024;
    given.bank[696] = 128;
    given.ctb_params[6] = 5;
    given.subpic_across[0] = 2;
    given.slice_map[0] = 2;
    given.tile_rows[0] = 1;
    given.virtual_rows = vec![1];
    given.slice_params.push(0);
    given.chroma_format = 4;
    given.bit_depth = 0;
    given.ctb_log2 = 0;
    given.width = 0;
    let mends: [Mend; 13] = [
        (1, |given| given.width = 96),
        (2, |given| given.ctb_log2 = 5),
        (3, |given| given.bit_depth = 10),
        (4, |given| given.chroma_format = 1),
        (5, |given| given.slice_params.truncate(22)),
        (6, |given| given.virtual_rows.clear()),
        (7, |given| given.tile_rows[0] = 0),
        (8, |given| given.slice_map[0] = 0),
        (9, |given| given.subpic_across[0] = 1),
        (10, |given| given.ctb_params[6] = 4),
        (11, |given| given.bank[696] = 64),
        (12, |given| given.chroma[0] = 1023),
        (13, |given| given.ctb_list.clear()),
    ];
    for (number, mend) in mends {
        assert_eq!(given.filter_cross(1), (number, vec![777; 48 * 48]));
        mend(&mut given);
    }
    assert_eq!(given.filter_cross(1).0, 0);
}
