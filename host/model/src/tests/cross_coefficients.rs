//! Which filters of a bank have a cross-component coefficient that H.266 can't send.

use super::{Random, SENDABLE};
use crate::offending_cross_filters;

const BANK: usize = 8 * 752;

/// Where a filter's coefficients begin: behind 25 luma filters of 24 numbers and 8 alternatives of 12.
fn start((aps, component, filter): (u8, u8, u8)) -> usize {
    752 * usize::from(aps) + 25 * 24 + 8 * 12 + 28 * usize::from(component) + 7 * usize::from(filter)
}

/// All 64, by APS, component and filter.
fn all() -> Vec<(u8, u8, u8)> {
    let components = (0..8).flat_map(|aps| [(aps, 0), (aps, 1)]);
    components
        .flat_map(|(aps, component)| [0, 1, 2, 3].map(|filter| (aps, component, filter)))
        .collect()
}

#[test]
fn none_in_a_bank_of_what_can_be_sent() {
    assert_eq!(offending_cross_filters(&[0; BANK]), []);
    let mut random = Random::new(6);
    // Luma and chroma are not asked.
    let mut bank = vec![127; BANK];
    for number in all().into_iter().flat_map(|filter| start(filter)..start(filter) + 7) {
        bank[number] = random.cross_coefficient();
    }
    assert_eq!(offending_cross_filters(&bank), []);
}

/// Each coefficient of each filter by itself.
#[test]
fn a_filter_by_its_name() {
    assert_eq!(all().len(), 64);
    for filter in all() {
        for k in 0..7 {
            for coefficient in [3, -5, 65, 96, 127, -128] {
                let mut bank = vec![0; BANK];
                bank[start(filter) + k] = coefficient;
                assert_eq!(offending_cross_filters(&bank), [filter]);
            }
        }
    }
}

#[test]
fn every_coefficient() {
    for coefficient in -128..=127 {
        let mut bank = vec![0; BANK];
        bank[start((4, 1, 2)) + 5] = coefficient;
        assert_eq!(
            offending_cross_filters(&bank).is_empty(),
            SENDABLE.contains(&coefficient),
            "{coefficient}"
        );
    }
}

/// In the order of a file, each once, however many of its coefficients offend.
#[test]
fn several_filters_in_file_order() {
    assert_eq!(offending_cross_filters(&[3; BANK]), all());
    let mut bank = vec![16; BANK];
    let wanted = [(0, 0, 3), (0, 1, 0), (2, 1, 0), (6, 0, 1), (7, 0, 0), (7, 1, 3)];
    for filter in wanted.into_iter().rev() {
        bank[start(filter)..start(filter) + 7].fill(-128);
    }
    assert_eq!(offending_cross_filters(&bank), wanted);
}
