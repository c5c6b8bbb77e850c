//! Which cross-component coefficients H.266 can send (02, card 6): "0 or plus or minus 1, 2, 4,
//! 8, 16, 32 or 64. The magnitude must have exactly one bit set, or none, and be at most 64."
//! The operations take any from -128 to 127; a bank's filters with others are named here.

fn sendable(coefficient: i16) -> bool {
    let magnitude = coefficient.unsigned_abs();
    magnitude.count_ones() <= 1 && magnitude <= 64
}

/// The cross-component filters of a bank with a coefficient that can't be sent: APS id, component
/// and filter of each, in the order of a bank's file.
pub fn offending_cross_filters(bank: &[i16]) -> Vec<(u8, u8, u8)> {
    let mut found = Vec::new();
    for (id, aps) in (0..).zip(bank.chunks(752)) {
        // Cb's four filters, then Cr's.
        for (filter, coefficients) in (0..).zip(aps[696..].chunks(7)) {
            if !coefficients.iter().all(|&coefficient| sendable(coefficient)) {
                found.push((id, filter / 4, filter % 4));
            }
        }
    }
    found
}
