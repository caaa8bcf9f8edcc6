//! Which member a refusal is about, in the ranges that runs are counted by.

use crate::program::NO_MEMBER;

/// The refusals that may have a member.
pub const REFUSALS: [u32; 3] = [8, 9, 10];

/// The ranges.
pub const NAMES: [&str; 4] = ["none", "0", "1 to 9", "10 or more"];

/// The range that a member falls in.
pub fn which(member: u32) -> usize {
    match member {
        NO_MEMBER => 0,
        0 => 1,
        1..=9 => 2,
        _ => 3,
    }
}
