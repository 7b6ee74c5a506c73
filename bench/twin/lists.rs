//! Lists of values left, one for each variable: the value v is in a set where bit v is 1.

use crate::network::VARIABLES;

pub type Lists = [u64; VARIABLES];

/// Keeps of x's list what the mask has too. The answer is the set of the variables whose lists change: x or none.
pub fn keep(lists: &mut Lists, x: u8, mask: u64) -> u64 {
    let list = &mut lists[x as usize];
    let old = *list;
    *list &= mask;
    if *list == old { 0 } else { 1 << x }
}

/// The greatest value of a set that isn't empty.
pub fn highest(set: u64) -> u32 {
    63 - set.leading_zeros()
}

/// The values from v to 63, for v below 64.
pub fn values_from(v: u32) -> u64 {
    u64::MAX << v
}
