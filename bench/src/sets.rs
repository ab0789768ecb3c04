//! Sets of states as the bits of one number.
use crate::plain::ROW;

pub type Set = u128;

#[inline(always)]
pub fn only(member: usize) -> Set {
    1 << (member % ROW)
}

#[inline(always)]
pub fn has(set: Set, member: usize) -> bool {
    let half = if member < 64 { set } else { set >> 64 };
    half as u64 >> (member % 64) & 1 != 0
}

/// The least member of a set that is not empty.
#[inline(always)]
pub fn least(set: Set) -> usize {
    set.trailing_zeros() as usize % ROW
}

/// The greatest member of a set that is not empty.
#[inline(always)]
pub fn greatest(set: Set) -> usize {
    set.checked_ilog2().unwrap_or(0) as usize % ROW
}

#[inline(always)]
pub fn members(mut set: Set) -> impl Iterator<Item = usize> {
    std::iter::from_fn(move || {
        let member = (set != 0).then(|| least(set));
        set &= set.wrapping_sub(1);
        member
    })
}

/// Whether a set has two members at least.
#[inline(always)]
pub fn has_more(set: Set) -> bool {
    set & set.wrapping_sub(1) != 0
}
