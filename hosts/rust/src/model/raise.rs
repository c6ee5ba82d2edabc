//! Raising an image of an older version.

use super::check::check;
use super::expense::{is_present, set_day};
use super::image::{
    counters, record, record_mut, rule, set_counter, set_rule, set_version, sized, sized_mut,
    Image, Layout, V1, V2, V3,
};
use crate::{Answer, EXPENSES, GROUPS, UNDATED};

pub fn try_raise_to_2(old: &[u8], new: &mut [u8]) -> Result<(), Answer> {
    raise::<V1, V2>(old, new)
}

/// Of either older version: its length tells which.
pub fn try_raise_to_3(old: &[u8], new: &mut [u8]) -> Result<(), Answer> {
    match old.len() {
        V1 => raise::<V1, V3>(old, new),
        _ => raise::<V2, V3>(old, new),
    }
}

/// The header but for its version, the counters, the rules and the expenses
/// stay. Where the older version has no rules, present groups come under rule 1;
/// where it has no days, present expenses are undated.
fn raise<const OLD: usize, const NEW: usize>(old: &[u8], new: &mut [u8]) -> Result<(), Answer> {
    let old: &Image<OLD> = sized(old)?;
    let new: &mut Image<NEW> = sized_mut(new)?;
    check(old)?;
    new[..Layout::GROUPS_AT].copy_from_slice(&old[..Layout::GROUPS_AT]);
    set_version(new);
    for group in 0..GROUPS {
        for (user, counter) in counters(old, group).into_iter().enumerate() {
            set_counter(new, group, user, counter);
        }
        set_rule(new, group, rule(old, group));
    }
    for expense in 0..EXPENSES {
        let (old, new) = (record(old, expense), record_mut(new, expense));
        new[..old.len()].copy_from_slice(old);
        set_day(new, if is_present(old) { UNDATED } else { 0 });
    }
    Ok(())
}
