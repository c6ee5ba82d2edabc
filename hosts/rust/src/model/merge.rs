//! The join of another image into one's own.

use super::check::check;
use super::expense::{is_present, shares_and_day};
use super::image::{
    homes, layout, record, record_mut, records, rule, sized, sized_mut, Image, Layout,
};
use super::refuse_if;
use crate::{Answer, EXPENSES, GROUPS};

pub fn try_merge<const SIZE: usize>(own: &mut [u8], other: &[u8]) -> Result<(), Answer> {
    let own: &mut Image<SIZE> = sized_mut(own)?;
    check(own)?;
    let other: &Image<SIZE> = sized(other).map_err(Answer::of_other)?;
    check(other).map_err(Answer::of_other)?;
    refuse_if(homes(own) != homes(other), Answer::HomesDiffer)?;
    let conflict = rules_differ(own, other)
        || records(own).zip(records(other)).any(|(ours, theirs)| conflict(ours, theirs));
    refuse_if(conflict, Answer::Conflict)?;

    // The larger of each two counters. That takes over the rules too: two are
    // equal, or one is zero, its group absent.
    let expenses_at = layout::<SIZE>().expense_at(0);
    let (ours, _) = own[Layout::GROUPS_AT..expenses_at].as_chunks_mut();
    let (theirs, _) = other[Layout::GROUPS_AT..expenses_at].as_chunks();
    for (ours, theirs) in ours.iter_mut().zip(theirs) {
        *ours = u16::from_le_bytes(*ours).max(u16::from_le_bytes(*theirs)).to_le_bytes();
    }
    for expense in 0..EXPENSES {
        merge_record(record_mut(own, expense), record(other, expense));
    }
    Ok(())
}

fn version(record: &[u8]) -> u32 {
    u32::from_le_bytes([record[4], record[5], record[6], record[7]])
}

/// A group is present on both sides, under different rules.
fn rules_differ<const SIZE: usize>(own: &Image<SIZE>, other: &Image<SIZE>) -> bool {
    layout::<SIZE>().has_rules()
        && (0..GROUPS).any(|group| {
            let (ours, theirs) = (rule(own, group), rule(other, group));
            ours != 0 && theirs != 0 && ours != theirs
        })
}

/// Both present, with equal versions, and differing in more than
/// acknowledgements.
#[inline(always)]
fn conflict(ours: &[u8], theirs: &[u8]) -> bool {
    is_present(ours)
        && is_present(theirs)
        && version(ours) == version(theirs)
        && (ours[..3] != theirs[..3] || shares_and_day(ours) != shares_and_day(theirs))
}

/// The higher version whole; of equal ones, the acknowledgements of both.
#[inline(always)]
fn merge_record(ours: &mut [u8], theirs: &[u8]) {
    if !is_present(theirs) {
        // Nothing to take over.
    } else if !is_present(ours) || version(ours) < version(theirs) {
        ours.copy_from_slice(theirs);
    } else if version(ours) == version(theirs) {
        ours[3] |= theirs[3];
    }
}
