//! The image check.

use super::expense::{bit, bits, is_absent, Expense, NONE};
use super::image::{
    counters, homes, is_rule, layout, record, replica, rule, sized, version, Image, Layout,
    EXPENSES_PER_REPLICA, MARK,
};
use super::refuse_if;
use crate::{Answer, EXPENSES, GROUPS, LAST_DAY, UNDATED, USERS};
use std::array::from_fn;

/// A sound expense as the image check meets it, with what it worked out.
pub struct Seen {
    pub expense: Expense,
    pub positive: u8,
    pub total: u64,
}

pub fn try_check<const SIZE: usize>(image: &[u8]) -> Result<(), Answer> {
    check::<SIZE>(sized(image)?)
}

/// The image check, past the length.
#[inline(always)]
pub fn check<const SIZE: usize>(image: &Image<SIZE>) -> Result<(), Answer> {
    check_and_visit(image, |_| false, |_| ())
}

/// The same. `visit` is shown each sound expense of the groups that are wanted
/// before it is known whether all are sound: it may only take notes.
#[inline(always)]
pub fn check_and_visit<const SIZE: usize>(
    image: &Image<SIZE>,
    wanted: impl Fn(u8) -> bool,
    mut visit: impl FnMut(Seen),
) -> Result<(), Answer> {
    refuse_if(image[..MARK.len()] != MARK, Answer::BadMark)?;
    refuse_if(version(image) != layout::<SIZE>().version, Answer::BadVersion)?;
    let homes = homes(image);
    let header = replica(image) < USERS
        && homes.iter().all(|&home| usize::from(home) < USERS)
        && image[Layout::SPARE] == [0, 0]
        && has_sound_rules(image);
    refuse_if(!header, Answer::BadHeader)?;

    let ever: [u8; GROUPS] = from_fn(|g| bits(counters(image, g).map(|counter| counter > 0)));
    for number in 0..EXPENSES {
        let record = record(image, number);
        let expense = Expense::read(record);
        if expense.payer == NONE {
            refuse_if(!is_absent(record), Answer::BadExpense)?;
            continue;
        }
        let total = expense.shares.total().ok_or(Answer::BadExpense)?;
        let positive = expense.shares.positive();
        let payer = expense.payer();
        let sound = payer < USERS
            && usize::from(homes[payer]) == number / EXPENSES_PER_REPLICA
            && expense.deleted <= 1
            && expense.acknowledged & !positive == 0
            && (expense.day <= LAST_DAY || expense.day == UNDATED)
            && match expense.group() {
                None => expense.acknowledged & !bit(payer) == 0,
                Some(group) => group < GROUPS && (positive | bit(payer)) & !ever[group] == 0,
            };
        refuse_if(!sound, Answer::BadExpense)?;
        if wanted(expense.group) {
            visit(Seen { expense, positive, total });
        }
    }
    Ok(())
}

/// Where groups have rules: one there is for a present group, zero for an
/// absent one.
fn has_sound_rules<const SIZE: usize>(image: &Image<SIZE>) -> bool {
    !layout::<SIZE>().has_rules()
        || (0..GROUPS).all(|group| match rule(image, group) {
            0 => counters(image, group) == [0; USERS],
            rule => is_rule(rule) && counters(image, group) != [0; USERS],
        })
}
