//! The ten actions.

use super::check::check;
use super::expense::{bit, is_present, share, split, Expense, Shares, NONE};
use super::image::{
    counters, homes, is_member, is_rule, layout, members, present_group, record, record_mut,
    records, replica, rule, set_counter, set_rule, sized_mut, Counters, Image,
    EXPENSES_PER_REPLICA, GROUPS_PER_REPLICA,
};
use super::refuse_if;
use crate::{Answer, ACTION_SIZE, EXPENSES, GROUPS, LAST_DAY, UNDATED, USERS};

enum Step {
    Found { group: usize, rule: u16 },
    Add { group: usize, other: usize },
    Leave { group: usize },
    Enter { expense: usize, shares: Shares, day: u16 },
    PutIn { group: usize, expense: usize },
    TakeOut { group: usize, expense: usize },
    Change { expense: usize, shares: Shares, day: u16 },
    Delete { expense: usize },
    Acknowledge { expense: usize },
    Absorb { expense: usize, other: usize },
}

struct Action {
    actor: usize,
    step: Step,
}

impl Action {
    fn read<const SIZE: usize>(record: &[u8]) -> Option<Self> {
        let record: &[u8; ACTION_SIZE] = record.try_into().ok()?;
        let ([kind, actor, other, group, e0, e1, n0, n1], shares) = split(record);
        let actor = usize::from(actor);
        let other = usize::from(other);
        let group = usize::from(group);
        let expense = usize::from(u16::from_le_bytes([e0, e1]));
        // A rule or a day, in the versions that have them.
        let number = u16::from_le_bytes([n0, n1]);
        let (rules, days) = (layout::<SIZE>().has_rules(), layout::<SIZE>().has_days());

        // A field that the kind does not use has one value only: zero.
        let limit = |used: bool, limit: usize| if used { limit } else { 1 };
        let fits = actor < USERS
            && other < limit(matches!(kind, 2 | 10), USERS)
            && group < limit(matches!(kind, 1 | 2 | 3 | 5 | 6), GROUPS)
            && expense < limit(kind >= 4, EXPENSES)
            && match kind {
                1 if rules => is_rule(number),
                4 | 7 if days => number <= LAST_DAY,
                _ => number == 0,
            }
            && (matches!(kind, 4 | 7) || shares == Shares::ZERO);
        if !fits {
            return None;
        }
        let day = if days { number } else { UNDATED };
        let step = match kind {
            1 => Step::Found { group, rule: number },
            2 => Step::Add { group, other },
            3 => Step::Leave { group },
            4 => Step::Enter { expense, shares, day },
            5 => Step::PutIn { group, expense },
            6 => Step::TakeOut { group, expense },
            7 => Step::Change { expense, shares, day },
            8 => Step::Delete { expense },
            9 => Step::Acknowledge { expense },
            10 => Step::Absorb { expense, other },
            _ => return None,
        };
        Some(Action { actor, step })
    }
}

pub fn try_act<const SIZE: usize>(image: &mut [u8], action: &[u8]) -> Result<(), Answer> {
    let image: &mut Image<SIZE> = sized_mut(image)?;
    check(image)?;
    let Action { actor, step } = Action::read::<SIZE>(action).ok_or(Answer::BadAction)?;
    refuse_if(usize::from(homes(image)[actor]) != replica(image), Answer::NotHome)?;
    match step {
        Step::Found { group, rule } => found(image, actor, group, rule),
        Step::Add { group, other } => add(image, actor, group, other),
        Step::Leave { group } => leave(image, actor, group),
        Step::Enter { expense, shares, day } => enter(image, actor, expense, shares, day),
        Step::PutIn { group, expense } => put_in(image, actor, group, expense),
        Step::TakeOut { group, expense } => take_out(image, actor, group, expense),
        Step::Change { expense, shares, day } => change(image, actor, expense, shares, day),
        Step::Delete { expense } => delete(image, actor, expense),
        Step::Acknowledge { expense } => acknowledge(image, actor, expense),
        Step::Absorb { expense, other } => absorb(image, actor, expense, other),
    }
}

fn present_expense<const SIZE: usize>(
    image: &Image<SIZE>,
    expense: usize,
) -> Result<Expense, Answer> {
    let record = record(image, expense);
    refuse_if(!is_present(record), Answer::ExpenseAbsent)?;
    Ok(Expense::read(record))
}

fn want_member(counters: &Counters, actor: usize) -> Result<(), Answer> {
    refuse_if(!is_member(counters[actor]), Answer::NotMember)
}

fn want_payer(expense: &Expense, actor: usize) -> Result<(), Answer> {
    refuse_if(expense.payer() != actor, Answer::NotPayer)
}

fn want_live(expense: &Expense) -> Result<(), Answer> {
    refuse_if(expense.is_deleted(), Answer::Deleted)
}

/// Of shares with a total within the limits.
fn want_shares_of_members(shares: &Shares, counters: &Counters) -> Result<(), Answer> {
    refuse_if(shares.positive() & !members(counters) != 0, Answer::ShareOfNonMember)
}

fn next_version(expense: &Expense) -> Result<u32, Answer> {
    expense.version.checked_add(1).ok_or(Answer::VersionFull)
}

fn found<const SIZE: usize>(
    image: &mut Image<SIZE>,
    actor: usize,
    group: usize,
    rule: u16,
) -> Result<(), Answer> {
    refuse_if(group / GROUPS_PER_REPLICA != replica(image), Answer::GroupNotOwned)?;
    refuse_if(counters(image, group) != [0; USERS], Answer::GroupPresent)?;
    set_counter(image, group, actor, 1);
    set_rule(image, group, rule);
    Ok(())
}

fn add<const SIZE: usize>(
    image: &mut Image<SIZE>,
    actor: usize,
    group: usize,
    other: usize,
) -> Result<(), Answer> {
    let counters = present_group(image, group)?;
    want_member(&counters, actor)?;
    refuse_if(is_member(counters[other]), Answer::AlreadyMember)?;
    set_counter(image, group, other, counters[other] + 1);
    Ok(())
}

fn leave<const SIZE: usize>(
    image: &mut Image<SIZE>,
    actor: usize,
    group: usize,
) -> Result<(), Answer> {
    let counters = present_group(image, group)?;
    want_member(&counters, actor)?;
    let Standing { raw, pending } = standing(image, group, rule(image, group), actor);
    refuse_if(raw < 0, Answer::Owes)?;
    refuse_if(pending, Answer::SharePending)?;
    let counter = counters[actor].checked_add(1).ok_or(Answer::CounterFull)?;
    set_counter(image, group, actor, counter);
    Ok(())
}

/// What leaving looks at.
struct Standing {
    raw: i64,
    /// A share of the user's that counts as acknowledged waits for someone
    /// else to acknowledge.
    pending: bool,
}

/// One user's standing in a group of a sound image, which is under this rule.
fn standing<const SIZE: usize>(
    image: &Image<SIZE>,
    group: usize,
    rule: u16,
    user: usize,
) -> Standing {
    let mut standing = Standing { raw: 0, pending: false };
    for record in records(image).filter(|record| usize::from(record[1]) == group) {
        // An absent expense, of group 0 by its bytes, has neither payer nor share.
        let paid = usize::from(record[0]) == user;
        let share = share(record, user);
        if !paid && share == 0 {
            continue;
        }
        let expense = Expense::read(record);
        if expense.is_deleted() {
            continue;
        }
        let waits_for = expense.waits_for(expense.shares.positive(), rule);
        if waits_for == 0 {
            let amount = if paid { expense.shares.total().unwrap_or(0) } else { 0 };
            standing.raw += amount as i64 - i64::from(share);
        } else {
            standing.pending |= share > 0 && waits_for & bit(user) == 0;
        }
    }
    standing
}

fn enter<const SIZE: usize>(
    image: &mut Image<SIZE>,
    actor: usize,
    expense: usize,
    shares: Shares,
    day: u16,
) -> Result<(), Answer> {
    refuse_if(expense / EXPENSES_PER_REPLICA != replica(image), Answer::ExpenseNotOwned)?;
    let record = record_mut(image, expense);
    refuse_if(is_present(record), Answer::ExpensePresent)?;
    shares.total().ok_or(Answer::BadTotal)?;
    let mut entered = Expense {
        payer: actor as u8,
        group: NONE,
        deleted: 0,
        acknowledged: 0,
        version: 0,
        shares,
        day,
    };
    entered.acknowledge_payer_only();
    entered.write(record);
    Ok(())
}

fn put_in<const SIZE: usize>(
    image: &mut Image<SIZE>,
    actor: usize,
    group: usize,
    number: usize,
) -> Result<(), Answer> {
    let counters = present_group(image, group)?;
    let mut expense = present_expense(image, number)?;
    want_member(&counters, actor)?;
    want_payer(&expense, actor)?;
    refuse_if(expense.group().is_some(), Answer::HasGroup)?;
    want_shares_of_members(&expense.shares, &counters)?;
    expense.version = next_version(&expense)?;
    expense.group = group as u8;
    expense.write(record_mut(image, number));
    Ok(())
}

fn take_out<const SIZE: usize>(
    image: &mut Image<SIZE>,
    actor: usize,
    group: usize,
    number: usize,
) -> Result<(), Answer> {
    let counters = present_group(image, group)?;
    let mut expense = present_expense(image, number)?;
    want_member(&counters, actor)?;
    refuse_if(expense.group() != Some(group), Answer::NotInGroup)?;
    want_payer(&expense, actor)?;
    expense.version = next_version(&expense)?;
    expense.group = NONE;
    expense.acknowledge_payer_only();
    expense.write(record_mut(image, number));
    Ok(())
}

fn change<const SIZE: usize>(
    image: &mut Image<SIZE>,
    actor: usize,
    number: usize,
    shares: Shares,
    day: u16,
) -> Result<(), Answer> {
    let mut expense = present_expense(image, number)?;
    want_payer(&expense, actor)?;
    shares.total().ok_or(Answer::BadTotal)?;
    want_live(&expense)?;
    if let Some(group) = expense.group() {
        want_shares_of_members(&shares, &counters(image, group))?;
    }
    expense.version = next_version(&expense)?;
    expense.shares = shares;
    expense.day = day;
    expense.acknowledge_payer_only();
    expense.write(record_mut(image, number));
    Ok(())
}

fn delete<const SIZE: usize>(
    image: &mut Image<SIZE>,
    actor: usize,
    number: usize,
) -> Result<(), Answer> {
    let mut expense = present_expense(image, number)?;
    want_payer(&expense, actor)?;
    want_live(&expense)?;
    if let Some(group) = expense.group() {
        want_member(&counters(image, group), actor)?;
    }
    expense.version = next_version(&expense)?;
    expense.deleted = 1;
    expense.write(record_mut(image, number));
    Ok(())
}

fn acknowledge<const SIZE: usize>(
    image: &mut Image<SIZE>,
    actor: usize,
    number: usize,
) -> Result<(), Answer> {
    let mut expense = present_expense(image, number)?;
    want_live(&expense)?;
    let group = expense.group().ok_or(Answer::NotInGroup)?;
    want_member(&counters(image, group), actor)?;
    refuse_if(expense.shares.of(actor) == 0, Answer::NoShare)?;
    refuse_if(expense.has_acknowledged(actor), Answer::AlreadyAcknowledged)?;
    expense.acknowledged |= bit(actor);
    expense.write(record_mut(image, number));
    Ok(())
}

fn absorb<const SIZE: usize>(
    image: &mut Image<SIZE>,
    actor: usize,
    number: usize,
    other: usize,
) -> Result<(), Answer> {
    refuse_if(other == actor, Answer::SameUser)?;
    let mut expense = present_expense(image, number)?;
    want_live(&expense)?;
    want_payer(&expense, actor)?;
    refuse_if(expense.shares.of(other) == 0, Answer::NoShare)?;
    refuse_if(expense.has_acknowledged(other), Answer::AlreadyAcknowledged)?;
    let group = expense.group().ok_or(Answer::NotInGroup)?;
    let counters = counters(image, group);
    want_member(&counters, actor)?;
    refuse_if(is_member(counters[other]), Answer::StillMember)?;
    expense.version = next_version(&expense)?;
    let shares = &mut expense.shares;
    shares.set(actor, shares.of(actor) + shares.of(other));
    shares.set(other, 0);
    expense.write(record_mut(image, number));
    Ok(())
}
