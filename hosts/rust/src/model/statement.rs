//! A group's statement, that of a month, who pays whom, all groups' balances, and
//! lookup.

use super::calendar::days_of;
use super::check::{check, check_and_visit, Seen};
use super::expense::{bit, is_present, NONE};
use super::image::{
    counters, is_member, layout, members, present_group, record, rule, sized, Counters, Image,
};
use super::refuse_if;
use crate::{Answer, Line, Totals};
use crate::{BALANCES, EXPENSES, GROUPS, MONTHS, PAYMENTS, RULE_USE, USERS};
use std::array::from_fn;
use std::cmp::Reverse;
use std::ops::RangeInclusive;

/// A present group's counters and rule. `visit` is shown its valid expenses
/// during the image check, and may only take notes. The rule is read before the
/// check, which finds it to be one before it shows an expense; a number above
/// 15, which has none, is answered after it.
#[inline(always)]
fn visit_valid<const SIZE: usize>(
    image: &[u8],
    group: u64,
    mut visit: impl FnMut(&Seen),
) -> Result<(Counters, u16), Answer> {
    let image: &Image<SIZE> = sized(image)?;
    let number = usize::try_from(group).ok().filter(|&group| group < GROUPS);
    let rule = number.map_or(0, |group| rule(image, group));
    let wanted = |number: u8| u64::from(number) == group;
    check_and_visit(image, wanted, |seen| {
        if seen.expense.is_valid(seen.positive, rule) {
            visit(&seen);
        }
    })?;
    let counters = present_group(image, number.ok_or(Answer::GroupAbsent)?)?;
    Ok((counters, rule))
}

/// What the payer paid, less what each holds.
#[inline(always)]
fn add_to(raw: &mut [i64; USERS], seen: &Seen) {
    raw[seen.expense.payer()] += seen.total as i64;
    for (user, raw) in raw.iter_mut().enumerate() {
        *raw -= i64::from(seen.expense.shares.of(user));
    }
}

/// What a group's valid expenses add up to.
#[derive(Clone, Copy)]
struct Sums {
    raw: [i64; USERS],
    /// In how many of them each user has a positive share, where the version has a
    /// rule that asks for it.
    uses: [u64; USERS],
    expenses: u32,
}

impl Sums {
    const ZERO: Sums = Sums { raw: [0; USERS], uses: [0; USERS], expenses: 0 };

    #[inline(always)]
    fn add(&mut self, seen: &Seen, has_rules: bool) {
        self.expenses += 1;
        add_to(&mut self.raw, seen);
        if has_rules {
            for (user, uses) in self.uses.iter_mut().enumerate() {
                *uses += u64::from(seen.positive & bit(user) != 0);
            }
        }
    }
}

/// What a group's balances are worked out from.
struct Figures {
    counters: Counters,
    rule: u16,
    sums: Sums,
}

#[inline(always)]
fn figures<const SIZE: usize>(image: &[u8], group: u64) -> Result<Figures, Answer> {
    let mut sums = Sums::ZERO;
    let has_rules = layout::<SIZE>().has_rules();
    let (counters, rule) = visit_valid::<SIZE>(image, group, |seen| sums.add(seen, has_rules))?;
    Ok(Figures { counters, rule, sums })
}

impl Figures {
    fn members(&self) -> u32 {
        members(&self.counters).count_ones()
    }

    /// Fills the eight lines; the statement's totals.
    #[inline(always)]
    fn fill(&self, lines: &mut [Line; USERS]) -> Totals {
        let Figures { counters, sums: Sums { raw, expenses, .. }, .. } = *self;
        let gift =
            |user: usize| if is_member(counters[user]) { 0 } else { raw[user].max(0) as u64 };
        let gifts: u64 = (0..USERS).map(gift).sum();
        let parts = self.parts(gifts);
        for (user, line) in lines.iter_mut().enumerate() {
            line.counter = counters[user];
            line.raw = raw[user];
            line.gift = gift(user);
            line.part = parts[user];
            line.balance = raw[user] - line.gift as i64 + line.part as i64;
        }
        Totals { answer: Answer::Ok, members: self.members(), expenses, gifts }
    }

    #[inline(always)]
    fn balances(&self) -> [i64; USERS] {
        let mut lines = [Line::default(); USERS];
        self.fill(&mut lines);
        lines.map(|line| line.balance)
    }

    /// What each user gets of the gifts; who is no member gets nothing.
    #[inline(always)]
    fn parts(&self, gifts: u64) -> [u64; USERS] {
        if self.rule == RULE_USE {
            let weight = |user: usize| {
                if is_member(self.counters[user]) {
                    self.sums.uses[user]
                } else {
                    0
                }
            };
            let weights = from_fn(weight);
            if weights != [0; USERS] {
                return parts_by_weight(gifts, weights);
            }
        }
        // The first `extra` members by number get one cent more than `each`.
        let (each, mut extra) = match u64::from(self.members()) {
            0 => (0, 0),
            members => (gifts / members, gifts % members),
        };
        self.counters.map(|counter| {
            if !is_member(counter) {
                return 0;
            }
            let part = each + u64::from(extra > 0);
            extra = extra.saturating_sub(1);
            part
        })
    }
}

/// Parts by weights that are not all zero: the quotients, and of the cents left
/// over one each to the largest remainders, lower user number first. These are
/// fewer than the remainders above zero, so that nobody without weight gets one.
fn parts_by_weight(gifts: u64, weights: [u64; USERS]) -> [u64; USERS] {
    let total: u64 = weights.iter().sum();
    let mut parts = weights.map(|weight| gifts * weight / total);
    let left_over = gifts - parts.iter().sum::<u64>();
    let mut users: [usize; USERS] = from_fn(|user| user);
    // Equal remainders stay in the order of the users.
    users.sort_by_key(|&user| Reverse(gifts * weights[user] % total));
    for &user in &users[..left_over as usize] {
        parts[user] += 1;
    }
    parts
}

pub fn try_statement<const SIZE: usize>(
    image: &[u8],
    group: u64,
    lines: &mut [Line],
) -> Result<Totals, Answer> {
    let figures = figures::<SIZE>(image, group)?;
    let lines = lines.try_into().map_err(|_| Answer::BadLines)?;
    Ok(figures.fill(lines))
}

pub fn try_payments<const SIZE: usize>(
    image: &[u8],
    group: u64,
    cents: &mut [u64],
) -> Result<(), Answer> {
    let figures = figures::<SIZE>(image, group)?;
    let cents = cents.try_into().map_err(|_| Answer::BadLines)?;
    refuse_if(figures.members() == 0, Answer::GroupEmpty)?;
    settle(figures.balances(), cents);
    Ok(())
}

/// Clears balances that sum to zero: the lowest-numbered debtor pays the
/// lowest-numbered creditor the smaller of the two sums, until nobody owes.
fn settle(mut balances: [i64; USERS], cents: &mut [u64; PAYMENTS]) {
    cents.fill(0);
    // Who is passed over owes nothing, or is owed nothing, from there on.
    let (mut debtor, mut creditor) = (0, 0);
    while debtor < USERS {
        if balances[debtor] >= 0 {
            debtor += 1;
        } else if balances[creditor] <= 0 {
            creditor += 1;
        } else {
            let sum = balances[creditor].min(-balances[debtor]);
            balances[debtor] += sum;
            balances[creditor] -= sum;
            cents[USERS * debtor + creditor] = sum as u64;
        }
    }
}

/// As the statement's raw, of the expenses of one month. Where there is no such
/// month, of none.
pub fn try_month<const SIZE: usize>(
    image: &[u8],
    group: u64,
    month: u64,
    raws: &mut [i64],
) -> Result<(), Answer> {
    let (first, last) = days_of(month).map_or((1, 0), RangeInclusive::into_inner);
    let mut raw = [0; USERS];
    visit_valid::<SIZE>(image, group, |seen| {
        if first <= seen.expense.day && seen.expense.day <= last {
            add_to(&mut raw, seen);
        }
    })?;
    let raws: &mut [i64; USERS] = raws.try_into().map_err(|_| Answer::BadLines)?;
    refuse_if(month >= MONTHS, Answer::BadMonth)?;
    *raws = raw;
    Ok(())
}

/// The balances of each group's own statement, group by group; zeros for a group
/// that is absent. One walk makes the sums of all groups, during the check, which
/// finds their rules to be such before it shows an expense.
pub fn try_balances<const SIZE: usize>(image: &[u8], balances: &mut [i64]) -> Result<(), Answer> {
    let image: &Image<SIZE> = sized(image)?;
    let rules: [u16; GROUPS] = from_fn(|group| rule(image, group));
    let mut sums = [Sums::ZERO; GROUPS];
    let in_a_group = |number: u8| number != NONE;
    check_and_visit(
        image,
        in_a_group,
        #[inline(always)]
        |seen| {
            let group = usize::from(seen.expense.group);
            if seen.expense.is_valid(seen.positive, rules[group]) {
                sums[group].add(&seen, layout::<SIZE>().has_rules());
            }
        },
    )?;
    let balances: &mut [i64; BALANCES] = balances.try_into().map_err(|_| Answer::BadLines)?;
    let (rows, _) = balances.as_chunks_mut();
    for (group, row) in rows.iter_mut().enumerate() {
        let (counters, rule) = (counters(image, group), rules[group]);
        *row = match rule {
            0 => [0; USERS],
            _ => Figures { counters, rule, sums: sums[group] }.balances(),
        };
    }
    Ok(())
}

/// Where lookup finds an expense.
pub fn find<const SIZE: usize>(image: &[u8], expense: u64) -> Option<&[u8]> {
    sized::<SIZE>(image).ok().filter(|image| check(image).is_ok()).and_then(|image| {
        let number = usize::try_from(expense).ok().filter(|&number| number < EXPENSES)?;
        Some(record(image, number)).filter(|record| is_present(record))
    })
}
