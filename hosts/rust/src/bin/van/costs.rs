//! Costs as a person wants to see them: who paid, who has which share, and for
//! whom a cost still waits.

use crate::dates::show_day;
use crate::money::euros;
use crate::run::Held;
use std::fmt::Write;
use val_host::fields::Fields;
use val_host::model::Expense;
use val_host::{EXPENSES, RULE_EQUAL, RULE_USE, USERS};

/// One cost, with its shares; none if it is absent. Of an image that passes the
/// check.
pub fn one(held: &Held, expense: u64) -> Option<String> {
    let record = (held.calls.lookup)(&held.image, expense);
    if record.is_empty() {
        return None;
    }
    let cost = Expense::read(record);
    let mut text = line(held, expense, &cost);
    for user in (0..USERS).filter(|&user| cost.shares.of(user) > 0) {
        let share = euros(cost.shares.of(user).into());
        let state = share_state(held, &cost, user);
        writeln!(text, "user {user} share {share} {state}").unwrap();
    }
    Some(text)
}

/// A line for each cost that is there.
pub fn all(held: &Held) -> String {
    let record = |expense| (held.calls.lookup)(&held.image, expense);
    let there = (0..EXPENSES as u64).filter(|&expense| !record(expense).is_empty());
    let text: String =
        there.map(|expense| line(held, expense, &Expense::read(record(expense)))).collect();
    if text.is_empty() {
        "no costs\n".into()
    } else {
        text
    }
}

fn line(held: &Held, number: u64, cost: &Expense) -> String {
    let total: i64 = (0..USERS).map(|user| i64::from(cost.shares.of(user))).sum();
    let day = show_day(cost.day).map_or("undated".into(), |day| format!("on {day}"));
    let (total, payer, version) = (euros(total), cost.payer(), cost.version);
    let state = state(held, cost);
    format!("cost {number}: {total} paid by user {payer}, {day}, version {version}, {state}\n")
}

fn state(held: &Held, cost: &Expense) -> String {
    let place = match cost.group() {
        Some(group) => format!("in crew {group}"),
        None => "in no crew".into(),
    };
    let waits = waits_for(held, cost);
    if cost.is_deleted() {
        format!("{place}, deleted")
    } else if cost.group().is_none() {
        place
    } else if waits.is_empty() {
        format!("{place}, valid")
    } else {
        format!("{place}, waits for {}", users(&waits))
    }
}

fn share_state(held: &Held, cost: &Expense, user: usize) -> &'static str {
    let by_use = cost.group().is_some_and(|group| rule(held, group) == RULE_USE);
    if cost.has_acknowledged(user) {
        "acknowledged"
    } else if by_use && !waits_for(held, cost).contains(&user) {
        "small, needs no acknowledgement"
    } else {
        "not acknowledged"
    }
}

/// The cost, if it is there and not deleted.
pub fn standing(fields: &Fields, expense: usize) -> Option<Expense> {
    let cost = fields.present(expense).then(|| Expense::read(fields.record(expense)))?;
    (!cost.is_deleted()).then_some(cost)
}

/// Whose share does not count as acknowledged.
pub fn waits_for(held: &Held, cost: &Expense) -> Vec<usize> {
    let rule = cost.group().map_or(RULE_EQUAL, |group| rule(held, group));
    let waits = cost.waits_for(cost.shares.positive(), rule);
    (0..USERS).filter(|user| waits >> user & 1 == 1).collect()
}

/// A present crew's rule; in version 1 nothing says that it is rule 1.
pub fn rule(held: &Held, group: usize) -> u16 {
    let fields = Fields::of(&held.image);
    if fields.layout.has_rules() {
        fields.rule(group)
    } else {
        RULE_EQUAL
    }
}

/// `user 1`, or `users 1, 2`.
pub fn users(users: &[usize]) -> String {
    let numbers: Vec<String> = users.iter().map(usize::to_string).collect();
    format!("user{} {}", if users.len() == 1 { "" } else { "s" }, numbers.join(", "))
}
