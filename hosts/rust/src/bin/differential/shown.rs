//! What an image shows, for the counts of what came up.

use val_host::fields::{self, Fields};
use val_host::model::Layout;
use val_host::{Ledger, Line, Model, Totals};
use val_host::{EXPENSES, GROUPS, LAST_DAY, RULE_EQUAL, UNDATED};

/// The older version that has images of this length.
pub fn older_version(image: &[u8]) -> Option<usize> {
    Layout::of(image.len()).map(|layout| layout.version.into()).filter(|&version| version < 3)
}

pub fn is_old(image: &[u8]) -> bool {
    older_version(image).is_some()
}

pub fn rule(image: &[u8], group: usize) -> u16 {
    Fields::of(image).rule(group)
}

/// A group is present on both sides, under different rules.
pub fn rules_differ(own: &[u8], other: &[u8]) -> bool {
    (0..GROUPS).any(|group| {
        let (ours, theirs) = (rule(own, group), rule(other, group));
        ours != 0 && theirs != 0 && ours != theirs
    })
}

/// A group that is absent has a rule.
pub fn absent_has_rule(image: &[u8]) -> bool {
    let layout = Layout::of(image.len()).unwrap();
    (0..GROUPS).any(|group| {
        rule(image, group) != 0 && image[layout.counters(group)].iter().all(|&byte| byte == 0)
    })
}

/// An expense has a number in place of a day, or is absent and has a day.
fn day_is_wrong(fields: &Fields, expense: usize) -> bool {
    match (fields.present(expense), fields.day(expense)) {
        (true, day) => day > LAST_DAY && day != UNDATED,
        (false, day) => day != 0,
    }
}

/// An image does not pass the check, and would if it had no day where one is
/// wrong.
pub fn days_alone_are_wrong(image: &[u8]) -> bool {
    let fields = Fields::of(image);
    let wrong: Vec<usize> =
        (0..EXPENSES).filter(|&expense| day_is_wrong(&fields, expense)).collect();
    if wrong.is_empty() {
        return false;
    }
    let mut right = image.to_vec();
    for expense in wrong {
        fields::set_day(&mut right, expense, if fields.present(expense) { UNDATED } else { 0 });
    }
    Model::check(&right).is_ok()
}

/// An absent expense has a day.
pub fn absent_has_day(image: &[u8]) -> bool {
    let fields = Fields::of(image);
    (0..EXPENSES).any(|expense| !fields.present(expense) && fields.day(expense) != 0)
}

/// Two sound images can't be merged, and could be if days were no matter.
pub fn days_alone_differ(own: &[u8], other: &[u8]) -> bool {
    let mut alike = other.to_vec();
    let (ours, theirs) = (Fields::of(own), Fields::of(other));
    for expense in 0..EXPENSES {
        if ours.present(expense) && theirs.present(expense) {
            fields::set_day(&mut alike, expense, ours.day(expense));
        }
    }
    Model::merge(&mut own.to_vec(), &alike).is_ok()
}

/// A copy of the image without the group's expenses that have a day.
pub fn without_dated(image: &[u8], group: usize) -> Vec<u8> {
    let mut undated = image.to_vec();
    let fields = Fields::of(image);
    for expense in (0..EXPENSES).filter(|&expense| fields.group(expense) == Some(group)) {
        if fields.present(expense) && fields.day(expense) != UNDATED {
            fields::clear(&mut undated, expense);
        }
    }
    undated
}

/// The same image with the group under rule 1.
pub fn under_rule_1(image: &[u8], group: usize) -> Vec<u8> {
    let mut image = image.to_vec();
    let place = Layout::of(image.len()).unwrap().rule(group);
    image[place].copy_from_slice(&RULE_EQUAL.to_le_bytes());
    image
}

/// The parts that rule 1 makes of these gifts.
pub fn equal_parts(totals: Totals, lines: &[Line]) -> Vec<u64> {
    let members = u64::from(totals.members);
    let mut before = 0;
    let part = |line: &Line| {
        let is_member = line.counter % 2 == 1;
        before += u64::from(is_member);
        let part = totals.gifts / members + u64::from(before <= totals.gifts % members);
        if is_member {
            part
        } else {
            0
        }
    };
    lines.iter().map(part).collect()
}

/// The replica, the home table and the two bytes after it are as they may be.
pub fn header_fits(image: &[u8]) -> bool {
    let replicas = &image[Layout::REPLICA..Layout::HOMES.end];
    replicas.iter().all(|&replica| replica < 8) && image[Layout::SPARE] == [0, 0]
}
