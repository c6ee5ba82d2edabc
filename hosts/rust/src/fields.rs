//! The fields of an image, where the documents put them, and the record of an
//! action. Nothing here decides what is right.
//!
//! An image is of any version, told by its length.

use crate::model::Layout;
use crate::{ACTION_SIZE, EXPENSES, RULE_USE, SMALL_SHARE, USERS};
use std::ops::Range;

/// Payer of no expense, and group of an expense in none.
pub const NONE: u8 = 255;

// ---- an image -----------------------------------------------------------------

/// Of the version that the image's length tells.
pub fn layout(image: &[u8]) -> Layout {
    Layout::of(image.len()).expect("an image of some version")
}

pub fn u16_of(bytes: &[u8]) -> u16 {
    u16::from_le_bytes(bytes.try_into().unwrap())
}

/// The fields of an image.
pub struct Fields<'a> {
    image: &'a [u8],
    pub layout: Layout,
}

impl<'a> Fields<'a> {
    pub fn of(image: &'a [u8]) -> Self {
        Fields { image, layout: layout(image) }
    }

    pub fn replica(&self) -> usize {
        self.image[Layout::REPLICA].into()
    }

    pub fn home(&self, user: usize) -> usize {
        self.image[Layout::HOMES][user].into()
    }

    pub fn residents(&self, replica: usize) -> Vec<usize> {
        (0..USERS).filter(|&user| self.home(user) == replica).collect()
    }

    pub fn counter(&self, group: usize, user: usize) -> u16 {
        u16_of(&self.image[self.layout.counter(group, user)])
    }

    pub fn member(&self, group: usize, user: usize) -> bool {
        self.counter(group, user) % 2 == 1
    }

    pub fn users(&self, test: impl Fn(usize) -> bool) -> u8 {
        (0..USERS).filter(|&user| test(user)).fold(0, |bits, user| bits | 1 << user)
    }

    pub fn members(&self, group: usize) -> u8 {
        self.users(|user| self.member(group, user))
    }

    pub fn ever(&self, group: usize) -> u8 {
        self.users(|user| self.counter(group, user) > 0)
    }

    pub fn group_present(&self, group: usize) -> bool {
        self.ever(group) != 0
    }

    /// In a version with rules.
    pub fn rule(&self, group: usize) -> u16 {
        u16_of(&self.image[self.layout.rule(group)])
    }

    pub fn record(&self, expense: usize) -> &'a [u8] {
        &self.image[self.layout.expense(expense)]
    }

    pub fn present(&self, expense: usize) -> bool {
        self.record(expense)[0] != NONE
    }

    pub fn payer(&self, expense: usize) -> usize {
        self.record(expense)[0].into()
    }

    pub fn group(&self, expense: usize) -> Option<usize> {
        let group = self.record(expense)[1];
        (group != NONE).then_some(group.into())
    }

    pub fn deleted(&self, expense: usize) -> bool {
        self.record(expense)[2] != 0
    }

    pub fn acknowledged(&self, expense: usize) -> u8 {
        self.record(expense)[3]
    }

    pub fn version(&self, expense: usize) -> u32 {
        u32::from_le_bytes(self.record(expense)[4..8].try_into().unwrap())
    }

    pub fn share(&self, expense: usize, user: usize) -> u32 {
        u32::from_le_bytes(self.record(expense)[8 + 4 * user..][..4].try_into().unwrap())
    }

    /// In a version with days.
    pub fn day(&self, expense: usize) -> u16 {
        u16_of(&self.image[self.layout.day(expense)])
    }

    pub fn positive(&self, expense: usize) -> u8 {
        self.users(|user| self.share(expense, user) > 0)
    }

    /// The largest share without a bit, 0 where everybody with a share has one.
    pub fn largest_open(&self, expense: usize) -> u32 {
        let open = (0..USERS).filter(|&user| !has(self.acknowledged(expense), user));
        open.map(|user| self.share(expense, user)).max().unwrap_or(0)
    }

    /// The expenses of a group that are not deleted.
    pub fn live_in(&self, group: usize) -> impl Iterator<Item = usize> + '_ {
        (0..EXPENSES).filter(move |&expense| {
            self.present(expense) && self.group(expense) == Some(group) && !self.deleted(expense)
        })
    }

    /// Nobody's share is waited for in this expense of the group.
    pub fn waits_for_none(&self, group: usize, expense: usize) -> bool {
        let small = if self.rule(group) == RULE_USE { SMALL_SHARE } else { 0 };
        self.largest_open(expense) <= small
    }

    /// In a group under rule 2, an expense is valid by small shares alone.
    pub fn needs_small_shares(&self, group: usize) -> bool {
        self.rule(group) == RULE_USE
            && self.live_in(group).any(|expense| is_small(self.largest_open(expense)))
    }
}

/// The version's number.
pub fn set_format(image: &mut [u8]) {
    let version = layout(image).version;
    image[Layout::VERSION].copy_from_slice(&version.to_le_bytes());
}

pub fn set_counter(image: &mut [u8], group: usize, user: usize, counter: u16) {
    let place = layout(image).counter(group, user);
    image[place].copy_from_slice(&counter.to_le_bytes());
}

pub fn set_rule(image: &mut [u8], group: usize, rule: u16) {
    let place = layout(image).rule(group);
    image[place].copy_from_slice(&rule.to_le_bytes());
}

/// In a version with days.
pub fn set_day(image: &mut [u8], expense: usize, day: u16) {
    let place = layout(image).day(expense);
    image[place].copy_from_slice(&day.to_le_bytes());
}

pub fn set_version(record: &mut [u8], version: u32) {
    record[4..8].copy_from_slice(&version.to_le_bytes());
}

/// An expense's own bytes.
pub fn record_mut(image: &mut [u8], expense: usize) -> &mut [u8] {
    let place = layout(image).expense(expense);
    &mut image[place]
}

/// Makes an expense absent.
pub fn clear(image: &mut [u8], expense: usize) {
    let record = record_mut(image, expense);
    record.fill(0);
    record[0] = NONE;
}

/// Is the user's bit set?
pub fn has(bits: u8, user: usize) -> bool {
    bits >> user & 1 == 1
}

pub fn is_small(share: u32) -> bool {
    (1..=SMALL_SHARE).contains(&share)
}

// ---- the record of an action ----------------------------------------------------

pub type Action = [u8; ACTION_SIZE];
/// A founding's rule, the day of an expense that is entered or changed; or zero.
pub const RULE_OR_DAY: Range<usize> = 6..8;

/// Fields that the kind does not use are zero.
pub fn action(
    kind: u8,
    actor: usize,
    other: usize,
    group: usize,
    expense: usize,
    shares: [u32; USERS],
) -> Action {
    let mut record = [0; ACTION_SIZE];
    record[..4].copy_from_slice(&[kind, actor as u8, other as u8, group as u8]);
    record[4..6].copy_from_slice(&(expense as u16).to_le_bytes());
    set_shares(&mut record, shares);
    record
}

/// With a rule or a day where other records have zero.
pub fn naming(mut record: Action, rule_or_day: u16) -> Action {
    record[RULE_OR_DAY].copy_from_slice(&rule_or_day.to_le_bytes());
    record
}

/// Of an action or of an expense: both have them at the same place.
pub fn set_shares(record: &mut [u8], shares: [u32; USERS]) {
    for (bytes, share) in record[8..40].chunks_mut(4).zip(shares) {
        bytes.copy_from_slice(&share.to_le_bytes());
    }
}
