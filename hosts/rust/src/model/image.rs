//! The image: where its bytes stand, how they are read and written, and the
//! empty one.

use super::expense::{bits, NONE};
use super::refuse_if;
use crate::{
    Answer, EXPENSES, EXPENSE_SIZE, GROUPS, IMAGE_SIZE, IMAGE_SIZE_1, IMAGE_SIZE_2, RULE_EQUAL,
    RULE_USE, USERS,
};
use std::array::from_fn;
use std::ops::Range;

pub const MARK: [u8; 3] = *b"VAL";
const COUNTER_SIZE: usize = 2;
const COUNTERS_SIZE: usize = COUNTER_SIZE * USERS;
const RULE_SIZE: usize = 2;
const DAY_SIZE: usize = 2;
pub const EXPENSES_PER_REPLICA: usize = 64;
pub const GROUPS_PER_REPLICA: usize = 2;

/// The length tells an image's version.
pub type Image<const SIZE: usize> = [u8; SIZE];

/// The lengths of versions 1, 2 and 3.
pub const V1: usize = IMAGE_SIZE_1;
pub const V2: usize = IMAGE_SIZE_2;
pub const V3: usize = IMAGE_SIZE;

/// Where the bytes of an image stand. A header is alike in all versions but for
/// the version's number.
#[derive(Clone, Copy)]
pub struct Layout {
    pub version: u16,
    group_size: usize,
    pub expense_size: usize,
}

impl Layout {
    pub const VERSION: Range<usize> = 3..5;
    pub const REPLICA: usize = 5;
    pub const HOMES: Range<usize> = 6..14;
    /// Two bytes of zero.
    pub const SPARE: Range<usize> = 14..16;
    pub const GROUPS_AT: usize = 16;

    /// Of the version whose images have this length.
    pub const fn of(image_size: usize) -> Option<Layout> {
        let without_rule = COUNTERS_SIZE;
        let without_day = EXPENSE_SIZE - DAY_SIZE;
        let (version, group_size, expense_size) = match image_size {
            V1 => (1, without_rule, without_day),
            V2 => (2, without_rule + RULE_SIZE, without_day),
            V3 => (3, without_rule + RULE_SIZE, EXPENSE_SIZE),
            _ => return None,
        };
        let layout = Layout { version, group_size, expense_size };
        assert!(layout.expense_at(EXPENSES) == image_size);
        Some(layout)
    }

    /// A group's rule stands after its counters.
    pub const fn has_rules(self) -> bool {
        self.group_size > COUNTERS_SIZE
    }

    /// An expense's day stands after its shares.
    pub const fn has_days(self) -> bool {
        self.expense_size == EXPENSE_SIZE
    }

    pub const fn group_at(self, group: usize) -> usize {
        Self::GROUPS_AT + self.group_size * group
    }

    pub const fn counters(self, group: usize) -> Range<usize> {
        self.group_at(group)..self.group_at(group) + COUNTERS_SIZE
    }

    pub const fn counter(self, group: usize, user: usize) -> Range<usize> {
        let at = self.group_at(group) + COUNTER_SIZE * user;
        at..at + COUNTER_SIZE
    }

    /// Where there are rules.
    pub const fn rule(self, group: usize) -> Range<usize> {
        let at = self.group_at(group) + COUNTERS_SIZE;
        at..at + RULE_SIZE
    }

    pub const fn expense_at(self, expense: usize) -> usize {
        self.group_at(GROUPS) + self.expense_size * expense
    }

    pub const fn expense(self, expense: usize) -> Range<usize> {
        self.expense_at(expense)..self.expense_at(expense) + self.expense_size
    }

    /// Where there are days.
    pub const fn day(self, expense: usize) -> Range<usize> {
        let end = self.expense_at(expense) + self.expense_size;
        end - DAY_SIZE..end
    }
}

/// The same, worked out before the program runs.
pub const fn layout<const SIZE: usize>() -> Layout {
    const { Layout::of(SIZE).expect("no version has this length") }
}

/// The eight membership counters: odd for a member, above zero for ever one.
pub type Counters = [u16; USERS];

pub fn is_member(counter: u16) -> bool {
    counter % 2 == 1
}

pub fn members(counters: &Counters) -> u8 {
    bits(counters.map(is_member))
}

/// An expense's bytes; their number tells whether there is a day.
#[inline(always)]
pub fn record<const SIZE: usize>(image: &Image<SIZE>, expense: usize) -> &[u8] {
    &image[layout::<SIZE>().expense(expense)]
}

#[inline(always)]
pub fn record_mut<const SIZE: usize>(image: &mut Image<SIZE>, expense: usize) -> &mut [u8] {
    &mut image[layout::<SIZE>().expense(expense)]
}

#[inline(always)]
pub fn records<const SIZE: usize>(image: &Image<SIZE>) -> impl Iterator<Item = &[u8]> {
    (0..EXPENSES).map(|expense| record(image, expense))
}

pub fn counters<const SIZE: usize>(image: &Image<SIZE>, group: usize) -> Counters {
    let bytes: &[u8; COUNTERS_SIZE] = image[layout::<SIZE>().counters(group)].try_into().unwrap();
    from_fn(|u| u16::from_le_bytes([bytes[2 * u], bytes[2 * u + 1]]))
}

pub fn present_group<const SIZE: usize>(
    image: &Image<SIZE>,
    group: usize,
) -> Result<Counters, Answer> {
    let counters = counters(image, group);
    refuse_if(counters == [0; USERS], Answer::GroupAbsent)?;
    Ok(counters)
}

pub fn set_counter<const SIZE: usize>(
    image: &mut Image<SIZE>,
    group: usize,
    user: usize,
    counter: u16,
) {
    image[layout::<SIZE>().counter(group, user)].copy_from_slice(&counter.to_le_bytes());
}

pub fn is_rule(number: u16) -> bool {
    matches!(number, RULE_EQUAL | RULE_USE)
}

/// A group's rule, zero where the group is absent. In version 1 all groups are
/// under rule 1, and nothing says so.
pub fn rule<const SIZE: usize>(image: &Image<SIZE>, group: usize) -> u16 {
    if !layout::<SIZE>().has_rules() {
        return if counters(image, group) == [0; USERS] { 0 } else { RULE_EQUAL };
    }
    u16::from_le_bytes(image[layout::<SIZE>().rule(group)].try_into().unwrap())
}

/// Where the version has a place for it.
pub fn set_rule<const SIZE: usize>(image: &mut Image<SIZE>, group: usize, rule: u16) {
    if layout::<SIZE>().has_rules() {
        image[layout::<SIZE>().rule(group)].copy_from_slice(&rule.to_le_bytes());
    }
}

pub fn version<const SIZE: usize>(image: &Image<SIZE>) -> u16 {
    u16::from_le_bytes(image[Layout::VERSION].try_into().unwrap())
}

pub fn set_version<const SIZE: usize>(image: &mut Image<SIZE>) {
    image[Layout::VERSION].copy_from_slice(&layout::<SIZE>().version.to_le_bytes());
}

pub fn replica<const SIZE: usize>(image: &Image<SIZE>) -> usize {
    usize::from(image[Layout::REPLICA])
}

pub fn homes<const SIZE: usize>(image: &Image<SIZE>) -> &[u8; USERS] {
    image[Layout::HOMES].try_into().unwrap()
}

pub fn sized<const SIZE: usize>(image: &[u8]) -> Result<&Image<SIZE>, Answer> {
    image.try_into().map_err(|_| Answer::BadLength)
}

pub fn sized_mut<const SIZE: usize>(image: &mut [u8]) -> Result<&mut Image<SIZE>, Answer> {
    image.try_into().map_err(|_| Answer::BadLength)
}

pub fn try_empty<const SIZE: usize>(
    image: &mut [u8],
    van: u64,
    homes: &[u8; USERS],
) -> Result<(), Answer> {
    let image: &mut Image<SIZE> = sized_mut(image)?;
    let header = van < USERS as u64 && homes.iter().all(|&home| usize::from(home) < USERS);
    refuse_if(!header, Answer::BadHeader)?;
    image[..MARK.len()].copy_from_slice(&MARK);
    set_version(image);
    image[Layout::REPLICA] = van as u8;
    image[Layout::HOMES].copy_from_slice(homes);
    image[Layout::SPARE.start..].fill(0);
    for expense in 0..EXPENSES {
        record_mut(image, expense)[0] = NONE;
    }
    Ok(())
}
