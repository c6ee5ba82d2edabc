//! What the calls reach: their sorts and answers, and how often what the answers
//! do not tell apart came up.

use std::collections::BTreeMap;

use val_host::fields::{has, is_small, Fields};
use val_host::model::days_of;
use val_host::{Answer, Ledger, Line, Model, Totals};
use val_host::{IMAGE_SIZE, IMAGE_SIZE_2, RULE_EQUAL, RULE_USE, SMALL_SHARE, UNDATED};

use crate::all_groups::IMAGE_ROWS;
use crate::shown::*;
use crate::Comparison;

pub const CHECK: usize = 11;
pub const EMPTY: usize = 12;
pub const MERGE: usize = 13;
pub const STATEMENT: usize = 14;
pub const LOOKUP: usize = 15;
pub const PAYMENT_LIST: usize = 16;
pub const RAISE: usize = 17;
pub const MONTH: usize = 18;
pub const BALANCE_TABLE: usize = 19;
/// Actions by kind, 0 for a record without one, and the other calls.
pub const SORTS: usize = 20;
/// A merge's other image, where images are counted.
pub const OTHER: usize = SORTS;

pub fn sort_name(sort: usize) -> String {
    match sort {
        0 => "no kind".into(),
        CHECK => "check".into(),
        EMPTY => "empty".into(),
        MERGE => "merge".into(),
        STATEMENT => "statement".into(),
        LOOKUP => "lookup".into(),
        PAYMENT_LIST => "payments".into(),
        RAISE => "raise".into(),
        MONTH => "month".into(),
        BALANCE_TABLE => "balances".into(),
        OTHER => "other".into(),
        kind => format!("kind {kind}"),
    }
}

/// The answers that the documents give a call. Lookup has none: 0 stands for a
/// part, 1 for an empty one.
pub fn answers_of(sort: usize) -> Vec<u32> {
    let own: &[u32] = match sort {
        0 => return vec![1, 2, 3, 4, 5, 6],
        1 => &[8, 9],
        2 => &[10, 11, 12],
        3 => &[10, 11, 13, 34, 14],
        4 => &[15, 16, 19],
        5 => &[10, 17, 11, 18, 21, 23, 27],
        6 => &[10, 17, 11, 22, 18, 27],
        7 => &[17, 18, 19, 24, 23, 27],
        8 => &[17, 18, 24, 11, 27],
        9 => &[17, 24, 22, 11, 25, 26],
        10 => &[29, 17, 24, 18, 25, 26, 22, 11, 28, 27],
        EMPTY => return vec![0, 1, 4],
        MERGE => &[41, 42, 43, 44, 45, 30, 31],
        STATEMENT => &[10, 32],
        LOOKUP => return vec![0, 1],
        PAYMENT_LIST => &[10, 32, 33],
        MONTH => &[10, 32, 35],
        BALANCE_TABLE => &[32],
        _ => &[],
    };
    let common = if (1..=10).contains(&sort) { 0..=7 } else { 0..=5 };
    common.chain(own.iter().copied()).collect()
}

/// How often what the answers do not tell apart came up.
#[derive(Default)]
pub struct Reached {
    /// Images of the length of version 1 and of version 2, by call.
    pub old_length: [[u64; SORTS + 1]; 2],
    /// Images refused for the rule of a group alone, by call, and with that of
    /// present groups only or of an absent one too.
    pub wrong_rule: [u64; SORTS + 1],
    pub wrong_rule_of: [u64; 2],
    /// Images refused for the day of an expense alone, by call, and with that of
    /// present expenses only or of an absent one too.
    pub wrong_day: [u64; SORTS + 1],
    pub wrong_day_of: [u64; 2],
    /// Foundings accepted, under rule 1 and under rule 2.
    pub founded: [u64; 2],
    /// Merges refused where a group has different rules.
    pub unlike_rules: u64,
    /// Merges refused for days alone.
    pub unlike_days: u64,
    /// Statements and lists with gifts for members: under rule 1; under rule 2
    /// with the same parts; and with others.
    pub shared_out: [u64; 3],
    /// Raisings refused for the length of the old image, of the buffer, of both.
    pub raise_lengths: [u64; 3],
    /// Images of version 1 and of version 2 raised, and refused with 2 to 5.
    pub raised: [u64; 2],
    pub not_raised: [u64; 2],
    /// Images of version 1 raised to version 2 and then to version 3.
    pub in_two_steps: u64,
    /// Absorptions on an image that is unsound by the share of a user who never
    /// belonged to the group.
    pub strangers: u64,
    pub small: SmallShares,
    pub days: Days,
    /// Balances of all groups by what their image has, in the order of
    /// `IMAGE_ROWS`.
    pub all_groups: [u64; IMAGE_ROWS.len()],
}

/// How often days made a difference.
#[derive(Default)]
pub struct Days {
    /// Kinds 4 and 7 refused with 6 for the day alone.
    pub no_day: [u64; 2],
    /// Actions accepted on an expense without a day, by kind.
    pub undated: [u64; 11],
    /// Months by what they met, in the order of `MONTH_ROWS`.
    pub stated: [u64; MONTH_ROWS.len()],
    /// Groups of which all months, with what is undated, were held against the
    /// statement.
    pub all_months: u64,
}

/// What a month may meet among the group's valid expenses, and last among those
/// that wait for somebody.
pub const MONTH_ROWS: [&str; 9] = [
    "in the month",
    "on its first day",
    "on its last",
    "on the day before",
    "on the day after",
    "in another month",
    "undated",
    "in it by small shares alone",
    "in it and waiting",
];

/// How often small shares made a difference, in groups under rule 2.
#[derive(Default)]
pub struct SmallShares {
    /// Statements and lists with an expense that is valid by small shares
    /// alone; with one for which the largest small share has to count; with one
    /// that is not valid for a cent more.
    pub stated: [u64; 3],
    /// Leavings by their answer and another that rule 1 would have given.
    pub left: BTreeMap<(u32, u32), u64>,
    /// Leavings answered 34 where the leaver's share is small, without a bit.
    pub pending: u64,
    /// Acknowledgements of a small share: accepted, and refused with 26.
    pub acknowledged: [u64; 2],
    /// Absorptions of a small share: accepted; so that the expense is no longer
    /// valid; refused with 26.
    pub absorbed: [u64; 3],
}

impl Reached {
    /// An image of a wrong length.
    fn note_length(&mut self, sort: usize, image: &[u8]) {
        if let Some(version) = older_version(image) {
            self.old_length[version - 1][sort] += 1;
        }
    }

    /// An image of a version with rules that is refused with 4.
    fn note_rule(&mut self, sort: usize, image: &[u8]) {
        if header_fits(image) {
            self.wrong_rule[sort] += 1;
            self.wrong_rule_of[usize::from(absent_has_rule(image))] += 1;
        }
    }

    /// An image of version 3 that is refused with 5.
    fn note_day(&mut self, sort: usize, image: &[u8]) {
        if days_alone_are_wrong(image) {
            self.wrong_day[sort] += 1;
            self.wrong_day_of[usize::from(absent_has_day(image))] += 1;
        }
    }

    fn note_raise(&mut self, old: &[u8], buffer: &[u8], answer: Answer) {
        match (answer, older_version(old)) {
            (Answer::BadLength, version) => {
                let (old, new) = (version.is_none(), buffer.len() != IMAGE_SIZE);
                self.raise_lengths[usize::from(new) + usize::from(old && new)] += 1;
            }
            (Answer::Ok, version) => self.raised[version.unwrap() - 1] += 1,
            (_, version) => self.not_raised[version.unwrap() - 1] += 1,
        }
        if answer == Answer::BadHeader && old.len() == IMAGE_SIZE_2 {
            self.note_rule(RAISE, old);
        }
    }
}

impl<L: Ledger> Comparison<L> {
    /// Looks at what the images were that a call was refused for; they are as
    /// they were lent.
    pub fn note(&mut self, sort: usize, answer: Answer) {
        let (image, second) = (self.left.content(), self.second.content());
        let reached = &mut self.reached;
        match answer {
            answer if sort == RAISE => reached.note_raise(second, image, answer),
            Answer::BadLength => reached.note_length(sort, image),
            Answer::OtherBadLength => reached.note_length(OTHER, second),
            Answer::BadHeader if sort != EMPTY => reached.note_rule(sort, image),
            Answer::OtherBadHeader => reached.note_rule(OTHER, second),
            Answer::BadExpense => reached.note_day(sort, image),
            Answer::OtherBadExpense => reached.note_day(OTHER, second),
            Answer::Conflict => {
                reached.unlike_rules += u64::from(rules_differ(image, second));
                reached.unlike_days += u64::from(days_alone_differ(image, second));
            }
            _ => {}
        }
    }

    /// The rule by which gifts were shared out, and whether it shows; what
    /// small shares did.
    pub fn note_statement(&mut self, group: u64, totals: Totals, lines: &[Line]) {
        let fields = Fields::of(self.left.content());
        let group = group as usize;
        let by_rule_1 = fields.rule(group) == RULE_EQUAL;
        if totals.members > 0 && totals.gifts > 0 {
            let alike = lines.iter().map(|line| line.part).eq(equal_parts(totals, lines));
            let sort = if by_rule_1 { 0 } else { 1 + usize::from(!alike) };
            self.reached.shared_out[sort] += 1;
        }
        if !by_rule_1 {
            let open: Vec<u32> =
                fields.live_in(group).map(|expense| fields.largest_open(expense)).collect();
            let [valid, at_limit, above] = &mut self.reached.small.stated;
            *valid += u64::from(open.iter().any(|&share| is_small(share)));
            *at_limit += u64::from(open.contains(&SMALL_SHARE));
            *above += u64::from(open.contains(&(SMALL_SHARE + 1)));
        }
    }

    /// What a month met among the group's expenses.
    pub fn note_month(&mut self, group: u64, month: u64) {
        let fields = Fields::of(self.left.content());
        let group = group as usize;
        let days = days_of(month).unwrap();
        let (first, last) = (*days.start(), *days.end());
        let mut met = [false; MONTH_ROWS.len()];
        for expense in fields.live_in(group) {
            let valid = fields.waits_for_none(group, expense);
            let day = fields.day(expense);
            let inside = days.contains(&day);
            let meets = [
                valid && inside,
                valid && day == first,
                valid && day == last,
                valid && day.checked_add(1) == Some(first),
                valid && day == last + 1,
                valid && !inside && day != UNDATED,
                valid && day == UNDATED,
                valid && inside && fields.largest_open(expense) > 0,
                !valid && inside,
            ];
            met.iter_mut().zip(meets).for_each(|(met, meets)| *met |= meets);
        }
        let counts = self.reached.days.stated.iter_mut();
        counts.zip(met).for_each(|(count, met)| *count += u64::from(met));
    }

    /// What days and small shares did to an action on this image, which is sound
    /// if the action was looked at.
    pub fn note_action(&mut self, sort: usize, image: &[u8], action: &[u8], answer: Answer) {
        use Answer::{AlreadyAcknowledged, BadAction, CounterFull, Ok, Owes, SharePending};
        match (sort, answer) {
            (4 | 7, BadAction) => self.note_no_day(image, action),
            (5..=10, Ok) => {
                let expense = usize::from(u16::from_le_bytes([action[4], action[5]]));
                let undated = Fields::of(image).day(expense) == UNDATED;
                self.reached.days.undated[sort] += u64::from(undated);
            }
            _ => {}
        }
        match (sort, answer) {
            (3, Ok | Owes | SharePending | CounterFull) => self.note_leave(image, action, answer),
            (9, Ok | AlreadyAcknowledged) => self.note_share(sort, action[1], image, action),
            (10, Ok | AlreadyAcknowledged) => self.note_share(sort, action[2], image, action),
            _ => {}
        }
    }

    fn note_no_day(&mut self, image: &[u8], action: &[u8]) {
        let mut on_day_0 = action.to_vec();
        on_day_0[6..8].fill(0);
        if Model::act(&mut image.to_vec(), &on_day_0) != Answer::BadAction {
            self.reached.days.no_day[usize::from(action[0] == 7)] += 1;
        }
    }

    fn note_leave(&mut self, image: &[u8], action: &[u8], answer: Answer) {
        let fields = Fields::of(image);
        let (user, group) = (usize::from(action[1]), usize::from(action[3]));
        if fields.rule(group) != RULE_USE {
            return;
        }
        let otherwise = Model::act(&mut under_rule_1(image, group), action);
        let small = &mut self.reached.small;
        if otherwise != answer {
            *small.left.entry((answer.number(), otherwise.number())).or_default() += 1;
        }
        let pending_without_bit = |expense: usize| {
            fields.largest_open(expense) > SMALL_SHARE
                && is_small(fields.share(expense, user))
                && !has(fields.acknowledged(expense), user)
        };
        if answer == Answer::SharePending {
            small.pending += u64::from(fields.live_in(group).any(pending_without_bit));
        }
    }

    /// The user's share in the action's expense, where it is a small one; the
    /// model's image is by now as the action left it.
    fn note_share(&mut self, sort: usize, user: u8, image: &[u8], action: &[u8]) {
        let (before, after) = (Fields::of(image), Fields::of(self.right.content()));
        let expense = usize::from(u16::from_le_bytes([action[4], action[5]]));
        let by_use = before.group(expense).is_some_and(|group| before.rule(group) == RULE_USE);
        if !by_use || !is_small(before.share(expense, user.into())) {
            return;
        }
        let refused = has(before.acknowledged(expense), user.into());
        let waits = |fields: &Fields| fields.largest_open(expense) > SMALL_SHARE;
        let small = &mut self.reached.small;
        if sort == 9 {
            small.acknowledged[usize::from(refused)] += 1;
        } else if refused {
            small.absorbed[2] += 1;
        } else {
            small.absorbed[0] += 1;
            small.absorbed[1] += u64::from(!waits(&before) && waits(&after));
        }
    }
}
