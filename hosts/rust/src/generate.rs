//! Random images and actions: likely ones, ones at the limits, spoiled ones.
//!
//! Nothing here decides what is right: it aims at inputs that reach far. Images
//! are of any version, told by their length; an action is one of its image's
//! version.

use crate::fields::*;
use crate::model::{days_of, Layout};
use crate::random::Random;
use crate::{
    ACTION_SIZE, EXPENSES, GROUPS, IMAGE_SIZE, IMAGE_SIZE_1, IMAGE_SIZE_2, LAST_DAY, MONTHS,
    RULE_EQUAL, RULE_USE, SMALL_SHARE, UNDATED, USERS,
};
use std::ops::Range;

const LIMIT: u32 = 1_000_000_000;
const TOP: u32 = u32::MAX;

/// 0 to `count` - 1 once each, from a random one on.
fn rotated(random: &mut Random, count: usize) -> impl Iterator<Item = usize> {
    let start = random.below(count);
    (0..count).map(move |step| (start + step) % count)
}

// ---- shares and home tables -------------------------------------------------

/// Small shares, up to the largest.
const SMALL: [u32; 4] = [1, SMALL_SHARE / 2, SMALL_SHARE - 1, SMALL_SHARE];
/// Shares next to that, and larger ones that end in the same bytes.
const NEAR_SMALL: [u32; 6] = [
    SMALL_SHARE - 1,
    SMALL_SHARE,
    SMALL_SHARE,
    SMALL_SHARE + 1,
    SMALL_SHARE + (1 << 8),
    SMALL_SHARE + (1 << 16),
];

/// Shares of some of the users named by the bits, with a total allowed.
fn sound_shares(random: &mut Random, users: u8) -> [u32; USERS] {
    let mut chosen = users & random.word() as u8;
    if chosen == 0 {
        chosen = users;
    }
    let from: &[u32] = match random.below(20) {
        0..3 => &SMALL,
        3..9 => &NEAR_SMALL,
        _ => return equal_shares(random, chosen),
    };
    std::array::from_fn(|user| if has(chosen, user) { random.pick(from) } else { 0 })
}

/// Shares of all these users, equal but for what the first has more.
fn equal_shares(random: &mut Random, users: u8) -> [u32; USERS] {
    let count = users.count_ones();
    let (each, rest) = match random.below(11) {
        0 => (LIMIT / count, LIMIT % count),
        1 => (1, 0),
        2 => (random.below((LIMIT / count) as usize) as u32 + 1, 0),
        _ => (1 + random.below(1000) as u32, random.below(3) as u32),
    };
    let mut shares = std::array::from_fn(|user| if has(users, user) { each } else { 0 });
    shares[users.trailing_zeros() as usize] += rest;
    shares
}

/// Who has a positive share.
fn holders(shares: &[u32; USERS]) -> u8 {
    (0..USERS).filter(|&user| shares[user] > 0).fold(0, |bits, user| bits | 1 << user)
}

/// Sound shares, and now and then a total outside the limits.
fn shares(random: &mut Random, users: u8) -> [u32; USERS] {
    let mut shares = sound_shares(random, users);
    let user = random.below(USERS);
    match random.below(60) {
        0 => shares = [0; USERS],
        1 => {
            shares = [0; USERS];
            shares[user] = LIMIT + random.below(2) as u32;
        }
        2 => shares[user] = LIMIT,
        3 => shares = [TOP; USERS],
        4 => {
            // Small in 32 bits.
            shares = [0; USERS];
            shares[user] = TOP;
            shares[(user + 1) % USERS] = 2;
        }
        5 => shares[user] = random.word() as u32,
        _ => {}
    }
    shares
}

pub fn homes(random: &mut Random) -> [u8; USERS] {
    let style = random.below(6);
    let one = random.below(USERS) as u8;
    let turn = random.below(USERS);
    std::array::from_fn(|user| match style {
        0 => user as u8,
        1 => ((user + turn) % USERS) as u8,
        2 => random.below(2) as u8,
        3 => random.pick(&[one, one, one, 0, 3, 7]),
        4 => one,
        _ => random.below(USERS) as u8,
    })
}

// ---- days -------------------------------------------------------------------

/// Numbers beside those that are days.
const NO_DAYS: [u16; 6] = [LAST_DAY + 1, LAST_DAY + 2, 36_608, 40_000, UNDATED - 1, UNDATED];

/// The first months and the last, the turn of a year, Februaries of 29 days and
/// of 28, and two in between.
const MONTHS_TO_AIM_AT: [u64; 13] = [0, 1, 2, 11, 12, 13, 49, 601, 602, 1153, 1189, 1198, 1199];

fn any_month(random: &mut Random) -> u64 {
    match random.below(3) {
        0 => random.below(MONTHS as usize) as u64,
        _ => random.pick(&MONTHS_TO_AIM_AT),
    }
}

/// A day of this month or next to it, often one at its edges.
fn day_near(random: &mut Random, month: u64) -> u16 {
    let days = days_of(month).unwrap();
    let (first, last) = (*days.start(), *days.end());
    match random.below(6) {
        0 => first.saturating_sub(1),
        1 => first,
        2 => last,
        3 => (last + 1).min(LAST_DAY),
        _ => first + random.below(days.len()) as u16,
    }
}

fn any_day(random: &mut Random) -> u16 {
    let month = any_month(random);
    day_near(random, month)
}

/// The month that a day is in.
fn month_of(day: u16) -> u64 {
    let about = u64::from(day) * MONTHS / (u64::from(LAST_DAY) + 1);
    (about.saturating_sub(1)..=about + 1)
        .find(|&month| days_of(month).is_some_and(|days| days.contains(&day)))
        .expect("a month for each day")
}

/// The group and the month of a valid expense, or the month beside that; nothing
/// where the image has no such expense with a day.
pub fn dated_group(random: &mut Random, image: &[u8]) -> Option<(usize, u64)> {
    let fields = Fields::of(image);
    if !fields.layout.has_days() {
        return None;
    }
    let (group, day) = rotated(random, EXPENSES).find_map(|expense| {
        let (group, day) = (fields.group(expense)?, fields.day(expense));
        let counts = day != UNDATED
            && fields.present(expense)
            && !fields.deleted(expense)
            && fields.waits_for_none(group, expense);
        counts.then_some((group, day))
    })?;
    let month = month_of(day);
    let near = [month.saturating_sub(1), (month + 1).min(MONTHS - 1), month, month, month, month];
    Some((group, random.pick(&near)))
}

// ---- actions --------------------------------------------------------------

fn founding(actor: usize, group: usize, rule: u16) -> Action {
    naming(action(1, actor, 0, group, 0, [0; USERS]), rule)
}

/// What a founding of this version can name.
fn any_rule(random: &mut Random, layout: Layout) -> u16 {
    if layout.has_rules() {
        random.pick(&[RULE_EQUAL, RULE_USE])
    } else {
        0
    }
}

/// Dates the record of an expense that is entered or changed, in a version with
/// days.
fn dated(random: &mut Random, layout: Layout, record: Action) -> Action {
    if layout.has_days() {
        naming(record, any_day(random))
    } else {
        record
    }
}

/// As above; where it may be wrong, sometimes with what is no day in any version.
fn dated_or_wrong(random: &mut Random, layout: Layout, record: Action, wrong: bool) -> Action {
    if wrong && random.chance(40) {
        naming(record, random.pick(&NO_DAYS))
    } else {
        dated(random, layout, record)
    }
}

/// A well-formed record with fields at random.
fn any_action(random: &mut Random, layout: Layout, kind: u8) -> Action {
    let mut used =
        |by: &[u8], limit: usize| if by.contains(&kind) { random.below(limit) } else { 0 };
    let actor = used(&[1, 2, 3, 4, 5, 6, 7, 8, 9, 10], USERS);
    let other = used(&[2, 10], USERS);
    let group = used(&[1, 2, 3, 5, 6], GROUPS);
    let expense = used(&[4, 5, 6, 7, 8, 9, 10], EXPENSES);
    match kind {
        1 => founding(actor, group, any_rule(random, layout)),
        4 | 7 => {
            let shares = shares(random, 255);
            dated(random, layout, action(kind, actor, other, group, expense, shares))
        }
        _ => action(kind, actor, other, group, expense, [0; USERS]),
    }
}

/// How many conditions are left out: one in 32, or one in four.
#[derive(Clone, Copy)]
pub enum Care {
    Much,
    Little,
}

/// An action of this kind that fits the image, but for conditions that are
/// left out at random; one at random where none is found.
pub fn likely_action(random: &mut Random, image: &[u8], kind: u8, care: Care) -> Action {
    fitting_action(random, image, kind, care)
        .unwrap_or_else(|| any_action(random, layout(image), kind))
}

/// As above, where there is one.
pub fn fitting_action(random: &mut Random, image: &[u8], kind: u8, care: Care) -> Option<Action> {
    let image = &Fields::of(image);
    let mut left_out = random.word() & random.word();
    if let Care::Much = care {
        left_out &= random.word() & random.word() & random.word();
    }
    let asks = |number: u32, condition: bool| condition || left_out >> number & 1 == 1;
    let none = [0; USERS];
    let replica = image.replica();

    let mut actors = image.residents(replica);
    if actors.is_empty() || left_out & 1 == 1 {
        actors = (0..USERS).collect();
    }
    let actor = random.pick(&actors);
    let owned =
        |expense: usize| if left_out & 2 == 2 { expense } else { 64 * replica + expense % 64 };
    let span = if left_out & 2 == 2 || kind == 9 { EXPENSES } else { 64 };

    match kind {
        1 => {
            let group = rotated(random, GROUPS).find(|&group| {
                asks(2, group / 2 == replica) && asks(3, !image.group_present(group))
            })?;
            let rule = any_rule(random, image.layout);
            let wrong = random.pick(&[0, 1, 2, 3, 255, 256, 257, 258, 512, 65_535]);
            Some(founding(actor, group, if asks(4, false) { wrong } else { rule }))
        }
        2 => {
            let group = rotated(random, GROUPS).find(|&group| {
                asks(2, image.group_present(group)) && asks(3, image.member(group, actor))
            })?;
            let other = rotated(random, USERS).find(|&user| asks(4, !image.member(group, user)))?;
            Some(action(2, actor, other, group, 0, none))
        }
        3 => {
            let group = rotated(random, GROUPS).find(|&group| {
                asks(2, image.group_present(group)) && asks(3, image.member(group, actor))
            })?;
            Some(action(3, actor, 0, group, 0, none))
        }
        4 => {
            let expense = rotated(random, span)
                .map(owned)
                .find(|&expense| asks(2, !image.present(expense)))?;
            // Mostly for the members of a group that the actor is in.
            let group = rotated(random, GROUPS).find(|&group| image.member(group, actor));
            let users = match group {
                Some(group) if random.chance(85) => image.members(group),
                _ => 255,
            };
            let record = action(4, actor, 0, 0, expense, shares(random, users));
            Some(dated_or_wrong(random, image.layout, record, asks(11, false)))
        }
        9 => rotated(random, span)
            .filter(|&expense| asks(2, image.present(expense)) && asks(3, !image.deleted(expense)))
            .find_map(|expense| {
                let group = image.group(expense);
                let in_group = |user: usize| group.is_some_and(|group| image.member(group, user));
                let fits = asks(4, group.is_some());
                let actor = actors.iter().copied().find(|&user| {
                    fits && asks(5, in_group(user))
                        && asks(6, image.share(expense, user) > 0)
                        && asks(7, !has(image.acknowledged(expense), user))
                })?;
                Some(action(9, actor, 0, 0, expense, none))
            }),
        _ => {
            let groups = random.below(GROUPS);
            let others = random.below(USERS);
            let new_shares = |random: &mut Random, group: Option<usize>| {
                let members = group.map_or(255, |group| image.members(group));
                let users = if members == 0 || random.chance(4) { 255 } else { members };
                shares(random, users)
            };
            rotated(random, span).map(owned).find_map(|expense| {
                if !asks(2, image.present(expense)) {
                    return None;
                }
                let payer = image.payer(expense) % USERS;
                let actor = if left_out & 8 == 8 { actor } else { payer };
                let group = image.group(expense);
                let in_group = group.is_some_and(|group| image.member(group, actor));
                let live = asks(4, !image.deleted(expense));
                match kind {
                    5 => {
                        let free = asks(5, group.is_none());
                        let group =
                            (0..GROUPS).map(|step| (groups + step) % GROUPS).find(|&group| {
                                let members = image.members(group);
                                asks(6, image.group_present(group))
                                    && asks(7, has(members, actor))
                                    && asks(8, image.positive(expense) & !members == 0)
                            })?;
                        free.then_some(action(5, actor, 0, group, expense, none))
                    }
                    6 => {
                        let fits = asks(5, group.is_some()) && asks(6, in_group);
                        let group = if asks(7, false) { groups } else { group.unwrap_or(groups) };
                        fits.then_some(action(6, actor, 0, group, expense, none))
                    }
                    7 => live.then(|| {
                        let record = action(7, actor, 0, 0, expense, new_shares(random, group));
                        dated_or_wrong(random, image.layout, record, asks(11, false))
                    }),
                    8 => (live && asks(5, in_group || group.is_none()))
                        .then_some(action(8, actor, 0, 0, expense, none)),
                    _ => {
                        let fits = live && asks(5, group.is_some()) && asks(6, in_group);
                        let other =
                            (0..USERS).map(|step| (others + step) % USERS).find(|&other| {
                                fits && asks(7, other != actor)
                                    && asks(8, image.share(expense, other) > 0)
                                    && asks(9, !has(image.acknowledged(expense), other))
                                    && asks(
                                        10,
                                        !group.is_some_and(|group| image.member(group, other)),
                                    )
                            })?;
                        Some(action(10, actor, other, 0, expense, none))
                    }
                }
            })
        }
    }
}

/// The record of version 3 that says the same as this one of an older version.
/// Where version 1 has zero a founding names rule 1, where an older version has
/// zero what is entered or changed names a day; and neither where there is more,
/// which the older version refuses.
pub fn renewed(random: &mut Random, action: &Action, layout: Layout) -> Action {
    let is_zero = action[RULE_OR_DAY] == [0, 0];
    match action[0] {
        1 if !layout.has_rules() => naming(*action, if is_zero { RULE_EQUAL } else { 0 }),
        4 | 7 if is_zero => naming(*action, any_day(random)),
        4 | 7 => naming(*action, UNDATED),
        _ => *action,
    }
}

/// The expense that an action enters or changes, and the day that it names in a
/// version with days.
pub fn named_day(action: &[u8]) -> Option<(usize, u16)> {
    let expense = u16_of(&action[4..6]).into();
    matches!(action[0], 4 | 7).then(|| (expense, u16_of(&action[RULE_OR_DAY])))
}

/// An action with one field changed to another that the record allows.
pub fn near_action(random: &mut Random, image: &[u8], kind: u8) -> Action {
    let mut near = likely_action(random, image, kind, Care::Much);
    let other = any_action(random, layout(image), kind);
    let (from, to) = random.pick(&[(1, 2), (2, 3), (3, 4), (4, 6), (6, 8), (8, 40)]);
    near[from..to].copy_from_slice(&other[from..to]);
    near
}

/// A record that is mostly no action: another length, a byte too much.
pub fn spoiled_action(random: &mut Random, image: &[u8]) -> Vec<u8> {
    let kind = 1 + random.below(10) as u8;
    let mut action = likely_action(random, image, kind, Care::Much).to_vec();
    match random.below(10) {
        0 => action.resize(random.pick(&[0, 1, 39, 41, 80]), 0),
        1 => random.fill(&mut action),
        2 => action[0] = random.pick(&[0, 11, 12, 16, 127, 128, 255]),
        3 => action[0] = 1 + random.below(10) as u8,
        4 => action[random.pick(&[1, 2])] = random.pick(&[8, 9, 127, 128, 255]),
        5 => action[3] = random.pick(&[1, 16, 17, 128, 255]),
        6 => action[5] = random.pick(&[1, 2, 3, 128, 255]),
        7 => {
            // The last two are a byte of the last day, and what is above it.
            let [low, high] = LAST_DAY.to_le_bytes();
            let (at, byte) = random.pick(&[(6, low), (7, high)]);
            action[at] = random.pick(&[0, 1, 2, 3, 128, 255, byte, byte + 1]);
        }
        _ => {
            let at = random.below(ACTION_SIZE);
            action[at] ^= 1 << random.below(8);
        }
    }
    action
}

/// A group that is present, or any.
pub fn present_group(random: &mut Random, image: &[u8]) -> usize {
    let any = random.below(GROUPS);
    rotated(random, GROUPS).find(|&group| Fields::of(image).group_present(group)).unwrap_or(any)
}

/// An expense that is present, or any.
pub fn present_expense(random: &mut Random, image: &[u8]) -> usize {
    let any = random.below(EXPENSES);
    rotated(random, EXPENSES).find(|&expense| Fields::of(image).present(expense)).unwrap_or(any)
}

// ---- images ---------------------------------------------------------------

fn any_counter(random: &mut Random, style: usize) -> u16 {
    match style {
        0 => random.below(2) as u16,
        1 => random.below(5) as u16,
        2 => random.pick(&[0, 1, 65_533, 65_534, 65_535]),
        3 => random.pick(&[1, 2, 3, 255, 256, 257, 32_767, 32_768]),
        _ => random.word() as u16,
    }
}

fn any_version(random: &mut Random, style: usize) -> u32 {
    match style {
        0 => random.below(4) as u32,
        1 => random.pick(&[TOP - 2, TOP - 1, TOP]),
        2 => random.pick(&[0, 1, 255, 256, 65_535, 65_536, 1 << 31, TOP - 1, TOP]),
        _ => random.word() as u32,
    }
}

/// Gives a rule to each group that is present and has none, in a version with
/// rules.
fn put_rules(random: &mut Random, image: &mut [u8]) {
    let layout = layout(image);
    if !layout.has_rules() {
        return;
    }
    for group in 0..GROUPS {
        let fields = Fields::of(image);
        if fields.group_present(group) && fields.rule(group) == 0 {
            set_rule(image, group, any_rule(random, layout));
        }
    }
}

/// How an image's expenses are chosen.
struct Style {
    versions: usize,
    in_group: usize,
    valid: usize,
    deleted: usize,
    only_group: Option<usize>,
    /// In how many of a hundred expenses the day is near this month.
    near_month: (usize, u64),
    undated: usize,
}

impl Style {
    fn day(&self, random: &mut Random) -> u16 {
        let (percent, month) = self.near_month;
        if random.chance(self.undated) {
            UNDATED
        } else if random.chance(percent) {
            day_near(random, month)
        } else {
            any_day(random)
        }
    }
}

/// Fills the record with a sound expense, if the number has a payer.
fn put_expense(random: &mut Random, image: &mut [u8], expense: usize, style: &Style) {
    let fields = Fields::of(image);
    let payers = fields.residents(expense / 64);
    if payers.is_empty() {
        return;
    }
    let payer = random.pick(&payers);
    let group = style.only_group.unwrap_or_else(|| random.below(GROUPS));
    let grouped = fields.counter(group, payer) > 0 && random.chance(style.in_group);
    let users = if grouped { fields.ever(group) } else { 255 };
    let shares = sound_shares(random, users);
    let positive = holders(&shares);
    if layout(image).has_days() {
        let day = style.day(random);
        set_day(image, expense, day);
    }
    let record = record_mut(image, expense);
    record[0] = payer as u8;
    record[1] = if grouped { group as u8 } else { NONE };
    record[2] = random.chance(style.deleted).into();
    let allowed = if grouped { positive } else { positive & 1 << payer };
    record[3] = if random.chance(style.valid) { allowed } else { allowed & random.word() as u8 };
    set_version(record, any_version(random, style.versions));
    set_shares(record, shares);
}

/// An image of this length without groups and expenses.
fn empty_image(size: usize, van: u8, homes: &[u8; USERS]) -> Vec<u8> {
    let mut image = vec![0; size];
    image[..3].copy_from_slice(b"VAL");
    set_format(&mut image);
    image[Layout::REPLICA] = van;
    image[Layout::HOMES].copy_from_slice(homes);
    for expense in 0..EXPENSES {
        clear(&mut image, expense);
    }
    image
}

/// A sound image of this length that no history need have led to, often at the
/// limits.
pub fn sound_image(random: &mut Random, size: usize) -> Vec<u8> {
    let homes = homes(random);
    let van = if random.chance(90) { random.pick(&homes) } else { random.below(8) as u8 };
    let mut image = empty_image(size, van, &homes);
    let counters = random.below(5);
    let absent = random.pick(&[0, 10, 50]);
    for group in 0..GROUPS {
        if !random.chance(absent) {
            for user in 0..USERS {
                let counter = any_counter(random, counters);
                set_counter(&mut image, group, user, counter);
            }
        }
    }
    put_rules(random, &mut image);
    let style = Style {
        versions: random.below(4),
        in_group: random.pick(&[50, 90, 100]),
        valid: random.pick(&[0, 50, 90, 100]),
        deleted: random.pick(&[0, 0, 20, 50]),
        only_group: random.chance(20).then(|| random.below(GROUPS)),
        near_month: (random.pick(&[0, 70, 100]), any_month(random)),
        undated: random.pick(&[0, 20, 20, 100]),
    };
    let density = random.pick(&[0, 5, 50, 100]);
    for expense in 0..EXPENSES {
        if random.chance(density) {
            put_expense(random, &mut image, expense, &style);
        }
    }
    image
}

/// A sound image of version 3 in which the group has two valid expenses of each
/// of these months, which are not more than 256: of its first day and of its last.
pub fn calendar(random: &mut Random, group: usize, months: Range<u64>) -> Vec<u8> {
    let mut image = empty_image(IMAGE_SIZE, 0, &std::array::from_fn(|user| user as u8));
    for user in 0..USERS {
        set_counter(&mut image, group, user, 1);
    }
    put_rules(random, &mut image);
    let days = months.flat_map(|month| {
        let days = days_of(month).unwrap();
        [*days.start(), *days.end()]
    });
    for (expense, day) in days.enumerate() {
        let (payer, holder) = (expense / 64, random.below(USERS));
        let mut shares = [0; USERS];
        shares[(payer + 1) % USERS] = 1 + random.below(LIMIT as usize / 2) as u32;
        shares[holder] += 1;
        let acknowledged = holders(&shares);
        set_day(&mut image, expense, day);
        let record = record_mut(&mut image, expense);
        record[..4].copy_from_slice(&[payer as u8, group as u8, 0, acknowledged]);
        set_shares(record, shares);
    }
    image
}

/// Changes a sound image of version 3 into one where a single expense decides
/// whether a user may leave, and gives that leave. Nothing where nobody could
/// leave or the expense would have no payer.
pub fn decided_leave(random: &mut Random, image: &mut [u8]) -> Option<Action> {
    let fields = Fields::of(image);
    let any = random.below(EXPENSES);
    let expense = random.pick(&[0, 63, 448, 511, any, any, any, any]);
    let residents = fields.residents(fields.replica());
    let payers = fields.residents(expense / 64);
    if residents.is_empty() || payers.is_empty() {
        return None;
    }
    let (leaver, payer) = (random.pick(&residents), random.pick(&payers));
    let group = random.below(GROUPS);
    set_counter(image, group, leaver, random.pick(&[1, 3, 65_533, 65_535]));
    let rule = random.pick(&[RULE_EQUAL, RULE_USE, RULE_USE]);
    set_rule(image, group, rule);

    // Nothing else pending, and no debt: of the expenses in which the leaver has
    // a share that counts as acknowledged, only such remain as it paid and all
    // have acknowledged.
    let live: Vec<usize> = Fields::of(image).live_in(group).collect();
    for number in live {
        let fields = Fields::of(image);
        let acknowledged = fields.acknowledged(number);
        let small = rule == RULE_USE && is_small(fields.share(number, leaver));
        let remains = acknowledged == fields.positive(number) && fields.payer(number) == leaver;
        if !(small || has(acknowledged, leaver)) || remains {
            continue;
        }
        let record = record_mut(image, number);
        if small || random.chance(50) {
            record[2] = 1;
        } else {
            record[3] &= !(1 << leaver);
        }
    }

    // It waits for one user, or it is near to that.
    let sort = random.below(12);
    let late = (leaver + 1 + random.below(USERS - 1)) % USERS;
    let mut shares = [0; USERS];
    let near = |random: &mut Random| match random.below(4) {
        0 => 1 + random.below(1000) as u32,
        _ => random.pick(&NEAR_SMALL),
    };
    shares[random.below(USERS)] = random.below(3) as u32;
    shares[leaver] = if sort == 0 { 0 } else { near(random) };
    shares[late] = near(random);
    let positive = holders(&shares);
    let deleted = sort == 1;
    let mut acknowledged = positive & !(1 << late);
    let mut place = group as u8;
    match sort {
        2 | 6 => acknowledged &= !(1 << leaver),
        3 => acknowledged = positive,
        4 => place = ((group + 1 + random.below(GROUPS - 1)) % GROUPS) as u8,
        5 => {
            acknowledged &= 1 << payer;
            place = NONE;
        }
        7 | 8 => acknowledged = 0,
        _ => {}
    }
    if place != NONE {
        for user in (0..USERS).filter(|&user| has(positive | 1 << payer, user)) {
            if Fields::of(image).counter(place.into(), user) == 0 {
                set_counter(image, place.into(), user, random.pick(&[1, 2]));
            }
        }
    }
    put_rules(random, image);
    let day = any_day(random);
    set_day(image, expense, day);
    let record = record_mut(image, expense);
    record[..4].copy_from_slice(&[payer as u8, place, deleted.into(), acknowledged]);
    set_version(record, any_version(random, 2));
    set_shares(record, shares);
    Some(action(3, leaver, 0, group, 0, [0; USERS]))
}

/// Changes a sound image of version 3 into one where a payer absorbs two former
/// members' shares, which are small and together near to that, and then
/// acknowledges. Gives the group and the three actions; nothing where the replica
/// has no resident.
pub fn absorptions(random: &mut Random, image: &mut [u8]) -> Option<(usize, [Action; 3])> {
    let fields = Fields::of(image);
    let replica = fields.replica();
    let residents = fields.residents(replica);
    if residents.is_empty() {
        return None;
    }
    let payer = random.pick(&residents);
    let expense = 64 * replica + random.below(64);
    let group = random.below(GROUPS);
    // Three of the seven others.
    let start = random.below(USERS - 1);
    let [first, second, third] =
        [0, 1, 3].map(|step| (payer + 1 + (start + step) % (USERS - 1)) % USERS);

    let mut shares = [0; USERS];
    let sum = random.pick(&NEAR_SMALL[..4]);
    shares[payer] = random.pick(&[0, 0, 1]);
    shares[first] = 1 + random.below(sum as usize - 1) as u32;
    shares[second] = sum - shares[first];
    shares[third] = random.pick(&[0, 1, SMALL_SHARE, SMALL_SHARE + 1]);
    let mut acknowledged = 0;
    if shares[third] > SMALL_SHARE || shares[third] > 0 && random.chance(50) {
        acknowledged |= 1 << third;
    }
    for (user, counter) in [(payer, 1), (first, 2), (second, 2), (third, random.pick(&[1, 2]))] {
        set_counter(image, group, user, counter);
    }
    set_rule(image, group, random.pick(&[RULE_EQUAL, RULE_USE, RULE_USE]));
    let day = any_day(random);
    set_day(image, expense, day);
    let record = record_mut(image, expense);
    record[..4].copy_from_slice(&[payer as u8, group as u8, 0, acknowledged]);
    set_version(record, any_version(random, 0));
    set_shares(record, shares);
    let absorb = |other: usize| action(10, payer, other, 0, expense, [0; USERS]);
    let acknowledge = action(9, payer, 0, 0, expense, [0; USERS]);
    Some((group, [absorb(first), absorb(second), acknowledge]))
}

/// Changes an image into one where a user never belonged to a group.
pub fn never_joined(image: &mut [u8], group: usize, user: usize) {
    set_counter(image, group, user, 0);
}

/// The image of an older version, by its length, with the same header and what
/// that version has of groups and expenses.
pub fn lowered(image: &[u8], size: usize) -> Vec<u8> {
    let mut old = vec![0; size];
    let (from, to) = (layout(image), layout(&old));
    old[..Layout::GROUPS_AT].copy_from_slice(&image[..Layout::GROUPS_AT]);
    set_format(&mut old);
    for group in 0..GROUPS {
        let place = to.group_at(group)..to.group_at(group + 1);
        let length = place.len();
        old[place].copy_from_slice(&image[from.group_at(group)..][..length]);
    }
    for expense in 0..EXPENSES {
        let place = to.expense(expense);
        let length = place.len();
        old[place].copy_from_slice(&image[from.expense_at(expense)..][..length]);
    }
    old
}

/// Another sound image to merge with this one: much in common, and sometimes
/// a conflict or another home table.
pub fn relative(random: &mut Random, own: &[u8]) -> Vec<u8> {
    let mut other = own.to_vec();
    other[Layout::REPLICA] = random.below(8) as u8;
    let counters = random.below(5);
    for group in 0..GROUPS {
        for user in 0..USERS {
            // Never back to zero, so that this image's expenses stay sound.
            let counter = any_counter(random, counters);
            if counter > 0 && random.chance(20) {
                set_counter(&mut other, group, user, counter);
            }
        }
    }
    put_rules(random, &mut other);
    if layout(own).has_rules() && random.chance(15) {
        // Mostly a conflict: present on both sides, under different rules.
        let group = present_group(random, &other);
        match Fields::of(&other).rule(group) {
            0 => {}
            rule => set_rule(&mut other, group, RULE_EQUAL + RULE_USE - rule),
        }
    }
    let style = Style {
        versions: random.below(4),
        in_group: 80,
        valid: 60,
        deleted: 10,
        only_group: None,
        near_month: (50, any_month(random)),
        undated: 20,
    };
    for expense in 0..EXPENSES {
        let fields = Fields::of(&other);
        let (present, version) = (fields.present(expense), fields.version(expense));
        match (present, random.below(12)) {
            (true, 0) => clear(&mut other, expense),
            // Acknowledgements of its own.
            (true, 1..=3) => {
                let positive = fields.positive(expense);
                let allowed = match fields.group(expense) {
                    Some(_) => positive,
                    None => positive & 1 << fields.payer(expense),
                };
                record_mut(&mut other, expense)[3] = allowed & random.word() as u8;
            }
            // Another version, newer or older, with other contents.
            (true, 4) => {
                put_expense(random, &mut other, expense, &style);
                let near = random.pick(&[
                    version.saturating_add(1),
                    version.saturating_sub(1),
                    version ^ 1 << 8,
                    version ^ 1 << 31,
                ]);
                let apart = if near == version { version ^ 1 } else { near };
                set_version(record_mut(&mut other, expense), apart);
            }
            (false, 0..=2) => put_expense(random, &mut other, expense, &style),
            _ => {}
        }
    }
    if random.chance(30) {
        let any = random.below(EXPENSES);
        let expense = random.pick(&[0, 63, 64, 448, 511, any]);
        let fields = Fields::of(&other);
        if fields.present(expense) {
            // Mostly a conflict: one field differs, the version does not.
            let kept = fields.record(expense).to_vec();
            let last = fields.share(expense, 7);
            let has_days = fields.layout.has_days();
            let record = record_mut(&mut other, expense);
            match random.below(6) {
                0 => record[2] ^= 1,
                1 if last > 1 => record[36..40].copy_from_slice(&(last - 1).to_le_bytes()),
                2 => {
                    record[1] = NONE;
                    record[3] &= 1 << record[0];
                }
                3 | 4 if has_days => {
                    let day = other_day(random, Fields::of(&other).day(expense));
                    set_day(&mut other, expense, day);
                }
                _ => put_expense(random, &mut other, expense, &style),
            }
            record_mut(&mut other, expense)[4..8].copy_from_slice(&kept[4..8]);
        }
    }
    if random.chance(8) {
        // A user who pays for nothing may live anywhere.
        let user = random.below(USERS);
        for expense in 0..EXPENSES {
            if Fields::of(&other).payer(expense) == user {
                clear(&mut other, expense);
            }
        }
        other[Layout::HOMES][user] = random.below(8) as u8;
    }
    other
}

/// Another day, or none: mostly one that differs in a byte only.
fn other_day(random: &mut Random, day: u16) -> u16 {
    let near = random.pick(&[day ^ 1, day ^ 1 << 8, day.saturating_sub(1), UNDATED]);
    if near != day && (near <= LAST_DAY || near == UNDATED) {
        near
    } else {
        day / 2 + 1
    }
}

/// The image with a fault, mostly.
pub fn spoiled_image(random: &mut Random, image: &[u8]) -> Vec<u8> {
    let mut image = image.to_vec();
    let any = random.below(EXPENSES);
    let expense = if random.chance(70) { present_expense(random, &image) } else { any };
    let layout = layout(&image);
    match random.below(32) {
        0 | 1 => {
            let (size, expenses) = (image.len(), layout.expense_at(0));
            let more = size + layout.expense_size;
            let lengths = [0, 1, 2, 3, 16, expenses, size - 1, size + 1, more, 2 * size];
            image.resize(random.pick(&lengths), 0);
        }
        // Of another version by its length, and sound but for that if older.
        2 | 3 => {
            let size = random.pick(&[IMAGE_SIZE_1, IMAGE_SIZE_2, IMAGE_SIZE]);
            if size < image.len() {
                image = lowered(&image, size);
            } else {
                image.resize(size, 0);
            }
        }
        4 => image[random.below(3)] = random.pick(&[0, b'v', b'a', b'l', 255]),
        5 | 6 => {
            let version: u16 = random.pick(&[0, 1, 2, 3, 4, 256, 257, 258, 259, 65_535]);
            image[Layout::VERSION].copy_from_slice(&version.to_le_bytes());
        }
        7 => image[Layout::REPLICA] = random.pick(&[8, 9, 16, 128, 255]),
        8 => image[Layout::HOMES][random.below(8)] = random.pick(&[8, 9, 16, 128, 255]),
        9 => image[Layout::SPARE][random.below(2)] = random.pick(&[1, 128, 255]),
        // Another resident, another replica: sound or not.
        10 => image[Layout::REPLICA..Layout::HOMES.end][random.below(9)] = random.below(8) as u8,
        // Members who never were.
        11 | 12 => {
            let group = Fields::of(&image).group(expense).unwrap_or(expense % GROUPS);
            set_counter(&mut image, group, random.below(8), 0);
        }
        13..=15 if layout.has_rules() => {
            let any = random.below(GROUPS);
            let group = if random.chance(50) { present_group(random, &image) } else { any };
            set_rule(&mut image, group, random.pick(&[0, 1, 2, 3, 255, 256, 257, 258, 65_535]));
        }
        16 => random.fill(&mut image),
        17 => random.fill(&mut image[Layout::GROUPS_AT..]),
        18 => random.fill(&mut image[layout.expense_at(0)..]),
        19..=21 if layout.has_days() => {
            // Of an expense that is present or not: day 0 is right for both.
            let [wrong, sound] = [random.pick(&NO_DAYS), any_day(random)];
            set_day(&mut image, expense, random.pick(&[wrong, wrong, sound, 0, 1, LAST_DAY]));
        }
        19..=28 => {
            let share = 8 + 4 * random.below(USERS);
            let record = record_mut(&mut image, expense);
            match random.below(9) {
                0 => record[0] = random.pick(&[0, 1, 2, 3, 7, 8, 9, 128, 254, 255]),
                1 => record[1] = random.pick(&[0, 1, 7, 14, 15, 16, 17, 128, 254, 255]),
                2 => record[2] = random.pick(&[0, 1, 2, 3, 128, 255]),
                3 => record[3] ^= 1 << random.below(8),
                4 => record[3] = random.word() as u8,
                5 => record[share..share + 4].fill(0),
                6 => record[share..share + 4].copy_from_slice(&LIMIT.to_le_bytes()),
                7 => record[share + 3] ^= 128,
                _ => {
                    record.fill(0);
                    record[0] = NONE;
                    let at = 1 + random.below(record.len() - 1);
                    record[at] = random.pick(&[1, 128, 255]);
                }
            }
        }
        _ => {
            for _ in 0..1 + random.below(3) {
                let at = random.below(image.len());
                image[at] ^= 1 << random.below(8);
            }
        }
    }
    image
}
