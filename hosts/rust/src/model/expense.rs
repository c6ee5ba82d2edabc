//! An expense and its shares.

use crate::{RULE_USE, SMALL_SHARE, UNDATED, USERS};

/// Payer of no expense, and group of an expense in none.
pub const NONE: u8 = 255;
const TOTAL_LIMIT: u64 = 1_000_000_000;

/// An expense's bytes up to its shares. These are alike in all versions; what
/// comes after them is the day, in the versions that have one.
const UP_TO_SHARES: usize = 40;

pub fn bit(user: usize) -> u8 {
    1 << user
}

/// One bit for each user, bit u of value 2 to the power u.
pub fn bits(flags: [bool; USERS]) -> u8 {
    // The product brings flag u, at bit 8u, to bit 56 + u; no two terms meet.
    let word = u64::from_le_bytes(flags.map(u8::from));
    (word.wrapping_mul(0x0102_0408_1020_4080) >> 56) as u8
}

/// The eight shares as they are stored, two in a word.
#[derive(Clone, Copy, PartialEq)]
pub struct Shares([u64; USERS / 2]);

impl Shares {
    pub const ZERO: Shares = Shares([0; USERS / 2]);

    pub fn of(&self, user: usize) -> u32 {
        (self.0[user / 2] >> (32 * (user % 2))) as u32
    }

    pub fn set(&mut self, user: usize, share: u32) {
        let shift = 32 * (user % 2);
        let word = &mut self.0[user / 2];
        *word = *word & !(0xffff_ffff << shift) | u64::from(share) << shift;
    }

    /// The total, if it is within the limits.
    #[inline(always)]
    pub fn total(&self) -> Option<u64> {
        let [a, b, c, d] = self.0;
        // A share of 2^30 is too much by itself; below that, no half of the
        // sum reaches 2^32.
        if (a | b | c | d) & 0xc000_0000_c000_0000 != 0 {
            return None;
        }
        let sums = a + b + c + d;
        let total = (sums & 0xffff_ffff) + (sums >> 32);
        (1..=TOTAL_LIMIT).contains(&total).then_some(total)
    }

    /// Who has a positive share, for shares with a total within the limits.
    #[inline(always)]
    pub fn positive(&self) -> u8 {
        self.above(0)
    }

    /// Who has a share above so many cents, for shares with a total within the
    /// limits.
    #[inline(always)]
    fn above(&self, cents: u32) -> u8 {
        // Each share is below 2^31, so the sum sets bit 31 of a half when the
        // share there is above, and goes no further. The even users' bits come
        // to 0, 2, 4, 6, the odd ones' 31 places above their own.
        let up_to_bit_31 = 0x0000_0001_0000_0001 * u64::from(0x7fff_ffff - cents);
        let flags = |pair: usize| {
            ((self.0[pair] + up_to_bit_31) & 0x8000_0000_8000_0000) >> (31 - 2 * pair)
        };
        let all = flags(0) | flags(1) | flags(2) | flags(3);
        (all | all >> 31) as u8
    }
}

/// Eight bytes and the shares after them: of an expense or an action.
pub fn split(bytes: &[u8; UP_TO_SHARES]) -> ([u8; 8], Shares) {
    let (words, _) = bytes.as_chunks();
    let &[head, a, b, c, d] = words.try_into().unwrap();
    (head, Shares([a, b, c, d].map(u64::from_le_bytes)))
}

/// An expense's bytes: those of an action's form, and the day if there is one.
#[inline(always)]
fn take_apart(record: &[u8]) -> ([u8; 8], Shares, Option<u16>) {
    let (bytes, day) = record.split_first_chunk().unwrap();
    let (head, shares) = split(bytes);
    (head, shares, day.first_chunk().map(|&day| u16::from_le_bytes(day)))
}

/// A present expense.
#[derive(Clone, Copy)]
pub struct Expense {
    pub payer: u8,
    pub group: u8,
    pub deleted: u8,
    pub acknowledged: u8,
    pub version: u32,
    pub shares: Shares,
    /// Undated in a version without days.
    pub day: u16,
}

impl Expense {
    #[inline(always)]
    pub fn read(record: &[u8]) -> Self {
        let (head, shares, day) = take_apart(record);
        let [payer, group, deleted, acknowledged, version @ ..] = head;
        let version = u32::from_le_bytes(version);
        let day = day.unwrap_or(UNDATED);
        Expense { payer, group, deleted, acknowledged, version, shares, day }
    }

    pub fn write(&self, record: &mut [u8]) {
        record[..4].copy_from_slice(&[self.payer, self.group, self.deleted, self.acknowledged]);
        record[4..8].copy_from_slice(&self.version.to_le_bytes());
        for (bytes, word) in record[8..UP_TO_SHARES].chunks_exact_mut(8).zip(self.shares.0) {
            bytes.copy_from_slice(&word.to_le_bytes());
        }
        set_day(record, self.day);
    }

    pub fn payer(&self) -> usize {
        usize::from(self.payer)
    }

    pub fn group(&self) -> Option<usize> {
        (self.group != NONE).then_some(usize::from(self.group))
    }

    pub fn is_deleted(&self) -> bool {
        self.deleted != 0
    }

    pub fn has_acknowledged(&self, user: usize) -> bool {
        self.acknowledged & bit(user) != 0
    }

    /// The payer's positive share is acknowledged, nothing else.
    pub fn acknowledge_payer_only(&mut self) {
        self.acknowledged = self.shares.positive() & bit(self.payer());
    }

    /// Whose share, of those with a positive one, does not count as
    /// acknowledged in a group under this rule: those without a bit, under rule
    /// 2 only if the share is not small.
    #[inline(always)]
    pub fn waits_for(&self, positive: u8, rule: u16) -> u8 {
        let without_bit = positive & !self.acknowledged;
        if rule == RULE_USE && without_bit != 0 {
            without_bit & self.shares.above(SMALL_SHARE)
        } else {
            without_bit
        }
    }

    /// Counts in the balances of its group, which is under this rule.
    #[inline(always)]
    pub fn is_valid(&self, positive: u8, rule: u16) -> bool {
        !self.is_deleted() && self.waits_for(positive, rule) == 0
    }
}

pub fn is_present(record: &[u8]) -> bool {
    record[0] != NONE
}

/// A payer of 255 and nothing else, no day either.
#[inline(always)]
pub fn is_absent(record: &[u8]) -> bool {
    let (head, Shares([a, b, c, d]), day) = take_apart(record);
    let nothing = a | b | c | d | u64::from(day.unwrap_or(0)) == 0;
    u64::from_le_bytes(head) == u64::from(NONE) && nothing
}

/// What comes after the version.
#[inline(always)]
pub fn shares_and_day(record: &[u8]) -> (Shares, Option<u16>) {
    let (_, shares, day) = take_apart(record);
    (shares, day)
}

/// One share, read where it stands.
pub fn share(record: &[u8], user: usize) -> u32 {
    let (words, _) = record[8..UP_TO_SHARES].as_chunks();
    u32::from_le_bytes(words[user])
}

/// Where the version has a place for it.
pub fn set_day(record: &mut [u8], day: u16) {
    if let Some(bytes) = record[UP_TO_SHARES..].first_chunk_mut() {
        *bytes = day.to_le_bytes();
    }
}
