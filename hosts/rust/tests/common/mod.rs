//! Images and actions of all versions for the tests of the model, built byte by
//! byte, and a random history.
//!
//! Every call of an older version that is made here is also made on the image
//! raised to the next one: raising first or last must not matter.

#![allow(dead_code)]

pub mod slowly;

use val_host::model::{v1, v2, v3};
use val_host::random::Random;
use val_host::{Answer, Calls, Line, Totals};
use val_host::{BALANCES, IMAGE_SIZE, IMAGE_SIZE_1, IMAGE_SIZE_2, PAYMENTS};

pub const OWN_HOMES: [u8; 8] = [0, 1, 2, 3, 4, 5, 6, 7];
/// Users 0 to 3 at home on replica 0, the others on 1.
pub const TWO_HOMES: [u8; 8] = [0, 0, 0, 0, 1, 1, 1, 1];
pub const NONE: u8 = 255;
pub const TOP: u32 = u32::MAX;
pub const UNDATED: u16 = 65_535;

// ---- images -----------------------------------------------------------------

/// An image of any version; the length tells which.
#[derive(Clone, PartialEq, Debug)]
pub struct Image(pub Vec<u8>);

#[derive(Clone, Copy)]
pub struct Expense {
    pub payer: u8,
    pub group: u8,
    pub deleted: u8,
    pub acknowledged: u8,
    pub version: u32,
    pub shares: [u32; 8],
    /// Stands in version 3 only.
    pub day: u16,
}

impl Image {
    /// An empty image of version 1.
    pub fn new(van: u64, homes: [u8; 8]) -> Self {
        let mut bytes = vec![0xa5; IMAGE_SIZE_1];
        assert_eq!(v1::empty(&mut bytes, van, &homes), Answer::Ok);
        let image = Image(bytes);
        assert_eq!(image.raised(), Ok(Image::new_2(van, homes)));
        image
    }

    /// An empty image of version 2.
    pub fn new_2(van: u64, homes: [u8; 8]) -> Self {
        let mut bytes = vec![0xa5; IMAGE_SIZE_2];
        assert_eq!(v2::empty(&mut bytes, van, &homes), Answer::Ok);
        let image = Image(bytes);
        assert_eq!(image.raised(), Ok(Image::new_3(van, homes)));
        image
    }

    /// An empty image of version 3.
    pub fn new_3(van: u64, homes: [u8; 8]) -> Self {
        let mut bytes = vec![0xa5; IMAGE_SIZE];
        assert_eq!(v3::empty(&mut bytes, van, &homes), Answer::Ok);
        Image(bytes)
    }

    /// Raised by a call, to the length that it takes.
    fn raised_by(
        &self,
        raise: fn(&[u8], &mut [u8]) -> Answer,
        length: usize,
    ) -> Result<Image, u32> {
        let mut bytes = vec![0xa5; length];
        match raise(&self.0, &mut bytes) {
            Answer::Ok => Ok(Image(bytes)),
            refusal => {
                assert!(bytes.iter().all(|&byte| byte == 0xa5));
                Err(refusal.number())
            }
        }
    }

    /// Raised to the next version, or what raising refuses with. From version 1
    /// to version 3 is the same in two steps and at once.
    pub fn raised(&self) -> Result<Image, u32> {
        let to_3 = self.raised_by(v3::raise, IMAGE_SIZE);
        if self.version() == 2 {
            return to_3;
        }
        let to_2 = self.raised_by(v2::raise, IMAGE_SIZE_2);
        let in_two_steps = to_2.clone().and_then(|image| image.raised_by(v3::raise, IMAGE_SIZE));
        assert_eq!(in_two_steps, to_3);
        to_2
    }

    /// Raised to version 3, as far as need be.
    pub fn raised_to_3(&self) -> Image {
        match self.version() {
            3 => self.clone(),
            _ => self.raised().unwrap().raised_to_3(),
        }
    }

    pub fn version(&self) -> u16 {
        match self.0.len() {
            20_752 => 1,
            20_784 => 2,
            21_808 => 3,
            length => panic!("an image of {length} bytes"),
        }
    }

    fn is_old(&self) -> bool {
        self.version() < 3
    }

    fn calls(&self) -> &'static Calls {
        [&v1::CALLS, &v2::CALLS, &v3::CALLS][usize::from(self.version()) - 1]
    }

    pub fn group_at(&self, group: usize) -> usize {
        let size = if self.version() == 1 { 16 } else { 18 };
        16 + size * group
    }

    pub fn expense_at(&self, number: usize) -> usize {
        let first = if self.version() == 1 { 272 } else { 304 };
        let size = if self.is_old() { 40 } else { 42 };
        first + size * number
    }

    pub fn with(mut self, at: usize, byte: u8) -> Self {
        self.0[at] = byte;
        self
    }

    pub fn counter(mut self, group: usize, user: usize, counter: u16) -> Self {
        let at = self.group_at(group) + 2 * user;
        self.0[at..at + 2].copy_from_slice(&counter.to_le_bytes());
        self
    }

    pub fn counters(self, group: usize, counters: [u16; 8]) -> Self {
        (0..8).fold(self, |image, user| image.counter(group, user, counters[user]))
    }

    pub fn read_counter(&self, group: usize, user: usize) -> u16 {
        let at = self.group_at(group) + 2 * user;
        u16::from_le_bytes([self.0[at], self.0[at + 1]])
    }

    pub fn rule(mut self, group: usize, rule: u16) -> Self {
        assert!(self.version() >= 2);
        let at = self.group_at(group) + 16;
        self.0[at..at + 2].copy_from_slice(&rule.to_le_bytes());
        self
    }

    pub fn read_rule(&self, group: usize) -> u16 {
        assert!(self.version() >= 2);
        let at = self.group_at(group) + 16;
        u16::from_le_bytes([self.0[at], self.0[at + 1]])
    }

    /// The day of an expense, which need not be one.
    pub fn day(mut self, number: usize, day: u16) -> Self {
        assert_eq!(self.version(), 3);
        let at = self.expense_at(number) + 40;
        self.0[at..at + 2].copy_from_slice(&day.to_le_bytes());
        self
    }

    pub fn read_day(&self, number: usize) -> u16 {
        assert_eq!(self.version(), 3);
        let at = self.expense_at(number) + 40;
        u16::from_le_bytes([self.0[at], self.0[at + 1]])
    }

    /// The expense, without its day in a version that has none.
    pub fn expense(mut self, number: usize, expense: Expense) -> Self {
        let at = self.expense_at(number);
        let record = &mut self.0[at..at + 40];
        record[0] = expense.payer;
        record[1] = expense.group;
        record[2] = expense.deleted;
        record[3] = expense.acknowledged;
        record[4..8].copy_from_slice(&expense.version.to_le_bytes());
        for (user, share) in expense.shares.iter().enumerate() {
            record[8 + 4 * user..12 + 4 * user].copy_from_slice(&share.to_le_bytes());
        }
        if self.is_old() {
            self
        } else {
            self.day(number, expense.day)
        }
    }

    pub fn record(&self, number: usize) -> Expense {
        let r = &self.0[self.expense_at(number)..][..40];
        let word = |at: usize| u32::from_le_bytes(r[at..at + 4].try_into().unwrap());
        Expense {
            payer: r[0],
            group: r[1],
            deleted: r[2],
            acknowledged: r[3],
            version: word(4),
            shares: std::array::from_fn(|user| word(8 + 4 * user)),
            day: if self.is_old() { UNDATED } else { self.read_day(number) },
        }
    }

    /// Acts, and sees that a refusal changes nothing.
    pub fn act(&mut self, action: &[u8]) -> u32 {
        let before = self.clone();
        let answer = (self.calls().act)(&mut self.0, action);
        self.changed_rightly(&before, answer);
        if self.is_old() {
            let renewed = renewed(self.version(), action);
            let raised = before.raised().map(|mut raised| {
                let answer = raised.act(&renewed);
                if raised.version() == 3 && answer == 0 && [4, 7].contains(&action[0]) {
                    // What the older version says is undated.
                    let expense = u16::from_le_bytes([action[4], action[5]]).into();
                    raised = raised.day(expense, UNDATED);
                }
                (answer, raised)
            });
            self.is_raised(raised, answer);
        }
        answer.number()
    }

    pub fn merge(&mut self, other: &Image) -> u32 {
        let before = self.clone();
        let answer = (self.calls().merge)(&mut self.0, &other.0);
        self.changed_rightly(&before, answer);
        if self.is_old() {
            let raised = before.raised().and_then(|mut own| {
                let other = other.raised().map_err(|refusal| 40 + refusal)?;
                Ok((own.merge(&other), own))
            });
            self.is_raised(raised, answer);
        }
        answer.number()
    }

    /// A refusal changes nothing, and no change makes an image unsound.
    fn changed_rightly(&self, before: &Image, answer: Answer) {
        assert!(answer.is_ok() || self == before);
        assert_eq!(self.check(), before.check(), "the check has another answer now");
    }

    /// The same came of the call on what was raised before: its answer and its
    /// image, or what raising was refused with.
    fn is_raised(&self, raised: Result<(u32, Image), u32>, answer: Answer) {
        match raised {
            Ok((number, image)) => {
                assert_eq!((answer.number(), self.raised()), (number, Ok(image)))
            }
            Err(refusal) => assert_eq!(answer.number(), refusal),
        }
    }

    pub fn statement(&self, group: u64) -> (Totals, [Line; 8]) {
        let mut lines = [Line::default(); 8];
        let totals = (self.calls().statement)(&self.0, group, &mut lines);
        if self.is_old() {
            if let Ok(raised) = self.raised() {
                assert_eq!(raised.statement(group), (totals, lines));
            }
        }
        (totals, lines)
    }

    /// Of version 3: each user's raw from a month's valid expenses.
    pub fn month(&self, group: u64, month: u64) -> [i64; 8] {
        // No sum, so that a number left unwritten would show.
        let mut raws = [i64::MAX; 8];
        assert_eq!(v3::month(&self.0, group, month, &mut raws), Answer::Ok);
        assert_eq!(raws.iter().sum::<i64>(), 0);
        raws
    }

    /// Of version 3: all groups' balances, each group's those of its statement.
    pub fn balances(&self) -> [[i64; 8]; 16] {
        // No sum, so that a number left unwritten would show.
        let mut balances = [i64::MAX; BALANCES];
        assert_eq!(v3::balances(&self.0, &mut balances), Answer::Ok);
        let rows = std::array::from_fn(|group| balances[8 * group..][..8].try_into().unwrap());
        for (group, row) in (0..).zip(&rows) {
            // Where the group is absent, the lines are left as they were: zeros.
            assert_eq!(self.statement(group).1.map(|line| line.balance), *row);
        }
        rows
    }

    /// The table of who pays whom, payer by receiver.
    pub fn payments(&self, group: u64) -> [[u64; 8]; 8] {
        // No sum, so that a number left unwritten would show.
        let mut cents = [u64::MAX; PAYMENTS];
        assert_eq!((self.calls().payments)(&self.0, group, &mut cents), Answer::Ok);
        let table = std::array::from_fn(|payer| cents[8 * payer..][..8].try_into().unwrap());
        if self.is_old() {
            assert_eq!(self.raised().unwrap().payments(group), table);
        }
        table
    }

    /// The payments alone: payer, receiver and sum.
    pub fn list(&self, group: u64) -> Vec<(usize, usize, u64)> {
        let table = self.payments(group);
        let pairs = (0..64).map(|pair| (pair / 8, pair % 8));
        pairs.map(|(i, j)| (i, j, table[i][j])).filter(|&(_, _, sum)| sum > 0).collect()
    }

    pub fn check(&self) -> u32 {
        let answer = (self.calls().check)(&self.0).number();
        if self.is_old() {
            let raised = self.raised().map_or_else(|refusal| refusal, |raised| raised.check());
            assert_eq!(answer, raised, "raising, and the check of what is raised");
        }
        answer
    }

    pub fn sound(self) -> Self {
        assert_eq!(self.check(), 0);
        self
    }
}

/// The bytes of version 3 with what an image of version 2 has, sound or not.
pub fn lifted(old: &[u8]) -> Vec<u8> {
    let mut bytes = old[..304].to_vec();
    if bytes[3..5] == [2, 0] {
        bytes[3] = 3;
    }
    for record in old[304..].chunks(40) {
        bytes.extend(record);
        bytes.extend(if record[0] == NONE { [0, 0] } else { [255, 255] });
    }
    bytes
}

pub const PLAIN: Expense = Expense {
    payer: 0,
    group: NONE,
    deleted: 0,
    acknowledged: 1,
    version: 0,
    shares: [300, 600, 0, 0, 0, 0, 0, 0],
    day: UNDATED,
};

pub fn shares(of: &[(usize, u32)]) -> [u32; 8] {
    let mut shares = [0; 8];
    of.iter().for_each(|&(user, share)| shares[user] = share);
    shares
}

// ---- actions ----------------------------------------------------------------

pub fn record(
    kind: u8,
    actor: u8,
    other: u8,
    group: u8,
    expense: u16,
    shares: [u32; 8],
) -> [u8; 40] {
    let mut bytes = [0; 40];
    bytes[..4].copy_from_slice(&[kind, actor, other, group]);
    bytes[4..6].copy_from_slice(&expense.to_le_bytes());
    for (user, share) in shares.iter().enumerate() {
        bytes[8 + 4 * user..12 + 4 * user].copy_from_slice(&share.to_le_bytes());
    }
    bytes
}

pub const NO_SHARES: [u32; 8] = [0; 8];

pub fn found(actor: u8, group: u8) -> [u8; 40] {
    record(1, actor, 0, group, 0, NO_SHARES)
}
/// A founding of version 2 or 3.
pub fn found_under(rule: u16, actor: u8, group: u8) -> [u8; 40] {
    naming(rule, found(actor, group))
}
/// The record with a rule or a day in bytes 6 and 7.
pub fn naming(rule_or_day: u16, mut bytes: [u8; 40]) -> [u8; 40] {
    bytes[6..8].copy_from_slice(&rule_or_day.to_le_bytes());
    bytes
}
pub fn add(actor: u8, other: u8, group: u8) -> [u8; 40] {
    record(2, actor, other, group, 0, NO_SHARES)
}
pub fn leave(actor: u8, group: u8) -> [u8; 40] {
    record(3, actor, 0, group, 0, NO_SHARES)
}
pub fn enter(actor: u8, expense: u16, shares: [u32; 8]) -> [u8; 40] {
    record(4, actor, 0, 0, expense, shares)
}
pub fn put_in(actor: u8, group: u8, expense: u16) -> [u8; 40] {
    record(5, actor, 0, group, expense, NO_SHARES)
}
pub fn take_out(actor: u8, group: u8, expense: u16) -> [u8; 40] {
    record(6, actor, 0, group, expense, NO_SHARES)
}
pub fn change(actor: u8, expense: u16, shares: [u32; 8]) -> [u8; 40] {
    record(7, actor, 0, 0, expense, shares)
}
pub fn delete(actor: u8, expense: u16) -> [u8; 40] {
    record(8, actor, 0, 0, expense, NO_SHARES)
}
pub fn acknowledge(actor: u8, expense: u16) -> [u8; 40] {
    record(9, actor, 0, 0, expense, NO_SHARES)
}
pub fn absorb(actor: u8, other: u8, expense: u16) -> [u8; 40] {
    record(10, actor, other, 0, expense, NO_SHARES)
}

/// The record of the next version that says the same. In version 2 a founding
/// names rule 1 where version 1 has zero; in version 3 kinds 4 and 7 name day 0
/// where version 2 has zero. Where the older version allows nothing, they name
/// what is neither.
fn renewed(version: u16, action: &[u8]) -> Vec<u8> {
    let mut action = action.to_vec();
    if let &[kind, .., low, high] = action.get(..8).unwrap_or(&[]) {
        let is_zero = (low, high) == (0, 0);
        match (version, kind) {
            (1, 1) => action[6..8].copy_from_slice(&[u8::from(is_zero), 0]),
            (2, 4 | 7) if !is_zero => action[6..8].fill(255),
            _ => {}
        }
    }
    action
}

// ---- a random history -----------------------------------------------------------------

/// Rows and columns clear each balance, by few payments.
fn assert_cleared(table: &[[u64; 8]; 8], balances: [i64; 8]) {
    for (user, balance) in balances.iter().enumerate() {
        let paid: u64 = table[user].iter().sum();
        let received: u64 = table.iter().map(|row| row[user]).sum();
        assert_eq!((paid, received), (-balance.min(&0) as u64, *balance.max(&0) as u64));
    }
    let not_zero = balances.iter().filter(|&&balance| balance != 0).count();
    let payments = table.as_flattened().iter().filter(|&&sum| sum > 0).count();
    assert!(payments <= not_zero.saturating_sub(1));
}

/// Random steps and joins from empty images on: the sums of every statement and
/// list, and that all stand alike when all have heard all.
pub fn random_history(new: fn(u64, [u8; 8]) -> Image) {
    let mut random = Random::new(7);
    let mut accepted = [0; 11];
    for _ in 0..30 {
        let homes: [u8; 8] = std::array::from_fn(|_| random.below(3) as u8);
        let mut vans: Vec<Image> = (0..8).map(|van| new(van, homes)).collect();
        let mut saved = Vec::new();
        for _ in 0..800 {
            let van = random.below(3);
            if random.chance(20) {
                let other = if random.chance(30) && !saved.is_empty() {
                    Image::clone(&saved[random.below(saved.len())])
                } else {
                    vans[random.below(3)].clone()
                };
                assert_eq!(vans[van].merge(&other), 0, "a merge within a history");
            } else {
                // Few users, groups and expenses, so that many actions meet, and
                // more of the kinds that need others to have come before.
                let kind = random.pick(&[1, 2, 2, 3, 4, 5, 5, 6, 7, 8, 9, 9, 10, 10, 10]);
                if [3, 7, 8].contains(&kind) && random.chance(85) {
                    continue;
                }
                let residents: Vec<u8> =
                    (0..4u8).filter(|&user| usize::from(homes[user as usize]) == van).collect();
                if residents.is_empty() {
                    continue;
                }
                let actor = random.pick(&residents);
                let other = if [2, 10].contains(&kind) { random.below(4) as u8 } else { 0 };
                let group =
                    if [1, 2, 3, 5, 6].contains(&kind) { random.below(3) as u8 * 2 } else { 0 };
                let owner = if kind == 9 { random.below(3) } else { van };
                let expense = if kind >= 4 { (64 * owner + random.below(5)) as u16 } else { 0 };
                let shares = if [4, 7].contains(&kind) {
                    // Small ones and others, in groups of both rules.
                    let mut share = || random.pick(&[3, 4, 500, 501, 600]);
                    let (first, second) = (share(), share());
                    shares(&[(random.below(4), first), (random.below(4), second)])
                } else {
                    NO_SHARES
                };
                let mut action = record(kind, actor, other, group, expense, shares);
                match (kind, vans[van].version()) {
                    // Groups 0 and 4 under rule 2, group 2 under rule 1.
                    (1, 2 | 3) => {
                        action = found_under(if group == 2 { 1 } else { 2 }, actor, group)
                    }
                    // The ends of January and February 2000, and days beside them.
                    (4 | 7, 3) => action = naming(random.pick(&[30, 31, 59, 60]), action),
                    _ => {}
                }
                if vans[van].act(&action) == 0 {
                    accepted[kind as usize] += 1;
                }
            }
            if random.chance(5) {
                saved.push(vans[van].clone());
            }
            if !random.chance(40) {
                continue;
            }
            if vans[van].version() == 3 {
                vans[van].balances();
            }
            for group in 0..6 {
                let (totals, lines) = vans[van].statement(group);
                let sum: i64 = lines.iter().map(|line| line.balance).sum();
                let expected = if totals.members > 0 { 0 } else { -(totals.gifts as i64) };
                assert_eq!(sum, expected);
                assert_eq!(lines.iter().map(|line| line.raw).sum::<i64>(), 0);
                if totals.members > 0 {
                    assert_cleared(&vans[van].payments(group), lines.map(|line| line.balance));
                }
                if vans[van].version() == 3 && totals.answer.is_ok() {
                    // All are dated, in the first three months.
                    let months = [0, 1, 2].map(|month| vans[van].month(group, month));
                    let sums =
                        std::array::from_fn(|user| months.map(|raws| raws[user]).iter().sum());
                    assert_eq!(lines.map(|line| line.raw), sums);
                }
            }
        }
        // When all have heard all, all stand alike.
        for van in 1..8 {
            let other = vans[van].clone();
            assert_eq!(vans[0].merge(&other), 0);
        }
        let all = vans[0].clone();
        for van in &mut vans[1..] {
            assert_eq!(van.merge(&all), 0);
            assert_eq!(van.0[16..], all.0[16..]);
        }
    }
    assert!(accepted[1..].iter().all(|&count| count > 0), "{accepted:?}");
}
