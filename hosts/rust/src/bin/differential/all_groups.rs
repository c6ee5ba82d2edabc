//! All groups' balances, against the model and against each group's own statement.

use val_host::fields::Fields;
use val_host::{Answer, Ledger, Line, Model, Totals};
use val_host::{BALANCES, GROUPS, RULE_EQUAL, RULE_USE, USERS};

use crate::lent::{same_numbers, BALANCES_ROOM, BESIDE};
use crate::reached::BALANCE_TABLE;
use crate::shown::equal_parts;
use crate::{differ, Comparison};

/// What an image may have whose balances are asked for.
pub const IMAGE_ROWS: [&str; 10] = [
    "no crew",
    "one crew",
    "sixteen crews",
    "an absent crew between two",
    "crews of both rules",
    "gifts in several crews",
    "gifts by use, other than equal parts",
    "gifts and no member",
    "no member and no gift",
    "a cost valid by small shares alone",
];

/// A group's own statement.
type Statement = (Totals, [Line; USERS]);

impl<L: Ledger> Comparison<L> {
    pub fn balances(&mut self, image: &[u8], count: usize) {
        self.begin(image, &[]);
        let pattern: [i64; BALANCES_ROOM] = std::array::from_fn(|_| self.random.word() as i64);
        let (mut left, mut right) = (pattern, pattern);
        let lent = BESIDE..BESIDE + count;
        let answer = L::balances(self.left.content(), &mut left[lent.clone()]);
        let expected = Model::balances(self.right.content(), &mut right[lent.clone()]);
        self.same_answer(BALANCE_TABLE, answer, expected);
        self.read_only_end(BALANCE_TABLE, image);
        let written = if answer.is_ok() { lent } else { 0..0 };
        same_numbers("balances", [&left, &right, &pattern], &written);
        self.balances_suit_statements(count, answer, &left[written]);
    }

    /// The answer and the numbers against the library's own statements of the
    /// same image; the model has no part in it.
    fn balances_suit_statements(&mut self, count: usize, answer: Answer, balances: &[i64]) {
        let statements: [Statement; GROUPS] = std::array::from_fn(|group| {
            let mut lines = [Line::default(); USERS];
            (L::statement(self.left.content(), group as u64, &mut lines), lines)
        });
        let expected = match statements[0].0.answer {
            Answer::Ok | Answer::GroupAbsent if count != BALANCES => Answer::BadLines,
            Answer::Ok | Answer::GroupAbsent => Answer::Ok,
            refusal => refusal,
        };
        if answer != expected {
            let (answer, expected) = (answer.number(), expected.number());
            differ(&format!("balances: answer {answer}, by the statements {expected}"));
        }
        if !answer.is_ok() {
            return;
        }
        for (group, (row, (totals, lines))) in balances.chunks(USERS).zip(&statements).enumerate() {
            // Where the group is absent the lines were left as they were, zeros.
            let stated = lines.map(|line| line.balance);
            let known = [Answer::Ok, Answer::GroupAbsent].contains(&totals.answer);
            if !known || row != stated {
                differ(&format!("balances: group {group} has {row:?}, its statement {stated:?}"));
            }
        }
        self.note_all_groups(&statements);
    }

    fn note_all_groups(&mut self, statements: &[Statement; GROUPS]) {
        let fields = Fields::of(self.left.content());
        let present: Vec<usize> =
            (0..GROUPS).filter(|&group| statements[group].0.answer.is_ok()).collect();
        let under = |rule: u16| present.iter().any(|&group| fields.rule(group) == rule);
        let members = |group: usize| statements[group].0.members;
        let gifts = |group: usize| statements[group].0.gifts;
        let by_use = |group: usize| {
            let (totals, lines) = &statements[group];
            totals.members > 0 && lines.map(|line| line.part)[..] != equal_parts(*totals, lines)
        };
        let any = |test: &dyn Fn(usize) -> bool| present.iter().any(|&group| test(group));
        let meets = [
            present.is_empty(),
            present.len() == 1,
            present.len() == GROUPS,
            present.windows(2).any(|pair| pair[1] > pair[0] + 1),
            under(RULE_EQUAL) && under(RULE_USE),
            present.iter().filter(|&&group| gifts(group) > 0 && members(group) > 0).count() > 1,
            any(&by_use),
            any(&|group| members(group) == 0 && gifts(group) > 0),
            any(&|group| members(group) == 0 && gifts(group) == 0),
            any(&|group| fields.needs_small_shares(group)),
        ];
        let counts = self.reached.all_groups.iter_mut();
        counts.zip(meets).for_each(|(count, meets)| *count += u64::from(meets));
    }
}
