//! Runs the library and the model on the same random calls and compares
//! everything: answers, every byte, line and number lent, every figure
//! returned. A list of who pays whom, the months and all groups' balances are held
//! against the library's own statements too. Replicas that still hold version 1 or 2 are
//! served by the model until they are raised, which both do.
//!
//! `differential [--self] [SEED [CALLS]]` prints how often each answer came
//! up for each call; `--self` compares the model with itself.

mod all_groups;
mod lent;
mod older;
mod reached;
mod report;
mod shown;
mod turns;

use std::marker::PhantomData;
use std::process::exit;
use std::sync::atomic::{AtomicU64, Ordering::Relaxed};

use lent::{lines, same_numbers, Lent, BESIDE, LINES, MONTH_ROOM, ROOM, WORDS};
use reached::*;
use shown::{rule, without_dated};
use val_host::random::Random;
use val_host::{Answer, Ledger, Line, Model, Totals};
use val_host::{ACTION_SIZE, MONTHS, PAYMENTS, RULE_EQUAL, USERS};

const SEED: u64 = 1;
const CALLS: u64 = 1_000_000;

/// Where a run stands, for the report of a difference or a panic.
static AT_SEED: AtomicU64 = AtomicU64::new(0);
static AT_CALL: AtomicU64 = AtomicU64::new(0);

fn differ(what: &str) -> ! {
    eprintln!("seed {} call {}: {what}", AT_SEED.load(Relaxed), AT_CALL.load(Relaxed));
    exit(1)
}

struct Comparison<L> {
    random: Random,
    limit: u64,
    calls: u64,
    counts: [[u64; 46]; SORTS],
    reached: Reached,
    left: Lent,
    right: Lent,
    second: Lent,
    library: PhantomData<L>,
}

impl<L: Ledger> Comparison<L> {
    fn new(seed: u64, limit: u64) -> Self {
        AT_SEED.store(seed, Relaxed);
        Comparison {
            random: Random::new(seed),
            limit,
            calls: 0,
            counts: [[0; 46]; SORTS],
            reached: Reached::default(),
            left: Lent::new(),
            right: Lent::new(),
            second: Lent::new(),
            library: PhantomData,
        }
    }

    fn done(&self) -> bool {
        self.calls >= self.limit
    }

    /// Lends both sides the image, and the library a copy of what it may only
    /// read besides.
    fn begin(&mut self, image: &[u8], second: &[u8]) {
        self.calls += 1;
        AT_CALL.store(self.calls, Relaxed);
        let shifts = self.random.word();
        self.left.load((shifts & 15) as usize, image);
        self.right.load((shifts >> 4 & 15) as usize, image);
        self.second.load((shifts >> 8 & 15) as usize, second);
    }

    fn same_answer(&mut self, sort: usize, left: Answer, right: Answer) {
        if left != right {
            let (left, right) = (left.number(), right.number());
            differ(&format!("{}: answer {left}, not {right}", sort_name(sort)));
        }
        self.counts[sort][left.number() as usize] += 1;
        self.note(sort, left);
    }

    /// Both images as they must be after a call, and the image they agree on.
    fn end(&mut self, sort: usize, image: &mut [u8], second: &[u8], written: bool) {
        let name = sort_name(sort);
        if written {
            image.copy_from_slice(self.right.content());
        }
        self.left.must_be(image, &name);
        self.right.must_be(image, &format!("{name}, model"));
        self.second.must_be(second, &format!("{name}, second buffer"));
    }

    fn read_only_end(&mut self, sort: usize, image: &[u8]) {
        let name = sort_name(sort);
        self.left.must_be(image, &name);
        self.right.must_be(image, &format!("{name}, model"));
    }

    fn check(&mut self, image: &[u8]) -> Answer {
        self.begin(image, &[]);
        let left = L::check(self.left.content());
        let right = Model::check(self.right.content());
        self.same_answer(CHECK, left, right);
        self.read_only_end(CHECK, image);
        left
    }

    fn empty(&mut self, image: &mut [u8], van: u64, homes: &[u8; USERS]) -> Answer {
        self.begin(image, homes);
        let left = L::empty(self.left.lend(), van, self.second.content().try_into().unwrap());
        let right = Model::empty(self.right.lend(), van, homes);
        self.same_answer(EMPTY, left, right);
        self.end(EMPTY, image, homes, left.is_ok());
        left
    }

    fn act(&mut self, image: &mut [u8], action: &[u8]) -> Answer {
        let sort = match action {
            [kind @ 1..=10, ..] if action.len() == ACTION_SIZE => usize::from(*kind),
            _ => 0,
        };
        self.begin(image, action);
        let left = L::act(self.left.lend(), self.second.content());
        let right = Model::act(self.right.lend(), action);
        self.same_answer(sort, left, right);
        self.note_action(sort, image, action, left);
        self.end(sort, image, action, left.is_ok());
        if sort == 1 && left.is_ok() {
            self.reached.founded[usize::from(rule(image, action[3].into()) != RULE_EQUAL)] += 1;
        }
        left
    }

    fn merge(&mut self, own: &mut [u8], other: &[u8]) -> Answer {
        self.begin(own, other);
        let left = L::merge(self.left.lend(), self.second.content());
        let right = Model::merge(self.right.lend(), other);
        self.same_answer(MERGE, left, right);
        self.end(MERGE, own, other, left.is_ok());
        left
    }

    fn statement(&mut self, image: &[u8], group: u64, count: usize) -> Answer {
        self.begin(image, &[]);
        let pattern: [u64; LINES * WORDS] = std::array::from_fn(|_| self.random.word());
        let (mut left_words, mut right_words) = (pattern, pattern);
        let left = L::statement(self.left.content(), group, lines(&mut left_words, count));
        let right = Model::statement(self.right.content(), group, lines(&mut right_words, count));
        self.same_answer(STATEMENT, left.answer, right.answer);
        self.read_only_end(STATEMENT, image);
        if left != right {
            differ(&format!("statement: {left:?}, not {right:?}"));
        }
        if !left.answer.is_ok() {
            let zeros = Totals { answer: left.answer, members: 0, expenses: 0, gifts: 0 };
            if left != zeros {
                differ(&format!("statement: figures with a refusal, {left:?}"));
            }
            if left_words != pattern || right_words != pattern {
                differ("statement: a refusal wrote a line");
            }
            return left.answer;
        }
        let beyond = USERS * WORDS;
        if left_words[beyond..] != pattern[beyond..] || right_words[beyond..] != pattern[beyond..] {
            differ("statement: a line beyond the eighth was written");
        }
        let left_lines = lines(&mut left_words, USERS);
        let right_lines = lines(&mut right_words, USERS);
        for (user, (left, right)) in left_lines.iter().zip(right_lines).enumerate() {
            if left != right {
                differ(&format!("statement, user {user}: {left:?}, not {right:?}"));
            }
        }
        let sum: i64 = left_lines.iter().map(|line| line.balance).sum();
        let expected = if left.members > 0 { 0 } else { -(left.gifts as i64) };
        if sum != expected {
            differ(&format!("statement: the balances sum to {sum}, not {expected}"));
        }
        self.note_statement(group, left, left_lines);
        left.answer
    }

    fn payments(&mut self, image: &[u8], group: u64, count: usize) {
        self.begin(image, &[]);
        let pattern: [u64; ROOM] = std::array::from_fn(|_| self.random.word());
        let (mut left, mut right) = (pattern, pattern);
        let lent = BESIDE..BESIDE + count;
        let answer = L::payments(self.left.content(), group, &mut left[lent.clone()]);
        let expected = Model::payments(self.right.content(), group, &mut right[lent.clone()]);
        self.same_answer(PAYMENT_LIST, answer, expected);
        self.read_only_end(PAYMENT_LIST, image);
        let written = if answer.is_ok() { lent } else { 0..0 };
        same_numbers("payments", [&left, &right, &pattern], &written);
        self.suits_statement(group, count, answer, &left[written]);
    }

    /// The answer and the list against the library's own statement of the same
    /// image; the model has no part in it.
    fn suits_statement(&mut self, group: u64, count: usize, answer: Answer, cents: &[u64]) {
        let mut lines = [Line::default(); USERS];
        let totals = L::statement(self.left.content(), group, &mut lines);
        let expected = match totals.answer {
            Answer::Ok if count != PAYMENTS => Answer::BadLines,
            Answer::Ok if totals.members == 0 => Answer::GroupEmpty,
            answer => answer,
        };
        if answer != expected {
            let (answer, expected) = (answer.number(), expected.number());
            differ(&format!("payments: answer {answer}, by the statement {expected}"));
        }
        if answer.is_ok() {
            must_clear(cents, lines.map(|line| line.balance));
            self.note_statement(group, totals, &lines);
        }
    }

    fn month(&mut self, image: &[u8], group: u64, month: u64, count: usize) {
        self.begin(image, &[]);
        let pattern: [i64; MONTH_ROOM] = std::array::from_fn(|_| self.random.word() as i64);
        let (mut left, mut right) = (pattern, pattern);
        let lent = BESIDE..BESIDE + count;
        let answer = L::month(self.left.content(), group, month, &mut left[lent.clone()]);
        let expected = Model::month(self.right.content(), group, month, &mut right[lent.clone()]);
        self.same_answer(MONTH, answer, expected);
        self.read_only_end(MONTH, image);
        let written = if answer.is_ok() { lent } else { 0..0 };
        same_numbers("month", [&left, &right, &pattern], &written);
        let sum: i64 = left[written].iter().sum();
        if sum != 0 && answer.is_ok() {
            differ(&format!("month: the raws sum to {sum}"));
        }
        self.month_suits_statement(group, month, count, answer);
    }

    /// The answer against the library's own statement of the same image; and now
    /// and then all months together with what is undated.
    fn month_suits_statement(&mut self, group: u64, month: u64, count: usize, answer: Answer) {
        let image = self.left.content();
        let mut lines = [Line::default(); USERS];
        let expected = match L::statement(image, group, &mut lines).answer {
            Answer::Ok if count != USERS => Answer::BadLines,
            Answer::Ok if month >= MONTHS => Answer::BadMonth,
            answer => answer,
        };
        if answer != expected {
            let (answer, expected) = (answer.number(), expected.number());
            differ(&format!("month: answer {answer}, by the statement {expected}"));
        }
        if !answer.is_ok() {
            return;
        }
        if self.random.below(800) == 0 {
            let mut rest = [Line::default(); USERS];
            L::statement(&without_dated(image, group as usize), group, &mut rest);
            let mut sums = rest.map(|line| line.raw);
            for month in 0..MONTHS {
                let mut raws = [0; USERS];
                L::month(image, group, month, &mut raws);
                sums.iter_mut().zip(raws).for_each(|(sum, raw)| *sum += raw);
            }
            if sums != lines.map(|line| line.raw) {
                differ("month: all months and what is undated make another statement");
            }
            self.reached.days.all_months += 1;
        }
        self.note_month(group, month);
    }

    fn lookup(&mut self, image: &[u8], expense: u64) {
        self.begin(image, &[]);
        let part = |image: &[u8], part: &[u8]| {
            (part.as_ptr() as usize - image.as_ptr() as usize, part.len())
        };
        let left = part(self.left.content(), L::lookup(self.left.content(), expense));
        let right = part(self.right.content(), Model::lookup(self.right.content(), expense));
        if left != right {
            differ(&format!("lookup: place and length {left:?}, not {right:?}"));
        }
        self.counts[LOOKUP][usize::from(left.1 == 0)] += 1;
        self.note(LOOKUP, Model::check(image));
        self.read_only_end(LOOKUP, image);
    }

    fn raise(&mut self, old: &[u8], image: &mut [u8]) -> Answer {
        self.begin(image, old);
        let left = L::raise(self.second.content(), self.left.lend());
        let right = Model::raise(old, self.right.lend());
        self.same_answer(RAISE, left, right);
        self.end(RAISE, image, old, left.is_ok());
        left
    }
}

/// Rows and columns clear each balance exactly, by at most k - 1 payments for
/// k balances that are not zero. From payer to payer the receivers never go
/// down in number, which leaves one such list only.
fn must_clear(cents: &[u64], balances: [i64; USERS]) {
    for (user, balance) in balances.into_iter().enumerate() {
        let paid: u64 = cents[USERS * user..][..USERS].iter().sum();
        let received: u64 = cents.iter().skip(user).step_by(USERS).sum();
        if (paid, received) != (balance.min(0).unsigned_abs(), balance.max(0).unsigned_abs()) {
            differ(&format!("payments: user {user} with {balance} pays {paid}, gets {received}"));
        }
    }
    let not_zero = balances.iter().filter(|&&balance| balance != 0).count();
    let paid = (0..PAYMENTS).filter(|&pair| cents[pair] > 0);
    let receivers: Vec<usize> = paid.map(|pair| pair % USERS).collect();
    if receivers.len() > not_zero.saturating_sub(1) || !receivers.is_sorted() {
        differ(&format!("payments: to {receivers:?} for balances {balances:?}"));
    }
}

fn compare<L: Ledger>(seed: u64, calls: u64) {
    let mut comparison = Comparison::<L>::new(seed, calls);
    comparison.run();
    comparison.histogram();
    println!("{}", comparison.summary());
}

fn usage() -> ! {
    eprintln!("usage: differential [--self] [SEED [CALLS]]");
    exit(2)
}

fn main() {
    std::panic::set_hook(Box::new(|panic| differ(&panic.to_string())));
    let mut with_itself = false;
    let mut numbers = Vec::new();
    for argument in std::env::args().skip(1) {
        if argument == "--self" {
            with_itself = true;
        } else {
            numbers.push(argument.parse().unwrap_or_else(|_| usage()));
        }
    }
    let (seed, calls) = match numbers[..] {
        [] => (SEED, CALLS),
        [seed] => (seed, CALLS),
        [seed, calls] => (seed, calls),
        _ => usage(),
    };
    if with_itself {
        compare::<Model>(seed, calls);
        return;
    }
    #[cfg(feature = "linked")]
    compare::<val_host::Library>(seed, calls);
    #[cfg(not(feature = "linked"))]
    {
        let _ = compare::<Model>;
        eprintln!("built without the library: add --features linked, or run with --self");
        exit(2)
    }
}
