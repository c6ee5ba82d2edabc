//! How often each answer came up for each call, and what else did.

use std::fmt::{Display, Write};
use std::ops::RangeInclusive;
use std::sync::atomic::Ordering::Relaxed;

use val_host::Ledger;

use crate::all_groups::IMAGE_ROWS;
use crate::reached::*;
use crate::{Comparison, AT_SEED};

impl<L: Ledger> Comparison<L> {
    pub fn histogram(&self) {
        for sort in 0..SORTS {
            let answers = self.counts[sort].iter().enumerate();
            print_row(&sort_name(sort), answers.map(|(answer, &count)| (answer, count)));
        }
        let Reached { old_length, wrong_rule, wrong_rule_of, .. } = &self.reached;
        let Reached { founded, unlike_rules, shared_out, raise_lengths, .. } = &self.reached;
        print_row("1 or 41 for version 1's length", by_call(&old_length[0]));
        print_row("1 or 41 for version 2's length", by_call(&old_length[1]));
        print_row("4 or 44 for a rule", by_call(wrong_rule));
        let crews = ["a present crew", "an absent one"];
        print_row("4 or 44 for the rule of", crews.into_iter().zip(*wrong_rule_of));
        print_row("31 for unlike rules", [("merge", *unlike_rules)]);
        print_row("founded under", ["rule 1", "rule 2"].into_iter().zip(*founded));
        let parts = ["rule 1", "rule 2, same parts", "rule 2, other parts"];
        print_row("gifts shared out by", parts.into_iter().zip(*shared_out));
        let lengths = ["old image", "buffer", "both"];
        print_row("1 of raise for", lengths.into_iter().zip(*raise_lengths));
        let versions = || ["version 1", "version 2"].into_iter();
        print_row("0 of raise for", versions().zip(self.reached.raised));
        print_row("2 to 5 of raise for", versions().zip(self.reached.not_raised));
        print_row("raised in two steps", [("version 1", self.reached.in_two_steps)]);
        print_row("5 for a stranger's share", [("kind 10", self.reached.strangers)]);
        self.small_shares();
        self.days();
        let images = IMAGE_ROWS.into_iter().zip(self.reached.all_groups);
        print_row("balances of an image with", images);
    }

    fn days(&self) {
        let Reached { wrong_day, wrong_day_of, unlike_days, .. } = &self.reached;
        let Days { no_day, undated, stated, all_months } = &self.reached.days;
        print_row("5 or 45 for a day", by_call(wrong_day));
        let costs = ["a present cost", "an absent one"];
        print_row("5 or 45 for the day of", costs.into_iter().zip(*wrong_day_of));
        print_row("6 for a day", ["kind 4", "kind 7"].into_iter().zip(*no_day));
        print_row("31 for unlike days alone", [("merge", *unlike_days)]);
        print_row("0 on an undated cost", by_call(undated));
        print_row("months with a cost", MONTH_ROWS.into_iter().zip(*stated));
        print_row("all months against a statement", [("crews", *all_months)]);
    }

    fn small_shares(&self) {
        let SmallShares { stated, left, pending, acknowledged, absorbed } = &self.reached.small;
        let costs = ["valid by small shares alone", "by one of 500", "waiting for one of 501"];
        print_row("rule 2, statements and lists with a cost", costs.into_iter().zip(*stated));
        let left = left.iter().map(|((answer, by_rule_1), &count)| {
            (format!("{answer} (by rule 1 {by_rule_1})"), count)
        });
        print_row("rule 2, kind 3 by small shares", left);
        print_row("rule 2, 34 for a small share", [("not acknowledged", *pending)]);
        print_row("rule 2, kind 9 on a small share", [0, 26].into_iter().zip(*acknowledged));
        let shares = ["0", "0 and the cost no longer valid", "26"];
        print_row("rule 2, kind 10 on a small share", shares.into_iter().zip(*absorbed));
    }

    pub fn summary(&self) -> String {
        let mut line =
            format!("seed {}, {} calls compared, all equal: ", AT_SEED.load(Relaxed), self.calls);
        write!(line, "{} actions ({} accepted", self.made(0..=10), self.accepted(0..=10)).unwrap();
        for kind in 1..=10 {
            write!(line, ", kind {kind} {}", self.accepted(kind..=kind)).unwrap();
        }
        line += ")";
        for sort in CHECK..SORTS {
            let (made, accepted) = (self.made(sort..=sort), self.accepted(sort..=sort));
            write!(line, ", {} {made} ({accepted} accepted)", sort_name(sort)).unwrap();
        }
        match self.gaps() {
            gaps if gaps.is_empty() => line += "; every answer came up for every call",
            gaps => write!(line, "; answers:{}", gaps.trim_end_matches(';')).unwrap(),
        }
        line
    }

    /// Answers that the documents give a call and that did not come up, or the
    /// other way round.
    fn gaps(&self) -> String {
        let mut gaps = String::new();
        for sort in 0..SORTS {
            let known = answers_of(sort);
            for answer in 0..46 {
                let came_up = self.counts[sort][answer] > 0;
                match (known.contains(&(answer as u32)), came_up) {
                    (true, false) => write!(gaps, " {} never {answer};", sort_name(sort)).unwrap(),
                    (false, true) => write!(gaps, " {} even {answer};", sort_name(sort)).unwrap(),
                    _ => {}
                }
            }
        }
        let Reached { old_length, wrong_rule, wrong_rule_of, .. } = &self.reached;
        let Reached { wrong_day, wrong_day_of, .. } = &self.reached;
        let Reached { founded, unlike_rules, shared_out, raise_lengths, .. } = &self.reached;
        for sort in 0..=OTHER {
            let raises = sort == RAISE;
            if old_length.iter().any(|counts| counts[sort] == 0) && !raises {
                write!(gaps, " {} never of an older length;", sort_name(sort)).unwrap();
            }
            if wrong_rule[sort] == 0 && sort != EMPTY {
                write!(gaps, " {} never with a wrong rule;", sort_name(sort)).unwrap();
            }
            if wrong_day[sort] == 0 && sort != EMPTY && !raises {
                write!(gaps, " {} never with a wrong day;", sort_name(sort)).unwrap();
            }
        }
        let apart = [&wrong_rule_of[..], founded, &[*unlike_rules], shared_out, raise_lengths];
        if apart.concat().contains(&0) {
            gaps += " a rule or a length of raising never came up;";
        }
        let Reached { unlike_days, raised, not_raised, in_two_steps, .. } = &self.reached;
        if [&raised[..], not_raised, &[*in_two_steps]].concat().contains(&0) {
            gaps += " a version was never raised;";
        }
        let Days { no_day, undated, stated, all_months } = &self.reached.days;
        let apart = [&wrong_day_of[..], &[*unlike_days], no_day, &undated[5..], stated];
        if apart.concat().contains(&0) || *all_months == 0 {
            gaps += " something that days decide never came up;";
        }
        if self.reached.all_groups.contains(&0) {
            gaps += " something that all groups' balances meet never came up;";
        }
        if self.reached.strangers == 0 {
            gaps += " a stranger's share never came up;";
        }
        let SmallShares { stated, left, pending, acknowledged, absorbed } = &self.reached.small;
        let apart = [&stated[..], &[*pending], acknowledged, absorbed].concat();
        let leavings = [(0, 13), (0, 34), (13, 0), (13, 34), (34, 0), (34, 13)];
        if apart.contains(&0) || leavings.iter().any(|pair| !left.contains_key(pair)) {
            gaps += " something that small shares decide never came up;";
        }
        gaps
    }

    fn made(&self, sorts: RangeInclusive<usize>) -> u64 {
        self.counts[sorts].iter().flatten().sum()
    }

    fn accepted(&self, sorts: RangeInclusive<usize>) -> u64 {
        self.counts[sorts].iter().map(|counts| counts[0]).sum()
    }
}

/// Counts by the sort of the call.
fn by_call(counts: &[u64]) -> impl Iterator<Item = (String, u64)> + '_ {
    counts.iter().enumerate().map(|(sort, &count)| (sort_name(sort), count))
}

/// What came up, and how often.
fn print_row<T: Display>(name: &str, counts: impl IntoIterator<Item = (T, u64)>) {
    print!("{name:<10}");
    for (what, count) in counts.into_iter().filter(|&(_, count)| count > 0) {
        print!("  {what}: {count}");
    }
    println!();
}
