//! What the program `statement` prints, written from documents 01 and 02 alone.

use crate::model::{v3 as model, Layout};
use crate::{Calls, Line, Totals, GROUPS, IMAGE_SIZE, USERS};
use std::fmt::Write;

/// The text of an input: one image, or own and other, which are joined first.
pub fn text(input: &[u8]) -> Vec<u8> {
    let text = if input.len() == 2 * IMAGE_SIZE {
        let (own, other) = input.split_at(IMAGE_SIZE);
        let mut own = own.to_vec();
        let answer = model::merge(&mut own, other);
        if answer.is_ok() {
            of_image(&own)
        } else {
            refused(answer.number())
        }
    } else {
        // The check refuses every other length with 1.
        of_image(input)
    };
    text.into_bytes()
}

fn refused(number: u32) -> String {
    format!("refused {number}\n")
}

fn of_image(image: &[u8]) -> String {
    let answer = model::check(image);
    if !answer.is_ok() {
        return refused(answer.number());
    }
    of_groups(&model::CALLS, image)
}

/// The lines of an image that passes the check.
pub fn of_groups(calls: &Calls, image: &[u8]) -> String {
    let mut text = format!("van {}\n", image[Layout::REPLICA]);
    for group in 0..GROUPS as u64 {
        let mut lines = [Line::default(); USERS];
        let totals = (calls.statement)(image, group, &mut lines);
        // The statement is refused where the group is absent.
        if totals.answer.is_ok() {
            put_group(&mut text, group, totals, &lines);
        }
    }
    text
}

/// A present group, and under it each user ever a member.
pub fn put_group(text: &mut String, group: u64, totals: Totals, lines: &[Line; USERS]) {
    let Totals { members, expenses, gifts, .. } = totals;
    writeln!(text, "crew {group} members {members} costs {expenses} gifts {gifts}").unwrap();
    for (user, line) in lines.iter().enumerate().filter(|(_, line)| line.counter > 0) {
        let &Line { counter, raw, gift, part, balance } = line;
        writeln!(
            text,
            "user {user} counter {counter} raw {raw} gift {gift} part {part} balance {balance}"
        )
        .unwrap();
    }
}
