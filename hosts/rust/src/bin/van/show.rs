//! What a call that only reads has to show, as text. Where the documents have
//! lines they are those; else, and in the table, money is in euros and cents.

use crate::command::Command;
use crate::costs;
use crate::dates::show_month;
use crate::money::euros;
use crate::run::Held;
use std::fmt::Write;
use val_host::fields::Fields;
use val_host::text::{of_groups, put_group};
use val_host::{Answer, Line, Totals, BALANCES, EXPENSES, GROUPS, PAYMENTS, USERS};

/// The text of a command that only reads, or the library's refusal.
pub fn text(command: &Command, held: &Held) -> Result<String, Answer> {
    match *command {
        Command::Statement { group: None, table } => {
            ok((held.calls.check)(&held.image))?;
            Ok(if table { all_tables(held) } else { of_groups(&held.calls, &held.image) })
        }
        Command::Statement { group: Some(group), table } => {
            let (totals, lines) = statement(held, group)?;
            let mut text = String::new();
            if table {
                put_table(&mut text, held, group, totals, &lines);
            } else {
                put_group(&mut text, group, totals, &lines);
            }
            Ok(text)
        }
        Command::Pay { group } => payments(held, group),
        Command::Month { group, month } => of_month(held, group, month),
        Command::Balances => balances(held),
        _ => {
            ok((held.calls.check)(&held.image))?;
            Ok(if matches!(command, Command::Check) { summary(held) } else { costs::all(held) })
        }
    }
}

fn ok(answer: Answer) -> Result<(), Answer> {
    if answer.is_ok() {
        Ok(())
    } else {
        Err(answer)
    }
}

fn statement(held: &Held, group: u64) -> Result<(Totals, [Line; USERS]), Answer> {
    let mut lines = [Line::default(); USERS];
    let totals = (held.calls.statement)(&held.image, group, &mut lines);
    ok(totals.answer)?;
    Ok((totals, lines))
}

fn all_tables(held: &Held) -> String {
    let mut text = format!("van {}\n", Fields::of(&held.image).replica());
    for group in 0..GROUPS as u64 {
        // The statement is refused where the crew is absent.
        if let Ok((totals, lines)) = statement(held, group) {
            text += "\n";
            put_table(&mut text, held, group, totals, &lines);
        }
    }
    text
}

/// A crew, and under it each user ever a member, in columns.
fn put_table(text: &mut String, held: &Held, group: u64, totals: Totals, lines: &[Line; USERS]) {
    let Totals { members, expenses, gifts, .. } = totals;
    let rule = match costs::rule(held, group as usize) {
        1 => "rule 1, gifts in equal parts",
        _ => "rule 2, gifts by use",
    };
    let (members, expenses) =
        (count(members as usize, "member"), count(expenses as usize, "valid cost"));
    let gifts = euros(gifts as i64);
    writeln!(text, "crew {group} ({rule}): {members}, {expenses}, gifts {gifts}").unwrap();

    let mut rows = vec![["user", "member", "raw", "gift", "part", "balance"].map(String::from)];
    for (user, line) in lines.iter().enumerate().filter(|(_, line)| line.counter > 0) {
        let member = if line.counter % 2 == 1 { "yes" } else { "left" };
        let sums = [line.raw, line.gift as i64, line.part as i64, line.balance].map(euros);
        let [raw, gift, part, balance] = sums;
        rows.push([user.to_string(), member.into(), raw, gift, part, balance]);
    }
    put_rows(text, &rows);
}

/// Rows in columns that end below each other.
fn put_rows<const COLUMNS: usize>(text: &mut String, rows: &[[String; COLUMNS]]) {
    let widths: [usize; COLUMNS] = std::array::from_fn(|column| {
        rows.iter().map(|row| row[column].len()).max().unwrap_or_default()
    });
    for row in rows {
        let cells = row.iter().zip(widths).map(|(cell, width)| format!("{cell:>width$}"));
        writeln!(text, "{}", cells.collect::<Vec<_>>().join("  ")).unwrap();
    }
}

/// `1 member`, `2 members`.
pub fn count(number: usize, what: &str) -> String {
    format!("{number} {what}{}", if number == 1 { "" } else { "s" })
}

fn payments(held: &Held, group: u64) -> Result<String, Answer> {
    let mut cents = [0; PAYMENTS];
    ok((held.calls.payments)(&held.image, group, &mut cents))?;
    let mut text = String::new();
    for (place, &sum) in cents.iter().enumerate().filter(|(_, &sum)| sum > 0) {
        let (payer, receiver) = (place / USERS, place % USERS);
        writeln!(text, "user {payer} pays user {receiver} {}", euros(sum as i64)).unwrap();
    }
    if text.is_empty() {
        text = "nobody pays\n".into();
    }
    Ok(text)
}

fn of_month(held: &Held, group: u64, month: u64) -> Result<String, Answer> {
    let mut raws = [0; USERS];
    ok(val_host::month(&held.image, group, month, &mut raws))?;
    let mut text = format!("crew {group} month {}\n", show_month(month));
    let fields = Fields::of(&held.image);
    for (user, &raw) in raws.iter().enumerate() {
        if fields.counter(group as usize, user) > 0 {
            writeln!(text, "user {user} raw {}", euros(raw)).unwrap();
        }
    }
    Ok(text)
}

/// A row for each crew that is there, a column for each user; a dash for who was
/// never a member.
fn balances(held: &Held) -> Result<String, Answer> {
    let mut balances = [0; BALANCES];
    ok(val_host::balances(&held.image, &mut balances))?;
    let fields = Fields::of(&held.image);
    let mut rows: Vec<[String; USERS + 1]> = vec![std::array::from_fn(|column| match column {
        0 => "crew".into(),
        _ => format!("user {}", column - 1),
    })];
    for group in (0..GROUPS).filter(|&group| fields.group_present(group)) {
        rows.push(std::array::from_fn(|column| match column {
            0 => group.to_string(),
            _ if fields.counter(group, column - 1) == 0 => "-".into(),
            _ => euros(balances[USERS * group + column - 1]),
        }));
    }
    let mut text = String::new();
    put_rows(&mut text, &rows);
    Ok(text)
}

fn summary(held: &Held) -> String {
    let fields = Fields::of(&held.image);
    let crews = (0..GROUPS).filter(|&group| fields.group_present(group)).count();
    let costs = (0..EXPENSES).filter(|&expense| fields.present(expense)).count();
    let (crews, costs) = (count(crews, "crew"), count(costs, "cost"));
    let (version, van) = (fields.layout.version, fields.replica());
    format!("sound: van {van}, version {version}, {crews}, {costs}\n")
}
