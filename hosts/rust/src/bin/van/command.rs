//! What is asked of one image, and how it is read from words. A command line and
//! a line of a lesson say it alike, once the image is named.

use crate::arguments::{number, text, Arguments};
use crate::{dates, money};
use val_host::fields::{action, naming, Action};
use val_host::model::Layout;
use val_host::{RULE_EQUAL, USERS};

pub const A_USER: &str = "a user, 0 to 7";
pub const A_VAN: &str = "a van, 0 to 7";
pub const A_CREW: &str = "a crew, 0 to 15";
pub const A_COST: &str = "a cost, 0 to 511";
pub const A_RULE: &str = "rule 1 or 2";

pub enum Command {
    Act(Act),
    /// With an image that is named beside it; one of an older version is raised
    /// first where that is asked for.
    Join {
        raised: bool,
    },
    Statement {
        group: Option<u64>,
        table: bool,
    },
    Pay {
        group: u64,
    },
    Month {
        group: u64,
        month: u64,
    },
    Balances,
    /// One, or all that there are.
    Cost {
        expense: Option<u64>,
    },
    Check,
}

impl Command {
    /// Can it change the image?
    pub fn writes(&self) -> bool {
        matches!(self, Command::Act(_) | Command::Join { .. })
    }
}

/// The kinds of an action, by the documents' numbers.
#[derive(Clone, Copy, PartialEq)]
#[repr(u8)]
pub enum Kind {
    Found = 1,
    Add,
    Leave,
    Enter,
    PutIn,
    TakeOut,
    Change,
    Delete,
    Acknowledge,
    Absorb,
}

/// An action's fields, zero where its kind has none.
pub struct Act {
    pub kind: Kind,
    pub actor: u8,
    pub other: u8,
    pub group: u8,
    pub expense: u16,
    pub shares: [u32; USERS],
    /// The rule of a founding, the day of what is entered or changed, where one
    /// was named.
    pub named: Option<u16>,
}

impl Act {
    fn by(kind: Kind, actor: u8) -> Self {
        Act { kind, actor, other: 0, group: 0, expense: 0, shares: [0; USERS], named: None }
    }

    /// The record, in the version of this layout. Rule 1 need not be named; a day
    /// has to be, where the version has days: none is made up.
    pub fn record(&self, layout: Layout) -> Result<Action, String> {
        let number = match (self.kind, self.named) {
            (Kind::Found, Some(_)) if !layout.has_rules() => {
                return Err("the van's version has no rules: leave --rule out".into());
            }
            (Kind::Found, None) if layout.has_rules() => RULE_EQUAL,
            (Kind::Enter | Kind::Change, Some(_)) if !layout.has_days() => {
                return Err("the van's version has no days: leave --day out".into());
            }
            (Kind::Enter | Kind::Change, None) if layout.has_days() => {
                return Err("--day is missing".into());
            }
            (_, named) => named.unwrap_or(0),
        };
        let &Act { kind, actor, other, group, expense, shares, .. } = self;
        let record =
            action(kind as u8, actor.into(), other.into(), group.into(), expense.into(), shares);
        Ok(naming(record, number))
    }
}

/// Reads the words behind a command's name and what names its image; none if the
/// command is not one on an image.
pub fn read(name: &str, words: &mut Arguments) -> Result<Option<Command>, String> {
    if let Some(act) = read_act(name, words)? {
        return Ok(Some(Command::Act(act)));
    }
    Ok(Some(match name {
        "join" => Command::Join { raised: words.flag("--raised")? },
        "statement" => {
            let table = words.flag("--table")?;
            Command::Statement { group: optional(words, "CREW", A_CREW)?, table }
        }
        "pay" => Command::Pay { group: words.number("CREW", A_CREW)? },
        "month" => {
            let group = words.number("CREW", A_CREW)?;
            let month = text("MONTH", words.word("MONTH")?)?;
            let month =
                dates::month(&month).map_err(|expected| wrong("MONTH", &expected, &month))?;
            Command::Month { group, month }
        }
        "balances" => Command::Balances,
        "cost" => Command::Cost { expense: optional(words, "COST", A_COST)? },
        "check" => Command::Check,
        _ => return Ok(None),
    }))
}

fn read_act(name: &str, words: &mut Arguments) -> Result<Option<Act>, String> {
    let kind = match name {
        "found" => Kind::Found,
        "add" => Kind::Add,
        "leave" => Kind::Leave,
        "enter" => Kind::Enter,
        "put-in" => Kind::PutIn,
        "take-out" => Kind::TakeOut,
        "change" => Kind::Change,
        "delete" => Kind::Delete,
        "acknowledge" => Kind::Acknowledge,
        "absorb" => Kind::Absorb,
        _ => return Ok(None),
    };
    let named = match kind {
        Kind::Found => read_rule(words)?,
        Kind::Enter | Kind::Change => read_day(words)?,
        _ => None,
    };
    let mut act = Act { named, ..Act::by(kind, words.number("USER", A_USER)?) };
    if matches!(kind, Kind::Add | Kind::Absorb) {
        act.other = words.number("OTHER", A_USER)?;
    }
    if !matches!(kind, Kind::Found | Kind::Add | Kind::Leave) {
        act.expense = words.number("COST", A_COST)?;
    }
    if matches!(kind, Kind::Found | Kind::Add | Kind::Leave | Kind::PutIn | Kind::TakeOut) {
        act.group = words.number("CREW", A_CREW)?;
    }
    if matches!(kind, Kind::Enter | Kind::Change) {
        act.shares = read_shares(words)?;
    }
    Ok(Some(act))
}

fn read_rule(words: &mut Arguments) -> Result<Option<u16>, String> {
    let rule = words.option("--rule")?;
    rule.map(|rule| number("--rule", A_RULE, &rule)).transpose()
}

fn read_day(words: &mut Arguments) -> Result<Option<u16>, String> {
    let day = words.option("--day")?;
    day.map(|day| dates::day(&day).map_err(|expected| wrong("--day", &expected, &day))).transpose()
}

/// All words that are left, each `USER:SHARE`.
fn read_shares(words: &mut Arguments) -> Result<[u32; USERS], String> {
    let mut shares = [None; USERS];
    while let Some(word) = words.next() {
        let word = text("USER:SHARE", word)?;
        let (user, share) = word
            .split_once(':')
            .ok_or_else(|| wrong("USER:SHARE", "expected a user and a share as 1:6.00", &word))?;
        let cents =
            money::cents(share).map_err(|expected| wrong("USER:SHARE", &expected, &word))?;
        let place = number::<usize>("USER:SHARE", A_USER, user)?;
        let place = shares
            .get_mut(place)
            .ok_or_else(|| format!("USER:SHARE: expected {A_USER}, not '{user}'"))?;
        if place.replace(cents).is_some() {
            return Err(format!("USER:SHARE: user {user} has two shares"));
        }
    }
    Ok(shares.map(Option::unwrap_or_default))
}

fn optional(words: &mut Arguments, what: &str, expected: &str) -> Result<Option<u64>, String> {
    let word = words.next();
    word.map(|word| number(what, expected, &text(what, word)?)).transpose()
}

fn wrong(what: &str, expected: &str, found: &str) -> String {
    format!("{what}: {expected}, not '{found}'")
}

/// Eight homes, as `0,1,2,3,4,5,6,7`.
pub fn read_homes(what: &str, list: &str) -> Result<[u8; USERS], String> {
    let homes: Result<Vec<u8>, String> =
        list.split(',').map(|home| number(what, A_VAN, home)).collect();
    homes?.try_into().map_err(|_| wrong(what, "expected eight vans as 0,1,2,3,4,5,6,7", list))
}

/// Each user at home on the van of the same number.
pub const OWN_HOMES: [u8; USERS] = [0, 1, 2, 3, 4, 5, 6, 7];
