//! A refusal in words: what the documents' number is about in this image, with
//! the figures that decided it. The number is the library's; the words look up
//! what it was about.

use crate::command::{Act, Command, Kind};
use crate::costs;
use crate::dates::show_month;
use crate::faults;
use crate::money::euros;
use crate::run::Held;
use val_host::fields::Fields;
use val_host::model::Expense;
use val_host::{Answer, Line, EXPENSES, GROUPS, USERS};

/// What was asked of an image.
#[derive(Clone, Copy)]
pub enum Asked<'a> {
    Act(&'a Act),
    Join {
        other: &'a Held,
    },
    Raise,
    /// By a command that only reads.
    Show(&'a Command),
}

pub fn refused(answer: Answer, words: &str) -> String {
    format!("refused {}: {words}", answer.number())
}

/// The words for an answer; the documents' own where there is no more to say.
pub fn of(answer: Answer, own: &Held, asked: Asked) -> String {
    let words = faults::of(answer, own, asked).or_else(|| match asked {
        Asked::Act(act) => Scene::of(act, own).words(answer),
        Asked::Join { other } => of_join(answer, own, other),
        Asked::Show(command) => of_figures(answer, command),
        Asked::Raise => None,
    });
    words.unwrap_or_else(|| answer.meaning().into())
}

/// Where lookup hands back nothing, it has no number either.
pub fn no_cost(expense: u64) -> String {
    if expense < EXPENSES as u64 {
        format!("cost {expense} is absent")
    } else {
        format!("there is no cost {expense}: costs are 0 to 511")
    }
}

fn no_crew(group: u64) -> String {
    if group < GROUPS as u64 {
        format!("crew {group} is absent")
    } else {
        format!("there is no crew {group}: crews are 0 to 15")
    }
}

fn of_figures(answer: Answer, command: &Command) -> Option<String> {
    let (group, month) = match *command {
        Command::Statement { group: Some(group), .. } | Command::Pay { group } => (group, 0),
        Command::Month { group, month } => (group, month),
        _ => return None,
    };
    Some(match answer {
        Answer::GroupAbsent => no_crew(group),
        Answer::GroupEmpty => format!("crew {group} has no member"),
        Answer::BadMonth => {
            format!("there is no month {}: months are 2000-01 to 2099-12", show_month(month))
        }
        _ => return None,
    })
}

fn of_join(answer: Answer, own: &Held, other: &Held) -> Option<String> {
    let (ours, theirs) = (Fields::of(&own.image), Fields::of(&other.image));
    let (here, there) = (&own.name, &other.name);
    match answer {
        Answer::HomesDiffer => {
            let user = (0..USERS).find(|&user| ours.home(user) != theirs.home(user))?;
            let (home, another) = (ours.home(user), theirs.home(user));
            Some(format!("user {user}'s home is van {home} in {here} and van {another} in {there}"))
        }
        Answer::Conflict => other_rule(own, other).or_else(|| {
            let expense = (0..EXPENSES).find(|&expense| differs(&ours, &theirs, expense))?;
            let version = ours.version(expense);
            Some(format!(
                "version {version} of cost {expense} is not the same in {here} and {there}"
            ))
        }),
        _ => None,
    }
}

/// A crew that is present on both sides, with different rules.
fn other_rule(own: &Held, other: &Held) -> Option<String> {
    let present = |held: &Held, group| Fields::of(&held.image).group_present(group);
    let rules = |group| (costs::rule(own, group), costs::rule(other, group));
    let group = (0..GROUPS).find(|&group| {
        let (rule, another) = rules(group);
        present(own, group) && present(other, group) && rule != another
    })?;
    let ((rule, another), here, there) = (rules(group), &own.name, &other.name);
    Some(format!("crew {group} is under rule {rule} in {here} and rule {another} in {there}"))
}

/// Of one version on both sides, and different in more than acknowledgements.
fn differs(ours: &Fields, theirs: &Fields, expense: usize) -> bool {
    let [own, other] = [ours, theirs].map(|fields| Expense::read(fields.record(expense)));
    let rest = |cost: &Expense| (cost.payer, cost.group, cost.deleted, cost.shares, cost.day);
    let both = ours.present(expense) && theirs.present(expense);
    both && own.version == other.version && rest(&own) != rest(&other)
}

/// An action, and the image that refused it.
struct Scene<'a> {
    act: &'a Act,
    held: &'a Held,
    fields: Fields<'a>,
    actor: usize,
    other: usize,
}

impl<'a> Scene<'a> {
    fn of(act: &'a Act, held: &'a Held) -> Self {
        let (actor, other) = (act.actor.into(), act.other.into());
        Scene { act, held, fields: Fields::of(&held.image), actor, other }
    }

    fn words(&self, answer: Answer) -> Option<String> {
        match answer {
            Answer::BadAction => self.wrong_field(),
            _ => self.of_crew(answer).or_else(|| self.of_cost(answer)),
        }
    }

    /// The cost, where it is present.
    fn cost(&self) -> Expense {
        Expense::read(self.fields.record(self.act.expense.into()))
    }

    /// The crew that the action names, or else the one that its cost is in.
    fn crew(&self) -> usize {
        match self.act.kind {
            Kind::Found | Kind::Add | Kind::Leave | Kind::PutIn | Kind::TakeOut => {
                self.act.group.into()
            }
            _ => self.cost().group().unwrap_or_default(),
        }
    }

    /// Whose share kinds 9 and 10 are about.
    fn holder(&self) -> usize {
        if self.act.kind == Kind::Absorb {
            self.other
        } else {
            self.actor
        }
    }

    fn wrong_field(&self) -> Option<String> {
        let &Act { kind, actor, other, group, expense, named, .. } = self.act;
        let user = [actor, other].into_iter().find(|&user| usize::from(user) >= USERS);
        if let Some(user) = user {
            return Some(format!("there is no user {user}: users are 0 to 7"));
        }
        if usize::from(group) >= GROUPS {
            return Some(no_crew(group.into()));
        }
        if usize::from(expense) >= EXPENSES {
            return Some(no_cost(expense.into()));
        }
        let rule = named.filter(|_| kind == Kind::Found)?;
        Some(format!("there is no rule {rule}: rules are 1 and 2"))
    }

    fn of_crew(&self, answer: Answer) -> Option<String> {
        let Scene { fields, actor, other, .. } = self;
        let group = self.act.group;
        let here = fields.replica();
        Some(match answer {
            Answer::NotHome => {
                format!(
                    "user {actor}'s home is van {}, and this is van {here}",
                    fields.home(*actor)
                )
            }
            Answer::GroupNotOwned => {
                format!("crew {group} is for van {} to found, and this is van {here}", group / 2)
            }
            Answer::GroupPresent => format!("crew {group} is there already"),
            Answer::GroupAbsent => no_crew(group.into()),
            Answer::NotMember => format!("user {actor} is no member of crew {}", self.crew()),
            Answer::AlreadyMember => format!("user {other} is a member of crew {group} already"),
            Answer::StillMember => {
                format!("user {other} is still a member of crew {}", self.crew())
            }
            Answer::Owes => {
                let raw = self.raw();
                format!("user {actor}'s raw balance in crew {group} is below zero ({raw})")
            }
            Answer::SharePending => return self.pending(),
            Answer::CounterFull => {
                format!("user {actor}'s counter in crew {group} is 65,535, the last there is")
            }
            Answer::SameUser => format!("user {actor} can't absorb a share from themselves"),
            _ => return None,
        })
    }

    fn of_cost(&self, answer: Answer) -> Option<String> {
        let Scene { fields, actor, .. } = self;
        let number = self.act.expense;
        let holder = self.holder();
        Some(match answer {
            Answer::ExpenseNotOwned => {
                let here = fields.replica();
                format!("cost {number} is for van {} to enter, and this is van {here}", number / 64)
            }
            Answer::ExpensePresent => format!("cost {number} is there already"),
            Answer::ExpenseAbsent => no_cost(number.into()),
            Answer::NotPayer => {
                format!(
                    "cost {number} was paid by user {}, not by user {actor}",
                    self.cost().payer()
                )
            }
            Answer::BadTotal => {
                let total = self.act.shares.iter().map(|&share| i64::from(share)).sum();
                format!("the shares total {}: expected 0.01 to 10000000.00", euros(total))
            }
            Answer::HasGroup => {
                format!("cost {number} is in crew {} already", self.cost().group()?)
            }
            Answer::NotInGroup => self.elsewhere(),
            Answer::ShareOfNonMember => return self.outsider(),
            Answer::Deleted => format!("cost {number} is deleted"),
            Answer::NoShare => format!("user {holder} has no share in cost {number}"),
            Answer::AlreadyAcknowledged => {
                format!("user {holder} has acknowledged cost {number} already")
            }
            Answer::VersionFull => {
                format!("cost {number} has version 4,294,967,295, the last there is")
            }
            _ => return None,
        })
    }

    /// Where the cost is, which is not the crew that it should be in.
    fn elsewhere(&self) -> String {
        let (number, named) = (self.act.expense, self.act.group);
        match self.cost().group() {
            Some(group) => format!("cost {number} is in crew {group}, not in crew {named}"),
            None => format!("cost {number} is in no crew"),
        }
    }

    fn raw(&self) -> String {
        let mut lines = [Line::default(); USERS];
        (self.held.calls.statement)(&self.held.image, self.act.group.into(), &mut lines);
        euros(lines[self.actor].raw)
    }

    /// A share, new or stored, of somebody who is no member.
    fn outsider(&self) -> Option<String> {
        let group = self.crew();
        let changes = self.act.kind == Kind::Change;
        let share = |user: usize| {
            if changes {
                self.act.shares[user]
            } else {
                self.cost().shares.of(user)
            }
        };
        let user = (0..USERS).find(|&user| share(user) > 0 && !self.fields.member(group, user))?;
        let has = if changes { "would have" } else { "has" };
        let share = euros(share(user).into());
        Some(format!("user {user} {has} a share of {share} and is no member of crew {group}"))
    }

    /// The first cost of the crew in which a share of the leaver waits for others.
    fn pending(&self) -> Option<String> {
        let group = self.act.group.into();
        let (number, cost, waits) = (0..EXPENSES).find_map(|number| {
            let cost = costs::standing(&self.fields, number)?;
            let waits = costs::waits_for(self.held, &cost);
            let counts = cost.shares.of(self.actor) > 0 && !waits.contains(&self.actor);
            let found = cost.group() == Some(group) && !waits.is_empty() && counts;
            found.then_some((number, cost, waits))
        })?;
        let share = euros(cost.shares.of(self.actor).into());
        let waits = costs::users(&waits);
        let actor = self.actor;
        Some(format!("user {actor}'s share of {share} in cost {number} waits for {waits}"))
    }
}
