//! A lesson: a history of eight vans, played in memory from empty images, each
//! answer beside its line. The library serves them; a van that begins with an
//! older version is served by the model's calls of that version until it is
//! raised, as its laptop would be by the older library. Calls that the older
//! version never had go to the library, which asks for the image to be raised.

use crate::arguments::{number, text, Arguments};
use crate::command::{read, read_homes, A_VAN, OWN_HOMES};
use crate::faults::wrong_van;
use crate::help::{self, Usage};
use crate::run::{perform, raise, Held, Stop, DONE};
use crate::show::count;
use std::collections::{BTreeMap, VecDeque};
use std::fmt::Write;
use val_host::model::{v1, v2, Layout};
use val_host::{IMAGE_SIZE, IMAGE_SIZE_1, IMAGE_SIZE_2, USERS};

/// The columns beside which an answer stands, if no line is longer.
const WIDTH: usize = 60;
const FORMS: &str = "expected VAN: COMMAND, expect LINE, homes LIST or # (see van play --help)";

/// What was played, and why it stopped if it did not come to the end.
pub fn play(name: &str, lesson: &str) -> (String, Option<Stop>) {
    // Some editors put a mark at the beginning.
    let lesson = lesson.strip_prefix('\u{feff}').unwrap_or(lesson);
    let width = lesson.lines().map(|line| line.chars().count()).max().unwrap_or(0).min(WIDTH);
    let mut fleet = Fleet::new();
    let mut text = String::new();
    for (number, line) in (1..).zip(lesson.lines()) {
        let answer = fleet.line(line);
        put(&mut text, number, width, line, answer.as_deref().unwrap_or_default());
        if let Err(stop) = answer {
            return (text, Some(stop.at(&format!("{name}:{number}"))));
        }
    }
    let (commands, held) = (count(fleet.commands, "command"), count(fleet.held, "expectation"));
    writeln!(text, "{commands} played, {held} held").unwrap();
    (text, None)
}

/// A line and its answer beside it; an answer of several lines stands below.
fn put(text: &mut String, number: usize, width: usize, line: &str, answer: &str) {
    let (beside, below) = match answer.lines().count() {
        1 => (answer.trim_end(), ""),
        _ => ("", answer),
    };
    let line = format!("{number:>3}  {line:<width$}  {beside}");
    writeln!(text, "{}", line.trim_end()).unwrap();
    below.lines().for_each(|line| writeln!(text, "       {line}").unwrap());
}

struct Fleet {
    homes: [u8; USERS],
    vans: [Held; USERS],
    kept: BTreeMap<String, Held>,
    /// The last answer, if there is one yet, from the line on that has not been
    /// expected.
    answer: Option<VecDeque<String>>,
    commands: usize,
    held: usize,
}

impl Fleet {
    fn new() -> Self {
        Fleet {
            homes: OWN_HOMES,
            vans: std::array::from_fn(|van| empty(van, IMAGE_SIZE, &OWN_HOMES).unwrap()),
            kept: BTreeMap::new(),
            answer: None,
            commands: 0,
            held: 0,
        }
    }

    /// What is said beside a line.
    fn line(&mut self, line: &str) -> Result<String, Stop> {
        let line = line.split_once('#').map_or(line, |(line, _)| line).trim();
        if line.is_empty() {
            return Ok(String::new());
        }
        match line.split_once(char::is_whitespace).unwrap_or((line, "")) {
            ("expect", expected) => return self.expect(expected.trim()),
            ("homes", homes) => return self.live_at(homes.trim()).map_err(Stop::Usage),
            _ => {}
        }
        let (van, command) = line.split_once(':').ok_or_else(|| Stop::Usage(FORMS.into()))?;
        let van = van_number(van).map_err(Stop::Usage)?;
        let mut words = command.split_whitespace();
        let name = words.next().ok_or_else(|| Stop::Usage(FORMS.into()))?;
        let words = Arguments::new(words);
        if name == "version" {
            return self.begin_older(van, words).map_err(Stop::Usage);
        }
        let answer = match self.command(van, name, words) {
            Err(Stop::Refused(words)) => words,
            answer => answer?,
        };
        self.answer = Some(answer.lines().map(|line| line.trim().into()).collect());
        self.commands += 1;
        Ok(answer)
    }

    /// Holds the next line of the last answer against the one expected.
    fn expect(&mut self, expected: &str) -> Result<String, Stop> {
        let no_answer = || Stop::Usage("there is no answer yet".into());
        let next = self.answer.as_mut().ok_or_else(no_answer)?.pop_front();
        let holds = match &next {
            None => expected == "nothing more",
            Some(line) => line == expected || number_of(line).is_some_and(|part| part == expected),
        };
        if !holds {
            let found = next.map_or("nothing more".into(), |line| format!("'{line}'"));
            return Err(Stop::Refused(format!("expected '{expected}', and there is {found}")));
        }
        self.held += 1;
        Ok("holds".into())
    }

    fn live_at(&mut self, homes: &str) -> Result<String, String> {
        self.begins()?;
        self.homes = read_homes("homes", homes)?;
        for (number, van) in self.vans.iter_mut().enumerate() {
            *van = empty(number, van.image.len(), &self.homes)?;
        }
        Ok(String::new())
    }

    fn begin_older(&mut self, van: usize, mut words: Arguments) -> Result<String, String> {
        self.begins()?;
        let size = match words.number("version", "1 or 2")? {
            1 => IMAGE_SIZE_1,
            2 => IMAGE_SIZE_2,
            version => return Err(format!("version: expected 1 or 2, not '{version}'")),
        };
        words.end()?;
        self.vans[van] = empty(van, size, &self.homes)?;
        Ok(String::new())
    }

    fn begins(&self) -> Result<(), String> {
        match self.commands {
            0 => Ok(()),
            _ => Err("homes and versions come before the first command".into()),
        }
    }

    fn command(&mut self, van: usize, name: &str, mut words: Arguments) -> Result<String, Stop> {
        let usage = help::find(name).and_then(Usage::lesson_line);
        let wrong = |words| match &usage {
            Some(usage) => Stop::Usage(words).with_usage(usage),
            None => Stop::Usage(words),
        };
        let other = match name {
            "keep" => return self.keep(van, words).map_err(wrong),
            "raise" => {
                words.end().map_err(wrong)?;
                self.vans[van] = raise(&self.vans[van])?;
                return Ok(DONE.into());
            }
            "join" => Some(self.handed_over(&mut words).map_err(wrong)?),
            _ => None,
        };
        let command = read(name, &mut words).map_err(wrong)?;
        let command =
            command.ok_or_else(|| wrong(format!("'{name}' is no command of a lesson")))?;
        words.end().map_err(wrong)?;
        perform(&command, &mut self.vans[van], other.as_ref())
    }

    /// Keeps a copy under a name that is no van's.
    fn keep(&mut self, van: usize, mut words: Arguments) -> Result<String, String> {
        let name = text("NAME", words.word("NAME")?)?;
        words.end()?;
        if !name.starts_with(|first: char| first.is_ascii_alphabetic()) {
            return Err(format!("NAME: expected a name that begins with a letter, not '{name}'"));
        }
        self.kept.insert(name.clone(), Held { name, ..self.vans[van].clone() });
        Ok(DONE.into())
    }

    /// A copy of the image that a join names.
    fn handed_over(&self, words: &mut Arguments) -> Result<Held, String> {
        let name = text("OTHER", words.word("OTHER")?)?;
        let van = || van_number(&name).ok().map(|van| &self.vans[van]);
        let other = self.kept.get(&name).or_else(van);
        let expected = || format!("OTHER: expected {A_VAN}, or a kept image, not '{name}'");
        other.cloned().ok_or_else(expected)
    }
}

/// `refused 13` of `refused 13: …`.
fn number_of(line: &str) -> Option<&str> {
    line.split_once(':').map(|(number, _)| number).filter(|number| number.starts_with("refused "))
}

fn van_number(word: &str) -> Result<usize, String> {
    let van: usize = number("VAN", A_VAN, word.trim())?;
    if van < USERS {
        Ok(van)
    } else {
        Err(format!("VAN: expected {A_VAN}, not '{van}'"))
    }
}

/// The empty image of a van, of the version that has images of this size.
fn empty(van: usize, size: usize, homes: &[u8; USERS]) -> Result<Held, String> {
    let mut held = Held::new(format!("van {van}'s image"), vec![0; size]);
    match size {
        IMAGE_SIZE_1 => held.calls = v1::CALLS,
        IMAGE_SIZE_2 => held.calls = v2::CALLS,
        _ => {}
    }
    held.layout = Layout::of(size).expect("an image of some version");
    let van = van as u64;
    let answer = (held.calls.empty)(&mut held.image, van, homes);
    if answer.is_ok() {
        Ok(held)
    } else {
        Err(wrong_van(van, homes).unwrap_or(answer.meaning().into()))
    }
}
