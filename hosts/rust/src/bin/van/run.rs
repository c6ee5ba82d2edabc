//! A command on an image: the record is made, the library is called, and what
//! came back is said in words.

use crate::command::Command;
use crate::words::{self, Asked};
use crate::{costs, show};
use std::fmt::{self, Display, Formatter};
use val_host::model::Layout;
use val_host::{Answer, Calls, IMAGE_SIZE};

/// An image, what it is called, and the version whose calls serve it.
#[derive(Clone)]
pub struct Held {
    pub name: String,
    pub image: Vec<u8>,
    pub layout: Layout,
    pub calls: Calls,
}

impl Held {
    /// The version in force, which is the library's.
    pub const NEWEST: Layout = Layout::of(IMAGE_SIZE).unwrap();

    /// Served by the library, whatever the bytes are.
    pub fn new(name: impl Display, image: Vec<u8>) -> Self {
        let name = name.to_string();
        Held { name, image, layout: Self::NEWEST, calls: val_host::CALLS }
    }
}

/// Why a command stops.
#[derive(Debug)]
pub enum Stop {
    /// An answer other than 0, or a cost that is not there, in words. Nothing is
    /// written.
    Refused(String),
    /// The words of the command line are wrong. Nothing is written.
    Usage(String),
    /// A file can't be read or written; the words tell if it was all the same.
    File(String),
}

impl Stop {
    fn words(&mut self) -> &mut String {
        let (Stop::Refused(words) | Stop::Usage(words) | Stop::File(words)) = self;
        words
    }

    /// With the place where it stopped before its words.
    pub fn at(mut self, place: &str) -> Self {
        self.words().insert_str(0, &format!("{place}: "));
        self
    }

    /// With a line more where the words of the command line are wrong.
    pub fn with_usage(mut self, usage: &str) -> Self {
        if let Stop::Usage(words) = &mut self {
            *words += &format!("\nusage: {usage}");
        }
        self
    }

    pub fn status(&self) -> u8 {
        match self {
            Stop::Refused(_) => 1,
            Stop::Usage(_) => 2,
            Stop::File(_) => 3,
        }
    }
}

impl Display for Stop {
    fn fmt(&self, f: &mut Formatter) -> fmt::Result {
        match self {
            Stop::Refused(words) => f.write_str(words),
            Stop::Usage(words) | Stop::File(words) => write!(f, "van: {words}"),
        }
    }
}

/// What is printed where a call has nothing to show.
pub const DONE: &str = "done\n";

/// Performs a command, a join with the other image. The text has whole lines;
/// with a refusal the image is as it was.
pub fn perform(command: &Command, own: &mut Held, other: Option<&Held>) -> Result<String, Stop> {
    match (command, other) {
        (Command::Act(act), _) => {
            let record = act.record(own.layout).map_err(Stop::Usage)?;
            let answer = (own.calls.act)(&mut own.image, &record);
            done(answer, own, Asked::Act(act))
        }
        (Command::Join { raised: true }, Some(other)) => join_raised(own, other),
        (Command::Join { .. }, Some(other)) => join(own, other),
        (&Command::Cost { expense: Some(expense) }, _) => {
            done((own.calls.check)(&own.image), own, Asked::Show(command))?;
            costs::one(own, expense).ok_or_else(|| Stop::Refused(words::no_cost(expense)))
        }
        _ => show::text(command, own).map_err(|answer| refused(answer, own, Asked::Show(command))),
    }
}

fn join(own: &mut Held, other: &Held) -> Result<String, Stop> {
    let answer = (own.calls.merge)(&mut own.image, &other.image);
    done(answer, own, Asked::Join { other })
}

/// With the other image raised first, if it is older than the version in force
/// and that is what is taken. A fault of it is one of the other image still, and
/// comes behind those of one's own.
fn join_raised(own: &mut Held, other: &Held) -> Result<String, Stop> {
    if other.image.len() == IMAGE_SIZE || own.layout.version < Held::NEWEST.version {
        return join(own, other);
    }
    let asked = Asked::Join { other };
    done((own.calls.check)(&own.image), own, asked)?;
    let raised = raised(other).map_err(|answer| refused(answer.of_other(), own, asked))?;
    join(own, &raised)
}

/// An older image, raised to the version in force.
pub fn raise(old: &Held) -> Result<Held, Stop> {
    raised(old).map_err(|answer| refused(answer, old, Asked::Raise))
}

fn raised(old: &Held) -> Result<Held, Answer> {
    let mut image = vec![0; IMAGE_SIZE];
    match val_host::raise(&old.image, &mut image) {
        Answer::Ok => Ok(Held::new(&old.name, image)),
        answer => Err(answer),
    }
}

fn done(answer: Answer, own: &Held, asked: Asked) -> Result<String, Stop> {
    if answer.is_ok() {
        Ok(DONE.into())
    } else {
        Err(refused(answer, own, asked))
    }
}

fn refused(answer: Answer, own: &Held, asked: Asked) -> Stop {
    Stop::Refused(words::refused(answer, &words::of(answer, own, asked)))
}
