//! `van`: the ledger in the hand. Each command makes a record, calls the library
//! on the image of a file, and says in words what came back.
//!
//! It is a host, not part of what is proved: it shows how a host saves well.

mod arguments;
mod command;
mod costs;
mod dates;
mod faults;
mod files;
mod help;
mod lesson;
mod money;
mod run;
mod show;
mod words;

use arguments::{number, Arguments};
use command::{read_homes, Command, A_VAN, OWN_HOMES};
use files::Locked;
use help::Usage;
use run::{perform, raise, Held, Stop, DONE};
use std::env::args_os;
use std::ffi::{OsStr, OsString};
use std::io::{stderr, stdout, ErrorKind, Write};
use std::path::Path;
use std::process::ExitCode;
use val_host::IMAGE_SIZE;

fn main() -> ExitCode {
    let words: Vec<OsString> = args_os().skip(1).collect();
    let (text, stop) = run(words).unwrap_or_else(|stop| (String::new(), Some(stop)));
    // Whoever closes the pipe has read what it wanted.
    let printed = stdout().write_all(text.as_bytes()).and_then(|()| stdout().flush());
    let unprinted = printed.err().filter(|error| error.kind() != ErrorKind::BrokenPipe);
    let unprinted = unprinted
        .map(|error| Stop::File(format!("it is done, and the answer can't be printed: {error}")));
    match stop.or(unprinted) {
        Some(stop) => {
            // There is nobody to tell if this can't be printed either.
            let _ = writeln!(stderr(), "{stop}");
            ExitCode::from(stop.status())
        }
        None => ExitCode::SUCCESS,
    }
}

/// What is printed, and why it stopped there if it did.
type Outcome = Result<(String, Option<Stop>), Stop>;

fn run(words: Vec<OsString>) -> Outcome {
    let mut words = words.into_iter();
    let Some(name) = words.next() else {
        return Err(Stop::Usage("a command is missing: van --help lists them".into()));
    };
    let name = name.to_string_lossy();
    let mut words = Arguments::new(words);
    if ["--help", "-h", "help"].contains(&&*name) {
        return help_for(words).map(|text| (text, None));
    }
    let usage = find(&name)?;
    if words.flag("--help").map_err(Stop::Usage)? {
        return Ok((usage.help(), None));
    }
    let outcome = match usage.name {
        "new" => new(words).map(|text| (text, None)),
        "raise" => raise_file(words).map(|text| (text, None)),
        "play" => play(words),
        _ => on_file(usage.name, words).map(|text| (text, None)),
    };
    outcome.map_err(|stop| stop.with_usage(&usage.line()))
}

fn find(name: &str) -> Result<&'static Usage, Stop> {
    let no_command = || Stop::Usage(format!("'{name}' is no command: van --help lists them"));
    help::find(name).ok_or_else(no_command)
}

/// Of the command that is named, or the list of all.
fn help_for(mut words: Arguments) -> Result<String, Stop> {
    match words.next() {
        Some(name) => Ok(find(&name.to_string_lossy())?.help()),
        None => Ok(help::all()),
    }
}

fn new(mut words: Arguments) -> Result<String, Stop> {
    let mut read = || {
        let van = words.option("--van")?.ok_or("--van is missing")?;
        let homes = words.option("--homes")?;
        let homes = homes.map_or(Ok(OWN_HOMES), |list| read_homes("--homes", &list))?;
        Ok((words.word("FILE")?, number("--van", A_VAN, &van)?, homes))
    };
    let (file, van, homes) = read().map_err(Stop::Usage)?;
    words.end().map_err(Stop::Usage)?;
    let mut image = vec![0; IMAGE_SIZE];
    let answer = val_host::empty(&mut image, van, &homes);
    if !answer.is_ok() {
        let words = faults::wrong_van(van, &homes).unwrap_or(answer.meaning().into());
        return Err(Stop::Refused(words::refused(answer, &words)));
    }
    write_new(&file, &image)
}

fn raise_file(mut words: Arguments) -> Result<String, Stop> {
    let old = words.word("OLD").map_err(Stop::Usage)?;
    let new = words.word("NEW").map_err(Stop::Usage)?;
    words.end().map_err(Stop::Usage)?;
    let raised = raise(&held(&old)?)?;
    write_new(&new, &raised.image)
}

/// To a file that is not there yet.
fn write_new(file: &OsStr, image: &[u8]) -> Result<String, Stop> {
    let place = Locked::vacant(Path::new(file)).map_err(Stop::File)?;
    place.write(image).map_err(Stop::File)?;
    Ok(DONE.into())
}

fn held(file: &OsStr) -> Result<Held, Stop> {
    let path = Path::new(file);
    Ok(Held::new(path.display(), files::read(path).map_err(Stop::File)?))
}

fn play(mut words: Arguments) -> Outcome {
    let file = words.word("LESSON").map_err(Stop::Usage)?;
    words.end().map_err(Stop::Usage)?;
    let path = Path::new(&file);
    let lesson = files::read_lesson(path).map_err(Stop::File)?;
    Ok(lesson::play(&path.display().to_string(), &lesson))
}

/// A command on the image of a file, in which a new image takes the place of the
/// old one where it is another.
fn on_file(name: &str, words: Arguments) -> Result<String, Stop> {
    let (file, other, command) = read_on_file(name, words).map_err(Stop::Usage)?;
    let other = other.map(|other| held(&other)).transpose()?;
    if !command.writes() {
        return perform(&command, &mut held(&file)?, other.as_ref());
    }
    let path = Path::new(&file);
    let place = Locked::existing(path).map_err(Stop::File)?;
    let old = place.read().map_err(Stop::File)?;
    let mut own = Held::new(path.display(), old.clone());
    let text = perform(&command, &mut own, other.as_ref())?;
    if own.image != old {
        place.write(&own.image).map_err(Stop::File)?;
    }
    Ok(text)
}

fn read_on_file(
    name: &str,
    mut words: Arguments,
) -> Result<(OsString, Option<OsString>, Command), String> {
    let file = words.word("FILE")?;
    let other = if name == "join" { Some(words.word("OTHER")?) } else { None };
    let command = command::read(name, &mut words)?.ok_or("it is no command on a file")?;
    words.end()?;
    Ok((file, other, command))
}
