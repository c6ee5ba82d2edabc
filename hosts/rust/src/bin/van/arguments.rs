//! The words of a command line, or of a lesson's line: options, which may stand
//! anywhere, and the others, which are taken one after the other.

use std::collections::VecDeque;
use std::ffi::OsString;
use std::str::FromStr;

/// The options that have a value: `--day 2026-11-15` or `--day=2026-11-15`.
const VALUED: [&str; 4] = ["--van", "--homes", "--rule", "--day"];

/// The words that have not been taken yet, and the options that were.
pub struct Arguments {
    words: VecDeque<OsString>,
    options: Vec<(String, Option<OsString>)>,
    taken: Vec<String>,
}

impl Arguments {
    /// Behind `--` no word is an option.
    pub fn new(words: impl IntoIterator<Item = impl Into<OsString>>) -> Self {
        let mut words = words.into_iter().map(Into::into);
        let mut arguments =
            Arguments { words: VecDeque::new(), options: Vec::new(), taken: Vec::new() };
        while let Some(word) = words.next() {
            let name = word.to_string_lossy();
            if name == "--" {
                arguments.words.extend(words);
                break;
            }
            if name == "-h" {
                arguments.options.push(("--help".into(), None));
                continue;
            }
            if !name.starts_with("--") {
                arguments.words.push_back(word);
                continue;
            }
            let (name, value) = match name.split_once('=') {
                Some((name, value)) => (name.to_string(), Some(value.into())),
                None if VALUED.contains(&&*name) => (name.to_string(), words.next()),
                None => (name.to_string(), None),
            };
            arguments.options.push((name, value));
        }
        arguments
    }

    /// The first option of this name.
    fn take(&mut self, name: &str) -> Option<Option<OsString>> {
        let at = self.options.iter().position(|(option, _)| option == name)?;
        self.taken.push(name.into());
        Some(self.options.remove(at).1)
    }

    /// Takes an option that has no value: is it there?
    pub fn flag(&mut self, name: &str) -> Result<bool, String> {
        match self.take(name) {
            Some(Some(_)) => Err(format!("option {name} has no value")),
            flag => Ok(flag.is_some()),
        }
    }

    /// Takes an option's value.
    pub fn option(&mut self, name: &str) -> Result<Option<String>, String> {
        let Some(value) = self.take(name) else { return Ok(None) };
        let value = value.ok_or_else(|| format!("{name}: its value is missing"))?;
        text(name, value).map(Some)
    }

    /// The next word, if there is one.
    pub fn next(&mut self) -> Option<OsString> {
        self.words.pop_front()
    }

    /// The next word, called `what` in the usage.
    pub fn word(&mut self, what: &str) -> Result<OsString, String> {
        let word = self.next().filter(|word| !word.is_empty());
        word.ok_or_else(|| format!("{what} is missing"))
    }

    pub fn number<T: FromStr>(&mut self, what: &str, expected: &str) -> Result<T, String> {
        let word = self.word(what)?;
        number(what, expected, &text(what, word)?)
    }

    /// All words were taken.
    pub fn end(mut self) -> Result<(), String> {
        if let Some((option, _)) = self.options.first() {
            let twice = self.taken.contains(option);
            let why = if twice { "stands twice" } else { "is unknown here" };
            return Err(format!("option {option} {why}"));
        }
        match self.next() {
            Some(word) => Err(format!("'{}' is one word too many", word.to_string_lossy())),
            None => Ok(()),
        }
    }
}

/// A word that is read, and not passed on as a file's name.
pub fn text(what: &str, word: OsString) -> Result<String, String> {
    word.into_string().map_err(|word| format!("{what}: '{}' is no text", word.to_string_lossy()))
}

/// Plain digits, as large as the field holds. Whether there is such a user, crew
/// or cost is the library's to say.
pub fn number<T: FromStr>(what: &str, expected: &str, text: &str) -> Result<T, String> {
    let digits = text.bytes().all(|byte| byte.is_ascii_digit());
    let read = if digits { text.parse().ok() } else { None };
    read.ok_or_else(|| format!("{what}: expected {expected}, not '{text}'"))
}
