//! The program `van`, run as a person runs it: every command, every refusal's
//! words, wrong command lines, files, lessons, and whatever comes up at random.

#[path = "../common/mod.rs"]
mod common;

mod commands;
mod faults;
mod files;
mod lessons;
mod random;
mod readme;
mod refusals;

use std::fs;
use std::path::{Path, PathBuf};
use std::process::{Command, Output, Stdio};

/// A folder of a test's own, in which `van` runs.
struct Folder(PathBuf);

/// How a run ended.
#[derive(Clone, Debug, PartialEq)]
struct Ran {
    status: i32,
    out: String,
    err: String,
}

impl Folder {
    fn new(name: &str) -> Self {
        let path = Path::new(env!("CARGO_TARGET_TMPDIR")).join(name);
        let _ = fs::remove_dir_all(&path);
        fs::create_dir_all(&path).unwrap();
        Folder(path)
    }

    fn path(&self, name: &str) -> PathBuf {
        self.0.join(name)
    }

    fn command(&self, line: &str) -> Command {
        let mut command = Command::new(env!("CARGO_BIN_EXE_van"));
        command.current_dir(&self.0).args(line.split_whitespace()).stdin(Stdio::null());
        command
    }

    fn van(&self, line: &str) -> Ran {
        Ran::of(self.command(line).output().unwrap())
    }

    /// Runs a command that is done, and hands back what it prints.
    #[track_caller]
    fn shows(&self, line: &str) -> String {
        let Ran { status, out, err } = self.van(line);
        assert_eq!((status, err.as_str()), (0, ""), "{line}");
        out
    }

    #[track_caller]
    fn done(&self, line: &str) {
        assert_eq!(self.shows(line), "done\n", "{line}");
    }

    fn put(&self, name: &str, bytes: &[u8]) {
        fs::write(self.path(name), bytes).unwrap();
    }

    fn bytes(&self, name: &str) -> Vec<u8> {
        fs::read(self.path(name)).unwrap()
    }

    /// The files that there are, hidden ones too.
    fn names(&self) -> Vec<String> {
        let entries = fs::read_dir(&self.0).unwrap();
        let name = |entry: std::io::Result<fs::DirEntry>| entry.unwrap().file_name();
        let mut names: Vec<_> = entries.map(|e| name(e).into_string().unwrap()).collect();
        names.sort();
        names
    }
}

impl Drop for Folder {
    fn drop(&mut self) {
        let _ = fs::remove_dir_all(&self.0);
    }
}

impl Ran {
    fn of(output: Output) -> Self {
        Ran {
            status: output.status.code().expect("it ended by itself"),
            out: String::from_utf8(output.stdout).unwrap(),
            err: String::from_utf8(output.stderr).unwrap(),
        }
    }

    /// Nothing is printed but the words of a stop.
    fn stopped(status: i32, words: &str) -> Self {
        Ran { status, out: String::new(), err: format!("{words}\n") }
    }
}
