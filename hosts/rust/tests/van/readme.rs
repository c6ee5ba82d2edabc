//! C1 as the README has it: six lines for a shell, and what they print.

use crate::Folder;
use std::env;
use std::fs;
use std::path::Path;
use std::process::Command;

#[test]
fn the_readme_plays_c1_in_six_lines() {
    let root = Path::new(env!("CARGO_MANIFEST_DIR")).join("../..");
    let readme = fs::read_to_string(root.join("README.md")).unwrap();
    let (_, call_it) = readme.split_once("\n## Call it\n").unwrap();
    let (_, lines) = call_it.split_once("```sh\n").unwrap();
    let (lines, _) = lines.split_once("```").unwrap();
    assert_eq!(lines.lines().count(), 6);

    let folder = Folder::new("readme");
    let van = Path::new(env!("CARGO_BIN_EXE_van")).parent().unwrap();
    let path = format!("{}:{}", van.display(), env::var("PATH").unwrap());
    let shell = Command::new("sh")
        .args(["-e", "-c", lines])
        .env("PATH", path)
        .current_dir(&folder.0)
        .output()
        .unwrap();
    assert!(shell.status.success() && shell.stderr.is_empty());
    let printed = String::from_utf8(shell.stdout).unwrap();
    let statement = printed.trim_start_matches("done\n");
    assert_eq!(printed.len() - statement.len(), "done\n".len() * 10);

    // The statement that the README shows above, indented.
    let shown: String = statement.lines().map(|line| format!("    {line}\n")).collect();
    assert_eq!(statement.lines().count(), 4);
    assert!(readme.contains(&format!("\n\n{shown}\n")), "{shown}");
}
