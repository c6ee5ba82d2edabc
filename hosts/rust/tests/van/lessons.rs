//! Lessons: those that come with the ledger hold and can fail, and every form of
//! a line.

use crate::{Folder, Ran};
use std::fs;
use std::path::Path;

/// The lessons of examples/lessons, by name.
fn lessons() -> Vec<(String, String)> {
    let folder = Path::new(env!("CARGO_MANIFEST_DIR")).join("../../examples/lessons");
    let files = fs::read_dir(folder).unwrap().map(|entry| entry.unwrap().path());
    let lessons = files.filter(|path| path.extension().is_some_and(|ending| ending == "txt"));
    let name = |path: &Path| path.file_name().unwrap().to_str().unwrap().to_string();
    lessons.map(|path| (name(&path), fs::read_to_string(&path).unwrap())).collect()
}

/// Each holds; with any one of its expectations altered, it stops there.
#[test]
fn the_lessons_hold_and_can_fail() {
    let folder = Folder::new("lessons");
    let lessons = lessons();
    assert!(lessons.len() >= 4);
    for (name, lesson) in &lessons {
        folder.put(name, lesson.as_bytes());
        let played = folder.shows(&format!("play {name}"));
        let expects = lesson.lines().filter(|line| line.starts_with("expect "));
        let expects = expects.count();
        assert!(expects >= 10, "{name}");
        assert!(played.ends_with(&format!(" {expects} expectations held\n")), "{name}");
        for (at, line) in lesson.lines().enumerate() {
            assert!(played.contains(line.trim_end()), "{name}: {line}");
            if !line.starts_with("expect ") {
                continue;
            }
            let altered: Vec<&str> = lesson
                .lines()
                .enumerate()
                .map(|(number, line)| if number == at { "expect something else" } else { line })
                .collect();
            folder.put("altered", altered.join("\n").as_bytes());
            let ran = folder.van("play altered");
            let place = format!("altered:{}: expected 'something else', and there is ", at + 1);
            assert_eq!(ran.status, 1, "{name}");
            assert!(ran.err.starts_with(&place), "{name}: {}", ran.err);
            assert_eq!(ran.out.lines().last().map(str::trim_end), {
                let line = format!("{:>3}  expect something else", at + 1);
                Some(line).as_deref()
            });
        }
    }
}

#[track_caller]
fn played(lesson: &str) -> Ran {
    let name = std::panic::Location::caller().line();
    let folder = Folder::new(&format!("lesson-{name}"));
    folder.put("lesson", lesson.as_bytes());
    let ran = folder.van("play lesson");
    assert_eq!(folder.names(), ["lesson"]);
    ran
}

#[test]
fn each_answer_stands_beside_its_line() {
    let lesson = "\
# A crew and a cost.
homes 0,0,1,1,2,2,3,3

0: found 0 0   # rule 1
0: found 0 0
expect refused 9
0: add 0 1 0
0:statement
expect van 0
1: join 0
1: cost 0
expect cost 0 is absent
";
    let text = "  \
  1  # A crew and a cost.
  2  homes 0,0,1,1,2,2,3,3
  3
  4  0: found 0 0   # rule 1  done
  5  0: found 0 0             refused 9: crew 0 is there already
  6  expect refused 9         holds
  7  0: add 0 1 0             done
  8  0:statement
       van 0
       crew 0 members 2 costs 0 gifts 0
       user 0 counter 1 raw 0 gift 0 part 0 balance 0
       user 1 counter 1 raw 0 gift 0 part 0 balance 0
  9  expect van 0             holds
 10  1: join 0                done
 11  1: cost 0                cost 0 is absent
 12  expect cost 0 is absent  holds
6 commands played, 3 expectations held
";
    assert_eq!(played(lesson), Ran { status: 0, out: text.into(), err: String::new() });
}

/// Spaces at the ends don't count, an empty line is one, and some editors' mark at
/// the beginning is none.
#[test]
fn tables_can_be_expected() {
    let lesson = "\u{feff}0: found 0 0\n\
        expect\tdone\n\
        0: statement --table\n\
        expect van 0\n\
        expect\n\
        expect crew 0 (rule 1, gifts in equal parts): 1 member, 0 valid costs, gifts 0.00\n\
        expect user  member   raw  gift  part  balance\n\
        expect 0     yes  0.00  0.00  0.00     0.00\n\
        expect nothing more\n";
    let ran = played(lesson);
    assert_eq!((ran.status, ran.err.as_str()), (0, ""), "{}", ran.out);
    assert!(ran.out.ends_with("2 commands played, 7 expectations held\n"));
    assert!(played("0: found 0 0\nexpect done\n")
        .out
        .ends_with("1 command played, 1 expectation held\n"));
}

/// An expectation is about one line of the last answer, whole.
#[test]
fn expectations_fail() {
    let fails = |lesson: &str, words: &str| {
        let line = lesson.lines().count();
        let ran = played(lesson);
        assert_eq!(ran.status, 1, "{lesson}");
        assert_eq!(ran.err, format!("lesson:{line}: {words}\n"), "{lesson}");
    };
    let crew = "0: found 0 0\n";
    let nine = "'refused 9: crew 0 is there already'";
    fails(&format!("{crew}expect refused 9"), "expected 'refused 9', and there is 'done'");
    fails(&format!("{crew}expect don"), "expected 'don', and there is 'done'");
    fails(&format!("{crew}expect done\nexpect done"), "expected 'done', and there is nothing more");
    fails(&format!("{crew}expect nothing more"), "expected 'nothing more', and there is 'done'");
    fails(&format!("{crew}{crew}expect done"), &format!("expected 'done', and there is {nine}"));
    for part in ["refused", "refused 90", "refused 9:", "refused 9: crew 0"] {
        let words = format!("expected '{part}', and there is {nine}");
        fails(&format!("{crew}{crew}expect {part}"), &words);
    }
    let lines = "expect van 0\nexpect user 0 counter 1 raw 0 gift 0 part 0 balance 0";
    let found = "'crew 0 members 1 costs 0 gifts 0'";
    let words =
        format!("expected 'user 0 counter 1 raw 0 gift 0 part 0 balance 0', and there is {found}");
    fails(&format!("{crew}0: statement\n{lines}"), &words);
}

#[test]
fn a_line_that_is_none_stops_it() {
    let forms = "expected VAN: COMMAND, expect LINE, homes LIST or # (see van play --help)";
    let late = "homes and versions come before the first command";
    let lines = [
        ("found 0 0", forms),
        ("0:", forms),
        ("8: found 0 0", "VAN: expected a van, 0 to 7, not '8'"),
        ("x: found 0 0", "VAN: expected a van, 0 to 7, not 'x'"),
        ("0: frob 0 0", "'frob' is no command of a lesson"),
        ("0: play lesson", "'play' is no command of a lesson"),
        ("0: new v0 --van 0", "'new' is no command of a lesson"),
        ("expect done", "there is no answer yet"),
        ("expect nothing more", "there is no answer yet"),
        ("0: found 0", "CREW is missing\nusage: VAN: found USER CREW [--rule RULE]"),
        ("0: join", "OTHER is missing\nusage: VAN: join OTHER [--raised]"),
        (
            "0: join monday",
            "OTHER: expected a van, 0 to 7, or a kept image, not 'monday'\n\
             usage: VAN: join OTHER [--raised]",
        ),
        ("0: raise 1", "'1' is one word too many\nusage: VAN: raise"),
        ("0: keep", "NAME is missing"),
        ("0: keep 1", "NAME: expected a name that begins with a letter, not '1'"),
        ("0: version 3", "version: expected 1 or 2, not '3'"),
        ("homes 0,1", "homes: expected eight vans as 0,1,2,3,4,5,6,7, not '0,1'"),
        ("homes 0,1,2,3,4,5,6,8", "user 7's home is van 8: vans are 0 to 7"),
        ("0: check\nhomes 0,0,0,0,0,0,0,0", late),
        ("0: check\n1: version 1", late),
        ("0: enter 0 0 0:1.00", "--day is missing"),
        ("0: version 1\n0: found 0 0 --rule 1", "the van's version has no rules: leave --rule out"),
        (
            "0: version 2\n0: enter 0 0 0:1.00 --day 2000-01-01",
            "the van's version has no days: leave --day out",
        ),
    ];
    for (lesson, words) in lines {
        let line = lesson.lines().count();
        let ran = played(lesson);
        assert_eq!(ran.status, 2, "{lesson}");
        assert_eq!(ran.err, format!("van: lesson:{line}: {words}\n"), "{lesson}");
    }
}

/// Older vans: their own library until they are raised.
#[test]
fn older_vans_are_served_until_they_are_raised() {
    let lesson = "\
homes 0,1,2,3,4,5,6,7
1: version 1
2: version 2
2: found 2 4 --rule 2
expect done
2: enter 2 128 2:1.00
expect done
1: found 1 2
1: keep older
expect done
1: join 2
expect refused 41: van 2's image has the length of version 2, and version 1 is taken
1: join 2 --raised
expect refused 41: van 2's image has the length of version 2, and version 1 is taken
2: join 1
expect refused 41: van 1's image has the length of version 1 and has to be raised first
2: join older
expect refused 41: older has the length of version 1 and has to be raised first
2: check
expect sound: van 2, version 2, 1 crew, 1 cost
2: pay 4
expect nobody pays
2: balances
expect refused 1: van 2's image has the length of version 2 and has to be raised first
0: join older --raised
expect done
1: raise
2: raise
1: join 2
expect done
1: found 1 3 --rule 2
expect done
1: check
expect sound: van 1, version 3, 3 crews, 1 cost
";
    let ran = played(lesson);
    assert_eq!((ran.status, ran.err.as_str()), (0, ""), "{}", ran.out);
}
