//! Every command by what it does and prints, and every wrong command line.

use crate::common::*;
use crate::{Folder, Ran};
use std::fs;
use val_host::text::text;

const DAY: u16 = 9815; // 2026-11-15
const OTHER_DAY: u16 = 9816;

/// Each of the ten actions makes the record that the documents describe.
#[test]
fn each_action_is_its_record() {
    let folder = Folder::new("actions");
    let mut image = Image::new_3(0, TWO_HOMES);
    folder.done("new v0 --van 0 --homes 0,0,0,0,1,1,1,1");
    assert_eq!(folder.bytes("v0"), image.0);

    let dated = |record| naming(DAY, record);
    let thirds = shares(&[(0, 300), (1, 600), (2, 1)]);
    let steps: [(&str, [u8; 40]); 17] = [
        ("found v0 0 0", found_under(1, 0, 0)),
        ("found v0 1 1 --rule 2", found_under(2, 1, 1)),
        ("add v0 0 1 0", add(0, 1, 0)),
        ("add v0 1 2 0", add(1, 2, 0)),
        ("enter v0 0 63 0:3.00 1:600c 2:1c --day 2026-11-15", dated(enter(0, 63, thirds))),
        ("enter v0 2 7 --day=2026-11-16 5:10000000.00", {
            naming(OTHER_DAY, enter(2, 7, shares(&[(5, 1_000_000_000)])))
        }),
        ("put-in v0 0 63 0", put_in(0, 0, 63)),
        ("take-out v0 0 63 0", take_out(0, 0, 63)),
        ("put-in v0 0 63 0", put_in(0, 0, 63)),
        ("acknowledge v0 1 63", acknowledge(1, 63)),
        ("change v0 0 63 0:0.00 1:8.01 2:1.00 --day 2026-11-16", {
            naming(OTHER_DAY, change(0, 63, shares(&[(1, 801), (2, 100)])))
        }),
        ("acknowledge v0 1 63", acknowledge(1, 63)),
        ("leave v0 2 0", leave(2, 0)),
        ("absorb v0 0 2 63", absorb(0, 2, 63)),
        ("acknowledge v0 0 63", acknowledge(0, 63)),
        ("leave v0 0 0", leave(0, 0)),
        ("delete v0 2 7", delete(2, 7)),
    ];
    for (line, record) in steps {
        assert_eq!(image.act(&record), 0, "{line}");
        folder.done(line);
        assert_eq!(folder.bytes("v0"), image.0, "{line}");
    }
    assert_eq!(folder.names(), ["v0"]);
}

/// C1, as the README has it, and what can be seen of it.
fn c1(name: &str) -> Folder {
    let folder = Folder::new(name);
    let lines = "new v0 --van 0 && new v1 --van 1
        found v0 0 0 && add v0 0 1 0
        enter v0 0 0 0:3.00 1:6.00 --day 2026-11-15 && put-in v0 0 0 0
        join v1 v0 && acknowledge v1 1 0
        join v0 v1 && leave v0 0 0";
    lines.lines().flat_map(|line| line.split("&&")).for_each(|line| folder.done(line));
    folder
}

const C1: &str = "\
van 0
crew 0 members 1 costs 1 gifts 600
user 0 counter 2 raw 600 gift 600 part 0 balance 0
user 1 counter 1 raw -600 gift 0 part 600 balance 0
";

#[test]
fn statements_are_the_papers_lines() {
    let folder = c1("statement");
    assert_eq!(folder.shows("statement v0"), C1);
    assert_eq!(folder.shows("statement v0").as_bytes(), text(&folder.bytes("v0")));
    assert_eq!(folder.shows("statement v0 0"), C1.strip_prefix("van 0\n").unwrap());
    folder.done("found v0 0 1 --rule 2");
    assert!(folder.shows("statement v0").starts_with(C1));
    assert_eq!(folder.shows("statement v0").as_bytes(), text(&folder.bytes("v0")));
}

#[test]
fn a_table_is_for_people() {
    let folder = c1("table");
    let crew = "\
crew 0 (rule 1, gifts in equal parts): 1 member, 1 valid cost, gifts 6.00
user  member    raw  gift  part  balance
   0    left   6.00  6.00  0.00     0.00
   1     yes  -6.00  0.00  6.00     0.00
";
    assert_eq!(folder.shows("statement v0 0 --table"), crew);
    folder.done("found v0 0 1 --rule 2");
    let second = "\
crew 1 (rule 2, gifts by use): 1 member, 0 valid costs, gifts 0.00
user  member   raw  gift  part  balance
   0     yes  0.00  0.00  0.00     0.00
";
    assert_eq!(folder.shows("statement --table v0"), format!("van 0\n\n{crew}\n{second}"));
}

#[test]
fn figures_are_in_euros_and_cents() {
    let folder = c1("figures");
    assert_eq!(folder.shows("pay v0 0"), "nobody pays\n");
    assert_eq!(folder.shows("pay v1 0"), "user 1 pays user 0 6.00\n");
    let november = "crew 0 month 2026-11\nuser 0 raw 6.00\nuser 1 raw -6.00\n";
    assert_eq!(folder.shows("month v0 0 2026-11"), november);
    let december = "crew 0 month 2026-12\nuser 0 raw 0.00\nuser 1 raw 0.00\n";
    assert_eq!(folder.shows("month v0 0 2026-12"), december);
    folder.done("found v0 0 1");
    let balances = "\
crew  user 0  user 1  user 2  user 3  user 4  user 5  user 6  user 7
   0    0.00    0.00       -       -       -       -       -       -
   1    0.00       -       -       -       -       -       -       -
";
    assert_eq!(folder.shows("balances v0"), balances);
    let balances = "\
crew  user 0  user 1  user 2  user 3  user 4  user 5  user 6  user 7
   0    6.00   -6.00       -       -       -       -       -       -
";
    assert_eq!(folder.shows("balances v1"), balances);
    assert_eq!(folder.shows("check v0"), "sound: van 0, version 3, 2 crews, 1 cost\n");
    assert_eq!(folder.shows("check v1"), "sound: van 1, version 3, 1 crew, 1 cost\n");
}

#[test]
fn a_cost_says_for_whom_it_waits() {
    let folder = c1("cost");
    let valid = "cost 0: 9.00 paid by user 0, on 2026-11-15, version 1, in crew 0, valid\n";
    let acknowledged = "user 0 share 3.00 acknowledged\nuser 1 share 6.00 acknowledged\n";
    assert_eq!(folder.shows("cost v0 0"), format!("{valid}{acknowledged}"));
    folder.done("enter v0 0 2 0:0.01 3:4.99 --day 2000-01-01");
    let second = "cost 2: 5.00 paid by user 0, on 2000-01-01, version 0, in no crew\n";
    assert_eq!(folder.shows("cost v0"), format!("{valid}{second}"));
    let two_shares = "user 0 share 0.01 acknowledged\nuser 3 share 4.99 not acknowledged\n";
    assert_eq!(folder.shows("cost v0 2"), format!("{second}{two_shares}"));
    folder.done("delete v0 0 2");
    let deleted = "cost 2: 5.00 paid by user 0, on 2000-01-01, version 1, in no crew, deleted\n";
    assert_eq!(folder.shows("cost v0 2"), format!("{deleted}{two_shares}"));

    // Small shares, in a crew of rule 2, and an undated cost for two others.
    let waiting = Expense {
        payer: 0,
        group: 1,
        acknowledged: 0,
        version: 9,
        shares: shares(&[(0, 500), (1, 501), (2, 502)]),
        ..PLAIN
    };
    let image = Image::new_3(0, OWN_HOMES).counters(1, [1, 1, 1, 0, 0, 0, 0, 0]).rule(1, 2);
    folder.put("v0", &image.expense(5, waiting).sound().0);
    let waits = "\
cost 5: 15.03 paid by user 0, undated, version 9, in crew 1, waits for users 1, 2
user 0 share 5.00 small, needs no acknowledgement
user 1 share 5.01 not acknowledged
user 2 share 5.02 not acknowledged
";
    assert_eq!(folder.shows("cost v0 5"), waits);
    assert_eq!(folder.van("cost v0 6"), Ran::stopped(1, "cost 6 is absent"));
    folder.done("new v2 --van 2");
    assert_eq!(folder.shows("cost v2"), "no costs\n");
    let none = Ran::stopped(1, "there is no cost 512: costs are 0 to 511");
    assert_eq!(folder.van("cost v0 512"), none);
}

#[test]
fn a_join_takes_the_other_over() {
    let folder = c1("join");
    let other = folder.bytes("v1");
    folder.done("join v1 v0");
    assert_ne!(folder.bytes("v1"), other);
    assert_eq!(folder.bytes("v1")[16..], folder.bytes("v0")[16..]);
    // With itself, and with what it has already, it stays as it is.
    let own = folder.bytes("v1");
    folder.done("join v1 v1");
    folder.done("join v1 v0 --raised");
    assert_eq!(folder.bytes("v1"), own);
}

#[test]
fn older_images_are_raised() {
    let folder = Folder::new("raise");
    let members = [1, 1, 0, 0, 0, 0, 0, 0];
    let old = [Image::new(0, OWN_HOMES), Image::new_2(0, OWN_HOMES).rule(0, 2)];
    let old = old.map(|image| image.counters(0, members).expense(0, PLAIN).sound());
    for old in old {
        let raised = old.raised_to_3();
        folder.put("old", &old.0);
        folder.done("raise old new");
        assert_eq!((folder.bytes("new"), folder.bytes("old")), (raised.0.clone(), old.0));
        folder.done("new v1 --van 1");
        folder.done("join v1 old --raised");
        assert_eq!(folder.bytes("v1")[16..], raised.0[16..]);
        ["new", "v1"].iter().for_each(|name| fs::remove_file(folder.path(name)).unwrap());
    }
}

#[test]
fn each_command_has_help_and_an_example() {
    let folder = c1("help");
    folder.put("old", &Image::new(0, OWN_HOMES).0);
    let all = folder.shows("--help");
    assert_eq!((folder.shows("help"), folder.shows("-h")), (all.clone(), all.clone()));
    let missing = Ran::stopped(2, "van: a command is missing: van --help lists them");
    assert_eq!(folder.van(""), missing);
    let usages: Vec<&str> = all.lines().filter_map(|line| line.strip_prefix("  van ")).collect();
    assert_eq!(usages.len(), 20);
    for usage in usages {
        let name = usage.split_whitespace().next().unwrap();
        let help = folder.shows(&format!("{name} --help"));
        assert_eq!(folder.shows(&format!("{name} -h")), help);
        assert_eq!(folder.shows(&format!("help {name}")), help);
        assert!(help.starts_with(&format!("van {usage}\n\n")), "{help}");
        let (_, example) = help.split_once("\n\nexample: van ").unwrap();
        assert!(example.starts_with(&format!("{name} ")), "{example}");
        // What stops it is a reason of its own, never the way it is written.
        assert_ne!(folder.van(example).status, 2, "{example}");
    }
}

#[test]
fn a_wrong_command_line_says_what_was_expected() {
    let folder = c1("wrong");
    let before = (folder.bytes("v0"), folder.names());
    let money = "expected euros and cents as 12.50, or cents as 1250c";
    let day = "expected a day as 2026-11-15, from 2000-01-01 to 2099-12-31";
    let month = "expected a month as 2026-11, from 2000-01 to 2099-12";
    let lines = [
        ("frob v0", "'frob' is no command: van --help lists them".to_string()),
        ("found", "FILE is missing".into()),
        ("found v0 0", "CREW is missing".into()),
        ("found v0 0 1 2", "'2' is one word too many".into()),
        ("found v0 x 1", "USER: expected a user, 0 to 7, not 'x'".into()),
        ("found v0 -1 1", "USER: expected a user, 0 to 7, not '-1'".into()),
        ("found v0 +1 1", "USER: expected a user, 0 to 7, not '+1'".into()),
        ("found v0 256 1", "USER: expected a user, 0 to 7, not '256'".into()),
        ("found v0 0 1 --rule", "--rule: its value is missing".into()),
        ("found v0 0 1 --rule x", "--rule: expected rule 1 or 2, not 'x'".into()),
        ("found v0 0 1 --rule 1 --rule 2", "option --rule stands twice".into()),
        ("leave v0 0 0 --rule 1", "option --rule is unknown here".into()),
        ("leave v0 0 0 --fast", "option --fast is unknown here".into()),
        ("statement v0 --table=no", "option --table has no value".into()),
        ("add v0 0 1 256", "CREW: expected a crew, 0 to 15, not '256'".into()),
        ("delete v0 0 65536", "COST: expected a cost, 0 to 511, not '65536'".into()),
        ("enter v0 0 1 0:3.00", "--day is missing".into()),
        ("enter v0 0 1 0:3.00 --day 15.11.2026", format!("--day: {day}, not '15.11.2026'")),
        ("enter v0 0 1 0:3.00 --day 2026-11-31", format!("--day: {day}, not '2026-11-31'")),
        ("enter v0 0 1 0:3.00 --day 2100-01-01", format!("--day: {day}, not '2100-01-01'")),
        ("enter v0 0 1 0:3 --day 2026-11-15", format!("USER:SHARE: {money}, not '0:3'")),
        ("enter v0 0 1 0:3.005 --day 2026-11-15", format!("USER:SHARE: {money}, not '0:3.005'")),
        ("enter v0 0 1 0:-3.00 --day 2026-11-15", format!("USER:SHARE: {money}, not '0:-3.00'")),
        (
            "enter v0 0 1 0:42949672.96 --day 2026-11-15",
            "USER:SHARE: expected at most 42949672.95, not '0:42949672.96'".into(),
        ),
        (
            "change v0 0 0 3.00 --day 2026-11-15",
            "USER:SHARE: expected a user and a share as 1:6.00, not '3.00'".into(),
        ),
        (
            "change v0 0 0 8:3.00 --day 2026-11-15",
            "USER:SHARE: expected a user, 0 to 7, not '8'".into(),
        ),
        (
            "change v0 0 0 0:3.00 0:4.00 --day 2026-11-15",
            "USER:SHARE: user 0 has two shares".into(),
        ),
        ("month v0 0", "MONTH is missing".into()),
        ("month v0 0 11", format!("MONTH: {month}, not '11'")),
        ("month v0 0 1999-12", format!("MONTH: {month}, not '1999-12'")),
        ("join v0", "OTHER is missing".into()),
        ("raise v0", "NEW is missing".into()),
        ("new v2", "--van is missing".into()),
        ("new v2 --van two", "--van: expected a van, 0 to 7, not 'two'".into()),
        (
            "new v2 --van 2 --homes 0,1",
            "--homes: expected eight vans as 0,1,2,3,4,5,6,7, not '0,1'".into(),
        ),
        (
            "new v2 --van 2 --homes 0,1,2,3,4,5,6,x",
            "--homes: expected a van, 0 to 7, not 'x'".into(),
        ),
        ("statement v0 0 1", "'1' is one word too many".into()),
        ("play", "LESSON is missing".into()),
    ];
    for (line, words) in lines {
        let ran = folder.van(line);
        assert_eq!((ran.status, ran.out.as_str()), (2, ""), "{line}");
        assert_eq!(ran.err.lines().next(), Some(&*format!("van: {words}")), "{line}");
        let name = line.split_whitespace().next().unwrap();
        if name != "frob" {
            let usage = folder.shows(&format!("{name} --help")).lines().next().unwrap().to_string();
            assert_eq!(ran.err.lines().nth(1), Some(&*format!("usage: {usage}")));
        }
    }
    assert_eq!((folder.bytes("v0"), folder.names()), before);
}
