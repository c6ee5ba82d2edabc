//! Every refusal in words, with the figures that decided it. Status 1, and no
//! byte of any file is another.

use crate::common::*;
use crate::faults;
use crate::{Folder, Ran};
use std::collections::BTreeSet;
use val_host::Answer;

/// What stands in the files v0 and v1, a command line, and the number and words
/// that refuse it.
#[derive(Clone, Copy)]
pub struct Case<'a> {
    pub own: &'a [u8],
    pub other: &'a [u8],
    pub line: &'a str,
    pub number: u32,
    pub words: &'a str,
}

const NOTHING: &[u8] = &[];

pub fn on<'a>(own: &'a Image, line: &'a str, number: u32, words: &'a str) -> Case<'a> {
    Case { own: &own.0, other: NOTHING, line, number, words }
}

pub fn joined<'a>(own: &'a Image, other: &'a Image, number: u32, words: &'a str) -> Case<'a> {
    Case { own: &own.0, other: &other.0, line: "join v0 v1", number, words }
}

/// Runs the cases, and tells which numbers came up.
pub fn refused(name: &str, cases: &[Case]) -> BTreeSet<u32> {
    let folder = Folder::new(name);
    for &Case { own, other, line, number, words } in cases {
        folder.put("v0", own);
        folder.put("v1", other);
        let refusal = Ran::stopped(1, &format!("refused {number}: {words}"));
        assert_eq!(folder.van(line), refusal, "{line}");
        assert_eq!((folder.bytes("v0"), folder.bytes("v1")), (own.to_vec(), other.to_vec()));
        assert_eq!(folder.names(), ["v0", "v1"], "{line}");
    }
    cases.iter().map(|case| case.number).collect()
}

/// Van 0 with users 0 and 1 in crew 0; user 2 has left it, user 3 never belonged.
fn crew() -> Image {
    Image::new_3(0, TWO_HOMES).counters(0, [1, 1, 2, 0, 1, 0, 0, 0]).rule(0, 1)
}

fn in_crew(acknowledged: u8, of: &[(usize, u32)]) -> Expense {
    Expense { group: 0, acknowledged, shares: shares(of), ..PLAIN }
}

// ---- actions -------------------------------------------------------------------

/// 6 to 14, and 34: the record, users and crews.
fn of_crews() -> BTreeSet<u32> {
    let crew = crew();
    // User 0 holds 80.00 that user 1 paid.
    let owing = crew.clone().expense(0, Expense { payer: 1, ..in_crew(1, &[(0, 8000)]) }).sound();
    let pending = crew.clone().expense(3, in_crew(1, &[(0, 8000), (1, 1), (4, 1)])).sound();
    let small = crew.clone().rule(0, 2).expense(3, in_crew(0, &[(0, 500), (1, 501)])).sound();
    let full = crew.clone().counter(0, 0, 65_535);
    refused(
        "crews",
        &[
            on(&crew, "found v0 8 0", 6, "there is no user 8: users are 0 to 7"),
            on(&crew, "add v0 0 255 0", 6, "there is no user 255: users are 0 to 7"),
            on(&crew, "found v0 0 16", 6, "there is no crew 16: crews are 0 to 15"),
            on(&crew, "delete v0 0 512", 6, "there is no cost 512: costs are 0 to 511"),
            on(&crew, "found v0 0 1 --rule 3", 6, "there is no rule 3: rules are 1 and 2"),
            on(&crew, "found v0 0 1 --rule 0", 6, "there is no rule 0: rules are 1 and 2"),
            on(&crew, "leave v0 4 0", 7, "user 4's home is van 1, and this is van 0"),
            on(&crew, "found v0 0 2", 8, "crew 2 is for van 1 to found, and this is van 0"),
            on(&crew, "found v0 3 0", 9, "crew 0 is there already"),
            on(&crew, "add v0 0 1 5", 10, "crew 5 is absent"),
            on(&crew, "leave v0 3 1", 10, "crew 1 is absent"),
            on(&crew, "add v0 2 3 0", 11, "user 2 is no member of crew 0"),
            on(&crew, "leave v0 3 0", 11, "user 3 is no member of crew 0"),
            on(&crew, "add v0 0 4 0", 12, "user 4 is a member of crew 0 already"),
            on(&owing, "leave v0 0 0", 13, "user 0's raw balance in crew 0 is below zero (-80.00)"),
            on(
                &pending,
                "leave v0 0 0",
                34,
                "user 0's share of 80.00 in cost 3 waits for users 1, 4",
            ),
            on(&small, "leave v0 0 0", 34, "user 0's share of 5.00 in cost 3 waits for user 1"),
            on(
                &full,
                "leave v0 0 0",
                14,
                "user 0's counter in crew 0 is 65,535, the last there is",
            ),
        ],
    )
}

/// 15 to 29: costs.
fn of_costs() -> BTreeSet<u32> {
    let crew = crew();
    let free = crew.clone().expense(0, PLAIN).sound();
    let of_stranger = Expense { acknowledged: 0, shares: shares(&[(3, 450)]), ..PLAIN };
    let stranger = crew.clone().expense(0, of_stranger).sound();
    let held = in_crew(1, &[(0, 300), (1, 600), (2, 5)]);
    let held = crew.clone().expense(0, held).expense(1, Expense { group: 0, ..PLAIN }).sound();
    let deleted = crew.clone().expense(0, Expense { deleted: 1, ..PLAIN }).sound();
    let left = crew.clone().counter(0, 0, 2).expense(0, in_crew(1, &[(0, 1)])).sound();
    let last = held.clone().expense(0, Expense { version: TOP, ..in_crew(1, &[(0, 1)]) }).sound();
    let many = "0:10000000.00 1:0.01";
    let of_total = "the shares total 10000000.01: expected 0.01 to 10000000.00";
    let day = "--day 2026-11-15";
    let enter = |cost: u32, of: &str| format!("enter v0 0 {cost} {of} {day}");
    let change = |of: &str| format!("change v0 0 0 {of} {day}");
    let last_version = "cost 0 has version 4,294,967,295, the last there is";
    refused(
        "costs",
        &[
            on(&crew, &enter(64, "0:1c"), 15, "cost 64 is for van 1 to enter, and this is van 0"),
            on(&free, &enter(0, "0:1c"), 16, "cost 0 is there already"),
            on(&crew, "put-in v0 0 9 0", 17, "cost 9 is absent"),
            on(&crew, "acknowledge v0 0 511", 17, "cost 511 is absent"),
            on(&free, "delete v0 1 0", 18, "cost 0 was paid by user 0, not by user 1"),
            on(&crew, &enter(1, ""), 19, "the shares total 0.00: expected 0.01 to 10000000.00"),
            on(&crew, &enter(1, many), 19, of_total),
            on(&free, &change(many), 19, of_total),
            on(&held, "put-in v0 0 0 0", 21, "cost 0 is in crew 0 already"),
            on(&free, "take-out v0 0 0 0", 22, "cost 0 is in no crew"),
            on(
                &held.clone().counter(1, 0, 1).rule(1, 1),
                "take-out v0 0 0 1",
                22,
                "cost 0 is in crew 0, not in crew 1",
            ),
            on(&free, "acknowledge v0 0 0", 22, "cost 0 is in no crew"),
            on(
                &stranger,
                "put-in v0 0 0 0",
                23,
                "user 3 has a share of 4.50 and is no member of crew 0",
            ),
            on(
                &held,
                &change("0:1.00 2:0.07"),
                23,
                "user 2 would have a share of 0.07 and is no member of crew 0",
            ),
            on(&deleted, "delete v0 0 0", 24, "cost 0 is deleted"),
            on(
                &held.clone().expense(1, PLAIN),
                "acknowledge v0 2 0",
                11,
                "user 2 is no member of crew 0",
            ),
            on(&left, "delete v0 0 0", 11, "user 0 is no member of crew 0"),
            on(&held, "absorb v0 0 3 0", 25, "user 3 has no share in cost 0"),
            on(
                &crew.clone().expense(0, in_crew(1, &[(0, 1)])).sound(),
                "acknowledge v0 1 0",
                25,
                "user 1 has no share in cost 0",
            ),
            on(&held, "acknowledge v0 0 0", 26, "user 0 has acknowledged cost 0 already"),
            on(
                &crew.clone().expense(0, in_crew(2, &[(0, 1), (1, 1)])).sound(),
                "absorb v0 0 1 0",
                26,
                "user 1 has acknowledged cost 0 already",
            ),
            on(&last, &change("0:2c"), 27, last_version),
            on(&last, "take-out v0 0 0 0", 27, last_version),
            on(&held, "absorb v0 0 1 0", 28, "user 1 is still a member of crew 0"),
            on(&held, "absorb v0 0 0 0", 29, "user 0 can't absorb a share from themselves"),
        ],
    )
}

// ---- joins and figures ----------------------------------------------------------

/// 30 and 31.
fn of_joins() -> BTreeSet<u32> {
    let own = crew().expense(7, PLAIN).sound();
    let others = Image::new_3(1, OWN_HOMES);
    let other_rule = Image::new_3(1, TWO_HOMES).counter(0, 0, 1).rule(0, 2);
    let at = |expense| Image::new_3(1, TWO_HOMES).expense(7, expense).sound();
    let other_share = at(Expense { shares: shares(&[(0, 301), (1, 599)]), ..PLAIN });
    let other_day = at(Expense { day: 3, ..PLAIN });
    let not_the_same = "version 0 of cost 7 is not the same in v0 and v1";
    refused(
        "joins",
        &[
            joined(&own, &others, 30, "user 1's home is van 0 in v0 and van 1 in v1"),
            joined(&own, &other_rule, 31, "crew 0 is under rule 1 in v0 and rule 2 in v1"),
            joined(&own, &other_share, 31, not_the_same),
            joined(&own, &other_day, 31, not_the_same),
        ],
    )
}

/// 10, 33 and 35.
fn of_figures() -> BTreeSet<u32> {
    let image = crew().counter(1, 0, 2).rule(1, 1);
    let large = "there is no crew 4294967296: crews are 0 to 15";
    refused(
        "figures",
        &[
            on(&image, "statement v0 2", 10, "crew 2 is absent"),
            on(&image, "statement v0 16 --table", 10, "there is no crew 16: crews are 0 to 15"),
            on(&image, "pay v0 4294967296", 10, large),
            on(&image, "month v0 15 2100-01", 10, "crew 15 is absent"),
            on(&image, "pay v0 1", 33, "crew 1 has no member"),
            on(
                &image,
                "month v0 0 2100-01",
                35,
                "there is no month 2100-01: months are 2000-01 to 2099-12",
            ),
        ],
    )
}

/// All numbers that there are, but for 32: `van` lends what is asked for.
#[test]
fn every_number_has_its_words() {
    let seen = [faults::of_images(), of_crews(), of_costs(), of_joins(), of_figures()];
    let seen: Vec<u32> = BTreeSet::from_iter(seen.into_iter().flatten()).into_iter().collect();
    let all = Answer::ALL.iter().map(|answer| answer.number());
    assert_eq!(seen, Vec::from_iter(all.filter(|number| ![0, 32].contains(number))));
}
