//! The words for what is wrong with an image: 1 to 5, and 41 to 45 of a join's
//! other one.

use crate::common::*;
use crate::refusals::{joined, on, refused, Case};
use crate::{Folder, Ran};
use std::collections::BTreeSet;

fn faults() -> Vec<(u32, Image, &'static str)> {
    let sound = || Image::new_3(0, OWN_HOMES);
    let mut longer = sound();
    longer.0.push(0);
    let unsound = Expense { acknowledged: 2, ..PLAIN };
    vec![
        (1, Image(vec![]), "FILE has 0 bytes, and an image has 21,808"),
        (1, Image(sound().0[1..].to_vec()), "FILE has 21807 bytes, and an image has 21,808"),
        (1, longer, "FILE has more than 21,808 bytes, and an image has 21,808"),
        (
            1,
            Image::new(0, OWN_HOMES),
            "FILE has the length of version 1 and has to be raised first",
        ),
        (
            1,
            Image::new_2(0, OWN_HOMES),
            "FILE has the length of version 2 and has to be raised first",
        ),
        (2, sound().with(0, b'v'), "FILE does not begin with the letters VAL"),
        (3, sound().with(4, 1), "FILE says it is of version 259, and is as long as version 3"),
        (4, sound().with(5, 8), "FILE: there is no van 8: vans are 0 to 7"),
        (4, sound().with(9, 255), "FILE: user 3's home is van 255: vans are 0 to 7"),
        (4, sound().with(15, 1), "FILE: bytes 14 and 15 are not zero"),
        (4, sound().counter(3, 0, 1).rule(3, 3), "FILE: crew 3 is present and has rule 3"),
        (4, sound().counter(4, 7, 2), "FILE: crew 4 is present and has rule 0"),
        (4, sound().rule(15, 1), "FILE: crew 15 is absent and has rule 1"),
        (5, sound().expense(17, unsound).expense(63, unsound), "FILE: cost 17 is unsound"),
        (5, sound().day(511, 1), "FILE: cost 511 is unsound"),
    ]
}

/// Every call that takes an image is refused alike, and a join for the other one.
pub fn of_images() -> BTreeSet<u32> {
    let (sound, mut seen) = (Image::new_3(1, OWN_HOMES), BTreeSet::new());
    for (number, image, words) in faults() {
        let (own, other) = (words.replace("FILE", "v0"), words.replace("FILE", "v1"));
        let lines = [
            "check v0",
            "statement v0",
            "statement v0 0",
            "pay v0 0",
            "month v0 0 2026-11",
            "balances v0",
            "cost v0",
            "cost v0 0",
            "found v0 0 0",
            "join v0 v1",
        ];
        let own = lines.map(|line| Case { other: &sound.0, ..on(&image, line, number, &own) });
        let other = joined(&sound, &image, 40 + number, &other);
        seen.extend(refused("faults", &[own.as_slice(), &[other]].concat()));
    }
    seen
}

#[test]
fn faults_of_an_image_to_be_raised() {
    let old = || Image::new(0, OWN_HOMES);
    let unsound = Expense { shares: NO_SHARES, ..PLAIN };
    let cases = [
        (1, Image::new_3(0, OWN_HOMES), "v0 has the length of version 3 already"),
        (1, Image(vec![0; 5]), "v0 has 5 bytes, and one to be raised has 20,752 or 20,784"),
        (2, old().with(2, 0), "v0 does not begin with the letters VAL"),
        (3, old().with(3, 3), "v0 says it is of version 3, and is as long as version 1"),
        (4, old().with(5, 9), "v0: there is no van 9: vans are 0 to 7"),
        (4, Image::new_2(0, OWN_HOMES).rule(1, 2), "v0: crew 1 is absent and has rule 2"),
        (5, old().expense(100, unsound), "v0: cost 100 is unsound"),
    ];
    for (number, image, words) in &cases {
        refused("raising", &[on(image, "raise v0 v2", *number, words)]);
    }
}

/// What is raised on the way is the other image still, and comes behind one's own.
#[test]
fn faults_of_an_image_that_is_raised_for_a_join() {
    let own = Image::new_3(0, OWN_HOMES);
    let unsound = Image::new(1, OWN_HOMES).expense(9, Expense { shares: NO_SHARES, ..PLAIN });
    let (short, worse) = (Image(vec![0; 5]), own.clone().with(0, 0));
    let cases = [
        joined(&own, &unsound, 45, "v1: cost 9 is unsound"),
        joined(&own, &short, 41, "v1 has 5 bytes, and an image has 21,808"),
        joined(&own, &worse, 42, "v1 does not begin with the letters VAL"),
        joined(&worse, &unsound, 2, "v0 does not begin with the letters VAL"),
        joined(&unsound, &unsound, 1, "v0 has the length of version 1 and has to be raised first"),
    ];
    refused("raising-other", &cases.map(|case| Case { line: "join v0 v1 --raised", ..case }));
}

#[test]
fn a_new_image_needs_vans_that_there_are() {
    let folder = Folder::new("new");
    let refusal = Ran::stopped(1, "refused 4: there is no van 8: vans are 0 to 7");
    assert_eq!(folder.van("new v0 --van 8"), refusal);
    let refusal = Ran::stopped(1, "refused 4: user 7's home is van 8: vans are 0 to 7");
    assert_eq!(folder.van("new v0 --van 0 --homes 0,1,2,3,4,5,6,8"), refusal);
    assert!(folder.names().is_empty());
}
