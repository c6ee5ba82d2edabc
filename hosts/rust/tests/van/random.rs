//! Random commands on random images: whatever is asked of whatever bytes, the
//! answer is the library's, and the file holds what its call leaves.

use crate::{Folder, Ran};
use val_host::fields::{Action, Fields, RULE_OR_DAY};
use val_host::generate::{self, Care};
use val_host::model::days_of;
use val_host::random::Random;
use val_host::{act, check, merge, Answer, IMAGE_SIZE, IMAGE_SIZE_1, IMAGE_SIZE_2};
use val_host::{LAST_DAY, MONTHS, USERS};

/// The command line for a record, if its day is one.
fn line_of(record: &Action) -> Option<String> {
    let [kind, actor, other, group, low, high, ..] = *record;
    let expense = u16::from_le_bytes([low, high]);
    let number = u16::from_le_bytes(record[RULE_OR_DAY].try_into().unwrap());
    let share = |user: usize| u32::from_le_bytes(record[8 + 4 * user..][..4].try_into().unwrap());
    let shares = (0..USERS).filter(|&user| share(user) > 0);
    let shares: String = shares.map(|user| format!(" {user}:{}c", share(user))).collect();
    Some(match kind {
        1 => format!("found v0 {actor} {group} --rule {number}"),
        2 => format!("add v0 {actor} {other} {group}"),
        3 => format!("leave v0 {actor} {group}"),
        4 => format!("enter v0 {actor} {expense}{shares} --day {}", date(number)?),
        5 => format!("put-in v0 {actor} {expense} {group}"),
        6 => format!("take-out v0 {actor} {expense} {group}"),
        7 => format!("change v0 {actor} {expense}{shares} --day {}", date(number)?),
        8 => format!("delete v0 {actor} {expense}"),
        9 => format!("acknowledge v0 {actor} {expense}"),
        _ => format!("absorb v0 {actor} {other} {expense}"),
    })
}

/// The day as ISO 8601 writes it.
fn date(day: u16) -> Option<String> {
    let month = (0..MONTHS).find(|&month| days_of(month).unwrap().contains(&day))?;
    let of_month = day - days_of(month).unwrap().start() + 1;
    Some(format!("{}-{:02}-{of_month:02}", 2000 + month / 12, month % 12 + 1))
}

/// What is printed begins with the answer.
#[track_caller]
fn answered(folder: &Folder, line: &str, answer: Answer) {
    let ran = folder.van(line);
    match answer {
        Answer::Ok => assert_eq!((ran.status, ran.err.as_str()), (0, ""), "{line}"),
        refusal => {
            let number = format!("refused {}: ", refusal.number());
            assert_eq!((ran.status, ran.out.as_str()), (1, ""), "{line}");
            assert!(ran.err.starts_with(&number), "{line}: {} {refusal:?}", ran.err);
        }
    }
}

#[test]
fn random_actions_are_their_records() {
    let folder = Folder::new("random");
    let mut random = Random::new(3);
    let mut accepted = [0; 11];
    for turn in 0..600 {
        let mut image = generate::sound_image(&mut random, IMAGE_SIZE);
        let kind = 1 + (turn % 10) as u8;
        let care = if random.chance(80) { Care::Much } else { Care::Little };
        let record = generate::likely_action(&mut random, &image, kind, care);
        let Some(line) = line_of(&record) else { continue };
        folder.put("v0", &image);
        let answer = act(&mut image, &record);
        answered(&folder, &line, answer);
        assert_eq!(folder.bytes("v0"), image, "{line}");
        accepted[usize::from(kind)] += usize::from(answer.is_ok());
    }
    assert!(accepted[1..].iter().all(|&count| count > 0), "{accepted:?}");
}

/// Images with one fault or several, of every version, and pairs of them.
#[test]
fn random_faults_are_the_librarys() {
    let folder = Folder::new("spoiled");
    let mut random = Random::new(5);
    let mut numbers = [0; 46];
    for _ in 0..400 {
        let size = random.pick(&[IMAGE_SIZE, IMAGE_SIZE, IMAGE_SIZE, IMAGE_SIZE_1, IMAGE_SIZE_2]);
        let sound = generate::sound_image(&mut random, size);
        let spoiled = generate::spoiled_image(&mut random, &sound);
        folder.put("v0", &spoiled);
        let line = random.pick(&["check v0", "cost v0", "statement v0", "balances v0"]);
        answered(&folder, line, check(&spoiled));
        assert_eq!(folder.bytes("v0"), spoiled);
        numbers[check(&spoiled).number() as usize] += 1;

        let mut own = generate::sound_image(&mut random, IMAGE_SIZE);
        let other = generate::relative(&mut random, &own);
        folder.put("v0", &own);
        folder.put("v1", &other);
        let answer = merge(&mut own, &other);
        answered(&folder, "join v0 v1", answer);
        assert_eq!((folder.bytes("v0"), folder.bytes("v1")), (own, other));
        numbers[answer.number() as usize] += 1;
    }
    for number in [0, 1, 2, 3, 4, 5, 30, 31] {
        assert!(numbers[number] > 0, "{number}: {numbers:?}");
    }
}

/// The commands, and words to follow them; '' is the empty one.
const NAMES: &str = "
    found add leave enter put-in take-out change delete acknowledge absorb join
    statement pay month balances cost check raise play new";
const WORDS: &str = "
    v0 v0 v0 v1 0 1 2 7 8 15 16 63 511 512 255 256 65535 65536 18446744073709551615
    18446744073709551616 -1 0:3.00 1:501c 9:1c 0: : 0:0.001 2026-11 2100-01 9999-12
    2026-11-15 --day --day=2026-11-15 --rule --rule=2 --van --homes --table --raised
    --help -- --= = '' € 1:€ 20€6-11 0,1,2,3,4,5,6,7";

/// Words at random: it ends with a status of its own, and only a command that is
/// done changes the image.
#[test]
fn random_words_never_trip_it() {
    let folder = Folder::new("words");
    let [names, words] = [NAMES, WORDS].map(|list| Vec::from_iter(list.split_whitespace()));
    let mut random = Random::new(7);
    let mut image = generate::sound_image(&mut random, IMAGE_SIZE);
    let mut statuses = [0; 4];
    for _ in 0..1500 {
        folder.put("v0", &image);
        folder.put("v1", &image);
        let mut command = folder.command("");
        command.arg(random.pick(&names));
        if random.chance(80) {
            command.arg("v0");
        }
        (0..random.below(6)).for_each(|_| {
            command.arg(random.pick(&words).trim_matches('\''));
        });
        let ran = Ran::of(command.output().unwrap());
        assert!((0..=3).contains(&ran.status), "{command:?}: {ran:?}");
        assert!(!ran.err.contains("panicked"), "{command:?}: {ran:?}");
        statuses[ran.status as usize] += 1;
        if ran.status != 0 {
            assert_eq!(folder.bytes("v0"), image, "{command:?}");
        }
        image = folder.bytes("v0");
        assert_eq!((check(&image), Fields::of(&image).layout.version), (Answer::Ok, 3));
        for name in folder.names().iter().filter(|name| !["v0", "v1"].contains(&name.as_str())) {
            std::fs::remove_file(folder.path(name)).unwrap();
        }
    }
    assert!(statuses.iter().all(|&count| count > 0), "{statuses:?}");
    assert_eq!(date(LAST_DAY).as_deref(), Some("2099-12-31"));
}
