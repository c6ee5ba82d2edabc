//! The model against A6 of document 02: version 3 of the image, days and months.
//! What version 3 has in common with the older ones is tested with them, where
//! every call is also made on the raised image; raising has its own tests.

mod common;

use common::slowly::{self, random_group, Costs};
use common::*;
use val_host::generate;
use val_host::model::v3::{self, month};
use val_host::model::{days_of, v1, v2};
use val_host::random::Random;
use val_host::{Answer, Line, Totals, IMAGE_SIZE, IMAGE_SIZE_1, IMAGE_SIZE_2};

const LAST_DAY: u16 = 36_524;
const DAYS: [u16; 6] = [0, 1, 255, 256, LAST_DAY - 1, LAST_DAY];
/// Neither days nor undated; by the bytes of the last day, and others.
const NO_DAYS: [u16; 8] = [36_525, 36_526, 36_608, 36_780, 40_000, 65_279, 65_280, 65_534];

/// Group 9 of these counters under this rule, everybody at home on replica 0.
fn group_nine(rule: u16, counters: [u16; 8]) -> Image {
    Image::new_3(0, [0; 8]).counters(9, counters).rule(9, rule)
}

/// A cost in group 9, paid by user 0, with these acknowledgements and shares.
fn cost(day: u16, acknowledged: u8, of: &[(usize, u32)]) -> Expense {
    Expense { group: 9, acknowledged, shares: shares(of), day, ..PLAIN }
}

// ---- the image ----------------------------------------------------------------

#[test]
fn empty_image() {
    assert_eq!(IMAGE_SIZE, 21_808);
    let image = Image::new_3(5, TWO_HOMES);
    assert_eq!(image.0[..16], *b"VAL\x03\x00\x05\x00\x00\x00\x00\x01\x01\x01\x01\x00\x00");
    assert!(image.0[16..304].iter().all(|&byte| byte == 0));
    for record in image.0[304..].chunks(42) {
        assert_eq!(record[0], NONE);
        assert!(record[1..].iter().all(|&byte| byte == 0));
    }
    assert_eq!(image.0[304..].len(), 512 * 42);
    assert_eq!(image.check(), 0);

    let mut bytes = vec![7; IMAGE_SIZE];
    assert_eq!(v3::empty(&mut bytes, 8, &OWN_HOMES).number(), 4);
    assert_eq!(v3::empty(&mut bytes, 0, &[0, 0, 0, 0, 0, 0, 0, 8]).number(), 4);
    assert!(bytes.iter().all(|&byte| byte == 7));
}

#[test]
fn lengths() {
    let whole = Image::new_3(0, OWN_HOMES);
    let (first, second) = (Image::new(0, OWN_HOMES), Image::new_2(0, OWN_HOMES));
    for length in [0, 1, 20_751, 20_752, 20_753, 20_783, 20_784, 20_785, 21_807, 21_809, 43_616] {
        let mut bytes = match length {
            IMAGE_SIZE_1 => first.0.clone(),
            IMAGE_SIZE_2 => second.0.clone(),
            _ => whole.0.clone(),
        };
        bytes.resize(length, 0);
        let before = bytes.clone();
        let mut lines = [Line { counter: 7, ..Line::default() }; 8];
        let (mut cents, mut raws) = ([7; 64], [7; 9]);
        assert_eq!(v3::check(&bytes).number(), 1);
        // 1 before 4, before 6, before the other's 42, before 10, 32 and 35.
        assert_eq!(v3::empty(&mut bytes, 8, &OWN_HOMES).number(), 1);
        assert_eq!(v3::act(&mut bytes, &[]).number(), 1);
        assert_eq!(v3::act(&mut bytes, &found_under(1, 0, 0)).number(), 1);
        assert_eq!(v3::merge(&mut bytes, &whole.0).number(), 1);
        assert_eq!(v3::merge(&mut bytes, &before).number(), 1);
        assert_eq!(v3::merge(&mut whole.0.clone(), &bytes).number(), 41);
        let refused = Totals { answer: Answer::BadLength, members: 0, expenses: 0, gifts: 0 };
        assert_eq!(v3::statement(&bytes, 99, &mut lines), refused);
        assert_eq!(v3::payments(&bytes, 99, &mut cents).number(), 1);
        assert_eq!(month(&bytes, 99, 1200, &mut raws).number(), 1);
        assert_eq!(v3::balances(&bytes, &mut raws).number(), 1);
        assert!(v3::lookup(&bytes, 0).is_empty());
        assert_eq!(bytes, before);
        assert_eq!((lines.map(|line| line.counter), cents, raws), ([7; 8], [7; 64], [7; 9]));
    }
    // The other way round: the older versions' calls on the new length.
    let on_whole = [v1::check(&whole.0), v2::check(&whole.0)];
    assert_eq!(on_whole.map(Answer::number), [1, 1]);
    assert_eq!(v2::act(&mut whole.0.clone(), &found_under(1, 0, 0)).number(), 1);
    assert_eq!(v1::merge(&mut first.0.clone(), &whole.0).number(), 41);
    assert_eq!(v2::merge(&mut second.0.clone(), &whole.0).number(), 41);
    assert_eq!(v2::merge(&mut second.0.clone(), &first.0).number(), 41);
    // A fault of one's own image comes before the other's length.
    assert_eq!(v3::merge(&mut whole.clone().day(3, 1).0, &second.0).number(), 5);
}

#[test]
fn check_in_order() {
    // All faults at once, then one less each time.
    let mut image = Image(vec![254; IMAGE_SIZE]);
    assert_eq!(image.check(), 2);
    image.0[..3].copy_from_slice(b"VAL");
    for version in [0, 1, 2, 4, 255, 256, 259, 769, 65_535u16] {
        image.0[3..5].copy_from_slice(&version.to_le_bytes());
        assert_eq!(image.check(), 3);
    }
    image.0[3..5].copy_from_slice(&[3, 0]);
    assert_eq!(image.check(), 4);
    image.0[5..16].fill(0);
    assert_eq!(image.check(), 4);
    for group in 0..16 {
        image = image.rule(group, 2);
    }
    assert_eq!(image.check(), 5);
    for record in image.0[304..].chunks_mut(42) {
        record.fill(0);
        record[0] = NONE;
    }
    assert_eq!(image.check(), 0);
}

#[test]
fn days_in_an_image() {
    let empty = Image::new_3(0, TWO_HOMES).counters(9, [1; 8]).rule(9, 1);
    for number in [0, 1, 62, 63] {
        for expense in [PLAIN, Expense { deleted: 1, ..PLAIN }, cost(0, 1, &[(0, 5), (7, 5)])] {
            let with = |day| empty.clone().expense(number, Expense { day, ..expense }).check();
            assert_eq!([DAYS.map(with), DAYS.map(|_| with(UNDATED))], [[0; 6]; 2]);
            assert_eq!(NO_DAYS.map(with), [5; 8]);
        }
    }
    // An absent cost has zero, and is not undated.
    for number in [0, 63, 64, 511] {
        assert_eq!(empty.clone().day(number, 0).check(), 0);
        for day in DAYS.into_iter().skip(1).chain(NO_DAYS).chain([UNDATED]) {
            assert_eq!(empty.clone().day(number, day).check(), 5);
        }
        for at in 1..42 {
            assert_eq!(empty.clone().with(304 + 42 * number + at, 1).check(), 5);
        }
    }
    // Whose day it is: of the cost that it stands behind, not of the next one.
    let two = empty.expense(4, Expense { day: LAST_DAY, ..PLAIN }).expense(5, PLAIN).sound();
    assert_eq!(two.0[304 + 42 * 4 + 40..][..2], [172, 142]);
    assert_eq!((two.read_day(4), two.read_day(5), two.read_day(6)), (LAST_DAY, UNDATED, 0));
    // A bad rule, or header, comes before it.
    assert_eq!(two.clone().day(4, 36_525).rule(9, 3).check(), 4);
    assert_eq!(two.clone().day(4, 36_525).with(14, 1).check(), 4);
}

#[test]
fn faults_as_in_version_2() {
    let mut random = Random::new(23);
    let mut answers = [0; 6];
    for _ in 0..60 {
        let sound = generate::sound_image(&mut random, IMAGE_SIZE_2);
        for _ in 0..60 {
            let mut bytes = generate::spoiled_image(&mut random, &sound);
            if bytes.len() != IMAGE_SIZE_2 || bytes[3..5] == [3, 0] {
                bytes = sound.clone();
            }
            let answer = v2::check(&bytes);
            assert_eq!(v3::check(&lifted(&bytes)), answer);
            answers[answer.number() as usize] += 1;
        }
    }
    assert!([0, 2, 3, 4, 5].iter().all(|&answer| answers[answer] > 20), "{answers:?}");
}

#[test]
fn a_bad_day_stops_every_call() {
    let good = group_nine(2, [1; 8]).expense(0, cost(7, 1, &[(0, 5)])).sound();
    let (mut cents, mut raws, mut balances) = ([7; 64], [7; 8], [7; 128]);
    let mut lines = [Line::default(); 8];
    for bad in [good.clone().day(0, 36_525), good.clone().day(511, 1)] {
        assert_eq!(bad.clone().act(&[]), 5);
        assert_eq!(bad.clone().act(&add(0, 1, 9)), 5);
        assert_eq!(bad.clone().merge(&good), 5);
        assert_eq!(bad.clone().merge(&bad), 5);
        assert_eq!(good.clone().merge(&bad), 45);
        assert_eq!(good.clone().merge(&bad.clone().with(13, 1)), 45);
        assert_eq!(v3::statement(&bad.0, 9, &mut lines).answer.number(), 5);
        assert_eq!(v3::payments(&bad.0, 9, &mut cents).number(), 5);
        assert_eq!(month(&bad.0, 9, 0, &mut raws).number(), 5);
        assert_eq!(v3::balances(&bad.0, &mut balances).number(), 5);
        assert!(v3::lookup(&bad.0, 0).is_empty());
    }
    assert_eq!((lines, cents, raws), ([Line::default(); 8], [7; 64], [7; 8]));
    assert_eq!(balances, [7; 128]);
}

#[test]
fn lookup_parts() {
    let image = Image::new_3(0, TWO_HOMES).expense(63, Expense { day: 258, ..PLAIN }).sound();
    let part = v3::lookup(&image.0, 63);
    assert_eq!(part.as_ptr(), image.0[304 + 42 * 63..].as_ptr());
    assert_eq!((part.len(), &part[40..]), (42, &[2, 1][..]));
    for expense in [0, 62, 64, 511, 512, 63 + (1 << 32)] {
        assert!(v3::lookup(&image.0, expense).is_empty());
    }
}

// ---- actions --------------------------------------------------------------------

#[test]
fn entering_and_changing_name_a_day() {
    let of = shares(&[(0, 300), (1, 600)]);
    for day in DAYS {
        let mut image = Image::new_3(0, TWO_HOMES);
        assert_eq!(image.act(&naming(day, enter(0, 63, of))), 0);
        assert_eq!(image, Image::new_3(0, TWO_HOMES).expense(63, Expense { day, ..PLAIN }));
        // From any day to any other, from none, and to the same.
        for before in DAYS.into_iter().chain([UNDATED]) {
            let mut image = image.clone().day(63, before);
            assert_eq!(image.act(&naming(day, change(0, 63, of))), 0);
            let changed = Expense { version: 1, day, ..PLAIN };
            assert_eq!(image, Image::new_3(0, TWO_HOMES).expense(63, changed));
        }
    }
    let mut image = Image::new_3(0, TWO_HOMES).expense(0, Expense { day: 5, ..PLAIN });
    for day in NO_DAYS.into_iter().chain([UNDATED]) {
        // After 5, and before 7, 15 to 19 and all others.
        for action in [enter(0, 1, of), enter(4, 1, NO_SHARES), enter(0, 0, of)] {
            assert_eq!(image.act(&naming(day, action)), 6);
        }
        for action in [change(0, 0, of), change(4, 0, of), change(0, 9, NO_SHARES)] {
            assert_eq!(image.act(&naming(day, action)), 6);
            assert_eq!(image.clone().day(1, 1).act(&naming(day, action)), 5);
        }
    }
    // As ever with a day.
    assert_eq!(image.act(&naming(9, enter(4, 64, of))), 7);
    assert_eq!(image.act(&naming(9, enter(0, 64, of))), 15);
    assert_eq!(image.act(&naming(9, enter(0, 0, of))), 16);
    assert_eq!(image.act(&naming(9, enter(0, 1, NO_SHARES))), 19);
    assert_eq!(image.act(&naming(9, change(0, 1, of))), 17);
    assert_eq!(image.act(&naming(9, change(1, 0, of))), 18);
    assert_eq!(image.act(&naming(9, change(0, 0, NO_SHARES))), 19);
    assert_eq!(image.read_day(0), 5);
}

#[test]
fn other_kinds_name_none() {
    let mut image = Image::new_3(0, TWO_HOMES);
    for kind in [2, 3, 5, 6, 8, 9, 10] {
        let plain = record(kind, 4, 0, 0, 0, NO_SHARES);
        assert_eq!(image.act(&plain), 7, "kind {kind}");
        for day in DAYS.into_iter().skip(1).chain(NO_DAYS).chain([UNDATED]) {
            assert_eq!(image.act(&naming(day, plain)), 6, "kind {kind}");
        }
    }
    // A founding names a rule, and no day.
    for number in [0, 3, 256, 257, LAST_DAY, UNDATED] {
        assert_eq!(image.act(&found_under(number, 0, 0)), 6);
    }
    assert_eq!(image.act(&found_under(2, 0, 0)), 0);
    // In the older versions kinds 4 and 7 have zero there.
    for mut image in [Image::new(0, TWO_HOMES), Image::new_2(0, TWO_HOMES)] {
        for action in [enter(0, 0, PLAIN.shares), change(0, 0, PLAIN.shares)] {
            for day in [1, 256, LAST_DAY, UNDATED] {
                assert_eq!(image.act(&naming(day, action)), 6);
            }
            assert_eq!(image.act(&action), 0);
        }
        assert_eq!(image.raised_to_3().read_day(0), UNDATED);
    }
}

#[test]
fn other_kinds_keep_the_day() {
    for day in DAYS.into_iter().chain([UNDATED]) {
        let base = group_nine(1, [1, 1, 2, 0, 0, 0, 0, 0]);
        let mut image = base.clone().expense(3, Expense { day, ..PLAIN }).sound();
        let held = Expense { day, ..PLAIN };
        for (action, after) in [
            (put_in(0, 9, 3), Expense { group: 9, version: 1, ..held }),
            (acknowledge(1, 3), Expense { group: 9, version: 1, acknowledged: 3, ..held }),
            (take_out(0, 9, 3), Expense { version: 2, ..held }),
            (put_in(0, 9, 3), Expense { group: 9, version: 3, ..held }),
            (delete(0, 3), Expense { group: 9, version: 4, deleted: 1, ..held }),
            (take_out(0, 9, 3), Expense { version: 5, deleted: 1, ..held }),
        ] {
            assert_eq!(image.act(&action), 0);
            assert_eq!(image, base.clone().expense(3, after));
        }
        // User 2 has left: its share goes to the payer.
        let mut image = base.clone().expense(3, cost(day, 1, &[(0, 5), (2, 6)])).sound();
        assert_eq!(image.act(&absorb(0, 2, 3)), 0);
        assert_eq!(image, base.expense(3, Expense { version: 1, ..cost(day, 1, &[(0, 11)]) }));
    }
}

// ---- join -------------------------------------------------------------------------

#[test]
fn join_of_days() {
    let base = |van| Image::new_3(van, TWO_HOMES).counters(9, [1; 8]).rule(9, 2);
    let held = cost(0, 1, &[(0, 5), (7, 600)]);
    let with = |van, number, expense| base(van).expense(number, expense).sound();
    for number in [0, 63] {
        let days = [0, 1, 256, LAST_DAY, UNDATED];
        for (ours, theirs) in days.iter().flat_map(|&ours| days.map(|theirs| (ours, theirs))) {
            let own = with(0, number, Expense { day: ours, ..held });
            let other = with(1, number, Expense { day: theirs, acknowledged: 128, ..held });
            let mut joined = own.clone();
            // A day is compared as the rest of a cost is, whoever acknowledged.
            assert_eq!(joined.merge(&other), if ours == theirs { 0 } else { 31 });
            if ours == theirs {
                let both = Expense { day: ours, acknowledged: 129, ..held };
                assert_eq!(joined, with(0, number, both));
            }
            // Of unequal versions the higher is taken whole.
            let newer = Expense { day: theirs, version: 1, ..held };
            let mut joined = own.clone();
            assert_eq!(joined.merge(&with(1, number, newer)), 0);
            assert_eq!(joined, with(0, number, newer));
            let mut joined = with(0, number, newer);
            assert_eq!(joined.merge(&own), 0);
            assert_eq!(joined, with(0, number, newer));
            // On one side only: taken over with its day.
            let mut joined = base(0);
            assert_eq!(joined.merge(&other), 0);
            assert_eq!(joined, other.with(5, 0));
        }
    }
    // After 45 and 30; and a cost before it is left as it was.
    let own = with(0, 62, held).expense(63, held);
    let other = with(1, 62, Expense { acknowledged: 128, ..held });
    let other = other.expense(63, Expense { day: 1, ..held }).sound();
    assert_eq!(own.clone().merge(&other.clone().day(64, 1)), 45);
    assert_eq!(own.clone().merge(&other.clone().with(13, 0)), 30);
    assert_eq!(own.clone().merge(&other), 31);
    let mut copy = own.clone();
    assert_eq!((copy.merge(&own), copy), (0, own));
}

// ---- the calendar -------------------------------------------------------------------

#[test]
fn months_of_the_calendar() {
    let months = slowly::months_of_days();
    assert_eq!(months.len(), usize::from(LAST_DAY) + 1);
    for (number, days) in (0..1200).map(|month| (month, days_of(month).unwrap())) {
        let walked: Vec<u16> =
            (0..=LAST_DAY).filter(|&day| months[usize::from(day)] == number).collect();
        assert_eq!(days.collect::<Vec<u16>>(), walked);
    }
    for none in [1200, 1201, 65_536, 1 << 32, u64::MAX] {
        assert_eq!(days_of(none), None);
    }
    // 1 January 2000 was a Saturday, and 31 December 2099 will be a Thursday.
    assert_eq!((days_of(0), days_of(1199)), (Some(0..=30), Some(36_494..=36_524)));
    assert_eq!((5 + LAST_DAY) % 7, 3);
    // 2000 and 2004 are leap years, 2001 and 2099 are not.
    assert_eq!((days_of(1), days_of(2)), (Some(31..=59), Some(60..=90)));
    assert_eq!((days_of(11), days_of(12)), (Some(335..=365), Some(366..=396)));
    assert_eq!(days_of(13).map(|days| days.len()), Some(28));
    assert_eq!(days_of(49).map(|days| days.len()), Some(29));
    assert_eq!(days_of(1189).map(|days| days.len()), Some(28));
}

// ---- a month's statement --------------------------------------------------------------

#[test]
fn month_in_order() {
    // Group 9 is present without a member, which is no matter.
    let image = group_nine(1, [0, 0, 4, 0, 0, 0, 0, 0]);
    let refused = |image: &Image, group: u64, number: u64, length: usize| {
        let mark: [i64; 20] = std::array::from_fn(|at| i64::MIN + at as i64);
        let mut raws = mark;
        let answer = month(&image.0, group, number, &mut raws[..length]);
        assert_eq!(raws, mark);
        answer.number()
    };
    for (at, byte, answer) in [(0, 0, 2), (3, 2, 3), (5, 9, 4), (304, 9, 5), (344, 1, 5)] {
        assert_eq!(refused(&image.clone().with(at, byte), 99, 1200, 7), answer);
    }
    for group in [0, 8, 10, 15, 16, 255, 256 + 9, (1 << 32) + 9, u64::MAX] {
        assert_eq!(refused(&image, group, 1200, 7), 10);
        assert_eq!(refused(&image, group, 0, 8), 10);
    }
    for length in [0, 1, 7, 9, 16, 20] {
        assert_eq!(refused(&image, 9, 1200, length), 32);
        assert_eq!(refused(&image, 9, 1199, length), 32);
    }
    for number in [1200, 1201, 65_536, (1 << 32) + 5, u64::MAX] {
        assert_eq!(refused(&image, 9, number, 8), 35);
    }
    assert_eq!((image.month(9, 0), image.month(9, 1199)), ([0; 8], [0; 8]));
}

#[test]
fn first_days_and_last_days() {
    for number in [0, 1, 2, 11, 12, 13, 49, 601, 1153, 1189, 1198, 1199] {
        let days = days_of(number).unwrap();
        let (first, last) = (*days.start(), *days.end());
        let on = |day| group_nine(1, [1; 8]).expense(7, cost(day, 2, &[(1, 7)])).sound();
        let raws = [7, -7, 0, 0, 0, 0, 0, 0];
        for day in [first, first + 1, last - 1, last] {
            assert_eq!(on(day).month(9, number), raws);
        }
        // A day beside it is in the month beside it.
        if let Some(before) = first.checked_sub(1) {
            assert_eq!(on(before).month(9, number), [0; 8]);
            assert_eq!(on(before).month(9, number - 1), raws);
        }
        if last < LAST_DAY {
            assert_eq!(on(last + 1).month(9, number), [0; 8]);
            assert_eq!(on(last + 1).month(9, number + 1), raws);
        }
        assert_eq!(on(UNDATED).month(9, number), [0; 8]);
    }
}

#[test]
fn what_counts_in_a_month() {
    let valid = cost(59, 3, &[(0, 300), (1, 600)]);
    let base = group_nine(1, [1, 1, 0, 2, 0, 0, 0, 0]).counters(8, [1; 8]).rule(8, 2);
    let february = |expense| base.clone().expense(7, expense).sound().month(9, 1);
    assert_eq!(february(valid), [600, -600, 0, 0, 0, 0, 0, 0]);
    // Waiting, deleted, in another group or in none: as in the statement.
    assert_eq!(february(Expense { acknowledged: 1, ..valid }), [0; 8]);
    assert_eq!(february(Expense { deleted: 1, ..valid }), [0; 8]);
    assert_eq!(february(Expense { group: 8, ..valid }), [0; 8]);
    assert_eq!(february(Expense { group: NONE, acknowledged: 1, ..valid }), [0; 8]);
    // Who has left pays and holds like any other, and no gift is made of it.
    let left = Expense { payer: 3, ..valid };
    assert_eq!(february(left), [-300, -600, 0, 900, 0, 0, 0, 0]);
    // A small share counts by the group's rule, without a nod.
    for (share, raw) in [(500, 500), (501, 0)] {
        let small = cost(59, 0, &[(1, share)]);
        let by_use = base.clone().rule(9, 2).expense(7, small).sound();
        assert_eq!(by_use.month(9, 1), [raw, -raw, 0, 0, 0, 0, 0, 0]);
        assert_eq!((by_use.month(9, 0), by_use.month(9, 2)), ([0; 8], [0; 8]));
        assert_eq!(february(small), [0; 8]);
    }
    // Several of one month, of others and undated.
    let image = base
        .expense(0, valid)
        .expense(1, Expense { day: 31, payer: 1, ..valid })
        .expense(2, Expense { day: 60, ..valid })
        .expense(3, Expense { day: 30, ..valid })
        .expense(63, Expense { day: UNDATED, ..valid })
        .sound();
    assert_eq!(image.month(9, 1), [300, -300, 0, 0, 0, 0, 0, 0]);
    assert_eq!(image.month(9, 0), image.month(9, 2));
    assert_eq!(image.statement(9).1.map(|line| line.raw)[..2], [2100, -2100]);
    // All of one replica's costs at the limit.
    let most = cost(36_524, 2, &[(1, 1_000_000_000)]);
    let full = (0..64).fold(group_nine(1, [1; 8]), |image, number| image.expense(number, most));
    let sum = 64_000_000_000;
    assert_eq!(full.sound().month(9, 1199), [sum, -sum, 0, 0, 0, 0, 0, 0]);
}

#[test]
fn random_groups_read_slowly() {
    let mut random = Random::new(29);
    let months = slowly::months_of_days();
    let (mut inside, mut outside, mut undated) = (0, 0, 0);
    for _ in 0..3000 {
        let group = random.below(16);
        let largest = random.pick(&[None, None, Some(100_000_000)]);
        let costs = Costs { largest, acknowledged: 60, most: 20 };
        let mut image = random_group(&mut random, group, costs).raised_to_3();
        let number = random.below(1198) as u64 + 1;
        let days = days_of(number).unwrap();
        let (first, last) = (*days.start(), *days.end());
        for expense in 0..512 {
            if image.record(expense).payer == NONE {
                continue;
            }
            let inner = first + random.below(days.len()) as u16;
            let day = random.pick(&[first - 1, first, last, last + 1, inner, UNDATED]);
            image = image.day(expense, day);
        }
        let raws = image.clone().sound().month(group as u64, number);
        let is_in = |day: u16| months.get(usize::from(day)) == Some(&number);
        assert_eq!(raws, slowly::raws(&image, group, is_in));
        // With the months beside it and what is undated it makes the statement.
        let near = [number - 1, number + 1].map(|number| image.month(group as u64, number));
        let rest = slowly::raws(&image, group, |day| day == UNDATED);
        let statement = image.statement(group as u64).1.map(|line| line.raw);
        let sums: [i64; 8] =
            std::array::from_fn(|user| raws[user] + near[0][user] + near[1][user] + rest[user]);
        assert_eq!(statement, sums);
        inside += usize::from(raws != [0; 8] && raws != statement);
        outside += usize::from(near != [[0; 8]; 2]);
        undated += usize::from(rest != [0; 8]);
    }
    assert!(inside > 500 && outside > 500 && undated > 500, "{inside} {outside} {undated}");
}

#[test]
fn sums_of_a_random_history() {
    random_history(Image::new_3);
}
