//! The model against A8 of document 02: the balances of all groups in one call.
//! Wherever a test asks for them, each group's are also held against its own
//! statement.

mod common;

use common::slowly::{self, random_group, Costs};
use common::*;
use val_host::generate;
use val_host::model::v3;
use val_host::random::Random;
use val_host::{BALANCES, IMAGE_SIZE, IMAGE_SIZE_1, IMAGE_SIZE_2};

const ZEROS: [i64; 8] = [0; 8];
const GIGA: i64 = 1_000_000_000;

/// Everybody at home on replica 0, and no group.
fn empty() -> Image {
    Image::new_3(0, [0; 8])
}

/// Users 0 to 2 are members of this group, user 3 has left it.
fn with_group(image: Image, group: usize, rule: u16) -> Image {
    image.counters(group, [1, 1, 1, 2, 0, 0, 0, 0]).rule(group, rule)
}

/// A cost in the group, paid by this user; everybody with a share has acknowledged.
fn cost(group: usize, payer: u8, of: &[(usize, u32)]) -> Expense {
    let acknowledged = of.iter().fold(0, |bits, &(user, _)| bits | 1 << user);
    Expense { payer, group: group as u8, acknowledged, shares: shares(of), ..PLAIN }
}

/// A group's row, and zeros for all others.
fn alone(group: usize, row: [i64; 8]) -> [[i64; 8]; 16] {
    std::array::from_fn(|number| if number == group { row } else { ZEROS })
}

// ---- answers --------------------------------------------------------------------

/// What the call answers with so many numbers lent; a refusal alters none, and
/// nothing writes beside them.
fn answer(image: &[u8], lent: usize) -> u32 {
    let mark: [i64; 300] = std::array::from_fn(|at| i64::MIN + at as i64);
    let mut numbers = mark;
    let answer = v3::balances(image, &mut numbers[20..20 + lent]).number();
    let written = if answer == 0 { lent } else { 0 };
    assert_eq!(numbers[..20], mark[..20]);
    assert_eq!(numbers[20 + written..], mark[20 + written..]);
    assert!(numbers[20..20 + written].iter().all(|&number| number > i64::MIN + 300));
    answer
}

#[test]
fn refusals_in_order() {
    assert_eq!(BALANCES, 128);
    let image = with_group(empty(), 9, 1).expense(7, cost(9, 0, &[(1, 5)])).sound();
    let bad = [(0, 0, 2), (3, 2, 3), (3, 4, 3), (5, 9, 4), (14, 1, 4), (304, 9, 5), (344, 1, 5)];
    for lent in [0, 1, 8, 16, 64, 127, 128, 129, 256] {
        // 1 to 5 come first, whatever is lent.
        for length in [0, 1, IMAGE_SIZE_1, IMAGE_SIZE_2, IMAGE_SIZE - 1, IMAGE_SIZE + 1] {
            let mut bytes = image.0.clone();
            bytes.resize(length, 0);
            assert_eq!(answer(&bytes, lent), 1);
        }
        for old in [Image::new(0, OWN_HOMES), Image::new_2(0, OWN_HOMES)] {
            assert_eq!(answer(&old.0, lent), 1);
        }
        for (at, byte, number) in bad {
            assert_eq!(answer(&image.clone().with(at, byte).0, lent), number);
        }
        // A group's rule is a fault of the header, the last cost's day one of a cost.
        assert_eq!(answer(&image.clone().rule(9, 3).0, lent), 4);
        assert_eq!(answer(&image.clone().rule(15, 1).0, lent), 4);
        assert_eq!(answer(&image.clone().day(511, 1).0, lent), 5);
        let expected = if lent == 128 { 0 } else { 32 };
        assert_eq!([answer(&image.0, lent), answer(&empty().0, lent)], [expected; 2]);
    }
}

#[test]
fn faults_as_the_check_finds_them() {
    let mut random = Random::new(31);
    let mut answers = [0; 6];
    for _ in 0..60 {
        let sound = generate::sound_image(&mut random, IMAGE_SIZE);
        for _ in 0..60 {
            let bytes = generate::spoiled_image(&mut random, &sound);
            let number = v3::check(&bytes).number();
            assert_eq!(answer(&bytes, 128), number);
            assert_eq!(answer(&bytes, 127), if number == 0 { 32 } else { number });
            answers[number as usize] += 1;
        }
        assert_eq!(answer(&sound, 128), 0);
    }
    assert!(answers[1..].iter().all(|&count| count > 20), "{answers:?}");
}

// ---- which number is whose ---------------------------------------------------------

#[test]
fn no_group() {
    assert_eq!(empty().balances(), [ZEROS; 16]);
    // A cost in no group is nobody's.
    assert_eq!(empty().expense(0, PLAIN).sound().balances(), [ZEROS; 16]);
    // A group without a cost, without a member too.
    for counters in [[1; 8], [0, 0, 4, 0, 0, 0, 0, 0], [65_535; 8], [65_534; 8]] {
        for rule in [1, 2] {
            let image = empty().counters(3, counters).rule(3, rule).sound();
            assert_eq!(image.balances(), [ZEROS; 16]);
        }
    }
}

#[test]
fn each_group_by_itself() {
    for group in 0..16 {
        for rule in [1, 2] {
            let image = with_group(empty(), group, rule);
            let image = image.expense(0, cost(group, 0, &[(0, 300), (1, 600)])).sound();
            assert_eq!(image.balances(), alone(group, [600, -600, 0, 0, 0, 0, 0, 0]));
        }
    }
    for user in 0..8 {
        let members = empty().counters(5, [1; 8]).rule(5, 1);
        let image = members.expense(63, cost(5, user as u8, &[((user + 1) % 8, 9)])).sound();
        let mut row = ZEROS;
        (row[user], row[(user + 1) % 8]) = (9, -9);
        assert_eq!(image.balances(), alone(5, row));
    }
}

#[test]
fn absent_groups_between() {
    // Groups 0, 2, 7 and 15, of both rules, with a sum of their own each.
    let groups = [(0, 1, 10), (2, 2, 20), (7, 2, 30), (15, 1, 40)];
    let image = groups.into_iter().fold(empty(), |image, (group, rule, cents)| {
        with_group(image, group, rule).expense(group, cost(group, 2, &[(0, cents)]))
    });
    let mut rows = [ZEROS; 16];
    for (group, _, cents) in groups {
        (rows[group][0], rows[group][2]) = (-i64::from(cents), i64::from(cents));
    }
    assert_eq!(image.sound().balances(), rows);
}

// ---- what the numbers are -----------------------------------------------------------

#[test]
fn both_rules() {
    // User 3, who has left, paid 100 for user 0. User 0 has a share in three costs,
    // user 1 in one and user 2 in none: 34, 33, 33 by rule 1, 75, 25, 0 by rule 2.
    let costs = [(3, 0, 100), (0, 0, 5), (0, 0, 6), (1, 1, 7)];
    let image = (0..16).fold(empty(), |image, group| {
        let image = with_group(image, group, 1 + group as u16 % 2);
        (0..).zip(costs).fold(image, |image, (place, (payer, user, cents))| {
            image.expense(4 * group + place, cost(group, payer, &[(user, cents)]))
        })
    });
    let rows = std::array::from_fn(|group| match group % 2 {
        0 => [-66, 33, 33, 0, 0, 0, 0, 0],
        _ => [-25, 25, 0, 0, 0, 0, 0, 0],
    });
    assert_eq!(image.sound().balances(), rows);
}

#[test]
fn what_counts() {
    let valid = cost(9, 0, &[(0, 300), (1, 600)]);
    let base = with_group(with_group(empty(), 9, 1), 8, 2);
    let with = |expense| base.clone().expense(7, expense).sound().balances();
    let row = [600, -600, 0, 0, 0, 0, 0, 0];
    assert_eq!(with(valid), alone(9, row));
    // Of any day, and of none.
    assert_eq!(with(Expense { day: 36_524, ..valid }), alone(9, row));
    // Waiting, deleted, in another group or in none: as in the statement.
    assert_eq!(with(Expense { acknowledged: 1, ..valid }), [ZEROS; 16]);
    assert_eq!(with(Expense { deleted: 1, ..valid }), [ZEROS; 16]);
    assert_eq!(with(Expense { group: 8, ..valid }), alone(8, row));
    assert_eq!(with(Expense { group: NONE, acknowledged: 1, ..valid }), [ZEROS; 16]);
    // Under rule 2 a share of 500 needs no nod; 501 does, and under rule 1 both do.
    for (group, share, raw) in [(8, 500, 500), (8, 501, 0), (9, 500, 0), (9, 501, 0)] {
        let silent = Expense { acknowledged: 0, ..cost(group, 0, &[(1, share)]) };
        assert_eq!(with(silent), alone(group, [raw, -raw, 0, 0, 0, 0, 0, 0]));
    }
}

#[test]
fn gifts_and_members() {
    let held = |group| cost(group, 3, &[(0, 100)]);
    let row = |counters: [u16; 8], rule| {
        let image = empty().counters(4, counters).rule(4, rule);
        image.expense(1, held(4)).sound().balances()[4]
    };
    for rule in [1, 2] {
        // User 3 is a member, and has left; with nobody else in the group the gift
        // is gone, and the debt stays.
        assert_eq!(row([1, 1, 0, 1, 0, 0, 0, 0], rule), [-100, 0, 0, 100, 0, 0, 0, 0]);
        assert_eq!(row([2, 0, 0, 2, 0, 0, 0, 0], rule), [-100, 0, 0, 0, 0, 0, 0, 0]);
        assert_eq!(row([2, 0, 0, 2, 0, 0, 0, 3], rule), [-100, 0, 0, 0, 0, 0, 0, 100]);
    }
    assert_eq!(row([1, 1, 0, 2, 0, 0, 0, 0], 1), [-50, 50, 0, 0, 0, 0, 0, 0]);
    assert_eq!(row([1, 1, 0, 2, 0, 0, 0, 0], 2), [0, 0, 0, 0, 0, 0, 0, 0]);
}

#[test]
fn largest_sums() {
    // Costs at the limit, in one group and spread over all sixteen: user 2, who has
    // left, paid them for user 1, who has all uses. So all of it is gifts.
    for (groups, rule) in [(1, 1), (1, 2), (16, 1), (16, 2)] {
        let image = (0..groups).fold(empty(), |image, group| {
            image.counters(group, [1, 1, 2, 0, 0, 0, 0, 0]).rule(group, rule)
        });
        let image = (0..64).fold(image, |image, number| {
            image.expense(number, cost(number % groups, 2, &[(1, GIGA as u32)]))
        });
        let half = 32 / groups as i64 * GIGA;
        let row = if rule == 1 { [half, -half, 0, 0, 0, 0, 0, 0] } else { ZEROS };
        let rows = std::array::from_fn(|group| if group < groups { row } else { ZEROS });
        assert_eq!(image.sound().balances(), rows);
    }
    // Of each user 64 costs at the limit, all held by user 7, in the last group.
    let members = Image::new_3(0, OWN_HOMES).counters(15, [1; 8]).rule(15, 1);
    let image = (0..512).fold(members, |image, number| {
        image.expense(number, cost(15, (number / 64) as u8, &[(7, GIGA as u32)]))
    });
    let mut row = [64 * GIGA; 8];
    row[7] = -448 * GIGA;
    assert_eq!(image.sound().balances(), alone(15, row));
}

// ---- read slowly -----------------------------------------------------------------------

/// Each present group's balances by the sentences, zeros for the others.
fn slowly(image: &Image) -> [[i64; 8]; 16] {
    std::array::from_fn(|group| match image.read_rule(group) {
        0 => ZEROS,
        _ => slowly::statement(image, group).1.map(|line| line.balance),
    })
}

#[test]
fn random_groups_read_slowly() {
    let mut random = Random::new(37);
    let mut not_zero = 0;
    for _ in 0..1500 {
        let group = random.below(16);
        let largest = random.pick(&[None, None, Some(100_000_000)]);
        let costs = Costs { largest, acknowledged: 60, most: 20 };
        let image = random_group(&mut random, group, costs).raised_to_3();
        let rows = image.balances();
        assert_eq!(rows, slowly(&image));
        not_zero += usize::from(rows[group] != ZEROS);
    }
    assert!(not_zero > 500, "{not_zero}");
}

#[test]
fn random_images_read_slowly() {
    let mut random = Random::new(41);
    let (mut several, mut both) = (0, 0);
    for _ in 0..400 {
        let image = Image(generate::sound_image(&mut random, IMAGE_SIZE));
        let rows = image.balances();
        assert_eq!(rows, slowly(&image));
        several += usize::from(rows.iter().filter(|&&row| row != ZEROS).count() > 1);
        let under = |rule| (0..16).any(|group| image.read_rule(group) == rule);
        both += usize::from(under(1) && under(2));
    }
    assert!(several > 100 && both > 100, "{several} {both}");
}
