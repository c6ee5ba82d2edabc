//! The model against A3 of document 02: version 2 of the image, rule 2's parts,
//! and raising. What version 2 has in common with version 1 is tested in
//! `model.rs`, where every call is also made on the raised image.

mod common;

use common::slowly::{self, random_group, Costs};
use common::*;
use val_host::generate;
use val_host::model::v1;
use val_host::model::v2::{self, raise};
use val_host::random::Random;
use val_host::{Answer, Line, Totals, IMAGE_SIZE_1, IMAGE_SIZE_2};

/// No rule of a present group, by each of its bytes.
const NO_RULES: [u16; 9] = [0, 3, 4, 255, 256, 257, 258, 512, 65_535];

// ---- the image ----------------------------------------------------------------

#[test]
fn empty_image() {
    assert_eq!(IMAGE_SIZE_2, 20_784);
    let image = Image::new_2(5, TWO_HOMES);
    assert_eq!(image.0[..16], *b"VAL\x02\x00\x05\x00\x00\x00\x00\x01\x01\x01\x01\x00\x00");
    assert!(image.0[16..304].iter().all(|&byte| byte == 0));
    for record in image.0[304..].chunks(40) {
        assert_eq!(record[0], NONE);
        assert!(record[1..].iter().all(|&byte| byte == 0));
    }
    assert_eq!(image.0[304..].len(), 512 * 40);
    assert_eq!(image.check(), 0);

    let mut bytes = vec![7; IMAGE_SIZE_2];
    assert_eq!(v2::empty(&mut bytes, 8, &OWN_HOMES).number(), 4);
    assert_eq!(v2::empty(&mut bytes, 0, &[0, 0, 0, 0, 0, 0, 0, 8]).number(), 4);
    assert!(bytes.iter().all(|&byte| byte == 7));
}

#[test]
fn lengths() {
    let whole = Image::new_2(0, OWN_HOMES);
    let old = Image::new(0, OWN_HOMES);
    for length in [0, 1, 20_751, 20_752, 20_753, 20_783, 20_785, 21_808] {
        let mut bytes = if length == 20_752 { old.0.clone() } else { whole.0.clone() };
        bytes.resize(length, 0);
        let before = bytes.clone();
        let mut lines = [Line { counter: 7, ..Line::default() }; 8];
        let mut cents = [7; 64];
        assert_eq!(v2::check(&bytes).number(), 1);
        // 1 before 4, before 6, before the other's 42, before 10 and 32.
        assert_eq!(v2::empty(&mut bytes, 8, &OWN_HOMES).number(), 1);
        assert_eq!(v2::act(&mut bytes, &[]).number(), 1);
        assert_eq!(v2::act(&mut bytes, &found_under(1, 0, 0)).number(), 1);
        assert_eq!(v2::merge(&mut bytes, &whole.0).number(), 1);
        assert_eq!(v2::merge(&mut bytes, &before).number(), 1);
        assert_eq!(v2::merge(&mut whole.0.clone(), &bytes).number(), 41);
        let refused = Totals { answer: Answer::BadLength, members: 0, expenses: 0, gifts: 0 };
        assert_eq!(v2::statement(&bytes, 99, &mut lines), refused);
        assert_eq!(v2::payments(&bytes, 99, &mut cents).number(), 1);
        assert!(v2::lookup(&bytes, 0).is_empty());
        assert_eq!(bytes, before);
        assert_eq!((lines.map(|line| line.counter), cents), ([7; 8], [7; 64]));
    }
    // The other way round: version 1's calls on the new length.
    assert_eq!(v1::check(&whole.0).number(), 1);
    assert_eq!(v1::empty(&mut whole.0.clone(), 0, &OWN_HOMES).number(), 1);
    assert_eq!(v1::act(&mut whole.0.clone(), &found(0, 0)).number(), 1);
    assert_eq!(v1::merge(&mut whole.0.clone(), &old.0).number(), 1);
    assert_eq!(v1::merge(&mut old.0.clone(), &whole.0).number(), 41);
    // A fault of one's own image comes before the other's length.
    assert_eq!(v2::merge(&mut whole.clone().with(304, 0).0, &old.0).number(), 5);
}

#[test]
fn check_in_order() {
    // All faults at once, then one less each time.
    let mut image = Image(vec![254; IMAGE_SIZE_2]);
    assert_eq!(image.check(), 2);
    image.0[..3].copy_from_slice(b"VAL");
    assert_eq!(image.check(), 3);
    image.0[3..5].copy_from_slice(&[1, 0]);
    assert_eq!(image.check(), 3);
    image.0[3..5].copy_from_slice(&[2, 0]);
    assert_eq!(image.check(), 4);
    image.0[5..16].fill(0);
    assert_eq!(image.check(), 4);
    for group in 0..16 {
        image = image.rule(group, 2);
    }
    assert_eq!(image.check(), 5);
    for record in image.0[304..].chunks_mut(40) {
        record.fill(0);
        record[0] = NONE;
    }
    assert_eq!(image.check(), 0);

    let image = Image::new_2(0, OWN_HOMES);
    for version in [0, 1, 3, 255, 256, 258, 513, 65_535u16] {
        let [low, high] = version.to_le_bytes();
        assert_eq!(image.clone().with(3, low).with(4, high).check(), 3);
    }
    for at in 5..14 {
        assert_eq!(image.clone().with(at, 8).check(), 4);
    }
    for at in 14..16 {
        assert_eq!(image.clone().with(at, 1).check(), 4);
    }
}

#[test]
fn rules_in_an_image() {
    let unsound = Expense { deleted: 2, ..PLAIN };
    for group in 0..16 {
        let absent = Image::new_2(0, OWN_HOMES);
        assert_eq!(absent.clone().rule(group, 0).check(), 0);
        for rule in [1, 2].into_iter().chain(NO_RULES).filter(|&rule| rule != 0) {
            let image = absent.clone().rule(group, rule);
            assert_eq!(image.check(), 4);
            assert_eq!(image.expense(0, unsound).check(), 4);
        }
        // Present by any one counter, of a member or not.
        for (user, counter) in [(0, 1), (0, 2), (3, 256), (7, 65_534), (7, 65_535)] {
            let present = absent.clone().counter(group, user, counter);
            for rule in [1, 2] {
                let image = present.clone().rule(group, rule);
                assert_eq!(image.check(), 0);
                assert_eq!(image.expense(0, unsound).check(), 5);
            }
            for rule in NO_RULES {
                let image = present.clone().rule(group, rule);
                assert_eq!(image.check(), 4);
                assert_eq!(image.expense(0, unsound).check(), 4);
            }
        }
    }
}

#[test]
fn a_bad_rule_stops_every_call() {
    let good = Image::new_2(0, TWO_HOMES).counter(9, 0, 1).rule(9, 2).expense(0, PLAIN).sound();
    let mut cents = [7; 64];
    let mut lines = [Line::default(); 8];
    for bad in [good.clone().rule(9, 3), good.clone().rule(9, 0), good.clone().rule(8, 1)] {
        assert_eq!(bad.clone().act(&[]), 4);
        assert_eq!(bad.clone().act(&add(0, 1, 9)), 4);
        assert_eq!(bad.clone().merge(&good), 4);
        assert_eq!(bad.clone().merge(&bad), 4);
        assert_eq!(good.clone().merge(&bad), 44);
        // 44 before 45, and before 30.
        assert_eq!(good.clone().merge(&bad.clone().with(304, 7)), 44);
        assert_eq!(good.clone().merge(&bad.clone().with(13, 0)), 44);
        assert_eq!(v2::statement(&bad.0, 9, &mut lines).answer.number(), 4);
        assert_eq!(v2::payments(&bad.0, 9, &mut cents).number(), 4);
        assert!(v2::lookup(&bad.0, 0).is_empty());
    }
    assert_eq!((lines, cents), ([Line::default(); 8], [7; 64]));
}

#[test]
fn lookup_parts() {
    let image = Image::new_2(0, TWO_HOMES).expense(63, PLAIN).sound();
    let part = v2::lookup(&image.0, 63);
    assert_eq!(part.as_ptr(), image.0[304 + 40 * 63..].as_ptr());
    assert_eq!(part.len(), 40);
    for expense in [0, 62, 64, 511, 512, 63 + (1 << 32)] {
        assert!(v2::lookup(&image.0, expense).is_empty());
    }
}

// ---- founding -------------------------------------------------------------------

#[test]
fn founding_names_a_rule() {
    for rule in [1, 2] {
        let mut image = Image::new_2(0, TWO_HOMES);
        assert_eq!(image.act(&found_under(rule, 3, 1)), 0);
        assert_eq!(image, Image::new_2(0, TWO_HOMES).counter(1, 3, 1).rule(1, rule));
    }
    let mut image = Image::new_2(0, TWO_HOMES);
    for rule in NO_RULES {
        // Before 7, 8 and 9, and after 5.
        assert_eq!(image.act(&found_under(rule, 0, 0)), 6);
        assert_eq!(image.act(&found_under(rule, 4, 2)), 6);
        assert_eq!(image.clone().with(304, 7).act(&found_under(rule, 0, 0)), 5);
    }
    // As ever after that: 7, 8, 9; the rule that is there remains.
    let mut image = Image::new_2(0, TWO_HOMES).counter(0, 5, 2).rule(0, 1);
    assert_eq!(image.act(&found_under(2, 4, 2)), 7);
    assert_eq!(image.act(&found_under(2, 0, 2)), 8);
    assert_eq!(image.act(&found_under(2, 0, 0)), 9);
    assert_eq!(image.act(&found_under(1, 0, 0)), 9);
}

#[test]
fn other_kinds_name_none() {
    let mut image = Image::new_2(0, TWO_HOMES);
    for kind in 2..=10 {
        let plain = record(kind, 4, 0, 0, 0, NO_SHARES);
        assert_eq!(image.act(&plain), 7, "kind {kind}");
        for rule in [1, 2].into_iter().chain(NO_RULES).filter(|&rule| rule != 0) {
            let mut action = plain;
            action[6..8].copy_from_slice(&rule.to_le_bytes());
            assert_eq!(image.act(&action), 6, "kind {kind}");
        }
    }
    // The other fields of a founding as in version 1.
    for (at, byte) in [(0, 0), (0, 11), (1, 8), (2, 1), (3, 16), (4, 1), (5, 1), (8, 1), (39, 1)] {
        let mut action = found_under(2, 0, 0);
        action[at] = byte;
        assert_eq!(image.act(&action), 6);
    }
    for length in [0, 39, 41] {
        let mut action = found_under(2, 0, 0).to_vec();
        action.resize(length, 0);
        assert_eq!(image.act(&action), 6);
    }
}

#[test]
fn the_rule_stays() {
    // Add, leave and rejoin; also when nobody is left.
    for rule in [1, 2] {
        let mut image = Image::new_2(0, TWO_HOMES);
        for action in
            [found_under(rule, 0, 1), add(0, 1, 1), leave(0, 1), add(1, 0, 1), leave(1, 1)]
        {
            assert_eq!(image.act(&action), 0);
            assert_eq!(image.read_rule(1), rule);
        }
        assert_eq!(image.act(&leave(0, 1)), 0);
        let left = Image::new_2(0, TWO_HOMES).counters(1, [4, 2, 0, 0, 0, 0, 0, 0]).rule(1, rule);
        assert_eq!(image, left);
        assert_eq!(image.check(), 0);
    }
}

// ---- join -------------------------------------------------------------------------

#[test]
fn join_in_order() {
    // Rules that differ, home tables that differ, and a cost in conflict.
    let own = Image::new_2(0, TWO_HOMES).counter(9, 0, 1).rule(9, 1).expense(0, PLAIN).sound();
    let conflict = Expense { shares: shares(&[(0, 1)]), ..PLAIN };
    let other = Image::new_2(1, TWO_HOMES).with(13, 0).counter(9, 0, 1).rule(9, 2);
    let other = other.expense(0, conflict).sound();
    assert_eq!(own.clone().with(0, 0).merge(&other.clone().with(0, 0)), 2);
    assert_eq!(own.clone().with(3, 1).merge(&other.clone().with(0, 0)), 3);
    assert_eq!(own.clone().rule(9, 3).merge(&other.clone().with(0, 0)), 4);
    assert_eq!(own.clone().with(306, 9).merge(&other.clone().with(0, 0)), 5);
    assert_eq!(own.clone().merge(&other.clone().with(0, 0)), 42);
    assert_eq!(own.clone().merge(&other.clone().with(3, 1)), 43);
    assert_eq!(own.clone().merge(&other.clone().rule(9, 0)), 44);
    assert_eq!(own.clone().merge(&other.clone().with(306, 9)), 45);
    assert_eq!(own.clone().merge(&other), 30);
    // 31 by the rule, by the cost, and by neither.
    let other = other.with(13, 1);
    assert_eq!(own.clone().merge(&other), 31);
    assert_eq!(own.clone().merge(&other.clone().expense(0, PLAIN)), 31);
    assert_eq!(own.clone().merge(&other.clone().rule(9, 1)), 31);
    assert_eq!(own.clone().merge(&other.rule(9, 1).expense(0, PLAIN)), 0);
}

#[test]
fn join_of_rules() {
    for group in [0, 1, 7, 14, 15] {
        let with = |counters: [u16; 8], rule: u16| {
            Image::new_2(0, TWO_HOMES).counters(group, counters).rule(group, rule).sound()
        };
        let none = Image::new_2(0, TWO_HOMES);
        let joined = |own: &Image, other: &Image| {
            let mut own = own.clone();
            (own.merge(other), own)
        };
        let (low, high) = ([1, 0, 4, 0, 0, 0, 0, 0], [0, 3, 5, 0, 0, 0, 0, 0]);
        for rule in [1, 2] {
            // On one side only: taken over with its rule.
            assert_eq!(joined(&none, &with(low, rule)), (0, with(low, rule)));
            assert_eq!(joined(&with(low, rule), &none), (0, with(low, rule)));
            // On both: the counters as ever.
            let both = with([1, 3, 5, 0, 0, 0, 0, 0], rule);
            assert_eq!(joined(&with(low, rule), &with(high, rule)), (0, both.clone()));
            assert_eq!(joined(&with(high, rule), &with(low, rule)), (0, both));
            // Different rules, whatever else is equal; the members are no matter.
            for other in [low, high, [2, 2, 2, 2, 2, 2, 2, 2]] {
                assert_eq!(joined(&with(low, rule), &with(other, 3 - rule)).0, 31);
                assert_eq!(joined(&with(other, 3 - rule), &with(low, rule)).0, 31);
            }
        }
    }
    // Each group with its own rule; another group's rule is no matter.
    let mut own = Image::new_2(0, TWO_HOMES).counter(3, 0, 1).rule(3, 1);
    let other = Image::new_2(1, TWO_HOMES).counter(4, 0, 1).rule(4, 2);
    assert_eq!(own.merge(&other), 0);
    let both = Image::new_2(0, TWO_HOMES).counter(3, 0, 1).rule(3, 1).counter(4, 0, 1).rule(4, 2);
    assert_eq!(own, both);
    // A raised group is under rule 1, and not the same as one under rule 2.
    let raised = Image::new(0, TWO_HOMES).counter(4, 0, 1).raised().unwrap();
    assert_eq!(own.merge(&raised), 31);
    assert_eq!(own.merge(&raised.rule(4, 2)), 0);
    // With itself unchanged.
    let copy = own.clone();
    assert_eq!(own.merge(&copy), 0);
    assert_eq!(own, copy);
}

// ---- parts --------------------------------------------------------------------------

/// A cost in group 9 that everybody with a share has acknowledged.
fn valid(payer: u8, of: &[(usize, u32)]) -> Expense {
    let acknowledged = of.iter().fold(0, |bits, &(user, _)| bits | 1 << user);
    Expense { payer, group: 9, acknowledged, shares: shares(of), ..PLAIN }
}

/// Group 9 under rule 2. The users with a weight named are its members, and each
/// has paid as many costs for itself alone. User 6 owes the gifts to user 7, and
/// both have left.
fn used(weights: &[(usize, usize)], gifts: u32) -> Image {
    let mut image = Image::new_2(0, OWN_HOMES)
        .rule(9, 2)
        .counters(9, [0, 0, 0, 0, 0, 0, 2, 2])
        .expense(64 * 7, valid(7, &[(6, gifts)]));
    for &(user, weight) in weights {
        image = image.counter(9, user, 1);
        for number in 0..weight {
            image = image.expense(64 * user + number, valid(user as u8, &[(user, 5)]));
        }
    }
    image.sound()
}

/// The parts of group 9, which sum to the gifts.
fn parts(image: &Image) -> [u64; 8] {
    let (totals, lines) = image.statement(9);
    assert_eq!(totals.answer, Answer::Ok);
    let parts = lines.map(|line| line.part);
    assert_eq!(parts.iter().sum::<u64>(), if totals.members > 0 { totals.gifts } else { 0 });
    parts
}

#[test]
fn parts_by_use() {
    let weights = |of: [usize; 3]| used(&[(0, of[0]), (1, of[1]), (2, of[2])], 100);
    assert_eq!(weights([1, 1, 1]).statement(9).0.gifts, 100);
    assert_eq!(parts(&weights([1, 1, 1]))[..3], [34, 33, 33]);
    assert_eq!(parts(&weights([3, 2, 1]))[..3], [50, 33, 17]);
    assert_eq!(parts(&weights([1, 2, 3]))[..3], [17, 33, 50]);
    assert_eq!(parts(&weights([64, 64, 64]))[..3], [34, 33, 33]);
    // Nothing for who used nothing, also of the cents left over.
    assert_eq!(parts(&weights([0, 1, 2]))[..3], [0, 33, 67]);
    assert_eq!(parts(&weights([0, 1, 0]))[..3], [0, 100, 0]);
    // All weights zero: rule 1.
    assert_eq!(parts(&weights([0, 0, 0]))[..3], [34, 33, 33]);
    // Rule 1 asks for no weights.
    for of in [[1, 1, 1], [3, 2, 1], [0, 1, 2], [0, 0, 64]] {
        assert_eq!(parts(&weights(of).rule(9, 1))[..3], [34, 33, 33]);
    }
}

#[test]
fn the_largest_remainders() {
    // 2.5, 5 and 2.5: of equal remainders the lower number.
    let image = used(&[(1, 1), (3, 2), (4, 1)], 10);
    assert_eq!(parts(&image), [0, 3, 0, 5, 2, 0, 0, 0]);
    // 1/3 and 2/3 of a cent: the larger one, though the higher number.
    assert_eq!(parts(&used(&[(0, 1), (5, 2)], 1)), [0, 0, 0, 0, 0, 1, 0, 0]);
    // Halves of a cent.
    assert_eq!(parts(&used(&[(2, 7), (4, 7)], 1)), [0, 0, 1, 0, 0, 0, 0, 0]);
    // 5/6 each of six: five cents, to all but the last.
    let all = [(0, 9), (1, 9), (2, 9), (3, 9), (4, 9), (5, 9)];
    assert_eq!(parts(&used(&all, 5)), [1, 1, 1, 1, 1, 0, 0, 0]);
    // 10 by 1, 2, 3, 4, 5 and 6 of 21: the quotients 0, 0, 1, 1, 2, 2, and four
    // cents for the remainders 20 (user 1), 19 (3), 18 (5) and 10 (0); 9 (2)
    // and 8 (4) go without.
    let rising = [(0, 1), (1, 2), (2, 3), (3, 4), (4, 5), (5, 6)];
    assert_eq!(parts(&used(&rising, 10)), [1, 1, 1, 2, 2, 3, 0, 0]);
    // A multiple of the total weight leaves nothing over.
    assert_eq!(parts(&used(&rising, 2100)), [100, 200, 300, 400, 500, 600, 0, 0]);
}

#[test]
fn one_member_gets_all() {
    for weight in [0, 1, 2, 64] {
        for user in 0..6 {
            let mut expected = [0; 8];
            expected[user] = 601;
            assert_eq!(parts(&used(&[(user, weight)], 601)), expected);
        }
    }
}

#[test]
fn nobody_left() {
    let image = used(&[], 100);
    let (totals, lines) = image.statement(9);
    assert_eq!(totals, Totals { answer: Answer::Ok, members: 0, expenses: 1, gifts: 100 });
    assert_eq!(lines.map(|line| line.part), [0; 8]);
    let mut cents = [7; 64];
    assert_eq!(v2::payments(&image.0, 9, &mut cents).number(), 33);
    assert_eq!(cents, [7; 64]);
}

#[test]
fn weights_of_members_only() {
    // User 5 has left: its 60 costs count neither for it nor in the total.
    let weights = [(0, 3), (1, 2), (2, 1), (5, 60)];
    for counter in [2, 65_534] {
        let image = used(&weights, 100).counter(9, 5, counter);
        assert_eq!(parts(&image)[..6], [50, 33, 17, 0, 0, 0]);
    }
    // When only those who left have weight, rule 1 applies.
    let left = used(&[(0, 0), (1, 0), (5, 60)], 101).counter(9, 5, 2);
    assert_eq!(parts(&left), [51, 50, 0, 0, 0, 0, 0, 0]);
    // Back again.
    assert_eq!(parts(&left.counter(9, 5, 3)), [0, 0, 0, 0, 0, 101, 0, 0]);
}

#[test]
fn weights_of_valid_costs_with_a_share() {
    let image = used(&[(0, 1), (1, 1)], 100);
    let with = |expense: Expense| parts(&image.clone().expense(40, expense).sound());
    assert_eq!(parts(&image)[..2], [50, 50]);
    // A share of one cent or of many: one more for each who has one.
    assert_eq!(with(valid(0, &[(0, 1)]))[..2], [67, 33]);
    assert_eq!(with(valid(0, &[(0, 900)]))[..2], [67, 33]);
    assert_eq!(with(valid(0, &[(1, 900)]))[..2], [33, 67]);
    assert_eq!(with(valid(0, &[(0, 1), (1, 900)]))[..2], [50, 50]);
    // Not for the payer as such, and any version.
    assert_eq!(with(Expense { version: TOP, ..valid(0, &[(1, 5)]) })[..2], [33, 67]);
    // Deleted, waiting for somebody, in another group, in none. What is waited
    // for is too large to count as acknowledged.
    let of_both = valid(0, &[(0, 501), (1, 501)]);
    assert_eq!(with(Expense { deleted: 1, ..valid(0, &[(0, 1)]) })[..2], [50, 50]);
    assert_eq!(with(Expense { acknowledged: 0, ..valid(0, &[(0, 501)]) })[..2], [50, 50]);
    for acknowledged in 0..3 {
        assert_eq!(with(Expense { acknowledged, ..of_both })[..2], [50, 50]);
    }
    let of_former = valid(0, &[(0, 501), (6, 501)]);
    assert_eq!(with(of_former)[..2], [67, 33]);
    assert_eq!(with(Expense { acknowledged: 1, ..of_former })[..2], [50, 50]);
    assert_eq!(with(Expense { group: NONE, ..valid(0, &[(0, 1)]) })[..2], [50, 50]);
    let elsewhere = image.clone().counter(8, 0, 1).rule(8, 2);
    let elsewhere = elsewhere.expense(40, Expense { group: 8, ..valid(0, &[(0, 1)]) });
    assert_eq!(parts(&elsewhere.sound())[..2], [50, 50]);
}

#[test]
fn parts_of_large_sums() {
    // 64 costs at the limit, and the largest weights that members then can have.
    let mut image = used(&[(0, 64), (1, 63), (5, 64)], 1);
    for number in 0..64 {
        image = image.expense(64 * 7 + number, valid(7, &[(6, 1_000_000_000)]));
    }
    let gifts = 64_000_000_000u64;
    assert_eq!(image.clone().sound().statement(9).0.gifts, gifts);
    // By 64, 63 and 64 of 191: the remainders are 2, 187 and 2.
    let (first, second) = (21_445_026_178, 21_109_947_643);
    assert_eq!((191 * first + 2, 191 * second + 187), (64 * gifts, 63 * gifts));
    assert_eq!(parts(&image), [first, second + 1, 0, 0, 0, first, 0, 0]);
}

#[test]
fn payments_follow_the_balances() {
    let image = used(&[(0, 3), (1, 2), (2, 1)], 100);
    let balances = image.statement(9).1.map(|line| line.balance);
    assert_eq!(balances, [50, 33, 17, 0, 0, 0, -100, 0]);
    assert_eq!(image.list(9), [(6, 0, 50), (6, 1, 33), (6, 2, 17)]);
    assert_eq!(image.rule(9, 1).list(9), [(6, 0, 34), (6, 1, 33), (6, 2, 33)]);
}

#[test]
fn statement_and_payments_in_order() {
    let image = used(&[(0, 1)], 100);
    let mut lines = [Line::default(); 9];
    let mut cents = [7; 65];
    for group in [8, 10, 16, 256 + 9, (1 << 32) + 9] {
        assert_eq!(v2::statement(&image.0, group, &mut lines).answer.number(), 10);
        assert_eq!(v2::payments(&image.0, group, &mut cents).number(), 10);
    }
    assert_eq!(v2::statement(&image.0, 9, &mut lines).answer.number(), 32);
    assert_eq!(v2::statement(&image.0, 9, &mut lines[..7]).answer.number(), 32);
    assert_eq!(v2::payments(&image.0, 9, &mut cents).number(), 32);
    assert_eq!(v2::payments(&image.counter(9, 0, 2).0, 9, &mut cents[..63]).number(), 32);
    assert_eq!((lines, cents), ([Line::default(); 9], [7; 65]));
}

#[test]
fn leaving_still_looks_at_raw() {
    // User 0 owes 40 and gets a part of 100: 13 all the same.
    let image = used(&[(0, 1), (1, 1)], 100).expense(64 + 40, valid(1, &[(0, 40)])).sound();
    let line = image.statement(9).1[0];
    assert_eq!(line, Line { counter: 1, raw: -40, gift: 0, part: 67, balance: 27 });
    assert_eq!(image.clone().act(&leave(0, 9)), 13);
}

// ---- the papers' sentences, read slowly ----------------------------------------------

#[test]
fn random_groups_read_slowly() {
    let mut random = Random::new(3);
    let (mut by_use, mut left_over, mut without_weight) = (0, 0, 0);
    for _ in 0..6000 {
        let group = random.below(16);
        let largest = Some(random.pick(&[1, 3, 10, 1000, 100_000_000]));
        let costs = Costs { largest, acknowledged: 85, most: 30 };
        let image = random_group(&mut random, group, costs);
        let (totals, lines) = image.statement(group as u64);
        assert_eq!((totals, lines), slowly::statement(&image, group));
        let sum: u64 = lines.iter().map(|line| line.part).sum();
        assert_eq!(sum, if totals.members > 0 { totals.gifts } else { 0 });
        // What the cases reach.
        let alike = image.clone().rule(group, 1).statement(group as u64).1;
        if image.read_rule(group) == 2 && totals.members > 1 && totals.gifts > 0 {
            by_use += usize::from(lines != alike);
            without_weight += usize::from(lines == alike);
            left_over += usize::from(totals.gifts % 2 == 1);
        }
    }
    assert!(
        by_use > 1000 && left_over > 500 && without_weight > 50,
        "{by_use} {left_over} {without_weight}"
    );
}

#[test]
fn random_images_read_slowly() {
    // Images at the limits, with groups under either rule.
    let mut random = Random::new(5);
    let (mut equally, mut by_use) = (0, 0);
    for _ in 0..120 {
        let image = Image(generate::sound_image(&mut random, IMAGE_SIZE_2)).sound();
        for group in (0..16).filter(|&group| image.read_rule(group) > 0) {
            let (totals, lines) = image.statement(group as u64);
            assert_eq!((totals, lines), slowly::statement(&image, group));
            let shared_out = u64::from(totals.members > 0 && totals.gifts > 0);
            match image.read_rule(group) {
                1 => equally += shared_out,
                _ => by_use += shared_out,
            }
        }
    }
    assert!(equally > 50 && by_use > 50, "{equally} {by_use}");
}

#[test]
fn sums_of_a_random_history() {
    random_history(Image::new_2);
}

// ---- the examples of document 01 -----------------------------------------------------

#[test]
fn c1_under_both_rules() {
    // One member gets all, by either rule.
    for rule in [1, 2] {
        let mut van0 = Image::new_2(0, OWN_HOMES);
        let mut van1 = Image::new_2(1, OWN_HOMES);
        assert_eq!(van0.act(&found_under(rule, 0, 0)), 0);
        assert_eq!(van0.act(&add(0, 1, 0)), 0);
        assert_eq!(van0.act(&enter(0, 0, shares(&[(0, 300), (1, 600)]))), 0);
        assert_eq!(van0.act(&put_in(0, 0, 0)), 0);
        assert_eq!(van1.merge(&van0), 0);
        assert_eq!(van1.read_rule(0), rule);
        assert_eq!(van1.act(&acknowledge(1, 0)), 0);
        assert_eq!(van0.merge(&van1), 0);
        assert_eq!(van0.act(&leave(0, 0)), 0);
        let (totals, lines) = van0.statement(0);
        assert_eq!(totals, Totals { answer: Answer::Ok, members: 1, expenses: 1, gifts: 600 });
        assert_eq!(lines[0], Line { counter: 2, raw: 600, gift: 600, part: 0, balance: 0 });
        assert_eq!(lines[1], Line { counter: 1, raw: -600, gift: 0, part: 600, balance: 0 });
        assert_eq!(lines[2..], [Line::default(); 6]);
    }
}

#[test]
fn c10_under_both_rules() {
    let image = |rule| {
        Image::new_2(0, OWN_HOMES)
            .counters(9, [2, 1, 0, 3, 0, 0, 65_535, 0])
            .rule(9, rule)
            .expense(0, valid(0, &[(3, 100)]))
            .sound()
    };
    assert_eq!(parts(&image(1)), [0, 34, 0, 33, 0, 0, 33, 0]);
    assert_eq!(parts(&image(2)), [0, 0, 0, 100, 0, 0, 0, 0]);
}

// ---- raising ---------------------------------------------------------------------------

/// Groups 0 and 9 present, group 9 without a member, and two costs.
fn old_image() -> Image {
    Image::new(3, TWO_HOMES)
        .counters(0, [1, 2, 0, 65_535, 4, 0, 0, 256])
        .counter(9, 7, 2)
        .expense(0, Expense { group: 0, version: TOP, ..PLAIN })
        .expense(511 - 384, Expense { payer: 7, acknowledged: 0, deleted: 1, ..PLAIN })
        .sound()
}

#[test]
fn raised_byte_by_byte() {
    let old = old_image();
    let raised = old.raised().unwrap();
    let expected = Image::new_2(3, TWO_HOMES)
        .counters(0, [1, 2, 0, 65_535, 4, 0, 0, 256])
        .rule(0, 1)
        .counter(9, 7, 2)
        .rule(9, 1)
        .expense(0, Expense { group: 0, version: TOP, ..PLAIN })
        .expense(127, Expense { payer: 7, acknowledged: 0, deleted: 1, ..PLAIN })
        .sound();
    assert_eq!(raised, expected);

    let mut random = Random::new(11);
    for _ in 0..200 {
        let old = Image(generate::sound_image(&mut random, IMAGE_SIZE_1)).sound();
        let mut bytes = b"VAL\x02\x00".to_vec();
        bytes.extend(&old.0[5..16]);
        for counters in old.0[16..272].chunks(16) {
            bytes.extend(counters);
            bytes.extend([u8::from(counters.iter().any(|&byte| byte != 0)), 0]);
        }
        bytes.extend(&old.0[272..]);
        assert_eq!(generate::lowered(&bytes, IMAGE_SIZE_1), old.0);
        assert_eq!(old.raised(), Ok(Image(bytes).sound()));
    }
}

#[test]
fn raising_in_order() {
    let old = old_image();
    let refused = |old: &[u8], length: usize| {
        let mut buffer = vec![0xa5; length];
        let answer = raise(old, &mut buffer);
        assert_eq!(buffer, vec![0xa5; length]);
        answer.number()
    };
    // 1 for either length, whatever else is wrong.
    let faulty = old.clone().with(0, 0).with(3, 0).with(5, 8).with(272, 7);
    let lengths = [0, 1, 16, 20_751, 20_752, 20_753, 20_783, 20_785, 41_568];
    for length in lengths {
        assert_eq!(refused(&old.0, length), 1);
        assert_eq!(refused(&faulty.0, length), 1);
    }
    for length in lengths.into_iter().filter(|&length| length != 20_752).chain([20_784]) {
        for image in [&old, &faulty] {
            let mut other = image.0.clone();
            other.resize(length, 0);
            assert_eq!(refused(&other, 20_784), 1);
            assert_eq!(refused(&other, 20_752), 1);
            assert_eq!(refused(&other, 0), 1);
        }
    }
    // An image that is of version 2 already.
    let raised = old.raised().unwrap();
    assert_eq!(refused(&raised.0, 20_784), 1);
    assert_eq!(refused(&Image::new_2(0, OWN_HOMES).0, 20_784), 1);

    // 2 to 5, each with all that come after it.
    assert_eq!(refused(&faulty.0, 20_784), 2);
    let faulty = faulty.with(0, b'V');
    assert_eq!(refused(&faulty.0, 20_784), 3);
    // The new version's number in the old length.
    assert_eq!(refused(&faulty.clone().with(3, 2).0, 20_784), 3);
    assert_eq!(refused(&old.clone().with(3, 2).0, 20_784), 3);
    let faulty = faulty.with(3, 1);
    assert_eq!(refused(&faulty.0, 20_784), 4);
    let faulty = faulty.with(5, 3);
    assert_eq!(refused(&faulty.0, 20_784), 5);
    assert_eq!(faulty.with(272, 0), old);
    for (at, byte, answer) in [(1, 0, 2), (2, 0, 2), (4, 1, 3), (6, 8, 4), (13, 255, 4), (14, 1, 4)]
    {
        assert_eq!(refused(&old.clone().with(at, byte).0, 20_784), answer);
    }
    assert_eq!(refused(&old.clone().with(20_751, 1).0, 20_784), 5);

    // What the buffer held before is no matter.
    let mut buffer = vec![0; 20_784];
    Random::new(1).fill(&mut buffer);
    assert_eq!(raise(&old.0, &mut buffer), Answer::Ok);
    assert_eq!(Image(buffer), raised);
}

/// A story in which every kind is accepted, of van 0 with users 0 to 3.
fn story() -> Vec<[u8; 40]> {
    vec![
        found(0, 0),
        add(0, 1, 0),
        add(0, 2, 0),
        enter(0, 0, shares(&[(0, 300), (1, 600)])),
        put_in(0, 0, 0),
        acknowledge(1, 0),
        enter(2, 1, shares(&[(1, 50)])),
        put_in(2, 0, 1),
        enter(1, 2, shares(&[(1, 7), (2, 8)])),
        put_in(1, 0, 2),
        take_out(1, 0, 2),
        change(1, 2, shares(&[(2, 9)])),
        put_in(1, 0, 2),
        leave(2, 0),
        absorb(1, 2, 2),
        acknowledge(1, 2),
        delete(1, 2),
        leave(0, 0),
    ]
}

#[test]
fn raising_at_any_moment() {
    let story = story();
    let mut kinds: Vec<u8> = story.iter().map(|action| action[0]).collect();
    kinds.sort();
    kinds.dedup();
    assert_eq!(kinds, (1..=10).collect::<Vec<u8>>());

    let end = |moment: usize| {
        let mut image = Image::new(0, TWO_HOMES);
        for (step, action) in story.iter().enumerate() {
            if step == moment {
                image = image.raised().unwrap();
            }
            let action = match (image.version(), action[0]) {
                (2, 1) => found_under(1, action[1], action[3]),
                _ => *action,
            };
            assert_eq!(image.act(&action), 0, "step {step}");
        }
        image
    };
    let old = end(story.len());
    let raised = old.raised().unwrap();
    for moment in 0..story.len() {
        assert_eq!(end(moment), raised);
    }
    assert_eq!(raised.statement(0), old.statement(0));
    assert_eq!(raised.payments(0), old.payments(0));
    assert_eq!(raised.statement(0).0.gifts, 600);
}

#[test]
fn raising_random_images() {
    // The helpers compare each call with the one on what was raised before:
    // actions of every kind, joins, statements and lists.
    let mut random = Random::new(13);
    let mut accepted = [0; 11];
    let mut joined = 0;
    for _ in 0..60 {
        let mut image = Image(generate::sound_image(&mut random, IMAGE_SIZE_1)).sound();
        for _ in 0..40 {
            let kind = 1 + random.below(10) as u8;
            let action = generate::likely_action(&mut random, &image.0, kind, generate::Care::Much);
            accepted[usize::from(kind)] += usize::from(image.act(&action) == 0);
        }
        let other = Image(generate::relative(&mut random, &image.0)).sound();
        joined += usize::from(image.merge(&other) == 0);
        for group in 0..16 {
            if image.statement(group).0.members > 0 {
                image.payments(group);
            }
        }
        let spoiled = generate::spoiled_image(&mut random, &image.0);
        if spoiled.len() == image.0.len() {
            let mut spoiled = Image(spoiled);
            spoiled.merge(&other);
            image.merge(&spoiled);
        }
    }
    assert!(accepted[1..].iter().all(|&count| count > 0) && joined > 0, "{accepted:?} {joined}");
}
