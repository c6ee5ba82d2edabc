//! The model against A4 of document 02: in groups under rule 2 a share of 500
//! cents or fewer counts as acknowledged where validity and A2's test are worked
//! out. No bit is set by it, and under rule 1 nothing changes.

mod common;

use common::slowly::{self, random_group, Costs};
use common::*;
use val_host::generate;
use val_host::model::v2;
use val_host::random::Random;
use val_host::{Answer, Line, Totals, IMAGE_SIZE_2};

/// Group 9 of these counters under this rule, everybody at home on replica 0.
fn group_nine(rule: u16, counters: [u16; 8]) -> Image {
    Image::new_2(0, [0; 8]).counters(9, counters).rule(9, rule)
}

/// A cost in group 9, paid by user 0, with these acknowledgements and shares.
fn cost(acknowledged: u8, of: &[(usize, u32)]) -> Expense {
    Expense { group: 9, acknowledged, shares: shares(of), ..PLAIN }
}

/// How many costs of group 9 are valid.
fn valid_costs(image: &Image) -> u32 {
    let (totals, _) = image.statement(9);
    assert_eq!(totals.answer, Answer::Ok);
    totals.expenses
}

fn raws(image: &Image) -> [i64; 8] {
    image.statement(9).1.map(|line| line.raw)
}

// ---- when a cost is valid -----------------------------------------------------------

#[test]
fn alone() {
    // Beside the limit: numbers whose low byte, or low two bytes, are below it.
    let large = [501, 502, 512, 756, 65_536, 66_036, 16_777_216, 999_999_999, 1_000_000_000];
    for user in 0..8 {
        let is_valid = |rule, acknowledged: u8, share| {
            let image = group_nine(rule, [1; 8]).expense(5, cost(acknowledged, &[(user, share)]));
            valid_costs(&image.sound()) == 1
        };
        for share in [1, 2, 255, 256, 499, 500] {
            assert!(is_valid(2, 0, share), "user {user}, {share} cents");
            assert!(!is_valid(1, 0, share));
        }
        for share in large {
            assert!(!is_valid(2, 0, share), "user {user}, {share} cents");
            assert!(!is_valid(1, 0, share));
        }
        for share in [1, 499, 500, 501].into_iter().chain(large) {
            assert!(is_valid(2, 1 << user, share));
            assert!(is_valid(1, 1 << user, share));
        }
    }
}

#[test]
fn among_others() {
    // One share beside seven others of each sort, with and without their bits.
    for user in 0..8 {
        for others in [0, 1, 500, 501, 100_000] {
            let mut of = [others; 8];
            for (share, own_bit) in [(500, false), (501, false), (500, true), (501, true)] {
                of[user] = share;
                let positive = (0..8).filter(|&user| of[user] > 0).fold(0, |bits, u| bits | 1 << u);
                let own = u8::from(own_bit) << user;
                for acknowledged in [own, positive & !(1 << user) | own] {
                    let cost = Expense { shares: of, ..cost(acknowledged, &[]) };
                    let valid =
                        |rule| valid_costs(&group_nine(rule, [1; 8]).expense(5, cost).sound()) == 1;
                    assert_eq!(valid(1), acknowledged == positive);
                    let others_count = others <= 500 || acknowledged | 1 << user == 255;
                    assert_eq!(valid(2), others_count && (share == 500 || own_bit));
                }
            }
        }
    }
}

#[test]
fn every_set_of_acknowledgements() {
    // Small and large shares in turn, and every set of those who have one.
    let of = [500, 501, 0, 499, 502, 1, 1000, 0];
    let positive = 0b0111_1011u8;
    let large = 0b0101_0010;
    for acknowledged in (0..=255u8).filter(|bits| bits & !positive == 0) {
        let cost = Expense { shares: of, ..cost(acknowledged, &[]) };
        let valid = |rule| valid_costs(&group_nine(rule, [1; 8]).expense(63, cost).sound()) == 1;
        assert_eq!(valid(1), acknowledged == positive);
        assert_eq!(valid(2), acknowledged & large == large);
    }
}

#[test]
fn neither_deleted_nor_elsewhere() {
    let small = cost(0, &[(1, 500)]);
    let image = |expense| group_nine(2, [1; 8]).expense(0, expense).sound();
    assert_eq!(valid_costs(&image(small)), 1);
    assert_eq!(valid_costs(&image(Expense { deleted: 1, ..small })), 0);
    assert_eq!(valid_costs(&image(Expense { group: NONE, ..small })), 0);
    // The rule is that of the cost's own group, whatever the other's is.
    for (ninth, eighth) in [(1, 2), (2, 1)] {
        let both = group_nine(ninth, [1; 8]).counters(8, [1; 8]).rule(8, eighth);
        let both = both.expense(0, small).expense(1, Expense { group: 8, ..small }).sound();
        assert_eq!(both.statement(9).0.expenses, u32::from(ninth == 2));
        assert_eq!(both.statement(8).0.expenses, u32::from(eighth == 2));
    }
}

#[test]
fn who_holds_it_is_no_matter() {
    // Nobody has to be a member: not the payer, not who has a share.
    for counters in [[1; 8], [2; 8], [2, 1, 1, 1, 1, 1, 1, 1], [1, 2, 1, 1, 1, 1, 1, 1]] {
        for share in [500, 501] {
            let image = group_nine(2, counters).expense(7, cost(0, &[(1, share)])).sound();
            assert_eq!(valid_costs(&image), u32::from(share == 500));
        }
    }
    // Also the payer's own share, which kind 5 may find without its bit.
    let image = |share| group_nine(2, [1; 8]).expense(7, cost(0, &[(0, share)])).sound();
    assert_eq!((valid_costs(&image(500)), valid_costs(&image(501))), (1, 0));
}

#[test]
fn a_raised_group_is_under_rule_1() {
    let old = Image::new(0, [0; 8]).counters(9, [1; 8]).expense(0, cost(0, &[(1, 1)])).sound();
    assert_eq!(old.statement(9).0.expenses, 0);
    let raised = old.raised().unwrap();
    assert_eq!(raised.read_rule(9), 1);
    assert_eq!(valid_costs(&raised), 0);
    assert_eq!(valid_costs(&raised.rule(9, 2)), 1);
}

#[test]
fn numbers_above_15() {
    // An expense in no group has 255 for its group.
    let alone = Expense { group: NONE, ..cost(0, &[(1, 5)]) };
    let image = group_nine(2, [1; 8]).expense(0, alone).expense(1, cost(0, &[(1, 5)])).sound();
    let mut cents = [7; 64];
    for group in [0, 8, 16, 255, 256 + 9, 65_536 + 9, (1 << 32) + 9, u64::MAX] {
        let (totals, lines) = image.statement(group);
        let refused = Totals { answer: Answer::GroupAbsent, members: 0, expenses: 0, gifts: 0 };
        assert_eq!((totals, lines), (refused, [Line::default(); 8]));
        assert_eq!(v2::payments(&image.0, group, &mut cents).number(), 10);
        // The image's own faults come first.
        for (at, answer) in [(0, 2), (3, 3), (5, 4), (306, 5)] {
            let faulty = image.clone().with(at, 9);
            assert_eq!(faulty.statement(group).0.answer.number(), answer);
            assert_eq!(v2::payments(&faulty.0, group, &mut cents).number(), answer);
        }
    }
    assert_eq!(cents, [7; 64]);
}

// ---- what follows from it -----------------------------------------------------------

#[test]
fn the_same_image_under_both_rules() {
    // User 0 paid 500 for user 1 and 501 for user 2, user 3 has left and paid
    // 300 for users 1 and 2; nobody has acknowledged anything.
    let image = |rule| {
        group_nine(rule, [1, 1, 1, 2, 0, 0, 0, 0])
            .expense(0, cost(0, &[(1, 500)]))
            .expense(1, cost(0, &[(2, 501)]))
            .expense(2, Expense { payer: 3, ..cost(0, &[(1, 100), (2, 200)]) })
            .sound()
    };
    let (totals, lines) = image(1).statement(9);
    assert_eq!(totals, Totals { answer: Answer::Ok, members: 3, expenses: 0, gifts: 0 });
    assert_eq!(lines.map(|line| (line.raw, line.balance)), [(0, 0); 8]);
    assert_eq!(image(1).list(9), []);

    // The gifts go by use: user 1 has two valid costs, user 2 one.
    let (totals, lines) = image(2).statement(9);
    assert_eq!(totals, Totals { answer: Answer::Ok, members: 3, expenses: 2, gifts: 300 });
    assert_eq!(lines[0], Line { counter: 1, raw: 500, gift: 0, part: 0, balance: 500 });
    assert_eq!(lines[1], Line { counter: 1, raw: -600, gift: 0, part: 200, balance: -400 });
    assert_eq!(lines[2], Line { counter: 1, raw: -200, gift: 0, part: 100, balance: -100 });
    assert_eq!(lines[3], Line { counter: 2, raw: 300, gift: 300, part: 0, balance: 0 });
    assert_eq!(image(2).list(9), [(1, 0, 400), (2, 0, 100)]);

    // Once all have acknowledged, the raws are the same under both.
    let all = |rule| {
        image(rule)
            .expense(0, cost(2, &[(1, 500)]))
            .expense(1, cost(4, &[(2, 501)]))
            .expense(2, Expense { payer: 3, ..cost(6, &[(1, 100), (2, 200)]) })
            .sound()
    };
    assert_eq!((valid_costs(&all(1)), valid_costs(&all(2))), (3, 3));
    assert_eq!(raws(&all(1)), raws(&all(2)));
    assert_eq!(raws(&all(1))[..4], [1001, -600, -701, 300]);
}

#[test]
fn weights_of_small_shares() {
    // User 7 left 90 cents. User 0 has a cost that user 1 shares, without a nod.
    let image = |share| {
        group_nine(2, [1, 1, 0, 0, 0, 0, 0, 2])
            .expense(0, Expense { payer: 7, ..cost(0, &[(0, 90)]) })
            .expense(1, cost(0, &[(0, 5), (1, share)]))
            .sound()
    };
    let parts = |share| image(share).statement(9).1.map(|line| line.part);
    assert_eq!(parts(500), [60, 30, 0, 0, 0, 0, 0, 0]);
    assert_eq!(parts(501), [90, 0, 0, 0, 0, 0, 0, 0]);
}

#[test]
fn from_the_first_van_to_the_second() {
    // Put in on van 0, valid at once, and on van 1 as soon as it is heard.
    let mut van0 = Image::new_2(0, OWN_HOMES);
    let mut van1 = Image::new_2(1, OWN_HOMES);
    for action in [
        found_under(2, 0, 0),
        add(0, 1, 0),
        enter(0, 0, shares(&[(0, 200), (1, 500)])),
        enter(0, 1, shares(&[(0, 200), (1, 501)])),
        put_in(0, 0, 0),
    ] {
        assert_eq!(van0.act(&action), 0);
        assert_eq!(van0.statement(0).0.expenses, u32::from(action[0] == 5));
    }
    assert_eq!(van0.act(&put_in(0, 0, 1)), 0);
    assert_eq!(van1.merge(&van0), 0);
    for van in [&van0, &van1] {
        assert_eq!(van.statement(0).0.expenses, 1);
        assert_eq!(van.statement(0).1.map(|line| line.raw)[..2], [500, -500]);
        assert_eq!((van.record(0).acknowledged, van.record(1).acknowledged), (1, 1));
    }
    // 501 must be acknowledged, and is valid where that is heard.
    assert_eq!(van1.act(&acknowledge(1, 1)), 0);
    assert_eq!((van0.statement(0).0.expenses, van1.statement(0).0.expenses), (1, 2));
    assert_eq!(van0.merge(&van1), 0);
    assert_eq!(van0.statement(0).1, van1.statement(0).1);
    assert_eq!(van0.statement(0).1.map(|line| line.raw)[..2], [1001, -1001]);
}

// ---- no bit is set by it --------------------------------------------------------------

#[test]
fn kind_9_on_a_small_share() {
    for share in [1, 500, 501] {
        for rule in [1, 2] {
            let open = cost(0, &[(1, share)]);
            let mut image = group_nine(rule, [1; 8]).expense(3, open).sound();
            let valid_before = rule == 2 && share <= 500;
            assert_eq!(valid_costs(&image), u32::from(valid_before));
            // Accepted once, which sets the bit and nothing else.
            assert_eq!(image.act(&acknowledge(1, 3)), 0);
            let acknowledged = Expense { acknowledged: 2, ..open };
            assert_eq!(image, group_nine(rule, [1; 8]).expense(3, acknowledged));
            assert_eq!(valid_costs(&image), 1);
            assert_eq!(image.act(&acknowledge(1, 3)), 26);
        }
    }
}

#[test]
fn kind_9_in_order() {
    // 17, 24, 22, 11, 25 and 26 as ever, though all of it is small.
    let image = |expense| group_nine(2, [1, 1, 0, 2, 0, 0, 0, 0]).expense(3, expense).sound();
    let open = cost(0, &[(1, 5), (3, 5)]);
    assert_eq!(image(open).act(&acknowledge(1, 4)), 17);
    assert_eq!(image(Expense { deleted: 1, ..open }).act(&acknowledge(1, 3)), 24);
    assert_eq!(image(Expense { group: NONE, ..open }).act(&acknowledge(1, 3)), 22);
    assert_eq!(image(open).act(&acknowledge(3, 3)), 11);
    assert_eq!(image(open).act(&acknowledge(0, 3)), 25);
    assert_eq!(image(Expense { acknowledged: 2, ..open }).act(&acknowledge(1, 3)), 26);
    assert_eq!(image(open).act(&acknowledge(1, 3)), 0);
}

#[test]
fn kind_10_on_a_small_share() {
    for (rule, share) in [(1, 500), (2, 1), (2, 500), (2, 501)] {
        let base = group_nine(rule, [1, 1, 1, 2, 0, 0, 0, 0]);
        let image = |expense| base.clone().expense(3, expense).sound();
        let open = cost(3, &[(0, 700), (1, 600), (3, share)]);
        // User 3 has left: its share moves, the other bits remain.
        let mut absorbed = image(open);
        assert_eq!(absorbed.act(&absorb(0, 3, 3)), 0);
        let after = cost(3, &[(0, 700 + share), (1, 600)]);
        assert_eq!(absorbed, image(Expense { version: 1, ..after }));
        assert_eq!(valid_costs(&absorbed), 1);
        // 26 by the stored bit, 28 for a member.
        assert_eq!(image(Expense { acknowledged: 11, ..open }).act(&absorb(0, 3, 3)), 26);
        assert_eq!(image(open).counter(9, 3, 3).act(&absorb(0, 3, 3)), 28);
    }
}

#[test]
fn absorbing_beyond_the_limit() {
    // The payer has no share, users 1 and 2 have left without a nod.
    let base = |rule| group_nine(rule, [1, 2, 2, 1, 0, 0, 0, 0]);
    let absorbed = |rule, first: u32, second: u32| {
        let of = [(1, first), (2, second), (3, 10)];
        let mut image = base(rule).expense(3, cost(0, &of)).sound();
        let before = valid_costs(&image);
        assert_eq!(image.act(&absorb(0, 1, 3)), 0);
        let between = valid_costs(&image);
        assert_eq!(image.act(&absorb(0, 2, 3)), 0);
        let after = Expense { version: 2, ..cost(0, &[(0, first + second), (3, 10)]) };
        assert_eq!(image, base(rule).expense(3, after));
        (before, between, image)
    };
    // Up to 500 the payer need not acknowledge what it took over either.
    let (before, between, image) = absorbed(2, 250, 250);
    assert_eq!((before, between, valid_costs(&image)), (1, 1, 1));
    assert_eq!(raws(&image)[..4], [10, 0, 0, -10]);
    // Above, the cost is no longer valid until the payer acknowledges.
    for (first, second) in [(250, 251), (1, 500), (500, 1), (500, 500)] {
        let (before, between, mut image) = absorbed(2, first, second);
        assert_eq!((before, between, valid_costs(&image)), (1, 1, 0));
        assert_eq!(raws(&image), [0; 8]);
        assert_eq!(image.act(&acknowledge(0, 3)), 0);
        assert_eq!(valid_costs(&image), 1);
        assert_eq!(raws(&image)[..4], [10, 0, 0, -10]);
    }
    // Under rule 1 it waits all the time: for the payer, and for user 3.
    let (before, between, mut image) = absorbed(1, 250, 250);
    assert_eq!((before, between, valid_costs(&image)), (0, 0, 0));
    assert_eq!(image.act(&acknowledge(0, 3)), 0);
    assert_eq!(valid_costs(&image), 0);
    assert_eq!(image.act(&acknowledge(3, 3)), 0);
    assert_eq!(valid_costs(&image), 1);
}

#[test]
fn the_bits_of_the_other_kinds() {
    // As in document 01 to the byte: put in, change, take out, delete.
    let small = shares(&[(0, 100), (1, 500)]);
    let mut image = group_nine(2, [1; 8]);
    let is = |image: &Image, group: u8, deleted: u8, version: u32, acknowledged: u8| {
        let expense = Expense { group, deleted, version, acknowledged, shares: small, ..PLAIN };
        assert_eq!(*image, group_nine(2, [1; 8]).expense(3, expense));
    };
    assert_eq!(image.act(&enter(0, 3, small)), 0);
    is(&image, NONE, 0, 0, 1);
    assert_eq!(image.act(&put_in(0, 9, 3)), 0);
    is(&image, 9, 0, 1, 1);
    assert_eq!(valid_costs(&image), 1);
    assert_eq!(image.act(&acknowledge(1, 3)), 0);
    is(&image, 9, 0, 1, 3);
    // The other's bit goes, and the cost is valid all the same.
    assert_eq!(image.act(&change(0, 3, small)), 0);
    is(&image, 9, 0, 2, 1);
    assert_eq!(valid_costs(&image), 1);
    assert_eq!(image.act(&acknowledge(1, 3)), 0);
    assert_eq!(image.act(&take_out(0, 9, 3)), 0);
    is(&image, NONE, 0, 3, 1);
    assert_eq!(image.act(&put_in(0, 9, 3)), 0);
    assert_eq!(image.act(&delete(0, 3)), 0);
    is(&image, 9, 1, 5, 1);
    assert_eq!(valid_costs(&image), 0);
}

#[test]
fn joins_read_the_stored_bits() {
    let base = |van| Image::new_2(van, [0; 8]).counters(9, [1; 8]).rule(9, 2);
    let with = |van, acknowledged| {
        base(van).expense(0, cost(acknowledged, &[(0, 5), (1, 500), (2, 501)])).sound()
    };
    // Bits are united, none comes from a small share, and none is a conflict.
    for (ours, theirs) in [(0, 0), (0, 2), (2, 0), (1, 2), (4, 3), (7, 0)] {
        let mut own = with(0, ours);
        assert_eq!(own.merge(&with(1, theirs)), 0);
        assert_eq!(own, with(0, ours | theirs));
    }
    // Shares that differ are one, small or not.
    let mut own = base(0).expense(0, cost(0, &[(1, 5)])).sound();
    assert_eq!(own.merge(&base(1).expense(0, cost(0, &[(1, 6)]))), 31);
    // The higher version whole: its bits and no others.
    let newer = Expense { version: 1, ..cost(0, &[(1, 6)]) };
    assert_eq!(own.merge(&base(1).expense(0, newer)), 0);
    assert_eq!(own, base(0).expense(0, newer));
}

// ---- leaving ----------------------------------------------------------------------------

/// What user 1 gets for leaving group 9, in which user 0 paid this cost.
fn leaving(rule: u16, cost: Expense) -> u32 {
    let mut image = group_nine(rule, [1, 1, 1, 1, 0, 0, 0, 0]).expense(3, cost).sound();
    let before = image.clone();
    let answer = image.act(&leave(1, 9));
    assert_eq!(image, if answer == 0 { before.counter(9, 1, 2) } else { before });
    answer
}

#[test]
fn leaving_with_a_small_share_pending() {
    // Nobody has acknowledged anything, and user 2's share must be: it waits
    // for user 2, and user 1's small share counts as acknowledged.
    for own in [1, 499, 500] {
        let waits = cost(0, &[(1, own), (2, 501)]);
        assert_eq!((leaving(2, waits), leaving(1, waits)), (34, 0));
        // With the bit, as ever.
        let waits = Expense { acknowledged: 2, ..waits };
        assert_eq!((leaving(2, waits), leaving(1, waits)), (34, 34));
    }
    // A share of 501 is not acknowledged: it waits for user 1 too.
    let own_too = cost(0, &[(1, 501), (2, 501)]);
    assert_eq!((leaving(2, own_too), leaving(1, own_too)), (0, 0));
    let own_too = Expense { acknowledged: 4, ..own_too };
    assert_eq!((leaving(2, own_too), leaving(1, own_too)), (0, 0));
    let acknowledged = Expense { acknowledged: 2, ..own_too };
    assert_eq!((leaving(2, acknowledged), leaving(1, acknowledged)), (34, 34));
    // No share of user 1's: a share of nothing is small, but not positive.
    let of_others = cost(0, &[(0, 5), (2, 501)]);
    assert_eq!((leaving(2, of_others), leaving(1, of_others)), (0, 0));
    let paid = Expense { payer: 1, ..of_others };
    assert_eq!((leaving(2, paid), leaving(1, paid)), (0, 0));
    // Deleted, or in no group.
    for over in [
        Expense { deleted: 1, ..cost(0, &[(1, 5), (2, 501)]) },
        Expense { group: NONE, ..cost(0, &[(1, 5), (2, 501)]) },
    ] {
        assert_eq!((leaving(2, over), leaving(1, over)), (0, 0));
    }
}

#[test]
fn leaving_when_only_small_shares_wait() {
    // User 1 has acknowledged, user 2's small share has no bit: pending under
    // rule 1; under rule 2 the cost is valid, and user 1 owes or is owed.
    let held = cost(2, &[(1, 900), (2, 500)]);
    assert_eq!((leaving(2, held), leaving(1, held)), (13, 34));
    let paid = Expense { payer: 1, ..held };
    assert_eq!((leaving(2, paid), leaving(1, paid)), (0, 34));
    // A small share of its own that nobody waits for is owed under rule 2 only.
    let own = cost(0, &[(1, 500)]);
    assert_eq!((leaving(2, own), leaving(1, own)), (13, 0));
    let own = cost(0, &[(1, 501)]);
    assert_eq!((leaving(2, own), leaving(1, own)), (0, 0));
}

#[test]
fn leaving_in_another_group() {
    // The rule and the costs of the group that is left decide.
    let waits = cost(0, &[(1, 5), (2, 501)]);
    for (ninth, eighth) in [(1, 2), (2, 1), (2, 2), (1, 1)] {
        let image = group_nine(ninth, [1; 8]).counters(8, [1; 8]).rule(8, eighth);
        let in_ninth = image.clone().expense(0, waits).sound();
        assert_eq!(in_ninth.clone().act(&leave(1, 9)), if ninth == 2 { 34 } else { 0 });
        assert_eq!(in_ninth.clone().act(&leave(1, 8)), 0);
        let in_eighth = image.expense(0, Expense { group: 8, ..waits }).sound();
        assert_eq!(in_eighth.clone().act(&leave(1, 9)), 0);
        assert_eq!(in_eighth.clone().act(&leave(1, 8)), if eighth == 2 { 34 } else { 0 });
    }
}

#[test]
fn leaving_in_order() {
    // 13, 34 and 14, each with all that come after it, and all by small shares.
    let owed = cost(0, &[(1, 1)]);
    let waits = cost(0, &[(1, 500), (2, 501)]);
    let image = group_nine(2, [1, 65_535, 1, 0, 0, 0, 0, 0]).expense(3, waits).sound();
    assert_eq!(image.clone().expense(4, owed).act(&leave(1, 9)), 13);
    assert_eq!(image.clone().act(&leave(1, 9)), 34);
    assert_eq!(image.clone().counter(9, 1, 65_533).act(&leave(1, 9)), 34);
    let mut over = image.expense(3, Expense { deleted: 1, ..waits });
    assert_eq!(over.act(&leave(1, 9)), 14);
    // Raw 0 by two small shares, neither of them acknowledged.
    let paid = Expense { payer: 1, ..cost(0, &[(0, 1)]) };
    let even = over.counter(9, 1, 65_533).expense(4, owed).expense(5, paid).sound();
    assert_eq!(raws(&even), [0; 8]);
    assert_eq!(even.clone().act(&leave(1, 9)), 0);
    let short = Expense { shares: shares(&[(1, 2)]), ..owed };
    assert_eq!(even.expense(4, short).act(&leave(1, 9)), 13);
}

#[test]
fn a_box_of_screws() {
    // User 0 buys screws for three, each a small share, and leaves at once with
    // what is owed, which goes by use to those who shared.
    let mut image = Image::new_2(0, [0; 8]);
    for action in [
        found_under(2, 0, 0),
        add(0, 1, 0),
        add(0, 2, 0),
        add(0, 3, 0),
        enter(0, 0, shares(&[(0, 400), (1, 400), (2, 500)])),
        put_in(0, 0, 0),
        leave(0, 0),
    ] {
        assert_eq!(image.act(&action), 0);
    }
    let (totals, lines) = image.statement(0);
    assert_eq!(totals, Totals { answer: Answer::Ok, members: 3, expenses: 1, gifts: 900 });
    assert_eq!(lines.map(|line| line.raw)[..4], [900, -400, -500, 0]);
    assert_eq!(lines.map(|line| line.part)[..4], [0, 450, 450, 0]);
    assert_eq!(image.list(0), [(2, 1, 50)]);
    assert_eq!(image.record(0).acknowledged, 1);
}

#[test]
fn a_leaver_who_has_not_heard() {
    // User 1 leaves on van 1 while user 0 puts in a cost with a share of user 1
    // on van 0. Under rule 2 a small one is owed by who has left, without a nod.
    for (rule, share, owed) in [(1, 500, 0), (2, 500, 500), (2, 501, 0)] {
        let mut van0 = Image::new_2(0, OWN_HOMES);
        let mut van1 = Image::new_2(1, OWN_HOMES);
        assert_eq!(van0.act(&found_under(rule, 0, 0)), 0);
        assert_eq!(van0.act(&add(0, 1, 0)), 0);
        assert_eq!(van1.merge(&van0), 0);
        assert_eq!(van1.act(&leave(1, 0)), 0);
        assert_eq!(van0.act(&enter(0, 0, shares(&[(1, share)]))), 0);
        assert_eq!(van0.act(&put_in(0, 0, 0)), 0);
        assert_eq!(van0.merge(&van1), 0);
        let balances = |image: &Image| image.statement(0).1.map(|line| line.balance);
        assert_eq!(balances(&van0), [owed, -owed, 0, 0, 0, 0, 0, 0]);
        // The payer may absorb it: no bit is stored.
        assert_eq!(van0.act(&absorb(0, 1, 0)), 0);
        assert_eq!(balances(&van0), [0; 8]);
    }
}

// ---- the papers' sentences, read slowly -------------------------------------------------

/// Each user leaves a copy of the image as the user's home van has it, and the
/// sentences must agree. How often the other rule would answer otherwise.
fn everybody_leaves(image: &Image, group: usize) -> usize {
    let other_rule = image.clone().rule(group, 3 - image.read_rule(group));
    let mut decided = 0;
    for user in 0..8 {
        let home = image.0[6 + user];
        let answer = image.clone().with(5, home).act(&leave(user as u8, group as u8));
        assert_eq!(answer, slowly::leave(image, group, user));
        decided += usize::from(answer != slowly::leave(&other_rule, group, user));
    }
    decided
}

#[test]
fn random_groups_read_slowly() {
    let mut random = Random::new(17);
    let (mut valid_by_it, mut left_by_it) = ([0, 0], [0, 0]);
    for _ in 0..6000 {
        let group = random.below(16);
        let costs = Costs { largest: None, acknowledged: 30, most: random.pick(&[2, 3, 6, 20]) };
        let image = random_group(&mut random, group, costs);
        let (totals, lines) = image.statement(group as u64);
        assert_eq!((totals, lines), slowly::statement(&image, group));
        let rule = image.read_rule(group);
        let other_rule = image.clone().rule(group, 3 - rule).statement(group as u64).0;
        let of_rule = usize::from(rule) - 1;
        valid_by_it[of_rule] += usize::from(totals.expenses != other_rule.expenses);
        left_by_it[of_rule] += everybody_leaves(&image, group);
    }
    assert!(valid_by_it.iter().all(|&count| count > 300), "{valid_by_it:?}");
    assert!(left_by_it.iter().all(|&count| count > 300), "{left_by_it:?}");
}

#[test]
fn random_images_read_slowly() {
    let mut random = Random::new(19);
    let mut left_by_it = 0;
    for _ in 0..60 {
        let image = Image(generate::sound_image(&mut random, IMAGE_SIZE_2)).sound();
        for group in (0..16).filter(|&group| image.read_rule(group) > 0) {
            left_by_it += everybody_leaves(&image, group);
        }
    }
    assert!(left_by_it > 50, "{left_by_it}");
}
