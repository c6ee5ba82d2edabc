//! The model against document 01 and A1 and A2 of document 02: their examples
//! and edges, every refusal of every call in order, and the sums of a random
//! history.

mod common;

use common::*;
use val_host::model::v1::{act, check, empty, lookup, merge, payments, statement};
use val_host::{Answer, Line, Totals, IMAGE_SIZE_1, PAYMENTS};

// ---- C1 to C10 ------------------------------------------------------------

#[test]
fn c1() {
    let mut van0 = Image::new(0, OWN_HOMES);
    let mut van1 = Image::new(1, OWN_HOMES);
    assert_eq!(van0.act(&found(0, 0)), 0);
    assert_eq!(van0.act(&add(0, 1, 0)), 0);
    assert_eq!(van0.act(&enter(0, 0, shares(&[(0, 300), (1, 600)]))), 0);
    assert_eq!(van0.act(&put_in(0, 0, 0)), 0);
    assert_eq!(van1.merge(&van0), 0);
    assert_eq!(van1.act(&acknowledge(1, 0)), 0);
    assert_eq!(van0.merge(&van1), 0);
    assert_eq!(van0.list(0), [(1, 0, 600)]);
    assert_eq!(van0.act(&leave(0, 0)), 0);
    assert_eq!(van0.list(0), []);

    let (totals, lines) = van0.statement(0);
    assert_eq!(totals, Totals { answer: Answer::Ok, members: 1, expenses: 1, gifts: 600 });
    assert_eq!(lines[0], Line { counter: 2, raw: 600, gift: 600, part: 0, balance: 0 });
    assert_eq!(lines[1], Line { counter: 1, raw: -600, gift: 0, part: 600, balance: 0 });
    assert_eq!(lines[2..], [Line::default(); 6]);
    assert_eq!(van0.0[5], 0);
    assert_eq!(van1.0[5], 1);
}

#[test]
fn c2_c3_totals() {
    let mut image = Image::new(0, OWN_HOMES);
    assert_eq!(image.act(&enter(0, 0, shares(&[(0, 1_000_000_000)]))), 0);
    assert_eq!(image.act(&enter(0, 1, shares(&[(0, 999_999_999), (7, 1)]))), 0);
    assert_eq!(image.act(&enter(0, 2, shares(&[(5, 1)]))), 0);
    assert_eq!(image.act(&enter(0, 3, shares(&[(0, 1_000_000_001)]))), 19);
    assert_eq!(image.act(&enter(0, 3, shares(&[(0, 1_000_000_000), (7, 1)]))), 19);
    assert_eq!(image.act(&enter(0, 3, NO_SHARES)), 19);
    // A total that is small in 32 bits only.
    assert_eq!(image.act(&enter(0, 3, shares(&[(0, TOP), (1, 2)]))), 19);
    assert_eq!(image.act(&enter(0, 3, [TOP; 8])), 19);
}

#[test]
fn c4_c5_leaving_looks_at_raw() {
    let valid = |payer, acknowledged, of: &[(usize, u32)]| Expense {
        payer,
        group: 0,
        acknowledged,
        shares: shares(of),
        ..PLAIN
    };
    let members = Image::new(0, OWN_HOMES).counters(0, [1, 1, 0, 0, 0, 0, 0, 0]);

    // Raw 0: each holds what it paid.
    let mut even = members
        .clone()
        .expense(0, valid(0, 2, &[(1, 5)]))
        .expense(64, valid(1, 1, &[(0, 5)]))
        .sound();
    assert_eq!(even.statement(0).1[0].raw, 0);
    assert_eq!(even.act(&leave(0, 0)), 0);

    let mut owing = members
        .clone()
        .expense(0, valid(0, 2, &[(1, 5)]))
        .expense(64, valid(1, 1, &[(0, 6)]))
        .sound();
    assert_eq!(owing.statement(0).1[0].raw, -1);
    assert_eq!(owing.act(&leave(0, 0)), 13);

    // A part that lifts the balance to zero does not help.
    let mut lifted = members.counter(0, 1, 2).expense(64, valid(1, 1, &[(0, 6)])).sound();
    assert_eq!(
        lifted.statement(0).1[0],
        Line { counter: 1, raw: -6, gift: 0, part: 6, balance: 0 }
    );
    assert_eq!(lifted.act(&leave(0, 0)), 13);
}

#[test]
fn c6_c7_counters() {
    let image = |counter| Image::new(0, OWN_HOMES).counter(0, 0, counter);
    let mut below = image(65_533);
    assert_eq!(below.act(&leave(0, 0)), 0);
    assert_eq!(below.read_counter(0, 0), 65_534);
    assert_eq!(image(65_535).act(&leave(0, 0)), 14);
    // The last rejoin.
    let mut rejoin = image(1).counter(0, 5, 65_534);
    assert_eq!(rejoin.act(&add(0, 5, 0)), 0);
    assert_eq!(rejoin.read_counter(0, 5), 65_535);
}

#[test]
fn c8_c9_versions() {
    let image = |version| Image::new(0, OWN_HOMES).expense(0, Expense { version, ..PLAIN }).sound();
    let mut below = image(TOP - 1);
    assert_eq!(below.act(&change(0, 0, shares(&[(0, 1)]))), 0);
    assert_eq!(below.record(0).version, TOP);
    assert_eq!(image(TOP).act(&change(0, 0, shares(&[(0, 1)]))), 27);
}

#[test]
fn c10_parts() {
    let image = Image::new(0, OWN_HOMES)
        .counters(3, [2, 1, 0, 3, 0, 0, 65_535, 0])
        .expense(
            0,
            Expense { payer: 0, group: 3, acknowledged: 8, shares: shares(&[(3, 100)]), ..PLAIN },
        )
        .sound();
    let (totals, lines) = image.statement(3);
    assert_eq!(totals, Totals { answer: Answer::Ok, members: 3, expenses: 1, gifts: 100 });
    assert_eq!(lines.map(|line| line.part), [0, 34, 0, 33, 0, 0, 33, 0]);
    assert_eq!(lines.map(|line| line.balance), [0, 34, 0, -67, 0, 0, 33, 0]);
    assert_eq!(image.list(3), [(3, 1, 34), (3, 6, 33)]);
}

// ---- the other edges --------------------------------------------------------

#[test]
fn owned_numbers() {
    let mut image = Image::new(0, OWN_HOMES);
    assert_eq!(image.act(&enter(0, 63, shares(&[(0, 1)]))), 0);
    assert_eq!(image.act(&enter(0, 64, shares(&[(0, 1)]))), 15);
    assert_eq!(image.act(&found(0, 1)), 0);
    assert_eq!(image.act(&found(0, 2)), 8);

    let mut last = Image::new(7, OWN_HOMES);
    assert_eq!(last.act(&enter(7, 511, shares(&[(0, 1)]))), 0);
    assert_eq!(last.act(&enter(7, 447, shares(&[(0, 1)]))), 15);
    assert_eq!(last.act(&found(7, 15)), 0);
    assert_eq!(last.act(&found(7, 13)), 8);
}

#[test]
fn lengths() {
    let whole = Image::new(0, OWN_HOMES);
    for length in [0, 1, 20_751, 20_753] {
        let mut bytes = whole.0.clone();
        bytes.resize(length, 0);
        let before = bytes.clone();
        assert_eq!(check(&bytes).number(), 1);
        assert_eq!(empty(&mut bytes, 0, &OWN_HOMES).number(), 1);
        assert_eq!(act(&mut bytes, &found(0, 0)).number(), 1);
        assert_eq!(merge(&mut bytes, &whole.0).number(), 1);
        assert_eq!(merge(&mut whole.0.clone(), &bytes).number(), 41);
        assert_eq!(statement(&bytes, 0, &mut [Line::default(); 8]).answer.number(), 1);
        assert_eq!(payments(&bytes, 0, &mut [0; 64]).number(), 1);
        assert!(lookup(&bytes, 0).is_empty());
        assert_eq!(bytes, before);
    }
}

#[test]
fn merged_with_itself_unchanged() {
    let mut van = Image::new(0, TWO_HOMES);
    assert_eq!(van.act(&found(0, 0)), 0);
    assert_eq!(van.act(&add(0, 4, 0)), 0);
    assert_eq!(van.act(&enter(0, 9, shares(&[(4, 7)]))), 0);
    assert_eq!(van.act(&put_in(0, 0, 9)), 0);
    let copy = van.clone();
    assert_eq!(van.merge(&copy), 0);
    assert_eq!(van, copy);
}

// ---- empty image and check ----------------------------------------------------

#[test]
fn empty_image() {
    let image = Image::new(5, TWO_HOMES);
    assert_eq!(image.0[..16], *b"VAL\x01\x00\x05\x00\x00\x00\x00\x01\x01\x01\x01\x00\x00");
    assert!(image.0[16..272].iter().all(|&byte| byte == 0));
    for record in image.0[272..].chunks(40) {
        assert_eq!(record[0], NONE);
        assert!(record[1..].iter().all(|&byte| byte == 0));
    }
    assert_eq!(image.check(), 0);

    let mut bytes = vec![7; IMAGE_SIZE_1];
    for van in [8, 255, 256, 1 << 32, u64::MAX] {
        assert_eq!(empty(&mut bytes, van, &OWN_HOMES).number(), 4);
    }
    for user in 0..8 {
        let mut homes = OWN_HOMES;
        homes[user] = 8;
        assert_eq!(empty(&mut bytes, 0, &homes).number(), 4);
    }
    assert_eq!(empty(&mut [], 8, &OWN_HOMES).number(), 1);
    assert!(bytes.iter().all(|&byte| byte == 7));
}

#[test]
fn check_in_order() {
    // All faults at once, then one less each time.
    let mut image = Image(vec![254; IMAGE_SIZE_1]);
    assert_eq!(image.check(), 2);
    image.0[..3].copy_from_slice(b"VAL");
    assert_eq!(image.check(), 3);
    image.0[3..5].copy_from_slice(&[1, 0]);
    assert_eq!(image.check(), 4);
    image.0[5..16].fill(0);
    assert_eq!(image.check(), 5);
    for record in image.0[272..].chunks_mut(40) {
        record.fill(0);
        record[0] = NONE;
    }
    assert_eq!(image.check(), 0);

    let image = Image::new(0, OWN_HOMES);
    for at in 0..3 {
        assert_eq!(image.clone().with(at, b'v').check(), 2);
    }
    assert_eq!(image.clone().with(3, 0).check(), 3);
    assert_eq!(image.clone().with(3, 2).check(), 3);
    assert_eq!(image.clone().with(4, 1).check(), 3);
    for at in 5..14 {
        assert_eq!(image.clone().with(at, 7).check(), 0);
        assert_eq!(image.clone().with(at, 8).check(), 4);
    }
    for at in 14..16 {
        assert_eq!(image.clone().with(at, 1).check(), 4);
    }
    // Any sixteen bits are a counter.
    for at in 16..272 {
        assert_eq!(image.clone().with(at, 255).check(), 0);
    }
}

#[test]
fn unsound_expenses() {
    let base = Image::new(0, TWO_HOMES).counters(3, [1, 2, 0, 65_535, 4, 0, 0, 0]);
    let try_at = |number: usize, expense: Expense| base.clone().expense(number, expense).check();

    // Absent: 39 zero bytes.
    for at in 1..40 {
        for number in [0, 511] {
            assert_eq!(base.clone().with(272 + 40 * number + at, 1).check(), 5);
        }
    }
    // The payer, and its home.
    for number in [0, 63] {
        assert_eq!(try_at(number, PLAIN), 0);
    }
    for number in [64, 128, 511] {
        assert_eq!(try_at(number, PLAIN), 5);
    }
    let of_four = Expense { payer: 4, acknowledged: 0, ..PLAIN };
    assert_eq!(try_at(64, of_four), 0);
    assert_eq!(try_at(63, of_four), 5);
    for payer in [8, 9, 127, 254] {
        assert_eq!(try_at(0, Expense { payer, acknowledged: 0, ..PLAIN }), 5);
    }
    // Group and deleted.
    let grouped = Expense { group: 3, shares: shares(&[(0, 1), (1, 2), (3, 3), (4, 4)]), ..PLAIN };
    assert_eq!(try_at(0, grouped), 0);
    for group in [0, 2, 4, 16, 17, 254] {
        assert_eq!(try_at(0, Expense { group, ..grouped }), 5);
    }
    assert_eq!(try_at(0, Expense { deleted: 1, ..grouped }), 0);
    assert_eq!(try_at(0, Expense { deleted: 2, ..grouped }), 5);
    assert_eq!(try_at(0, Expense { deleted: 255, ..grouped }), 5);
    // The total.
    for (of, answer) in [
        (vec![(0, 0)], 5),
        (vec![(0, 1)], 0),
        (vec![(0, 1_000_000_000)], 0),
        (vec![(0, 1_000_000_001)], 5),
        (vec![(0, 999_999_999), (1, 1)], 0),
        (vec![(0, 1_000_000_000), (4, 1)], 5),
        (vec![(0, TOP), (1, 2)], 5),
        (vec![(0, TOP), (1, TOP), (3, TOP), (4, TOP)], 5),
    ] {
        for group in [NONE, 3] {
            let expense = Expense { group, acknowledged: 0, shares: shares(&of), ..PLAIN };
            assert_eq!(try_at(0, expense), answer);
        }
    }
    // Acknowledgements.
    for acknowledged in 0..=255u8 {
        let answer = if acknowledged & !0b0001_1011 == 0 { 0 } else { 5 };
        assert_eq!(try_at(0, Expense { acknowledged, ..grouped }), answer);
        let answer = if acknowledged & !1 == 0 { 0 } else { 5 };
        assert_eq!(try_at(0, Expense { acknowledged, group: NONE, ..grouped }), answer);
        // The payer's bit without a share of its own.
        let expense = Expense { acknowledged, shares: shares(&[(1, 5)]), ..PLAIN };
        assert_eq!(try_at(0, expense), if acknowledged == 0 { 0 } else { 5 });
    }
    // Never a member: a shareholder, and the payer.
    for user in [2, 5, 6, 7] {
        let expense = Expense { shares: shares(&[(0, 1), (user, 1)]), ..grouped };
        assert_eq!(try_at(0, expense), 5);
        assert_eq!(try_at(0, Expense { group: NONE, ..expense }), 0);
    }
    let payer = Expense { payer: 2, acknowledged: 0, shares: shares(&[(1, 1)]), ..grouped };
    assert_eq!(try_at(0, payer), 5);
    assert_eq!(try_at(0, Expense { group: NONE, ..payer }), 0);
    assert_eq!(try_at(0, Expense { payer: 1, ..payer }), 0);
    // Any version.
    for version in [0, 1, TOP - 1, TOP] {
        assert_eq!(try_at(63, Expense { version, ..PLAIN }), 0);
    }
}

// ---- actions, each refusal in its order -----------------------------------------

#[test]
fn records_that_give_no_action() {
    let mut image = Image::new(0, TWO_HOMES);
    // 6 comes before 7, and the image's own faults before 6.
    for length in [0, 1, 39, 41] {
        let mut action = found(4, 0).to_vec();
        action.resize(length, 0);
        assert_eq!(image.act(&action), 6);
    }
    assert_eq!(image.clone().with(272, 0).act(&[]), 5);
    assert_eq!(image.clone().with(5, 8).act(&[]), 4);
    assert_eq!(image.clone().with(3, 8).act(&[]), 3);
    assert_eq!(image.clone().with(0, 8).act(&[]), 2);

    for kind in [0, 11, 12, 255] {
        assert_eq!(image.act(&record(kind, 4, 0, 0, 0, NO_SHARES)), 6);
    }
    for kind in 1..=10u8 {
        let uses_other = [2, 10].contains(&kind);
        let uses_group = [1, 2, 3, 5, 6].contains(&kind);
        let uses_expense = kind >= 4;
        let uses_shares = [4, 7].contains(&kind);
        let plain = record(kind, 4, 0, 0, 0, NO_SHARES);
        assert_eq!(image.act(&plain), 7, "kind {kind}");
        let mut with = |at: usize, byte: u8| {
            let mut action = plain;
            action[at] = byte;
            image.act(&action)
        };
        assert_eq!(with(1, 7), 7);
        assert_eq!(with(1, 8), 6);
        assert_eq!(with(1, 255), 6);
        assert_eq!(with(2, 7), if uses_other { 7 } else { 6 });
        assert_eq!(with(2, 8), 6);
        assert_eq!(with(3, 15), if uses_group { 7 } else { 6 });
        assert_eq!(with(3, 16), 6);
        assert_eq!(with(4, 255), if uses_expense { 7 } else { 6 });
        assert_eq!(with(5, 1), if uses_expense { 7 } else { 6 });
        assert_eq!(with(5, 2), 6);
        assert_eq!(with(6, 1), 6);
        assert_eq!(with(7, 1), 6);
        for at in 8..40 {
            assert_eq!(with(at, 1), if uses_shares { 7 } else { 6 });
        }
    }
}

#[test]
fn kind_1_found() {
    let mut image = Image::new(0, TWO_HOMES).counter(2, 5, 2).counter(0, 5, 2);
    assert_eq!(image.act(&found(4, 2)), 7);
    assert_eq!(image.act(&found(0, 2)), 8);
    assert_eq!(image.act(&found(0, 0)), 9);
    assert_eq!(image.act(&found(3, 1)), 0);
    assert_eq!(image, Image::new(0, TWO_HOMES).counter(2, 5, 2).counter(0, 5, 2).counter(1, 3, 1));
}

#[test]
fn kind_2_add() {
    let mut image = Image::new(0, TWO_HOMES).counters(9, [2, 1, 0, 0, 0, 7, 0, 0]);
    assert_eq!(image.act(&add(4, 5, 8)), 7);
    assert_eq!(image.act(&add(0, 5, 8)), 10);
    assert_eq!(image.act(&add(0, 5, 9)), 11);
    assert_eq!(image.act(&add(0, 0, 9)), 11);
    assert_eq!(image.act(&add(1, 5, 9)), 12);
    assert_eq!(image.act(&add(1, 1, 9)), 12);
    assert_eq!(image.act(&add(1, 0, 9)), 0);
    assert_eq!(image.act(&add(1, 7, 9)), 0);
    assert_eq!(image, Image::new(0, TWO_HOMES).counters(9, [3, 1, 0, 0, 0, 7, 0, 1]));
}

#[test]
fn kind_3_leave() {
    let owing = Expense { payer: 4, group: 9, acknowledged: 1, shares: shares(&[(0, 1)]), ..PLAIN };
    let image = |counter| {
        Image::new(0, TWO_HOMES).counters(9, [counter, 0, 0, 0, 2, 0, 0, 0]).expense(64, owing)
    };
    assert_eq!(image(65_535).act(&leave(4, 8)), 7);
    assert_eq!(image(65_535).act(&leave(0, 8)), 10);
    assert_eq!(image(65_534).act(&leave(0, 9)), 11);
    assert_eq!(image(65_535).act(&leave(0, 9)), 13);
    let unacknowledged = Expense { acknowledged: 0, ..owing };
    assert_eq!(image(65_535).expense(64, unacknowledged).act(&leave(0, 9)), 14);
    assert_eq!(image(65_533).expense(64, unacknowledged).act(&leave(0, 9)), 0);
    // Deleted, or in another group: it does not count.
    assert_eq!(image(1).expense(64, Expense { deleted: 1, ..owing }).act(&leave(0, 9)), 0);
    let elsewhere = Expense { group: 8, ..owing };
    let other = image(1).counters(8, [1, 0, 0, 0, 1, 0, 0, 0]).expense(64, elsewhere).sound();
    assert_eq!(other.clone().act(&leave(0, 9)), 0);
    assert_eq!(other.clone().act(&leave(0, 8)), 13);
}

/// Group 9 with users 0, 1 and 4 as members, and an expense of user 4 that
/// waits for user 1; user 0, who leaves, has acknowledged.
fn spindle() -> (Image, Expense) {
    let spindle = Expense {
        payer: 4,
        group: 9,
        acknowledged: 1,
        shares: shares(&[(0, 8000), (1, 8000)]),
        ..PLAIN
    };
    let image = Image::new(0, TWO_HOMES).counters(9, [1, 1, 0, 0, 1, 0, 0, 0]);
    (image.expense(64, spindle).sound(), spindle)
}

#[test]
fn leaving_with_a_share_pending() {
    let (mut image, spindle) = spindle();
    let before = image.clone();
    assert_eq!(image.statement(9).1[0].raw, 0);
    assert_eq!(image.act(&leave(0, 9)), 34);
    assert_eq!(image, before);
    // The colleague may leave, and user 4, who holds no share.
    assert_eq!(before.clone().act(&leave(1, 9)), 0);
    assert_eq!(before.clone().with(5, 1).act(&leave(4, 9)), 0);

    // Once the colleague has acknowledged, user 0 owes, and then has paid.
    assert_eq!(image.act(&acknowledge(1, 64)), 0);
    assert_eq!(image.statement(9).1[0].raw, -8000);
    assert_eq!(image.act(&leave(0, 9)), 13);
    let paid = Expense { payer: 0, acknowledged: 16, shares: shares(&[(4, 7999)]), ..spindle };
    assert_eq!(image.clone().expense(0, paid).sound().act(&leave(0, 9)), 13);
    let paid = Expense { shares: shares(&[(4, 8000)]), ..paid };
    let mut even = image.expense(0, paid).sound();
    assert_eq!(even.act(&leave(0, 9)), 0);
    assert_eq!(even.read_counter(9, 0), 2);
}

#[test]
fn leaving_with_nothing_pending() {
    let (image, spindle) = spindle();
    let leaves = |image: &Image| {
        let mut left = image.clone().sound();
        assert_eq!(left.act(&leave(0, 9)), 0);
        assert_eq!(left, image.clone().counter(9, 0, 2));
    };
    // Deleted, without user 0's acknowledgement, without a share of user 0, or
    // in no group at all.
    leaves(&image.clone().expense(64, Expense { deleted: 1, ..spindle }));
    leaves(&image.clone().expense(64, Expense { acknowledged: 0, ..spindle }));
    leaves(&image.clone().expense(64, Expense { acknowledged: 2, ..spindle }));
    let of_others = Expense { acknowledged: 2, shares: shares(&[(1, 8000), (4, 1)]), ..spindle };
    leaves(&image.clone().expense(64, of_others));
    leaves(&image.clone().expense(64, Expense { group: NONE, acknowledged: 0, ..spindle }));
    // In another group: there it holds user 0 back, here it does not.
    for group in [0, 8, 15] {
        let other = image
            .clone()
            .counters(group.into(), [1, 1, 0, 0, 1, 0, 0, 0])
            .expense(64, Expense { group, ..spindle });
        leaves(&other);
        assert_eq!(other.clone().act(&leave(0, group)), 34);
    }
    // Whoever else has acknowledged, and whatever the expense's number.
    for number in [64, 100, 127] {
        for acknowledged in [1, 0b10_0001, 0b1111_1101] {
            let of_all = Expense { acknowledged, shares: [1; 8], ..spindle };
            let mut all = Image::new(0, TWO_HOMES).counters(9, [1; 8]).expense(number, of_all);
            assert_eq!(all.act(&leave(0, 9)), 34);
            // When nobody is waited for any more, user 0 owes.
            all = all.expense(number, Expense { acknowledged: 255, ..of_all }).sound();
            assert_eq!(all.act(&leave(0, 9)), 13);
        }
    }
}

#[test]
fn leaving_as_a_payer_whose_share_is_pending() {
    let mut image = Image::new(0, TWO_HOMES).counters(9, [1, 1, 0, 0, 0, 0, 0, 0]);
    assert_eq!(image.act(&enter(0, 5, shares(&[(0, 300), (1, 600)]))), 0);
    assert_eq!(image.clone().act(&leave(0, 9)), 0);
    assert_eq!(image.act(&put_in(0, 9, 5)), 0);
    assert_eq!(image.act(&leave(0, 9)), 34);
    // Without a share of its own, taken out, deleted, or acknowledged by all.
    let mut changed = image.clone();
    assert_eq!(changed.act(&change(0, 5, shares(&[(1, 600)]))), 0);
    assert_eq!(changed.act(&leave(0, 9)), 0);
    let mut outside = image.clone();
    assert_eq!(outside.act(&take_out(0, 9, 5)), 0);
    assert_eq!(outside.act(&leave(0, 9)), 0);
    let mut deleted = image.clone();
    assert_eq!(deleted.act(&delete(0, 5)), 0);
    assert_eq!(deleted.act(&leave(0, 9)), 0);
    assert_eq!(image.act(&acknowledge(1, 5)), 0);
    assert_eq!(image.act(&leave(0, 9)), 0);
}

#[test]
fn leaving_pending_in_order() {
    let (image, spindle) = spindle();
    let owing = Expense { payer: 1, shares: shares(&[(0, 1)]), ..spindle };
    // 7, 10, 11, 13, 34 and 14, each with all that come after it.
    let full = |counter| image.clone().counter(9, 0, counter).expense(1, owing).sound();
    assert_eq!(full(65_535).with(6, 1).act(&leave(0, 8)), 7);
    assert_eq!(full(65_535).act(&leave(0, 8)), 10);
    assert_eq!(full(65_534).act(&leave(0, 9)), 11);
    assert_eq!(full(65_535).act(&leave(0, 9)), 13);
    assert_eq!(image.clone().counter(9, 0, 65_535).act(&leave(0, 9)), 34);
    assert_eq!(image.clone().counter(9, 0, 65_533).act(&leave(0, 9)), 34);
    let over = image.expense(64, Expense { deleted: 1, ..spindle });
    assert_eq!(over.clone().counter(9, 0, 65_535).act(&leave(0, 9)), 14);
    assert_eq!(over.clone().counter(9, 0, 65_533).act(&leave(0, 9)), 0);
}

#[test]
fn a_leaver_who_comes_to_owe() {
    // User 0 paid 600 for user 1, holds 100 that user 1 paid, and leaves.
    let paid = Expense { group: 9, acknowledged: 2, shares: shares(&[(1, 600)]), ..PLAIN };
    let held = Expense { payer: 1, acknowledged: 1, shares: shares(&[(0, 100)]), ..paid };
    let mut image = Image::new(0, TWO_HOMES)
        .counters(9, [1, 1, 0, 0, 0, 0, 0, 0])
        .expense(0, paid)
        .expense(1, held)
        .sound();
    let balances = |image: &Image| image.statement(9).1.map(|line| (line.raw, line.balance));
    assert_eq!(image.act(&leave(0, 9)), 0);
    assert_eq!(balances(&image)[..2], [(500, 0), (-500, 0)]);

    // With the shares changed, what it paid waits for user 1 once more.
    assert_eq!(image.act(&change(0, 0, shares(&[(1, 40)]))), 0);
    assert_eq!(balances(&image)[..2], [(-100, -100), (100, 100)]);
    assert_eq!(image.list(9), [(0, 1, 100)]);
    assert_eq!(image.act(&acknowledge(1, 0)), 0);
    assert_eq!(balances(&image)[..2], [(-60, -60), (60, 60)]);
    assert_eq!(image.list(9), [(0, 1, 60)]);
    assert_eq!(image.statement(9).0.members, 1);
    assert_eq!(balances(&image).map(|(_, balance)| balance).iter().sum::<i64>(), 0);
}

#[test]
fn kind_4_enter() {
    let mut image = Image::new(0, TWO_HOMES)
        .expense(0, PLAIN)
        .expense(64, Expense { payer: 4, acknowledged: 0, ..PLAIN })
        .sound();
    assert_eq!(image.act(&enter(4, 64, NO_SHARES)), 7);
    assert_eq!(image.act(&enter(3, 64, NO_SHARES)), 15);
    assert_eq!(image.act(&enter(3, 0, NO_SHARES)), 16);
    assert_eq!(image.act(&enter(3, 1, NO_SHARES)), 19);
    assert_eq!(image.act(&enter(3, 1, shares(&[(3, 5), (7, 9)]))), 0);
    assert_eq!(image.act(&enter(2, 2, shares(&[(3, 5), (7, 9)]))), 0);
    let entered = Expense { payer: 3, acknowledged: 8, shares: shares(&[(3, 5), (7, 9)]), ..PLAIN };
    let expected = Image::new(0, TWO_HOMES)
        .expense(0, PLAIN)
        .expense(64, Expense { payer: 4, acknowledged: 0, ..PLAIN })
        .expense(1, entered)
        .expense(2, Expense { payer: 2, acknowledged: 0, ..entered });
    assert_eq!(image, expected);
}

/// Group 9 with users 0 and 1 as members and 4 and 5 as former ones.
fn group_nine() -> Image {
    Image::new(0, TWO_HOMES).counters(9, [1, 1, 0, 0, 2, 2, 0, 0])
}

#[test]
fn kind_5_put_in() {
    let full = Expense { version: TOP, shares: shares(&[(0, 1), (4, 1)]), ..PLAIN };
    let held = Expense { group: 9, ..full };
    let image = group_nine().expense(1, held).sound();
    assert_eq!(image.clone().act(&put_in(4, 8, 2)), 7);
    assert_eq!(image.clone().act(&put_in(2, 8, 2)), 10);
    assert_eq!(image.clone().act(&put_in(2, 9, 2)), 17);
    assert_eq!(image.clone().act(&put_in(2, 9, 1)), 11);
    assert_eq!(image.clone().act(&put_in(1, 9, 1)), 18);
    assert_eq!(image.clone().act(&put_in(0, 9, 1)), 21);
    assert_eq!(image.clone().expense(1, full).act(&put_in(0, 9, 1)), 23);
    let of_members = Expense { shares: shares(&[(0, 1), (1, 1)]), ..full };
    assert_eq!(image.clone().expense(1, of_members).act(&put_in(0, 9, 1)), 27);
    for (deleted, acknowledged) in [(0, 0), (0, 1), (1, 0), (1, 1)] {
        let before = Expense { version: TOP - 1, deleted, acknowledged, ..of_members };
        let mut image = group_nine().expense(1, before).sound();
        assert_eq!(image.act(&put_in(0, 9, 1)), 0);
        let after = Expense { group: 9, version: TOP, ..before };
        assert_eq!(image, group_nine().expense(1, after));
    }
}

#[test]
fn kind_6_take_out() {
    let full = Expense { version: TOP, shares: shares(&[(0, 1), (4, 1)]), ..PLAIN };
    let image = group_nine().expense(1, full).sound();
    assert_eq!(image.clone().act(&take_out(4, 8, 2)), 7);
    assert_eq!(image.clone().act(&take_out(2, 8, 2)), 10);
    assert_eq!(image.clone().act(&take_out(2, 9, 2)), 17);
    assert_eq!(image.clone().act(&take_out(2, 9, 1)), 11);
    assert_eq!(image.clone().act(&take_out(1, 9, 1)), 22);
    let held = image.clone().expense(1, Expense { group: 9, ..full });
    assert_eq!(held.clone().counter(8, 1, 1).act(&take_out(1, 8, 1)), 22);
    assert_eq!(held.clone().act(&take_out(1, 9, 1)), 18);
    assert_eq!(held.clone().act(&take_out(0, 9, 1)), 27);
    for (deleted, acknowledged) in [(0, 0), (0, 0x11), (1, 0x10), (1, 1)] {
        let before = Expense { version: 8, group: 9, deleted, acknowledged, ..full };
        let mut image = group_nine().expense(1, before).sound();
        assert_eq!(image.act(&take_out(0, 9, 1)), 0);
        // The payer's bit is set whatever it was before, the others go.
        let after = Expense { group: NONE, version: 9, acknowledged: 1, ..before };
        assert_eq!(image, group_nine().expense(1, after));
    }
    // A payer without a share has no bit.
    let before = Expense { group: 9, acknowledged: 2, shares: shares(&[(1, 4)]), ..PLAIN };
    let mut image = group_nine().expense(1, before).sound();
    assert_eq!(image.act(&take_out(0, 9, 1)), 0);
    let after = Expense { group: NONE, version: 1, acknowledged: 0, ..before };
    assert_eq!(image, group_nine().expense(1, after));
}

#[test]
fn kind_7_change() {
    let full = Expense { version: TOP, deleted: 1, group: 9, acknowledged: 3, ..PLAIN };
    let image = group_nine().expense(1, full).sound();
    let of_non_member = shares(&[(0, 1), (4, 1)]);
    let of_members = shares(&[(0, 1), (1, 1)]);
    assert_eq!(image.clone().act(&change(4, 2, NO_SHARES)), 7);
    assert_eq!(image.clone().act(&change(1, 2, NO_SHARES)), 17);
    assert_eq!(image.clone().act(&change(1, 1, NO_SHARES)), 18);
    assert_eq!(image.clone().act(&change(0, 1, NO_SHARES)), 19);
    assert_eq!(image.clone().act(&change(0, 1, shares(&[(4, 1_000_000_001)]))), 19);
    assert_eq!(image.clone().act(&change(0, 1, of_non_member)), 24);
    let live = image.clone().expense(1, Expense { deleted: 0, ..full });
    assert_eq!(live.clone().act(&change(0, 1, of_non_member)), 23);
    assert_eq!(live.clone().act(&change(0, 1, of_members)), 27);

    // The others' acknowledgements go; the payer need not be a member.
    let before = Expense { version: 5, deleted: 0, ..full };
    let mut image = group_nine().counter(9, 0, 2).expense(1, before).sound();
    assert_eq!(image.clone().act(&change(0, 1, of_members)), 23);
    assert_eq!(image.act(&change(0, 1, shares(&[(1, 77)]))), 0);
    let after = Expense { version: 6, acknowledged: 0, shares: shares(&[(1, 77)]), ..before };
    assert_eq!(image, group_nine().counter(9, 0, 2).expense(1, after));

    // Without a group anyone may have a share.
    let mut image = group_nine().expense(1, PLAIN).sound();
    assert_eq!(image.act(&change(0, 1, [5; 8])), 0);
    assert_eq!(image, group_nine().expense(1, Expense { version: 1, shares: [5; 8], ..PLAIN }));
}

#[test]
fn kind_8_delete() {
    let full = Expense { payer: 2, version: TOP, deleted: 1, group: 9, acknowledged: 3, ..PLAIN };
    let base = group_nine().counter(9, 2, 2);
    let image = base.clone().expense(1, full).sound();
    assert_eq!(image.clone().act(&delete(4, 2)), 7);
    assert_eq!(image.clone().act(&delete(1, 2)), 17);
    assert_eq!(image.clone().act(&delete(1, 1)), 18);
    assert_eq!(image.clone().act(&delete(2, 1)), 24);
    let live = image.clone().expense(1, Expense { deleted: 0, ..full });
    assert_eq!(live.clone().act(&delete(2, 1)), 11);
    assert_eq!(live.clone().counter(9, 2, 3).act(&delete(2, 1)), 27);
    // Without a group membership is no matter.
    let alone = Expense { group: NONE, deleted: 0, acknowledged: 0, ..full };
    assert_eq!(image.clone().expense(1, alone).sound().act(&delete(2, 1)), 27);

    let before = Expense { version: 5, deleted: 0, ..full };
    let base = base.counter(9, 2, 3);
    let mut image = base.clone().expense(1, before).sound();
    assert_eq!(image.act(&delete(2, 1)), 0);
    assert_eq!(image, base.clone().expense(1, Expense { version: 6, deleted: 1, ..before }));
}

#[test]
fn kind_9_acknowledge() {
    let held = Expense {
        payer: 1,
        version: TOP,
        group: 9,
        acknowledged: 1,
        shares: shares(&[(0, 1), (4, 1)]),
        ..PLAIN
    };
    let image = |expense: Expense| group_nine().expense(1, expense).sound();
    let alone = Expense { group: NONE, acknowledged: 0, deleted: 1, ..held };
    assert_eq!(image(alone).act(&acknowledge(4, 2)), 7);
    assert_eq!(image(alone).act(&acknowledge(2, 2)), 17);
    assert_eq!(image(alone).act(&acknowledge(2, 1)), 24);
    assert_eq!(image(Expense { deleted: 0, ..alone }).act(&acknowledge(2, 1)), 22);
    assert_eq!(image(held).act(&acknowledge(2, 1)), 11);
    // A former member's acknowledged share: 11 before 26.
    let former = Image(image(Expense { acknowledged: 0x11, ..held }).0).counter(9, 0, 2);
    assert_eq!(former.sound().act(&acknowledge(0, 1)), 11);
    assert_eq!(image(held).act(&acknowledge(1, 1)), 25);
    assert_eq!(image(held).act(&acknowledge(0, 1)), 26);
    let mut open = image(Expense { acknowledged: 0x10, ..held });
    assert_eq!(open.act(&acknowledge(0, 1)), 0);
    assert_eq!(open, image(Expense { acknowledged: 0x11, ..held }));
}

#[test]
fn kind_10_absorb() {
    // User 4 (never a member of group 9) and 5 (a former one) have shares of an
    // expense in no group.
    let base = Image::new(0, TWO_HOMES).counters(9, [2, 1, 0, 0, 0, 2, 0, 0]);
    let alone = Expense { version: TOP, shares: shares(&[(1, 3), (4, 7), (5, 8)]), ..PLAIN };
    let alone = Expense { acknowledged: 0, ..alone };
    let image = |expense: Expense| base.clone().expense(1, expense).sound();
    let deleted = Expense { deleted: 1, ..alone };
    assert_eq!(image(deleted).act(&absorb(4, 4, 2)), 7);
    assert_eq!(image(deleted).act(&absorb(1, 1, 2)), 29);
    assert_eq!(image(deleted).act(&absorb(1, 2, 2)), 17);
    assert_eq!(image(deleted).act(&absorb(1, 2, 1)), 24);
    assert_eq!(image(alone).act(&absorb(1, 2, 1)), 18);
    assert_eq!(image(alone).act(&absorb(0, 2, 1)), 25);

    let held = Expense { group: 9, acknowledged: 0x22, shares: shares(&[(1, 3), (5, 8)]), ..alone };
    assert_eq!(image(held).act(&absorb(0, 5, 1)), 26);
    assert_eq!(image(alone).act(&absorb(0, 4, 1)), 22);
    let open = Expense { acknowledged: 0, ..held };
    assert_eq!(image(open).act(&absorb(0, 1, 1)), 11);
    let inside = |expense| Image(image(expense).0).counter(9, 0, 3);
    assert_eq!(inside(open).act(&absorb(0, 1, 1)), 28);
    assert_eq!(inside(open).act(&absorb(0, 5, 1)), 27);

    // In a group nobody has a share who never belonged: 5, also before 27.
    for version in [TOP, 6] {
        let stranger = inside(Expense { version, ..open }).counter(9, 5, 0);
        assert_eq!(stranger.clone().act(&absorb(0, 5, 1)), 5);
    }
    assert_eq!(Answer::from_number(20), None);

    // A payer without a share must then acknowledge; the other bits remain.
    let before = Expense { version: 6, acknowledged: 2, ..open };
    let mut absorbed = inside(before);
    assert_eq!(absorbed.act(&absorb(0, 5, 1)), 0);
    let after = Expense { version: 7, shares: shares(&[(0, 8), (1, 3)]), ..before };
    assert_eq!(absorbed, inside(after));
    assert_eq!(absorbed.statement(9).0.expenses, 0);
    assert_eq!(absorbed.act(&acknowledge(0, 1)), 0);
    assert_eq!(absorbed.statement(9).0.expenses, 1);

    // One with an acknowledged share keeps its bit, up to the limit.
    let shares_before = shares(&[(0, 999_999_999), (5, 1)]);
    let mut absorbed = inside(Expense { acknowledged: 1, shares: shares_before, ..before });
    assert_eq!(absorbed.act(&absorb(0, 5, 1)), 0);
    let shares_after = shares(&[(0, 1_000_000_000)]);
    let after = Expense { version: 7, acknowledged: 1, shares: shares_after, ..before };
    assert_eq!(absorbed, inside(after));
    assert_eq!(absorbed.statement(9).0.expenses, 1);
}

// ---- merge ----------------------------------------------------------------------

#[test]
fn merge_in_order() {
    let conflict = Expense { shares: shares(&[(0, 1)]), ..PLAIN };
    let mut own = Image::new(0, TWO_HOMES).expense(0, PLAIN);
    let own_faults = own.clone().with(0, 0);
    assert_eq!(own_faults.clone().merge(&own_faults), 2);
    assert_eq!(own.clone().with(3, 0).merge(&own_faults), 3);
    assert_eq!(own.clone().with(14, 1).merge(&own_faults), 4);
    assert_eq!(own.clone().with(274, 9).merge(&own_faults), 5);
    // Another home table that the expenses allow too.
    let other = Image::new(1, TWO_HOMES).with(13, 0).expense(0, conflict).sound();
    assert_eq!(own.merge(&other.clone().with(2, 0)), 42);
    assert_eq!(own.merge(&other.clone().with(4, 1)), 43);
    assert_eq!(own.merge(&other.clone().with(5, 8)), 44);
    assert_eq!(own.merge(&other.clone().with(272, 7)), 45);
    assert_eq!(own.merge(&other), 30);
    assert_eq!(own.merge(&other.with(13, 1)), 31);
}

#[test]
fn merge_of_expenses() {
    let base = Image::new(0, TWO_HOMES)
        .counters(9, [1, 1, 1, 1, 1, 1, 1, 1])
        .counters(8, [1, 1, 1, 1, 1, 1, 1, 1]);
    let held = Expense { group: 9, version: 5, shares: [1; 8], ..PLAIN };
    let merged = |ours: Option<Expense>, theirs: Option<Expense>| {
        let put = |image: Image, expense: Option<Expense>| match expense {
            // In the first and the last place that replica 0 owns.
            Some(expense) => image.expense(0, expense).expense(63, expense),
            None => image,
        };
        let mut own = put(base.clone(), ours).sound();
        let other = put(base.clone().with(5, 3), theirs).sound();
        let answer = own.merge(&other);
        (answer, own)
    };
    let is = |expense: Expense| (0, base.clone().expense(0, expense).expense(63, expense));

    assert_eq!(merged(None, None), (0, base.clone()));
    assert_eq!(merged(Some(held), None), is(held));
    assert_eq!(merged(None, Some(held)), is(held));
    // Equal versions: the acknowledgements of both.
    let more = Expense { acknowledged: 0xf0, ..held };
    assert_eq!(merged(Some(held), Some(more)), is(Expense { acknowledged: 0xf1, ..held }));
    assert_eq!(merged(Some(more), Some(held)), is(Expense { acknowledged: 0xf1, ..held }));
    // Unequal ones: the higher whole, whatever else differs.
    let later = Expense { version: 6, payer: 3, deleted: 1, acknowledged: 8, ..held };
    assert_eq!(merged(Some(more), Some(later)), is(later));
    assert_eq!(merged(Some(later), Some(more)), is(later));
    let last = Expense { version: TOP, ..more };
    assert_eq!(merged(Some(last), Some(later)), is(last));
    // Equal versions that differ in anything else.
    for theirs in [
        Expense { payer: 1, acknowledged: 0, ..held },
        Expense { group: 8, ..held },
        Expense { group: NONE, ..held },
        Expense { deleted: 1, ..held },
        Expense { shares: [1, 1, 1, 1, 1, 1, 1, 2], ..held },
        Expense { shares: [2, 1, 1, 1, 1, 1, 1, 1], ..held },
    ] {
        assert_eq!(merged(Some(held), Some(theirs)).0, 31);
        assert_eq!(merged(Some(theirs), Some(held)).0, 31);
    }
    // A conflict in the last place leaves the first as it was too.
    let mut own = base.clone().expense(0, held).expense(63, held);
    let other = base.clone().expense(0, more).expense(63, Expense { deleted: 1, ..held });
    assert_eq!(own.merge(&other), 31);
}

#[test]
fn merge_of_counters() {
    let mut own = Image::new(3, TWO_HOMES)
        .counters(0, [1, 2, 3, 4, 0, 65_535, 256, 255])
        .counters(15, [0, 0, 0, 0, 0, 0, 0, 9]);
    let other = Image::new(4, TWO_HOMES)
        .counters(0, [2, 1, 3, 0, 5, 65_534, 255, 256])
        .counters(7, [0, 1, 0, 0, 0, 0, 0, 0]);
    assert_eq!(own.merge(&other), 0);
    let expected = Image::new(3, TWO_HOMES)
        .counters(0, [2, 2, 3, 4, 5, 65_535, 256, 256])
        .counters(7, [0, 1, 0, 0, 0, 0, 0, 0])
        .counters(15, [0, 0, 0, 0, 0, 0, 0, 9]);
    assert_eq!(own, expected);
}

// ---- statement --------------------------------------------------------------------

#[test]
fn statement_in_order() {
    let image = Image::new(0, TWO_HOMES).counter(9, 2, 4);
    let mark = Line { counter: 7, raw: -7, gift: 7, part: 7, balance: 7 };
    let refused = |image: &Image, group: u64, length: usize| {
        let mut lines = [mark; 16];
        let totals = statement(&image.0, group, &mut lines[..length]);
        assert_eq!((totals.members, totals.expenses, totals.gifts), (0, 0, 0));
        assert_eq!(lines, [mark; 16]);
        totals.answer.number()
    };
    assert_eq!(refused(&image.clone().with(0, 0), 99, 7), 2);
    assert_eq!(refused(&image.clone().with(3, 0), 99, 7), 3);
    assert_eq!(refused(&image.clone().with(5, 9), 99, 7), 4);
    assert_eq!(refused(&image.clone().with(300, 9), 99, 7), 5);
    for group in [0, 8, 10, 15, 16, 255, 256 + 9, (1 << 32) + 9, u64::MAX] {
        assert_eq!(refused(&image, group, 7), 10);
    }
    for length in [0, 1, 7, 9, 16] {
        assert_eq!(refused(&image, 9, length), 32);
    }
    // A present group without a member.
    let (totals, lines) = image.statement(9);
    assert_eq!(totals, Totals { answer: Answer::Ok, members: 0, expenses: 0, gifts: 0 });
    assert_eq!(lines[2], Line { counter: 4, ..Line::default() });
}

#[test]
fn statement_figures() {
    // No member left: the gifts go to nobody.
    let image = Image::new(0, TWO_HOMES)
        .counters(9, [2, 4, 0, 0, 0, 0, 0, 0])
        .expense(0, Expense { group: 9, acknowledged: 3, ..PLAIN })
        .sound();
    let (totals, lines) = image.statement(9);
    assert_eq!(totals, Totals { answer: Answer::Ok, members: 0, expenses: 1, gifts: 600 });
    assert_eq!(lines[0], Line { counter: 2, raw: 600, gift: 600, part: 0, balance: 0 });
    assert_eq!(lines[1], Line { counter: 4, raw: -600, gift: 0, part: 0, balance: -600 });
    // A rejoiner has its gift back.
    let (totals, lines) = image.clone().counter(9, 0, 3).statement(9);
    assert_eq!(totals, Totals { answer: Answer::Ok, members: 1, expenses: 1, gifts: 0 });
    assert_eq!(lines[0], Line { counter: 3, raw: 600, gift: 0, part: 0, balance: 600 });

    // All of one replica's expenses at the limit, one payer, one debtor.
    let mut image = Image::new(0, [0; 8]).counters(15, [2, 1, 0, 0, 0, 0, 0, 0]);
    let most =
        Expense { group: 15, acknowledged: 2, shares: shares(&[(1, 1_000_000_000)]), ..PLAIN };
    for number in 0..64 {
        image = image.expense(number, most);
    }
    let (totals, lines) = image.statement(15);
    let sum = 64_000_000_000;
    assert_eq!(totals, Totals { answer: Answer::Ok, members: 1, expenses: 64, gifts: sum });
    assert_eq!(lines[0].raw, sum as i64);
    assert_eq!(lines[1], Line { counter: 1, raw: -(sum as i64), gift: 0, part: sum, balance: 0 });
}

// ---- payments ---------------------------------------------------------------------

#[test]
fn payments_in_order() {
    // Group 9 is present without a member, group 8 has one.
    let image = Image::new(0, TWO_HOMES).counter(9, 2, 4).counter(8, 2, 3);
    let refused = |image: &Image, group: u64, length: usize| {
        let mark: [u64; 80] = std::array::from_fn(|at| !0 - at as u64);
        let mut cents = mark;
        let answer = payments(&image.0, group, &mut cents[..length]);
        assert_eq!(cents, mark);
        answer.number()
    };
    assert_eq!(refused(&image.clone().with(0, 0), 99, 63), 2);
    assert_eq!(refused(&image.clone().with(3, 0), 99, 63), 3);
    assert_eq!(refused(&image.clone().with(5, 9), 99, 63), 4);
    assert_eq!(refused(&image.clone().with(300, 9), 99, 63), 5);
    for group in [0, 7, 10, 15, 16, 255, 256 + 9, (1 << 32) + 9, (1 << 32) + 8, u64::MAX] {
        for length in [0, 63, 64, 65] {
            assert_eq!(refused(&image, group, length), 10);
        }
    }
    for length in [0, 1, 8, 63, 65, 80] {
        assert_eq!(refused(&image, 8, length), 32);
        assert_eq!(refused(&image, 9, length), 32);
    }
    assert_eq!(refused(&image, 9, 64), 33);
    assert_eq!(image.list(8), []);
}

#[test]
fn payments_of_nobody_left() {
    let paid = Expense { group: 9, acknowledged: 3, ..PLAIN };
    let back = Expense { payer: 1, acknowledged: 1, shares: shares(&[(0, 600)]), ..paid };
    let gifts = Image::new(0, TWO_HOMES).counters(9, [2, 4, 0, 0, 0, 0, 0, 0]).expense(0, paid);
    let no_gifts = gifts.clone().expense(1, back);
    for (image, total) in [(gifts.sound(), 600), (no_gifts.sound(), 0)] {
        assert_eq!(image.statement(9).0.gifts, total);
        let mut cents = [7; PAYMENTS];
        assert_eq!(payments(&image.0, 9, &mut cents).number(), 33);
        assert_eq!(cents, [7; PAYMENTS]);
    }
}

/// A group 9 of all eight users and these valid expenses: payer and shares.
fn owing(expenses: &[(u8, &[(usize, u32)])]) -> Image {
    let mut image = Image::new(0, [0; 8]).counters(9, [1; 8]);
    for (number, &(payer, of)) in expenses.iter().enumerate() {
        let acknowledged = of.iter().fold(0, |bits, &(user, _)| bits | 1 << user);
        let expense = Expense { payer, group: 9, acknowledged, shares: shares(of), ..PLAIN };
        image = image.expense(number, expense);
    }
    image.sound()
}

#[test]
fn payments_of_nobody_owing() {
    assert_eq!(owing(&[]).list(9), []);
    assert_eq!(owing(&[(0, &[(0, 5)]), (1, &[(2, 7)]), (2, &[(1, 7)])]).list(9), []);
    // The payer has left, and the gift clears what the only member owes.
    let image = owing(&[(3, &[(6, 9)])]).counters(9, [0, 0, 0, 2, 0, 0, 1, 0]);
    assert_eq!(image.sound().list(9), []);
}

#[test]
fn payments_of_one_debtor() {
    let image = owing(&[
        (7, &[(3, 80)]),
        (6, &[(3, 70)]),
        (5, &[(3, 60)]),
        (4, &[(3, 50)]),
        (2, &[(3, 30)]),
        (1, &[(3, 20)]),
        (0, &[(3, 10)]),
    ]);
    let list = [(3, 0, 10), (3, 1, 20), (3, 2, 30), (3, 4, 50), (3, 5, 60), (3, 6, 70), (3, 7, 80)];
    assert_eq!(image.list(9), list);
    // A debtor who has left pays all the same.
    assert_eq!(image.counter(9, 3, 2).list(9), list);
}

#[test]
fn payments_to_one_creditor() {
    let image =
        owing(&[(3, &[(0, 10), (1, 20), (2, 30), (4, 50)]), (3, &[(5, 60), (6, 70), (7, 80)])]);
    let list = [(0, 3, 10), (1, 3, 20), (2, 3, 30), (4, 3, 50), (5, 3, 60), (6, 3, 70), (7, 3, 80)];
    assert_eq!(image.list(9), list);
}

#[test]
fn payments_of_four_to_four() {
    // Every payment but the last clears one of the two: seven for eight.
    let image = owing(&[
        (1, &[(6, 15)]),
        (3, &[(6, 25)]),
        (5, &[(2, 15), (4, 30)]),
        (7, &[(0, 10), (2, 5)]),
    ]);
    let balances = image.statement(9).1.map(|line| line.balance);
    assert_eq!(balances, [-10, 15, -20, 25, -30, 45, -40, 15]);
    let list = [(0, 1, 10), (2, 1, 5), (2, 3, 15), (4, 3, 10), (4, 5, 20), (6, 5, 25), (6, 7, 15)];
    assert_eq!(image.list(9), list);

    // Every payment clears both: four for eight.
    let image = owing(&[(0, &[(7, 9)]), (1, &[(6, 9)]), (2, &[(5, 9)]), (3, &[(4, 9)])]);
    assert_eq!(image.list(9), [(4, 0, 9), (5, 1, 9), (6, 2, 9), (7, 3, 9)]);
}

#[test]
fn payments_of_large_sums() {
    let most: &[(usize, u32)] = &[(1, 1_000_000_000)];
    assert_eq!(owing(&[(0, most); 64]).list(9), [(1, 0, 64_000_000_000)]);
}

// ---- lookup -----------------------------------------------------------------------

#[test]
fn lookup_parts() {
    let image = Image::new(0, TWO_HOMES).expense(63, PLAIN).sound();
    let part = lookup(&image.0, 63);
    assert_eq!(part.as_ptr(), image.0[272 + 40 * 63..].as_ptr());
    assert_eq!(part.len(), 40);
    for expense in [0, 62, 64, 511, 512, 63 + 512, 63 + 65_536, 63 + (1 << 32), u64::MAX] {
        assert!(lookup(&image.0, expense).is_empty());
    }
    assert!(lookup(&image.clone().with(0, 0).0, 63).is_empty());
    assert!(lookup(&image.clone().with(273, 1).0, 63).is_empty());
}

// ---- a random history -----------------------------------------------------------------

#[test]
fn sums_of_a_random_history() {
    random_history(Image::new);
}
