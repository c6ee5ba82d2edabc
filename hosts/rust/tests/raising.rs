//! The model against A6 of document 02: raising images of both older versions to
//! version 3, and a history that goes over all three.

mod common;

use common::*;
use val_host::generate;
use val_host::model::v3::raise;
use val_host::random::Random;
use val_host::{Answer, IMAGE_SIZE_1, IMAGE_SIZE_2};

/// Groups 0 and 9 present, group 9 without a member, and two costs.
fn old_image(new: fn(u64, [u8; 8]) -> Image) -> Image {
    new(3, TWO_HOMES)
        .counters(0, [1, 2, 0, 65_535, 4, 0, 0, 256])
        .counter(9, 7, 2)
        .expense(0, Expense { group: 0, version: TOP, ..PLAIN })
        .expense(127, Expense { payer: 7, acknowledged: 0, deleted: 1, ..PLAIN })
}

#[test]
fn raised_byte_by_byte() {
    // Version 2 keeps its rules, version 1's groups come under rule 1; the costs
    // of both are undated.
    let first = old_image(Image::new).sound();
    let second = old_image(Image::new_2).rule(0, 2).rule(9, 1).sound();
    let expected = old_image(Image::new_3);
    assert_eq!(first.raised_to_3(), expected.clone().rule(0, 1).rule(9, 1).sound());
    assert_eq!(second.raised_to_3(), expected.rule(0, 2).rule(9, 1).sound());

    let mut random = Random::new(31);
    for _ in 0..200 {
        let second = Image(generate::sound_image(&mut random, IMAGE_SIZE_2)).sound();
        let bytes = lifted(&second.0);
        assert_eq!(generate::lowered(&bytes, IMAGE_SIZE_2), second.0);
        assert_eq!(second.raised(), Ok(Image(bytes).sound()));
        // The same without the rules is what version 1 has of it.
        let first = Image(generate::lowered(&second.0, IMAGE_SIZE_1)).sound();
        let by_rule_1 = (0..16).fold(second, |image, group| match image.read_rule(group) {
            0 => image,
            _ => image.rule(group, 1),
        });
        assert_eq!(first.raised_to_3(), by_rule_1.raised_to_3());
    }
}

#[test]
fn raising_in_order() {
    let refused = |old: &[u8], length: usize| {
        let mut buffer = vec![0xa5; length];
        let answer = raise(old, &mut buffer);
        assert_eq!(buffer, vec![0xa5; length]);
        answer.number()
    };
    let first = old_image(Image::new);
    let second = old_image(Image::new_2).rule(0, 2).rule(9, 1);
    let lengths = [0, 1, 16, 20_751, 20_753, 20_783, 20_785, 21_807, 21_809, 43_616];
    for (version, old) in [(1, first), (2, second)] {
        // 1 for either length, whatever else is wrong.
        let expense = old.expense_at(0);
        let faulty = old.clone().with(0, 0).with(3, 0).with(5, 8).with(expense, 7);
        for image in [&old, &faulty] {
            for length in lengths.into_iter().chain([20_752, 20_784]) {
                assert_eq!(refused(&image.0, length), 1);
            }
            for length in lengths.into_iter().chain([21_808]) {
                let mut other = image.0.clone();
                other.resize(length, 0);
                for buffer in [21_808, 20_784, 20_752, 0] {
                    assert_eq!(refused(&other, buffer), 1);
                }
            }
        }
        // An image that is of version 3 already.
        assert_eq!(refused(&old.raised_to_3().0, 21_808), 1);

        // 2 to 5 by that version's own check, each with all that come after it.
        assert_eq!(refused(&faulty.0, 21_808), 2);
        let faulty = faulty.with(0, b'V');
        for other in [0, 1, 2, 3, 255].into_iter().filter(|&other| other != version) {
            assert_eq!(refused(&faulty.clone().with(3, other).0, 21_808), 3);
            assert_eq!(refused(&old.clone().with(3, other).0, 21_808), 3);
        }
        let faulty = faulty.with(3, version);
        assert_eq!(refused(&faulty.0, 21_808), 4);
        let faulty = faulty.with(5, 3);
        assert_eq!(refused(&faulty.0, 21_808), 5);
        assert_eq!(faulty.with(expense, 0), old);
        if version == 2 {
            for bad in [old.clone().rule(0, 3), old.clone().rule(9, 0), old.clone().rule(8, 1)] {
                assert_eq!(refused(&bad.0, 21_808), 4);
                assert_eq!(refused(&bad.with(expense, 7).0, 21_808), 4);
            }
        }
        // What the buffer held before is no matter.
        let mut buffer = vec![0; 21_808];
        Random::new(1).fill(&mut buffer);
        assert_eq!(raise(&old.0, &mut buffer), Answer::Ok);
        assert_eq!(Image(buffer), old.raised_to_3());
    }
}

// ---- a history over three versions -----------------------------------------------------

#[test]
fn a_step_of_an_older_version_is_undated() {
    let of = shares(&[(0, 300), (1, 600)]);
    // Van 0 enters costs in each version and raises its image in between.
    let mut van0 = Image::new(0, OWN_HOMES);
    for action in [found(0, 0), add(0, 1, 0), enter(0, 0, of), enter(0, 1, of), put_in(0, 0, 1)] {
        assert_eq!(van0.act(&action), 0);
    }
    let heard_of_1 = van0.raised_to_3();
    van0 = van0.raised().unwrap();
    for action in [enter(0, 2, of), change(0, 1, of), put_in(0, 0, 2)] {
        assert_eq!(van0.act(&action), 0);
    }
    let heard_of_2 = van0.raised_to_3();
    van0 = van0.raised().unwrap();
    for action in [
        naming(40, enter(0, 3, of)),
        put_in(0, 0, 3),
        put_in(0, 0, 0),
        naming(41, change(0, 2, of)),
        delete(0, 1),
    ] {
        assert_eq!(van0.act(&action), 0);
    }
    let days = |image: &Image| [0, 1, 2, 3].map(|number| image.read_day(number));
    assert_eq!(days(&heard_of_1), [UNDATED, UNDATED, 0, 0]);
    assert_eq!(days(&heard_of_2), [UNDATED, UNDATED, UNDATED, 0]);
    assert_eq!(days(&van0), [UNDATED, UNDATED, 41, 40]);

    // Van 1, of version 3 from the start, hears of it in any order.
    let order = [&heard_of_1, &heard_of_2, &van0];
    for turns in [[0, 1, 2], [2, 1, 0], [1, 0, 2], [1, 2, 0]] {
        let mut van1 = Image::new_3(1, OWN_HOMES);
        for turn in turns {
            assert_eq!(van1.merge(order[turn]), 0);
        }
        assert_eq!(van1.0[16..], van0.0[16..]);
        for expense in [0, 2, 3] {
            assert_eq!(van1.act(&acknowledge(1, expense)), 0);
        }
        // The undated cost counts in the statement, and in no month.
        assert_eq!(van1.statement(0).1.map(|line| line.raw)[..2], [1800, -1800]);
        assert_eq!(van1.month(0, 1)[..2], [1200, -1200]);
        for number in (0..1200).filter(|&number| number != 1) {
            assert_eq!(van1.month(0, number), [0; 8]);
        }
    }
}
