//! The program's text against document 01 and A3, A4 and A6 of document 02: the example, each
//! refusal, and what a line shows.

use val_host::generate::lowered;
use val_host::model::v3::{act, empty, merge};
use val_host::model::{v1, v2};
use val_host::text::text;
use val_host::{Answer, IMAGE_SIZE, IMAGE_SIZE_1, IMAGE_SIZE_2};

const HOMES: [u8; 8] = [0, 1, 2, 3, 4, 5, 6, 7];

fn new(van: u64) -> Vec<u8> {
    new_with(van, HOMES)
}

fn new_with(van: u64, homes: [u8; 8]) -> Vec<u8> {
    let mut image = vec![0xa5; IMAGE_SIZE];
    assert_eq!(empty(&mut image, van, &homes), Answer::Ok);
    image
}

/// Kind, actor, other, group, expense, and a founding's rule or the day of a cost; the shares of
/// users 0 and 1.
fn does(image: &mut [u8], action: [u8; 6], shares: [u32; 2]) {
    let mut record = [0; 40];
    record[..5].copy_from_slice(&action[..5]);
    record[6] = action[5];
    record[8..12].copy_from_slice(&shares[0].to_le_bytes());
    record[12..16].copy_from_slice(&shares[1].to_le_bytes());
    assert_eq!(act(image, &record), Answer::Ok, "{action:?}");
}

/// C1 up to user 1's acknowledgement: van 0's image, and van 1's.
fn acknowledged() -> (Vec<u8>, Vec<u8>) {
    let (mut own, mut other) = (new(0), new(1));
    does(&mut own, [1, 0, 0, 0, 0, 1], [0, 0]);
    does(&mut own, [2, 0, 1, 0, 0, 0], [0, 0]);
    does(&mut own, [4, 0, 0, 0, 0, 0], [300, 600]);
    does(&mut own, [5, 0, 0, 0, 0, 0], [0, 0]);
    assert_eq!(merge(&mut other, &own), Answer::Ok);
    does(&mut other, [9, 1, 0, 0, 0, 0], [0, 0]);
    (own, other)
}

fn printed(input: &[u8]) -> String {
    String::from_utf8(text(input)).unwrap()
}

#[test]
fn c1() {
    let (mut own, other) = acknowledged();
    assert_eq!(merge(&mut own, &other), Answer::Ok);
    does(&mut own, [3, 0, 0, 0, 0, 0], [0, 0]);
    let expected = "van 0\n\
        crew 0 members 1 costs 1 gifts 600\n\
        user 0 counter 2 raw 600 gift 600 part 0 balance 0\n\
        user 1 counter 1 raw -600 gift 0 part 600 balance 0\n";
    assert_eq!(printed(&own), expected);
}

#[test]
fn two_images_are_joined_first() {
    let (own, other) = acknowledged();
    let figures = "user 0 counter 1 raw 600 gift 0 part 0 balance 600\n\
        user 1 counter 1 raw -600 gift 0 part 0 balance -600\n";
    let crew = "crew 0 members 2 costs 1 gifts 0\n";
    // The first image is one's own: its van is printed.
    assert_eq!(printed(&[own.clone(), other.clone()].concat()), format!("van 0\n{crew}{figures}"));
    assert_eq!(printed(&[other, own.clone()].concat()), format!("van 1\n{crew}{figures}"));
    // Alone, van 0 has not heard the acknowledgement.
    let alone = "van 0\ncrew 0 members 2 costs 0 gifts 0\n\
        user 0 counter 1 raw 0 gift 0 part 0 balance 0\n\
        user 1 counter 1 raw 0 gift 0 part 0 balance 0\n";
    assert_eq!(printed(&own), alone);
    assert_eq!(printed(&[own.clone(), own].concat()), alone);
}

#[test]
fn crews_and_users_by_number() {
    assert_eq!(printed(&new(5)), "van 5\n");
    let mut image = new(3);
    // Crew 15, of rule 1: user 7 once a member; crew 2, of rule 2: user 4 with the largest counter.
    image[16 + 18 * 15 + 14] = 2;
    image[16 + 18 * 15 + 16] = 1;
    image[16 + 18 * 2 + 8..][..2].fill(255);
    image[16 + 18 * 2 + 16] = 2;
    let expected = "van 3\n\
        crew 2 members 1 costs 0 gifts 0\n\
        user 4 counter 65535 raw 0 gift 0 part 0 balance 0\n\
        crew 15 members 0 costs 0 gifts 0\n\
        user 7 counter 2 raw 0 gift 0 part 0 balance 0\n";
    assert_eq!(printed(&image), expected);
}

#[test]
fn parts_by_the_rule_of_the_crew() {
    let printed_under = |rule: u8| {
        let mut image = new_with(0, [0; 8]);
        does(&mut image, [1, 0, 0, 0, 0, rule], [0, 0]);
        does(&mut image, [2, 0, 1, 0, 0, 0], [0, 0]);
        does(&mut image, [2, 0, 2, 0, 0, 0], [0, 0]);
        // User 2 pays 100 for user 1 and leaves; user 0 and user 1 share a cost besides.
        does(&mut image, [4, 2, 0, 0, 0, 0], [0, 100]);
        does(&mut image, [5, 2, 0, 0, 0, 0], [0, 0]);
        does(&mut image, [9, 1, 0, 0, 0, 0], [0, 0]);
        does(&mut image, [4, 0, 0, 0, 1, 0], [10, 20]);
        does(&mut image, [5, 0, 0, 0, 1, 0], [0, 0]);
        does(&mut image, [9, 1, 0, 0, 1, 0], [0, 0]);
        does(&mut image, [3, 2, 0, 0, 0, 0], [0, 0]);
        printed(&image)
    };
    let text = |first: [i64; 2], second: [i64; 2]| {
        format!(
            "van 0\ncrew 0 members 2 costs 2 gifts 100\n\
            user 0 counter 1 raw 20 gift 0 part {} balance {}\n\
            user 1 counter 1 raw -120 gift 0 part {} balance {}\n\
            user 2 counter 2 raw 100 gift 100 part 0 balance 0\n",
            first[0], first[1], second[0], second[1]
        )
    };
    assert_eq!(printed_under(1), text([50, 70], [50, -70]));
    assert_eq!(printed_under(2), text([33, 53], [67, -53]));
}

#[test]
fn small_shares_need_no_nod_in_a_crew_of_rule_2() {
    let printed_under = |rule: u8, share: u32| {
        let mut image = new(0);
        does(&mut image, [1, 0, 0, 0, 0, rule], [0, 0]);
        does(&mut image, [2, 0, 1, 0, 0, 0], [0, 0]);
        does(&mut image, [4, 0, 0, 0, 0, 0], [300, share]);
        does(&mut image, [5, 0, 0, 0, 0, 0], [0, 0]);
        printed(&image)
    };
    let text = |costs: u32, raw: i64| {
        format!(
            "van 0\ncrew 0 members 2 costs {costs} gifts 0\n\
            user 0 counter 1 raw {raw} gift 0 part 0 balance {raw}\n\
            user 1 counter 1 raw {} gift 0 part 0 balance {}\n",
            -raw, -raw
        )
    };
    assert_eq!(printed_under(2, 500), text(1, 500));
    assert_eq!(printed_under(2, 501), text(0, 0));
    assert_eq!(printed_under(1, 500), text(0, 0));
    assert_eq!(printed_under(1, 1), text(0, 0));
}

#[test]
fn days_are_no_matter() {
    // C1's cost on day 0, on the last day, and undated.
    let (mut own, other) = acknowledged();
    assert_eq!(merge(&mut own, &other), Answer::Ok);
    let text = printed(&own);
    for day in [36_524u16, 65_535] {
        own[344..346].copy_from_slice(&day.to_le_bytes());
        assert_eq!(printed(&own), text);
    }
    assert!(text.contains("costs 1"));
}

#[test]
fn refusals() {
    let (own, other) = acknowledged();
    let two = [own.clone(), other.clone()].concat();
    let of_older_versions = [20_752, 20_784, 41_504, 41_536, 41_568, 42_560, 42_592];
    let beside = [0, 1, 21_807, 21_809, 43_615, 43_617, 65_424];
    for length in of_older_versions.into_iter().chain(beside) {
        let mut input = two.clone();
        input.resize(length, 0);
        assert_eq!(printed(&input), "refused 1\n", "{length} bytes");
    }
    // Images of versions 1 and 2, alone and with one of version 3.
    for (size, check) in
        [(IMAGE_SIZE_1, v1::check as fn(&[u8]) -> Answer), (IMAGE_SIZE_2, v2::check)]
    {
        let (old_own, old_other) = (lowered(&own, size), lowered(&other, size));
        assert_eq!((check(&old_own), check(&old_other)), (Answer::Ok, Answer::Ok));
        assert_eq!(printed(&old_own), "refused 1\n");
        for pair in [[&old_own, &old_other], [&own, &old_other], [&old_own, &other]] {
            assert_eq!(printed(&pair.map(|image| &image[..]).concat()), "refused 1\n");
        }
    }
    // Bytes 32 and 50: the rules of crew 0, which is present, and of crew 1, which is absent. Bytes
    // 345 and 386: of the days of cost 0, which is present, and of cost 1, which is absent.
    for (at, byte, number) in [
        (0, 0, 2),
        (3, 1, 3),
        (3, 2, 3),
        (4, 1, 3),
        (5, 8, 4),
        (32, 0, 4),
        (32, 3, 4),
        (50, 1, 4),
        (304, 1, 5),
        (345, 143, 5),
        (386, 1, 5),
    ] {
        let (mut one, mut first, mut second) = (own.clone(), two.clone(), two.clone());
        one[at] = byte;
        first[at] = byte;
        second[IMAGE_SIZE + at] = byte;
        assert_eq!(printed(&one), format!("refused {number}\n"));
        assert_eq!(printed(&first), format!("refused {number}\n"));
        assert_eq!(printed(&second), format!("refused {}\n", 40 + number));
    }
    // Another home for user 7; another share in cost 0, another day; another rule of crew 0.
    for (at, byte, number) in [(13, 6, 30), (312, 45, 31), (344, 1, 31), (32, 2, 31)] {
        let mut input = two.clone();
        input[IMAGE_SIZE + at] = byte;
        assert_eq!(printed(&input), format!("refused {number}\n"));
    }
}
