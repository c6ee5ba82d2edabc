//! Times the library and the model side by side.
//!
//! `bench [--self]` prints a table; `--self` puts the model in both columns.
//! `bench --only NAME --impl lib|model --count N` makes one call N times, for
//! a profiler. `bench --list` prints the names.

use std::cell::RefCell;
use std::hint::black_box;
use std::process::exit;
use std::time::Instant;

use val_host::generate::lowered;
use val_host::model::{days_of, Layout};
use val_host::{Answer, Ledger, Line, Model};
use val_host::{
    ACTION_SIZE, BALANCES, GROUPS, IMAGE_SIZE, IMAGE_SIZE_1, IMAGE_SIZE_2, PAYMENTS, RULE_EQUAL,
    RULE_USE, SMALL_SHARE, UNDATED, USERS,
};

/// A round is this many calls of one implementation; the two take turns. The
/// table is gone through several times, so that a busy spell hits no row alone.
const CALLS_PER_ROUND: usize = 25;
const ROUNDS: usize = 40;
const PASSES: usize = 30;

const LAYOUT: Layout = Layout::of(IMAGE_SIZE).unwrap();
const NONE: u8 = 255;
const HOMES: [u8; USERS] = [0, 1, 2, 3, 4, 5, 6, 7];
/// The month that is stated: February 2028.
const MONTH: u64 = 12 * 28 + 1;

// ---- images -----------------------------------------------------------------

fn empty_image() -> Vec<u8> {
    let mut image = vec![0; IMAGE_SIZE];
    assert!(Model::empty(&mut image, 0, &HOMES).is_ok());
    image
}

fn record_mut(image: &mut [u8], expense: usize) -> &mut [u8] {
    &mut image[LAYOUT.expense(expense)]
}

fn put_share(record: &mut [u8], user: usize, share: u32) {
    record[8 + 4 * user..][..4].copy_from_slice(&share.to_le_bytes());
}

fn shares_mut(record: &mut [u8]) -> impl Iterator<Item = &mut [u8]> {
    record[8..40].chunks_exact_mut(4)
}

/// Of each eight expenses four are of the month that is stated, on its first day
/// and on its last and in between, one each of the days beside it, one of another
/// year, and one has no day.
fn put_day(record: &mut [u8], turn: usize) {
    let days = days_of(MONTH).unwrap();
    let (first, last) = (*days.start(), *days.end());
    let days = [first, last + 1, first + 9, UNDATED, last, first - 1, last - 9, first - 500];
    record[40..].copy_from_slice(&days[turn % days.len()].to_le_bytes());
}

fn set_counter(image: &mut [u8], group: usize, user: usize, counter: u16) {
    image[LAYOUT.counter(group, user)].copy_from_slice(&counter.to_le_bytes());
}

fn set_rule(image: &mut [u8], group: usize, rule: u16) {
    image[LAYOUT.rule(group)].copy_from_slice(&rule.to_le_bytes());
}

/// Users 0 to 6 are members of each of these groups, user 7 has left. All are
/// under rule 1.
fn image_with(groups: &[usize]) -> Vec<u8> {
    let mut image = empty_image();
    for &group in groups {
        for user in 0..USERS {
            set_counter(&mut image, group, user, if user == 7 { 2 } else { 1 });
        }
        set_rule(&mut image, group, RULE_EQUAL);
    }
    image
}

/// Expenses in turn in these groups, every `step`th number, mostly valid.
fn filled_image(groups: &[usize], step: usize) -> Vec<u8> {
    let mut image = image_with(groups);
    for (turn, expense) in (0..512).step_by(step).enumerate() {
        let group = groups[turn % groups.len()];
        let record = record_mut(&mut image, expense);
        record[0] = (expense / 64) as u8;
        record[1] = group as u8;
        record[2] = u8::from(turn % 32 == 9);
        record[4] = 1;
        put_day(record, turn / groups.len());
        for user in 0..7 {
            // User 0 only pays in the last group, so that it may leave it.
            let only_pays = user == 0 && group == groups[groups.len() - 1];
            if (turn + user) % 3 != 2 && !only_pays {
                put_share(record, user, 100 + 10 * user as u32 + turn as u32 % 7);
                record[3] |= 1 << user;
            }
        }
        if turn % 32 == 17 {
            record[3] &= record[3] - 1;
        }
    }
    // For kind 5: in no group. For kind 10: a share of user 7. For kind 9: not
    // yet acknowledged by user 0.
    let record = record_mut(&mut image, IN_NO_GROUP);
    record[1] = NONE;
    record[3] &= 1;
    put_share(record_mut(&mut image, OF_FORMER), 7, 50);
    record_mut(&mut image, OPEN)[3] &= !1;
    assert!(Model::check(&image).is_ok());
    image
}

/// One group and one expense of each user, held by the members named; user 7
/// leaves a gift. With so few expenses, what comes after the sums is as large a
/// part of the call as it can be.
fn one_group(holds: impl Fn(usize, usize) -> bool) -> Vec<u8> {
    let mut image = image_with(&[0]);
    for (payer, each) in [70, 210, 40, 180, 90, 60, 130, 20].into_iter().enumerate() {
        let record = record_mut(&mut image, 64 * payer);
        record[..4].copy_from_slice(&[payer as u8, 0, 0, 0]);
        put_day(record, payer);
        for user in (0..7).filter(|&user| holds(payer, user)) {
            put_share(record, user, each + user as u32 % 3);
            record[3] |= 1 << user;
        }
    }
    assert!(Model::check(&image).is_ok());
    image
}

/// Four members owe and three are owed.
fn six_payments() -> Vec<u8> {
    let image = one_group(|_, _| true);
    let mut cents = [0; PAYMENTS];
    assert!(Model::payments(&image, 0, &mut cents).is_ok());
    assert_eq!(cents.iter().filter(|&&sum| sum > 0).count(), 6, "the most for seven balances");
    image
}

/// All 512 expenses in group 0, so that leaving has most to look at. User 0
/// holds no acknowledged share, and of each two expenses one waits: in turn
/// for a share that user 0 has not acknowledged, and for another user.
fn pending_image() -> Vec<u8> {
    let mut image = filled_image(&[0], 1);
    for expense in (0..512).step_by(2).filter(|&expense| expense != IN_NO_GROUP) {
        let record = record_mut(&mut image, expense);
        if expense % 4 == 0 {
            put_share(record, 0, 100);
        } else {
            record[3] &= record[3] - 1;
        }
    }
    assert!(Model::check(&image).is_ok());
    image
}

/// The same, and user 0 has acknowledged what it holds in the last expense of
/// those that wait for another user.
fn own_pending_image() -> Vec<u8> {
    let mut image = pending_image();
    let record = record_mut(&mut image, 510);
    put_share(record, 0, 100);
    record[3] |= 1;
    assert!(Model::check(&image).is_ok());
    image
}

/// All 512 expenses in group 0, and user 0 has a share in each and has
/// acknowledged it: the most that leaving adds up.
fn shared_image() -> Vec<u8> {
    let mut image = filled_image(&[0], 1);
    for expense in (0..512).filter(|&expense| expense != IN_NO_GROUP) {
        let record = record_mut(&mut image, expense);
        put_share(record, 0, 100);
        record[3] |= 1;
    }
    assert!(Model::check(&image).is_ok());
    image
}

const IN_NO_GROUP: usize = 12;
const OF_FORMER: usize = 24;
const OPEN: usize = 72;

/// The image of another replica: of each four expenses one is newer, one
/// misses an acknowledgement, and some counters are higher.
fn variant(image: &[u8]) -> Vec<u8> {
    let mut other = image.to_vec();
    other[Layout::REPLICA] = 1;
    for group in (0..GROUPS).step_by(4) {
        if other[LAYOUT.counter(group, 1)] == [1, 0] {
            set_counter(&mut other, group, 1, 3);
        }
    }
    for turn in 0..512 {
        let record = record_mut(&mut other, turn);
        if record[0] != NONE {
            match turn / 2 % 4 {
                0 => {
                    record[4] += 1;
                    record[8 + 4 * 3] = 77;
                    record[3] = 0;
                }
                1 => record[3] &= record[3].wrapping_sub(1),
                _ => {}
            }
        }
    }
    assert!(Model::check(&other).is_ok());
    other
}

/// The same expenses with shares so large that they have to be added up.
fn large(image: &[u8]) -> Vec<u8> {
    let mut other = image.to_vec();
    for expense in 0..512 {
        let record = record_mut(&mut other, expense);
        for share in shares_mut(record) {
            if share != [0; 4] {
                share.copy_from_slice(&100_000_000u32.to_le_bytes());
            }
        }
    }
    assert!(Model::check(&other).is_ok());
    other
}

/// Expenses present and absent in no order.
fn scattered(image: &[u8]) -> Vec<u8> {
    let mut other = image.to_vec();
    let mut state = 7u32;
    for expense in 0..512 {
        state = state.wrapping_mul(1_664_525).wrapping_add(1_013_904_223);
        if state >> 31 == 0 {
            let record = record_mut(&mut other, expense);
            record.fill(0);
            record[0] = NONE;
        }
    }
    assert!(Model::check(&other).is_ok());
    other
}

/// The same groups, all under this rule.
fn under(rule: u16, image: &[u8]) -> Vec<u8> {
    let mut other = image.to_vec();
    for group in 0..GROUPS {
        if other[LAYOUT.rule(group)] != [0, 0] {
            set_rule(&mut other, group, rule);
        }
    }
    assert!(Model::check(&other).is_ok());
    other
}

/// The same groups, under rule 2. The statement's gifts are shared out by use.
fn by_use(image: &[u8]) -> Vec<u8> {
    let other = under(RULE_USE, image);
    let (mut equal, mut parts) = ([Line::default(); USERS], [Line::default(); USERS]);
    let totals = Model::statement(image, 0, &mut equal);
    assert!(Model::statement(&other, 0, &mut parts) == totals && totals.gifts > 0);
    assert!(parts != equal, "the rule makes a difference");
    other
}

/// The same groups, under rule 2, and nobody has acknowledged anything: the
/// expenses are valid by small shares alone.
fn small(image: &[u8]) -> Vec<u8> {
    let mut other = under(RULE_USE, image);
    for expense in 0..512 {
        record_mut(&mut other, expense)[3] = 0;
    }
    let valid = |image: &[u8]| Model::statement(image, 0, &mut [Line::default(); USERS]).expenses;
    assert!(valid(&other) >= valid(image) && valid(&under(RULE_EQUAL, &other)) == 0);
    other
}

/// The same expenses with no share small, so that rule 2 asks for every bit.
fn without_small(image: &[u8]) -> Vec<u8> {
    let mut other = image.to_vec();
    for expense in 0..512 {
        for share in shares_mut(record_mut(&mut other, expense)) {
            let cents = u32::from_le_bytes(share.try_into().unwrap());
            if cents > 0 {
                share.copy_from_slice(&(SMALL_SHARE + cents).to_le_bytes());
            }
        }
    }
    assert!(Model::check(&other).is_ok());
    other
}

/// All 512 expenses in group 0, of which every second one waits, as above; but
/// nobody has acknowledged anything, and what is waited for is not small.
fn small_pending_image() -> Vec<u8> {
    let mut image = small(&filled_image(&[0], 1));
    for expense in (0..512).step_by(2).filter(|&expense| expense != IN_NO_GROUP) {
        let record = record_mut(&mut image, expense);
        let holder = (1..USERS).find(|&user| record[8 + 4 * user..][..4] != [0; 4]).unwrap();
        put_share(record, if expense % 4 == 0 { 0 } else { holder }, SMALL_SHARE + 1);
    }
    assert!(Model::check(&image).is_ok());
    image
}

/// The same, and user 0 has a small share in the last expense of those that wait
/// for another user.
fn small_own_pending_image() -> Vec<u8> {
    let mut image = small_pending_image();
    put_share(record_mut(&mut image, 510), 0, 100);
    assert!(Model::check(&image).is_ok());
    image
}

fn group_of(image: &[u8], expense: usize) -> u8 {
    image[LAYOUT.expense_at(expense) + 1]
}

// ---- cases --------------------------------------------------------------------

enum Call {
    Check,
    Empty,
    Act([u8; ACTION_SIZE]),
    Merge(Vec<u8>),
    Statement(u64),
    /// One statement after the other, of all groups: what the office ran before
    /// there was `Balances`.
    Statements,
    Lookup(u64),
    Payments(u64),
    Month(u64),
    Balances,
    Raise(Vec<u8>),
}

/// What the calls that only read an image fill.
#[derive(PartialEq)]
struct Lent {
    /// Of one statement in the first place, of all groups' in their own.
    lines: [[Line; USERS]; GROUPS],
    cents: [u64; PAYMENTS],
    raws: [i64; USERS],
    balances: [i64; BALANCES],
}

impl Lent {
    /// Numbers that no list, no month and no group has, so that one left unwritten
    /// shows.
    fn new() -> Self {
        Lent {
            lines: [[Line::default(); USERS]; GROUPS],
            cents: [u64::MAX; PAYMENTS],
            raws: [i64::MAX; USERS],
            balances: [i64::MAX; BALANCES],
        }
    }
}

struct Case {
    name: String,
    image: Vec<u8>,
    call: Call,
    answer: Answer,
}

fn action(kind: u8, actor: u8, other: u8, group: u8, expense: usize) -> Call {
    let mut record = [0; ACTION_SIZE];
    record[..4].copy_from_slice(&[kind, actor, other, group]);
    record[4..6].copy_from_slice(&(expense as u16).to_le_bytes());
    if kind == 1 {
        record[6..8].copy_from_slice(&RULE_EQUAL.to_le_bytes());
    }
    if kind == 4 || kind == 7 {
        record[6..8].copy_from_slice(&days_of(MONTH).unwrap().start().to_le_bytes());
        put_share(&mut record, 0, 300);
        put_share(&mut record, 1, 600);
    }
    Call::Act(record)
}

fn cases() -> Vec<Case> {
    let all: Vec<usize> = (0..GROUPS).collect();
    let even: Vec<usize> = (0..GROUPS).step_by(2).collect();
    let empty = empty_image();
    let half = filled_image(&even, 2);
    let full = filled_image(&all, 1);

    let mut cases = Vec::new();
    let mut case = |name: &str, on: &str, image: &[u8], call: Call, answer: Answer| {
        let name = format!("{name}/{on}");
        cases.push(Case { name, image: image.to_vec(), call, answer });
    };
    let images = [("empty", &empty), ("half", &half), ("full", &full)];
    for (on, image) in images {
        case("check", on, image, Call::Check, Answer::Ok);
    }
    case("check", "scattered", &scattered(&full), Call::Check, Answer::Ok);
    case("check", "large", &large(&full), Call::Check, Answer::Ok);
    case("empty", "full", &full, Call::Empty, Answer::Ok);
    case("act1", "empty", &empty, action(1, 0, 0, 0, 0), Answer::Ok);
    case("act1", "half", &half, action(1, 0, 0, 1, 0), Answer::Ok);
    case("act4", "empty", &empty, action(4, 0, 0, 0, 0), Answer::Ok);
    case("act4", "half", &half, action(4, 0, 0, 0, 1), Answer::Ok);
    for (on, image) in [("half", &half), ("full", &full)] {
        let last = if on == "half" { 14 } else { 15 };
        case("act2", on, image, action(2, 0, 7, 0, 0), Answer::Ok);
        case("act3", on, image, action(3, 0, 0, last, 0), Answer::Ok);
        case("act5", on, image, action(5, 0, 0, 0, IN_NO_GROUP), Answer::Ok);
        case("act6", on, image, action(6, 0, 0, group_of(image, 6), 6), Answer::Ok);
        case("act7", on, image, action(7, 0, 0, 0, 6), Answer::Ok);
        case("act8", on, image, action(8, 0, 0, 0, 6), Answer::Ok);
        case("act9", on, image, action(9, 0, 0, 0, OPEN), Answer::Ok);
        case("act10", on, image, action(10, 0, 7, 0, OF_FORMER), Answer::Ok);
    }
    for (on, image) in images {
        case("refused", on, image, action(1, 1, 0, 2, 0), Answer::NotHome);
    }
    case("merge-empty", "empty", &empty, Call::Merge(empty.clone()), Answer::Ok);
    case("merge-full", "empty", &empty, Call::Merge(full.clone()), Answer::Ok);
    for (on, image) in [("half", &half), ("full", &full)] {
        case("merge-same", on, image, Call::Merge(image.to_vec()), Answer::Ok);
        case("merge-variant", on, image, Call::Merge(variant(image)), Answer::Ok);
    }
    case("statement", "half", &half, Call::Statement(0), Answer::Ok);
    case("statement", "full", &full, Call::Statement(0), Answer::Ok);
    for (on, image) in images {
        case("lookup", on, image, Call::Lookup(6), Answer::Ok);
    }
    for kind in [2, 3, 5, 6, 7, 8, 9, 10] {
        cases.push(refused(&format!("act{kind}/empty"), &empty, action(kind, 0, 0, 0, 0)));
    }
    cases.push(refused("act1/full", &full, action(1, 0, 0, 0, 0)));
    cases.push(refused("act4/full", &full, action(4, 0, 0, 0, 0)));
    cases.push(refused("statement/empty", &empty, Call::Statement(0)));
    cases.extend(payments_cases(&empty, &half, &full));
    cases.extend(month_cases(&empty, &half, &full));
    cases.extend(balances_cases(&empty, &half, &full));
    cases.extend(pending_cases());
    cases.extend(by_use_cases(&half, &full));
    cases.extend(small_cases(&half, &full));
    for (name, size) in [("raise1", IMAGE_SIZE_1), ("raise2", IMAGE_SIZE_2)] {
        cases.extend(images.map(|(on, image)| raise_case(&format!("{name}/{on}"), image, size)));
    }
    cases
}

fn granted(name: &str, image: &[u8], call: Call) -> Case {
    Case { name: name.to_string(), image: image.to_vec(), call, answer: Answer::Ok }
}

/// Three members with more weight than the other four.
fn one_of_unlike_use() -> Vec<u8> {
    one_group(|payer, user| (payer + user) % 3 != 2)
}

/// Calls under rule 2, beside those under rule 1.
fn by_use_cases(half: &[u8], full: &[u8]) -> Vec<Case> {
    let (one, all) = (one_of_unlike_use(), filled_image(&[0], 1));
    let leave = |on: &str, image: &[u8], answer: Answer| Case {
        answer,
        ..granted(&format!("act3-use/{on}"), image, action(3, 0, 0, 0, 0))
    };
    let pending = |image: Vec<u8>| under(RULE_USE, &without_small(&image));
    vec![
        granted("statement/one", &one, Call::Statement(0)),
        granted("statement/all", &all, Call::Statement(0)),
        granted("statement-use/half", &by_use(half), Call::Statement(0)),
        granted("statement-use/full", &by_use(full), Call::Statement(0)),
        granted("statement-use/one", &by_use(&one), Call::Statement(0)),
        granted("statement-use/all", &by_use(&without_small(&all)), Call::Statement(0)),
        granted("payments-use/half", &by_use(half), Call::Payments(0)),
        granted("payments-use/full", &by_use(full), Call::Payments(0)),
        granted("act3-use/half", &by_use(half), action(3, 0, 0, 14, 0)),
        granted("act3-use/full", &by_use(full), action(3, 0, 0, 15, 0)),
        leave("pending", &pending(pending_image()), Answer::Ok),
        leave("refused", &pending(own_pending_image()), Answer::SharePending),
        leave("shared", &pending(shared_image()), Answer::Owes),
    ]
}

/// The same calls where small shares count as acknowledged without a bit.
fn small_cases(half: &[u8], full: &[u8]) -> Vec<Case> {
    let (one, all) = (one_of_unlike_use(), filled_image(&[0], 1));
    // Refused for small shares alone: nobody has acknowledged anything.
    let refused = |on: &str, image: &[u8], answer: Answer| {
        let case =
            Case { answer, ..granted(&format!("act3-small/{on}"), image, action(3, 0, 0, 0, 0)) };
        let by_rule_1 = case.run::<Model>(&mut under(RULE_EQUAL, image), &mut Lent::new());
        assert!(by_rule_1.is_ok(), "{}", case.name);
        case
    };
    vec![
        granted("statement-small/half", &small(half), Call::Statement(0)),
        granted("statement-small/full", &small(full), Call::Statement(0)),
        granted("statement-small/one", &small(&one), Call::Statement(0)),
        granted("statement-small/all", &small(&all), Call::Statement(0)),
        granted("payments-small/half", &small(half), Call::Payments(0)),
        granted("payments-small/full", &small(full), Call::Payments(0)),
        granted("act3-small/half", &small(half), action(3, 0, 0, 14, 0)),
        granted("act3-small/full", &small(full), action(3, 0, 0, 15, 0)),
        granted("act3-small/pending", &small_pending_image(), action(3, 0, 0, 0, 0)),
        refused("refused", &small_own_pending_image(), Answer::SharePending),
        refused("shared", &small(&shared_image()), Answer::Owes),
    ]
}

/// What an older version has of this image, raised into a buffer of other bytes.
fn raise_case(name: &str, image: &[u8], old_size: usize) -> Case {
    granted(name, &[0xa5; IMAGE_SIZE], Call::Raise(lowered(image, old_size)))
}

fn payments_cases(empty: &[u8], half: &[u8], full: &[u8]) -> [Case; 4] {
    [
        granted("payments/half", half, Call::Payments(0)),
        granted("payments/full", full, Call::Payments(0)),
        granted("payments/one", &six_payments(), Call::Payments(0)),
        refused("payments/empty", empty, Call::Payments(0)),
    ]
}

/// A month of a group under either rule; it has some of the group's valid
/// expenses and not all.
fn month_cases(empty: &[u8], half: &[u8], full: &[u8]) -> Vec<Case> {
    let (one, all) = (one_of_unlike_use(), filled_image(&[0], 1));
    let case = |name: &str, image: &[u8]| {
        let (mut lines, mut raws) = ([Line::default(); USERS], [0; USERS]);
        Model::statement(image, 0, &mut lines);
        Model::month(image, 0, MONTH, &mut raws);
        assert!(raws != [0; USERS] && raws != lines.map(|line| line.raw), "{name}");
        granted(name, image, Call::Month(0))
    };
    vec![
        case("month/half", half),
        case("month/full", full),
        case("month/one", &one),
        case("month/all", &all),
        case("month-use/all", &under(RULE_USE, &without_small(&all))),
        case("month-small/full", &small(full)),
        case("month-small/all", &small(&all)),
        refused("month/empty", empty, Call::Month(0)),
    ]
}

/// All groups' balances in one call, and beside them the statements of all groups
/// in a row, which have the same balances.
fn balances_cases(empty: &[u8], half: &[u8], full: &[u8]) -> Vec<Case> {
    let (one, all) = (one_of_unlike_use(), filled_image(&[0], 1));
    let mut cases = vec![
        granted("balances/empty", empty, Call::Balances),
        granted("balances/half", half, Call::Balances),
        granted("balances/one", &one, Call::Balances),
        granted("balances/all", &all, Call::Balances),
        granted("balances-use/all", &by_use(&without_small(&all)), Call::Balances),
    ];
    for (kind, image) in [("", full), ("-use", &by_use(full)), ("-small", &small(full))] {
        let case = granted(&format!("balances{kind}/full"), image, Call::Balances);
        let in_a_row = granted(&format!("statements{kind}/full"), image, Call::Statements);
        let mut lent = Lent::new();
        for case in [&case, &in_a_row] {
            case.run::<Model>(&mut image.to_vec(), &mut lent);
        }
        let balances = lent.lines.as_flattened().iter().map(|line| line.balance);
        assert!(balances.eq(lent.balances), "{}", case.name);
        cases.extend([case, in_a_row]);
    }
    cases
}

/// Leaving where half of the group's expenses are not valid: none of these with
/// a share that the leaver has acknowledged, and then one; and where the leaver
/// has a share in all of them, and owes.
fn pending_cases() -> [Case; 3] {
    let case = |name: &str, image: Vec<u8>, answer: Answer| {
        let name = name.to_string();
        Case { name, image, call: action(3, 0, 0, 0, 0), answer }
    };
    [
        case("act3/pending", pending_image(), Answer::Ok),
        case("act3/refused", own_pending_image(), Answer::SharePending),
        case("act3/shared", shared_image(), Answer::Owes),
    ]
}

/// What this image can't grant; it costs the check all the same.
fn refused(name: &str, image: &[u8], call: Call) -> Case {
    let mut case = Case { name: name.to_string(), image: image.to_vec(), call, answer: Answer::Ok };
    case.answer = case.run::<Model>(&mut image.to_vec(), &mut Lent::new());
    assert!(!case.answer.is_ok(), "{name}");
    case
}

/// The statements of all groups in a row; the first answer that is a refusal.
fn statements<L: Ledger>(image: &[u8], lines: &mut [[Line; USERS]; GROUPS]) -> Answer {
    let mut answer = Answer::Ok;
    for (group, lines) in lines.iter_mut().enumerate() {
        let totals = L::statement(black_box(image), black_box(group as u64), lines);
        answer = if answer.is_ok() { totals.answer } else { answer };
    }
    answer
}

impl Case {
    fn writes(&self) -> bool {
        let call_writes =
            matches!(self.call, Call::Empty | Call::Act(_) | Call::Merge(_) | Call::Raise(_));
        self.answer.is_ok() && call_writes
    }

    #[inline]
    fn run<L: Ledger>(&self, image: &mut [u8], lent: &mut Lent) -> Answer {
        match &self.call {
            Call::Check => L::check(black_box(image)),
            Call::Empty => L::empty(black_box(image), black_box(0), black_box(&HOMES)),
            Call::Act(action) => L::act(black_box(image), black_box(action)),
            Call::Merge(other) => L::merge(black_box(image), black_box(other)),
            Call::Statement(group) => {
                L::statement(black_box(image), black_box(*group), &mut lent.lines[0]).answer
            }
            Call::Statements => statements::<L>(image, &mut lent.lines),
            Call::Lookup(expense) => {
                black_box(L::lookup(black_box(image), black_box(*expense)));
                Answer::Ok
            }
            Call::Payments(group) => {
                L::payments(black_box(image), black_box(*group), &mut lent.cents)
            }
            Call::Month(group) => {
                L::month(black_box(image), black_box(*group), black_box(MONTH), &mut lent.raws)
            }
            Call::Balances => L::balances(black_box(image), &mut lent.balances),
            Call::Raise(old) => L::raise(black_box(old), black_box(image)),
        }
    }

    /// Both give the answer meant, the same image and the same lines and numbers.
    fn agree<L: Ledger>(&self) {
        let (mut left, mut right) = (self.image.clone(), self.image.clone());
        let mut lent = [Lent::new(), Lent::new()];
        let left_answer = self.run::<L>(&mut left, &mut lent[0]);
        let right_answer = self.run::<Model>(&mut right, &mut lent[1]);
        assert_eq!((left_answer, right_answer), (self.answer, self.answer), "{}", self.name);
        assert!(left == right && lent[0] == lent[1], "{}: different results", self.name);
        assert!(!self.writes() || left != self.image || self.idle(), "{}: no change", self.name);
    }

    fn idle(&self) -> bool {
        self.name.starts_with("merge-same") || self.name.starts_with("merge-empty")
    }

    fn repeat<L: Ledger>(&self, count: u64) {
        let mut image = self.image.clone();
        let mut lent = Lent::new();
        for _ in 0..count {
            if self.writes() {
                image.copy_from_slice(&self.image);
            }
            black_box(self.run::<L>(&mut image, &mut lent));
        }
    }
}

// ---- timing -------------------------------------------------------------------

/// The median of one round, in nanoseconds; `restore` is not timed.
fn round(mut restore: impl FnMut(), mut call: impl FnMut()) -> f64 {
    let mut times = [0; CALLS_PER_ROUND];
    for time in &mut times {
        restore();
        let start = Instant::now();
        call();
        *time = start.elapsed().as_nanos() as u64;
    }
    times.sort_unstable();
    times[CALLS_PER_ROUND / 2] as f64
}

fn best(rounds: impl FnMut(usize) -> f64) -> f64 {
    (0..ROUNDS).map(rounds).fold(f64::INFINITY, f64::min)
}

/// What timing nothing takes.
fn time_nothing() -> f64 {
    best(|_| round(|| (), || ()))
}

fn time_compare() -> f64 {
    let (left, right) = (filled_image(&[0], 1), filled_image(&[0], 1));
    let compare = || {
        black_box(black_box(&left[..]) == black_box(&right[..]));
    };
    best(|_| round(|| (), compare))
}

/// The best round of the library and of the model.
fn time_case<L: Ledger>(case: &Case) -> (f64, f64) {
    let image = RefCell::new(case.image.clone());
    let mut lent = Lent::new();
    let restore = || {
        if case.writes() {
            image.borrow_mut().copy_from_slice(black_box(&case.image));
        }
    };
    let mut model = f64::INFINITY;
    let library = best(|_| {
        model = model.min(round(restore, || {
            black_box(case.run::<Model>(&mut image.borrow_mut(), &mut lent));
        }));
        round(restore, || {
            black_box(case.run::<L>(&mut image.borrow_mut(), &mut lent));
        })
    });
    (library, model)
}

fn table<L: Ledger>() {
    let cases = cases();
    cases.iter().for_each(Case::agree::<L>);
    let (mut nothing, mut compare) = (f64::INFINITY, f64::INFINITY);
    let mut times = vec![(f64::INFINITY, f64::INFINITY); cases.len()];
    for _ in 0..PASSES {
        nothing = nothing.min(time_nothing());
        compare = compare.min(time_compare());
        for (case, time) in cases.iter().zip(&mut times) {
            let (library, model) = time_case::<L>(case);
            *time = (time.0.min(library), time.1.min(model));
        }
    }
    let compare = compare - nothing;
    println!("memcmp of two equal images: {compare:.0} ns");
    println!(
        "{:<22} {:>12} {:>12} {:>14} {:>16}",
        "call/image", "library ns", "model ns", "library/model", "library/memcmp"
    );
    for (case, time) in cases.iter().zip(times) {
        let (library, model) = (time.0 - nothing, time.1 - nothing);
        println!(
            "{:<22} {library:>12.0} {model:>12.0} {:>14.2} {:>16.2}",
            case.name,
            library / model,
            library / compare
        );
    }
}

// ---- arguments ------------------------------------------------------------------

fn usage() -> ! {
    eprintln!("usage: bench [--self] | --list | --only NAME --impl lib|model --count N");
    exit(2)
}

#[cfg(not(feature = "linked"))]
fn unlinked() -> ! {
    eprintln!("built without the library: add --features linked, or run with --self");
    exit(2)
}

fn main() {
    let arguments: Vec<String> = std::env::args().skip(1).collect();
    let arguments: Vec<&str> = arguments.iter().map(String::as_str).collect();
    match arguments[..] {
        ["--self"] => table::<Model>(),
        ["--list"] => cases().iter().for_each(|case| println!("{}", case.name)),
        ["--only", name, "--impl", which, "--count", count] => {
            let cases = cases();
            let case = cases.iter().find(|case| case.name == name).unwrap_or_else(|| usage());
            let count = count.parse().unwrap_or_else(|_| usage());
            match which {
                "model" => case.repeat::<Model>(count),
                #[cfg(feature = "linked")]
                "lib" => case.repeat::<val_host::Library>(count),
                #[cfg(not(feature = "linked"))]
                "lib" => unlinked(),
                _ => usage(),
            }
        }
        #[cfg(feature = "linked")]
        [] => table::<val_host::Library>(),
        #[cfg(not(feature = "linked"))]
        [] => unlinked(),
        _ => usage(),
    }
}
