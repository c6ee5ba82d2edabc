//! What is wrong with an image: the words for 1 to 5, and for 41 to 45 of a
//! join's other image.

use crate::run::Held;
use crate::words::Asked;
use val_host::fields::{clear, u16_of, Fields};
use val_host::model::Layout;
use val_host::{Answer, EXPENSES, GROUPS, IMAGE_SIZE, USERS};

/// The words for a fault of an image, or of a join's other one.
pub fn of(answer: Answer, own: &Held, asked: Asked) -> Option<String> {
    let other = if let Asked::Join { other } = asked { other } else { own };
    match answer {
        Answer::BadLength if matches!(asked, Asked::Raise) => Some(length_to_raise(own)),
        Answer::BadLength => Some(length(own, Held::NEWEST)),
        Answer::BadMark => Some(mark(own)),
        Answer::BadVersion => Some(version(own)),
        Answer::BadHeader => header(own),
        Answer::BadExpense => unsound(own),
        Answer::OtherBadLength => Some(length(other, own.layout)),
        Answer::OtherBadMark => Some(mark(other)),
        Answer::OtherBadVersion => Some(version(other)),
        Answer::OtherBadHeader => header(other),
        Answer::OtherBadExpense => unsound(other),
        _ => None,
    }
}

/// Of an image that is not as long as those that are taken.
fn length(held: &Held, taken: Layout) -> String {
    let Held { name, image, .. } = held;
    let taken = taken.version;
    match Layout::of(image.len()).map(|layout| layout.version) {
        Some(version) if version < taken => {
            format!("{name} has the length of version {version} and has to be raised first")
        }
        Some(version) => {
            format!("{name} has the length of version {version}, and version {taken} is taken")
        }
        None => format!("{name} has {} bytes, and an image has 21,808", bytes(image)),
    }
}

fn length_to_raise(held: &Held) -> String {
    let Held { name, image, .. } = held;
    match image.len() {
        IMAGE_SIZE => format!("{name} has the length of version 3 already"),
        _ => {
            format!("{name} has {} bytes, and one to be raised has 20,752 or 20,784", bytes(image))
        }
    }
}

/// How many there are; of a longer file not all were read.
fn bytes(image: &[u8]) -> String {
    match image.len() {
        length if length > IMAGE_SIZE => "more than 21,808".into(),
        length => length.to_string(),
    }
}

fn mark(held: &Held) -> String {
    format!("{} does not begin with the letters VAL", held.name)
}

fn version(held: &Held) -> String {
    let said = u16_of(&held.image[Layout::VERSION]);
    let by_length = Fields::of(&held.image).layout.version;
    format!("{} says it is of version {said}, and is as long as version {by_length}", held.name)
}

fn header(held: &Held) -> Option<String> {
    let Held { name, image, .. } = held;
    let fields = Fields::of(image);
    let homes = std::array::from_fn(|user| image[Layout::HOMES][user]);
    let wrong_rule = |&group: &usize| match fields.rule(group) {
        0 => fields.group_present(group),
        1 | 2 => !fields.group_present(group),
        _ => true,
    };
    let words = wrong_van(image[Layout::REPLICA].into(), &homes).or_else(|| {
        if image[Layout::SPARE] != [0, 0] {
            return Some("bytes 14 and 15 are not zero".into());
        }
        let group = (0..GROUPS).filter(|_| fields.layout.has_rules()).find(wrong_rule)?;
        let present = if fields.group_present(group) { "present" } else { "absent" };
        Some(format!("crew {group} is {present} and has rule {}", fields.rule(group)))
    })?;
    Some(format!("{name}: {words}"))
}

/// A van, or a user's home, that there is not.
pub fn wrong_van(van: u64, homes: &[u8; USERS]) -> Option<String> {
    if van >= USERS as u64 {
        return Some(format!("there is no van {van}: vans are 0 to 7"));
    }
    let user = homes.iter().position(|&home| usize::from(home) >= USERS)?;
    Some(format!("user {user}'s home is van {}: vans are 0 to 7", homes[user]))
}

/// The first unsound cost: with the others away, the image is refused still.
fn unsound(held: &Held) -> Option<String> {
    let mut without = held.image.clone();
    (0..EXPENSES).for_each(|expense| clear(&mut without, expense));
    let alone = |expense: usize| {
        let mut image = without.clone();
        let place = Fields::of(&image).layout.expense(expense);
        image[place.clone()].copy_from_slice(&held.image[place]);
        image
    };
    let is_unsound = |expense: &usize| check(&alone(*expense)) == Answer::BadExpense;
    let expense = (0..EXPENSES).find(is_unsound)?;
    Some(format!("{}: cost {expense} is unsound", held.name))
}

/// The check, also of an image that is older: raising begins with it.
fn check(image: &[u8]) -> Answer {
    match image.len() {
        IMAGE_SIZE => val_host::check(image),
        _ => val_host::raise(image, &mut [0; IMAGE_SIZE]),
    }
}
