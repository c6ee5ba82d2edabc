//! The papers' sentences on a group's figures and on leaving, read slowly: one
//! after the other, user by user. And random groups to read them on.

use super::*;

/// In crews of rule 2 a share of 500 cents or fewer counts as acknowledged (A4).
fn counts_as_acknowledged(rule: u16, cost: &Expense, user: usize) -> bool {
    let acknowledged = cost.acknowledged >> user & 1 == 1;
    acknowledged || rule == 2 && cost.shares[user] <= 500
}

/// Every positive share of a cost that is not deleted counts as acknowledged.
fn is_valid(rule: u16, cost: &Expense) -> bool {
    let fits = |user: usize| cost.shares[user] == 0 || counts_as_acknowledged(rule, cost, user);
    cost.deleted == 0 && (0..8).all(fits)
}

fn costs_in(image: &Image, group: usize) -> Vec<Expense> {
    let costs = (0..512).map(|number| image.record(number));
    costs.filter(|cost| cost.payer != NONE && usize::from(cost.group) == group).collect()
}

fn valid_costs(image: &Image, group: usize) -> Vec<Expense> {
    let rule = image.read_rule(group);
    costs_in(image, group).into_iter().filter(|cost| is_valid(rule, cost)).collect()
}

/// Valid amounts paid less valid shares held.
fn raw(costs: &[Expense], user: usize) -> i64 {
    let amount = |cost: &Expense| cost.shares.iter().map(|&share| i64::from(share)).sum::<i64>();
    let paid = costs.iter().filter(|cost| usize::from(cost.payer) == user).map(amount);
    let held = costs.iter().map(|cost| i64::from(cost.shares[user]));
    paid.sum::<i64>() - held.sum::<i64>()
}

/// Document 01's figures of a present group and A3's part.
pub fn statement(image: &Image, group: usize) -> (Totals, [Line; 8]) {
    let counter = |user: usize| image.read_counter(group, user);
    let is_member = |user: usize| counter(user) % 2 == 1;
    let members: Vec<usize> = (0..8).filter(|&user| is_member(user)).collect();
    let costs = valid_costs(image, group);
    let raw = |user: usize| raw(&costs, user);
    let gift = |user: usize| if !is_member(user) && raw(user) > 0 { raw(user) as u64 } else { 0 };
    let gifts: u64 = (0..8).map(gift).sum();

    // A member's weight is the count of the valid costs in which he has a
    // positive share.
    let weight = |user: usize| costs.iter().filter(|cost| cost.shares[user] > 0).count() as u64;
    let total: u64 = members.iter().map(|&user| weight(user)).sum();
    let mut part = [0; 8];
    if image.read_rule(group) == 2 && total > 0 {
        for &user in &members {
            part[user] = gifts * weight(user) / total;
        }
        // The cents left over one each to the largest remainders, lower user
        // number first.
        let mut waiting = members.clone();
        for _ in 0..gifts - part.iter().sum::<u64>() {
            let remainder = |user: usize| gifts * weight(user) % total;
            let largest = waiting.iter().map(|&user| remainder(user)).max().unwrap();
            let first = waiting.iter().position(|&user| remainder(user) == largest).unwrap();
            part[waiting.remove(first)] += 1;
        }
    } else if !members.is_empty() {
        let count = members.len() as u64;
        for (place, &user) in members.iter().enumerate() {
            part[user] = gifts / count + u64::from((place as u64) < gifts % count);
        }
    }

    let lines = std::array::from_fn(|user| Line {
        counter: counter(user),
        raw: raw(user),
        gift: gift(user),
        part: part[user],
        balance: raw(user) - gift(user) as i64 + part[user] as i64,
    });
    let (members, expenses) = (members.len() as u32, costs.len() as u32);
    (Totals { answer: Answer::Ok, members, expenses, gifts }, lines)
}

/// What a user who is at home there gets for leaving a present group: 11; 13
/// (document 01); 34 (A2); 14.
pub fn leave(image: &Image, group: usize, user: usize) -> u32 {
    let rule = image.read_rule(group);
    let counter = image.read_counter(group, user);
    // The leaver has an acknowledged positive share in a cost of that crew that
    // is neither deleted nor valid.
    let pending = |cost: &Expense| {
        cost.shares[user] > 0
            && counts_as_acknowledged(rule, cost, user)
            && cost.deleted == 0
            && !is_valid(rule, cost)
    };
    if counter % 2 != 1 {
        11
    } else if raw(&valid_costs(image, group), user) < 0 {
        13
    } else if costs_in(image, group).iter().any(pending) {
        34
    } else if counter == 65_535 {
        14
    } else {
        0
    }
}

/// The month of each day, walked through by the calendar.
pub fn months_of_days() -> Vec<u64> {
    let mut months = Vec::new();
    for year in 2000..2100 {
        for month in 1..=12 {
            let length = match month {
                2 if year % 400 == 0 || year % 4 == 0 && year % 100 != 0 => 29,
                2 => 28,
                4 | 6 | 9 | 11 => 30,
                _ => 31,
            };
            months.extend([12 * (year - 2000) + month - 1].repeat(length));
        }
    }
    months
}

/// Each user's raw from the valid costs of the days that are asked for.
pub fn raws(image: &Image, group: usize, asked_for: impl Fn(u16) -> bool) -> [i64; 8] {
    let costs = valid_costs(image, group).into_iter().filter(|cost| asked_for(cost.day));
    let costs: Vec<Expense> = costs.collect();
    std::array::from_fn(|user| raw(&costs, user))
}

/// How a random group's costs are chosen: the largest share, or shares near 500
/// cents; in how many of a hundred all who have a share have acknowledged.
pub struct Costs {
    pub largest: Option<u32>,
    pub acknowledged: usize,
    pub most: usize,
}

/// One group of random members with random costs.
pub fn random_group(random: &mut Random, group: usize, costs: Costs) -> Image {
    let mut image = Image::new_2(0, OWN_HOMES).rule(group, random.pick(&[1, 2, 2, 2]));
    let counters = random.pick(&[[1, 1, 2, 3], [1, 2, 2, 4], [0, 1, 2, 2], [2, 2, 2, 1]]);
    for user in 0..8 {
        image = image.counter(group, user, random.pick(&counters));
    }
    let ever: Vec<usize> = (0..8).filter(|&user| image.read_counter(group, user) > 0).collect();
    if ever.is_empty() {
        return image.counter(group, 3, 1);
    }
    for _ in 0..random.below(costs.most) {
        let payer = random.pick(&ever);
        let mut of = [0; 8];
        for &user in &ever {
            if random.chance(40) {
                of[user] = match costs.largest {
                    Some(largest) => 1 + random.below(largest as usize) as u32,
                    None => random.pick(&[1, 499, 500, 501, 502, 756, 1000]),
                };
            }
        }
        if of == NO_SHARES {
            of[random.pick(&ever)] = 1;
        }
        let positive = (0..8).filter(|&user| of[user] > 0).fold(0, |bits, user| bits | 1 << user);
        let all = random.chance(costs.acknowledged);
        let expense = Expense {
            payer: payer as u8,
            group: group as u8,
            deleted: random.chance(8).into(),
            acknowledged: if all { positive } else { positive & random.word() as u8 },
            version: random.word() as u32,
            shares: of,
            day: UNDATED,
        };
        image = image.expense(64 * payer + random.below(64), expense);
    }
    image.sound()
}
