//! What to call, on which image.

use val_host::generate::{self, Care};
use val_host::model::Layout;
use val_host::{Answer, Ledger};
use val_host::{
    BALANCES, EXPENSES, GROUPS, IMAGE_SIZE, IMAGE_SIZE_1, IMAGE_SIZE_2, MONTHS, PAYMENTS, UNDATED,
    USERS,
};

use crate::older::{older, NamedDays};
use crate::shown::is_old;
use crate::{differ, Comparison};

impl<L: Ledger> Comparison<L> {
    pub fn run(&mut self) {
        self.calendar();
        for turn in 0.. {
            if self.done() {
                return;
            } else if turn % 5 == 0 {
                self.history();
            } else {
                self.limits();
            }
        }
    }

    /// Each month, where expenses stand on its first day and on its last and on
    /// those of the months beside it.
    fn calendar(&mut self) {
        const AT_ONCE: u64 = 256;
        for first in (0..MONTHS).step_by(AT_ONCE as usize - 1) {
            let months = first..(first + AT_ONCE).min(MONTHS);
            let group = self.random.below(GROUPS);
            let image = generate::calendar(&mut self.random, group, months.clone());
            for month in months {
                if self.done() {
                    return;
                }
                self.month(&image, group as u64, month, USERS);
            }
        }
    }

    /// Eight replicas from empty images on. Some, or all, begin with an older
    /// version.
    fn history(&mut self) {
        const SIZES: [usize; 3] = [IMAGE_SIZE_1, IMAGE_SIZE_2, IMAGE_SIZE];
        let homes = generate::homes(&mut self.random);
        let sizes = self.random.pick(&[&SIZES[2..], &SIZES[2..], &SIZES, &SIZES[1..], &SIZES[..2]]);
        let mut named = NamedDays([UNDATED; EXPENSES]);
        let mut vans = Vec::new();
        for van in 0..8 {
            let size = self.random.pick(sizes);
            vans.push(self.beginning(size, van, &homes));
        }
        let mut saved = vec![vans[0].clone()];
        for _ in 0..100 + self.random.below(700) {
            if self.done() {
                return;
            }
            // Mostly a replica that somebody lives on.
            let any = self.random.below(8);
            let van = if self.random.chance(95) {
                usize::from(homes[self.random.below(USERS)])
            } else {
                any
            };
            if let Some(calls) = older(&vans[van]) {
                let other = self.heard(&vans, &saved, &homes);
                self.old_turn(calls, &mut vans[van], &other, &mut named);
                self.save(&mut saved, &vans[van]);
                continue;
            }
            match self.random.below(100) {
                0..54 => {
                    let kind = self.any_kind(&vans[van]);
                    if let Some(action) = self.any_action(&mut vans[van], kind) {
                        named.hear(&action, false);
                    }
                }
                54..70 => {
                    let mut other = self.heard(&vans, &saved, &homes);
                    if is_old(&other) {
                        if self.random.chance(20) {
                            self.merge(&mut vans[van], &other);
                        }
                        other = self.raised(&other);
                    }
                    if !self.merge(&mut vans[van], &other).is_ok() {
                        differ("a merge within a history was refused");
                    }
                }
                70..76 => self.any_statement(&vans[van], &vans[van]),
                76..81 => self.any_payments(&vans[van], &vans[van]),
                81..85 => self.any_month_statement(&vans[van], &vans[van]),
                85..88 => self.any_balances(&vans[van]),
                88..91 => self.any_lookup(&vans[van], &vans[van]),
                91..93 => {
                    if !self.check(&vans[van]).is_ok() {
                        differ("an image of a history does not pass the check");
                    }
                }
                _ => self.hostile(&vans[van]),
            }
            self.save(&mut saved, &vans[van]);
        }
        self.all_hear_all(&mut vans, &named);
    }

    /// The empty image of a replica, of the version that has this length.
    fn beginning(&mut self, size: usize, van: u64, homes: &[u8; USERS]) -> Vec<u8> {
        let mut image = vec![0; size];
        self.random.fill(&mut image);
        let answer = match older(&image) {
            Some(calls) => (calls.empty)(&mut image, van, homes),
            None => self.empty(&mut image, van, homes),
        };
        if !answer.is_ok() {
            differ("an empty image of a history was refused");
        }
        image
    }

    /// When all have heard all, all stand alike, with the days that were named.
    fn all_hear_all(&mut self, vans: &mut [Vec<u8>], named: &NamedDays) {
        for image in vans.iter_mut().filter(|image| is_old(image)) {
            *image = self.raised(image);
        }
        let (first, rest) = vans.split_first_mut().unwrap();
        for image in rest.iter() {
            self.merge(first, image);
        }
        for image in rest.iter_mut() {
            self.merge(image, first);
            if image[Layout::GROUPS_AT..] != first[Layout::GROUPS_AT..] {
                differ("two replicas that have heard the same differ");
            }
        }
        named.must_be_in(first);
    }

    /// Keeps an image of a history now and then, to be merged when it has been
    /// overtaken.
    fn save(&mut self, saved: &mut Vec<Vec<u8>>, image: &[u8]) {
        if self.random.chance(6) {
            if saved.len() < 24 {
                saved.push(image.to_vec());
            } else {
                let place = self.random.below(saved.len());
                saved[place] = image.to_vec();
            }
        }
    }

    /// An image to merge: of a replica, its own too, or one that has been
    /// overtaken.
    fn heard(&mut self, vans: &[Vec<u8>], saved: &[Vec<u8>], homes: &[u8; USERS]) -> Vec<u8> {
        let any = self.random.below(8);
        let from =
            if self.random.chance(85) { usize::from(homes[self.random.below(USERS)]) } else { any };
        if self.random.chance(25) {
            saved[self.random.below(saved.len())].clone()
        } else {
            vans[from].clone()
        }
    }

    /// Sound images that no history need have led to.
    fn limits(&mut self) {
        let mut image = if self.random.chance(25) {
            let size = self.random.pick(&[IMAGE_SIZE_1, IMAGE_SIZE_2]);
            let old = generate::sound_image(&mut self.random, size);
            self.raised(&old)
        } else {
            generate::sound_image(&mut self.random, IMAGE_SIZE)
        };
        if !self.check(&image).is_ok() {
            differ("a generated image does not pass the check");
        }
        for _ in 0..40 {
            if self.done() {
                return;
            }
            match self.random.below(100) {
                0..50 => {
                    let kind = 1 + self.random.below(10) as u8;
                    drop(self.any_action(&mut image, kind));
                }
                50..55 => self.decided_leave(&image),
                55 => self.absorptions(&image),
                56 => self.stranger(&image),
                57..67 => {
                    let other = generate::relative(&mut self.random, &image);
                    self.merge(&mut image, &other);
                }
                67..74 => self.any_statement(&image, &image),
                74..78 => self.any_payments(&image, &image),
                78..82 => self.any_month_statement(&image, &image),
                82..85 => self.any_balances(&image),
                85..87 => self.any_lookup(&image, &image),
                87 => self.any_raise(&image),
                _ => self.hostile(&image),
            }
        }
    }

    /// A group number; `sound` is an image to look for one in.
    pub fn any_group(&mut self, sound: &[u8]) -> u64 {
        let any = self.random.below(GROUPS) as u64;
        match self.random.below(25) {
            0 => self.random.pick(&[16, 17, 255, 256 + any, 65_536 + any, u64::MAX]),
            1 => (1 << 32) + any,
            2..5 => any,
            _ => generate::present_group(&mut self.random, sound) as u64,
        }
    }

    fn any_expense(&mut self, sound: &[u8]) -> u64 {
        let any = self.random.below(EXPENSES) as u64;
        match self.random.below(12) {
            0 => self.random.pick(&[512, 513, 1023, 65_536 + any, u64::MAX]),
            1 => (1 << 32) + any,
            2..5 => any,
            _ => generate::present_expense(&mut self.random, sound) as u64,
        }
    }

    fn any_month(&mut self) -> u64 {
        let any = self.random.below(MONTHS as usize) as u64;
        match self.random.below(10) {
            0 => self.random.pick(&[MONTHS, MONTHS + 1, 2 * MONTHS + any, 65_536 + any, u64::MAX]),
            1 => (1 << 32) + self.random.pick(&[0, any]),
            2..5 => self.random.pick(&[0, 1, MONTHS - 2, MONTHS - 1]),
            _ => any,
        }
    }

    /// How many lines or numbers to lend: mostly as many as there must be.
    fn any_count(&mut self, wanted: usize, others: &[usize]) -> usize {
        match self.random.below(16) {
            0 => self.random.pick(others),
            _ => wanted,
        }
    }

    fn any_statement(&mut self, image: &[u8], sound: &[u8]) {
        let group = self.any_group(sound);
        let count = self.any_count(USERS, &[0, 1, 7, 9, 12]);
        self.statement(image, group, count);
    }

    fn any_payments(&mut self, image: &[u8], sound: &[u8]) {
        let group = self.any_group(sound);
        let count = self.any_count(PAYMENTS, &[0, 1, 8, 63, 65, 128]);
        self.payments(image, group, count);
    }

    fn any_month_statement(&mut self, image: &[u8], sound: &[u8]) {
        let dated = generate::dated_group(&mut self.random, sound);
        let (group, month) = match dated.filter(|_| self.random.chance(75)) {
            Some((group, month)) => (group as u64, month),
            None => (self.any_group(sound), self.any_month()),
        };
        let count = self.any_count(USERS, &[0, 1, 7, 9, 16]);
        self.month(image, group, month, count);
    }

    fn any_balances(&mut self, image: &[u8]) {
        let count = self.any_count(BALANCES, &[0, 1, 8, 16, 64, 127, 129, 256]);
        self.balances(image, count);
    }

    fn any_lookup(&mut self, image: &[u8], sound: &[u8]) {
        let expense = self.any_expense(sound);
        self.lookup(image, expense);
    }

    /// The action, where it was accepted.
    fn any_action(&mut self, image: &mut [u8], kind: u8) -> Option<Vec<u8>> {
        let random = &mut self.random;
        let action = match random.below(20) {
            0 => generate::spoiled_action(random, image),
            1 | 2 => generate::near_action(random, image, kind).to_vec(),
            3..6 => generate::likely_action(random, image, kind, Care::Little).to_vec(),
            _ => generate::likely_action(random, image, kind, Care::Much).to_vec(),
        };
        self.act(image, &action).is_ok().then_some(action)
    }

    /// A kind by weight, mostly one that the image has room for.
    pub fn any_kind(&mut self, image: &[u8]) -> u8 {
        const WEIGHTS: [usize; 10] = [4, 11, 6, 13, 16, 5, 8, 4, 22, 11];
        let mut kind = 0;
        for _ in 0..3 {
            let mut left = self.random.below(WEIGHTS.iter().sum());
            kind = 0;
            while left >= WEIGHTS[kind] {
                left -= WEIGHTS[kind];
                kind += 1;
            }
            let random = &mut self.random;
            if generate::fitting_action(random, image, kind as u8 + 1, Care::Much).is_some() {
                break;
            }
        }
        kind as u8 + 1
    }

    /// A leave that one expense decides, on a changed copy of a sound image.
    fn decided_leave(&mut self, image: &[u8]) {
        let mut image = image.to_vec();
        let Some(action) = generate::decided_leave(&mut self.random, &mut image) else {
            return;
        };
        let answer = self.act(&mut image, &action);
        if ![0, 13, 34, 14].contains(&answer.number()) {
            differ("a leave that one expense decides was stopped before");
        }
    }

    /// Small shares absorbed and acknowledged on a changed copy of a sound
    /// image, with the statement before and after each step.
    fn absorptions(&mut self, image: &[u8]) {
        let mut image = image.to_vec();
        let Some((group, actions)) = generate::absorptions(&mut self.random, &mut image) else {
            return;
        };
        self.statement(&image, group as u64, USERS);
        for action in actions {
            if !self.act(&mut image, &action).is_ok() {
                differ("small shares could not be absorbed and acknowledged");
            }
            self.statement(&image, group as u64, USERS);
        }
    }

    /// A share absorbed of a user who never belonged to the group: that is a
    /// fault of the image, so that kind 10 doesn't get as far as to ask.
    fn stranger(&mut self, image: &[u8]) {
        let mut image = image.to_vec();
        let Some((group, [absorb, ..])) = generate::absorptions(&mut self.random, &mut image)
        else {
            return;
        };
        generate::never_joined(&mut image, group, absorb[2].into());
        if self.act(&mut image, &absorb) != Answer::BadExpense {
            differ("a stranger's share was no fault of the image");
        }
        self.reached.strangers += 1;
    }

    /// One call on a faulty image, or on a sound one and a faulty other.
    fn hostile(&mut self, sound: &[u8]) {
        let spoiled = generate::spoiled_image(&mut self.random, sound);
        self.any_call(spoiled, sound);
    }

    /// One call on an image that is mostly refused, or on a sound one and this
    /// as the other.
    pub fn any_call(&mut self, mut spoiled: Vec<u8>, sound: &[u8]) {
        match self.random.below(18) {
            0 => drop(self.check(&spoiled)),
            1 => self.any_statement(&spoiled, sound),
            2 => self.any_lookup(&spoiled, sound),
            3 => drop(self.merge(&mut sound.to_vec(), &spoiled)),
            4 => {
                let other = match self.random.below(3) {
                    0 => sound.to_vec(),
                    1 => spoiled.clone(),
                    _ => generate::spoiled_image(&mut self.random, sound),
                };
                self.merge(&mut spoiled, &other);
            }
            5 => {
                let mut homes = generate::homes(&mut self.random);
                let mut van = self.random.below(8) as u64;
                match self.random.below(6) {
                    0 => homes[self.random.below(8)] = self.random.pick(&[8, 9, 16, 128, 255]),
                    1 => van = self.random.pick(&[8, 9, 255, 256, (1 << 32) + van, u64::MAX]),
                    _ => {}
                }
                self.empty(&mut spoiled, van, &homes);
            }
            6 => {
                let action = generate::spoiled_action(&mut self.random, sound);
                self.act(&mut spoiled, &action);
            }
            7 => self.any_payments(&spoiled, sound),
            8 => self.any_raise(sound),
            9 => self.any_month_statement(&spoiled, sound),
            10 => self.any_balances(&spoiled),
            _ => {
                let kind = 1 + self.random.below(10) as u8;
                let action = generate::likely_action(&mut self.random, sound, kind, Care::Much);
                self.act(&mut spoiled, &action);
            }
        }
    }
}
