//! Replicas that still hold an older version: the model serves them, and what it
//! does to them must be the same after raising.

use val_host::fields::{self, Fields};
use val_host::generate::{self, Care};
use val_host::model::{v1, v2, Layout};
use val_host::{Answer, Calls, Ledger, Line};
use val_host::{EXPENSES, IMAGE_SIZE, IMAGE_SIZE_1, IMAGE_SIZE_2, MONTHS, UNDATED, USERS};

use crate::shown::{is_old, older_version};
use crate::{differ, Comparison};

/// The calls of an older version, by the model.
pub fn older(image: &[u8]) -> Option<&'static Calls> {
    older_version(image).map(|version| [&v1::CALLS, &v2::CALLS][version - 1])
}

/// A sound image of version 1 in version 2, by the model.
fn raised_to_2(old: &[u8]) -> Vec<u8> {
    let mut image = vec![0; IMAGE_SIZE_2];
    if !v2::raise(old, &mut image).is_ok() {
        differ("a sound image of version 1 was not raised to version 2");
    }
    image
}

/// What each expense's last step of kind 4 or 7 named, of all that the replicas
/// of a history made: the day, or none where it was made in an older version.
pub struct NamedDays(pub [u16; EXPENSES]);

impl NamedDays {
    /// An accepted action, and whether it was made in an older version.
    pub fn hear(&mut self, action: &[u8], is_old: bool) {
        if let Some((expense, day)) = generate::named_day(action) {
            self.0[expense] = if is_old { UNDATED } else { day };
        }
    }

    /// Of an image that has heard all.
    pub fn must_be_in(&self, image: &[u8]) {
        let fields = Fields::of(image);
        for expense in (0..EXPENSES).filter(|&expense| fields.present(expense)) {
            let (day, named) = (fields.day(expense), self.0[expense]);
            if day != named {
                differ(&format!("expense {expense} is dated {day}, its last step named {named}"));
            }
        }
    }
}

impl<L: Ledger> Comparison<L> {
    /// A sound image of an older version, raised over whatever the buffer held.
    /// It is no matter whether version 1 goes by version 2.
    pub fn raised(&mut self, old: &[u8]) -> Vec<u8> {
        let mut image = vec![0; IMAGE_SIZE];
        self.random.fill(&mut image);
        if !self.raise(old, &mut image).is_ok() {
            differ("a sound image of an older version was not raised");
        }
        if older_version(old) == Some(1) && self.random.chance(10) {
            if self.raised(&raised_to_2(old)) != image {
                differ("raising to version 2 and then to version 3 differs");
            }
            self.reached.in_two_steps += 1;
        }
        image
    }

    /// Raising, mostly of a faulty image of an older version or into a wrong
    /// buffer.
    pub fn any_raise(&mut self, sound: &[u8]) {
        let old = if is_old(sound) {
            sound.to_vec()
        } else {
            let size = self.random.pick(&[IMAGE_SIZE_1, IMAGE_SIZE_2]);
            generate::lowered(sound, size)
        };
        let old = match self.random.below(10) {
            0 => sound.to_vec(),
            1..4 => old,
            _ => generate::spoiled_image(&mut self.random, &old),
        };
        let near = [IMAGE_SIZE_1, IMAGE_SIZE_2, IMAGE_SIZE - 1, IMAGE_SIZE + 1];
        let sizes = [&[0, 1, 16, 2 * IMAGE_SIZE], &near[..]].concat();
        let size = if self.random.chance(15) { self.random.pick(&sizes) } else { IMAGE_SIZE };
        let mut buffer = vec![0; size];
        self.random.fill(&mut buffer);
        self.raise(&old, &mut buffer);
    }

    /// A turn of a replica that still holds an older version, with another image
    /// of the same history at hand.
    pub fn old_turn(
        &mut self,
        calls: &Calls,
        image: &mut Vec<u8>,
        other: &[u8],
        named: &mut NamedDays,
    ) {
        match self.random.below(100) {
            0..60 => self.old_action(calls, image, named),
            60..80 => self.old_merge(calls, image, other),
            80..85 => self.same_statement(calls, image),
            85..92 => self.any_call(image.clone(), image),
            92..96 => self.any_raise(image),
            _ if older_version(image) == Some(1) && self.random.chance(50) => {
                *image = raised_to_2(image)
            }
            _ => *image = self.raised(image),
        }
    }

    fn old_action(&mut self, calls: &Calls, image: &mut [u8], named: &mut NamedDays) {
        let kind = self.any_kind(image);
        let action = generate::likely_action(&mut self.random, image, kind, Care::Much);
        let layout = Layout::of(image.len()).unwrap();
        let renewed = generate::renewed(&mut self.random, &action, layout);
        let answer = self.before_or_after(
            image,
            |image| (calls.act)(image, &action),
            |comparison, image| {
                let answer = comparison.act(image, &renewed);
                // The older version names no day.
                if let Some((expense, _)) = generate::named_day(&action).filter(|_| answer.is_ok())
                {
                    fields::set_day(image, expense, UNDATED);
                }
                answer
            },
        );
        if answer.is_ok() {
            named.hear(&action, true);
        }
    }

    /// A merge in an older version: of an image of the same version, if need be
    /// raised to it. A newer one can't be merged, nor an older one as it is.
    fn old_merge(&mut self, calls: &Calls, image: &mut [u8], other: &[u8]) {
        if other.len() != image.len() && (calls.merge)(image, other) != Answer::OtherBadLength {
            differ("an older version merged an image of another");
        }
        if other.len() > image.len() {
            return;
        }
        let other = if other.len() < image.len() { &raised_to_2(other) } else { other };
        let answer = self.before_or_after(
            image,
            |image| (calls.merge)(image, other),
            |comparison, image| {
                let other = comparison.raised(other);
                comparison.merge(image, &other)
            },
        );
        if !answer.is_ok() {
            differ("a merge of an older version within a history was refused");
        }
    }

    /// A call of an older version, by the model. Now and then the same is done to
    /// what was raised before: it makes no difference.
    fn before_or_after(
        &mut self,
        image: &mut [u8],
        old_call: impl FnOnce(&mut [u8]) -> Answer,
        new_call: impl FnOnce(&mut Self, &mut [u8]) -> Answer,
    ) -> Answer {
        if !self.random.chance(20) {
            return old_call(image);
        }
        let mut raised = self.raised(image);
        let answer = old_call(image);
        if new_call(self, &mut raised) != answer || raised != self.raised(image) {
            differ("raising before a call and after it differ");
        }
        answer
    }

    /// Of a raised image the library states what the older version does of the old
    /// one, and nothing of any month.
    fn same_statement(&mut self, calls: &Calls, old: &[u8]) {
        let raised = self.raised(old);
        let group = self.any_group(old);
        let (mut before, mut after) = ([Line::default(); USERS], [Line::default(); USERS]);
        let totals = (calls.statement)(old, group, &mut before);
        if L::statement(&raised, group, &mut after) != totals || after != before {
            differ("statement: another after raising");
        }
        let mut raws = [1; USERS];
        let month = self.random.below(MONTHS as usize) as u64;
        if L::month(&raised, group, month, &mut raws).is_ok() && raws != [0; USERS] {
            differ("month: an undated expense is in one");
        }
    }
}
