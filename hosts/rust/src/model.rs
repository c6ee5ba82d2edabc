//! Document 01, and A1 to A8 of document 02, on byte images, written from the
//! documents alone.
//!
//! [`v3`] has the calls as the library has them: on images of version 3, which
//! gives each group a rule and each expense a day, and raising of those of
//! versions 1 and 2. [`v1`] and [`v2`] have the calls on these, for replicas that
//! are still to be raised.

mod act;
mod calendar;
mod check;
mod expense;
mod image;
mod merge;
mod raise;
mod statement;

pub use self::calendar::days_of;
pub use self::expense::{Expense, Shares};
pub use self::image::Layout;

use self::act::try_act;
use self::check::try_check;
use self::image::{try_empty, V1, V2, V3};
use self::merge::try_merge;
use self::raise::{try_raise_to_2, try_raise_to_3};
use self::statement::{find, try_balances, try_month, try_payments, try_statement};
use crate::{Answer, Calls, Line, Totals, USERS};

/// The calls on images of one version. They are kept out of line, so that they
/// cost a call as the library's do and a profile shows them by name.
macro_rules! calls {
    ($version:ident) => {
        #[inline(never)]
        pub fn check(image: &[u8]) -> Answer {
            number(try_check::<$version>(image))
        }

        #[inline(never)]
        pub fn empty(image: &mut [u8], van: u64, homes: &[u8; USERS]) -> Answer {
            number(try_empty::<$version>(image, van, homes))
        }

        #[inline(never)]
        pub fn act(image: &mut [u8], action: &[u8]) -> Answer {
            number(try_act::<$version>(image, action))
        }

        #[inline(never)]
        pub fn merge(own: &mut [u8], other: &[u8]) -> Answer {
            number(try_merge::<$version>(own, other))
        }

        #[inline(never)]
        pub fn statement(image: &[u8], group: u64, lines: &mut [Line]) -> Totals {
            try_statement::<$version>(image, group, lines).unwrap_or_else(|answer| Totals {
                answer,
                members: 0,
                expenses: 0,
                gifts: 0,
            })
        }

        /// Who pays whom: number 8i + j is what user i pays user j.
        #[inline(never)]
        pub fn payments(image: &[u8], group: u64, cents: &mut [u64]) -> Answer {
            number(try_payments::<$version>(image, group, cents))
        }

        /// The expense's own bytes, or an empty part.
        #[inline(never)]
        pub fn lookup(image: &[u8], expense: u64) -> &[u8] {
            find::<$version>(image, expense).unwrap_or(&image[..0])
        }

        pub const CALLS: Calls = Calls { check, empty, act, merge, statement, payments, lookup };
    };
}

/// On images of version 1.
pub mod v1 {
    use super::*;

    calls!(V1);
}

/// On images of version 2.
pub mod v2 {
    use super::*;

    calls!(V2);

    /// Raises an image of version 1 into a buffer for one of version 2.
    #[inline(never)]
    pub fn raise(old: &[u8], image: &mut [u8]) -> Answer {
        number(try_raise_to_2(old, image))
    }
}

/// On images of version 3.
pub mod v3 {
    use super::*;

    calls!(V3);

    /// Each user's raw from the group's valid expenses of a month.
    #[inline(never)]
    pub fn month(image: &[u8], group: u64, month: u64, raws: &mut [i64]) -> Answer {
        number(try_month::<V3>(image, group, month, raws))
    }

    /// All groups' balances: number 8g + u is user u's in group g.
    #[inline(never)]
    pub fn balances(image: &[u8], balances: &mut [i64]) -> Answer {
        number(try_balances::<V3>(image, balances))
    }

    /// Raises an image of version 1 or 2 into a buffer for one of version 3.
    #[inline(never)]
    pub fn raise(old: &[u8], image: &mut [u8]) -> Answer {
        number(try_raise_to_3(old, image))
    }
}

fn number(outcome: Result<(), Answer>) -> Answer {
    outcome.err().unwrap_or(Answer::Ok)
}

fn refuse_if(condition: bool, answer: Answer) -> Result<(), Answer> {
    if condition {
        Err(answer)
    } else {
        Ok(())
    }
}
