//! The van ledger for Rust hosts.
//!
//! With the feature `linked`, the functions of this module call the verified
//! library; [`model`] is a second implementation, written from documents 01
//! and 02 alone, that the library is compared with. Both take images of version
//! 3 and raise those of versions 1 and 2; the model also has the calls of these.

pub mod fields;
pub mod generate;
pub mod model;
pub mod random;
pub mod text;

#[cfg(feature = "linked")]
pub mod ffi;
#[cfg(feature = "linked")]
mod linked;

/// Bytes of an image, which is of version 3.
pub const IMAGE_SIZE: usize = 21_808;
/// Bytes of images of versions 1 and 2, which can be raised.
pub const IMAGE_SIZE_1: usize = 20_752;
pub const IMAGE_SIZE_2: usize = 20_784;
pub const ACTION_SIZE: usize = 40;
pub const EXPENSE_SIZE: usize = 42;
pub const USERS: usize = 8;
pub const GROUPS: usize = 16;
pub const EXPENSES: usize = 512;
/// Numbers of a list of who pays whom.
pub const PAYMENTS: usize = 64;
/// Numbers of all groups' balances.
pub const BALANCES: usize = GROUPS * USERS;
/// The rules of a group: its gifts go to all members equally, or by use.
pub const RULE_EQUAL: u16 = 1;
pub const RULE_USE: u16 = 2;
/// In groups under rule 2 a share of this many cents or fewer counts as
/// acknowledged.
pub const SMALL_SHARE: u32 = 500;
/// Days count from 1 January 2000, day 0, to 31 December 2099.
pub const LAST_DAY: u16 = 36_524;
/// The day of an expense that has none.
pub const UNDATED: u16 = 65_535;
/// Months are numbered from January 2000, month 0, to December 2099.
pub const MONTHS: u64 = 1_200;

macro_rules! answers {
    ($($name:ident = $number:literal, $meaning:literal;)*) => {
        /// What a call answers: done, or the first condition that stopped it.
        #[derive(Clone, Copy, Debug, PartialEq, Eq)]
        #[repr(u32)]
        pub enum Answer {
            $(#[doc = $meaning] $name = $number,)*
        }

        impl Answer {
            /// All answers, by number.
            pub const ALL: &'static [Answer] = &[$(Answer::$name,)*];

            pub fn from_number(number: u32) -> Option<Answer> {
                match number {
                    $($number => Some(Answer::$name),)*
                    _ => None,
                }
            }

            /// The documents' words.
            pub fn meaning(self) -> &'static str {
                match self {
                    $(Answer::$name => $meaning,)*
                }
            }
        }
    };
}

answers! {
    Ok = 0, "done";
    BadLength = 1, "image is not 21,808 bytes, or one to be raised neither 20,752 nor 20,784";
    BadMark = 2, "bytes 0 to 2 are not VAL";
    BadVersion = 3, "format version is not 3, or of an image to be raised not its length's, 1 or 2";
    BadHeader = 4,
        "van or a home above 7, bytes 14, 15 not zero, or a crew's rule is wrong";
    BadExpense = 5, "unsound cost";
    BadAction = 6, "length, kind or a field of the action is wrong";
    NotHome = 7, "actor's home is another van";
    GroupNotOwned = 8, "crew div 2 isn't this van";
    GroupPresent = 9, "crew present";
    GroupAbsent = 10, "crew absent";
    NotMember = 11, "actor no member";
    AlreadyMember = 12, "other already a member";
    Owes = 13, "actor's raw balance below zero";
    CounterFull = 14, "counter is 65,535";
    ExpenseNotOwned = 15, "cost div 64 isn't this van";
    ExpensePresent = 16, "cost present";
    ExpenseAbsent = 17, "cost absent";
    NotPayer = 18, "actor isn't the payer";
    BadTotal = 19, "total outside 1 to 1,000,000,000";
    HasGroup = 21, "has a crew";
    NotInGroup = 22, "not in that crew";
    ShareOfNonMember = 23, "a positive share of a non-member";
    Deleted = 24, "deleted";
    NoShare = 25, "share is zero";
    AlreadyAcknowledged = 26, "already acknowledged";
    VersionFull = 27, "version is 4,294,967,295";
    StillMember = 28, "other is a member";
    SameUser = 29, "other is the actor";
    HomesDiffer = 30, "home tables differ";
    Conflict = 31,
        "a cost with equal versions differs in more than acknowledgements, or a crew in its rule";
    BadLines = 32,
        "not eight lines lent; of payments not 64 numbers, of a month not eight, \
         of balances not 128";
    GroupEmpty = 33, "crew has no member";
    SharePending = 34,
        "actor has a positive share that counts as acknowledged in a cost of that crew \
         neither deleted nor valid";
    BadMonth = 35, "month above 1199";
    OtherBadLength = 41, "other image is not 21,808 bytes";
    OtherBadMark = 42, "other image: bytes 0 to 2 are not VAL";
    OtherBadVersion = 43, "other image: format version is not 3";
    OtherBadHeader = 44,
        "other image: van or a home above 7, bytes 14, 15 not zero, or a crew's rule is wrong";
    OtherBadExpense = 45, "other image: unsound cost";
}

impl Answer {
    pub fn number(self) -> u32 {
        self as u32
    }

    pub fn is_ok(self) -> bool {
        self == Answer::Ok
    }

    /// What a merge answers where the image check of the other image answers this.
    pub fn of_other(self) -> Answer {
        match self {
            Answer::BadLength => Answer::OtherBadLength,
            Answer::BadMark => Answer::OtherBadMark,
            Answer::BadVersion => Answer::OtherBadVersion,
            Answer::BadHeader => Answer::OtherBadHeader,
            Answer::BadExpense => Answer::OtherBadExpense,
            answer => answer,
        }
    }
}

/// One user's line of a statement.
#[repr(C)]
#[derive(Clone, Copy, Debug, Default, PartialEq, Eq)]
pub struct Line {
    pub counter: u16,
    pub raw: i64,
    pub gift: u64,
    pub part: u64,
    pub balance: i64,
}

/// A statement's figures; all zero with a refusal.
#[derive(Clone, Copy, Debug, PartialEq, Eq)]
pub struct Totals {
    pub answer: Answer,
    pub members: u32,
    pub expenses: u32,
    pub gifts: u64,
}

#[cfg(feature = "linked")]
pub use linked::CALLS;
#[cfg(feature = "linked")]
pub use linked::{act, balances, check, empty, lookup, merge, month, payments, raise, statement};

/// The calls that images of every version have, for code that runs over them.
#[derive(Clone, Copy)]
pub struct Calls {
    pub check: fn(&[u8]) -> Answer,
    pub empty: fn(&mut [u8], u64, &[u8; USERS]) -> Answer,
    pub act: fn(&mut [u8], &[u8]) -> Answer,
    pub merge: fn(&mut [u8], &[u8]) -> Answer,
    pub statement: fn(&[u8], u64, &mut [Line]) -> Totals,
    pub payments: fn(&[u8], u64, &mut [u64]) -> Answer,
    pub lookup: fn(&[u8], u64) -> &[u8],
}

/// The calls of one implementation, for code that runs over either.
pub trait Ledger {
    fn check(image: &[u8]) -> Answer;
    fn empty(image: &mut [u8], van: u64, homes: &[u8; USERS]) -> Answer;
    fn act(image: &mut [u8], action: &[u8]) -> Answer;
    fn merge(own: &mut [u8], other: &[u8]) -> Answer;
    fn statement(image: &[u8], group: u64, lines: &mut [Line]) -> Totals;
    fn payments(image: &[u8], group: u64, cents: &mut [u64]) -> Answer;
    fn month(image: &[u8], group: u64, month: u64, raws: &mut [i64]) -> Answer;
    fn balances(image: &[u8], balances: &mut [i64]) -> Answer;
    fn lookup(image: &[u8], expense: u64) -> &[u8];
    fn raise(old: &[u8], image: &mut [u8]) -> Answer;
}

macro_rules! ledger {
    ($name:ident, $($path:ident)::+) => {
        impl Ledger for $name {
            #[inline]
            fn check(image: &[u8]) -> Answer {
                $($path)::+::check(image)
            }
            #[inline]
            fn empty(image: &mut [u8], van: u64, homes: &[u8; USERS]) -> Answer {
                $($path)::+::empty(image, van, homes)
            }
            #[inline]
            fn act(image: &mut [u8], action: &[u8]) -> Answer {
                $($path)::+::act(image, action)
            }
            #[inline]
            fn merge(own: &mut [u8], other: &[u8]) -> Answer {
                $($path)::+::merge(own, other)
            }
            #[inline]
            fn statement(image: &[u8], group: u64, lines: &mut [Line]) -> Totals {
                $($path)::+::statement(image, group, lines)
            }
            #[inline]
            fn payments(image: &[u8], group: u64, cents: &mut [u64]) -> Answer {
                $($path)::+::payments(image, group, cents)
            }
            #[inline]
            fn month(image: &[u8], group: u64, month: u64, raws: &mut [i64]) -> Answer {
                $($path)::+::month(image, group, month, raws)
            }
            #[inline]
            fn balances(image: &[u8], balances: &mut [i64]) -> Answer {
                $($path)::+::balances(image, balances)
            }
            #[inline]
            fn lookup(image: &[u8], expense: u64) -> &[u8] {
                $($path)::+::lookup(image, expense)
            }
            #[inline]
            fn raise(old: &[u8], image: &mut [u8]) -> Answer {
                $($path)::+::raise(old, image)
            }
        }
    };
}

/// [`model::v3`] as a [`Ledger`].
pub struct Model;
ledger!(Model, crate::model::v3);

/// The library as a [`Ledger`].
#[cfg(feature = "linked")]
pub struct Library;
#[cfg(feature = "linked")]
ledger!(Library, crate::linked);
