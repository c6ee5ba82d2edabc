//! Safe calls of the library. Slices of any length may be passed: the library
//! refuses the wrong ones. Rust's borrows keep the buffers of one call apart.

use crate::{ffi, Answer, Calls, Line, Totals, USERS};

fn answer(number: u32) -> Answer {
    Answer::from_number(number)
        .unwrap_or_else(|| panic!("the library answered {number}, which no document has"))
}

/// Is this an image?
pub fn check(image: &[u8]) -> Answer {
    // SAFETY: pointer and length are of one live slice.
    answer(unsafe { ffi::val_check(image.as_ptr(), image.len()) })
}

/// Writes the empty image of a replica.
pub fn empty(image: &mut [u8], van: u64, homes: &[u8; USERS]) -> Answer {
    // SAFETY: as above, and homes is eight bytes.
    answer(unsafe { ffi::val_empty(image.as_mut_ptr(), image.len(), van, homes.as_ptr()) })
}

/// Applies an action record.
pub fn act(image: &mut [u8], action: &[u8]) -> Answer {
    // SAFETY: two live slices that do not overlap, since one is `&mut`.
    answer(unsafe { ffi::val_act(image.as_mut_ptr(), image.len(), action.as_ptr(), action.len()) })
}

/// Merges another replica's image into one's own.
pub fn merge(own: &mut [u8], other: &[u8]) -> Answer {
    // SAFETY: as for `act`.
    answer(unsafe { ffi::val_merge(own.as_mut_ptr(), own.len(), other.as_ptr(), other.len()) })
}

/// The statement of a group, into eight lines.
pub fn statement(image: &[u8], group: u64, lines: &mut [Line]) -> Totals {
    // SAFETY: as for `act`; `Line` is laid out as `struct val_line`.
    let totals = unsafe {
        ffi::val_statement(image.as_ptr(), image.len(), group, lines.as_mut_ptr(), lines.len())
    };
    Totals {
        answer: answer(totals.answer),
        members: totals.members,
        expenses: totals.expenses,
        gifts: totals.gifts,
    }
}

/// Who pays whom in a group, into 64 numbers: number 8i + j is what user i
/// pays user j.
pub fn payments(image: &[u8], group: u64, cents: &mut [u64]) -> Answer {
    // SAFETY: as for `act`.
    answer(unsafe {
        ffi::val_payments(image.as_ptr(), image.len(), group, cents.as_mut_ptr(), cents.len())
    })
}

/// Each user's raw from a group's valid expenses of a month, into eight
/// numbers.
pub fn month(image: &[u8], group: u64, month: u64, raws: &mut [i64]) -> Answer {
    // SAFETY: as for `act`.
    answer(unsafe {
        ffi::val_month(image.as_ptr(), image.len(), group, month, raws.as_mut_ptr(), raws.len())
    })
}

/// All groups' balances, into 128 numbers: number 8g + u is user u's in group
/// g, 0 where the group is absent.
pub fn balances(image: &[u8], balances: &mut [i64]) -> Answer {
    // SAFETY: as for `act`.
    answer(unsafe {
        ffi::val_balances(image.as_ptr(), image.len(), balances.as_mut_ptr(), balances.len())
    })
}

/// An expense's own bytes of the image, or an empty part.
pub fn lookup(image: &[u8], expense: u64) -> &[u8] {
    // SAFETY: pointer and length are of one live slice.
    let part = unsafe { ffi::val_lookup(image.as_ptr(), image.len(), expense) };
    &image[part.at..][..part.len]
}

/// Raises an image of version 1 or 2 into a buffer for one of version 3.
pub fn raise(old: &[u8], image: &mut [u8]) -> Answer {
    // SAFETY: as for `act`.
    answer(unsafe { ffi::val_raise(old.as_ptr(), old.len(), image.as_mut_ptr(), image.len()) })
}

/// The library's calls, of those that images of every version have.
pub const CALLS: Calls = Calls { check, empty, act, merge, statement, payments, lookup };
