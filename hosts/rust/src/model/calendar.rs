//! Days and months from 1 January 2000 on, by the Gregorian calendar.

use crate::{LAST_DAY, MONTHS};
use std::ops::RangeInclusive;

const FIRST_YEAR: u64 = 2000;
const MONTHS_PER_YEAR: u64 = 12;

/// The days of a month, from its first to its last, if there is such a month.
pub const fn days_of(month: u64) -> Option<RangeInclusive<u16>> {
    if month < MONTHS {
        Some(first_day(month)..=first_day(month + 1) - 1)
    } else {
        None
    }
}

/// Also of the month behind the last one.
const fn first_day(month: u64) -> u16 {
    let year = FIRST_YEAR + month / MONTHS_PER_YEAR;
    let leap_days = leap_years_before(year) - leap_years_before(FIRST_YEAR);
    let before_year = 365 * (year - FIRST_YEAR) + leap_days;
    (before_year + days_before(month % MONTHS_PER_YEAR, is_leap(year))) as u16
}

const fn is_leap(year: u64) -> bool {
    year.is_multiple_of(4) && (!year.is_multiple_of(100) || year.is_multiple_of(400))
}

const fn leap_years_before(year: u64) -> u64 {
    let last = year - 1;
    last / 4 - last / 100 + last / 400
}

/// The days of a year before one of its months: 0 for January.
const fn days_before(month: u64, leap: bool) -> u64 {
    const COMMON: [u64; 12] = {
        let lengths = [31, 28, 31, 30, 31, 30, 31, 31, 30, 31, 30, 31];
        let mut before = [0; 12];
        let mut month = 1;
        while month < 12 {
            before[month] = before[month - 1] + lengths[month - 1];
            month += 1;
        }
        before
    };
    COMMON[month as usize] + (leap && month > 1) as u64
}

const _: () = assert!(first_day(0) == 0 && first_day(MONTHS) == LAST_DAY + 1);
