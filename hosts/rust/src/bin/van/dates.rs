//! Days and months as ISO 8601 writes them, and the ledger's numbers for them.

use val_host::model::days_of;
use val_host::MONTHS;

const FIRST_YEAR: u64 = 2000;
const DAYS: &str = "expected a day as 2026-11-15, from 2000-01-01 to 2099-12-31";
const MONTH: &str = "expected a month as 2026-11, from 2000-01 to 2099-12";

/// The day's number.
pub fn day(text: &str) -> Result<u16, String> {
    let read = || {
        let (month, day) = text.rsplit_once('-')?;
        let days = days_of(month_number(month)?)?;
        let day = days.start() + digits(day, 2)?.checked_sub(1)? as u16;
        days.contains(&day).then_some(day)
    };
    read().ok_or_else(|| DAYS.into())
}

/// The month's number. One after the last is read too: the library answers it.
pub fn month(text: &str) -> Result<u64, String> {
    month_number(text).ok_or_else(|| MONTH.into())
}

fn month_number(text: &str) -> Option<u64> {
    let (year, month) = text.split_once('-')?;
    let years = digits(year, 4)?.checked_sub(FIRST_YEAR)?;
    let month = digits(month, 2)?;
    (1..=12).contains(&month).then(|| 12 * years + month - 1)
}

/// A number of just so many digits.
fn digits(text: &str, count: usize) -> Option<u64> {
    let plain = text.len() == count && text.bytes().all(|byte| byte.is_ascii_digit());
    plain.then(|| text.parse().ok()).flatten()
}

/// `2026-11-15`; none for what is undated.
pub fn show_day(day: u16) -> Option<String> {
    (0..MONTHS).find_map(|month| {
        let days = days_of(month).filter(|days| days.contains(&day))?;
        Some(format!("{}-{:02}", show_month(month), day - days.start() + 1))
    })
}

/// `2026-11`.
pub fn show_month(month: u64) -> String {
    format!("{}-{:02}", FIRST_YEAR + month / 12, month % 12 + 1)
}

#[cfg(test)]
mod tests {
    use super::*;
    use val_host::{LAST_DAY, UNDATED};

    #[test]
    fn days_have_their_numbers() {
        let days = [
            ("2000-01-01", 0),
            ("2000-01-31", 30),
            ("2000-02-29", 59),
            ("2000-03-01", 60),
            ("2026-11-15", 9815),
            ("2099-12-31", LAST_DAY),
        ];
        for (text, number) in days {
            assert_eq!(day(text), Ok(number), "{text}");
        }
        // Every day is shown as it is read.
        for number in 0..=LAST_DAY {
            assert_eq!(show_day(number).map(|text| day(&text)), Some(Ok(number)));
        }
        assert_eq!(show_day(UNDATED), None);
    }

    #[test]
    fn what_is_no_day_is_refused_with_what_was_expected() {
        let wrong = [
            "",
            "2026",
            "2026-11",
            "2026-11-00",
            "2026-11-31",
            "2026-02-29",
            "2100-02-28",
            "2100-01-01",
            "1999-12-31",
            "2026-13-01",
            "2026-00-01",
            "2026-1-01",
            "2026-01-1",
            "15.11.2026",
            "2026/11/15",
            "20261115",
            "+026-11-15",
            "2026-11-15 ",
            "2026-11-015",
            "undated",
            "0",
            "２０２６-11-15",
        ];
        for text in wrong {
            assert_eq!(day(text), Err(DAYS.into()), "{text}");
        }
    }

    #[test]
    fn months_have_their_numbers() {
        for (text, number) in [("2000-01", 0), ("2026-11", 322), ("2099-12", 1199)] {
            assert_eq!(month(text), Ok(number));
            assert_eq!(show_month(number), text);
        }
        assert_eq!(month("2100-01"), Ok(1200));
        for text in ["", "11", "1999-12", "2026-13", "2026-00", "2026-1", "2026-11-15", "26-11"] {
            assert_eq!(month(text), Err(MONTH.into()), "{text}");
        }
    }
}
