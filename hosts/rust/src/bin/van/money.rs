//! Money as people write it: euros and cents, or cents alone. Nothing is rounded:
//! what is not a whole number of cents is no sum of money here.

/// What can be read.
pub const EXPECTED: &str = "expected euros and cents as 12.50, or cents as 1250c";

/// The cents of `12.50` or `1250c`, as one share of a record can hold them.
pub fn cents(text: &str) -> Result<u32, String> {
    let digits = match (text.split_once('.'), text.strip_suffix('c')) {
        (Some((euros, cents)), None) if !euros.is_empty() && cents.len() == 2 => {
            format!("{euros}{cents}")
        }
        (None, Some(cents)) if !cents.is_empty() => cents.to_string(),
        _ => return Err(EXPECTED.into()),
    };
    if !digits.bytes().all(|byte| byte.is_ascii_digit()) {
        return Err(EXPECTED.into());
    }
    // All that is left to go wrong is the size.
    digits.parse().map_err(|_| format!("expected at most {}", euros(u32::MAX.into())))
}

/// Cents as euros and cents: `-0.05`.
pub fn euros(cents: i64) -> String {
    let sign = if cents < 0 { "-" } else { "" };
    let cents = cents.unsigned_abs();
    format!("{sign}{}.{:02}", cents / 100, cents % 100)
}

#[cfg(test)]
mod tests {
    use super::*;

    #[test]
    fn money_is_read_in_two_ways() {
        let read = [
            ("12.50", 1250),
            ("1250c", 1250),
            ("0.00", 0),
            ("0c", 0),
            ("0.05", 5),
            ("007.00", 700),
        ];
        for (text, sum) in read {
            assert_eq!(cents(text), Ok(sum), "{text}");
        }
        assert_eq!(cents("42949672.95"), Ok(u32::MAX));
        assert_eq!(cents("4294967295c"), Ok(u32::MAX));
    }

    #[test]
    fn anything_else_is_refused_with_what_was_expected() {
        let wrong = [
            "",
            "12",
            "12.5",
            "12.500",
            ".50",
            "12.",
            "12,50",
            "-3.00",
            "+3.00",
            "1 250c",
            "c",
            "-1c",
            "12.50c",
            "1.2.34",
            "0x10c",
            "1e2c",
            "12.5c",
            "١٢.٥٠",
            "3.00 ",
            "€3.00",
            "+1.00",
            "1.+5",
        ];
        for text in wrong {
            assert_eq!(cents(text), Err(EXPECTED.into()), "{text}");
        }
        for text in ["42949672.96", "4294967296c", "99999999999999999999.00"] {
            assert_eq!(cents(text), Err("expected at most 42949672.95".into()), "{text}");
        }
    }

    #[test]
    fn every_cent_is_shown() {
        let shown = [
            (0, "0.00"),
            (5, "0.05"),
            (-5, "-0.05"),
            (-8000, "-80.00"),
            (512_000_000_000, "5120000000.00"),
            (i64::MIN, "-92233720368547758.08"),
        ];
        for (cents, text) in shown {
            assert_eq!(euros(cents), text);
        }
        for sum in [0, 1, 99, 100, 101, 123_456_789, u32::MAX] {
            assert_eq!(cents(&euros(sum.into())), Ok(sum));
        }
    }
}
