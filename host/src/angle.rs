//! Angles read from text, in arcseconds: decimal or sexagesimal, hours or degrees.

use crate::number::finite;

pub const TURN: f64 = 1_296_000.0;
const HOUR: f64 = 54_000.0;
const DEGREE: f64 = 3_600.0;

const FORMS: &str = "expected a decimal as -3.25 or three numbers as -3:15:00 or -3 15 00";

/// Arcseconds of a text in hours.
pub fn hours(text: &str) -> Result<f64, String> {
    let parts = parts(text);
    match parts[..] {
        [one] => Ok(finite(one)? * HOUR + 0.0),
        _ => Ok(sexagesimal(&parts)? * 15.0 + 0.0),
    }
}

/// Arcseconds of a text in degrees.
pub fn degrees(text: &str) -> Result<f64, String> {
    let parts = parts(text);
    match parts[..] {
        [one] => Ok(finite(one)? * DEGREE + 0.0),
        _ => Ok(sexagesimal(&parts)? + 0.0),
    }
}

/// Arcseconds of a text in degrees that lies within a limit either way.
pub fn degrees_within(text: &str, limit: f64) -> Result<f64, String> {
    let angle = degrees(text)?;
    if angle.abs() > limit * DEGREE {
        return Err(format!(
            "'{text}' is out of range: expected -{limit} to {limit} degrees"
        ));
    }
    Ok(angle)
}

/// Arcseconds of a text in hours that lies within a day either way.
pub fn hours_within_a_day(text: &str) -> Result<f64, String> {
    let angle = hours(text)?;
    if angle.abs() > TURN {
        return Err(format!(
            "'{text}' is out of range: expected -24 to 24 hours"
        ));
    }
    Ok(angle)
}

fn parts(text: &str) -> Vec<&str> {
    if text.contains(':') {
        text.split(':').map(str::trim).collect()
    } else {
        text.split_whitespace().collect()
    }
}

/// Three numbers in the unit, its minutes and its seconds: the seconds in all. The sign stands
/// before the first one and counts for all three, so that -0 30 00 is half a unit below 0.
pub fn sexagesimal(parts: &[&str]) -> Result<f64, String> {
    let [first, minutes, seconds] = parts else {
        return Err(format!("'{}' is no angle: {FORMS}", parts.join(" ")));
    };
    let (negative, unit) = match first.as_bytes().first() {
        Some(b'-') => (true, &first[1..]),
        Some(b'+') => (false, &first[1..]),
        _ => (false, *first),
    };
    let size =
        digits(unit)? * 3_600.0 + sixtieth(minutes, false)? * 60.0 + sixtieth(seconds, true)?;
    Ok(if negative { -size } else { size })
}

/// A number without a sign.
fn digits(text: &str) -> Result<f64, String> {
    let plain = !text.is_empty() && text.len() <= 6 && text.bytes().all(|b| b.is_ascii_digit());
    if !plain {
        return Err(format!("'{text}' is not a whole number: {FORMS}"));
    }
    finite(text)
}

/// Minutes or seconds: below 60, seconds with decimals.
fn sixtieth(text: &str, decimals: bool) -> Result<f64, String> {
    let (whole, rest) = match text.split_once('.') {
        Some((whole, rest)) if decimals => (whole, rest),
        _ => (text, ""),
    };
    if !rest.bytes().all(|b| b.is_ascii_digit()) {
        return Err(format!("'{text}' is not a number: {FORMS}"));
    }
    digits(whole)?;
    let value = finite(text)?;
    if value >= 60.0 {
        return Err(format!(
            "'{text}' is out of range: minutes and seconds are below 60"
        ));
    }
    Ok(value)
}

/// A difference of two angles, turned to lie between half a turn either way.
pub fn wrapped(difference: f64) -> f64 {
    difference - TURN * (difference / TURN).round() + 0.0
}

pub fn radians(arcseconds: f64) -> f64 {
    (arcseconds / DEGREE).to_radians()
}

#[cfg(test)]
mod tests {
    use super::*;

    #[test]
    fn forms() {
        assert_eq!(hours("1"), Ok(54_000.0));
        assert_eq!(hours("-1:30:00"), Ok(-81_000.0));
        assert_eq!(hours("0 0 1.5"), Ok(22.5));
        assert_eq!(degrees("-0 30 00"), Ok(-1_800.0));
        assert_eq!(degrees("+34 30 00.5"), Ok(124_200.5));
        assert_eq!(degrees("-12.5"), Ok(-45_000.0));
    }

    #[test]
    fn no_zero_has_a_sign() {
        for text in ["-0", "-0 0 0", "0"] {
            assert_eq!(degrees(text).unwrap().to_bits(), 0);
        }
        assert_eq!(wrapped(-0.0).to_bits(), 0);
    }

    #[test]
    fn bad_ones() {
        for text in [
            "", "1:2", "1 2 3 4", "1 -2 3", "1.5 2 3", "1 2.5 3", "a b c", "1 2 3e0", "1 2 x",
            "1 2 3.x",
        ] {
            assert!(degrees(text).is_err(), "{text}");
        }
        assert!(degrees("1 60 0").unwrap_err().contains("below 60"));
        assert!(degrees("1 59 60.0").unwrap_err().contains("below 60"));
        assert!(degrees("nan").unwrap_err().contains("not finite"));
        assert!(degrees_within("90.1", 90.0)
            .unwrap_err()
            .contains("-90 to 90 degrees"));
        assert!(hours_within_a_day("-25")
            .unwrap_err()
            .contains("-24 to 24 hours"));
    }

    #[test]
    fn differences_are_wrapped() {
        assert_eq!(wrapped(1_296_010.0), 10.0);
        assert_eq!(wrapped(-1_295_990.0), 10.0);
        assert_eq!(wrapped(-10.0), -10.0);
    }
}
