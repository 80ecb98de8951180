//! TPOINT-style INDAT files of equatorial mounts: the latitude and the star lines.

use crate::angle::{radians, sexagesimal, wrapped, TURN};
use crate::fault::Fault;
use crate::number::finite;
use crate::run::{Pier, Star, MAX_STARS};
use crate::sheet::Sheet;

const QUARTER: f64 = TURN / 4.0;
const SITE: &str = "expected the site: latitude (3 numbers), year, month, day, then any numbers";
const STAR: &str =
    "expected 14 or 15 numbers: right ascension (3) and declination (3) of the star, \
                    the same of the telescope, sidereal time (2 or 3); or END";

/// What an INDAT file tells.
#[derive(Debug, Clone)]
pub struct Indat {
    /// Arcseconds.
    pub latitude: f64,
    pub stars: Vec<Star>,
}

/// Reads a whole file: caption, options, site line, star lines, END.
pub fn read(text: &str) -> Result<Indat, Fault> {
    let mut latitude = None;
    let mut stars = Vec::new();
    for (i, line) in text.lines().enumerate() {
        let number = i + 1;
        let line = line.trim();
        let caption = number == 1 && !line.starts_with(':');
        if caption || line.is_empty() || line.starts_with('!') {
            continue;
        }
        if line.eq_ignore_ascii_case("END") {
            break;
        }
        let at = |message| Fault::at(number, message);
        if let Some(option) = line.strip_prefix(':') {
            check_option(option).map_err(at)?;
        } else if latitude.is_none() {
            latitude = Some(site(line).map_err(at)?);
        } else if stars.len() == MAX_STARS {
            return Err(at(format!(
                "one star too many: a file holds at most {MAX_STARS}"
            )));
        } else {
            stars.push(star(line).map_err(at)?);
        }
    }
    let latitude = latitude.ok_or(Fault::whole(format!("no site line: {SITE}")))?;
    Ok(Indat { latitude, stars })
}

/// The options that change nothing for an equatorial mount.
fn check_option(option: &str) -> Result<(), String> {
    let word = option.trim().to_ascii_uppercase();
    match word.as_str() {
        "NODA" | "ALLSKY" | "EQUAT" => Ok(()),
        "ALTAZ" => Err("option ALTAZ: the fit is of equatorial mounts".into()),
        "EQUINOX" => {
            Err("option EQUINOX: expected apparent places, not those of an equinox".into())
        }
        _ => Err(format!(
            "unknown option '{word}': expected NODA, ALLSKY or EQUAT"
        )),
    }
}

/// The latitude of the site line; the other numbers are looked at and not used.
fn site(line: &str) -> Result<f64, String> {
    let words: Vec<&str> = line.split_whitespace().collect();
    if words.len() < 6 {
        return Err(format!("{} numbers: {SITE}", words.len()));
    }
    let latitude = named("latitude", sexagesimal(&words[..3]))?;
    if latitude.abs() > QUARTER {
        return Err("latitude: out of range: expected -90 to 90 degrees".into());
    }
    for (name, word, low, high) in [
        ("year", words[3], 1000.0, 9999.0),
        ("month", words[4], 1.0, 12.0),
        ("day", words[5], 1.0, 32.0),
    ] {
        let value = named(name, finite(word))?;
        if !(low..=high).contains(&value) {
            return Err(format!("{name}: '{word}': {SITE}"));
        }
    }
    for word in &words[6..] {
        named("site", finite(word))?;
    }
    Ok(latitude)
}

fn named<T>(name: &str, value: Result<T, String>) -> Result<T, String> {
    value.map_err(|fault| format!("{name}: {fault}"))
}

fn star(line: &str) -> Result<Star, String> {
    let words: Vec<&str> = line.split_whitespace().collect();
    let mut time = match words.len() {
        14 | 15 => words[12..].to_vec(),
        count => return Err(format!("{count} numbers: {STAR}")),
    };
    if time.len() == 2 {
        time.push("0");
    }
    let ra = right_ascension("right ascension", &words[..3])?;
    let dec = named("declination", sexagesimal(&words[3..6]))?;
    let telescope_ra = right_ascension("telescope right ascension", &words[6..9])?;
    let telescope_dec = named("telescope declination", sexagesimal(&words[9..12]))?;
    let time = right_ascension("sidereal time", &time)?;
    if dec.abs() > QUARTER {
        return Err("declination: out of range: expected -90 to 90 degrees".into());
    }
    if telescope_dec.abs() > 2.0 * QUARTER {
        return Err("telescope declination: out of range: expected -180 to 180 degrees".into());
    }
    let (sky_dec, pier) = decode_pier_side(telescope_dec);
    let mut dh = wrapped(ra - telescope_ra);
    if pier == Pier::West && dh.abs() > QUARTER {
        dh = wrapped(dh + 2.0 * QUARTER);
    }
    let h = wrapped(time - ra);
    Ok(Star {
        pier,
        dh,
        dd: sky_dec - dec,
        sheet: Sheet::of(radians(h), radians(dec)),
    })
}

/// Arcseconds of hours from 0 to 24.
fn right_ascension(name: &str, words: &[&str]) -> Result<f64, String> {
    let angle = named(name, sexagesimal(words))? * 15.0;
    if !(0.0..=TURN).contains(&angle) {
        return Err(format!(
            "{name}: '{}' is out of range: expected 0 to 24 hours",
            words.join(" ")
        ));
    }
    Ok(angle)
}

/// The published `decode_pier_side`: beyond the pole is West.
fn decode_pier_side(dec: f64) -> (f64, Pier) {
    if dec.abs() > QUARTER {
        (dec.signum() * (2.0 * QUARTER - dec.abs()), Pier::West)
    } else {
        (dec, Pier::East)
    }
}

#[cfg(test)]
mod tests {
    use super::*;

    const HEAD: &str = "caption\n:NODA\n: equat\n! a comment\n+34 30 00 2024 03 01 10 1010 200\n";

    fn fault(lines: &str) -> String {
        read(lines).expect_err(lines).to_string()
    }

    fn one(line: &str) -> Star {
        read(&format!("{HEAD}{line}\nEND\nnot read\n"))
            .unwrap()
            .stars[0]
            .clone()
    }

    #[test]
    fn differences() {
        let star = one("10 00 00 +20 00 00  09 59 58 +20 00 05  12 30");
        assert_eq!((star.pier, star.dh, star.dd), (Pier::East, 30.0, 5.0));
        assert!((star.sheet.hour_angle() - 2.5).abs() < 1e-12);
        assert!((star.sheet.declination() - 20.0).abs() < 1e-12);
        assert_eq!(
            one("10 00 00 +20 00 00  09 59 58 +20 00 05  12 30 00"),
            star
        );
    }

    #[test]
    fn round_midnight() {
        let star = one("23 59 59 -00 30 00  00 00 01 -00 30 02  01 00 00");
        assert_eq!((star.dh, star.dd), (-30.0, -2.0));
    }

    #[test]
    fn beyond_the_pole() {
        for ra in ["09 59 58", "21 59 58"] {
            let star = one(&format!("10 00 00 +20 00 00  {ra} +159 59 55  08 30 00"));
            assert_eq!((star.pier, star.dh, star.dd), (Pier::West, 30.0, 5.0));
        }
        let star = one("10 00 00 -20 00 00  22 00 00 -159 59 55  08 30 00");
        assert_eq!((star.pier, star.dh, star.dd), (Pier::West, 0.0, -5.0));
    }

    #[test]
    fn faults() {
        let after = |line: &str| fault(&format!("{HEAD}{line}\n"));
        assert!(fault("caption\n").contains("no site line"));
        assert!(fault("c\n:ALTAZ\n").starts_with("line 2: option ALTAZ"));
        assert!(fault("c\n:EQUINOX\n").contains("apparent places"));
        assert!(fault("c\n:GIMBAL 1 2 3\n").contains("unknown option 'GIMBAL 1 2 3'"));
        assert!(fault("c\n+34 30\n").contains("line 2: 2 numbers: expected the site"));
        assert!(fault("c\n+94 30 00 2024 1 1\n").contains("latitude: out of range"));
        assert!(fault("c\n10 00 00 +20 00 00 09 59 58 +20 00 05 12 30\n").contains("year: '+20'"));
        assert!(fault("c\n+34 30 00 2024 1 1 x\n").contains("site: 'x' is not a number"));
        assert!(after("10 00 00 +20 00 00").starts_with("line 6: 6 numbers: expected 14 or 15"));
        assert!(after("25 00 00 +20 00 00 09 59 58 +20 00 05 12 30").contains("0 to 24 hours"));
        assert!(
            after("10 00 00 +95 00 00 09 59 58 +20 00 05 12 30").contains("declination: out of")
        );
        assert!(after("10 00 00 +20 00 00 09 59 58 +190 00 05 12 30").contains("-180 to 180"));
        assert!(after("10 00 00 +20 60 00 09 59 58 +20 00 05 12 30").contains("below 60"));
        let many = "10 00 00 +20 00 00 09 59 58 +20 00 05 12 30\n".repeat(101);
        assert!(after(&many).starts_with("line 106: one star too many"));
    }
}
