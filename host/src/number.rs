//! Numbers read from text and written for a reader.

/// A finite number.
pub fn finite(text: &str) -> Result<f64, String> {
    match text.parse::<f64>() {
        Ok(x) if x.is_finite() => Ok(x),
        Ok(_) => Err(format!("'{text}' is not finite: expected a finite number")),
        Err(_) => Err(format!(
            "'{text}' is not a number: expected one as -12.5 or 1e-6"
        )),
    }
}

/// A whole number that 16 bits hold.
pub fn whole(text: &str) -> Result<u16, String> {
    text.parse::<u16>()
        .map_err(|_| format!("'{text}' is not a whole number from 0 to 65535"))
}

/// A number with two decimals; very large ones with an exponent; in words where it is not finite.
pub fn shown(x: f64) -> String {
    if x.is_nan() {
        "not a number".into()
    } else if x.is_infinite() {
        if x > 0.0 { "infinite" } else { "-infinite" }.into()
    } else if x.abs() >= 1e9 {
        format!("{x:.3e}")
    } else if x.abs() < 0.005 {
        "0.00".into()
    } else {
        format!("{x:.2}")
    }
}

#[cfg(test)]
mod tests {
    use super::*;

    #[test]
    fn reads() {
        assert_eq!(finite("-12.5"), Ok(-12.5));
        assert_eq!(finite("1e-6"), Ok(1e-6));
        for bad in ["nan", "inf", "-inf", "1e999"] {
            assert!(finite(bad).unwrap_err().contains("not finite"), "{bad}");
        }
        for bad in ["", "1,5", "ten", "1.2.3", "\u{2212}5"] {
            assert!(finite(bad).unwrap_err().contains("not a number"), "{bad}");
        }
        assert_eq!(whole("65535"), Ok(65535));
        assert!(whole("65536").is_err());
        assert!(whole("-1").is_err());
        assert!(whole("5.0").is_err());
    }

    #[test]
    fn shows() {
        assert_eq!(shown(-123.456), "-123.46");
        assert_eq!(shown(-0.001), "0.00");
        assert_eq!(shown(f64::NAN), "not a number");
        assert_eq!(shown(f64::NEG_INFINITY), "-infinite");
        assert_eq!(shown(1.5e12), "1.500e12");
    }
}
