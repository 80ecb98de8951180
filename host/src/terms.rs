//! Names of terms as the fit reads them: the kind, the stored name, the description and whether the term is pier sensitive.

use crate::harmonic::{self, Harmonic};

#[derive(Debug, Clone, PartialEq, Eq)]
pub enum Kind {
    Ih,
    Id,
    Ch,
    Np,
    Ma,
    Me,
    Tf,
    Tx,
    TxN(u8),
    Daf,
    Fo,
    Hces,
    Hcec,
    Dces,
    Dcec,
    Harmonic(Harmonic),
}

/// The kind of a name and its stored form; none where the fit would refuse it.
pub fn read(name: &str) -> Option<(String, Kind)> {
    let name = name.to_ascii_uppercase();
    let kind = match name.as_str() {
        "IH" => Kind::Ih,
        "ID" => Kind::Id,
        "CH" => Kind::Ch,
        "NP" => Kind::Np,
        "MA" => Kind::Ma,
        "ME" => Kind::Me,
        "TF" => Kind::Tf,
        "TX" => Kind::Tx,
        "DAF" => Kind::Daf,
        "FO" => Kind::Fo,
        "HCES" => Kind::Hces,
        "HCEC" => Kind::Hcec,
        "DCES" => Kind::Dces,
        "DCEC" => Kind::Dcec,
        other => return with_parts(other),
    };
    Some((name, kind))
}

/// TX with a number, and the harmonics.
fn with_parts(name: &str) -> Option<(String, Kind)> {
    if let Some(number) = name.strip_prefix("TX") {
        let n: u8 = number.parse().ok().filter(|&n| n > 0)?;
        return Some((format!("TX{n}"), Kind::TxN(n)));
    }
    let harmonic = harmonic::read(name)?;
    Some((name.to_string(), Kind::Harmonic(harmonic)))
}

impl Kind {
    /// The published `description()`; harmonics by their parts.
    pub fn description(&self) -> String {
        let text = match self {
            Kind::Ih => "Hour angle index error",
            Kind::Id => "Declination index error",
            Kind::Ch => "East-west collimation error",
            Kind::Np => "Non-perpendicularity of axes",
            Kind::Ma => "Polar axis azimuth misalignment",
            Kind::Me => "Polar axis elevation misalignment",
            Kind::Tf => "Tube flexure (sin zeta)",
            Kind::Tx => "Tube flexure (tan zeta)",
            Kind::TxN(n) => return format!("Tube flexure (tan^{n} zeta)"),
            Kind::Daf => "Declination axis flexure",
            Kind::Fo => "Fork flexure",
            Kind::Hces => "HA centering error (sin)",
            Kind::Hcec => "HA centering error (cos)",
            Kind::Dces => "Dec centering error (sin)",
            Kind::Dcec => "Dec centering error (cos)",
            Kind::Harmonic(harmonic) => return harmonic.description(),
        };
        text.into()
    }

    /// The published `pier_sensitive()`: whether the term's pair turns with the pier side.
    pub fn pier_sensitive(&self) -> bool {
        match self {
            Kind::Id | Kind::Ch | Kind::Np => true,
            Kind::Harmonic(harmonic) => harmonic.pier_sensitive(),
            _ => false,
        }
    }
}

#[cfg(test)]
mod tests {
    use super::*;

    #[test]
    fn document_01() {
        let stored = |name: &str| read(name).map(|(stored, _)| stored);
        assert_eq!(stored("ih"), Some("IH".into()));
        assert_eq!(stored("tx+05"), Some("TX5".into()));
        assert_eq!(stored("hhsh2"), Some("HHSH2".into()));
        assert_eq!(read("HCES"), Some(("HCES".into(), Kind::Hces)));
        for bad in ["", "TX0", "TX256", "TX-1", "TX+", "NPAE", "IA", "HHS", "Q"] {
            assert_eq!(read(bad), None, "{bad}");
        }
    }

    /// ID, CH, NP and the harmonics of result P, no others.
    #[test]
    fn pier_sensitive() {
        let sensitive = |name: &str| read(name).expect(name).1.pier_sensitive();
        for name in [
            "ID", "CH", "NP", "id", "np", "HPSH", "HPCD9", "hpca", "HPSHCD2",
        ] {
            assert!(sensitive(name), "{name}");
        }
        for name in [
            "IH", "MA", "ME", "TF", "TX", "TX1", "TX255", "DAF", "FO", "HCES", "HCEC", "DCES",
            "DCEC", "ih", "HHSH", "HDCD2", "HXSHCD2", "HASH", "HECD", "HZSZ", "HSCE3",
        ] {
            assert!(!sensitive(name), "{name}");
        }
    }
}
