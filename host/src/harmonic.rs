//! Harmonic names: their parts, their value at a point, and their parts in words.

use crate::sheet::Sheet;

#[derive(Debug, Clone, Copy, PartialEq, Eq)]
pub struct Component {
    pub sine: bool,
    /// One of H D A E Z.
    pub coordinate: char,
    pub frequency: u8,
}

#[derive(Debug, Clone, PartialEq, Eq)]
pub struct Harmonic {
    /// One of H D X P A E Z S.
    pub result: char,
    pub components: Vec<Component>,
}

/// The harmonic that a name in capitals spells.
pub fn read(name: &str) -> Option<Harmonic> {
    let mut chars = name.strip_prefix('H')?.chars().peekable();
    let result = chars.next().filter(|c| "HDXPAEZS".contains(*c))?;
    let mut components = Vec::new();
    while let Some(function) = chars.next() {
        let sine = match function {
            'S' => true,
            'C' => false,
            _ => return None,
        };
        let coordinate = chars.next().filter(|c| "HDAEZ".contains(*c))?;
        let digit = chars.next_if(char::is_ascii_digit);
        let frequency = digit.map_or(1, |c| c as u8 - b'0');
        if frequency == 0 {
            return None;
        }
        components.push(Component {
            sine,
            coordinate,
            frequency,
        });
    }
    (!components.is_empty()).then_some(Harmonic { result, components })
}

impl Harmonic {
    pub fn value(&self, sheet: &Sheet) -> f64 {
        self.components
            .iter()
            .fold(1.0, |product, part| product * part.value(sheet))
    }

    /// The published `pier_sensitive()`.
    pub fn pier_sensitive(&self) -> bool {
        self.result == 'P'
    }

    /// What the term does, by its parts.
    pub fn description(&self) -> String {
        let parts: Vec<String> = self.components.iter().map(Component::words).collect();
        let parts = parts.join(" * ");
        match self.result {
            'H' => format!("Harmonic in hour angle: {parts}"),
            'D' => format!("Harmonic in declination: {parts}"),
            'X' => format!("Harmonic east-west on the sky: {parts}, in hour angle over cos dec"),
            'P' => format!("Harmonic of the axes' angle: -pier * tan dec * {parts}, in hour angle"),
            _ => format!("Harmonic of an alt-azimuth mount ({parts}): no effect here"),
        }
    }
}

impl Component {
    fn value(&self, sheet: &Sheet) -> f64 {
        match (self.coordinate, self.sine) {
            ('H', true) => sheet.sin_h(self.frequency),
            ('H', false) => sheet.cos_h(self.frequency),
            ('D', true) => sheet.sin_dec(self.frequency),
            ('D', false) => sheet.cos_dec(self.frequency),
            (_, true) => 0.0,
            (_, false) => 1.0,
        }
    }

    fn words(&self) -> String {
        let function = if self.sine { "sin" } else { "cos" };
        let coordinate = match self.coordinate {
            'H' => "h",
            'D' => "dec",
            _ => return format!("{function} {0} with {0} = 0", self.coordinate),
        };
        match self.frequency {
            1 => format!("{function} {coordinate}"),
            k => format!("{function} {k}{coordinate}"),
        }
    }
}

#[cfg(test)]
mod tests {
    use super::*;

    #[test]
    fn document_01() {
        for bad in [
            "HHS", "HHSH0", "HHSH12", "H", "HH", "HQSH", "HHXH", "HHSX", "HCES1",
        ] {
            assert_eq!(read(bad), None, "{bad}");
        }
        let term = read("HXSHCD2").unwrap();
        assert_eq!(term.result, 'X');
        assert_eq!(
            term.description(),
            "Harmonic east-west on the sky: sin h * cos 2dec, in hour angle over cos dec"
        );
        let sheet = Sheet::of(0.5, 0.25);
        assert_eq!(term.value(&sheet), 0.5f64.sin() * 0.5f64.cos());
    }

    #[test]
    fn alt_azimuth_coordinates_are_zero() {
        let sheet = Sheet::of(0.5, 0.25);
        assert_eq!(read("HHSA").unwrap().value(&sheet), 0.0);
        assert_eq!(read("HHCZ3").unwrap().value(&sheet), 1.0);
        assert!(read("HACA").unwrap().description().contains("no effect"));
    }
}
