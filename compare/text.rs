//! A call as text: a line for each part, bytes and floats in hexadecimal with what they are behind a `=`. Lines that begin with `#` are for the
//! reader alone.

use crate::call::{Call, Fit, Model};
use oracle::questions::{Run, NAME};
use oracle::solver::IterOptions;
use oracle::vectors::jacobians::Block;
use oracle::vectors::runs::ROBUST;
use std::collections::BTreeMap;
use std::fmt::Write;

fn line(out: &mut String, key: &str, words: impl IntoIterator<Item = String>) {
    *out += key;
    for word in words {
        *out += " ";
        *out += &word;
    }
    *out += "\n";
}

fn floats(out: &mut String, key: &str, numbers: &[f64]) {
    let word = |x: &f64| format!("{:016x}={x:e}", x.to_bits());
    line(out, key, numbers.iter().map(word));
}

fn wholes(out: &mut String, key: &str, numbers: &[usize]) {
    line(out, key, numbers.iter().map(usize::to_string));
}

fn bytes(out: &mut String, key: &str, list: &[u8]) {
    line(out, key, list.iter().map(|b| format!("{b:02x}")));
}

fn names(out: &mut String, list: &[u8]) {
    line(
        out,
        "names",
        list.chunks(NAME).map(|slot| {
            let shown = |&b: &u8| if b.is_ascii_graphic() { b as char } else { '.' };
            let text: String = slot.iter().map(shown).collect();
            let mut word = String::new();
            for byte in slot {
                write!(word, "{byte:02x}").expect("a string takes all");
            }
            word + "=" + text.trim_end_matches('.')
        }),
    );
}

fn put_point(out: &mut String, block: &Block) {
    floats(out, "sheet", &block.sheet);
    floats(out, "latitude", &block.lat);
    bytes(out, "pier", &[block.pier]);
}

fn put_model(out: &mut String, model: &Model) {
    names(out, &model.names);
    floats(out, "coefficients", &model.coefficients);
}

fn put_fit(out: &mut String, fit: &Fit) {
    let (run, options) = (&fit.run, &fit.options);
    bytes(out, "mode", &[fit.mode]);
    names(out, &run.names);
    bytes(out, "fixed", &run.fixed);
    floats(out, "coefficients", &run.coefficients);
    floats(out, "dh", &run.dh);
    floats(out, "dd", &run.dd);
    bytes(out, "pier", &run.piers);
    floats(out, "sheet", &run.sheets);
    floats(out, "latitude", &[run.sin_lat, run.cos_lat]);
    floats(out, "fit_tol", &[run.fit_tol]);
    bytes(out, "sigma_by", &[run.sigma_by]);
    wholes(out, "max_iter", &[options.max_iter]);
    *out += "# tol_rad, initial_lambda, lambda_up, lambda_down, huber_k\n";
    floats(
        out,
        "options",
        &[
            options.tol_rad,
            options.initial_lambda,
            options.lambda_up,
            options.lambda_down,
            options.huber_k,
        ],
    );
    *out += "# places of coefficients, change, sigma, diagnostics, scratch, and what they are filled from\n";
    wholes(out, "places", &fit.places);
    wholes(out, "fill", &[fit.fill as usize]);
}

const SORTS: [&str; 7] = [
    "fit",
    "name",
    "jacobian",
    "correction",
    "breakdown",
    "scratch",
    "root",
];

/// The text of a call.
pub fn write(call: &Call) -> String {
    let mut out = String::new();
    let sort = match call {
        Call::Fit(_) => 0,
        Call::Name(_) => 1,
        Call::Jacobian(..) => 2,
        Call::Correction(..) => 3,
        Call::Breakdown(..) => 4,
        Call::Scratch(..) => 5,
        Call::Root(_) => 6,
    };
    line(&mut out, "call", [SORTS[sort].to_string()]);
    match call {
        Call::Fit(fit) => put_fit(&mut out, fit),
        Call::Name(slot) => bytes(&mut out, "slot", slot),
        Call::Jacobian(slot, block) => {
            bytes(&mut out, "slot", slot);
            put_point(&mut out, block);
        }
        Call::Correction(model, block) | Call::Breakdown(model, block) => {
            put_model(&mut out, model);
            put_point(&mut out, block);
        }
        Call::Scratch(m, n) => wholes(&mut out, "sizes", &[*m, *n]),
        Call::Root(x) => floats(&mut out, "of", &[*x]),
    }
    out
}

/// The lines of a text by their keys.
struct Parts<'a>(BTreeMap<&'a str, Vec<&'a str>>);

impl<'a> Parts<'a> {
    fn of(text: &'a str) -> Self {
        let mut parts = BTreeMap::new();
        for line in text.lines().filter(|line| !line.starts_with('#')) {
            let mut words = line.split(' ').filter(|word| !word.is_empty());
            if let Some(key) = words.next() {
                let values = words.map(|word| word.split('=').next().unwrap_or(word));
                parts.insert(key, values.collect());
            }
        }
        Self(parts)
    }

    fn words(&self, key: &str) -> Result<&[&'a str], String> {
        let words = self.0.get(key).ok_or(format!("no line '{key}'"))?;
        Ok(words)
    }

    fn each<T>(&self, key: &str, read: impl Fn(&str) -> Option<T>) -> Result<Vec<T>, String> {
        let read = |word: &&str| read(word).ok_or(format!("line '{key}': {word}"));
        self.words(key)?.iter().map(read).collect()
    }

    fn floats(&self, key: &str) -> Result<Vec<f64>, String> {
        self.each(key, |word| {
            Some(f64::from_bits(u64::from_str_radix(word, 16).ok()?))
        })
    }

    fn wholes(&self, key: &str) -> Result<Vec<usize>, String> {
        self.each(key, |word| word.parse().ok())
    }

    fn bytes(&self, key: &str) -> Result<Vec<u8>, String> {
        let joined = self.words(key)?.concat();
        let pair = |i: usize| u8::from_str_radix(joined.get(i..i + 2)?, 16).ok();
        let bytes: Option<Vec<u8>> = (0..joined.len()).step_by(2).map(pair).collect();
        bytes.ok_or(format!("line '{key}' is no bytes"))
    }

    fn array<T, const N: usize>(list: Result<Vec<T>, String>) -> Result<[T; N], String> {
        let wrong = |list: Vec<T>| format!("{} values in place of {N}", list.len());
        list?.try_into().map_err(wrong)
    }

    fn point(&self) -> Result<Block, String> {
        let [pier] = Self::array(self.bytes("pier"))?;
        Ok(Block {
            sheet: self.floats("sheet")?,
            lat: Self::array(self.floats("latitude"))?,
            pier,
        })
    }

    fn model(&self) -> Result<Model, String> {
        Ok(Model {
            names: self.bytes("names")?,
            coefficients: self.floats("coefficients")?,
        })
    }

    fn fit(&self) -> Result<Fit, String> {
        let [mode] = Self::array(self.bytes("mode"))?;
        let [sin_lat, cos_lat] = Self::array(self.floats("latitude"))?;
        let [fit_tol] = Self::array(self.floats("fit_tol"))?;
        let [sigma_by] = Self::array(self.bytes("sigma_by"))?;
        let [max_iter] = Self::array(self.wholes("max_iter"))?;
        let [tol_rad, initial_lambda, lambda_up, lambda_down, huber_k] =
            Self::array(self.floats("options"))?;
        let [fill] = Self::array(self.wholes("fill"))?;
        Ok(Fit {
            mode,
            run: Run {
                names: self.bytes("names")?,
                fixed: self.bytes("fixed")?,
                coefficients: self.floats("coefficients")?,
                dh: self.floats("dh")?,
                dd: self.floats("dd")?,
                piers: self.bytes("pier")?,
                sheets: self.floats("sheet")?,
                sin_lat,
                cos_lat,
                fit_tol,
                sigma_by,
            },
            options: IterOptions {
                max_iter,
                tol_rad,
                initial_lambda,
                lambda_up,
                lambda_down,
                robust: mode == ROBUST,
                huber_k,
            },
            places: Self::array(self.wholes("places"))?,
            fill: fill as u64,
        })
    }
}

/// The call of a text.
pub fn read(text: &str) -> Result<Call, String> {
    let parts = Parts::of(text);
    let [sort] = Parts::array(parts.words("call").map(<[&str]>::to_vec))?;
    Ok(match sort {
        "fit" => Call::Fit(Box::new(parts.fit()?)),
        "name" => Call::Name(parts.bytes("slot")?),
        "jacobian" => Call::Jacobian(parts.bytes("slot")?, parts.point()?),
        "correction" => Call::Correction(parts.model()?, parts.point()?),
        "breakdown" => Call::Breakdown(parts.model()?, parts.point()?),
        "scratch" => {
            let [m, n] = Parts::array(parts.wholes("sizes"))?;
            Call::Scratch(m, n)
        }
        "root" => {
            let [x] = Parts::array(parts.floats("of"))?;
            Call::Root(x)
        }
        _ => return Err(format!("no call '{sort}'")),
    })
}
