//! Models made by hand whose flags are their names' or not, the calls on them, and what the writer
//! sees to of these.

use super::faults::REFUSED_NAMES;
use super::model::Calls;
use super::random::Random;
use super::runs::slot;
use crate::questions::{read_term, stored_name, Model, MAX_TERMS, NAME};
use std::collections::BTreeSet;

/// Whether each place's name is that of a pier-sensitive term; one that is refused isn't.
fn of_names(model: &Model) -> [bool; MAX_TERMS] {
    let flag = |slot| read_term(slot).is_ok_and(|term| term.pier_sensitive());
    model.names.each_ref().map(|slot| flag(slot))
}

/// The terms whose flag isn't their name's.
fn wrong_places(model: &Model) -> Vec<usize> {
    let right = of_names(model);
    let terms = 0..model.count.min(MAX_TERMS);
    terms
        .filter(|&j| model.pier_sensitive[j] != right[j])
        .collect()
}

/// How many sorts of flags there are for a model made by hand.
const FLAGS: usize = 5;

/// Flags for a model made by hand, behind the count too: right, false, true, inverted or any.
fn flags(model: &Model, sort: usize, random: &mut Random) -> [bool; MAX_TERMS] {
    let right = of_names(model);
    match sort {
        0 => right,
        1 => [false; MAX_TERMS],
        2 => [true; MAX_TERMS],
        3 => right.map(|flag| !flag),
        _ => right.map(|_| random.flip()),
    }
}

/// Flags of any sort.
pub fn some_flags(model: &Model, random: &mut Random) -> [bool; MAX_TERMS] {
    let sort = random.below(FLAGS);
    flags(model, sort, random)
}

/// What accepted calls are that mend a model.
const SORTS: [&str; 12] = [
    "a term that is there, spelled as stored",
    "a term that is there, spelled otherwise",
    "a new term that is pier sensitive",
    "a new term that isn't",
    "coefficients",
    "every flag wrong",
    "true where it should be false alone",
    "false where it should be true alone",
    "a flag behind the count",
    "another flag at the new term's place",
    "equal names",
    "32 terms",
];

fn stored(slot: &[u8]) -> [u8; NAME] {
    stored_name(read_term(slot).expect("an accepted name").as_ref())
}

/// Of a call that took a name's slot, or none and coefficients.
fn sorts(before: &Model, slot: Option<&[u8]>, after: &Model) -> [bool; SORTS.len()] {
    let (count, flags) = (before.count, &before.pier_sensitive);
    let wrong = wrong_places(before);
    let new = after.count > count;
    let there = slot.is_some() && !new;
    let as_stored = slot.is_some_and(|slot| stored(slot) == *slot);
    let places = before.names[..count].iter();
    let names: BTreeSet<_> = places.map(|slot| stored(slot)).collect();
    [
        there && as_stored,
        there && !as_stored,
        new && after.pier_sensitive[count],
        new && !after.pier_sensitive[count],
        slot.is_none(),
        wrong.len() == count,
        wrong.iter().all(|&j| flags[j]),
        wrong.iter().all(|&j| !flags[j]),
        flags[after.count..].contains(&true),
        new && flags[count] != after.pier_sensitive[count],
        names.len() < count,
        count == MAX_TERMS,
    ]
}

/// The questions that each call on a model puts: `add_term`, `set_coefficients`, `predict_breakdown`.
const ASKED: [&[usize]; 3] = [
    &[1, 2, 4, 7, 8, 9, 10, 14],
    &[1, 2, 4, 7, 8, 9, 10],
    &[1, 2, 4, 5, 7, 8, 9, 10],
];

/// Calls on models by their flags.
#[derive(Default)]
pub struct Mended {
    /// Whether the current model was made by hand, no call having been accepted since.
    by_hand: bool,
    /// Accepted changes of a model with wrong flags.
    mended: usize,
    met: [usize; SORTS.len()],
    /// Those of 32 terms with one wrong flag, by its place.
    one_wrong: [usize; MAX_TERMS],
    /// Accepted changes of a model made by hand with right flags.
    right: usize,
    /// Calls on a model with wrong flags, in the order of `ASKED`, by refusal.
    answers: [[usize; 15]; 3],
}

impl Mended {
    /// A model made by hand, or a new one.
    pub fn made(&mut self, by_hand: bool) {
        self.by_hand = by_hand;
    }

    /// Holds a call that changes a model to the flags: a refused one is counted, an accepted one must
    /// give each term its name's. None needs mending but one made by hand, and that once.
    pub fn changed(&mut self, before: &Model, slot: Option<&[u8]>, answer: &Result<Model, u8>) {
        let wrong = wrong_places(before);
        let refusal = answer.as_ref().err().copied().unwrap_or(0);
        let call = slot.is_none() as usize;
        self.answers[call][usize::from(refusal)] += !wrong.is_empty() as usize;
        let Ok(after) = answer else { return };
        let given = &before.pier_sensitive[..before.count];
        let mended = *given != after.pier_sensitive[..before.count];
        assert_eq!(mended, !wrong.is_empty());
        assert!(wrong_places(after).is_empty() && (self.by_hand || !mended));
        self.right += (self.by_hand && !mended) as usize;
        self.by_hand = false;
        if !mended {
            return;
        }
        self.mended += 1;
        if let ([j], MAX_TERMS) = (&wrong[..], before.count) {
            self.one_wrong[*j] += 1;
        }
        for (count, held) in self.met.iter_mut().zip(sorts(before, slot, after)) {
            *count += held as usize;
        }
    }

    /// Holds a breakdown to the flags of the names.
    pub fn broken_down(&mut self, model: &Model, answer: &Result<Vec<(f64, f64, bool)>, u8>) {
        let refusal = answer.as_ref().err().copied().unwrap_or(0);
        self.answers[2][usize::from(refusal)] += !wrong_places(model).is_empty() as usize;
        for ((.., shown), flag) in answer.iter().flatten().zip(of_names(model)) {
            assert_eq!(*shown, flag);
        }
    }

    /// How many calls mended a model. All sorts must have occurred, and each answer to a model with
    /// wrong flags.
    pub fn count(&self) -> usize {
        for (count, sort) in self.met.iter().zip(SORTS) {
            assert!(*count > 0, "mended: {sort}");
        }
        assert!(self.right > 0 && self.one_wrong.iter().all(|&count| count > 0));
        for (answers, asked) in self.answers.iter().zip(ASKED) {
            let numbers = [0].iter().chain(asked);
            assert!(numbers.clone().all(|&number| answers[number] > 0));
        }
        self.mended
    }
}

/// Names of models, and one of their terms as it is stored and as it isn't; without terms, a new one.
const MODELS: [(&[&str], [&str; 2]); 6] = [
    (&[], ["HPSH", "hpsh"]),
    (&["NP"], ["NP", "nP"]),
    (&["tx+05"], ["TX5", "TX005"]),
    (&["IH", "FO", "hxch", "DCEC"], ["HXCH", "hxch"]),
    (
        &["ID", "IH", "hpshcd", "CH", "tx+05", "np"],
        ["HPSHCD", "hpSHcd"],
    ),
    (
        &["np", "NP", "ih", "IH", "HPSH", "nP", "hpsh"],
        ["IH", "Ih"],
    ),
];

/// New names: one that is pier sensitive, and one that isn't.
const NEW: [&str; 2] = ["hpcd9", "MA"];

/// 32 names, every other one pier sensitive, and one of them as it is stored and as it isn't.
fn full() -> (Vec<String>, [&'static str; 2]) {
    let names = (0..MAX_TERMS).map(|j| match (j % 4, j / 4 + 1) {
        (0, k) => format!("TX{k}"),
        (1, k) => format!("HPSH{k}"),
        (2, k) => format!("hdsd{k}"),
        (_, k) => format!("hpcd{k}"),
    });
    (names.collect(), ["HPCD7", "hpcd7"])
}

impl Calls {
    /// The sequences of this file.
    pub fn by_flags(&mut self) {
        let (full, there) = full();
        let full: Vec<&str> = full.iter().map(String::as_str).collect();
        for sort in 0..FLAGS {
            for (names, there) in MODELS {
                self.changes(names, there, sort);
            }
            self.changes(&full, there, sort);
            self.refused_models(sort);
        }
        self.one_wrong(&full, there);
    }

    fn flagged(&mut self, mut model: Model, sort: usize) {
        model.pier_sensitive = flags(&model, sort, &mut self.random);
        self.by_hand(model);
    }

    /// A correction and a breakdown that are given.
    fn show(&mut self) {
        let place = self.real_place();
        self.at(&place);
    }

    /// Each change of a model, with breakdowns before and behind; before the last those that are
    /// refused, behind it one that mends no more.
    fn changes(&mut self, names: &[&str], there: [&str; 2], sort: usize) {
        let model = self.model_of(names);
        for name in there.into_iter().chain(NEW) {
            self.flagged(model.clone(), sort);
            self.show();
            self.add_name(name);
            self.show();
        }
        self.flagged(model, sort);
        self.refused_changes();
        let numbers = self.numbers(names.len());
        self.set(&numbers);
        self.show();
        self.add_name(there[0]);
    }

    /// Changes and points that a good model refuses.
    fn refused_changes(&mut self) {
        for names in REFUSED_NAMES {
            self.add(&slot(names[0]));
        }
        self.add(&slot(b"ID")[..15]);
        self.set(&vec![1.0; self.model.count + 1]);
        self.set(&vec![f64::NAN; self.model.count]);
        for fault in 0..3 {
            let mut place = self.real_place();
            match fault {
                0 => place.len -= 1,
                1 => place.lat[0] = f64::NAN,
                _ => place.pier = 3,
            }
            self.at(&place);
        }
    }

    /// Models that every call refuses: a name, a coefficient, too many terms.
    fn refused_models(&mut self, sort: usize) {
        for fault in 0..7 {
            let mut model = self.model_of(&["ID", "IH", "HPCD2"]);
            match fault {
                0..=3 => model.names[fault % 3] = slot(REFUSED_NAMES[fault][1]),
                4 => model.coefficients[2] = f64::INFINITY,
                5 => model.count = 33,
                _ => model.count = 65535,
            }
            let numbers = self.numbers(model.count.min(40));
            self.flagged(model, sort);
            self.add_name("ID");
            self.add_name(NEW[0]);
            self.set(&numbers);
            self.show();
        }
    }

    /// One wrong flag at each place of a full model: a new name is refused, then each change in turn.
    fn one_wrong(&mut self, names: &[&str], there: [&str; 2]) {
        for j in 0..MAX_TERMS {
            let mut model = self.model_of(names);
            model.pier_sensitive = of_names(&model);
            model.pier_sensitive[j] ^= true;
            self.by_hand(model);
            self.add_name(NEW[j % 2]);
            match j % 3 {
                2 => {
                    let numbers = self.numbers(MAX_TERMS);
                    self.set(&numbers);
                }
                spelling => self.add_name(there[spelling]),
            }
            self.show();
        }
    }
}
