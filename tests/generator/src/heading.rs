//! The first line of a list: the set that its panel is started with (§6, §8).

use plain::parameters::{Parameter, Parameters, TENANTS};

#[derive(Clone, Debug, PartialEq, Eq)]
pub struct Heading {
    /// In the order in which they are written, `outputs` first. The others may
    /// be left out. A number may be greater than a panel can be given.
    pub words: Vec<(Parameter, u64)>,
    /// How many of the words stand before `tenants`, and its digits.
    pub tenants: Option<(usize, String)>,
    /// What stands between words and numbers.
    pub blanks: &'static str,
    /// The least number of digits; zeros stand first.
    pub digits: usize,
}

impl Heading {
    /// `outputs N` alone.
    pub fn of_document_01(outputs: u64) -> Heading {
        Heading {
            words: vec![(Parameter::Outputs, outputs)],
            tenants: None,
            blanks: " ",
            digits: 1,
        }
    }

    /// Digits that 32 bits do not hold count as out of range.
    pub fn parameters(&self) -> Parameters {
        let mut parameters = Parameters::of_old_panel(0);
        for (parameter, number) in &self.words {
            parameters.set(*parameter, u32::try_from(*number).unwrap_or(u32::MAX));
        }
        if let Some((_, digits)) = &self.tenants {
            parameters.tenants = u32::from_str_radix(digits, 16).expect("1 to 8 digits");
        }
        parameters
    }

    pub fn text(&self) -> String {
        let (blanks, digits) = (self.blanks, self.digits);
        let words = self.words.iter().map(|(parameter, number)| {
            let name = parameter.name();
            format!("{name}{blanks}{number:0digits$}")
        });
        let mut words: Vec<String> = words.collect();
        if let Some((place, marks)) = &self.tenants {
            words.insert(*place, format!("{TENANTS}{blanks}{marks}"));
        }
        words.join(blanks)
    }
}
