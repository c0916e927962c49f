//! A call that was made, and how it differs from what was expected of it.

use crate::language::Expectation;

/// A call that was made, and what is expected of it.
pub struct Call {
    pub line: usize,
    pub number: u32,
    pub answer: Vec<u8>,
    pub told: Vec<u8>,
    pub expected: Vec<Expectation>,
}

impl Call {
    /// How it differs from what was expected: nothing, or a sentence for each. Lines of octets, put together, are the whole answer.
    pub fn differences(&self) -> Vec<String> {
        let (mut number, mut answer, mut told) = (None, None::<Vec<u8>>, None::<Vec<u8>>);
        for expectation in &self.expected {
            match expectation {
                Expectation::Number(expected) => number = Some(*expected),
                Expectation::Answer(octets) => answer.get_or_insert_with(Vec::new).extend(octets),
                Expectation::Told(octets) => told.get_or_insert_with(Vec::new).extend(octets),
            }
        }
        // Octets are expected of a call that is done.
        let number = number.unwrap_or(0);
        let other = (number != self.number).then(|| format!("expected number {number}, got {}", self.number));
        let answer = difference("the answer", answer, &self.answer);
        let told = difference("what is told", told, &self.told);
        other.into_iter().chain(answer).chain(told).collect()
    }
}

/// The first octet at which something differs from what was expected.
fn difference(what: &str, expected: Option<Vec<u8>>, got: &[u8]) -> Option<String> {
    let expected = expected.filter(|expected| expected != got)?;
    let at = expected.iter().zip(got).take_while(|(expected, got)| expected == got).count();
    let shown = |octets: &[u8]| octets.get(at).map_or("nothing".to_string(), |octet| format!("{octet:02X}"));
    Some(format!(
        "{what} has {} octets, expected {}; octet {at}, counted from 0, is {}, expected {}",
        got.len(),
        expected.len(),
        shown(got),
        shown(&expected)
    ))
}
