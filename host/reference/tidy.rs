//! A scene written out, as one would write it in Rust: lines are put together from the words of the text, and the tables are only
//! compared.

use super::scene::{self, next_word, Refused};

/// The words of a line.
pub type Line = Vec<Vec<u8>>;

const TABLES_DIFFER: Refused = Refused { reason: 22, place: 0 };
const OUTPUT_TOO_SMALL: Refused = Refused { reason: 23, place: 0 };

/// The words of an accepted text, statement by statement.
pub struct Words<'t> {
    text: &'t [u8],
    /// The place behind the last word that was given.
    pub at: usize,
}

impl<'t> Words<'t> {
    pub fn new(text: &'t [u8]) -> Self {
        Words { text, at: 0 }
    }

    pub fn next(&mut self) -> &'t [u8] {
        let (place, len) = next_word(self.text, self.at);
        self.at = place + len;
        &self.text[place..self.at]
    }

    /// The next statement's first word, empty at the end.
    pub fn opening(&mut self) -> &'t [u8] {
        loop {
            let word = self.next();
            if !word.starts_with(b"#") {
                return word;
            }
            let rest = &self.text[self.at..];
            self.at += rest.iter().position(|&b| b == b'\n').unwrap_or(rest.len());
        }
    }

    /// A count and as many words, as they are to stand in a line.
    pub fn counted(&mut self) -> Line {
        let digits = std::str::from_utf8(self.next()).expect("a count has digits");
        let count: usize = digits.parse().expect("a count is a number");
        let mut line = vec![count.to_string().into_bytes()];
        line.extend((0..count).map(|_| self.next().to_vec()));
        line
    }
}

/// The lines of each statement of an accepted text: one of an alias, four of a primitive.
pub fn statements(text: &[u8]) -> Vec<Vec<Line>> {
    let mut words = Words::new(text);
    let mut statements = Vec::new();
    loop {
        let modifier = words.opening();
        if modifier.is_empty() {
            return statements;
        }
        let (kind, name) = (words.next(), words.next());
        let mut line = vec![modifier.to_vec(), kind.to_vec(), name.to_vec()];
        if kind == b"alias" {
            line.push(words.next().to_vec());
            statements.push(vec![line]);
        } else {
            statements.push(vec![line, words.counted(), words.counted(), words.counted()]);
        }
    }
}

pub fn joined(statements: &[Vec<Line>]) -> Vec<u8> {
    statements.iter().flatten().flat_map(|line| [line.join(&b' '), b"\n".to_vec()].concat()).collect()
}

/// The tidy text of an accepted text.
pub fn tidy(text: &[u8]) -> Vec<u8> {
    joined(&statements(text))
}

/// The tidy text for an output of so many bytes, or why there is none.
pub fn write(archive: bool, text: &[u8], records: &[u32], reals: &[f64], room: usize) -> Result<Vec<u8>, Refused> {
    compare_tables(archive, text, records, reals)?;
    within(room, tidy(text))
}

/// A text that is no longer than an output.
pub fn within(room: usize, text: Vec<u8>) -> Result<Vec<u8>, Refused> {
    Some(text).filter(|text| text.len() <= room).ok_or(OUTPUT_TOO_SMALL)
}

/// Refuses a text that is not accepted, and tables that are not its.
pub fn compare_tables(archive: bool, text: &[u8], records: &[u32], reals: &[f64]) -> Result<(), Refused> {
    let (mut fresh, mut doubles) = (vec![0; records.len()], vec![0.0; reals.len()]);
    scene::read_without_pairs(archive, text, &mut fresh, &mut doubles)?;
    let same_bits = |(a, b): (&f64, &f64)| a.to_bits() == b.to_bits();
    if fresh != records || !reals.iter().zip(&doubles).all(same_bits) {
        return Err(TABLES_DIFFER);
    }
    Ok(())
}
