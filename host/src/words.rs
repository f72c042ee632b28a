//! The words of a text. Only blanks are known here, not comments.

use crate::raw;

/// A word and its place in the text.
#[derive(Clone, Copy, Debug, PartialEq, Eq, Hash)]
pub struct Word<'t> {
    /// The place of the first byte; the text's length for an empty word.
    pub place: usize,
    /// The word; empty where the text has no more.
    pub bytes: &'t [u8],
}

/// The word at or after a place; an empty one at the text's length if there is none. From inside a word its rest is found.
pub fn next_word(text: &[u8], at: usize) -> Word<'_> {
    let [place, len] = raw::next_word(text, at);
    Word { place, bytes: &text[place..place + len] }
}

/// All words of a text, one after the other.
///
/// ```
/// let found: Vec<_> = kribbelsteen::words(b" void\tlight\n").map(|word| (word.place, word.bytes)).collect();
/// assert_eq!(found, [(1, &b"void"[..]), (6, b"light")]);
/// ```
pub fn words(text: &[u8]) -> Words<'_> {
    Words { text, at: 0 }
}

/// An iterator over the words of a text.
#[derive(Clone, Debug)]
pub struct Words<'t> {
    text: &'t [u8],
    at: usize,
}

impl<'t> Words<'t> {
    /// The words from a place on.
    pub fn starting_at(text: &'t [u8], at: usize) -> Self {
        Words { text, at }
    }
}

impl<'t> Iterator for Words<'t> {
    type Item = Word<'t>;

    fn next(&mut self) -> Option<Word<'t>> {
        let word = next_word(self.text, self.at);
        self.at = word.place + word.bytes.len();
        (!word.bytes.is_empty()).then_some(word)
    }
}

impl std::iter::FusedIterator for Words<'_> {}
