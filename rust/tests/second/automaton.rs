//! Failure steps by counting strings: the paper's "The automaton". A state is a string here, and no number.
use crate::book::Book;
use std::collections::HashSet;

/// The states of a book: the prefixes of all keywords, the empty one included.
pub struct States {
    all: HashSet<Vec<u8>>,
    longest: usize,
}

impl States {
    pub fn of(book: &Book) -> States {
        let mut all = HashSet::from([Vec::new()]);
        for piece in book.pieces() {
            for length in 1..=piece.keyword.len() {
                all.insert(piece.keyword[..length].to_vec());
            }
        }
        let longest = all.iter().map(Vec::len).max().unwrap_or(0);
        States { all, longest }
    }

    /// How many there are, the empty one included.
    pub fn count(&self) -> usize {
        self.all.len()
    }

    /// The suffixes of the bytes that are states, the longest first. The last is the empty one.
    fn suffixes<'a>(&'a self, bytes: &'a [u8]) -> impl Iterator<Item = &'a [u8]> {
        // No state is longer than the longest keyword, so that longer suffixes need not be looked up.
        let first = bytes.len().saturating_sub(self.longest);
        (first..=bytes.len())
            .map(move |start| &bytes[start..])
            .filter(move |suffix| self.all.contains(*suffix))
    }

    /// The state after these bytes: their longest suffix that is a state.
    pub fn after<'a>(&'a self, bytes: &'a [u8]) -> &'a [u8] {
        self.suffixes(bytes).next().unwrap()
    }

    /// The failure steps for one byte from a state.
    pub fn steps_for(&self, state: &[u8], byte: u8) -> usize {
        let goes_on = |suffix: &&[u8]| {
            let mut longer = suffix.to_vec();
            longer.push(byte);
            self.all.contains(&longer)
        };
        match self.suffixes(state).find(goes_on) {
            Some(taken) => self
                .suffixes(state)
                .filter(|suffix| suffix.len() > taken.len())
                .count(),
            None => self
                .suffixes(state)
                .filter(|suffix| !suffix.is_empty())
                .count(),
        }
    }

    /// The failure steps of each byte of a letter.
    pub fn steps(&self, letter: &[u8]) -> Vec<usize> {
        (0..letter.len())
            .map(|read| self.steps_for(self.after(&letter[..read]), letter[read]))
            .collect()
    }
}
