//! What every call of feed must answer for a letter: from the second matcher, the states as strings, and the paper's rule of taking bytes.
use crate::automaton::States;
use crate::book::Book;
use crate::library::{Fed, DONE, NO_ROOM};
use crate::matcher;

/// What is due at each byte of a letter.
pub struct Expected {
    phrases: usize,
    /// The reports that end with byte i, as (phrase number, place).
    reports: Vec<Vec<(u32, u32)>>,
    steps: Vec<usize>,
}

/// What one call of feed must come to.
pub struct Answer {
    pub fed: Fed,
    pub reports: Vec<(u32, u32)>,
}

impl Expected {
    pub fn of(book: &Book, letter: &[u8]) -> Expected {
        let mut reports = vec![Vec::new(); letter.len()];
        for (number, place) in matcher::reports(book, letter) {
            reports[place as usize - 1].push((number, place));
        }
        let steps = States::of(book).steps(letter);
        let phrases = book.phrases.len();
        Expected {
            phrases,
            reports,
            steps,
        }
    }

    pub fn phrases(&self) -> usize {
        self.phrases
    }

    /// How many reports the whole letter has.
    pub fn reports_in_all(&self) -> usize {
        self.reports.iter().map(Vec::len).sum()
    }

    /// The answer when `taken_before` bytes were taken, `offered` more are offered, and there is room for so many reports: bytes are taken
    /// one by one while any remain and the free room is at least the number of phrases.
    pub fn feed(&self, taken_before: usize, offered: usize, room: usize) -> Answer {
        let mut reports = Vec::new();
        if room < self.phrases {
            return Answer {
                fed: Fed::refused(NO_ROOM),
                reports,
            };
        }
        let mut taken = 0;
        let mut steps = 0;
        while taken < offered && room - reports.len() >= self.phrases {
            let byte = taken_before + taken;
            reports.extend(&self.reports[byte]);
            steps += self.steps[byte] as u64;
            taken += 1;
        }
        let fed = Fed {
            number: DONE,
            taken,
            reports: reports.len(),
            steps,
        };
        Answer { fed, reports }
    }
}
