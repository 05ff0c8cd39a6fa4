//! A letter that is being read.
use crate::{calls, Refused, Tables, MOST_PHRASES};
use std::fmt;

/// How many reports the scanner's own room holds: several places at which every phrase ends, in 8 KiB.
const OWN_REPORTS: usize = 8 * MOST_PHRASES;

/// A phrase ends at a place.
#[derive(Clone, Copy, Debug, PartialEq, Eq, PartialOrd, Ord, Hash)]
pub struct Report {
    /// The phrase's number in the book, 1 to 65,535.
    pub phrase: u32,
    /// How many bytes of the letter there are up to the phrase's end.
    pub place: u32,
}

/// What a call of feed came to.
#[derive(Clone, Copy, Debug, Default, PartialEq, Eq, Hash)]
pub struct Fed {
    /// How many bytes of the part were taken, from its first on.
    pub taken: usize,
    /// How many reports were given.
    pub reports: usize,
    /// The failure steps of the bytes taken.
    pub steps: u64,
}

/// The first so many reports in a room that [`Scanner::feed_into`] was lent.
///
/// # Panics
///
/// Where the room does not hold so many reports.
pub fn reports_in(room: &[u32], reports: usize) -> impl Iterator<Item = Report> + '_ {
    room[..2 * reports].chunks_exact(2).map(|two| Report {
        phrase: two[0],
        place: two[1],
    })
}

/// A letter that is being read against the tables of a book, part after part.
pub struct Scanner {
    tables: Tables,
    running: Box<[u8]>,
    room: Box<[u32]>,
    place: usize,
}

impl Scanner {
    /// Begins a letter. The scanner shares the tables, and has running memory and report room of its own.
    pub fn begin(tables: &Tables) -> Scanner {
        let mut scanner = Scanner {
            tables: tables.clone(),
            running: vec![0; Scanner::size()].into(),
            room: vec![0; 2 * OWN_REPORTS].into(),
            place: 0,
        };
        scanner.begin_again();
        scanner
    }

    /// Begins another letter with the same tables, in the same memory.
    pub fn begin_again(&mut self) {
        let number = calls::begin(self.tables.bytes(), &mut self.running);
        // Tables that build left always pass, and the memory is as long as published: that is proved.
        assert_eq!(
            number, 0,
            "the linked library is not the one that was proved"
        );
        self.place = 0;
    }

    /// Goes on with a part of the letter, all of it, and gives each report to `report`: by place, then by phrase number, once each.
    ///
    /// The parts of a letter may be cut anywhere: the reports of all its parts are those of the letter.
    ///
    /// # Errors
    ///
    /// [`Refusal::TooLong`](crate::Refusal::TooLong) where the letter would have more than 4,294,967,295 bytes. Nothing of the part is then
    /// taken or reported.
    ///
    /// ```
    /// use tsuvrankhe::{Scanner, Tables};
    ///
    /// // Phrase 1: anywhere "a".
    /// let tables = Tables::build(b"\x01\x01\x02\x00\x01\x01\x04\x00\x00\x81a\x7f\x00\x01")?;
    /// let mut scanner = Scanner::begin(&tables);
    /// let mut places = Vec::new();
    /// let fed = scanner.feed(b"banana", |report| places.push(report.place))?;
    /// assert_eq!(places, [2, 4, 6]);
    /// assert_eq!((fed.taken, fed.reports), (6, 3));
    /// # Ok::<(), tsuvrankhe::Refused>(())
    /// ```
    pub fn feed(&mut self, part: &[u8], mut report: impl FnMut(Report)) -> Result<Fed, Refused> {
        let mut all = Fed::default();
        loop {
            let rest = &part[all.taken..];
            let fed = self.lend_own_room(rest)?;
            reports_in(&self.room, fed.reports).for_each(&mut report);
            all.taken += fed.taken;
            all.reports += fed.reports;
            all.steps += fed.steps;
            // The room is above the number of phrases, so a call with bytes left takes one at least: that is proved.
            if all.taken == part.len() {
                return Ok(all);
            }
        }
    }

    /// Goes on with a part of the letter in one call of the library, with report room of the caller's. A report takes two numbers of the room:
    /// [`reports_in`] reads them. Fewer bytes than offered are taken where the free room falls below the number of phrases; the
    /// rest is offered again, in a further call.
    ///
    /// # Errors
    ///
    /// [`Refusal::NoRoom`](crate::Refusal::NoRoom) where the room is below the number of phrases, even for an empty part, and then
    /// [`Refusal::TooLong`](crate::Refusal::TooLong) where the letter would have more than 4,294,967,295 bytes if the whole part were taken.
    /// Nothing is changed then.
    ///
    /// ```
    /// use tsuvrankhe::{reports_in, Refusal, Scanner, Tables};
    ///
    /// // Phrase 1: anywhere "a".
    /// let tables = Tables::build(b"\x01\x01\x02\x00\x01\x01\x04\x00\x00\x81a\x7f\x00\x01")?;
    /// let mut scanner = Scanner::begin(&tables);
    /// let mut room = [0; 4]; // two reports
    /// let fed = scanner.feed_into(b"banana", &mut room)?;
    /// assert_eq!((fed.taken, fed.reports), (4, 2));
    /// assert!(reports_in(&room, fed.reports).map(|report| report.place).eq([2, 4]));
    /// assert_eq!(scanner.feed_into(b"na", &mut []).unwrap_err().refusal, Refusal::NoRoom);
    /// # Ok::<(), tsuvrankhe::Refused>(())
    /// ```
    pub fn feed_into(&mut self, part: &[u8], room: &mut [u32]) -> Result<Fed, Refused> {
        let fed = calls::feed(self.tables.bytes(), &mut self.running, part, room);
        self.answered(fed)
    }

    /// How many bytes of the letter were taken so far.
    pub fn place(&self) -> usize {
        self.place
    }

    /// The tables that the letter is read against.
    pub fn tables(&self) -> &Tables {
        &self.tables
    }

    /// The published size of running memory, in bytes.
    pub fn size() -> usize {
        calls::running_size()
    }

    fn lend_own_room(&mut self, part: &[u8]) -> Result<Fed, Refused> {
        let fed = calls::feed(self.tables.bytes(), &mut self.running, part, &mut self.room);
        self.answered(fed)
    }

    fn answered(&mut self, fed: calls::Fed) -> Result<Fed, Refused> {
        Refused::unless_done(fed.number, self.place)?;
        self.place += fed.taken;
        Ok(Fed {
            taken: fed.taken,
            reports: fed.reports,
            steps: fed.steps,
        })
    }
}

impl fmt::Debug for Scanner {
    fn fmt(&self, f: &mut fmt::Formatter<'_>) -> fmt::Result {
        f.debug_struct("Scanner")
            .field("place", &self.place)
            .finish_non_exhaustive()
    }
}

#[cfg(test)]
mod tests {
    use super::{reports_in, Report, Scanner};
    use crate::{calls, Tables};

    /// The header's constants, and the answers' sizes as C has them.
    #[test]
    fn sizes_are_those_published() {
        assert_eq!((Tables::size(), Scanner::size()), (49_152, 10_528));
        assert_eq!(std::mem::size_of::<calls::Built>(), 16);
        assert_eq!(std::mem::size_of::<calls::Fed>(), 32);
    }

    #[test]
    fn reports_stand_in_pairs() {
        let room = [7, 17, 8, 18, 9];
        let reports: Vec<_> = reports_in(&room, 2).collect();
        let report = |phrase, place| Report { phrase, place };
        assert_eq!(reports, [report(7, 17), report(8, 18)]);
        assert_eq!(reports_in(&room, 0).next(), None);
    }

    #[test]
    fn scanners_and_tables_go_to_other_threads() {
        fn goes<T: Send + Sync>() {}
        goes::<Tables>();
        goes::<Scanner>();
    }

    /// What the library answers to memory that this crate never lends it.
    #[test]
    fn small_and_zeroed_memory_is_refused() {
        let (mut tables, mut running) = (vec![0; Tables::size()], vec![0; Scanner::size()]);
        let short = Scanner::size() - 1;
        assert_eq!(calls::build(&[], &mut tables[1..]).number, 1);
        assert_eq!(calls::begin(&tables[1..], &mut running), 1);
        assert_eq!(calls::begin(&tables, &mut running[..short]), 1);
        assert_eq!(calls::begin(&tables, &mut running), 12);
        assert_eq!(calls::feed(&tables, &mut running, b"a", &mut []).number, 12);
    }
}
