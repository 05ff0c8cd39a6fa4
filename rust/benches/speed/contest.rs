//! The scanner and the textbook on the same book and the same letter, in the same parts and with the same room.
use crate::book::Book;
use crate::textbook::{Room, Textbook};
use crate::timing::{median, seconds, speed, PASSES};
use tsuvrankhe::{Scanner, Tables};

/// The letter comes in parts of this length, as the listing's does.
pub const PART: usize = 4_096;
/// There is room for so many reports, which is emptied when it is full.
const REPORTS: usize = 4_096;

/// Both automata of one book.
pub struct Contest {
    pub name: &'static str,
    scanner: Scanner,
    room: Vec<u32>,
    textbook: Textbook,
}

/// What a pass came to.
#[derive(Debug, PartialEq, Eq)]
pub struct Came {
    pub reports: u64,
    pub steps: u64,
}

/// The middle speeds, in MB/s, and the middle ratio.
pub struct Speeds {
    pub ours: f64,
    pub textbook: f64,
    pub ratio: f64,
}

impl Contest {
    pub fn of(name: &'static str, book: &Book) -> Contest {
        let bytes = book.written();
        let tables = Tables::build(&bytes).expect("the book is sound");
        let (scanner, textbook) = (Scanner::begin(&tables), Textbook::build(&bytes));
        let room = vec![0; 2 * REPORTS];
        Contest {
            name,
            scanner,
            room,
            textbook,
        }
    }

    pub fn states(&self) -> usize {
        self.textbook.states()
    }

    /// One pass of the scanner over the letter. Each room of reports is given to `look`.
    fn ours(&mut self, letter: &[u8], mut look: impl FnMut(&[u32])) -> Came {
        self.scanner.begin_again();
        let mut came = Came {
            reports: 0,
            steps: 0,
        };
        for part in letter.chunks(PART) {
            let mut taken = 0;
            while taken < part.len() {
                let fed = self
                    .scanner
                    .feed_into(&part[taken..], &mut self.room)
                    .expect("a part");
                look(&self.room[..2 * fed.reports]);
                taken += fed.taken;
                came.reports += fed.reports as u64;
                came.steps += fed.steps;
            }
        }
        came
    }

    /// One pass of the textbook, and all its reports if they are to be kept.
    fn textbook(&self, letter: &[u8], keep: bool) -> (Came, Vec<u32>) {
        let mut reading = self.textbook.begin();
        let mut room = Room::of(REPORTS);
        room.kept = keep.then(Vec::new);
        for part in letter.chunks(PART) {
            self.textbook.feed(&mut reading, part, &mut room);
        }
        room.empty();
        let came = Came {
            reports: room.count,
            steps: reading.steps,
        };
        (came, room.kept.unwrap_or_default())
    }

    /// Every report and all steps of both are the same.
    pub fn compare(&mut self, letter: &[u8]) -> Came {
        let mut reports = Vec::new();
        let came = self.ours(letter, |room| reports.extend_from_slice(room));
        let (textbook, textbook_reports) = self.textbook(letter, true);
        assert_eq!(came, textbook, "{}: reports and steps", self.name);
        assert!(
            reports == textbook_reports,
            "{}: the reports differ",
            self.name
        );
        came
    }

    /// Five passes of each, in turn. A ratio is that of two passes next to each other.
    pub fn measure(&mut self, letter: &[u8]) -> Speeds {
        let came = self.compare(letter);
        let (mut ours, mut textbook, mut ratio) = (Vec::new(), Vec::new(), Vec::new());
        for _ in 0..PASSES {
            let time = seconds(|| assert_eq!(self.ours(letter, |_| ()), came));
            let textbook_time = seconds(|| assert_eq!(self.textbook(letter, false).0, came));
            ours.push(speed(letter.len(), time));
            textbook.push(speed(letter.len(), textbook_time));
            ratio.push(textbook_time / time);
        }
        Speeds {
            ours: median(ours),
            textbook: median(textbook),
            ratio: median(ratio),
        }
    }
}

/// The textbook alone on a book and a letter from elsewhere: its best speed of several passes, its reports and steps.
pub fn textbook_alone(book: &[u8], letter: &[u8]) -> (f64, Came) {
    let textbook = Textbook::build(book);
    let pass = || {
        let (mut reading, mut room) = (textbook.begin(), Room::of(REPORTS));
        letter
            .chunks(PART)
            .for_each(|part| textbook.feed(&mut reading, part, &mut room));
        room.empty();
        Came {
            reports: room.count,
            steps: reading.steps,
        }
    };
    let came = pass();
    let time = |_| seconds(|| assert_eq!(pass(), came));
    let best = (0..PASSES).map(time).fold(f64::INFINITY, f64::min);
    (speed(letter.len(), best), came)
}
