//! A desk that lends memory to the calls and looks at all of it afterwards: what was to be written, and what was to be left alone.
use crate::expected::Expected;
use crate::fenced::Fenced;
use crate::library::{self, Built, Fed, DONE, NOT_PASSED, NO_ROOM, TOO_SMALL};

/// How many bytes are lent past a published size, when more is lent than needed.
const MARGIN: usize = 37;
/// The most reports that there is ever room for.
const MOST_ROOM: usize = 1 << 16;
/// What memory holds that no call may touch.
const LEFT_ALONE: u8 = 0xA5;
const LEFT_ALONE_ROOM: u32 = 0xA5C3_5A3C;

/// How a letter is handed in.
#[derive(Clone, Debug)]
pub struct Way {
    pub parts: Vec<usize>,
    /// How many reports there is room for in each call.
    pub room: usize,
    /// The room has an odd last element.
    pub odd: bool,
    /// More memory is lent than the published sizes.
    pub margin: bool,
}

/// What was counted while letters were compared.
#[derive(Clone, Copy, Debug, Default)]
pub struct Seen {
    pub ways: usize,
    pub calls: usize,
    pub refused: usize,
    pub reports: usize,
    pub steps: u64,
}

/// Memory of one desk. The last byte of each lies at a fence.
pub struct Desk {
    tables: Fenced<u8>,
    running: Fenced<u8>,
    room: Fenced<u32>,
    part: Fenced<u8>,
    margin: usize,
    pub seen: Seen,
}

impl Desk {
    pub fn new() -> Desk {
        Desk {
            tables: Fenced::zeroed(library::table_size() + MARGIN),
            running: Fenced::zeroed(library::running_size() + MARGIN),
            room: Fenced::zeroed(2 * MOST_ROOM + 1),
            part: Fenced::zeroed(1 << 17),
            margin: 0,
            seen: Seen::default(),
        }
    }

    /// The memory as it is lent: exactly of its size, or with a margin.
    fn lent_tables(&mut self) -> &mut [u8] {
        self.tables.last(library::table_size() + self.margin)
    }

    fn lent_running(&mut self) -> &mut [u8] {
        self.running.last(library::running_size() + self.margin)
    }

    /// Lends memory with a margin from now on, or without.
    fn lend_margin(&mut self, margin: bool) {
        self.margin = if margin { MARGIN } else { 0 };
        let tables = self.tables.len() - MARGIN;
        self.tables[tables..].fill(LEFT_ALONE);
        self.running.fill(LEFT_ALONE);
    }

    /// Builds the book's tables in memory that held something else, and compares the answer and every byte that it may not touch. `expected`
    /// is build's number and offset.
    pub fn build(&mut self, book: &[u8], expected: Built, margin: bool) {
        self.margin = if margin { MARGIN } else { 0 };
        let size = library::table_size();
        self.tables.fill(LEFT_ALONE);
        let lent = self.lent_tables();
        assert_eq!(library::build(book, lent), expected, "build's answer");
        assert!(
            all_are(&lent[size..], LEFT_ALONE),
            "build went past the size"
        );
        let zero = all_are(&lent[..size], 0);
        assert_eq!(
            zero,
            expected.number != DONE,
            "zeros if refused, and only then"
        );
        if expected.number != DONE {
            let running = self.running.last(library::running_size());
            let tables = self.tables.last(size + self.margin);
            assert_eq!(
                library::begin(tables, running),
                NOT_PASSED,
                "zeroed tables, begin"
            );
        }
    }

    /// The tables that were built, without the margin.
    pub fn tables(&mut self) -> Vec<u8> {
        self.lent_tables()[..library::table_size()].to_vec()
    }

    /// The running memory, without the margin.
    pub fn running(&mut self) -> Vec<u8> {
        self.lent_running()[..library::running_size()].to_vec()
    }

    /// Reads the letter in this way, with these tables. Every answer, every report, and all memory around it is compared. What the running memory
    /// holds in the end is given back.
    pub fn read(
        &mut self,
        tables: &[u8],
        letter: &[u8],
        expected: &Expected,
        way: &Way,
    ) -> Vec<u8> {
        self.lend_margin(way.margin);
        let size = library::table_size();
        self.lent_tables()[..size].copy_from_slice(tables);
        self.begin();
        let mut place = 0;
        for (at, &length) in way.parts.iter().enumerate() {
            let mut rest = &letter[place..place + length];
            loop {
                let fed = self.feed(rest, place, expected, way);
                place += fed.taken;
                rest = &rest[fed.taken..];
                if rest.is_empty() {
                    break;
                }
            }
            if at == 0 {
                self.refusals_change_nothing(expected);
            }
        }
        assert_eq!(place, letter.len(), "the parts of the way are the letter");
        assert_eq!(
            self.lent_tables()[..size],
            *tables,
            "feed wrote to the tables"
        );
        self.margins_are_left_alone();
        self.seen.ways += 1;
        self.running()
    }

    fn begin(&mut self) {
        let running = self.running.last(library::running_size() + self.margin);
        let tables = self.tables.last(library::table_size() + self.margin);
        assert_eq!(library::begin(tables, running), DONE, "begin's answer");
    }

    /// One call of feed, compared. The part's last byte lies at a fence too.
    fn feed(&mut self, rest: &[u8], place: usize, expected: &Expected, way: &Way) -> Fed {
        let answer = expected.feed(place, rest.len(), way.room);
        let part = self.part.last(rest.len());
        part.copy_from_slice(rest);
        let room = self.room.last(2 * way.room + usize::from(way.odd));
        room.fill(LEFT_ALONE_ROOM);
        let tables = self.tables.last(library::table_size() + self.margin);
        let running = self.running.last(library::running_size() + self.margin);
        let fed = library::feed(tables, running, part, room);
        assert_eq!(fed, answer.fed, "feed's answer at place {place}");
        let written = answer
            .reports
            .iter()
            .flat_map(|&(number, place)| [number, place]);
        assert!(
            room.iter().copied().take(2 * fed.reports).eq(written),
            "feed's reports at place {place}"
        );
        let past = &room[2 * fed.reports..];
        assert!(
            past.iter().all(|&number| number == LEFT_ALONE_ROOM),
            "room past the reports"
        );
        self.seen.calls += 1;
        self.seen.reports += fed.reports;
        self.seen.steps += fed.steps;
        fed
    }

    /// Refused calls in the middle of a letter, with each of feed's numbers that memory and room decide.
    fn refusals_change_nothing(&mut self, expected: &Expected) {
        let (tables, running) = (self.tables(), self.running());
        let zeros = vec![0; tables.len()];
        let (enough, below) = (2 * expected.phrases(), 2 * expected.phrases() - 1);
        feed_refuses(TOO_SMALL, &tables[1..], &running, b"a", enough);
        feed_refuses(TOO_SMALL, &tables, &running[1..], b"a", enough);
        feed_refuses(NOT_PASSED, &zeros, &running, b"a", enough);
        feed_refuses(NOT_PASSED, &tables, &zeros[..running.len()], b"a", enough);
        feed_refuses(NO_ROOM, &tables, &running, b"a", below);
        feed_refuses(NO_ROOM, &tables, &running, b"", below);
        self.seen.refused += 6;
    }

    fn margins_are_left_alone(&mut self) {
        let (tables, running) = (library::table_size(), library::running_size());
        assert!(
            all_are(&self.lent_tables()[tables..], LEFT_ALONE),
            "tables past the size"
        );
        assert!(
            all_are(&self.lent_running()[running..], LEFT_ALONE),
            "running memory past the size"
        );
    }
}

/// A call of feed that must be refused with this number: nothing is taken, reported, counted or changed.
pub fn feed_refuses(number: u32, tables: &[u8], running: &[u8], part: &[u8], room_length: usize) {
    let mut kept = running.to_vec();
    let mut room = vec![LEFT_ALONE_ROOM; room_length];
    let fed = library::feed(tables, &mut kept, part, &mut room);
    assert_eq!(fed, Fed::refused(number), "feed, to be refused");
    assert!(kept == running, "feed, refused, changed its memory");
    assert!(
        room.iter().all(|&one| one == LEFT_ALONE_ROOM),
        "feed, refused, wrote reports"
    );
}

pub fn all_are(bytes: &[u8], byte: u8) -> bool {
    bytes.iter().all(|&one| one == byte)
}

impl Seen {
    /// What was seen since an earlier count.
    pub fn since(self, before: Seen) -> String {
        format!(
            "{} ways, {} calls, {} refused ones, {} reports, {} steps",
            self.ways - before.ways,
            self.calls - before.calls,
            self.refused - before.refused,
            self.reports - before.reports,
            self.steps - before.steps
        )
    }
}
