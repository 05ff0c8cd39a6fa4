//! Tables and running memory from elsewhere: flipped, overwritten, mixed from two books, or any bytes. Whatever passes the written test gets a defined
//! answer: every call ends within its time and touches nothing beyond its sizes.
use crate::chance::Chance;
use crate::fenced::Fenced;
use crate::letters;
use crate::library::{self, Fed, DONE, NOT_PASSED, NO_ROOM, TOO_LONG};
use crate::shapes;
use std::sync::mpsc;
use std::thread;
use std::time::{Duration, Instant};

/// The most that a call may take: far more than any takes, also on a machine with other work.
const LIMIT: Duration = Duration::from_secs(5);
/// The most that a whole test here may take. A call that does not end is told from this.
const PATIENCE: Duration = Duration::from_secs(300);
const UNTOUCHED_ROOM: u32 = 0xC0DE_C0DE;
const REPORTS: usize = 150;

/// What a book leaves behind: its tables, its running memory in the middle of a letter, and a letter to go on with.
struct Left {
    tables: Vec<u8>,
    running: Vec<u8>,
    letter: Vec<u8>,
}

fn left_by_books(chance: &mut Chance) -> Vec<Left> {
    let shapes = shapes::SMALL
        .iter()
        .chain(&shapes::WIDE[..2])
        .chain(&shapes::LARGEST);
    shapes.map(|(_, shape)| left_by(chance, *shape)).collect()
}

fn left_by(chance: &mut Chance, shape: fn(&mut Chance) -> crate::book::Book) -> Left {
    let book = shape(chance);
    let letter = letters::of_its_phrases(chance, &book, 300, b"ab.");
    let mut tables = vec![0; library::table_size()];
    let mut running = vec![0; library::running_size()];
    let mut room = vec![0; 2 * REPORTS * 200];
    assert_eq!(library::build(&book.written(), &mut tables).number, DONE);
    assert_eq!(library::begin(&tables, &mut running), DONE);
    let fed = library::feed(&tables, &mut running, &letter[..100], &mut room);
    assert_eq!(fed.taken, 100);
    Left {
        tables,
        running,
        letter: letter[100..].to_vec(),
    }
}

/// How many calls came to each end, and the longest time of one.
#[derive(Debug, Default)]
struct Ended {
    done: usize,
    refused: usize,
    longest: Duration,
}

/// Memory between fences, each of exactly its size, for calls with bytes from elsewhere.
struct Lab {
    tables: Fenced<u8>,
    running: Fenced<u8>,
    room: Fenced<u32>,
    ended: Ended,
}

impl Lab {
    fn new() -> Lab {
        Lab {
            tables: Fenced::zeroed(library::table_size()),
            running: Fenced::zeroed(library::running_size()),
            room: Fenced::zeroed(2 * REPORTS),
            ended: Ended::default(),
        }
    }

    /// Begins with these tables, and feeds; feeds also with the running memory as it is given.
    fn try_calls(&mut self, tables: &[u8], running: &[u8], part: &[u8]) {
        self.tables.copy_from_slice(tables);
        self.running.copy_from_slice(running);
        self.feed_twice(part);
        self.running.copy_from_slice(running);
        let started = Instant::now();
        let begun = library::begin(&self.tables, &mut self.running);
        self.timed(started);
        match begun {
            DONE => self.feed_twice(part),
            NOT_PASSED => assert!(self.running[..] == *running, "begin, refused, wrote"),
            other => panic!("begin answers {other}"),
        }
        assert!(self.tables[..] == *tables, "the tables were written");
    }

    /// Feeds the part, and once more from the same memory: a defined answer is the same answer.
    fn feed_twice(&mut self, part: &[u8]) {
        let before = self.running.to_vec();
        let fed = self.feed(part);
        let (after, room) = (self.running.to_vec(), self.room.to_vec());
        if fed.number != DONE {
            assert!(
                [NOT_PASSED, NO_ROOM, TOO_LONG].contains(&fed.number),
                "feed answers {}",
                fed.number
            );
            assert_eq!(fed, Fed::refused(fed.number));
            assert!(after == before, "feed, refused, changed its memory");
            self.ended.refused += 1;
            return;
        }
        self.ended.done += 1;
        self.running.copy_from_slice(&before);
        assert_eq!(self.feed(part), fed, "a second answer");
        assert!(
            self.running[..] == after[..] && self.room[..] == room[..],
            "a second answer in memory"
        );
    }

    fn feed(&mut self, part: &[u8]) -> Fed {
        self.room.fill(UNTOUCHED_ROOM);
        let started = Instant::now();
        let fed = library::feed(&self.tables, &mut self.running, part, &mut self.room);
        self.timed(started);
        assert!(
            fed.taken <= part.len() && fed.reports <= REPORTS,
            "feed answers {fed:?}"
        );
        let past = &self.room[2 * fed.reports..];
        assert!(
            past.iter().all(|&element| element == UNTOUCHED_ROOM),
            "room past the reports"
        );
        fed
    }

    fn timed(&mut self, started: Instant) {
        let time = started.elapsed();
        assert!(time < LIMIT, "a call took {time:?}");
        self.ended.longest = self.ended.longest.max(time);
    }
}

/// Runs the calls in a thread of their own, so that one without an end fails the test.
fn patiently(name: &str, calls: impl FnOnce(&mut Lab) + Send + 'static) {
    let (say, hear) = mpsc::channel();
    let worker = thread::spawn(move || {
        let mut lab = Lab::new();
        calls(&mut lab);
        say.send(lab.ended).unwrap();
    });
    match hear.recv_timeout(PATIENCE) {
        Ok(ended) => {
            println!("{name}: {ended:?}");
            assert!(ended.done > 0 && ended.refused > 0, "both are to be seen");
        }
        Err(mpsc::RecvTimeoutError::Timeout) => panic!("a call does not end"),
        Err(mpsc::RecvTimeoutError::Disconnected) => {
            std::panic::resume_unwind(worker.join().unwrap_err())
        }
    }
}

/// Every byte of a book's tables, one after the other, with a value that it did not have.
#[test]
fn each_byte_of_tables() {
    patiently("each byte of tables", |lab| {
        let chance = &mut Chance::seeded(31);
        let all = left_by_books(chance);
        for at in 0..library::table_size() {
            let left = chance.one_of(&all);
            let mut tables = left.tables.clone();
            let other = *chance.one_of(&[
                0x00,
                0xFF,
                0x7F,
                0x80,
                tables[at] ^ 1,
                tables[at].wrapping_add(1),
            ]);
            tables[at] = if other == tables[at] { !other } else { other };
            lab.try_calls(&tables, &left.running, &left.letter);
        }
    });
}

/// Every byte of the running memory, in the same way.
#[test]
fn each_byte_of_running_memory() {
    patiently("each byte of running memory", |lab| {
        let chance = &mut Chance::seeded(32);
        let all = left_by_books(chance);
        for at in 0..library::running_size() {
            for _ in 0..3 {
                let left = chance.one_of(&all);
                let mut running = left.running.clone();
                running[at] = *chance.one_of(&[0x00, 0xFF, 0x7F, !running[at], running[at] ^ 1]);
                lab.try_calls(&left.tables, &running, &left.letter);
            }
        }
    });
}

/// A stretch of memory overwritten with one value, with any bytes, or with what another book has there.
fn overwritten(chance: &mut Chance, memory: &[u8], other: &[u8]) -> Vec<u8> {
    let mut memory = memory.to_vec();
    for _ in 0..chance.between(1, 3) {
        let start = chance.below(memory.len());
        let longest = *chance.one_of(&[8, 600, 5_000, memory.len()]);
        let end = (start + chance.below(longest)).min(memory.len());
        let stretch = &mut memory[start..end];
        match chance.below(4) {
            0 => stretch.fill(0xFF),
            1 => stretch.fill(chance.byte()),
            2 => chance.fill(stretch),
            _ => stretch.copy_from_slice(&other[start..end]),
        }
    }
    memory
}

/// Tables and running memory with stretches overwritten, behind a head that may have stayed whole.
#[test]
fn stretches_overwritten_and_books_mixed() {
    patiently("stretches overwritten and books mixed", |lab| {
        let chance = &mut Chance::seeded(33);
        let all = left_by_books(chance);
        for _ in 0..20_000 {
            let (left, other) = (chance.one_of(&all), chance.one_of(&all));
            let tables = overwritten(chance, &left.tables, &other.tables);
            let running = if chance.once_in(2) {
                overwritten(chance, &left.running, &other.running)
            } else {
                left.running.clone()
            };
            lab.try_calls(&tables, &running, &left.letter);
        }
    });
}

/// Running memory of one book with the tables of another, as it is and with either one's first bytes in the other's.
#[test]
fn running_memory_of_another_book() {
    patiently("running memory of another book", |lab| {
        let chance = &mut Chance::seeded(34);
        for _ in 0..20 {
            let all = left_by_books(chance);
            for left in &all {
                for other in &all {
                    lab.try_calls(&left.tables, &other.running, &left.letter);
                    for head in [24, 32, 64, 288] {
                        let mixed = [&left.running[..head], &other.running[head..]].concat();
                        lab.try_calls(&left.tables, &mixed, &other.letter);
                    }
                }
            }
        }
    });
}

/// Any bytes at all behind the first few of real tables and real running memory.
#[test]
fn any_bytes_behind_a_real_head() {
    patiently("any bytes behind a real head", |lab| {
        let chance = &mut Chance::seeded(35);
        let all = left_by_books(chance);
        for _ in 0..3_000 {
            let left = chance.one_of(&all);
            let mut tables = left.tables.clone();
            let mut running = left.running.clone();
            let real = *chance.one_of(&[0, 8, 16, 24, 32]);
            chance.fill(&mut tables[real..]);
            let real = *chance.one_of(&[0, 8, 10, 32, running.len()]);
            chance.fill(&mut running[real..]);
            lab.try_calls(&tables, &running, &left.letter);
        }
    });
}

/// Tables that make one byte as dear as can be, by the layout in docs/DESIGN.md: each state fails to the one below it, every second one has all states
/// for children, and only the last of them goes on with the letter's byte.
#[test]
fn dearest_tables() {
    const STATES: usize = 2_048;
    const LABEL: usize = 6_688;
    const FAIL: usize = 8_736;
    const CHILD: usize = 12_832;
    patiently("dearest tables", |lab| {
        let chance = &mut Chance::seeded(36);
        for left in left_by_books(chance) {
            let mut tables = left.tables.clone();
            tables[8..10].copy_from_slice(&(STATES as u16).to_le_bytes());
            for state in 0..STATES {
                let fail = (state as u16).saturating_sub(1).to_le_bytes();
                let first_child = if state % 2 == 0 { 0 } else { STATES as u16 }.to_le_bytes();
                tables[LABEL + state] = if state == STATES - 1 { b'a' } else { b'b' };
                tables[FAIL + 2 * state..][..2].copy_from_slice(&fail);
                tables[CHILD + 2 * state..][..2].copy_from_slice(&first_child);
            }
            lab.try_calls(&tables, &left.running, &[b'a'; 100]);
            lab.try_calls(&tables, &vec![0; left.running.len()], &[b'a'; 100]);
        }
    });
}
