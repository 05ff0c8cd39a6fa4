//! The opponent: a textbook Aho-Corasick automaton with a full table, 256 cells of 16 bits for each state, and the windows of phrases with gaps. It
//! trusts its book, and is written for speed alone: indices that the building keeps within their arrays are not looked at again.

const LARGEST_STATES: usize = 2_048;
const LARGEST_PIECES: usize = 256;
/// More places than the longest time that a window waits.
const SLOTS: usize = 256;
/// In a cell: the state's number, and whether a keyword ends there.
const STATE: u16 = 0x7FFF;
const ENDS: u16 = 0x8000;
/// The closing place of a window that never closes.
const NEVER: u64 = u64::MAX;

/// Reports that are being gathered. Its owner empties the room when it is full.
pub struct Room {
    elements: Vec<u32>,
    used: usize,
    pub count: u64,
    /// All reports, if they are to be kept.
    pub kept: Option<Vec<u32>>,
}

impl Room {
    /// Room for so many reports.
    pub fn of(reports: usize) -> Room {
        let elements = vec![0; 2 * reports];
        Room {
            elements,
            used: 0,
            count: 0,
            kept: None,
        }
    }

    #[inline(always)]
    fn put(&mut self, number: u32, place: u32) {
        if self.used + 2 > self.elements.len() {
            self.empty();
        }
        // SAFETY: the test above leaves two elements free; a room is for one report at least.
        unsafe {
            *self.elements.get_unchecked_mut(self.used) = number;
            *self.elements.get_unchecked_mut(self.used + 1) = place;
        }
        self.used += 2;
    }

    #[inline(never)]
    pub fn empty(&mut self) {
        if let Some(kept) = &mut self.kept {
            kept.extend(&self.elements[..self.used]);
        }
        self.count += self.used as u64 / 2;
        self.used = 0;
    }
}

#[derive(Clone, Copy)]
struct Piece {
    /// From the previous end to the place where the window opens: least and the keyword's length.
    delay: u16,
    last: bool,
    rank: u8,
    /// From where the window opens to its last place, or `NEVER`.
    width: u64,
}

pub struct Textbook {
    /// Cell `state * 256 + byte`.
    next: Vec<u16>,
    /// For each state, how many more states are its suffixes than its parent's.
    gain: Vec<i8>,
    /// How many nonempty states are a state's suffixes.
    depth: Vec<u8>,
    /// Where the pieces that end in a state begin among the endings; they end where the next state's begin.
    first_ending: Vec<u32>,
    endings: Vec<u8>,
    pieces: Vec<Piece>,
    fronts: Vec<u8>,
    numbers: Vec<u32>,
}

/// What is kept between parts of a letter.
pub struct Reading {
    state: u16,
    place: u64,
    pub steps: u64,
    /// The last place of each piece's newest window, 0 where none has opened.
    closing: [u64; LARGEST_PIECES],
    waiting: [u16; SLOTS],
    waits: [[u8; LARGEST_PIECES]; SLOTS],
}

impl Textbook {
    /// The automaton of a sound book.
    pub fn build(book: &[u8]) -> Textbook {
        let mut growing = Growing::new();
        growing.read(book);
        growing.finish()
    }

    pub fn states(&self) -> usize {
        self.depth.len()
    }

    pub fn begin(&self) -> Box<Reading> {
        let mut reading = Box::new(Reading {
            state: 0,
            place: 0,
            steps: 0,
            closing: [0; LARGEST_PIECES],
            waiting: [0; SLOTS],
            waits: [[0; LARGEST_PIECES]; SLOTS],
        });
        for &piece in &self.fronts {
            reading.wait(piece, 0, self.pieces[usize::from(piece)].delay);
        }
        reading
    }

    pub fn feed(&self, reading: &mut Reading, part: &[u8], room: &mut Room) {
        let mut state = usize::from(reading.state);
        let mut place = reading.place;
        // The steps of a move are what the state loses in depth; the gains and losses of a part add up to what its ends differ by.
        let mut steps = i64::from(self.depth[state]);
        for &byte in part {
            place += 1;
            let slot = place as usize % SLOTS;
            // SAFETY: a slot is below SLOTS; cells hold numbers of states, of which every table has an entry.
            let cell = unsafe {
                if *reading.waiting.get_unchecked(slot) != 0 {
                    self.open(reading, slot, place);
                }
                *self.next.get_unchecked(state << 8 | usize::from(byte))
            };
            state = usize::from(cell & STATE);
            steps += i64::from(unsafe { *self.gain.get_unchecked(state) });
            if cell & ENDS != 0 {
                self.end_pieces(reading, state, place, room);
            }
        }
        reading.steps += (steps - i64::from(self.depth[state])) as u64;
        reading.state = state as u16;
        reading.place = place;
    }

    /// The windows that open at this place get their closing place.
    #[inline]
    fn open(&self, reading: &mut Reading, slot: usize, place: u64) {
        let count = usize::from(reading.waiting[slot]);
        for &piece in &reading.waits[slot][..count] {
            let width = self.pieces[usize::from(piece)].width;
            reading.closing[usize::from(piece)] = place.saturating_add(width);
        }
        reading.waiting[slot] = 0;
    }

    /// The pieces whose keyword ends here, if their window is open: the last of a phrase is reported, any other lets the next one wait.
    #[inline]
    fn end_pieces(&self, reading: &mut Reading, state: usize, place: u64, room: &mut Room) {
        let mut marks = [0_u64; 2];
        // SAFETY: a state has its endings within the list, which holds numbers of pieces; a piece that is not a phrase's last has a next one.
        unsafe {
            let first = *self.first_ending.get_unchecked(state) as usize;
            let past = *self.first_ending.get_unchecked(state + 1) as usize;
            for &piece in self.endings.get_unchecked(first..past) {
                if *reading.closing.get_unchecked(usize::from(piece)) < place {
                    continue;
                }
                let Piece { last, rank, .. } = *self.pieces.get_unchecked(usize::from(piece));
                if last {
                    *marks.get_unchecked_mut(usize::from(rank >> 6 & 1)) |= 1 << (rank & 63);
                } else {
                    let delay = self.pieces.get_unchecked(usize::from(piece) + 1).delay;
                    reading.wait(piece + 1, place, delay);
                }
            }
        }
        for (half, mut marks) in (0..).step_by(64).zip(marks) {
            while marks != 0 {
                let rank = half + marks.trailing_zeros() as usize;
                room.put(self.numbers[rank], place as u32);
                marks &= marks - 1;
            }
        }
    }
}

impl Reading {
    #[inline(always)]
    fn wait(&mut self, piece: u8, place: u64, delay: u16) {
        let slot = (place + u64::from(delay)) as usize % SLOTS;
        let count = usize::from(self.waiting[slot]);
        // A piece waits once in a slot, so that a slot has place for all.
        self.waits[slot][count % LARGEST_PIECES] = piece;
        self.waiting[slot] += 1;
    }
}

/// An automaton that is being built.
struct Growing {
    next: Vec<u16>,
    parent: Vec<u16>,
    own: Vec<Vec<u8>>,
    pieces: Vec<Piece>,
    fronts: Vec<u8>,
    numbers: Vec<u32>,
}

impl Growing {
    fn new() -> Growing {
        Growing {
            next: vec![0; 256],
            parent: vec![0],
            own: vec![Vec::new()],
            pieces: Vec::new(),
            fronts: Vec::new(),
            numbers: Vec::new(),
        }
    }

    /// Reads the records of a sound book.
    fn read(&mut self, book: &[u8]) {
        let two = |at: usize| u16::from_be_bytes([book[at], book[at + 1]]);
        let (mut at, mut least, mut width, mut front) = (2, 0, NEVER, true);
        loop {
            match book[at] {
                0x02 => {
                    self.numbers.push(u32::from(two(at + 1)));
                    front = true;
                    at += 4;
                }
                0x03 => {
                    least = two(at + 1);
                    width = u64::from(two(at + 3) - least);
                    at += 5;
                }
                0x04 => {
                    least = two(at + 1);
                    width = NEVER;
                    at += 3;
                }
                0x7F => return,
                kind => {
                    let keyword = &book[at + 1..][..usize::from(kind - 0x80)];
                    self.add(keyword, least, width, front);
                    front = false;
                    at += 1 + keyword.len();
                }
            }
        }
    }

    fn add(&mut self, keyword: &[u8], least: u16, width: u64, front: bool) {
        let piece = self.pieces.len() as u8;
        if front {
            self.fronts.push(piece);
        } else {
            self.pieces.last_mut().unwrap().last = false;
        }
        let rank = self.numbers.len() as u8 - 1;
        let delay = least + keyword.len() as u16;
        self.pieces.push(Piece {
            delay,
            last: true,
            rank,
            width,
        });
        let mut state = 0;
        for &byte in keyword {
            let cell = state << 8 | usize::from(byte);
            if self.next[cell] == 0 {
                self.next[cell] = self.parent.len() as u16;
                self.parent.push(state as u16);
                self.own.push(Vec::new());
                self.next.resize(self.next.len() + 256, 0);
            }
            state = usize::from(self.next[cell]);
        }
        self.own[state].push(piece);
    }

    /// Fills the cells that are still empty, shorter states first, from the row of the state's failure.
    fn finish(mut self) -> Textbook {
        let states = self.parent.len();
        assert!(states <= LARGEST_STATES);
        let (mut fail, mut depth) = (vec![0_usize; states], vec![0_u8; states]);
        let mut ending: Vec<Vec<u8>> = vec![Vec::new(); states];
        let mut in_turn: Vec<usize> = vec![0];
        for turn in 0..states {
            let state = in_turn[turn];
            if state != 0 {
                depth[state] = depth[fail[state]] + 1;
                ending[state] = [&self.own[state][..], &ending[fail[state]]].concat();
            }
            for byte in 0..256 {
                let child = usize::from(self.next[state << 8 | byte]);
                let instead = if state == 0 {
                    0
                } else {
                    self.next[fail[state] << 8 | byte]
                };
                if child == 0 {
                    self.next[state << 8 | byte] = instead;
                } else {
                    fail[child] = usize::from(instead);
                    in_turn.push(child);
                }
            }
        }
        for cell in &mut self.next {
            if !ending[usize::from(*cell)].is_empty() {
                *cell |= ENDS;
            }
        }
        let gain = |state: usize| depth[state] as i8 - depth[usize::from(self.parent[state])] as i8;
        let mut first_ending = vec![0];
        for state in 0..states {
            first_ending.push(first_ending[state] + ending[state].len() as u32);
        }
        Textbook {
            gain: (0..states).map(gain).collect(),
            next: self.next,
            depth,
            first_ending,
            endings: ending.concat(),
            pieces: self.pieces,
            fronts: self.fronts,
            numbers: self.numbers,
        }
    }
}
