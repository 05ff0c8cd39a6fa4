//! The calls through the safe crate: the paper's rows, refusals, cuts, room and threads.
use std::thread;
use tsuvrankhe::{reports_in, Fed, Refusal, Refused, Report, Scanner, Tables, MOST_PHRASES};

// ── Books ──

/// A gap as it is written: least and most, or least alone.
enum Gap {
    Bounded(u16, u16),
    Open(u16),
}
use Gap::{Bounded, Open};

/// A gap and a keyword.
type Piece<'a> = (Gap, &'a str);

/// The bytes of a book: phrases 1, 2, .., each with rights code 1.
fn book(phrases: &[&[Piece]]) -> Vec<u8> {
    let mut bytes = vec![0x01, 1];
    let two = |n: usize| u16::try_from(n).unwrap().to_be_bytes();
    for (i, pieces) in phrases.iter().enumerate() {
        bytes.push(0x02);
        bytes.extend(two(i + 1));
        bytes.push(1);
        for (gap, keyword) in pieces.iter() {
            match gap {
                Bounded(least, most) => {
                    bytes.push(0x03);
                    bytes.extend(least.to_be_bytes());
                    bytes.extend(most.to_be_bytes());
                }
                Open(least) => {
                    bytes.push(0x04);
                    bytes.extend(least.to_be_bytes());
                }
            }
            bytes.push(0x80 + u8::try_from(keyword.len()).unwrap());
            bytes.extend(keyword.bytes());
        }
    }
    bytes.push(0x7f);
    bytes.extend(two(phrases.len()));
    bytes
}

/// 1 ~aa, 2 ~abaaa, 3 ~abab: row L of the paper.
fn row_l() -> Tables {
    Tables::build(&book(&[
        &[(Open(0), "aa")],
        &[(Open(0), "abaaa")],
        &[(Open(0), "abab")],
    ]))
    .unwrap()
}

fn scan(tables: &Tables, parts: &[&[u8]]) -> (Vec<(u32, u32)>, u64) {
    let mut scanner = Scanner::begin(tables);
    let mut reports = Vec::new();
    let mut steps = 0;
    for part in parts {
        let fed = scanner
            .feed(part, |report| reports.push((report.phrase, report.place)))
            .unwrap();
        assert_eq!(fed.taken, part.len());
        steps += fed.steps;
    }
    (reports, steps)
}

// ── The paper's rows ──

#[test]
fn rows_a_to_k() {
    let gap = |least, most, second| vec![(Open(0), "a"), (Bounded(least, most), second)];
    let rows: [(Vec<Piece>, &str, &[u32]); 11] = [
        (vec![(Bounded(0, 0), "ab")], "abab", &[2]),
        (vec![(Open(0), "ab")], "abab", &[2, 4]),
        (gap(1, 2, "a"), "aa", &[]),
        (gap(1, 2, "a"), "aba", &[3]),
        (gap(1, 2, "a"), "abba", &[4]),
        (gap(1, 2, "a"), "abbba", &[]),
        (gap(1, 2, "a"), "aaaaa", &[3, 4, 5]),
        (gap(2, 2, "b"), "aaxb", &[4]),
        (vec![(Open(0), "aa"), (Bounded(0, 0), "aa")], "aaa", &[]),
        (vec![(Open(0), "aa"), (Bounded(0, 0), "aa")], "aaaa", &[4]),
        (vec![(Open(0), "a"), (Open(0), "b")], "aab", &[3]),
    ];
    for (phrase, letter, places) in rows {
        let tables = Tables::build(&book(&[&phrase])).unwrap();
        let expected: Vec<_> = places.iter().map(|&place| (1, place)).collect();
        assert_eq!(scan(&tables, &[letter.as_bytes()]).0, expected, "{letter}");
    }
}

#[test]
fn row_l_cut_anywhere() {
    let letter = b"abaaabab";
    let expected = (vec![(1, 4), (1, 5), (2, 5), (3, 8)], 2);
    for cut in 0..=letter.len() {
        let (first, second) = letter.split_at(cut);
        assert_eq!(scan(&row_l(), &[first, second]), expected, "cut at {cut}");
    }
    let bytes: Vec<&[u8]> = letter.chunks(1).collect();
    assert_eq!(scan(&row_l(), &bytes), expected, "byte by byte");
    assert_eq!(scan(&row_l(), &[b""]), (vec![], 0), "row M");
}

#[test]
fn row_l_with_room_for_three() {
    let letter = b"abaaabab";
    let mut scanner = Scanner::begin(&row_l());
    let mut room = [77; 7];
    let fed = |taken, reports, steps| Fed {
        taken,
        reports,
        steps,
    };

    assert_eq!(scanner.feed_into(letter, &mut room), Ok(fed(4, 1, 0)));
    assert_eq!(room, [1, 4, 77, 77, 77, 77, 77]);
    assert_eq!(scanner.feed_into(&letter[4..], &mut room), Ok(fed(1, 2, 0)));
    assert_eq!(room, [1, 5, 2, 5, 77, 77, 77]);
    assert_eq!(scanner.feed_into(&letter[5..], &mut room), Ok(fed(3, 1, 2)));
    let last: Vec<_> = reports_in(&room, 1).collect();
    assert_eq!(
        last,
        [Report {
            phrase: 3,
            place: 8
        }]
    );
    assert_eq!(scanner.place(), 8);
}

// ── Refusals ──

#[test]
fn room_below_the_phrases_is_refused_with_10() {
    let mut scanner = Scanner::begin(&row_l());
    scanner.feed(b"ab", |_| {}).unwrap();
    let refused = Refused {
        refusal: Refusal::NoRoom,
        at: 2,
    };
    for part in [&b"aaabab"[..], b""] {
        for mut room in [vec![77; 4], vec![77; 5], vec![]] {
            let before = room.clone();
            assert_eq!(scanner.feed_into(part, &mut room), Err(refused));
            assert_eq!(room, before);
        }
    }
    let mut reports = Vec::new();
    scanner
        .feed(b"aaabab", |report| reports.push(report.place))
        .unwrap();
    assert_eq!(reports, [4, 5, 5, 8], "the refused calls changed nothing");
}

#[test]
fn books_are_refused_by_number_and_offset() {
    let refused = |bytes: &[u8]| match Tables::build(bytes) {
        Ok(_) => (0, bytes.len()),
        Err(refused) => (refused.refusal.number(), refused.at),
    };
    let one = |gap, keyword| book(&[&[(gap, keyword)]]);
    assert_eq!(refused(b""), (2, 0));
    assert_eq!(refused(&one(Open(0), "a")[..10]), (2, 9));
    assert_eq!(refused(&one(Open(224), "a")), (0, 14));
    assert_eq!(refused(&one(Open(225), "a")), (4, 6));
    assert_eq!(refused(&one(Bounded(0, 60_000), "a")), (0, 16));
    assert_eq!(refused(&one(Bounded(0, 60_001), "a")), (4, 6));
    assert_eq!(refused(&one(Bounded(9, 9), "a")), (0, 16));
    assert_eq!(refused(&one(Bounded(9, 1), "a")), (5, 6));
    assert_eq!(refused(&one(Open(0), "")), (3, 9));
    assert_eq!(refused(&book(&[])), (3, 2));
    assert_eq!(refused(&book(&[&[]])), (3, 6));
    let mut wrong = one(Open(0), "a");
    wrong[13] = 2;
    assert_eq!(refused(&wrong), (8, 11));
    wrong[13] = 1;
    wrong.push(0);
    assert_eq!(refused(&wrong), (3, 14));
}

// ── Much of everything ──

/// 128 phrases, all of which end at every place: more reports a part than the scanner's own room holds.
#[test]
fn a_part_is_used_up_whatever_is_reported() {
    let phrase: &[Piece] = &[(Open(0), "a")];
    let tables = Tables::build(&book(&[phrase; MOST_PHRASES])).unwrap();
    let letter = [b'a'; 1000];
    let mut expected =
        (1..=1000).flat_map(|place| (1..=128).map(move |phrase| Report { phrase, place }));
    let mut scanner = Scanner::begin(&tables);
    let fed = scanner
        .feed(&letter, |report| assert_eq!(Some(report), expected.next()))
        .unwrap();
    assert_eq!((fed.taken, fed.reports, fed.steps), (1000, 128_000, 999));
    assert_eq!(expected.next(), None);
}

#[test]
fn a_scanner_begins_again() {
    let mut scanner = Scanner::begin(&row_l());
    for _ in 0..2 {
        let mut reports = Vec::new();
        scanner
            .feed(b"abaaa", |report| reports.push(report.place))
            .unwrap();
        assert_eq!((reports, scanner.place()), (vec![4, 5, 5], 5));
        scanner.begin_again();
        assert_eq!(scanner.place(), 0);
    }
}

#[test]
fn scanners_of_one_book_run_in_many_threads() {
    let tables = row_l();
    let expected = scan(&tables, &[&b"abaaabab".repeat(100)]);
    let threads: Vec<_> = (0..8)
        .map(|_| {
            let tables = tables.clone();
            thread::spawn(move || scan(&tables, &[&b"abaaabab".repeat(100)]))
        })
        .collect();
    for thread in threads {
        assert_eq!(thread.join().unwrap(), expected);
    }
}

/// Takes 4 GiB of address space, so it is run by hand: `cargo test --release -- --ignored`.
#[test]
#[ignore]
fn a_letter_past_the_largest_place_is_refused_with_11() {
    let largest = u32::MAX as usize;
    let zeros = vec![0; largest + 1];
    let mut scanner = Scanner::begin(&row_l());
    let too_long = |at| {
        Err(Refused {
            refusal: Refusal::TooLong,
            at,
        })
    };
    assert_eq!(scanner.feed(&zeros, |_| {}), too_long(0));
    scanner.feed(b"ab", |_| {}).unwrap();
    assert_eq!(scanner.feed(&zeros[..largest - 1], |_| {}), too_long(2));
    let mut room = [77; 6];
    assert_eq!(
        scanner.feed_into(&zeros[..largest - 1], &mut room),
        too_long(2)
    );
    assert_eq!(room, [77; 6]);
    let fed = scanner.feed(&zeros[..largest - 2], |_| {}).unwrap();
    assert_eq!((fed.taken, fed.reports), (largest - 2, 0));
    assert_eq!(scanner.feed(b"a", |_| {}), too_long(largest));
    assert_eq!(scanner.feed(b"", |_| {}), Ok(Fed::default()));
}
