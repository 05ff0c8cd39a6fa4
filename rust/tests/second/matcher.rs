//! Where phrases end in a letter, by trying places: the paper's "What a match is", word for word. Slow, and meant to be.
use crate::book::{Book, Gap, Piece};

/// The keyword fills the bytes that end at this place.
fn fills(letter: &[u8], keyword: &[u8], end: usize) -> bool {
    letter[..end].ends_with(keyword)
}

/// So many bytes lie between least and most, both included; an open gap has no upper limit.
fn admits(gap: Gap, bytes_between: usize) -> bool {
    bytes_between >= gap.least && gap.most.map_or(true, |most| bytes_between <= most)
}

/// The piece may end here, when the previous one ended there (at 0 for the first). Keywords of one phrase never overlap.
fn follows(letter: &[u8], piece: &Piece, previous: usize, end: usize) -> bool {
    let length = piece.keyword.len();
    end >= previous + length
        && admits(piece.gap, end - length - previous)
        && fills(letter, &piece.keyword, end)
}

/// There are places e1, .., em, the last being `place`: all are tried. The time grows with the power of the pieces.
pub fn matches_at(letter: &[u8], pieces: &[Piece], place: usize) -> bool {
    fn matches_after(letter: &[u8], pieces: &[Piece], previous: usize, place: usize) -> bool {
        match pieces {
            [] => previous == place,
            [piece, rest @ ..] => (1..=place).any(|end| {
                follows(letter, piece, previous, end) && matches_after(letter, rest, end, place)
            }),
        }
    }
    matches_after(letter, pieces, 0, place)
}

/// Every place at which the pieces match. The ends of the first pieces are kept and tried as previous ends of the next one.
pub fn ends(letter: &[u8], pieces: &[Piece]) -> Vec<usize> {
    let mut ends = vec![0];
    for piece in pieces {
        let previous_ends = ends;
        let has_previous = |end: usize| {
            let mut newest_first = previous_ends.iter().rev();
            newest_first.any(|&previous| follows(letter, piece, previous, end))
        };
        ends = (1..=letter.len())
            .filter(|&end| fills(letter, &piece.keyword, end) && has_previous(end))
            .collect();
    }
    ends
}

/// The reports of a letter, (phrase number, place): once for each pair, by place, then by phrase number.
pub fn reports(book: &Book, letter: &[u8]) -> Vec<(u32, u32)> {
    let mut reports = Vec::new();
    for phrase in &book.phrases {
        for place in ends(letter, &phrase.pieces) {
            reports.push((phrase.number, place as u32));
        }
    }
    reports.sort_by_key(|&(number, place)| (place, number));
    reports
}
