//! Why a call is refused, by the numbers of the phrase book's paper.
use std::error::Error;
use std::fmt;

/// Why a call is refused. Each has the number of the phrase book's paper.
#[derive(Clone, Copy, Debug, PartialEq, Eq, Hash)]
#[repr(u8)]
pub enum Refusal {
    /// 1: lent table memory or running memory is below its size. This crate lends enough, so it is never given here.
    TooSmall = 1,
    /// 2: the book ends inside a record or before the end record is complete.
    Cut = 2,
    /// 3: the kind of the record is unknown, or not allowed at this point.
    Kind = 3,
    /// 4: a field is out of its range.
    Field = 4,
    /// 5: least is above most.
    Crossed = 5,
    /// 6: the phrase number is not above the one before.
    Order = 6,
    /// 7: the 129th phrase, the ninth piece of a phrase or the 257th of the book.
    Many = 7,
    /// 8: the end record's number is not the number of phrases.
    Total = 8,
    /// 9: this keyword brings the different prefixes above 2,047.
    Full = 9,
    /// 10: the report room is below the number of phrases.
    NoRoom = 10,
    /// 11: the bytes already taken and the part offered exceed 4,294,967,295.
    TooLong = 11,
    /// 12: the lent bytes do not pass the test of tables and of running memory. This crate lends none but those that do, so it is never given here.
    NotPassed = 12,
}

impl Refusal {
    const ALL: [Refusal; 12] = [
        Refusal::TooSmall,
        Refusal::Cut,
        Refusal::Kind,
        Refusal::Field,
        Refusal::Crossed,
        Refusal::Order,
        Refusal::Many,
        Refusal::Total,
        Refusal::Full,
        Refusal::NoRoom,
        Refusal::TooLong,
        Refusal::NotPassed,
    ];

    /// The paper's number, 1 to 12.
    pub fn number(self) -> u8 {
        self as u8
    }

    /// The refusal with this number of the paper; none for 0, which is no refusal, and above 12.
    pub fn numbered(number: u32) -> Option<Refusal> {
        Refusal::ALL
            .into_iter()
            .find(|refusal| u32::from(refusal.number()) == number)
    }
}

impl fmt::Display for Refusal {
    fn fmt(&self, f: &mut fmt::Formatter<'_>) -> fmt::Result {
        f.write_str(match self {
            Refusal::TooSmall => "lent table memory or running memory is below its size",
            Refusal::Cut => "the book ends inside a record or before the end record is complete",
            Refusal::Kind => "the kind of the record is unknown, or not allowed at this point",
            Refusal::Field => "a field is out of its range",
            Refusal::Crossed => "least is above most",
            Refusal::Order => "the phrase number is not above the one before",
            Refusal::Many => "there are more phrases, or more pieces, than a book may have",
            Refusal::Total => "the end record's number is not the number of phrases",
            Refusal::Full => "this keyword brings the different prefixes above 2,047",
            Refusal::NoRoom => "the report room is below the number of phrases",
            Refusal::TooLong => "the letter would be longer than 4,294,967,295 bytes",
            Refusal::NotPassed => "the lent bytes do not pass the test of tables and of running memory",
        })
    }
}

/// A call was refused: why, and where.
#[derive(Clone, Copy, Debug, PartialEq, Eq, Hash)]
pub struct Refused {
    /// Why.
    pub refusal: Refusal,
    /// Of a book, the offset of the refused record, or the book's length where it stops between records. Of a letter, how many bytes
    /// of it were taken before.
    pub at: usize,
}

impl Refused {
    /// The refusal for an answer's number, unless that is 0.
    ///
    /// # Panics
    ///
    /// Where the number is above 12: then what is linked is not the library that was proved.
    pub(crate) fn unless_done(number: u32, at: usize) -> Result<(), Refused> {
        if number == 0 {
            return Ok(());
        }
        match Refusal::numbered(number) {
            Some(refusal) => Err(Refused { refusal, at }),
            None => panic!("the linked library answers {number}, which the paper does not have"),
        }
    }
}

impl fmt::Display for Refused {
    fn fmt(&self, f: &mut fmt::Formatter<'_>) -> fmt::Result {
        let number = self.refusal.number();
        write!(f, "refused with {number} at {}: {}", self.at, self.refusal)
    }
}

impl Error for Refusal {}

impl Error for Refused {}

#[cfg(test)]
mod tests {
    use super::{Refusal, Refused};

    #[test]
    fn numbers_are_the_papers() {
        assert_eq!(Refusal::numbered(0), None);
        for number in 1..=12 {
            let refusal = Refusal::numbered(number).unwrap();
            assert_eq!(u32::from(refusal.number()), number);
        }
        assert_eq!(Refusal::numbered(13), None);
        assert_eq!(Refusal::numbered(257), None);
    }

    #[test]
    fn no_two_are_said_alike() {
        let words: std::collections::BTreeSet<_> = Refusal::ALL.map(|r| r.to_string()).into();
        assert_eq!(words.len(), Refusal::ALL.len());
    }

    #[test]
    fn nought_is_no_refusal() {
        assert_eq!(Refused::unless_done(0, 5), Ok(()));
        let refused = Refused::unless_done(11, 5).unwrap_err();
        assert_eq!((refused.refusal, refused.at), (Refusal::TooLong, 5));
    }

    #[test]
    #[should_panic(expected = "which the paper does not have")]
    fn an_unknown_number_is_not_taken_for_anything() {
        let _ = Refused::unless_done(13, 0);
    }
}
