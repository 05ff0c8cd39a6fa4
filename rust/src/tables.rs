//! Tables of a phrase book, in memory of their own.
use crate::{calls, Refused};
use std::fmt;
use std::sync::Arc;

/// The tables of a phrase book. They are never written once they are built, and a clone shares them.
#[derive(Clone)]
pub struct Tables {
    bytes: Arc<[u8]>,
}

impl Tables {
    /// Builds the tables of a book, which is not needed afterwards.
    ///
    /// # Errors
    ///
    /// The book is refused, with the first refusal in the paper's order and the offset of the record that it is about: numbers 2 to 9.
    ///
    /// ```
    /// use tsuvrankhe::{Refusal, Refused, Tables};
    ///
    /// // Least 9 is above most 1, in the gap at offset 13.
    /// let book = b"\x01\x01\x02\x00\x07\x01\x04\x00\x00\x83not\x03\x00\x09\x00\x01\x85print\x7f\x00\x01";
    /// let refused = Tables::build(book).unwrap_err();
    /// assert_eq!(refused, Refused { refusal: Refusal::Crossed, at: 13 });
    /// assert_eq!(refused.to_string(), "refused with 5 at 13: least is above most");
    /// ```
    pub fn build(book: &[u8]) -> Result<Tables, Refused> {
        let mut bytes = vec![0; Tables::size()];
        let built = calls::build(book, &mut bytes);
        Refused::unless_done(built.number, built.offset)?;
        Ok(Tables {
            bytes: bytes.into(),
        })
    }

    /// The published size of table memory, in bytes.
    pub fn size() -> usize {
        calls::table_size()
    }

    pub(crate) fn bytes(&self) -> &[u8] {
        &self.bytes
    }
}

impl fmt::Debug for Tables {
    fn fmt(&self, f: &mut fmt::Formatter<'_>) -> fmt::Result {
        f.debug_struct("Tables").finish_non_exhaustive()
    }
}
