//! Reads letters against an exchanged phrase book and says at which place which phrase ends.
//!
//! The work is done by a library that is written in Rattle and proved: every input gets an answer and an end, a phrase is reported at
//! a place exactly when it matches there, and the letter may be cut into parts anywhere. This crate lends it memory, and gives its
//! refusals names. It has no other dependency.
//!
//! [`Tables::build`] makes tables of a book, once. [`Scanner::begin`] begins a letter, and [`Scanner::feed`] takes one part of it
//! after the other.
//!
//! ```
//! use tsuvrankhe::{Report, Scanner, Tables};
//!
//! // Phrase 7, rights code 1: anywhere "not", then 1 to 9 bytes, then "print".
//! let book = b"\x01\x01\x02\x00\x07\x01\x04\x00\x00\x83not\x03\x00\x01\x00\x09\x85print\x7f\x00\x01";
//! let tables = Tables::build(book)?;
//!
//! let mut scanner = Scanner::begin(&tables);
//! let mut reports = Vec::new();
//! scanner.feed(b"do not ev", |report| reports.push(report))?;
//! scanner.feed(b"er print", |report| reports.push(report))?;
//! assert_eq!(reports, [Report { phrase: 7, place: 17 }]);
//! # Ok::<(), tsuvrankhe::Refused>(())
//! ```
//!
//! # What the library is owed
//!
//! The proof takes the arguments of a call for what they are declared to be. Safe code cannot break that through this crate: slices are
//! valid, aligned and not null; tables and running memory are this crate's own, of the published sizes, and their bytes are not handed
//! out, so that nothing overlaps them; a scanner takes `&mut self`, so that there is one call at a time on its running memory. Tables are
//! never written once they are built, and scanners of one book may run in as many threads as there are.
#![deny(missing_docs)]
#![deny(unsafe_op_in_unsafe_fn)]

mod calls;
mod refusal;
mod scanner;
mod tables;

pub use refusal::{Refusal, Refused};
pub use scanner::{reports_in, Fed, Report, Scanner};
pub use tables::Tables;

/// No book has more phrases: room for so many reports, two numbers each, is never refused with [`Refusal::NoRoom`].
pub const MOST_PHRASES: usize = 128;

/// The most bytes that a letter has, which is the largest place.
pub const LARGEST_PLACE: u32 = u32::MAX;
