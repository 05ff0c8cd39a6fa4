//! A second, independent matcher, and comparisons with the proved scanner on many inputs.
//!
//! `matcher`, `automaton` and `judge` are written from the paper's words alone and share no code and no table with the scanner. `shapes` and
//! `letters` make the inputs, by a fixed seed; `cases` has those that are kept. The tests stand in `reading` (letters), `limits` (books at the limits),
//! `long` (parts whose states are looked up ahead), `refusing` (damaged books), `lending` (sizes and the order of refusals), `elsewhere` (damaged tables and running memory) and `farthest` (places up
//! to the largest; run on demand).
mod automaton;
mod book;
mod cases;
mod chance;
mod desk;
mod elsewhere;
mod expected;
mod farthest;
mod fenced;
mod judge;
mod lending;
mod letters;
mod library;
mod limits;
mod long;
mod matcher;
mod reading;
mod refusing;
mod shapes;
