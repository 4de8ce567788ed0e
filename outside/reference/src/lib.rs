//! A reference implementation of the table packer.
//!
//! Pieces of a font table are written into a session on two lent stores, equal
//! pieces are kept once, and one root is packed into table bytes with its
//! offsets filled in.
//!
//! * [`session`] and [`pack`] are the eight calls.
//! * [`history`] says what the calls must tell, from their arguments alone.
//! * [`reader`] checks that a packed table shows a reading.
//! * [`gsub`] reads a whole GSUB table into a session.
//! * [`batch`] carries out many calls that are given as words.
//! * [`job`] runs a session and a pack that are written as lines of text.
//! * [`frames`] sends a table as lines of text, and takes them in again.

#![forbid(unsafe_code)]

pub mod answer;
pub mod batch;
pub mod call;
pub mod cases;
pub mod copies;
mod copy_cases;
pub mod frames;
pub mod graph;
pub mod graphs;
pub mod gsub;
pub mod history;
mod hopeless_traps;
mod inner_traps;
pub mod job;
pub mod limits;
pub mod lines;
pub mod orders;
pub mod pack;
pub mod printed;
pub mod random;
pub mod reader;
pub mod reading;
pub mod session;
pub mod sound;
pub mod spaces;
mod text;
pub mod traps;
pub mod view;

pub use answer::Answer;
pub use pack::pack;
