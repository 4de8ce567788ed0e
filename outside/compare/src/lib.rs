//! The proved packer and the reference side by side.
//!
//! * [`Pair`] runs each call on both and compares all that it tells and leaves.
//! * [`claims`] checks what the history says of a call, [`Checked`] both.
//! * [`met`] counts inner starts.
//! * [`shapes`], [`groups`], [`sharing`], [`largest`] and [`decided`] make graphs, [`made`] stores that
//!   hold one, [`tamper`] damaged stores.
//! * [`writing`] has many lists of calls that write one graph, [`written`] the sessions that they
//!   leave, [`by_id`] orders that differ between these.
//! * [`tables`], [`whole`] and [`crafted`] make GSUB tables of [`parts`], [`nested`] those that fit no order
//!   before lookups are promoted, [`real`] has those of fonts, [`spoilt`] damages them, [`reads`] reads
//!   them, [`promotions`] has their lookups promoted, [`lent`] has memory for both.
//! * [`batches`] has calls as words, [`no_call`] words that are none.
//! * [`jobs`] has jobs as texts, [`program`] the proved program that runs them, [`frames`] texts of
//!   frames.

pub mod batches;
pub mod by_id;
pub mod checked;
pub mod claims;
pub mod crafted;
pub mod decided;
pub mod fenced;
pub mod frames;
pub mod groups;
pub mod jobs;
pub mod largest;
pub mod lent;
pub mod lists;
pub mod made;
pub mod met;
pub mod nested;
pub mod no_call;
pub mod pair;
pub mod parts;
pub mod program;
pub mod promotions;
pub mod proved;
pub mod reads;
pub mod real;
pub mod seed;
pub mod shapes;
pub mod sharing;
pub mod spoilt;
pub mod tables;
pub mod tamper;
pub mod whole;
pub mod writing;
pub mod written;

pub use checked::Checked;
pub use pair::Pair;
pub use reference::random::Numbers;
