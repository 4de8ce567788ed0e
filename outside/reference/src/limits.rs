//! The ranges of the limits and how many words the lent memories need.

pub const MOST_PIECES: u64 = 16_384;
pub const MOST_LINKS: u64 = 65_536;
pub const LONGEST_STORE: u64 = 16_777_216;
pub const DEEPEST: u64 = 64;
pub const MOST_COPIES: u64 = 1_024;

pub fn pieces_in_range(pieces: u64) -> bool {
    (1..=MOST_PIECES).contains(&pieces)
}

pub fn links_in_range(links: u64) -> bool {
    links <= MOST_LINKS
}

pub fn store_in_range(length: usize) -> bool {
    (1..=LONGEST_STORE).contains(&(length as u64))
}

pub fn copies_in_range(copies: u64) -> bool {
    copies <= MOST_COPIES
}

/// The least offset that a field of this width cannot hold.
pub fn capacity(width: u32) -> u64 {
    1 << (8 * width)
}

/// Words of the record store for the limits.
pub fn record_need(pieces: u64, links: u64) -> u64 {
    135 + 2 * pieces + 4 * links
}

/// Words of pack's work memory for the limits and for so many copies allowed:
/// each may have as many links as there are.
pub fn work_need(pieces: u64, links: u64, copies: u64) -> u64 {
    let copies = copies.min(MOST_COPIES);
    let (nodes, links) = (pieces + copies, links * (copies + 1));
    11 * nodes + 2 * links + copies
}

/// Words of a batch's work memory for the limits: four for each piece.
pub fn batch_need(pieces: u64) -> u64 {
    4 * pieces
}
