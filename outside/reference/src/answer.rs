//! What a call tells.

/// Everything a call can tell. Values that a call does not have are 0.
#[derive(Clone, Copy, Debug, Default, PartialEq, Eq)]
pub struct Answer {
    pub number: u64,
    /// Held bytes.
    pub bytes: u64,
    /// Held links.
    pub links: u64,
    /// Closed pieces.
    pub objects: u64,
    /// Open pieces.
    pub depth: u64,
    /// The id that close gives.
    pub id: u64,
    /// Length of a packed table.
    pub length: u64,
    /// Parent id, field place and offset of the link that does not fit.
    pub parent: u64,
    pub field: u64,
    pub needed: u64,
    /// Copies made for a packed table.
    pub copies: u64,
    /// Pieces in a packed table, the copies among them.
    pub placed: u64,
}

pub const DONE: u64 = 0;
pub const NOTHING_OPEN: u64 = 1;
pub const TOO_DEEP: u64 = 2;
pub const BAD_FIELD: u64 = 3;
pub const NOT_CLOSED: u64 = 4;
pub const EMPTY_PIECE: u64 = 5;
pub const STORE_FULL: u64 = 6;
pub const LINKS_FULL: u64 = 7;
pub const PIECES_FULL: u64 = 8;
pub const STILL_OPEN: u64 = 9;
pub const OUTPUT_SHORT: u64 = 10;
pub const NO_FIT: u64 = 11;
pub const NOT_SOUND: u64 = 12;
pub const OUT_OF_RANGE: u64 = 13;
/// Of a job alone.
pub const LAYOUT_BROKEN: u64 = 14;
/// Of a read alone.
pub const UNREADABLE: u64 = 15;
pub const HOPELESS: u64 = 16;
/// Of a feed alone: a stretch that is not the awaited frame, and no refusal, a
/// text in which no stretch ended.
pub const NOT_AWAITED: u64 = 17;
pub const UNDER_WAY: u64 = 18;
/// Of a batch alone.
pub const NO_CALL: u64 = 19;

/// One more than the greatest number of a call: the length of a count by numbers.
pub const NUMBERS: usize = 17;

/// Whether one of the eight calls tells it.
pub fn is_number(number: usize) -> bool {
    matches!(number, 0..=13 | 16)
}

impl Answer {
    /// A number with nothing beside it, as 12 and 13 are told.
    pub fn bare(number: u64) -> Answer {
        Answer {
            number,
            ..Answer::default()
        }
    }

    /// A number beside the same tally, with all other values 0.
    pub fn with_tally_of(number: u64, tally: Answer) -> Answer {
        Answer {
            number,
            bytes: tally.bytes,
            links: tally.links,
            objects: tally.objects,
            depth: tally.depth,
            ..Answer::default()
        }
    }
}
