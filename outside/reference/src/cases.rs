//! The twenty-eight hand-counted cases as lists of calls, those with copies in
//! `copy_cases.rs`.

use crate::call::Call;
use crate::copy_cases::copy_cases;
use crate::limits;

/// A run of calls on a byte store and a record store of the given lengths.
#[derive(Clone, Debug)]
pub struct Case {
    pub name: &'static str,
    pub store: usize,
    pub records: usize,
    pub calls: Vec<Call>,
    /// Of the last start.
    limits: (u32, u32),
}

impl Case {
    /// A case that begins by starting a session with these limits. The record
    /// store and the work memory of its packs are just as long as needed.
    pub fn new(name: &'static str, pieces: u32, links: u32, store: usize) -> Case {
        Case {
            name,
            store,
            records: limits::record_need(pieces.into(), links.into()) as usize,
            calls: vec![Call::Start { pieces, links }],
            limits: (pieces, links),
        }
    }

    /// More words in the record store.
    pub fn surplus(mut self, words: usize) -> Case {
        self.records += words;
        self
    }

    pub fn call(mut self, call: Call) -> Case {
        self.calls.push(call);
        self
    }

    pub fn start(mut self, pieces: u32, links: u32) -> Case {
        self.limits = (pieces, links);
        self.call(Call::Start { pieces, links })
    }

    pub fn open(self) -> Case {
        self.call(Call::Open)
    }

    pub fn put(self, bytes: &[u8]) -> Case {
        self.call(Call::Put(bytes.to_vec()))
    }

    /// A put of one byte many times over.
    pub fn fill(self, byte: u8, length: usize) -> Case {
        self.call(Call::Put(vec![byte; length]))
    }

    /// A link whose offset counts from the piece's first byte.
    pub fn link(self, width: u32, id: u32) -> Case {
        self.link_from(width, id, 0)
    }

    /// A link with an inner start.
    pub fn link_from(self, width: u32, id: u32, inner: u32) -> Case {
        self.call(Call::Link { width, id, inner })
    }

    pub fn close(self) -> Case {
        self.call(Call::Close)
    }

    pub fn drop_piece(self) -> Case {
        self.call(Call::Drop)
    }

    pub fn tally(self) -> Case {
        self.call(Call::Tally)
    }

    /// A pack without copies.
    pub fn pack(self, id: u32, output: usize) -> Case {
        self.pack_copying(id, 0, output)
    }

    /// A pack with up to so many copies.
    pub fn pack_copying(self, id: u32, copies: u32, output: usize) -> Case {
        let (pieces, links) = self.limits;
        let need = limits::work_need(pieces.into(), links.into(), copies.into());
        self.call(Call::Pack {
            id,
            copies,
            output,
            work: need as usize,
        })
    }

    /// Opens a piece, puts its bytes if it has any, links and closes.
    pub fn piece(self, bytes: &[u8], links: &[(u32, u32)]) -> Case {
        let opened = self.open();
        let filled = if bytes.is_empty() {
            opened
        } else {
            opened.put(bytes)
        };
        filled.links(links).close()
    }

    /// A closed piece of these bytes and one width-2 link to id 0 behind them,
    /// with an inner start.
    pub fn piece_from(self, bytes: &[u8], inner: u32) -> Case {
        self.open().put(bytes).link_from(2, 0, inner).close()
    }

    pub fn links(self, links: &[(u32, u32)]) -> Case {
        links
            .iter()
            .fold(self, |case, &(width, id)| case.link(width, id))
    }

    /// Width-2 links to id 0 with these inner starts.
    pub fn links_from(self, inner_starts: &[u32]) -> Case {
        inner_starts
            .iter()
            .fold(self, |case, &inner| case.link_from(2, 0, inner))
    }

    /// A closed piece of one byte many times over.
    pub fn leaf(self, byte: u8, length: usize) -> Case {
        self.open().fill(byte, length).close()
    }
}

/// What cases 18 to 20 have before their fields.
const HEADER: [u8; 4] = [0, 1, 0, 2];

pub fn hand_counted_cases() -> Vec<Case> {
    let mut cases = without_copies();
    cases.extend(copy_cases());
    cases
}

fn without_copies() -> Vec<Case> {
    vec![
        case_1(),
        case_2("2 store 11", 11),
        case_2("2 store 12", 12),
        Case::new("3", 2, 2, 8)
            .piece(b"x", &[])
            .piece(&[], &[(2, 0), (2, 0)])
            .pack(1, 5),
        Case::new("4", 2, 1, 8)
            .piece(b"x", &[])
            .piece(&[], &[(4, 0)])
            .pack(1, 5),
        Case::new("5", 3, 3, 8)
            .piece(b"x", &[])
            .piece(&[], &[(2, 0)])
            .piece(&[], &[(2, 0), (2, 1)])
            .pack(2, 7),
        Case::new("6", 2, 0, 4)
            .piece(b"d", &[])
            .piece(b"e", &[])
            .pack(1, 1),
        Case::new("7", 1, 0, 4)
            .piece(b"d", &[])
            .piece(b"d", &[])
            .piece(b"e", &[])
            .tally(),
        case_8(),
        Case::new("9", 1, 0, 4)
            .open()
            .put(b"abc")
            .drop_piece()
            .tally(),
        Case::new("10", 1, 0, 4).tally().pack(0, 4),
        two_leaves("11", 65_531, 10),
        two_leaves("12", 65_532, 10),
        two_leaves("13", 65_532, 65_532),
        case_14(),
        (0..65).fold(Case::new("15", 1, 0, 4), |case, _| case.open()),
        Case::new("16", 2, 1, 8)
            .piece(b"x", &[])
            .piece(&[], &[(3, 0)])
            .pack(1, 4),
        Case::new("17", 2, 2, 8)
            .piece(b"x", &[])
            .piece(&[], &[(3, 0), (2, 0)])
            .pack(1, 6),
        Case::new("18", 2, 1, 8)
            .piece(b"x", &[])
            .piece_from(&HEADER, 4)
            .pack(1, 7),
        Case::new("19", 2, 2, 16)
            .piece(b"x", &[])
            .open()
            .put(&HEADER)
            .link_from(2, 0, 4)
            .link(2, 0)
            .close()
            .pack(1, 9),
        case_20(),
        case_21("21 inner start 4469", 4_469).pack(1, 70_005),
        case_21("21 inner start 4468", 4_468).tally(),
        case_22("22 size 65535").close().pack(1, 65_536),
        case_22("22 size 65536")
            .put(b"r")
            .close()
            .tally()
            .drop_piece()
            .tally(),
        case_22("22 size 65536 and more")
            .put(b"r")
            .close()
            .put(b"r")
            .close()
            .tally(),
        case_23("23 size 65545").close().pack(1, 65_546),
        case_23("23 size 65546").put(b"r").close().tally(),
        case_24(),
    ]
}

fn case_1() -> Case {
    before_last_link(Case::new("1", 4, 4, 16))
        .link(2, 2)
        .close()
        .tally()
        .pack(3, 12)
}

fn case_2(name: &'static str, store: usize) -> Case {
    before_last_link(Case::new(name, 4, 4, store))
        .link(2, 2)
        .tally()
}

fn before_last_link(case: Case) -> Case {
    case.piece(b"d", &[])
        .piece(b"b", &[(2, 0)])
        .piece(b"d", &[])
        .piece(b"c", &[(2, 0)])
        .open()
        .put(b"a")
        .link(2, 1)
}

fn case_8() -> Case {
    Case::new("8", 1, 1, 4)
        .put(b"a")
        .put(b"")
        .link(2, 0)
        .close()
        .drop_piece()
        .open()
        .close()
        .put(b"")
        .close()
        .tally()
}

/// Leaves x, of `78`, and y, of `79`, and a root with a width-2 link to each.
fn two_leaves(name: &'static str, x: usize, y: usize) -> Case {
    Case::new(name, 3, 2, 140_000)
        .leaf(b'x', x)
        .leaf(b'y', y)
        .piece(&[], &[(2, 0), (2, 1)])
        .pack(2, 4 + x + y)
}

/// Closed in the order f, g, d, e, b, c, a.
fn case_14() -> Case {
    Case::new("14", 7, 6, 90_000)
        .piece(b"f", &[])
        .piece(b"g", &[])
        .open()
        .link(2, 0)
        .fill(b'z', 39_998)
        .close()
        .open()
        .link(2, 1)
        .fill(b'z', 39_998)
        .close()
        .piece(&[], &[(2, 2)])
        .piece(&[], &[(2, 3)])
        .piece(&[], &[(4, 4), (4, 5)])
        .tally()
        .pack(6, 80_014)
}

/// An inner start past the field, and those that are not.
fn case_20() -> Case {
    Case::new("20", 3, 3, 19)
        .piece(b"x", &[])
        .open()
        .put(&HEADER)
        .link_from(2, 0, 5)
        .tally()
        .link_from(2, 0, 4)
        .close()
        .piece_from(&HEADER, 3)
        .piece_from(&HEADER, 4)
        .tally()
}

/// The root's only field is its last, at 70,002.
fn case_21(name: &'static str, inner: u32) -> Case {
    Case::new(name, 2, 1, 70_005)
        .piece(b"x", &[])
        .piece_from(&[b'r'; 70_002], inner)
}

/// A field and as many bytes as it can reach over.
fn case_22(name: &'static str) -> Case {
    Case::new(name, 2, 1, 70_000)
        .piece(b"x", &[])
        .open()
        .link(2, 0)
        .fill(b'r', 65_533)
}

/// The same with the field, and its inner start, behind 10 bytes.
fn case_23(name: &'static str) -> Case {
    Case::new(name, 2, 1, 70_000)
        .piece(b"x", &[])
        .open()
        .fill(b'h', 10)
        .link_from(2, 0, 10)
        .fill(b'r', 65_533)
}

/// Closes when the object limit is reached: of nothing, of a hopeless piece and
/// of one that is not.
fn case_24() -> Case {
    Case::new("24", 1, 1, 70_000)
        .piece(b"x", &[])
        .open()
        .close()
        .link(2, 0)
        .fill(b'r', 65_534)
        .close()
        .tally()
        .drop_piece()
        .open()
        .link(2, 0)
        .fill(b'r', 65_533)
        .close()
        .tally()
}
