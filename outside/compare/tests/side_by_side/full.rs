//! Calls on sessions that come to the last piece, the last link and the last
//! byte of the limits.

use compare::largest::{Kind, LINKS, MIXED, PIECES, WIDE};
use compare::made::Room;
use compare::shapes::{self, Family, Graph, Piece, PARTS};
use compare::{seed, Checked, Numbers};
use reference::call::Call;
use reference::lines::script;

const KINDS: [Kind; 4] = [
    Kind::small(Family::Lattice, MIXED),
    Kind::small(Family::Near, MIXED),
    Kind::long(Family::Shared, WIDE),
    Kind::long(Family::Chain, MIXED),
];

struct Session<'a> {
    checked: Checked,
    numbers: &'a mut Numbers,
}

impl Session<'_> {
    /// Runs a call that tells this number.
    fn tells(&mut self, number: u64, call: Call) {
        let answer = self.checked.run(&call, self.numbers).answer;
        assert_eq!(answer.number, number, "{}", script(&call));
    }

    fn put(&mut self, number: u64, bytes: &[u8]) {
        self.tells(number, Call::Put(bytes.to_vec()));
    }

    fn link(&mut self, number: u64, width: u32, id: usize) {
        self.link_from(number, width, id, 0);
    }

    fn link_from(&mut self, number: u64, width: u32, id: usize, inner: u32) {
        let id = id as u32;
        self.tells(number, Call::Link { width, id, inner });
    }

    /// Opens and fills a piece.
    fn fill(&mut self, piece: &Piece) {
        let ids: Vec<u32> = (0..PIECES as u32).collect();
        let mut calls = shapes::calls(piece, &ids);
        calls.pop();
        for call in calls {
            self.tells(0, call);
        }
    }

    fn closes(&mut self, id: usize) {
        let answer = self.checked.run(&Call::Close, self.numbers).answer;
        assert_eq!((answer.number, answer.id), (0, id as u64));
    }

    /// Held bytes, held links, closed pieces and depth.
    fn holds(&mut self, bytes: usize, links: usize, objects: usize, depth: u64) {
        let told = self.checked.run(&Call::Tally, self.numbers).answer;
        let expected = (bytes as u64, links as u64, objects as u64, depth);
        assert_eq!((told.bytes, told.links, told.objects, told.depth), expected);
    }

    fn pack(&mut self, number: u64, id: usize, less: usize) {
        let packed = self.checked.pack(id as u32, less, self.numbers);
        assert_eq!(packed.answer.number, number);
    }
}

/// A graph of so many pieces and links, in a store with so many bytes free.
fn session(
    kind: Kind,
    pieces: usize,
    links: usize,
    free: usize,
    numbers: &mut Numbers,
) -> (Graph, Session<'_>) {
    let kind = Kind {
        bytes: kind.bytes.saturating_sub(free),
        ..kind
    };
    let graph = kind.graph(pieces, links, numbers);
    let room = Room {
        pieces: PIECES as u32,
        links: LINKS as u32,
        store: shapes::bytes(&graph) + free,
    };
    let session = Session {
        checked: Checked::made(&graph, room, numbers),
        numbers,
    };
    (graph, session)
}

#[test]
fn the_last_piece_and_the_last_links() {
    let mut numbers = seed::numbers("last piece and links");
    for kind in KINDS {
        let (graph, mut session) = session(kind, PIECES - 1, LINKS - 2, 60, &mut numbers);
        let held = shapes::bytes(&graph);
        session.holds(held, LINKS - 2, PIECES - 1, 0);
        session.tells(0, Call::Open);
        session.link_from(3, 4, PIECES - 2, 1);
        session.link(0, 4, PIECES - 2);
        session.put(0, b"last");
        session.link(4, 3, PIECES - 1);
        session.link_from(3, 3, 0, 9);
        session.link_from(3, 3, 0, u32::MAX);
        session.link_from(0, 3, 0, 8);
        session.holds(held + 11, LINKS, PIECES - 1, 1);
        session.link_from(7, 2, 0, 11);
        session.link_from(3, 2, 0, 12);
        session.link_from(4, 2, PIECES - 1, 11);
        session.link_from(3, 2, PIECES - 1, 12);
        session.link(3, 5, PIECES);
        session.closes(PIECES - 1);
        session.holds(held + 11, LINKS, PIECES, 0);
        nothing_more(&mut session);
        session.holds(held + 11, LINKS, PIECES, 0);
        session.pack(10, PIECES - 1, 1);
        session.pack(0, PIECES - 1, 0);
        let met = session.checked.claims.met;
        assert_eq!((met.at_field, met.refused, met.packed), (1, 3, 1));
    }
}

/// All pieces and links are there, and 49 bytes are free.
fn nothing_more(session: &mut Session) {
    session.tells(0, Call::Open);
    session.tells(5, Call::Close);
    session.put(0, b"one more");
    session.tells(8, Call::Close);
    session.put(6, &[1; 42]);
    session.put(0, &[1; 41]);
    session.put(6, &[1]);
    session.put(0, &[]);
    session.link(7, 2, PIECES - 1);
    session.link(4, 2, PIECES);
    session.tells(8, Call::Close);
    let work = session.checked.claims.work_need(0);
    let pack = |id: usize, work| Call::Pack {
        id: id as u32,
        copies: 0,
        output: 0,
        work,
    };
    session.tells(9, pack(0, work));
    session.tells(0, Call::Drop);
    session.tells(4, pack(PIECES, work));
    session.tells(13, pack(0, work - 1));
}

#[test]
fn duplicates_when_all_pieces_are_closed() {
    let mut numbers = seed::numbers("duplicates");
    let mut by_inner = 0;
    for kind in KINDS {
        let (graph, mut session) = session(kind, PIECES, LINKS - 9, 3_000, &mut numbers);
        let has_room = |id: &usize| graph[*id].links.len() < 9 && graph[*id].size() < 3_000;
        let ids: Vec<usize> = (0..PIECES).filter(has_room).collect();
        let any = session.numbers.one_of(&ids);
        for id in [ids[0], ids[1], any, ids[ids.len() - 1]] {
            session.fill(&graph[id]);
            session.closes(id);
            let others = unlike(&graph[id]);
            by_inner += usize::from(others.len() == 3);
            for other in others {
                session.fill(&other);
                session.tells(8, Call::Close);
                session.tells(0, Call::Drop);
            }
        }
        last_bytes(&mut session);
    }
    assert!(
        by_inner >= 6,
        "{by_inner} pieces that differ in an inner start"
    );
}

/// Pieces that differ from this one in a byte, in a link's child or in an inner
/// start, and from all others too.
fn unlike(piece: &Piece) -> Vec<Piece> {
    let mut byte = piece.clone();
    byte.bytes[0] ^= 0x80;
    let mut all = vec![byte];
    if let Some(field) = piece.fields().last() {
        let last = piece.links.len() - 1;
        let mut child = piece.clone();
        child.links[last].child ^= 1;
        all.push(child);
        if field.place > 0 {
            let mut inner = piece.clone();
            inner.links[last].part = if field.inner == 0 { PARTS } else { 0 };
            all.push(inner);
        }
    }
    all
}

/// 3,000 bytes are free, and 9 links.
fn last_bytes(session: &mut Session) {
    session.tells(0, Call::Open);
    session.put(6, &[1; 3_001]);
    session.put(0, &[1; 2_990]);
    session.link_from(0, 4, PIECES - 1, 2_990);
    session.link_from(0, 3, PIECES - 2, 2_000);
    session.link_from(6, 4, 0, 2_997);
    session.link_from(3, 4, 0, 2_998);
    session.put(0, &[2]);
    session.link(6, 3, 0);
    session.link(0, 2, 0);
    session.link(6, 2, 0);
    session.put(6, &[3]);
    session.tells(8, Call::Close);
    session.tells(0, Call::Drop);
    session.tells(0, Call::Tally);
}
