//! A session on both packers, each call held to the history as well.

use crate::claims::Claims;
use crate::made::{self, Room};
use crate::pair::{Outcome, Pair};
use crate::shapes::{Graph, Piece};
use reference::call::Call;
use reference::gsub::{GsubRead, Scope};
use reference::random::Numbers;

pub struct Checked {
    pub pair: Pair,
    pub claims: Claims,
}

impl Checked {
    /// A start on stores that hold anything, the record store just long enough.
    pub fn started(room: Room, numbers: &mut Numbers) -> Checked {
        let Room {
            pieces,
            links,
            store,
        } = room;
        let records = room.layout().need();
        let mut pair = Pair::new(store, records, numbers);
        let started = pair.run(&Call::Start { pieces, links }, numbers);
        assert_eq!(started.answer.number, 0);
        Checked {
            pair,
            claims: Claims::begin(pieces, links, store, records),
        }
    }

    /// Stores that hold anything, for a read to begin a session in. Until then
    /// the claims are of no session that is there.
    pub fn unread(store: usize, records: usize, numbers: &mut Numbers) -> Checked {
        Checked {
            pair: Pair::new(store, records, numbers),
            claims: Claims::begin(1, 0, store, records),
        }
    }

    /// All pieces of a graph closed, without a call.
    pub fn made(graph: &Graph, room: Room, numbers: &mut Numbers) -> Checked {
        assert!(!graph.iter().any(Piece::hopeless), "no such session");
        let stores = made::stores(graph, room, numbers);
        let (store, records) = (stores.bytes.len(), stores.records.len());
        let claims = Claims::begin(room.pieces, room.links, store, records);
        Checked {
            pair: Pair::of(stores),
            claims: claims.with_closed(made::readings(graph)),
        }
    }

    pub fn run(&mut self, call: &Call, numbers: &mut Numbers) -> Outcome {
        let outcome = self.pair.run(call, numbers);
        self.claims.check(call, &outcome);
        outcome
    }

    /// Reads a table, which begins the session anew.
    pub fn read_gsub(&mut self, scope: Scope, limits: (u32, u32), table: &[u8]) -> GsubRead {
        let told = self.pair.read_gsub(scope, limits, table);
        self.claims.check_read(scope, limits, table, &told);
        told
    }

    /// A pack without copies whose output is this many bytes shorter than the
    /// table.
    pub fn pack(&mut self, id: u32, less: usize, numbers: &mut Numbers) -> Outcome {
        let length = self.claims.history.table_length(id).expect("closed") as usize;
        self.pack_copying(id, 0, length - less, numbers)
    }

    /// A pack with up to so many copies.
    pub fn pack_copying(
        &mut self,
        id: u32,
        copies: u32,
        output: usize,
        numbers: &mut Numbers,
    ) -> Outcome {
        let work = self.claims.work_need(copies);
        let call = Call::Pack {
            id,
            copies,
            output,
            work,
        };
        self.run(&call, numbers)
    }
}
