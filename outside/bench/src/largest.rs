//! A pack of as many pieces as the limits allow.

use crate::packing::{plain_fits, timed};
use crate::sessions::Memory;
use crate::Line;
use compare::largest::{Kind, FEW_NARROW, LINKS, MIXED, PIECES, WIDE};
use compare::made::{self, Room};
use compare::shapes::{self, Family};
use reference::random::Numbers;

pub fn lines() -> Vec<Line> {
    let kind = Kind::small;
    let few_narrow = |family| Kind {
        root: FEW_NARROW,
        ..kind(family, WIDE)
    };
    vec![
        line("plain order, chain", kind(Family::Chain, MIXED), LINKS),
        line(
            "distance order, chain",
            kind(Family::Chain, WIDE).outlying(),
            LINKS,
        ),
        line("plain order, fan", kind(Family::Fan, WIDE), PIECES - 1),
        line("distance order, fan", few_narrow(Family::Fan), PIECES - 1),
        line(
            "plain order, shared leaves",
            kind(Family::Shared, WIDE),
            LINKS,
        ),
        line(
            "distance order, shared leaves",
            few_narrow(Family::Shared),
            LINKS,
        ),
    ]
}

fn line(what: &str, kind: Kind, links: usize) -> Line {
    let mut numbers = Numbers::new(1);
    let graph = kind.graph(PIECES, links, &mut numbers);
    let room = Room {
        pieces: PIECES as u32,
        links: LINKS as u32,
        store: shapes::bytes(&graph),
    };
    let stores = made::stores(&graph, room, &mut numbers);
    let memory = Memory {
        store: stores.bytes,
        records: stores.records,
    };
    let root = PIECES as u32 - 1;
    assert_eq!(plain_fits(&memory, root), what.starts_with("plain"));
    Line {
        what: format!("pack, {what} of 16,384"),
        times: timed(
            &memory,
            root,
            bindings::work_need(room.pieces, room.links, 0),
        ),
    }
}
