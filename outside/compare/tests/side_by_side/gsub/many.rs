//! Tables of as many objects as there may be: each one is looked for among all that
//! are closed.

use compare::made::Room;
use compare::proved::Proved;
use compare::{crafted, reads};
use reference::call::Stores;
use reference::gsub::Scope;
use reference::limits::{MOST_LINKS, MOST_PIECES};

/// As many sequences as the offsets of one subtable reach.
const LONGEST: usize = 8_191;

/// Beside the sequences: the header, one empty list, the list of lookups, the lookup
/// and the coverage; and for each of three subtables itself and its Extension.
const OTHERS: usize = 5 + 2 * 3;

/// Two subtables have different sequences, which differ in a glyph alone; the third
/// has some of both again. The library looks for an equal object by its hash, the
/// history by all.
#[test]
fn as_many_objects_as_there_may_be() {
    let most = MOST_PIECES as usize - OTHERS;
    for (sequences, number) in [(most, 0), (most + 1, 8)] {
        let all: Vec<u16> = (0..sequences as u16).collect();
        let (first, second) = all.split_at(LONGEST);
        let again = all.iter().rev().step_by(3).copied();
        let table = crafted::many(&[first.to_vec(), second.to_vec(), again.collect()]);
        let room = Room {
            pieces: MOST_PIECES as u32,
            links: MOST_LINKS as u32,
            store: 2 * table.len(),
        };
        let stores = Stores::new(room.store, room.layout().need());
        let mut proved = Proved::new(&stores);
        let told = proved.read_gsub(Scope::Whole, room.limits(), &table);
        assert_eq!(told, reads::by_history(Scope::Whole, room, &table));
        assert_eq!(told.number, number);
        if number == 0 {
            assert_eq!(told.objects, MOST_PIECES);
        }
    }
}
