//! Tables in which one table is led to many times: each time it is read again,
//! and kept once.

use compare::made::Room;
use compare::{crafted, reads, seed};
use reference::gsub::Scope;

/// The least room for n lookups that are all one, with m subtables that are all
/// one: when the last lookup is read again, all is held but the last link of the
/// list and of the header, and at last beside it that lookup's links, or a whole
/// coverage under its last subtable.
fn least(n: u16, m: u16) -> Room {
    let (n, m) = (usize::from(n), usize::from(m));
    Room {
        pieces: 6,
        links: (n + 2 * m + 2) as u32,
        store: crafted::shared(n as u16, m as u16).len() + 2 * m + 8,
    }
}

#[test]
fn one_table_led_to_often_is_kept_once() {
    let mut numbers = seed::numbers("shared tables");
    for (n, m) in [(2, 2), (3, 200), (200, 3), (200, 150)] {
        let (table, room) = (crafted::shared(n, m), least(n, m));
        let mut reading = reads::read(Scope::Single, room, &table, &mut numbers);
        let told = reading.told;
        assert_eq!((told.number, told.bytes), (0, table.len() as u64));
        let links = u64::from(n) + u64::from(m) + 4;
        assert_eq!((told.objects, told.links), (6, links));
        let packed = reading.packed(&mut numbers).unwrap();
        assert_eq!(packed.len(), table.len());
    }
}

#[test]
fn each_time_it_takes_room() {
    let mut numbers = seed::numbers("room for shared tables");
    for (n, m) in [(2, 2), (9, 70), (70, 9)] {
        let (table, room) = (crafted::shared(n, m), least(n, m));
        let (pieces, links, store) = (room.pieces - 1, room.links - 1, room.store - 1);
        for (room, number) in [
            (room, 0),
            (Room { store, ..room }, 6),
            (Room { links, ..room }, 7),
            (Room { pieces, ..room }, 8),
        ] {
            let told = reads::read(Scope::Single, room, &table, &mut numbers).told;
            assert_eq!(told.number, number);
        }
    }
}
