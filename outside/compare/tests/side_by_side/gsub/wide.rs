//! Subtables so long that their coverage's offset can hardly be filled, or not.

use compare::made::Room;
use compare::proved::Proved;
use compare::{crafted, reads, seed, Numbers};
use reference::call::{Call, Stores};
use reference::gsub::Scope;

/// The most substitutes that a subtable can have.
const MOST: u16 = 32_764;

/// The coverage, which is held beside the subtable that it lies in.
const COVERAGE: usize = 8;

/// With room for all that is held, or a little more.
fn room(table: &[u8], numbers: &mut Numbers) -> Room {
    Room {
        pieces: 6,
        links: 6 + numbers.below(3) as u32,
        store: table.len() + COVERAGE + numbers.below(20),
    }
}

/// So many substitutes each that a coverage behind two such subtables is too far
/// from the first.
const HALF: u16 = 16_500;

/// The subtables lie in one another, so their table is shorter than the packed
/// one would be, which fits no order.
#[test]
fn a_table_can_be_read_and_fit_no_order() {
    let mut numbers = seed::numbers("coverage too far");
    let table = crafted::two_wide(HALF, &mut numbers);
    let room = Room {
        pieces: 7,
        links: 8,
        store: 2 * table.len(),
    };
    let mut reading = reads::read(Scope::Single, room, &table, &mut numbers);
    assert_eq!(reading.told.number, 0);
    let packed = reading.packed(&mut numbers);
    assert_eq!((packed, reading.checked.pair.told[11]), (None, 1));
}

#[test]
fn the_longest_subtable_is_read_and_the_next_is_told_16() {
    let mut numbers = seed::numbers("longest subtable");
    for (substitutes, number) in [(MOST, 0), (MOST + 1, 16)] {
        let table = crafted::wide(substitutes, &mut numbers);
        let room = room(&table, &mut numbers);
        let mut reading = reads::read(Scope::Single, room, &table, &mut numbers);
        assert_eq!(reading.told.number, number);
        if number == 0 {
            let packed = reading.packed(&mut numbers);
            assert!(packed.is_some());
        }
    }
}

/// The library held to the history and to what a start leaves: the reference
/// looks at the whole session for each of so many fields.
#[test]
fn long_subtables_are_told_16() {
    let mut numbers = seed::numbers("long subtables");
    for _ in 0..24 {
        let more = match numbers.below(3) {
            0 => 1 + numbers.below(3),
            _ => 1 + numbers.below(usize::from(u16::MAX - MOST)),
        };
        let table = crafted::wide(MOST + more as u16, &mut numbers);
        let room = room(&table, &mut numbers);
        let Room { pieces, links, .. } = room;
        let mut left = Stores::new(room.store, room.layout().need() + 3);
        let mut proved = Proved::new(&left);
        let told = proved.read_gsub(Scope::Single, (pieces, links), &table);
        assert_eq!(told, reads::by_history(Scope::Single, room, &table));
        assert_eq!(told.number, 16);
        left.run(&Call::Start { pieces, links });
        assert!(proved.same(&left) && proved.fences_stand());
    }
}
