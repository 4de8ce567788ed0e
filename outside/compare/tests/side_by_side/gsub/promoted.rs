//! Tables whose lookups are promoted: as few as an order fits.

#[path = "../../../../reference/tests/large/mod.rs"]
#[allow(dead_code)]
mod large;

use compare::made::Room;
use compare::nested::Nested;
use compare::promotions::Outcome;
use compare::{reads, real, seed, spoilt, tables, Checked, Numbers, Pair};
use reference::answer::NUMBERS;
use reference::gsub::{lookup_count, GsubPromoted, Scope};

/// What was met.
pub(super) struct Seen {
    scope: Scope,
    pub(super) told: [usize; NUMBERS],
    /// Tables packed with none promoted, with one, with some, and with all.
    pub(super) none: usize,
    pub(super) one: usize,
    pub(super) some: usize,
    pub(super) all: usize,
    /// Those that had a lookup of type 7 before, and had some promoted.
    pub(super) extended: usize,
    /// Glyphs that a lookup changes.
    pub(super) changed: usize,
}

impl Seen {
    pub(super) fn of(scope: Scope) -> Seen {
        Seen {
            scope,
            told: [0; NUMBERS],
            none: 0,
            one: 0,
            some: 0,
            all: 0,
            extended: 0,
            changed: 0,
        }
    }

    fn add(&mut self, told: &GsubPromoted, table: &[u8]) {
        self.told[told.number as usize] += 1;
        if told.number != 0 {
            return;
        }
        let lookups = lookup_count(table).into();
        match told.promoted {
            0 => self.none += 1,
            last if last == lookups => self.all += 1,
            1 => self.one += 1,
            _ => self.some += 1,
        }
    }

    pub(super) fn report(&self) {
        let promotions: usize = self.told.iter().sum();
        println!("  {promotions} promotions");
        let counts = self.told.iter().enumerate();
        for (number, count) in counts.filter(|(_, count)| **count > 0) {
            println!("  number {number:2}: {count}");
        }
        let Seen {
            none,
            one,
            some,
            all,
            ..
        } = self;
        println!("  promoted: none {none}, one {one}, some {some}, all {all}");
        println!(
            "  {} with type 7, {} substitutes",
            self.extended, self.changed
        );
    }
}

/// Output and work memory for a room: mostly enough.
pub(super) fn lengths(room: Room, numbers: &mut Numbers) -> (usize, usize) {
    let need = bindings::work_need(room.pieces, room.links, 0);
    let work = match numbers.below(40) {
        0 => numbers.below(need),
        1 => need - 1,
        _ => need + numbers.below(3),
    };
    let output = match numbers.below(16) {
        0 => numbers.below(room.store + 1),
        _ => room.store,
    };
    (output, work)
}

/// Promotes a table in a room; if that is accepted, reads what is packed: all is
/// as before.
pub(super) fn promote(
    room: Room,
    table: &[u8],
    lengths: (usize, usize),
    seen: &mut Seen,
    numbers: &mut Numbers,
) -> GsubPromoted {
    let (scope, records) = (seen.scope, room.layout().need() + numbers.below(3));
    let mut checked = Checked::unread(room.store, records, numbers);
    let limits = (room.pieces, room.links);
    let Outcome { told, packed } = checked.promote_gsub(scope, limits, table, lengths, numbers);
    seen.add(&told, table);
    if told.number == 0 {
        let before = checked.pair.reference.clone();
        let again = checked.read_gsub(scope, room.limits(), &packed);
        assert_eq!((again.number, again.id), (0, told.id));
        assert!(checked.pair.reference == before, "the same session");
        let glyphs = glyphs(numbers);
        seen.changed += reads::same_substitutes(table, &packed, &glyphs);
    }
    told
}

/// A few that small tables and coverages have, and others.
fn glyphs(numbers: &mut Numbers) -> Vec<u16> {
    let small = (0..6).map(|_| numbers.below(14) as u16).collect::<Vec<_>>();
    let any = (0..4).map(|_| numbers.next() as u16).collect();
    [small, any].concat()
}

/// Room for a table that is refused for the length of a subtable.
pub(super) const LARGE: Room = Room {
    pieces: 60,
    links: 90,
    store: 300_000,
};

/// Room for a table with all lookups promoted, or about as much as it needs with
/// some.
fn room(nested: &Nested, table: &[u8], numbers: &mut Numbers) -> Room {
    let held = reads::held(Scope::Single, table);
    if held.number != 0 {
        return LARGE;
    }
    if numbers.below(6) > 0 {
        let roomy = reads::roomy(&held);
        // No more than one subtable is there again while it is read.
        let store = roomy.store.min(held.bytes as usize + 66_000);
        return Room { store, ..roomy };
    }
    let about = reads::about(&held, numbers);
    let more = numbers.below(nested.extensions() + 2);
    Room {
        pieces: about.pieces + more as u32,
        links: about.links + more as u32,
        store: about.store + 8 * more,
    }
}

/// Damaged before the fill, where nearly every byte counts.
pub(super) fn damaged(table: &[u8], front: usize, numbers: &mut Numbers) -> Vec<u8> {
    let (front, fill) = table.split_at(front);
    [&spoilt::any(front, numbers), fill].concat()
}

/// The same with the output a byte shorter than the packed table, and as long.
pub(super) fn at_the_edge(
    room: Room,
    table: &[u8],
    told: &GsubPromoted,
    seen: &mut Seen,
    numbers: &mut Numbers,
) {
    let need = bindings::work_need(room.pieces, room.links, 0);
    let length = told.length as usize;
    let short = promote(room, table, (length - 1, need), seen, numbers);
    assert_eq!(short.number, 10);
    assert_eq!(promote(room, table, (length, need), seen, numbers), *told);
}

#[test]
fn lookups_are_promoted_at_random() {
    let mut numbers = seed::numbers("promotions");
    let mut seen = Seen::of(Scope::Single);
    for turn in 0..5_000 {
        let nested = Nested::random(&mut numbers);
        let (whole, front) = nested.laid_out(&mut numbers);
        let room = room(&nested, &whole, &mut numbers);
        let table = match turn % 5 {
            0 => damaged(&whole, front, &mut numbers),
            _ => whole,
        };
        let lengths = lengths(room, &mut numbers);
        let told = promote(room, &table, lengths, &mut seen, &mut numbers);
        seen.extended += usize::from(told.promoted > 0 && nested.extended());
        if told.number == 0 && turn % 16 == 1 {
            at_the_edge(room, &table, &told, &mut seen, &mut numbers);
        }
    }
    seen.report();
    for number in [0, 6, 7, 8, 10, 11, 13, 15, 16] {
        assert!(seen.told[number] >= 20, "number {number} is hardly told");
    }
    for count in [seen.none, seen.one, seen.some, seen.all, seen.extended] {
        assert!(count >= 60);
    }
}

/// HarfBuzz's own tests: lookups that need it promoted, with subtables that they
/// share too, and none that are of type 7 already.
#[test]
fn harfbuzz() {
    let mut numbers = seed::numbers("promotions of HarfBuzz");
    let mut seen = Seen::of(Scope::Single);
    let tables = [large::five(), large::sharing().0, large::eight().0];
    for (table, promoted) in tables.iter().zip([3, 2, 0]) {
        let need = bindings::work_need(LARGE.pieces, LARGE.links, 0);
        let told = promote(LARGE, table, (LARGE.store, need), &mut seen, &mut numbers);
        assert_eq!((told.number, told.promoted), (0, promoted));
    }
}

/// Small tables, whole and damaged, that fit with none promoted: as they are read
/// and packed.
#[test]
fn what_fits_is_read_and_packed() {
    let mut numbers = seed::numbers("promotions of what fits");
    let mut seen = Seen::of(Scope::Single);
    for turn in 0..2_000 {
        let whole = tables::random(turn % 7, &mut numbers);
        let room = reads::roomy(&reads::held(Scope::Single, &whole));
        let table = match turn % 4 {
            0 => spoilt::any(&whole, &mut numbers),
            _ => whole,
        };
        let lengths = lengths(room, &mut numbers);
        let told = promote(room, &table, lengths, &mut seen, &mut numbers);
        assert_eq!(told.promoted, 0);
    }
    for (name, table) in real::tables() {
        let held = reads::held(Scope::Single, &table);
        let room = reads::roomy(&held);
        let need = bindings::work_need(room.pieces, room.links, 0);
        let told = promote(room, &table, (room.store, need), &mut seen, &mut numbers);
        let expected = (held.number, held.place, held.bytes, 0);
        assert_eq!(
            (told.number, told.place, told.length, told.promoted),
            expected,
            "{name}"
        );
    }
    seen.report();
}

/// A start that is refused changes nothing.
#[test]
fn out_of_range() {
    let mut numbers = seed::numbers("promotions out of range");
    let table = tables::random(2, &mut numbers);
    let words = bindings::records_need(40, 50);
    for (pieces, links, store, records) in [
        (0, 50, 900, words),
        (16_385, 50, 900, 200_000),
        (40, 65_537, 900, 300_000),
        (40, 50, 0, words),
        (40, 50, 900, words - 1),
        (40, 50, 900, 0),
    ] {
        let mut pair = Pair::new(store, records, &mut numbers);
        let lengths = (900, bindings::work_need(40, 50, 0));
        let outcome = pair.promote_gsub(
            Scope::Single,
            (pieces, links),
            &table,
            lengths,
            &mut numbers,
        );
        assert_eq!(outcome.told.number, 13);
    }
}
