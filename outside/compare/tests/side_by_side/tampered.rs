//! Stores damaged between calls: same answer, nothing written where refused,
//! nothing written outside.

use compare::claims::Claims;
use compare::largest::{Kind, LINKS, LONGEST, MIXED, PIECES, WIDE};
use compare::lists::Style;
use compare::made::Room;
use compare::shapes::{self, Family};
use compare::{seed, tamper, Checked, Numbers, Pair};
use reference::call::{Call, Stores};
use reference::limits;
use reference::lines::script;
use reference::random::any_inner;
use reference::sound::{sound, sound_but_hopeless};
use std::ops::Range;

/// Sound stores, and the next call that a run would make on them.
fn session(numbers: &mut Numbers) -> (Style, Claims, Stores) {
    let style = match numbers.below(3) {
        0 => Style::roomy(numbers),
        _ => Style::small(numbers),
    };
    let (store, records) = (style.store, style.records());
    let mut pair = Pair::new(store, records, numbers);
    pair.run(&style.start(), numbers);
    let mut claims = Claims::begin(style.pieces, style.links, store, records);
    for _ in 0..20 + numbers.below(60) {
        let call = style.next(&claims, numbers);
        let outcome = pair.run(&call, numbers);
        claims.check(&call, &outcome);
    }
    (style, claims, pair.reference)
}

/// How often each of the eight calls was made.
#[derive(Default)]
pub struct Seen {
    /// On unsound stores, all but start refused 12.
    pub unsound: [usize; 8],
    /// On stores still sound, though damaged.
    pub sound: [usize; 8],
    /// On stores that are unsound by a hopeless closed piece alone.
    pub hopeless: [usize; 8],
    /// Stores in which one inner start was changed and nothing else: past its
    /// field, and not.
    inner: [usize; 2],
}

const NAMES: [&str; 8] = [
    "start", "open", "put", "link", "close", "drop", "tally", "pack",
];

/// The place of a call among the eight.
fn kind(call: &Call) -> usize {
    match call {
        Call::Start { .. } => 0,
        Call::Open => 1,
        Call::Put(_) => 2,
        Call::Link { .. } => 3,
        Call::Close => 4,
        Call::Drop => 5,
        Call::Tally => 6,
        Call::Pack { .. } => 7,
    }
}

impl Seen {
    /// Runs a call on both, told 12 exactly if the stores are not sound.
    pub fn run(&mut self, pair: &mut Pair, call: &Call, numbers: &mut Numbers) {
        let (bytes, records) = (&pair.reference.bytes, &pair.reference.records);
        let is_sound = sound(bytes, records).is_some();
        let hopeless = !is_sound && sound_but_hopeless(bytes, records).is_some();
        self.hopeless[kind(call)] += usize::from(hopeless);
        let number = pair.run(call, numbers).answer.number;
        if !matches!(call, Call::Start { .. }) {
            assert_eq!(number == 12, !is_sound, "{}", script(call));
        }
        let count = if is_sound {
            &mut self.sound
        } else {
            &mut self.unsound
        };
        count[kind(call)] += 1;
    }

    /// Damage of one inner start alone, if there is one.
    fn damage_inner(&mut self, stores: &mut Stores, numbers: &mut Numbers) {
        if let Some(allowed) = tamper::an_inner_start(stores, numbers) {
            let is_sound = sound(&stores.bytes, &stores.records).is_some();
            assert_eq!(is_sound, allowed);
            self.inner[usize::from(allowed)] += 1;
        }
    }

    /// Prints the counts, and gives the least of the calls from `first` on.
    fn least(&self, first: usize) -> usize {
        let counts = NAMES.iter().zip(self.unsound.iter().zip(self.sound));
        for (name, (unsound, sound)) in counts.skip(first) {
            println!("  {name}: {unsound} on unsound stores, {sound} on stores still sound");
        }
        let [past, allowed] = self.inner;
        println!("  inner starts past their field: {past}, changed and not past it: {allowed}");
        let all = [&self.unsound[first..], &self.sound[first..], &self.inner].concat();
        all.into_iter().min().unwrap()
    }
}

#[test]
fn damaged_stores() {
    let mut numbers = seed::numbers("damaged stores");
    let mut seen = Seen::default();
    for _ in 0..2_000 {
        let (style, claims, stores) = session(&mut numbers);
        for _ in 0..25 {
            let mut damaged = stores.clone();
            if numbers.below(8) == 0 {
                seen.damage_inner(&mut damaged, &mut numbers);
            } else {
                for _ in 0..=numbers.below(2) {
                    tamper::damage(&mut damaged, &mut numbers);
                }
            }
            let mut pair = Pair::of(damaged);
            for _ in 0..=numbers.below(4) {
                let call = style.next(&claims, &mut numbers);
                seen.run(&mut pair, &call, &mut numbers);
            }
        }
    }
    assert!(seen.least(0) >= 50);
}

/// Sound stores of all pieces and links of the limits but a few, with so many
/// bytes free; two pieces are open, or none.
fn large_stores(kind: Kind, free: usize, opened: bool, numbers: &mut Numbers) -> Stores {
    let graph = kind.graph(PIECES - 2, LINKS - 9, numbers);
    let room = Room {
        pieces: PIECES as u32,
        links: LINKS as u32,
        store: shapes::bytes(&graph) + free,
    };
    let mut session = Checked::made(&graph, room, numbers);
    let link = |width, id: usize, inner| Call::Link {
        width,
        id: id as u32,
        inner,
    };
    let calls = [
        Call::Open,
        link(2, PIECES - 3, 0),
        Call::Put(vec![1; 5]),
        link(4, 0, 7),
        Call::Open,
        Call::Put(vec![2; 3]),
        link(3, PIECES / 2, 2),
    ];
    for call in calls.iter().filter(|_| opened) {
        assert_eq!(session.run(call, numbers).answer.number, 0);
    }
    session.pair.reference
}

/// A call that undamaged stores mostly accept.
fn large_call(output: usize, numbers: &mut Numbers) -> Call {
    match numbers.below(9) {
        0 => Call::Open,
        1 => Call::Put(vec![7; numbers.below(9)]),
        2 => Call::Link {
            width: numbers.one_of(&[2, 3, 4]),
            id: numbers.below(PIECES) as u32,
            // By the size of the innermost piece.
            inner: any_inner(6, numbers),
        },
        3..=4 => Call::Close,
        5 => Call::Drop,
        6 => Call::Tally,
        _ => Call::Pack {
            id: numbers.below(PIECES) as u32,
            copies: 0,
            output,
            work: limits::work_need(PIECES as u64, LINKS as u64, 0) as usize,
        },
    }
}

fn damage_large(turns: usize, kinds: &[Kind], numbers: &mut Numbers, seen: &mut Seen) {
    for kind in kinds {
        for opened in [false, true] {
            let free = 40 + numbers.below(9_000);
            let kind = Kind {
                bytes: kind.bytes.saturating_sub(free),
                ..*kind
            };
            let stores = large_stores(kind, free, opened, numbers);
            for _ in 0..turns {
                let mut damaged = stores.clone();
                if numbers.below(8) == 0 {
                    seen.damage_inner(&mut damaged, numbers);
                } else {
                    tamper::damage(&mut damaged, numbers);
                }
                let mut pair = Pair::of(damaged);
                for _ in 0..=numbers.below(2) {
                    let call = large_call(stores.bytes.len(), numbers);
                    seen.run(&mut pair, &call, numbers);
                }
            }
        }
    }
}

#[test]
fn damaged_stores_of_all_pieces_and_links() {
    let mut numbers = seed::numbers("large damaged stores");
    let mut seen = Seen::default();
    let small = [
        Kind::small(Family::Lattice, MIXED),
        Kind::small(Family::Shared, WIDE),
        Kind::small(Family::Near, MIXED),
        Kind::small(Family::Any, WIDE),
    ];
    damage_large(250, &small, &mut numbers, &mut seen);
    let long = [
        Kind::long(Family::Chain, MIXED),
        Kind::long(Family::Lattice, WIDE),
    ];
    damage_large(40, &long, &mut numbers, &mut seen);
    assert!(seen.least(1) >= 20);
}

/// Every held link of small sessions, with each inner start up to one past its
/// field, and far ones.
#[test]
fn every_inner_start_is_looked_at() {
    let mut numbers = seed::numbers("inner starts");
    let mut looked_at = [0; 2];
    for _ in 0..200 {
        let (_, _, stores) = session(&mut numbers);
        let view = sound(&stores.bytes, &stores.records).expect("sound");
        let open = 0..view.open_link_end(view.depth());
        let closed = view.closed_link_begin(view.closed())..view.layout.links;
        for record in open.chain(closed) {
            let (place, word) = (view.field(record).place, view.layout.link(record) + 2);
            let far = [place + 256, place + 65_536, 1 << 31, u32::MAX];
            for inner in (0..=place.min(40)).chain([place, place + 1]).chain(far) {
                let mut tried = stores.clone();
                tried.records[word] = inner;
                let number = Pair::of(tried)
                    .run(&Call::Tally, &mut numbers)
                    .answer
                    .number;
                assert_eq!(number, if inner > place { 12 } else { 0 });
                looked_at[usize::from(inner > place)] += 1;
            }
        }
    }
    println!("  {looked_at:?} inner starts not past their field, and past it");
    assert!(looked_at.iter().all(|&count| count >= 500));
}

/// Sets a byte in both packers' stores, and gives what it was.
fn set(pair: &mut Pair, at: usize, byte: u8) -> u8 {
    pair.proved.bytes.inside_mut()[at] = byte;
    std::mem::replace(&mut pair.reference.bytes[at], byte)
}

/// A byte that is not zero is seen at each of these places.
fn seen_at(pair: &mut Pair, places: &[usize], numbers: &mut Numbers) {
    for &at in places {
        assert_eq!(set(pair, at, 1 << numbers.below(8)), 0);
        assert_eq!(pair.run(&Call::Tally, numbers).answer.number, 12, "{at}");
        set(pair, at, 0);
    }
    assert_eq!(pair.run(&Call::Tally, numbers).answer.number, 0);
}

#[test]
fn every_byte_between_is_looked_at() {
    let mut numbers = seed::numbers("bytes between");
    for store in (1..130).chain([4_095, 4_096, 4_097, 8_192, 8_200]) {
        let room = Room {
            pieces: 1,
            links: 0,
            store,
        };
        let mut session = Checked::started(room, &mut numbers);
        let places: Vec<usize> = (0..store).collect();
        seen_at(&mut session.pair, &places, &mut numbers);
    }
}

/// Places about both ends, about the ends of runs that may be looked at at
/// once, and anywhere.
fn sample(between: Range<usize>, numbers: &mut Numbers) -> Vec<usize> {
    let mut places: Vec<usize> = (between.start..between.start + 9).collect();
    places.extend(between.end - 9..between.end);
    for _ in 0..30 {
        let run = between.start + 4_096 * (1 + numbers.below(between.len() / 4_096));
        places.extend([run - 1, run, between.start + numbers.below(between.len())]);
    }
    places.retain(|at| between.contains(at));
    places
}

#[test]
fn bytes_of_the_longest_stores_are_looked_at() {
    let mut numbers = seed::numbers("bytes of the longest stores");
    let room = Room {
        pieces: 1,
        links: 0,
        store: LONGEST,
    };
    let mut pair = Checked::started(room, &mut numbers).pair;
    seen_at(&mut pair, &sample(0..LONGEST, &mut numbers), &mut numbers);

    let kind = Kind::small(Family::Lattice, MIXED);
    let mut pair = Pair::of(large_stores(kind, 16_000_000, true, &mut numbers));
    let view = sound(&pair.reference.bytes, &pair.reference.records).expect("sound");
    let mut places = sample(view.between(), &mut numbers);
    // Each byte of some fields of closed pieces.
    for _ in 0..30 {
        let piece = view.closed_piece(PIECES / 2 + numbers.below(PIECES / 3));
        let field = view.field(piece.links.start + numbers.below(piece.links.len()));
        let first = piece.bytes.start + field.place as usize;
        places.extend(first..first + field.width as usize);
    }
    seen_at(&mut pair, &places, &mut numbers);
}
