//! Limits and stores at the ends of their ranges, and one past each.

use compare::largest::LONGEST;
use compare::made::{self, Room};
use compare::{seed, Checked, Numbers, Pair};
use reference::call::Call;
use reference::limits;
use reference::lines::script;

/// Two pieces and a link in the longest store.
const ROOM: Room = Room {
    pieces: 2,
    links: 1,
    store: LONGEST,
};

/// Bytes of which no two long runs are the same.
fn bytes(length: usize) -> Vec<u8> {
    let byte = |at: usize| (at ^ at >> 8 ^ at >> 16).wrapping_mul(0x9d) as u8;
    (0..length).map(byte).collect()
}

/// To id 0.
fn link(width: u32, inner: u32) -> Call {
    let id = 0;
    Call::Link { width, id, inner }
}

fn numbers_told(session: &mut Checked, numbers: &mut Numbers, calls: &[(Call, u64)]) {
    for (call, number) in calls {
        let told = session.run(call, numbers).answer.number;
        assert_eq!(told, *number, "{}", script(call));
    }
}

/// Starts on stores of these lengths; told 13 if a limit or length is outside
/// its range.
fn starts(store: usize, records: usize, limits: &[(u32, u32)], numbers: &mut Numbers) {
    let mut pair = Pair::new(store, records, numbers);
    let mut begun = false;
    for &(pieces, links) in limits {
        let need = limits::record_need(pieces.into(), links.into());
        let accepted = (1..=16_384).contains(&pieces)
            && links <= 65_536
            && (1..=LONGEST).contains(&store)
            && records as u64 >= need;
        let told = pair.run(&Call::Start { pieces, links }, numbers).answer;
        let number = if accepted { 0 } else { 13 };
        assert_eq!(told.number, number, "{pieces} {links} {store} {records}");
        begun |= accepted;
        let sound = pair.run(&Call::Tally, numbers).answer.number == 0;
        assert_eq!(sound, begun);
    }
}

#[test]
fn starts_at_the_ends_of_every_range() {
    let mut numbers = seed::numbers("starts");
    let most = limits::record_need(16_384, 65_536) as usize;
    let past = limits::record_need(16_385, 65_537) as usize;
    let mut limits = Vec::new();
    for pieces in [0, 1, 4_097, 16_383, 16_384, 16_385, 65_537, u32::MAX] {
        for links in [0, 1, 16_385, 65_535, 65_536, 65_537, 131_072, u32::MAX] {
            limits.push((pieces, links));
        }
    }
    for store in [0, 1, 2, 1_048_577] {
        for records in [0, 136, 137, most - 1, most, past] {
            starts(store, records, &limits, &mut numbers);
        }
    }
    let ends = [
        (16_385, 65_536),
        (16_384, 65_537),
        (16_384, 65_536),
        (1, 0),
        (0, 0),
    ];
    for store in [LONGEST - 1, LONGEST, LONGEST + 1] {
        starts(store, past, &ends, &mut numbers);
        starts(store, most - 1, &ends, &mut numbers);
    }
}

/// What a start would leave, had it been accepted with any limits and lengths.
#[test]
fn soundness_at_the_ends_of_every_range() {
    let mut numbers = seed::numbers("soundness");
    for (pieces, links, store, sound) in [
        (1, 0, 1, true),
        (0, 0, 1, false),
        (1, 0, 0, false),
        (16_384, 0, 8, true),
        (16_385, 0, 8, false),
        (1, 65_536, 8, true),
        (1, 65_537, 8, false),
        (1, 0, LONGEST, true),
        (1, 0, LONGEST + 1, false),
        (16_384, 65_536, LONGEST, true),
        (16_385, 65_537, LONGEST + 1, false),
    ] {
        let room = Room {
            pieces,
            links,
            store,
        };
        let mut pair = Pair::of(made::stores(&Vec::new(), room, &mut numbers));
        let pack = Call::Pack {
            id: 0,
            copies: 0,
            output: 0,
            work: limits::work_need(pieces.into(), links.into(), 0) as usize,
        };
        let put = Call::Put(b"a".to_vec());
        for call in [Call::Tally, pack, Call::Open, put, Call::Close, Call::Drop] {
            let number = pair.run(&call, &mut numbers).answer.number;
            assert_eq!(number != 12, sound, "{room:?} {call:?}");
        }
    }
}

#[test]
fn a_put_fills_the_longest_store() {
    let mut numbers = seed::numbers("longest put");
    let mut session = Checked::started(ROOM, &mut numbers);
    let whole = bytes(LONGEST);
    let one = Call::Put(vec![1]);
    numbers_told(
        &mut session,
        &mut numbers,
        &[
            (Call::Open, 0),
            (Call::Put(bytes(LONGEST + 1)), 6),
            (Call::Put(whole.clone()), 0),
            (one.clone(), 6),
            (Call::Put(Vec::new()), 0),
            (Call::Drop, 0),
            (Call::Open, 0),
            (Call::Put(bytes(LONGEST - 1)), 0),
            (Call::Put(vec![1, 2]), 6),
            (one.clone(), 0),
            (one.clone(), 6),
            (Call::Close, 0),
            (Call::Tally, 0),
            (Call::Open, 0),
            (one, 6),
            (link(2, 0), 6),
            (Call::Close, 5),
            (Call::Drop, 0),
        ],
    );
    assert_eq!(session.pack(0, 1, &mut numbers).answer.number, 10);
    let packed = session.pack(0, 0, &mut numbers);
    assert_eq!(packed.answer.length, LONGEST as u64);
    assert!(packed.output.1[..LONGEST - 1] == whole[..LONGEST - 1]);
}

/// The innermost piece takes up all but a gap, so closing it moves nearly the
/// whole store over itself.
#[test]
fn a_close_moves_nearly_the_whole_store() {
    let mut numbers = seed::numbers("longest move");
    for (outer, gap) in [
        (0, 0),
        (0, 1),
        (0, 4_096),
        (3, 0),
        (3, 2),
        (0, 65_537),
        (9, 8_388_608),
    ] {
        let mut session = Checked::started(ROOM, &mut numbers);
        let calls = [
            (Call::Open, 0),
            (Call::Put(b"x".to_vec()), 0),
            (Call::Close, 0),
            (Call::Open, 0),
            (Call::Put(bytes(outer)), 0),
            (Call::Open, 0),
            (link(3, 1), 3),
            (link(3, 0), 0),
            (Call::Put(bytes(LONGEST - 4 - outer - gap)), 0),
            (Call::Put(vec![7; gap + 1]), 6),
            (Call::Close, 0),
            (Call::Drop, 0),
        ];
        numbers_told(&mut session, &mut numbers, &calls);
        assert_eq!(session.pack(1, 1, &mut numbers).answer.number, 10);
        let length = (LONGEST - outer - gap) as u64;
        assert_eq!(session.pack(1, 0, &mut numbers).answer.length, length);
    }
}

#[test]
fn two_halves_of_the_longest_store() {
    let mut numbers = seed::numbers("halves");
    let mut session = Checked::started(ROOM, &mut numbers);
    let half = bytes(LONGEST / 2);
    let mut other = half.clone();
    *other.last_mut().unwrap() ^= 1;
    for (half, id) in [(&half, 0), (&half, 0), (&other, 1), (&other, 1)] {
        session.run(&Call::Open, &mut numbers);
        // The store is full when both halves are closed.
        if session
            .run(&Call::Put(half.clone()), &mut numbers)
            .answer
            .number
            == 0
        {
            assert_eq!(session.run(&Call::Close, &mut numbers).answer.id, id);
        } else {
            assert_eq!(session.run(&Call::Drop, &mut numbers).answer.objects, 2);
        }
    }
    assert_eq!(session.pair.told[6], 1);
}

/// A field at the end of a root, a child of one byte behind it, and nothing
/// more in the longest store.
#[test]
fn the_greatest_offset() {
    let mut numbers = seed::numbers("greatest offset");
    let field: [&[u8]; 2] = [&[0xff, 0xff, 0xff, b'x'], &[0, 0xff, 0xff, 0xff, b'x']];
    for (width, number) in [(2, 16), (3, 0), (4, 0)] {
        let mut session = Checked::started(ROOM, &mut numbers);
        let calls = [
            (Call::Open, 0),
            (Call::Put(b"x".to_vec()), 0),
            (Call::Close, 0),
            (Call::Open, 0),
            (Call::Put(bytes(LONGEST - 1 - width)), 0),
            (link(width as u32, 0), 0),
            (Call::Close, number),
        ];
        numbers_told(&mut session, &mut numbers, &calls);
        if number == 0 {
            let packed = session.pack(1, 0, &mut numbers);
            assert_eq!(packed.output.1[LONGEST - 1 - width..], *field[width - 3]);
        }
    }
}

/// The same root, with inner starts up to its field.
#[test]
fn the_greatest_inner_start() {
    let mut numbers = seed::numbers("greatest inner start");
    for width in [2, 3, 4] {
        let place = LONGEST as u32 - 1 - width;
        // Offsets of the width, and of the most that width 2 holds, and one more.
        let just = LONGEST as u32 - 1 - 65_535;
        let past = if width == 2 { 16 } else { 0 };
        for (inner, number) in [(place, 0), (just, 0), (just - 1, past)] {
            let mut session = Checked::started(ROOM, &mut numbers);
            let calls = [
                (Call::Open, 0),
                (Call::Put(b"x".to_vec()), 0),
                (Call::Close, 0),
                (Call::Open, 0),
                (Call::Put(bytes(place as usize)), 0),
                (link(width, place + 1), 3),
                (link(width, u32::MAX), 3),
                (link(width, inner), 0),
                (Call::Close, number),
            ];
            numbers_told(&mut session, &mut numbers, &calls);
            let offset = LONGEST as u32 - 1 - inner;
            if number == 0 {
                let packed = session.pack(1, 0, &mut numbers);
                let field = &packed.output.1[place as usize..LONGEST - 1];
                assert_eq!(field, &offset.to_be_bytes()[4 - width as usize..]);
            }
        }
    }
}
