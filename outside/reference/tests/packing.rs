//! What pack writes and what it leaves alone.

mod common;

use common::Session;
use reference::answer::Answer;
use reference::call::{Call, Stores, Told, STALE_BYTE, STALE_WORK};
use reference::cases::hand_counted_cases;
use reference::limits;
use reference::traps::trap_cases;

fn two_pieces(bytes: usize) -> Session {
    let mut session = Session::new(3, 3, 70_000);
    session.piece(b"x", &[]);
    session.piece(&vec![1; bytes], &[(2, 0)]);
    session
}

#[test]
fn the_surplus_and_the_rest_of_the_output_stand() {
    let mut session = two_pieces(1);
    let before = session.stores.clone();
    let need = session.work;
    let told = session.stores.run(&Call::Pack {
        id: 1,
        copies: 0,
        output: 7,
        work: need + 2,
    });
    assert_eq!(told.answer.length, 4);
    assert_eq!(told.output[..4], [1, 0, 3, b'x']);
    assert_eq!(told.output[4..], [STALE_BYTE; 3]);
    assert_eq!(told.work[..need], vec![0; need]);
    assert_eq!(told.work[need..], [STALE_WORK; 2]);
    assert_eq!(session.stores, before);
}

#[test]
fn ten_and_eleven_clear_the_work_memory_and_write_no_table() {
    let mut session = two_pieces(65_530);
    session.piece(&[], &[(2, 1), (2, 0)]);
    let before = session.stores.clone();
    for (id, output, number) in [(1, 65_532, 10), (2, 65_537, 11)] {
        let need = session.work;
        let told = session.stores.run(&Call::Pack {
            id,
            copies: 0,
            output,
            work: need + 2,
        });
        assert_eq!(told.answer.number, number);
        assert!(told.output.iter().all(|&byte| byte == STALE_BYTE));
        assert_eq!(told.work[..need], vec![0; need]);
        assert_eq!(told.work[need..], [STALE_WORK; 2]);
    }
    assert_eq!(session.stores, before);
}

#[test]
fn other_refusals_leave_the_work_memory() {
    let mut session = two_pieces(1);
    let need = session.work;
    let pack = |id, work| Call::Pack {
        id,
        copies: 0,
        output: 9,
        work,
    };
    let untouched = |session: &mut Session, call: Call, number| {
        let before = session.stores.clone();
        let told = session.stores.run(&call);
        assert_eq!(told.answer.number, number);
        assert_eq!(told.output, [STALE_BYTE; 9]);
        assert!(told.work.iter().all(|&word| word == STALE_WORK));
        assert_eq!(session.stores, before);
    };
    untouched(&mut session, pack(1, need - 1), 13);
    untouched(&mut session, pack(2, need), 4);
    session.open();
    untouched(&mut session, pack(1, need), 9);
    session.drop_piece();
    session.stores.records[0] = 0;
    untouched(&mut session, pack(1, need), 12);
    untouched(&mut session, pack(1, need - 1), 12);
}

#[test]
fn the_need_goes_by_the_limits_and_not_by_the_counts() {
    let mut session = Session::new(16_384, 65_536, 8);
    session.piece(b"x", &[]);
    assert_eq!(session.work, 11 * 16_384 + 2 * 65_536);
    assert_eq!(session.pack(0, 1).answer.number, 0);
    session.work -= 1;
    assert_eq!(session.pack(0, 1).answer, Answer::bare(13));
}

#[test]
fn needs_stay_within_their_bound() {
    for pieces in [1, 2, 16_383, 16_384] {
        for links in [0, 1, 65_535, 65_536] {
            let most = 4_096 + 64 * (pieces + links);
            assert!(limits::record_need(pieces, links) <= most);
            for copies in [0, 1, 2, 1_023, 1_024] {
                let most = most + 64 * copies * (links + 1);
                assert!(limits::work_need(pieces, links, copies) <= most);
            }
        }
    }
}

#[test]
fn offsets_at_the_edge_of_a_width_2_field() {
    let packed = two_pieces(65_533).pack(1, 65_536);
    assert_eq!(packed.answer.number, 0);
    assert_eq!(packed.output[65_533..], [0xff, 0xff, b'x']);
    let mut session = Session::new(2, 1, 70_000);
    session.piece(b"x", &[]);
    session.piece(&vec![1; 65_532], &[(4, 0)]);
    let packed = session.pack(1, 65_537);
    assert_eq!(packed.output[65_532..], [0, 1, 0, 0, b'x']);
}

#[test]
fn offsets_count_from_the_inner_start() {
    let mut session = Session::new(4, 9, 64);
    session.piece(b"x", &[]);
    session.piece_from(b"ab", 1);
    session.open();
    session.put(b"head");
    for (width, id, inner) in [(2, 1, 4), (3, 0, 0), (4, 1, 3), (2, 0, 13)] {
        assert_eq!(session.link_from(width, id, inner).number, 0);
    }
    session.close();
    // Places: the root 0, id 1 at 15, x at 19.
    let table = b"head\0\x0b\0\0\x13\0\0\0\x0c\0\x06ab\0\x03x";
    assert_eq!(session.pack(2, 20).output, table);
}

#[test]
fn offsets_at_the_edge_of_a_width_2_field_from_an_inner_start() {
    // The root links a piece of 9 bytes that links x, and from its last field x.
    let root = |bytes: usize, inner| {
        let mut session = Session::new(3, 3, 200_000);
        session.piece(b"x", &[]);
        session.piece(b"mmmmmmm", &[(2, 0)]);
        session.open();
        session.link(4, 1);
        session.put(&vec![1; bytes]);
        session.link_from(2, 0, inner);
        assert_eq!(session.close().id, 2);
        session.pack(2, 200_000).answer
    };
    for bytes in [65_530, 70_002, 150_000] {
        let just = bytes as u32 + 15 - 65_535;
        assert_eq!(root(bytes, just).length, bytes as u64 + 16);
        let unfit = root(bytes, just - 1);
        assert_eq!(
            (unfit.number, unfit.parent, unfit.field, unfit.needed),
            (11, 2, bytes as u64 + 4, 65_536)
        );
    }
}

#[test]
fn all_bytes_of_wider_offsets() {
    let field = |width: u32, offset: usize| {
        let before = offset - width as usize;
        let mut session = Session::new(2, 1, 16_777_216);
        session.piece(b"x", &[]);
        session.piece(&vec![1; before], &[(width, 0)]);
        session.pack(1, offset + 1).output[before..].to_vec()
    };
    assert_eq!(field(3, 0x0a_0b_0c), [0x0a, 0x0b, 0x0c, b'x']);
    assert_eq!(field(4, 0x0a_0b_0c), [0, 0x0a, 0x0b, 0x0c, b'x']);
    // The greatest that there is: the longest store, and a child of one byte.
    assert_eq!(field(3, 16_777_215), [0xff, 0xff, 0xff, b'x']);
    assert_eq!(field(4, 16_777_215), [0, 0xff, 0xff, 0xff, b'x']);
}

#[test]
fn the_greatest_inner_start() {
    // The last byte of the longest store is the child's.
    for width in [2, 3, 4] {
        let before = 16_777_215 - width as usize;
        let mut session = Session::new(2, 1, 16_777_216);
        session.piece(b"x", &[]);
        session.open();
        session.put(&vec![1; before]);
        let place = before as u32;
        assert_eq!(session.link_from(width, 0, place + 1).number, 3);
        assert_eq!(session.link_from(width, 0, place).number, 0);
        session.close();
        let table = session.pack(1, 16_777_216).output;
        assert_eq!(table[16_777_213..], [0, width as u8, b'x']);
    }
}

fn last_told(name: &str) -> Told {
    let mut all = hand_counted_cases().into_iter().chain(trap_cases());
    let case = all.find(|case| case.name == name).unwrap();
    let mut stores = Stores::new(case.store, case.records);
    let told = case.calls.iter().map(|call| stores.run(call));
    told.last().unwrap()
}

fn last_answer(name: &str) -> Answer {
    last_told(name).answer
}

#[test]
fn the_distance_order_decides_what_is_told() {
    let unfit = |name| {
        let answer = last_answer(name);
        assert_eq!(answer.number, 11);
        (answer.parent, answer.field, answer.needed)
    };
    assert_eq!(unfit("equal distances ids along"), (3, 4, 65_537));
    assert_eq!(unfit("equal distances ids other way round"), (3, 4, 65_537));
    assert_eq!(unfit("different ready times"), (2, 4, 65_547));
    for name in ["lighter link second", "lighter link first"] {
        let answer = last_answer(name);
        assert_eq!((answer.number, answer.length), (0, 65_554));
    }
}

#[test]
fn an_inner_start_decides_which_order_fits() {
    let plain = last_told("plain order by an inner start");
    assert_eq!(plain.answer.length, 65_540);
    assert_eq!(plain.output[..9], *b"head\0\x08\xff\xffx");
    let by_distance = last_told("inner start one too near");
    assert_eq!(by_distance.answer.length, 65_541);
    assert_eq!(by_distance.output[..10], *b"head\0\x09\0\x04yx");
}

#[test]
fn inner_starts_weigh_nothing() {
    // x stands at 11 and y at 14, the large leaf at 17.
    let root = |name| {
        let told = last_told(name);
        assert_eq!(told.answer.length, 70_017);
        told.output[..18].to_vec()
    };
    assert_eq!(
        root("inner starts weigh nothing"),
        *b"head\0\0\x11\0\x0b\0\x0axxxyyyl"
    );
    assert_eq!(
        root("inner starts weigh nothing, the other way round"),
        *b"head\0\0\x11\0\x07\0\x0exxxyyyl"
    );
}

#[test]
fn pieces_that_differ_in_an_inner_start_are_both_packed() {
    let told = last_told("pieces that differ in an inner start");
    assert_eq!(told.output, *b"\0\x04\0\x0aabcd\0\x0cabcd\0\x02x");
}

#[test]
fn an_inner_start_past_16_bits_is_kept_whole() {
    let told = last_told("inner start past 16 bits");
    assert_eq!(told.answer.length, 65_547);
    assert_eq!(told.output[65_540..], [0, 6, 0, 10, 0xff, 0xff, b'x']);
}

#[test]
fn unreached_pieces_are_not_packed() {
    let mut session = Session::new(3, 2, 16);
    session.piece(b"x", &[]);
    session.piece(b"u", &[(2, 0)]);
    session.piece(&[], &[(2, 0)]);
    let packed = session.pack(2, 8);
    assert_eq!(packed.answer.length, 3);
    assert_eq!(packed.output[..3], [0, 2, b'x']);
}

#[test]
fn a_child_ready_at_its_last_field() {
    let mut session = Session::new(3, 3, 16);
    session.piece(b"x", &[]);
    session.piece(b"y", &[]);
    session.piece(&[], &[(2, 0), (2, 1), (2, 0)]);
    let packed = session.pack(2, 8);
    assert_eq!(packed.output, [0, 7, 0, 6, 0, 7, b'y', b'x']);
}
