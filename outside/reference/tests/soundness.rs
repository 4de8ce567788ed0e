//! Each clause of soundness, and none beside them.

mod common;

use common::{told, Numbers, Session};
use reference::answer::Answer;
use reference::call::{Call, Stores};
use reference::sound::{sound, sound_but_hopeless};

/// Piece limit 4, link limit 4, 24 bytes. Closed: `x`, and `b` with a link to
/// it. Open: `q` with a link to id 1, and `r`. Both inner starts are at the
/// field.
fn sound_session() -> Session {
    let mut session = Session::new(4, 4, 24);
    session.piece(b"x", &[]);
    session.piece_from(b"b", 1);
    session.open();
    session.put(b"q");
    session.link_from(2, 1, 1);
    session.open();
    session.put(b"r");
    assert_eq!(session.tally(), told(0, [8, 2, 2, 2]));
    session
}

fn calls() -> [Call; 7] {
    [
        Call::Open,
        Call::Put(b"z".to_vec()),
        Call::Link {
            width: 2,
            id: 0,
            inner: 0,
        },
        Call::Close,
        Call::Drop,
        Call::Tally,
        Call::Pack {
            id: 0,
            copies: 0,
            output: 24,
            work: 52,
        },
    ]
}

/// All but start tell 12 and change nothing.
fn assert_unsound(stores: &Stores, why: &str) {
    for call in calls() {
        let mut tried = stores.clone();
        let told = tried.run(&call);
        assert_eq!(told.answer, Answer::bare(12), "{why}: {call:?}");
        assert_eq!(&tried, stores);
    }
}

#[test]
fn each_word_that_counts_is_looked_at() {
    let unsound = [
        (0, 0, "piece limit 0"),
        (0, 5, "piece limit moved"),
        (0, 16_385, "piece limit above its range"),
        (0, u32::MAX, "piece limit far above its range"),
        (1, 5, "more closed than the limit"),
        (1, 3, "more closed than recorded"),
        (1, 1, "fewer closed than recorded"),
        (1, u32::MAX, "closed count far too high"),
        (2, 65, "65 open"),
        (2, 3, "more open than recorded"),
        (2, 1, "fewer open than recorded"),
        (2, u32::MAX, "depth far too high"),
        (3, 1, "first open end not 0"),
        (4, 5, "open ends falling"),
        (4, 2, "a field past its piece"),
        (5, 3, "a byte left between"),
        (5, 21, "open bytes into closed ones"),
        (5, u32::MAX, "open end far too high"),
        (68, 1, "first open link end not 0"),
        (69, 2, "an open link that is not there"),
        (69, 0, "open link in the wrong piece"),
        (70, 5, "more open links than the limit"),
        (133, 23, "store longer than at the start"),
        (133, 25, "store shorter than at the start"),
        (134, 24, "closed size 0"),
        (134, 25, "closed begins rising"),
        (135, 23, "second closed size 0"),
        (135, u32::MAX, "closed begin far too high"),
        (138, 5, "link limit above the words"),
        (138, 65_537, "link limit above its range"),
        (138, 3, "link limit below the closed links"),
        (139, 5, "closed link begins rising"),
        (140, 2, "a closed link that is not there"),
        (140, 0, "closed links into open ones"),
        (143, 0, "open field on a byte that is not zero"),
        (143, 2, "open field past its piece"),
        (143, u32::MAX - 1, "field end past 32 bits"),
        (144, 0, "width 0"),
        (144, 1, "width 1"),
        (144, 5, "width 5"),
        (144, 258, "width 258"),
        (145, 2, "inner start past an open field"),
        (145, 65_537, "inner start far past an open field"),
        (145, u32::MAX, "inner start farthest past an open field"),
        (146, 2, "child of an open piece not closed"),
        (146, u32::MAX, "child far too high"),
        (155, 0, "closed field on a byte that is not zero"),
        (155, 2, "closed field past its piece"),
        (156, 4, "closed field too wide"),
        (157, 2, "inner start past a closed field"),
        (157, 65_537, "inner start far past a closed field"),
        (157, u32::MAX, "inner start farthest past a closed field"),
        (158, 1, "child not below its parent"),
        (158, 2, "child of a closed piece not closed"),
    ];
    for (word, value, why) in unsound {
        let mut stores = sound_session().stores;
        assert_ne!(stores.records[word], value);
        stores.records[word] = value;
        assert_unsound(&stores, why);
    }
}

#[test]
fn sixty_five_empty_open_pieces() {
    let mut session = Session::new(4, 4, 24);
    for _ in 0..64 {
        session.open();
    }
    assert_eq!(session.tally(), told(0, [0, 0, 0, 64]));
    session.stores.records[2] = 65;
    assert_unsound(&session.stores, "65 open");
}

#[test]
fn bytes_between_and_in_fields_are_zero() {
    for at in 0..24 {
        let mut session = sound_session();
        session.stores.bytes[at] ^= 0x80;
        // Bytes 0 and 3 are open, 20 and 23 closed, all outside fields.
        match at {
            0 | 3 | 20 | 23 => assert_eq!(session.tally(), told(0, [8, 2, 2, 2])),
            _ => assert_unsound(&session.stores, "a byte that must be zero"),
        }
    }
}

#[test]
fn lengths_are_looked_at() {
    let sound = sound_session().stores;
    for change in [-1, 1] {
        let mut stores = sound.clone();
        stores.bytes = vec![0; (24 + change) as usize];
        assert_unsound(&stores, "another store length");
    }
    let mut stores = sound.clone();
    stores.records.pop();
    assert_unsound(&stores, "record store short of its need");
    for words in 0..sound.records.len() {
        let mut stores = sound.clone();
        stores.records.truncate(words);
        assert_unsound(&stores, "record store far too short");
        stores.bytes.clear();
        assert_unsound(&stores, "empty store");
    }
}

#[test]
fn every_range_has_both_its_ends() {
    for (pieces, links, store, in_range) in [
        (1, 0, 1, true),
        (0, 0, 1, false),
        (1, 0, 0, false),
        (16_384, 65_536, 16_777_216, true),
        (16_385, 65_536, 16_777_216, false),
        (16_384, 65_537, 16_777_216, false),
        (16_384, 65_536, 16_777_217, false),
    ] {
        // What a start with these would leave, accepted or not.
        let mut stores = Stores {
            bytes: vec![0; store],
            records: vec![0; 135 + 2 * pieces + 4 * links],
        };
        stores.records[0] = pieces as u32;
        stores.records[133] = store as u32;
        stores.records[134 + pieces] = links as u32;
        if in_range {
            assert_eq!(stores.run(&Call::Tally).answer, Answer::default());
        } else {
            assert_unsound(&stores, "outside a range");
        }
    }
}

#[test]
fn fields_rise_and_lie_apart() {
    let mut session = Session::new(2, 2, 9);
    session.piece(b"x", &[]);
    session.piece(b"bb", &[(4, 0), (2, 0)]);
    let records = 135 + 2 * 2;
    let sound = session.stores.clone();
    assert_eq!(sound.records[records..], [2, 4, 0, 0, 6, 2, 0, 0]);
    for place in [2, 4, 5] {
        let mut stores = sound.clone();
        stores.records[records + 4] = place;
        assert_unsound(&stores, "fields that overlap");
    }
    let mut stores = sound;
    stores.records[records..].copy_from_slice(&[6, 2, 0, 0, 2, 4, 0, 0]);
    assert_unsound(&stores, "fields that fall");
}

/// Three fields at 3, 7 and 9, closed and then open, and each inner start that
/// is not past its own field.
#[test]
fn every_inner_start_up_to_the_field() {
    for closed in [true, false] {
        let mut session = Session::new(2, 3, 12);
        session.piece(b"x", &[]);
        session.open();
        session.put(b"bbb");
        for (width, inner) in [(4, 3), (2, 0), (2, 5)] {
            session.link_from(width, 0, inner);
        }
        if closed {
            assert_eq!(session.close().id, 1);
        }
        let sound = session.stores;
        for (record, place) in [(0, 3), (1, 7), (2, 9)] {
            let word = 139 + 4 * record;
            assert_eq!(sound.records[word], place);
            for inner in 0..=u32::from(u16::MAX) + 20 {
                let mut stores = sound.clone();
                stores.records[word + 2] = inner;
                let tally = stores.run(&Call::Tally).answer;
                assert_eq!(tally.number == 0, inner <= place, "{record} {inner}");
            }
        }
    }
}

#[test]
fn unused_and_surplus_words_may_hold_anything() {
    let mut session = sound_session();
    session.stores.records.extend([7; 5]);
    let unused = (6..68)
        .chain(71..133)
        .chain(136..138)
        .chain(141..143)
        .chain(147..155)
        .chain(159..164);
    for word in unused {
        session.stores.records[word] = u32::MAX;
        assert_eq!(session.tally(), told(0, [8, 2, 2, 2]));
    }
    // Every call still does its work.
    assert_eq!(session.open(), told(0, [8, 2, 2, 3]));
    assert_eq!(session.put(b"s"), told(0, [9, 2, 2, 3]));
    assert_eq!(session.link(2, 1), told(0, [11, 3, 2, 3]));
    assert_eq!(session.close().id, 2);
    assert_eq!(session.drop_piece(), told(0, [10, 3, 3, 1]));
    assert_eq!(session.close().id, 3);
    assert_eq!(session.pack(3, 24).answer.length, 7);
    assert_eq!(session.stores.records[159..], [u32::MAX; 5]);
}

#[test]
fn equal_closed_pieces_are_sound() {
    let mut session = Session::new(3, 1, 6);
    session.piece(b"a", &[]);
    session.piece(b"b", &[]);
    session.stores.bytes[4] = b'a';
    assert_eq!(session.tally(), told(0, [2, 0, 2, 0]));
    session.piece(&[], &[(2, 1)]);
    assert_eq!(session.pack(2, 3).output, [0, 2, b'a']);
}

/// Soundness once more, with signed sums and nothing shared with the library.
fn slow_sound(store: &[u8], words: &[u32]) -> bool {
    let word = |at: i64| -> Option<i64> { Some((*words.get(usize::try_from(at).ok()?)?).into()) };
    let judge = || -> Option<bool> {
        let (p, c, d) = (word(0)?, word(1)?, word(2)?);
        let l = word(134 + p)?;
        let n = store.len() as i64;
        let ranges = (1..=16_384).contains(&p)
            && (0..=65_536).contains(&l)
            && (1..=16_777_216).contains(&n)
            && words.len() as i64 >= 135 + 2 * p + 4 * l
            && word(133)? == n
            && c <= p
            && d <= 64
            && word(3)? == 0
            && word(68)? == 0;
        if !ranges {
            return Some(false);
        }
        // Every piece: begin, size, first link, links, bound of its children.
        let mut pieces = Vec::new();
        for k in 0..d {
            let (begin, link) = (word(3 + k)?, word(68 + k)?);
            let (size, links) = (word(4 + k)? - begin, word(69 + k)? - link);
            pieces.push((begin, size, link, links, c, 0));
        }
        for i in 0..c {
            let (begin, link) = (word(134 + i)?, word(135 + p + i)?);
            let (size, links) = (word(133 + i)? - begin, word(134 + p + i)? - link);
            pieces.push((begin, size, link, links, i, 1));
        }
        let between = word(3 + d)?..word(133 + c)?;
        let free_links = word(134 + p + c)? - word(68 + d)?;
        if between.start > between.end || free_links < 0 {
            return Some(false);
        }
        let zero = |range: std::ops::Range<i64>| {
            let bytes = store.get(range.start as usize..range.end as usize);
            bytes.is_some_and(|bytes| bytes.iter().all(|&byte| byte == 0))
        };
        if !zero(between) {
            return Some(false);
        }
        for (begin, size, link, links, bound, least) in pieces {
            if size < least || links < 0 {
                return Some(false);
            }
            let mut end = 0;
            for record in link..link + links {
                let at = 135 + 2 * p + 4 * record;
                let (place, width, child) = (word(at)?, word(at + 1)?, word(at + 3)?);
                let from_inside = word(at + 2)? <= place;
                let in_order = place >= end && [2, 3, 4].contains(&width);
                let holds = match width {
                    2 => 65_535,
                    3 => 16_777_215,
                    _ => 4_294_967_295,
                };
                let hopeful = least == 0 || size - word(at + 2)? <= holds;
                let right = in_order && from_inside && hopeful && child < bound;
                end = place + width;
                if !right || end > size || !zero(begin + place..begin + end) {
                    return Some(false);
                }
            }
        }
        Some(true)
    };
    judge().unwrap_or(false)
}

#[test]
fn tampered_memory_is_judged_alike_and_never_indexed_out_of_range() {
    let mut numbers = Numbers::new(3);
    let sound = sound_session().stores;
    let (mut counts, mut by_inner) = ([0; 2], 0);
    for _ in 0..60_000 {
        let mut stores = sound.clone();
        stores.records.extend([0; 6]);
        for _ in 0..1 + numbers.below(3) {
            let value = match numbers.below(4) {
                0 => numbers.next() as u32,
                1 => u32::MAX - numbers.below(4) as u32,
                _ => numbers.below(26) as u32,
            };
            // Mostly words that count, whatever the record store holds.
            let word = match numbers.below(3) {
                0 => numbers.one_of(&[0, 1, 2, 3, 4, 5, 6, 68, 69, 70, 71]),
                1 => 133 + numbers.below(30),
                _ => numbers.below(164),
            };
            stores.records[word] = value;
        }
        if numbers.below(4) == 0 {
            stores.bytes[numbers.below(24)] = numbers.below(2) as u8;
        }
        if numbers.below(8) == 0 {
            stores.records.truncate(numbers.below(166));
        }
        let expected = slow_sound(&stores.bytes, &stores.records);
        counts[usize::from(expected)] += 1;
        if expected {
            for call in calls() {
                let mut tried = stores.clone();
                assert_ne!(tried.run(&call).answer.number, 12);
                assert!(slow_sound(&tried.bytes, &tried.records));
            }
        } else {
            assert_unsound(&stores, "tampered");
            for word in [145, 157] {
                if let Some(inner) = stores.records.get_mut(word) {
                    *inner = 0;
                }
            }
            by_inner += usize::from(slow_sound(&stores.bytes, &stores.records));
        }
    }
    assert!(counts[0] > 5_000 && counts[1] > 5_000, "{counts:?}");
    assert!(by_inner > 200, "{by_inner} unsound by inner starts alone");
}

/// Closed: `x`; a piece of 65,535 bytes with a width-2 field at its front; one
/// of 65,600 with a width-3 field, and behind 80 bytes one of width 2 with inner
/// start 65. Open: one of 65,536 with a width-2 field at its front. Its link
/// record is the first, the third piece's are the third and fourth.
fn session_at_the_edge() -> Session {
    let mut session = Session::new(4, 5, 196_700);
    session.piece(b"x", &[]);
    session.open();
    session.link(2, 0);
    session.put(&[0; 65_533]);
    assert_eq!(session.close().id, 1);
    session.open();
    session.link(3, 0);
    session.put(&[0; 77]);
    session.link_from(2, 1, 65);
    session.put(&[0; 65_518]);
    assert_eq!(session.close().id, 2);
    session.open();
    session.link(2, 1);
    session.put(&[0; 65_534]);
    assert_eq!(session.close().number, 16);
    session
}

/// The first word of a link record of that session.
fn record(number: usize) -> usize {
    135 + 2 * 4 + 4 * number
}

#[test]
fn closed_pieces_that_no_order_can_pack() {
    let sound = session_at_the_edge().stores;
    let tally = told(0, [196_672, 4, 3, 1]);
    assert_eq!(sound.clone().run(&Call::Tally).answer, tally);
    let [first, second] = [record(2), record(3)];
    assert_eq!(sound.records[first..first + 8], [0, 3, 0, 0, 80, 2, 65, 1]);
    let begin = sound.records[136];
    for (word, value, why) in [
        (second + 2, 64, "an inner start one less"),
        (second + 2, 0, "an inner start of 0"),
        (first + 1, 2, "a width of 2 for one of 3"),
        (136, begin - 1, "a size one more"),
        (136, begin - 28, "a size that takes up all that is free"),
        (
            135,
            sound.records[135] - 1,
            "a size one more, the next one less",
        ),
    ] {
        let mut stores = sound.clone();
        stores.records[word] = value;
        assert!(sound_but_hopeless(&stores.bytes, &stores.records).is_some());
        assert!(!slow_sound(&stores.bytes, &stores.records));
        assert_unsound(&stores, why);
    }
    for (word, value) in [
        (second + 2, 66),
        (second + 2, 80),
        (first + 1, 4),
        (136, begin + 1),
        (135, sound.records[135] + 1),
    ] {
        let mut stores = sound.clone();
        stores.records[word] = value;
        // A piece that begins earlier is the longer for it.
        let hopeful = value != sound.records[135] + 1;
        let number = stores.run(&Call::Tally).answer.number;
        assert_eq!(number, if hopeful { 0 } else { 12 }, "{word} {value}");
    }
}

#[test]
fn open_pieces_that_no_order_can_pack() {
    let mut session = session_at_the_edge();
    let held = session.tally();
    assert_eq!(session.put(&[1; 9]).number, 0);
    assert_eq!(session.close().number, 16);
    assert_eq!(session.open().number, 0);
    assert_eq!(session.put(&[1]).number, 0);
    assert_eq!(session.close().id, 3);
    assert_eq!(session.close().number, 16);
    assert_eq!(session.drop_piece().depth, 0);
    assert_eq!(session.tally().bytes, held.bytes - 65_536 + 1);
}

#[test]
fn tampered_large_pieces_are_judged_alike() {
    let mut numbers = Numbers::new(5);
    let whole = session_at_the_edge().stores;
    let words = [record(0), record(2), record(3), record(4)];
    let (mut counts, mut by_hope) = ([0; 2], 0);
    for _ in 0..4_000 {
        let mut stores = whole.clone();
        for _ in 0..=numbers.below(2) {
            let word = match numbers.below(3) {
                0 => numbers.one_of(&[4, 135, 136]),
                1 => numbers.one_of(&words) + 1,
                _ => numbers.one_of(&words) + 2,
            };
            let near = stores.records[word] + numbers.below(5) as u32;
            stores.records[word] = near.saturating_sub(2);
        }
        let expected = slow_sound(&stores.bytes, &stores.records);
        let (bytes, records) = (&stores.bytes, &stores.records);
        assert_eq!(sound(bytes, records).is_some(), expected);
        counts[usize::from(expected)] += 1;
        let hopeless = !expected && sound_but_hopeless(bytes, records).is_some();
        by_hope += usize::from(hopeless);
    }
    assert!(counts.iter().all(|&count| count > 500), "{counts:?}");
    assert!(by_hope > 500, "{by_hope} unsound by hopeless pieces alone");
}

#[test]
fn memory_full_of_anything() {
    let mut numbers = Numbers::new(4);
    for _ in 0..20_000 {
        let mut stores = Stores::new(numbers.below(12), numbers.below(174));
        let most = numbers.one_of(&[2, 5, 70, 1 << 32]);
        for word in &mut stores.records {
            *word = numbers.below(most) as u32;
        }
        let sound = slow_sound(&stores.bytes, &stores.records);
        for call in calls() {
            let told = stores.clone().run(&call);
            assert_eq!(told.answer.number != 12, sound);
        }
    }
}
