//! Long runs of calls: the session tells what the history says, stays sound,
//! and its tables show the history's readings.

mod common;

use common::Numbers;
use reference::answer::{Answer, NUMBERS};
use reference::call::{Call, Stores, Told, STALE_BYTE, STALE_WORK};
use reference::cases::{hand_counted_cases, Case};
use reference::history::History;
use reference::limits;
use reference::random::{allowed_inner, any_inner};
use reference::reader;
use reference::reading::has_inner_start;
use reference::traps::trap_cases;
use std::collections::HashSet;
use std::rc::Rc;

/// A session and its history, side by side.
struct Pair {
    stores: Stores,
    history: History,
    /// How often each number was told.
    told: [usize; NUMBERS],
    /// How many tables with more than their root were packed.
    linked: usize,
    /// Of inner starts: accepted links with one above 0, links refused for it
    /// alone, and packed tables with one above 0.
    inner: [usize; 3],
    /// Copies in all tables.
    copies: u64,
}

impl Pair {
    fn begin(store: usize, records: usize, first: &Call) -> Pair {
        let mut stores = Stores::new(store, records);
        assert_eq!(stores.run(first).answer, Answer::default());
        let Call::Start { pieces, links } = *first else {
            panic!("a run begins with a start");
        };
        Pair {
            stores,
            history: History::begin(pieces, links, store, records).unwrap(),
            told: [0; NUMBERS],
            linked: 0,
            inner: [0; 3],
            copies: 0,
        }
    }

    fn count_inner(&mut self, call: &Call) {
        let Call::Link { width, id, inner } = *call else {
            return;
        };
        let number = self.history.link_number(width, id, inner);
        let without = self.history.link_number(width, id, 0);
        self.inner[0] += usize::from(number == 0 && inner > 0);
        self.inner[1] += usize::from(number == 3 && without == 0);
    }

    fn run(&mut self, call: &Call) {
        let before = self.stores.clone();
        self.count_inner(call);
        let told = self.stores.run(call);
        let number = told.answer.number;
        self.told[number as usize] += 1;
        let (store, records) = (before.bytes.len(), before.records.len());
        match self.history.feed(call, store, records) {
            Some(expected) => assert_eq!(told.answer, expected, "{call:?}"),
            None => {
                assert_eq!(self.stores, before);
                self.check_pack(call, &told);
                let Call::Pack { id, .. } = *call else {
                    panic!("only a pack is not judged");
                };
                if let (0, Some(root)) = (number, self.history.reading(id)) {
                    self.linked += usize::from(told.answer.length > root.size() as u64);
                    self.inner[2] += usize::from(has_inner_start(root));
                }
            }
        }
        if number != 0 {
            assert_eq!(self.stores, before, "{call:?}");
        }
        assert_eq!(self.stores.run(&Call::Tally).answer, self.history.tally());
    }

    fn check_pack(&mut self, call: &Call, told: &Told) {
        let Call::Pack { id, copies, .. } = *call else {
            panic!("only a pack is not judged");
        };
        let (answer, output) = (&told.answer, &told.output);
        self.check_number(id, copies, told);
        let mut written = 0;
        if answer.number == 0 {
            written = answer.length as usize;
            let root = self.history.reading(id).unwrap();
            let shown = reader::shown(&output[..written], root).unwrap();
            // Each copy is one place more at which a reading is shown.
            let sizes: usize = shown.iter().map(|(_, reading)| reading.size()).sum();
            assert_eq!(sizes, written);
            let different: HashSet<_> = shown
                .iter()
                .map(|(_, reading)| Rc::as_ptr(reading))
                .collect();
            assert_eq!((shown.len() - different.len()) as u64, answer.copies);
            assert!(answer.copies <= copies.into());
            let pieces = self.history.table_pieces(id).unwrap();
            assert_eq!(answer.placed, pieces + answer.copies);
            if answer.copies == 0 {
                assert_eq!(Some(answer.length), self.history.table_length(id));
            }
            self.copies += answer.copies;
        }
        assert!(output[written..].iter().all(|&byte| byte == STALE_BYTE));
    }

    fn check_number(&self, id: u32, copies: u32, told: &Told) {
        let (number, work) = (told.answer.number, &told.work);
        let tally = self.history.tally();
        let limit = |word: usize| u64::from(self.stores.records[word]);
        let pieces = limit(0);
        let need = limits::work_need(pieces, limit(134 + pieces as usize), copies.into()) as usize;
        let cleared = if matches!(number, 0 | 10 | 11) {
            need
        } else {
            0
        };
        assert!(work[..cleared].iter().all(|&word| word == 0));
        assert!(work[cleared..].iter().all(|&word| word == STALE_WORK));
        let output = told.output.len() as u64;
        let expected: &[u64] = if copies > 1_024 || work.len() < need {
            &[13]
        } else if tally.depth > 0 {
            &[9]
        } else if u64::from(id) >= tally.objects {
            &[4]
        } else if output < self.history.table_length(id).unwrap() {
            &[10, 11]
        } else if copies == 0 {
            &[0, 11]
        } else {
            &[0, 10, 11]
        };
        assert!(expected.contains(&number), "{number} of {expected:?}");
        assert_eq!(number == 11, told.answer.needed > 65_535);
        assert_eq!(number == 0, told.answer.placed > 0);
    }
}

fn run_case(case: &Case) {
    let mut pair = Pair::begin(case.store, case.records, &case.calls[0]);
    for call in &case.calls[1..] {
        pair.run(call);
    }
}

#[test]
fn every_case_agrees_with_its_history() {
    for case in hand_counted_cases().iter().chain(&trap_cases()) {
        run_case(case);
    }
}

/// Mostly an id of a closed piece.
fn any_id(numbers: &mut Numbers, closed: usize) -> u32 {
    match numbers.below(20) {
        0 => numbers.next() as u32,
        1 => closed as u32,
        _ => numbers.below(closed.max(1)) as u32,
    }
}

fn any_call(numbers: &mut Numbers, history: &History, most: usize) -> Call {
    let tally = history.tally();
    let closed = tally.objects as usize;
    let place = history.innermost_size().unwrap_or(0);
    let open = Call::Open;
    let put = |numbers: &mut Numbers| {
        let length = numbers.below(most);
        Call::Put((0..length).map(|_| numbers.below(2) as u8).collect())
    };
    let link = |numbers: &mut Numbers| Call::Link {
        width: numbers.one_of(&[2, 2, 2, 3, 4, 4, 0, 1, 5, 258]),
        id: any_id(numbers, closed),
        inner: any_inner(place, numbers),
    };
    let pack = |numbers: &mut Numbers| Call::Pack {
        id: any_id(numbers, closed),
        copies: numbers.one_of(&[0, 0, 0, 0, 0, 0, 0, 0, 0, 1, 1, 2, 1_024, 1_025]),
        output: numbers.below(6 * most),
        work: 100 + numbers.below(180),
    };
    let start = |numbers: &mut Numbers| Call::Start {
        pieces: numbers.below(13) as u32,
        links: numbers.below(17) as u32,
    };
    match (numbers.below(100), tally.depth) {
        (0, _) => start(numbers),
        (1..=19, 3..) => Call::Drop,
        (1..=9, _) => Call::Tally,
        (10..=19, _) => open,
        (20..=24, _) => put(numbers),
        (25..=29, _) => link(numbers),
        (30..=34, _) => Call::Drop,
        (35..=39, _) => pack(numbers),
        (40..=69, 0) => open,
        (_, 0) => pack(numbers),
        (40..=54, _) => put(numbers),
        (55..=74, _) => link(numbers),
        (75..=79, _) => Call::Drop,
        (_, _) => Call::Close,
    }
}

#[test]
fn many_small_runs() {
    let mut told = [0; NUMBERS];
    let (mut linked, mut inner) = (0, [0; 3]);
    for seed in 0..6_000 {
        let mut numbers = Numbers::new(seed + 10);
        let (pieces, links) = (1 + numbers.below(12) as u32, numbers.below(17) as u32);
        let store = 1 + numbers.below(90);
        let need = limits::record_need(pieces.into(), links.into()) as usize;
        let records = need + numbers.below(20);
        let mut pair = Pair::begin(store, records, &Call::Start { pieces, links });
        for _ in 0..150 {
            let call = any_call(&mut numbers, &pair.history, 8);
            pair.run(&call);
        }
        for (sum, count) in told.iter_mut().zip(pair.told) {
            *sum += count;
        }
        linked += pair.linked;
        for (sum, count) in inner.iter_mut().zip(pair.inner) {
            *sum += count;
        }
    }
    assert!(linked > 1_000, "{linked} tables with links");
    assert!(inner.iter().all(|&count| count > 1_000), "{inner:?}");
    for number in [0, 1, 3, 4, 5, 6, 7, 8, 9, 10, 13] {
        assert!(told[number] > 100, "{number} told {} times", told[number]);
    }
    assert_eq!(told[12], 0);
}

#[test]
fn runs_with_large_pieces() {
    let (mut told, mut inner, mut copies) = ([0; NUMBERS], 0, 0);
    for seed in 0..100 {
        let mut numbers = Numbers::new(seed + 10_000);
        let (pieces, links) = (10, 24);
        let records = limits::record_need(10, 24) as usize;
        let mut pair = Pair::begin(400_000, records, &Call::Start { pieces, links });
        for id in 0..9 {
            pair.run(&Call::Open);
            let length = numbers.one_of(&[1, 2, 20_000, 40_000, 65_525, 65_533, 65_535]);
            let bytes = vec![id as u8; length];
            let put_first = numbers.below(2) == 0;
            if put_first {
                pair.run(&Call::Put(bytes.clone()));
            }
            for _ in 0..numbers.below(4) {
                let width = numbers.one_of(&[2, 2, 3, 4]);
                let child = numbers.below(id.max(1)) as u32;
                let place = pair.history.innermost_size().unwrap();
                pair.run(&Call::Link {
                    width,
                    id: child,
                    inner: any_inner(place, &mut numbers),
                });
            }
            if !put_first {
                pair.run(&Call::Put(bytes));
            }
            pair.run(&Call::Close);
            // A hopeless piece stays open; another stands for it.
            if pair.history.tally().depth > 0 {
                pair.run(&Call::Drop);
                pair.run(&Call::Open);
                pair.run(&Call::Put(vec![id as u8; 3]));
                pair.run(&Call::Close);
            }
        }
        for id in 0..9 {
            let copies = numbers.one_of(&[0, 1, 8, 8]);
            pair.run(&Call::Pack {
                id,
                copies,
                output: 500_000,
                work: limits::work_need(10, 24, copies.into()) as usize,
            });
        }
        for (sum, count) in told.iter_mut().zip(pair.told) {
            *sum += count;
        }
        inner += pair.inner[2];
        copies += pair.copies;
    }
    assert!(told[11] > 20 && told[16] > 20, "{told:?}");
    assert!(copies > 10, "{copies} copies");
    assert!(inner > 100, "{inner} tables with inner starts");
}

#[test]
fn a_long_chain() {
    let (pieces, links, count) = (400, 400, 400);
    let records = limits::record_need(400, 400) as usize;
    let mut pair = Pair::begin(1_000, records, &Call::Start { pieces, links });
    pair.run(&Call::Open);
    pair.run(&Call::Put(b"x".to_vec()));
    pair.run(&Call::Close);
    for id in 0..count - 1 {
        pair.run(&Call::Open);
        pair.run(&Call::Link {
            width: 2,
            id,
            inner: 0,
        });
        pair.run(&Call::Close);
    }
    pair.run(&Call::Pack {
        id: count - 1,
        copies: 0,
        output: 1_000,
        work: 11 * 400 + 2 * 400,
    });
    assert_eq!(pair.history.table_length(count - 1), Some(799));
    assert_eq!(pair.told[0], 3 * 400 + 1);
}

#[test]
#[ignore = "takes minutes"]
fn all_pieces_and_links_of_the_limits() {
    let (pieces, links) = (16_384, 65_536);
    let records = limits::record_need(16_384, 65_536) as usize;
    let mut pair = Pair::begin(300_000, records, &Call::Start { pieces, links });
    let mut numbers = Numbers::new(20_000);
    for id in 0..pieces {
        pair.run(&Call::Open);
        pair.run(&Call::Put(id.to_be_bytes().to_vec()));
        for _ in 0..4 {
            let far = numbers.below(60).min(id as usize) as u32;
            let width = numbers.one_of(&[2, 3, 4, 4]);
            let child = id.saturating_sub(1 + far);
            let place = pair.history.innermost_size().unwrap();
            pair.run(&Call::Link {
                width,
                id: child,
                inner: allowed_inner(place, &mut numbers) as u32,
            });
        }
        pair.run(&Call::Close);
    }
    pair.run(&Call::Pack {
        id: pieces - 1,
        copies: 0,
        output: 300_000,
        work: 11 * 16_384 + 2 * 65_536,
    });
    assert_eq!(pair.history.tally().objects, 16_384);
    assert_eq!((pair.linked, pair.inner[2]), (1, 1));
}
