//! Random lists of calls cut into batches, held to the same calls made one by one,
//! to the reference, to the history and to the plain builder.

use compare::batches::{Batch, Outcome};
use compare::claims::Claims;
use compare::largest::WIDE;
use compare::lists::Style;
use compare::made::Room;
use compare::no_call::{damage, Kind, KINDS};
use compare::shapes::{self, Graph, Make, FAMILIES};
use compare::written::Packer;
use compare::{seed, tamper, Checked, Numbers, Pair};
use plain::build::{Builder, Limits};
use reference::batch::Batched;
use reference::call::{Call, Stores};
use reference::history::History;
use reference::limits::batch_need;
use reference::sound::sound;
use reference::Answer;

/// One more than the greatest number of a batch.
const NUMBERS: usize = 20;

/// Those that a batch tells.
const TOLD: [usize; 13] = [0, 1, 2, 3, 4, 5, 6, 7, 8, 12, 13, 16, 19];

#[derive(Default)]
struct Seen {
    lists: usize,
    told: [usize; NUMBERS],
    calls: u64,
    /// Batches that ended at words that are no call, by kind.
    no_call: [usize; KINDS.len()],
    /// Links that name a close, and closes of pieces that equal a closed one.
    own_links: usize,
    equal: u64,
    /// Batches on damaged stores that are sound still.
    damaged: usize,
}

impl Seen {
    fn count(&mut self, told: &Batched) {
        self.told[told.number as usize] += 1;
        self.calls += told.calls;
    }

    /// Prints how often each number was told, which is so often at least.
    fn report(&self, what: &str, least: usize) {
        let batches: usize = self.told.iter().sum();
        let Seen { lists, calls, .. } = self;
        println!("{what}: {lists} lists, {batches} batches, {calls} calls");
        for (number, &count) in self.told.iter().enumerate() {
            if TOLD.contains(&number) {
                println!("  number {number:2}: {count}");
                assert!(count >= least, "number {number} is hardly told");
            } else {
                assert_eq!(count, 0, "number {number}");
            }
        }
    }
}

/// A batch, and what its calls came to one by one.
#[derive(Default)]
struct Drawn {
    batch: Batch,
    number: u64,
    calls: u64,
    ids: Vec<u32>,
    no_call: Option<Kind>,
}

impl Drawn {
    /// Adds a call that was made singly.
    fn add(&mut self, call: &Call, answer: &Answer, close: Option<usize>) {
        match (call, close) {
            (Call::Link { width, inner, .. }, Some(close)) => {
                self.batch.link_own(*width, close as u32, *inner)
            }
            _ => self.batch.call(call),
        }
        self.number = answer.number;
        if answer.number == 0 {
            self.calls += 1;
            if *call == Call::Close {
                self.ids.push(answer.id as u32);
            }
        }
    }

    /// A close that told the id that a call links.
    fn close_of(&self, call: &Call, numbers: &mut Numbers) -> Option<usize> {
        let &Call::Link { id, .. } = call else {
            return None;
        };
        let closes = self.ids.iter().enumerate().filter(|(_, &own)| own == id);
        let closes: Vec<usize> = closes.map(|(close, _)| close).collect();
        (!closes.is_empty()).then(|| numbers.one_of(&closes))
    }

    /// Ends it: perhaps at words that are no call, and with calls behind those at
    /// which it ends. Gives for how many ids there is room.
    fn end(&mut self, numbers: &mut Numbers) -> usize {
        let told = self.ids.len();
        if self.number == 0 && numbers.below(3) == 0 {
            let kind = numbers.one_of(&KINDS);
            kind.add(&mut self.batch, told as u32, numbers);
            (self.number, self.no_call) = (19, Some(kind));
        }
        let whole = self.number == 0 || self.no_call == Some(Kind::CutShort);
        if !whole {
            for _ in 0..numbers.below(4) {
                let behind = numbers.one_of(&[&Call::Open, &Call::Drop, &Call::Close]);
                self.batch.call(behind);
            }
        }
        match self.no_call {
            Some(Kind::NoRoom) => told,
            // The close that is refused wants a word too.
            _ => self.batch.closes + numbers.one_of(&[0, 0, 1, 5]),
        }
    }
}

/// One list: a session by batches, and the same by single calls.
struct List<'a> {
    style: Style,
    batches: Pair,
    singles: Checked,
    history: History,
    builder: Builder,
    seen: &'a mut Seen,
}

fn builder(pieces: u32, links: u32, store: usize) -> Builder {
    Builder::new(Limits {
        objects: pieces as usize,
        links: links as usize,
        bytes: store,
    })
}

impl<'a> List<'a> {
    fn started(style: Style, seen: &'a mut Seen, numbers: &mut Numbers) -> List<'a> {
        let (store, records) = (style.store, style.records());
        let (pieces, links) = (style.pieces, style.links);
        let stores = Stores::new(store, records);
        let mut list = List {
            style,
            batches: Pair::of(stores.clone()),
            singles: Checked {
                pair: Pair::of(stores),
                claims: Claims::begin(pieces, links, store, records),
            },
            history: History::begin(pieces, links, store, records).expect("accepted"),
            builder: builder(pieces, links, store),
            seen,
        };
        list.seen.lists += 1;
        list.singly(&style.start(), numbers);
        list
    }

    /// A call that stands in no batch.
    fn singly(&mut self, call: &Call, numbers: &mut Numbers) {
        let answer = self.singles.run(call, numbers).answer;
        assert_eq!(self.batches.run(call, numbers).answer, answer);
        let (store, records) = (self.style.store, self.style.records());
        self.history.feed(call, store, records);
        if let (Call::Start { pieces, links }, 0) = (call, answer.number) {
            self.builder = builder(*pieces, *links, store);
        }
    }

    /// Draws calls and makes them one by one, up to the first that is refused, or
    /// leaves those out that are.
    fn draw(&mut self, numbers: &mut Numbers) -> Drawn {
        let mut drawn = Drawn::default();
        let careful = numbers.below(2) == 0;
        for _ in 0..numbers.one_of(&[0, 3, 12, 12, 40, 150]) {
            let call = self.style.next(&self.singles.claims, numbers);
            if matches!(call, Call::Start { .. } | Call::Tally | Call::Pack { .. }) {
                continue;
            }
            let answer = self.singles.run(&call, numbers).answer;
            if careful && answer.number != 0 {
                continue;
            }
            let close = match numbers.below(4) {
                0 => None,
                _ => drawn.close_of(&call, numbers),
            };
            self.seen.own_links += usize::from(close.is_some());
            drawn.add(&call, &answer, close);
            if answer.number != 0 {
                break;
            }
        }
        drawn
    }

    /// A batch on all sides.
    fn batch(&mut self, numbers: &mut Numbers) {
        let before = self.singles.claims.history.tally().objects;
        let mut drawn = self.draw(numbers);
        let room = drawn.end(numbers);
        let need = self.history.batch_need();
        if numbers.below(12) == 0 {
            let short = need - numbers.one_of(&[1, 2, need]);
            let told = self.lend(&drawn.batch, room, short, numbers).told;
            assert_eq!(told.number, 13);
        }
        if numbers.below(12) == 0 {
            self.on_damaged_stores(&drawn.batch, room, numbers);
        }
        let work = need + numbers.one_of(&[0, 0, 1, 7]);
        let Outcome { told, ids } = self.lend(&drawn.batch, room, work, numbers);
        self.as_singly(&drawn, &told, &ids);
        self.build(&drawn.batch, room, &told, &ids);
        if let Some(kind) = drawn.no_call {
            self.seen.no_call[kind as usize] += 1;
        }
        self.seen.equal += told.ids + before - told.objects;
    }

    /// The batch told and left what its calls did one by one.
    fn as_singly(&self, drawn: &Drawn, told: &Batched, ids: &[u32]) {
        let Answer {
            bytes,
            links,
            objects,
            depth,
            ..
        } = self.singles.claims.history.tally();
        let expected = Batched {
            number: drawn.number,
            bytes,
            links,
            objects,
            depth,
            calls: drawn.calls,
            ids: drawn.ids.len() as u64,
        };
        assert_eq!((told, ids), (&expected, &drawn.ids[..]));
        let singles = self.singles.pair.proved.stores();
        let batches = self.batches.proved.stores();
        assert!(singles == batches, "not as the single calls");
    }

    /// A batch on both packers and on the history.
    fn lend(&mut self, batch: &Batch, room: usize, work: usize, numbers: &mut Numbers) -> Outcome {
        let outcome = self.batches.batch(batch, room, work, numbers);
        let mut ids = vec![0; room];
        let Batch { calls, bytes, .. } = batch;
        let expected = self.history.batch(calls, bytes, &mut ids, work);
        ids.truncate(expected.ids as usize);
        assert_eq!((outcome.told, &outcome.ids), (expected, &ids));
        self.seen.count(&outcome.told);
        outcome
    }

    /// A batch on a damaged copy of the stores.
    fn on_damaged_stores(&mut self, batch: &Batch, room: usize, numbers: &mut Numbers) {
        let mut stores = self.batches.reference.clone();
        tamper::damage(&mut stores, numbers);
        let is_sound = sound(&stores.bytes, &stores.records).is_some();
        let need = stores
            .records
            .first()
            .map_or(0, |&pieces| 4 * u64::from(pieces));
        // A damaged limit may be any number.
        let work = need.min(100_000) as usize;
        let told = Pair::of(stores).batch(batch, room, work, numbers).told;
        assert_eq!(told.number == 12, !is_sound);
        self.seen.count(&told);
        self.seen.damaged += usize::from(is_sound);
    }

    /// The plain builder tells the same.
    fn build(&mut self, batch: &Batch, room: usize, told: &Batched, expected: &[u32]) {
        let mut ids = vec![0; room];
        let (progress, built) = self.builder.run(&batch.calls, &batch.bytes, &mut ids);
        let number = built.err().map_or(0, |refusal| refusal.number());
        let builder = &self.builder;
        let counts = [
            builder.held_bytes(),
            builder.held_links(),
            builder.closed(),
            builder.depth(),
            progress.calls,
            progress.ids,
        ];
        let [bytes, links, objects, depth, calls, written] = counts.map(|count| count as u64);
        let by_builder = Batched {
            number,
            bytes,
            links,
            objects,
            depth,
            calls,
            ids: written,
        };
        assert_eq!(&by_builder, told, "plain");
        assert_eq!(&ids[..expected.len()], expected, "plain");
    }
}

/// Runs a list of so many batches, with calls that stand in none between them.
fn run(style: Style, batches: usize, seen: &mut Seen, numbers: &mut Numbers) {
    let mut list = List::started(style, seen, numbers);
    for _ in 0..batches {
        list.batch(numbers);
        let call = style.next(&list.singles.claims, numbers);
        if matches!(call, Call::Start { .. } | Call::Tally | Call::Pack { .. }) {
            list.singly(&call, numbers);
        }
    }
}

#[test]
fn random_lists_in_batches() {
    let mut numbers = seed::numbers("batches");
    let mut seen = Seen::default();
    for _ in 0..3_000 {
        run(Style::small(&mut numbers), 9, &mut seen, &mut numbers);
    }
    for _ in 0..200 {
        run(Style::roomy(&mut numbers), 9, &mut seen, &mut numbers);
    }
    for _ in 0..200 {
        run(Style::deep(&mut numbers), 9, &mut seen, &mut numbers);
    }
    for _ in 0..100 {
        run(Style::large(&mut numbers), 6, &mut seen, &mut numbers);
    }
    for _ in 0..300 {
        run(Style::edge(&mut numbers), 7, &mut seen, &mut numbers);
    }
    seen.report("batches", 10);
    let Seen {
        no_call,
        own_links,
        equal,
        damaged,
        ..
    } = seen;
    for (kind, count) in KINDS.into_iter().zip(no_call) {
        println!("  no call, {kind:?}: {count}");
        assert!(count >= 200);
    }
    println!("  {own_links} links to closes, {equal} closes of equal pieces, {damaged} batches on damaged stores that are sound");
    assert!(own_links >= 2_000 && equal >= 1_000 && damaged >= 100);
}

/// A graph's pieces, and behind each of them any of those so far again, in batches of
/// so many pieces. Equal pieces have one id, which is the piece's number.
fn graph_in_batches(graph: &Graph, together: usize, numbers: &mut Numbers) -> usize {
    let room = Room {
        pieces: graph.len() as u32 + numbers.one_of(&[0, 0, 1, 700]),
        links: shapes::links(graph) as u32 + 4 * graph.len() as u32,
        store: 2 * shapes::bytes(graph),
    };
    let mut session = Checked::started(room, numbers).pair;
    let written: Vec<usize> = (0..graph.len())
        .flat_map(|piece| [piece, numbers.below(piece + 1)])
        .collect();
    for pieces in written.chunks(together) {
        let mut batch = Batch::default();
        for &piece in pieces {
            let ids: Vec<u32> = (0..graph.len() as u32).collect();
            let calls = shapes::calls(&graph[piece], &ids);
            calls.iter().for_each(|call| batch.call(call));
        }
        let work = batch_need(room.pieces.into()) as usize;
        let outcome = session.batch(&batch, pieces.len(), work, numbers);
        assert_eq!(outcome.told.number, 0);
        let ids = pieces.iter().map(|&piece| piece as u32);
        assert!(ids.eq(outcome.ids));
    }
    written.len()
}

#[test]
fn graphs_in_batches() {
    let mut numbers = seed::numbers("graphs in batches");
    let mut closes = 0;
    for (pieces, times) in [(2, 20), (30, 20), (300, 4), (1_200, 1)] {
        for family in FAMILIES {
            for _ in 0..times {
                let make = Make {
                    pieces,
                    fanout: 4,
                    widths: WIDE,
                    sizes: &[2, 3, 9, 40],
                };
                let graph = make.graph(family, &mut numbers);
                let together = numbers.one_of(&[1, 7, 100, 2 * pieces]);
                // A batch looks at all closed pieces once.
                let together = together.max(pieces / 10);
                closes += graph_in_batches(&graph, together, &mut numbers);
            }
        }
    }
    println!("graphs in batches: {closes} closes, half of them of equal pieces");
}

/// Batches whose words are damaged: what the reference makes of them.
#[test]
fn damaged_words() {
    let mut numbers = seed::numbers("damaged words");
    let mut seen = Seen::default();
    for turn in 0..4_000 {
        let style = match turn % 8 {
            0 => Style::deep(&mut numbers),
            1 => Style::roomy(&mut numbers),
            _ => Style::small(&mut numbers),
        };
        let mut unseen = Seen::default();
        let mut list = List::started(style, &mut unseen, &mut numbers);
        list.batch(&mut numbers);
        let stores = list.batches.reference.clone();
        let drawn = list.draw(&mut numbers);
        seen.lists += 1;
        for _ in 0..6 {
            let mut batch = drawn.batch.clone();
            for _ in 0..=numbers.below(3) {
                damage(&mut batch, &mut numbers);
            }
            let room = numbers.one_of(&[batch.closes, batch.closes + 3, batch.closes / 2]);
            let need = batch_need(stores.records[0].into()) as usize;
            let work = numbers.one_of(&[need, need, need + 3]);
            let outcome = Pair::of(stores.clone()).batch(&batch, room, work, &mut numbers);
            seen.count(&outcome.told);
        }
    }
    println!(
        "damaged words: {} calls, numbers {:?}",
        seen.calls, seen.told
    );
    for number in [0, 1, 3, 4, 5, 6, 19] {
        assert!(seen.told[number] >= 20, "number {number} is hardly told");
    }
}
