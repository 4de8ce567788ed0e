//! Graphs that need copies: cured by them, refused for want of one, and refused
//! though there are enough.

use crate::graphs::build;
use crate::plain::agree;
use compare::made::{self, Room};
use compare::shapes::{self, Graph, Link, Piece};
use compare::sharing::{Sharing, SHARINGS};
use compare::{seed, Checked, Numbers};
use reference::call::{Call, Stores};
use reference::copies::{lay, Laid};
use reference::graph::Graph as Drawn;
use reference::reader;
use reference::sound::sound;
use reference::Answer;
use std::collections::HashSet;
use std::rc::Rc;

/// More than most graphs here can use.
const MANY: u32 = 120;

#[derive(Debug, Default)]
struct Seen {
    graphs: usize,
    /// Graphs that are packed with copies, and those refused though some were
    /// made.
    cured: usize,
    not_cured: usize,
    /// Graphs of either kind with copies of copies.
    of_copies: usize,
    cured_of_copies: usize,
    /// Graphs refused for want of one copy.
    too_few: usize,
    /// Tables by how many copies they have: up to 1, 10, 100 and more.
    by_copies: [usize; 4],
    /// Refusals that name a copy by its original.
    named: usize,
    /// Links of width 2, 3 and 4 in tables with copies.
    widths: [usize; 3],
    /// Tables longer than the byte store.
    outgrown: usize,
}

/// What the reference lays with up to so many copies.
fn laid(stores: &Stores, root: u32, allowed: u32) -> Laid {
    let view = sound(&stores.bytes, &stores.records).expect("sound");
    lay(Drawn::of(&view), root as usize, allowed as usize)
}

fn room(graph: &Graph) -> Room {
    Room {
        pieces: graph.len() as u32,
        links: shapes::links(graph) as u32,
        store: shapes::bytes(graph),
    }
}

/// A pack with so many copies allowed into so many bytes.
type Pack<'a> = dyn FnMut(u32, usize) -> Answer + 'a;

/// Packs a graph with enough copies, with more, with one too few and with none;
/// or one that cannot be cured with as many as it uses, with more and with fewer.
fn packs(laid: &Laid, allowed: u32, numbers: &mut Numbers, pack: &mut Pack) {
    let made = laid.copies.made() as u32;
    let length = laid.placing.length(&laid.graph) as usize;
    let between = made + numbers.below((allowed - made) as usize + 1) as u32;
    for copies in [made, between, allowed] {
        match laid.overflow {
            None => {
                let told = pack(copies, length);
                let packed = (told.number, told.length, told.copies, told.placed);
                let placed = laid.placing.order.len() as u64;
                assert_eq!(packed, (0, length as u64, made.into(), placed));
            }
            Some(unfit) => {
                // However short the output is.
                let told = pack(copies, numbers.below(length + 1));
                let named = (told.parent as usize, told.field, told.needed);
                assert_eq!(named, (unfit.parent, unfit.field, unfit.needed));
                assert_eq!((told.number, told.copies, told.placed), (11, 0, 0));
            }
        }
    }
    if laid.overflow.is_none() {
        assert_eq!(pack(made, length - 1).number, 10);
        assert_eq!(pack(allowed, numbers.below(length)).number, 10);
    }
    if made > 0 {
        for copies in [made - 1, numbers.below(made as usize) as u32, 0] {
            let output = numbers.one_of(&[0, length - 1, length]);
            let told = pack(copies, output);
            assert_eq!((told.number, told.copies), (11, 0));
        }
    }
}

impl Seen {
    /// What is laid with enough copies, and with one too few.
    fn add(&mut self, [laid, short]: [&Laid; 2], stores: &Stores) {
        let (made, of_copies) = (laid.copies.made(), laid.copies.of_copies());
        let cured = made > 0 && laid.overflow.is_none();
        self.graphs += 1;
        self.cured += usize::from(cured);
        self.not_cured += usize::from(made > 0 && !cured);
        self.of_copies += usize::from(of_copies > 0);
        self.cured_of_copies += usize::from(cured && of_copies > 0);
        self.too_few += usize::from(made > 0);
        if cured {
            let group = [1, 10, 100].iter().filter(|&&most| made > most).count();
            self.by_copies[group] += 1;
            let length = laid.placing.length(&laid.graph) as usize;
            self.outgrown += usize::from(length > stores.bytes.len());
            for link in laid.graph.nodes.iter().flat_map(|node| &node.links) {
                self.widths[link.width as usize - 2] += 1;
            }
        }
        let pieces = laid.graph.nodes.len() - made;
        for laid in [laid, short] {
            let unfit = laid.placing.overflow(&laid.graph);
            self.named += usize::from(unfit.is_some_and(|unfit| unfit.parent >= pieces));
        }
    }

    fn report(&self, what: &str) {
        println!("{what}: {self:?}");
        assert!(self.cured >= 200 && self.not_cured >= 100 && self.too_few >= 300);
        assert!(self.of_copies >= 100 && self.cured_of_copies >= 30 && self.named >= 100);
        let [one, ten, hundred, more] = self.by_copies;
        assert!(one >= 5 && ten >= 100 && hundred >= 50 && more >= 3);
        assert!(self.widths.iter().all(|&links| links >= 200));
        assert!(self.outgrown >= 200);
    }
}

/// Makes graphs of all families with their roots, mostly of a few groups of pieces.
fn each_graph(numbers: &mut Numbers, mut made: impl FnMut(&Graph, u32, &mut Numbers)) {
    for turn in 0..1_050 {
        let sharing = SHARINGS[turn % SHARINGS.len()];
        let count = match (sharing, numbers.below(20)) {
            // Four copies each.
            (Sharing::Again, _) if turn < 20 => 26,
            (Sharing::Again, 0) => 12 + numbers.below(12),
            (Sharing::Again, _) => 1 + numbers.below(3),
            (_, 0) => 12 + numbers.below(20),
            (Sharing::Leaf, 1) => 70 + numbers.below(45),
            (_, 2..=8) => 2,
            _ => 2 + numbers.below(6),
        };
        let (graph, root) = sharing.graph(count, numbers);
        made(&graph, root as u32, numbers);
    }
}

#[test]
fn plain_makes_the_same_copies() {
    let mut numbers = seed::numbers("copies by the plain packer");
    let mut seen = Seen::default();
    each_graph(&mut numbers, |graph, root, numbers| {
        let stores = made::stores(graph, room(graph), numbers);
        let readings = made::readings(graph);
        let found = laid(&stores, root, MANY);
        packs(&found, MANY, numbers, &mut |copies, output| {
            let (answer, table) = agree(&stores, root, copies, output);
            if answer.number == 0 {
                let shown = reader::shown(&table, &readings[root as usize]).expect("shown");
                let sizes: usize = shown.iter().map(|(_, reading)| reading.size()).sum();
                let different: HashSet<_> = shown.iter().map(|(_, r)| Rc::as_ptr(r)).collect();
                assert_eq!(sizes, table.len());
                assert_eq!(shown.len() - different.len(), answer.copies as usize);
            }
            answer
        });
        let short = laid(&stores, root, found.copies.made().saturating_sub(1) as u32);
        seen.add([&found, &short], &stores);
    });
    seen.report("copies by the plain packer");
}

/// A session of a graph, one in eight of the small ones built by calls.
fn session(graph: &Graph, turn: usize, numbers: &mut Numbers) -> Checked {
    if turn % 8 > 0 || graph.len() > 40 {
        return Checked::made(graph, room(graph), numbers);
    }
    let mut session = Checked::started(room(graph), numbers);
    let ids = build(graph, &mut session, numbers);
    assert!(ids.into_iter().eq(0..graph.len() as u32));
    session
}

#[test]
fn copies_side_by_side() {
    let mut numbers = seed::numbers("copies");
    let mut seen = Seen::default();
    each_graph(&mut numbers, |graph, root, numbers| {
        let mut session = session(graph, seen.graphs, numbers);
        let found = laid(&session.pair.reference, root, MANY);
        let mut other = Numbers::new(numbers.next());
        packs(&found, MANY, numbers, &mut |copies, output| {
            session
                .pack_copying(root, copies, output, &mut other)
                .answer
        });
        let stores = &session.pair.reference;
        let short = laid(stores, root, found.copies.made().saturating_sub(1) as u32);
        seen.add([&found, &short], stores);
    });
    seen.report("copies");
}

fn piece(bytes: usize, links: &[Link], byte: u8) -> Piece {
    Piece {
        links: links.to_vec(),
        bytes: vec![byte; bytes],
        links_first: true,
    }
}

/// A leaf of so many bytes under the root and under so many pieces, and a small
/// leaf under the last of these by width 4 and under the root by these widths.
fn long_leaf(leaf: usize, parents: usize, size: usize, widths: &[u32]) -> Graph {
    let mut graph = vec![piece(leaf, &[], b's'), piece(9, &[], b't')];
    let mut root = vec![Link::new(2, 0)];
    root.extend(widths.iter().map(|&width| Link::new(width, 1)));
    for parent in 0..parents {
        let links = [Link::new(2, 0), Link::new(4, 1)];
        let last = parent + 1 == parents && !widths.is_empty();
        let mut made = piece(size, &links[..1 + usize::from(last)], b'p');
        made.bytes[..2].copy_from_slice(&(parent as u16).to_be_bytes());
        root.push(Link::new(4, graph.len()));
        graph.push(made);
    }
    graph.push(piece(2, &root, b'r'));
    graph
}

/// A session of a graph on all three packers.
struct Three {
    session: Checked,
    root: u32,
    numbers: Numbers,
}

impl Three {
    fn new(graph: &Graph, numbers: &mut Numbers) -> Three {
        Three {
            session: Checked::made(graph, room(graph), numbers),
            root: graph.len() as u32 - 1,
            numbers: Numbers::new(numbers.next()),
        }
    }

    fn laid(&self, allowed: u32) -> Laid {
        laid(&self.session.pair.reference, self.root, allowed)
    }

    /// What all of them tell.
    fn pack(&mut self, copies: u32, output: usize) -> Answer {
        let plain = agree(&self.session.pair.reference, self.root, copies, output);
        let call = Call::Pack {
            id: self.root,
            copies,
            output,
            work: self.session.claims.work_need(copies.min(1_025)),
        };
        let packed = self.session.run(&call, &mut self.numbers);
        assert_eq!(packed.answer, plain.0);
        let written = packed.answer.length as usize;
        assert!(packed.output.1[..written] == plain.1[..written]);
        packed.answer
    }
}

/// The copies of a long leaf bring another one out of reach of a field of width
/// 3, which gets a copy too. The table is longer than any byte store.
#[test]
fn copies_past_the_longest_store() {
    let mut numbers = seed::numbers("copies past the longest store");
    for (leaf, parents, widths) in [(6_000_000, 4, &[3][..]), (5_000_000, 5, &[3, 3])] {
        let graph = long_leaf(leaf, parents, 40_000, widths);
        let mut three = Three::new(&graph, &mut numbers);
        let found = three.laid(20);
        let made = (parents + widths.len()) as u32;
        assert_eq!((found.copies.made() as u32, found.overflow), (made, None));
        let length = found.placing.length(&found.graph) as usize;
        assert!(length > 16_777_216 + leaf);
        for (copies, output, number) in [
            (20, length, 0),
            (made, length, 0),
            (made, length - 1, 10),
            (made - 1, length, 11),
            (0, length, 11),
        ] {
            assert_eq!(three.pack(copies, output).number, number);
        }
        let root = &found.graph.nodes[three.root as usize];
        let of_width_3 = root.links.iter().filter(|link| link.width == 3);
        assert!(of_width_3
            .map(|link| link.child)
            .all(|node| node >= graph.len()));
    }
}

/// So many copies of a long leaf that an offset passes 32 bits: 11 is told, though
/// the output is short.
#[test]
fn offsets_past_32_bits() {
    let mut numbers = seed::numbers("offsets past 32 bits");
    let graph = long_leaf(14_000_000, 400, 5_000, &[4]);
    let mut three = Three::new(&graph, &mut numbers);
    let found = three.laid(1_024);
    let made = found.copies.made() as u32;
    let needed = found.overflow.expect("refused").needed;
    assert!(needed > u32::MAX.into() && made > 300);
    for copies in [made, 1_024] {
        let told = three.pack(copies, 9);
        assert_eq!((told.number, told.needed), (11, needed));
    }
}

/// All offsets fit, and the table is longer than 32 bits count: 10 is told.
#[test]
fn lengths_past_32_bits() {
    let mut numbers = seed::numbers("lengths past 32 bits");
    let graph = long_leaf(15_000_000, 298, 5_000, &[]);
    let mut three = Three::new(&graph, &mut numbers);
    let found = three.laid(400);
    assert_eq!(found.overflow, None);
    let length = found.placing.length(&found.graph);
    assert!(length > u32::MAX.into());
    for output in [0, (length - (1 << 32)) as usize, 100_000_000] {
        assert_eq!(three.pack(400, output).number, 10);
    }
}

/// As many copies as are ever allowed, and one more.
#[test]
fn copies_at_the_end_of_their_range() {
    let mut numbers = seed::numbers("most copies");
    // The last seven of the pieces need no more than one leaf.
    for (parents, number) in [(1_028, 0), (1_029, 0), (1_030, 11), (1_040, 11)] {
        let graph = long_leaf(2, parents, 9_000, &[2]);
        let mut three = Three::new(&graph, &mut numbers);
        let found = three.laid(1_024);
        assert_eq!(found.copies.made(), (parents - 5).min(1_024));
        let length = found.placing.length(&found.graph) as usize;
        assert_eq!(three.pack(1_024, length).number, number);
        if number == 0 {
            assert_eq!(three.pack(1_024, length - 1).number, 10);
        }
        for copies in [1_025, 65_536, u32::MAX] {
            assert_eq!(three.pack(copies, length), Answer::bare(13));
        }
    }
}
