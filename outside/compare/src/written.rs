//! Sessions that a graph was written into, of the library and of the reference.

use crate::made::Room;
use crate::proved::Proved;
use crate::shapes::Graph;
use crate::writing::{Besides, Writing};
use reference::call::{Call, Stores};
use reference::limits;
use reference::random::Numbers;
use reference::sound::sound;
use reference::view::View;
use reference::Answer;

/// A packer with its two stores.
pub trait Packer {
    fn on(stores: Stores) -> Self;

    /// Runs a call; a pack lends these.
    fn call(&mut self, call: &Call, output: &mut [u8], work: &mut [u64]) -> Answer;

    fn stores(&self) -> (&[u8], &[u32]);
}

impl Packer for Proved {
    fn on(stores: Stores) -> Proved {
        Proved::new(&stores)
    }

    fn call(&mut self, call: &Call, output: &mut [u8], work: &mut [u64]) -> Answer {
        let answer = self.run(call, output, work);
        assert!(self.fences_stand(), "a write outside lent memory");
        answer
    }

    fn stores(&self) -> (&[u8], &[u32]) {
        (self.bytes.inside(), self.records.inside())
    }
}

/// The reference.
impl Packer for Stores {
    fn on(stores: Stores) -> Stores {
        stores
    }

    fn call(&mut self, call: &Call, output: &mut [u8], work: &mut [u64]) -> Answer {
        self.run_lent(call, output, work)
    }

    fn stores(&self) -> (&[u8], &[u32]) {
        (&self.bytes, &self.records)
    }
}

/// A session that a graph was written into.
pub struct Written<P> {
    packer: P,
    pub room: Room,
    /// By the numbers of the graph's pieces.
    pub ids: Vec<u32>,
    pub calls: usize,
    pub besides: Besides,
}

impl<P: Packer> Written<P> {
    pub fn new(graph: &Graph, numbers: &mut Numbers) -> Written<P> {
        let writing = Writing::any(graph, numbers);
        let room = writing.room(numbers);
        let records = room.layout().need() + numbers.below(9);
        let mut packer = P::on(Stores::new(room.store, records));
        let Room { pieces, links, .. } = room;
        let started = packer.call(&Call::Start { pieces, links }, &mut [], &mut []);
        assert_eq!(started.number, 0);
        let (mut ids, calls) = writing.run(&mut packer, numbers);
        ids.truncate(graph.len());
        Written {
            besides: writing.besides(graph),
            packer,
            room,
            ids,
            calls,
        }
    }

    pub fn view(&self) -> View<'_> {
        let (bytes, records) = self.packer.stores();
        sound(bytes, records).expect("sound")
    }

    /// The number of the graph's piece that has this id.
    pub fn piece(&self, id: usize) -> usize {
        let found = self.ids.iter().position(|&own| own as usize == id);
        found.expect("a piece of the graph")
    }

    /// What the session holds of a piece: its bytes, and of each field the place,
    /// width, inner start and child.
    fn held<'a>(&self, view: &View<'a>, piece: usize) -> (&'a [u8], Vec<[usize; 4]>) {
        let closed = view.closed_piece(self.ids[piece] as usize);
        let field = |record| {
            let field = view.field(record);
            let child = self.piece(field.child as usize);
            let numbers = [field.place, field.width, field.inner].map(|word| word as usize);
            [numbers[0], numbers[1], numbers[2], child]
        };
        (
            &view.store[closed.bytes.clone()],
            closed.links.map(field).collect(),
        )
    }

    /// A pack into an output that suffices: what it tells, and the table.
    pub fn pack(&mut self, root: usize, copies: u32, numbers: &mut Numbers) -> (Answer, Vec<u8>) {
        let (pieces, links) = (self.room.pieces.into(), self.room.links.into());
        let need = limits::work_need(pieces, links, copies.into()) as usize;
        let mut work = vec![numbers.next(); need + numbers.below(9)];
        let mut output = self.room.store + numbers.below(3_000);
        loop {
            let call = Call::Pack {
                id: self.ids[root],
                copies,
                output,
                work: work.len(),
            };
            let mut table = vec![numbers.next() as u8; output];
            let answer = self.packer.call(&call, &mut table, &mut work);
            if answer.number != 10 {
                table.truncate(answer.length as usize);
                return (answer, table);
            }
            output *= 2;
        }
    }
}

/// The same graph in two of them.
pub type Two<P> = [Written<P>; 2];

/// Both sessions hold the same pieces, whatever their ids.
pub fn hold_the_same<P: Packer>(graph: &Graph, [one, other]: &Two<P>) {
    let views = (one.view(), other.view());
    for piece in 0..graph.len() {
        assert!(one.held(&views.0, piece) == other.held(&views.1, piece));
    }
}
