//! Calls as the words of a batch, and batches on both packers.

use crate::fenced::Fenced;
use crate::pair::Pair;
use crate::proved::Proved;
use crate::shapes::{Graph, Piece};
use reference::batch::{self, Batched};
use reference::call::Call;
use reference::lines::{hex, numbers};
use reference::random::Numbers;
use reference::view::Field;

/// The words and the bytes that a batch is given.
#[derive(Clone, Debug, Default, PartialEq, Eq)]
pub struct Batch {
    pub calls: Vec<u32>,
    pub bytes: Vec<u8>,
    pub closes: usize,
}

impl Batch {
    /// All pieces of a graph, each by a close of its own number.
    pub fn of(graph: &Graph) -> Batch {
        let mut batch = Batch::default();
        graph.iter().for_each(|piece| batch.piece(piece));
        batch
    }

    fn piece(&mut self, piece: &Piece) {
        self.call(&Call::Open);
        if !piece.links_first {
            self.put(&piece.bytes);
        }
        for Field {
            width,
            inner,
            child,
            ..
        } in piece.fields()
        {
            self.link_own(width, child, inner);
        }
        if piece.links_first {
            self.put(&piece.bytes);
        }
        self.call(&Call::Close);
    }

    /// A call that a batch can make; a link leads to an id.
    pub fn call(&mut self, call: &Call) {
        match call {
            Call::Open => self.calls.push(1),
            Call::Put(bytes) => self.put(bytes),
            Call::Link { width, id, inner } => self.calls.extend([3, *width, *id, *inner]),
            Call::Close => {
                self.calls.push(5);
                self.closes += 1;
            }
            Call::Drop => self.calls.push(6),
            Call::Start { .. } | Call::Tally | Call::Pack { .. } => {
                panic!("a batch does not make {call:?}")
            }
        }
    }

    /// A link to the object of an earlier close.
    pub fn link_own(&mut self, width: u32, close: u32, inner: u32) {
        self.calls.extend([4, width, close, inner]);
    }

    fn put(&mut self, bytes: &[u8]) {
        self.calls.extend([2, bytes.len() as u32]);
        self.bytes.extend_from_slice(bytes);
    }

    fn line(&self) -> String {
        let calls = numbers(&self.calls[..self.calls.len().min(SHOWN)]);
        let bytes = hex(&self.bytes[..self.bytes.len().min(SHOWN)]);
        format!("calls {calls}, {} bytes {bytes}", self.bytes.len())
    }
}

/// Of a batch that does not come out alike so many words and bytes are printed.
const SHOWN: usize = 400;

/// What a batch told, and the ids that its closes told.
#[derive(Clone, Debug, PartialEq, Eq)]
pub struct Outcome {
    pub told: Batched,
    pub ids: Vec<u32>,
}

/// What is lent to a batch to be written, besides the stores.
#[derive(Clone, PartialEq, Eq)]
struct Lent {
    ids: Vec<u32>,
    work: Vec<u64>,
}

impl Lent {
    /// So many words of each, that hold anything.
    fn any(ids: usize, work: usize, numbers: &mut Numbers) -> Lent {
        let word = numbers.next() << 13;
        Lent {
            ids: (0..ids).map(|_| numbers.next() as u32).collect(),
            work: (0..work as u64).map(|i| word.wrapping_add(i)).collect(),
        }
    }

    /// Whether a batch that told this may have left it so: the ids that were not
    /// told stand; the needed work memory is zero, and the surplus stands.
    fn may_become(&self, left: &Lent, told: &Batched, need: usize) -> bool {
        let refused = matches!(told.number, 12 | 13);
        let cleared = if refused { 0 } else { need };
        let written = told.ids as usize;
        left.ids[written..] == self.ids[written..]
            && left.work[..cleared].iter().all(|&word| word == 0)
            && left.work[cleared..] == self.work[cleared..]
    }
}

impl Pair {
    /// Runs a batch on both, with room for so many ids and so many words of work
    /// memory.
    pub fn batch(
        &mut self,
        batch: &Batch,
        room: usize,
        work: usize,
        numbers: &mut Numbers,
    ) -> Outcome {
        let before = self.reference.clone();
        let lent = Lent::any(room, work, numbers);
        let mut left = lent.clone();
        let Lent { ids, work } = &mut left;
        let expected = batch::batch(&mut self.reference, &batch.calls, &batch.bytes, ids, work);
        let (told, proved_left) = self.proved.batch_fenced(batch, &lent);
        let line = || batch.line();
        assert_eq!(told, expected, "{}", line());
        assert!(self.proved.same(&self.reference), "stores: {}", line());
        assert!(left.ids == proved_left.ids, "ids: {}", line());
        assert!(left.work == proved_left.work, "work memory: {}", line());
        let need = before.records.first().map_or(0, |&pieces| pieces);
        let need = bindings::batch_need(need, 0);
        assert!(lent.may_become(&left, &told, need), "{}", line());
        if matches!(told.number, 12 | 13) {
            assert!(self.proved.same(&before), "{}", line());
            let number = told.number;
            let alone = Batched {
                number,
                ..Batched::default()
            };
            assert_eq!(told, alone);
        }
        left.ids.truncate(told.ids as usize);
        Outcome {
            told,
            ids: left.ids,
        }
    }
}

impl Proved {
    /// A batch whose areas all have fences. Gives what it left of those that it may
    /// write.
    fn batch_fenced(&mut self, batch: &Batch, lent: &Lent) -> (Batched, Lent) {
        // A word too many would be a call.
        let calls = Fenced::new(&batch.calls, 1);
        let bytes = Fenced::new(&batch.bytes, 0x5f);
        let mut ids = Fenced::new(&lent.ids, 0x5f5f);
        let mut work = Fenced::new(&lent.work, 0x5f5f);
        let told = self.batch(
            calls.inside(),
            bytes.inside(),
            ids.inside_mut(),
            work.inside_mut(),
        );
        let read = calls.inside() == batch.calls && bytes.inside() == batch.bytes;
        let fences = calls.stands() && bytes.stands() && ids.stands() && work.stands();
        let stands = read && fences && self.fences_stand();
        assert!(stands, "a write outside lent memory: {}", batch.line());
        let left = Lent {
            ids: ids.inside().to_vec(),
            work: work.inside().to_vec(),
        };
        (told, left)
    }
}
