//! One call on both packers, and all that it tells and leaves compared.

use crate::fenced::Fenced;
use crate::proved::Proved;
use reference::answer::NUMBERS;
use reference::call::{Call, Stores};
use reference::gsub::{GsubRead, Scope};
use reference::lines::{hex, script};
use reference::random::Numbers;
use reference::Answer;

/// How often each number was told.
pub type Counts = [usize; NUMBERS];

pub struct Pair {
    pub proved: Proved,
    pub reference: Stores,
    pub told: Counts,
    /// The stores before the call, kept to spare memory.
    pub(crate) before: Stores,
}

/// What a call told, and a pack's memory before and after it.
pub struct Outcome {
    pub answer: Answer,
    pub output: (Vec<u8>, Vec<u8>),
    pub work: (Vec<u64>, Vec<u64>),
}

impl Pair {
    /// Stores of these lengths that hold anything.
    pub fn new(store: usize, records: usize, numbers: &mut Numbers) -> Pair {
        Pair::of(Stores {
            bytes: (0..store).map(|_| numbers.next() as u8).collect(),
            records: (0..records).map(|_| numbers.next() as u32).collect(),
        })
    }

    pub fn of(stores: Stores) -> Pair {
        Pair {
            proved: Proved::new(&stores),
            before: stores.clone(),
            reference: stores,
            told: [0; NUMBERS],
        }
    }

    /// Runs a call on both; a pack's output and work memory hold anything.
    pub fn run(&mut self, call: &Call, numbers: &mut Numbers) -> Outcome {
        let (length, words) = match call {
            Call::Pack { output, work, .. } => (*output, *work),
            _ => (0, 0),
        };
        let (byte, word) = (numbers.next() as u8, numbers.next() << 13);
        let output: Vec<u8> = (0..length).map(|i| byte.wrapping_add(i as u8)).collect();
        let work: Vec<u64> = (0..words as u64).map(|i| word.wrapping_add(i)).collect();
        let answer = self.run_lent(call, &output, &work);
        self.told[answer.answer.number as usize] += 1;
        answer
    }

    /// Reads a table on both.
    pub fn read_gsub(&mut self, scope: Scope, limits: (u32, u32), table: &[u8]) -> GsubRead {
        self.keep();
        let expected = scope.read_last(&mut self.reference, limits, table, 0);
        let lent = Fenced::new(table, 0x5f);
        let told = self.proved.read_gsub(scope, limits, lent.inside());
        let line = || shown(limits, table);
        assert_eq!(told, expected, "{}", line());
        assert!(self.proved.same(&self.reference), "stores: {}", line());
        let fences = self.proved.fences_stand() && lent.stands() && lent.inside() == table;
        assert!(fences, "a write outside lent memory: {}", line());
        if told.number != 0 {
            // 13 of a start leaves all as it was.
            let (pieces, links) = limits;
            self.before.run(&Call::Start { pieces, links });
            let left = self.proved.same(&self.before);
            assert!(left, "refused, and not as started: {}", line());
        }
        self.told[told.number as usize] += 1;
        told
    }

    /// Keeps the stores as they are before a call.
    pub(crate) fn keep(&mut self) {
        self.before.bytes.clone_from(&self.reference.bytes);
        self.before.records.clone_from(&self.reference.records);
    }

    fn run_lent(&mut self, call: &Call, output: &[u8], work: &[u64]) -> Outcome {
        self.keep();
        let (mut out, mut memory) = (output.to_vec(), work.to_vec());
        let expected = self.reference.run_lent(call, &mut out, &mut memory);
        let mut proved_out = Fenced::new(output, 0x5f);
        let mut proved_work = Fenced::new(work, 0x5f5f);
        let answer = self
            .proved
            .run(call, proved_out.inside_mut(), proved_work.inside_mut());

        let line = || script(call);
        assert_eq!(answer, expected, "{}", line());
        assert!(self.proved.same(&self.reference), "stores: {}", line());
        assert!(proved_out.inside() == out, "output: {}", line());
        assert!(proved_work.inside() == memory, "work memory: {}", line());
        let fences = self.proved.fences_stand() && proved_out.stands() && proved_work.stands();
        assert!(fences, "a write outside lent memory: {}", line());
        if answer.number != 0 {
            let stand = self.proved.same(&self.before) && proved_out.inside() == output;
            assert!(stand, "refused, and memory changed: {}", line());
        }
        Outcome {
            answer,
            output: (output.to_vec(), out),
            work: (work.to_vec(), memory),
        }
    }
}

/// Limits and a table that is not read alike: so many bytes of it.
pub(crate) fn shown((pieces, links): (u32, u32), table: &[u8]) -> String {
    const SHOWN: usize = 400;
    let bytes = hex(&table[..table.len().min(SHOWN)]);
    format!("limits {pieces} {links}, {} bytes {bytes}", table.len())
}
