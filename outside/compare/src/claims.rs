//! What the history says of a call: its answer, and of a pack its number,
//! length and table.

use crate::met::Met;
use crate::pair::Outcome;
use reference::answer::{DONE, OUT_OF_RANGE, UNREADABLE};
use reference::call::Call;
use reference::gsub::reading::{promoted, FieldAt};
use reference::gsub::{GsubPromoted, GsubRead, Scope};
use reference::history::History;
use reference::limits;
use reference::lines::script;
use reference::reader;
use reference::reading::{has_inner_start, same, Reading};
use reference::Answer;
use std::collections::HashSet;
use std::rc::Rc;

/// A history with the limits that it was started with.
pub struct Claims {
    pub history: History,
    pub met: Met,
    lengths: (usize, usize),
    limits: (u32, u32),
}

impl Claims {
    /// The history that an accepted start begins on stores of these lengths.
    pub fn begin(pieces: u32, links: u32, store: usize, records: usize) -> Claims {
        let history = History::begin(pieces, links, store, records);
        Claims {
            history: history.expect("the start is accepted"),
            met: Met::default(),
            lengths: (store, records),
            limits: (pieces, links),
        }
    }

    /// With these pieces closed already, all of them different.
    pub fn with_closed(self, pieces: Vec<Rc<Reading>>) -> Claims {
        Claims {
            history: self.history.with_closed(pieces),
            ..self
        }
    }

    /// Words of work memory that a pack needs now that allows so many copies.
    pub fn work_need(&self, copies: u32) -> usize {
        let (pieces, links) = self.limits;
        limits::work_need(pieces.into(), links.into(), copies.into()) as usize
    }

    pub fn check(&mut self, call: &Call, outcome: &Outcome) {
        let (store, records) = self.lengths;
        if let Call::Pack { id, copies, .. } = call {
            return self.check_pack(*id, *copies, outcome);
        }
        self.met += Met::before(call, &self.history);
        let closed = self.history.tally().objects;
        let reach = self.history.narrow_reach();
        let expected = self.history.feed(call, store, records);
        assert_eq!(Some(outcome.answer), expected, "{}", script(call));
        if let Call::Close = call {
            self.met += Met::close(reach, outcome.answer.number);
        }
        if outcome.answer.objects > closed {
            self.met += Met::closed(closed as u32, &self.history);
        }
        if let (Call::Start { pieces, links }, 0) = (call, outcome.answer.number) {
            self.limits = (*pieces, *links);
        }
    }

    /// What a read of a table told. The root reads as the table does, and the
    /// table shows it.
    pub fn check_read(&mut self, scope: Scope, limits: (u32, u32), table: &[u8], told: &GsubRead) {
        let history = &mut self.history;
        let expected = history.read_scope(scope, limits, self.lengths, table, 0);
        assert_eq!(*told, expected);
        if told.number != OUT_OF_RANGE {
            self.limits = limits;
        }
        let reading = scope.reading(table);
        check_place(told.number, told.place, reading.as_ref().err());
        if told.number == DONE {
            let root = self.history.reading(told.id as u32).expect("closed");
            assert!(same(root, &reading.expect("it is read")));
            assert!(reader::shows(table, root));
            let length = self.history.table_length(told.id as u32);
            assert_eq!(length, Some(told.bytes), "all that is held is the table's");
        }
    }

    /// What a promotion told, and the packed table. It stands as the read of the
    /// trial that is taken, or as a start: the root reads as the table does with so
    /// many lookups promoted, and so does the packed table, which shows it.
    pub fn check_promotion(
        &mut self,
        scope: Scope,
        limits: (u32, u32),
        table: &[u8],
        told: &GsubPromoted,
        packed: &[u8],
    ) {
        if told.number != OUT_OF_RANGE {
            self.limits = limits;
        }
        let whole = scope.reading(table);
        check_place(told.number, told.place, whole.as_ref().err());
        if told.number != DONE {
            let (pieces, links) = limits;
            self.history
                .start(pieces, links, self.lengths.0, self.lengths.1);
            return;
        }
        let last = told.promoted as u16;
        let history = &mut self.history;
        let read = history.read_scope(scope, limits, self.lengths, table, last);
        let expected = GsubPromoted {
            bytes: read.bytes,
            links: read.links,
            objects: read.objects,
            id: read.id,
            length: read.bytes,
            promoted: last.into(),
            ..GsubPromoted::default()
        };
        assert_eq!((read.number, *told), (DONE, expected));
        let root = self.history.reading(read.id as u32).expect("closed");
        let promoted = promoted(&whole.expect("it is read"), last.into());
        assert!(same(root, &promoted));
        let packed_reading = scope.reading(packed).expect("packed");
        assert!(same(root, &packed_reading));
        assert!(reader::shows(packed, root));
    }

    fn check_pack(&mut self, id: u32, copies: u32, outcome: &Outcome) {
        let answer = &outcome.answer;
        let (before, after) = &outcome.output;
        let expected = self.expected_numbers(id, copies, before.len(), outcome.work.0.len());
        assert!(expected.contains(&answer.number), "{answer:?}");
        self.check_tally(answer);
        let need = self.work_need(copies.min(1_024));
        check_work(answer.number, need, &outcome.work.0, &outcome.work.1);
        let mut written = 0;
        if answer.number == 0 {
            written = answer.length as usize;
            self.check_table(id, answer, &after[..written]);
            assert!(answer.copies <= copies.into());
        }
        assert_eq!(before[written..], after[written..]);
        assert_eq!(answer.number == 11, answer.needed > 65_535);
        assert_eq!(answer.number == 0, answer.placed > 0);
    }

    /// A table shows the root's reading. It is as long as the different readings
    /// and, for each copy made, one of them again.
    fn check_table(&mut self, id: u32, answer: &Answer, table: &[u8]) {
        let root = self.history.reading(id).expect("a packed root is closed");
        let shown = reader::shown(table, root);
        let shown = shown.unwrap_or_else(|fault| panic!("{fault:?}"));
        let mut again = shown.clone();
        let mut met = HashSet::new();
        again.retain(|(_, reading)| !met.insert(Rc::as_ptr(reading)));
        let copied: usize = again.iter().map(|(_, reading)| reading.size()).sum();
        let different = self.history.table_length(id).expect("closed");
        assert_eq!(answer.length, different + copied as u64);
        assert_eq!(answer.copies, again.len() as u64);
        let pieces = self.history.table_pieces(id).expect("closed");
        assert_eq!(answer.placed, pieces + answer.copies);
        self.met.packed += usize::from(has_inner_start(root));
        self.met.copied += usize::from(answer.copies > 0);
    }

    /// The numbers that the history leaves open: whether one of the orders fits,
    /// and how long a table with copies is.
    fn expected_numbers(&self, id: u32, copies: u32, output: usize, work: usize) -> &'static [u64] {
        if copies > 1_024 || work < self.work_need(copies) {
            return &[13];
        }
        if self.history.tally().depth > 0 {
            return &[9];
        }
        match self.history.table_length(id) {
            None => &[4],
            Some(length) if (output as u64) < length => &[10, 11],
            Some(_) if copies == 0 => &[0, 11],
            Some(_) => &[0, 10, 11],
        }
    }

    fn check_tally(&self, answer: &Answer) {
        let tally = match answer.number {
            13 => Answer::default(),
            _ => self.history.tally(),
        };
        let counts = |a: &Answer| [a.bytes, a.links, a.objects, a.depth];
        assert_eq!(counts(answer), counts(&tally));
    }
}

/// 15 is told where the table cannot be read, at the first field that is why.
fn check_place(number: u64, place: u64, fault: Option<&FieldAt>) {
    match (number, fault) {
        (UNREADABLE, Some(fault)) => assert_eq!(place, fault.place as u64, "{fault:?}"),
        (UNREADABLE, None) => panic!("15 at {place} of a table that can be read"),
        _ => assert_eq!(place, 0),
    }
}

/// 0, 10 and 11 clear the needed words; the others stand.
fn check_work(number: u64, need: usize, before: &[u64], after: &[u64]) {
    let cleared = match number {
        0 | 10 | 11 => need,
        _ => 0,
    };
    assert!(after[..cleared].iter().all(|&word| word == 0));
    assert!(before[cleared..] == after[cleared..]);
}
