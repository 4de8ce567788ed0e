//! One graph written into a session in many ways: its pieces in any order in which
//! children come first, some of them again, and between them others that the root
//! does not reach.

use crate::made::Room;
use crate::shapes::{self, Graph, Link, Piece};
use crate::written::Packer;
use reference::call::Call;
use reference::random::Numbers;
use reference::Answer;
use std::ops::AddAssign;

/// What is done with a piece, by its number.
#[derive(Clone, Copy, Debug)]
enum Step {
    /// It is new.
    Write(usize),
    /// It is closed already.
    Again(usize),
    /// It is opened and filled.
    Hold(usize),
    /// It was held, and now is the innermost that is open.
    Close(usize),
    /// The innermost that is open is dropped.
    Drop,
}

/// The steps by which a graph is written.
#[derive(Clone, Debug)]
pub struct Writing {
    /// The graph's, and behind them the others.
    pieces: Vec<Piece>,
    steps: Vec<Step>,
}

/// Pieces that are written again, and others that are closed or dropped.
#[derive(Clone, Copy, Debug, Default)]
pub struct Besides {
    pub again: usize,
    pub closed: usize,
    pub dropped: usize,
}

impl AddAssign for Besides {
    fn add_assign(&mut self, other: Besides) {
        self.again += other.again;
        self.closed += other.closed;
        self.dropped += other.dropped;
    }
}

impl Writing {
    pub fn any(graph: &Graph, numbers: &mut Numbers) -> Writing {
        let mut making = Making {
            writing: Writing {
                pieces: graph.clone(),
                steps: Vec::new(),
            },
            closed: Vec::new(),
            held: Vec::new(),
            numbers,
        };
        making.some_others();
        for piece in bottom_up(graph, making.numbers) {
            making.something();
            making.writing.steps.push(Step::Write(piece));
            making.closed.push(piece);
        }
        making.some_others();
        while !making.held.is_empty() {
            making.leave();
        }
        making.writing
    }

    /// Room for all that is ever held, and a little more.
    pub fn room(&self, numbers: &mut Numbers) -> Room {
        let longest = self.pieces.iter().map(Piece::size).max().unwrap_or(0);
        let most = self.pieces.iter().map(|piece| piece.links.len()).max();
        let links = shapes::links(&self.pieces) + most.unwrap_or(0);
        Room {
            pieces: (self.pieces.len() + numbers.below(40)) as u32,
            links: (links + numbers.below(60)) as u32,
            store: shapes::bytes(&self.pieces) + longest + numbers.below(2_000),
        }
    }

    pub fn besides(&self, graph: &Graph) -> Besides {
        let mut besides = Besides::default();
        for &step in &self.steps {
            match step {
                Step::Again(_) => besides.again += 1,
                Step::Close(_) => besides.closed += 1,
                Step::Write(piece) => besides.closed += usize::from(piece >= graph.len()),
                Step::Drop => besides.dropped += 1,
                Step::Hold(_) => (),
            }
        }
        besides
    }

    /// Runs the calls, and gives the id of each piece and how many calls there
    /// were. A piece that is written again is kept once, and told the same id.
    pub fn run(&self, packer: &mut impl Packer, numbers: &mut Numbers) -> (Vec<u32>, usize) {
        let mut ids = vec![u32::MAX; self.pieces.len()];
        let (mut objects, mut count) = (0, 0);
        for &step in &self.steps {
            let mut last = Answer::default();
            for call in self.calls(step, &ids, numbers) {
                last = packer.call(&call, &mut [], &mut []);
                assert_eq!(last.number, 0, "{call:?}");
                count += 1;
            }
            match step {
                Step::Write(piece) | Step::Close(piece) => {
                    assert_eq!((last.id, last.objects), (objects, objects + 1));
                    ids[piece] = last.id as u32;
                }
                Step::Again(piece) => {
                    assert_eq!((last.id, last.objects), (ids[piece].into(), objects));
                }
                Step::Hold(_) | Step::Drop => assert_eq!(last.objects, objects),
            }
            objects = last.objects;
        }
        (ids, count)
    }

    fn calls(&self, step: Step, ids: &[u32], numbers: &mut Numbers) -> Vec<Call> {
        let mut calls = match step {
            Step::Write(piece) | Step::Again(piece) | Step::Hold(piece) => {
                shapes::calls(&self.pieces[piece], ids)
            }
            Step::Close(_) => vec![Call::Close],
            Step::Drop => vec![Call::Drop],
        };
        if let Step::Hold(_) = step {
            calls.pop();
        }
        if numbers.below(4) == 0 {
            calls = calls
                .into_iter()
                .flat_map(|call| in_parts(call, numbers))
                .collect();
        }
        calls
    }
}

/// A put as two, of which one may have no bytes.
fn in_parts(call: Call, numbers: &mut Numbers) -> Vec<Call> {
    match call {
        Call::Put(mut bytes) => {
            let rest = bytes.split_off(numbers.below(bytes.len() + 1));
            vec![Call::Put(bytes), Call::Put(rest)]
        }
        call => vec![call],
    }
}

/// The pieces in any order in which children come before their parents.
fn bottom_up(graph: &Graph, numbers: &mut Numbers) -> Vec<usize> {
    let mut waiting: Vec<usize> = graph.iter().map(|piece| piece.links.len()).collect();
    let mut parents = vec![Vec::new(); graph.len()];
    for (parent, piece) in graph.iter().enumerate() {
        for link in &piece.links {
            parents[link.child].push(parent);
        }
    }
    let mut ready: Vec<usize> = (0..graph.len()).filter(|&id| waiting[id] == 0).collect();
    let mut order = Vec::new();
    while !ready.is_empty() {
        let piece = ready.swap_remove(numbers.below(ready.len()));
        order.push(piece);
        for &parent in &parents[piece] {
            waiting[parent] -= 1;
            if waiting[parent] == 0 {
                ready.push(parent);
            }
        }
    }
    order
}

struct Making<'a> {
    writing: Writing,
    /// The numbers of closed pieces.
    closed: Vec<usize>,
    /// Others that are open, the innermost last.
    held: Vec<usize>,
    numbers: &'a mut Numbers,
}

impl Making<'_> {
    fn some_others(&mut self) {
        for _ in 0..self.numbers.below(4) {
            self.other();
        }
    }

    /// Now and then a step that has nothing to do with the graph.
    fn something(&mut self) {
        match self.numbers.below(12) {
            0..=1 => self.other(),
            2 if self.held.len() < 3 => self.hold(),
            3 => self.leave(),
            4..=5 if !self.closed.is_empty() => {
                let piece = self.numbers.one_of(&self.closed);
                self.writing.steps.push(Step::Again(piece));
            }
            _ => (),
        }
    }

    fn other(&mut self) {
        let piece = self.add();
        self.writing.steps.push(Step::Write(piece));
        self.closed.push(piece);
    }

    fn hold(&mut self) {
        let piece = self.add();
        self.writing.steps.push(Step::Hold(piece));
        self.held.push(piece);
    }

    fn leave(&mut self) {
        let Some(piece) = self.held.pop() else {
            return;
        };
        if self.numbers.below(4) == 0 {
            self.writing.steps.push(Step::Close(piece));
            self.closed.push(piece);
        } else {
            self.writing.steps.push(Step::Drop);
        }
    }

    /// A piece that differs from all others, with links to closed ones.
    fn add(&mut self) -> usize {
        let number = self.writing.pieces.len();
        let mut bytes = [&[0xee], &(number as u16).to_be_bytes()[..]].concat();
        bytes.resize(self.numbers.one_of(&[3, 5, 10, 10, 20, 900]), 0xee);
        let mut links = Vec::new();
        for _ in 0..self.numbers.below(4).min(self.closed.len()) {
            let (width, child) = (2 + self.numbers.below(3), self.numbers.one_of(&self.closed));
            links.push(Link::any(width as u32, child, self.numbers));
        }
        self.writing.pieces.push(Piece {
            links,
            bytes,
            links_first: self.numbers.below(2) == 0,
        });
        number
    }
}
