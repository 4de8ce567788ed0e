//! A job file: a session and one pack of it, as lines of text.

use crate::answer::{Answer, DONE, LAYOUT_BROKEN, OUT_OF_RANGE};
use crate::call::{Call, Stores};
use crate::limits;
use crate::lines::hex;
use crate::text::{number, pairs};

/// A text is no longer than this.
pub const LONGEST_TEXT: usize = 65_536;

/// A job's limits are no greater than these.
pub const MOST_BYTES: u32 = 16_384;
pub const MOST_PIECES: u32 = 256;
pub const MOST_LINKS: u32 = 1_024;

/// An id that no closed piece has: a job has no more than 256.
const NO_PIECE: u32 = u32::MAX;

/// What an accepted job comes to.
#[derive(Clone, Debug, PartialEq, Eq)]
pub struct Packed {
    /// How many pieces the table has.
    pub pieces: u64,
    pub table: Vec<u8>,
}

/// The first refusal. Lines are counted from 1.
#[derive(Clone, Copy, Debug, PartialEq, Eq)]
pub struct Refused {
    pub number: u64,
    pub line: usize,
}

/// What a job prints.
pub fn printed(text: &[u8]) -> String {
    shown(&run(text))
}

pub fn shown(told: &Result<Packed, Refused>) -> String {
    match told {
        Ok(Packed { pieces, table }) => {
            let (length, table) = (table.len(), hex(table));
            format!("length={length}\npieces={pieces}\ntable={table}\n")
        }
        Err(Refused { number, line }) => format!("refused={number}\nline={line}\n"),
    }
}

pub fn run(text: &[u8]) -> Result<Packed, Refused> {
    let mut lines = Lines {
        rest: text,
        number: 0,
    };
    if text.len() > LONGEST_TEXT {
        lines.number = 1;
        return Err(lines.broken());
    }
    let bytes = lines.limit(b"bytes=")?;
    let pieces = lines.limit(b"objects=")?;
    let links = lines.limit(b"links=")?;
    let mut job = Job::start(bytes, pieces, links).map_err(|number| lines.refused(number))?;
    while job.take(&mut lines)? {}
    let packed = job.finish().map_err(|number| lines.refused(number))?;
    if lines.rest.is_empty() {
        return Ok(packed);
    }
    lines.number += 1;
    Err(lines.broken())
}

/// The lines that were not looked at yet.
struct Lines<'a> {
    rest: &'a [u8],
    /// Of the line that was taken last.
    number: usize,
}

impl<'a> Lines<'a> {
    fn next(&mut self) -> Result<&'a [u8], Refused> {
        self.number += 1;
        let end = self.rest.iter().position(|&byte| byte == b'\n');
        let end = end.ok_or(self.broken())?;
        let line = &self.rest[..end];
        self.rest = &self.rest[end + 1..];
        Ok(line)
    }

    /// The number of a line that has this key.
    fn limit(&mut self, key: &[u8]) -> Result<u32, Refused> {
        let line = self.next()?;
        let value = line.strip_prefix(key).and_then(number);
        value.ok_or(self.broken())
    }

    fn refused(&self, number: u64) -> Refused {
        Refused {
            number,
            line: self.number,
        }
    }

    fn broken(&self) -> Refused {
        self.refused(LAYOUT_BROKEN)
    }
}

/// One of the lines behind the limits.
enum Line {
    Piece(Vec<u8>),
    Link { width: u32, piece: u32 },
    End(u32),
}

impl Line {
    fn of(line: &[u8]) -> Option<Line> {
        if let Some(value) = line.strip_prefix(b"piece=") {
            return pairs(value).map(Line::Piece);
        }
        if let Some(value) = line.strip_prefix(b"link=") {
            let comma = value.iter().position(|&byte| byte == b',')?;
            let (width, piece) = (number(&value[..comma])?, number(&value[comma + 1..])?);
            return Some(Line::Link { width, piece });
        }
        let value = line.strip_prefix(b"end=")?;
        number(value).map(Line::End)
    }
}

/// A session whose stores are as long as the job asks for and needs.
struct Job {
    stores: Stores,
    /// Words that the pack needs.
    work: usize,
    /// How many piece lines there were.
    pieces: usize,
    /// What the closes told, by piece lines.
    ids: Vec<u32>,
}

impl Job {
    fn start(bytes: u32, pieces: u32, links: u32) -> Result<Job, u64> {
        if bytes > MOST_BYTES || pieces > MOST_PIECES || links > MOST_LINKS {
            return Err(OUT_OF_RANGE);
        }
        let records = limits::record_need(pieces.into(), links.into());
        let mut job = Job {
            stores: Stores::new(bytes as usize, records as usize),
            work: limits::work_need(pieces.into(), links.into(), 0) as usize,
            pieces: 0,
            ids: Vec::new(),
        };
        job.call(Call::Start { pieces, links })?;
        Ok(job)
    }

    /// Takes one line, and gives whether another is awaited.
    fn take(&mut self, lines: &mut Lines) -> Result<bool, Refused> {
        let line = Line::of(lines.next()?).ok_or(lines.broken())?;
        let done = match line {
            Line::Piece(bytes) => self.piece(bytes),
            Line::Link { .. } if self.pieces == 0 => return Err(lines.broken()),
            Line::Link { width, piece } => self.link(width, piece),
            Line::End(count) if count == 0 || count as usize != self.pieces => {
                return Err(lines.broken())
            }
            Line::End(_) => return Ok(false),
        };
        done.map_err(|number| lines.refused(number))?;
        Ok(true)
    }

    fn piece(&mut self, bytes: Vec<u8>) -> Result<(), u64> {
        if self.pieces > 0 {
            self.close()?;
        }
        self.call(Call::Open)?;
        self.call(Call::Put(bytes))?;
        self.pieces += 1;
        Ok(())
    }

    fn link(&mut self, width: u32, piece: u32) -> Result<(), u64> {
        let id = self.ids.get(piece as usize).copied().unwrap_or(NO_PIECE);
        self.call(Call::Link {
            width,
            id,
            inner: 0,
        })?;
        Ok(())
    }

    fn close(&mut self) -> Result<u32, u64> {
        let id = self.call(Call::Close)?.id as u32;
        self.ids.push(id);
        Ok(id)
    }

    /// The calls of the `end` line. No table without copies is longer than the
    /// byte store.
    fn finish(&mut self) -> Result<Packed, u64> {
        let id = self.close()?;
        let told = self.stores.run(&Call::Pack {
            id,
            copies: 0,
            output: self.stores.bytes.len(),
            work: self.work,
        });
        let answer = accepted(told.answer)?;
        Ok(Packed {
            pieces: answer.placed,
            table: told.output[..answer.length as usize].to_vec(),
        })
    }

    fn call(&mut self, call: Call) -> Result<Answer, u64> {
        accepted(self.stores.run(&call).answer)
    }
}

fn accepted(answer: Answer) -> Result<Answer, u64> {
    match answer.number {
        DONE => Ok(answer),
        number => Err(number),
    }
}
