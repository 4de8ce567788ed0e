//! A table as frames of text: sent, and taken in again from any cuts of it.

use crate::answer::{DONE, NOT_AWAITED, OUTPUT_SHORT, OUT_OF_RANGE, UNDER_WAY};
use crate::lines::hex;
use crate::text::{number, pairs};

pub const LONGEST_TABLE: usize = 16_777_216;

/// Bytes of every frame but the last, which may have fewer.
pub const FRAME: usize = 512;
pub const MOST_FRAMES: u32 = 32_768;

/// Bytes of a lent head, and where the held ones stand.
pub const HEAD: usize = 1_093;
const HELD: usize = 16;
const ROOM: usize = HEAD - HELD;

/// A line that starts like this ends a stretch.
const KEY: &[u8] = b"check=";
const DIFFERS: usize = KEY.len() + 1;

/// What a send tells: a number, and how long the text is.
#[derive(Clone, Copy, Debug, PartialEq, Eq)]
pub struct Sent {
    pub number: u64,
    pub length: u64,
}

impl Sent {
    fn new(number: u64, length: usize) -> Sent {
        Sent {
            number,
            length: length as u64,
        }
    }
}

/// What a feed tells: a number, how many bytes of the text were taken and how
/// many reached the output, and whether all frames are in.
#[derive(Clone, Copy, Debug, PartialEq, Eq)]
pub struct Fed {
    pub number: u64,
    pub taken: u64,
    pub written: u64,
    pub whole: bool,
}

/// CRC-32: reflected, polynomial EDB88320, start and final mask FFFFFFFF.
pub fn crc(bytes: &[u8]) -> u32 {
    let mut rest = u32::MAX;
    for &byte in bytes {
        rest ^= u32::from(byte);
        for _ in 0..8 {
            let odd = rest % 2 == 1;
            rest /= 2;
            if odd {
                rest ^= 0xedb8_8320;
            }
        }
    }
    !rest
}

/// A frame's text, whatever its number, count and bytes.
pub fn frame(number: u32, count: u32, bytes: &[u8]) -> String {
    let numbers = [number.to_be_bytes(), count.to_be_bytes()].concat();
    let check = crc(&[&numbers, bytes].concat());
    let data = hex(bytes);
    format!("frame={number}\nof={count}\ndata={data}\ncheck={check:08x}\n")
}

/// The text of all frames of a table.
pub fn text(table: &[u8]) -> String {
    let count = table.len().div_ceil(FRAME) as u32;
    let frames = (0..count).zip(table.chunks(FRAME));
    frames.map(|(at, bytes)| frame(at, count, bytes)).collect()
}

/// Writes a table's text at the front of the output.
pub fn send(table: &[u8], output: &mut [u8]) -> Sent {
    if table.is_empty() || table.len() > LONGEST_TABLE {
        return Sent::new(OUT_OF_RANGE, 0);
    }
    let text = text(table);
    let Some(front) = output.get_mut(..text.len()) else {
        return Sent::new(OUTPUT_SHORT, 0);
    };
    front.copy_from_slice(text.as_bytes());
    Sent::new(DONE, text.len())
}

/// Takes text up to the end of a stretch, and judges that one.
pub fn feed(head: &mut [u8], text: &[u8], output: &mut [u8]) -> Fed {
    if head.len() < HEAD {
        return Fed {
            number: OUT_OF_RANGE,
            taken: 0,
            written: 0,
            whole: false,
        };
    }
    let mut state = State::of(head);
    let ended = text.iter().position(|&byte| state.take(byte));
    let (number, written) = match ended {
        Some(_) => state.end(output),
        None => (UNDER_WAY, 0),
    };
    state.write(head);
    Fed {
        number,
        taken: ended.map_or(text.len(), |last| last + 1) as u64,
        written: written as u64,
        whole: state.count > 0 && state.awaited == state.count,
    }
}

/// What a head holds.
struct State {
    /// The stretch under way, as far as there is room.
    held: Vec<u8>,
    /// How far its last line agrees with the key; more where it differs.
    agrees: usize,
    awaited: u32,
    /// The first accepted frame's, or 0.
    count: u32,
}

impl State {
    fn of(head: &[u8]) -> State {
        let number = |at: usize| {
            let word = head[4 * at..4 * at + 4].try_into();
            u32::from_be_bytes(word.expect("four bytes"))
        };
        let length = (number(0) as usize).min(ROOM);
        State {
            held: head[HELD..HELD + length].to_vec(),
            agrees: number(1) as usize,
            awaited: number(2),
            count: number(3),
        }
    }

    fn write(&self, head: &mut [u8]) {
        let numbers = [
            self.held.len() as u32,
            self.agrees as u32,
            self.awaited,
            self.count,
        ];
        for (at, number) in numbers.into_iter().enumerate() {
            head[4 * at..4 * at + 4].copy_from_slice(&number.to_be_bytes());
        }
        head[HELD..HELD + self.held.len()].copy_from_slice(&self.held);
    }

    /// Takes a byte, and gives whether it ends the stretch.
    fn take(&mut self, byte: u8) -> bool {
        if self.held.len() < ROOM {
            self.held.push(byte);
        }
        let ends = byte == b'\n' && self.agrees == KEY.len();
        self.agrees = match KEY.get(self.agrees) {
            _ if byte == b'\n' => 0,
            Some(&next) if next == byte => self.agrees + 1,
            Some(_) => DIFFERS,
            None => self.agrees,
        };
        ends
    }

    /// The answer to a whole stretch, and how many bytes reached the output.
    fn end(&mut self, output: &mut [u8]) -> (u64, usize) {
        let stretch = std::mem::take(&mut self.held);
        let Some((count, bytes)) = self.accepted(&stretch) else {
            return (NOT_AWAITED, 0);
        };
        let begin = FRAME * self.awaited as usize;
        let Some(part) = output.get_mut(begin..begin + bytes.len()) else {
            return (OUTPUT_SHORT, 0);
        };
        part.copy_from_slice(&bytes);
        self.awaited += 1;
        self.count = count;
        (DONE, bytes.len())
    }

    /// The count and the bytes of the awaited frame, if the stretch is just that.
    /// One that is too long to be held is none.
    fn accepted(&self, stretch: &[u8]) -> Option<(u32, Vec<u8>)> {
        let mut lines = stretch.split(|&byte| byte == b'\n').skip(1);
        let count = number(lines.next()?.strip_prefix(b"of=")?)?;
        let bytes = pairs(lines.next()?.strip_prefix(b"data=")?)?;
        let in_range = self.awaited < count && count <= MOST_FRAMES;
        let as_before = self.count == 0 || self.count == count;
        let full = match count.checked_sub(self.awaited) {
            Some(1) => (1..=FRAME).contains(&bytes.len()),
            _ => bytes.len() == FRAME,
        };
        let as_written = frame(self.awaited, count, &bytes).as_bytes() == stretch;
        (in_range && as_before && full && as_written).then_some((count, bytes))
    }
}
