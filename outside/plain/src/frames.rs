//! A table sent as frames of text, and taken in again.

use std::io::Write;

const FRAME: usize = 512;
const LONGEST_TABLE: usize = 16_777_216;
const MOST_FRAMES: u32 = 32_768;

/// More than the longest frame's text has.
const ROOM: usize = 1_077;

const CHECK: &[u8] = b"check=";

/// Bytes behind a frame's last pair: a line feed, and the line of its check.
const TAIL: usize = 1 + CHECK.len() + 8 + 1;

static CRC: [u32; 256] = crc_table();
static PAIRS: [[u8; 2]; 256] = pairs();
static DIGITS: [u8; 256] = digits();

/// What `DIGITS` has for a byte that is no hex digit.
const NO_DIGIT: u8 = 0x80;

const fn crc_table() -> [u32; 256] {
    let mut table = [0; 256];
    let mut byte = 0;
    while byte < 256 {
        let (mut rest, mut bit) = (byte as u32, 0);
        while bit < 8 {
            rest = (rest >> 1) ^ (0xedb8_8320 * (rest & 1));
            bit += 1;
        }
        table[byte] = rest;
        byte += 1;
    }
    table
}

const fn pairs() -> [[u8; 2]; 256] {
    let hex = *b"0123456789abcdef";
    let mut table = [[0; 2]; 256];
    let mut byte = 0;
    while byte < 256 {
        table[byte] = [hex[byte >> 4], hex[byte & 15]];
        byte += 1;
    }
    table
}

const fn digits() -> [u8; 256] {
    let hex = *b"0123456789abcdef";
    let mut table = [NO_DIGIT; 256];
    let mut digit = 0;
    while digit < 16 {
        table[hex[digit] as usize] = digit as u8;
        digit += 1;
    }
    table
}

fn check(number: u32, count: u32, bytes: &[u8]) -> u32 {
    let rest = add(u32::MAX, &number.to_be_bytes());
    !add(add(rest, &count.to_be_bytes()), bytes)
}

fn add(rest: u32, bytes: &[u8]) -> u32 {
    bytes.iter().fold(rest, |rest, &byte| {
        (rest >> 8) ^ CRC[usize::from(rest as u8 ^ byte)]
    })
}

/// Why no text was written.
#[derive(Clone, Copy, Debug, PartialEq, Eq)]
pub enum NotSent {
    OutputShort,
    OutOfRange,
}

/// How long the text of a table of so many bytes is.
pub fn text_length(table: usize) -> usize {
    let count = table.div_ceil(FRAME);
    let decimal = |number: usize| 1 + number.checked_ilog10().unwrap_or(0) as usize;
    let numbers: usize = (0..count).map(decimal).sum();
    let rest = "frame=\nof=\ndata=".len() + decimal(count) + TAIL;
    2 * table + numbers + count * rest
}

/// Writes the text at the front of the output, and gives its length.
pub fn send(table: &[u8], output: &mut [u8]) -> Result<usize, NotSent> {
    if !(1..=LONGEST_TABLE).contains(&table.len()) {
        return Err(NotSent::OutOfRange);
    }
    let length = text_length(table.len());
    let mut rest = output.get_mut(..length).ok_or(NotSent::OutputShort)?;
    let count = table.len().div_ceil(FRAME) as u32;
    for (number, bytes) in (0..count).zip(table.chunks(FRAME)) {
        write!(rest, "frame={number}\nof={count}\ndata=").expect("room");
        let (data, behind) = rest.split_at_mut(2 * bytes.len());
        for (pair, &byte) in data.chunks_exact_mut(2).zip(bytes) {
            pair.copy_from_slice(&PAIRS[usize::from(byte)]);
        }
        rest = behind;
        let check = check(number, count, bytes);
        writeln!(rest, "\ncheck={check:08x}").expect("room");
    }
    Ok(length)
}

/// The answer to a feed.
#[derive(Clone, Copy, Debug, PartialEq, Eq)]
pub enum Fed {
    Accepted,
    OutputShort,
    NotAwaited,
    UnderWay,
}

/// What is kept between feeds.
#[derive(Default)]
pub struct Head {
    /// The stretch under way, up to its room.
    held: Vec<u8>,
    /// The first bytes of its last line.
    line: [u8; CHECK.len()],
    begun: usize,
    awaited: u32,
    count: u32,
}

impl Head {
    /// Takes text up to the end of a stretch, and gives the answer and how many
    /// bytes were taken.
    pub fn feed(&mut self, text: &[u8], output: &mut [u8]) -> (Fed, usize) {
        let mut at = 0;
        while let Some(end) = text[at..].iter().position(|&byte| byte == b'\n') {
            self.begin(&text[at..at + end]);
            at += end + 1;
            let ends = self.line[..self.begun] == *CHECK;
            self.begun = 0;
            if ends {
                return (self.end(&text[..at], output), at);
            }
        }
        self.begin(&text[at..]);
        self.hold(text);
        (Fed::UnderWay, text.len())
    }

    fn begin(&mut self, bytes: &[u8]) {
        let more = bytes.len().min(CHECK.len() - self.begun);
        self.line[self.begun..self.begun + more].copy_from_slice(&bytes[..more]);
        self.begun += more;
    }

    fn hold(&mut self, text: &[u8]) {
        let more = text.len().min(ROOM - self.held.len());
        self.held.extend_from_slice(&text[..more]);
    }

    /// Judges the stretch that this text ends; most are whole in it.
    fn end(&mut self, text: &[u8], output: &mut [u8]) -> Fed {
        if self.held.is_empty() {
            return self.judge(text, output);
        }
        self.hold(text);
        let stretch = std::mem::take(&mut self.held);
        let fed = self.judge(&stretch, output);
        self.held = stretch;
        self.held.clear();
        fed
    }

    fn judge(&mut self, stretch: &[u8], output: &mut [u8]) -> Fed {
        let mut bytes = [0; FRAME];
        let Some((count, length)) = self.read(stretch, &mut bytes) else {
            return Fed::NotAwaited;
        };
        let begin = FRAME * self.awaited as usize;
        let Some(part) = output.get_mut(begin..begin + length) else {
            return Fed::OutputShort;
        };
        part.copy_from_slice(&bytes[..length]);
        self.awaited += 1;
        self.count = count;
        Fed::Accepted
    }

    /// The count and how many bytes the awaited frame has, if this is it.
    fn read(&self, stretch: &[u8], bytes: &mut [u8; FRAME]) -> Option<(u32, usize)> {
        let (number, rest) = number_line(stretch, b"frame=")?;
        let (count, rest) = number_line(rest, b"of=")?;
        let rest = rest.strip_prefix(b"data=")?;
        let (data, tail) = rest.split_at(rest.len().checked_sub(TAIL)?);
        let length = data.len() / 2;
        let in_turn = number == self.awaited && number < count && count <= MOST_FRAMES;
        let as_before = self.count == 0 || self.count == count;
        let last = number + 1 == count;
        let full = length == FRAME || last && (1..FRAME).contains(&length);
        if !in_turn || !as_before || !full || data.len() % 2 > 0 {
            return None;
        }
        let bytes = &mut bytes[..length];
        read_pairs(data, bytes)?;
        let mut told = [0; 4];
        let digits = tail.strip_prefix(b"\ncheck=")?.strip_suffix(b"\n")?;
        read_pairs(digits, &mut told)?;
        (u32::from_be_bytes(told) == check(number, count, bytes)).then_some((count, length))
    }
}

/// A line of a key and a number of at most 9 digits, and what follows it.
fn number_line<'a>(text: &'a [u8], key: &[u8]) -> Option<(u32, &'a [u8])> {
    let value = text.strip_prefix(key)?;
    let end = value.iter().take(10).position(|&byte| byte == b'\n')?;
    let (digits, rest) = value.split_at(end);
    if digits.is_empty() || digits.len() > 1 && digits[0] == b'0' {
        return None;
    }
    let mut number = 0;
    for digit in digits {
        if !digit.is_ascii_digit() {
            return None;
        }
        number = 10 * number + u32::from(digit - b'0');
    }
    Some((number, &rest[1..]))
}

fn read_pairs(pairs: &[u8], bytes: &mut [u8]) -> Option<()> {
    let mut met = 0;
    for (byte, pair) in bytes.iter_mut().zip(pairs.chunks_exact(2)) {
        let [high, low] = [pair[0], pair[1]].map(|digit| DIGITS[usize::from(digit)]);
        met |= high | low;
        *byte = high << 4 | low & 15;
    }
    (met < NO_DIGIT).then_some(())
}
