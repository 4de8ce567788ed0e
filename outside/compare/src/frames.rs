//! Texts of frames at random: sent tables, most of them damaged, repeated or
//! sent again, and frames that are none though their checks are right.

use crate::Numbers;
use reference::frames::{frame, FRAME, MOST_FRAMES};

/// A table of few frames, mostly at the edge of one.
pub fn table(numbers: &mut Numbers) -> Vec<u8> {
    let length = match numbers.below(12) {
        0..=2 => 1 + numbers.below(5),
        3..=5 => 1 + numbers.below(FRAME),
        6 => 1 + numbers.below(20 * FRAME),
        _ => (1 + numbers.below(4)) * FRAME + numbers.below(3) - 1,
    };
    (0..length).map(|_| numbers.next() as u8).collect()
}

/// A table's frames, each as its text.
pub fn sent(table: &[u8]) -> Vec<Vec<u8>> {
    let count = table.len().div_ceil(FRAME) as u32;
    let frames = (0..count).zip(table.chunks(FRAME));
    let texts = frames.map(|(at, bytes)| frame(at, count, bytes).into_bytes());
    texts.collect()
}

/// A text with the table's frames in it.
pub fn any(table: &[u8], numbers: &mut Numbers) -> Vec<u8> {
    let mut frames = sent(table);
    let damages = numbers.one_of(&[0, 1, 1, 1, 2, 2, 4]);
    for _ in 0..damages {
        match numbers.below(4) {
            0 => among(&mut frames, table, numbers),
            1 => lines(&mut frames, numbers),
            _ => inside(&mut frames, numbers),
        }
    }
    if damages > 0 && numbers.below(2) == 0 {
        // Sent again, so that some of what is lost arrives.
        frames.extend(sent(table));
    }
    frames.concat()
}

/// Loses, doubles, exchanges or adds frames.
fn among(frames: &mut Vec<Vec<u8>>, table: &[u8], numbers: &mut Numbers) {
    let (at, other) = (numbers.below(frames.len()), numbers.below(frames.len()));
    match numbers.below(6) {
        0 if frames.len() > 1 => drop(frames.remove(at)),
        1 => frames.insert(at, frames[other].clone()),
        2 => frames.swap(at, other),
        3 => frames.insert(at, wrong(table, numbers)),
        4 => frames.insert(at, noise(numbers)),
        _ => {
            let others = self::table(numbers);
            frames.splice(at..at, sent(&others));
        }
    }
}

/// A frame under its right check whose number, count or bytes may be wrong.
fn wrong(table: &[u8], numbers: &mut Numbers) -> Vec<u8> {
    let count = table.len().div_ceil(FRAME) as u32;
    let at = numbers.below(count as usize + 1) as u32;
    let begin = (FRAME * at as usize).min(table.len());
    let end = (begin + FRAME).min(table.len());
    let mut bytes = table[begin..end].to_vec();
    let (mut number, mut of) = (at, count);
    match numbers.below(6) {
        0 => number = numbers.one_of(&[0, 1, count - 1, count, MOST_FRAMES, u32::MAX]),
        1 => of = numbers.one_of(&[0, 1, at, at + 1, count + 1]),
        2 => of = numbers.one_of(&[MOST_FRAMES, MOST_FRAMES + 1, 999_999_999, u32::MAX]),
        3 => bytes.resize(numbers.one_of(&[0, 1, 511, 512, 513, 520]), 7),
        4 => drop(bytes.pop()),
        _ => bytes.push(7),
    }
    let text = frame(number, of, &bytes);
    let text = match numbers.below(8) {
        0 => text.replace("data=", "data=00"),
        1 => text.to_uppercase().to_lowercase().replace('\n', "\r\n"),
        2 => text.replacen("frame=", "frame=0", 1),
        3 => text.replacen("of=", "of=0", 1),
        _ => text,
    };
    text.into_bytes()
}

/// Text that is no frame.
fn noise(numbers: &mut Numbers) -> Vec<u8> {
    let parts = [
        "check=\n",
        "check=00000000\n",
        "\n",
        "x",
        "chec",
        "\ncheck",
        "check=",
        "frame=0\n",
        "of=1\n",
        "data=",
        "data=78\n",
        "\r\n",
        "\0",
    ];
    let mut noise = String::new();
    for _ in 0..1 + numbers.below(5) {
        noise += numbers.one_of(&parts);
    }
    if numbers.below(4) == 0 {
        // Longer than any frame.
        noise += &numbers
            .one_of(&["x", "check\n", "\n"])
            .repeat(numbers.below(1_500));
    }
    noise.into_bytes()
}

/// Loses, doubles, exchanges or cuts lines of a frame.
fn lines(frames: &mut [Vec<u8>], numbers: &mut Numbers) {
    let frame = numbers.below(frames.len());
    let mut lines: Vec<Vec<u8>> = frames[frame]
        .split_inclusive(|&byte| byte == b'\n')
        .map(<[u8]>::to_vec)
        .collect();
    if lines.is_empty() {
        return;
    }
    let (at, other) = (numbers.below(lines.len()), numbers.below(lines.len()));
    match numbers.below(4) {
        0 => drop(lines.remove(at)),
        1 => lines.insert(at, lines[other].clone()),
        2 => lines.swap(at, other),
        _ => {
            let length = numbers.below(lines[at].len() + 1);
            lines[at].truncate(length);
        }
    }
    frames[frame] = lines.concat();
}

/// Changes, loses, doubles or exchanges bytes of a frame.
fn inside(frames: &mut [Vec<u8>], numbers: &mut Numbers) {
    let frame = numbers.below(frames.len());
    let frame = &mut frames[frame];
    if frame.is_empty() {
        return;
    }
    // Half of them outside the pairs.
    let at = match numbers.below(4) {
        0 => numbers.below(frame.len().min(24)),
        1 => frame.len() - 1 - numbers.below(frame.len().min(24)),
        _ => numbers.below(frame.len()),
    };
    let other = numbers.below(frame.len());
    match numbers.below(7) {
        0 => frame[at] ^= 1 << numbers.below(8),
        1 => frame[at] = numbers.next() as u8,
        2 => drop(frame.remove(at)),
        3 => frame.insert(at, frame[at]),
        4 => frame.swap(at, other),
        5 => frame[at] = numbers.one_of(b"0123456789abcdefAF\n\r ="),
        _ => frame[at] = frame[at].to_ascii_uppercase(),
    }
}

/// The text in cuts of any lengths, empty ones among them.
pub fn cuts<'a>(text: &'a [u8], numbers: &mut Numbers) -> Vec<&'a [u8]> {
    let longest: usize = numbers.one_of(&[1, 3, 40, 200, 1_000, 1_100, 5_000, 65_536]);
    // Single bytes of short texts alone.
    let longest = longest.max(text.len().min(4_000) / 40);
    let mut cuts = Vec::new();
    let mut rest = text;
    while !rest.is_empty() {
        let length = numbers.below(longest + 1).min(rest.len());
        let (cut, more) = rest.split_at(length);
        cuts.push(cut);
        rest = more;
    }
    cuts
}
