//! Jobs at random, as texts: most are good, with few objects of which some are
//! equal, in limits that are sometimes too small.

use crate::Numbers;

/// A piece line with its link lines.
#[derive(Clone)]
struct Object {
    bytes: Vec<u8>,
    /// Width, and number of a piece line.
    links: Vec<(u32, usize)>,
}

impl Object {
    /// Of few different bytes, so that some are equal.
    fn any(earlier: usize, numbers: &mut Numbers) -> Object {
        let length = match numbers.below(40) {
            0 => 300 + numbers.below(5_000),
            _ => numbers.below(4),
        };
        let fields = match earlier {
            0 => 0,
            _ => numbers.one_of(&[0, 0, 1, 1, 2, 2, 3]),
        };
        let mut object = Object {
            bytes: vec![b'a' + numbers.below(4) as u8; length],
            links: Vec::new(),
        };
        for _ in 0..fields {
            let width = numbers.one_of(&[2, 2, 2, 3, 4]);
            // Mostly one of the last, so that roots reach many.
            let piece = match numbers.below(3) {
                0 => numbers.below(earlier),
                _ => earlier - 1 - numbers.below(earlier.min(4)),
            };
            object.links.push((width, piece));
        }
        if object.size() == 0 {
            object.bytes.push(b'x');
        }
        object
    }

    fn size(&self) -> usize {
        let fields: u32 = self.links.iter().map(|(width, _)| width).sum();
        self.bytes.len() + fields as usize
    }

    fn write(&self, lines: &mut Vec<String>) {
        let pairs: String = self
            .bytes
            .iter()
            .map(|byte| format!("{byte:02x}"))
            .collect();
        lines.push(format!("piece={pairs}"));
        for (width, piece) in &self.links {
            lines.push(format!("link={width},{piece}"));
        }
    }
}

/// Objects of which some are written again.
fn objects(numbers: &mut Numbers) -> Vec<Object> {
    let count = match numbers.below(30) {
        0 => 60 + numbers.below(250),
        1..=4 => 1,
        5..=7 => 12 + numbers.below(40),
        _ => 2 + numbers.below(10),
    };
    let mut objects: Vec<Object> = Vec::new();
    while objects.len() < count {
        let again = !objects.is_empty() && numbers.below(4) == 0;
        objects.push(match again {
            true => objects[numbers.below(objects.len())].clone(),
            false => Object::any(objects.len(), numbers),
        });
    }
    objects
}

/// A limit that suffices, or one that may not.
fn limit(enough: usize, most: usize, numbers: &mut Numbers) -> usize {
    let limit = match numbers.below(12) {
        0 => numbers.below(enough + 1),
        1 => enough.saturating_sub(1),
        2 => most,
        3..=5 => enough + numbers.below(9),
        _ => enough,
    };
    limit.min(most)
}

/// A good job, as lines.
pub fn lines(numbers: &mut Numbers) -> Vec<String> {
    let objects = objects(numbers);
    let bytes: usize = objects.iter().map(Object::size).sum();
    let links: usize = objects.iter().map(|object| object.links.len()).sum();
    let mut lines = vec![
        format!("bytes={}", limit(bytes, 16_384, numbers).max(1)),
        format!("objects={}", limit(objects.len(), 256, numbers).max(1)),
        format!("links={}", limit(links, 1_024, numbers)),
    ];
    objects.iter().for_each(|object| object.write(&mut lines));
    lines.push(format!("end={}", objects.len()));
    lines
}

pub fn text(lines: &[String]) -> Vec<u8> {
    let lines = lines.iter().map(|line| format!("{line}\n"));
    lines.collect::<String>().into_bytes()
}

/// A job, whole or damaged once or twice.
pub fn any(numbers: &mut Numbers) -> Vec<u8> {
    let mut lines = lines(numbers);
    let damages = numbers.one_of(&[0, 0, 1, 1, 1, 2]);
    for _ in 0..damages {
        if numbers.below(3) > 0 {
            edit(&mut lines, numbers);
        }
    }
    let mut text = text(&lines);
    if damages > 0 && numbers.below(3) == 0 {
        spoil(&mut text, numbers);
    }
    text
}

/// Changes a line.
fn edit(lines: &mut Vec<String>, numbers: &mut Numbers) {
    let (at, other) = (numbers.below(lines.len()), numbers.below(lines.len()));
    match numbers.below(16) {
        0 => drop(lines.remove(at)),
        1 => lines.insert(at, lines[other].clone()),
        2 => lines.swap(at, other),
        3 => cut(&mut lines[at], numbers),
        4 | 5 => step(&mut lines[at], numbers),
        6 | 7 => set_limit(lines, numbers),
        8 | 9 => set_link(lines, numbers),
        10 => spell_otherwise(&mut lines[at]),
        11 => put_in(&mut lines[at], numbers),
        12 => lines.insert(at, numbers.one_of(&LINES).to_string()),
        13 => lines.push(numbers.one_of(&LINES).to_string()),
        14 => end_at(lines, at),
        _ => {
            let end = lines.len() - 1;
            step(&mut lines[end], numbers);
        }
    }
    if lines.is_empty() {
        lines.push(String::new());
    }
}

fn cut(line: &mut String, numbers: &mut Numbers) {
    let length = numbers.below(line.len() + 1);
    line.truncate(length);
}

fn step(line: &mut String, numbers: &mut Numbers) {
    if let Some(stepped) = stepped(line, numbers) {
        *line = stepped;
    }
}

/// One of the first three lines, which have the limits.
fn set_limit(lines: &mut [String], numbers: &mut Numbers) {
    let line = numbers.below(3.min(lines.len()));
    if let Some((key, _)) = lines[line].split_once('=') {
        lines[line] = format!("{key}={}", numbers.one_of(&LIMITS));
    }
}

/// A piece without bytes; another line in capitals.
fn spell_otherwise(line: &mut String) {
    *line = match line.starts_with("piece=") {
        true => "piece=".to_string(),
        false => line.to_uppercase(),
    };
}

fn put_in(line: &mut String, numbers: &mut Numbers) {
    let place = numbers.below(line.len() + 1);
    line.insert(place, numbers.one_of(&PUT_IN));
}

/// The job ends behind this line, with the right count of pieces.
fn end_at(lines: &mut Vec<String>, at: usize) {
    lines.truncate(at + 1);
    let pieces = lines.iter().filter(|line| line.starts_with("piece="));
    lines.push(format!("end={}", pieces.count()));
}

/// Numbers that limits are set to.
const LIMITS: [u64; 14] = [
    0,
    1,
    2,
    5,
    255,
    256,
    257,
    1_024,
    1_025,
    16_384,
    16_385,
    65_537,
    999_999_999,
    1_000_000_000,
];

const PUT_IN: [char; 12] = [
    '0', '1', 'a', 'A', 'f', 'g', ',', '=', ' ', '\r', '\0', '\n',
];

const LINES: [&str; 9] = [
    "", "piece=", "piece=78", "piece=78", "link=2,0", "link=2,0", "end=1", "links=1", "x",
];

/// One of a line's numbers, one more or one less.
fn stepped(line: &str, numbers: &mut Numbers) -> Option<String> {
    let (key, value) = line.split_once('=')?;
    let mut parts: Vec<String> = value.split(',').map(str::to_string).collect();
    let part = numbers.below(parts.len());
    let number: i64 = parts[part].parse().ok()?;
    parts[part] = (number + numbers.one_of(&[-1, 1])).to_string();
    Some(format!("{key}={}", parts.join(",")))
}

/// Gives a link line another width, or the number of any piece line.
fn set_link(lines: &mut [String], numbers: &mut Numbers) {
    let links = lines.iter_mut().filter(|line| line.starts_with("link="));
    let mut links: Vec<&mut String> = links.collect();
    if links.is_empty() {
        return;
    }
    let line = numbers.below(links.len());
    let Some((width, piece)) = links[line]["link=".len()..].split_once(',') else {
        return;
    };
    let set = match numbers.below(2) {
        0 => format!(
            "link={},{piece}",
            numbers.one_of(&[0, 1, 2, 3, 4, 5, 256, 258])
        ),
        _ => format!("link={width},{}", numbers.below(16)),
    };
    *links[line] = set;
}

/// Changes a byte, or the text's end.
fn spoil(text: &mut Vec<u8>, numbers: &mut Numbers) {
    if text.is_empty() {
        return;
    }
    let at = numbers.below(text.len());
    match numbers.below(8) {
        0 => text[at] ^= 1 << numbers.below(8),
        1 => text[at] = numbers.next() as u8,
        2 => drop(text.remove(at)),
        3 => text.insert(at, numbers.one_of(&PUT_IN) as u8),
        4 => text.truncate(at),
        5 => drop(text.pop()),
        6 => text.push(numbers.one_of(&PUT_IN) as u8),
        _ => text.extend_from_slice(b"piece=78\n"),
    }
}

/// A good job of just so many bytes, in which one object is written thousands of
/// times.
pub fn of_length(length: usize) -> Vec<u8> {
    let job = |equal: usize, pairs: usize| {
        let pieces = "piece=78\n".repeat(equal);
        let (last, end) = ("61".repeat(pairs), equal + 1);
        format!("bytes=16384\nobjects=2\nlinks=0\n{pieces}piece={last}\nend={end}\n")
    };
    // A piece line of one byte has nine, so one more of them mends an odd rest.
    let equal = 6_000 + (length - job(6_000, 0).len()) % 2;
    let text = job(equal, (length - job(equal, 0).len()) / 2);
    assert_eq!(text.len(), length);
    text.into_bytes()
}
