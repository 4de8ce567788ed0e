//! Calls, answers and memory as lines of text.

use crate::answer::Answer;
use crate::call::Call;
use std::fmt::Display;

/// What a call tells.
pub fn told(call: &Call, answer: &Answer) -> String {
    let counts = format!(
        "{} number={} bytes={} links={} objects={} depth={}",
        name(call),
        answer.number,
        answer.bytes,
        answer.links,
        answer.objects,
        answer.depth
    );
    match call {
        Call::Close => format!("{counts} id={}", answer.id),
        Call::Pack { .. } => format!(
            "{counts} length={} parent={} field={} needed={} copies={} placed={}",
            answer.length, answer.parent, answer.field, answer.needed, answer.copies, answer.placed
        ),
        _ => counts,
    }
}

/// A call with its arguments, as a line of the program's input.
pub fn script(call: &Call) -> String {
    match call {
        Call::Start { pieces, links } => format!("s {pieces} {links}"),
        Call::Open => "o".to_string(),
        Call::Put(bytes) if bytes.len() <= 16 => format!("p {}", hex(bytes)),
        Call::Put(bytes) => format!("f {} {}", bytes[0], bytes.len()),
        Call::Link { width, id, inner } => format!("k {width} {id} {inner}"),
        Call::Close => "e".to_string(),
        Call::Drop => "d".to_string(),
        Call::Tally => "t".to_string(),
        Call::Pack {
            id,
            copies,
            output,
            work,
        } => format!("a {id} {copies} {output} {work}"),
    }
}

fn name(call: &Call) -> &'static str {
    match call {
        Call::Start { .. } => "start",
        Call::Open => "open",
        Call::Put(_) => "put",
        Call::Link { .. } => "link",
        Call::Close => "close",
        Call::Drop => "drop",
        Call::Tally => "tally",
        Call::Pack { .. } => "pack",
    }
}

pub fn hex(bytes: &[u8]) -> String {
    bytes.iter().map(|byte| format!("{byte:02x}")).collect()
}

/// Numbers separated by one space.
pub fn numbers<T: Display>(numbers: &[T]) -> String {
    let texts: Vec<String> = numbers.iter().map(T::to_string).collect();
    texts.join(" ")
}
