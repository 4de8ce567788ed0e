//! The longest table sent as frames and taken in again, beside the plain
//! program.
//!
//! `cargo run --offline --profile bench --package bench -- frames` prints the
//! lines alone.

use crate::timing::least;
use bindings::{calls, head_need};
use plain::frames::{self, Fed, Head};
use reference::random::Numbers;

const TABLE: usize = 16 << 20;
const TURNS: usize = 5;

/// How long the cuts of the text are that is fed.
const CUTS: [(&str, usize); 3] = [
    ("whole", usize::MAX),
    ("in cuts of 64 KiB", 64 << 10),
    ("in cuts of 1,000 bytes", 1_000),
];

/// Prints the lines, if the words ask for nothing else.
pub fn asked() -> bool {
    let asked = std::env::args().skip(1).eq(["frames"]);
    if asked {
        print();
    }
    asked
}

pub fn print() {
    println!(
        "\n{:<46}{:>12}{:>12}{:>8}{:>10}",
        "frames of 16 MiB", "proved µs", "plain Rust", "ratio", "MB/s"
    );
    let mut numbers = Numbers::new(1);
    let table: Vec<u8> = (0..TABLE).map(|_| numbers.next() as u8).collect();
    let mut text = vec![0; frames::text_length(TABLE)];
    line("sent", send(&table, &mut text));
    for (how, length) in CUTS {
        line(&format!("fed {how}"), feed(&table, &text, length));
    }
}

/// The speed is the proved library's, in bytes of the table.
fn line(what: &str, [proved, plain]: [f64; 2]) {
    let speed = TABLE as f64 / proved;
    println!(
        "{what:<46}{proved:>12.1}{plain:>12.1}{:>8.2}{speed:>10.0}",
        proved / plain
    );
}

/// Microseconds of both. The text is left.
fn send(table: &[u8], text: &mut [u8]) -> [f64; 2] {
    let mut plain_text = vec![0; text.len()];
    let times = least(
        TURNS,
        || (),
        [
            &mut |_| {
                let told = calls::send(table, text);
                assert_eq!((told.number, told.length as usize), (0, text.len()));
            },
            &mut |_| {
                let length = frames::send(table, &mut plain_text);
                assert_eq!(length, Ok(plain_text.len()));
            },
        ],
    );
    assert!(text == plain_text);
    times
}

/// The proved library's and the plain program's.
type Heads = (Vec<u8>, Head);

fn feed(table: &[u8], text: &[u8], length: usize) -> [f64; 2] {
    let (mut out, mut plain_out) = (vec![0; TABLE], vec![0; TABLE]);
    let cuts = || text.chunks(length.min(text.len()));
    let times = least(
        TURNS,
        || (vec![0; head_need()], Head::default()),
        [
            &mut |(head, _): &mut Heads| {
                for mut rest in cuts() {
                    while !rest.is_empty() {
                        let told = calls::feed(head, rest, &mut out);
                        assert!(told.number == 0 || told.number == 18);
                        rest = &rest[told.taken as usize..];
                    }
                }
            },
            &mut |(_, head): &mut Heads| {
                for mut rest in cuts() {
                    while !rest.is_empty() {
                        let (fed, taken) = head.feed(rest, &mut plain_out);
                        assert!(fed == Fed::Accepted || fed == Fed::UnderWay);
                        rest = &rest[taken..];
                    }
                }
            },
        ],
    );
    assert!(out == table && plain_out == table);
    times
}
