//! A table sent as frames and taken in again, and the refusals.

use bindings::{calls, head_need, Sent};

/// The number, and how many bytes were written or taken.
fn told(number: u64, length: usize) -> Sent {
    Sent {
        number,
        length: length as u64,
    }
}

fn feed(head: &mut [u8], text: &[u8], out: &mut [u8]) -> Sent {
    let fed = calls::feed(head, text, out);
    told(fed.number, fed.taken as usize)
}

const ONE: &str = "frame=0\nof=1\ndata=78\ncheck=a1ccdce1\n";

#[test]
fn one_byte_there_and_back() {
    let mut text = [7; 40];
    assert_eq!(calls::send(b"x", &mut text[..35]), told(10, 0));
    assert_eq!(text, [7; 40]);
    assert_eq!(calls::send(b"x", &mut text), told(0, 36));
    assert_eq!(text[..36], *ONE.as_bytes());
    assert_eq!(text[36..], [7; 4]);
    let (mut head, mut out) = (vec![0; head_need()], [7; 3]);
    assert_eq!(feed(&mut head, &text[..20], &mut out), told(18, 20));
    let fed = calls::feed(&mut head, &text[20..36], &mut out);
    assert_eq!(
        (fed.number, fed.taken, fed.written, fed.whole),
        (0, 16, 1, 1)
    );
    assert_eq!(out, [b'x', 7, 7]);
}

#[test]
fn each_refusal_is_told() {
    assert_eq!(head_need(), 1_093);
    assert_eq!(calls::send(b"", &mut [7; 40]), told(13, 0));
    assert_eq!(calls::send(&vec![7; 16_777_217], &mut [7; 40]), told(13, 0));
    let (mut head, mut out) = (vec![0; head_need() + 4], [7; 1]);
    let mut feed = |need: usize, text: &str, room: usize| {
        feed(&mut head[..need], text.as_bytes(), &mut out[..room])
    };
    assert_eq!(feed(1_092, ONE, 1), told(13, 0));
    assert_eq!(feed(1_093, ONE, 0), told(10, 36));
    assert_eq!(feed(1_097, "check=\n", 1), told(17, 7));
    assert_eq!(feed(1_097, "", 1), told(18, 0));
    assert_eq!(feed(1_093, ONE, 1), told(0, 36));
    assert_eq!(feed(1_093, ONE, 1), told(17, 36));
    assert_eq!(head[1_093..], [0; 4]);
}
