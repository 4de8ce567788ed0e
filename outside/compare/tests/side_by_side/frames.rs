//! Tables sent as frames and taken in again by the proved library, the
//! reference and the plain program.

use bindings::{calls, head_need};
use compare::fenced::Fenced;
use compare::{frames, seed, Numbers};
use plain::frames::{self as ordinary, Head, NotSent};
use reference::frames::{feed, send, text, Fed, Sent, FRAME, HEAD};

const FENCE: u8 = 0x5f;

/// One more than the greatest number of a feed.
const NUMBERS: usize = 19;

/// The numbers that a head opens with, as bytes.
const OPENING: usize = 16;

fn told(told: bindings::Sent) -> Sent {
    Sent {
        number: told.number,
        length: told.length,
    }
}

fn told_by_feed(told: bindings::Fed) -> Fed {
    assert!(told.whole < 2);
    Fed {
        number: told.number,
        taken: told.taken,
        written: told.written,
        whole: told.whole == 1,
    }
}

fn told_by_plain(told: (ordinary::Fed, usize)) -> (u64, u64) {
    let number = match told.0 {
        ordinary::Fed::Accepted => 0,
        ordinary::Fed::OutputShort => 10,
        ordinary::Fed::NotAwaited => 17,
        ordinary::Fed::UnderWay => 18,
    };
    (number, told.1 as u64)
}

/// Fresh heads of all three, each with an output of its own.
struct Heads {
    proved: (Fenced<u8>, Fenced<u8>),
    reference: (Vec<u8>, Vec<u8>),
    plain: (Head, Vec<u8>),
}

impl Heads {
    /// Behind their numbers the heads hold anything, and the outputs this byte.
    fn fresh(room: usize, byte: u8, numbers: &mut Numbers) -> Heads {
        let length = HEAD + numbers.one_of(&[0, 0, 1, 40]);
        let mut head: Vec<u8> = (0..length).map(|_| numbers.next() as u8).collect();
        head[..OPENING].fill(0);
        let output = vec![byte; room];
        Heads {
            proved: (Fenced::new(&head, FENCE), Fenced::new(&output, FENCE)),
            reference: (head, output.clone()),
            plain: (Head::default(), output),
        }
    }

    fn feed(&mut self, text: &[u8]) -> Fed {
        let (head, output) = &mut self.reference;
        let surplus = head[HEAD..].to_vec();
        let before = output.clone();
        let expected = feed(head, text, output);
        let (proved_head, proved_output) = &mut self.proved;
        let lent = Fenced::new(text, FENCE);
        let answer = calls::feed(
            proved_head.inside_mut(),
            lent.inside(),
            proved_output.inside_mut(),
        );
        assert_eq!(told_by_feed(answer), expected);
        assert!(proved_output.inside() == output, "output");
        assert!(proved_head.inside()[..OPENING] == head[..OPENING], "head");
        assert!(proved_head.inside()[HEAD..] == surplus, "behind the head");
        let fences = lent.stands() && proved_head.stands() && proved_output.stands();
        assert!(
            fences && lent.inside() == text,
            "a write outside lent memory"
        );
        assert!(expected.number == 0 || *output == before);
        let (plain, plain_output) = &mut self.plain;
        let answer = plain.feed(text, plain_output);
        assert_eq!(
            told_by_plain(answer),
            (expected.number, expected.taken),
            "plain"
        );
        assert!(plain_output == output, "plain output");
        expected
    }

    /// The answers to all stretches of a text that is fed in these cuts.
    fn answers(&mut self, cuts: &[&[u8]]) -> Vec<u64> {
        let mut answers = Vec::new();
        for cut in cuts {
            let mut rest = *cut;
            loop {
                let told = self.feed(rest);
                rest = &rest[told.taken as usize..];
                if told.number == 18 {
                    assert!(rest.is_empty());
                    break;
                }
                answers.push(told.number);
            }
        }
        answers
    }
}

/// Sends with all three; the output holds anything.
fn sends(table: &[u8], room: usize, byte: u8) -> Sent {
    let mut output = vec![byte; room];
    let (mut proved, mut plain_output) = (Fenced::new(&output, FENCE), output.clone());
    let expected = send(table, &mut output);
    let lent = Fenced::new(table, FENCE);
    let answer = calls::send(lent.inside(), proved.inside_mut());
    assert_eq!(told(answer), expected);
    assert!(proved.inside() == output && proved.stands());
    assert!(lent.inside() == table && lent.stands());
    let sent = match ordinary::send(table, &mut plain_output) {
        Ok(length) => (0, length as u64),
        Err(NotSent::OutputShort) => (10, 0),
        Err(NotSent::OutOfRange) => (13, 0),
    };
    assert_eq!(sent, (expected.number, expected.length));
    assert!(plain_output == output);
    expected
}

#[test]
fn tables_are_sent() {
    let mut numbers = seed::numbers("sent tables");
    let mut counts = [0; NUMBERS];
    for _ in 0..3_000 {
        let table = frames::table(&mut numbers);
        let length = text(&table).len();
        let shorter = numbers.below(length);
        for room in [length, length + 1 + numbers.below(70), length - 1, shorter] {
            counts[sends(&table, room, numbers.next() as u8).number as usize] += 1;
        }
    }
    for room in [0, 1, 4_000] {
        assert_eq!(sends(&[], room, 7).number, 13);
        assert_eq!(sends(&vec![7; 16_777_217], room, 7).number, 13);
    }
    println!("sent tables: {} told 0, {} told 10", counts[0], counts[10]);
    assert!(counts[0] == 6_000 && counts[10] == 6_000);
}

/// The longest table, there and back.
#[test]
fn the_longest_table() {
    let mut numbers = seed::numbers("the longest table");
    let table: Vec<u8> = (0..16_777_216).map(|_| numbers.next() as u8).collect();
    let mut sent = vec![0; ordinary::text_length(table.len())];
    let answer = calls::send(&table, &mut sent);
    assert_eq!((answer.number, answer.length as usize), (0, sent.len()));
    assert!(sent == text(&table).as_bytes());
    let (mut head, mut output) = (vec![0; head_need()], vec![7; table.len()]);
    let mut frames = 0;
    let mut rest = &sent[..];
    while !rest.is_empty() {
        let told = calls::feed(&mut head, rest, &mut output);
        assert_eq!(told.number, 0);
        rest = &rest[told.taken as usize..];
        frames += 1;
    }
    assert_eq!(frames, 32_768);
    assert!(output == table);
    assert_eq!(calls::feed(&mut head, &sent, &mut output).number, 17);
}

#[derive(Default)]
struct Seen {
    texts: usize,
    feeds: usize,
    told: [usize; NUMBERS],
    /// Tables that arrived whole, and damaged texts of these.
    whole: usize,
    mended: usize,
}

impl Seen {
    fn report(&self) {
        println!("  {} texts, {} cuts", self.texts, self.feeds);
        for (number, count) in self.told.iter().enumerate().filter(|(_, &count)| count > 0) {
            println!("  number {number:2}: {count}");
        }
        println!(
            "  {} tables arrived whole, {} of damaged texts",
            self.whole, self.mended
        );
    }

    /// Feeds a text in two cuttings.
    fn feed(&mut self, table: &[u8], text: &[u8], numbers: &mut Numbers) {
        let room = match numbers.below(6) {
            0 => numbers.below(table.len() + 1),
            1 => table.len() - 1,
            2 => table.len() + numbers.below(3_000),
            _ => table.len(),
        };
        let byte = numbers.next() as u8;
        let mut heads = Heads::fresh(room, byte, numbers);
        let cuts = frames::cuts(text, numbers);
        let answers = heads.answers(&cuts);
        let mut again = Heads::fresh(room, byte, numbers);
        let mut other = frames::cuts(text, numbers);
        other.insert(numbers.below(other.len() + 1), b"");
        assert_eq!(again.answers(&other), answers);
        assert!(again.reference.1 == heads.reference.1);
        self.texts += 1;
        self.feeds += cuts.len() + other.len();
        for &number in &answers {
            self.told[number as usize] += 1;
        }
        let arrived = heads.reference.1.get(..table.len()) == Some(table);
        self.whole += usize::from(arrived);
        self.mended += usize::from(arrived && answers.iter().any(|&number| number > 0));
    }
}

#[test]
fn random_texts() {
    let mut numbers = seed::numbers("texts of frames");
    let mut seen = Seen::default();
    for _ in 0..20_000 {
        let table = frames::table(&mut numbers);
        let text = frames::any(&table, &mut numbers);
        seen.feed(&table, &text, &mut numbers);
    }
    println!("texts of frames:");
    seen.report();
    for (number, least) in [(0, 20_000), (10, 2_000), (17, 15_000)] {
        assert!(seen.told[number] >= least, "number {number} is hardly told");
    }
    assert!(seen.whole >= 5_000 && seen.mended >= 2_000);
}

/// Every byte of a short text is changed, lost, doubled, and cut before.
#[test]
fn short_texts_in_all_ways() {
    let mut numbers = seed::numbers("short texts of frames");
    let mut seen = Seen::default();
    let table = [&[0xab; FRAME][..], b"xyz"].concat();
    let sent = text(&table).into_bytes();
    let first = sent.len() - text(b"xyz").len();
    // All of the second frame, and the first one outside its pairs.
    let places = (0..24).chain(first - 20..sent.len());
    for at in places {
        let (before, behind) = sent.split_at(at);
        let mut texts = vec![
            sent.clone(),
            [before, &behind[1..]].concat(),
            [before, &behind[..1], behind].concat(),
        ];
        for bit in 0..8 {
            let mut changed = sent.clone();
            changed[at] ^= 1 << bit;
            texts.push(changed);
        }
        for mut text in texts {
            text.extend_from_slice(b"\ncheck=\n");
            text.extend_from_slice(&sent);
            seen.feed(&table, &text, &mut numbers);
        }
    }
    println!("short texts of frames:");
    seen.report();
    assert!(seen.texts >= 500 && seen.told[17] >= 1_000);
}

#[test]
fn a_head_that_is_too_short() {
    let sent = text(b"x").into_bytes();
    for length in [0, 1, 16, 1_077, 1_092] {
        let mut head = Fenced::new(&vec![0; length], FENCE);
        let mut output = Fenced::new(&[7], FENCE);
        let answer = calls::feed(head.inside_mut(), &sent, output.inside_mut());
        assert_eq!((answer.number, answer.taken), (13, 0));
        assert!(head.inside().iter().all(|&byte| byte == 0) && head.stands());
        assert!(output.inside() == [7] && output.stands());
    }
    assert_eq!(head_need(), HEAD);
}

/// A feed ends, and writes only what is lent.
#[test]
fn any_head() {
    let mut numbers = seed::numbers("any heads");
    let mut counts = [0; NUMBERS];
    for _ in 0..4_000 {
        let head: Vec<u8> = (0..HEAD + 9).map(|_| numbers.next() as u8).collect();
        let mut head = Fenced::new(&head, FENCE);
        // Numbers that are nearly right, or anything.
        for (at, most) in [1_077, 7, 9, 9].into_iter().enumerate() {
            if numbers.below(4) > 0 {
                let number = numbers.below(most + 2) as u32;
                let word = &mut head.inside_mut()[4 * at..4 * at + 4];
                word.copy_from_slice(&number.to_be_bytes());
            }
        }
        let surplus = head.inside()[HEAD..].to_vec();
        let table = frames::table(&mut numbers);
        let text = frames::any(&table, &mut numbers);
        let mut output = Fenced::new(&vec![7; numbers.below(4_000)], FENCE);
        let mut rest = &text[..];
        while !rest.is_empty() {
            let told = calls::feed(head.inside_mut(), rest, output.inside_mut());
            assert!([0, 10, 17, 18].contains(&told.number), "{told:?}");
            assert!(told.number == 18 || told.taken > 0);
            counts[told.number as usize] += 1;
            rest = &rest[told.taken as usize..];
        }
        assert!(head.stands() && output.stands());
        assert!(head.inside()[HEAD..] == surplus);
    }
    println!("any heads: {counts:?}");
}
