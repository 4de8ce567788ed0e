//! Frames, counted by hand, in the order of the rules' section 13.

mod common;

use common::Numbers;
use reference::frames::{self, crc, frame, send, text, Sent, HEAD};

const STALE: u8 = 0xa5;

/// The number, and how many bytes were written or taken.
fn told(number: u64, length: usize) -> Sent {
    Sent {
        number,
        length: length as u64,
    }
}

fn feed(head: &mut [u8], text: &[u8], output: &mut [u8]) -> Sent {
    let fed = frames::feed(head, text, output);
    told(fed.number, fed.taken as usize)
}

/// A head that is fed, with the output of all its feeds.
struct Fed {
    head: Vec<u8>,
    output: Vec<u8>,
}

impl Fed {
    fn fresh(room: usize) -> Fed {
        let mut head = vec![STALE; HEAD + 3];
        head[..16].fill(0);
        Fed {
            head,
            output: vec![STALE; room],
        }
    }

    fn feed(&mut self, text: &[u8]) -> Sent {
        let told = feed(&mut self.head, text, &mut self.output);
        assert_eq!(self.head[HEAD..], [STALE; 3]);
        told
    }

    /// The answers to all stretches of a text that is fed in these cuts.
    fn answers(&mut self, cuts: &[&[u8]]) -> Vec<u64> {
        let mut answers = Vec::new();
        for cut in cuts {
            let mut rest = *cut;
            loop {
                let told = self.feed(rest);
                if told.number == 18 {
                    assert_eq!(told.length as usize, rest.len());
                    break;
                }
                answers.push(told.number);
                rest = &rest[told.length as usize..];
            }
        }
        answers
    }

    /// The answer to a text that is one stretch.
    fn answer(&mut self, stretch: &str) -> u64 {
        let answer = self.feed(stretch.as_bytes());
        assert_eq!(answer.length as usize, stretch.len(), "{stretch}");
        answer.number
    }

    /// The four numbers that the head opens with.
    fn numbers(&self) -> [u32; 4] {
        let word = |at: usize| self.head[4 * at..4 * at + 4].try_into().unwrap();
        [0, 1, 2, 3].map(|at| u32::from_be_bytes(word(at)))
    }
}

fn table(length: usize) -> Vec<u8> {
    let mut numbers = Numbers::new(length as u64);
    (0..length).map(|_| numbers.next() as u8).collect()
}

/// The text of the table `78`.
const ONE: &str = "frame=0\nof=1\ndata=78\ncheck=a1ccdce1\n";

// 13.1, 13.2

#[test]
fn the_check_of_123456789() {
    assert_eq!(crc(b"123456789"), 0xcbf4_3926);
    assert_eq!(crc(b""), 0);
}

#[test]
fn checks_cover_number_and_count() {
    assert!(frame(0, 2, &[0; 512]).ends_with("\ncheck=1d0c777e\n"));
    assert!(frame(1, 2, b"x").ends_with("\ncheck=41bd5c87\n"));
    assert!(frame(32_767, 32_768, &[0xff; 512]).ends_with("\ncheck=2d60d011\n"));
    assert!(frame(0, 32_768, &[0x61; 512]).ends_with("\ncheck=cad6a825\n"));
}

#[test]
fn a_tables_text() {
    assert_eq!(text(b"x"), ONE);
    assert_eq!(text(b"xyz"), "frame=0\nof=1\ndata=78797a\ncheck=c7f4b5fc\n");
    let mut zeros = vec![0; 513];
    zeros[512] = b'x';
    let (data, last) = ("00".repeat(512), "frame=1\nof=2\ndata=78\ncheck=41bd5c87\n");
    let first = format!("frame=0\nof=2\ndata={data}\ncheck=1d0c777e\n");
    assert_eq!(text(&zeros), first + last);
}

#[test]
fn how_many_frames() {
    for (length, count) in [
        (1, 1),
        (511, 1),
        (512, 1),
        (513, 2),
        (1_024, 2),
        (1_025, 3),
        (5_120, 10),
    ] {
        let text = text(&table(length));
        assert_eq!(text.matches("frame=").count(), count);
        assert_eq!(text.matches(&format!("\nof={count}\n")).count(), count);
        assert_eq!(text.lines().count(), 4 * count);
    }
    // The longest frame.
    assert_eq!(frame(32_767, 32_768, &[0; 512]).len(), 12 + 9 + 1_030 + 15);
}

// 13.3

#[test]
fn send_needs_room_for_the_whole_text() {
    for length in [1, 512, 513, 2_000] {
        let table = table(length);
        let expected = text(&table).into_bytes();
        for short in [0, 1, expected.len() / 2, expected.len() - 1] {
            let mut output = vec![STALE; short];
            assert_eq!(send(&table, &mut output), told(10, 0));
            assert!(output.iter().all(|&byte| byte == STALE));
        }
        for more in [0, 1, 70] {
            let mut output = vec![STALE; expected.len() + more];
            assert_eq!(send(&table, &mut output), told(0, expected.len()));
            let (front, rest) = output.split_at(expected.len());
            assert!(front == expected && rest.iter().all(|&byte| byte == STALE));
        }
    }
}

#[test]
fn send_judges_the_tables_length_first() {
    let longest = vec![0x61; 16_777_216];
    let long = [&longest[..], &[0]].concat();
    for room in [0, 40, 2_000] {
        let mut output = vec![STALE; room];
        assert_eq!(send(&[], &mut output), told(13, 0));
        assert_eq!(send(&long, &mut output), told(13, 0));
        assert!(output.iter().all(|&byte| byte == STALE));
    }
    // 1,061 bytes and the digits of the number for each frame.
    let digits = 10 + 2 * 90 + 3 * 900 + 4 * 9_000 + 5 * 22_768;
    let length = 32_768 * 1_061 + digits;
    let mut output = vec![STALE; length];
    assert_eq!(send(&longest, &mut output[1..]), told(10, 0));
    assert_eq!(send(&longest, &mut output), told(0, length));
    assert!(output.starts_with(b"frame=0\nof=32768\ndata=6161"));
    assert!(output.ends_with(b"6161\ncheck=694a63df\n"));
}

// 13.4

#[test]
fn a_stretch_ends_with_a_check_line() {
    for (text, end) in [
        ("check=\n", 7),
        ("check=\n\n", 7),
        ("check=check=\ncheck=\n", 13),
        ("\ncheck=x\nrest", 9),
        ("check\ncheck=\n", 13),
        ("checkcheck=\ncheck=\n", 19),
        (" check=\ncheck=\n", 15),
        ("Check=\ncheck=\n", 14),
        ("data=check=\ncheck=\n", 19),
        ("chec\nk=\ncheck=\n", 15),
        ("\r\ncheck=\r\n", 10),
    ] {
        assert_eq!(Fed::fresh(0).feed(text.as_bytes()), told(17, end), "{text}");
    }
    for text in [
        "",
        "check=",
        "check\n",
        "\n",
        "xcheck=\n",
        "ccheck=\n",
        "check=\r",
        "checc=\n",
        "frame=0\n",
    ] {
        assert_eq!(
            Fed::fresh(0).feed(text.as_bytes()),
            told(18, text.len()),
            "{text}"
        );
    }
}

// 13.5

#[test]
fn a_frame_is_accepted() {
    let mut fed = Fed::fresh(3);
    assert_eq!(fed.answer(ONE), 0);
    assert_eq!(fed.output, [0x78, STALE, STALE]);
    assert_eq!(fed.numbers(), [0, 0, 1, 1]);
}

#[test]
fn frames_are_written_behind_one_another() {
    let table = table(1_300);
    let mut fed = Fed::fresh(1_302);
    for (at, bytes) in table.chunks(512).enumerate() {
        assert_eq!(fed.answer(&frame(at as u32, 3, bytes)), 0);
        assert_eq!(fed.numbers(), [0, 0, at as u32 + 1, 3]);
        let written = 512 * at + bytes.len();
        assert_eq!(fed.output[..written], table[..written]);
        assert!(fed.output[written..].iter().all(|&byte| byte == STALE));
    }
    // Once all are in, every stretch is 17.
    for (at, bytes) in table.chunks(512).enumerate() {
        assert_eq!(fed.answer(&frame(at as u32, 3, bytes)), 17);
    }
    assert_eq!(fed.answer(&frame(3, 3, b"x")), 17);
    assert_eq!(fed.answer(&frame(3, 4, b"x")), 17);
    assert_eq!(fed.output[..1_300], table);
}

#[test]
fn a_frame_needs_room() {
    let full = frame(0, 1, &[7; 512]);
    let mut fed = Fed::fresh(511);
    assert_eq!(fed.answer(&full), 10);
    assert_eq!(fed.numbers(), [0, 0, 0, 0]);
    assert_eq!(fed.output, [STALE; 511]);
    // A shorter one still fits.
    assert_eq!(fed.answer(&frame(0, 1, &[7; 511])), 0);
    assert_eq!(fed.output, [7; 511]);
    assert_eq!(Fed::fresh(512).answer(&full), 0);
    assert_eq!(Fed::fresh(0).answer(ONE), 10);
    // The second frame passes the end by one byte; nothing of it is written.
    let mut fed = Fed::fresh(514);
    assert_eq!(fed.answer(&frame(0, 2, &[7; 512])), 0);
    assert_eq!(fed.answer(&frame(1, 2, b"abc")), 10);
    assert_eq!(fed.output[512..], [STALE; 2]);
    assert_eq!(fed.numbers(), [0, 0, 1, 2]);
    assert_eq!(fed.answer(&frame(1, 2, b"ab")), 0);
    // 17 before 10.
    assert_eq!(Fed::fresh(0).answer(&frame(1, 2, b"x")), 17);
}

/// Stretches that are not the awaited frame 0 of 1.
fn wrong_first_frames() -> Vec<String> {
    let mut wrong = vec![
        frame(1, 1, b"x"),
        frame(1, 2, b"x"),
        frame(0, 0, b"x"),
        frame(0, 1, b""),
        frame(0, 1, &[0; 513]),
        frame(0, 2, &[0; 511]),
        frame(0, 2, &[0; 513]),
        frame(0, 2, b"x"),
        frame(0, 32_769, &[0; 512]),
        frame(0, 1_000_000, &[0; 512]),
        frame(1, 0, b"x"),
        "check=\n".to_string(),
        "check=a1ccdce1\n".to_string(),
        "data=78\ncheck=a1ccdce1\n".to_string(),
        "of=1\ndata=78\ncheck=a1ccdce1\n".to_string(),
        "of=1\nframe=0\ndata=78\ncheck=a1ccdce1\n".to_string(),
        "frame=0\nof=1\ndata=78\n\ncheck=a1ccdce1\n".to_string(),
        "frame=0\nof=1\ndata=78\ndata=78\ncheck=a1ccdce1\n".to_string(),
    ];
    for (right, other) in [
        ("frame=0", "frame=00"),
        ("frame=0", "frame=1"),
        ("frame=0", "frame="),
        ("frame=0", "frame=0 "),
        ("frame=0", " frame=0"),
        ("frame=0", "\nframe=0"),
        ("frame=0", "frames=0"),
        ("frame=0", "Frame=0"),
        ("of=1", "of=01"),
        ("of=1", "of=2"),
        ("of=1", "of="),
        ("of=1", "of=1\r"),
        ("of=1", "of=0000000001"),
        ("data=78", "data=79"),
        ("data=78", "data=7"),
        ("data=78", "data="),
        ("data=78", "data=7878"),
        ("data=78", "data=78 "),
        ("data=78", "data= 78"),
        ("data=78", "data=7g"),
        ("check=a1ccdce1", "check=a1ccdce0"),
        ("check=a1ccdce1", "check=A1CCDCE1"),
        ("check=a1ccdce1", "check=a1ccdce"),
        ("check=a1ccdce1", "check=a1ccdce11"),
        ("check=a1ccdce1", "check=a1ccdce1\r"),
        ("check=a1ccdce1", "check=e1dccca1"),
        // The check of the byte alone, without number and count.
        ("check=a1ccdce1", "check=8cdc1683"),
    ] {
        wrong.push(ONE.replace(right, other));
    }
    // A pair in upper case, under its right check.
    wrong.push(frame(0, 1, &[0xab]).replace("data=ab", "data=AB"));
    wrong
}

#[test]
fn seventeen_changes_nothing() {
    let wrong = wrong_first_frames();
    for stretch in &wrong {
        assert_ne!(stretch, ONE);
        let mut fed = Fed::fresh(600);
        assert_eq!(fed.answer(stretch), 17, "{stretch}");
        assert_eq!(fed.numbers(), [0; 4]);
        assert_eq!(fed.output, [STALE; 600]);
        // The frame itself is still awaited.
        assert_eq!(fed.answer(ONE), 0);
        assert_eq!(fed.output[0], 0x78);
    }
}

#[test]
fn every_changed_byte_is_seventeen() {
    for at in 0..ONE.len() - 1 {
        for bit in 0..8 {
            let mut changed = ONE.as_bytes().to_vec();
            changed[at] ^= 1 << bit;
            let mut fed = Fed::fresh(1);
            // A changed key ends no stretch, so another one does.
            changed.extend_from_slice(b"check=\n");
            assert_eq!(fed.feed(&changed).number, 17, "byte {at}, bit {bit}");
            assert_eq!(fed.output, [STALE]);
        }
    }
}

#[test]
fn later_frames_are_awaited_in_turn() {
    let table = table(4 * 512 + 5);
    let frames: Vec<String> = (0..5)
        .zip(table.chunks(512))
        .map(|(at, bytes)| frame(at, 5, bytes))
        .collect();
    let mut fed = Fed::fresh(table.len());
    for (at, awaited) in frames.iter().enumerate() {
        for (other, wrong) in frames.iter().enumerate() {
            if other != at {
                assert_eq!(fed.answer(wrong), 17);
            }
        }
        let bytes = &table[512 * at..];
        if at > 0 {
            // Another count than the first frame's, under its right check.
            for count in [at as u32 + 1, 4, 6, 32_768] {
                let bytes = &bytes[..bytes.len().min(512)];
                let wrong = frame(at as u32, count, bytes);
                assert!(count == 5 || fed.answer(&wrong) == 17);
            }
        }
        assert_eq!(fed.answer(awaited), 0);
    }
    assert_eq!(fed.output, table);
}

#[test]
fn a_count_is_kept_from_the_first_accepted_frame_alone() {
    // Frame 0 of 3 has no room, so frame 0 of 1 may come.
    let mut fed = Fed::fresh(100);
    assert_eq!(fed.answer(&frame(0, 3, &[7; 512])), 10);
    assert_eq!(fed.answer(ONE), 0);
    assert_eq!(fed.numbers(), [0, 0, 1, 1]);
}

#[test]
fn the_greatest_count() {
    let mut fed = Fed::fresh(512);
    assert_eq!(fed.answer(&frame(0, 32_769, &[7; 512])), 17);
    assert_eq!(fed.answer(&frame(0, 32_768, &[7; 512])), 0);
    assert_eq!(fed.numbers(), [0, 0, 1, 32_768]);
    // The last frame of the longest table.
    fed.head[8..12].copy_from_slice(&32_767_u32.to_be_bytes());
    let last = frame(32_767, 32_768, &[0xff; 512]);
    assert_eq!(fed.answer(&last), 10);
    fed.output.resize(16_777_216, STALE);
    assert_eq!(fed.answer(&last), 0);
    assert_eq!(fed.output[16_776_704..], [0xff; 512]);
    assert_eq!(fed.answer(&frame(32_768, 32_769, b"x")), 17);
}

// 13.6

#[test]
fn a_feed_stops_at_the_first_stretchs_end() {
    let table = table(520);
    let text = text(&table).into_bytes();
    let first = frame(0, 2, &table[..512]).len();
    let mut fed = Fed::fresh(520);
    assert_eq!(fed.feed(&text), told(0, first));
    assert_eq!(fed.feed(&text[first..]), told(0, text.len() - first));
    assert_eq!(fed.output, table);
    assert_eq!(fed.feed(b""), told(18, 0));
    assert_eq!(fed.feed(b"chec"), told(18, 4));
    assert_eq!(fed.numbers(), [4, 4, 2, 2]);
    assert_eq!(fed.feed(b"k=\nmore"), told(17, 3));
    assert_eq!(fed.numbers(), [0, 0, 2, 2]);
}

#[test]
fn a_head_that_is_too_short() {
    for length in [0, 1, 16, 1_077, HEAD - 1] {
        let (mut head, mut output) = (vec![0; length], [STALE; 9]);
        assert_eq!(feed(&mut head, ONE.as_bytes(), &mut output), told(13, 0));
        assert_eq!(feed(&mut head, b"", &mut output), told(13, 0));
        assert!(head.iter().all(|&byte| byte == 0) && output == [STALE; 9]);
    }
    let (mut head, mut output) = (vec![0; HEAD], [STALE; 9]);
    assert_eq!(
        feed(&mut head, ONE.as_bytes(), &mut output),
        told(0, ONE.len())
    );
}

// 13.7

#[test]
fn what_the_head_keeps() {
    let mut fed = Fed::fresh(9);
    for (text, numbers) in [
        ("frame=0", [7, 7, 0, 0]),
        ("\n", [8, 0, 0, 0]),
        ("of=1\nda", [15, 7, 0, 0]),
        ("ta=78\n", [21, 0, 0, 0]),
        ("c", [22, 1, 0, 0]),
        ("heck", [26, 5, 0, 0]),
        ("=", [27, 6, 0, 0]),
        ("a1ccdce1", [35, 6, 0, 0]),
    ] {
        assert_eq!(fed.feed(text.as_bytes()), told(18, text.len()));
        assert_eq!(fed.numbers(), numbers, "{text}");
    }
    assert_eq!(fed.head[16..16 + 35], ONE.as_bytes()[..35]);
    assert_eq!(fed.feed(b"\n"), told(0, 1));
    assert_eq!(fed.numbers(), [0, 0, 1, 1]);
}

#[test]
fn an_endless_stretch_is_held_as_far_as_there_is_room() {
    let mut fed = Fed::fresh(9);
    let endless = vec![b'x'; 1_000];
    for turn in 1..=3_000 {
        assert_eq!(fed.feed(&endless), told(18, 1_000));
        let held = (1_000 * turn).min(1_077);
        assert_eq!(fed.numbers(), [held, 7, 0, 0]);
    }
    let lines = b"check\n".repeat(200_000);
    assert_eq!(fed.feed(&lines), told(18, lines.len()));
    assert_eq!(fed.feed(ONE.as_bytes()), told(17, ONE.len()));
    assert_eq!(fed.answer(ONE), 0);
}

#[test]
fn a_stretch_that_opens_with_a_frame_is_none() {
    // As long as there is room, and longer by one byte, and by more.
    for more in 1..=100 {
        let long = frame(0, 32_768, &[0x61; 512]);
        let check = long.len() - 15;
        let mut stretch = long.clone();
        stretch.insert_str(check, &"y".repeat(more));
        stretch.insert(check + more, '\n');
        assert_eq!(Fed::fresh(512).answer(&stretch), 17);
    }
}

#[test]
fn a_feed_ends_for_any_head() {
    let mut numbers = Numbers::new(13);
    let whole = text(&table(2_000)).into_bytes();
    for _ in 0..2_000 {
        let mut fed = Fed::fresh(numbers.below(3_000));
        for byte in &mut fed.head[..HEAD] {
            *byte = numbers.next() as u8;
        }
        if numbers.below(2) == 0 {
            fed.head[..2].fill(0);
            fed.head[4..7].fill(0);
        }
        let mut rest = &whole[..];
        while !rest.is_empty() {
            let told = fed.feed(rest);
            assert!([0, 10, 17, 18].contains(&told.number));
            rest = &rest[told.length as usize..];
        }
    }
}

// 13.8, 13.9

#[test]
fn cut_at_every_place() {
    let table = table(600);
    let noise = "noise\n\ncheck=00000000\n";
    let sent = text(&table);
    let text = [noise, &sent, noise].concat().into_bytes();
    for at in 0..=text.len() {
        let (one, other) = text.split_at(at);
        let mut fed = Fed::fresh(600);
        assert_eq!(fed.answers(&[one, other]), [17, 0, 0, 17], "cut at {at}");
        assert_eq!(fed.output, table);
    }
    // And into single bytes.
    let bytes: Vec<&[u8]> = text.chunks(1).collect();
    let mut fed = Fed::fresh(600);
    assert_eq!(fed.answers(&bytes), [17, 0, 0, 17]);
    assert_eq!(fed.output, table);
}

#[test]
fn what_is_sent_arrives() {
    let mut numbers = Numbers::new(5);
    for length in [1, 2, 511, 512, 513, 1_023, 1_024, 1_025, 5_000, 70_000] {
        let table = table(length);
        let text = text(&table).into_bytes();
        for _ in 0..4 {
            let mut cuts = Vec::new();
            let mut rest = &text[..];
            while !rest.is_empty() {
                let (cut, more) = rest.split_at(1 + numbers.below(rest.len().min(3_000)));
                cuts.push(cut);
                rest = more;
            }
            let mut fed = Fed::fresh(length + 2);
            assert_eq!(fed.answers(&cuts), vec![0; length.div_ceil(512)]);
            assert_eq!(fed.output[..length], table);
            assert_eq!(fed.output[length..], [STALE; 2]);
        }
    }
}

#[test]
fn bytes_that_arrive_are_told_and_when_all_are_in() {
    let table = [7; 700];
    let text = text(&table);
    let first = frame(0, 2, &table[..512]).len();
    let (mut head, mut output) = (vec![0; HEAD], vec![0; 700]);
    let mut feed = |text: &str| {
        let fed = frames::feed(&mut head, text.as_bytes(), &mut output);
        (fed.number, fed.written, fed.whole)
    };
    assert_eq!(feed(&text[..first - 1]), (18, 0, false));
    assert_eq!(feed(&text[first - 1..]), (0, 512, false));
    assert_eq!(feed("check=\n"), (17, 0, false));
    assert_eq!(feed(&text[first..]), (0, 188, true));
    assert_eq!(feed("check=\n"), (17, 0, true));
    assert_eq!(feed(""), (18, 0, true));
    let mut short = vec![0; HEAD - 1];
    let fed = frames::feed(&mut short, b"", &mut []);
    assert_eq!((fed.number, fed.written, fed.whole), (13, 0, false));
}
