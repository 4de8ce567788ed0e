//! What jobs print, counted by hand, in the order of the rules' section 12.

use reference::job::{printed, run, Packed, Refused};
use reference::lines::hex;
use std::collections::BTreeSet;
use std::path::Path;

/// HarfBuzz's graph behind its limits: lines 4 to 13.
const GRAPH: [&str; 10] = [
    "piece=64", "piece=62", "link=2,0", "piece=64", "piece=63", "link=2,2", "piece=61", "link=2,1",
    "link=2,3", "end=5",
];

const LIMITS: [&str; 3] = ["bytes=64", "objects=8", "links=8"];

fn text(lines: &[&str]) -> String {
    lines.iter().map(|line| format!("{line}\n")).collect()
}

/// Lines behind limits that leave room.
fn behind(lines: &[&str]) -> String {
    text(&[&LIMITS, lines].concat())
}

fn refused(text: &str, number: u64, line: usize) {
    assert_eq!(
        run(text.as_bytes()),
        Err(Refused { number, line }),
        "{text}"
    );
}

fn packed(text: &str, pieces: u64, table: &str) {
    let Packed {
        pieces: told,
        table: bytes,
    } = run(text.as_bytes()).unwrap_or_else(|refused| panic!("{refused:?}: {text}"));
    assert_eq!((told, hex(&bytes)), (pieces, table.to_string()), "{text}");
}

#[test]
fn every_job_file_prints_what_stands_beside_it() {
    let folder = Path::new(env!("CARGO_MANIFEST_DIR")).join("../../examples/jobs");
    let mut names = BTreeSet::new();
    for entry in std::fs::read_dir(&folder).expect("examples/jobs") {
        names.insert(entry.expect("a file").path().with_extension(""));
    }
    assert!(names.len() >= 80, "{} jobs", names.len());
    for name in names {
        let read = |extension| std::fs::read(name.with_extension(extension)).expect("two files");
        let expected = String::from_utf8(read("expected")).expect("text");
        assert_eq!(printed(&read("job")), expected, "{}", name.display());
    }
}

// 12.1, 12.2, 12.8

#[test]
fn an_accepted_job_prints_three_lines() {
    let job = behind(&GRAPH);
    let expected = "length=12\npieces=4\ntable=610005000862000663000364\n";
    assert_eq!(printed(job.as_bytes()), expected);
}

#[test]
fn a_refused_job_prints_two_lines() {
    let job = behind(&["piece=64", "end=2"]);
    assert_eq!(printed(job.as_bytes()), "refused=14\nline=5\n");
}

#[test]
fn pieces_are_those_of_the_table() {
    packed(&behind(&["piece=64", "piece=65", "end=2"]), 1, "65");
    let written_twice = ["piece=64", "piece=64", "piece=65", "link=2,1", "end=3"];
    packed(&behind(&written_twice), 2, "65000364");
}

#[test]
fn every_key_but_the_awaited_one_breaks_the_layout() {
    let keys = [
        "bytes=1",
        "objects=1",
        "links=1",
        "piece=64",
        "link=2,0",
        "end=1",
        "",
        "copies=1",
    ];
    let limits = ["bytes=1", "objects=1", "links=0"];
    for (line, awaited) in limits.iter().enumerate() {
        let name = |line: &str| line.split('=').next().map(str::to_string);
        let wrong = keys.iter().filter(|key| name(key) != name(awaited));
        for key in wrong {
            let mut lines = limits.to_vec();
            lines[line] = key;
            refused(&text(&lines), 14, line + 1);
        }
    }
    for key in ["bytes=1", "objects=1", "links=1", "", "copies=1"] {
        refused(&behind(&[key]), 14, 4);
        refused(&behind(&["piece=64", key]), 14, 5);
    }
}

#[test]
fn a_key_is_whole() {
    for key in [
        "piece",
        "piec=64",
        "pieces=64",
        "piece:64",
        " piece=64",
        "Piece=64",
        "piece =64",
    ] {
        refused(&behind(&[key, "end=1"]), 14, 4);
    }
}

/// A job of this many bytes: equal pieces, and one that takes up the rest.
fn of_length(length: usize) -> String {
    let job = |equal: usize, pairs: usize| {
        let limits = text(&["bytes=16384", "objects=2", "links=0"]);
        let (pieces, last) = ("piece=78\n".repeat(equal), "61".repeat(pairs));
        format!("{limits}{pieces}piece={last}\nend={}\n", equal + 1)
    };
    // A piece line of one byte has nine, so one more of them mends an odd rest.
    let equal = 6_000 + (length - job(6_000, 0).len()) % 2;
    let text = job(equal, (length - job(equal, 0).len()) / 2);
    assert_eq!(text.len(), length);
    text
}

#[test]
fn a_text_of_65_536_bytes_is_a_job_and_one_more_is_not() {
    let longest = of_length(65_536);
    let Packed { pieces, table } = run(longest.as_bytes()).unwrap();
    assert_eq!(pieces, 1);
    assert!(table.iter().all(|&byte| byte == 0x61) && !table.is_empty());
    refused(&of_length(65_537), 14, 1);
    // Before all else: before the first line's own layout, and before 13.
    refused(&"\n".repeat(65_537), 14, 1);
    refused(&"\n".repeat(65_536), 14, 1);
    let none = text(&["bytes=0", "objects=8", "links=8"]);
    let filled = |length: usize| none.clone() + &"x".repeat(length - none.len());
    refused(&filled(65_536), 13, 3);
    refused(&filled(65_537), 14, 1);
}

#[test]
fn a_long_text_whose_end_is_broken_is_told_there() {
    let pieces = text(&["piece=64"]).repeat(7_000);
    let job = text(&["bytes=2", "objects=1", "links=0"]) + &pieces;
    refused(&(job.clone() + "end=6999\n"), 14, 7_004);
    refused(&(job.clone() + "end=7000"), 14, 7_004);
    refused(&job, 14, 7_004);
    packed(&(job.clone() + "end=7000\n"), 1, "64");
    refused(&(job + "end=7000\n\n"), 14, 7_005);
}

// 12.3

#[test]
fn numbers() {
    for number in [
        "",
        "00",
        "01",
        "064",
        "0000000064",
        "1000000000",
        "6 4",
        "64 ",
        " 64",
        "+64",
        "-1",
        "0x40",
        "6a",
        "64,",
        "6_4",
        "64\r",
        "64\0",
        "６４",
    ] {
        let limit = format!("bytes={number}");
        refused(
            &text(&[&limit, "objects=8", "links=8", "piece=64", "end=1"]),
            14,
            1,
        );
        let limit = format!("objects={number}");
        refused(
            &text(&["bytes=64", &limit, "links=8", "piece=64", "end=1"]),
            14,
            2,
        );
        let limit = format!("links={number}");
        refused(
            &text(&["bytes=64", "objects=8", &limit, "piece=64", "end=1"]),
            14,
            3,
        );
        let end = format!("end={number}");
        refused(&behind(&["piece=64", &end]), 14, 5);
        for link in [format!("link={number},0"), format!("link=2,{number}")] {
            refused(&behind(&["piece=64", "piece=65", &link, "end=2"]), 14, 6);
        }
    }
    // Nine digits are a number, and 0 is one.
    refused(&text(&["bytes=999999999", "objects=8", "links=8"]), 13, 3);
    refused(&behind(&["piece=64", "piece=65", "link=999999999,0"]), 3, 6);
    refused(&behind(&["piece=64", "piece=65", "link=2,999999999"]), 4, 6);
    packed(
        &text(&["bytes=1", "objects=1", "links=0", "piece=64", "end=1"]),
        1,
        "64",
    );
}

#[test]
fn hex_pairs() {
    let all: Vec<u8> = (0..=255).collect();
    let piece = format!("piece={}", hex(&all));
    packed(
        &text(&["bytes=256", "objects=1", "links=0", &piece, "end=1"]),
        1,
        &hex(&all),
    );
    for pairs in [
        "6", "646", "6A", "A6", "6g", "/0", ":0", "`0", "64 65", "64,65", " 64", "64 ", "0x64",
        "64\r", "6\r", "\u{3}0",
    ] {
        refused(&behind(&[&format!("piece={pairs}"), "end=1"]), 14, 4);
    }
    // No pairs are allowed.
    packed(
        &behind(&["piece=64", "piece=", "link=2,0", "end=2"]),
        2,
        "000264",
    );
}

#[test]
fn links_are_two_numbers() {
    for value in [
        "", ",", "2", "2,", ",0", "2,,0", "2,0,", ",2,0", "2,0,0", "2;0", "2 0", "2, 0", "2 ,0",
    ] {
        let link = format!("link={value}");
        refused(&behind(&["piece=64", "piece=65", &link, "end=2"]), 14, 6);
    }
}

#[test]
fn a_carriage_return_is_no_line_feed() {
    let graph = behind(&GRAPH);
    refused(&graph.replace('\n', "\r\n"), 14, 1);
    refused(&graph.replace('\n', "\r"), 14, 1);
    for line in 1..=13 {
        let mut lines: Vec<String> = graph.lines().map(str::to_string).collect();
        lines[line - 1] += "\r";
        refused(&(lines.join("\n") + "\n"), 14, line);
    }
}

// 12.4

#[test]
fn limits_are_judged_at_the_links_line() {
    let limits = |bytes: u32, objects: u32, links: u32| {
        text(&[
            &format!("bytes={bytes}"),
            &format!("objects={objects}"),
            &format!("links={links}"),
        ])
    };
    let job = |bytes, objects, links| limits(bytes, objects, links) + &text(&["piece=78", "end=1"]);
    packed(&job(16_384, 256, 1_024), 1, "78");
    packed(&job(1, 1, 0), 1, "78");
    for (bytes, objects, links) in [
        (16_385, 256, 1_024),
        (16_384, 257, 1_024),
        (16_384, 256, 1_025),
        (16_777_217, 1, 0),
        (0, 1, 0),
        (1, 0, 0),
        (0, 0, 0),
        (65_536, 65_536, 65_537),
    ] {
        refused(&job(bytes, objects, links), 13, 3);
        // What follows is not looked at, and what stands before is.
        refused(&(limits(bytes, objects, links) + "\n"), 13, 3);
        refused(&limits(bytes, objects, links), 13, 3);
        let unended = limits(bytes, objects, links);
        refused(&unended[..unended.len() - 1], 14, 3);
    }
    refused(&text(&["bytes=0", "object=1", "links=0"]), 14, 2);
}

#[test]
fn equal_objects_take_no_room() {
    let mut lines = vec!["bytes=2", "objects=1", "links=0"];
    lines.extend(["piece=64"; 7_000]);
    let job = text(&lines);
    packed(&(job.clone() + "end=7000\n"), 1, "64");
    // The first and the last of them are one.
    let parent = |piece: u32| format!("piece=61\nlink=2,{piece}\nend=7001\n");
    let two = text(&["bytes=4", "objects=2", "links=1"]) + &"piece=64\n".repeat(7_000);
    packed(&(two.clone() + &parent(0)), 2, "61000364");
    packed(&(two.clone() + &parent(6_999)), 2, "61000364");
    refused(&(two + &parent(7_000)), 4, 7_005);
}

// 12.5

#[test]
fn an_absent_line_has_the_number_that_it_would_have() {
    let graph = behind(&GRAPH);
    for line in 1..=13 {
        let before: String = graph.split_inclusive('\n').take(line - 1).collect();
        refused(&before, 14, line);
        // Nor is a line whole without its line feed.
        let whole: String = graph.split_inclusive('\n').take(line).collect();
        for length in before.len()..whole.len() {
            refused(&graph[..length], 14, line);
        }
    }
}

#[test]
fn a_link_and_an_end_need_a_piece_before_them() {
    refused(&behind(&["link=2,0", "piece=64", "end=1"]), 14, 4);
    for end in ["end=0", "end=1", "end=2"] {
        refused(&behind(&[end]), 14, 4);
    }
}

#[test]
fn an_end_counts_piece_lines() {
    for (end, fits) in [
        ("end=0", false),
        ("end=1", false),
        ("end=2", true),
        ("end=3", false),
    ] {
        let job = behind(&["piece=64", "piece=64", end]);
        match fits {
            true => packed(&job, 1, "64"),
            false => refused(&job, 14, 6),
        }
    }
}

#[test]
fn text_behind_the_end() {
    let graph = behind(&GRAPH);
    for more in ["\n", "x", "x\n", "piece=64\n", "end=5\n", "\0", "\r\n", " "] {
        refused(&(graph.clone() + more), 14, 14);
    }
}

#[test]
fn no_line_behind_the_refused_one_is_looked_at() {
    let graph = behind(&GRAPH);
    let lines: Vec<&str> = graph.lines().collect();
    for line in 1..=13 {
        let mut broken = lines.clone();
        broken[line - 1] = "?";
        refused(&text(&broken), 14, line);
        broken.truncate(line);
        broken.push("\u{0}");
        refused(&text(&broken), 14, line);
    }
}

// 12.6

#[test]
fn a_lines_layout_is_judged_before_its_calls() {
    // Each of these lines has a call that would be refused, too.
    refused(&behind(&["piece=", "piece=6"]), 14, 5);
    refused(&behind(&["piece=64", "link=5,"]), 14, 5);
    refused(&behind(&["piece=", "end=2"]), 14, 5);
    refused(&behind(&["piece=", "end=1"]), 5, 5);
    let full = ["bytes=1", "objects=1", "links=0"];
    refused(&text(&[&full, &["piece=6465"][..]].concat()), 6, 4);
    refused(&text(&[&full, &["piece=6465g"][..]].concat()), 14, 4);
}

#[test]
fn calls_are_made_in_turn() {
    // The close of a piece line is before its put.
    let limits = ["bytes=3", "objects=1", "links=1"];
    let job = |lines: &[&str]| text(&[&limits, lines].concat());
    refused(&job(&["piece=", "piece=64656667"]), 5, 5);
    refused(&job(&["piece=64", "piece=65", "piece=64656667"]), 8, 6);
    refused(&job(&["piece=64", "piece=64656667"]), 6, 5);
    // The close of an end line is before its pack.
    refused(&job(&["piece=64", "piece=65", "end=2"]), 8, 6);
    refused(&job(&["piece=64", "piece=", "end=2"]), 5, 6);
}

#[test]
fn a_link_tells_the_first_of_its_numbers() {
    let job = |bytes: &str, links: &str, link: &str| {
        let lines = [
            bytes,
            "objects=2",
            links,
            "piece=64",
            "piece=65",
            link,
            "end=2",
        ];
        text(&lines)
    };
    // Width, number, link limit and store, with one wrong more each time.
    packed(&job("bytes=4", "links=1", "link=2,0"), 2, "65000364");
    refused(&job("bytes=3", "links=1", "link=2,0"), 6, 6);
    refused(&job("bytes=3", "links=0", "link=2,0"), 7, 6);
    refused(&job("bytes=3", "links=0", "link=2,1"), 4, 6);
    for width in [0, 1, 5, 16, 258, 65_538] {
        refused(&job("bytes=3", "links=0", &format!("link={width},1")), 3, 6);
    }
    packed(&job("bytes=5", "links=1", "link=3,0"), 2, "6500000464");
    refused(&job("bytes=4", "links=1", "link=3,0"), 6, 6);
    packed(&job("bytes=6", "links=1", "link=4,0"), 2, "650000000564");
    refused(&job("bytes=5", "links=1", "link=4,0"), 6, 6);
}

#[test]
fn five_and_eight_are_told_at_the_line_that_closes() {
    refused(&behind(&["piece=", "piece=64", "end=2"]), 5, 5);
    refused(&behind(&["piece=64", "piece=", "end=2"]), 5, 6);
    let one = |lines: &[&str]| text(&[&["bytes=64", "objects=1", "links=8"], lines].concat());
    refused(&one(&["piece=64", "piece=65", "piece=66", "end=3"]), 8, 6);
    refused(
        &one(&["piece=64", "piece=65", "link=2,0", "link=2,0", "end=2"]),
        8,
        8,
    );
    packed(&one(&["piece=64", "piece=64", "end=2"]), 1, "64");
}

#[test]
fn text_behind_a_refused_end_is_not_told() {
    for more in ["", "\n", "piece=64\n", "x"] {
        refused(&(behind(&["piece=64", "piece=", "end=2"]) + more), 5, 6);
        let full = text(&[
            "bytes=2",
            "objects=1",
            "links=0",
            "piece=64",
            "piece=65",
            "end=2",
        ]);
        refused(&(full + more), 8, 6);
    }
    // The end line's own layout is.
    refused(&(behind(&["piece=", "end=2"]) + "x"), 14, 5);
}

// 12.7

#[test]
fn a_links_number_counts_piece_lines() {
    // The third piece line is the first one's object.
    let job = |link: &str| {
        behind(&[
            "piece=64", "piece=65", "piece=64", "piece=66", link, "end=4",
        ])
    };
    packed(&job("link=2,0"), 2, "66000364");
    packed(&job("link=2,1"), 2, "66000365");
    packed(&job("link=2,2"), 2, "66000364");
    for number in [3, 4, 255, 256, 65_535, 999_999_999] {
        refused(&job(&format!("link=2,{number}")), 4, 8);
    }
    refused(&behind(&["piece=64", "link=2,0", "end=1"]), 4, 5);
}

#[test]
fn the_root_is_the_last_closes_object() {
    let lines = ["piece=64", "piece=65", "link=2,0", "piece=64", "end=3"];
    packed(&behind(&lines), 1, "64");
    let lines = [
        "piece=64", "piece=65", "link=2,0", "piece=66", "piece=65", "link=2,2", "piece=65",
        "link=2,0", "end=5",
    ];
    packed(&behind(&lines), 2, "65000364");
    // A field is zero while it is written: `65` and two zeros are another object.
    let lines = ["piece=64", "piece=65", "link=2,0", "piece=650000", "end=3"];
    packed(&behind(&lines), 1, "650000");
}

// 12.9

#[test]
fn stores_are_just_as_long_as_the_job_asks_for() {
    let refused_at = [
        (1, 5),
        (2, 6),
        (3, 6),
        // The duplicate's byte, and that of the next piece in its place.
        (4, 7),
        (5, 9),
        (6, 9),
        (7, 10),
        (8, 11),
        (9, 11),
        (10, 12),
        (11, 12),
    ];
    let job = |bytes: u32| {
        let limit = format!("bytes={bytes}");
        text(&[&[&limit, "objects=4", "links=4"][..], &GRAPH].concat())
    };
    for (bytes, line) in refused_at {
        refused(&job(bytes), 6, line);
    }
    packed(&job(12), 4, "610005000862000663000364");
}
