//! The lines that the programs print.

use reference::answer::Answer;
use reference::call::Call;
use reference::lines::{hex, numbers, script, told};

#[test]
fn one_line_a_call() {
    let answer = Answer {
        number: 11,
        bytes: 1,
        links: 2,
        objects: 3,
        depth: 4,
        id: 5,
        length: 6,
        parent: 7,
        field: 8,
        needed: 9,
        copies: 10,
        placed: 11,
    };
    let counts = "number=11 bytes=1 links=2 objects=3 depth=4";
    assert_eq!(told(&Call::Open, &answer), format!("open {counts}"));
    assert_eq!(told(&Call::Close, &answer), format!("close {counts} id=5"));
    let pack = Call::Pack {
        id: 0,
        copies: 0,
        output: 0,
        work: 0,
    };
    assert_eq!(
        told(&pack, &answer),
        format!("pack {counts} length=6 parent=7 field=8 needed=9 copies=10 placed=11")
    );
}

#[test]
fn memory_as_text() {
    assert_eq!(hex(&[0, 10, 255]), "000aff");
    assert_eq!(numbers(&[4_u32, 0, 12]), "4 0 12");
}

#[test]
fn a_link_is_three_numbers() {
    let link = |inner| Call::Link {
        width: 2,
        id: 7,
        inner,
    };
    assert_eq!(script(&link(0)), "k 2 7 0");
    assert_eq!(script(&link(u32::MAX)), "k 2 7 4294967295");
}

#[test]
fn a_pack_is_four_numbers() {
    let pack = Call::Pack {
        id: 1,
        copies: 1_025,
        output: 30,
        work: 400,
    };
    assert_eq!(script(&pack), "a 1 1025 30 400");
}
