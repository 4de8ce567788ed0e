//! Readings, and tables that show them or do not.

use reference::reader::{check, shows, Fault};
use reference::reading::{same, Draft, Reading};
use std::rc::Rc;

fn reading(bytes: &[u8], links: &[(usize, &Rc<Reading>)]) -> Rc<Reading> {
    let links: Vec<_> = links.iter().map(|&(w, child)| (w, 0, child)).collect();
    reading_from(bytes, &links)
}

/// With widths, inner starts and children.
fn reading_from(bytes: &[u8], links: &[(usize, usize, &Rc<Reading>)]) -> Rc<Reading> {
    let mut draft = Draft::default();
    draft.put(bytes);
    for &(width, inner, child) in links {
        draft.link(width, inner, Rc::clone(child));
    }
    draft.finish()
}

#[test]
fn readings_are_the_same_by_what_they_hold() {
    let (x, y) = (reading(b"x", &[]), reading(b"y", &[]));
    assert!(same(&x, &reading(b"x", &[])));
    assert!(!same(&x, &y));
    let parent = reading(&[], &[(2, &x)]);
    assert!(same(&parent, &reading(&[], &[(2, &reading(b"x", &[]))])));
    assert!(!same(&parent, &reading(&[], &[(2, &y)])));
    assert!(!same(&parent, &reading(&[0, 0], &[])));
    let wide = reading(&[], &[(4, &x)]);
    assert!(!same(&wide, &reading(&[], &[(2, &x), (2, &x)])));
    assert!(!same(&wide, &reading(&[0, 0], &[(2, &x)])));
}

#[test]
fn an_inner_start_is_part_of_a_reading() {
    let x = reading(b"x", &[]);
    let one = |inner| reading_from(b"ab", &[(2, inner, &x)]);
    assert!(same(&one(0), &reading(b"ab", &[(2, &x)])));
    assert!(same(&one(2), &one(2)));
    assert!(!same(&one(0), &one(2)));
    assert!(!same(&one(1), &one(2)));
    // Also of a child's reading.
    let over = |inner| reading(&[], &[(2, &one(inner))]);
    assert!(same(&over(1), &over(1)));
    assert!(!same(&over(1), &over(2)));
}

#[test]
fn a_field_leads_to_its_inner_start_and_its_number() {
    let x = reading(b"x", &[]);
    let root = reading_from(b"head", &[(2, 4, &x), (2, 0, &x)]);
    assert!(shows(b"head\0\x04\0\x08x", &root));
    // Both from the first byte, or both from the inner start.
    assert_eq!(
        check(b"head\0\x08\0\x08x", &root),
        Err(Fault::PastEnd { place: 12 })
    );
    assert!(!shows(b"head\0\x04\0\x04x", &root));
    // From the first byte of the piece, wherever that stands.
    let over = reading(b"o", &[(2, &root)]);
    assert!(shows(b"o\0\x03head\0\x04\0\x08x", &over));
    // Counted from the table's first byte.
    assert!(!shows(b"o\0\x03head\0\x07\0\x0bx", &over));
    let near = reading_from(b"head", &[(2, 4, &x)]);
    assert!(shows(b"head\0\x02x", &near));
    assert_eq!(
        check(b"head\0\x01x", &near),
        Err(Fault::Differs { place: 5 })
    );
}

#[test]
fn offsets_count_from_the_piece_that_holds_the_field() {
    let d = reading(b"d", &[]);
    let b = reading(b"b", &[(2, &d)]);
    let c = reading(b"c", &[(2, &d)]);
    let a = reading(b"a", &[(2, &b), (2, &c)]);
    assert!(shows(b"a\0\x05\0\x08b\0\x06c\0\x03d", &a));
    let from_table_start = b"a\0\x05\0\x08b\0\x0bc\0\x0bd";
    assert_eq!(
        check(from_table_start, &a),
        Err(Fault::PastEnd { place: 19 })
    );
    let from_field = b"a\0\x04\0\x05b\0\x05c\0\x02d";
    assert!(!shows(from_field, &a));
}

#[test]
fn a_table_must_hold_all_that_it_shows() {
    let x = reading(b"xyz", &[]);
    let root = reading(&[], &[(2, &x)]);
    assert!(shows(b"\0\x02xyz", &root));
    assert!(!shows(b"\0\x02xy", &root));
    assert!(!shows(b"\0", &root));
    assert!(!shows(b"", &root));
    assert!(!shows(b"\0\x02xyw", &root));
    assert!(!shows(b"\xff\xffxyz", &root));
    let wide = reading(&[], &[(4, &x)]);
    assert!(shows(b"\0\0\0\x04xyz", &wide));
    assert!(!shows(b"\x04\0\0\0xyz", &wide));
    assert!(!shows(b"\xff\xff\xff\xffxyz", &wide));
}

#[test]
fn fields_are_compared_by_what_they_lead_to() {
    let x = reading(b"x", &[]);
    let root = reading(&[], &[(2, &x)]);
    // Two copies of x: either may be meant.
    assert!(shows(b"\0\x02xx", &root));
    assert!(shows(b"\0\x03xx", &root));
}

#[test]
fn deep_and_much_shared_readings_are_read_and_freed() {
    let mut piece = reading(b"x", &[]);
    let mut table = b"x".to_vec();
    for _ in 0..4_095 {
        piece = reading(&[], &[(2, &piece), (2, &piece)]);
        table.splice(0..0, [0, 4, 0, 4]);
    }
    assert!(shows(&table, &piece));
    table[4] = 1;
    assert!(!shows(&table, &piece));
}
