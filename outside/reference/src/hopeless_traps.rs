//! Traps of pieces that no order can pack.

use crate::cases::Case;

pub fn hopeless_cases() -> Vec<Case> {
    vec![
        last_field("last field, 65535 bytes, width 2", 65_533, 2),
        last_field("last field, 65536 bytes, width 2", 65_534, 2),
        last_field("last field, 65536 bytes, width 3", 65_533, 3),
        last_field("last field, 65536 bytes, width 4", 65_532, 4),
        Case::new("hopeless by the second of three fields", 2, 3, 80_000)
            .piece(b"x", &[])
            .open()
            .fill(b'r', 5_000)
            .links_from(&[5_000, 4_000, 4_001])
            .fill(b's', 64_530)
            .close()
            .tally(),
        Case::new("hopeless by the last of three fields", 2, 3, 80_000)
            .piece(b"x", &[])
            .open()
            .link(3, 0)
            .fill(b'r', 70_000)
            .link(4, 0)
            .link_from(2, 0, 4_473)
            .close()
            .drop_piece()
            .tally(),
        nested(),
        Case::new("room of a hopeless piece that is dropped", 2, 1, 65_540)
            .piece(b"x", &[])
            .open()
            .link(2, 0)
            .fill(b'r', 65_537)
            .close()
            .open()
            .link(2, 0)
            .drop_piece()
            .drop_piece()
            .open()
            .link(2, 0)
            .fill(b'r', 65_533)
            .close()
            .pack(1, 65_536),
        Case::new("a duplicate and one byte more", 2, 2, 140_000)
            .piece(b"x", &[])
            .open()
            .link(2, 0)
            .fill(b'r', 65_533)
            .close()
            .open()
            .link(2, 0)
            .fill(b'r', 65_533)
            .close()
            .open()
            .link(2, 0)
            .fill(b'r', 65_534)
            .close()
            .tally(),
    ]
}

/// A piece whose only field is its last, packed if it closes; else it is dropped.
fn last_field(name: &'static str, bytes: usize, width: u32) -> Case {
    Case::new(name, 2, 1, 70_000)
        .piece(b"x", &[])
        .open()
        .fill(b'r', bytes)
        .link(width, 0)
        .close()
        .pack(1, 70_000)
        .drop_piece()
        .pack(1, 70_000)
}

/// An outer piece that is hopeless does not keep inner ones from closing, nor
/// an inner one the outer from going on.
fn nested() -> Case {
    Case::new("a hopeless piece around another", 4, 3, 140_000)
        .piece(b"x", &[])
        .open()
        .link(2, 0)
        .fill(b'o', 65_534)
        .open()
        .put(b"i")
        .link(2, 0)
        .close()
        .close()
        .drop_piece()
        .open()
        .put(b"o")
        .open()
        .link(2, 1)
        .fill(b'i', 65_534)
        .close()
        .drop_piece()
        .link(2, 1)
        .close()
        .pack(2, 140_000)
}
