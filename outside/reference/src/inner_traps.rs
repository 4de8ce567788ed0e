//! Traps of inner starts.

use crate::cases::Case;

pub fn inner_start_cases() -> Vec<Case> {
    vec![
        far_inner_starts(),
        Case::new("inner start of a first field", 1, 2, 8)
            .piece(b"x", &[])
            .open()
            .links_from(&[1, 2, 65_536, u32::MAX, 0, 3, 2])
            .tally(),
        Case::new("inner start past 16 bits", 2, 3, 70_000)
            .piece(b"x", &[])
            .open()
            .fill(b'r', 65_540)
            .links_from(&[65_541, 65_540, 65_536, 11])
            .close()
            .pack(1, 65_547),
        Case::new("inner start in the innermost piece", 3, 2, 16)
            .piece(b"x", &[])
            .open()
            .put(b"outer")
            .open()
            .put(b"i")
            .links_from(&[5, 2, 1])
            .close()
            .link_from(2, 1, 6)
            .link_from(2, 1, 5)
            .close()
            .pack(2, 11),
        Case::new("inner start among link refusals", 1, 1, 3)
            .link_from(2, 0, 9)
            .piece(b"a", &[])
            .open()
            .link_from(4, 0, 1)
            .link_from(2, 9, 1)
            .link_from(4, 0, 0)
            .link_from(2, 0, 0)
            .link_from(2, 0, 3)
            .link_from(2, 9, 3)
            .link_from(258, 9, 2)
            .link_from(2, 9, 2)
            .link_from(2, 0, 2)
            .tally(),
        Case::new("pieces that differ in an inner start", 5, 6, 40)
            .piece(b"x", &[])
            .piece_from(b"abcd", 0)
            .piece_from(b"abcd", 1)
            .piece_from(b"abcd", 4)
            .piece(&[], &[(2, 1), (2, 3)])
            .piece_from(b"abcd", 1)
            .piece_from(b"abcd", 3)
            .drop_piece()
            .pack(4, 17),
        two_fields("plain order by an inner start", 65_531, 4),
        two_fields("inner start one too near", 65_532, 4),
        weightless("inner starts weigh nothing", 0, 4),
        weightless("inner starts weigh nothing, the other way round", 4, 0),
    ]
}

/// Each of these but the last, cut short or taken for a signed number, would
/// not be past the field.
fn far_inner_starts() -> Case {
    Case::new("inner start 4294967295", 1, 1, 8)
        .piece(b"x", &[])
        .open()
        .put(b"head")
        .links_from(&[5, 256, 260, 65_536, 65_540, 16_777_216, 16_777_220])
        .links_from(&[1 << 31, (1 << 31) + 4, u32::MAX - 3, u32::MAX - 1])
        .links_from(&[u32::MAX, 4])
        .tally()
}

/// A header of 4 bytes, then a width-2 link to x, of this size, and one with an
/// inner start to y.
fn two_fields(name: &'static str, x: usize, inner: u32) -> Case {
    Case::new(name, 3, 2, 70_000)
        .leaf(b'x', x)
        .piece(b"y", &[])
        .open()
        .put(b"head")
        .link(2, 0)
        .link_from(2, 1, inner)
        .close()
        .pack(2, 70_000)
}

/// By the distance order x and y, of one size, come before the large leaf, and
/// x first, whatever their inner starts.
fn weightless(name: &'static str, x: u32, y: u32) -> Case {
    Case::new(name, 4, 3, 80_000)
        .leaf(b'l', 70_000)
        .piece(b"xxx", &[])
        .piece(b"yyy", &[])
        .open()
        .put(b"head")
        .link(3, 0)
        .link_from(2, 1, x)
        .link_from(2, 2, y)
        .close()
        .pack(3, 80_000)
}
