//! Cases for the points where a packer easily goes wrong.

use crate::call::Call;
use crate::cases::Case;
use crate::hopeless_traps::hopeless_cases;
use crate::inner_traps::inner_start_cases;
use crate::limits;

pub fn trap_cases() -> Vec<Case> {
    let mut cases = offset_cases();
    cases.extend(order_cases());
    cases.extend(closing_cases());
    cases.extend(start_cases());
    cases.extend(refusal_cases());
    cases.extend(inner_start_cases());
    cases.extend(hopeless_cases());
    cases
}

fn offset_cases() -> Vec<Case> {
    let root = |name, middle, width| {
        over_middle(Case::new(name, 3, 3, 70_000), middle, width).pack(2, 70_000)
    };
    vec![
        root("offset 65535 width 2", 65_531, 2),
        root("offset 65536 width 2", 65_532, 2),
        root("offset 65536 width 3", 65_531, 3),
        root("offset 65536 width 4", 65_530, 4),
    ]
}

/// x, a piece of this size that links it, and a root that links that piece and,
/// by this width, x: in any order the piece lies between.
fn over_middle(case: Case, middle: usize, width: u32) -> Case {
    case.piece(b"x", &[])
        .open()
        .link(2, 0)
        .fill(b'm', middle - 2)
        .close()
        .piece(&[], &[(2, 1), (width, 0)])
}

fn order_cases() -> Vec<Case> {
    vec![
        Case::new("ready at the last field", 3, 3, 16)
            .piece(b"x", &[])
            .piece(b"y", &[])
            .piece(&[], &[(2, 0), (2, 1), (2, 0)])
            .pack(2, 8),
        Case::new("unreached parent", 3, 2, 16)
            .piece(b"x", &[])
            .piece(b"u", &[(2, 0)])
            .piece(&[], &[(2, 0)])
            .pack(2, 3),
        equal_distances("equal distances ids along", false),
        equal_distances("equal distances ids other way round", true),
        lighter_link("lighter link second", &[(4, 1), (2, 1)]),
        lighter_link("lighter link first", &[(2, 1), (4, 1)]),
        different_ready_times(),
        spaces_by_distance(),
        child_in_space_0(),
        width_3_joins(),
        width_3_keeps_together(),
    ]
}

/// The root links a, of 5 bytes, and b, of 6; a links x, of 65,531, and b
/// links y, of 65,530. So x and y are at equal distances.
fn equal_distances(name: &'static str, y_first: bool) -> Case {
    let case = Case::new(name, 5, 4, 140_000);
    let (leaves, x, y) = if y_first {
        (case.leaf(b'y', 65_530).leaf(b'x', 65_531), 1, 0)
    } else {
        (case.leaf(b'x', 65_531).leaf(b'y', 65_530), 0, 1)
    };
    leaves
        .piece(b"aaa", &[(2, x)])
        .piece(b"bbbb", &[(2, y)])
        .piece(&[], &[(2, 2), (2, 3)])
        .pack(4, 140_000)
}

/// Both links of the root to id 1 weigh differently, and only the lighter one
/// lets the distance order fit.
fn lighter_link(name: &'static str, both: &[(u32, u32)]) -> Case {
    Case::new(name, 5, 5, 70_000)
        .piece(b"y", &[])
        .piece(b"xxx", &[])
        .leaf(b'z', 65_530)
        .piece(b"mmmmmm", &[(4, 0)])
        .open()
        .links(&[(2, 2), (2, 3)])
        .links(both)
        .close()
        .pack(4, 70_000)
}

/// The plain order makes x ready before y, the distance order y before x.
fn different_ready_times() -> Case {
    Case::new("different ready times", 5, 4, 140_000)
        .leaf(b'x', 65_540)
        .leaf(b'y', 65_541)
        .piece(b"aaaa", &[(2, 0)])
        .piece(b"bbb", &[(2, 1)])
        .piece(&[], &[(2, 2), (2, 3)])
        .pack(4, 140_000)
}

/// Three spaces, each of a leaf and a piece with a link to it.
fn spaces_by_distance() -> Case {
    let pair = |case: Case, name: &[u8], leaf, size: usize| {
        let case = case.piece(name, &[]).open().link(2, leaf);
        case.fill(b'b', size - 2).close()
    };
    let case = Case::new("spaces by distance", 7, 6, 120_015);
    let case = pair(case, b"a", 0, 40_000);
    let case = pair(case, b"c", 2, 30_000);
    let case = pair(case, b"e", 4, 50_000);
    case.piece(&[], &[(4, 5), (4, 1), (4, 3)]).pack(6, 120_015)
}

/// The leaf is in space 0, so the two that link it are two spaces.
fn child_in_space_0() -> Case {
    let linking = |case: Case, byte| case.open().link(2, 0).fill(byte, 39_998).close();
    let case = Case::new("child in space 0", 4, 5, 80_020).leaf(b'c', 10);
    linking(linking(case, b'd'), b'e')
        .piece(&[], &[(2, 0), (4, 1), (4, 2)])
        .pack(3, 80_020)
}

/// The leaf joins the two that link it, one by width 2 and one by width 3.
fn width_3_joins() -> Case {
    let linking = |case: Case, width: u32| {
        let bytes = 40_000 - width as usize;
        case.open().link(width, 0).fill(b'd', bytes).close()
    };
    let case = Case::new("width 3 joins", 4, 4, 80_009).leaf(b'c', 1);
    linking(linking(case, 2), 3)
        .piece(&[], &[(4, 1), (4, 2)])
        .pack(3, 80_009)
}

/// Width 3 alone holds the large child of p to it, so that both come before c,
/// and p reaches the leaf, which waits for its large child.
fn width_3_keeps_together() -> Case {
    Case::new("width 3 keeps together", 5, 5, 80_014)
        .piece(b"x", &[])
        .open()
        .link(4, 0)
        .fill(b'q', 39_996)
        .close()
        .leaf(b'c', 40_000)
        .piece(&[], &[(3, 1), (2, 0)])
        .piece(&[], &[(4, 3), (4, 2)])
        .pack(4, 80_014)
}

fn closing_cases() -> Vec<Case> {
    vec![
        Case::new("equal bytes different links", 12, 16, 40)
            .piece(b"d", &[])
            .piece(b"e", &[])
            .piece(&[], &[(2, 0)])
            .piece(&[], &[(2, 1)])
            .piece(&[], &[(2, 0)])
            .piece(&[], &[(4, 0)])
            .piece(&[], &[(2, 0), (2, 0)])
            .piece(&[0, 0], &[(2, 0)])
            .open()
            .link(2, 0)
            .put(&[0, 0])
            .close()
            .piece(&[0, 0, 0, 0], &[])
            .piece(&[], &[(2, 0), (2, 1)])
            .piece(&[], &[(2, 0), (2, 1)])
            .tally(),
        Case::new("overlapping move", 2, 3, 10)
            .piece(b"x", &[])
            .open()
            .link(2, 0)
            .put(b"a")
            .link(2, 0)
            .put(b"bc")
            .close()
            .pack(1, 8),
        Case::new("room of a discarded duplicate", 3, 2, 7)
            .piece(b"a", &[])
            .piece(&[], &[(2, 0)])
            .piece(&[], &[(2, 0)])
            .piece(b"bc", &[(2, 0)])
            .tally(),
        Case::new("room of a dropped piece", 2, 1, 4)
            .piece(b"a", &[])
            .open()
            .put(b"b")
            .link(2, 0)
            .drop_piece()
            .piece(b"c", &[(2, 0)])
            .tally(),
        Case::new("nested pieces", 3, 2, 12)
            .open()
            .put(b"a")
            .open()
            .put(b"bb")
            .open()
            .put(b"ccc")
            .close()
            .link(2, 0)
            .close()
            .link(2, 1)
            .close()
            .pack(2, 10),
    ]
}

fn start_cases() -> Vec<Case> {
    let wide = limits::record_need(4, 3);
    let narrow = limits::record_need(2, 1);
    vec![
        Case::new("restart with other limits", 2, 1, 12)
            .surplus((wide - narrow) as usize + 2)
            .piece(b"a", &[])
            .piece(b"b", &[(2, 0)])
            .open()
            .put(b"cc")
            .start(4, 3)
            .tally()
            .piece(b"d", &[])
            .piece(b"e", &[(2, 0), (4, 0)])
            .start(2, 1)
            .tally()
            .start(4, 3)
            .piece(b"f", &[])
            .piece(b"g", &[(2, 0), (4, 0)])
            .pack(1, 8),
        Case::new("id from before a restart", 3, 1, 8)
            .piece(b"a", &[])
            .piece(b"b", &[])
            .start(3, 1)
            .open()
            .link(2, 1)
            .drop_piece()
            .pack(1, 8)
            .piece(b"c", &[])
            .pack(1, 8)
            .pack(0, 8),
        Case::new("start out of range", 1, 0, 4)
            .piece(b"a", &[])
            .call(Call::Start {
                pieces: 0,
                links: 0,
            })
            .call(Call::Start {
                pieces: 1,
                links: 1,
            })
            .call(Call::Start {
                pieces: 16_385,
                links: 0,
            })
            .call(Call::Start {
                pieces: 65_537,
                links: 0,
            })
            .call(Call::Start {
                pieces: 1,
                links: 65_537,
            })
            .call(Call::Start {
                pieces: 1,
                links: u32::MAX,
            })
            .call(Call::Start {
                pieces: u32::MAX,
                links: u32::MAX,
            })
            .tally(),
    ]
}

fn refusal_cases() -> Vec<Case> {
    vec![
        Case::new("width 258", 1, 1, 8)
            .piece(b"a", &[])
            .open()
            .links(&[(258, 0), (259, 0), (260, 0), (65_538, 0), (0, 0), (1, 0)])
            .links(&[(5, 0), (8, 0), (u32::MAX, 0), (258, u32::MAX), (2, 0)])
            .tally(),
        Case::new("id 4294967295", 1, 1, 8)
            .piece(b"a", &[])
            .open()
            .links(&[(2, u32::MAX), (2, 1), (2, 256), (2, 65_536), (2, 0)])
            .drop_piece()
            .pack(u32::MAX, 8)
            .pack(256, 8)
            .pack(1, 8)
            .pack(0, 8),
        Case::new("put longer than any store", 1, 0, 8)
            .open()
            .fill(b'p', 16_777_217)
            .fill(b'p', 65_536)
            .fill(b'p', 9)
            .fill(b'p', 8)
            .put(b"")
            .put(b"p")
            .tally(),
        Case::new("longest store", 1, 0, 16_777_216)
            .open()
            .fill(b'p', 16_777_217)
            .fill(b'p', 16_777_216)
            .put(b"p")
            .close()
            .pack(0, 16_777_215)
            .pack(0, 16_777_216),
        (0..65)
            .fold(Case::new("65 opens", 1, 0, 4), |case, _| case.open())
            .drop_piece()
            .open()
            .open()
            .tally(),
        Case::new("link refusals in order", 1, 1, 3)
            .link(258, 9)
            .piece(b"a", &[])
            .open()
            .links(&[(2, 0), (258, 9), (2, 9), (2, 0)])
            .tally(),
        Case::new("link full store", 1, 2, 3)
            .piece(b"a", &[])
            .open()
            .links(&[(4, 0), (2, 0), (2, 0)])
            .tally(),
        Case::new("close refusals in order", 1, 0, 4)
            .piece(b"a", &[])
            .close()
            .open()
            .close()
            .put(b"b")
            .close()
            .drop_piece()
            .piece(b"a", &[])
            .tally(),
        pack_refusals(),
    ]
}

fn pack_refusals() -> Case {
    let need = limits::work_need(4, 3, 0) as usize;
    let pack = |id, output, work| Call::Pack {
        id,
        copies: 0,
        output,
        work,
    };
    over_middle(Case::new("pack refusals in order", 4, 3, 70_000), 65_532, 2)
        .open()
        .call(pack(9, 0, need - 1))
        .call(pack(9, 0, need))
        .drop_piece()
        .call(pack(9, 0, 0))
        .call(pack(3, 0, need))
        .call(pack(2, 0, need))
        .call(pack(2, 65_540, need + 3))
        .call(pack(1, 65_532, need))
        .call(pack(1, 65_533, need))
        .call(pack(0, 1, need + 3))
}
