//! The hand-counted cases with copies.

use crate::call::Call;
use crate::cases::Case;
use crate::limits;

pub fn copy_cases() -> Vec<Case> {
    vec![
        case_25("25 copies 0", 0),
        case_25("25 copies 1", 1),
        case_25("25 copies 2", 2),
        case_26(),
        case_27(),
        case_28(),
    ]
}

/// A leaf that the root links and two long pieces.
fn case_25(name: &'static str, copies: u32) -> Case {
    let linking = |case: Case, byte| case.open().link(2, 0).fill(byte, 39_998).close();
    let case = Case::new(name, 4, 5, 80_020).leaf(b's', 10);
    linking(linking(case, b'p'), b'q')
        .piece(&[], &[(2, 0), (4, 1), (4, 2)])
        .pack_copying(3, copies, 80_040)
}

/// Two leaves A and B. By the new distances A comes first, by the old ones B.
fn case_26() -> Case {
    Case::new("26", 3, 3, 161_048)
        .leaf(b'A', 65_520)
        .leaf(b'B', 65_520)
        .open()
        .links(&[(4, 0), (2, 1), (2, 0)])
        .fill(b'r', 30_000)
        .close()
        .pack_copying(2, 8, 161_048)
}

/// Two links of one parent lead to one child.
fn case_27() -> Case {
    Case::new("27", 3, 3, 145_528)
        .leaf(b'0', 40_000)
        .leaf(b'1', 40_000)
        .open()
        .links(&[(2, 1), (2, 0), (4, 1)])
        .fill(b'r', 65_520)
        .close()
        .pack_copying(2, 4, 185_528)
}

/// More copies than are ever allowed, and as many as the work memory has no
/// room for.
fn case_28() -> Case {
    let pack = |copies, work| Call::Pack {
        id: 0,
        copies,
        output: 1,
        work,
    };
    let need = |copies| limits::work_need(1, 0, copies) as usize;
    Case::new("28", 1, 0, 1)
        .piece(b"x", &[])
        .call(pack(1_025, need(0)))
        .call(pack(1_024, need(0)))
        .call(pack(1, need(1) - 1))
        .call(pack(1, need(1)))
        .call(pack(0, need(0)))
}
