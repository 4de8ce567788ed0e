//! How many words to lend: as documented, and within the bound, for all limits.

use compare::seed;
use reference::limits;

#[test]
fn needs_are_as_documented() {
    let mut numbers = seed::numbers("needs");
    let edges = [
        0,
        1,
        16_383,
        16_384,
        16_385,
        65_535,
        65_536,
        65_537,
        u32::MAX,
    ];
    let counts = [0, 1, 2, 256, 1_023, 1_024, 1_025, 65_536, u32::MAX];
    let mut all: Vec<(u32, u32, u32)> = Vec::new();
    for p in edges {
        for l in edges {
            all.extend(counts.map(|copies| (p, l, copies)));
        }
    }
    all.extend((0..10_000).map(|_| {
        let copies = numbers.one_of(&counts);
        (numbers.next() as u32, numbers.next() as u32, copies)
    }));
    for (p, l, k) in all {
        let (pieces, links, copies) = (u64::from(p), u64::from(l), u64::from(k));
        let records = bindings::records_need(p, l) as u64;
        assert_eq!(records, limits::record_need(pieces, links));
        assert!(records <= 4_096 + 64 * (pieces + links));
        let work = bindings::work_need(p, l, k) as u64;
        assert_eq!(work, limits::work_need(pieces, links, copies));
        let batch = bindings::batch_need(p, l) as u64;
        assert_eq!(batch, limits::batch_need(pieces));
        assert!(batch <= 4_096 + 64 * (pieces + links));
        let allowed = copies.min(1_024);
        assert!(work <= 4_096 + 64 * (pieces + links) + 64 * allowed * (links + 1));
    }
}
