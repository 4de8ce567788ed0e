//! Tables of large subtables, for promotions.

/// A table's lookups: the type of each, and which subtables it has.
pub type Lookups<'a> = [(u16, &'a [usize])];

/// A subtable: how many substitutes it has, and which coverage.
pub type Subtable = (u16, usize);

/// Big-endian.
pub fn bytes(numbers: &[usize]) -> Vec<u8> {
    let halves = numbers.iter().map(|&n| u16::try_from(n).unwrap());
    halves.flat_map(u16::to_be_bytes).collect()
}

const LOOKUP_LIST: usize = 12;
const FILL: usize = 0x0909;

/// A table whose list has these lookups, by number. A coverage has one glyph, its
/// number. Subtables lie in one another: what follows one's count, those behind it
/// and the coverages among it, are its substitutes, so that a short table reads as
/// long ones.
pub fn table(list: &[usize], lookups: &Lookups, subtables: &[Subtable]) -> Vec<u8> {
    let lookup = |at: usize| {
        let before = lookups[..at].iter().map(|(_, own)| 6 + 2 * own.len());
        LOOKUP_LIST + 2 + 2 * list.len() + before.sum::<usize>()
    };
    let extended = lookups.iter().filter(|(kind, _)| *kind == 7);
    let first_extension = lookup(lookups.len());
    let extensions: usize = extended.map(|(_, own)| own.len()).sum();
    let first_subtable = first_extension + 8 * extensions;
    let mut table = bytes(&[1, 0, 10, 10, LOOKUP_LIST, 0, list.len()]);
    for &at in list {
        table.extend(bytes(&[lookup(at) - LOOKUP_LIST]));
    }
    let (mut extension, mut led) = (first_extension, Vec::new());
    for (at, (kind, own)) in lookups.iter().enumerate() {
        table.extend(bytes(&[usize::from(*kind), 0, own.len()]));
        for &subtable in *own {
            let mut place = first_subtable + 6 * subtable;
            if *kind == 7 {
                led.extend(bytes(&[1, 1, 0, place - extension]));
                place = extension;
                extension += 8;
            }
            table.extend(bytes(&[place - lookup(at)]));
        }
    }
    table.extend(led);
    put_subtables(&mut table, subtables);
    table
}

/// At the end of a table its subtables, their coverages, and the fill.
fn put_subtables(table: &mut Vec<u8>, subtables: &[Subtable]) {
    let first_subtable = table.len();
    let first_coverage = first_subtable + 6 * subtables.len();
    for (at, &(count, coverage)) in subtables.iter().enumerate() {
        let offset = first_coverage + 6 * coverage - (first_subtable + 6 * at);
        table.extend(bytes(&[2, offset, count.into()]));
    }
    let coverages = subtables.iter().map(|(_, coverage)| coverage + 1).max();
    for glyph in 0..coverages.unwrap_or(0) {
        table.extend(bytes(&[1, 1, glyph]));
    }
    for (at, &(count, _)) in subtables.iter().enumerate() {
        let end = first_subtable + 6 * (at + 1) + 2 * usize::from(count);
        while table.len() < end {
            table.extend(bytes(&[FILL]));
        }
    }
}

/// So many subtables, each with its own coverage: the first of this many
/// substitutes, and each with one more than the one before.
pub fn growing(subtables: usize, substitutes: u16) -> Vec<Subtable> {
    (0..subtables)
        .map(|at| (substitutes + at as u16, at))
        .collect()
}

/// The bytes of these subtables.
pub fn sum(subtables: &[Subtable]) -> u64 {
    subtables
        .iter()
        .map(|(count, _)| 6 + 2 * u64::from(*count))
        .sum()
}

/// HarfBuzz's test of its own promotion: five lookups, each of two subtables of
/// some 15,000 bytes.
pub fn five() -> Vec<u8> {
    let lookups: [(u16, &[usize]); 5] = [
        (1, &[0, 1]),
        (1, &[2, 3]),
        (1, &[4, 5]),
        (1, &[6, 7]),
        (1, &[8, 9]),
    ];
    table(&[0, 1, 2, 3, 4], &lookups, &growing(10, 7_500))
}

/// Each of five lookups has the first subtable, of some 10,000 bytes, and one of
/// its own, of 17,000: beside the first there is room for three near the list.
pub fn sharing() -> (Vec<u8>, Vec<Subtable>) {
    let lookups: [(u16, &[usize]); 5] = [
        (1, &[0, 1]),
        (1, &[0, 2]),
        (1, &[0, 3]),
        (1, &[0, 4]),
        (1, &[0, 5]),
    ];
    let mut subtables = growing(6, 8_500);
    subtables[0].0 = 5_000;
    (table(&[0, 1, 2, 3, 4], &lookups, &subtables), subtables)
}

/// One subtable each.
pub const OWN: [[usize; 1]; 11] = [[0], [1], [2], [3], [4], [5], [6], [7], [8], [9], [10]];

/// Eight lookups of type 7, of a subtable of some 30,000 bytes each.
pub fn eight() -> (Vec<u8>, Vec<Subtable>) {
    let eight: [(u16, &[usize]); 8] = [0, 1, 2, 3, 4, 5, 6, 7].map(|at| (7, &OWN[at][..]));
    let subtables = growing(8, 15_000);
    let all = [0, 1, 2, 3, 4, 5, 6, 7];
    (table(&all, &eight, &subtables), subtables)
}
