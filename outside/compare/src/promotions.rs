//! Promotions of a table's lookups on both packers.

use crate::fenced::Fenced;
use crate::pair::{shown, Pair};
use crate::{Checked, Numbers};
use reference::answer::DONE;
use reference::call::Call;
use reference::gsub::{GsubPromoted, Scope};
use reference::limits;

/// What a promotion told, and the table that it packed.
pub struct Outcome {
    pub told: GsubPromoted,
    pub packed: Vec<u8>,
}

/// What is lent to a promotion besides the stores.
#[derive(Clone)]
struct Lent {
    output: Vec<u8>,
    work: Vec<u64>,
}

impl Lent {
    /// So much of each, that holds anything.
    fn any(output: usize, work: usize, numbers: &mut Numbers) -> Lent {
        let (byte, word) = (numbers.next() as u8, numbers.next() << 13 | 1);
        Lent {
            output: (0..output).map(|i| byte.wrapping_add(i as u8)).collect(),
            work: (0..work as u64).map(|i| word.wrapping_add(i)).collect(),
        }
    }

    /// Whether a promotion that told this may have left it so: the output behind
    /// the packed table stands, and the surplus of the work memory; what is needed
    /// of it is zero if a pack was made that cleared it, and else it stands too.
    fn may_become(&self, left: &Lent, told: &GsubPromoted, need: usize) -> bool {
        let length = told.length as usize;
        let cleared = match told.number {
            0 | 10 | 11 => need,
            13 | 15 | 16 => 0,
            // Of the first trial, or of a later one.
            _ if left.work.first() == Some(&0) => need,
            _ => 0,
        };
        left.output[length..] == self.output[length..]
            && left.work[..cleared].iter().all(|&word| word == 0)
            && left.work[cleared..] == self.work[cleared..]
    }
}

impl Pair {
    /// Promotes a table's lookups on both, with an output and a work memory of these
    /// lengths.
    pub fn promote_gsub(
        &mut self,
        scope: Scope,
        limits: (u32, u32),
        table: &[u8],
        (output, work): (usize, usize),
        numbers: &mut Numbers,
    ) -> Outcome {
        self.keep();
        let lent = Lent::any(output, work, numbers);
        let mut left = lent.clone();
        let Lent { output, work } = &mut left;
        let expected = scope.promote(&mut self.reference, limits, table, output, work);
        let (told, proved_left) = self.promote_fenced(scope, limits, table, &lent);
        let line = || shown(limits, table);
        assert_eq!(told, expected, "{}", line());
        assert!(self.proved.same(&self.reference), "stores: {}", line());
        assert!(left.output == proved_left.output, "output: {}", line());
        assert!(left.work == proved_left.work, "work memory: {}", line());
        let (pieces, links) = limits;
        let need = limits::work_need(pieces.into(), links.into(), 0) as usize;
        assert!(lent.may_become(&left, &told, need), "{}", line());
        if told.number != DONE {
            // 13 of a start leaves all as it was.
            self.before.run(&Call::Start { pieces, links });
            let started = self.proved.same(&self.before);
            assert!(started, "refused, and not as started: {}", line());
        }
        self.told[told.number as usize] += 1;
        left.output.truncate(told.length as usize);
        let packed = left.output;
        Outcome { told, packed }
    }

    /// The proved one, whose areas all have fences. Gives what it left of those that
    /// it may write.
    fn promote_fenced(
        &mut self,
        scope: Scope,
        limits: (u32, u32),
        table: &[u8],
        lent: &Lent,
    ) -> (GsubPromoted, Lent) {
        let slice = Fenced::new(table, 0x5f);
        let mut output = Fenced::new(&lent.output, 0x5f);
        let mut work = Fenced::new(&lent.work, 0x5f5f);
        let proved = &mut self.proved;
        let told = proved.promote_gsub(
            scope,
            limits,
            slice.inside(),
            output.inside_mut(),
            work.inside_mut(),
        );
        let fences = slice.stands() && output.stands() && work.stands() && proved.fences_stand();
        let stands = fences && slice.inside() == table;
        assert!(
            stands,
            "a write outside lent memory: {}",
            shown(limits, table)
        );
        let left = Lent {
            output: output.inside().to_vec(),
            work: work.inside().to_vec(),
        };
        (told, left)
    }
}

impl Checked {
    /// Promotes a table's lookups, which begins the session anew.
    pub fn promote_gsub(
        &mut self,
        scope: Scope,
        limits: (u32, u32),
        table: &[u8],
        lengths: (usize, usize),
        numbers: &mut Numbers,
    ) -> Outcome {
        let pair = &mut self.pair;
        let outcome = pair.promote_gsub(scope, limits, table, lengths, numbers);
        let Outcome { told, packed } = &outcome;
        self.claims
            .check_promotion(scope, limits, table, told, packed);
        outcome
    }
}
