//! A table's parts, and how they are laid out.

use crate::Numbers;

/// A table, and its offsets to others.
#[derive(Clone, Default)]
pub struct Part {
    pub bytes: Vec<u8>,
    leads: Vec<Lead>,
    /// Bytes that its last count counts and that are not its own: what lies behind
    /// it is read as its end.
    pub tail: usize,
}

/// An offset of so many bytes at a place, and the part that it leads to.
#[derive(Clone, Copy)]
struct Lead {
    field: usize,
    width: usize,
    child: usize,
}

impl Part {
    pub fn of(numbers: &[u16]) -> Part {
        let bytes = numbers.iter().flat_map(|n| n.to_be_bytes()).collect();
        Part {
            bytes,
            ..Part::default()
        }
    }

    pub fn put(&mut self, number: u16) {
        self.bytes.extend(number.to_be_bytes());
    }

    pub fn put_all(&mut self, numbers: &[u16]) {
        numbers.iter().for_each(|&number| self.put(number));
    }

    pub fn lead(&mut self, part: usize) {
        self.lead_by(2, part);
    }

    /// By an offset of so many bytes.
    pub fn lead_by(&mut self, width: usize, child: usize) {
        let field = self.bytes.len();
        self.leads.push(Lead {
            field,
            width,
            child,
        });
        self.bytes.resize(field + width, 0);
    }
}

/// What the last part reaches, each part behind all that lead to it, and now and
/// then a few bytes that nothing leads to. Behind them all the fill that is read as
/// the end of parts that have a tail.
pub fn laid_out(parts: &[Part], numbers: &mut Numbers) -> Vec<u8> {
    let (mut table, end) = without_fill(parts, numbers);
    if end > table.len() {
        let byte = numbers.next() as u8;
        let fill = (table.len()..end).map(|at| byte.wrapping_add(at as u8));
        table.extend(fill);
    }
    table
}

/// The parts, and where the last tail ends.
fn without_fill(parts: &[Part], numbers: &mut Numbers) -> (Vec<u8>, usize) {
    let mut waiting = vec![0; parts.len()];
    let reached = reached(parts);
    for &part in &reached {
        for &Lead { child, .. } in &parts[part].leads {
            waiting[child] += 1;
        }
    }
    let (mut places, mut table) = (vec![0; parts.len()], Vec::new());
    let mut ready = vec![parts.len() - 1];
    while !ready.is_empty() {
        let part = ready.swap_remove(numbers.below(ready.len()));
        places[part] = table.len();
        table.extend(&parts[part].bytes);
        if numbers.below(6) == 0 {
            table.extend(vec![0x77; numbers.below(4)]);
        }
        for &Lead { child, .. } in &parts[part].leads {
            waiting[child] -= 1;
            if waiting[child] == 0 {
                ready.push(child);
            }
        }
    }
    for &part in &reached {
        for lead in &parts[part].leads {
            let at = places[part] + lead.field;
            let offset = (places[lead.child] - places[part]).to_be_bytes();
            let width = lead.width;
            table[at..at + width].copy_from_slice(&offset[offset.len() - width..]);
        }
    }
    let end = |&part: &usize| places[part] + parts[part].bytes.len() + parts[part].tail;
    let end = reached.iter().map(end).max();
    (table, end.unwrap_or(0))
}

/// The last part, and those that reached ones lead to.
fn reached(parts: &[Part]) -> Vec<usize> {
    let mut is_reached = vec![false; parts.len()];
    is_reached[parts.len() - 1] = true;
    // A part leads to earlier ones.
    for part in (0..parts.len()).rev() {
        if is_reached[part] {
            for &Lead { child, .. } in &parts[part].leads {
                is_reached[child] = true;
            }
        }
    }
    (0..parts.len()).filter(|&part| is_reached[part]).collect()
}
