//! Readings: a piece's bytes, its fields' places, widths and inner starts, and
//! the reading of each field's child.

use std::collections::hash_map::DefaultHasher;
use std::collections::HashSet;
use std::hash::{Hash, Hasher};
use std::rc::Rc;

#[derive(Clone, Debug)]
pub struct Field {
    pub place: usize,
    pub width: usize,
    pub inner: usize,
    pub child: Rc<Reading>,
}

/// A whole reading. Children are shared, never changed.
#[derive(Debug)]
pub struct Reading {
    bytes: Vec<u8>,
    fields: Vec<Field>,
    /// Follows from the reading, so equal readings have equal marks.
    mark: u64,
}

/// A reading so far, as an open piece has it.
#[derive(Clone, Debug, Default)]
pub struct Draft {
    bytes: Vec<u8>,
    fields: Vec<Field>,
}

impl Draft {
    pub fn put(&mut self, bytes: &[u8]) {
        self.bytes.extend_from_slice(bytes);
    }

    /// Appends a field of zero bytes.
    pub fn link(&mut self, width: usize, inner: usize, child: Rc<Reading>) {
        let place = self.bytes.len();
        self.bytes.resize(place + width, 0);
        self.fields.push(Field {
            place,
            width,
            inner,
            child,
        });
    }

    pub fn size(&self) -> usize {
        self.bytes.len()
    }

    pub fn field_count(&self) -> usize {
        self.fields.len()
    }

    /// Whether a field's child, which lies past the end, is too far from the
    /// field's inner start for its width.
    pub fn hopeless(&self) -> bool {
        self.fields.iter().any(|field| {
            let holds = match field.width {
                2 => 65_535,
                3 => 16_777_215,
                _ => 4_294_967_295,
            };
            self.size() - field.inner > holds
        })
    }

    /// From the first inner start of the fields of width 2 to the end.
    pub fn narrow_reach(&self) -> Option<usize> {
        let narrow = self.fields.iter().filter(|field| field.width == 2);
        narrow.map(|field| self.size() - field.inner).max()
    }

    pub fn finish(&self) -> Rc<Reading> {
        let mut hasher = DefaultHasher::new();
        self.bytes.hash(&mut hasher);
        for field in &self.fields {
            (field.place, field.width, field.inner, field.child.mark).hash(&mut hasher);
        }
        Rc::new(Reading {
            bytes: self.bytes.clone(),
            fields: self.fields.clone(),
            mark: hasher.finish(),
        })
    }
}

impl Reading {
    pub fn bytes(&self) -> &[u8] {
        &self.bytes
    }

    pub fn fields(&self) -> &[Field] {
        &self.fields
    }

    /// A piece's own bytes, fields included, and none of a child's.
    pub fn size(&self) -> usize {
        self.bytes.len()
    }

    pub(crate) fn mark(&self) -> u64 {
        self.mark
    }
}

/// Equal readings agree in everything, the children's readings included.
pub fn same(one: &Rc<Reading>, other: &Rc<Reading>) -> bool {
    let mut pairs = vec![(one, other)];
    while let Some((a, b)) = pairs.pop() {
        if Rc::ptr_eq(a, b) {
            continue;
        }
        let alike = a.mark == b.mark && a.bytes == b.bytes && same_fields(&a.fields, &b.fields);
        if !alike {
            return false;
        }
        let children = a.fields.iter().zip(&b.fields);
        pairs.extend(children.map(|(f, g)| (&f.child, &g.child)));
    }
    true
}

/// Same number of fields, at the same places, of the same widths and inner
/// starts.
fn same_fields(one: &[Field], other: &[Field]) -> bool {
    let shape = |field: &Field| (field.place, field.width, field.inner);
    one.iter().map(shape).eq(other.iter().map(shape))
}

/// Whether a field of a root, or of a piece below it, has an inner start above
/// 0.
pub fn has_inner_start(root: &Rc<Reading>) -> bool {
    let mut met = HashSet::new();
    let mut waiting = vec![root];
    while let Some(reading) = waiting.pop() {
        if !met.insert(Rc::as_ptr(reading)) {
            continue;
        }
        if reading.fields.iter().any(|field| field.inner > 0) {
            return true;
        }
        waiting.extend(reading.fields.iter().map(|field| &field.child));
    }
    false
}

impl Drop for Reading {
    /// Frees a deep reading without deep recursion.
    fn drop(&mut self) {
        let mut freed = std::mem::take(&mut self.fields);
        while let Some(field) = freed.pop() {
            if let Some(mut child) = Rc::into_inner(field.child) {
                freed.append(&mut child.fields);
            }
        }
    }
}
