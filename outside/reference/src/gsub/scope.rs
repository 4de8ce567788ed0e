//! Which tables are read.

use super::{Params, EXTENSION, SINGLE};

#[derive(Clone, Copy, Debug, PartialEq, Eq, Hash)]
pub enum Scope {
    /// Version 1.0, single substitution alone, and no parameters.
    Single,
    /// Versions 1.0 and 1.1, every type of lookup, and parameters.
    Whole,
}

/// The last type of lookups.
const REVERSE_CHAIN: u16 = 8;

impl Scope {
    /// Of version 1.
    pub(super) fn has_minor(self, minor: u16) -> bool {
        minor == 0 || (minor == 1 && self == Scope::Whole)
    }

    /// Whether subtables of a type are read, which may stand behind an Extension.
    pub(super) fn has_subtable(self, kind: u16) -> bool {
        match self {
            Scope::Single => kind == SINGLE,
            Scope::Whole => (SINGLE..=REVERSE_CHAIN).contains(&kind) && kind != EXTENSION,
        }
    }

    pub(super) fn has_lookup(self, kind: u16) -> bool {
        kind == EXTENSION || self.has_subtable(kind)
    }

    /// The parameters that a feature's tag calls for.
    pub(super) fn params(self, tag: &[u8]) -> Params {
        match self {
            Scope::Single => Params::None,
            Scope::Whole => Params::of_tag(tag),
        }
    }
}
