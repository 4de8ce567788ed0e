//! The way of a read: each table's fields one by one, each offset followed as
//! soon as it is read.

mod contexts;
mod features;
mod fields;
mod lookups;
mod subtables;

use super::{Params, Scope};
use crate::answer::{Answer, DONE, UNREADABLE};
use crate::call::Call;

/// Why a read ends early, and for a field that cannot be read its place.
pub struct Refusal {
    pub number: u64,
    pub place: u64,
}

type Step<T> = Result<T, Refusal>;

/// A slice, and what carries out the calls of its session.
pub struct Walk<'a> {
    pub scope: Scope,
    pub slice: &'a [u8],
    /// How many of the last lookups are promoted.
    pub promoted: u16,
    pub run: &'a mut dyn FnMut(&Call) -> Answer,
}

/// A table that is being read: where it begins, and where its next field does.
struct Table {
    begin: usize,
    next: usize,
}

/// What an offset leads to. Subtables, and new Extensions to them, have a type.
#[derive(Clone, Copy)]
enum Kind {
    Header,
    ScriptList,
    Script,
    LangSys,
    FeatureList,
    Feature(Params),
    Parameters(Params),
    FeatureVariations,
    ConditionSet,
    Condition,
    FeatureSubstitution,
    LookupList,
    Lookup,
    PromotedLookup,
    NewExtension(u16),
    Subtable(u16),
    Glyphs,
    LigatureSet,
    Ligature,
    RuleSet,
    Rule,
    ChainedRuleSet,
    ChainedRule,
    Coverage,
    ClassDef,
}

impl Walk<'_> {
    /// The header, and all that it leads to: gives the id of its piece.
    pub fn whole(mut self) -> Step<u32> {
        self.table(Kind::Header, 0)
    }

    /// A table, and all that it leads to.
    fn table(&mut self, kind: Kind, begin: usize) -> Step<u32> {
        self.call(&Call::Open)?;
        let next = begin;
        self.fields(kind, &mut Table { begin, next })?;
        self.call(&Call::Close).map(|closed| closed.id as u32)
    }

    fn fields(&mut self, kind: Kind, table: &mut Table) -> Step<()> {
        match kind {
            Kind::Header => self.header(table),
            Kind::ScriptList => self.tagged(table, |_| Kind::Script),
            Kind::Script => self.script(table),
            Kind::LangSys => self.lang_sys(table),
            Kind::FeatureList => self.feature_list(table),
            Kind::Feature(params) => self.feature(table, params),
            Kind::Parameters(params) => self.parameters(table, params),
            Kind::FeatureVariations => self.feature_variations(table),
            Kind::ConditionSet => self.condition_set(table),
            Kind::Condition => self.condition(table),
            Kind::FeatureSubstitution => self.feature_substitution(table),
            Kind::LookupList => self.lookup_list(table),
            Kind::Lookup => self.lookup(table),
            Kind::PromotedLookup => self.promoted_lookup(table),
            Kind::NewExtension(kind) => self.new_extension(table, kind),
            Kind::Subtable(kind) => self.subtable(table, kind),
            Kind::Glyphs => self.counted(table),
            Kind::LigatureSet => self.counted_offsets(table, Kind::Ligature),
            Kind::Ligature => self.ligature(table),
            Kind::RuleSet => self.counted_offsets(table, Kind::Rule),
            Kind::Rule => self.rule(table),
            Kind::ChainedRuleSet => self.counted_offsets(table, Kind::ChainedRule),
            Kind::ChainedRule => self.chained_rule(table),
            Kind::Coverage => self.coverage(table),
            Kind::ClassDef => self.class_def(table),
        }
    }

    fn put(&mut self, field: &[u8]) -> Step<()> {
        self.call(&Call::Put(field.to_vec())).map(|_| ())
    }

    fn link(&mut self, width: usize, id: u32) -> Step<()> {
        let (width, inner) = (width as u32, 0);
        self.call(&Call::Link { width, id, inner }).map(|_| ())
    }

    fn call(&mut self, call: &Call) -> Step<Answer> {
        let told = (self.run)(call);
        match told.number {
            DONE => Ok(told),
            number => Err(Refusal { number, place: 0 }),
        }
    }
}

fn unreadable(place: usize) -> Refusal {
    Refusal {
        number: UNREADABLE,
        place: place as u64,
    }
}
