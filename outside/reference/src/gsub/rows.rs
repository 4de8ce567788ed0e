//! What each kind of table is made of: rows of parts.

use super::{number, Params, Scope, EXTENSION, LONG, SHORT, SINGLE, USE_MARK_FILTERING_SET};

/// A kind of table. Subtables have the type of their lookup, or of the Extension
/// before them.
#[derive(Clone, Copy, Debug, PartialEq, Eq, Hash, PartialOrd, Ord)]
pub enum Kind {
    Header,
    ScriptList,
    Script,
    LangSys,
    FeatureList,
    /// One whose tag calls for no parameters.
    Feature,
    SizeFeature,
    SetFeature,
    VariantFeature,
    SizeParams,
    SetParams,
    VariantParams,
    LookupList,
    Lookup,
    Subtable(u16),
    Sequence,
    AlternateSet,
    LigatureSet,
    Ligature,
    SequenceRuleSet,
    SequenceRule,
    ChainedRuleSet,
    ChainedRule,
    Coverage,
    ClassDef,
    FeatureVariations,
    ConditionSet,
    Condition,
    FeatureTableSubstitution,
}

/// A part of a table.
#[derive(Clone, Copy, Debug, PartialEq)]
pub enum Part {
    /// Two bytes that must be this number.
    Fixed(u16),
    /// Two bytes that must be one of these numbers.
    OneOf(&'static [u16]),
    /// Two bytes.
    Number,
    Tag,
    /// Three bytes.
    Character,
    Offset(Kind),
    /// An offset of four bytes.
    LongOffset(Kind),
    /// An offset, or zero for no child.
    OffsetOrNone(Kind),
    LongOffsetOrNone(Kind),
    /// An offset to a feature of the kind that the tag before it calls for.
    TaggedFeature,
    /// An offset to a subtable of the type that the table begins with.
    OwnSubtable,
    /// An offset of four bytes to a subtable of the type that stands before it.
    ExtendedSubtable,
    /// A number, and then these parts as many times.
    Repeated(&'static [Part]),
    /// The same, but one time fewer.
    RepeatedLess(&'static [Part]),
    /// These parts as often as the number at this place of the table says.
    Times(usize, &'static [Part]),
    TimesLess(usize, &'static [Part]),
}

use Kind::*;
use Part::*;

const NUMBERS: Part = Repeated(&[Number]);
const RANGES: Part = Repeated(&[Number, Number, Number]);
const COVERAGES: Part = Repeated(&[Offset(Coverage)]);
const RECORD: &[Part] = &[Number, Number];
const SUBTABLES: Part = Repeated(&[OwnSubtable]);

const SINGLE_LOOKUPS: Part = OneOf(&[SINGLE, EXTENSION]);
const ALL_LOOKUPS: Part = OneOf(&[1, 2, 3, 4, 5, 6, EXTENSION, 8]);
const EXTENDED: Part = OneOf(&[1, 2, 3, 4, 5, 6, 8]);

impl Part {
    /// Bytes of the field that it begins with.
    pub fn width(self) -> usize {
        match self {
            Times(..) | TimesLess(..) => 0,
            Character => 3,
            Tag | LongOffset(_) | LongOffsetOrNone(_) | ExtendedSubtable => LONG,
            _ => SHORT,
        }
    }
}

impl Kind {
    /// A feature by what its tag calls for.
    pub fn feature(params: Params) -> Kind {
        match params {
            Params::None => Feature,
            Params::Size => SizeFeature,
            Params::StylisticSet => SetFeature,
            Params::CharacterVariant => VariantFeature,
        }
    }

    /// The parts of the table of this kind at a place. Versions, formats and the
    /// lookup flag decide what follows them.
    pub fn parts(self, scope: Scope, slice: &[u8], place: usize) -> Option<&'static [Part]> {
        let at = |further| number(slice, place + further);
        Some(match self {
            Header => header(scope, at(2)?),
            Lookup => lookup(scope, at(2)? & USE_MARK_FILTERING_SET != 0),
            Subtable(EXTENSION) => extension(scope),
            Subtable(kind) => subtable(kind, at(0)?),
            Coverage if at(0)? == 1 => &[Fixed(1), NUMBERS],
            Coverage => &[Fixed(2), RANGES],
            ClassDef if at(0)? == 1 => &[Fixed(1), Number, NUMBERS],
            ClassDef => &[Fixed(2), RANGES],
            _ => self.plain_parts(),
        })
    }

    /// Those that are always the same.
    fn plain_parts(self) -> &'static [Part] {
        match self {
            ScriptList => &[Repeated(&[Tag, Offset(Script)])],
            Script => &[OffsetOrNone(LangSys), Repeated(&[Tag, Offset(LangSys)])],
            LangSys => &[Fixed(0), Number, NUMBERS],
            FeatureList => &[Repeated(&[Tag, TaggedFeature])],
            Feature => &[Fixed(0), NUMBERS],
            SizeFeature => &[OffsetOrNone(SizeParams), NUMBERS],
            SetFeature => &[OffsetOrNone(SetParams), NUMBERS],
            VariantFeature => &[OffsetOrNone(VariantParams), NUMBERS],
            SizeParams => &[Number; 5],
            SetParams => &[Fixed(0), Number],
            VariantParams => VARIANT_PARAMS,
            LookupList => &[Repeated(&[Offset(Lookup)])],
            Sequence | AlternateSet => &[NUMBERS],
            LigatureSet => &[Repeated(&[Offset(Ligature)])],
            Ligature => &[Number, RepeatedLess(&[Number])],
            SequenceRuleSet => &[Repeated(&[Offset(SequenceRule)])],
            SequenceRule => &[Number, Number, TimesLess(0, &[Number]), Times(2, RECORD)],
            ChainedRuleSet => &[Repeated(&[Offset(ChainedRule)])],
            ChainedRule => &[NUMBERS, RepeatedLess(&[Number]), NUMBERS, Repeated(RECORD)],
            FeatureVariations => FEATURE_VARIATIONS,
            ConditionSet => &[Repeated(&[LongOffset(Condition)])],
            Condition => &[Fixed(1), Number, Number, Number],
            FeatureTableSubstitution => &[Fixed(1), Fixed(0), ALTERNATES],
            _ => &[],
        }
    }
}

const VARIANT_PARAMS: &[Part] = &[
    Fixed(0),
    Number,
    Number,
    Number,
    Number,
    Number,
    Repeated(&[Character]),
];
const FEATURE_VARIATIONS: &[Part] = &[
    Fixed(1),
    Fixed(0),
    // Of the count's four bytes the upper two.
    Fixed(0),
    Repeated(&[
        LongOffset(ConditionSet),
        LongOffset(FeatureTableSubstitution),
    ]),
];
const ALTERNATES: Part = Repeated(&[Number, LongOffset(Feature)]);

fn header(scope: Scope, minor: u16) -> &'static [Part] {
    const LISTS: [Part; 3] = [Offset(ScriptList), Offset(FeatureList), Offset(LookupList)];
    const VARIATIONS: Part = LongOffsetOrNone(FeatureVariations);
    match (scope, minor) {
        (Scope::Whole, 1) => &[Fixed(1), Fixed(1), LISTS[0], LISTS[1], LISTS[2], VARIATIONS],
        _ => &[Fixed(1), Fixed(0), LISTS[0], LISTS[1], LISTS[2]],
    }
}

fn lookup(scope: Scope, filtered: bool) -> &'static [Part] {
    match (scope, filtered) {
        (Scope::Single, false) => &[SINGLE_LOOKUPS, Number, SUBTABLES],
        (Scope::Single, true) => &[SINGLE_LOOKUPS, Number, SUBTABLES, Number],
        (Scope::Whole, false) => &[ALL_LOOKUPS, Number, SUBTABLES],
        (Scope::Whole, true) => &[ALL_LOOKUPS, Number, SUBTABLES, Number],
    }
}

fn extension(scope: Scope) -> &'static [Part] {
    match scope {
        Scope::Single => &[Fixed(1), Fixed(SINGLE), ExtendedSubtable],
        Scope::Whole => &[Fixed(1), EXTENDED, ExtendedSubtable],
    }
}

/// By type and format.
fn subtable(kind: u16, format: u16) -> &'static [Part] {
    match (kind, format) {
        (1, 1) => &[Fixed(1), Offset(Coverage), Number],
        (1, _) => &[Fixed(2), Offset(Coverage), NUMBERS],
        (2, _) => &[Fixed(1), Offset(Coverage), Repeated(&[Offset(Sequence)])],
        (3, _) => &[
            Fixed(1),
            Offset(Coverage),
            Repeated(&[Offset(AlternateSet)]),
        ],
        (4, _) => &[Fixed(1), Offset(Coverage), Repeated(&[Offset(LigatureSet)])],
        (5, _) => context(format),
        (6, _) => chained_context(format),
        _ => &[Fixed(1), Offset(Coverage), COVERAGES, COVERAGES, NUMBERS],
    }
}

fn context(format: u16) -> &'static [Part] {
    const SETS: Part = Repeated(&[OffsetOrNone(SequenceRuleSet)]);
    match format {
        1 => &[Fixed(1), Offset(Coverage), SETS],
        2 => &[Fixed(2), Offset(Coverage), Offset(ClassDef), SETS],
        _ => &[
            Fixed(3),
            Number,
            Number,
            Times(2, &[Offset(Coverage)]),
            Times(4, RECORD),
        ],
    }
}

fn chained_context(format: u16) -> &'static [Part] {
    const SETS: Part = Repeated(&[OffsetOrNone(ChainedRuleSet)]);
    match format {
        1 => &[Fixed(1), Offset(Coverage), SETS],
        2 => &[
            Fixed(2),
            Offset(Coverage),
            OffsetOrNone(ClassDef),
            Offset(ClassDef),
            OffsetOrNone(ClassDef),
            SETS,
        ],
        _ => &[Fixed(3), COVERAGES, COVERAGES, COVERAGES, Repeated(RECORD)],
    }
}
