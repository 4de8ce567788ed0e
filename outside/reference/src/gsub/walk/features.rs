//! The header, scripts and features.

use super::{Kind, Params, Step, Table, Walk};

/// Numbers behind the first of a character variant's parameters, up to its count.
const VARIANT_NAMES: u16 = 5;
/// Numbers of the parameters of 'size'.
const SIZE_NUMBERS: u16 = 5;
/// Numbers behind a condition's format: an axis, and two ends.
const CONDITION_NUMBERS: u16 = 3;

impl Walk<'_> {
    pub(super) fn header(&mut self, table: &mut Table) -> Step<()> {
        let scope = self.scope;
        self.one(table)?;
        let minor = self.judged(table, |minor| scope.has_minor(minor))?;
        self.offset(table, Kind::ScriptList)?;
        self.offset(table, Kind::FeatureList)?;
        self.offset(table, Kind::LookupList)?;
        if minor == 1 {
            self.long_offset_or_none(table, Kind::FeatureVariations)?;
        }
        Ok(())
    }

    pub(super) fn script(&mut self, table: &mut Table) -> Step<()> {
        // There may be no default one.
        self.offset_or_none(table, Kind::LangSys)?;
        self.tagged(table, |_| Kind::LangSys)
    }

    pub(super) fn lang_sys(&mut self, table: &mut Table) -> Step<()> {
        self.zero(table)?; // lookup order
        let _required_feature = self.plain(table)?;
        self.counted(table)
    }

    pub(super) fn feature_list(&mut self, table: &mut Table) -> Step<()> {
        let scope = self.scope;
        self.tagged(table, |tag| Kind::Feature(scope.params(tag)))
    }

    pub(super) fn feature(&mut self, table: &mut Table, params: Params) -> Step<()> {
        match params {
            Params::None => self.zero(table)?,
            _ => self.offset_or_none(table, Kind::Parameters(params))?,
        }
        self.counted(table)
    }

    pub(super) fn parameters(&mut self, table: &mut Table, params: Params) -> Step<()> {
        match params {
            Params::None => Ok(()),
            Params::Size => self.numbers(table, SIZE_NUMBERS),
            Params::StylisticSet => {
                self.zero(table)?;
                let _name = self.plain(table)?;
                Ok(())
            }
            Params::CharacterVariant => {
                self.zero(table)?;
                self.numbers(table, VARIANT_NAMES)?;
                let count = self.plain(table)?;
                self.characters(table, count)
            }
        }
    }

    pub(super) fn feature_variations(&mut self, table: &mut Table) -> Step<()> {
        self.version_1_0(table)?;
        self.zero(table)?; // upper half
        for _ in 0..self.plain(table)? {
            self.long_offset(table, Kind::ConditionSet)?;
            self.long_offset(table, Kind::FeatureSubstitution)?;
        }
        Ok(())
    }

    pub(super) fn condition_set(&mut self, table: &mut Table) -> Step<()> {
        for _ in 0..self.plain(table)? {
            self.long_offset(table, Kind::Condition)?;
        }
        Ok(())
    }

    pub(super) fn condition(&mut self, table: &mut Table) -> Step<()> {
        self.one(table)?;
        self.numbers(table, CONDITION_NUMBERS)
    }

    pub(super) fn feature_substitution(&mut self, table: &mut Table) -> Step<()> {
        self.version_1_0(table)?;
        for _ in 0..self.plain(table)? {
            let _feature = self.plain(table)?;
            self.long_offset(table, Kind::Feature(Params::None))?;
        }
        Ok(())
    }

    fn version_1_0(&mut self, table: &mut Table) -> Step<()> {
        self.one(table)?;
        self.zero(table)
    }
}
