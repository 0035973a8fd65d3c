//! The decoder of reports (document 01, "Report").

use std::collections::HashMap;
use std::fmt;

use crate::analysis::*;
use crate::rules::{EntryRule, Origin};

/// Why bytes are no report, and at which byte.
#[derive(Debug, Clone, Copy, PartialEq, Eq)]
pub struct DecodeError {
    pub at: usize,
    pub problem: Problem,
}

#[derive(Debug, Clone, Copy, PartialEq, Eq)]
pub enum Problem {
    /// The report ends inside a field.
    CutOff,
    /// A number is not shortest or over 4,294,967,295.
    Number,
    /// A byte or flag is outside its stated values.
    Byte,
    /// A text is not UTF-8.
    Text,
    /// The keys of attributes do not ascend.
    Keys,
    /// Bytes follow the report.
    Trailing,
}

impl fmt::Display for DecodeError {
    fn fmt(&self, f: &mut fmt::Formatter) -> fmt::Result {
        let problem = match self.problem {
            Problem::CutOff => "the report is cut off",
            Problem::Number => "a number is not shortest or too large",
            Problem::Byte => "a byte or flag is outside its stated values",
            Problem::Text => "a text is not UTF-8",
            Problem::Keys => "the keys of attributes do not ascend",
            Problem::Trailing => "bytes follow the report",
        };
        write!(f, "byte {}: {problem}", self.at)
    }
}

impl std::error::Error for DecodeError {}

type Read<T> = Result<T, DecodeError>;

impl ModuleInfo {
    /// Decodes a report: the bytes of the buffer up to the length that [`module_info`](crate::module_info) answers.
    ///
    /// ```
    /// use module_info::{ModuleInfo, Problem};
    ///
    /// let info = ModuleInfo::decode(&[1, 0, 0, 0, 0, 0, 0, 0])?;
    /// assert_eq!(info, ModuleInfo { is_script: true, ..ModuleInfo::default() });
    /// assert_eq!(ModuleInfo::decode(&[1, 0, 0]).unwrap_err().problem, Problem::CutOff);
    /// # Ok::<(), module_info::DecodeError>(())
    /// ```
    pub fn decode(report: &[u8]) -> Result<ModuleInfo, DecodeError> {
        let mut r = Reader { bytes: report, at: 0 };
        let info = ModuleInfo {
            is_script: r.flag()?,
            dependencies: r.list(Reader::dependency)?,
            ts_references: r.list(Reader::reference)?,
            self_types_specifier: r.optional(Reader::specifier)?,
            jsx_import_source: r.optional(Reader::specifier)?,
            jsx_import_source_types: r.optional(Reader::specifier)?,
            jsdoc_imports: r.list(Reader::jsdoc_import)?,
            source_map_url: r.optional(Reader::specifier)?,
        };
        if r.at < report.len() { Err(r.problem(Problem::Trailing)) } else { Ok(info) }
    }
}

impl Origin {
    /// Decodes the rules of a report's entries: the bytes of the second buffer up to the length that
    /// [`module_info_with_rules`](crate::module_info_with_rules) answers. One for each of [`ModuleInfo::from_comments`].
    ///
    /// ```
    /// use module_info::{EntryRule, Origin, Problem};
    ///
    /// let origins = Origin::decode_all(&[1, 0, 10, 128, 1])?;
    /// assert_eq!(origins, [Origin { rule: EntryRule::Path, offset: 0 }, Origin { rule: EntryRule::DenoTypes, offset: 128 }]);
    /// assert_eq!(Origin::decode_all(&[11, 0]).unwrap_err().problem, Problem::Byte);
    /// assert_eq!(Origin::decode_all(&[1, 128]).unwrap_err().problem, Problem::CutOff);
    /// # Ok::<(), module_info::DecodeError>(())
    /// ```
    pub fn decode_all(rules: &[u8]) -> Result<Vec<Origin>, DecodeError> {
        let mut r = Reader { bytes: rules, at: 0 };
        let mut all = Vec::new();
        while r.at < rules.len() {
            let error = r.problem(Problem::Byte);
            let rule = EntryRule::from_number(r.byte()?).ok_or(error)?;
            all.push(Origin { rule, offset: r.number()? });
        }
        Ok(all)
    }
}

struct Reader<'a> {
    bytes: &'a [u8],
    at: usize,
}

impl<'a> Reader<'a> {
    fn problem(&self, problem: Problem) -> DecodeError {
        DecodeError { at: self.at, problem }
    }

    // ---- fields ----

    fn byte(&mut self) -> Read<u8> {
        let b = *self.bytes.get(self.at).ok_or(self.problem(Problem::CutOff))?;
        self.at += 1;
        Ok(b)
    }

    fn byte_up_to(&mut self, last: u8) -> Read<u8> {
        let error = self.problem(Problem::Byte);
        let b = self.byte()?;
        if b <= last { Ok(b) } else { Err(error) }
    }

    fn flag(&mut self) -> Read<bool> {
        Ok(self.byte_up_to(1)? == 1)
    }

    fn number(&mut self) -> Read<usize> {
        let error = self.problem(Problem::Number);
        let mut value = 0u64;
        for group in 0..5 {
            let b = self.byte()?;
            value |= u64::from(b & 0x7F) << (7 * group);
            if b < 0x80 {
                let is_shortest = group == 0 || b != 0;
                return match u32::try_from(value) {
                    Ok(value) if is_shortest => Ok(value as usize),
                    _ => Err(error),
                };
            }
        }
        Err(error)
    }

    fn str(&mut self) -> Read<&'a str> {
        let n = self.number()?;
        let rest = &self.bytes[self.at..];
        let text = rest.get(..n).ok_or(DecodeError { at: self.bytes.len(), problem: Problem::CutOff })?;
        let text = std::str::from_utf8(text).map_err(|e| DecodeError { at: self.at + e.valid_up_to(), problem: Problem::Text })?;
        self.at += n;
        Ok(text)
    }

    fn text(&mut self) -> Read<String> {
        Ok(self.str()?.to_string())
    }

    fn list<T>(&mut self, item: impl Fn(&mut Self) -> Read<T>) -> Read<Vec<T>> {
        let n = self.number()?;
        // every item has a byte, so a wrong count ends at the end of the report
        (0..n).map(|_| item(self)).collect()
    }

    fn optional<T>(&mut self, item: impl Fn(&mut Self) -> Read<T>) -> Read<Option<T>> {
        if self.flag()? { item(self).map(Some) } else { Ok(None) }
    }

    // ---- places ----

    fn position(&mut self) -> Read<Position> {
        Ok(Position { line: self.number()?, character: self.number()? })
    }

    fn range(&mut self) -> Read<PositionRange> {
        Ok(PositionRange { start: self.position()?, end: self.position()? })
    }

    fn specifier(&mut self) -> Read<SpecifierWithRange> {
        Ok(SpecifierWithRange { text: self.text()?, range: self.range()? })
    }

    fn mode(&mut self) -> Read<Option<TypeScriptTypesResolutionMode>> {
        Ok(match self.byte_up_to(2)? {
            0 => None,
            1 => Some(TypeScriptTypesResolutionMode::Import),
            _ => Some(TypeScriptTypesResolutionMode::Require),
        })
    }

    // ---- entries ----

    fn reference(&mut self) -> Read<TypeScriptReference> {
        Ok(match self.byte_up_to(1)? {
            0 => TypeScriptReference::Path(self.specifier()?),
            _ => TypeScriptReference::Types { specifier: self.specifier()?, resolution_mode: self.mode()? },
        })
    }

    fn jsdoc_import(&mut self) -> Read<JsDocImportInfo> {
        let error = self.problem(Problem::Byte);
        if self.byte()? != 1 {
            return Err(error);
        }
        Ok(JsDocImportInfo { specifier: self.specifier()?, resolution_mode: self.mode()? })
    }

    fn dependency(&mut self) -> Read<DependencyDescriptor> {
        use DynamicDependencyKind as Dynamic;
        use StaticDependencyKind as Static;
        match self.byte_up_to(12)? {
            0 => self.static_dependency(Static::Import),
            1 => self.static_dependency(Static::ImportDefer),
            2 => self.static_dependency(Static::ImportSource),
            3 => self.static_dependency(Static::ImportType),
            4 => self.static_dependency(Static::ImportEquals),
            5 => self.static_dependency(Static::Export),
            6 => self.static_dependency(Static::ExportType),
            7 => self.static_dependency(Static::ExportEquals),
            8 => self.static_dependency(Static::MaybeTsModuleAugmentation),
            9 => self.dynamic_dependency(Dynamic::Import),
            10 => self.dynamic_dependency(Dynamic::ImportDefer),
            11 => self.dynamic_dependency(Dynamic::ImportSource),
            _ => self.dynamic_dependency(Dynamic::Require),
        }
    }

    fn static_dependency(&mut self, kind: StaticDependencyKind) -> Read<DependencyDescriptor> {
        Ok(DependencyDescriptor::Static(StaticDependencyDescriptor {
            kind,
            types_specifier: self.optional(Self::specifier)?,
            specifier: self.text()?,
            specifier_range: self.range()?,
            is_side_effect: self.flag()?,
            import_attributes: self.attributes()?,
        }))
    }

    fn dynamic_dependency(&mut self, kind: DynamicDependencyKind) -> Read<DependencyDescriptor> {
        Ok(DependencyDescriptor::Dynamic(DynamicDependencyDescriptor {
            kind,
            types_specifier: self.optional(Self::specifier)?,
            argument: self.argument()?,
            argument_range: self.range()?,
            import_attributes: self.attributes()?,
        }))
    }

    fn argument(&mut self) -> Read<DynamicArgument> {
        Ok(match self.byte_up_to(2)? {
            0 => DynamicArgument::Expr,
            1 => DynamicArgument::String(self.text()?),
            _ => DynamicArgument::Template(self.list(|r| {
                Ok(match r.optional(Self::text)? {
                    None => DynamicTemplatePart::Expr,
                    Some(value) => DynamicTemplatePart::String { value },
                })
            })?),
        })
    }

    fn attributes(&mut self) -> Read<ImportAttributes> {
        Ok(match self.byte_up_to(2)? {
            0 => ImportAttributes::None,
            1 => ImportAttributes::Unknown,
            _ => {
                let n = self.number()?;
                let mut map = HashMap::new();
                let mut last = None;
                for _ in 0..n {
                    let error = self.problem(Problem::Keys);
                    let key = self.str()?;
                    if last >= Some(key) {
                        return Err(error);
                    }
                    last = Some(key);
                    let value = match self.optional(Self::text)? {
                        None => ImportAttribute::Unknown,
                        Some(text) => ImportAttribute::Known(text),
                    };
                    map.insert(key.to_string(), value);
                }
                ImportAttributes::Known(map)
            }
        })
    }
}
