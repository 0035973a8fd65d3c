//! The values of a report, under the names of deno_graph's src/analysis.rs and src/graph.rs.

use std::collections::HashMap;

/// What a module asks for.
#[derive(Debug, Default, Clone, PartialEq, Eq)]
pub struct ModuleInfo {
    /// Whether nothing makes it an ES module for sure.
    pub is_script: bool,
    pub dependencies: Vec<DependencyDescriptor>,
    /// Triple-slash references.
    pub ts_references: Vec<TypeScriptReference>,
    /// The pragma `@ts-self-types`.
    pub self_types_specifier: Option<SpecifierWithRange>,
    /// The pragma `@jsxImportSource`.
    pub jsx_import_source: Option<SpecifierWithRange>,
    /// The pragma `@jsxImportSourceTypes`.
    pub jsx_import_source_types: Option<SpecifierWithRange>,
    /// Imports of types in JSDoc comments, ascending by the start of their places.
    pub jsdoc_imports: Vec<JsDocImportInfo>,
    /// The comment `sourceMappingURL`.
    pub source_map_url: Option<SpecifierWithRange>,
}

#[derive(Debug, Clone, PartialEq, Eq)]
pub enum DependencyDescriptor {
    Static(StaticDependencyDescriptor),
    Dynamic(DynamicDependencyDescriptor),
}

impl DependencyDescriptor {
    pub fn as_static(&self) -> Option<&StaticDependencyDescriptor> {
        match self {
            Self::Static(d) => Some(d),
            Self::Dynamic(_) => None,
        }
    }

    pub fn as_dynamic(&self) -> Option<&DynamicDependencyDescriptor> {
        match self {
            Self::Static(_) => None,
            Self::Dynamic(d) => Some(d),
        }
    }

    pub fn types_specifier(&self) -> Option<&SpecifierWithRange> {
        match self {
            Self::Static(d) => d.types_specifier.as_ref(),
            Self::Dynamic(d) => d.types_specifier.as_ref(),
        }
    }

    pub fn import_attributes(&self) -> &ImportAttributes {
        match self {
            Self::Static(d) => &d.import_attributes,
            Self::Dynamic(d) => &d.import_attributes,
        }
    }
}

#[derive(Debug, Clone, PartialEq, Eq)]
pub struct StaticDependencyDescriptor {
    pub kind: StaticDependencyKind,
    /// What a pragma says of its types.
    pub types_specifier: Option<SpecifierWithRange>,
    pub specifier: String,
    pub specifier_range: PositionRange,
    pub is_side_effect: bool,
    pub import_attributes: ImportAttributes,
}

#[derive(Debug, Clone, Copy, PartialEq, Eq)]
pub enum StaticDependencyKind {
    Import,
    ImportDefer,
    ImportSource,
    ImportType,
    ImportEquals,
    Export,
    ExportType,
    ExportEquals,
    MaybeTsModuleAugmentation,
}

#[derive(Debug, Clone, PartialEq, Eq)]
pub struct DynamicDependencyDescriptor {
    pub kind: DynamicDependencyKind,
    /// What a pragma says of its types.
    pub types_specifier: Option<SpecifierWithRange>,
    pub argument: DynamicArgument,
    pub argument_range: PositionRange,
    pub import_attributes: ImportAttributes,
}

#[derive(Debug, Default, Clone, Copy, PartialEq, Eq)]
pub enum DynamicDependencyKind {
    #[default]
    Import,
    ImportDefer,
    ImportSource,
    Require,
}

#[derive(Debug, Default, Clone, PartialEq, Eq)]
pub enum DynamicArgument {
    String(String),
    Template(Vec<DynamicTemplatePart>),
    /// An expression that cannot be analyzed.
    #[default]
    Expr,
}

#[derive(Debug, Clone, PartialEq, Eq)]
pub enum DynamicTemplatePart {
    String {
        value: String,
    },
    /// An expression that cannot be analyzed.
    Expr,
}

#[derive(Debug, Default, Clone, PartialEq, Eq)]
pub enum ImportAttributes {
    /// There is no object of attributes.
    #[default]
    None,
    /// The keys cannot be analyzed.
    Unknown,
    /// The keys are known; a value may be unknown.
    Known(HashMap<String, ImportAttribute>),
}

impl ImportAttributes {
    pub fn is_none(&self) -> bool {
        matches!(self, ImportAttributes::None)
    }

    /// The value of a key, where both are known.
    pub fn get(&self, key: &str) -> Option<&str> {
        match self {
            ImportAttributes::Known(map) => match map.get(key)? {
                ImportAttribute::Known(value) => Some(value),
                ImportAttribute::Unknown => None,
            },
            _ => None,
        }
    }
}

#[derive(Debug, Clone, PartialEq, Eq)]
pub enum ImportAttribute {
    /// The value cannot be analyzed.
    Unknown,
    Known(String),
}

#[derive(Debug, Clone, PartialEq, Eq)]
pub enum TypeScriptReference {
    Path(SpecifierWithRange),
    Types { specifier: SpecifierWithRange, resolution_mode: Option<TypeScriptTypesResolutionMode> },
}

impl TypeScriptReference {
    pub fn specifier(&self) -> &SpecifierWithRange {
        match self {
            Self::Path(specifier) | Self::Types { specifier, .. } => specifier,
        }
    }
}

#[derive(Debug, Clone, PartialEq, Eq)]
pub struct JsDocImportInfo {
    pub specifier: SpecifierWithRange,
    pub resolution_mode: Option<TypeScriptTypesResolutionMode>,
}

#[derive(Debug, Clone, Copy, PartialEq, Eq)]
pub enum TypeScriptTypesResolutionMode {
    Require,
    Import,
}

/// A text, and the place where the source has it.
#[derive(Debug, Clone, PartialEq, Eq)]
pub struct SpecifierWithRange {
    pub text: String,
    pub range: PositionRange,
}

#[derive(Debug, Default, Clone, Copy, PartialEq, Eq, PartialOrd, Ord, Hash)]
pub struct PositionRange {
    pub start: Position,
    pub end: Position,
}

/// A line and a column in it, both from 0. A line ends at LF; a column counts characters.
#[derive(Debug, Default, Clone, Copy, PartialEq, Eq, PartialOrd, Ord, Hash)]
pub struct Position {
    pub line: usize,
    pub character: usize,
}
