//! The crate's own src/analysis.rs, src/ast/mod.rs and src/ast/dep.rs, unchanged, among what they ask for of the rest of the crate.
//! tools/oracle/build puts the three beside this file.
#![allow(dead_code, unreachable_code, unused_variables)]

pub mod analysis;
pub mod ast;

pub use module_specifier::ModuleSpecifier;

pub mod module_specifier {
    pub use deno_ast::ModuleSpecifier;
}

pub mod source {
    #[derive(Debug, Clone, Copy, PartialEq, Eq)]
    pub enum ResolutionMode {
        Import,
        Require,
    }
}

pub mod graph {
    use deno_ast::{SourcePos, SourceRange, SourceTextInfo};
    use serde::{Deserialize, Serialize, Serializer};

    #[derive(Debug, Default, Clone, Copy, PartialEq, Eq, PartialOrd, Ord, Hash, Serialize, Deserialize)]
    pub struct Position {
        pub line: usize,
        pub character: usize,
    }

    impl Position {
        pub fn from_source_pos(pos: SourcePos, text_info: &SourceTextInfo) -> Self {
            let (line, character) = text_info.line_and_column_index(pos);
            Position { line, character }
        }
    }

    #[derive(Debug, Default, Clone, PartialEq, Eq, Hash, Deserialize)]
    pub struct PositionRange {
        pub start: Position,
        pub end: Position,
    }

    /// `[[line, character], [line, character]]`, as the module graphs on JSR are known to have it; src/graph.rs is not at hand.
    impl Serialize for PositionRange {
        fn serialize<S: Serializer>(&self, serializer: S) -> Result<S::Ok, S::Error> {
            [[self.start.line, self.start.character], [self.end.line, self.end.character]].serialize(serializer)
        }
    }

    impl PositionRange {
        pub fn from_source_range(range: SourceRange, text_info: &SourceTextInfo) -> Self {
            PositionRange {
                start: Position::from_source_pos(range.start, text_info),
                end: Position::from_source_pos(range.end, text_info),
            }
        }
    }
}
