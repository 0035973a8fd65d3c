//! Stands in for deno_ast and swc: positions, comments, the program and the tree of a sheet, with the meaning that document 01 gives them.

use std::collections::BTreeMap;
use std::ops::{Add, Sub};
use std::sync::Arc;

pub use deno_media_type::MediaType;
use swc::ast::{Module, Script};
use swc::common::comments::Comment;

pub mod swc;

pub type ModuleSpecifier = String;

// ---- positions: bytes of the source ----

#[derive(Debug, Clone, Copy, PartialEq, Eq, PartialOrd, Ord, Hash)]
pub struct SourcePos(pub usize);

impl Add<usize> for SourcePos {
    type Output = SourcePos;
    fn add(self, n: usize) -> SourcePos {
        SourcePos(self.0 + n)
    }
}

impl Sub<usize> for SourcePos {
    type Output = SourcePos;
    fn sub(self, n: usize) -> SourcePos {
        SourcePos(self.0 - n)
    }
}

#[derive(Debug, Clone, Copy, PartialEq, Eq)]
pub struct SourceRange {
    pub start: SourcePos,
    pub end: SourcePos,
}

pub trait SourceRanged {
    fn range(&self) -> SourceRange;
    fn start(&self) -> SourcePos {
        self.range().start
    }
    fn end(&self) -> SourcePos {
        self.range().end
    }
}

impl SourceRanged for SourceRange {
    fn range(&self) -> SourceRange {
        *self
    }
}

/// The same for what has a span: the tree's nodes and comments.
pub trait SourceRangedForSpanned {
    fn range(&self) -> SourceRange;
    fn start(&self) -> SourcePos {
        self.range().start
    }
    fn end(&self) -> SourcePos {
        self.range().end
    }
}

// ---- the text index ----

/// A line ends at LF; a column counts characters.
pub struct SourceTextInfo {
    text: String,
    line_starts: Vec<usize>,
}

impl SourceTextInfo {
    pub fn new(text: String) -> Self {
        let line_starts = std::iter::once(0).chain(text.match_indices('\n').map(|(i, _)| i + 1)).collect();
        SourceTextInfo { text, line_starts }
    }

    pub fn line_and_column_index(&self, pos: SourcePos) -> (usize, usize) {
        let line = self.line_starts.partition_point(|&start| start <= pos.0) - 1;
        let column = self.text[self.line_starts[line]..pos.0].chars().count();
        (line, column)
    }
}

// ---- comments ----

/// The groups of comments, by the position that they lead or trail.
#[derive(Default)]
pub struct MultiThreadedComments {
    pub leading: BTreeMap<SourcePos, Vec<Comment>>,
    pub trailing: BTreeMap<SourcePos, Vec<Comment>>,
}

impl MultiThreadedComments {
    pub fn get_leading(&self, pos: SourcePos) -> Option<&Vec<Comment>> {
        self.leading.get(&pos)
    }

    pub fn get_trailing(&self, pos: SourcePos) -> Option<&Vec<Comment>> {
        self.trailing.get(&pos)
    }

    /// In no order that a caller may rely on: here not the source's.
    pub fn iter_unstable(&self) -> impl Iterator<Item = &Comment> {
        self.trailing.values().chain(self.leading.values().rev()).flatten()
    }
}

// ---- the program ----

/// The first item of a program: of its body a sheet tells only where that one starts.
pub struct FirstItem(pub SourcePos);

impl SourceRanged for FirstItem {
    fn range(&self) -> SourceRange {
        SourceRange { start: self.0, end: self.0 }
    }
}

#[derive(Clone, Copy)]
pub enum ProgramRef<'a> {
    Module(&'a Module),
    Script(&'a Script),
}

impl<'a> ProgramRef<'a> {
    fn program(&self) -> &'a swc::ast::Program {
        match self {
            ProgramRef::Module(n) => &n.0,
            ProgramRef::Script(n) => &n.0,
        }
    }

    pub fn body(&self) -> impl Iterator<Item = &'a FirstItem> {
        self.program().first_item.iter()
    }

    pub fn shebang(&self) -> Option<()> {
        self.program().shebang.then_some(())
    }

    pub fn compute_is_script(&self) -> bool {
        matches!(self, ProgramRef::Script(_))
    }
}

impl SourceRanged for ProgramRef<'_> {
    fn range(&self) -> SourceRange {
        self.program().span
    }
}

// ---- what the files name and a sheet has no use for ----

#[derive(Debug)]
pub struct ParseDiagnostic;

pub struct ParseParams {
    pub specifier: ModuleSpecifier,
    pub text: Arc<str>,
    pub media_type: MediaType,
    pub capture_tokens: bool,
    pub scope_analysis: bool,
    pub maybe_syntax: Option<()>,
}

pub fn parse_program(_: ParseParams) -> Result<ParsedSource, ParseDiagnostic> {
    Err(ParseDiagnostic)
}

#[derive(Clone)]
pub enum ParsedSource {}

impl ParsedSource {
    pub fn has_scope_analysis(&self) -> bool {
        match *self {}
    }
    pub fn into_with_scope_analysis(self) -> Self {
        match self {}
    }
    pub fn media_type(&self) -> MediaType {
        match *self {}
    }
    pub fn text(&self) -> &Arc<str> {
        match *self {}
    }
    pub fn program_ref(&self) -> ProgramRef<'_> {
        match *self {}
    }
    pub fn text_info_lazy(&self) -> &SourceTextInfo {
        match *self {}
    }
    pub fn comments(&self) -> &MultiThreadedComments {
        match *self {}
    }
}
