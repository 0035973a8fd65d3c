//! Sheets (document 01, "The sheet"), for whoever holds a parse. docs/EXPORTER.md says what of swc's tree goes where.
//!
//! What the types cannot say is seen by [`Sheet::encode`], which writes no sheet that the library refuses.

use std::collections::BTreeMap;

/// A parsed module: source, comments and syntax tree.
///
/// ```
/// use module_info::*;
///
/// let source = "import './a.ts';";
/// let string = Str { span: Span::new(7, 15), text: "./a.ts".into() };
/// let import = Node::Import {
///     span: Span::new(0, 16), type_only: false, phase: Phase::Evaluation, side_effect: true, source: string, with: None,
/// };
/// let sheet = Sheet {
///     media: Media::TypeScript,
///     source: source.to_string(),
///     comments: Comments::default(),
///     program: Program { is_script: false, span: Span::new(0, 16), has_shebang: false, first_item: Some(0) },
///     root: Node::Other { span: Span::new(0, 16), children: vec![import] },
/// };
/// let bytes = sheet.encode()?;
/// assert_eq!(Sheet::decode(&bytes)?, sheet);
///
/// let mut buffer = [0; 64];
/// let length = module_info(&bytes, &mut buffer)?;
/// let info = ModuleInfo::decode(&buffer[..length])?;
/// assert_eq!(info.dependencies[0].as_static().map(|d| &*d.specifier), Some("./a.ts"));
/// # Ok::<(), Box<dyn std::error::Error>>(())
/// ```
#[derive(Debug, Clone, PartialEq, Eq)]
pub struct Sheet {
    pub media: Media,
    pub source: String,
    pub comments: Comments,
    pub program: Program,
    pub root: Node,
}

#[derive(Debug, Clone, Copy, PartialEq, Eq)]
#[repr(u8)]
pub enum Media {
    JavaScript,
    Jsx,
    Mjs,
    Cjs,
    TypeScript,
    Mts,
    Cts,
    Dts,
    Dmts,
    Dcts,
    Tsx,
}

impl Media {
    /// In the order of document 01's numbers.
    pub const ALL: [Media; 11] = [
        Media::JavaScript,
        Media::Jsx,
        Media::Mjs,
        Media::Cjs,
        Media::TypeScript,
        Media::Mts,
        Media::Cts,
        Media::Dts,
        Media::Dmts,
        Media::Dcts,
        Media::Tsx,
    ];
}

/// A part of the source, in bytes from its start.
#[derive(Debug, Clone, Copy, PartialEq, Eq, PartialOrd, Ord, Hash)]
pub struct Span {
    pub start: usize,
    pub end: usize,
}

impl Span {
    pub fn new(start: usize, end: usize) -> Span {
        Span { start, end }
    }
}

/// The groups of comments, by the position that they lead or trail. A comment may be in several.
#[derive(Debug, Default, Clone, PartialEq, Eq)]
pub struct Comments {
    pub leading: BTreeMap<usize, Vec<Comment>>,
    pub trailing: BTreeMap<usize, Vec<Comment>>,
}

/// A comment, with its marks.
#[derive(Debug, Clone, Copy, PartialEq, Eq, PartialOrd, Ord, Hash)]
pub struct Comment {
    pub span: Span,
    pub kind: CommentKind,
}

#[derive(Debug, Clone, Copy, PartialEq, Eq, PartialOrd, Ord, Hash)]
#[repr(u8)]
pub enum CommentKind {
    Line,
    Block,
    /// From `<!--` to the end of its line: an HTML-like comment of ECMAScript's Annex B. It acts as a line comment.
    HtmlOpen,
    /// From `-->` to the end of its line, likewise.
    HtmlClose,
}

#[derive(Debug, Clone, Copy, PartialEq, Eq)]
pub struct Program {
    /// Whether nothing makes it an ES module for sure.
    pub is_script: bool,
    pub span: Span,
    pub has_shebang: bool,
    /// The start of the first statement or declaration.
    pub first_item: Option<usize>,
}

#[derive(Debug, Clone, PartialEq, Eq)]
pub enum Node {
    Other { span: Span, children: Vec<Node> },
    String(Str),
    Name { span: Span, text: String },
    Template { span: Span, head: Piece, tail: Vec<(Node, Piece)> },
    Binary { span: Span, is_plus: bool, left: Box<Node>, right: Box<Node> },
    Object(Object),
    Call { span: Span, callee: Callee, arguments: Vec<Argument>, children: Vec<Node> },
    Import { span: Span, type_only: bool, phase: Phase, side_effect: bool, source: Str, with: Option<Object> },
    NamedExport { span: Span, type_only: bool, source: Option<(Str, Option<Object>)> },
    ExportAll { span: Span, type_only: bool, source: Str, with: Option<Object> },
    ImportType { span: Span, source: Str, children: Vec<Node>, with: Option<Object> },
    ImportEquals { span: Span, external: Option<External> },
    ModuleDeclaration { span: Span, name: Option<Str>, children: Vec<Node> },
}

/// A string literal: the span has its marks, the text is what it means.
#[derive(Debug, Clone, PartialEq, Eq)]
pub struct Str {
    pub span: Span,
    pub text: Wtf8,
}

/// What a piece of a template means; none if it has a bad escape.
pub type Piece = Option<Wtf8>;

#[derive(Debug, Clone, PartialEq, Eq)]
pub struct Object {
    pub span: Span,
    pub properties: Vec<Property>,
}

#[derive(Debug, Clone, PartialEq, Eq)]
pub enum Property {
    Spread(Node),
    KeyValue(Key, Node),
    /// A method, an accessor, a shorthand.
    Other(Node),
}

#[derive(Debug, Clone, PartialEq, Eq)]
pub enum Key {
    Name(String),
    String(Wtf8),
    /// A computed key, a number.
    Other(Node),
}

#[derive(Debug, Clone, PartialEq, Eq)]
pub enum Callee {
    Import(Phase),
    Expression(Box<Node>),
}

#[derive(Debug, Clone, Copy, PartialEq, Eq)]
#[repr(u8)]
pub enum Phase {
    Evaluation,
    Source,
    Defer,
}

/// An argument: the span has a spread's dots, the node has not.
#[derive(Debug, Clone, PartialEq, Eq)]
pub struct Argument {
    pub is_spread: bool,
    pub span: Span,
    pub node: Node,
}

/// The right side of `import a = require("a")`.
#[derive(Debug, Clone, PartialEq, Eq)]
pub struct External {
    pub type_only: bool,
    pub is_export: bool,
    pub source: Str,
}

/// A text of JavaScript: UTF-8, and lone surrogates besides, each in three bytes.
#[derive(Debug, Default, Clone, PartialEq, Eq, PartialOrd, Ord, Hash)]
pub struct Wtf8(Vec<u8>);

impl Wtf8 {
    /// The text of such bytes; none if they are ill-formed, as where a lead surrogate stands right before a trail one.
    ///
    /// ```
    /// use module_info::Wtf8;
    ///
    /// assert!(Wtf8::from_bytes(b"a\xED\xA0\xBD").is_some());
    /// assert_eq!(Wtf8::from_bytes(b"\xED\xA0\xBD\xED\xB8\x80"), None);
    /// assert_eq!(Wtf8::from_bytes(b"\xFF"), None);
    /// ```
    pub fn from_bytes(bytes: &[u8]) -> Option<Wtf8> {
        let mut rest = bytes;
        let mut after_lead = false;
        loop {
            let valid = match std::str::from_utf8(rest) {
                Ok(_) => return Some(Wtf8(bytes.to_vec())),
                Err(e) => e.valid_up_to(),
            };
            let (surrogate, behind) = rest[valid..].split_first_chunk::<3>()?;
            let is_lead = match surrogate {
                [0xED, 0xA0..=0xAF, 0x80..=0xBF] => true,
                [0xED, 0xB0..=0xBF, 0x80..=0xBF] => false,
                _ => return None,
            };
            if after_lead && valid == 0 && !is_lead {
                return None;
            }
            (rest, after_lead) = (behind, is_lead);
        }
    }

    /// The text of UTF-16 units; a surrogate without its partner is lone.
    ///
    /// ```
    /// use module_info::Wtf8;
    ///
    /// assert_eq!(Wtf8::from_utf16(&[0x61, 0xD83D, 0xDE00]), "a😀".into());
    /// assert_eq!(Wtf8::from_utf16(&[0xD83D]).as_bytes(), b"\xED\xA0\xBD");
    /// ```
    pub fn from_utf16(units: &[u16]) -> Wtf8 {
        let mut bytes = Vec::new();
        for c in char::decode_utf16(units.iter().copied()) {
            match c {
                Ok(c) => bytes.extend(c.encode_utf8(&mut [0; 4]).bytes()),
                Err(lone) => {
                    let unit = lone.unpaired_surrogate();
                    bytes.extend([0xED, 0x80 | (unit >> 6 & 63) as u8, 0x80 | (unit & 63) as u8]);
                }
            }
        }
        Wtf8(bytes)
    }

    pub fn as_bytes(&self) -> &[u8] {
        &self.0
    }
}

impl From<&str> for Wtf8 {
    fn from(text: &str) -> Wtf8 {
        Wtf8(text.as_bytes().to_vec())
    }
}
