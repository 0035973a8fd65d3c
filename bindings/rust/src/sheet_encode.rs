//! The bytes of a sheet.

use std::fmt;

use crate::refusal::Refusal;
use crate::sheet::*;
use crate::{MAX_SHEET, module_info};

/// Why a sheet cannot be written.
#[derive(Debug, Clone, Copy, PartialEq, Eq)]
pub enum OutOfForm {
    /// There is more of a thing than a sheet may have.
    Limit { thing: &'static str, size: usize, most: usize },
    /// A position is past the source or inside a character.
    Position(usize),
    /// An end precedes its start.
    Span(Span),
    /// A comment lacks its marks, or is shorter than them.
    Marks(Span),
    /// A comment starts before the end of the one before it.
    Overlap(Span),
    /// The comments of the group at a position are not some that follow each other in the source.
    Group(usize),
    /// A String does not begin and end with the same mark, `"` or `'`.
    Quotes(Span),
    /// The library refuses the sheet, as where an import asks for a template with an uncooked piece.
    Refused(Refusal),
}

impl OutOfForm {
    /// What the library would say of such a sheet.
    pub fn refusal(self) -> Refusal {
        match self {
            OutOfForm::Limit { thing: "sheet", .. } => Refusal::SheetLength,
            OutOfForm::Limit { .. } => Refusal::Limit,
            OutOfForm::Position(_) | OutOfForm::Span(_) => Refusal::Position,
            OutOfForm::Marks(_) | OutOfForm::Overlap(_) | OutOfForm::Group(_) => Refusal::Comments,
            OutOfForm::Quotes(_) => Refusal::String,
            OutOfForm::Refused(refusal) => refusal,
        }
    }
}

impl fmt::Display for OutOfForm {
    fn fmt(&self, f: &mut fmt::Formatter) -> fmt::Result {
        match *self {
            OutOfForm::Limit { thing, size, most } => write!(f, "{thing}: {size}, where {most} is the most"),
            OutOfForm::Position(p) => write!(f, "position {p} is past the source or inside a character"),
            OutOfForm::Span(s) => write!(f, "the end of {}..{} precedes its start", s.start, s.end),
            OutOfForm::Marks(s) => write!(f, "the comment {}..{} lacks its marks", s.start, s.end),
            OutOfForm::Overlap(s) => write!(f, "the comment {}..{} starts before the end of the one before it", s.start, s.end),
            OutOfForm::Group(p) => write!(f, "the comments of the group at {p} do not follow each other"),
            OutOfForm::Quotes(s) => write!(f, "the String {}..{} does not begin and end with the same mark", s.start, s.end),
            OutOfForm::Refused(refusal) => refusal.fmt(f),
        }
    }
}

impl std::error::Error for OutOfForm {}

type Written = Result<(), OutOfForm>;

impl Sheet {
    /// The bytes of the sheet, if it is in form. The library itself has the last word, so that it refuses nothing that is written here, but for a
    /// report that is longer than its buffer (refusal 10).
    pub fn encode(&self) -> Result<Vec<u8>, OutOfForm> {
        let mut w = Writer { bytes: Vec::new(), source: &self.source };
        w.bytes.push(self.media as u8);
        w.text("source", self.source.as_bytes(), 32_768)?;
        w.comments(&self.comments)?;
        w.flag(self.program.is_script);
        w.span(self.program.span)?;
        w.flag(self.program.has_shebang);
        w.optional(&self.program.first_item, |w, p| w.position(*p))?;
        w.node(&self.root, 1)?;
        limit("sheet", w.bytes.len(), MAX_SHEET)?;
        match module_info(&w.bytes, &mut []) {
            Ok(_) | Err(Refusal::Buffer) => Ok(w.bytes),
            Err(refusal) => Err(OutOfForm::Refused(refusal)),
        }
    }
}

fn limit(thing: &'static str, size: usize, most: usize) -> Written {
    if size <= most { Ok(()) } else { Err(OutOfForm::Limit { thing, size, most }) }
}

struct Writer<'a> {
    bytes: Vec<u8>,
    source: &'a str,
}

impl Writer<'_> {
    // ---- fields ----

    fn flag(&mut self, flag: bool) {
        self.bytes.push(u8::from(flag));
    }

    fn number(&mut self, mut n: usize) {
        while n >= 128 {
            self.bytes.push((n % 128) as u8 | 128);
            n /= 128;
        }
        self.bytes.push(n as u8);
    }

    fn text(&mut self, thing: &'static str, text: &[u8], most: usize) -> Written {
        limit(thing, text.len(), most)?;
        self.number(text.len());
        self.bytes.extend(text);
        Ok(())
    }

    fn name(&mut self, name: &str) -> Written {
        self.text("name", name.as_bytes(), 4_096)
    }

    fn wtf8(&mut self, text: &Wtf8) -> Written {
        self.text("text", text.as_bytes(), 4_096)
    }

    fn position(&mut self, p: usize) -> Written {
        if !self.source.is_char_boundary(p) {
            return Err(OutOfForm::Position(p));
        }
        self.number(p);
        Ok(())
    }

    fn span(&mut self, span: Span) -> Written {
        self.position(span.start)?;
        self.position(span.end)?;
        if span.start <= span.end { Ok(()) } else { Err(OutOfForm::Span(span)) }
    }

    fn optional<T>(&mut self, item: &Option<T>, write: impl Fn(&mut Self, &T) -> Written) -> Written {
        self.flag(item.is_some());
        item.iter().try_for_each(|item| write(self, item))
    }

    fn list<T>(&mut self, items: &[T], write: impl Fn(&mut Self, &T) -> Written) -> Written {
        self.number(items.len());
        items.iter().try_for_each(|item| write(self, item))
    }

    // ---- comments ----

    fn comments(&mut self, comments: &Comments) -> Written {
        let groups: Vec<_> = [(0, &comments.leading), (1, &comments.trailing)]
            .into_iter()
            .flat_map(|(side, map)| map.iter().map(move |(position, group)| (side, *position, group)))
            .filter(|(_, _, group)| !group.is_empty())
            .collect();
        let mut all: Vec<Comment> = groups.iter().flat_map(|(_, _, group)| group.iter().copied()).collect();
        all.sort();
        all.dedup();
        limit("comments", all.len(), 1_024)?;
        self.number(all.len());
        let mut last = 0;
        for comment in &all {
            self.comment(comment)?;
            if comment.span.start < last {
                return Err(OutOfForm::Overlap(comment.span));
            }
            last = comment.span.end;
        }
        limit("groups", groups.len(), 1_024)?;
        self.list(&groups, |w, (side, position, group)| {
            let first = all.binary_search(&group[0]).unwrap_or_default();
            if !all[first..].starts_with(group) {
                return Err(OutOfForm::Group(*position));
            }
            w.bytes.push(*side);
            w.position(*position)?;
            w.number(first);
            w.number(group.len());
            Ok(())
        })
    }

    fn comment(&mut self, comment: &Comment) -> Written {
        self.bytes.push(comment.kind as u8);
        self.span(comment.span)?;
        let whole = &self.source[comment.span.start..comment.span.end];
        let is_marked = match comment.kind {
            CommentKind::Line => whole.starts_with("//"),
            CommentKind::Block => whole.strip_prefix("/*").is_some_and(|rest| rest.ends_with("*/")),
            CommentKind::HtmlOpen => whole.starts_with("<!--"),
            CommentKind::HtmlClose => whole.starts_with("-->"),
        };
        if is_marked { Ok(()) } else { Err(OutOfForm::Marks(comment.span)) }
    }

    // ---- nodes ----

    fn nodes(&mut self, nodes: &[Node], depth: usize) -> Written {
        self.list(nodes, |w, node| w.node(node, depth))
    }

    /// What every node begins with.
    fn head(&mut self, tag: u8, span: Span, depth: usize) -> Written {
        limit("depth", depth, 64)?;
        self.bytes.push(tag);
        self.span(span)
    }

    fn string(&mut self, string: &Str, depth: usize) -> Written {
        self.head(1, string.span, depth)?;
        let place = &self.source[string.span.start..string.span.end];
        let is_quoted = ['"', '\''].iter().any(|mark| place.strip_prefix(*mark).is_some_and(|rest| rest.ends_with(*mark)));
        if !is_quoted {
            return Err(OutOfForm::Quotes(string.span));
        }
        self.wtf8(&string.text)
    }

    fn object(&mut self, object: &Object, depth: usize) -> Written {
        self.head(5, object.span, depth)?;
        limit("properties", object.properties.len(), 64)?;
        self.list(&object.properties, |w, property| w.property(property, depth + 1))
    }

    fn property(&mut self, property: &Property, depth: usize) -> Written {
        match property {
            Property::Spread(node) => {
                self.bytes.push(0);
                self.node(node, depth)
            }
            Property::Other(node) => {
                self.bytes.push(1);
                self.node(node, depth)
            }
            Property::KeyValue(key, value) => {
                self.bytes.push(2);
                match key {
                    Key::Other(node) => {
                        self.bytes.push(0);
                        self.node(node, depth)?;
                    }
                    Key::String(text) => {
                        self.bytes.push(1);
                        self.wtf8(text)?;
                    }
                    Key::Name(name) => {
                        self.bytes.push(2);
                        self.name(name)?;
                    }
                }
                self.node(value, depth)
            }
        }
    }

    fn with(&mut self, with: &Option<Object>, depth: usize) -> Written {
        self.optional(with, |w, object| w.object(object, depth))
    }

    fn callee(&mut self, callee: &Callee, depth: usize) -> Written {
        match callee {
            Callee::Import(phase) => {
                self.bytes.push(*phase as u8);
                Ok(())
            }
            Callee::Expression(node) => {
                self.bytes.push(3);
                self.node(node, depth)
            }
        }
    }

    fn argument(&mut self, argument: &Argument, depth: usize) -> Written {
        self.flag(argument.is_spread);
        self.span(argument.span)?;
        self.node(&argument.node, depth)
    }

    fn node(&mut self, node: &Node, depth: usize) -> Written {
        let inner = depth + 1;
        match node {
            Node::Other { span, children } => {
                self.head(0, *span, depth)?;
                self.nodes(children, inner)
            }
            Node::String(string) => self.string(string, depth),
            Node::Name { span, text } => {
                self.head(2, *span, depth)?;
                self.name(text)
            }
            Node::Template { span, head, tail } => {
                self.head(3, *span, depth)?;
                self.number(tail.len());
                self.optional(head, Self::wtf8)?;
                tail.iter().try_for_each(|(_, piece)| self.optional(piece, Self::wtf8))?;
                tail.iter().try_for_each(|(hole, _)| self.node(hole, inner))
            }
            Node::Binary { span, is_plus, left, right } => {
                self.head(4, *span, depth)?;
                self.flag(*is_plus);
                self.node(left, inner)?;
                self.node(right, inner)
            }
            Node::Object(object) => self.object(object, depth),
            Node::Call { span, callee, arguments, children } => {
                self.head(6, *span, depth)?;
                self.callee(callee, inner)?;
                self.list(arguments, |w, argument| w.argument(argument, inner))?;
                self.nodes(children, inner)
            }
            Node::Import { span, type_only, phase, side_effect, source, with } => {
                self.head(7, *span, depth)?;
                self.flag(*type_only);
                self.bytes.push(*phase as u8);
                self.flag(*side_effect);
                self.string(source, inner)?;
                self.with(with, inner)
            }
            Node::NamedExport { span, type_only, source } => {
                self.head(8, *span, depth)?;
                self.flag(*type_only);
                self.optional(source, |w, (source, with)| {
                    w.string(source, inner)?;
                    w.with(with, inner)
                })
            }
            Node::ExportAll { span, type_only, source, with } => {
                self.head(9, *span, depth)?;
                self.flag(*type_only);
                self.string(source, inner)?;
                self.with(with, inner)
            }
            Node::ImportType { span, source, children, with } => {
                self.head(10, *span, depth)?;
                self.string(source, inner)?;
                self.nodes(children, inner)?;
                self.with(with, inner)
            }
            Node::ImportEquals { span, external } => {
                self.head(11, *span, depth)?;
                self.optional(external, |w, external| {
                    w.flag(external.type_only);
                    w.flag(external.is_export);
                    w.string(&external.source, inner)
                })
            }
            Node::ModuleDeclaration { span, name, children } => {
                self.head(12, *span, depth)?;
                self.optional(name, |w, name| w.string(name, inner))?;
                self.nodes(children, inner)
            }
        }
    }
}
