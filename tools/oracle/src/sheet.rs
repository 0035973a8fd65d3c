//! A decoder of sheets, written from document 01: refusals 1 to 8 and 13 in checking order, the stand-in tree, and refusal 9 over it.

use deno_ast::swc::ast::*;
use deno_ast::swc::atoms::{Atom, Wtf8Atom};
use deno_ast::swc::common::comments::{Comment, CommentKind};
use deno_ast::{FirstItem, MediaType, MultiThreadedComments, SourcePos, SourceRange};

const MAX_SHEET: usize = 65_536;
const MAX_SOURCE: u64 = 32_768;
const MAX_TEXT: u64 = 4_096;
const MAX_COMMENTS: u64 = 1_024;
const MAX_GROUPS: u64 = 1_024;
const MAX_DEPTH: usize = 64;
const MAX_PROPERTIES: u64 = 64;

pub struct Sheet {
    pub media: MediaType,
    pub source: String,
    pub comments: MultiThreadedComments,
    pub is_script: bool,
    pub program: Program,
    /// Whether a comment is an HTML-like one, which the crate does not know.
    pub has_html: bool,
}

/// A refusal's number.
pub type Refusal = u8;
type Read<T> = Result<T, Refusal>;

fn require(holds: bool, refusal: Refusal) -> Read<()> {
    if holds { Ok(()) } else { Err(refusal) }
}

pub fn decode(bytes: &[u8]) -> Read<Sheet> {
    require(bytes.len() <= MAX_SHEET, 1)?;
    let mut r = Reader { bytes, at: 0, source: String::new() };
    let sheet = r.sheet()?;
    require(r.at == bytes.len(), 8)?;
    Ok(sheet)
}

struct Reader<'a> {
    bytes: &'a [u8],
    at: usize,
    source: String,
}

impl<'a> Reader<'a> {
    // ---- fields ----

    fn byte(&mut self) -> Read<u8> {
        let b = *self.bytes.get(self.at).ok_or(2)?;
        self.at += 1;
        Ok(b)
    }

    fn byte_up_to(&mut self, last: u8) -> Read<u8> {
        let b = self.byte()?;
        require(b <= last, 3)?;
        Ok(b)
    }

    fn flag(&mut self) -> Read<bool> {
        Ok(self.byte_up_to(1)? == 1)
    }

    fn number(&mut self) -> Read<u64> {
        let mut value = 0u64;
        for group in 0..5 {
            let b = self.byte()?;
            value |= u64::from(b & 0x7F) << (7 * group);
            if b < 0x80 {
                require((group == 0 || b != 0) && value <= u64::from(u32::MAX), 2)?;
                return Ok(value);
            }
        }
        Err(2)
    }

    fn count(&mut self, limit: u64) -> Read<u64> {
        let n = self.number()?;
        require(n <= limit, 4)?;
        Ok(n)
    }

    fn text_bytes(&mut self, limit: u64) -> Read<&'a [u8]> {
        let n = self.count(limit)? as usize;
        let text = self.bytes.get(self.at..self.at + n).ok_or(2)?;
        self.at += n;
        Ok(text)
    }

    fn utf8(&mut self, limit: u64) -> Read<String> {
        let text = self.text_bytes(limit)?;
        String::from_utf8(text.to_vec()).map_err(|_| 5)
    }

    fn wtf8(&mut self) -> Read<Wtf8Atom> {
        let text = self.text_bytes(MAX_TEXT)?;
        require(is_wtf8(text), 5)?;
        Ok(Wtf8Atom::new(text))
    }

    fn position(&mut self) -> Read<SourcePos> {
        let p = self.number()?;
        let p = usize::try_from(p).map_err(|_| 6)?;
        require(self.source.is_char_boundary(p), 6)?;
        Ok(SourcePos(p))
    }

    fn end_from(&mut self, start: SourcePos) -> Read<SourcePos> {
        let end = self.position()?;
        require(start <= end, 6)?;
        Ok(end)
    }

    fn span(&mut self) -> Read<SourceRange> {
        let start = self.position()?;
        let end = self.end_from(start)?;
        Ok(SourceRange { start, end })
    }

    // ---- the parts of a sheet ----

    fn sheet(&mut self) -> Read<Sheet> {
        let media = MediaType::ALL[usize::from(self.byte_up_to(10)?)];
        self.source = self.utf8(MAX_SOURCE)?;
        let (comments, has_html) = self.comments()?;
        let comments = self.groups(&comments)?;
        let is_script = self.flag()?;
        let span = self.span()?;
        let shebang = self.flag()?;
        let first_item = if self.flag()? { Some(FirstItem(self.position()?)) } else { None };
        let root = self.node(1)?;
        let program = Program { span, shebang, first_item, body: vec![root] };
        Ok(Sheet { media, source: std::mem::take(&mut self.source), comments, is_script, program, has_html })
    }

    fn comments(&mut self) -> Read<(Vec<Comment>, bool)> {
        let n = self.count(MAX_COMMENTS)?;
        let mut comments = Vec::new();
        let mut has_html = false;
        let mut last_end = SourcePos(0);
        for _ in 0..n {
            let kind = self.byte_up_to(3)?;
            has_html |= kind > 1;
            let start = self.position()?;
            require(last_end <= start, 7)?;
            let end = self.end_from(start)?;
            last_end = end;
            let whole = &self.source[start.0..end.0];
            let (kind, body) = match kind {
                0 => (CommentKind::Line, whole.strip_prefix("//")),
                1 => (CommentKind::Block, whole.strip_prefix("/*").and_then(|rest| rest.strip_suffix("*/"))),
                2 => (CommentKind::Line, whole.strip_prefix("<!--")),
                _ => (CommentKind::Line, whole.strip_prefix("-->")),
            };
            let text = Atom(body.ok_or(7)?.to_string());
            comments.push(Comment { kind, span: SourceRange { start, end }, text });
        }
        Ok((comments, has_html))
    }

    fn groups(&mut self, comments: &[Comment]) -> Read<MultiThreadedComments> {
        let n = self.count(MAX_GROUPS)?;
        let mut groups = MultiThreadedComments::default();
        let mut grouped = vec![false; comments.len()];
        let mut last = None;
        for _ in 0..n {
            let side = self.byte_up_to(1)?;
            let position = self.position()?;
            require(last < Some((side, position)), 7)?;
            last = Some((side, position));
            let first = self.number()?;
            let count = self.number()?;
            require(count > 0 && first + count <= comments.len() as u64, 7)?;
            let members = first as usize..(first + count) as usize;
            grouped[members.clone()].fill(true);
            let map = if side == 0 { &mut groups.leading } else { &mut groups.trailing };
            map.insert(position, comments[members].to_vec());
        }
        require(grouped.iter().all(|g| *g), 7)?;
        Ok(groups)
    }

    // ---- nodes ----

    fn node(&mut self, depth: usize) -> Read<Expr> {
        let tag = self.byte_up_to(12)?;
        require(depth <= MAX_DEPTH, 4)?;
        let span = self.span()?;
        let inner = depth + 1;
        Ok(match tag {
            0 => Expr::Other(self.nodes(inner)?),
            1 => Expr::Lit(Lit::Str(self.quoted(span)?)),
            2 => Expr::Ident(Ident { sym: Atom(self.utf8(MAX_TEXT)?) }),
            3 => Expr::Tpl(self.template(inner)?),
            4 => {
                let op = if self.flag()? { BinaryOp::Add } else { BinaryOp::Other };
                let left = self.boxed(inner)?;
                let right = self.boxed(inner)?;
                Expr::Bin(BinExpr { op, left, right })
            }
            5 => Expr::Object(self.properties(inner)?),
            6 => Expr::Call(self.call(span, inner)?),
            _ => self.declaration(tag, span, inner)?,
        })
    }

    fn template(&mut self, depth: usize) -> Read<Tpl> {
        let holes = self.number()?;
        let mut quasis = Vec::new();
        for _ in 0..=holes {
            let cooked = if self.flag()? { Some(self.wtf8()?) } else { None };
            quasis.push(TplElement { cooked });
        }
        let mut exprs = Vec::new();
        for _ in 0..holes {
            exprs.push(self.node(depth)?);
        }
        Ok(Tpl { exprs, quasis })
    }

    fn call(&mut self, span: SourceRange, depth: usize) -> Read<CallExpr> {
        let callee = match self.byte_up_to(3)? {
            3 => Callee::Expr(self.boxed(depth)?),
            phase => Callee::Import(Import { phase: phase_of(phase) }),
        };
        let n = self.number()?;
        let mut args = Vec::new();
        for _ in 0..n {
            let spread = self.flag()?.then_some(());
            let span = self.span()?;
            let expr = self.boxed(depth)?;
            args.push(ExprOrSpread { spread, span, expr });
        }
        let further = self.nodes(depth)?;
        Ok(CallExpr { span, callee, args, further })
    }

    /// The nodes with tags 7 to 12, behind their spans.
    fn declaration(&mut self, tag: u8, span: SourceRange, depth: usize) -> Read<Expr> {
        Ok(match tag {
            7 => {
                let type_only = self.flag()?;
                let phase = phase_of(self.byte_up_to(2)?);
                let specifiers = if self.flag()? { vec![] } else { vec![()] };
                let src = Box::new(self.string(depth)?);
                let with = self.attributes(depth)?;
                Expr::ImportDecl(ImportDecl { span, type_only, phase, specifiers, src, with })
            }
            8 => {
                let type_only = self.flag()?;
                let mut src = None;
                let mut with = None;
                if self.flag()? {
                    src = Some(Box::new(self.string(depth)?));
                    with = self.attributes(depth)?;
                }
                Expr::NamedExport(NamedExport { span, type_only, src, with })
            }
            9 => {
                let type_only = self.flag()?;
                let src = Box::new(self.string(depth)?);
                let with = self.attributes(depth)?;
                Expr::ExportAll(ExportAll { span, type_only, src, with })
            }
            10 => {
                let arg = self.string(depth)?;
                let children = self.nodes(depth)?;
                let attributes = self.attributes(depth)?.map(|with| TsImportCallOptions { with });
                Expr::TsImportType(TsImportType { span, arg, children, attributes })
            }
            11 => {
                let mut decl = TsImportEqualsDecl { span, is_type_only: false, is_export: false, module_ref: TsModuleRef::TsEntityName };
                if self.flag()? {
                    decl.is_type_only = self.flag()?;
                    decl.is_export = self.flag()?;
                    let expr = self.string(depth)?;
                    decl.module_ref = TsModuleRef::TsExternalModuleRef(TsExternalModuleRef { expr });
                }
                Expr::TsImportEquals(decl)
            }
            _ => {
                let id = if self.flag()? { TsModuleName::Str(self.string(depth)?) } else { TsModuleName::Ident };
                let children = self.nodes(depth)?;
                Expr::TsModule(TsModuleDecl { span, id, children })
            }
        })
    }

    fn boxed(&mut self, depth: usize) -> Read<Box<Expr>> {
        Ok(Box::new(self.node(depth)?))
    }

    fn nodes(&mut self, depth: usize) -> Read<Vec<Expr>> {
        let n = self.number()?;
        let mut nodes = Vec::new();
        for _ in 0..n {
            nodes.push(self.node(depth)?);
        }
        Ok(nodes)
    }

    /// A node whose place allows one tag only.
    fn only(&mut self, tag: u8, depth: usize) -> Read<SourceRange> {
        require(self.byte()? == tag, 3)?;
        require(depth <= MAX_DEPTH, 4)?;
        self.span()
    }

    fn string(&mut self, depth: usize) -> Read<Str> {
        let span = self.only(1, depth)?;
        self.quoted(span)
    }

    /// What follows the span of a String, which is at least two bytes of the source and begins and ends with the same mark.
    fn quoted(&mut self, span: SourceRange) -> Read<Str> {
        let place = &self.source.as_bytes()[span.start.0..span.end.0];
        let mark = place.first().copied();
        require(place.len() >= 2 && matches!(mark, Some(b'"' | b'\'')) && mark == place.last().copied(), 13)?;
        Ok(Str { span, value: self.wtf8()? })
    }

    fn attributes(&mut self, depth: usize) -> Read<Option<Box<ObjectLit>>> {
        if !self.flag()? {
            return Ok(None);
        }
        self.only(5, depth)?;
        Ok(Some(Box::new(self.properties(depth + 1)?)))
    }

    fn properties(&mut self, depth: usize) -> Read<ObjectLit> {
        let n = self.count(MAX_PROPERTIES)?;
        let mut props = Vec::new();
        for _ in 0..n {
            props.push(match self.byte_up_to(2)? {
                0 => PropOrSpread::Spread(self.boxed(depth)?),
                1 => PropOrSpread::Prop(Box::new(Prop::Other(self.boxed(depth)?))),
                _ => {
                    let key = match self.byte_up_to(2)? {
                        0 => PropName::Computed(self.boxed(depth)?),
                        1 => {
                            let nowhere = SourceRange { start: SourcePos(0), end: SourcePos(0) };
                            PropName::Str(Str { span: nowhere, value: self.wtf8()? })
                        }
                        _ => PropName::Ident(Ident { sym: Atom(self.utf8(MAX_TEXT)?) }),
                    };
                    let value = self.boxed(depth)?;
                    PropOrSpread::Prop(Box::new(Prop::KeyValue(KeyValueProp { key, value })))
                }
            });
        }
        Ok(ObjectLit { props })
    }
}

fn phase_of(byte: u8) -> ImportPhase {
    match byte {
        0 => ImportPhase::Evaluation,
        1 => ImportPhase::Source,
        _ => ImportPhase::Defer,
    }
}

/// UTF-8 with surrogates besides, of which no lead one stands right before a trail one.
fn is_wtf8(mut bytes: &[u8]) -> bool {
    let mut after_lead = false;
    loop {
        let valid = match std::str::from_utf8(bytes) {
            Ok(_) => return true,
            Err(e) => e.valid_up_to(),
        };
        let rest = &bytes[valid..];
        if rest.len() < 3 || rest[0] != 0xED || !(0xA0..=0xBF).contains(&rest[1]) || !(0x80..=0xBF).contains(&rest[2]) {
            return false;
        }
        let is_trail = rest[1] >= 0xB0;
        if is_trail && after_lead && valid == 0 {
            return false;
        }
        after_lead = !is_trail;
        bytes = &rest[3..];
    }
}

impl Sheet {
    pub fn is_uncooked(&self) -> bool {
        self.program.body.iter().any(uncooked)
    }
}

/// Refusal 9: a walked call, an import or one of the Name `require`, whose first argument is a template with an uncooked piece.
fn uncooked(node: &Expr) -> bool {
    match node {
        Expr::Other(children) => children.iter().any(uncooked),
        Expr::Tpl(n) => n.exprs.iter().any(uncooked),
        Expr::Bin(n) => uncooked(&n.left) || uncooked(&n.right),
        Expr::Object(n) => uncooked_in(n),
        Expr::Call(n) => {
            let (counts, inside) = match &n.callee {
                Callee::Import(_) => (true, false),
                Callee::Expr(e) => (matches!(&**e, Expr::Ident(i) if i.sym == "require"), uncooked(e)),
            };
            let first = match n.args.first() {
                Some(arg) => matches!(&*arg.expr, Expr::Tpl(t) if t.quasis.iter().any(|q| q.cooked.is_none())),
                None => false,
            };
            inside || n.args.iter().any(|a| uncooked(&a.expr)) || n.further.iter().any(uncooked) || counts && first
        }
        Expr::TsImportType(n) => n.children.iter().any(uncooked) || n.attributes.as_ref().is_some_and(|a| uncooked_in(&a.with)),
        Expr::TsModule(n) => n.children.iter().any(uncooked),
        Expr::Lit(_) | Expr::Ident(_) | Expr::ImportDecl(_) | Expr::NamedExport(_) | Expr::ExportAll(_) | Expr::TsImportEquals(_) => false,
    }
}

fn uncooked_in(object: &ObjectLit) -> bool {
    object.props.iter().any(|p| match p {
        PropOrSpread::Spread(e) => uncooked(e),
        PropOrSpread::Prop(p) => match &**p {
            Prop::Other(e) => uncooked(e),
            Prop::KeyValue(kv) => matches!(&kv.key, PropName::Computed(k) if uncooked(k)) || uncooked(&kv.value),
        },
    })
}
