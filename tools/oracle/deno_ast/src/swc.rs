//! swc's modules, as far as the three files use them.

pub mod atoms {
    use std::borrow::Cow;
    use std::fmt;
    use std::ops::Deref;

    #[derive(Debug, Clone, PartialEq, Eq, Hash)]
    pub struct Atom(pub String);

    impl Deref for Atom {
        type Target = str;
        fn deref(&self) -> &str {
            &self.0
        }
    }

    impl fmt::Display for Atom {
        fn fmt(&self, f: &mut fmt::Formatter<'_>) -> fmt::Result {
            f.write_str(&self.0)
        }
    }

    impl PartialEq<str> for Atom {
        fn eq(&self, other: &str) -> bool {
            self.0 == other
        }
    }

    impl PartialEq<&str> for Atom {
        fn eq(&self, other: &&str) -> bool {
            self.0 == *other
        }
    }

    /// A text in WTF-8. With no surrogate it has an exact string; else only a lossy one, with U+FFFD for each surrogate.
    #[derive(Debug, Clone, PartialEq, Eq)]
    pub struct Wtf8Atom {
        exact: Option<Atom>,
        lossy: Atom,
    }

    impl Wtf8Atom {
        /// From well-formed WTF-8.
        pub fn new(bytes: &[u8]) -> Self {
            let exact = std::str::from_utf8(bytes).ok().map(|s| Atom(s.to_string()));
            let lossy = exact.clone().unwrap_or_else(|| {
                let mut out = Vec::new();
                let mut i = 0;
                while i < bytes.len() {
                    if bytes[i] == 0xED && bytes[i + 1] >= 0xA0 {
                        out.extend_from_slice("\u{FFFD}".as_bytes());
                        i += 3;
                    } else {
                        out.push(bytes[i]);
                        i += 1;
                    }
                }
                Atom(String::from_utf8(out).expect("well-formed WTF-8"))
            });
            Wtf8Atom { exact, lossy }
        }

        pub fn is_empty(&self) -> bool {
            self.lossy.is_empty()
        }
        pub fn as_atom(&self) -> Option<&Atom> {
            self.exact.as_ref()
        }
        pub fn as_str(&self) -> Option<&str> {
            self.exact.as_deref()
        }
        pub fn to_atom_lossy(&self) -> Cow<'_, Atom> {
            Cow::Borrowed(&self.lossy)
        }
        pub fn to_string_lossy(&self) -> Cow<'_, str> {
            Cow::Borrowed(&self.lossy)
        }
    }
}

pub mod common {
    pub mod comments {
        use crate::swc::atoms::Atom;
        use crate::{SourceRange, SourceRangedForSpanned};

        #[derive(Debug, Clone, Copy, PartialEq, Eq)]
        pub enum CommentKind {
            Line,
            Block,
        }

        #[derive(Debug, Clone)]
        pub struct Comment {
            pub kind: CommentKind,
            pub span: SourceRange,
            /// Without its marks.
            pub text: Atom,
        }

        impl SourceRangedForSpanned for Comment {
            fn range(&self) -> SourceRange {
                self.span
            }
        }
    }
}

/// The nodes of a sheet under swc's names. `Expr` holds every node, since a sheet's children may be any.
pub mod ast {
    use super::atoms::{Atom, Wtf8Atom};
    use crate::{FirstItem, SourceRange, SourceRangedForSpanned};

    pub struct Program {
        pub span: SourceRange,
        pub shebang: bool,
        pub first_item: Option<FirstItem>,
        /// The root.
        pub body: Vec<ModuleItem>,
    }

    pub struct Module(pub Program);
    pub struct Script(pub Program);
    pub type ModuleItem = Expr;
    pub enum Stmt {}

    #[derive(Clone, Copy, PartialEq, Eq)]
    pub enum ImportPhase {
        Evaluation,
        Source,
        Defer,
    }

    pub enum Expr {
        Other(Vec<Expr>),
        Lit(Lit),
        Ident(Ident),
        Tpl(Tpl),
        Bin(BinExpr),
        Object(ObjectLit),
        Call(CallExpr),
        ImportDecl(ImportDecl),
        NamedExport(NamedExport),
        ExportAll(ExportAll),
        TsImportType(TsImportType),
        TsImportEquals(TsImportEqualsDecl),
        TsModule(TsModuleDecl),
    }

    pub enum Lit {
        Str(Str),
        /// Never made: to a sheet any other literal is Other.
        Other,
    }

    pub struct Str {
        pub span: SourceRange,
        pub value: Wtf8Atom,
    }

    pub struct Ident {
        pub sym: Atom,
    }

    pub struct Tpl {
        pub exprs: Vec<Expr>,
        pub quasis: Vec<TplElement>,
    }

    pub struct TplElement {
        pub cooked: Option<Wtf8Atom>,
    }

    #[derive(Clone, Copy, PartialEq, Eq)]
    pub enum BinaryOp {
        Add,
        Other,
    }

    pub struct BinExpr {
        pub op: BinaryOp,
        pub left: Box<Expr>,
        pub right: Box<Expr>,
    }

    pub struct ObjectLit {
        pub props: Vec<PropOrSpread>,
    }

    pub enum PropOrSpread {
        Spread(Box<Expr>),
        Prop(Box<Prop>),
    }

    pub enum Prop {
        Other(Box<Expr>),
        KeyValue(KeyValueProp),
    }

    pub struct KeyValueProp {
        pub key: PropName,
        pub value: Box<Expr>,
    }

    pub enum PropName {
        Computed(Box<Expr>),
        Str(Str),
        Ident(Ident),
    }

    pub enum Callee {
        Import(Import),
        Expr(Box<Expr>),
    }

    pub struct Import {
        pub phase: ImportPhase,
    }

    pub struct ExprOrSpread {
        pub spread: Option<()>,
        pub span: SourceRange,
        pub expr: Box<Expr>,
    }

    pub struct CallExpr {
        pub span: SourceRange,
        pub callee: Callee,
        pub args: Vec<ExprOrSpread>,
        /// Type arguments and the like.
        pub further: Vec<Expr>,
    }

    pub struct ImportDecl {
        pub span: SourceRange,
        pub type_only: bool,
        pub phase: ImportPhase,
        /// Empty for a side effect only.
        pub specifiers: Vec<()>,
        pub src: Box<Str>,
        pub with: Option<Box<ObjectLit>>,
    }

    pub struct NamedExport {
        pub span: SourceRange,
        pub type_only: bool,
        pub src: Option<Box<Str>>,
        pub with: Option<Box<ObjectLit>>,
    }

    pub struct ExportAll {
        pub span: SourceRange,
        pub type_only: bool,
        pub src: Box<Str>,
        pub with: Option<Box<ObjectLit>>,
    }

    pub struct TsImportType {
        pub span: SourceRange,
        pub arg: Str,
        pub children: Vec<Expr>,
        pub attributes: Option<TsImportCallOptions>,
    }

    pub struct TsImportCallOptions {
        pub with: Box<ObjectLit>,
    }

    pub struct TsImportEqualsDecl {
        pub span: SourceRange,
        pub is_type_only: bool,
        pub is_export: bool,
        pub module_ref: TsModuleRef,
    }

    pub enum TsModuleRef {
        TsEntityName,
        TsExternalModuleRef(TsExternalModuleRef),
    }

    pub struct TsExternalModuleRef {
        pub expr: Str,
    }

    pub struct TsModuleDecl {
        pub span: SourceRange,
        pub id: TsModuleName,
        pub children: Vec<Expr>,
    }

    pub enum TsModuleName {
        Ident,
        Str(Str),
    }

    impl TsModuleName {
        pub fn as_str(&self) -> Option<&Str> {
            match self {
                TsModuleName::Ident => None,
                TsModuleName::Str(s) => Some(s),
            }
        }
    }

    macro_rules! spanned {
        ($($name:ident),*) => {
            $(impl SourceRangedForSpanned for $name {
                fn range(&self) -> SourceRange {
                    self.span
                }
            })*
        };
    }
    spanned!(Str, ExprOrSpread, CallExpr, ImportDecl, NamedExport, ExportAll, TsImportType, TsImportEqualsDecl, TsModuleDecl);
}

/// The walk: children in the sheet's order, an Object of an import type last.
pub mod ecma_visit {
    use super::ast::*;

    pub trait Visit: Sized {
        fn visit_module_items(&mut self, items: &[ModuleItem]) {
            items.visit_children_with(self);
        }
        fn visit_stmts(&mut self, items: &[Stmt]) {
            items.visit_children_with(self);
        }
        fn visit_call_expr(&mut self, node: &CallExpr) {
            node.visit_children_with(self);
        }
        fn visit_import_decl(&mut self, _: &ImportDecl);
        fn visit_named_export(&mut self, _: &NamedExport);
        fn visit_export_all(&mut self, _: &ExportAll);
        fn visit_ts_import_type(&mut self, node: &TsImportType) {
            node.visit_children_with(self);
        }
        fn visit_ts_import_equals_decl(&mut self, _: &TsImportEqualsDecl);
        fn visit_ts_module_decl(&mut self, node: &TsModuleDecl) {
            node.visit_children_with(self);
        }
    }

    pub trait VisitWith<V: Visit> {
        fn visit_with(&self, v: &mut V);
        fn visit_children_with(&self, v: &mut V);
    }

    fn each<V: Visit>(nodes: &[Expr], v: &mut V) {
        for n in nodes {
            n.visit_with(v);
        }
    }

    fn object<V: Visit>(n: &ObjectLit, v: &mut V) {
        for p in &n.props {
            match p {
                PropOrSpread::Spread(e) => e.visit_with(v),
                PropOrSpread::Prop(p) => match &**p {
                    Prop::Other(e) => e.visit_with(v),
                    Prop::KeyValue(kv) => {
                        if let PropName::Computed(key) = &kv.key {
                            key.visit_with(v);
                        }
                        kv.value.visit_with(v);
                    }
                },
            }
        }
    }

    impl<V: Visit> VisitWith<V> for Expr {
        fn visit_with(&self, v: &mut V) {
            match self {
                Expr::Call(n) => v.visit_call_expr(n),
                Expr::ImportDecl(n) => v.visit_import_decl(n),
                Expr::NamedExport(n) => v.visit_named_export(n),
                Expr::ExportAll(n) => v.visit_export_all(n),
                Expr::TsImportType(n) => v.visit_ts_import_type(n),
                Expr::TsImportEquals(n) => v.visit_ts_import_equals_decl(n),
                Expr::TsModule(n) => v.visit_ts_module_decl(n),
                n => n.visit_children_with(v),
            }
        }

        fn visit_children_with(&self, v: &mut V) {
            match self {
                Expr::Other(children) => each(children, v),
                Expr::Tpl(n) => each(&n.exprs, v),
                Expr::Bin(n) => {
                    n.left.visit_with(v);
                    n.right.visit_with(v);
                }
                Expr::Object(n) => object(n, v),
                _ => {}
            }
        }
    }

    macro_rules! children {
        ($name:ty, $visit:ident, |$n:ident, $v:ident| $body:block) => {
            impl<V: Visit> VisitWith<V> for $name {
                fn visit_with(&self, v: &mut V) {
                    v.$visit(self);
                }
                fn visit_children_with(&self, $v: &mut V) {
                    let $n = self;
                    $body
                }
            }
        };
    }

    children!(CallExpr, visit_call_expr, |n, v| {
        if let Callee::Expr(e) = &n.callee {
            e.visit_with(v);
        }
        for arg in &n.args {
            arg.expr.visit_with(v);
        }
        each(&n.further, v);
    });
    children!(TsImportType, visit_ts_import_type, |n, v| {
        each(&n.children, v);
        if let Some(a) = &n.attributes {
            object(&a.with, v);
        }
    });
    children!(TsModuleDecl, visit_ts_module_decl, |n, v| { each(&n.children, v) });
    children!([ModuleItem], visit_module_items, |items, v| { each(items, v) });
    children!([Stmt], visit_stmts, |_items, _v| {});

    impl<V: Visit> VisitWith<V> for Module {
        fn visit_with(&self, v: &mut V) {
            v.visit_module_items(&self.0.body);
        }
        fn visit_children_with(&self, v: &mut V) {
            self.visit_with(v);
        }
    }

    impl<V: Visit> VisitWith<V> for Script {
        fn visit_with(&self, v: &mut V) {
            v.visit_module_items(&self.0.body);
        }
        fn visit_children_with(&self, v: &mut V) {
            self.visit_with(v);
        }
    }
}
