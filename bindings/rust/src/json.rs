//! Module information as JSON, in the form that deno_graph's own serialisation gives it.

use crate::analysis::*;

impl ModuleInfo {
    /// The JSON that deno_graph prints for this module information, on one line. Attributes have their keys in ascending order, where
    /// deno_graph has them in any.
    ///
    /// ```
    /// use module_info::ModuleInfo;
    ///
    /// assert_eq!(ModuleInfo { is_script: true, ..ModuleInfo::default() }.to_json(), r#"{"script":true}"#);
    /// ```
    pub fn to_json(&self) -> String {
        let mut object = Object::new();
        object.flag("script", self.is_script);
        object.list("dependencies", &self.dependencies, dependency);
        object.list("tsReferences", &self.ts_references, reference);
        object.optional("selfTypesSpecifier", &self.self_types_specifier, specifier);
        object.optional("jsxImportSource", &self.jsx_import_source, specifier);
        object.optional("jsxImportSourceTypes", &self.jsx_import_source_types, specifier);
        object.list("jsdocImports", &self.jsdoc_imports, |i| typed(Object::new(), &i.specifier, i.resolution_mode));
        object.optional("sourceMapUrl", &self.source_map_url, specifier);
        object.end()
    }
}

/// A JSON string.
///
/// ```
/// assert_eq!(module_info::json_string("a\"\\\n\u{1}é"), r#""a\"\\\n\u0001é""#);
/// ```
pub fn json_string(text: &str) -> String {
    let mut out = String::from('"');
    for c in text.chars() {
        match c {
            '"' | '\\' => out.extend(['\\', c]),
            '\u{8}' => out.push_str("\\b"),
            '\t' => out.push_str("\\t"),
            '\n' => out.push_str("\\n"),
            '\u{C}' => out.push_str("\\f"),
            '\r' => out.push_str("\\r"),
            '\0'..' ' => out.push_str(&format!("\\u{:04x}", u32::from(c))),
            _ => out.push(c),
        }
    }
    out.push('"');
    out
}

/// An object that is being written. What deno_graph leaves out is left out: false flags, empty lists, absent things.
struct Object(String);

impl Object {
    fn new() -> Object {
        Object(String::new())
    }

    fn of_type(name: &str) -> Object {
        let mut object = Object::new();
        object.text("type", name);
        object
    }

    fn member(&mut self, key: &str, value: &str) {
        let comma = if self.0.is_empty() { "" } else { "," };
        self.0 += &format!("{comma}{}:{value}", json_string(key));
    }

    fn text(&mut self, key: &str, text: &str) {
        self.member(key, &json_string(text));
    }

    fn flag(&mut self, key: &str, flag: bool) {
        if flag {
            self.member(key, "true");
        }
    }

    fn optional<T>(&mut self, key: &str, item: &Option<T>, write: impl Fn(&T) -> String) {
        item.iter().for_each(|item| self.member(key, &write(item)));
    }

    fn list<T>(&mut self, key: &str, items: &[T], write: impl Fn(&T) -> String) {
        if !items.is_empty() {
            self.member(key, &array(items, write));
        }
    }

    fn attributes(&mut self, attributes: &ImportAttributes) {
        match attributes {
            ImportAttributes::None => {}
            ImportAttributes::Unknown => self.text("importAttributes", "unknown"),
            ImportAttributes::Known(map) => {
                let mut pairs: Vec<_> = map.iter().collect();
                pairs.sort_by_key(|(key, _)| key.as_bytes());
                let mut known = Object::new();
                for (key, value) in pairs {
                    match value {
                        ImportAttribute::Unknown => known.member(key, "null"),
                        ImportAttribute::Known(text) => known.text(key, text),
                    }
                }
                let mut outer = Object::new();
                outer.member("known", &known.end());
                self.member("importAttributes", &outer.end());
            }
        }
    }

    fn end(self) -> String {
        format!("{{{}}}", self.0)
    }
}

fn array<T>(items: &[T], write: impl Fn(&T) -> String) -> String {
    format!("[{}]", items.iter().map(write).collect::<Vec<_>>().join(","))
}

fn range(r: &PositionRange) -> String {
    format!("[[{},{}],[{},{}]]", r.start.line, r.start.character, r.end.line, r.end.character)
}

fn specifier(s: &SpecifierWithRange) -> String {
    typed(Object::new(), s, None)
}

fn typed(mut object: Object, s: &SpecifierWithRange, mode: Option<TypeScriptTypesResolutionMode>) -> String {
    object.text("text", &s.text);
    object.member("range", &range(&s.range));
    match mode {
        None => {}
        Some(TypeScriptTypesResolutionMode::Import) => object.text("resolutionMode", "import"),
        Some(TypeScriptTypesResolutionMode::Require) => object.text("resolutionMode", "require"),
    }
    object.end()
}

fn reference(r: &TypeScriptReference) -> String {
    match r {
        TypeScriptReference::Path(s) => typed(Object::of_type("path"), s, None),
        TypeScriptReference::Types { specifier, resolution_mode } => typed(Object::of_type("types"), specifier, *resolution_mode),
    }
}

fn dependency(d: &DependencyDescriptor) -> String {
    match d {
        DependencyDescriptor::Static(d) => {
            let mut object = Object::of_type("static");
            object.text("kind", static_kind(d.kind));
            object.optional("typesSpecifier", &d.types_specifier, specifier);
            object.text("specifier", &d.specifier);
            object.member("specifierRange", &range(&d.specifier_range));
            object.flag("sideEffect", d.is_side_effect);
            object.attributes(&d.import_attributes);
            object.end()
        }
        DependencyDescriptor::Dynamic(d) => {
            let mut object = Object::of_type("dynamic");
            match d.kind {
                DynamicDependencyKind::Import => {}
                DynamicDependencyKind::ImportDefer => object.text("kind", "importDefer"),
                DynamicDependencyKind::ImportSource => object.text("kind", "importSource"),
                DynamicDependencyKind::Require => object.text("kind", "require"),
            }
            object.optional("typesSpecifier", &d.types_specifier, specifier);
            match &d.argument {
                DynamicArgument::Expr => {}
                DynamicArgument::String(text) => object.text("argument", text),
                DynamicArgument::Template(parts) => object.member("argument", &array(parts, part)),
            }
            object.member("argumentRange", &range(&d.argument_range));
            object.attributes(&d.import_attributes);
            object.end()
        }
    }
}

fn static_kind(kind: StaticDependencyKind) -> &'static str {
    match kind {
        StaticDependencyKind::Import => "import",
        StaticDependencyKind::ImportDefer => "importDefer",
        StaticDependencyKind::ImportSource => "importSource",
        StaticDependencyKind::ImportType => "importType",
        StaticDependencyKind::ImportEquals => "importEquals",
        StaticDependencyKind::Export => "export",
        StaticDependencyKind::ExportType => "exportType",
        StaticDependencyKind::ExportEquals => "exportEquals",
        StaticDependencyKind::MaybeTsModuleAugmentation => "maybeTsModuleAugmentation",
    }
}

fn part(part: &DynamicTemplatePart) -> String {
    match part {
        DynamicTemplatePart::Expr => Object::of_type("expr").end(),
        DynamicTemplatePart::String { value } => {
            let mut object = Object::of_type("string");
            object.text("value", value);
            object.end()
        }
    }
}
