//! Request #112: each pair of a rule and an offset beside a report, checked with the crate's own finders and JSDoc parsers.

use deno_ast::swc::common::comments::{Comment, CommentKind};
use deno_ast::{SourceRangedForSpanned, SourceTextInfo};
use deno_graph::analysis::*;
use deno_graph::ast::{ReadImport, brace_from, declaration_from, place_in_comment};

use crate::sheet;

const BRACE: u8 = 6;
const DECLARATION: u8 = 7;

/// An entry of a report that a comment gives.
#[derive(Debug, PartialEq)]
struct Entry {
    specifier: SpecifierWithRange,
    /// Of a path and of a pragma none.
    mode: Option<TypeScriptTypesResolutionMode>,
}

fn plain(specifier: &SpecifierWithRange) -> Entry {
    Entry { specifier: specifier.clone(), mode: None }
}

/// The entries in the report's order, each with the rules that may be named for it.
fn entries(info: &ModuleInfo) -> Vec<(&'static [u8], Entry)> {
    let mut all: Vec<(&'static [u8], Entry)> = Vec::new();
    for d in &info.dependencies {
        let types = match d {
            DependencyDescriptor::Static(d) => &d.types_specifier,
            DependencyDescriptor::Dynamic(d) => &d.types_specifier,
        };
        all.extend(types.iter().map(|s| (&[9, 10][..], plain(s))));
    }
    all.extend(info.ts_references.iter().map(|r| match r {
        TypeScriptReference::Path(s) => (&[1][..], plain(s)),
        TypeScriptReference::Types { specifier, resolution_mode } => {
            (&[2][..], Entry { specifier: specifier.clone(), mode: resolution_mode.clone() })
        }
    }));
    all.extend(info.self_types_specifier.iter().map(|s| (&[3][..], plain(s))));
    all.extend(info.jsx_import_source.iter().map(|s| (&[4][..], plain(s))));
    all.extend(info.jsx_import_source_types.iter().map(|s| (&[5][..], plain(s))));
    all.extend(
        info.jsdoc_imports
            .iter()
            .map(|i| (&[BRACE, DECLARATION][..], Entry { specifier: i.specifier.clone(), mode: i.resolution_mode.clone() })),
    );
    all.extend(info.source_map_url.iter().map(|s| (&[8][..], plain(s))));
    all
}

/// What the rule's finder yields in a comment, which for 1, 2, 4 and 5 is of the kind that the crate asks for.
fn found(rule: u8, c: &Comment, text_info: &SourceTextInfo) -> Option<Entry> {
    let text: &str = &c.text;
    let is_reference = c.kind == CommentKind::Line && is_comment_triple_slash_reference(text);
    let is_block = c.kind == CommentKind::Block;
    let mut mode = None;
    let (found, is_quoteless) = match rule {
        1 if is_reference => (find_path_reference(text)?, false),
        2 if is_reference => {
            mode = find_resolution_mode(text).and_then(|m| TypeScriptTypesResolutionMode::from_str(m.as_str()));
            (find_types_reference(text)?, false)
        }
        3 => (find_ts_self_types(text)?, false),
        4 if is_block => (find_jsx_import_source(text)?, true),
        5 if is_block => (find_jsx_import_source_types(text)?, true),
        8 => (find_source_mapping_url(text)?, true),
        9 => (find_ts_types(text)?, false),
        10 => {
            let m = find_deno_types(text)?;
            let range = place_in_comment(c.start(), m.range, text_info, m.is_quoteless);
            return Some(Entry { specifier: SpecifierWithRange { text: m.text.to_string(), range }, mode });
        }
        _ => return None,
    };
    let range = place_in_comment(c.start(), found.range(), text_info, is_quoteless);
    Some(Entry { specifier: SpecifierWithRange { text: found.as_str().to_string(), range }, mode })
}

/// What a JSDoc parser yields from a place of a star-opened comment's text on.
fn parsed(parser: fn(&str) -> Option<ReadImport>, c: &Comment, at: usize, text_info: &SourceTextInfo) -> Option<Entry> {
    let text: &str = &c.text;
    if c.kind != CommentKind::Block || !text.starts_with('*') {
        return None;
    }
    let (specifier, range, mode) = parser(text.get(at..)?)?;
    let range = place_in_comment(c.start(), at + range.start..at + range.end, text_info, false);
    Some(Entry { specifier: SpecifierWithRange { text: specifier, range }, mode })
}

/// The number in seven-bit groups at the front, in its shortest form.
fn number(bytes: &mut &[u8]) -> Option<usize> {
    let mut value = 0;
    for group in 0..5 {
        let (b, rest) = bytes.split_first()?;
        *bytes = rest;
        value |= usize::from(b & 0x7F) << (7 * group);
        if *b < 0x80 {
            return (group == 0 || *b != 0).then_some(value);
        }
    }
    None
}

/// What is wrong with a pair, or nothing.
fn wrong(rule: u8, offset: usize, entry: &Entry, comments: &[&Comment], text_info: &SourceTextInfo) -> Option<&'static str> {
    if rule != BRACE && rule != DECLARATION {
        let Some(c) = comments.iter().find(|c| c.start().0 == offset) else { return Some("no comment starts there") };
        if rule == 10 && find_ts_types(&c.text).is_some() || rule == 1 && find_types_reference(&c.text).is_some() {
            return Some("the rule before it has a reading");
        }
        return (found(rule, c, text_info).as_ref() != Some(entry)).then_some("the finder does not yield the entry");
    }
    let inside = |c: &&&Comment| c.start().0 + 2 <= offset && offset < c.end().0;
    let Some(c) = comments.iter().find(inside) else { return Some("no comment is there") };
    let at = offset - c.start().0 - 2;
    let parser = if rule == BRACE { brace_from } else { declaration_from };
    if parsed(parser, c, at, text_info).as_ref() != Some(entry) {
        return Some("the parser does not yield the entry");
    }
    let same = |other: Option<Entry>| other.is_some_and(|other| other.specifier.range == entry.specifier.range);
    let reads = |j: &usize| same(parsed(brace_from, c, *j, text_info)) || same(parsed(declaration_from, c, *j, text_info));
    c.text[..at].match_indices(['{', '@']).map(|(j, _)| j).find(reads).map(|_| "a smaller offset reads it")
}

/// How often each rule is named; or what is wrong. The sheet is accepted, and `info` is the crate's own.
pub fn check(sheet: &[u8], info: &ModuleInfo, mut rules: &[u8]) -> Result<[usize; 11], String> {
    let mut counts = [0; 11];
    // no bytes have no entries
    let Ok(sheet) = sheet::decode(sheet) else { return if rules.is_empty() { Ok(counts) } else { Err("rules of no bytes".into()) } };
    let text_info = SourceTextInfo::new(sheet.source);
    let comments: Vec<&Comment> = sheet.comments.iter_unstable().collect();
    for (index, (allowed, entry)) in entries(info).iter().enumerate() {
        let Some((rule, rest)) = rules.split_first() else { return Err(format!("entry {index}: there is no rule")) };
        rules = rest;
        let Some(offset) = number(&mut rules) else { return Err(format!("entry {index}: the offset is no number")) };
        let message =
            if allowed.contains(rule) { wrong(*rule, offset, entry, &comments, &text_info) } else { Some("the rule is not for it") };
        if let Some(message) = message {
            return Err(format!("entry {index}, {:?}: rule {rule} at {offset}: {message}", entry.specifier.text));
        }
        counts[usize::from(*rule)] += 1;
    }
    if rules.is_empty() { Ok(counts) } else { Err(format!("{} bytes follow the rules", rules.len())) }
}
