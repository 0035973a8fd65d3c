
// Not deno_graph's: tools/oracle/build puts these lines behind the crate's src/ast/mod.rs, so that the oracle can run its two JSDoc parsers from one
// place of a comment and its way from a range of a comment to positions (request #112).

/// An import that a parser reads at the front of its input: text, range in the input, mode.
pub type ReadImport = (String, std::ops::Range<usize>, Option<TypeScriptTypesResolutionMode>);

pub fn brace_from(input: &str) -> Option<ReadImport> {
  parse_jsdoc_dynamic_import(input).ok().map(|(_, i)| (i.specifier, i.specifier_range, i.resolution_mode))
}

pub fn declaration_from(input: &str) -> Option<ReadImport> {
  parse_jsdoc_import_decl(input).ok().map(|(_, i)| (i.specifier, i.specifier_range, i.resolution_mode))
}

pub fn place_in_comment(start: SourcePos, range: std::ops::Range<usize>, text_info: &SourceTextInfo, is_quoteless: bool) -> PositionRange {
  comment_source_to_position_range(start, range, text_info, is_quoteless)
}
