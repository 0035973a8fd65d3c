//! Each entry that a comment gives, with the rule that read it (document 01, "Rules of the entries").

use crate::analysis::{ModuleInfo, SpecifierWithRange};
use crate::refusal::Refusal;

unsafe extern "C" {
    /// The number (0, or that of the refusal). Writes every byte of both buffers, and the lengths of what it wrote.
    #[link_name = "module_info_with_rules"]
    fn answer_with_rules(sheet: *const u8, n: usize, buffer: *mut u8, m: usize, rules: *mut u8, k: usize, lengths: *mut [u64; 2]) -> u64;
}

/// The rules by document 01's numbers.
#[derive(Debug, Clone, Copy, PartialEq, Eq, PartialOrd, Ord, Hash)]
#[repr(u8)]
pub enum EntryRule {
    Path = 1,
    Types = 2,
    SelfTypes = 3,
    JsxImportSource = 4,
    JsxImportSourceTypes = 5,
    /// A JSDoc import from a `{`.
    Brace = 6,
    /// A JSDoc import from an `@import`.
    Declaration = 7,
    SourceMap = 8,
    /// The types specifier of a dependency, as is the next one.
    TsTypes = 9,
    DenoTypes = 10,
}

impl EntryRule {
    pub const ALL: [EntryRule; 10] = [
        EntryRule::Path,
        EntryRule::Types,
        EntryRule::SelfTypes,
        EntryRule::JsxImportSource,
        EntryRule::JsxImportSourceTypes,
        EntryRule::Brace,
        EntryRule::Declaration,
        EntryRule::SourceMap,
        EntryRule::TsTypes,
        EntryRule::DenoTypes,
    ];

    /// The rule of a number.
    pub fn from_number(number: u8) -> Option<EntryRule> {
        EntryRule::ALL.into_iter().find(|r| r.number() == number)
    }

    /// Document 01's number.
    pub fn number(self) -> u8 {
        self as u8
    }
}

/// How an entry was found.
#[derive(Debug, Clone, Copy, PartialEq, Eq, Hash)]
pub struct Origin {
    pub rule: EntryRule,
    /// A byte of the source: where the comment starts; for a brace or a declaration the smallest `{` or `@import` from which the entry is read.
    pub offset: usize,
}

impl ModuleInfo {
    /// The entries that comments give, in the report's order, which is that of the origins: the types specifiers of dependencies, references, self
    /// types, JSX source, its types, JSDoc imports, source map.
    pub fn from_comments(&self) -> impl Iterator<Item = &SpecifierWithRange> {
        let types = self.dependencies.iter().filter_map(|d| d.types_specifier());
        let references = self.ts_references.iter().map(|r| r.specifier());
        let pragmas = [&self.self_types_specifier, &self.jsx_import_source, &self.jsx_import_source_types].into_iter().flatten();
        let jsdoc = self.jsdoc_imports.iter().map(|i| &i.specifier);
        types.chain(references).chain(pragmas).chain(jsdoc).chain(&self.source_map_url)
    }
}

/// The same report as [`module_info`](crate::module_info()) writes, and in `rules` the rule of each entry that a comment gives. Answers both lengths;
/// every byte behind either is 0. On a refusal both buffers are 0; [`Refusal::Rules`] is judged after [`Refusal::Buffer`]. A second buffer as long
/// as the first is always enough (counted, not proved). No bytes have no rules.
///
/// ```
/// use module_info::{EntryRule, ModuleInfo, Origin, Refusal, module_info_with_rules};
///
/// let source = br#"/** {{import("./a.ts").A}} */"#;
/// let end = source.len() as u8;
/// let mut sheet = vec![0, end]; // JavaScript
/// sheet.extend(source);
/// sheet.extend([1, 1, 0, end]); // one comment: a block
/// sheet.extend([1, 0, end, 0, 1]); // one group: it leads the end
/// sheet.extend([0, end, end, 0, 0, 0, end, end, 0]); // the program and its root
///
/// let (mut buffer, mut rules) = ([0; 64], [0; 64]);
/// let (length, rules_length) = module_info_with_rules(&sheet, &mut buffer, &mut rules)?;
/// let info = ModuleInfo::decode(&buffer[..length])?;
/// let origins = Origin::decode_all(&rules[..rules_length])?;
/// assert_eq!(origins, [Origin { rule: EntryRule::Brace, offset: 4 }]); // the first of the two braces
/// assert_eq!(info.from_comments().map(|s| &*s.text).collect::<Vec<_>>(), ["./a.ts"]);
///
/// assert_eq!(module_info_with_rules(&sheet, &mut buffer, &mut rules[..1]), Err(Refusal::Rules));
/// assert_eq!((buffer, rules[0]), ([0; 64], 0));
/// assert_eq!(module_info_with_rules(b"", &mut buffer, &mut []), Ok((8, 0)));
/// # Ok::<(), Box<dyn std::error::Error>>(())
/// ```
pub fn module_info_with_rules(sheet: &[u8], buffer: &mut [u8], rules: &mut [u8]) -> Result<(usize, usize), Refusal> {
    let (n, m, k) = (sheet.len(), buffer.len(), rules.len());
    let mut lengths = [0; 2];
    // SAFETY: the slices are valid for their lengths and overlap neither each other nor the lengths, and the function keeps none.
    let answer = unsafe { answer_with_rules(sheet.as_ptr(), n, buffer.as_mut_ptr(), m, rules.as_mut_ptr(), k, &mut lengths) };
    if let Some(refusal) = u8::try_from(answer).ok().and_then(Refusal::from_number) {
        return Err(refusal);
    }
    let [length, rules_length] = lengths.map(|n| n as usize);
    assert!(answer == 0 && length <= m && rules_length <= k, "the linked library does not answer as document 01 says");
    Ok((length, rules_length))
}
