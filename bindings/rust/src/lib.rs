//! Which modules a JavaScript or TypeScript module asks for, in code and in comments, as deno_graph 0.111.1 answers it.
//!
//! A parser hands over a *sheet*: source, comments and syntax tree, in bytes. The answer is a *report* in a buffer that the caller lends.
//! docs/01-scope.md defines both. The work is done by a proved static library; this crate calls it and decodes its reports.
//!
//! ```
//! use module_info::{ModuleInfo, Position, PositionRange, Refusal, module_info};
//!
//! let source = br#"/** {import("./a.ts").A} */"#;
//! let mut sheet = vec![0, 27]; // JavaScript; the source has 27 bytes
//! sheet.extend(source);
//! sheet.extend([1, 1, 0, 27]); // one comment: a block, from 0 to 27
//! sheet.extend([1, 0, 27, 0, 1]); // one group: it leads position 27, from comment 0 on, one comment
//! sheet.extend([0, 27, 27, 0, 0]); // the program: a module, from 27 to 27, no shebang, no first item
//! sheet.extend([0, 27, 27, 0]); // the root: Other, from 27 to 27, no children
//!
//! let mut buffer = [0; 64];
//! let length = module_info(&sheet, &mut buffer)?;
//! let info = ModuleInfo::decode(&buffer[..length])?;
//!
//! let [import] = &info.jsdoc_imports[..] else { panic!("one import") };
//! assert_eq!(import.specifier.text, "./a.ts");
//! assert_eq!(
//!     import.specifier.range,
//!     PositionRange { start: Position { line: 0, character: 12 }, end: Position { line: 0, character: 20 } }
//! );
//! assert_eq!(import.resolution_mode, None);
//!
//! // a refusal leaves zeros
//! let mut short = [7; 20];
//! assert_eq!(module_info(&sheet, &mut short), Err(Refusal::Buffer));
//! assert_eq!(short, [0; 20]);
//! # Ok::<(), Box<dyn std::error::Error>>(())
//! ```

mod analysis;
mod decode;
mod json;
mod refusal;
mod rules;
mod sheet;
mod sheet_decode;
mod sheet_encode;

pub use analysis::*;
pub use decode::{DecodeError, Problem};
pub use json::json_string;
pub use refusal::Refusal;
pub use rules::{EntryRule, Origin, module_info_with_rules};
pub use sheet::*;
pub use sheet_encode::OutOfForm;

/// The longest sheet that is not refused.
pub const MAX_SHEET: usize = 65_536;

unsafe extern "C" {
    /// The number (0, or that of the refusal) and 256 times the report's length. Writes every byte of the buffer.
    fn module_info_answer(sheet: *const u8, n: usize, buffer: *mut u8, m: usize) -> u64;
    /// The same. Writes every number of the notes as well.
    fn module_info_with_replaced_answer(sheet: *const u8, n: usize, buffer: *mut u8, m: usize, notes: *mut usize, k: usize) -> u64;

    /// That of the refusal; else 256 where there is a source map, and 0 where there is none. Writes the six places.
    fn module_info_source_map(sheet: *const u8, n: usize, places: *mut [u64; 6]) -> u64;
}

/// Writes the report of a sheet into `buffer` and answers its length; every byte behind the report becomes 0.
/// A refusal is the first that document 01's order names, and then the whole buffer is 0.
/// The call runs on a thread with 128 KiB of stack: measured on the deepest sheets of every form, not proved.
///
/// What the buffer held before does not matter. No bytes are no sheet: their report is that of the default information, eight zero bytes.
///
/// ```
/// use module_info::{ModuleInfo, Refusal, module_info};
///
/// let mut buffer = [1; 9];
/// assert_eq!(module_info(b"", &mut buffer), Ok(8));
/// assert_eq!(buffer, [0; 9]);
/// assert_eq!(ModuleInfo::decode(&buffer[..8]), Ok(ModuleInfo::default()));
/// assert_eq!(module_info(b"", &mut buffer[..7]), Err(Refusal::Buffer));
/// assert_eq!(module_info(&[11], &mut buffer), Err(Refusal::Byte)); // no such media
/// ```
pub fn module_info(sheet: &[u8], buffer: &mut [u8]) -> Result<usize, Refusal> {
    // SAFETY: both slices are valid for their lengths and do not overlap, and the function keeps neither.
    let answer = unsafe { module_info_answer(sheet.as_ptr(), sheet.len(), buffer.as_mut_ptr(), buffer.len()) };
    unpacked(answer, buffer.len())
}

/// The same, with two numbers for each dependency: the byte of the source at which its node starts, and how many characters were replaced in its
/// text, since a lone surrogate is reported as U+FFFD. The first of the notes says how many numbers follow it, those of the dependencies in order, as
/// far as there is room for both; all else is 0, and all of them after a refusal.
///
/// ```
/// use module_info::module_info_with_replaced;
///
/// let mut buffer = [1; 9];
/// let mut notes = [7; 3];
/// assert_eq!(module_info_with_replaced(b"", &mut buffer, &mut notes), Ok(8));
/// assert_eq!(notes, [0; 3]);
/// ```
pub fn module_info_with_replaced(sheet: &[u8], buffer: &mut [u8], notes: &mut [usize]) -> Result<usize, Refusal> {
    let (n, m, k) = (sheet.len(), buffer.len(), notes.len());
    // SAFETY: the slices are valid for their lengths and do not overlap, and the function keeps none.
    let answer = unsafe { module_info_with_replaced_answer(sheet.as_ptr(), n, buffer.as_mut_ptr(), m, notes.as_mut_ptr(), k) };
    unpacked(answer, m)
}

/// Number and length in one, with a buffer of m bytes.
fn unpacked(answer: u64, m: usize) -> Result<usize, Refusal> {
    let (number, length) = ((answer % 256) as u8, (answer / 256) as usize);
    match Refusal::from_number(number) {
        Some(refusal) => Err(refusal),
        None => {
            assert!(number == 0 && length <= m, "the linked library does not answer as document 01 says");
            Ok(length)
        }
    }
}

/// The source map of a sheet as ECMA-426 names it: the last comment that reads in the trailing group at the program's end. That of the report,
/// `ModuleInfo::source_map_url`, goes by the Rust's pattern; docs/DIFFERENCES.md has the ways in which the two differ.
/// A refusal is the report's, and never [`Refusal::Buffer`]. No bytes have none.
///
/// ```
/// use module_info::{Position, Refusal, source_map};
///
/// let source = "/*# sourceMappingURL=a.map */";
/// let end = source.len() as u8;
/// let mut sheet = vec![4, end]; // TypeScript
/// sheet.extend(source.as_bytes());
/// sheet.extend([1, 1, 0, end]); // one comment: a block
/// sheet.extend([1, 1, end, 0, 1]); // one group: it trails the end
/// sheet.extend([0, 0, end, 0, 0, 0, 0, end, 0]); // the program and its root
///
/// let map = source_map(&sheet)?.expect("a source map");
/// assert_eq!(map.text, "a.map");
/// assert_eq!((map.range.start, map.range.end), (Position { line: 0, character: 21 }, Position { line: 0, character: 26 }));
///
/// sheet[2 + 21 - 1] = b' '; // no `=` behind the word
/// assert_eq!(source_map(&sheet), Ok(None));
/// assert_eq!(source_map(b""), Ok(None));
/// assert_eq!(source_map(&sheet[..9]), Err(Refusal::CutOff));
/// # Ok::<(), Refusal>(())
/// ```
pub fn source_map(sheet: &[u8]) -> Result<Option<SpecifierWithRange>, Refusal> {
    let mut places = [0; 6];
    // SAFETY: the slice is valid for its length and does not overlap the places, and the function keeps neither.
    let answer = unsafe { module_info_source_map(sheet.as_ptr(), sheet.len(), &mut places) };
    if let Some(refusal) = u8::try_from(answer).ok().and_then(Refusal::from_number) {
        return Err(refusal);
    }
    let [from, to, start_line, start_column, end_line, end_column] = places.map(|n| n as usize);
    let text = match answer {
        0 => return Ok(None),
        256 => sheet.get(from..to).and_then(|text| std::str::from_utf8(text).ok()),
        _ => None,
    };
    let start = Position { line: start_line, character: start_column };
    let end = Position { line: end_line, character: end_column };
    let text = text.expect("the linked library does not answer as its promise says").to_string();
    Ok(Some(SpecifierWithRange { text, range: PositionRange { start, end } }))
}
