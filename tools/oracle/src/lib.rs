//! The answer of deno_graph 0.111.1 to a sheet.

pub mod report;
pub mod rules;
pub mod sheet;

use std::panic;

use deno_ast::swc::ast::{Module, Script};
use deno_ast::{MediaType, MultiThreadedComments, ProgramRef, SourceTextInfo};
use deno_graph::analysis::ModuleInfo;
use deno_graph::ast::ParserModuleAnalyzer;

/// In place of a refusal's number: the sheet is left out, since the crate's answer cannot be compared. It has an HTML-like comment, whose body the
/// crate would take to start two bytes in.
pub const LEFT_OUT: u8 = 255;

/// The module's information, or the refusal (1 to 9, or 13), or `LEFT_OUT`. Of no bytes it is the crate's own default.
pub fn module_info(bytes: &[u8]) -> Result<ModuleInfo, u8> {
    if bytes.is_empty() {
        return Ok(ModuleInfo::default());
    }
    let sheet = sheet::decode(bytes)?;
    let has_html = sheet.has_html;
    if sheet.is_uncooked() {
        // the crate's `unwrap` fails there, and only there
        let hook = panic::take_hook();
        panic::set_hook(Box::new(|_| {}));
        let answered = panic::catch_unwind(panic::AssertUnwindSafe(|| Parsed::new(sheet).module_info())).is_ok();
        panic::set_hook(hook);
        assert!(!answered, "the crate answers a sheet that meets refusal 9");
        return Err(9);
    }
    if has_html {
        return Err(LEFT_OUT);
    }
    Ok(Parsed::new(sheet).module_info())
}

/// What the crate is given of a sheet.
pub struct Parsed {
    media: MediaType,
    program: Program,
    text_info: SourceTextInfo,
    comments: MultiThreadedComments,
}

enum Program {
    Module(Module),
    Script(Script),
}

impl Parsed {
    pub fn new(sheet: sheet::Sheet) -> Parsed {
        let program = if sheet.is_script { Program::Script(Script(sheet.program)) } else { Program::Module(Module(sheet.program)) };
        Parsed { media: sheet.media, program, text_info: SourceTextInfo::new(sheet.source), comments: sheet.comments }
    }

    /// The crate's own work, and nothing else.
    pub fn module_info(&self) -> ModuleInfo {
        let program = match &self.program {
            Program::Module(n) => ProgramRef::Module(n),
            Program::Script(n) => ProgramRef::Script(n),
        };
        ParserModuleAnalyzer::module_info_from_swc(self.media, program, &self.text_info, &self.comments)
    }
}

/// The refusal's number or `LEFT_OUT` and no bytes, or 0 and the report, however long it is.
pub fn answer(bytes: &[u8]) -> (u8, Vec<u8>) {
    match module_info(bytes) {
        Ok(info) => (0, report::encode(&info)),
        Err(refusal) => (refusal, Vec::new()),
    }
}

/// The interface of the proved library, over the same answer, for tools/compare to try itself on.
///
/// # Safety
/// `sheet` has `n` bytes to read, and `buffer` has `m` bytes to write.
#[cfg(feature = "interface")]
#[unsafe(no_mangle)]
pub unsafe extern "C" fn module_info_answer(sheet: *const u8, n: usize, buffer: *mut u8, m: usize) -> u64 {
    let sheet = if n == 0 { &[] } else { unsafe { std::slice::from_raw_parts(sheet, n) } };
    let buffer = if m == 0 { &mut [] } else { unsafe { std::slice::from_raw_parts_mut(buffer, m) } };
    let (mut number, mut report) = answer(sheet);
    if report.len() > m {
        number = 10;
        report.clear();
    }
    buffer.fill(0);
    buffer[..report.len()].copy_from_slice(&report);
    u64::from(number) + 256 * report.len() as u64
}
