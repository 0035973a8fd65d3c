//! Prints the module information of sheets as deno_graph's own serialisation prints it.
//!   module-info-json [NAME]     of the sheet on standard input, on a line; with NAME, as the member NAME of an object
//!   module-info-json --batch    of a batch on standard input (each sheet: length as u32 little-endian, bytes), a line for each
//! A refused sheet's line is `refused N`. The status is 0, 1 if a sheet was refused, 2 if reading or writing failed.

use std::io::{self, Read, Write};
use std::process::ExitCode;

use module_info::{MAX_SHEET, ModuleInfo, json_string, module_info};

fn main() -> ExitCode {
    let argument = std::env::args_os().nth(1).map(|a| a.to_string_lossy().into_owned());
    let done = match argument.as_deref() {
        Some("--batch") => batch(),
        name => one(name),
    };
    match done {
        Ok(true) => ExitCode::SUCCESS,
        Ok(false) => ExitCode::from(1),
        Err(e) => {
            eprintln!("module-info-json: {e}");
            ExitCode::from(2)
        }
    }
}

/// Whether the sheet was accepted.
fn one(name: Option<&str>) -> io::Result<bool> {
    let mut sheet = Vec::new();
    // one byte more than the longest sheet has, so that a longer one is refused
    io::stdin().lock().take(MAX_SHEET as u64 + 1).read_to_end(&mut sheet)?;
    let (accepted, mut line) = line(&sheet)?;
    if let (true, Some(name)) = (accepted, name) {
        line = format!("{}:{line}", json_string(name));
    }
    let mut out = io::stdout().lock();
    writeln!(out, "{line}")?;
    out.flush()?;
    Ok(accepted)
}

/// Whether every sheet was accepted.
fn batch() -> io::Result<bool> {
    let mut all = Vec::new();
    io::stdin().lock().read_to_end(&mut all)?;
    let mut out = io::BufWriter::new(io::stdout().lock());
    let mut rest = &all[..];
    let mut accepted = true;
    while !rest.is_empty() {
        let length = u32::from_le_bytes(*split(&mut rest, 4)?.first_chunk().expect("four bytes"));
        let (ok, line) = line(split(&mut rest, length as usize)?)?;
        writeln!(out, "{line}")?;
        accepted &= ok;
    }
    out.flush()?;
    Ok(accepted)
}

fn split<'a>(rest: &mut &'a [u8], n: usize) -> io::Result<&'a [u8]> {
    let (part, after) = rest.split_at_checked(n).ok_or(io::Error::other("the batch is cut off"))?;
    *rest = after;
    Ok(part)
}

fn line(sheet: &[u8]) -> io::Result<(bool, String)> {
    let mut buffer = [0; 65_536];
    match module_info(sheet, &mut buffer) {
        Ok(length) => Ok((true, ModuleInfo::decode(&buffer[..length]).map_err(io::Error::other)?.to_json())),
        Err(refusal) => Ok((false, format!("refused {}", refusal.number()))),
    }
}
