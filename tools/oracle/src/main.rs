//! oracle answer [FILE]   the answer to one sheet
//! oracle batch [FILE]    the answers to a batch of sheets
//! oracle cite [FILE]     what `cite` prints for one sheet
//! oracle json [FILE]     what serde_json prints of one sheet's module information, or `refused N`
//! oracle reads BATCH [FILE]   whether the lines of FILE, one for each sheet of BATCH, are the same JSON
//! oracle rules BATCH [FILE]   whether the pairs of FILE, an answer for each sheet of BATCH, name rules that yield the entries
//! With no FILE, or `-`, standard input is read. See README.md for the formats.

use std::io::{Read, Write};

const USAGE: &str = "usage: oracle answer|batch|cite|json [FILE] | oracle reads|rules BATCH [FILE]";

fn main() {
    let args: Vec<String> = std::env::args().skip(1).collect();
    let (mode, sheets, file) = match &args[..] {
        [mode, sheets] if mode == "reads" || mode == "rules" => (mode.as_str(), sheets.as_str(), "-"),
        [mode, sheets, file] if mode == "reads" || mode == "rules" => (mode.as_str(), sheets.as_str(), file.as_str()),
        [mode] => (mode.as_str(), "", "-"),
        [mode, file] => (mode.as_str(), "", file.as_str()),
        _ => fail(USAGE),
    };
    let read = |file: &str| read(file).unwrap_or_else(|e| fail(&format!("{file}: {e}")));
    let input = read(file);
    let mut out = std::io::BufWriter::new(std::io::stdout().lock());
    let written = match mode {
        "answer" => write_answer(&mut out, &input),
        "batch" => batch(&mut out, &input),
        "cite" => out.write_all(&cite(&input)),
        "json" => writeln!(out, "{}", json(&input)),
        "reads" => reads(&mut out, &read(sheets), &input),
        "rules" => rules(&mut out, &read(sheets), &input),
        _ => fail(USAGE),
    };
    if let Err(e) = written.and_then(|()| out.flush()) {
        fail(&e.to_string());
    }
}

fn fail(message: &str) -> ! {
    eprintln!("{message}");
    std::process::exit(2)
}

fn read(file: &str) -> std::io::Result<Vec<u8>> {
    if file != "-" {
        return std::fs::read(file);
    }
    let mut input = Vec::new();
    std::io::stdin().lock().read_to_end(&mut input)?;
    Ok(input)
}

fn write_answer(out: &mut impl Write, sheet: &[u8]) -> std::io::Result<()> {
    let (number, report) = oracle::answer(sheet);
    out.write_all(&[number])?;
    out.write_all(&(report.len() as u32).to_le_bytes())?;
    out.write_all(&report)
}

fn batch(out: &mut impl Write, input: &[u8]) -> std::io::Result<()> {
    sheets(input).into_iter().try_for_each(|sheet| write_answer(out, sheet))
}

fn sheets(mut input: &[u8]) -> Vec<&[u8]> {
    let mut sheets = Vec::new();
    while !input.is_empty() {
        let Some((head, rest)) = input.split_first_chunk::<4>() else { fail("the batch is cut off") };
        let n = u32::from_le_bytes(*head) as usize;
        let Some((sheet, rest)) = rest.split_at_checked(n) else { fail("the batch is cut off") };
        sheets.push(sheet);
        input = rest;
    }
    sheets
}

fn cite(sheet: &[u8]) -> Vec<u8> {
    match oracle::module_info(sheet) {
        Ok(info) => oracle::report::cite(&info, &source(sheet)),
        Err(oracle::LEFT_OUT) => b"left out\n".to_vec(),
        Err(refusal) => format!("refused {refusal}\n").into_bytes(),
    }
}

/// The source of an accepted sheet; no bytes have none.
fn source(sheet: &[u8]) -> String {
    oracle::sheet::decode(sheet).map_or(String::new(), |sheet| sheet.source)
}

fn json(sheet: &[u8]) -> String {
    match oracle::module_info(sheet) {
        Ok(info) => serde_json::to_string(&info).expect("JSON"),
        Err(oracle::LEFT_OUT) => "left out".into(),
        Err(refusal) => format!("refused {refusal}"),
    }
}

/// Each line is what serde_json prints, or the same with attributes in another order (the crate's map has none), and the crate reads it as the same
/// module information. Refusal 10 is the caller's, and such a line is passed over; so is that of a sheet that is left out.
fn reads(out: &mut impl Write, batch: &[u8], lines: &[u8]) -> std::io::Result<()> {
    let sheets = sheets(batch);
    let lines: Vec<&str> = std::str::from_utf8(lines).unwrap_or_else(|e| fail(&e.to_string())).lines().collect();
    if sheets.len() != lines.len() {
        fail(&format!("{} sheets, {} lines", sheets.len(), lines.len()));
    }
    let mut passed = 0;
    let mut left_out = 0;
    let count = sheets.len();
    for (index, (sheet, line)) in sheets.into_iter().zip(lines).enumerate() {
        let right = json(sheet);
        if line == "refused 10" && right.starts_with('{') {
            passed += 1;
            continue;
        }
        if right == "left out" {
            left_out += 1;
            continue;
        }
        if line != right && !(line.starts_with('{') && right.starts_with('{') && value(line) == value(&right)) {
            fail(&format!("sheet {index}:\n{line}\nserde_json prints\n{right}"));
        }
        if line.starts_with('{') && serde_json::from_str(line).ok() != oracle::module_info(sheet).ok() {
            fail(&format!("sheet {index}: the crate reads other module information from\n{line}"));
        }
    }
    writeln!(out, "{count} sheets, none differs, {passed} passed over (refused 10), {left_out} left out")
}

fn value(line: &str) -> serde_json::Value {
    serde_json::from_str(line).unwrap_or_else(|e| fail(&format!("{e}: {line}")))
}

/// The pairs of each answer with number 0 are right. An answer with another number has none, and 10 and 16 are the caller's; a sheet that is left
/// out is passed over.
fn rules(out: &mut impl Write, batch: &[u8], mut answers: &[u8]) -> std::io::Result<()> {
    let mut counts = [0; 11];
    let (mut checked, mut passed) = (0, 0);
    for (index, sheet) in sheets(batch).into_iter().enumerate() {
        let Some((head, rest)) = answers.split_first_chunk::<5>() else { fail("the answers are cut off") };
        let [number, length @ ..] = *head;
        let Some((pairs, rest)) = rest.split_at_checked(u32::from_le_bytes(length) as usize) else { fail("the answers are cut off") };
        answers = rest;
        match (oracle::module_info(sheet), number) {
            (Err(oracle::LEFT_OUT), _) | (Ok(_), 10 | 16) => passed += 1,
            (Err(refusal), _) if refusal == number && pairs.is_empty() => {}
            (Ok(info), 0) => {
                let found = oracle::rules::check(sheet, &info, pairs).unwrap_or_else(|e| fail(&format!("sheet {index}: {e}")));
                (0..11).for_each(|rule| counts[rule] += found[rule]);
                checked += 1;
            }
            _ => fail(&format!("sheet {index}: number {number} is not the crate's answer, or rules stand beside a refusal")),
        }
    }
    if !answers.is_empty() {
        fail("bytes follow the answers");
    }
    let by_rule: Vec<String> = (1..11).map(|rule| format!("{rule}: {}", counts[rule])).collect();
    writeln!(out, "the crate's own finders: {checked} sheets, {passed} passed over; each entry has its rule ({})", by_rule.join(", "))
}
