// The tables of Alphabetic, from `char::is_alphabetic`. Prints what its argument names: `version`, the Unicode version of `char`;
// `ranges`, the file specs/Alphabetic.antt; `bounds`, the file src/alphabetic_bounds.rt.

// The first and the last code point of each range.
fn found() -> Vec<(u32, u32)> {
    let mut ranges: Vec<(u32, u32)> = Vec::new();
    for code in ('\0'..=char::MAX)
        .filter(|c| c.is_alphabetic())
        .map(u32::from)
    {
        match ranges.last_mut() {
            Some((_, last)) if *last + 1 == code => *last = code,
            _ => ranges.push((code, code)),
        }
    }
    ranges
}

// The Unicode version of `char`.
fn version() -> String {
    let (major, minor, micro) = char::UNICODE_VERSION;
    format!("{major}.{minor}.{micro}")
}

// The list of the ranges, four to a line.
fn ranges() -> String {
    let range = |(first, last)| format!("(0x{first:04X} to 0x{last:04X})");
    let ranges: Vec<String> = found().into_iter().map(range).collect();
    let lines: Vec<String> = ranges.chunks(4).map(|line| line.join(" ∷ ")).collect();
    format!(
        "-- The code points that are Alphabetic in Unicode {}. Written by tools/alphabetic.
use Rattle.std.specs.Prelude.{{List, [], ◌∷◌}}
use Rattle.text.specs.Ranges.{{Range, ◌to◌}}

unfoldable pub alphabetic : List Range
alphabetic =
    {}
    ∷ []
",
        version(),
        lines.join("\n    ∷ ")
    )
}

// The array of the bounds, as many to a line as `rt fmt` puts there.
fn bounds() -> String {
    let bounds: Vec<u32> = found()
        .into_iter()
        .flat_map(|(first, last)| [first, last + 1])
        .collect();
    let bound = |bound: &u32| format!("0x{bound:04X},");
    let words: Vec<String> = bounds.iter().map(bound).collect();
    let mut lines = String::new();
    for word in &words {
        let used = lines.len() - lines.rfind('\n').map_or(0, |end| end + 1);
        if used > 0 && used + 1 + word.len() <= 100 {
            lines.push(' ');
        } else {
            lines.push_str(if used > 0 { "\n    " } else { "    " });
        }
        lines.push_str(word);
    }
    format!(
        "// The bounds of the ranges of Alphabetic in Unicode {}. Written by tools/alphabetic.
// Even places start a range, odd places end it; the end is not in it.
pub const BOUNDS: [u32; {}] = [
{lines}
];
",
        version(),
        bounds.len()
    )
}

fn main() {
    match std::env::args().nth(1).as_deref() {
        Some("version") => println!("{}", version()),
        Some("ranges") => print!("{}", ranges()),
        Some("bounds") => print!("{}", bounds()),
        _ => std::process::exit(2),
    }
}
