//! The stored script: what is written by hand, then the starts of sheets, the escapes and generated scripts.

use crate::encode;
use crate::generate::{self, Size};
use crate::readable::quoted;

/// The scripts written by hand, in order.
const BY_HAND: &[(&str, &str)] = &[
    ("session", include_str!("../vectors/session.txt")),
    ("edges", include_str!("../vectors/edges.txt")),
    ("refusals", include_str!("../vectors/refusals.txt")),
    ("lines", include_str!("../vectors/lines.txt")),
    ("sheets", include_str!("../vectors/sheets.txt")),
    ("opening", include_str!("../vectors/opening.txt")),
    ("values", include_str!("../vectors/values.txt")),
    ("machine", include_str!("../vectors/machine.txt")),
    ("levels", include_str!("../vectors/levels.txt")),
    ("names", include_str!("../vectors/names.txt")),
    ("sampling", include_str!("../vectors/sampling.txt")),
    ("differences", include_str!("../vectors/differences.txt")),
    ("others", include_str!("../vectors/others.txt")),
    ("late", include_str!("../vectors/late.txt")),
    ("single", include_str!("../vectors/single.txt")),
    ("guideline", include_str!("../vectors/guideline.txt")),
    ("script", include_str!("../vectors/script.txt")),
];

/// What stands before and behind the lines of the 256 escapes, parted by an empty line.
const AROUND_ESCAPES: &str = include_str!("../vectors/escapes.txt");

/// Sheets, of each of which every start is opened as well.
const STARTS: &str = include_str!("../vectors/starts.txt");

/// Seeds of generated scripts with few sensors.
const SMALL_SEEDS: std::ops::Range<u64> = 1_000_000..1_000_070;

/// Seeds of generated scripts with up to 32 sensors.
const FULL_SEEDS: std::ops::Range<u64> = 2_000_000..2_000_004;

/// Calls of each generated script.
const CALLS: usize = 300;

/// The scripts with the answers that the papers give, in order.
pub fn with_answers() -> Vec<(&'static str, String)> {
    let by_hand = BY_HAND.iter().map(|&(name, text)| (name, text.to_string()));
    by_hand.chain([("starts", starts()), ("escapes", escapes())]).collect()
}

/// "Nothing follows", and nothing is left out: before each sheet all of its starts, the shortest first.
fn starts() -> String {
    let script = encode::encode(STARTS).expect("sheets");
    script.lines().map(|line| before_sheet(line) + line + "\n").collect()
}

/// "sheet breaks its layout | 4": the starts of the sheet that a line opens; before any other line nothing.
fn before_sheet(line: &str) -> String {
    let sheet = line.strip_prefix("open ").unwrap_or_default();
    let start = |digits| if digits == 0 { "-" } else { &sheet[..digits] };
    (0..sheet.len()).step_by(2).map(|digits| format!("open {}\n;= 4\n", start(digits))).collect()
}

/// "a test puts each of the 256 bytes after a backslash" (document 02, (c)), `@` last.
fn escapes() -> String {
    let (before, behind) = AROUND_ESCAPES.split_once("\n\n").expect("an empty line");
    let others = (0..=255).filter(|&byte| byte != b'@');
    let lines: String = others.chain([b'@']).map(after_backslash).collect();
    format!("{before}\n{lines}{behind}")
}

/// "those eight give their byte or nothing, all others 12": the byte after a backslash in a request that would
/// set a sensor, and then a query of it.
fn after_backslash(byte: u8) -> String {
    let line = quoted(&[&b"?sensor-sampling car\\"[..], &[byte], b" auto"].concat());
    let (answer, strategy) = match byte {
        b'\\' | b'_' | b'0' | b'n' | b'r' | b'e' | b't' => {
            ("16\n;> 0 !sensor-sampling fail Unknown\\_sensor.", "none")
        }
        b'@' => ("0\n;> 0 !sensor-sampling ok car auto\n;> 0 #sensor-status 5.000 1 car nominal 7", "auto"),
        _ => ("12\n;> 0 #log error 5.000 katcp Not\\_a\\_message.", "none"),
    };
    let query = "line 65536 0 \"?sensor-sampling car\"";
    format!("line 65536 0 {line}\n;= {answer}\n{query}\n;= 0\n;> 0 !sensor-sampling ok car {strategy}\n")
}

/// The whole stored script.
pub fn stored() -> Result<Vec<u8>, String> {
    let mut script = Vec::new();
    for (name, text) in with_answers() {
        let encoded = encode::encode(&text).map_err(|error| format!("{name}: {error}"))?;
        script.extend_from_slice(encoded.as_bytes());
    }
    let small = SMALL_SEEDS.map(|seed| (seed, Size::small(CALLS)));
    let full = FULL_SEEDS.map(|seed| (seed, Size::full(CALLS)));
    for (seed, size) in small.chain(full) {
        script.extend_from_slice(format!("; generated, seed {seed}\n").as_bytes());
        for line in generate::script(seed, size) {
            script.extend_from_slice(&line);
            script.push(b'\n');
        }
    }
    Ok(script)
}
