//! The readable form of scripts, for those written by hand.
//!
//! It is the script format with these additions:
//!
//! - a word in double quotes is text, turned into hex; inside the quotes `\"`,
//!   `\\`, `\0`, `\n`, `\r`, `\e`, `\t` and `\xHH` stand for bytes, and `""`
//!   gives `-`; after the quotes `*N` repeats the text N times, and `+` joins
//!   it to another quoted text;
//! - `sheet API BUILD` begins a sheet, `sensor NAME DESCRIPTION UNITS TYPE` adds
//!   a sensor to it, followed by limits or options (a float's limits with a
//!   point), and `open` alone opens it, as does `open sheet` with whatever
//!   follows, which may be a profile; texts may stand without quotes if they
//!   have no space;
//! - a float's value with a point in it, or `nan`, `inf`, `-inf`, is turned into
//!   its bits.
//!
//! All else, comments too, is kept as it is.

use crate::plan::{Plan, PlannedSensor};
use crate::script::hex;

/// Encodes a readable script; an error names its line.
pub fn encode(text: &str) -> Result<String, String> {
    let mut plan = None;
    let mut script = String::new();
    for (place, line) in text.lines().enumerate() {
        match encode_line(line, &mut plan) {
            Some(Some(encoded)) => {
                script.push_str(&encoded);
                script.push('\n');
            }
            Some(None) => {}
            None => return Err(format!("line {}: {line}", place + 1)),
        }
    }
    Ok(script)
}

/// Encodes a line; lines that describe a sheet give none.
fn encode_line(line: &str, plan: &mut Option<Plan>) -> Option<Option<String>> {
    if line.starts_with(';') {
        return Some(Some(line.to_string()));
    }
    if let Some(rest) = line.strip_prefix("sheet ") {
        let words = words(rest)?;
        let [api, build] = &words[..] else { return None };
        *plan = Some(Plan::new(api, build));
        return Some(None);
    }
    if let Some(rest) = line.strip_prefix("sensor ") {
        plan.as_mut()?.add(planned_sensor(&words(rest)?)?);
        return Some(None);
    }
    if let Some(behind) = behind_opening(line) {
        return Some(Some(format!("open {}{behind}", hex(&plan.as_ref()?.bytes()))));
    }
    Some(Some(with_bits(&with_hex(line)?)?))
}

/// What follows where a line opens the sheet that was described; none where it does not.
fn behind_opening(line: &str) -> Option<&str> {
    if line == "open" {
        return Some("");
    }
    line.strip_prefix("open sheet").filter(|behind| behind.is_empty() || behind.starts_with(' '))
}

/// The line with its quoted texts in hex and all else as it is.
fn with_hex(line: &str) -> Option<String> {
    let mut encoded = String::new();
    let mut rest = line;
    while let Some(start) = rest.find('"') {
        encoded.push_str(&rest[..start]);
        let (bytes, after) = quoted(&rest[start..])?;
        encoded.push_str(&hex(&bytes));
        rest = after;
    }
    encoded.push_str(rest);
    Some(encoded)
}

/// The line with a float's value as its bits; its time may follow.
fn with_bits(line: &str) -> Option<String> {
    let Some((before, behind)) = line.split_once(" float ") else {
        return Some(line.to_string());
    };
    let (value, time) = behind.split_at(behind.find(' ').unwrap_or(behind.len()));
    let special = matches!(value, "nan" | "inf" | "-inf");
    if !line.starts_with("reading ") || !(value.contains('.') || special) {
        return Some(line.to_string());
    }
    let value: f64 = value.parse().ok()?;
    Some(format!("{before} float {:016x}{time}", value.to_bits()))
}

/// A quoted text with its repeats and joins, and what follows it.
fn quoted(text: &str) -> Option<(Vec<u8>, &str)> {
    let mut all = Vec::new();
    let mut rest = text;
    loop {
        let (bytes, after) = one_quoted(rest)?;
        let (times, after) = repeats(after)?;
        for _ in 0..times {
            all.extend_from_slice(&bytes);
        }
        match after.strip_prefix('+') {
            Some(next) => rest = next,
            None => return Some((all, after)),
        }
    }
}

/// The count of `*N`, or 1.
fn repeats(text: &str) -> Option<(usize, &str)> {
    let Some(rest) = text.strip_prefix('*') else {
        return Some((1, text));
    };
    let end = rest.find(|letter: char| !letter.is_ascii_digit()).unwrap_or(rest.len());
    Some((rest[..end].parse().ok()?, &rest[end..]))
}

/// A text between quotes, and what follows them.
fn one_quoted(text: &str) -> Option<(Vec<u8>, &str)> {
    let inner = text.strip_prefix('"')?.as_bytes();
    let mut bytes = Vec::new();
    let mut at = 0;
    while inner.get(at)? != &b'"' {
        if inner[at] == b'\\' {
            let (byte, length) = escape(&inner[at + 1..])?;
            bytes.push(byte);
            at += length;
        } else {
            bytes.push(inner[at]);
        }
        at += 1;
    }
    Some((bytes, &text[at + 2..]))
}

/// An escape's byte, and the length of its code.
fn escape(code: &[u8]) -> Option<(u8, usize)> {
    match code.first()? {
        &byte @ (b'"' | b'\\') => Some((byte, 1)),
        b'0' => Some((0, 1)),
        b'n' => Some((10, 1)),
        b'r' => Some((13, 1)),
        b'e' => Some((27, 1)),
        b't' => Some((9, 1)),
        b'x' => {
            let digits = std::str::from_utf8(code.get(1..3)?).ok()?;
            Some((u8::from_str_radix(digits, 16).ok()?, 3))
        }
        _ => None,
    }
}

/// The words of a line that describes a sheet, quoted or not.
fn words(text: &str) -> Option<Vec<Vec<u8>>> {
    let mut words = Vec::new();
    let mut rest = text;
    while !rest.is_empty() {
        let (word, after) = if rest.starts_with('"') {
            quoted(rest)?
        } else {
            let end = rest.find(' ').unwrap_or(rest.len());
            (rest.as_bytes()[..end].to_vec(), &rest[end..])
        };
        words.push(word);
        rest = after.strip_prefix(' ').unwrap_or(after);
    }
    Some(words)
}

/// A sensor from its words.
fn planned_sensor(words: &[Vec<u8>]) -> Option<PlannedSensor> {
    let [name, description, units, kind, more @ ..] = words else { return None };
    let kinds: [&[u8]; 5] = [b"integer", b"float", b"boolean", b"discrete", b"timestamp"];
    let kind = kinds.iter().position(|known| known == kind)? as u8 + 1;
    let limits =
        if kind <= 2 { more.iter().map(|word| limit(word)).collect::<Option<_>>()? } else { Vec::new() };
    let options = if kind == 4 { more.to_vec() } else { Vec::new() };
    let (name, description, units) = (name.clone(), description.clone(), units.clone());
    Some(PlannedSensor { name, description, units, kind, limits, options })
}

/// A limit: an integer, or with a point in it a float's 1024ths.
fn limit(word: &[u8]) -> Option<i32> {
    let text = std::str::from_utf8(word).ok()?;
    if !text.contains('.') {
        return text.parse().ok();
    }
    let parts = text.parse::<f64>().ok()? * 1024.0;
    if parts.fract() != 0.0 {
        return None;
    }
    Some(parts as i32)
}
