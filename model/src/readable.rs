//! Calls and answers with their texts decoded, for people to read.

use crate::number;
use crate::script::{last_word, read_entry, Call, Entry};
use crate::sheet::{Kind, Sheet};
use crate::value::Reading;
use std::fmt::Write;

/// Bytes as text in double quotes, with the escapes of the readable form.
pub fn quoted(bytes: &[u8]) -> String {
    let mut text = String::from("\"");
    for &byte in bytes {
        match byte {
            b'"' => text.push_str("\\\""),
            b'\\' => text.push_str("\\\\"),
            0 => text.push_str("\\0"),
            10 => text.push_str("\\n"),
            13 => text.push_str("\\r"),
            27 => text.push_str("\\e"),
            9 => text.push_str("\\t"),
            0x20..=0x7E => text.push(char::from(byte)),
            other => write!(text, "\\x{other:02x}").expect("text"),
        }
    }
    text.push('"');
    text
}

/// A line of a script, with its texts decoded.
pub fn entry(line: &[u8]) -> String {
    match read_entry(line) {
        Entry::Call(call) => call_text(&call),
        _ => quoted(line),
    }
}

/// A call, with its texts decoded.
fn call_text(call: &Call) -> String {
    let verb = call.verb();
    match call {
        Call::Open { sheet, profile } => opening_text(sheet, &last_word(*profile)),
        Call::Connect { lent, client, address } => format!("{verb} {lent} {client} {}", quoted(address)),
        Call::Log { lent, level, logger, message } => {
            format!("{verb} {lent} {level} {} {}", quoted(logger), quoted(message))
        }
        Call::Line { lent, client, line } => format!("{verb} {lent} {client} {}", quoted(line)),
        Call::Reading { lent, sensor, reading: Reading::Float(value), time } => {
            format!("{verb} {lent} {sensor} float {value:?}{}", last_word(*time))
        }
        _ => call.text(),
    }
}

/// An opening in the readable form, with the sheet's bytes when it breaks the layout.
fn opening_text(bytes: &[u8], profile: &str) -> String {
    match Sheet::read(bytes) {
        None => format!("open {}{profile} (broken)", quoted(bytes)),
        Some(sheet) if profile.is_empty() => sheet_text(&sheet) + "open",
        Some(sheet) => format!("{}open sheet{profile}", sheet_text(&sheet)),
    }
}

/// A sheet in the readable form.
fn sheet_text(sheet: &Sheet) -> String {
    let mut text = format!("sheet {} {}\n", quoted(&sheet.api), quoted(&sheet.build));
    for sensor in &sheet.sensors {
        let (name, description) = (quoted(&sensor.name), quoted(&sensor.description));
        write!(text, "sensor {name} {description} {} {}", quoted(&sensor.units), sensor.kind.text())
            .expect("text");
        for limit in sensor.limits.listed() {
            let shown = match sensor.kind {
                Kind::Float => number::float_text(limit.into()),
                _ => limit.to_string(),
            };
            write!(text, " {shown}").expect("text");
        }
        for option in &sensor.options {
            write!(text, " {}", quoted(option)).expect("text");
        }
        text.push('\n');
    }
    text
}

/// An answer: its number, then each delivery with its client.
pub fn answer(line: &[u8]) -> String {
    let text = String::from_utf8_lossy(line).into_owned();
    let Some((number, output)) = text.split_once(' ') else {
        return quoted(line);
    };
    let mut shown = number.to_string();
    let Some(bytes) = crate::script::bytes(output.as_bytes()) else {
        return quoted(line);
    };
    let mut rest = &bytes[..];
    while let [client, high, low, more @ ..] = rest {
        let length = (usize::from(*high) << 8 | usize::from(*low)).min(more.len());
        write!(shown, "\n      to {client}: {}", quoted(&more[..length])).expect("text");
        rest = &more[length..];
    }
    if !rest.is_empty() {
        write!(shown, "\n      left over: {}", quoted(rest)).expect("text");
    }
    shown
}
