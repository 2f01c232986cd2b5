//! The console: "The console opens `sheet.lgu`, connects client 0 as
//! `console`, and prints its lines." Document 02, (e): "it sends `?log-level
//! info` after connecting".

use crate::device::{Device, LEAST_OUTPUT};
use crate::message::LONGEST_LINE;
use crate::value::Reading;
use std::io::{self, BufRead, Write};

/// What an input line is.
enum Entry {
    Tick(u64),
    Reading(usize, Option<i32>),
    Line,
}

/// A console: the device that it serves, and the output of the last call.
struct Console {
    device: Device,
    out: Vec<u8>,
}

/// "Input `@ n` ticks to n ms, `= s v` gives sensor s (from 0) integer v; other
/// lines, ill-formed ones of these two kinds included, go to the server as
/// client 0's lines." A line that is too long for the server is none of the two.
fn read_entry(line: &[u8]) -> Entry {
    let words: Vec<&[u8]> = line.split(|&byte| byte == b' ').collect();
    let entry = match words[..] {
        _ if line.len() > LONGEST_LINE => None,
        [b"@", ms] => natural(ms).map(Entry::Tick),
        [b"=", sensor, value] => reading(sensor, value),
        _ => None,
    };
    entry.unwrap_or(Entry::Line)
}

/// "`= s v` gives sensor s (from 0) integer v"; "Integers are signed 32-bit."
fn reading(sensor: &[u8], value: &[u8]) -> Option<Entry> {
    let sensor = usize::try_from(natural(sensor)?).ok()?;
    Some(Entry::Reading(sensor, integer(value)?))
}

/// A decimal without leading zeros; the largest number where it is larger, which
/// is no time and no sensor's place.
fn natural(word: &[u8]) -> Option<u64> {
    let text = std::str::from_utf8(word).ok()?;
    let digits = text.bytes().all(|byte| byte.is_ascii_digit());
    match text {
        "" => None,
        "0" => Some(0),
        _ if !digits || text.starts_with('0') => None,
        _ => Some(text.parse().unwrap_or(u64::MAX)),
    }
}

/// An integer, behind a minus or not, and not `-0`; within it nothing where 32
/// bits cannot hold it.
fn integer(word: &[u8]) -> Option<Option<i32>> {
    let (negative, size) = match word.strip_prefix(b"-") {
        Some(b"0") => return None,
        Some(size) => (true, natural(size)?),
        None => (false, natural(word)?),
    };
    let value = if negative { -i128::from(size) } else { i128::from(size) };
    Some(i32::try_from(value).ok())
}

impl Console {
    /// Makes the call of an input line. An integer that no sensor takes is
    /// "reading unfit for type", as a boolean of 255 is for every type. Document
    /// 02, (g): "A reading now brings its own time [...] (the console gives the
    /// clock)."
    fn perform(&mut self, line: &[u8]) -> u8 {
        let (device, out) = (&mut self.device, &mut self.out);
        match read_entry(line) {
            Entry::Tick(ms) => device.tick(LEAST_OUTPUT, ms, out),
            Entry::Reading(sensor, value) => {
                let reading = value.map_or(Reading::Boolean(255), Reading::Integer);
                device.reading(LEAST_OUTPUT, sensor, reading, device.clock, out)
            }
            Entry::Line => device.line(LEAST_OUTPUT, 0, line, out),
        }
    }

    /// "prints its lines": those of the deliveries to client 0.
    fn shown(&self) -> Vec<u8> {
        let mut lines = Vec::new();
        let mut rest = &self.out[..];
        while let [client, high, low, behind @ ..] = rest {
            let (line, next) = behind.split_at(usize::from(*high) << 8 | usize::from(*low));
            if *client == 0 {
                lines.extend_from_slice(line);
            }
            rest = next;
        }
        lines
    }
}

/// Serves the lines of an input, and prints what client 0 is sent; with
/// `numbers` also, before that, each line and the number of its call.
pub fn serve(sheet: &[u8], numbers: bool, input: impl BufRead, mut output: impl Write) -> io::Result<()> {
    let (number, device) = Device::open(sheet, 0);
    if number != 0 {
        return Err(io::Error::other("sheet.lgu is not a sheet."));
    }
    let mut console = Console { device, out: Vec::new() };
    console.device.connect(LEAST_OUTPUT, 0, b"console", &mut console.out);
    output.write_all(&console.shown())?;
    console.perform(b"?log-level info");
    output.write_all(&console.shown())?;
    for line in input.split(b'\n') {
        let line = line?;
        let number = console.perform(&line);
        if numbers {
            output.write_all(&[b"> ", &line[..], b"\n"].concat())?;
            writeln!(output, "{number}")?;
        }
        output.write_all(&console.shown())?;
    }
    output.flush()
}
