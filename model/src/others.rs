//! Document 02, (i), "Others on the line", tried on a program: lists with one dispatcher that differ in the others,
//! and the dispatcher's lines compared.

use crate::compare::{other_answers, Script, BATCH};
use crate::generate::others::{one_dispatcher, OneDispatcher};
use crate::generate::Size;
use crate::message::Message;
use crate::readable::quoted;
use crate::script::bytes;
use std::io;

/// "the dispatcher's `sensor-status` lines [...] its replies and informs to `sensor-sampling`, `sensor-value` and
/// `sensor-list`".
const OF_SENSORS: [&str; 4] = ["sensor-status", "sensor-sampling", "sensor-value", "sensor-list"];

/// The lines in which others show: who is connected, what is logged, and the level of the log, which all share.
const OF_OTHERS: [&str; 4] = ["log", "client-connected", "client-list", "log-level"];

/// What was compared.
#[derive(Default, Debug)]
pub struct Compared {
    pub pairs: usize,
    /// Calls of the others, which the lists do not share.
    pub other_calls: usize,
    /// The dispatcher's lines on sensors.
    pub of_sensors: usize,
    /// Those in which others do not show.
    pub own: usize,
    /// Those in which they do.
    pub of_others: usize,
}

/// The lines to a client in the answers to a list, without their ends; none where an answer is no answer.
fn lines_to(client: u64, answers: &[Vec<u8>]) -> Option<Vec<Vec<u8>>> {
    let mut lines = Vec::new();
    for answer in answers {
        let output = answer.rsplit(|&byte| byte == b' ').next()?;
        let output = bytes(output)?;
        let mut rest = &output[..];
        while let [to, high, low, more @ ..] = rest {
            let (line, behind) = more.split_at_checked(usize::from(*high) << 8 | usize::from(*low))?;
            if u64::from(*to) == client {
                lines.push(line.strip_suffix(b"\n")?.to_vec());
            }
            rest = behind;
        }
    }
    Some(lines)
}

/// Whether a line's message has one of the names.
fn is_named(line: &[u8], names: &[&str]) -> bool {
    Message::read(line).is_some_and(|message| names.iter().any(|name| name.as_bytes() == message.name))
}

/// "Then the dispatcher's `sensor-status` lines are equal, as are its replies and informs", as one sequence; and so
/// are all its lines in which others do not show. Else what differs first.
pub fn difference(
    dispatcher: u64,
    one: &[Vec<u8>],
    two: &[Vec<u8>],
    compared: &mut Compared,
) -> Option<String> {
    let (Some(one), Some(two)) = (lines_to(dispatcher, one), lines_to(dispatcher, two)) else {
        return Some("an answer cannot be read".to_string());
    };
    let of_sensors = |lines: &[Vec<u8>]| -> Vec<Vec<u8>> {
        lines.iter().filter(|line| is_named(line, &OF_SENSORS)).cloned().collect()
    };
    let own = |lines: &[Vec<u8>]| -> Vec<Vec<u8>> {
        lines.iter().filter(|line| !is_named(line, &OF_OTHERS)).cloned().collect()
    };
    compared.pairs += 1;
    compared.of_sensors += of_sensors(&one).len();
    compared.own += own(&one).len();
    compared.of_others += one.len() + two.len() - own(&one).len() - own(&two).len();
    first_apart(&of_sensors(&one), &of_sensors(&two)).or_else(|| first_apart(&own(&one), &own(&two)))
}

/// The first place where two lists of lines differ, in words.
fn first_apart(one: &[Vec<u8>], two: &[Vec<u8>]) -> Option<String> {
    let place = (0..one.len().max(two.len())).find(|&place| one.get(place) != two.get(place))?;
    let shown = |lines: &[Vec<u8>]| lines.get(place).map_or("(none)".to_string(), |line| quoted(line));
    Some(format!("line {place}: {} and {}", shown(one), shown(two)))
}

/// Compares the lists of a range of seeds; what differs first is given with its seed.
pub fn compare_all(
    seeds: std::ops::Range<u64>,
    calls: usize,
    mut answers: impl FnMut(&[&Script]) -> io::Result<Vec<Vec<u8>>>,
) -> io::Result<Result<Compared, (u64, String)>> {
    let mut compared = Compared::default();
    let batch = (BATCH / (3 * calls.max(1))).max(1) as u64;
    let mut from = seeds.start;
    while from < seeds.end {
        let to = seeds.end.min(from + batch);
        let made: Vec<OneDispatcher> =
            (from..to).map(|seed| one_dispatcher(seed, Size::full(calls))).collect();
        let texts: Vec<Script> =
            made.iter().flat_map(|one| one.lists.iter()).map(|list| text(list)).collect();
        let given = answers(&texts.iter().collect::<Vec<_>>())?;
        let asked: usize = texts.iter().map(Vec::len).sum();
        if given.len() != asked {
            return Err(io::Error::other(format!(
                "{} answers to {asked} calls, from seed {from} on",
                given.len()
            )));
        }
        let mut rest = &given[..];
        for (seed, one) in (from..to).zip(&made) {
            let [first, second, alone] = one.lists.each_ref().map(|list| {
                let (its, behind) = rest.split_at(list.len());
                rest = behind;
                its
            });
            let shared = one.lists[2].len();
            compared.other_calls += one.lists[0].len() + one.lists[1].len() - 2 * shared;
            let found = difference(one.dispatcher, first, second, &mut compared)
                .or_else(|| difference(one.dispatcher, first, alone, &mut compared));
            if let Some(what) = found {
                return Ok(Err((seed, what)));
            }
        }
        from = to;
    }
    Ok(Ok(compared))
}

/// A list as a script.
fn text(list: &[crate::script::Call]) -> Script {
    list.iter().map(|call| call.text().into_bytes()).collect()
}

/// Compares a program's lines; false at the first difference.
pub fn compare(program: &str, seeds: std::ops::Range<u64>, calls: usize) -> io::Result<bool> {
    let answers = |scripts: &[&Script]| match other_answers(program, scripts)? {
        (answers, true) => Ok(answers),
        (_, false) => Err(io::Error::other(format!("{program} did not end well"))),
    };
    match compare_all(seeds, calls, answers)? {
        Ok(compared) => {
            println!("{compared:?}\n\nNo difference.");
            Ok(true)
        }
        Err((seed, what)) => {
            println!("seed {seed}: {what}");
            Ok(false)
        }
    }
}
