//! Compares another program's answers with the model's, and makes the script
//! of a difference as short as it gets.

use crate::arrival::Arrival;
use crate::device::{Client, Device};
use crate::generate::{self, Size};
use crate::readable;
use crate::script::{read_entry, Call, Entry, Session};
use crate::tally::{request_of, Tally};
use std::io::{self, Read, Write};
use std::process::{Command, Stdio};

/// A script: its lines without their ends.
pub type Script = Vec<Vec<u8>>;

/// How many calls go to the other program in one run, about.
pub const BATCH: usize = 30_000;

/// Where two answers differ: the line of the script and both answers.
struct Difference {
    line: usize,
    model: Vec<u8>,
    other: Vec<u8>,
}

/// The model's answers to a script, with the line each belongs to.
fn model_answers(script: &Script, tally: &mut Tally) -> Vec<(usize, Vec<u8>)> {
    let mut session = Session::default();
    let mut answers = Vec::new();
    for (place, line) in script.iter().enumerate() {
        match read_entry(line) {
            Entry::PassedOver => {}
            Entry::Error => {
                tally.errors += 1;
                answers.push((place, b"error".to_vec()));
            }
            Entry::Call(call) => {
                let answer = counted_answer(&mut session, &call, tally);
                answers.push((place, answer));
            }
        }
    }
    tally.scripts += 1;
    tally.add_visits(&session);
    answers
}

/// Performs a call, counts it, and gives its answer.
fn counted_answer(session: &mut Session, call: &Call, tally: &mut Tally) -> Vec<u8> {
    let (request, arrival) = (request_of(call), Arrival::of(&session.device, call));
    let old = connected_before(&session.device, call);
    let number = session.perform(call);
    let reached = number == 0 || (14..=23).contains(&number);
    tally.count(call, number, request.as_ref().filter(|_| reached));
    tally.count_profile(&session.device, call, number, old.as_ref());
    if let (0, Some(arrival)) = (number, &arrival) {
        tally.count_arrival(&session.device, arrival);
    }
    if let (0, Some(request)) = (number, &request) {
        tally.count_settings(&session.device, request);
        tally.count_names(request);
    }
    format!("{} {}", number, crate::script::hex(&session.out)).into_bytes()
}

/// The client that a connect names, where it is connected already.
fn connected_before(device: &Device, call: &Call) -> Option<Client> {
    let Call::Connect { client, .. } = call else { return None };
    device.clients.get(usize::try_from(*client).ok()?)?.clone()
}

/// The other program's answers to scripts, one after another.
pub fn other_answers(program: &str, scripts: &[&Script]) -> io::Result<(Vec<Vec<u8>>, bool)> {
    let mut child = Command::new(program).stdin(Stdio::piped()).stdout(Stdio::piped()).spawn()?;
    let mut input = child.stdin.take().expect("piped");
    let mut text: Vec<u8> = Vec::new();
    for line in scripts.iter().flat_map(|script| script.iter()) {
        text.extend_from_slice(line);
        text.push(b'\n');
    }
    let writer = std::thread::spawn(move || input.write_all(&text));
    let mut answers = Vec::new();
    child.stdout.take().expect("piped").read_to_end(&mut answers)?;
    let written = writer.join().expect("writer").is_ok();
    let ended_well = child.wait()?.success() && written;
    let mut lines: Vec<Vec<u8>> = answers.split(|&byte| byte == b'\n').map(<[u8]>::to_vec).collect();
    lines.pop();
    Ok((lines, ended_well))
}

/// The first difference of two lists of answers.
fn first_difference(model: &[(usize, Vec<u8>)], other: &[Vec<u8>]) -> Option<Difference> {
    for (place, (line, answer)) in model.iter().enumerate() {
        let given = other.get(place).cloned().unwrap_or_else(|| b"(no answer)".to_vec());
        if &given != answer {
            return Some(Difference { line: *line, model: answer.clone(), other: given });
        }
    }
    None
}

/// Runs one script on both sides.
fn differs(program: &str, script: &Script) -> io::Result<Option<Difference>> {
    let model = model_answers(script, &mut Tally::default());
    let (other, ended_well) = other_answers(program, &[script])?;
    let found = first_difference(&model, &other);
    if found.is_none() && (other.len() != model.len() || !ended_well) {
        let other =
            format!("({} answers for {}, ended well: {ended_well})", other.len(), model.len()).into_bytes();
        return Ok(Some(Difference { line: script.len() - 1, model: Vec::new(), other }));
    }
    Ok(found)
}

/// Compares on all seeds of a range; false at the first difference.
pub fn compare(program: &str, seeds: std::ops::Range<u64>, calls: usize) -> io::Result<bool> {
    let mut tally = Tally::default();
    let mut seed = seeds.start;
    while seed < seeds.end {
        let end = seeds.end.min(seed + (BATCH / calls.max(1)).max(1) as u64);
        let scripts: Vec<Script> =
            (seed..end).map(|seed| generate::script(seed, Size::full(calls))).collect();
        if let Some(place) = differing_script(program, &scripts, &mut tally)? {
            println!("seed {}:", seed + place as u64);
            show_shrunk(program, scripts[place].clone())?;
            return Ok(false);
        }
        seed = end;
    }
    print!("{}", tally.text());
    println!("\nNo difference.");
    Ok(true)
}

/// The first of the scripts whose answers differ.
fn differing_script(program: &str, scripts: &[Script], tally: &mut Tally) -> io::Result<Option<usize>> {
    let (other, ended_well) = other_answers(program, &scripts.iter().collect::<Vec<_>>())?;
    let mut start = 0;
    for (place, script) in scripts.iter().enumerate() {
        let model = model_answers(script, tally);
        let end = other.len().min(start + model.len());
        if first_difference(&model, &other[start.min(end)..end]).is_some() {
            return Ok(Some(place));
        }
        start = end;
    }
    if start != other.len() || !ended_well {
        return Ok(Some(scripts.len() - 1));
    }
    Ok(None)
}

/// Drops calls as long as a difference stays, then shows what is left.
fn show_shrunk(program: &str, script: Script) -> io::Result<()> {
    let Some(mut found) = differs(program, &script)? else {
        println!("The difference does not show when the script runs alone.");
        return Ok(());
    };
    let mut script = script;
    script.truncate(found.line + 1);
    let mut chunk = script.len() / 2;
    while chunk >= 1 {
        let mut dropped = false;
        let mut start = 0;
        while start < script.len() {
            let end = script.len().min(start + chunk);
            let shorter: Script = [&script[..start], &script[end..]].concat();
            match differs_still(program, &shorter)? {
                Some(still) => {
                    script = shorter;
                    script.truncate(still.line + 1);
                    found = still;
                    dropped = true;
                }
                None => start = end,
            }
        }
        chunk = if dropped && chunk == 1 { 1 } else { chunk / 2 };
    }
    show(&script, &found);
    Ok(())
}

/// Whether a shortened script still differs; it keeps its first `open`.
fn differs_still(program: &str, script: &Script) -> io::Result<Option<Difference>> {
    if !script.first().is_some_and(|line| line.starts_with(b"open ")) {
        return Ok(None);
    }
    differs(program, script)
}

/// Shows a script with the model's answers, and both at its end.
fn show(script: &Script, found: &Difference) {
    let mut session = Session::default();
    for line in script {
        println!("{}", String::from_utf8_lossy(&line[..line.len().min(4000)]));
        for shown in readable::entry(line).lines() {
            println!("    {shown}");
        }
        if let Some(answer) = session.answer(line) {
            println!("    model: {}", readable::answer(answer.as_bytes()));
        }
    }
    println!("\nThey differ at the last call.");
    println!("    model: {}", readable::answer(&found.model));
    println!("    other: {}", readable::answer(&found.other));
}

/// Runs the model alone on generated scripts and gives the tally.
pub fn tally(seeds: std::ops::Range<u64>, calls: usize) -> Tally {
    let mut tally = Tally::default();
    for seed in seeds {
        model_answers(&generate::script(seed, Size::full(calls)), &mut tally);
    }
    tally
}
