//! What a call costs: nanoseconds, beside the model and a plain copy of the State in and out, instructions, bytes copied and stack, and how
//! it grows with clients and sensors; in one run on one machine.

#[cfg(counted)]
mod counted;
mod device;
mod unit;

use model::{Device, Reading};
use std::hint::black_box;
use std::process::Command;
use std::time::{Duration, Instant};

/// The rounds of the device's library, by their numbers.
#[derive(Clone, Copy)]
enum Round {
    Connect = 0,
    Tick = 1,
    Reading = 2,
    Line = 3,
}

/// What is called, on which device.
struct Case {
    name: &'static str,
    round: Round,
    sheet: Vec<u8>,
    clients: u8,
    setup: String,
    line: String,
    n: u64,
}

/// How often each measurement is made; the shortest counts, since other work of
/// the machine can only add to it.
const TIMES: usize = 15;

/// The size of the device's State, in words of 8 bytes: 27,112 bytes.
const WORDS: usize = 3_389;

/// A State's bytes.
#[derive(Clone, Copy)]
struct Bytes([u64; WORDS]);

fn main() {
    let words: Vec<String> = std::env::args().skip(1).collect();
    match words.as_slice() {
        [] => tables(),
        [row, n] => run_row(row.parse().expect("a row"), n.parse().expect("a number of calls")),
        _ => panic!("no words, or a row and a number of calls"),
    }
}

/// All tables.
fn tables() {
    print_times();
    println!();
    print_openings();
    println!();
    print_work();
    println!();
    print_stacks();
    println!();
    print_growth();
}

/// The rows: a device of 32 integer sensors.
fn cases() -> Vec<Case> {
    let case = |name, round, clients, setup: &str, line: &str, n| Case {
        name,
        round,
        sheet: unit::sheet(32),
        clients,
        setup: setup.to_string(),
        line: line.to_string(),
        n,
    };
    let sampling = |strategy| unit::sampling(32, strategy);
    let (event, auto, period) = (sampling("event"), sampling("auto"), sampling("period 0.001"));
    let bulk = sampling("differential 10");
    vec![
        case("connect, disconnect (mean of the two)", Round::Connect, 7, "?watchdog", "", 20_000),
        case("tick, nothing due", Round::Tick, 8, &event, "", 20_000),
        case("tick, all 256 due", Round::Tick, 8, &period, "", 4_000),
        case("reading, silent", Round::Reading, 8, &event, "", 20_000),
        case("reading, reported to 8 clients", Round::Reading, 8, &auto, "", 20_000),
        case("`?watchdog`", Round::Line, 8, &event, "?watchdog", 20_000),
        case("`?sensor-value` of 32 sensors", Round::Line, 8, &event, "?sensor-value", 10_000),
        case("`?sensor-sampling` of 32 names", Round::Line, 8, &event, &bulk, 10_000),
    ]
}

/// Behind those: the check of a state, and openings.
const CHECK: &str = "the check of a state alone";
const OPEN: &str = "open, 32 integer sensors";
const OPEN_LARGEST: &str = "open, the largest sheet";

/// The n calls of a row on the device.
fn device_calls(case: &Case, n: u64) -> u64 {
    device::calls(case.round as u8, &case.sheet, case.clients, &case.setup, &case.line, n)
}

fn device_checks(n: u64) -> u64 {
    device::checks(&unit::sheet(32), 8, &unit::sampling(32, "event"), n)
}

/// The calls of a row, for a program that watches this one.
fn run_row(row: usize, n: u64) {
    let cases = cases();
    let taken = match row.checked_sub(cases.len()) {
        None => device_calls(&cases[row], n),
        Some(0) => device_checks(n),
        Some(1) => device::opens(&unit::sheet(32), n),
        _ => device::opens(&unit::largest_sheet(), n),
    };
    assert_eq!(taken, n, "calls that were taken");
}

/// Nanoseconds a call.
fn print_times() {
    let copy = nanoseconds(20_000, TIMES, |n| {
        let mut state = Bytes([1; WORDS]);
        for _ in 0..n {
            state = through(black_box(state));
        }
        black_box(state.0[0]);
        n
    });
    println!("| call | device, ns | model, ns | copy, ns | device / model | device / copy |");
    println!("|---|---|---|---|---|---|");
    for case in cases() {
        let device = nanoseconds(case.n, TIMES, |n| device_calls(&case, n));
        let model = nanoseconds(case.n, TIMES, |n| model_calls(&case, n));
        print_times_row(case.name, device, Some(model), copy);
    }
    print_times_row(CHECK, nanoseconds(20_000, TIMES, device_checks), None, copy);
}

/// Nanoseconds an opening.
fn print_openings() {
    println!("| call | device, ns | model, ns | device / model |");
    println!("|---|---|---|---|");
    for (name, sheet) in [(OPEN, unit::sheet(32)), (OPEN_LARGEST, unit::largest_sheet())] {
        let opened = |_: &u64| Device::open(&sheet, 0).0 == 0;
        let device = nanoseconds(2_000, TIMES, |n| device::opens(&sheet, n));
        let model = nanoseconds(2_000, TIMES, |n| (0..n).filter(opened).count() as u64);
        println!("| {name} | {device:.0} | {model:.0} | {:.1} |", device / model);
    }
}

fn print_times_row(name: &str, device: f64, model: Option<f64>, copy: f64) {
    let (ns, ratio) = match model {
        Some(model) => (format!("{model:.0}"), format!("{:.1}", device / model)),
        None => ("–".to_string(), "–".to_string()),
    };
    println!("| {name} | {device:.0} | {ns} | {copy:.0} | {ratio} | {:.1} |", device / copy);
}

/// Instructions and bytes copied, a call.
fn print_work() {
    println!("| call | instructions | bytes copied | in States |");
    println!("|---|---|---|---|");
    let cases = cases();
    let names = cases.iter().map(|case| case.name).chain([CHECK, OPEN, OPEN_LARGEST]);
    for (row, name) in names.enumerate() {
        let instructions = instructions(row).map_or("–".to_string(), |count| count.to_string());
        let (bytes, states) = match copied(&cases, row) {
            Some(bytes) => (bytes.to_string(), format!("{:.1}", bytes as f64 / (8 * WORDS) as f64)),
            None => ("–".to_string(), "–".to_string()),
        };
        println!("| {name} | {instructions} | {bytes} | {states} |");
    }
}

/// Instructions a call of a row takes, as callgrind counts them, where it is at hand.
fn instructions(row: usize) -> Option<u64> {
    const N: u64 = 100;
    let counted = |n: u64| {
        let run = Command::new("valgrind")
            .args(["--tool=callgrind", "--callgrind-out-file=/dev/null"])
            .arg(std::env::current_exe().ok()?)
            .args([row.to_string(), n.to_string()])
            .output()
            .ok()?;
        let said = String::from_utf8_lossy(&run.stderr).into_owned();
        let count = said.lines().find_map(|line| line.split_once("Collected : "))?.1;
        count.trim().parse::<u64>().ok()
    };
    Some((counted(N)? - counted(0)?) / N)
}

/// Bytes that a call of a row copies, where they are counted.
#[cfg(counted)]
fn copied(cases: &[Case], row: usize) -> Option<u64> {
    Some(match row.checked_sub(cases.len()) {
        None => {
            let case = &cases[row];
            counted::call_bytes(case.round as u8, &case.sheet, case.clients, &case.setup, &case.line)
        }
        Some(0) => counted::check_bytes(&unit::sheet(32), 8, &unit::sampling(32, "event")),
        Some(1) => counted::open_bytes(&unit::sheet(32)),
        _ => counted::open_bytes(&unit::largest_sheet()),
    })
}

#[cfg(not(counted))]
fn copied(_: &[Case], _: usize) -> Option<u64> {
    None
}

/// The stack that a call uses.
#[cfg(counted)]
fn print_stacks() {
    println!("| call | stack, bytes |");
    println!("|---|---|");
    let sheet = unit::sheet(32);
    for (name, bytes) in counted::stacks(&sheet) {
        println!("| {name} | {bytes} |");
    }
    let bulk = unit::sampling(32, "differential 10");
    let lines = ["?watchdog", "?sensor-value", &bulk, "?help", "?restart", "?no-such-request", "!reply"];
    let deepest = lines.iter().map(|line| counted::line_stack(&sheet, line)).max();
    println!("| line (the most of {}) | {} |", lines.len(), deepest.unwrap_or_default());
}

#[cfg(not(counted))]
fn print_stacks() {
    println!("objcopy is missing: copies and stack are not counted.");
}

/// Nanoseconds a call, by the numbers of sensors and of clients.
fn print_growth() {
    const SIZES: [(usize, u8); 9] =
        [(0, 0), (0, 1), (0, 8), (1, 0), (1, 1), (1, 8), (32, 0), (32, 1), (32, 8)];
    let sizes: Vec<String> = SIZES.iter().map(|(sensors, clients)| format!("{sensors}, {clients}")).collect();
    println!("| sensors, clients | {} |", sizes.join(" | "));
    println!("|---|{}", "---|".repeat(SIZES.len()));
    print_growth_row("tick, nothing due", &SIZES, |sensors, clients| {
        Some(grown(Round::Tick, sensors, clients, "event", ""))
    });
    print_growth_row("tick, all due", &SIZES, |sensors, clients| {
        Some(grown(Round::Tick, sensors, clients, "period 0.001", ""))
    });
    print_growth_row("reading, silent", &SIZES, |sensors, clients| {
        (sensors > 0).then(|| grown(Round::Reading, sensors, clients, "event", ""))
    });
    print_growth_row("`?watchdog`", &SIZES, |sensors, clients| {
        (clients > 0).then(|| grown(Round::Line, sensors, clients, "event", "?watchdog"))
    });
    print_growth_row("the check alone", &SIZES, |sensors, clients| {
        let (sheet, setup) = (unit::sheet(sensors), unit::sampling(sensors, "event"));
        Some(nanoseconds(GROWN_CALLS, GROWN_TIMES, |n| device::checks(&sheet, clients, &setup, n)))
    });
    print_growth_row("open", &SIZES, |sensors, clients| {
        let sheet = unit::sheet(sensors);
        (clients == 0).then(|| nanoseconds(GROWN_CALLS, GROWN_TIMES, |n| device::opens(&sheet, n)))
    });
}

/// Calls and measurements for the table of growth.
const GROWN_CALLS: u64 = 4_000;
const GROWN_TIMES: usize = 7;

/// Nanoseconds a call of a round on a unit of that size.
fn grown(round: Round, sensors: usize, clients: u8, strategy: &str, line: &str) -> f64 {
    let (sheet, setup) = (unit::sheet(sensors), unit::sampling(sensors, strategy));
    nanoseconds(GROWN_CALLS, GROWN_TIMES, |n| device::calls(round as u8, &sheet, clients, &setup, line, n))
}

fn print_growth_row(name: &str, sizes: &[(usize, u8)], cost: impl Fn(usize, u8) -> Option<f64>) {
    let costs: Vec<String> = sizes
        .iter()
        .map(|&(sensors, clients)| cost(sensors, clients).map_or("–".to_string(), |ns| format!("{ns:.0}")))
        .collect();
    println!("| {name} | {} |", costs.join(" | "));
}

/// The same n calls on the model.
fn model_calls(case: &Case, n: u64) -> u64 {
    let mut out = Vec::new();
    let (_, mut device) = Device::open(&case.sheet, 0);
    for client in 0..usize::from(case.clients) {
        device.connect(device::LENT, client, b"bench", &mut out);
        device.line(device::LENT, client, case.setup.as_bytes(), &mut out);
    }
    (0..n).filter(|&k| model_call(case, &mut device, k, &mut out) == 0).count() as u64
}

/// Call k of a round on the model.
fn model_call(case: &Case, device: &mut Device, k: u64, out: &mut Vec<u8>) -> u8 {
    match case.round {
        Round::Connect if k % 2 == 0 => device.connect(device::LENT, 7, b"bench", out),
        Round::Connect => device.disconnect(device::LENT, 7, out),
        Round::Tick => device.tick(device::LENT, k, out),
        Round::Reading => device.reading(device::LENT, 0, Reading::Integer(7), 0, out),
        Round::Line => device.line(device::LENT, 0, case.line.as_bytes(), out),
    }
}

/// A State goes in by value and comes back by value.
#[inline(never)]
fn through(state: Bytes) -> Bytes {
    black_box(state)
}

/// Nanoseconds a call, without what 0 calls cost. All calls must be taken.
fn nanoseconds(n: u64, times: usize, run: impl Fn(u64) -> u64) -> f64 {
    shortest(n, times, &run).saturating_sub(shortest(0, times, &run)).as_nanos() as f64 / n as f64
}

/// The shortest time that n calls took.
fn shortest(n: u64, times: usize, run: &impl Fn(u64) -> u64) -> Duration {
    (0..times).map(|_| time(n, run)).min().unwrap_or_default()
}

/// How long n calls take.
fn time(n: u64, run: &impl Fn(u64) -> u64) -> Duration {
    let start = Instant::now();
    let taken = black_box(run(n));
    assert_eq!(taken, n, "calls that were taken");
    start.elapsed()
}
