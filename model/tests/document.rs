//! Document 01's session and its edges, on the model.

use model::message::{Line, Message};
use model::{Device, Reading};

const LENT: usize = 65_536;

/// A text of a sheet: its length byte, then its bytes.
fn text(bytes: &str) -> Vec<u8> {
    let mut all = vec![bytes.len() as u8];
    all.extend_from_slice(bytes.as_bytes());
    all
}

/// A sheet with API `lgu-1.0`, build `b7` and one sensor.
fn sheet(name: &str, kind: u8, limits: &[i32]) -> Vec<u8> {
    let mut all = b"LGU\x00\x01".to_vec();
    all.extend(text("lgu-1.0"));
    all.extend(text("b7"));
    all.push(1);
    all.extend(text(name));
    all.extend([0, 0, kind, limits.len() as u8]);
    all.extend(limits.iter().flat_map(|limit| limit.to_be_bytes()));
    all
}

/// The lines of an output, all of them to client 0.
fn lines(out: &[u8]) -> String {
    let (mut rest, mut lines) = (out, String::new());
    while !rest.is_empty() {
        let length = usize::from(rest[1]) << 8 | usize::from(rest[2]);
        assert_eq!(rest[0], 0);
        lines.push_str(std::str::from_utf8(&rest[3..3 + length]).unwrap());
        rest = &rest[3 + length..];
    }
    lines
}

/// A device of one sensor with client 0 connected.
struct Unit {
    device: Device,
    out: Vec<u8>,
}

impl Unit {
    fn new(kind: u8, limits: &[i32]) -> Unit {
        let (number, device) = Device::open(&sheet("load", kind, limits), 0);
        assert_eq!(number, 0);
        let mut unit = Unit { device, out: Vec::new() };
        assert_eq!(unit.device.connect(LENT, 0, b"console", &mut unit.out), 0);
        unit
    }

    fn tick(&mut self, ms: u64) -> String {
        assert_eq!(self.device.tick(LENT, ms, &mut self.out), 0);
        lines(&self.out)
    }

    /// A reading at the clock.
    fn give(&mut self, reading: Reading) -> String {
        let clock = self.device.clock;
        assert_eq!(self.device.reading(LENT, 0, reading, clock, &mut self.out), 0);
        lines(&self.out)
    }

    fn ask(&mut self, line: &str) -> (u8, String) {
        let number = self.device.line(LENT, 0, line.as_bytes(), &mut self.out);
        (number, lines(&self.out))
    }
}

/// "Input: `@ 5000`, `?sensor-sampling load differential 10`, `= 0 10`, `= 0
/// 20`, `= 0 21`, `?watchdog[7]`. Output: [...]"; document 02, (e): "The console
/// [...] sends `?log-level info` after connecting, and the printed session gains
/// `!log-level ok info` as its third line."
#[test]
fn session() {
    let mut unit = Unit::new(1, &[0, 1000]);
    let mut shown = lines(&unit.out);
    shown += &unit.ask("?log-level info").1;
    shown += &unit.tick(5000);
    shown += &unit.ask("?sensor-sampling load differential 10").1;
    for value in [10, 20, 21] {
        shown += &unit.give(Reading::Integer(value));
    }
    shown += &unit.ask("?watchdog[7]").1;
    let expected = "#version-connect katcp-protocol 5.1-MIB
#version-connect katcp-device lgu-1.0 b7
!log-level ok info
!sensor-sampling ok load differential 10
#sensor-status 5.000 1 load unknown 0
#sensor-status 5.000 1 load nominal 10
#sensor-status 5.000 1 load nominal 21
!watchdog[7] ok
";
    assert_eq!(shown, expected);
}

/// "*`[2147483647]` read, *`[2147483648]` 12."
#[test]
fn identifiers() {
    let mut unit = Unit::new(1, &[]);
    assert_eq!(unit.ask("?watchdog[2147483647]"), (0, "!watchdog[2147483647] ok\n".to_string()));
    assert_eq!(
        unit.ask("?watchdog[2147483648]"),
        (12, "#log error 0.000 katcp Not\\_a\\_message.\n".to_string())
    );
}

/// "*`a\@b` is `ab`, *empty writes `\@`."
#[test]
fn empty_escape() {
    let message = Message::read(b"#foo a\\@b \\@").unwrap();
    assert_eq!(message.arguments, [b"ab".to_vec(), b"".to_vec()]);
    let mut out = Vec::new();
    Line::inform("foo").with("").deliver(0, &mut out);
    assert_eq!(lines(&out), "#foo \\@\n");
}

/// "Limits 0, 1000, −5, 1200: *1000 nominal, *1001 warn, *1201 error, *−6
/// error."
#[test]
fn statuses() {
    let mut unit = Unit::new(1, &[0, 1000, -5, 1200]);
    unit.ask("?sensor-sampling load auto");
    for (value, status) in [(1000, "nominal"), (1001, "warn"), (1201, "error"), (-6, "error"), (-5, "warn")] {
        let line = format!("#sensor-status 0.000 1 load {status} {value}\n");
        assert_eq!(unit.give(Reading::Integer(value)), line);
    }
}

/// "Float difference 0.1, last report 0.0, status alike: *102/1024 silent,
/// *103/1024 reported."
#[test]
fn float_difference() {
    let mut unit = Unit::new(2, &[]);
    unit.give(Reading::Float(-0.0));
    let (number, shown) = unit.ask("?sensor-sampling load differential 0.10");
    let expected = "!sensor-sampling ok load differential 0.1\n#sensor-status 0.000 1 load nominal 0.0\n";
    assert_eq!((number, &shown[..]), (0, expected));
    assert_eq!(unit.give(Reading::Float(102.0 / 1024.0)), "");
    let line = "#sensor-status 0.000 1 load nominal 0.1005859375\n";
    assert_eq!(unit.give(Reading::Float(103.0 / 1024.0)), line);
}

/// "Period 1.5 from 5.000: *6.499 silent, *6.500 reports."
#[test]
fn period() {
    let mut unit = Unit::new(1, &[]);
    unit.tick(5000);
    assert!(unit
        .ask("?sensor-sampling load period 1.5")
        .1
        .starts_with("!sensor-sampling ok load period 1.500\n"));
    assert_eq!(unit.tick(6499), "");
    assert_eq!(unit.tick(6500), "#sensor-status 6.500 1 load unknown 0\n");
}

/// "Event-rate, shortest 1, longest 3, unchanged, from 5.000: *8.000 silent,
/// *8.001 reports."
#[test]
fn event_rate() {
    let mut unit = Unit::new(1, &[]);
    unit.tick(5000);
    unit.ask("?sensor-sampling load event-rate 1 3");
    assert_eq!(unit.tick(8000), "");
    assert_eq!(unit.tick(8001), "#sensor-status 8.001 1 load unknown 0\n");
}

/// "(`0.0`, `-0.5`, `0.0009765625`)".
#[test]
fn floats_written() {
    let mut unit = Unit::new(2, &[]);
    unit.ask("?sensor-sampling load auto");
    for (value, shown) in [(-0.5, "-0.5"), (1.0 / 1024.0, "0.0009765625"), (-1_048_576.0, "-1048576.0")] {
        assert_eq!(
            unit.give(Reading::Float(value)),
            format!("#sensor-status 0.000 1 load nominal {shown}\n")
        );
    }
    for value in [f64::NAN, f64::INFINITY, 1.0 / 2048.0, 1_048_576.0 + 1.0 / 1024.0, 5e-324] {
        assert_eq!(unit.device.reading(LENT, 0, Reading::Float(value), 0, &mut unit.out), 10);
    }
}
