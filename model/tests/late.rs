//! Document 02, (g), "Readings that arrive late", on the model: what the vectors cannot show, and generated readings.

use model::arrival::Arrival;
use model::console;
use model::device::{Device, Taken};
use model::encode::encode;
use model::generate::{script, Size};
use model::script::{read_entry, Call, Entry, Session};
use model::strategy::{Difference, Rate, Report, Strategy, Subscription};
use model::value::{Reading, State, Status, STATUSES};

const LENT: usize = 65_536;

/// A sheet with an integer `load`.
fn sheet() -> Vec<u8> {
    let script = encode("sheet lgu-1.0 b7\nsensor load \"\" kg integer 0 1000\nopen\n").unwrap();
    match read_entry(script.trim_end().as_bytes()) {
        Entry::Call(Call::Open { sheet, .. }) => sheet,
        _ => panic!("{script}"),
    }
}

/// A device at 5.000 that holds a status at 4.000, with `load` under auto for client 0.
fn holding(status: Status) -> Device {
    let (mut device, mut out) = (Device::open(&sheet(), 0).1, Vec::new());
    assert_eq!(device.connect(LENT, 0, b"archive", &mut out), 0);
    assert_eq!(device.tick(LENT, 5000, &mut out), 0);
    device.readings[0] = Taken { time: 4000, state: State { status, value: 0 } };
    assert_eq!(device.line(LENT, 0, b"?sensor-sampling load auto", &mut out), 0);
    device
}

/// "or if the stored status is unknown": from fresh it is so at time 0 alone, which no time is before, but a state may
/// hold it at a later time. No other status yields to an older reading.
#[test]
fn unknown_alone_yields_to_an_older_reading() {
    for status in STATUSES {
        for time in [0, 3999] {
            let (mut device, mut out) = (holding(status), Vec::new());
            let before = device.readings[0];
            assert_eq!(device.reading(LENT, 0, Reading::Integer(7), time, &mut out), 0);
            if status == Status::Unknown {
                let state = State { status: Status::Nominal, value: 7 };
                assert_eq!(device.readings[0], Taken { time, state });
                assert_eq!(&out[3..], b"#sensor-status 5.000 1 load nominal 7\n");
            } else {
                assert_eq!((device.readings[0], &out[..]), (before, &b""[..]));
            }
        }
    }
}

/// "An older one [...] changes nothing and causes no report, under auto too.": no pair is visited, not even one that
/// would report. From fresh only those under auto would.
#[test]
fn an_older_reading_visits_no_pair() {
    let (difference, rate) = (Difference { millionths: 0 }, Rate { shortest: 0, longest: 1 });
    for strategy in [
        Strategy::Auto,
        Strategy::Event,
        Strategy::Differential(difference),
        Strategy::EventRate(rate),
        Strategy::DifferentialRate(difference, rate),
    ] {
        let (mut device, mut out) = (holding(Status::Nominal), Vec::new());
        let last = Some(Report { time: 0, state: State::invalid(Status::Failure) });
        device.clients[0].as_mut().unwrap().subscriptions[0] = Subscription { strategy, last };
        let before = (device.readings.clone(), device.clients.clone());
        assert_eq!(device.reading(LENT, 0, Reading::Integer(7), 3999, &mut out), 0);
        assert!(out.is_empty() && before == (device.readings.clone(), device.clients.clone()));
        assert_eq!(device.reading(LENT, 0, Reading::Integer(7), 4000, &mut out), 0);
        assert_eq!(&out[3..], b"#sensor-status 5.000 1 load nominal 7\n");
    }
}

/// "the last that superseded the one stored before it": from fresh that is the last of those with the latest time.
/// The others wrote nothing.
#[test]
fn the_latest_is_stored_whatever_the_order() {
    let (mut accepted, mut passed_over) = (0, 0);
    for seed in 0..60 {
        let (mut session, mut taken) = (Session::default(), Vec::new());
        for line in script(seed, Size::small(300)) {
            let Entry::Call(call) = read_entry(&line) else { continue };
            let arrival = Arrival::of(&session.device, &call);
            let number = session.perform(&call);
            if matches!(call, Call::Open { .. }) {
                taken = vec![Vec::new(); session.device.readings.len()];
            }
            let (0, Some(Arrival { sensor, time, state, .. })) = (number, arrival) else { continue };
            taken[sensor].push(Taken { time, state });
            let latest = taken[sensor].iter().max_by_key(|taken| taken.time).unwrap();
            assert_eq!(session.device.readings[sensor], *latest, "seed {seed}");
            let late = latest.time != time;
            assert!(!late || session.out.is_empty(), "seed {seed}");
            accepted += 1;
            passed_over += usize::from(late);
        }
    }
    assert!(passed_over > 300 && accepted > 4 * passed_over, "{passed_over} of {accepted}");
}

/// "(the console gives the clock)".
#[test]
fn the_console_gives_the_clock() {
    let input = "@ 5000\n= 0 10\n@ 6000\n?sensor-value load\n= 0 11\n?sensor-value load";
    let mut shown = Vec::new();
    console::serve(&sheet(), false, input.as_bytes(), &mut shown).unwrap();
    let expected = "#version-connect katcp-protocol 5.1-MIB
#version-connect katcp-device lgu-1.0 b7
!log-level ok info
#sensor-value 5.000 1 load nominal 10
!sensor-value ok 1
#sensor-value 6.000 1 load nominal 11
!sensor-value ok 1
";
    assert_eq!(String::from_utf8(shown).unwrap(), expected);
}

/// A reading's time as the last word of its call: read and written alike.
#[test]
fn a_time_is_the_last_word() {
    for (line, expected) in [
        ("reading 65536 0 integer -7", None),
        ("reading 65536 0 integer -7 0", Some(0)),
        ("reading 65536 1 float 3ff0000000000000 18446744073709551615", Some(u64::MAX)),
        ("reading 65536 2 inactive - 5000", Some(5000)),
    ] {
        match read_entry(line.as_bytes()) {
            Entry::Call(call @ Call::Reading { time, .. }) => {
                assert_eq!((time, &call.text()[..]), (expected, line));
            }
            _ => panic!("{line}"),
        }
    }
}
