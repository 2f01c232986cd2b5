//! Document 02, (m), "Small units with one connection", on the model: what the vectors cannot show, and generated scripts.

use model::compare::tally;
use model::device::{Device, Profile, CLIENTS};
use model::encode::encode;
use model::files::{deliveries, files, File};
use model::generate::others::one_dispatcher;
use model::generate::{script, Size};
use model::readable;
use model::script::{read_entry, Call, Entry, Session};
use model::tells::{check_all, check_script, Counts};

const LENT: usize = 65_536;

/// A sheet with an integer `load`.
const SHEET: &str = "sheet lgu-1.0 b7\nsensor load \"\" kg integer 0 1000\n";

/// A script in the readable form, as lines.
fn lines_of(script: &str) -> Vec<Vec<u8>> {
    encode(script).unwrap().lines().map(|line| line.as_bytes().to_vec()).collect()
}

/// The sheet's bytes.
fn sheet() -> Vec<u8> {
    match read_entry(&lines_of(&format!("{SHEET}open"))[0]) {
        Entry::Call(Call::Open { sheet, .. }) => sheet,
        _ => panic!("no opening"),
    }
}

/// All of a device's state.
fn state(device: &Device) -> impl PartialEq + std::fmt::Debug {
    let Device { profile, sheet, clock, halted, level, readings, clients, .. } = device.clone();
    (profile, sheet, clock, halted, level, readings, clients)
}

/// "31, with the blank state as at 4, when the profile is neither, before 4": every byte, with a sheet and without.
#[test]
fn every_number_is_a_profile_or_31() {
    for number in 0..=255 {
        for (bytes, broken) in [(sheet(), false), (b"LGU".to_vec(), true), (Vec::new(), true)] {
            let (answer, device) = Device::open(&bytes, number);
            let expected = match number {
                2.. => 31,
                _ if broken => 4,
                _ => 0,
            };
            assert_eq!(answer, expected, "{number}");
            let profile = if (answer, number) == (0, 1) { Profile::Single } else { Profile::Several };
            assert_eq!(device.profile, profile);
            assert_eq!(expected == 0, state(&device) != state(&Device::blank()));
        }
    }
}

/// A profile as the last word of its call: read and written alike.
#[test]
fn a_profile_is_the_last_word() {
    for (line, expected) in
        [("open -", None), ("open - 0", Some(0)), ("open 4c 1", Some(1)), ("open - 255", Some(255))]
    {
        match read_entry(line.as_bytes()) {
            Entry::Call(call @ Call::Open { profile, .. }) => {
                assert_eq!((profile, &call.text()[..]), (expected, line));
            }
            _ => panic!("{line}"),
        }
    }
    for line in ["open - 256", "open - -1", "open - 01", "open - x", "open - ", "open - 1 1"] {
        assert!(matches!(read_entry(line.as_bytes()), Entry::Error), "{line}");
    }
}

/// An opening in the readable form is encoded as the call that it was.
#[test]
fn an_opening_reads_as_it_is_encoded() {
    for behind in ["open", "open sheet 0", "open sheet 1", "open sheet 255"] {
        let call = &lines_of(&format!("{SHEET}{behind}"))[0];
        assert_eq!(&lines_of(&readable::entry(call))[0], call, "{behind}");
    }
}

/// "32 when a client above 0 is named under profile 1, in 5's place": nothing is sent and nothing changes, whoever is
/// connected and whatever the line.
#[test]
fn a_client_above_0_gets_32_and_changes_nothing() {
    for connected in [false, true] {
        let (mut device, mut out) = (Device::open(&sheet(), 1).1, Vec::new());
        if connected {
            assert_eq!(device.connect(LENT, 0, b"archive", &mut out), 0);
            assert_eq!(device.line(LENT, 0, b"?sensor-sampling load auto", &mut out), 0);
        }
        let before = state(&device);
        for client in (1..=300).chain([usize::MAX]) {
            for address in [&b"laptop"[..], b""] {
                assert_eq!((device.connect(LENT, client, address, &mut out), out.len()), (32, 0));
            }
            assert_eq!((device.disconnect(LENT, client, &mut out), out.len()), (32, 0));
            for line in [&b"?halt"[..], b"", b"halt", b"!halt ok", b"#halt", &[b' '; 2049], &[b'x'; 2049]] {
                assert_eq!((device.line(LENT, client, line, &mut out), out.len()), (32, 0));
            }
        }
        assert!(before == state(&device));
    }
}

/// The calls of generated scripts on a device of profile 1, one by one, with what the device was before each.
fn each_single_call(seeds: std::ops::Range<u64>, mut check: impl FnMut(u64, &Device, &Call, u8, &Session)) {
    for seed in seeds {
        let mut session = Session::default();
        for line in script(seed, Size::full(300)) {
            let Entry::Call(call) = read_entry(&line) else { continue };
            let before = session.device.clone();
            let number = session.perform(&call);
            if before.profile == Profile::Single && !matches!(call, Call::Open { .. }) {
                check(seed, &before, &call, number, &session);
            }
        }
    }
}

/// The client that a call names.
fn named(call: &Call) -> Option<u64> {
    match call {
        Call::Connect { client, .. } | Call::Disconnect { client, .. } | Call::Line { client, .. } => {
            Some(*client)
        }
        _ => None,
    }
}

/// "has client 0 only": nobody else is connected or sent anything. "No `client-connected` is sent". 5 is never given,
/// 32 exactly where another client is named and neither 2 nor 3 comes first, 6 never to a connect.
#[test]
fn generated_devices_have_client_0_only() {
    let (mut calls, mut refused) = (0, 0);
    each_single_call(0..100, |seed, before, call, number, session| {
        let device = &session.device;
        assert_eq!(device.profile, Profile::Single, "seed {seed}");
        assert!((1..CLIENTS).all(|client| !device.is_connected(client)), "seed {seed}");
        for (client, line) in deliveries(&session.out) {
            assert_eq!(client, 0, "seed {seed}");
            assert!(!line.starts_with(b"#client-"), "seed {seed}");
        }
        let above_0 = named(call).is_some_and(|client| client > 0);
        assert_eq!(number == 32, above_0 && number != 2 && number != 3, "seed {seed}");
        assert!(number != 5 && !(number == 6 && matches!(call, Call::Connect { .. })), "seed {seed}");
        if number == 32 {
            assert!(session.out.is_empty() && state(before) == state(device), "seed {seed}");
            refused += 1;
        }
        calls += 1;
    });
    assert!(calls > 5_000 && refused > 200, "{refused} of {calls}");
}

/// A connect while connected: the farewell first, then the greeting, and a client without strategies or reports.
#[test]
fn generated_newcomers_displace() {
    let (mut displaced, mut refused) = (0, 0);
    each_single_call(0..100, |seed, before, call, number, session| {
        let Call::Connect { client: 0, address, .. } = call else { return };
        if !before.is_connected(0) {
            return;
        }
        if number != 0 {
            assert!(session.out.is_empty() && state(before) == state(&session.device), "seed {seed}");
            refused += 1;
            return;
        }
        let written = String::from_utf8(address.clone()).unwrap().replace('\\', "\\\\");
        let farewell = format!("#disconnect New\\_client\\_connected\\_from\\_{written}");
        let lines: Vec<Vec<u8>> = deliveries(&session.out).into_iter().map(|(_, line)| line).collect();
        assert_eq!(lines.len(), 3, "seed {seed}");
        assert_eq!(String::from_utf8_lossy(&lines[0]), farewell, "seed {seed}");
        let mut fresh = before.clone();
        let mut out = Vec::new();
        assert_eq!(fresh.disconnect(LENT, 0, &mut out), 0);
        assert_eq!(fresh.connect(LENT, 0, address, &mut out), 0);
        assert!(session.out.ends_with(&out) && state(&fresh) == state(&session.device), "seed {seed}");
        displaced += 1;
    });
    assert!(displaced > 50 && refused > 10, "{displaced}, {refused}");
}

/// Halt and restart keep the profile, and what was sampled before is not reported to whoever connects behind them.
#[test]
fn restart_and_halt_keep_the_profile() {
    for (request, answer) in [("?restart", 0), ("?halt", 3)] {
        let (mut device, mut out) = (Device::open(&sheet(), 1).1, Vec::new());
        assert_eq!(device.connect(LENT, 0, b"archive", &mut out), 0);
        assert_eq!(device.line(LENT, 0, request.as_bytes(), &mut out), 0);
        assert_eq!(device.profile, Profile::Single);
        assert_eq!(device.connect(LENT, 0, b"archive", &mut out), answer);
        assert_eq!(device.connect(LENT, 1, b"laptop", &mut out), if answer == 0 { 32 } else { 3 });
    }
}

const DISPLACED: &str = "open sheet 1
connect 65536 0 \"planner\"
line 65536 0 \"?sensor-sampling load auto\"
reading 65536 0 integer 10
connect 65536 0 \"a\\\\b\"
reading 65536 0 integer 20
connect 65536 1 \"laptop\"
connect 65536 0 \"\"
line 65536 0 \"?watchdog\"
";

const OLD_FILE: &str = "#version-connect katcp-protocol 5.1-IB
#version-connect katcp-device lgu-1.0 b7
!sensor-sampling ok load auto
#sensor-status 0.000 1 load unknown 0
#sensor-status 0.000 1 load nominal 10
#disconnect New\\_client\\_connected\\_from\\_a\\\\b
";

const NEW_FILE: &str = "#version-connect katcp-protocol 5.1-IB
#version-connect katcp-device lgu-1.0 b7
!watchdog ok
";

/// A file's lines as text.
fn text(file: &File) -> String {
    file.lines.iter().map(|line| format!("{}\n", std::str::from_utf8(line).unwrap())).collect()
}

/// "and then greets the newcomer, whose lines begin there": the farewell in the same output is the old client's.
#[test]
fn a_newcomers_file_begins_behind_the_farewell() {
    let script = lines_of(&format!("{SHEET}{DISPLACED}"));
    let mut counts = Counts::default();
    assert_eq!(check_script(&script, &mut counts), Ok(()));
    assert_eq!((counts.files, counts.single, counts.displaced), (2, 2, 1));
    let files = files(&script);
    assert_eq!(files.iter().map(text).collect::<Vec<_>>(), [OLD_FILE, NEW_FILE]);
    assert_eq!(files.iter().map(|file| file.displaced).collect::<Vec<_>>(), [true, false]);
    assert!(files[0].steps.last().unwrap().pairs.is_none());
}

/// Generated files begin with their greeting under both profiles, and a displaced client's ends with its farewell.
#[test]
fn generated_files_begin_with_their_greeting() {
    let mut count = [0; 2];
    for seed in 0..60 {
        for file in files(&script(seed, Size::full(300))) {
            let version = ["5.1-MIB", "5.1-IB"][file.profile as usize];
            let greeting = format!("#version-connect katcp-protocol {version}");
            assert_eq!(file.lines[0], greeting.as_bytes(), "seed {seed}");
            let farewell =
                file.lines.last().unwrap().starts_with(b"#disconnect New\\_client\\_connected\\_from\\_");
            assert_eq!(farewell, file.displaced, "seed {seed}");
            assert!(!file.displaced || file.profile == Profile::Single, "seed {seed}");
            count[file.profile as usize] += 1;
        }
    }
    assert!(count[0] > 200 && count[1] > 80, "{count:?}");
}

/// What a file tells holds under profile 1 too, displaced or not.
#[test]
fn generated_files_tell_what_the_device_held_before_a_newcomer_came() {
    let (counts, found) = check_all(1000..1100, 300);
    assert_eq!(found, vec![]);
    assert!(counts.single > 150 && counts.displaced > 50, "{} and {}", counts.single, counts.displaced);
}

/// "the two lists of (i), being compared within one profile": under 1 the dispatcher is client 0, and what others ask is
/// declined; log entries differ.
#[test]
fn lists_with_one_dispatcher_have_one_profile() {
    let (mut single, mut connected, mut others) = (0, 0, 0);
    for seed in 0..60 {
        let lists = one_dispatcher(seed, Size::full(200));
        let opened = lists.lists.each_ref().map(|list| list[0].clone());
        assert!(opened[0] == opened[1] && opened[0] == opened[2], "seed {seed}");
        if !matches!(opened[0], Call::Open { profile: Some(1), .. }) {
            continue;
        }
        single += 1;
        connected += usize::from(lists.dispatcher == 0);
        let mut session = Session::default();
        for call in &lists.lists[1] {
            let number = session.perform(call);
            if named(call).is_some_and(|client| client > 0) {
                assert!([2, 3, 32].contains(&number), "seed {seed}");
                others += 1;
            }
        }
    }
    assert!(single > 10 && connected > 10 && others > 500, "{single}, {connected}, {others}");
}

/// The numbers of (m) come up in generated scripts, and so do newcomers while connected.
#[test]
fn the_numbers_come_up() {
    let tally = tally(0..100, 300);
    assert!(tally.numbers[&31] > 20 && tally.numbers[&32] > 200, "{:?}", tally.numbers);
    let [several, single] = tally.profiles;
    assert_eq!((several.displaced, several.forgotten), (0, 0));
    assert!(
        single.opened * 3 > several.opened && single.displaced > 50 && single.forgotten > 100,
        "{single:?}"
    );
}
