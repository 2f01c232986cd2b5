//! What a client's file tells, on the model: five written files cut at every line, with what may be concluded
//! written out by hand, and generated ones.

use model::encode::encode;
use model::files::{files, File};
use model::generate::{script, Size};
use model::reader::{conclude, Conclusion, Told};
use model::sheet::{Kind, Sheet};
use model::strategy::Difference;
use model::tells::{check_all, check_script, Counts};
use model::value::{State, Status};

/// A script in the readable form, as lines.
fn lines_of(script: &str) -> Vec<Vec<u8>> {
    encode(script).unwrap().lines().map(|line| line.as_bytes().to_vec()).collect()
}

/// The one file of a script, with the counts of its check.
fn written(script: &str) -> (File, Counts) {
    let (script, mut counts) = (lines_of(script), Counts::default());
    assert_eq!(check_script(&script, &mut counts), Ok(()));
    let mut files = files(&script);
    assert_eq!(files.len(), 1);
    (files.remove(0), counts)
}

/// A file's lines as text.
fn text(file: &File) -> String {
    file.lines.iter().map(|line| format!("{}\n", std::str::from_utf8(line).unwrap())).collect()
}

/// What is concluded, in words.
fn in_words(sheet: &Sheet, conclusions: Option<Vec<Conclusion>>) -> String {
    let Some(conclusions) = conclusions else {
        return "open".to_string();
    };
    let named = sheet.sensors.iter().zip(conclusions).map(|(sensor, conclusion)| {
        format!("{}: {}", std::str::from_utf8(&sensor.name).unwrap(), conclusion.text(sensor))
    });
    named.collect::<Vec<_>>().join("; ")
}

/// What a reader concludes from the first lines if it sees no more.
fn cut(file: &File, count: usize) -> String {
    in_words(&file.sheet, conclude(&file.sheet, &file.lines[..count], count, false).unwrap())
}

/// The same if it sees the next line too.
fn cut_seeing_next(file: &File, count: usize) -> String {
    in_words(&file.sheet, conclude(&file.sheet, &file.lines[..count + 1], count, false).unwrap())
}

/// What it would conclude if it took the first lines for the whole file.
fn taken_for_whole(file: &File, count: usize) -> String {
    in_words(&file.sheet, conclude(&file.sheet, &file.lines[..count], count, true).unwrap())
}

/// Compares what is concluded at each cut: with no next line seen, and with it, where there is one.
fn assert_cuts(file: &File, expected: &[(&str, &str)]) {
    assert_eq!(file.lines.len(), expected.len());
    for (place, (alone, with_next)) in expected.iter().enumerate() {
        assert_eq!(&cut(file, place + 1), alone, "cut at line {}", place + 1);
        if place + 1 < expected.len() {
            assert_eq!(&cut_seeing_next(file, place + 1), with_next, "line {} with the next", place + 1);
        }
    }
}

/// How many conclusions would be false without the exception for reports, and without that for replies: with
/// the next line seen.
fn false_without_exceptions(counts: &Counts) -> [u64; 2] {
    [counts.open[0].false_conclusions, counts.open[2].false_conclusions]
}

const ONE_TICK: &str = "sheet lgu-1.0 b7
sensor a \"\" \"\" integer
sensor b \"\" \"\" integer
open
connect 65536 0 \"planner\"
tick 65536 5000
line 65536 0 \"?sensor-sampling a event-rate 1 10\"
line 65536 0 \"?sensor-sampling b event-rate 1 10\"
tick 65536 5400
reading 65536 0 integer 10
reading 65536 1 integer 20
tick 65536 6500
tick 65536 8000
log 65536 3 \"lift\" \"Door closed.\"
";

const ONE_TICK_FILE: &str = "#version-connect katcp-protocol 5.1-MIB
#version-connect katcp-device lgu-1.0 b7
!sensor-sampling ok a event-rate 1.000 10.000
#sensor-status 5.000 1 a unknown 0
!sensor-sampling ok b event-rate 1.000 10.000
#sensor-status 5.000 1 b unknown 0
#sensor-status 6.500 1 a nominal 10
#sensor-status 6.500 1 b nominal 20
#log warn 8.000 lift Door\\_closed.
";

/// Two sensors under a rate, both read within the shortest period; one tick past it reports both.
#[test]
fn between_the_reports_of_one_tick() {
    let (file, counts) = written(ONE_TICK);
    assert_eq!(text(&file), ONE_TICK_FILE);
    let nothing = "a: nothing; b: nothing";
    assert_cuts(
        &file,
        &[
            (nothing, nothing),
            (nothing, nothing),
            ("open", "open"),
            ("open", nothing),
            ("open", "open"),
            ("open", nothing),
            ("open", "open"),
            ("open", nothing),
            ("a: nominal 10; b: nominal 20", ""),
        ],
    );
    assert_eq!(taken_for_whole(&file, 7), "a: nothing; b: unknown 0");
    assert_eq!(taken_for_whole(&file, 8), nothing);
    assert_eq!(false_without_exceptions(&counts), [1, 0]);
}

const SET_AGAIN: &str = "sheet lgu-1.0 b7
sensor b \"\" \"\" integer
open
connect 65536 0 \"planner\"
tick 65536 1000
line 65536 0 \"?sensor-sampling b auto\"
reading 65536 0 integer 10
line 65536 0 \"?sensor-sampling b none\"
reading 65536 0 integer 20
tick 65536 5000
log 65536 3 \"lift\" \"Door closed.\"
line 65536 0 \"?sensor-sampling b auto\"
";

const SET_AGAIN_FILE: &str = "#version-connect katcp-protocol 5.1-MIB
#version-connect katcp-device lgu-1.0 b7
!sensor-sampling ok b auto
#sensor-status 1.000 1 b unknown 0
#sensor-status 1.000 1 b nominal 10
!sensor-sampling ok b none
#log warn 5.000 lift Door\\_closed.
!sensor-sampling ok b auto
#sensor-status 5.000 1 b nominal 20
";

/// A sensor that is set to none, read in silence, and set again: the cut falls between the reply and its
/// report.
#[test]
fn between_a_reply_and_its_report() {
    let (file, counts) = written(SET_AGAIN);
    assert_eq!(text(&file), SET_AGAIN_FILE);
    assert_cuts(
        &file,
        &[
            ("b: nothing", "b: nothing"),
            ("b: nothing", "b: nothing"),
            ("open", "open"),
            ("open", "open"),
            ("open", "b: nominal 10"),
            ("b: nothing", "b: nothing"),
            ("b: nothing", "b: nothing"),
            ("open", "open"),
            ("open", ""),
        ],
    );
    assert_eq!(taken_for_whole(&file, 8), "b: nominal 10");
    assert_eq!(taken_for_whole(&file, 9), "b: nominal 20");
    assert_eq!(false_without_exceptions(&counts), [0, 1]);
}

const BULK: &str = "sheet lgu-1.0 b7
sensor a \"\" \"\" integer
sensor b \"\" \"\" integer
open
connect 65536 0 \"planner\"
tick 65536 1000
reading 65536 1 integer 10
line 65536 0 \"?sensor-sampling b event\"
line 65536 0 \"?sensor-sampling b none\"
tick 65536 5000
reading 65536 0 integer 7
reading 65536 1 integer 20
line 65536 0 \"?sensor-sampling a,b event\"
line 65536 0 \"?watchdog[7]\"
";

const BULK_FILE: &str = "#version-connect katcp-protocol 5.1-MIB
#version-connect katcp-device lgu-1.0 b7
!sensor-sampling ok b event
#sensor-status 1.000 1 b nominal 10
!sensor-sampling ok b none
!sensor-sampling ok a,b event
#sensor-status 5.000 1 a nominal 7
#sensor-status 5.000 1 b nominal 20
!watchdog[7] ok
";

/// A comma list is set: the cuts fall between its reply and its reports, and between these.
#[test]
fn between_the_reports_of_a_bulk_setting() {
    let (file, counts) = written(BULK);
    assert_eq!(text(&file), BULK_FILE);
    let (nothing, both) = ("a: nothing; b: nothing", "a: nominal 7; b: nominal 20");
    assert_cuts(
        &file,
        &[
            (nothing, nothing),
            (nothing, nothing),
            ("open", "open"),
            ("open", "a: nothing; b: nominal 10"),
            (nothing, nothing),
            ("open", "open"),
            ("open", "open"),
            ("open", both),
            (both, ""),
        ],
    );
    assert_eq!(taken_for_whole(&file, 6), "a: nothing; b: nominal 10");
    assert_eq!(taken_for_whole(&file, 7), "a: nominal 7; b: nominal 10");
    assert_eq!(false_without_exceptions(&counts), [1, 1]);
}

const PEAK: &str = "sheet lgu-1.0 b7
sensor load \"\" kg integer 0 1000
open
connect 65536 0 \"planner\"
tick 65536 100000
reading 65536 0 integer 80
line 65536 0 \"?sensor-sampling load differential-rate 25 5 600\"
tick 65536 102000
reading 65536 0 integer 640
tick 65536 104000
reading 65536 0 integer 85
tick 65536 106000
log 65536 3 \"lift\" \"Door closed.\"
";

const PEAK_FILE: &str = "#version-connect katcp-protocol 5.1-MIB
#version-connect katcp-device lgu-1.0 b7
!sensor-sampling ok load differential-rate 25 5.000 600.000
#sensor-status 100.000 1 load nominal 80
#log warn 106.000 lift Door\\_closed.
";

/// The same under differential, without the shortest period.
const PEAK_FILE_DIFFERENTIAL: &str = "#version-connect katcp-protocol 5.1-MIB
#version-connect katcp-device lgu-1.0 b7
!sensor-sampling ok load differential 25
#sensor-status 100.000 1 load nominal 80
#sensor-status 102.000 1 load nominal 640
#sensor-status 104.000 1 load nominal 85
#log warn 106.000 lift Door\\_closed.
";

/// A peak within the shortest period leaves no trace: the file is the same as without it.
#[test]
fn a_peak_that_comes_and_goes_unseen() {
    let (file, counts) = written(PEAK);
    assert_eq!(text(&file), PEAK_FILE);
    assert_cuts(
        &file,
        &[
            ("load: nothing", "load: nothing"),
            ("load: nothing", "load: nothing"),
            ("open", "open"),
            ("open", "load: nothing"),
            ("load: nominal 80, within 25", ""),
        ],
    );
    assert_eq!(false_without_exceptions(&counts), [0, 0]);
    let peak = "tick 65536 102000\nreading 65536 0 integer 640\n";
    assert!(PEAK.contains(peak));
    assert_eq!(text(&written(&PEAK.replace(peak, "tick 65536 102000\n")).0), PEAK_FILE);
    let differential = PEAK.replace("differential-rate 25 5 600", "differential 25");
    assert_eq!(text(&written(&differential).0), PEAK_FILE_DIFFERENTIAL);
}

const LATE: &str = "sheet lgu-1.0 b7
sensor load \"\" kg integer 0 1000
sensor door \"\" \"\" boolean
open
connect 65536 0 \"planner\"
tick 65536 5000
reading 65536 0 integer 80 4000
line 65536 0 \"?sensor-sampling load differential 25\"
reading 65536 0 integer 640 3999
reading 65536 1 boolean 1 4500
line 65536 0 \"?sensor-sampling door auto\"
reading 65536 1 boolean 0 4499
reading 65536 1 failure - 0
reading 65536 1 boolean 0 4500
tick 65536 6000
reading 65536 0 integer 105 4000
log 65536 3 \"lift\" \"Door closed.\"
";

const LATE_FILE: &str = "#version-connect katcp-protocol 5.1-MIB
#version-connect katcp-device lgu-1.0 b7
!sensor-sampling ok load differential 25
#sensor-status 5.000 1 load nominal 80
!sensor-sampling ok door auto
#sensor-status 5.000 1 door nominal 1
#sensor-status 5.000 1 door nominal 0
#log warn 6.000 lift Door\\_closed.
";

/// Document 02, (g): readings that came late leave no trace, under auto too, and what the file tells is not of them.
#[test]
fn readings_that_came_late_are_in_no_file() {
    let (file, counts) = written(LATE);
    assert_eq!(text(&file), LATE_FILE);
    let (nothing, load) = ("load: nothing; door: nothing", "load: nominal 80, within 25; door: nothing");
    assert_cuts(
        &file,
        &[
            (nothing, nothing),
            (nothing, nothing),
            ("open", "open"),
            ("open", load),
            ("open", "open"),
            ("open", "open"),
            ("open", "load: nominal 80, within 25; door: nominal 0"),
            ("load: nominal 80, within 25; door: nominal 0", ""),
        ],
    );
    assert_eq!(counts.auto_readings, 1);
    assert_eq!(counts.passed_over, [[0, 2, 0, 0, 1, 0, 0]; 2]);
    let late = [
        "reading 65536 0 integer 640 3999\n",
        "reading 65536 1 boolean 0 4499\n",
        "reading 65536 1 failure - 0\n",
    ];
    let mut without = LATE.to_string();
    for reading in late {
        assert!(without.contains(reading));
        without = without.replace(reading, "");
    }
    assert_eq!(text(&written(&without).0), LATE_FILE);
    let in_time = LATE.replace("640 3999", "640 4000");
    assert!(text(&written(&in_time).0).contains("#sensor-status 5.000 1 load nominal 640\n"));
}

const COUNTED: &str = "sheet lgu-1.0 b7
sensor b \"\" \"\" integer
open
connect 65536 0 \"planner\"
reading 65536 0 integer 10
line 65536 0 \"?sensor-sampling b auto\"
line 65536 0 \"?sensor-sampling b\"
reading 65536 0 integer 10
";

/// Under auto each reading that superseded is a line, but a report behind a sampling reply need not be a reading: a query
/// with a reading behind it looks like a setting.
#[test]
fn a_query_and_a_setting_look_alike() {
    let (queried, counts) = written(COUNTED);
    assert_eq!(counts.auto_readings, 1);
    let query = "\"?sensor-sampling b\"\nreading 65536 0 integer 10\n";
    assert!(COUNTED.ends_with(query));
    let (set, counts) = written(&COUNTED.replace(query, "\"?sensor-sampling b auto\"\n"));
    assert_eq!(counts.auto_readings, 0);
    assert_eq!(queried.lines, set.lines);
}

/// Every count of lines seen and every line among them: what is concluded holds at the end of the call that
/// gave the line, and the lines behind the next one add nothing.
#[test]
fn every_cut_of_short_files() {
    let mut concluded = 0;
    for seed in 0..80 {
        for file in files(&script(seed, Size::small(60))) {
            concluded += (0..=file.lines.len()).map(|seen| every_line(&file, seen)).sum::<usize>();
        }
    }
    assert!(concluded > 10_000, "{concluded}");
}

/// The conclusions of a reader that sees so many lines, compared with the device's readings.
fn every_line(file: &File, seen: usize) -> usize {
    let mut concluded = 0;
    for count in 1..=seen {
        let shown = conclude(&file.sheet, &file.lines[..seen], count, false).unwrap();
        let fewer = seen.min(count + 1);
        assert_eq!(shown, conclude(&file.sheet, &file.lines[..fewer], count, false).unwrap());
        let end = &file.steps.iter().find(|step| step.lines >= count).unwrap().end;
        for (sensor, conclusion) in shown.into_iter().flatten().enumerate() {
            assert!(conclusion.holds(file.sheet.sensors[sensor].kind, end.readings[sensor]));
            concluded += usize::from(conclusion != Conclusion::Nothing);
        }
    }
    concluded
}

/// Generated scripts: nothing is false, each place and strategy came up, and so did each exception. One device in three
/// has one client alone (document 02, (m)) and so fewer files: half as many scripts more make up for it.
#[test]
fn generated_files_tell_what_the_device_held() {
    let (counts, found) = check_all(0..150, 300);
    assert_eq!((counts.scripts, found), (150, vec![]));
    for by_strategy in counts.conclusions {
        assert_eq!((by_strategy[0], by_strategy[2]), (0, 0));
        assert!([1, 3, 4, 5, 6].iter().all(|&strategy| by_strategy[strategy] > 100), "{by_strategy:?}");
    }
    assert!(counts.extremes > 10_000 && counts.auto_readings > 1000 && counts.clocks > 10_000);
    assert!(counts.open.iter().all(|open| open.false_conclusions > 100), "{:?}", counts.open);
    assert!(counts.beyond_by_clock > 1000);
    let [late, of_another_value] = counts.passed_over;
    assert!(late.iter().all(|&readings| readings > 100), "{late:?}");
    assert!([1, 3, 4, 5, 6].iter().all(|&strategy| of_another_value[strategy] > 20), "{of_another_value:?}");
}

/// "Float difference 0.1, last report 0.0, status alike: *102/1024 silent, *103/1024 reported."
#[test]
fn a_difference_is_exact() {
    let nominal = |value| State { status: Status::Nominal, value };
    let tenth = Conclusion::Within(nominal(0), Difference { millionths: 100_000 });
    assert!(tenth.holds(Kind::Float, nominal(102)) && tenth.holds(Kind::Float, nominal(-102)));
    assert!(!tenth.holds(Kind::Float, nominal(103)) && !tenth.holds(Kind::Float, nominal(-103)));
    let ten = Conclusion::Within(nominal(10), Difference { millionths: 10_000_000 });
    assert!(ten.holds(Kind::Integer, nominal(20)) && !ten.holds(Kind::Integer, nominal(21)));
    assert!(!ten.holds(Kind::Integer, State { status: Status::Warn, value: 10 }));
    let failed = Conclusion::Within(State::invalid(Status::Failure), Difference { millionths: 0 });
    assert!(failed.holds(Kind::Integer, State::invalid(Status::Failure)));
    assert!(!failed.holds(Kind::Integer, nominal(0)));
}

/// Lines that the reader takes and lines that it does not: of another sheet, or of no device at all.
#[test]
fn lines_are_read_by_the_sheet() {
    let (file, _) = written(PEAK);
    let read = |line: &str| Told::read(&file.sheet, line.as_bytes());
    for other in
        ["!sensor-sampling fail Unknown\\_sensor.", "#sensor-value 5.000 1 load nominal 21", "!log invalid x"]
    {
        assert_eq!(read(other), Some(Told::Other));
    }
    assert_eq!(read("#log error 5.000 katcp Not\\_a\\_message."), Some(Told::Log { clock: 5000 }));
    for wrong in [
        "",
        "#sensor-status 5.000 1 door nominal 21",
        "#sensor-status 5.000 2 load nominal 21",
        "#sensor-status 5.000 1 load fine 21",
        "#sensor-status 5.000 1 load nominal 2.5",
        "!sensor-sampling ok load,door auto",
        "!sensor-sampling ok load often",
        "#log warn",
    ] {
        assert_eq!(read(wrong), None, "{wrong}");
    }
}
