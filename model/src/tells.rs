//! What a file tells: a reader that has one client's lines alone concludes, and each conclusion is compared
//! with what the device held:
//!
//! - what the lines tell of a sensor's present reading, by its strategy (`Reader::conclusion`), holds at the
//!   end of every call during the connection;
//! - under differential the extremes of the reports bound those of the readings that superseded;
//! - under auto each reading that superseded is one line more, and no other call but a setting gives a report;
//! - a reading that came late and was passed over (document 02, (g)) gives no line and is in no bound;
//! - the clocks that lines show never go back, and each is the clock at the end of its call;
//! - a file begins with its greeting and goes on to no line behind a `#disconnect`, also where a newcomer displaced
//!   the client (document 02, (m));
//! - of a file that is cut anywhere, what is concluded from the lines up to one of them holds at the end of
//!   the call that gave it, unless that line leaves it open.

use crate::arrival::Arrival;
use crate::device::Profile;
use crate::files::{files, File, Moment, Step};
use crate::generate::{self, Size};
use crate::readable;
use crate::reader::{state_text, Conclusion, Extremes, Known, Reader, Told};
use crate::strategy::{Report, Strategy, Subscription, NAMES};
use crate::value::State;
use std::fmt::Write;
use std::ops::Range;

/// Where conclusions are drawn.
const PLACES: [&str; 5] = [
    "end of a call, the device's clock",
    "end of a call, the lines' clock",
    "a cut, the next line seen",
    "a cut, no next line seen",
    "a file known to be whole",
];
const DEVICE_CLOCK: usize = 0;
const LINES_CLOCK: usize = 1;
const NEXT_SEEN: usize = 2;
const NO_NEXT: usize = 3;
const WHOLE: usize = 4;

/// The cuts at which a line leaves open what the lines up to it tell.
#[derive(Clone, Copy, Default, PartialEq, Eq, Debug)]
pub struct Open {
    pub cuts: u64,
    /// What would have been concluded there, and how much of it is false.
    pub conclusions: u64,
    pub false_conclusions: u64,
}

/// What was checked.
#[derive(Clone, Default, PartialEq, Eq, Debug)]
pub struct Counts {
    pub scripts: u64,
    pub files: u64,
    /// Files under profile 1, and those of them whose client was displaced.
    pub single: u64,
    pub displaced: u64,
    pub lines: u64,
    /// Ends of calls during a connection.
    pub ends: u64,
    /// Conclusions that were checked, by place and strategy.
    pub conclusions: [[u64; 7]; 5],
    /// At the end of calls: rates of which nothing is told by the device's clock, and by the lines' clock.
    pub held_back: [u64; 2],
    /// Extremes under differential that were compared.
    pub extremes: u64,
    /// Readings that superseded under auto, and other calls under auto.
    pub auto_readings: u64,
    pub auto_others: u64,
    /// By strategy: readings that were passed over, and those of which what the lines tell is false.
    pub passed_over: [[u64; 7]; 2],
    /// Lines that show a clock.
    pub clocks: u64,
    /// Cuts at which the reader concludes: with the next line seen, without.
    pub concluding_cuts: [u64; 2],
    /// Cuts left open: at a report with the next line seen, at a report without, at a reply with it, without.
    pub open: [Open; 4],
    /// Cuts where the rule by the next clock is silent, having the whole file, and this one tells of some sensor.
    pub beyond_by_clock: u64,
    /// Cuts where the rule by the next clock concludes.
    pub by_clock: u64,
}

/// One file, its lines as read, and how far its check has come.
struct Check<'a> {
    file: &'a File,
    told: Vec<Told>,
    reader: Reader,
    /// By sensor: the strategy at the last end of a call, and the extremes of the valid readings that the device
    /// held since it is that.
    readings: Vec<(Strategy, Option<Extremes>)>,
    counts: &'a mut Counts,
}

/// Checks all files of a script; an error says what is false.
pub fn check_script(script: &[Vec<u8>], counts: &mut Counts) -> Result<(), String> {
    counts.scripts += 1;
    for file in files(script) {
        check_file(&file, counts).map_err(|what| {
            format!("client {}, its file of {} lines: {what}", file.client, file.lines.len())
        })?;
    }
    Ok(())
}

/// Checks one file.
pub fn check_file(file: &File, counts: &mut Counts) -> Result<(), String> {
    let mut told = Vec::new();
    for line in &file.lines {
        let read = Told::read(&file.sheet, line);
        told.push(read.ok_or_else(|| format!("cannot be read: {}", readable::quoted(line)))?);
    }
    begins_and_ends(file)?;
    counts.files += 1;
    counts.single += u64::from(file.profile == Profile::Single);
    counts.displaced += u64::from(file.displaced);
    counts.lines += told.len() as u64;
    let readings = vec![(Strategy::None, None); file.sheet.sensors.len()];
    let mut check = Check { file, told, reader: Reader::new(&file.sheet), readings, counts };
    let mut from = 0;
    for step in &file.steps {
        check.step(step, from..step.lines)?;
        from = step.lines;
    }
    check.whole()
}

/// "from that connect's `#version-connect katcp-protocol` on"; document 02, (m): the newcomer's "lines begin there",
/// so the `#disconnect` before it is the last line of the old file. No other file has a line behind one either.
fn begins_and_ends(file: &File) -> Result<(), String> {
    let greeting: &[u8] = match file.profile {
        Profile::Several => b"#version-connect katcp-protocol 5.1-MIB",
        Profile::Single => b"#version-connect katcp-protocol 5.1-IB",
    };
    if file.lines.first().is_none_or(|first| first != greeting) {
        return Err("does not begin with its greeting".to_string());
    }
    let farewell = file.lines.iter().position(|line| line.starts_with(b"#disconnect "));
    if farewell.map_or(file.displaced, |place| place + 1 < file.lines.len()) {
        return Err("does not end with its farewell".to_string());
    }
    Ok(())
}

impl Check<'_> {
    /// A call: its lines one by one, then its end.
    fn step(&mut self, step: &Step, lines: Range<usize>) -> Result<(), String> {
        self.present(&step.end, &lines)?;
        for sensor in 0..self.reader.sensors.len() {
            self.under_auto(sensor, &step.end, lines.clone())?;
        }
        for line in lines {
            self.shown_clock(line, &step.end)?;
            self.reader.take(&self.told[line]);
            self.cut(line, &step.end).map_err(|what| format!("cut at line {}: {what}", line + 1))?;
        }
        match &step.pairs {
            Some(pairs) => self
                .end(&step.end, pairs)
                .map_err(|what| format!("at the end of the call that left {} lines: {what}", step.lines)),
            None => Ok(()),
        }
    }

    /// "the present reading meaning the last that superseded the one stored before it" (document 02, (g)); one that
    /// was passed over is in no file.
    fn present(&mut self, end: &Moment, lines: &Range<usize>) -> Result<(), String> {
        let Some(read) = end.read else {
            return Ok(());
        };
        let late = !read.supersedes();
        let (held, present) = (end.readings[read.sensor], if late { read.stored.state } else { read.state });
        if held != present || late && !lines.is_empty() {
            return Err(format!("{read:?}: held {held:?}, told {:?}", &self.told[lines.clone()]));
        }
        if late {
            self.count_passed_over(&read);
        }
        Ok(())
    }

    /// Counts a reading that was passed over, and whether what the lines tell would be false of it.
    fn count_passed_over(&mut self, late: &Arrival) {
        let strategy = self.reader.sensors[late.sensor].strategy.place();
        let conclusion = self.reader.conclusion(late.sensor, late.clock);
        let holds = conclusion.holds(self.file.sheet.sensors[late.sensor].kind, late.state);
        self.counts.passed_over[0][strategy] += 1;
        self.counts.passed_over[1][strategy] += u64::from(!holds);
    }

    /// Each reading that superseded since the strategy was set is a line, and no line of the sensor is anything
    /// else, but for the report that answers a setting.
    fn under_auto(&mut self, sensor: usize, end: &Moment, lines: Range<usize>) -> Result<(), String> {
        if self.reader.sensors[sensor].strategy != Strategy::Auto {
            return Ok(());
        }
        let told = &self.told[lines];
        let report = Report { time: end.clock, state: end.readings[sensor] };
        let is_its_report = |line: &Told| matches!(line, Told::Report { sensor: of, .. } if *of == sensor);
        let sampled = told.iter().any(|line| matches!(line, Told::Sampling { .. }));
        let superseded = end.read.is_some_and(|read| read.sensor == sensor && read.supersedes());
        let right = if superseded {
            self.counts.auto_readings += 1;
            told == [Told::Report { sensor, report }]
        } else {
            self.counts.auto_others += 1;
            sampled || !told.iter().any(is_its_report)
        };
        let name = || readable::quoted(&self.file.sheet.sensors[sensor].name);
        right.then_some(()).ok_or_else(|| format!("{} under auto: {told:?}", name()))
    }

    /// A line's clock is not before an earlier one's, and is the clock at the end of its call.
    fn shown_clock(&mut self, line: usize, end: &Moment) -> Result<(), String> {
        let Some(clock) = self.told[line].clock() else {
            return Ok(());
        };
        self.counts.clocks += 1;
        if self.reader.clock.is_some_and(|before| clock < before) || clock != end.clock {
            let before = self.reader.clock;
            return Err(format!(
                "line {} shows {clock}, one before it {before:?}, the device {}",
                line + 1,
                end.clock
            ));
        }
        Ok(())
    }

    /// The file cut behind this line, with the next line seen and without; and beside it the rule by the next clock.
    fn cut(&mut self, line: usize, end: &Moment) -> Result<(), String> {
        let told = self.told[line].clone();
        let next = self.told.get(line + 1).cloned();
        let open_alone = told.leaves_open(None);
        self.cut_seeing(&told, open_alone, NO_NEXT, end)?;
        let open = next.as_ref().map_or(open_alone, |next| told.leaves_open(Some(next)));
        if next.is_some() {
            self.cut_seeing(&told, open, NEXT_SEEN, end)?;
        }
        let tells = self.conclusions().iter().any(|conclusion| *conclusion != Conclusion::Nothing);
        let by_clock = self.next_clock_concludes(line);
        self.counts.by_clock += u64::from(by_clock);
        self.counts.beyond_by_clock += u64::from(!by_clock && !open && tells);
        if by_clock && open {
            return Err("is silent where the rule by the next clock concludes".to_string());
        }
        Ok(())
    }

    /// A cut: where it is not open each conclusion holds at the end of the call.
    fn cut_seeing(&mut self, told: &Told, open: bool, place: usize, end: &Moment) -> Result<(), String> {
        let without = usize::from(place == NO_NEXT);
        if !open {
            self.counts.concluding_cuts[without] += 1;
            return self.all_hold(place, end);
        }
        let at_reply = matches!(told, Told::Sampling { .. });
        let conclusions = self.conclusions();
        let tells = conclusions.iter().filter(|&&conclusion| conclusion != Conclusion::Nothing).count();
        let is_false =
            |(sensor, conclusion): &(usize, &Conclusion)| !self.is_true(*sensor, **conclusion, end);
        let false_conclusions = conclusions.iter().enumerate().filter(is_false).count();
        let counted = &mut self.counts.open[2 * usize::from(at_reply) + without];
        counted.cuts += 1;
        counted.conclusions += tells as u64;
        counted.false_conclusions += false_conclusions as u64;
        Ok(())
    }

    /// The rule by the next clock, with the whole file to look ahead in: the line is no sampling reply with `ok`, and the
    /// next line that shows a clock shows a later one than every line before it.
    fn next_clock_concludes(&self, line: usize) -> bool {
        let later = self.told[line + 1..].iter().find_map(Told::clock);
        let reply = matches!(self.told[line], Told::Sampling { .. });
        !reply && later.is_some_and(|later| self.reader.clock.is_none_or(|before| later > before))
    }

    /// What the lines so far tell of each sensor.
    fn conclusions(&self) -> Vec<Conclusion> {
        (0..self.reader.sensors.len()).map(|sensor| self.reader.conclusion_by_lines(sensor)).collect()
    }

    /// Whether a conclusion is true at the end of a call.
    fn is_true(&self, sensor: usize, conclusion: Conclusion, end: &Moment) -> bool {
        conclusion.holds(self.file.sheet.sensors[sensor].kind, end.readings[sensor])
    }

    /// What the lines so far tell of each sensor holds at the end of a call; where the strategy is not none
    /// there is a report.
    fn all_hold(&mut self, place: usize, end: &Moment) -> Result<(), String> {
        for sensor in 0..self.reader.sensors.len() {
            let conclusion = match place {
                DEVICE_CLOCK => self.reader.conclusion(sensor, end.clock),
                _ => self.reader.conclusion_by_lines(sensor),
            };
            if !self.is_true(sensor, conclusion, end) {
                return Err(self.untrue(place, sensor, conclusion, end.readings[sensor]));
            }
            let Known { strategy, last, .. } = self.reader.sensors[sensor];
            if strategy != Strategy::None && last.is_none() {
                return Err(format!("{}: {strategy:?} without a report", PLACES[place]));
            }
            self.count(place, strategy, conclusion);
        }
        Ok(())
    }

    /// Counts a conclusion; one of a rate that tells nothing has its shortest period before it.
    fn count(&mut self, place: usize, strategy: Strategy, conclusion: Conclusion) {
        let rate = matches!(strategy, Strategy::EventRate(_) | Strategy::DifferentialRate(..));
        if conclusion != Conclusion::Nothing {
            self.counts.conclusions[place][strategy.place()] += 1;
        } else if rate && place <= LINES_CLOCK {
            self.counts.held_back[place] += 1;
        }
    }

    /// A conclusion that is false, in words.
    fn untrue(&self, place: usize, sensor: usize, conclusion: Conclusion, held: State) -> String {
        let of = &self.file.sheet.sensors[sensor];
        let known = self.reader.sensors[sensor];
        let (name, tells) = (readable::quoted(&of.name), conclusion.text(of));
        let held = state_text(of, held);
        format!("{}: {name}, {known:?}, tells {tells}; the device held {held}", PLACES[place])
    }

    /// The reader's record is the device's, and what the lines so far tell holds, by both clocks.
    fn end(&mut self, end: &Moment, pairs: &[Subscription]) -> Result<(), String> {
        self.counts.ends += 1;
        if self.reader.clock.is_some_and(|shown| shown > end.clock) {
            return Err("a line shows a clock beyond the device's".to_string());
        }
        for (known, pair) in self.reader.sensors.iter().zip(pairs) {
            let Known { strategy, last, .. } = *known;
            if (Subscription { strategy, last }) != *pair {
                return Err(format!("the lines tell {known:?}, the device has {pair:?}"));
            }
        }
        self.all_hold(DEVICE_CLOCK, end)?;
        self.all_hold(LINES_CLOCK, end)?;
        (0..pairs.len()).try_for_each(|sensor| self.extremes(sensor, end))
    }

    /// Under differential no valid reading that superseded since it was set went further beyond the valid reports
    /// than the difference.
    fn extremes(&mut self, sensor: usize, end: &Moment) -> Result<(), String> {
        let Known { strategy, extremes: reports, .. } = self.reader.sensors[sensor];
        let (before, earlier) = self.readings[sensor];
        let earlier = if before == strategy { earlier } else { None };
        let readings = Extremes::with(earlier, end.readings[sensor]);
        self.readings[sensor] = (strategy, readings);
        let (Strategy::Differential(difference), Some(readings)) = (strategy, readings) else {
            return Ok(());
        };
        self.counts.extremes += 1;
        let kind = self.file.sheet.sensors[sensor].kind;
        if reports.is_some_and(|reports| reports.hold(kind, readings, difference)) {
            return Ok(());
        }
        let name = readable::quoted(&self.file.sheet.sensors[sensor].name);
        Err(format!("{name} under {strategy:?}: reports {reports:?}, readings {readings:?}"))
    }

    /// A file that is known to be whole: what its lines tell holds at its end.
    fn whole(&mut self) -> Result<(), String> {
        let last = self.file.steps.last().map(|step| step.end.clone());
        last.map_or(Ok(()), |end| self.all_hold(WHOLE, &end))
    }
}

/// Checks generated scripts; the seeds of those in which something is false are given with what is false
/// there first.
pub fn check_all(seeds: Range<u64>, calls: usize) -> (Counts, Vec<(u64, String)>) {
    let (mut counts, mut found) = (Counts::default(), Vec::new());
    for seed in seeds {
        let script = generate::script(seed, Size::full(calls));
        if let Err(what) = check_script(&script, &mut counts) {
            found.push((seed, what));
        }
    }
    (counts, found)
}

/// Checks generated scripts and prints the counts, or what is false and a short script in which something is.
pub fn check(seeds: Range<u64>, calls: usize) -> bool {
    let (counts, found) = check_all(seeds, calls);
    let Some((first, _)) = found.first() else {
        println!("{}\nNothing false.", counts.text());
        return true;
    };
    for (seed, what) in &found {
        println!("seed {seed}: {what}");
    }
    println!("\n{} of {} scripts. From seed {first}:", found.len(), counts.scripts);
    show_shrunk(generate::script(*first, Size::full(calls)));
    false
}

/// What is false of a script, if anything is.
fn what_is_false(script: &[Vec<u8>]) -> Option<String> {
    check_script(script, &mut Counts::default()).err()
}

/// Drops calls as long as something stays false, then shows what is left.
fn show_shrunk(mut script: Vec<Vec<u8>>) {
    let mut chunk = script.len() / 2;
    while chunk >= 1 {
        let before = script.len();
        let mut start = 0;
        while start < script.len() {
            let end = script.len().min(start + chunk);
            let shorter = [&script[..start], &script[end..]].concat();
            match what_is_false(&shorter) {
                Some(_) => script = shorter,
                None => start = end,
            }
        }
        chunk = if script.len() < before && chunk == 1 { 1 } else { chunk / 2 };
    }
    script.iter().for_each(|line| println!("{}", readable::entry(line)));
    println!("{}", what_is_false(&script).unwrap_or_default());
}

impl Counts {
    /// The counts, as Markdown.
    pub fn text(&self) -> String {
        let mut text = format!(
            "{} scripts, {} files, {} of them under profile 1 and {} of these displaced, {} lines, {} ends of \
             calls.\n\n| conclusions | {} |\n|{}\n",
            self.scripts,
            self.files,
            self.single,
            self.displaced,
            self.lines,
            self.ends,
            NAMES.join(" | "),
            "---|".repeat(NAMES.len() + 1)
        );
        let passed_over = ["readings passed over", "of which what is told is false"];
        let rows = PLACES.iter().zip(self.conclusions).chain(passed_over.iter().zip(self.passed_over));
        for (name, counts) in rows {
            let cells: Vec<String> = counts.iter().map(u64::to_string).collect();
            writeln!(text, "| {name} | {} |", cells.join(" | ")).expect("text");
        }
        self.write_others(&mut text);
        self.write_cuts(&mut text);
        text
    }

    /// What was compared beside the conclusions.
    fn write_others(&self, text: &mut String) {
        let [by_device, by_lines] = self.held_back;
        let rows = [
            ("rates, shortest period not passed by the device's clock", by_device),
            ("the same by the lines' clock", by_lines),
            ("extremes under differential", self.extremes),
            ("readings that superseded under auto", self.auto_readings),
            ("other calls under auto", self.auto_others),
            ("clocks", self.clocks),
        ];
        write_rows(text, &rows);
    }

    /// Where cuts leave it open, and the rule by the next clock.
    fn write_cuts(&self, text: &mut String) {
        let [seen, alone] = self.concluding_cuts;
        let rows = [
            ("cuts that conclude, the next line seen", seen),
            ("cuts that conclude, no next line seen", alone),
            ("lines at which the rule by the next clock concludes, having the whole file", self.by_clock),
            ("lines at which it is silent and this one tells of a sensor", self.beyond_by_clock),
        ];
        write_rows(text, &rows);
        text.push_str("\n| cuts left open | cuts | conclusions without the exception | false ones |\n");
        text.push_str("|---|---|---|---|\n");
        let names =
            ["report, next line seen", "report, none seen", "reply, next line seen", "reply, none seen"];
        for (name, open) in names.iter().zip(self.open) {
            let Open { cuts, conclusions, false_conclusions } = open;
            writeln!(text, "| {name} | {cuts} | {conclusions} | {false_conclusions} |").expect("text");
        }
    }
}

/// A table of two columns.
fn write_rows(text: &mut String, rows: &[(&str, u64)]) {
    text.push_str("\n| what | times |\n|---|---|\n");
    for (what, times) in rows {
        writeln!(text, "| {what} | {times} |").expect("text");
    }
}
