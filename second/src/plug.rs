//! The pulled plug: runs cut anywhere, sent to a unit that stopped anywhere.

use std::fmt::{self, Write as _};

use crate::frame::{Direction, Frame, DATA_LIMIT, END, OPENING};
use crate::random::Random;
use crate::rows::{self, Codes, Profile, ROWS, ZONES};
use crate::samples::{self, PROFILES};
use crate::sheet::{self, Line};
use crate::tally::{Kind, Tally};
use crate::text;
use crate::unit::{Settings, Unit};

/// From this many sheets on every kind must occur.
pub const ENOUGH: usize = 200;

/// Scenarios of random cuts for each sheet.
const RANDOM_SCENARIOS: usize = 6;

/// Keeps the scenarios' random numbers apart from the sheets'.
const SCENARIO_SEED: u64 = 0x5343_454E_4152_494F;

struct Sheet {
    profile: Profile,
    lines: Vec<Line>,
}

/// Accepted sheets of both profiles and all sizes, from a full one down.
fn sheets(seed: u64, count: usize) -> Vec<Sheet> {
    let mut random = Random::new(seed);
    (0..count)
        .map(|index| {
            let profile = PROFILES[index % PROFILES.len()];
            let full = samples::most_lines(profile);
            let size = full - index / PROFILES.len() % (full + 1);
            let lines = samples::sheet(&mut random, profile, size);
            Sheet { profile, lines }
        })
        .collect()
}

impl Sheet {
    fn file(&self) -> String {
        text::hex(&sheet::records(self.profile, &self.lines))
    }

    fn operation(&self) -> String {
        let (p, length) = (self.profile.letter(), sheet::LONGEST_RUN);
        format!("run {p:02X} {length:04X} - {}", self.file())
    }

    fn is_full(&self) -> bool {
        self.lines.len() == samples::most_lines(self.profile)
    }

    fn is_one_line(&self) -> bool {
        self.lines.len() == 1
    }
}

/// The operations that write the runs, a line each.
pub fn runs(seed: u64, count: usize) -> String {
    let mut text = String::new();
    for sheet in sheets(seed, count) {
        text.push_str(&sheet.operation());
        text.push('\n');
    }
    text
}

/// Why the check stopped.
pub enum Failure {
    /// The files do not belong together.
    WrongUse(String),
    /// A run was not printed, or a setting was wrong.
    Wrong(String),
}

/// The operations for a tracker and what they must print, and what was done.
#[derive(Default)]
pub struct Outcome {
    pub ops: String,
    pub expected: String,
    pub sheets: usize,
    pub cuts: u64,
    pub bytes: u64,
    pub cells: u64,
    /// Cells whose last answer was minus zero, cuts in the last frame of a full sheet, and stops.
    tally: Tally,
}

/// The kinds of cells that are counted.
fn minus_zero_kinds() -> Vec<Kind> {
    Kind::minus_zeros(Direction::Answer)
}

/// The kinds of cuts that are counted.
fn last_frame_kinds() -> [Kind; PROFILES.len()] {
    PROFILES.map(Kind::LastFrameCut)
}

/// The kinds of stops that are counted.
fn stop_kinds() -> [Kind; PROFILES.len()] {
    PROFILES.map(Kind::Stop)
}

impl Outcome {
    /// Cells whose last answer was minus zero, of all rows.
    pub fn minus_zeros(&self) -> u64 {
        self.sum(&minus_zero_kinds())
    }

    /// Cuts in the last frame of a full sheet, of both profiles.
    pub fn last_frame_cuts(&self) -> u64 {
        self.sum(&last_frame_kinds())
    }

    /// Full runs sent to a reader stopped at one of its places, of both profiles.
    pub fn stops(&self) -> u64 {
        self.sum(&stop_kinds())
    }

    fn sum(&self, kinds: &[Kind]) -> u64 {
        kinds.iter().map(|&kind| self.tally.of(kind)).sum()
    }

    /// The kinds that never occurred.
    pub fn missing(&self) -> Vec<Kind> {
        let mut kinds = minus_zero_kinds();
        kinds.extend(last_frame_kinds());
        kinds.extend(stop_kinds());
        kinds.retain(|&kind| self.tally.of(kind) == 0);
        kinds
    }

    fn expect(&mut self, operation: &str, printed: &str) {
        self.ops.push_str(operation);
        self.ops.push('\n');
        self.expected.push_str(printed);
        self.expected.push('\n');
    }
}

/// What settings a unit may have: its starting ones, or the sheet's where it names them.
struct Watch {
    start: Settings,
    wanted: [[Option<u8>; ZONES]; ROWS.len()],
}

impl Watch {
    fn new(sheet: &Sheet, start: Settings) -> Watch {
        let mut wanted = [[None; ZONES]; ROWS.len()];
        for line in &sheet.lines {
            if let Some(row) = rows::find(sheet.profile, line.command) {
                wanted[row][usize::from(line.zone) - 1] = Some(line.value);
            }
        }
        Watch { start, wanted }
    }

    /// Random settings with none of the sheet's values, so that a line that is not set shows.
    fn unset(random: &mut Random, sheet: &Sheet) -> Watch {
        loop {
            let watch = Watch::new(sheet, Settings::random(random, sheet.profile));
            if !watch.starts_set() {
                return watch;
            }
        }
    }

    /// Whether one of the sheet's values is held from the start.
    fn starts_set(&self) -> bool {
        let starts = self.start.values.iter().zip(&self.wanted);
        starts.zip(&ROWS).any(|((start, wanted), row)| {
            let mut cells = start.iter().zip(wanted);
            cells.any(|(&value, wanted)| wanted.is_some_and(|wanted| row.same(value, wanted)))
        })
    }

    /// At every moment; after a full run `done` asks for the sheet's values.
    fn check(&self, now: &Settings, done: bool) -> Result<(), String> {
        if now.direct != self.start.direct || now.current != self.start.current {
            return Err("S 0F changed".to_string());
        }
        for (index, row) in ROWS.iter().enumerate() {
            for zone in 0..ZONES {
                let value = now.values[index][zone];
                let start = self.start.values[index][zone];
                let as_started = row.same(value, start);
                let good = match self.wanted[index][zone] {
                    Some(wanted) => row.same(value, wanted) || (!done && as_started),
                    None => as_started,
                };
                if !good {
                    let wanted = match self.wanted[index][zone] {
                        Some(wanted) => format!("the sheet says {wanted:02X}"),
                        None => "the sheet does not name it".to_string(),
                    };
                    return Err(format!(
                        "zone {} row {:02X} ({}) is {value:02X}, started at {start:02X}, {wanted}",
                        zone + 1,
                        row.command,
                        row.name
                    ));
                }
            }
        }
        Ok(())
    }
}

/// A unit and all the answers that it gave.
#[derive(Clone)]
struct Session {
    unit: Unit,
    answers: Vec<u8>,
    /// Cells that got a status answer.
    answered: [[bool; ZONES]; ROWS.len()],
}

impl Session {
    fn new(unit: Unit) -> Session {
        Session {
            unit,
            answers: Vec::new(),
            answered: [[false; ZONES]; ROWS.len()],
        }
    }

    /// Feeds one byte; says whether a frame was completed, as only that can change a setting.
    fn feed(&mut self, profile: Profile, byte: u8) -> bool {
        let Some(answer) = self.unit.take(byte) else {
            return false;
        };
        // Zone, command and answer code of the answer.
        if answer[3] == 0x00 {
            if let Some(row) = rows::find(profile, answer[2]) {
                self.answered[row][usize::from(answer[1]) - 1] = true;
            }
        }
        self.answers.extend(answer);
        true
    }

    /// Sends bytes and watches after each that completes a frame.
    fn send(
        &mut self,
        profile: Profile,
        watch: &Watch,
        bytes: &[u8],
        outcome: &mut Outcome,
    ) -> Result<(), String> {
        outcome.bytes += bytes.len() as u64;
        for (index, &byte) in bytes.iter().enumerate() {
            if self.feed(profile, byte) {
                watch
                    .check(&self.unit.settings, false)
                    .map_err(|wrong| format!("after byte {} of a sending: {wrong}", index + 1))?;
            }
        }
        Ok(())
    }

    /// Sends a full run, or what comes after it; then the sheet's values must be set.
    fn finish(
        &mut self,
        profile: Profile,
        watch: &Watch,
        bytes: &[u8],
        outcome: &mut Outcome,
    ) -> Result<(), String> {
        self.send(profile, watch, bytes, outcome)?;
        watch
            .check(&self.unit.settings, true)
            .map_err(|wrong| format!("after the last full run: {wrong}"))
    }

    /// Writes what a tracker must tell after these answers.
    fn tell(&self, profile: Profile, outcome: &mut Outcome) {
        let p = profile.letter();
        let capture = text::hex(&self.answers);
        let mut places = Vec::new();
        for row in samples::rows_of(profile) {
            places.extend((1..=profile.zones()).map(|zone| (zone, row.command)));
        }
        // Some that have no cell.
        let other = profile.zones() + 1;
        let foreign = PROFILES.iter().find(|&&other| other != profile);
        places.extend([(0, 0x44), (other, 0x44), (255, 0x37), (1, 0x99), (1, 0x00)]);
        places.extend(foreign.map(|&foreign| (1, foreign_command(foreign))));
        for (zone, command) in places {
            let printed = self.truth(profile, zone, command, &mut outcome.tally);
            let operation = format!("cell {p:02X} {capture} {zone:02X} {command:02X}");
            outcome.expect(&operation, &printed);
            outcome.cells += 1;
        }
    }

    /// What `cell` must print; minus zero is counted.
    fn truth(&self, profile: Profile, zone: u8, command: u8, tally: &mut Tally) -> String {
        let cell = rows::find(profile, command)
            .filter(|&row| ROWS[row].has_zone(zone) && ROWS[row].codes != Codes::Pair);
        let Some(row) = cell else {
            return "no cell".to_string();
        };
        let zone = usize::from(zone) - 1;
        if !self.answered[row][zone] {
            return "unknown".to_string();
        }
        let value = self.unit.settings.values[row][zone];
        if ROWS[row].is_minus_zero(value) {
            tally.count(Kind::MinusZero(row, Direction::Answer));
        }
        format!("value {:02X}", ROWS[row].as_written(value))
    }
}

/// A command that only this profile has.
fn foreign_command(profile: Profile) -> u8 {
    match profile {
        Profile::A => 0x38,
        Profile::S => 0x5C,
    }
}

/// Bytes after which a reader is stopped anywhere, without a completed frame.
fn stopped(random: &mut Random) -> Vec<u8> {
    let data_length = match random.below(4) {
        0 => DATA_LIMIT,
        1 => random.below(4),
        _ => random.below(DATA_LIMIT + 1),
    };
    let mut bytes = vec![OPENING, random.byte(), random.byte(), data_length as u8];
    match random.below(8) {
        // Outside, with noise or without.
        0 => {
            let count = random.below(5);
            let mut noise = random.bytes(count);
            noise.retain(|&byte| byte != OPENING);
            return noise;
        }
        // In the header.
        1 => bytes.truncate(random.between(1, 3)),
        // Outside, after a broken frame.
        2 => {
            bytes.extend(samples::mixed(random, data_length));
            bytes.push(END + 1);
        }
        // At the end place.
        3 => bytes.extend(samples::mixed(random, data_length)),
        // Just after Dl.
        4 => {}
        _ => {
            let count = random.between(0, data_length);
            bytes.extend(samples::mixed(random, count));
        }
    }
    bytes
}

/// Requests of about half of the settings.
fn requests(random: &mut Random, profile: Profile) -> Vec<u8> {
    let mut bytes = Vec::new();
    for row in samples::rows_of(profile) {
        for zone in (1..=profile.zones()).filter(|&zone| row.has_zone(zone)) {
            let frame = Frame {
                zone,
                command: row.command,
                answer_code: 0x00,
                data: &[0xF0],
            };
            if random.percent(50) {
                bytes.extend(samples::raw(Direction::Command, frame));
            }
        }
    }
    bytes
}

/// A unit with random settings whose reader is stopped after a prefix.
fn started(random: &mut Random, profile: Profile, prefix: &[u8]) -> Unit {
    let mut unit = Unit::new(profile, Settings::random(random, profile));
    stop(&mut unit, prefix);
    unit
}

/// Stops a unit's reader after bytes that complete no frame.
fn stop(unit: &mut Unit, bytes: &[u8]) {
    for &byte in bytes {
        let answer = unit.take(byte);
        assert!(answer.is_none(), "a stopped frame is not completed");
    }
}

/// The run that an answer to `run` holds.
fn printed_run(printed: &str) -> Option<Vec<u8>> {
    let (count, digits) = printed.strip_prefix("bytes ")?.split_once(" : ")?;
    let count: usize = count.parse().ok()?;
    let buffer = text::bytes(digits.as_bytes());
    // What is printed is digits alone.
    if text::hex(&buffer) != digits {
        return None;
    }
    Some(buffer.get(..count)?.to_vec())
}

/// Checks every sheet's run, and writes what a tracker must tell.
pub fn plug(seed: u64, count: usize, ops: &str, printed: &str) -> Result<Outcome, Failure> {
    let sheets = sheets(seed, count);
    let ops: Vec<&str> = ops.lines().collect();
    let printed: Vec<&str> = printed.lines().collect();
    if ops.len() != count || printed.len() != count {
        return Err(Failure::WrongUse(format!(
            "{count} sheets, but RUNS has {} lines and OUTPUT {}",
            ops.len(),
            printed.len()
        )));
    }
    let mut random = Random::new(seed ^ SCENARIO_SEED);
    let mut outcome = Outcome::default();
    for (index, sheet) in sheets.iter().enumerate() {
        if ops[index] != sheet.operation() {
            return Err(Failure::WrongUse(format!(
                "line {} of RUNS is not of this seed",
                index + 1
            )));
        }
        let describe = |wrong: String| {
            Failure::Wrong(format!(
                "seed {seed}, sheet {index} (profile {}, file {}): {wrong}",
                sheet.profile.letter() as char,
                sheet.file()
            ))
        };
        let Some(run) = printed_run(printed[index]) else {
            return Err(describe(format!("OUTPUT has no run: {}", printed[index])));
        };
        scenarios(&mut random, sheet, &run, &mut outcome).map_err(describe)?;
        outcome.sheets += 1;
    }
    Ok(outcome)
}

/// All scenarios of one sheet; one of them is told to the tracker.
fn scenarios(
    random: &mut Random,
    sheet: &Sheet,
    run: &[u8],
    outcome: &mut Outcome,
) -> Result<(), String> {
    let prefix = stopped(random);
    let every = every_cut(random, sheet, run, &prefix, outcome)?;
    // The longest wait: Dl 255 was just read.
    let longest = [OPENING, random.byte(), random.byte(), 0xFF];
    every_cut(random, sheet, run, &longest, outcome)?;
    let mut some = random_cuts(random, sheet, run, outcome)?;
    for _ in 1..RANDOM_SCENARIOS {
        some = random_cuts(random, sheet, run, outcome)?;
    }
    let after = after_commands(random, sheet, run, outcome)?;
    // The places are the same for every sheet, so that one of each family is enough.
    if sheet.is_one_line() && outcome.tally.of(Kind::Stop(sheet.profile)) == 0 {
        if let Some(wrong) = every_stop(random, sheet, run, outcome).first() {
            return Err(wrong.to_string());
        }
    }
    let mut told = random.pick(&[every, some, after]).clone();
    // Requests change nothing, and tell of settings that no run sets. A reader that an empty run
    // left in an old frame takes some of them for its data, and completes no setting by them.
    let watch = Watch::new(sheet, told.unit.settings.clone());
    let requests = requests(random, sheet.profile);
    told.finish(sheet.profile, &watch, &requests, outcome)
        .map_err(|wrong| format!("requests {}: {wrong}", text::hex(&requests)))?;
    told.tell(sheet.profile, outcome);
    let operation = format!(
        "sign {:02X} {} {}",
        sheet.profile.letter(),
        sheet.file(),
        text::hex(&told.answers)
    );
    outcome.expect(&operation, "signed");
    Ok(())
}

/// One sending cut after every byte, each time followed by a full run; gives one of these.
fn every_cut(
    random: &mut Random,
    sheet: &Sheet,
    run: &[u8],
    prefix: &[u8],
    outcome: &mut Outcome,
) -> Result<Session, String> {
    let unit = started(random, sheet.profile, prefix);
    let watch = Watch::new(sheet, unit.settings.clone());
    let chosen = random.between(0, run.len());
    let full = sheet.is_full();
    let mut told = None;
    let mut first = Session::new(unit);
    for cut in 0..=run.len() {
        let describe = |wrong: String| {
            let prefix = text::hex(prefix);
            format!("stopped after {prefix}, one sending cut after {cut} bytes: {wrong}")
        };
        if cut > 0 {
            first
                .send(sheet.profile, &watch, &run[cut - 1..cut], outcome)
                .map_err(describe)?;
        }
        let mut session = first.clone();
        session
            .finish(sheet.profile, &watch, run, outcome)
            .map_err(describe)?;
        outcome.cuts += 1;
        // Some bytes of the last frame were sent and some were not.
        if full && (1..sheet::RUN_FRAME).contains(&(run.len() - cut)) {
            outcome.tally.count(Kind::LastFrameCut(sheet.profile));
        }
        if cut == chosen {
            told = Some(session);
        }
    }
    Ok(told.unwrap_or(first))
}

/// A few sendings cut anywhere, one after another, then a full run.
fn random_cuts(
    random: &mut Random,
    sheet: &Sheet,
    run: &[u8],
    outcome: &mut Outcome,
) -> Result<Session, String> {
    let prefix = stopped(random);
    let unit = started(random, sheet.profile, &prefix);
    let watch = Watch::new(sheet, unit.settings.clone());
    let mut session = Session::new(unit);
    let mut story = format!("stopped after {}", text::hex(&prefix));
    for _ in 0..random.between(0, 5) {
        // Half of the cuts are where the frames are.
        let from = match random.percent(50) {
            true => run.len().min(sheet::RUN_ZEROS),
            false => 0,
        };
        let cut = random.between(from, run.len());
        let _ = write!(story, ", a sending cut after {cut} bytes");
        session
            .send(sheet.profile, &watch, &run[..cut], outcome)
            .map_err(|wrong| format!("{story}: {wrong}"))?;
        outcome.cuts += 1;
    }
    session
        .finish(sheet.profile, &watch, run, outcome)
        .map_err(|wrong| format!("{story}, a full run: {wrong}"))?;
    Ok(session)
}

/// Other commands first, good and bad, left unfinished; then a full run.
fn after_commands(
    random: &mut Random,
    sheet: &Sheet,
    run: &[u8],
    outcome: &mut Outcome,
) -> Result<Session, String> {
    let prefix = stopped(random);
    let unit = started(random, sheet.profile, &prefix);
    let mut session = Session::new(unit);
    let length = random.between(0, 400);
    let commands = samples::capture(random, sheet.profile, Direction::Command, length);
    // These may change settings that the sheet does not name.
    for &byte in &commands {
        session.feed(sheet.profile, byte);
    }
    outcome.bytes += commands.len() as u64;
    let watch = Watch::new(sheet, session.unit.settings.clone());
    session
        .finish(sheet.profile, &watch, run, outcome)
        .map_err(|wrong| {
            let (prefix, commands) = (text::hex(&prefix), text::hex(&commands));
            format!("stopped after {prefix}, commands {commands}, a full run: {wrong}")
        })?;
    Ok(session)
}

/// Where a full run went wrong: the bytes that the reader was stopped after, and what it set.
struct WrongStop {
    prefix: Vec<u8>,
    wrong: String,
}

impl fmt::Display for WrongStop {
    fn fmt(&self, out: &mut fmt::Formatter) -> fmt::Result {
        let prefix = text::hex(&self.prefix);
        write!(out, "stopped after {prefix}, a full run: {}", self.wrong)
    }
}

/// An old command of that Dl but for its end, in a row of the profile; many data are 0D or 21.
fn old_frame(random: &mut Random, profile: Profile, data_length: u8) -> Vec<u8> {
    let row = *random.pick(&samples::rows_of(profile));
    let zone = samples::zone(random, row);
    let mut bytes = vec![OPENING, zone, row.command, data_length];
    bytes.extend(samples::mixed(random, usize::from(data_length)));
    bytes
}

/// A full run from every place where a reader can stand; gives those where it went wrong.
fn every_stop(
    random: &mut Random,
    sheet: &Sheet,
    run: &[u8],
    outcome: &mut Outcome,
) -> Vec<WrongStop> {
    let mut wrongs = Vec::new();
    for data_length in 0..=0xFF {
        let old = old_frame(random, sheet.profile, data_length);
        let watch = Watch::unset(random, sheet);
        let mut unit = Unit::new(sheet.profile, watch.start.clone());
        // Outside and in the header Dl is not known yet, so these places come once.
        let first = match data_length {
            0 => 0,
            _ => Direction::Command.header(),
        };
        stop(&mut unit, &old[..first]);
        for taken in first..=old.len() {
            let mut session = Session::new(unit.clone());
            if let Err(wrong) = session.finish(sheet.profile, &watch, run, outcome) {
                let prefix = old[..taken].to_vec();
                wrongs.push(WrongStop { prefix, wrong });
            }
            outcome.tally.count(Kind::Stop(sheet.profile));
            stop(&mut unit, old.get(taken..=taken).unwrap_or_default());
        }
    }
    wrongs
}

#[cfg(test)]
mod tests {
    use super::*;
    use crate::operations;
    use std::collections::BTreeSet;

    fn print(ops: &str) -> String {
        let mut printed = String::new();
        for line in ops.lines() {
            operations::run(line.as_bytes(), &mut printed, &mut Tally::default());
        }
        printed
    }

    #[test]
    fn own_runs_end_at_the_sheet_and_the_tracker_tells_the_truth() {
        let ops = runs(3, 40);
        let Ok(outcome) = plug(3, 40, &ops, &print(&ops)) else {
            panic!("a wrong setting");
        };
        assert_eq!(outcome.sheets, 40);
        assert_eq!(print(&outcome.ops), outcome.expected);
        // Units that answered 80 in each row are among them, full sheets, and one line's stops.
        assert!(outcome.missing().is_empty());
        assert_eq!(outcome.stops(), 2 * PLACES);
    }

    #[test]
    fn full_sheets_come_with_any_seed() {
        for seed in 0..10 {
            for count in [2, 3, 40] {
                let sheets = sheets(seed, count);
                for (profile, most) in [(Profile::A, 15), (Profile::S, 8)] {
                    let mut of_profile = sheets.iter().filter(|sheet| sheet.profile == profile);
                    assert!(of_profile.any(|sheet| sheet.lines.len() == most));
                }
            }
        }
        let sizes = |profile| -> BTreeSet<usize> {
            let sheets = sheets(3, 32);
            let of_profile = sheets.iter().filter(|sheet| sheet.profile == profile);
            of_profile.map(|sheet| sheet.lines.len()).collect()
        };
        assert_eq!(sizes(Profile::A), (0..=15).collect());
        assert_eq!(sizes(Profile::S), (0..=8).collect());
    }

    #[test]
    fn a_full_sheet_is_cut_after_every_byte() {
        let last_frames = PROFILES.map(Kind::LastFrameCut);
        let sheets = sheets(3, 2);
        for (sheet, cuts, other) in [
            (&sheets[0], 255 + 90 + 1, last_frames[1]),
            (&sheets[1], 255 + 48 + 1, last_frames[0]),
        ] {
            let run = printed_run(print(&sheet.operation()).trim_end()).unwrap();
            let mut outcome = Outcome::default();
            let mut random = Random::new(3);
            assert!(every_cut(&mut random, sheet, &run, &[], &mut outcome).is_ok());
            assert_eq!(outcome.cuts, cuts);
            // Five places in the last frame, which no other kind of sheet counts for.
            assert_eq!(outcome.last_frame_cuts(), 5);
            assert!(outcome.missing().contains(&other));
            let one_less = Sheet {
                profile: sheet.profile,
                lines: sheet.lines[1..].to_vec(),
            };
            let run = printed_run(print(&one_less.operation()).trim_end()).unwrap();
            let mut outcome = Outcome::default();
            assert!(every_cut(&mut random, &one_less, &run, &[], &mut outcome).is_ok());
            assert_eq!(outcome.cuts, cuts - 6);
            for kind in last_frames {
                assert!(outcome.missing().contains(&kind));
            }
        }
    }

    /// Outside, three in the header, and for each Dl those of the data and the end.
    const PLACES: u64 = 1 + 3 + 256 * 257 / 2;

    /// A sheet of one line for each family.
    fn one_liners(random: &mut Random) -> [Sheet; PROFILES.len()] {
        PROFILES.map(|profile| Sheet {
            profile,
            lines: samples::sheet(random, profile, 1),
        })
    }

    #[test]
    fn a_line_is_set_from_every_place_and_one_zero_less_fails_at_one() {
        let mut random = Random::new(3);
        for sheet in one_liners(&mut random) {
            let run = printed_run(print(&sheet.operation()).trim_end()).unwrap();
            let mut outcome = Outcome::default();
            assert!(every_stop(&mut random, &sheet, &run, &mut outcome).is_empty());
            assert_eq!(outcome.tally.of(Kind::Stop(sheet.profile)), PLACES);
            assert_eq!(outcome.stops(), PLACES);
            let wrongs = every_stop(&mut random, &sheet, &run[1..], &mut outcome);
            let [wrong] = wrongs.as_slice() else {
                panic!("{} places fail", wrongs.len());
            };
            assert_eq!((wrong.prefix.len(), wrong.prefix[3]), (4, 0xFF));
            let told = format!("stopped after {}, a full run: ", text::hex(&wrong.prefix));
            assert!(wrong.to_string().starts_with(&told));
        }
    }

    #[test]
    fn stops_start_with_none_of_the_sheets_values() {
        let mut random = Random::new(3);
        for profile in PROFILES {
            for size in 0..=samples::most_lines(profile) {
                let lines = samples::sheet(&mut random, profile, size);
                let watch = Watch::unset(&mut random, &Sheet { profile, lines });
                assert!(!watch.starts_set());
                assert_eq!(watch.check(&watch.start, true).is_ok(), size == 0);
            }
        }
        let [sheet, _] = one_liners(&mut random);
        let mut watch = Watch::unset(&mut random, &sheet);
        let row = rows::find(sheet.profile, sheet.lines[0].command).unwrap();
        watch.start.values[row][usize::from(sheet.lines[0].zone) - 1] = sheet.lines[0].value;
        assert!(watch.starts_set());
    }

    #[test]
    fn stops_come_with_the_first_sheet_of_one_line() {
        let first = |profile| {
            let sheets = sheets(3, ENOUGH);
            let mut indexed = sheets.iter().enumerate();
            let found = indexed.find(|(_, sheet)| sheet.profile == profile && sheet.is_one_line());
            found.map(|(index, _)| index)
        };
        assert_eq!(PROFILES.map(first), [Some(28), Some(15)]);
        let ops = runs(3, 16);
        let Ok(outcome) = plug(3, 16, &ops, &print(&ops)) else {
            panic!("a wrong setting");
        };
        assert_eq!(outcome.stops(), PLACES);
        assert!(outcome.missing().contains(&Kind::Stop(Profile::A)));
        assert!(!outcome.missing().contains(&Kind::Stop(Profile::S)));
    }

    #[test]
    fn a_full_run_without_its_last_line_is_found() {
        let ops = runs(3, 2);
        for profile in PROFILES {
            let short: String = ops
                .lines()
                .map(|line| {
                    let printed = print(line);
                    let mut run = printed_run(printed.trim_end()).unwrap();
                    if line.starts_with(&format!("run {:02X} ", profile.letter())) {
                        run.truncate(run.len() - 6);
                    }
                    format!("bytes {} : {}\n", run.len(), text::hex(&run))
                })
                .collect();
            assert!(matches!(plug(3, 2, &ops, &short), Err(Failure::Wrong(_))));
        }
    }

    #[test]
    fn minus_zero_is_the_setting_00_where_it_reads_so() {
        let sheet = Sheet {
            profile: Profile::A,
            lines: vec![Line {
                zone: 1,
                command: 0x3A,
                value: 0x00,
            }],
        };
        let at = |command, zone: usize, value| {
            let mut settings = Settings::zeros();
            settings.values[rows::find(Profile::A, command).unwrap()][zone - 1] = value;
            settings
        };
        // The sheet's value, at any time.
        let watch = Watch::new(&sheet, at(0x3A, 1, 0x85));
        assert!(watch.check(&at(0x3A, 1, 0x80), true).is_ok());
        assert!(watch.check(&at(0x3A, 1, 0x85), false).is_ok());
        assert!(watch.check(&at(0x3A, 1, 0x85), true).is_err());
        // The starting value, either way.
        let watch = Watch::new(&sheet, at(0x3A, 2, 0x80));
        assert!(watch.check(&Settings::zeros(), true).is_ok());
        assert!(watch.check(&at(0x3A, 2, 0x80), true).is_ok());
        assert!(watch.check(&at(0x3A, 2, 0x81), true).is_err());
        let watch = Watch::new(&sheet, Settings::zeros());
        assert!(watch.check(&at(0x45, 3, 0x80), true).is_ok());
        // Leveller is not signed.
        assert!(watch.check(&at(0x39, 3, 0x80), true).is_err());
    }

    #[test]
    fn a_tracker_must_know_00_of_a_unit_that_answered_80() {
        let mut settings = Settings::zeros();
        settings.values[rows::find(Profile::S, 0x3B).unwrap()] = [0x80, 0x80, 0x00];
        let mut session = Session::new(Unit::new(Profile::S, settings));
        for byte in [0x21, 0x02, 0x3B, 0x01, 0xF0, 0x0D] {
            session.feed(Profile::S, byte);
        }
        assert_eq!(session.answers, [0x21, 0x02, 0x3B, 0x00, 0x01, 0x80, 0x0D]);
        let mut tally = Tally::default();
        let mut truth = |zone| session.truth(Profile::S, zone, 0x3B, &mut tally);
        assert_eq!(truth(1), "unknown");
        assert_eq!(truth(2), "value 00");
        assert_eq!(truth(3), "no cell");
        let kinds = Kind::minus_zeros(Direction::Answer);
        assert_eq!(kinds.iter().map(|&kind| tally.of(kind)).sum::<u64>(), 1);
    }

    #[test]
    fn a_run_with_too_few_zeros_is_found() {
        let ops = runs(3, 40);
        let short: String = ops
            .lines()
            .map(|line| {
                let printed = print(line);
                let run = printed_run(printed.trim_end()).unwrap();
                // An empty sheet has no zero to lose.
                let run = run.get(1..).unwrap_or_default();
                format!("bytes {} : {}\n", run.len(), text::hex(run))
            })
            .collect();
        assert!(matches!(plug(3, 40, &ops, &short), Err(Failure::Wrong(_))));
    }

    #[test]
    fn zeros_for_an_empty_sheet_break_no_demand() {
        for profile in PROFILES {
            let lines = Vec::new();
            let sheet = Sheet { profile, lines };
            let run = printed_run(print(&sheet.operation()).trim_end());
            assert_eq!(run, Some(Vec::new()));
            // No setting tells them from no bytes; the suite compares the bytes.
            for run in [vec![], vec![0x00; 255]] {
                for seed in 0..20 {
                    let mut outcome = Outcome::default();
                    let mut random = Random::new(seed);
                    assert!(scenarios(&mut random, &sheet, &run, &mut outcome).is_ok());
                    assert_eq!(print(&outcome.ops), outcome.expected);
                }
            }
        }
    }

    #[test]
    fn files_that_do_not_belong_together_are_wrong_use() {
        let ops = runs(3, 4);
        assert!(matches!(
            plug(4, 4, &ops, &print(&ops)),
            Err(Failure::WrongUse(_))
        ));
        assert!(matches!(
            plug(3, 5, &ops, &print(&ops)),
            Err(Failure::WrongUse(_))
        ));
    }
}
