//! Operations on sheets and the tracker.

use super::messages::print_reading;
use super::{profile_of, written, Answer, Refusal, Reply};
use crate::frame::{self, Frame};
use crate::rows::Profile;
use crate::sheet::{self, Fault, Line, RECORD};
use crate::tally::{Kind, Tally};
use crate::text;
use crate::tracker::Tracker;

/// A refusal of an operation on sheets that is no line's fault.
fn at_zero(number: u8) -> Refusal {
    Refusal {
        number,
        at: Some(0),
    }
}

pub(super) fn legal(p: u8, line: Line) -> Answer {
    Ok(match sheet::legal(profile_of(p)?, line) {
        true => "legal".to_string(),
        false => "not legal".to_string(),
    })
}

/// A sheet as an operation has it.
#[derive(Clone, Copy)]
pub(super) enum Sheet<'a> {
    File(&'a [u8]),
    /// A list of lines.
    List(&'a [u8]),
}

impl Sheet<'_> {
    /// Its lines if it is accepted; the sheet of a file is counted.
    fn lines(self, profile: Profile, tally: &mut Tally) -> Result<Vec<Line>, Fault> {
        match self {
            Sheet::File(file) => {
                let read = sheet::read_file(profile, file);
                let checked = read.as_ref().map(|_| ()).map_err(|&fault| fault);
                // What is 10 is no sheet.
                if !matches!(checked, Err(Fault { number: 10, .. })) {
                    tally.sheet(profile, file.len() / RECORD, checked);
                }
                read
            }
            Sheet::List(list) => {
                let lines = sheet::lines_of(list);
                sheet::check(profile, &lines)?;
                Ok(lines)
            }
        }
    }
}

pub(super) fn check(p: u8, file: &[u8], tally: &mut Tally) -> Answer {
    let profile = profile_of(p).map_err(at_zero)?;
    let lines = Sheet::File(file).lines(profile, tally)?;
    let printed: Vec<String> = lines
        .iter()
        .map(|line| text::hex(&[line.zone, line.command, line.value]))
        .collect();
    Ok(match lines.len() {
        0 => "accepted 0 : -".to_string(),
        count => format!("accepted {count} : {}", printed.join(" ")),
    })
}

pub(super) fn check_list(p: u8, list: &[u8], tally: &mut Tally) -> Answer {
    let profile = profile_of(p).map_err(at_zero)?;
    Sheet::List(list).lines(profile, tally)?;
    Ok("accepted".to_string())
}

/// Writes a sheet's file or its run.
pub(super) fn sheet_bytes(
    p: u8,
    length: usize,
    place: u64,
    sheet: Sheet,
    bytes: fn(Profile, &[Line]) -> Result<Vec<u8>, Fault>,
    tally: &mut Tally,
) -> Reply {
    let mut reply = written(length, place, || {
        let profile = profile_of(p)?;
        let lines = sheet.lines(profile, tally)?;
        Ok(bytes(profile, &lines)?)
    });
    // Operations on sheets print a place with every refusal.
    if let Err(refusal) = &mut reply.answer {
        refusal.at = refusal.at.or(Some(0));
    }
    reply
}

/// Reads a sheet file and writes its run; what becomes of an empty sheet's is counted.
pub(super) fn run(p: u8, length: usize, place: u64, file: &[u8], tally: &mut Tally) -> Reply {
    let reply = sheet_bytes(p, length, place, Sheet::File(file), sheet::run, tally);
    match &reply.answer {
        Ok(answer) if answer == "bytes 0" => tally.count(Kind::EmptyRun),
        // An empty file is an accepted sheet, so that 9 is the place's alone.
        Err(Refusal { number: 9, .. }) if file.is_empty() && place > length as u64 => {
            tally.count(Kind::EmptyRunPastEnd);
        }
        _ => {}
    }
    reply
}

/// A new tracker that was fed with a capture of answers.
fn fed(profile: Profile, capture: &[u8]) -> Result<Tracker, u8> {
    frame::check_capture(capture)?;
    let mut tracker = Tracker::new(profile);
    tracker.feed_capture(capture);
    Ok(tracker)
}

/// Signs a sheet off by a capture of answers: 12, 11, then the sheet's refusals.
pub(super) fn sign(p: u8, sheet: Sheet, capture: &[u8], tally: &mut Tally) -> Answer {
    let profile = profile_of(p).map_err(at_zero)?;
    let tracker = fed(profile, capture).map_err(at_zero)?;
    let lines = sheet.lines(profile, tally)?;
    Ok(match tracker.signs_off(&lines) {
        true => "signed".to_string(),
        false => "not signed".to_string(),
    })
}

pub(super) fn cell(p: u8, capture: &[u8], zone: u8, command: u8) -> Answer {
    let tracker = fed(profile_of(p)?, capture)?;
    Ok(print_cell(&tracker, zone, command))
}

/// What a new tracker says of one answer, and then knows of its cell.
pub(super) fn feed(p: u8, answer: Frame) -> Answer {
    let mut tracker = Tracker::new(profile_of(p)?);
    let said = print_reading(tracker.feed(answer));
    let cell = print_cell(&tracker, answer.zone, answer.command);
    Ok(format!("{said} ; {cell}"))
}

fn print_cell(tracker: &Tracker, zone: u8, command: u8) -> String {
    match tracker.cell(zone, command) {
        None => "no cell".to_string(),
        Some(None) => "unknown".to_string(),
        Some(Some(value)) => format!("value {value:02X}"),
    }
}
