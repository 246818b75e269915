//! How often each kind occurred while operations were run.

use std::collections::BTreeMap;
use std::fmt;

use crate::frame::{Direction, Frame, Stretch};
use crate::listing::{self, Listing};
use crate::message::Message;
use crate::rows::{self, Profile, ROWS};
use crate::samples::{self, DIRECTIONS, PROFILES};
use crate::sheet::{Fault, LINE_LIMIT};

#[derive(Clone, Copy, PartialEq, Eq, PartialOrd, Ord)]
pub enum Kind {
    Event(Stretch),
    Listed(&'static str),
    /// A row of the table, read in a direction.
    Row(usize, Direction),
    /// Minus zero in a row of the table, read in a direction.
    MinusZero(usize, Direction),
    Refusal(u8),
    /// What an operation's answer began with, by its word.
    Outcome(&'static str, &'static str),
    /// A full sheet that was accepted.
    FullSheet(Profile),
    /// A sheet longer than any full one and within the limit, by its refusal.
    LongSheet(u8),
    /// A sheet of that many lines.
    SheetOf(usize),
    /// The run of an empty sheet that was accepted, and so is of no bytes.
    EmptyRun,
    /// The run of an empty sheet that was refused with 9, as its place was past the end.
    EmptyRunPastEnd,
    /// A full sheet whose sending was cut in its last frame.
    LastFrameCut(Profile),
    /// A sheet of one line that was sent to a reader stopped at one of its places.
    Stop(Profile),
    Word(&'static str),
}

const WRITTEN: &[&str] = &["bytes", "refused"];
const SIGN_OFFS: &[&str] = &["signed", "not signed", "refused"];

/// The words whose outcomes are counted, with what their answers begin with.
const OUTCOMES: [(&str, &[&str]); 8] = [
    ("sign", SIGN_OFFS),
    ("doorlist", &["accepted", "refused"]),
    ("doorfile", WRITTEN),
    ("doorrun", WRITTEN),
    ("doorsign", SIGN_OFFS),
    ("dooroff", SIGN_OFFS),
    ("doorcell", &["value", "unknown", "no cell", "refused"]),
    ("doorfeed", &["status", "denied", "refused"]),
];

/// The refusals of a sheet that is within the limit.
const LONG_REFUSALS: [u8; 2] = [7, 8];

/// The sizes that are counted: the limit, and one line more.
const SIZES: [usize; 2] = [LINE_LIMIT, LINE_LIMIT + 1];

/// The word that is counted for a line that prints `?`.
pub const NO_OPERATION: &str = "?";

impl Kind {
    /// Every kind that operations bring, with these words.
    pub fn all(words: &[&'static str]) -> Vec<Kind> {
        let mut kinds: Vec<Kind> = Stretch::ALL.into_iter().map(Kind::Event).collect();
        kinds.extend(listing::NAMES.map(Kind::Listed));
        for direction in DIRECTIONS {
            kinds.extend((0..ROWS.len()).map(|row| Kind::Row(row, direction)));
        }
        kinds.extend(DIRECTIONS.into_iter().flat_map(Kind::minus_zeros));
        kinds.extend((1..=13).map(Kind::Refusal));
        kinds.extend(Kind::outcomes());
        kinds.extend(PROFILES.map(Kind::FullSheet));
        kinds.extend(LONG_REFUSALS.map(Kind::LongSheet));
        kinds.extend(SIZES.map(Kind::SheetOf));
        kinds.extend([Kind::EmptyRun, Kind::EmptyRunPastEnd]);
        kinds.extend(words.iter().copied().map(Kind::Word));
        kinds
    }

    /// Every outcome that is counted.
    fn outcomes() -> impl Iterator<Item = Kind> {
        OUTCOMES.into_iter().flat_map(|(word, outcomes)| {
            let outcomes = outcomes.iter();
            outcomes.map(move |outcome| Kind::Outcome(word, outcome))
        })
    }

    /// Minus zero of every row that has it in that direction.
    pub fn minus_zeros(direction: Direction) -> Vec<Kind> {
        (0..ROWS.len())
            .filter(|&row| ROWS[row].has_minus_zero(direction))
            .map(|row| Kind::MinusZero(row, direction))
            .collect()
    }
}

/// A row and the direction that it was read in.
fn row_text(row: usize, direction: Direction) -> String {
    let row = &ROWS[row];
    let direction = match direction {
        Direction::Command => "command",
        Direction::Answer => "answer",
    };
    let letter = row.profile.letter() as char;
    format!("{letter} {:02X} {}, {direction}", row.command, row.name)
}

impl fmt::Display for Kind {
    fn fmt(&self, out: &mut fmt::Formatter) -> fmt::Result {
        match *self {
            Kind::Event(stretch) => write!(out, "event {}", stretch.name()),
            Kind::Listed(name) => write!(out, "listing {name}"),
            Kind::Row(row, direction) => write!(out, "row {}", row_text(row, direction)),
            Kind::MinusZero(row, direction) => {
                write!(out, "minus zero {}", row_text(row, direction))
            }
            Kind::Refusal(number) => write!(out, "refusal {number}"),
            Kind::Outcome("sign", outcome) => write!(out, "sign-off {outcome}"),
            Kind::Outcome(word, "bytes") => write!(out, "operation {word}, accepted"),
            Kind::Outcome(word, outcome) => write!(out, "operation {word}, {outcome}"),
            Kind::FullSheet(profile) => {
                write!(out, "full sheet {}, accepted", profile.letter() as char)
            }
            Kind::LongSheet(number) => {
                let sizes = samples::long_sizes();
                let (first, last) = (sizes.start(), sizes.end());
                write!(out, "sheet of {first} to {last} lines, refused {number}")
            }
            Kind::SheetOf(size) => write!(out, "sheet of {size} lines"),
            Kind::EmptyRun => write!(out, "run of no bytes"),
            Kind::EmptyRunPastEnd => write!(out, "run of no bytes past the end, refused 9"),
            Kind::LastFrameCut(profile) => {
                let letter = profile.letter() as char;
                write!(out, "full sheet {letter}, cut in its last frame")
            }
            Kind::Stop(profile) => {
                let letter = profile.letter() as char;
                write!(out, "sheet of one line {letter}, sent to a stopped reader")
            }
            Kind::Word(word) => write!(out, "operation {word}"),
        }
    }
}

#[derive(Default)]
pub struct Tally {
    counts: BTreeMap<Kind, u64>,
}

impl Tally {
    pub fn count(&mut self, kind: Kind) {
        *self.counts.entry(kind).or_default() += 1;
    }

    pub fn of(&self, kind: Kind) -> u64 {
        self.counts.get(&kind).copied().unwrap_or(0)
    }

    /// Counts the outcome of an operation whose outcomes are counted.
    pub fn outcome(&mut self, word: &str, answer: &str) {
        let is_it = |kind: &Kind| {
            matches!(*kind, Kind::Outcome(known, outcome)
                if known == word && answer.starts_with(outcome))
        };
        if let Some(kind) = Kind::outcomes().find(is_it) {
            self.count(kind);
        }
    }

    /// Counts the row of a message that was read, and minus zero where the frame brought it.
    pub fn message(&mut self, profile: Profile, frame: &Frame, message: &Message) {
        let (command, direction) = match *message {
            Message::Command { command, .. } => (command, Direction::Command),
            Message::Status { command, .. } => (command, Direction::Answer),
            Message::Denied { .. } => return,
        };
        let Some(row) = rows::find(profile, command) else {
            return;
        };
        self.count(Kind::Row(row, direction));
        if matches!(*frame.data, [code] if ROWS[row].is_minus_zero(code)) {
            self.count(Kind::MinusZero(row, direction));
        }
    }

    /// Counts a sheet by its size and what its checks gave.
    pub fn sheet(&mut self, profile: Profile, size: usize, checked: Result<(), Fault>) {
        if SIZES.contains(&size) {
            self.count(Kind::SheetOf(size));
        }
        match checked {
            Ok(()) if size == samples::most_lines(profile) => self.count(Kind::FullSheet(profile)),
            Err(fault) if samples::long_sizes().contains(&size) => {
                self.count(Kind::LongSheet(fault.number));
            }
            _ => {}
        }
    }

    pub fn listing(&mut self, listing: &Listing) {
        for entry in &listing.entries {
            self.count(Kind::Listed(entry.name()));
            if let (Some(frame), Some(Ok(message))) = (&entry.frame, &entry.reading) {
                self.message(listing.profile, frame, message);
            }
        }
    }
}
