//! The listing program of a capture.

use std::fmt::Write;

use crate::frame::{self, Direction, Event, Frame, Stretch, Totals};
use crate::message::{self, Message};
use crate::rows::{Profile, Says};

/// The events that a listing names.
pub const NAMES: [&str; 6] = ["frame", "broken", "noise", "pending", "denied", "unread"];

/// An event, and for a frame what it brings and the message or the refusal.
pub struct Entry<'a> {
    event: Event,
    pub frame: Option<Frame<'a>>,
    pub reading: Option<Result<Message<'a>, u8>>,
}

pub struct Listing<'a> {
    pub profile: Profile,
    pub entries: Vec<Entry<'a>>,
    totals: Totals,
    capture_length: usize,
}

/// The listing of an input: profile letter, direction letter, capture.
pub fn listing(input: &[u8]) -> Result<Listing<'_>, u8> {
    let [profile, direction, capture @ ..] = input else {
        return Err(12);
    };
    let profile = Profile::from_letter(*profile).ok_or(12)?;
    let direction = Direction::from_letter(*direction).ok_or(12)?;
    frame::check_capture(capture)?;
    let events = frame::events(direction, capture);
    Ok(Listing {
        profile,
        totals: Totals::of(&events),
        capture_length: capture.len(),
        entries: events
            .into_iter()
            .map(|event| entry(profile, direction, capture, event))
            .collect(),
    })
}

fn entry(profile: Profile, direction: Direction, capture: &[u8], event: Event) -> Entry<'_> {
    let frame = match event.stretch {
        Stretch::Frame => Frame::of(direction, event.bytes(capture)),
        _ => None,
    };
    Entry {
        event,
        frame,
        reading: frame.map(|frame| message::read(profile, direction, frame)),
    }
}

impl Entry<'_> {
    /// The event's name in the listing.
    pub fn name(&self) -> &'static str {
        match self.reading {
            Some(Err(_)) => "unread",
            Some(Ok(Message::Denied { .. })) => "denied",
            _ => self.event.stretch.name(),
        }
    }

    /// Zone, code, answer and value.
    fn fields(&self) -> String {
        match self.reading {
            None => "- - - -".to_string(),
            Some(Err(refusal)) => format!("- - - {refusal}"),
            Some(Ok(Message::Command {
                zone,
                command,
                says,
            })) => format!("{zone} {command:02X} - {}", value(says)),
            Some(Ok(Message::Status {
                zone,
                command,
                says,
            })) => format!("{zone} {command:02X} 00 {}", value(says)),
            Some(Ok(Message::Denied {
                zone,
                command,
                answer_code,
                ..
            })) => format!("{zone} {command:02X} {answer_code:02X} -"),
        }
    }
}

/// What data say, as the listing prints it.
fn value(says: Says) -> String {
    match says {
        Says::Request => "request".to_string(),
        Says::Up => "up".to_string(),
        Says::Down => "down".to_string(),
        Says::On => "on".to_string(),
        Says::Off | Says::LevellerOff => "off".to_string(),
        Says::Toggle => "toggle".to_string(),
        Says::Number(number) => number.to_string(),
        Says::Input { input, on } => format!("{input}:{}", u8::from(on)),
    }
}

impl Listing<'_> {
    /// All lines, each with its line feed.
    pub fn text(&self) -> String {
        let mut text = String::from("at length event zone code answer value\n");
        for entry in &self.entries {
            let Event { place, length, .. } = entry.event;
            // Writing into a string does not fail.
            let _ = writeln!(text, "{place} {length} {} {}", entry.name(), entry.fields());
        }
        let totals = &self.totals;
        let _ = writeln!(
            text,
            "total {} frame {} broken {} noise {} pending {}",
            self.capture_length, totals.frame, totals.broken, totals.noise, totals.pending
        );
        text
    }
}

/// What the listing program prints for an input.
pub fn program(input: &[u8]) -> String {
    match listing(input) {
        Ok(listing) => listing.text(),
        Err(refusal) => format!("refused {refusal}\n"),
    }
}

#[cfg(test)]
mod tests {
    use super::*;
    use crate::text;

    fn print(letters: &[u8], hex: &str) -> String {
        let mut input = letters.to_vec();
        input.extend(text::bytes(hex.as_bytes()));
        program(&input)
    }

    #[test]
    fn the_worked_listing() {
        let expected = "at length event zone code answer value
0 1 noise - - - -
1 7 frame 1 3A 00 -5
8 6 broken - - - -
14 1 pending - - - -
total 15 frame 7 broken 6 noise 1 pending 1
";
        assert_eq!(print(b"AR", "0021013A0001850D21013800010221"), expected);
    }

    #[test]
    fn an_empty_capture_has_two_lines() {
        let expected = "at length event zone code answer value
total 0 frame 0 broken 0 noise 0 pending 0
";
        assert_eq!(print(b"SC", "-"), expected);
    }

    #[test]
    fn refused_input_prints_its_number_alone() {
        assert_eq!(print(b"", "-"), "refused 12\n");
        assert_eq!(print(b"A", "-"), "refused 12\n");
        assert_eq!(print(b"A R", "-"), "refused 12\n");
        let over = "00".repeat(60_001);
        assert_eq!(print(b"aC", &over), "refused 12\n");
        assert_eq!(print(b"AC", &over), "refused 11\n");
        assert!(print(b"AC", &over[2..]).ends_with("noise 60000 pending 0\n"));
    }

    #[test]
    fn values_are_printed_in_words() {
        let line = |letters, hex| print(letters, hex).lines().nth(1).unwrap().to_string();
        assert_eq!(line(b"AC", "21013701F10D"), "0 6 frame 1 37 - on");
        assert_eq!(line(b"AC", "21013901FF0D"), "0 6 frame 1 39 - off");
        assert_eq!(line(b"AR", "2101390001FF0D"), "0 7 frame 1 39 00 off");
        assert_eq!(line(b"SC", "21010F0206010D"), "0 7 frame 1 0F - 6:1");
        assert_eq!(line(b"SR", "2101370001A00D"), "0 7 frame 1 37 00 160");
        assert_eq!(line(b"AR", "21FF998301000D"), "0 7 denied 255 99 83 -");
        assert_eq!(line(b"AR", "2101388101020D"), "0 7 unread - - - 5");
        assert_eq!(line(b"SC", "21013701F10D"), "0 6 unread - - - 13");
        assert_eq!(line(b"AR", "2101380001F10D"), "0 7 unread - - - 4");
    }

    #[test]
    fn minus_zero_is_printed_as_0() {
        let line = |letters, hex| print(letters, hex).lines().nth(1).unwrap().to_string();
        assert_eq!(line(b"AC", "21013A01800D"), "0 6 frame 1 3A - 0");
        assert_eq!(line(b"AR", "21013A0001800D"), "0 7 frame 1 3A 00 0");
        assert_eq!(line(b"AC", "21024501800D"), "0 6 frame 2 45 - 0");
        assert_eq!(line(b"AR", "2102450001800D"), "0 7 frame 2 45 00 0");
        assert_eq!(line(b"AC", "21034601800D"), "0 6 frame 3 46 - 0");
        assert_eq!(line(b"AR", "2103460001800D"), "0 7 frame 3 46 00 0");
        assert_eq!(line(b"SC", "21013B01800D"), "0 6 unread - - - 4");
        assert_eq!(line(b"SR", "21013B0001800D"), "0 7 frame 1 3B 00 0");
        assert_eq!(line(b"AR", "2101390001800D"), "0 7 unread - - - 4");
        assert_eq!(line(b"AC", "21014501A80D"), "0 6 frame 1 45 - -40");
        assert_eq!(line(b"AR", "2101450001A80D"), "0 7 frame 1 45 00 -40");
        assert_eq!(line(b"AR", "2101450001A90D"), "0 7 unread - - - 4");
    }
}
