//! Operations on messages and their rows.

use std::fmt::Write as _;

use super::{direction_of, frame_of, one, profile_of, signed, written, Answer, Reply, ARGUMENTS};
use crate::frame::{Direction, Frame};
use crate::message::{self, Message};
use crate::rows::{self, Profile, Says};
use crate::tally::Tally;
use crate::text;

pub(super) fn frame_message(p: u8, d: u8, bytes: &[u8], tally: &mut Tally) -> Answer {
    let (profile, direction) = (profile_of(p)?, direction_of(d)?);
    let Some(frame) = Frame::of(direction, bytes) else {
        return Ok("not one frame".to_string());
    };
    read_message(profile, direction, frame, tally)
}

pub(super) fn read(p: u8, d: u8, frame: Frame, tally: &mut Tally) -> Answer {
    read_message(profile_of(p)?, direction_of(d)?, frame, tally)
}

fn read_message(profile: Profile, direction: Direction, frame: Frame, tally: &mut Tally) -> Answer {
    let message = message::read(profile, direction, frame)?;
    tally.message(profile, &frame, &message);
    Ok(print_message(message))
}

/// A message or its refusal.
pub(super) fn print_reading(reading: Result<Message, u8>) -> String {
    match reading {
        Ok(message) => print_message(message),
        Err(number) => format!("refused {number}"),
    }
}

fn print_message(message: Message) -> String {
    match message {
        Message::Command {
            zone,
            command,
            says,
        } => format!("command {zone} {command:02X} {}", print_says(says)),
        Message::Status {
            zone,
            command,
            says,
        } => format!("status {zone} {command:02X} {}", print_says(says)),
        Message::Denied {
            zone,
            command,
            answer_code,
            data,
        } => format!(
            "denied {zone} {command:02X} {answer_code:02X} : {}",
            text::hex(data)
        ),
    }
}

fn print_says(says: Says) -> String {
    match says {
        Says::Request => "request".to_string(),
        Says::Up => "up".to_string(),
        Says::Down => "down".to_string(),
        Says::On => "on".to_string(),
        Says::Off | Says::LevellerOff => "off".to_string(),
        Says::Toggle => "toggle".to_string(),
        Says::Number(number) => format!("number {number}"),
        Says::Input { input, on: true } => format!("input {input} on"),
        Says::Input { input, on: false } => format!("input {input} off"),
    }
}

/// The message of `write` from KIND on.
pub(super) fn said(arguments: [&[u8]; ARGUMENTS - 3]) -> Message<'_> {
    let [kind, zone, command, ac, form, number, state, data, ..] = arguments;
    let (zone, command, number) = (one(zone), one(command), signed(number));
    let says = match one(form) {
        0x00 => Says::Request,
        0x01 => Says::Up,
        0x02 => Says::Down,
        0x03 => Says::On,
        0x04 => Says::Off,
        0x05 => Says::Toggle,
        0x06 => Says::LevellerOff,
        0x07 => Says::Number(number),
        _ => Says::Input {
            input: number.to_be_bytes()[1],
            on: one(state) != 0x00,
        },
    };
    match one(kind) {
        b'C' => Message::Command {
            zone,
            command,
            says,
        },
        b'D' => Message::Denied {
            zone,
            command,
            answer_code: one(ac),
            data,
        },
        _ => Message::Status {
            zone,
            command,
            says,
        },
    }
}

pub(super) fn write(p: u8, length: usize, place: u64, message: Message) -> Reply {
    written(length, place, || {
        Ok(message::bytes(profile_of(p)?, message)?)
    })
}

pub(super) fn send(p: u8, d: u8, length: usize, place: u64, frame: Frame) -> Reply {
    written(length, place, || {
        let (profile, direction) = (profile_of(p)?, direction_of(d)?);
        let message = message::read(profile, direction, frame)?;
        Ok(message::bytes(profile, message)?)
    })
}

pub(super) fn raw(d: u8, length: usize, place: u64, frame: Frame) -> Reply {
    written(length, place, || Ok(frame.bytes(direction_of(d)?)?))
}

pub(super) fn code(code: Option<u8>) -> String {
    match code {
        Some(code) => text::hex(&[code]),
        None => "none".to_string(),
    }
}

pub(super) fn row(p: u8, command: u8) -> Answer {
    Ok(match rows::find(profile_of(p)?, command) {
        Some(_) => "row".to_string(),
        None => "none".to_string(),
    })
}

/// The refusals that reading gives.
const REFUSALS: [u8; 6] = [1, 2, 3, 4, 5, 13];

/// How many messages were accepted, and how many got each refusal.
#[derive(Default)]
struct Counts {
    accepted: u32,
    /// By the refusal's number.
    refused: [u32; 14],
}

impl Counts {
    /// Reads with answer code 00, and prints and counts what comes of it.
    fn read(
        &mut self,
        text: &mut String,
        profile: Profile,
        direction: Direction,
        (zone, command): (u8, u8),
        data: &[u8],
    ) {
        let frame = frame_of(zone, command, 0x00, data);
        match message::read(profile, direction, frame) {
            Ok(Message::Command { says, .. } | Message::Status { says, .. }) => {
                self.accepted += 1;
                let _ = writeln!(
                    text,
                    "{zone:02X} {command:02X} {} {}",
                    text::hex(data),
                    print_says(says)
                );
            }
            // None is denied with answer code 00.
            Ok(Message::Denied { .. }) => {}
            Err(number) => self.refused[usize::from(number)] += 1,
        }
    }

    fn print(&self, text: &mut String) {
        let _ = write!(text, "accepted {} refused", self.accepted);
        for number in REFUSALS {
            let _ = write!(text, " {number}:{}", self.refused[usize::from(number)]);
        }
    }
}

pub(super) fn all(p: u8, d: u8) -> Answer {
    let (profile, direction) = (profile_of(p)?, direction_of(d)?);
    let mut counts = Counts::default();
    let mut text = String::new();
    for zone in 0..=255 {
        for command in 0..=255 {
            for byte in 0..=255 {
                counts.read(&mut text, profile, direction, (zone, command), &[byte]);
            }
        }
    }
    counts.print(&mut text);
    Ok(text)
}

pub(super) fn pairs(d: u8) -> Answer {
    let direction = direction_of(d)?;
    let mut counts = Counts::default();
    let mut text = String::new();
    for first in 0..=255 {
        for second in 0..=255 {
            counts.read(
                &mut text,
                Profile::S,
                direction,
                (1, 0x0F),
                &[first, second],
            );
        }
    }
    counts.print(&mut text);
    Ok(text)
}

pub(super) fn codes(p: u8, zone: u8, command: u8, data: &[u8]) -> Answer {
    let profile = profile_of(p)?;
    let lines: Vec<String> = (0..=255u8)
        .map(|answer_code| {
            let frame = frame_of(zone, command, answer_code, data);
            let reading = message::read(profile, Direction::Answer, frame);
            format!("{answer_code:02X} {}", print_reading(reading))
        })
        .collect();
    Ok(lines.join("\n"))
}

#[cfg(test)]
mod tests {
    use super::*;

    #[test]
    fn counted_messages_are_printed_with_the_byte_that_was_read() {
        let mut counts = Counts::default();
        let mut text = String::new();
        for byte in [0x00, 0x80, 0xA8, 0xA9] {
            counts.read(&mut text, Profile::A, Direction::Answer, (1, 0x45), &[byte]);
        }
        counts.print(&mut text);
        let expected = "01 45 00 number 0
01 45 80 number 0
01 45 A8 number -40
accepted 3 refused 1:0 2:0 3:0 4:1 5:0 13:0";
        assert_eq!(text, expected);
    }
}
