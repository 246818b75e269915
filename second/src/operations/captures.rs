//! Operations on captures, and the listing.

use std::fmt::Write as _;

use super::{direction_of, Answer};
use crate::frame::{self, Event, Frame, Reader, Step, Stretch, Totals};
use crate::listing;
use crate::tally::{Kind, Tally};
use crate::text;

/// The fewest bytes of a buffer that a listing goes through.
const PIECES_LEAST: usize = 64;

pub(super) fn feed(d: u8, bytes: &[u8]) -> Answer {
    let mut reader = Reader::new(direction_of(d)?);
    let mut text = String::with_capacity(2 * bytes.len());
    for (index, &byte) in bytes.iter().enumerate() {
        if index > 0 {
            text.push(' ');
        }
        let _ = match reader.take(byte) {
            Step::Waiting => write!(text, "w"),
            Step::Noise => write!(text, "n"),
            Step::Frame(length) => write!(text, "f{length}"),
            Step::Broken(length) => write!(text, "b{length}"),
        };
    }
    Ok(text)
}

pub(super) fn parts_of(d: u8, parts: &[Vec<u8>]) -> Answer {
    let mut reader = Reader::new(direction_of(d)?);
    let mut made_of_parts = Vec::new();
    for part in parts {
        let (mut framed, mut broken, mut noise) = (0, 0, 0);
        for &byte in part {
            match reader.take(byte) {
                Step::Waiting => {}
                Step::Noise => noise += 1,
                Step::Frame(length) => framed += length,
                Step::Broken(length) => broken += length,
            }
        }
        made_of_parts.push(format!("{framed}/{broken}/{noise}"));
    }
    Ok(made_of_parts.join(" "))
}

/// Prints an event and counts it.
fn print_event(event: Event, tally: &mut Tally) -> String {
    tally.count(Kind::Event(event.stretch));
    let letter = match event.stretch {
        Stretch::Frame => 'f',
        Stretch::Broken => 'b',
        Stretch::Noise => 'n',
        Stretch::Pending => 'p',
    };
    format!("{}+{}{letter}", event.place, event.length)
}

pub(super) fn events(d: u8, bytes: &[u8], tally: &mut Tally) -> Answer {
    let printed: Vec<String> = frame::events(direction_of(d)?, bytes)
        .into_iter()
        .map(|event| print_event(event, tally))
        .collect();
    Ok(printed.join(" "))
}

pub(super) fn event(d: u8, place: u64, bytes: &[u8], tally: &mut Tally) -> Answer {
    let direction = direction_of(d)?;
    let place = usize::try_from(place).unwrap_or(usize::MAX);
    Ok(match frame::first_event(direction, bytes, place) {
        Some(event) => print_event(event, tally),
        None => "end".to_string(),
    })
}

pub(super) fn totals(d: u8, bytes: &[u8]) -> Answer {
    let direction = direction_of(d)?;
    frame::check_capture(bytes)?;
    let totals = Totals::of(&frame::events(direction, bytes));
    Ok(format!(
        "frame {} broken {} noise {} pending {}",
        totals.frame, totals.broken, totals.noise, totals.pending
    ))
}

pub(super) fn fields(d: u8, bytes: &[u8]) -> Answer {
    Ok(match Frame::of(direction_of(d)?, bytes) {
        Some(frame) => format!(
            "{:02X} {:02X} {:02X} : {}",
            frame.zone,
            frame.command,
            frame.answer_code,
            text::hex(frame.data)
        ),
        None => "not one frame".to_string(),
    })
}

pub(super) fn part(place: u64, count: u64, bytes: &[u8]) -> String {
    let end = place
        .checked_add(count)
        .filter(|&end| end <= bytes.len() as u64);
    match end {
        Some(end) => text::hex(&bytes[place as usize..end as usize]),
        None => text::hex(&[]),
    }
}

pub(super) fn last(count: u64, bytes: &[u8]) -> String {
    match (bytes.len() as u64).checked_sub(count) {
        Some(place) => part(place, count, bytes),
        None => text::hex(&[]),
    }
}

/// The listing, through a buffer of that length if one is given: 9 if it is too small, then 12, 11.
pub(super) fn list(input: &[u8], buffer: Option<usize>, tally: &mut Tally) -> Answer {
    if buffer.is_some_and(|length| length < PIECES_LEAST) {
        return Err(9.into());
    }
    let listing = listing::listing(input)?;
    tally.listing(&listing);
    let mut text = listing.text();
    // The last line feed is every operation's own.
    text.pop();
    Ok(text)
}
