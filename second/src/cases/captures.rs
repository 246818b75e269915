//! Cases of captures.

use super::Cases;
use crate::frame::{self, Direction, Stretch, CAPTURE_LIMIT};
use crate::operations::LINE_LIMIT;
use crate::rows::Profile;
use crate::samples;
use crate::sheet::{self, LISTED};

/// Captures over this length go to fewer operations.
const LONG: usize = 1_200;

impl Cases {
    fn capture_length(&mut self) -> usize {
        match self.random.below(20) {
            0 | 1 => self.random.between(0, 4),
            2..=8 => self.random.between(0, 40),
            9..=14 => self.random.between(20, 300),
            15..=18 => self.random.between(200, LONG),
            _ => self.random.between(LONG, 5_000),
        }
    }

    /// The letters of a listing's input, now and then bad or missing.
    pub(super) fn listing_input(
        &mut self,
        profile: Profile,
        direction: Direction,
        capture: &[u8],
    ) -> Vec<u8> {
        let letters = [profile.letter(), direction.letter()];
        let mut input = match self.random.below(24) {
            0 => return letters[..self.random.below(2)].to_vec(),
            1 => capture.to_vec(),
            2 => vec![self.random.byte(), letters[1]],
            3 => vec![letters[0], self.random.byte()],
            4 => [letters[0], b' ', letters[1]].to_vec(),
            5 => letters.map(|letter| letter.to_ascii_lowercase()).to_vec(),
            6 => vec![letters[1], letters[0]],
            _ => letters.to_vec(),
        };
        input.extend_from_slice(capture);
        input
    }

    pub(super) fn capture_case(&mut self) {
        let (profile, direction) = (self.profile(), self.direction());
        let length = self.capture_length();
        let capture = samples::capture(&mut self.random, profile, direction, length);
        let input = self.listing_input(profile, direction, &capture);
        self.add("listing", &[&input]);
        let d = self.letter(direction.letter());
        self.add("totals", &[&d, &capture]);
        let d = self.letter(direction.letter());
        self.add("events", &[&d, &capture]);
        self.parts(direction, &capture);
        if capture.len() <= LONG || self.random.percent(30) {
            let d = self.letter(direction.letter());
            self.add("feed", &[&d, &capture]);
            self.places(direction, &capture);
        }
        self.stretches(profile, direction, &capture);
        // The other profile or direction makes other messages of the same bytes.
        if self.random.percent(25) {
            let (profile, direction) = (self.profile(), self.direction());
            let input = self.listing_input(profile, direction, &capture);
            self.add("listing", &[&input]);
        }
    }

    /// `parts`, cut at random places.
    fn parts(&mut self, direction: Direction, capture: &[u8]) {
        let mut cuts: Vec<usize> = (0..self.random.below(12))
            .map(|_| self.random.between(0, capture.len()))
            .collect();
        cuts.sort_unstable();
        cuts.push(capture.len());
        let d = self.letter(direction.letter());
        let mut arguments: Vec<&[u8]> = vec![&d];
        let mut from = 0;
        for cut in cuts {
            arguments.push(&capture[from..cut]);
            from = cut;
        }
        self.add("parts", &arguments);
    }

    /// `event`, `part` and `last` at places in and past the capture.
    fn places(&mut self, direction: Direction, capture: &[u8]) {
        let length = capture.len() as u64;
        for _ in 0..3 {
            let inside = self.random.between(0, capture.len()) as u64;
            let place = *self.random.pick(&[
                0,
                inside,
                inside,
                inside,
                length.saturating_sub(1),
                length,
                length + 1,
                u64::MAX,
            ]);
            let place = self.number(place);
            let d = self.letter(direction.letter());
            self.add("event", &[&d, &place, capture]);
        }
        let place = self.random.between(0, capture.len()) as u64;
        let count = self.random.between(0, capture.len() - place as usize) as u64;
        let (place, count) = match self.random.below(8) {
            0 => (place, length - place),
            1 => (place, length - place + 1),
            2 => (length, 0),
            3 => (length + 1, 0),
            4 => (u64::MAX, u64::MAX),
            5 => (u64::MAX - place, place + 1),
            _ => (place, count),
        };
        let (place, count) = (self.number(place), self.number(count));
        self.add("part", &[&place, &count, capture]);
        let inside = self.random.between(0, capture.len()) as u64;
        let count = *self
            .random
            .pick(&[0, inside, inside, length, length + 1, u64::MAX]);
        let count = self.number(count);
        self.add("last", &[&count, capture]);
    }

    /// `fields` and `frame` of stretches of the capture, some of them damaged.
    fn stretches(&mut self, profile: Profile, direction: Direction, capture: &[u8]) {
        let events = frame::events(direction, capture);
        if events.is_empty() {
            return;
        }
        let frames: Vec<_> = events
            .iter()
            .filter(|event| event.stretch == Stretch::Frame)
            .collect();
        for word in ["fields", "frame", "fields", "frame"] {
            let event = match frames.is_empty() || self.random.percent(15) {
                true => self.random.pick(&events),
                false => *self.random.pick(&frames),
            };
            let mut bytes = event.bytes(capture).to_vec();
            match self.random.below(10) {
                0 => samples::damage(&mut self.random, &mut bytes),
                1 => bytes.push(*self.random.pick(&[0x0D, 0x00])),
                2 => bytes.truncate(self.random.below(bytes.len() + 1)),
                _ => {}
            }
            let (p, d) = (
                self.letter(profile.letter()),
                self.letter(direction.letter()),
            );
            match word {
                "fields" => self.add(word, &[&d, &bytes]),
                _ => self.add(word, &[&p, &d, &bytes]),
            }
        }
    }

    /// Captures of 59,999, 60,000 and 60,001 bytes.
    pub(super) fn limit_case(&mut self, index: usize) {
        let length = CAPTURE_LIMIT - 1 + index % 3;
        let profile = self.profile();
        let direction = self.direction();
        let capture = match self.random.below(6) {
            0 => vec![0x21; length],
            1 => vec![0x0D; length],
            _ => samples::capture(&mut self.random, profile, direction, length),
        };
        let d = [direction.letter()];
        self.add("totals", &[&d, &capture]);
        self.add("events", &[&d, &capture]);
        let mut input = vec![profile.letter(), direction.letter()];
        input.extend_from_slice(&capture);
        self.add("listing", &[&input]);
        self.add("pieces", &[&[64], &input]);
        // 12 comes before 11.
        input[0] = b'a';
        self.add("listing", &[&input]);
        self.add("totals", &[b"c", &capture]);
        let size = self.random.below(4);
        let lines = samples::sheet(&mut self.random, profile, size);
        let file = sheet::records(profile, &lines);
        let p = [profile.letter()];
        self.add("sign", &[&p, &file, &capture]);
        let list = sheet::list(&lines);
        self.add("doorsign", &[&p, &list, &capture]);
        self.add("dooroff", &[&p, &list, &capture]);
        // 11 comes before the sheet's refusals, and 12 before it.
        self.add("sign", &[&p, &[0x53], &capture]);
        let door = *self.random.pick(&["doorsign", "dooroff"]);
        self.add(door, &[&p, &[0x00; LISTED], &capture]);
        self.add(door, &[b"a", &list, &capture]);
        let row = *self.random.pick(&samples::rows_of(profile));
        self.cell(&p, &capture, 1, row.command);
        self.add("cell", &[&p, &capture, &[9], &[row.command]]);
        self.long_line(LINE_LIMIT - 1 + index % 4);
    }

    /// A line of so many characters; where it is cut shows in the last bytes.
    fn long_line(&mut self, length: usize) {
        let bytes = self.random.bytes(length / 2 + 1);
        self.add("last", &[&[8], &bytes]);
        if let Some(line) = self.lines.last_mut() {
            line.truncate(length);
        }
    }
}
