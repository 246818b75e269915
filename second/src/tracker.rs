//! The tracker: what a unit has answered.

use crate::frame::{self, Direction, Frame, Stretch};
use crate::message::{self, Message};
use crate::rows::{self, Codes, Mark, Profile, ROWS, ZONES};
use crate::sheet::Line;

pub struct Tracker {
    profile: Profile,
    /// One byte or unknown per row and zone.
    cells: [[Option<u8>; ZONES]; ROWS.len()],
}

impl Tracker {
    /// Made new, it knows nothing.
    pub fn new(profile: Profile) -> Tracker {
        Tracker {
            profile,
            cells: [[None; ZONES]; ROWS.len()],
        }
    }

    /// The row and zone index of a cell; S 0F has none.
    fn place(&self, zone: u8, command: u8) -> Option<(usize, usize)> {
        let row = rows::find(self.profile, command)?;
        if ROWS[row].codes == Codes::Pair || !ROWS[row].has_zone(zone) {
            return None;
        }
        Some((row, usize::from(zone) - 1))
    }

    /// Takes one answer; a number is passed on unchanged.
    pub fn feed<'a>(&mut self, answer: Frame<'a>) -> Result<Message<'a>, u8> {
        let message = message::read(self.profile, Direction::Answer, answer)?;
        if let Message::Status { zone, command, .. } = message {
            if let Some((row, zone)) = self.place(zone, command) {
                self.cells[row][zone] = Some(ROWS[row].as_written(answer.data[0]));
            }
        }
        Ok(message)
    }

    /// Feeds every frame of a capture of answers; refused ones change nothing.
    pub fn feed_capture(&mut self, capture: &[u8]) {
        for event in frame::events(Direction::Answer, capture) {
            if event.stretch != Stretch::Frame {
                continue;
            }
            if let Some(answer) = Frame::of(Direction::Answer, event.bytes(capture)) {
                let _ = self.feed(answer);
            }
        }
    }

    /// None for no cell, then the byte or unknown.
    pub fn cell(&self, zone: u8, command: u8) -> Option<Option<u8>> {
        let (row, zone) = self.place(zone, command)?;
        // A byte that is no legal sheet value counts as unknown in a sheet row.
        Some(
            self.cells[row][zone]
                .filter(|&value| ROWS[row].mark == Mark::Not || ROWS[row].has_sheet_value(value)),
        )
    }

    /// Whether every line's cell is known and equal; the sheet is one that was accepted.
    pub fn signs_off(&self, lines: &[Line]) -> bool {
        lines
            .iter()
            .all(|line| self.cell(line.zone, line.command) == Some(Some(line.value)))
    }
}

#[cfg(test)]
mod tests {
    use super::*;

    #[test]
    fn status_answers_alone_make_a_cell_known() {
        let line = |value| Line {
            zone: 1,
            command: 0x3A,
            value,
        };
        let answer = |answer_code, data| Frame {
            zone: 1,
            command: 0x3A,
            answer_code,
            data,
        };
        let mut tracker = Tracker::new(Profile::A);
        assert!(tracker.signs_off(&[]));
        assert_eq!(tracker.cell(1, 0x3A), Some(None));
        assert_eq!(tracker.cell(2, 0x0F), None);
        tracker.feed(answer(0x00, &[0x85])).unwrap();
        assert!(tracker.signs_off(&[line(0x85)]));
        assert!(!tracker.signs_off(&[line(0x84)]));
        tracker.feed(answer(0x84, &[0x01])).unwrap();
        tracker.feed(answer(0x84, &[0x80])).unwrap();
        assert_eq!(tracker.feed(answer(0x00, &[0x90])), Err(4));
        assert_eq!(tracker.cell(1, 0x3A), Some(Some(0x85)));
        // A byte that the host has spoilt.
        tracker.cells[6][0] = Some(0x80);
        assert_eq!(tracker.cell(1, 0x3A), Some(None));
    }

    #[test]
    fn an_answer_of_80_makes_00_known() {
        for (profile, command) in [
            (Profile::A, 0x3A),
            (Profile::A, 0x45),
            (Profile::A, 0x46),
            (Profile::S, 0x3B),
        ] {
            let mut tracker = Tracker::new(profile);
            let answer = Frame {
                zone: 2,
                command,
                answer_code: 0x00,
                data: &[0x80],
            };
            tracker.feed(answer).unwrap();
            assert_eq!(tracker.cell(2, command), Some(Some(0x00)));
            // Balance is on no sheet.
            if profile == Profile::A {
                let line = |value| Line {
                    zone: 2,
                    command,
                    value,
                };
                assert!(tracker.signs_off(&[line(0x00)]));
                assert!(!tracker.signs_off(&[line(0x81)]));
            }
        }
    }
}
