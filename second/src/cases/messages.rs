//! Cases of messages that are read and written.

use super::Cases;
use crate::frame::{Direction, Frame};
use crate::rows::{Profile, Row, Says, MINUS_ZERO, REQUEST_AND_STEPS, ROWS};
use crate::samples::{self, minus_zero_rows, DIRECTIONS, PROFILES};

/// The fields of a message.
pub(super) struct Fields {
    pub(super) profile: Profile,
    direction: Direction,
    row: &'static Row,
    pub(super) zone: u8,
    pub(super) command: u8,
    answer_code: u8,
    pub(super) data: Vec<u8>,
}

impl Fields {
    fn frame(&self) -> Frame<'_> {
        Frame {
            zone: self.zone,
            command: self.command,
            answer_code: self.answer_code,
            data: &self.data,
        }
    }
}

impl Cases {
    pub(super) fn fields(&mut self) -> Fields {
        let row = self.random.pick(&ROWS);
        let profile = match self.random.percent(92) {
            true => row.profile,
            false => self.profile(),
        };
        let direction = self.direction();
        let zone = match self.random.percent(78) {
            true => samples::zone(&mut self.random, row),
            false => {
                let other = self.random.byte();
                *self.random.pick(&[0, 1, 2, 2, 3, 3, 4, 255, other])
            }
        };
        let command = match self.random.below(20) {
            0 => row.command.wrapping_add(1),
            1 => row.command.wrapping_sub(1),
            2 => self.random.byte(),
            _ => row.command,
        };
        let answer_code = match self.random.below(10) {
            0 => *self.random.pick(&[0x01, 0x7F, 0x80, 0x81, 0x87, 0xFF]),
            1 => self.random.byte(),
            2 | 3 => self.random.between(0x82, 0x86) as u8,
            _ => 0x00,
        };
        let data = self.data(row, direction);
        Fields {
            profile,
            direction,
            row,
            zone,
            command,
            answer_code,
            data,
        }
    }

    /// Data for a row: mostly its own, else near its limits or of other lengths.
    pub(super) fn data(&mut self, row: &Row, direction: Direction) -> Vec<u8> {
        let mut data = samples::data(&mut self.random, row, direction);
        match self.random.below(21) {
            0..=10 => data,
            11 | 12 => {
                // The neighbour of a legal code.
                let last = data.len() - 1;
                let by = *self.random.pick(&[1, 255]);
                data[last] = data[last].wrapping_add(by);
                data
            }
            13 | 14 => {
                let codes = [
                    0x00, 0x01, 0x02, 0x7F, 0x80, 0x81, 0xA0, 0xF0, 0xF1, 0xF2, 0xF3, 0xFF,
                ];
                vec![*self.random.pick(&codes)]
            }
            15 => vec![self.random.below(8) as u8, self.random.below(3) as u8],
            16 => {
                let code = *self.random.pick(&REQUEST_AND_STEPS);
                vec![code, *self.random.pick(&[0x00, 0x01, code])]
            }
            17 => vec![*self.random.pick(&REQUEST_AND_STEPS)],
            18 => self.random.bytes(1),
            _ => {
                let count = *self.random.pick(&[0, 0, 1, 2, 2, 3, 255, 256]);
                samples::mixed(&mut self.random, count)
            }
        }
    }

    pub(super) fn message_case(&mut self) {
        let fields = self.fields();
        self.message(&fields);
    }

    /// A request or a step in any row, sound unless the row lacks it.
    pub(super) fn step_case(&mut self) {
        let profile = self.profile();
        let row = *self.random.pick(&samples::rows_of(profile));
        let code = *self.random.pick(&REQUEST_AND_STEPS);
        let fields = self.of_code(row, Direction::Command, code);
        self.message(&fields);
    }

    /// Minus zero and the ends of a row that reads it, in messages, captures and sheets.
    pub(super) fn signed_case(&mut self) {
        let rows: Vec<&Row> = PROFILES.into_iter().flat_map(minus_zero_rows).collect();
        let row = *self.random.pick(&rows);
        let ends = samples::ends(row);
        for direction in DIRECTIONS {
            let mut capture = Vec::new();
            for code in [MINUS_ZERO, *self.random.pick(&ends)] {
                let mut fields = self.of_code(row, direction, code);
                capture.extend(samples::raw(direction, fields.frame()));
                if self.random.percent(15) {
                    fields.answer_code = self.random.between(0x82, 0x86) as u8;
                }
                self.message(&fields);
            }
            let input = self.listing_input(row.profile, direction, &capture);
            self.add("listing", &[&input]);
            for &code in &ends {
                let fields = self.of_code(row, direction, code);
                self.read(&fields);
            }
        }
        self.signed_sheets(row, &ends);
    }

    /// Fields of one data byte, sound unless the row and direction lack it.
    fn of_code(&mut self, row: &'static Row, direction: Direction, code: u8) -> Fields {
        Fields {
            profile: row.profile,
            direction,
            row,
            zone: samples::zone(&mut self.random, row),
            command: row.command,
            answer_code: 0x00,
            data: vec![code],
        }
    }

    fn read(&mut self, fields: &Fields) {
        let p = self.letter(fields.profile.letter());
        let d = self.letter(fields.direction.letter());
        let (zone, command) = ([fields.zone], [fields.command]);
        let (ac, data) = ([fields.answer_code], &fields.data[..]);
        self.add("read", &[&p, &d, &zone, &command, &ac, data]);
        if fields.direction == Direction::Answer {
            let p = self.letter(fields.profile.letter());
            self.add("doorfeed", &[&p, &zone, &command, &ac, data]);
        }
    }

    /// Reads and writes a message.
    fn message(&mut self, fields: &Fields) {
        self.read(fields);
        let p = self.letter(fields.profile.letter());
        let d = self.letter(fields.direction.letter());
        let (zone, command) = ([fields.zone], [fields.command]);
        let (ac, data) = ([fields.answer_code], &fields.data[..]);
        let frame = samples::raw(fields.direction, fields.frame());
        self.add("frame", &[&p, &d, &frame]);
        self.add("fields", &[&d, &frame]);
        let need = fields.direction.header() + data.len() + 1;
        let (length, place) = self.buffer(need);
        let arguments: [&[u8]; 8] = [&p, &d, &length, &place, &zone, &command, &ac, data];
        self.add("send", &arguments);
        if self.random.percent(60) {
            let (length, place) = self.buffer(need);
            let arguments: [&[u8]; 7] = [&d, &length, &place, &zone, &command, &ac, data];
            self.add("raw", &arguments);
        }
        self.write(fields);
        self.write(fields);
    }

    /// `write` with what the row can say, or with anything else.
    fn write(&mut self, fields: &Fields) {
        let kind = match self.random.below(10) {
            0..=2 => b'D',
            _ if fields.direction == Direction::Command => b'C',
            _ => b'S',
        };
        let answer_code = match kind == b'D' && self.random.percent(75) {
            true => self.random.between(0x82, 0x86) as u8,
            false => fields.answer_code,
        };
        let said = fields.row.says(fields.direction, &fields.data);
        let (form, number, state) = match said {
            Ok(says) if self.random.percent(65) => said_as(says),
            _ => self.form(fields.row),
        };
        // A greater FORM is 08, and another KIND a status.
        let form = match self.random.percent(3) {
            true => *self.random.pick(&[0x09, 0x7F, 0xFF]),
            false => form,
        };
        let kind = match self.random.percent(3) {
            true => *self.random.pick(&[0x00, 0x41, 0x52, 0x63, 0xFF]),
            false => kind,
        };
        let need = match (kind, form) {
            (b'D', _) => 6 + fields.data.len(),
            (b'C', 8..) => 7,
            (b'C', _) => 6,
            (_, 8..) => 8,
            _ => 7,
        };
        let (length, place) = self.buffer(need);
        let p = self.letter(fields.profile.letter());
        let number = number.to_be_bytes();
        self.add(
            "write",
            &[
                &p,
                &length,
                &place,
                &[kind],
                &[fields.zone],
                &[fields.command],
                &[answer_code],
                &[form],
                &number,
                &[state],
                &fields.data,
            ],
        );
    }

    /// Any FORM, NUMBER and STATE.
    fn form(&mut self, row: &Row) -> (u8, i16, u8) {
        let form = *self.random.pick(&[0, 1, 2, 3, 4, 5, 6, 7, 7, 7, 7, 8, 8]);
        let state = *self.random.pick(&[0x00, 0x01, 0x02, 0xFF]);
        let ends = [
            -32768, -300, -256, -255, -129, -128, -127, -126, -114, -113, -112, -41, -40, -39, -16,
            -15, -13, -12, -11, -10, -1, 0, 1, 2, 3, 4, 5, 6, 7, 10, 11, 12, 13, 15, 16, 99, 100,
            127, 128, 129, 138, 160, 240, 241, 242, 255, 256, 257, 32767,
        ];
        let number = match self.random.below(5) {
            0 => self.random.next() as i16,
            1 => row.number(self.random.byte()),
            // A number whose code would request or step.
            2 => row.number(*self.random.pick(&REQUEST_AND_STEPS)),
            _ => *self.random.pick(&ends),
        };
        let number = match form {
            8 if self.random.percent(70) => self.random.below(8) as i16,
            _ => number,
        };
        (form, number, state)
    }
}

/// FORM, NUMBER and STATE of what a message says.
fn said_as(says: Says) -> (u8, i16, u8) {
    match says {
        Says::Request => (0, 0, 0),
        Says::Up => (1, 0, 0),
        Says::Down => (2, 0, 0),
        Says::On => (3, 0, 0),
        Says::Off => (4, 0, 0),
        Says::Toggle => (5, 0, 0),
        Says::LevellerOff => (6, 0, 0),
        Says::Number(number) => (7, number, 0),
        Says::Input { input, on } => (8, i16::from(input), u8::from(on)),
    }
}
