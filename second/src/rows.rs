//! The commands of the two profiles, as the table of rows.

use crate::frame::Direction;

#[derive(Clone, Copy, PartialEq, Eq, PartialOrd, Ord, Debug)]
pub enum Profile {
    A,
    S,
}

impl Profile {
    pub fn from_letter(letter: u8) -> Option<Profile> {
        match letter {
            b'A' => Some(Profile::A),
            b'S' => Some(Profile::S),
            _ => None,
        }
    }

    pub fn letter(self) -> u8 {
        match self {
            Profile::A => b'A',
            Profile::S => b'S',
        }
    }

    /// The last zone; the first is 1.
    pub fn zones(self) -> u8 {
        match self {
            Profile::A => 3,
            Profile::S => 2,
        }
    }

    pub fn has_zone(self, zone: u8) -> bool {
        (1..=self.zones()).contains(&zone)
    }
}

/// The most zones that a profile has.
pub const ZONES: usize = 3;

/// The codes that request and step; a row may lack them.
pub const REQUEST_AND_STEPS: [u8; 3] = [0xF0, 0xF1, 0xF2];

/// The code of minus zero, which the signed rows read as 00.
pub const MINUS_ZERO: u8 = 0x80;

/// The inputs of S 0F.
pub const INPUTS: [u8; 5] = [0x01, 0x02, 0x03, 0x05, 0x06];

/// What the data of a command or a status answer say.
#[derive(Clone, Copy, PartialEq, Eq, Debug)]
pub enum Says {
    Request,
    Up,
    Down,
    /// A 37.
    On,
    /// A 37.
    Off,
    Toggle,
    LevellerOff,
    Number(i16),
    /// S 0F.
    Input {
        input: u8,
        on: bool,
    },
}

impl Says {
    /// How many data bytes it counts as, also a number without a code.
    pub fn length(self) -> usize {
        match self {
            Says::Input { .. } => 2,
            _ => 1,
        }
    }
}

/// The zones of a row.
#[derive(Clone, Copy, PartialEq, Eq)]
pub enum Zones {
    All,
    One,
}

/// How a row's codes are read.
#[derive(Clone, Copy, PartialEq, Eq)]
pub enum Codes {
    /// A code means itself.
    Plain,
    /// 81 to FF mean minus (code less 80 hex), and 80 means 0.
    Signed,
    /// A code means itself, FF is off.
    Leveller,
    /// Two bytes, an input and 00 or 01.
    Pair,
}

/// The mark of a sheet row.
#[derive(Clone, Copy, PartialEq, Eq)]
pub enum Mark {
    Sheet,
    Not,
}

/// First and last code of each stretch of legal codes.
type Ranges = &'static [(u8, u8)];

/// Command codes that set no given value.
type Orders = &'static [(u8, Says)];

const REQUEST: Orders = &[(0xF0, Says::Request)];
const ON_OFF: Orders = &[(0xF0, Says::Request), (0xF1, Says::On), (0xF2, Says::Off)];
const STEPS: Orders = &[(0xF0, Says::Request), (0xF1, Says::Up), (0xF2, Says::Down)];
const TOGGLE: Orders = &[(0x02, Says::Toggle), (0xF0, Says::Request)];

pub struct Row {
    pub profile: Profile,
    pub command: u8,
    pub name: &'static str,
    pub zones: Zones,
    pub codes: Codes,
    pub mark: Mark,
    settings: Ranges,
    orders: Orders,
    answers: Ranges,
}

use Codes::{Leveller, Pair, Plain, Signed};
use Mark::{Not, Sheet};
use Profile::{A, S};
use Zones::{All, One};

/// The rows in the document's order.
#[rustfmt::skip]
pub static ROWS: [Row; 19] = [
    // command   name                  zone codes     mark   settings                       orders   answers
    row(A, 0x0F, "direct",             One, Plain,    Not,   &[],                           REQUEST, &[(0x00, 0x01)]),
    row(A, 0x10, "decode 2ch",         One, Plain,    Not,   &[],                           REQUEST, &[(0x00, 0x08)]),
    row(A, 0x11, "decode MCH",         One, Plain,    Not,   &[],                           REQUEST, &[(0x00, 0x05)]),
    row(A, 0x37, "room EQ",            All, Plain,    Not,   &[],                           ON_OFF,  &[(0x00, 0x02)]),
    row(A, 0x38, "Dolby Volume",       All, Plain,    Sheet, &[(0x00, 0x02)],               REQUEST, &[(0x00, 0x02)]),
    row(A, 0x39, "Leveller",           All, Leveller, Sheet, &[(0x00, 0x0A), (0xFF, 0xFF)], STEPS,   &[(0x00, 0x0A), (0xFF, 0xFF)]),
    row(A, 0x3A, "calibration offset", All, Signed,   Sheet, &[(0x00, 0x0F), (0x80, 0x8F)], STEPS,   &[(0x00, 0x0F), (0x80, 0x8F)]),
    row(A, 0x44, "sample rate",        All, Plain,    Not,   &[],                           REQUEST, &[(0x00, 0x08)]),
    row(A, 0x45, "sub trim",           All, Signed,   Sheet, &[(0x00, 0x00), (0x80, 0xA8)], STEPS,   &[(0x00, 0x00), (0x80, 0xA8)]),
    row(A, 0x46, "picture brightness", All, Signed,   Sheet, &[(0x00, 0x0A), (0x80, 0x8A)], STEPS,   &[(0x00, 0x0A), (0x80, 0x8A)]),
    row(S, 0x0D, "volume",             All, Plain,    Sheet, &[(0x00, 0x63)],               STEPS,   &[(0x00, 0x63)]),
    row(S, 0x0E, "mute",               All, Plain,    Sheet, &[(0x00, 0x01)],               TOGGLE,  &[(0x00, 0x01)]),
    row(S, 0x0F, "direct",             One, Pair,     Not,   &[],                           REQUEST, &[]),
    row(S, 0x37, "room EQ",            All, Plain,    Not,   &[(0x00, 0x06)],               REQUEST, &[(0x00, 0x06), (0xA0, 0xA0)]),
    row(S, 0x3B, "balance",            All, Signed,   Not,   &[],                           REQUEST, &[(0x00, 0x0C), (0x80, 0x8C)]),
    row(S, 0x44, "sample rate",        All, Plain,    Not,   &[],                           REQUEST, &[(0x00, 0x0A)]),
    row(S, 0x5A, "input detect",       All, Plain,    Not,   &[],                           REQUEST, &[(0x00, 0x01)]),
    row(S, 0x5B, "processor input",    All, Plain,    Sheet, &[(0x00, 0x00), (0x02, 0x09)], REQUEST, &[(0x00, 0x00), (0x02, 0x09)]),
    row(S, 0x5C, "processor volume",   All, Plain,    Sheet, &[(0x00, 0x63)],               REQUEST, &[(0x00, 0x63)]),
];

#[allow(clippy::too_many_arguments)]
const fn row(
    profile: Profile,
    command: u8,
    name: &'static str,
    zones: Zones,
    codes: Codes,
    mark: Mark,
    settings: Ranges,
    orders: Orders,
    answers: Ranges,
) -> Row {
    Row {
        profile,
        command,
        name,
        zones,
        codes,
        mark,
        settings,
        orders,
        answers,
    }
}

/// The place in the table of a profile's command.
pub fn find(profile: Profile, command: u8) -> Option<usize> {
    ROWS.iter()
        .position(|row| row.profile == profile && row.command == command)
}

impl Row {
    pub fn has_zone(&self, zone: u8) -> bool {
        match self.zones {
            Zones::All => self.profile.has_zone(zone),
            Zones::One => zone == 1,
        }
    }

    /// Whether the row has data of that length in that direction.
    pub fn has_length(&self, direction: Direction, length: usize) -> bool {
        match (self.codes, direction) {
            (Codes::Pair, Direction::Command) => length == 1 || length == 2,
            (Codes::Pair, Direction::Answer) => length == 2,
            _ => length == 1,
        }
    }

    /// What the data say, or 3, 4 or 13.
    pub fn says(&self, direction: Direction, data: &[u8]) -> Result<Says, u8> {
        if !self.has_length(direction, data.len()) {
            return Err(3);
        }
        match *data {
            [code] => self
                .code_says(direction, code)
                .ok_or(lacking(direction, code)),
            [input, state] if INPUTS.contains(&input) && state <= 0x01 => Ok(Says::Input {
                input,
                on: state == 0x01,
            }),
            _ => Err(4),
        }
    }

    fn code_says(&self, direction: Direction, code: u8) -> Option<Says> {
        let ranges = match direction {
            Direction::Command => {
                if let Some(order) = self.orders.iter().find(|order| order.0 == code) {
                    return Some(order.1);
                }
                self.settings
            }
            Direction::Answer => self.answers,
        };
        if !holds(ranges, code) {
            return None;
        }
        Some(match self.codes {
            Codes::Signed => Says::Number(number_of(code)),
            Codes::Leveller if code == 0xFF => Says::LevellerOff,
            _ => Says::Number(i16::from(code)),
        })
    }

    /// The data that say it, or 3, 4 or 13 where the row cannot say it in that direction.
    pub fn data(&self, direction: Direction, says: Says) -> Result<Vec<u8>, u8> {
        if !self.has_length(direction, says.length()) {
            return Err(3);
        }
        let data = match says {
            Says::Request => vec![0xF0],
            Says::Up | Says::On => vec![0xF1],
            Says::Down | Says::Off => vec![0xF2],
            Says::Toggle => vec![0x02],
            Says::LevellerOff => vec![0xFF],
            Says::Number(number) => vec![self.code(number).ok_or(4)?],
            Says::Input { input, on } => vec![input, u8::from(on)],
        };
        // A code can be legal and say another thing, as 240 in a row with F0.
        if self.says(direction, &data)? != says {
            return Err(4);
        }
        Ok(data)
    }

    /// The code of a number in this row.
    pub fn code(&self, number: i16) -> Option<u8> {
        match self.codes {
            Codes::Signed => signed_code(number),
            _ => plain_code(number),
        }
    }

    /// The number of a code in this row.
    pub fn number(&self, code: u8) -> i16 {
        match self.codes {
            Codes::Signed => number_of(code),
            _ => i16::from(code),
        }
    }

    /// Whether the row reads that code as 00.
    pub fn is_minus_zero(&self, code: u8) -> bool {
        self.codes == Codes::Signed && code == MINUS_ZERO
    }

    /// The code that is written and kept: 00 for minus zero.
    pub fn as_written(&self, code: u8) -> u8 {
        match self.is_minus_zero(code) {
            true => 0x00,
            false => code,
        }
    }

    /// Whether two codes are the same setting.
    pub fn same(&self, one: u8, other: u8) -> bool {
        self.as_written(one) == self.as_written(other)
    }

    /// Whether minus zero is legal in that direction.
    pub fn has_minus_zero(&self, direction: Direction) -> bool {
        self.is_minus_zero(MINUS_ZERO) && self.says(direction, &[MINUS_ZERO]).is_ok()
    }

    /// Whether a status answer may hold that one byte.
    pub fn has_answer(&self, value: u8) -> bool {
        holds(self.answers, value)
    }

    /// Whether it is a sheet row with that setting code; a sheet has no minus zero.
    pub fn has_sheet_value(&self, value: u8) -> bool {
        self.mark == Mark::Sheet && holds(self.settings, value) && !self.is_minus_zero(value)
    }

    /// The row as 14 numbers; none where they cannot show it.
    pub fn numbers(&self) -> Option<[u8; 14]> {
        let settings = stretches(|code| holds(self.settings, code));
        let answers = match self.codes {
            Codes::Pair => stretches(|code| INPUTS.contains(&code)),
            _ => stretches(|code| holds(self.answers, code)),
        };
        // Commands set the first of the answer's stretches or all of them.
        if !answers.starts_with(&settings) {
            return None;
        }
        let (first, second) = match *answers {
            [first] => (first, (1, 0)),
            [first, second] => (first, second),
            _ => return None,
        };
        let zones = match self.zones {
            Zones::All => self.profile.zones(),
            Zones::One => 1,
        };
        let request = (0xF0, Says::Request);
        let others: Vec<(u8, Says)> = self
            .orders
            .iter()
            .copied()
            .filter(|&order| order != request)
            .collect();
        let others = match *others {
            [] => 0,
            [(0xF1, Says::Up), (0xF2, Says::Down)] => 1,
            [(0xF1, Says::On), (0xF2, Says::Off)] => 2,
            [(0x02, Says::Toggle)] => 3,
            _ => return None,
        };
        Some([
            self.profile.letter(),
            self.command,
            zones,
            settings.len() as u8,
            first.0,
            first.1,
            second.0,
            second.1,
            u8::from(self.orders.contains(&request)),
            others,
            u8::from(self.codes == Codes::Pair),
            u8::from(self.codes == Codes::Signed),
            u8::from(self.codes == Codes::Leveller),
            u8::from(self.mark == Mark::Sheet),
        ])
    }
}

/// The table as text: a line for each row, its numbers in decimal, or `?`.
pub fn table() -> String {
    let mut text = String::new();
    for row in &ROWS {
        match row.numbers() {
            Some(numbers) => text.push_str(&numbers.map(|number| number.to_string()).join(" ")),
            None => text.push('?'),
        }
        text.push('\n');
    }
    text
}

/// The refusal of one data byte that a row lacks.
fn lacking(direction: Direction, code: u8) -> u8 {
    match direction {
        Direction::Command if REQUEST_AND_STEPS.contains(&code) => 13,
        _ => 4,
    }
}

/// First and last of each unbroken stretch of codes.
fn stretches(has: impl Fn(u8) -> bool) -> Vec<(u8, u8)> {
    let mut found: Vec<(u8, u8)> = Vec::new();
    for code in (0..=255).filter(|&code| has(code)) {
        match found.last_mut() {
            Some(stretch) if stretch.1 + 1 == code => stretch.1 = code,
            _ => found.push((code, code)),
        }
    }
    found
}

fn holds(ranges: Ranges, code: u8) -> bool {
    ranges
        .iter()
        .any(|&(first, last)| (first..=last).contains(&code))
}

/// The number that a code means in a signed row; at 80 minus nothing, 0.
pub fn number_of(code: u8) -> i16 {
    if code <= 0x7F {
        i16::from(code)
    } else {
        0x80 - i16::from(code)
    }
}

/// The code of a number in a signed row; 0 is 00 and never 80.
pub fn signed_code(number: i16) -> Option<u8> {
    match number {
        0..=127 => Some(number as u8),
        -127..=-1 => Some((0x80 - number) as u8),
        _ => None,
    }
}

/// The code of a number in a row that is not signed.
pub fn plain_code(number: i16) -> Option<u8> {
    u8::try_from(number).ok()
}

#[cfg(test)]
mod tests {
    use super::*;

    #[test]
    fn signed_codes_at_the_ends() {
        for (code, number) in [(0x00, 0), (0x7F, 127), (0x80, 0), (0x81, -1), (0xFF, -127)] {
            assert_eq!(number_of(code), number);
        }
        assert_eq!(signed_code(0), Some(0x00));
        assert_eq!(signed_code(-127), Some(0xFF));
        assert_eq!(signed_code(-128), None);
        assert_eq!(signed_code(128), None);
        assert_eq!(plain_code(255), Some(0xFF));
        assert_eq!(plain_code(256), None);
        assert_eq!(plain_code(-1), None);
    }

    #[test]
    fn four_rows_have_80_and_say_0_by_it() {
        let both = [0x3A, 0x45, 0x46].map(|command| (Profile::A, command));
        let answers = [both[0], both[1], both[2], (Profile::S, 0x3B)];
        for row in &ROWS {
            let place = (row.profile, row.command);
            let says = |direction| row.says(direction, &[0x80]);
            match both.contains(&place) {
                true => assert_eq!(says(Direction::Command), Ok(Says::Number(0))),
                false => assert_eq!(says(Direction::Command), Err(4)),
            }
            match answers.contains(&place) {
                true => assert_eq!(says(Direction::Answer), Ok(Says::Number(0))),
                false if row.codes == Pair => assert_eq!(says(Direction::Answer), Err(3)),
                false => assert_eq!(says(Direction::Answer), Err(4)),
            }
            for direction in [Direction::Command, Direction::Answer] {
                assert_eq!(row.has_minus_zero(direction), says(direction).is_ok());
            }
            assert_eq!(row.is_minus_zero(0x80), answers.contains(&place));
            assert_eq!(row.same(0x80, 0x00), answers.contains(&place));
            assert!((0..=255).all(|code| row.as_written(code) == code || code == 0x80));
        }
    }

    #[test]
    fn sheet_values_are_answers_without_80() {
        for row in ROWS.iter().filter(|row| row.mark == Mark::Sheet) {
            for value in 0..=255 {
                let expected = row.has_answer(value) && value != 0x80;
                assert_eq!(row.has_sheet_value(value), expected);
            }
            assert!(row.zones == Zones::All);
        }
    }

    #[test]
    fn the_sub_trim_runs_to_a8() {
        let row = &ROWS[find(Profile::A, 0x45).unwrap()];
        for direction in [Direction::Command, Direction::Answer] {
            for (code, said) in [
                (0x00, Ok(Says::Number(0))),
                (0x01, Err(4)),
                (0x7F, Err(4)),
                (0x80, Ok(Says::Number(0))),
                (0x81, Ok(Says::Number(-1))),
                (0x8A, Ok(Says::Number(-10))),
                (0x8B, Ok(Says::Number(-11))),
                (0xA8, Ok(Says::Number(-40))),
                (0xA9, Err(4)),
            ] {
                assert_eq!(row.says(direction, &[code]), said, "{code:02X}");
            }
            assert_eq!(row.data(direction, Says::Number(-40)), Ok(vec![0xA8]));
            assert_eq!(row.data(direction, Says::Number(-41)), Err(4));
            assert_eq!(row.data(direction, Says::Number(1)), Err(4));
        }
    }

    #[test]
    fn f1_and_f2_are_13_in_commands_of_rows_without_them() {
        let with_steps = [
            (Profile::A, 0x37),
            (Profile::A, 0x39),
            (Profile::A, 0x3A),
            (Profile::A, 0x45),
            (Profile::A, 0x46),
            (Profile::S, 0x0D),
        ];
        for row in &ROWS {
            let lacked: Vec<u8> = (0..=255)
                .filter(|&code| row.says(Direction::Command, &[code]) == Err(13))
                .collect();
            match with_steps.contains(&(row.profile, row.command)) {
                true => assert_eq!(lacked, []),
                false => assert_eq!(lacked, [0xF1, 0xF2]),
            }
            for code in 0..=255 {
                assert_ne!(row.says(Direction::Answer, &[code]), Err(13));
            }
        }
    }

    #[test]
    fn rows_as_numbers() {
        let of = |profile, command| ROWS[find(profile, command).unwrap()].numbers().unwrap();
        let leveller = [0x41, 0x39, 3, 2, 0x00, 0x0A, 0xFF, 0xFF, 1, 1, 0, 0, 1, 1];
        assert_eq!(of(Profile::A, 0x39), leveller);
        let direct = [0x53, 0x0F, 1, 0, 1, 3, 5, 6, 1, 0, 1, 0, 0, 0];
        assert_eq!(of(Profile::S, 0x0F), direct);
        // The ranges have 80.
        let trim = [0x41, 0x45, 3, 2, 0x00, 0x00, 0x80, 0xA8, 1, 1, 0, 1, 0, 1];
        assert_eq!(of(Profile::A, 0x45), trim);
        let balance = [0x53, 0x3B, 2, 0, 0x00, 0x0C, 0x80, 0x8C, 1, 0, 0, 1, 0, 0];
        assert_eq!(of(Profile::S, 0x3B), balance);
        assert!(!table().contains('?'));
    }

    #[test]
    fn data_that_are_said_read_back_and_80_as_00() {
        for row in &ROWS {
            for direction in [Direction::Command, Direction::Answer] {
                for code in 0..=255 {
                    if let Ok(says) = row.says(direction, &[code]) {
                        let written = if code == 0x80 { 0x00 } else { code };
                        assert_eq!(row.data(direction, says), Ok(vec![written]));
                        assert_eq!(row.says(direction, &[written]), Ok(says));
                    }
                }
            }
        }
    }
}
