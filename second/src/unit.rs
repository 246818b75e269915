//! The unit: a command reader plus one legal answer value per row and zone.

use crate::frame::{Direction, Frame, Reader, Step, OPENING};
use crate::message::{self, Message};
use crate::random::Random;
use crate::rows::{self, Codes, Profile, Row, Says, INPUTS, ROWS, ZONES};
use crate::samples;

/// What a unit is set to.
#[derive(Clone, PartialEq, Eq, Debug)]
pub struct Settings {
    /// By row of the table and zone less 1; unused places hold 00.
    pub values: [[u8; ZONES]; ROWS.len()],
    /// S 0F: a value per input.
    pub direct: [u8; INPUTS.len()],
    /// S 0F: the place of the current input, which nothing changes.
    pub current: usize,
}

impl Settings {
    /// 00 in every row and for every input, and the first input.
    pub fn zeros() -> Settings {
        Settings {
            values: [[0; ZONES]; ROWS.len()],
            direct: [0; INPUTS.len()],
            current: 0,
        }
    }

    /// Random legal settings, minus zero among them.
    pub fn random(random: &mut Random, profile: Profile) -> Settings {
        let mut settings = Settings {
            current: random.below(INPUTS.len()),
            ..Settings::zeros()
        };
        for (index, row) in ROWS.iter().enumerate() {
            if row.profile != profile || row.codes == Codes::Pair {
                continue;
            }
            for zone in (1..=ZONES as u8).filter(|&zone| row.has_zone(zone)) {
                let legal = samples::data(random, row, Direction::Answer);
                settings.values[index][usize::from(zone) - 1] = legal[0];
            }
        }
        for value in &mut settings.direct {
            *value = random.below(2) as u8;
        }
        settings
    }
}

#[derive(Clone)]
pub struct Unit {
    profile: Profile,
    reader: Reader,
    /// The bytes of the open frame.
    held: Vec<u8>,
    pub settings: Settings,
}

impl Unit {
    pub fn new(profile: Profile, settings: Settings) -> Unit {
        Unit {
            profile,
            reader: Reader::new(Direction::Command),
            held: Vec::new(),
            settings,
        }
    }

    /// Takes one byte; a completed frame gets an answer.
    pub fn take(&mut self, byte: u8) -> Option<Vec<u8>> {
        match self.reader.take(byte) {
            Step::Noise => None,
            Step::Waiting => {
                self.held.push(byte);
                None
            }
            Step::Broken(_) => {
                self.held.clear();
                if byte == OPENING {
                    self.held.push(byte);
                }
                None
            }
            Step::Frame(_) => {
                self.held.push(byte);
                let held = std::mem::take(&mut self.held);
                let frame = Frame::of(Direction::Command, &held)?;
                self.answer(frame)
            }
        }
    }

    fn answer(&mut self, frame: Frame) -> Option<Vec<u8>> {
        let (answer_code, data) = match message::read(self.profile, Direction::Command, frame) {
            Ok(Message::Command {
                zone,
                command,
                says,
            }) => (0x00, self.act(zone, command, says)?),
            Ok(_) => return None,
            Err(refusal) => (denial(refusal), Vec::new()),
        };
        let answer = Frame {
            answer_code,
            data: &data,
            ..frame
        };
        answer.bytes(Direction::Answer).ok()
    }

    /// Acts, and gives the row's value after it.
    fn act(&mut self, zone: u8, command: u8, says: Says) -> Option<Vec<u8>> {
        let index = rows::find(self.profile, command)?;
        let row = &ROWS[index];
        if row.codes == Codes::Pair {
            let input = match says {
                Says::Input { input, on } => {
                    let place = INPUTS.iter().position(|&other| other == input)?;
                    self.settings.direct[place] = u8::from(on);
                    place
                }
                _ => self.settings.current,
            };
            return Some(vec![INPUTS[input], self.settings.direct[input]]);
        }
        let value = &mut self.settings.values[index][usize::from(zone) - 1];
        *value = after(row, *value, says);
        Some(vec![*value])
    }
}

/// The answer code of a refused frame.
fn denial(refusal: u8) -> u8 {
    match refusal {
        1 => 0x82,
        2 => 0x83,
        3 => 0x86,
        // 4 and 13.
        _ => 0x84,
    }
}

/// The value of a row after a command.
fn after(row: &Row, value: u8, says: Says) -> u8 {
    // Room EQ not calculated stays so, in both profiles.
    if row.command == 0x37 && value == not_calculated(row.profile) {
        return value;
    }
    match says {
        Says::Request | Says::Input { .. } => value,
        Says::Up => step(row, value, 1),
        Says::Down => step(row, value, -1),
        Says::On => 0x01,
        Says::Off => 0x00,
        Says::Toggle => 0x01 - value,
        Says::LevellerOff => 0xFF,
        Says::Number(number) => row.code(number).unwrap_or(value),
    }
}

fn not_calculated(profile: Profile) -> u8 {
    match profile {
        Profile::A => 0x02,
        Profile::S => 0xA0,
    }
}

/// A step past either end leaves the value; Leveller off stays off.
fn step(row: &Row, value: u8, by: i16) -> u8 {
    if row.codes == Codes::Leveller && value == 0xFF {
        return value;
    }
    match row.code(row.number(value) + by) {
        Some(code) if row.has_answer(code) => code,
        _ => value,
    }
}

#[cfg(test)]
mod tests {
    use super::*;
    use crate::frame::{DATA_LIMIT, END};
    use crate::sheet::{self, Line};
    use crate::text;

    fn unit(profile: Profile) -> Unit {
        let mut unit = Unit::new(profile, Settings::zeros());
        unit.settings.current = 4;
        unit
    }

    /// The answer to a command's bytes, in hex.
    fn answer(unit: &mut Unit, hex: &str) -> String {
        let mut answers = Vec::new();
        for byte in text::bytes(hex.as_bytes()) {
            answers.extend(unit.take(byte).unwrap_or_default());
        }
        text::hex(&answers)
    }

    /// Takes a byte; gives what the reader said of it, and the answer.
    fn fed(unit: &mut Unit, byte: u8) -> (Step, Option<Vec<u8>>) {
        (unit.reader.clone().take(byte), unit.take(byte))
    }

    /// A sheet's one line: Dolby Volume 01 in zone 1.
    const DOLBY_ON: Line = Line {
        zone: 1,
        command: 0x38,
        value: 0x01,
    };

    /// A unit at legal settings that has just read Dl FF; nothing waits longer.
    fn longest_wait() -> Unit {
        for row in samples::rows_of(Profile::A) {
            assert!(row.has_answer(0x00), "{}", row.name);
        }
        let mut unit = Unit::new(Profile::A, Settings::zeros());
        for byte in [0x21, 0x01, 0x38, 0xFF] {
            assert_eq!(fed(&mut unit, byte), (Step::Waiting, None));
        }
        unit
    }

    #[test]
    fn zeros_254_do_not_suffice() {
        assert_eq!(sheet::check(Profile::A, &[DOLBY_ON]), Ok(()));
        let mut unit = longest_wait();
        for _ in 0..254 {
            assert_eq!(fed(&mut unit, 0x00), (Step::Waiting, None));
        }
        // The line's 21 is the old frame's last data, and its zone is on the end place.
        assert_eq!(fed(&mut unit, 0x21), (Step::Waiting, None));
        assert_eq!(fed(&mut unit, 0x01), (Step::Broken(260), None));
        for byte in [0x38, 0x01, 0x01, 0x0D] {
            assert_eq!(fed(&mut unit, byte), (Step::Noise, None));
        }
        let row = rows::find(Profile::A, 0x38).unwrap();
        assert_eq!(unit.settings.values[row][0], 0x00);
        assert_eq!(unit.settings, Settings::zeros());
    }

    #[test]
    fn zeros_255_suffice() {
        let run = sheet::run(Profile::A, &[DOLBY_ON]).unwrap();
        let frame = [0x21, 0x01, 0x38, 0x01, 0x01, 0x0D];
        assert_eq!(run, [vec![0x00; 255], frame.to_vec()].concat());
        let mut unit = longest_wait();
        for _ in 0..255 {
            assert_eq!(fed(&mut unit, 0x00), (Step::Waiting, None));
        }
        // The line's 21 is on the end place: it breaks the old frame and opens its own.
        assert_eq!(fed(&mut unit, 0x21), (Step::Broken(259), None));
        for byte in [0x01, 0x38, 0x01, 0x01] {
            assert_eq!(fed(&mut unit, byte), (Step::Waiting, None));
            assert_eq!(unit.settings, Settings::zeros());
        }
        let answer = vec![0x21, 0x01, 0x38, 0x00, 0x01, 0x01, 0x0D];
        assert_eq!(fed(&mut unit, 0x0D), (Step::Frame(6), Some(answer)));
        let mut settings = Settings::zeros();
        settings.values[rows::find(Profile::A, 0x38).unwrap()][0] = 0x01;
        assert_eq!(unit.settings, settings);
    }

    /// Sends zeros and a line's frame from every place; gives Dl and the bytes taken where it fails.
    fn failures(profile: Profile, line: Line, zeros: usize) -> Vec<(usize, usize)> {
        let frame = [OPENING, line.zone, line.command, 0x01, line.value, END];
        let answer = samples::answer(line.zone, line.command, line.value);
        let sent = [vec![0x00; zeros], frame.to_vec()].concat();
        let mut wanted = Settings::zeros();
        let row = rows::find(profile, line.command).unwrap();
        wanted.values[row][usize::from(line.zone) - 1] = line.value;
        let mut failures = Vec::new();
        for data_length in 0..=DATA_LIMIT {
            let mut old = vec![OPENING, line.zone, line.command, data_length as u8];
            old.extend([END, OPENING].iter().cycle().take(data_length));
            let mut stopped = Unit::new(profile, Settings::zeros());
            for taken in 0..=old.len() {
                let mut unit = stopped.clone();
                let answers: Vec<_> = sent.iter().filter_map(|&byte| unit.take(byte)).collect();
                if answers.is_empty() {
                    assert_eq!(unit.settings, Settings::zeros());
                    failures.push((data_length, taken));
                } else {
                    // No other frame was completed, and not the old one.
                    assert_eq!(answers, [answer.as_slice()]);
                    assert_eq!(unit.settings, wanted);
                }
                if let Some(&byte) = old.get(taken) {
                    assert_eq!(stopped.take(byte), None);
                }
            }
        }
        failures
    }

    #[test]
    fn zeros_254_fail_only_where_dl_ff_was_just_read() {
        let volume = Line {
            zone: 2,
            command: 0x0D,
            value: 0x0D,
        };
        for (profile, line) in [(Profile::A, DOLBY_ON), (Profile::S, volume)] {
            assert_eq!(sheet::check(profile, &[line]), Ok(()));
            assert_eq!(failures(profile, line, 255), []);
            assert_eq!(failures(profile, line, 254), [(255, 4)]);
        }
    }

    #[test]
    fn steps_go_over_zero_and_stop_at_the_ends() {
        let mut a = unit(Profile::A);
        assert_eq!(answer(&mut a, "21013A01F20D"), "21013A0001810D");
        assert_eq!(answer(&mut a, "21013A01F10D"), "21013A0001000D");
        assert_eq!(answer(&mut a, "21014501F10D"), "2101450001000D");
        assert_eq!(answer(&mut a, "210139010A0D"), "21013900010A0D");
        assert_eq!(answer(&mut a, "21013901F10D"), "21013900010A0D");
        assert_eq!(answer(&mut a, "21013901FF0D"), "2101390001FF0D");
        assert_eq!(answer(&mut a, "21013901F20D"), "2101390001FF0D");
        assert_eq!(answer(&mut a, "21013901F10D"), "2101390001FF0D");
        assert_eq!(answer(&mut a, "21013901000D"), "2101390001000D");
        assert_eq!(answer(&mut a, "21013901F20D"), "2101390001000D");
    }

    /// A unit that holds minus zero in zone 1 of a row.
    fn at_minus_zero(profile: Profile, command: u8) -> Unit {
        let mut unit = unit(profile);
        unit.settings.values[rows::find(profile, command).unwrap()][0] = 0x80;
        unit
    }

    #[test]
    fn a_held_80_is_answered_as_it_is_and_steps_as_0() {
        for (command, up) in [(0x3A, 0x01), (0x45, 0x80), (0x46, 0x01)] {
            for (code, value) in [(0xF0, 0x80), (0xF1, up), (0xF2, 0x81)] {
                let mut a = at_minus_zero(Profile::A, command);
                assert_eq!(
                    answer(&mut a, &format!("2101{command:02X}01{code:02X}0D")),
                    format!("2101{command:02X}0001{value:02X}0D")
                );
            }
        }
        let mut s = at_minus_zero(Profile::S, 0x3B);
        assert_eq!(answer(&mut s, "21013B01F00D"), "21013B0001800D");
    }

    #[test]
    fn a_set_with_80_stores_00() {
        for command in [0x3A, 0x45, 0x46] {
            let index = rows::find(Profile::A, command).unwrap();
            for value in [0x80, 0x85] {
                let mut a = unit(Profile::A);
                a.settings.values[index][0] = value;
                assert_eq!(
                    answer(&mut a, &format!("2101{command:02X}01800D")),
                    format!("2101{command:02X}0001000D")
                );
                assert_eq!(a.settings, unit(Profile::A).settings);
            }
        }
    }

    #[test]
    fn the_sub_trim_steps_to_a8() {
        let mut a = unit(Profile::A);
        assert_eq!(answer(&mut a, "210145018A0D"), "21014500018A0D");
        assert_eq!(answer(&mut a, "21014501F20D"), "21014500018B0D");
        assert_eq!(answer(&mut a, "21014501A80D"), "2101450001A80D");
        assert_eq!(answer(&mut a, "21014501F20D"), "2101450001A80D");
        assert_eq!(answer(&mut a, "21014501F10D"), "2101450001A70D");
        assert_eq!(answer(&mut a, "21014501A90D"), "21014584000D");
    }

    #[test]
    fn random_settings_are_legal_and_often_80() {
        let mut random = Random::new(7);
        for profile in samples::PROFILES {
            let mut held = [0; ROWS.len()];
            for _ in 0..100 {
                let settings = Settings::random(&mut random, profile);
                for row in samples::rows_of(profile) {
                    let index = rows::find(profile, row.command).unwrap();
                    let value = settings.values[index][0];
                    assert!(row.codes == Codes::Pair || row.has_answer(value));
                    held[index] += u32::from(row.is_minus_zero(value));
                }
            }
            for row in samples::rows_of(profile) {
                let index = rows::find(profile, row.command).unwrap();
                assert_eq!(held[index] >= 10, row.has_minus_zero(Direction::Answer));
            }
        }
    }

    #[test]
    fn room_eq_toggle_and_direct() {
        let mut a = unit(Profile::A);
        assert_eq!(answer(&mut a, "21023701F10D"), "2102370001010D");
        a.settings.values[3][1] = 0x02;
        assert_eq!(answer(&mut a, "21023701F20D"), "2102370001020D");
        let mut s = unit(Profile::S);
        assert_eq!(answer(&mut s, "21010E01020D"), "21010E0001010D");
        assert_eq!(answer(&mut s, "21010E01020D"), "21010E0001000D");
        assert_eq!(answer(&mut s, "21010F0205010D"), "21010F000205010D");
        assert_eq!(answer(&mut s, "21010F01F00D"), "21010F000206000D");
        assert_eq!(answer(&mut s, "21010D010D0D"), "21010D00010D0D");
        s.settings.values[13][0] = 0xA0;
        assert_eq!(answer(&mut s, "21013701030D"), "2101370001A00D");
    }

    #[test]
    fn refused_frames_are_answered_and_broken_ones_are_not() {
        let mut a = unit(Profile::A);
        assert_eq!(answer(&mut a, "21003A01000D"), "21003A82000D");
        assert_eq!(answer(&mut a, "21019901000D"), "21019983000D");
        assert_eq!(answer(&mut a, "21013A000D"), "21013A86000D");
        assert_eq!(answer(&mut a, "21013A01800D"), "21013A0001000D");
        assert_eq!(answer(&mut a, "21013A01900D"), "21013A84000D");
        assert_eq!(answer(&mut a, "21013901800D"), "21013984000D");
        assert_eq!(answer(&mut a, "21013801020D"), "2101380001020D");
        assert_eq!(answer(&mut a, "21013801F20D"), "21013884000D");
        assert_eq!(answer(&mut a, "21013801F00D"), "2101380001020D");
        let mut s = unit(Profile::S);
        assert_eq!(answer(&mut s, "21013B01800D"), "21013B84000D");
        assert_eq!(answer(&mut s, "21013701F10D"), "21013784000D");
        assert_eq!(answer(&mut s, "21010F01F10D"), "21010F84000D");
        assert_eq!(answer(&mut s, "21010F0206F10D"), "21010F84000D");
        assert_eq!(answer(&mut a, "21013A01050021013A01F00D"), "21013A0001000D");
        assert_eq!(answer(&mut a, "21013A010521013A01F00D"), "21013A0001000D");
    }
}
