//! Random frames, captures and sheets.

use std::ops::RangeInclusive;

use crate::frame::{Direction, Frame, DATA_LIMIT, END, OPENING};
use crate::random::Random;
use crate::rows::{Codes, Mark, Profile, Row, Says, INPUTS, MINUS_ZERO, REQUEST_AND_STEPS, ROWS};
use crate::sheet::{Line, LINE_LIMIT};

pub const PROFILES: [Profile; 2] = [Profile::A, Profile::S];
pub const DIRECTIONS: [Direction; 2] = [Direction::Command, Direction::Answer];

/// The rows of a profile.
pub fn rows_of(profile: Profile) -> Vec<&'static Row> {
    ROWS.iter().filter(|row| row.profile == profile).collect()
}

/// The rows of a profile that read minus zero as 00.
pub fn minus_zero_rows(profile: Profile) -> Vec<&'static Row> {
    let mut rows = rows_of(profile);
    rows.retain(|row| row.is_minus_zero(MINUS_ZERO));
    rows
}

/// Codes about the ends of a row's answers, and about the end that document 01 gave the sub trim.
pub fn ends(row: &Row) -> Vec<u8> {
    let is_end = |code: u8| {
        let nexts = [code.wrapping_sub(1), code.wrapping_add(1)];
        nexts
            .iter()
            .any(|&next| row.has_answer(next) != row.has_answer(code))
    };
    (0..=255)
        .filter(|&code| is_end(code) || [0x8A, 0x8B].contains(&code))
        .collect()
}

/// A zone that the row has.
pub fn zone(random: &mut Random, row: &Row) -> u8 {
    let zones: Vec<u8> = (1..=3).filter(|&zone| row.has_zone(zone)).collect();
    *random.pick(&zones)
}

/// Data that the row has in that direction.
pub fn data(random: &mut Random, row: &Row, direction: Direction) -> Vec<u8> {
    if row.codes == Codes::Pair && (direction == Direction::Answer || random.percent(80)) {
        return vec![*random.pick(&INPUTS), random.below(2) as u8];
    }
    // Minus zero is one code of many and is picked more often.
    if row.has_minus_zero(direction) && random.percent(25) {
        return vec![MINUS_ZERO];
    }
    // What is no number has few codes and is picked more often.
    let words = random.percent(40);
    let is_word = |code: u8| !matches!(row.says(direction, &[code]), Ok(Says::Number(_)));
    let codes: Vec<u8> = (0..=255)
        .filter(|&code| row.says(direction, &[code]).is_ok())
        .collect();
    let chosen: Vec<u8> = codes
        .iter()
        .copied()
        .filter(|&code| is_word(code) == words)
        .collect();
    match chosen.is_empty() {
        true => vec![*random.pick(&codes)],
        false => vec![*random.pick(&chosen)],
    }
}

/// The bytes of a frame with these fields; data over 255 are cut.
pub fn raw(direction: Direction, mut frame: Frame) -> Vec<u8> {
    frame.data = &frame.data[..frame.data.len().min(DATA_LIMIT)];
    frame.bytes(direction).unwrap_or_default()
}

/// A status answer with one byte.
pub fn answer(zone: u8, command: u8, value: u8) -> Vec<u8> {
    let frame = Frame {
        zone,
        command,
        answer_code: 0x00,
        data: &[value],
    };
    raw(Direction::Answer, frame)
}

/// A denied answer without data.
pub fn denied(zone: u8, command: u8, answer_code: u8) -> Vec<u8> {
    let frame = Frame {
        zone,
        command,
        answer_code,
        data: &[],
    };
    raw(Direction::Answer, frame)
}

/// A frame that is accepted.
pub fn valid(random: &mut Random, profile: Profile, direction: Direction) -> Vec<u8> {
    let row = *random.pick(&rows_of(profile));
    let frame = Frame {
        zone: zone(random, row),
        command: row.command,
        answer_code: 0x00,
        data: &data(random, row, direction),
    };
    raw(direction, frame)
}

/// A frame that requests, steps or has minus zero, also in a row or direction that lacks it.
fn perhaps_lacked(random: &mut Random, profile: Profile, direction: Direction) -> Vec<u8> {
    let row = *random.pick(&rows_of(profile));
    let code = match random.percent(25) {
        true => MINUS_ZERO,
        false => *random.pick(&REQUEST_AND_STEPS),
    };
    let frame = Frame {
        zone: zone(random, row),
        command: row.command,
        answer_code: 0x00,
        data: &[code],
    };
    raw(direction, frame)
}

/// Bytes of which many are 0D or 21.
pub fn mixed(random: &mut Random, count: usize) -> Vec<u8> {
    (0..count)
        .map(|_| match random.below(6) {
            0 => END,
            1 => OPENING,
            _ => random.byte(),
        })
        .collect()
}

/// A frame of any fields, with data of that length.
fn foreign(random: &mut Random, profile: Profile, direction: Direction, count: usize) -> Vec<u8> {
    let row = *random.pick(&rows_of(profile));
    let frame = Frame {
        zone: *random.pick(&[0, 1, 1, 1, 2, 3, 4, 0x0D, 0x21, 0xFF]),
        command: match random.below(3) {
            0 => random.byte(),
            _ => row.command,
        },
        answer_code: match random.below(4) {
            0 => random.byte(),
            1 => random.between(0x81, 0x87) as u8,
            _ => 0x00,
        },
        data: &mixed(random, count),
    };
    raw(direction, frame)
}

/// A frame with answer code 82 to 86; a command has no answer code and is any frame.
fn denial(random: &mut Random, direction: Direction) -> Vec<u8> {
    let count = *random.pick(&[0, 0, 0, 1, 2, 40, 255]);
    let frame = Frame {
        zone: random.byte(),
        command: random.byte(),
        answer_code: random.between(0x82, 0x86) as u8,
        data: &mixed(random, count),
    };
    raw(direction, frame)
}

/// Changes, drops or inserts one byte.
pub fn damage(random: &mut Random, bytes: &mut Vec<u8>) {
    if bytes.is_empty() {
        return;
    }
    let place = random.below(bytes.len());
    match random.below(3) {
        0 => bytes[place] = *random.pick(&[0x00, END, OPENING, 0xFF, 0x80, bytes[place] ^ 0x01]),
        1 => {
            bytes.remove(place);
        }
        _ => {
            let byte = *random.pick(&[0x00, 0x01, END, OPENING, 0xFF]);
            bytes.insert(place, byte);
        }
    }
}

/// A stretch of a capture: mostly a good frame, else one kind of trouble.
fn stretch(random: &mut Random, profile: Profile, direction: Direction) -> Vec<u8> {
    match random.below(19) {
        0..=7 => valid(random, profile, direction),
        8 => {
            let count = random.below(5);
            foreign(random, profile, direction, count)
        }
        9 => denial(random, direction),
        10 => {
            let count = random.between(4, DATA_LIMIT);
            foreign(random, profile, direction, count)
        }
        11 => foreign(random, profile, direction, DATA_LIMIT),
        12 => {
            let mut bytes = valid(random, profile, direction);
            damage(random, &mut bytes);
            bytes
        }
        13 => {
            let count = random.between(0, 30);
            let mut bytes = foreign(random, profile, direction, count);
            damage(random, &mut bytes);
            bytes
        }
        14 | 15 => {
            let count = random.between(1, 6);
            random.bytes(count)
        }
        16 => {
            // Unfinished, at any place.
            let mut bytes = valid(random, profile, direction);
            bytes.truncate(random.between(1, bytes.len() - 1));
            bytes
        }
        17 => perhaps_lacked(random, profile, direction),
        _ => {
            let byte = *random.pick(&[OPENING, END, 0x00]);
            vec![byte; random.between(1, 60)]
        }
    }
}

/// A capture of exactly that length; its last frame is cut where the length ends.
pub fn capture(
    random: &mut Random,
    profile: Profile,
    direction: Direction,
    length: usize,
) -> Vec<u8> {
    let mut bytes = Vec::with_capacity(length + 300);
    while bytes.len() < length {
        bytes.extend(stretch(random, profile, direction));
    }
    bytes.truncate(length);
    bytes
}

/// The legal sheet values of a row.
pub fn sheet_values(row: &Row) -> Vec<u8> {
    (0..=255)
        .filter(|&value| row.has_sheet_value(value))
        .collect()
}

/// A legal sheet value; 00 more often where 80 reads as it.
fn sheet_value(random: &mut Random, row: &Row) -> u8 {
    match row.is_minus_zero(MINUS_ZERO) && random.percent(25) {
        true => 0x00,
        false => *random.pick(&sheet_values(row)),
    }
}

/// Every zone of every sheet row.
fn sheet_cells(profile: Profile) -> Vec<(u8, &'static Row)> {
    let mut rows = rows_of(profile);
    rows.retain(|row| row.mark == Mark::Sheet);
    (1..=profile.zones())
        .flat_map(|zone| rows.iter().map(move |&row| (zone, row)))
        .filter(|(zone, row)| row.has_zone(*zone))
        .collect()
}

/// The lines of a full sheet, the most that are accepted: one more would be 7 or 8.
pub fn most_lines(profile: Profile) -> usize {
    sheet_cells(profile).len()
}

/// The sizes that the limit allows and no accepted sheet has.
pub fn long_sizes() -> RangeInclusive<usize> {
    let most = PROFILES.into_iter().map(most_lines).fold(0, usize::max);
    most + 1..=LINE_LIMIT
}

/// Every zone of every sheet row, with a random legal value, in random order.
fn full_sheet(random: &mut Random, profile: Profile) -> Vec<Line> {
    let mut lines: Vec<Line> = sheet_cells(profile)
        .into_iter()
        .map(|(zone, row)| Line {
            zone,
            command: row.command,
            value: sheet_value(random, row),
        })
        .collect();
    random.shuffle(&mut lines);
    lines
}

/// A sheet of that many legal lines, accepted up to a full one; then its zones and rows come again.
pub fn sheet(random: &mut Random, profile: Profile, size: usize) -> Vec<Line> {
    let mut lines = full_sheet(random, profile);
    while lines.len() < size {
        lines.extend(full_sheet(random, profile));
    }
    lines.truncate(size);
    lines
}

#[cfg(test)]
mod tests {
    use super::*;
    use crate::sheet::{check, Fault};

    #[test]
    fn a_full_sheet_has_fifteen_lines_or_eight() {
        assert_eq!(most_lines(Profile::A), 15);
        assert_eq!(most_lines(Profile::S), 8);
        assert_eq!(long_sizes(), 16..=24);
    }

    #[test]
    fn sheets_are_accepted_up_to_a_full_one() {
        let mut random = Random::new(7);
        for profile in PROFILES {
            let most = most_lines(profile);
            for size in 0..=LINE_LIMIT {
                let lines = sheet(&mut random, profile, size);
                assert_eq!(lines.len(), size);
                let expected = match size <= most {
                    true => Ok(()),
                    false => Err(Fault {
                        number: 8,
                        at: most,
                    }),
                };
                assert_eq!(check(profile, &lines), expected);
            }
        }
    }
}
