//! Trials of the unit: one cell set by hand, the bytes sent, and what comes of it.

use std::io::{self, BufRead, Write};

use crate::rows::{self, Codes, Profile, INPUTS, ROWS};
use crate::text;
use crate::unit::{Settings, Unit};

/// What a trial sets and looks at.
#[derive(Clone, Copy)]
enum Cell {
    /// Row of the table and zone less 1.
    Value(usize, usize),
    /// S 0F: the place of an input.
    Input(usize),
    /// S 0F: which input is current.
    Current,
}

/// Runs each line of the input.
pub fn run_all(input: impl BufRead, mut output: impl Write) -> io::Result<()> {
    for line in input.lines() {
        let came = trial(&line?).unwrap_or_else(|| "?".to_string());
        writeln!(output, "{came}")?;
    }
    output.flush()
}

/// `PROFILE HELD SENT CELL` to `ANSWERED HOLDS NOW`.
fn trial(line: &str) -> Option<String> {
    let words: Vec<&str> = line.split(' ').collect();
    let [profile, held, sent, cell @ ..] = words.as_slice() else {
        return None;
    };
    let profile = match *profile {
        "A" => Profile::A,
        "S" => Profile::S,
        _ => return None,
    };
    let cell = cell_of(profile, cell)?;
    let mut settings = Settings::zeros();
    put(&mut settings, cell, byte(held)?)?;
    let mut unit = Unit::new(profile, settings);
    let mut answered = Vec::new();
    for byte in text::bytes(sent.as_bytes()) {
        answered.extend(unit.take(byte).unwrap_or_default());
    }
    Some(format!(
        "{} {:02X} {:02X}",
        text::hex(&answered),
        get(&unit.settings, cell),
        get(&unit.settings, Cell::Current)
    ))
}

fn byte(word: &str) -> Option<u8> {
    match text::bytes(word.as_bytes()).as_slice() {
        [byte] => Some(*byte),
        _ => None,
    }
}

fn place_of(input: u8) -> Option<usize> {
    INPUTS.iter().position(|&other| other == input)
}

fn cell_of(profile: Profile, words: &[&str]) -> Option<Cell> {
    match words {
        ["value", zone, command] => {
            let zone = byte(zone)?;
            let row = rows::find(profile, byte(command)?)?;
            if ROWS[row].codes == Codes::Pair || !ROWS[row].has_zone(zone) {
                return None;
            }
            Some(Cell::Value(row, usize::from(zone) - 1))
        }
        ["input", input] => Some(Cell::Input(place_of(byte(input)?)?)),
        ["current"] => Some(Cell::Current),
        _ => None,
    }
}

fn get(settings: &Settings, cell: Cell) -> u8 {
    match cell {
        Cell::Value(row, zone) => settings.values[row][zone],
        Cell::Input(place) => settings.direct[place],
        Cell::Current => INPUTS[settings.current],
    }
}

fn put(settings: &mut Settings, cell: Cell, value: u8) -> Option<()> {
    match cell {
        Cell::Value(row, zone) => settings.values[row][zone] = value,
        Cell::Input(place) => settings.direct[place] = value,
        Cell::Current => settings.current = place_of(value)?,
    }
    Some(())
}

#[cfg(test)]
mod tests {
    use super::*;

    #[test]
    fn each_kind_of_cell() {
        let came = |line| trial(line).unwrap_or_default();
        assert_eq!(
            came("A 81 21013A01F10D value 01 3A"),
            "21013A0001000D 00 01"
        );
        assert_eq!(came("A 81 - value 03 3A"), "- 81 01");
        assert_eq!(came("A 80 - value 03 3A"), "- 80 01");
        assert_eq!(
            came("A 80 21014501F10D value 01 45"),
            "2101450001800D 80 01"
        );
        assert_eq!(
            came("A 85 21014501800D value 01 45"),
            "2101450001000D 00 01"
        );
        assert_eq!(
            came("S 00 21010F0206010D input 06"),
            "21010F000206010D 01 01"
        );
        assert_eq!(came("S 06 21010F01F00D current"), "21010F000206000D 06 06");
    }

    #[test]
    fn what_is_no_trial() {
        for line in [
            "",
            "A 81 21013A01F10D",
            "X 81 - value 01 3A",
            "A 8 - value 01 3A",
            "A 81 - value 04 3A",
            "A 81 - value 01 0D",
            "S 00 - value 01 0F",
            "S 00 - input 04",
            "S 04 - current",
            "A 81 - value 01 3A ",
        ] {
            assert_eq!(trial(line), None, "{line}");
        }
    }
}
