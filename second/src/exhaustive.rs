//! Writes the operations of the small spaces.

use std::collections::BTreeSet;
use std::io::{self, Write};

use crate::rows::ROWS;
use crate::samples::{DIRECTIONS, PROFILES};

/// Zone, command and data for `codes`: rows of both profiles, and some that have none.
const CODES: [(u8, u8, &str); 17] = [
    (1, 0x44, "00"),
    (1, 0x3A, "85"),
    (1, 0x3A, "80"),
    (2, 0x45, "80"),
    (1, 0x45, "A8"),
    (1, 0x45, "A9"),
    (3, 0x46, "80"),
    (1, 0x3B, "80"),
    (2, 0x39, "FF"),
    (3, 0x37, "02"),
    (2, 0x10, "00"),
    (1, 0x0D, "0D"),
    (1, 0x0E, "02"),
    (1, 0x0F, "0601"),
    (1, 0x5B, "01"),
    (0, 0x99, "-"),
    (255, 0xFF, "21010D"),
];

pub fn exhaustive(mut ops: impl Write) -> io::Result<()> {
    for profile in PROFILES {
        for direction in DIRECTIONS {
            writeln!(
                ops,
                "all {:02X} {:02X}",
                profile.letter(),
                direction.letter()
            )?;
        }
    }
    for direction in DIRECTIONS {
        writeln!(ops, "pairs {:02X}", direction.letter())?;
    }
    for profile in PROFILES {
        for (zone, command, data) in CODES {
            let p = profile.letter();
            writeln!(ops, "codes {p:02X} {zone:02X} {command:02X} {data}")?;
        }
    }
    for code in 0..=255u8 {
        writeln!(ops, "number {code:02X}")?;
    }
    let ends = [i16::MIN, i16::MIN + 1, i16::MAX - 1, i16::MAX];
    for number in ends.into_iter().chain(-300..=300) {
        writeln!(ops, "code {number:04X}")?;
        writeln!(ops, "plain {number:04X}")?;
    }
    for profile in PROFILES {
        for command in 0..=255u8 {
            writeln!(ops, "row {:02X} {command:02X}", profile.letter())?;
        }
    }
    let commands: BTreeSet<u8> = ROWS
        .iter()
        .flat_map(|row| [row.command - 1, row.command, row.command + 1])
        .collect();
    for profile in PROFILES {
        for zone in [0, 1, 2, 3, 4, 255u8] {
            for command in &commands {
                for value in 0..=255u8 {
                    let p = profile.letter();
                    writeln!(ops, "legal {p:02X} {zone:02X} {command:02X} {value:02X}")?;
                }
            }
        }
    }
    ops.flush()
}
