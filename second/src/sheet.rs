//! Sheet, sheet file and run.

use crate::frame::{Direction, Frame};
use crate::rows::{self, Profile, ROWS};

/// The most lines of a sheet.
pub const LINE_LIMIT: usize = 24;
/// The bytes of a line in a sheet file.
pub const RECORD: usize = 6;
/// The bytes of a line in a list.
pub const LISTED: usize = 3;
/// The zeros before the frames of a run: the 21 behind them falls on the longest old frame's end.
pub const RUN_ZEROS: usize = 255;
/// The bytes of a line in a run.
pub const RUN_FRAME: usize = 6;
/// The bytes of the longest run that the limit leaves room for.
pub const LONGEST_RUN: usize = run_length(LINE_LIMIT);
const MARK: [u8; 2] = [0x53, 0x4C];

#[derive(Clone, Copy, PartialEq, Eq, Debug)]
pub struct Line {
    pub zone: u8,
    pub command: u8,
    pub value: u8,
}

impl Line {
    pub fn of(zone: u8, command: u8, value: u8) -> Line {
        Line {
            zone,
            command,
            value,
        }
    }
}

/// A refusal of a sheet, with the index of the line at fault.
#[derive(Clone, Copy, PartialEq, Eq, Debug)]
pub struct Fault {
    pub number: u8,
    pub at: usize,
}

/// Whether zone, row and value are legal for a sheet.
pub fn legal(profile: Profile, line: Line) -> bool {
    match rows::find(profile, line.command) {
        Some(row) => ROWS[row].has_zone(line.zone) && ROWS[row].has_sheet_value(line.value),
        None => false,
    }
}

/// 6, then the lowest line at fault, 7 before 8 on that line.
pub fn check(profile: Profile, lines: &[Line]) -> Result<(), Fault> {
    if lines.len() > LINE_LIMIT {
        return Err(Fault {
            number: 6,
            at: LINE_LIMIT,
        });
    }
    for (at, line) in lines.iter().enumerate() {
        if !legal(profile, *line) {
            return Err(Fault { number: 7, at });
        }
        let same = |other: &Line| other.zone == line.zone && other.command == line.command;
        if lines[..at].iter().any(same) {
            return Err(Fault { number: 8, at });
        }
    }
    Ok(())
}

/// The lines of a list, three bytes each; one or two left over are passed over.
pub fn lines_of(list: &[u8]) -> Vec<Line> {
    let lines = list.chunks_exact(LISTED);
    lines
        .map(|line| Line::of(line[0], line[1], line[2]))
        .collect()
}

/// The bytes of a list of any lines.
pub fn list(lines: &[Line]) -> Vec<u8> {
    let bytes = |line: &Line| [line.zone, line.command, line.value];
    lines.iter().flat_map(bytes).collect()
}

/// The lines of an accepted sheet file.
pub fn read_file(profile: Profile, file: &[u8]) -> Result<Vec<Line>, Fault> {
    let records = file.chunks_exact(RECORD);
    if !records.remainder().is_empty() {
        return Err(Fault {
            number: 10,
            at: file.len() / RECORD,
        });
    }
    // All marks and profiles come before the sheet's checks.
    for (at, record) in records.clone().enumerate() {
        if record[..2] != MARK || record[2] != profile.letter() {
            return Err(Fault { number: 10, at });
        }
    }
    let lines: Vec<Line> = records
        .map(|record| Line::of(record[3], record[4], record[5]))
        .collect();
    check(profile, &lines)?;
    Ok(lines)
}

/// The sheet file of a sheet that is accepted.
pub fn file(profile: Profile, lines: &[Line]) -> Result<Vec<u8>, Fault> {
    check(profile, lines)?;
    Ok(records(profile, lines))
}

/// The records of any lines, unchecked.
pub fn records(profile: Profile, lines: &[Line]) -> Vec<u8> {
    let mut file = Vec::with_capacity(RECORD * lines.len());
    for line in lines {
        file.extend_from_slice(&MARK);
        file.extend_from_slice(&[profile.letter(), line.zone, line.command, line.value]);
    }
    file
}

/// The bytes of the run of so many lines; an empty sheet has none to set, so nothing is sent.
pub const fn run_length(lines: usize) -> usize {
    match lines {
        0 => 0,
        _ => RUN_ZEROS + RUN_FRAME * lines,
    }
}

/// The run of a sheet that is accepted: 255 bytes of 00, then a frame per line; or no bytes.
pub fn run(profile: Profile, lines: &[Line]) -> Result<Vec<u8>, Fault> {
    check(profile, lines)?;
    let mut run = Vec::with_capacity(run_length(lines.len()));
    if !lines.is_empty() {
        run.resize(RUN_ZEROS, 0x00);
    }
    for line in lines {
        let frame = Frame {
            zone: line.zone,
            command: line.command,
            answer_code: 0x00,
            data: &[line.value],
        };
        run.extend(frame.bytes(Direction::Command).unwrap_or_default());
    }
    Ok(run)
}

#[cfg(test)]
mod tests {
    use super::*;

    fn line(zone: u8, command: u8, value: u8) -> Line {
        Line::of(zone, command, value)
    }

    fn fault(number: u8, at: usize) -> Fault {
        Fault { number, at }
    }

    /// Every sheet row in every zone.
    fn full(profile: Profile) -> Vec<Line> {
        let (commands, zones) = match profile {
            Profile::A => (vec![0x38, 0x39, 0x3A, 0x45, 0x46], 1..=3),
            Profile::S => (vec![0x0D, 0x0E, 0x5B, 0x5C], 1..=2),
        };
        zones
            .flat_map(|zone| {
                commands
                    .iter()
                    .map(move |&command| line(zone, command, 0x00))
            })
            .collect()
    }

    /// That many lines: a full sheet, then the same lines again.
    fn repeated(profile: Profile, count: usize) -> Vec<Line> {
        full(profile).into_iter().cycle().take(count).collect()
    }

    #[test]
    fn the_lowest_fault_is_given() {
        let good = line(1, 0x3A, 0x85);
        let bad = line(1, 0x3A, 0x80);
        let a = |lines: &[Line]| check(Profile::A, lines);
        assert_eq!(a(&[]), Ok(()));
        assert_eq!(a(&[good, good, bad]), Err(fault(8, 1)));
        assert_eq!(a(&[good, bad]), Err(fault(7, 1)));
        assert_eq!(a(&[bad; 24]), Err(fault(7, 0)));
        assert_eq!(a(&[bad; 25]), Err(fault(6, 24)));
        assert_eq!(a(&[bad; 40]), Err(fault(6, 24)));
        assert_eq!(a(&[line(1, 0x39, 0xFF)]), Ok(()));
        assert_eq!(a(&[line(1, 0x39, 0xF0)]), Err(fault(7, 0)));
        assert_eq!(a(&[line(1, 0x38, 0xF1)]), Err(fault(7, 0)));
        let s = |lines: &[Line]| check(Profile::S, lines);
        assert_eq!(s(&[line(1, 0x0E, 0x02)]), Err(fault(7, 0)));
        assert_eq!(s(&[line(1, 0x5B, 0x01)]), Err(fault(7, 0)));
        assert_eq!(s(&[line(1, 0x37, 0x03)]), Err(fault(7, 0)));
    }

    #[test]
    fn a_full_sheet_is_accepted_and_no_longer_one() {
        for (profile, most) in [(Profile::A, 15), (Profile::S, 8)] {
            assert_eq!(full(profile).len(), most);
            for count in 0..=most {
                assert_eq!(check(profile, &repeated(profile, count)), Ok(()));
            }
            for count in most + 1..=24 {
                let lines = repeated(profile, count);
                assert_eq!(check(profile, &lines), Err(fault(8, most)), "{count}");
                // 7 behind a full sheet, also where the line is one again.
                let mut spoilt = lines.clone();
                spoilt[most].value = 0x80;
                assert_eq!(check(profile, &spoilt), Err(fault(7, most)), "{count}");
            }
            for count in [25, 26, 40, 256, 256 + most, 500] {
                let lines = repeated(profile, count);
                assert_eq!(check(profile, &lines), Err(fault(6, 24)), "{count}");
                let bad = vec![line(0, 0x99, 0x80); count];
                assert_eq!(check(profile, &bad), Err(fault(6, 24)), "{count}");
            }
        }
    }

    #[test]
    fn the_lowest_fault_of_a_long_sheet_is_given() {
        for profile in [Profile::A, Profile::S] {
            let most = full(profile).len();
            for count in [16, 24] {
                for at in 0..count {
                    // An illegal line, and from the second on a repeat.
                    let mut lines = repeated(profile, count);
                    lines[at].zone = 0;
                    let illegal = match at <= most {
                        true => fault(7, at),
                        false => fault(8, most),
                    };
                    assert_eq!(check(profile, &lines), Err(illegal), "{count} {at}");
                    lines[at] = lines[at.saturating_sub(1)];
                    let again = match at {
                        0 => fault(7, 0),
                        _ => fault(8, at.min(most)),
                    };
                    assert_eq!(check(profile, &lines), Err(again), "{count} {at}");
                }
            }
        }
    }

    #[test]
    fn a_list_has_three_bytes_for_each_line() {
        let lines = [line(1, 0x3A, 0x85), line(0, 0xFF, 0x80)];
        let bytes = [0x01, 0x3A, 0x85, 0x00, 0xFF, 0x80, 0x01, 0x38];
        assert_eq!(list(&lines), bytes[..6]);
        for (count, listed) in [(0, 0), (2, 0), (3, 1), (5, 1), (6, 2), (7, 2), (8, 2)] {
            assert_eq!(lines_of(&bytes[..count]), lines[..listed], "{count}");
        }
    }

    #[test]
    fn a_sheet_has_no_80_and_the_sub_trim_runs_to_a8() {
        for command in [0x3A, 0x45, 0x46] {
            for zone in 1..=3 {
                let lines = [line(zone, command, 0x80)];
                assert_eq!(check(Profile::A, &lines), Err(fault(7, 0)));
                let file = records(Profile::A, &lines);
                assert_eq!(read_file(Profile::A, &file), Err(fault(7, 0)));
                assert_eq!(check(Profile::A, &[line(zone, command, 0x00)]), Ok(()));
            }
        }
        for value in [0x00, 0x80] {
            assert!(!legal(Profile::S, line(1, 0x3B, value)));
        }
        for value in [0x00, 0x81, 0x8A, 0x8B, 0xA8] {
            assert!(legal(Profile::A, line(3, 0x45, value)), "{value:02X}");
        }
        for value in [0x01, 0x7F, 0xA9] {
            assert!(!legal(Profile::A, line(3, 0x45, value)), "{value:02X}");
        }
    }

    #[test]
    fn marks_come_before_the_lines() {
        let mut file = records(Profile::A, &[line(1, 0x3A, 0x80); 26]);
        assert_eq!(read_file(Profile::A, &file), Err(fault(6, 24)));
        assert_eq!(read_file(Profile::A, &file[..25 * 6]), Err(fault(6, 24)));
        assert_eq!(read_file(Profile::A, &file[..24 * 6]), Err(fault(7, 0)));
        file[25 * 6] = 0;
        assert_eq!(read_file(Profile::A, &file), Err(fault(10, 25)));
        assert_eq!(read_file(Profile::S, &file), Err(fault(10, 0)));
        assert_eq!(read_file(Profile::S, &file[1..]), Err(fault(10, 25)));
        assert_eq!(read_file(Profile::A, &file[..25 * 6]), Err(fault(6, 24)));
    }

    #[test]
    fn files_at_the_limit() {
        for (profile, most) in [(Profile::A, 15), (Profile::S, 8)] {
            for (count, wrong) in [
                (most + 1, fault(8, most)),
                (16, fault(8, most)),
                (24, fault(8, most)),
                (25, fault(6, 24)),
                (26, fault(6, 24)),
            ] {
                let lines = repeated(profile, count);
                let mut written = records(profile, &lines);
                assert_eq!(read_file(profile, &written), Err(wrong), "{count}");
                assert_eq!(file(profile, &lines), Err(wrong), "{count}");
                assert_eq!(run(profile, &lines), Err(wrong), "{count}");
                // The last record's profile, whatever its lines are.
                written[6 * count - 4] = 0x58;
                let last = Err(fault(10, count - 1));
                assert_eq!(read_file(profile, &written), last, "{count}");
                written.pop();
                assert_eq!(read_file(profile, &written), last, "{count}");
            }
        }
    }

    #[test]
    fn a_file_reads_back_and_a_run_has_its_length() {
        let lines = [line(1, 0x3A, 0x85), line(2, 0x39, 0xFF)];
        let written = file(Profile::A, &lines).unwrap();
        assert_eq!(read_file(Profile::A, &written), Ok(lines.to_vec()));
        let run = run(Profile::A, &lines).unwrap();
        assert_eq!(run.len(), 255 + 12);
        assert_eq!(run[..255], [0x00; 255]);
        assert_eq!(run[255..261], [0x21, 1, 0x3A, 1, 0x85, 0x0D]);
        assert_eq!(run[261..], [0x21, 2, 0x39, 1, 0xFF, 0x0D]);
    }

    #[test]
    fn a_run_has_its_length_and_an_empty_sheet_has_no_bytes() {
        for (profile, most) in [(Profile::A, 15), (Profile::S, 8)] {
            assert_eq!(run(profile, &[]), Ok(vec![]));
            assert_eq!(read_file(profile, &[]), Ok(vec![]));
            for count in 0..=most {
                let run = run(profile, &repeated(profile, count)).unwrap();
                assert_eq!(run.len(), run_length(count));
            }
        }
        assert_eq!([0, 1, 2, 15].map(run_length), [0, 261, 267, 345]);
    }

    #[test]
    fn a_full_sheet_reads_back_and_its_run_has_a_frame_for_each_line() {
        for (profile, bytes) in [(Profile::A, 90), (Profile::S, 48)] {
            let lines = full(profile);
            let written = file(profile, &lines).unwrap();
            assert_eq!(written.len(), bytes);
            assert_eq!(read_file(profile, &written), Ok(lines.clone()));
            let run = run(profile, &lines).unwrap();
            assert_eq!(run.len(), 255 + bytes);
            assert!(run.len() <= LONGEST_RUN);
            assert!(run[..255].iter().all(|&byte| byte == 0x00));
            for (frame, line) in run[255..].chunks(6).zip(&lines) {
                let expected = [0x21, line.zone, line.command, 1, line.value, 0x0D];
                assert_eq!(frame, expected);
            }
        }
        assert_eq!(LONGEST_RUN, 255 + 144);
    }
}
