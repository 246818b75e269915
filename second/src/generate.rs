//! Writes generated operations, and tells how often each kind occurred in them.

use std::io::{self, Write};

use crate::cases::Cases;
use crate::operations::{self, WORDS};
use crate::tally::{Kind, Tally, NO_OPERATION};

/// From this many cases on every kind must occur.
pub const ENOUGH: usize = 2_000;

/// Words of whole small spaces, which `exhaustive` writes.
const NOT_GENERATED: [&str; 2] = ["all", "pairs"];

/// Writes the cases, runs each line, and gives the tally as text and the kinds that never occurred.
pub fn generate(seed: u64, count: usize, mut ops: impl Write) -> io::Result<(String, Vec<Kind>)> {
    let mut cases = Cases::new(seed);
    let mut tally = Tally::default();
    let mut printed = String::new();
    let mut lines = 0;
    for index in 0..count {
        for line in cases.next(index) {
            writeln!(ops, "{line}")?;
            printed.clear();
            operations::run(line.as_bytes(), &mut printed, &mut tally);
            lines += 1;
        }
    }
    ops.flush()?;

    let mut words: Vec<&'static str> = WORDS.to_vec();
    words.retain(|word| !NOT_GENERATED.contains(word));
    words.push(NO_OPERATION);
    let mut text = format!("seed {seed}\ncases {count}\nlines {lines}\n");
    let mut missing = Vec::new();
    for kind in Kind::all(&words) {
        let occurred = tally.of(kind);
        text.push_str(&format!("{kind}: {occurred}\n"));
        if occurred == 0 {
            missing.push(kind);
        }
    }
    Ok((text, missing))
}

#[cfg(test)]
mod tests {
    use super::*;
    use crate::operations::{BUFFER_LIMIT, LINE_LIMIT};
    use crate::rows::Profile;
    use crate::sheet::{self, Line, RECORD};
    use crate::text;
    use std::collections::BTreeSet;
    use std::ops::RangeInclusive;

    #[test]
    fn the_same_seed_gives_the_same_operations() {
        let make = |seed| {
            let mut ops = Vec::new();
            generate(seed, 60, &mut ops).unwrap();
            ops
        };
        assert_eq!(make(7), make(7));
        assert_ne!(make(7), make(8));
    }

    #[test]
    fn enough_cases_bring_every_kind() {
        let (_, missing) = generate(7, ENOUGH, io::sink()).unwrap();
        assert!(missing.is_empty());
    }

    fn enough_lines() -> Vec<String> {
        let mut cases = Cases::new(7);
        (0..ENOUGH).flat_map(|index| cases.next(index)).collect()
    }

    fn print(line: &str) -> String {
        let mut printed = String::new();
        operations::run(line.as_bytes(), &mut printed, &mut Tally::default());
        printed
    }

    #[test]
    fn steps_that_a_row_lacks_are_read_sent_and_written() {
        let lines = enough_lines();
        for word in ["read", "frame", "send", "write"] {
            for profile in ["41", "53"] {
                let start = format!("{word} {profile} ");
                let mut started = lines.iter().filter(|line| line.starts_with(&start));
                assert!(
                    started.any(|line| print(line).starts_with("refused 13")),
                    "{start}"
                );
            }
        }
    }

    #[test]
    fn minus_zero_comes_to_every_operation() {
        let lines = enough_lines();
        // A line of that start and end, with that in it, that prints that.
        let comes = |start: &str, within: &str, end: &str, prints: &str| {
            let mut found = lines
                .iter()
                .filter(|line| line.starts_with(start) && line.contains(within))
                .filter(|line| line.ends_with(end));
            assert!(
                found.any(|line| print(line).contains(prints)),
                "{start}..{within}..{end}: {prints}"
            );
        };
        for (p, command) in [("41", "3A"), ("41", "45"), ("41", "46"), ("53", "3B")] {
            let ended = format!(" {command} 00 80");
            let answer = format!("{command}0001800D");
            comes(&format!("read {p} 52 "), "", &ended, "number 0");
            comes(&format!("frame {p} 52 "), "", &answer, "number 0");
            comes(&format!("send {p} 52 "), "", &ended, "0001000D");
            comes("raw 52 ", "", &ended, "0001800D");
            let said = format!(" {command} 00 07 0000 00 80");
            comes(&format!("write {p} "), " 53 0", &said, "0001000D");
            comes(&format!("write {p} "), " 44 0", " 80", "01800D");
            let listed = format!(" {command} 00 0\n");
            comes(&format!("listing {p}52"), &answer, "", &listed);
            let cell = format!(" {command}");
            comes(&format!("cell {p} "), &answer, &cell, "value 00");
            comes(&format!("doorcell {p} "), &answer, &cell, "value 00");
            comes(&format!("doorfeed {p} "), "", &ended, "number 0 ; value 00");
            let legal = format!(" {command} 80");
            comes(&format!("legal {p} "), "", &legal, "not legal");
            let record = format!("{command}80");
            comes(&format!("check {p} 534C"), &record, "", "refused 7 at 0");
            comes(&format!("doorlist {p} "), &record, "", "refused 7 at 0");
            let frame = format!("{command}01800D");
            let (read, sent, listed) = match p {
                "41" => ("number 0", "01000D", format!(" {command} - 0\n")),
                _ => ("refused 4", "refused 4", " unread - - - 4\n".to_string()),
            };
            comes(&format!("read {p} 43 "), "", &ended, read);
            comes(&format!("frame {p} 43 "), "", &frame, read);
            comes(&format!("send {p} 43 "), "", &ended, sent);
            comes(&format!("listing {p}43"), &frame, "", &listed);
        }
        for command in ["3A", "45", "46"] {
            // A sheet's 00, where nothing but 80 was answered.
            let line_and_answer = format!("{command}00 2101{command}0001800D");
            for start in ["sign 41 534C4101", "doorsign 41 01", "dooroff 41 01"] {
                let signed = lines.iter().any(|line| {
                    line.starts_with(start)
                        && line.ends_with(&line_and_answer)
                        && print(line) == "signed\n"
                });
                assert!(signed, "{start} {command}");
            }
        }
    }

    #[test]
    fn long_sheets_come_to_every_operation_on_sheets() {
        let lines = enough_lines();
        for (p, profile, full) in [("41", Profile::A, 15), ("53", Profile::S, 8)] {
            for (word, accepted) in [
                ("check", format!("accepted {full} ")),
                ("copy", format!("bytes {} ", 6 * full)),
                ("run", format!("bytes {} ", 255 + 6 * full)),
                ("sign", "signed".to_string()),
                ("doorlist", "accepted".to_string()),
                ("doorfile", format!("bytes {} ", 6 * full)),
                ("doorrun", format!("bytes {} ", 255 + 6 * full)),
                ("doorsign", "signed".to_string()),
                ("dooroff", "signed".to_string()),
            ] {
                // The lines of each sheet, and what the operation printed.
                let sheets: Vec<(Vec<Line>, String)> = lines
                    .iter()
                    .filter(|line| line.starts_with(&format!("{word} {p} ")))
                    .filter_map(|line| Some((lines_of(line)?, print(line))))
                    .collect();
                let of_size = |sizes: RangeInclusive<usize>| {
                    let mine = sheets.iter();
                    mine.filter(move |(lines, _)| sizes.contains(&lines.len()))
                };
                let mut fulls = of_size(full..=full);
                assert!(
                    fulls.any(|(_, printed)| printed.starts_with(&accepted)),
                    "{word} {p}"
                );
                // Each number at its lowest place, behind a full sheet and at many between.
                for (number, first) in [(7, 0), (8, 1)] {
                    let places: BTreeSet<usize> = of_size(16..=24)
                        .filter_map(|(_, printed)| place(printed, number))
                        .collect();
                    assert!(places.contains(&first), "{word} {p} {number}: {places:?}");
                    assert!(places.contains(&full), "{word} {p} {number}: {places:?}");
                    assert!(places.len() >= full / 2, "{word} {p} {number}: {places:?}");
                    let mut at_limit = of_size(24..=24);
                    assert!(at_limit.any(|(_, printed)| place(printed, number).is_some()));
                }
                let is_bad = |line: &Line| !sheet::legal(profile, *line);
                for (sizes, bad) in [
                    (25..=25, false),
                    (25..=25, true),
                    (26..=300, false),
                    (26..=300, true),
                    (256 + full..=256 + full, false),
                ] {
                    let mut over =
                        of_size(sizes.clone()).filter(|(lines, _)| lines.iter().all(is_bad) == bad);
                    assert!(
                        over.any(|(_, printed)| place(printed, 6) == Some(24)),
                        "{word} {p} {sizes:?} {bad}"
                    );
                }
                // 10 at a record past the limit comes before 6.
                let past = |printed: &str| place(printed, 10).is_some_and(|place| place >= 24);
                let in_a_file = !word.starts_with("door");
                assert_eq!(
                    of_size(25..=300).any(|(_, printed)| past(printed)),
                    in_a_file
                );
            }
        }
    }

    #[test]
    fn files_and_runs_come_to_the_ends_of_their_buffers() {
        let lines = enough_lines();
        let run_length = |count: usize| sheet::run_length(count);
        let file_length = |count: usize| RECORD * count;
        let of_file = |profile, file: &[u8]| sheet::read_file(profile, file).ok();
        let of_list = |profile, list: &[u8]| {
            let lines = sheet::lines_of(list);
            sheet::check(profile, &lines).ok().map(|()| lines)
        };
        type Length = fn(usize) -> usize;
        type Accepted = fn(Profile, &[u8]) -> Option<Vec<Line>>;
        let writings: [(&str, Length, Accepted); 4] = [
            ("copy", file_length, of_file),
            ("run", run_length, of_file),
            ("doorfile", file_length, of_list),
            ("doorrun", run_length, of_list),
        ];
        let families = [("41", Profile::A), ("53", Profile::S)];
        let all = writings
            .into_iter()
            .flat_map(|writing| families.map(|family| (writing, family)));
        for ((word, length, accepted), (p, profile)) in all {
            // Of accepted sheets: the bytes needed, the room for them, and what was printed.
            let runs: Vec<(i128, i128, String)> = lines
                .iter()
                .filter_map(|line| {
                    let (room, sheet) = room(line.strip_prefix(&format!("{word} {p} "))?)?;
                    let count = accepted(profile, &sheet)?.len();
                    Some((length(count) as i128, room, print(line)))
                })
                .collect();
            let comes = |empty: bool, is_so: fn(i128, i128) -> bool, prints: fn(i128) -> String| {
                let mut found = runs
                    .iter()
                    .filter(|(need, room, _)| (*need == 0) == empty && is_so(*need, *room));
                found.any(|(need, _, printed)| printed.starts_with(&prints(*need)))
            };
            let written = |need| format!("bytes {need} : ");
            let refused = |_| "refused 9 at 0 : ".to_string();
            for empty in [false, true] {
                assert!(comes(empty, |need, room| room == need, written), "{word}");
                assert!(comes(empty, |need, room| room > need, written), "{word}");
                // One past the end, and as far past it as a number goes.
                assert!(comes(empty, |_, room| room == -1, refused), "{word}");
                assert!(comes(empty, |_, room| room < -(1 << 63), refused), "{word}");
            }
            // One too few, and a place at the end.
            assert!(
                comes(false, |need, room| room == need - 1, refused),
                "{word}"
            );
            assert!(comes(false, |_, room| room == 0, refused), "{word}");
        }
    }

    /// The room from a place on, less than none past the end, and the sheet that is written.
    fn room(arguments: &str) -> Option<(i128, Vec<u8>)> {
        let arguments: Vec<Vec<u8>> = arguments
            .split(' ')
            .map(|argument| text::bytes(argument.as_bytes()))
            .collect();
        let [length, place, sheet] = arguments.try_into().ok()?;
        let length = text::number(&length).min(BUFFER_LIMIT);
        Some((i128::from(length) - i128::from(text::number(&place)), sheet))
    }

    /// The lines of an operation's sheet, whatever the marks of its file are.
    fn lines_of(operation: &str) -> Option<Vec<Line>> {
        let arguments: Vec<&str> = operation.split(' ').collect();
        let file = match *arguments {
            ["check", _, file] | ["sign", _, file, _] => file,
            ["copy" | "run", _, _, _, file] => file,
            ["doorlist", _, list]
            | ["doorsign" | "dooroff", _, list, _]
            | ["doorfile" | "doorrun", _, _, _, list] => {
                return Some(sheet::lines_of(&text::bytes(list.as_bytes())));
            }
            _ => return None,
        };
        let line = |record: &[u8]| Line::of(record[3], record[4], record[5]);
        let file = text::bytes(file.as_bytes());
        Some(file.chunks_exact(RECORD).map(line).collect())
    }

    /// The place of a sheet's refusal with that number.
    fn place(printed: &str, number: u8) -> Option<usize> {
        let rest = printed.strip_prefix(&format!("refused {number} at "))?;
        rest.split_whitespace().next()?.parse().ok()
    }

    #[test]
    fn doors_bring_every_refusal_and_cell() {
        let lines = enough_lines();
        let comes = |word: &str, prints: &str| {
            let start = format!("{word} ");
            let mut found = lines.iter().filter(|line| line.starts_with(&start));
            assert!(
                found.any(|line| print(line).starts_with(prints)),
                "{word}: {prints}"
            );
        };
        for word in ["doorlist", "doorfile", "doorrun", "doorsign", "dooroff"] {
            for number in [6, 7, 8, 12] {
                comes(word, &format!("refused {number} at "));
            }
        }
        for word in ["doorsign", "dooroff"] {
            comes(word, "refused 11 at 0");
        }
        for prints in ["value ", "unknown", "no cell", "refused 11", "refused 12"] {
            comes("doorcell", prints);
        }
        for number in [1, 2, 3, 4, 5] {
            comes("doorfeed", &format!("refused {number} ; "));
        }
        comes("doorfeed", "refused 12\n");
        let ends = |prints: &str, end: &str| {
            let mut fed = lines.iter().filter(|line| line.starts_with("doorfeed "));
            let is_it = |printed: String| printed.starts_with(prints) && printed.ends_with(end);
            assert!(fed.any(|line| is_it(print(line))), "{prints}..{end}");
        };
        for cell in ["unknown\n", "no cell\n"] {
            ends("denied ", cell);
            ends("refused ", cell);
        }
        // S 0F is read and has no cell.
        ends("status 1 0F input ", "no cell\n");
    }

    #[test]
    fn lengths_kinds_and_forms_come_past_their_ends() {
        let lines = enough_lines();
        // The numbers at a place of an operation's arguments.
        let numbers = |word: &str, place: usize| -> BTreeSet<u64> {
            let mine = lines.iter().map(|line| line.split(' '));
            let mine = mine
                .filter_map(|mut words| (words.next() == Some(word)).then(|| words.nth(place))?);
            mine.map(|argument| text::number(&text::bytes(argument.as_bytes())))
                .collect()
        };
        for word in ["write", "copy", "run", "doorfile", "doorrun"] {
            let over = numbers(word, 1)
                .into_iter()
                .filter(|&length| length > BUFFER_LIMIT);
            assert!(over.count() >= 2, "{word}");
        }
        assert!(numbers("write", 3).is_superset(&[0x00, 0x41, 0x52, 0x63, 0xFF].into()));
        assert!(numbers("write", 7).is_superset(&[0x09, 0x7F, 0xFF].into()));
        for length in LINE_LIMIT - 1..=LINE_LIMIT + 2 {
            assert!(lines.iter().any(|line| line.len() == length), "{length}");
        }
    }

    #[test]
    fn the_sub_trim_comes_to_its_ends() {
        let lines = enough_lines();
        for (code, reads) in [
            ("8B", "number -11"),
            ("A8", "number -40"),
            ("A9", "refused 4"),
        ] {
            for start in ["read 41 43 ", "read 41 52 "] {
                let end = format!(" 45 00 {code}");
                let mut found = lines
                    .iter()
                    .filter(|line| line.starts_with(start) && line.ends_with(&end));
                assert!(
                    found.any(|line| print(line).contains(reads)),
                    "{start}{end}"
                );
            }
        }
        for (code, legal) in [("A8", "legal\n"), ("A9", "not legal\n")] {
            let end = format!(" 45 {code}");
            let mut found = lines
                .iter()
                .filter(|line| line.starts_with("legal 41 ") && line.ends_with(&end));
            assert!(found.any(|line| print(line) == legal), "{end}");
        }
        // Most between them in answers and on sheets.
        let with = |within: String| lines.iter().any(|line| line.contains(&within));
        let answered = (0x8B..=0xA8).filter(|code| with(format!("450001{code:02X}0D")));
        assert!(answered.count() >= 20);
        let on_sheets = (0x8B..=0xA8).filter(|code| with(format!("534C410145{code:02X}")));
        assert!(on_sheets.count() >= 15);
    }
}
