//! Cases of sheets, and of histories that sign them off or do not.

use super::Cases;
use crate::frame::Direction;
use crate::rows::{Profile, Row, MINUS_ZERO, ROWS};
use crate::samples::{self, PROFILES};
use crate::sheet::{self, Line, LINE_LIMIT, LISTED, RECORD};

/// The least count that one byte cannot hold.
const OVER_A_BYTE: usize = 256;

impl Cases {
    /// A sheet's lines: accepted, or at fault.
    fn lines(&mut self, profile: Profile) -> Vec<Line> {
        let size = self.random.between(0, samples::most_lines(profile));
        let mut lines = samples::sheet(&mut self.random, profile, size);
        match self.random.below(19) {
            0 => {
                let size = match self.random.percent(70) {
                    true => self.size_within(profile),
                    false => self.size_over(profile),
                };
                lines = self.long_lines(profile, size);
            }
            1..=5 if !lines.is_empty() => {
                let place = self.random.below(lines.len());
                self.change(&mut lines[place]);
            }
            6 | 7 if !lines.is_empty() => {
                // A zone and row again, with the same value or another.
                let again = *self.random.pick(&lines);
                let place = self.random.between(0, lines.len());
                lines.insert(place, again);
                if self.random.percent(30) {
                    let place = self.random.below(lines.len());
                    lines[place].value = 0x80;
                }
            }
            8 | 9 if !lines.is_empty() => {
                // A sheet refuses 80, also where it reads as zero.
                let row = *self.random.pick(&samples::minus_zero_rows(profile));
                let place = self.random.below(lines.len());
                lines[place].command = row.command;
                let values = [MINUS_ZERO, MINUS_ZERO, MINUS_ZERO, 0xA8, 0xA9];
                lines[place].value = *self.random.pick(&values);
            }
            _ => {}
        }
        lines
    }

    /// Another zone, command or value, mostly one that makes the line illegal.
    fn change(&mut self, line: &mut Line) {
        match self.random.below(5) {
            0 | 1 => line.zone = *self.random.pick(&[0, 3, 4, 255]),
            2 => {
                line.command = match self.random.below(2) {
                    0 => self.random.pick(&ROWS).command,
                    _ => self.random.byte(),
                }
            }
            _ => {
                let other = self.random.byte();
                line.value = *self.random.pick(&[
                    0x01, 0x02, 0x0B, 0x10, 0x64, 0x80, 0x8B, 0x90, 0xA8, 0xA9, 0xF0, 0xF1, 0xF2,
                    0xFF, other,
                ]);
            }
        }
    }

    /// Makes lines illegal.
    fn spoil(&mut self, profile: Profile, lines: &mut [Line]) {
        for line in lines {
            while sheet::legal(profile, *line) {
                self.change(line);
            }
        }
    }

    /// A size within the limit that is longer than a full sheet.
    fn size_within(&mut self, profile: Profile) -> usize {
        let first = match self.random.percent(15) {
            true => samples::most_lines(profile) + 1,
            false => *samples::long_sizes().start(),
        };
        let any = self.random.between(first, LINE_LIMIT);
        *self.random.pick(&[any, any, LINE_LIMIT])
    }

    /// A size over the limit.
    fn size_over(&mut self, profile: Profile) -> usize {
        match self.random.below(7) {
            0..=2 => LINE_LIMIT + 1,
            3 | 4 => self.random.between(LINE_LIMIT + 2, 2 * LINE_LIMIT),
            // In one byte the count would be none, or a full sheet's.
            5 => OVER_A_BYTE,
            _ => OVER_A_BYTE + samples::most_lines(profile),
        }
    }

    /// More lines than a full sheet has; the lowest fault is at any place up to the line behind it.
    fn long_lines(&mut self, profile: Profile, size: usize) -> Vec<Line> {
        let full = samples::most_lines(profile);
        // Legal lines, the first of them a full sheet: the line behind it is 8.
        let mut lines = samples::sheet(&mut self.random, profile, size);
        let any = self.random.below(size);
        match self.random.below(15) {
            // A zone and row again up to there, with the same value or another.
            0..=2 => {
                let place = self.place(1, full);
                lines[place] = lines[self.place(0, place - 1)];
                if self.random.percent(50) {
                    lines[place].value = self.value(profile, lines[place]);
                }
            }
            // An illegal line up to there, where it is 7.
            3..=5 => {
                let place = self.place(0, full);
                self.spoil(profile, &mut lines[place..=place]);
            }
            // Repeats anywhere, and an illegal line.
            6 => {
                self.random.shuffle(&mut lines);
                self.spoil(profile, &mut lines[any..=any]);
            }
            // Illegal lines alone: from some line on, behind a full sheet, or all.
            7 => self.spoil(profile, &mut lines[any..]),
            8 => self.spoil(profile, &mut lines[full..]),
            9 => self.spoil(profile, &mut lines),
            // One line again and again.
            10 => lines = vec![lines[0]; size],
            _ => {}
        }
        lines
    }

    /// A place from first to last, the ends more often.
    fn place(&mut self, first: usize, last: usize) -> usize {
        let any = self.random.between(first, last);
        *self.random.pick(&[first, any, any, last])
    }

    /// Any legal value of a legal line's row.
    fn value(&mut self, profile: Profile, line: Line) -> u8 {
        let values: Vec<u8> = samples::rows_of(profile)
            .iter()
            .filter(|row| row.command == line.command)
            .flat_map(|row| samples::sheet_values(row))
            .collect();
        *self.random.pick(&values)
    }

    /// A sheet file of lines, now and then not whole or with a wrong mark or profile.
    fn file(&mut self, profile: Profile, lines: &[Line]) -> Vec<u8> {
        let mut file = sheet::records(profile, lines);
        if file.is_empty() {
            if self.random.percent(15) {
                let count = self.random.between(1, 7);
                return self.random.bytes(count);
            }
            return file;
        }
        let record = RECORD * self.random.below(lines.len());
        match self.random.below(24) {
            0 => {
                let place = record + self.random.below(3);
                let other = self.random.byte();
                file[place] = *self.random.pick(&[0x00, 0x41, 0x4C, 0x53, other]);
            }
            1 => file[record + 2] = *self.random.pick(&[0x41, 0x53, 0x61, 0x00]),
            2 => file.truncate(self.random.below(file.len())),
            3 => {
                let count = self.random.between(1, 5);
                let more = self.random.bytes(count);
                file.extend(more);
            }
            4 => {
                file.remove(self.random.below(file.len()));
                if self.random.percent(50) {
                    file.push(0x00);
                }
            }
            _ => {}
        }
        file
    }

    /// A profile to be told, now and then the other one.
    fn told(&mut self, profile: Profile) -> [u8; 1] {
        match self.random.percent(4) {
            true => [PROFILES
                .iter()
                .find(|&&other| other != profile)
                .map_or(0, |p| p.letter())],
            false => self.letter(profile.letter()),
        }
    }

    /// Checks a sheet file, and writes its copy and its run.
    fn sheet_file(&mut self, p: &[u8], file: &[u8]) {
        self.add("check", &[p, file]);
        let (length, place) = self.buffer(file.len());
        self.add("copy", &[p, &length, &place, file]);
        let (length, place) = self.buffer(sheet::run_length(file.len() / RECORD));
        self.add("run", &[p, &length, &place, file]);
    }

    /// A list of lines, now and then with bytes left over.
    fn list(&mut self, lines: &[Line]) -> Vec<u8> {
        let mut list = sheet::list(lines);
        if self.random.percent(8) {
            let count = self.random.between(1, LISTED - 1);
            list.extend(self.random.bytes(count));
        }
        list
    }

    /// Checks a list of lines, and writes its file and its run.
    fn sheet_list(&mut self, p: &[u8], lines: &[Line]) {
        let list = self.list(lines);
        self.add("doorlist", &[p, &list]);
        let (length, place) = self.buffer(RECORD * lines.len());
        self.add("doorfile", &[p, &length, &place, &list]);
        let (length, place) = self.buffer(sheet::run_length(lines.len()));
        self.add("doorrun", &[p, &length, &place, &list]);
    }

    /// Signs a sheet off, as a file and as a list of lines.
    fn sign(&mut self, p: &[u8], file: &[u8], lines: &[Line], capture: &[u8]) {
        self.add("sign", &[p, file, capture]);
        let list = self.list(lines);
        self.add("doorsign", &[p, &list, capture]);
        self.add("dooroff", &[p, &list, capture]);
    }

    /// A cell, by itself and through the door.
    pub(super) fn cell(&mut self, p: &[u8], capture: &[u8], zone: u8, command: u8) {
        for word in ["cell", "doorcell"] {
            self.add(word, &[p, capture, &[zone], &[command]]);
        }
    }

    /// Empty sheets of both profiles, to all that sheets go to.
    pub(super) fn empty_sheet_case(&mut self) {
        for profile in PROFILES {
            let p = [profile.letter()];
            let length = *self.random.pick(&[0, 1, 2, 7, 254, 255, 256]);
            let inside = self.random.between(0, length as usize) as u64;
            let past = length + self.random.between(2, 300) as u64;
            let past = *self.random.pick(&[past, u64::MAX]);
            // Nothing is written, and only a place past the end is 9.
            for place in [inside, length, length + 1, past] {
                let (length, place) = (self.number(length), self.number(place));
                for word in ["copy", "run", "doorfile", "doorrun"] {
                    self.add(word, &[&p, &length, &place, &[]]);
                }
            }
            let p = self.told(profile);
            self.sheet_file(&p, &[]);
            self.sheet_list(&p, &[]);
            let length = self.random.between(0, 40);
            let capture = samples::capture(&mut self.random, profile, Direction::Answer, length);
            self.sign(&p, &[], &[], &capture);
        }
    }

    /// Full sheets and longer ones of both profiles, within the limit and over it.
    pub(super) fn long_sheet_case(&mut self) {
        for profile in PROFILES {
            let full = samples::most_lines(profile);
            let lines = samples::sheet(&mut self.random, profile, full);
            self.long_sheet(profile, &lines);
            for _ in 0..2 {
                let size = self.size_within(profile);
                let lines = self.long_lines(profile, size);
                self.long_sheet(profile, &lines);
            }
            let size = self.size_over(profile);
            let mut over = self.long_lines(profile, size);
            self.long_sheet(profile, &over);
            // 6 comes first, also where all lines are bad.
            self.spoil(profile, &mut over);
            self.long_sheet(profile, &over);
        }
    }

    /// A full sheet or a longer one, to all that sheets go to.
    fn long_sheet(&mut self, profile: Profile, lines: &[Line]) {
        let mut file = self.file(profile, lines);
        if lines.len() > LINE_LIMIT && self.random.percent(20) {
            // 10 comes before 6, also in the last record.
            file = sheet::records(profile, lines);
            let place = file.len() - RECORD + self.random.below(3);
            file[place] ^= 0x01;
        }
        let p = self.told(profile);
        self.sheet_file(&p, &file);
        self.sheet_list(&p, lines);
        // Answers to its legal lines, with one thing more or less.
        let mut answered = lines.to_vec();
        answered.retain(|&line| sheet::legal(profile, line));
        let mut capture = Vec::new();
        self.answers(profile, &answered, &mut capture);
        self.sign(&p, &file, lines, &capture);
    }

    pub(super) fn sheet_case(&mut self) {
        let profile = self.profile();
        let lines = self.lines(profile);
        let file = self.file(profile, &lines);
        let p = self.told(profile);
        self.sheet_file(&p, &file);
        self.sheet_list(&p, &lines);
        for line in lines.iter().take(3) {
            let p = self.told(profile);
            self.add("legal", &[&p, &[line.zone], &[line.command], &[line.value]]);
        }
    }

    /// Sheets of one line at each end of a row, and signed off by an answer of minus zero.
    pub(super) fn signed_sheets(&mut self, row: &Row, ends: &[u8]) {
        let zone = samples::zone(&mut self.random, row);
        let (profile, command) = (row.profile, row.command);
        let answer = samples::answer(zone, command, MINUS_ZERO);
        for &value in ends {
            let line = Line::of(zone, command, value);
            let file = sheet::records(profile, &[line]);
            let p = self.letter(profile.letter());
            self.add("legal", &[&p, &[zone], &[command], &[value]]);
            self.add("check", &[&p, &file]);
            self.add("doorlist", &[&p, &sheet::list(&[line])]);
            self.sign(&p, &file, &[line], &answer);
        }
        let p = self.letter(profile.letter());
        self.cell(&p, &answer, zone, command);
    }

    pub(super) fn history_case(&mut self) {
        let profile = self.profile();
        let size = self.random.between(0, samples::most_lines(profile));
        let mut lines = samples::sheet(&mut self.random, profile, size);
        let mut capture = Vec::new();
        // What the unit said before, often minus zero.
        for _ in 0..self.random.below(6) {
            capture.extend(samples::valid(&mut self.random, profile, Direction::Answer));
        }
        if self.random.percent(30) {
            let row = *self.random.pick(&samples::minus_zero_rows(profile));
            let zone = samples::zone(&mut self.random, row);
            capture.extend(samples::answer(zone, row.command, MINUS_ZERO));
        }
        if self.random.percent(20) {
            let length = self.random.between(1, 60);
            let noise = samples::capture(&mut self.random, profile, Direction::Answer, length);
            capture.extend(noise);
            // Brings the reader outside, whatever was cut.
            capture.extend(vec![0x00; 256]);
        }
        self.answers(profile, &lines, &mut capture);
        if self.random.percent(12) {
            samples::damage(&mut self.random, &mut capture);
        }
        let mut file = sheet::records(profile, &lines);
        if self.random.percent(12) {
            lines = self.lines(profile);
            file = self.file(profile, &lines);
        }
        let p = self.told(profile);
        self.sign(&p, &file, &lines, &capture);
        for zone in 1..=profile.zones() {
            for row in samples::rows_of(profile) {
                let p = self.letter(profile.letter());
                self.cell(&p, &capture, zone, row.command);
            }
        }
        for _ in 0..4 {
            let command = self.random.pick(&ROWS).command;
            let (other_zone, other) = (self.random.byte(), self.random.byte());
            let zone = *self.random.pick(&[0, 1, 2, 3, 4, 255, other_zone]);
            let command = *self.random.pick(&[command, command, 0x99, other]);
            self.cell(&[profile.letter()], &capture, zone, command);
        }
    }

    /// An answer for each line, and one thing more or less.
    fn answers(&mut self, profile: Profile, lines: &[Line], capture: &mut Vec<u8>) {
        let mut order = lines.to_vec();
        self.random.shuffle(&mut order);
        // Half of the units answer 80 for 00.
        let minus = self.random.percent(50);
        let good = |line: &Line| answer_to(profile, line, minus);
        let Some(chosen) = order.first().copied() else {
            return;
        };
        // Another legal value for the chosen line's cell, if it has one.
        let value = self.value(profile, chosen);
        let stale = samples::answer(chosen.zone, chosen.command, value);
        let code = self.random.between(0x82, 0x86) as u8;
        let denied = samples::denied(chosen.zone, chosen.command, code);
        // Read as zero or refused, by the chosen line's row.
        let zero = samples::answer(chosen.zone, chosen.command, MINUS_ZERO);
        let refused = match self.random.below(3) {
            0 => samples::answer(chosen.zone, chosen.command, 0x7F),
            1 => samples::answer(0, chosen.command, chosen.value),
            _ => samples::denied(chosen.zone, chosen.command, 0x81),
        };
        let all: Vec<u8> = order.iter().flat_map(good).collect();
        let without: Vec<u8> = order[1..].iter().flat_map(good).collect();
        let parts = match self.random.below(11) {
            0 => vec![all, stale],
            1 => vec![stale, all],
            2 => vec![without],
            3 => vec![all, denied],
            4 => vec![without, denied],
            5 => vec![all, refused],
            6 => vec![without, refused],
            7 => vec![all.clone(), stale, all],
            8 => vec![all, zero],
            9 => vec![without, zero],
            _ => vec![all],
        };
        for part in parts {
            capture.extend(part);
        }
    }
}

/// A status answer with a line's value; with `minus` 80 for 00 where the row reads it so.
fn answer_to(profile: Profile, line: &Line, minus: bool) -> Vec<u8> {
    let rows = samples::minus_zero_rows(profile);
    let reads = rows.iter().any(|row| row.command == line.command);
    let value = match minus && reads && line.value == 0x00 {
        true => MINUS_ZERO,
        false => line.value,
    };
    samples::answer(line.zone, line.command, value)
}
