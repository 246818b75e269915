//! The generated cases: each is one or more operations.

mod captures;
mod messages;
mod sheets;

use crate::frame::Direction;
use crate::random::Random;
use crate::rows::{Profile, ROWS};
use crate::samples::{self, DIRECTIONS, PROFILES};
use crate::text;

/// Longer lines are given no odd form.
const ODD_LIMIT: usize = 3_000;

/// One case of so many has a capture at the limit.
const LIMIT_EVERY: usize = 400;

pub struct Cases {
    random: Random,
    lines: Vec<String>,
}

impl Cases {
    pub fn new(seed: u64) -> Cases {
        Cases {
            random: Random::new(seed),
            lines: Vec::new(),
        }
    }

    /// The lines of the next case.
    pub fn next(&mut self, index: usize) -> Vec<String> {
        if index % LIMIT_EVERY == LIMIT_EVERY / 4 {
            self.limit_case(index / LIMIT_EVERY);
        } else {
            match self.random.below(103) {
                0..=23 => self.capture_case(),
                24..=47 => self.message_case(),
                48..=52 => self.signed_case(),
                53..=56 => self.step_case(),
                57..=68 => self.sheet_case(),
                69 | 70 => self.empty_sheet_case(),
                71..=75 => self.long_sheet_case(),
                76..=87 => self.history_case(),
                88..=97 => self.small_case(),
                _ => self.odd_case(),
            }
        }
        std::mem::take(&mut self.lines)
    }

    /// Adds a line; its digits are small now and then.
    fn add(&mut self, word: &str, arguments: &[&[u8]]) {
        let mut line = String::new();
        for argument in arguments {
            line.push(' ');
            line.push_str(&text::hex(argument));
        }
        if self.random.percent(8) {
            line.make_ascii_lowercase();
        }
        self.lines.push(format!("{word}{line}"));
    }

    /// A letter, now and then one that names nothing.
    fn letter(&mut self, letter: u8) -> [u8; 1] {
        if self.random.percent(3) {
            let other = self.random.byte();
            return [*self
                .random
                .pick(&[0x00, 0x20, 0x42, 0x61, 0x73, 0x63, 0x72, 0xFF, other])];
        }
        [letter]
    }

    fn profile(&mut self) -> Profile {
        *self.random.pick(&PROFILES)
    }

    fn direction(&mut self) -> Direction {
        *self.random.pick(&DIRECTIONS)
    }

    /// A number's bytes, with more zeros before it now and then.
    fn number(&mut self, number: u64) -> Vec<u8> {
        let all = number.to_be_bytes();
        let zeros = all.iter().take_while(|&&byte| byte == 0).count();
        if self.random.percent(25) {
            return all[self.random.between(0, zeros)..].to_vec();
        }
        all[zeros..].to_vec()
    }

    /// A buffer's length and a place for a writing of so many bytes.
    fn buffer(&mut self, need: usize) -> (Vec<u8>, Vec<u8>) {
        let before = *self.random.pick(&[0, 0, 1, 2, 7, 30]);
        let fits = before + need;
        let (length, place) = match self.random.below(24) {
            0..=9 => (fits, before as u64),
            10..=13 => (fits + self.random.between(1, 20), before as u64),
            14 | 15 => (fits.saturating_sub(1), before as u64),
            16 => (fits, before as u64 + 1),
            17 => (fits, fits as u64),
            18 => (fits, fits as u64 + 1),
            19 => (fits, u64::MAX),
            20 => (fits, u64::MAX - self.random.below(300) as u64),
            // Place and need together would be one over the greatest number.
            21 => (fits, u64::MAX - (need as u64).saturating_sub(1)),
            // At the end of the longest buffer, which a greater length has too.
            22 if self.random.percent(25) => {
                let length = *self.random.pick(&[4_096, 4_096, 4_097, 65_536, usize::MAX]);
                let past = usize::from(self.random.percent(20));
                (length, (4_096 - need + past) as u64)
            }
            22 => (0, 0),
            _ => (fits + 1, before as u64 + 1),
        };
        (self.number(length as u64), self.number(place))
    }

    fn small_case(&mut self) {
        let code = self.random.byte();
        self.add("number", &[&[code]]);
        for word in ["code", "plain"] {
            let near = self.random.below(600) as i16 - 300;
            let far = self.random.next() as i16;
            let number = *self.random.pick(&[near, near, near, far]);
            self.add(word, &[&number.to_be_bytes()]);
        }
        let profile = self.profile();
        let p = self.letter(profile.letter());
        let command = match self.random.below(2) {
            0 => self.random.pick(&ROWS).command,
            _ => self.random.byte(),
        };
        self.add("row", &[&p, &[command]]);
        let far = self.random.next() as u16;
        let number = *self
            .random
            .pick(&[0, 9, 10, 99, 100, 999, 1000, 9999, 10000, 60000, 65535, far]);
        let (length, place) = self.buffer(number.to_string().len());
        self.add("decimal", &[&length, &place, &number.to_be_bytes()]);
        let (length, place) = self.buffer(2);
        self.add("hex", &[&length, &place, &[code]]);
        let direction = self.direction();
        let count = self.random.between(0, 200);
        let capture = samples::capture(&mut self.random, profile, direction, count);
        let input = self.listing_input(profile, direction, &capture);
        let any = self.random.between(0, 300) as u64;
        let length = *self
            .random
            .pick(&[0, 1, 63, 64, 64, 65, 128, 4_096, any, any]);
        let length = self.number(length);
        self.add("pieces", &[&length, &input]);
        if self.random.percent(10) {
            let fields = self.fields();
            let p = self.letter(fields.profile.letter());
            let (zone, command) = ([fields.zone], [fields.command]);
            self.add("codes", &[&p, &zone, &command, &fields.data]);
        }
    }

    /// The lines of another case, each in an odd form.
    fn odd_case(&mut self) {
        match self.random.below(6) {
            0 => self.capture_case(),
            1 => self.message_case(),
            2 => self.signed_case(),
            3 => self.sheet_case(),
            4 => self.history_case(),
            _ => self.small_case(),
        }
        for line in std::mem::take(&mut self.lines) {
            if line.len() <= ODD_LIMIT {
                let line = self.odd(&line);
                self.lines.push(line);
            }
        }
    }

    /// A line in an odd form; only with another word it is no operation.
    fn odd(&mut self, line: &str) -> String {
        let mut words: Vec<String> = line.split(' ').map(str::to_string).collect();
        let place = self.random.between(1, words.len() - 1);
        let argument = &mut words[place];
        match self.random.below(10) {
            // Arguments that are missing, or all the line, and too many, also for `parts`.
            0 => words.truncate(place - usize::from(self.random.percent(20))),
            1 => {
                for _ in 0..*self.random.pick(&[1, 2, 13]) {
                    words.push(self.random.pick(&["41", "-", "", "210"]).to_string());
                }
            }
            // One of no bytes, with two spaces or a `-`.
            2 => words.insert(place, String::new()),
            3 => *argument = self.random.pick(&["", "-"]).to_string(),
            // Characters that are next to the digits, and more digits or one less.
            4 => {
                let strays = ['-', '/', ':', '@', 'G', '`', 'g', '~', '#'];
                let at = self.random.between(0, argument.len());
                argument.insert(at, *self.random.pick(&strays));
            }
            5 => argument.push(*self.random.pick(&['0', '7', 'A', 'f'])),
            6 => drop(argument.pop()),
            // Bytes before those that count.
            7 => {
                let count = self.random.between(1, 9);
                let more = self.random.bytes(count);
                argument.insert_str(0, &text::hex(&more));
            }
            8 => argument.make_ascii_lowercase(),
            _ => {
                let word = &mut words[0];
                match self.random.below(4) {
                    0 => word.make_ascii_uppercase(),
                    1 => word.push(*self.random.pick(&['s', 'x', '-', '0'])),
                    2 => drop(word.pop()),
                    _ => words.insert(0, String::new()),
                }
            }
        }
        words.join(" ")
    }
}

#[cfg(test)]
mod tests {
    use super::*;
    use crate::operations;
    use crate::tally::{Kind, Tally};

    #[test]
    fn odd_lines_come_in_every_form() {
        let mut cases = Cases::new(7);
        let mut lines = Vec::new();
        for _ in 0..1_500 {
            cases.odd_case();
            lines.append(&mut cases.lines);
        }
        let split: Vec<Vec<&str>> = lines.iter().map(|line| line.split(' ').collect()).collect();
        // The arguments of each line with that word.
        let of = |word: &'static str| {
            let mine = split.iter().filter(move |words| words[0] == word);
            mine.map(|words| &words[1..])
        };
        for (word, count) in [("parts", 12), ("write", 11), ("sign", 3), ("doorsign", 3)] {
            assert!(of(word).any(|arguments| arguments.is_empty()), "{word}");
            assert!(of(word).any(|arguments| arguments.len() == 1), "{word}");
            assert!(
                of(word).any(|arguments| arguments.len() > count + 1),
                "{word}"
            );
        }
        for word in [
            "feed", "read", "check", "doorlist", "doorfile", "dooroff", "doorcell", "doorfeed",
        ] {
            let comes = |is_it: fn(&str) -> bool| {
                assert!(
                    of(word).any(|arguments| arguments.iter().any(|it| is_it(it))),
                    "{word}"
                );
            };
            comes(|argument| argument.is_empty());
            comes(|argument| argument.len() > 1 && argument.contains('-'));
            comes(|argument| argument.contains(['/', ':', '@', 'G', '`', 'g']));
            comes(|argument| argument.len() > 1 && argument.len() % 2 == 1);
            comes(|argument| argument.contains(['a', 'b', 'c', 'd', 'e', 'f']));
        }
        // Bytes before those that count: of a number, a NUMBER and a single byte.
        for (word, place, digits) in [
            ("event", 1, 16),
            ("write", 8, 4),
            ("code", 0, 4),
            ("doorfeed", 0, 2),
        ] {
            let mut arguments = of(word).filter_map(|arguments| arguments.get(place));
            assert!(
                arguments.any(|argument| argument.len() > digits + 1),
                "{word}"
            );
        }
        assert!(of("").any(|arguments| !arguments.is_empty()));
        assert!(of("FRAME").any(|arguments| !arguments.is_empty()));
    }

    #[test]
    fn a_case_of_empty_sheets_brings_both_kinds_of_runs() {
        for seed in 0..200 {
            let mut cases = Cases::new(seed);
            cases.empty_sheet_case();
            let mut tally = Tally::default();
            for line in &cases.lines {
                operations::run(line.as_bytes(), &mut String::new(), &mut tally);
            }
            // A place inside and one at the end, and two past it, of each family.
            assert!(tally.of(Kind::EmptyRun) >= 4, "{seed}");
            assert!(tally.of(Kind::EmptyRunPastEnd) >= 4, "{seed}");
        }
    }
}
