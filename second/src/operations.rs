//! The operations of the tests: a line each, and what is printed for it.

mod captures;
mod messages;
mod sheets;

use std::fmt::Write as _;
use std::io::{self, BufRead, Write};

use crate::frame::{self, Direction, Frame};
use crate::rows::{self, Profile};
use crate::sheet::{self, Fault, Line};
use crate::tally::{Kind, Tally, NO_OPERATION};
use crate::text;
use sheets::Sheet;

/// Every operation's word, in the document's order.
pub const WORDS: [&str; 37] = [
    "feed", "parts", "events", "event", "totals", "fields", "part", "last", "frame", "read",
    "write", "send", "raw", "number", "code", "plain", "row", "legal", "check", "copy", "run",
    "sign", "cell", "listing", "pieces", "all", "pairs", "codes", "decimal", "hex", "doorlist",
    "doorfile", "doorrun", "doorsign", "dooroff", "doorcell", "doorfeed",
];

/// How many characters of a line are taken, its line feed not counted.
pub const LINE_LIMIT: usize = 262_144;

/// The most bytes of a buffer.
pub const BUFFER_LIMIT: u64 = 4_096;

/// How many arguments of a line are taken.
pub const ARGUMENTS: usize = 13;

/// A refusal's number, and a sheet's place where one is printed.
struct Refusal {
    number: u8,
    at: Option<usize>,
}

impl From<u8> for Refusal {
    fn from(number: u8) -> Refusal {
        Refusal { number, at: None }
    }
}

impl From<Fault> for Refusal {
    fn from(fault: Fault) -> Refusal {
        Refusal {
            number: fault.number,
            at: Some(fault.at),
        }
    }
}

type Answer = Result<String, Refusal>;

/// What an operation prints: its answer, and the buffer where it writes.
struct Reply {
    answer: Answer,
    buffer: Option<Vec<u8>>,
}

impl From<Answer> for Reply {
    fn from(answer: Answer) -> Reply {
        Reply {
            answer,
            buffer: None,
        }
    }
}

/// Runs each line of the input.
pub fn run_all(mut input: impl BufRead, mut output: impl Write) -> io::Result<()> {
    let mut tally = Tally::default();
    let mut line = Vec::new();
    let mut printed = String::new();
    while input.read_until(b'\n', &mut line)? > 0 {
        if line.last() == Some(&b'\n') {
            line.pop();
        }
        printed.clear();
        if line.first() != Some(&b'#') {
            run(&line, &mut printed, &mut tally);
        }
        output.write_all(printed.as_bytes())?;
        line.clear();
    }
    output.flush()
}

/// Runs one line and adds what it prints, with its line feed.
pub fn run(line: &[u8], printed: &mut String, tally: &mut Tally) {
    let Some(reply) = reply(line, tally) else {
        tally.count(Kind::Word(NO_OPERATION));
        printed.push_str("?\n");
        return;
    };
    match reply.answer {
        Ok(text) => printed.push_str(&text),
        Err(Refusal { number, at }) => {
            tally.count(Kind::Refusal(number));
            // Writing into a string does not fail.
            let _ = write!(printed, "refused {number}");
            if let Some(at) = at {
                let _ = write!(printed, " at {at}");
            }
        }
    }
    if let Some(buffer) = reply.buffer {
        printed.push_str(" : ");
        printed.push_str(&text::hex(&buffer));
    }
    printed.push('\n');
}

/// The reply to a line; none where its word is unknown.
fn reply(line: &[u8], tally: &mut Tally) -> Option<Reply> {
    let line = &line[..line.len().min(LINE_LIMIT)];
    let mut parts = line.split(|&character| character == b' ');
    let word = parts.next()?;
    let word = WORDS.iter().find(|known| known.as_bytes() == word)?;
    let given: Vec<Vec<u8>> = parts.take(ARGUMENTS).map(text::bytes).collect();
    // One that is not there is no bytes.
    let arguments: [&[u8]; ARGUMENTS] =
        std::array::from_fn(|index| given.get(index).map_or(&[][..], Vec::as_slice));
    let reply = match (*word, arguments) {
        ("feed", [d, bytes, ..]) => captures::feed(one(d), bytes).into(),
        ("parts", [d, ..]) => captures::parts_of(one(d), given.get(1..).unwrap_or_default()).into(),
        ("events", [d, bytes, ..]) => captures::events(one(d), bytes, tally).into(),
        ("event", [d, place, bytes, ..]) => {
            captures::event(one(d), text::number(place), bytes, tally).into()
        }
        ("totals", [d, bytes, ..]) => captures::totals(one(d), bytes).into(),
        ("fields", [d, bytes, ..]) => captures::fields(one(d), bytes).into(),
        ("part", [place, count, bytes, ..]) => {
            let (place, count) = (text::number(place), text::number(count));
            Ok(captures::part(place, count, bytes)).into()
        }
        ("last", [count, bytes, ..]) => Ok(captures::last(text::number(count), bytes)).into(),
        ("frame", [p, d, bytes, ..]) => {
            messages::frame_message(one(p), one(d), bytes, tally).into()
        }
        ("read", [p, d, zone, command, ac, data, ..]) => {
            let frame = frame_of(one(zone), one(command), one(ac), data);
            messages::read(one(p), one(d), frame, tally).into()
        }
        ("write", [p, length, place, rest @ ..]) => {
            let message = messages::said(rest);
            messages::write(one(p), size(length), text::number(place), message)
        }
        ("send", [p, d, length, place, zone, command, ac, data, ..]) => {
            let frame = frame_of(one(zone), one(command), one(ac), data);
            messages::send(one(p), one(d), size(length), text::number(place), frame)
        }
        ("raw", [d, length, place, zone, command, ac, data, ..]) => {
            let frame = frame_of(one(zone), one(command), one(ac), data);
            messages::raw(one(d), size(length), text::number(place), frame)
        }
        ("number", [code, ..]) => Ok(rows::number_of(one(code)).to_string()).into(),
        ("code", [number, ..]) => Ok(messages::code(rows::signed_code(signed(number)))).into(),
        ("plain", [number, ..]) => Ok(messages::code(rows::plain_code(signed(number)))).into(),
        ("row", [p, command, ..]) => messages::row(one(p), one(command)).into(),
        ("legal", [p, zone, command, value, ..]) => {
            let line = Line::of(one(zone), one(command), one(value));
            sheets::legal(one(p), line).into()
        }
        ("check", [p, file, ..]) => sheets::check(one(p), file, tally).into(),
        ("copy", [p, length, place, file, ..]) => {
            let (place, file) = (text::number(place), Sheet::File(file));
            sheets::sheet_bytes(one(p), size(length), place, file, sheet::file, tally)
        }
        ("run", [p, length, place, file, ..]) => {
            sheets::run(one(p), size(length), text::number(place), file, tally)
        }
        ("sign", [p, file, capture, ..]) => {
            sheets::sign(one(p), Sheet::File(file), capture, tally).into()
        }
        ("cell" | "doorcell", [p, capture, zone, command, ..]) => {
            sheets::cell(one(p), capture, one(zone), one(command)).into()
        }
        ("listing", [input, ..]) => captures::list(input, None, tally).into(),
        ("pieces", [length, input, ..]) => captures::list(input, Some(size(length)), tally).into(),
        ("all", [p, d, ..]) => messages::all(one(p), one(d)).into(),
        ("pairs", [d, ..]) => messages::pairs(one(d)).into(),
        ("codes", [p, zone, command, data, ..]) => {
            messages::codes(one(p), one(zone), one(command), data).into()
        }
        ("decimal", [length, place, number, ..]) => {
            let decimal = (signed(number) as u16).to_string().into_bytes();
            written(size(length), text::number(place), || Ok(decimal))
        }
        ("hex", [length, place, code, ..]) => {
            let digits = text::hex(&[one(code)]).into_bytes();
            written(size(length), text::number(place), || Ok(digits))
        }
        ("doorlist", [p, lines, ..]) => sheets::check_list(one(p), lines, tally).into(),
        ("doorfile", [p, length, place, lines, ..]) => {
            let (place, list) = (text::number(place), Sheet::List(lines));
            sheets::sheet_bytes(one(p), size(length), place, list, sheet::file, tally)
        }
        ("doorrun", [p, length, place, lines, ..]) => {
            let (place, list) = (text::number(place), Sheet::List(lines));
            sheets::sheet_bytes(one(p), size(length), place, list, sheet::run, tally)
        }
        ("doorsign" | "dooroff", [p, lines, capture, ..]) => {
            sheets::sign(one(p), Sheet::List(lines), capture, tally).into()
        }
        ("doorfeed", [p, zone, command, ac, data, ..]) => {
            let answer = frame_of(one(zone), one(command), one(ac), data);
            sheets::feed(one(p), answer).into()
        }
        _ => return None,
    };
    tally.count(Kind::Word(word));
    tally.outcome(word, reply.answer.as_deref().unwrap_or("refused"));
    Some(reply)
}

/// A single byte: the last.
fn one(argument: &[u8]) -> u8 {
    text::number(argument) as u8
}

/// A buffer's length.
fn size(argument: &[u8]) -> usize {
    text::number(argument).min(BUFFER_LIMIT) as usize
}

/// The last two bytes, two's complement.
fn signed(argument: &[u8]) -> i16 {
    text::number(argument) as i16
}

fn profile_of(letter: u8) -> Result<Profile, u8> {
    Profile::from_letter(letter).ok_or(12)
}

fn direction_of(letter: u8) -> Result<Direction, u8> {
    Direction::from_letter(letter).ok_or(12)
}

fn frame_of(zone: u8, command: u8, answer_code: u8, data: &[u8]) -> Frame<'_> {
    Frame {
        zone,
        command,
        answer_code,
        data,
    }
}

/// Writes bytes that may be refused into a buffer of AA.
fn written(length: usize, place: u64, bytes: impl FnOnce() -> Result<Vec<u8>, Refusal>) -> Reply {
    let mut buffer = vec![0xAA; length];
    let answer = bytes()
        .and_then(|bytes| Ok(frame::put(&mut buffer, place, &bytes)?))
        .map(|count| format!("bytes {count}"));
    Reply {
        answer,
        buffer: Some(buffer),
    }
}

#[cfg(test)]
mod tests {
    use super::*;

    /// What a line prints, without its line feed.
    fn print(line: &str) -> String {
        let mut printed = String::new();
        run(line.as_bytes(), &mut printed, &mut Tally::default());
        assert_eq!(printed.pop(), Some('\n'));
        printed
    }

    #[test]
    fn the_examples_of_the_table() {
        let worked = "0021013A0001850D21013800010221";
        assert_eq!(print("feed 43 21010D010D0D"), "w w w w w f6");
        assert_eq!(
            print(&format!("events 52 {worked}")),
            "0+1n 1+7f 8+6b 14+1p"
        );
        assert_eq!(print(&format!("event 52 08 {worked}")), "8+6b");
        assert_eq!(print(&format!("event 52 0F {worked}")), "end");
        assert_eq!(
            print(&format!("totals 52 {worked}")),
            "frame 7 broken 6 noise 1 pending 1"
        );
        assert_eq!(print("parts 52 0021013A00 01850D"), "0/0/1 7/0/0");
        assert_eq!(print("fields 52 21013A0001850D"), "01 3A 00 : 85");
        assert_eq!(print("read 41 43 01 3A 00 85"), "command 1 3A number -5");
        assert_eq!(print("frame 41 52 21079983000D"), "denied 7 99 83 : -");
        assert_eq!(
            print("write 41 08 01 43 01 3A 00 07 FFFB 00 -"),
            "bytes 6 : AA21013A01850DAA"
        );
        assert_eq!(
            print("check 41 534C41013A85534C410239FF"),
            "accepted 2 : 013A85 0239FF"
        );
        assert_eq!(print("check 58 -"), "refused 12 at 0");
        assert_eq!(print("cell 41 21013A0001850D 01 3A"), "value 85");
        assert_eq!(print("sign 41 534C41013A85 21013A0001850D"), "signed");
        assert_eq!(print("part 01 02 010203"), "0203");
        assert_eq!(print("part FFFFFFFFFFFFFFFF 02 010203"), "-");
        assert_eq!(print("last 02 010203"), "0203");
        assert_eq!(print("decimal 05 01 0064"), "bytes 3 : AA313030AA");
        assert_eq!(print("hex 02 00 3a"), "bytes 2 : 3341");
        assert_eq!(print("feed 43 -"), "");
    }

    #[test]
    fn steps_that_a_row_lacks() {
        assert_eq!(print("frame 53 43 21013701F10D"), "refused 13");
        assert_eq!(print("read 41 43 01 38 00 F1"), "refused 13");
        assert_eq!(print("read 41 52 01 38 00 F1"), "refused 4");
        // 13 comes before 9.
        assert_eq!(print("send 41 43 02 03 01 38 00 F1"), "refused 13 : AAAA");
        assert_eq!(
            print("write 53 02 03 43 01 3B 00 07 FF8F 00 -"),
            "refused 13 : AAAA"
        );
        assert_eq!(
            print("write 53 02 03 53 01 3B 00 07 FF8F 00 -"),
            "refused 4 : AAAA"
        );
    }

    #[test]
    fn minus_zero_is_read_as_0() {
        for (p, command) in [("41", "3A"), ("41", "45"), ("41", "46"), ("53", "3B")] {
            let said = match p {
                "41" => format!("command 1 {command} number 0"),
                _ => "refused 4".to_string(),
            };
            assert_eq!(print(&format!("read {p} 43 01 {command} 00 80")), said);
            assert_eq!(print(&format!("frame {p} 43 2101{command}01800D")), said);
            let said = format!("status 1 {command} number 0");
            assert_eq!(print(&format!("read {p} 52 01 {command} 00 80")), said);
            assert_eq!(print(&format!("frame {p} 52 2101{command}0001800D")), said);
            let codes = print(&format!("codes {p} 01 {command} 80"));
            assert_eq!(codes.lines().next(), Some(format!("00 {said}").as_str()));
            assert_eq!(
                codes.lines().nth(0x82),
                Some(format!("82 denied 1 {command} 82 : 80").as_str())
            );
            assert_eq!(
                print(&format!("cell {p} 2101{command}0001800D 01 {command}")),
                "value 00"
            );
            assert_eq!(print(&format!("legal {p} 01 {command} 80")), "not legal");
        }
        assert_eq!(print("read 41 43 01 39 00 80"), "refused 4");
        assert_eq!(print("read 41 52 01 39 00 80"), "refused 4");
        assert_eq!(print("read 41 43 01 45 00 A8"), "command 1 45 number -40");
        assert_eq!(print("read 41 43 01 45 00 A9"), "refused 4");
        assert_eq!(print("legal 41 03 45 A8"), "legal");
        assert_eq!(print("legal 41 03 45 A9"), "not legal");
    }

    #[test]
    fn minus_zero_is_written_as_00_but_not_raw_or_denied() {
        assert_eq!(
            print("send 41 43 06 00 01 45 00 80"),
            "bytes 6 : 21014501000D"
        );
        assert_eq!(
            print("send 53 52 07 00 02 3B 00 80"),
            "bytes 7 : 21023B0001000D"
        );
        assert_eq!(
            print("send 53 43 06 00 02 3B 00 80"),
            "refused 4 : AAAAAAAAAAAA"
        );
        assert_eq!(
            print("send 41 52 07 00 01 3A 84 80"),
            "bytes 7 : 21013A8401800D"
        );
        assert_eq!(
            print("write 41 07 00 44 01 3A 84 07 0000 00 80"),
            "bytes 7 : 21013A8401800D"
        );
        assert_eq!(
            print("write 41 06 00 43 01 3A 00 07 0000 00 80"),
            "bytes 6 : 21013A01000D"
        );
        assert_eq!(
            print("write 41 06 00 43 01 45 00 07 FFD8 00 -"),
            "bytes 6 : 21014501A80D"
        );
        assert_eq!(
            print("write 41 06 00 43 01 3A 00 07 0080 00 80"),
            "refused 4 : AAAAAAAAAAAA"
        );
        assert_eq!(print("raw 43 06 00 01 3A 00 80"), "bytes 6 : 21013A01800D");
        assert_eq!(
            print("raw 52 07 00 01 3B 00 80"),
            "bytes 7 : 21013B0001800D"
        );
        assert_eq!(print("fields 52 21013A0001800D"), "01 3A 00 : 80");
    }

    #[test]
    fn a_sheet_of_00_is_signed_by_an_answered_80() {
        let sign = |value: &str, answer: &str| {
            print(&format!("sign 41 534C410145{value} 2101450001{answer}0D"))
        };
        assert_eq!(sign("00", "80"), "signed");
        assert_eq!(sign("00", "00"), "signed");
        assert_eq!(sign("81", "80"), "not signed");
        assert_eq!(sign("A8", "A8"), "signed");
        assert_eq!(sign("00", "A9"), "not signed");
        assert_eq!(sign("80", "80"), "refused 7 at 0");
        assert_eq!(print("check 41 534C41013A80"), "refused 7 at 0");
        assert_eq!(print("check 41 534C410145A8"), "accepted 1 : 0145A8");
    }

    /// A sheet file of that many lines: a full sheet, then the same lines again.
    fn file(p: &str, count: usize) -> String {
        let (commands, zones): (&[&str], &[&str]) = match p {
            "41" => (&["38", "39", "3A", "45", "46"], &["01", "02", "03"]),
            _ => (&["0D", "0E", "5B", "5C"], &["01", "02"]),
        };
        let cells = zones
            .iter()
            .flat_map(|zone| commands.iter().map(move |command| (zone, command)));
        let records = cells.map(|(zone, command)| format!("534C{p}{zone}{command}00"));
        records.cycle().take(count).collect()
    }

    /// What every operation on a sheet file prints, its answer alone.
    fn answers(p: &str, file: &str) -> Vec<String> {
        let lines = [
            format!("check {p} {file}"),
            format!("copy {p} - - {file}"),
            format!("run {p} 0200 - {file}"),
            format!("sign {p} {file} -"),
        ];
        let answer = |line: &String| print(line).split(" : ").next().unwrap().to_string();
        lines.iter().map(answer).collect()
    }

    #[test]
    fn full_sheets_are_accepted() {
        let answered = ["accepted 15", "refused 9 at 0", "bytes 345", "not signed"];
        assert_eq!(answers("41", &file("41", 15)), answered);
        let answered = ["accepted 8", "refused 9 at 0", "bytes 303", "not signed"];
        assert_eq!(answers("53", &file("53", 8)), answered);
        for (p, count) in [("41", 15), ("53", 8)] {
            let full = file(p, count);
            // Zone, command and value of each record.
            let ends = (1..=count).map(|records| 12 * records);
            let lines: Vec<&str> = ends.map(|end| &full[end - 6..end]).collect();
            assert_eq!(
                print(&format!("check {p} {full}")),
                format!("accepted {count} : {}", lines.join(" "))
            );
            let bytes = 6 * count;
            assert_eq!(
                print(&format!("copy {p} {bytes:02X} - {full}")),
                format!("bytes {bytes} : {full}")
            );
            let frame = |line: &&str| format!("21{}01{}0D", &line[..4], &line[4..]);
            let frames: String = lines.iter().map(frame).collect();
            let bytes = 255 + bytes;
            assert_eq!(
                print(&format!("run {p} {bytes:04X} - {full}")),
                format!("bytes {bytes} : {}{frames}", "00".repeat(255))
            );
            let short = bytes - 1;
            assert_eq!(
                print(&format!("run {p} {short:04X} - {full}")),
                format!("refused 9 at 0 : {}", "AA".repeat(short))
            );
            let answer = |line: &&str| format!("21{}0001{}0D", &line[..4], &line[4..]);
            let capture: String = lines.iter().map(answer).collect();
            assert_eq!(print(&format!("sign {p} {full} {capture}")), "signed");
            assert_eq!(
                print(&format!("sign {p} {full} {}", &capture[14..])),
                "not signed"
            );
        }
    }

    #[test]
    fn a_run_of_one_line_has_261_bytes() {
        for (p, record, frame) in [
            ("41", "534C41013801", "21013801010D"),
            ("53", "534C53020D0D", "21020D010D0D"),
        ] {
            let run = format!("{}{frame}", "00".repeat(255));
            let refused = |length| format!("refused 9 at 0 : {}", "AA".repeat(length));
            // Just enough, one more before it and one behind it, and one too few.
            for (buffer, printed) in [
                ("0105 -", format!("bytes 261 : {run}")),
                ("0106 01", format!("bytes 261 : AA{run}")),
                ("0106 -", format!("bytes 261 : {run}AA")),
                ("0104 -", refused(260)),
                ("0105 01", refused(261)),
                ("0105 0105", refused(261)),
                ("0105 0106", refused(261)),
            ] {
                assert_eq!(print(&format!("run {p} {buffer} {record}")), printed);
            }
        }
    }

    #[test]
    fn an_empty_sheet_writes_no_bytes_and_is_9_only_past_the_end() {
        for word in ["run", "copy"] {
            for p in ["41", "53"] {
                for (buffer, printed) in [
                    ("- -", "bytes 0 : -"),
                    ("- 01", "refused 9 at 0 : -"),
                    ("02 -", "bytes 0 : AAAA"),
                    ("02 01", "bytes 0 : AAAA"),
                    ("02 02", "bytes 0 : AAAA"),
                    ("02 03", "refused 9 at 0 : AAAA"),
                    ("02 0102", "refused 9 at 0 : AAAA"),
                    ("02 FFFFFFFFFFFFFFFF", "refused 9 at 0 : AAAA"),
                ] {
                    assert_eq!(print(&format!("{word} {p} {buffer} -")), printed);
                }
            }
            // 12 and 10 come before 9.
            assert_eq!(print(&format!("{word} 58 - 01 -")), "refused 12 at 0 : -");
            assert_eq!(print(&format!("{word} 41 - 01 53")), "refused 10 at 0 : -");
        }
        let longest = format!("bytes 0 : {}", "AA".repeat(4_096));
        assert_eq!(print("run 41 1000 1000 -"), longest);
    }

    #[test]
    fn runs_of_no_bytes_are_counted() {
        let kinds = [Kind::EmptyRun, Kind::EmptyRunPastEnd];
        let all = Kind::all(&WORDS);
        assert!(kinds.iter().all(|kind| all.contains(kind)));
        let counted = |line: &str| {
            let mut tally = Tally::default();
            run(line.as_bytes(), &mut String::new(), &mut tally);
            kinds.map(|kind| tally.of(kind))
        };
        assert_eq!(counted("run 41 - - -"), [1, 0]);
        assert_eq!(counted("run 53 02 02 -"), [1, 0]);
        assert_eq!(counted("run 53 02 03 -"), [0, 1]);
        assert_eq!(counted("run 41 02 FFFFFFFFFFFFFFFF -"), [0, 1]);
        // No other operation, no other sheet, and no sheet that is refused.
        for line in [
            "copy 41 - - -",
            "copy 41 - 01 -",
            "check 41 -",
            "run 58 - - -",
            "run 58 - 01 -",
            "run 41 - - 53",
            "run 41 - 01 53",
            "run 41 - 01 534C41013801",
            "run 41 0105 - 534C41013801",
        ] {
            assert_eq!(counted(line), [0, 0], "{line}");
        }
    }

    #[test]
    fn longer_sheets_are_refused() {
        for (p, full) in [("41", 15), ("53", 8)] {
            for count in [full + 1, 16, 24] {
                let mut records = file(p, count);
                let refused = format!("refused 8 at {full}");
                assert_eq!(answers(p, &records), [refused.as_str(); 4]);
                // The line behind a full sheet gets a value that no row has.
                records.replace_range(12 * full + 10..12 * full + 12, "EF");
                let refused = format!("refused 7 at {full}");
                assert_eq!(answers(p, &records), [refused.as_str(); 4]);
            }
            for count in [25, 26, 271] {
                let mut records = file(p, count);
                assert_eq!(answers(p, &records), ["refused 6 at 24"; 4]);
                let bad = format!("534C{p}009980").repeat(count);
                assert_eq!(answers(p, &bad), ["refused 6 at 24"; 4]);
                // 10 comes before 6.
                records.replace_range(12 * (count - 1)..12 * count, "534D58013800");
                let refused = format!("refused 10 at {}", count - 1);
                assert_eq!(answers(p, &records), [refused.as_str(); 4]);
                let refused = format!("refused 10 at {count}");
                assert_eq!(answers(p, &(file(p, count) + "53")), [refused.as_str(); 4]);
            }
        }
    }

    #[test]
    fn sheets_are_counted_by_their_size_and_refusal() {
        let kinds = [
            Kind::FullSheet(Profile::A),
            Kind::FullSheet(Profile::S),
            Kind::LongSheet(7),
            Kind::LongSheet(8),
            Kind::SheetOf(24),
            Kind::SheetOf(25),
        ];
        let all = Kind::all(&WORDS);
        assert!(kinds.iter().all(|kind| all.contains(kind)));
        let counted = |p: &str, file: &str| {
            let mut tally = Tally::default();
            for line in [format!("check {p} {file}"), format!("sign {p} {file} -")] {
                run(line.as_bytes(), &mut String::new(), &mut tally);
            }
            for word in ["copy", "run"] {
                let line = format!("{word} {p} 0200 - {file}");
                run(line.as_bytes(), &mut String::new(), &mut tally);
            }
            kinds.map(|kind| tally.of(kind))
        };
        let bad = |count: usize| format!("534C41013881{}", file("41", count - 1));
        assert_eq!(counted("41", &file("41", 15)), [4, 0, 0, 0, 0, 0]);
        assert_eq!(counted("53", &file("53", 8)), [0, 4, 0, 0, 0, 0]);
        assert_eq!(counted("41", &file("41", 14)), [0; 6]);
        assert_eq!(counted("41", &bad(15)), [0; 6]);
        assert_eq!(counted("53", &file("53", 15)), [0; 6]);
        assert_eq!(counted("41", &file("41", 16)), [0, 0, 0, 4, 0, 0]);
        assert_eq!(counted("53", &file("53", 24)), [0, 0, 0, 4, 4, 0]);
        assert_eq!(counted("41", &bad(16)), [0, 0, 4, 0, 0, 0]);
        assert_eq!(counted("41", &bad(24)), [0, 0, 4, 0, 4, 0]);
        assert_eq!(counted("41", &bad(25)), [0, 0, 0, 0, 0, 4]);
        assert_eq!(counted("41", &bad(26)), [0; 6]);
        // A file that is 10 has no sheet, nor has one under a letter that is 12.
        for p in ["41", "58"] {
            assert_eq!(counted(p, &file("53", 24)), [0; 6]);
            assert_eq!(counted(p, &format!("{}53", file("41", 25))), [0; 6]);
        }
    }

    #[test]
    fn counts_of_refusals_end_with_13() {
        let last = |line| print(line).lines().last().unwrap().to_string();
        let counts = "accepted 10 refused 1:0 2:0 3:0 4:65526 5:0 13:0";
        assert_eq!(last("pairs 43"), counts);
        assert_eq!(last("pairs 52"), counts);
    }

    #[test]
    fn an_unknown_word_alone_is_wrong() {
        for line in [
            "",
            " ",
            "Feed 43 21",
            " feed 43 21",
            "feeds 43 21",
            "feed\t43 21",
            "-",
        ] {
            assert_eq!(print(line), "?", "{line}");
        }
        // A missing argument is no bytes, and a letter of none 00.
        assert_eq!(print("feed 43"), "");
        for word in ["feed", "all", "pairs", "doorcell", "doorfeed"] {
            assert_eq!(print(word), "refused 12", "{word}");
        }
        assert_eq!(print("doorsign"), "refused 12 at 0");
        assert_eq!(print("write"), "refused 12 : -");
        assert_eq!(print("listing"), "refused 12");
        assert_eq!(print("pieces"), "refused 9");
        assert_eq!(print("check 41"), "accepted 0 : -");
        assert_eq!(print("sign 41"), "signed");
        assert_eq!(print("cell 41"), "no cell");
        assert_eq!(print("number"), "0");
        assert_eq!(print("code"), "00");
        assert_eq!(print("decimal 02"), "bytes 1 : 30AA");
        assert_eq!(print("hex 02"), "bytes 2 : 3030");
        assert_eq!(print("event 43"), "end");
        assert_eq!(print("fields 43"), "not one frame");
        assert_eq!(print("read 41 52 01 3A"), "refused 3");
        assert_eq!(print("part"), "-");
        // One too many is passed over.
        assert_eq!(print("number 85 41 xyz"), "-5");
        assert_eq!(print("feed 43 21 "), "w");
        let surplus = "write 41 06 - 43 01 3A 00 07 FFFB 00 - 41 42 43 44";
        assert_eq!(print(surplus), "bytes 6 : 21013A01850D");
    }

    #[test]
    fn parts_are_as_many_as_there_are_up_to_twelve() {
        assert_eq!(print("parts 43"), "");
        assert_eq!(print("parts"), "refused 12");
        assert_eq!(print("parts 43 "), "0/0/0");
        assert_eq!(print("parts 43  00 "), "0/0/0 0/0/1 0/0/0");
        let twelve = ["0/0/1"; 12].join(" ");
        for count in [12, 13, 40] {
            let line = format!("parts 43{}", " 00".repeat(count));
            assert_eq!(print(&line), twelve);
        }
    }

    #[test]
    fn of_an_argument_the_hex_digits_count() {
        for digits in [
            "21010d010D0d",
            "2-1010D010D0D",
            "21/01:0D@01G0D`0Dg",
            "x21010D010D0D7",
        ] {
            assert_eq!(
                print(&format!("feed 43 {digits}")),
                "w w w w w f6",
                "{digits}"
            );
        }
        for none in ["", "-", "--", "7", "g7-", "\u{e9}"] {
            assert_eq!(print(&format!("feed 43 {none}")), "", "{none}");
        }
        // Two spaces are an argument of no bytes.
        assert_eq!(print("feed 43  21"), "");
        assert_eq!(print("feed  43 21"), "refused 12");
        assert_eq!(print("last  01 0203"), "-");
    }

    #[test]
    fn of_a_number_the_last_bytes_count() {
        assert_eq!(print("part FF0000000000000001 02 010203"), "0203");
        assert_eq!(print("part 01FFFFFFFFFFFFFFFF 02 010203"), "-");
        assert_eq!(print("last 010000000000000002 010203"), "0203");
        assert_eq!(print("code 1234FFFB"), "85");
        assert_eq!(print("code 05"), "05");
        assert_eq!(print("code FB"), "none");
        assert_eq!(print("plain FB"), "FB");
        assert_eq!(print("plain 000005"), "05");
        assert_eq!(print("decimal 05 - 99FFFF"), "bytes 5 : 3635353335");
        assert_eq!(print("decimal 05 - FF"), "bytes 3 : 323535AAAA");
        assert_eq!(print("number 0185"), "-5");
        assert_eq!(print("totals 4152 -"), "frame 0 broken 0 noise 0 pending 0");
        assert_eq!(
            print("read 5341 0043 FF01 003A 00 85"),
            "command 1 3A number -5"
        );
        assert_eq!(print("legal FF41 FF01 FF3A FF85"), "legal");
        let long = format!("bytes 2 : {}3341", "AA".repeat(4_094));
        for length in ["1000", "1001", "010000", "FFFFFFFFFFFFFFFF", "001001"] {
            assert_eq!(print(&format!("hex {length} 0FFE 3A")), long);
            assert!(print(&format!("hex {length} 0FFF 3A")).starts_with("refused 9 : AA"));
        }
        // Of its last 8 bytes none is left.
        assert_eq!(print("hex 010000000000000000 - 3A"), "refused 9 : -");
    }

    #[test]
    fn another_kind_is_a_status_and_a_greater_form_an_input() {
        for kind in ["53", "00", "41", "63", "4453"] {
            let status = format!("write 41 07 - {kind} 01 3A 82 07 FFFB 00 -");
            assert_eq!(print(&status), "bytes 7 : 21013A0001850D", "{kind}");
        }
        for form in ["08", "09", "7F", "FF"] {
            let input = format!("write 53 07 - 43 01 0F 00 {form} 0006 01 -");
            assert_eq!(print(&input), "bytes 7 : 21010F0206010D", "{form}");
        }
        // In a denied message it is not looked at.
        let denied = "write 41 06 - 44 07 99 83 09 0006 01 -";
        assert_eq!(print(denied), "bytes 6 : 21079983000D");
    }

    #[test]
    fn a_longer_line_is_cut() {
        let of_length = |length: usize| {
            let start = "last 02 ";
            let digits = "0123456789ABCDEF".repeat(LINE_LIMIT / 16 + 1);
            format!("{start}{}", &digits[..length - start.len()])
        };
        assert_eq!(print(&of_length(LINE_LIMIT - 1)), "2345");
        for length in [LINE_LIMIT, LINE_LIMIT + 1, LINE_LIMIT + 9] {
            assert_eq!(print(&of_length(length)), "4567", "{length}");
        }
        let spaces = " ".repeat(LINE_LIMIT);
        assert_eq!(print(&format!("number{spaces}")), "0");
        assert_eq!(print(&format!("{spaces}number")), "?");
        let mut printed = Vec::new();
        let input = format!("#{spaces}\nnumber 85\n\n#\nnumber 01");
        run_all(input.as_bytes(), &mut printed).unwrap();
        assert_eq!(printed, b"-5\n?\n1\n");
    }

    #[test]
    fn lists_of_lines() {
        assert_eq!(print("doorlist 41 013A850239FF"), "accepted");
        assert_eq!(print("doorlist 41 -"), "accepted");
        // What is left over of a line is passed over.
        assert_eq!(print("doorlist 41 013A8501"), "accepted");
        assert_eq!(print("doorlist 41 013A"), "accepted");
        assert_eq!(print("doorlist 41 013A80"), "refused 7 at 0");
        assert_eq!(print("doorlist 41 013A85013A84"), "refused 8 at 1");
        assert_eq!(print("doorlist 58 013A80"), "refused 12 at 0");
        assert_eq!(
            print("doorfile 41 0E 01 013A850239FF"),
            "bytes 12 : AA534C41013A85534C410239FFAA"
        );
        let run = format!("{}21013801010D", "00".repeat(255));
        assert_eq!(
            print("doorrun 41 0106 01 01380102"),
            format!("bytes 261 : AA{run}")
        );
        for word in ["doorfile", "doorrun"] {
            assert_eq!(print(&format!("{word} 41 02 02 -")), "bytes 0 : AAAA");
            assert_eq!(
                print(&format!("{word} 41 02 03 -")),
                "refused 9 at 0 : AAAA"
            );
            assert_eq!(
                print(&format!("{word} 41 02 03 0138")),
                "refused 9 at 0 : AAAA"
            );
            // 12, the list's refusals and then 9.
            assert_eq!(print(&format!("{word} 42 01 02 -")), "refused 12 at 0 : AA");
            let twice = "013801013802";
            assert_eq!(
                print(&format!("{word} 41 01 02 {twice}")),
                "refused 8 at 1 : AA"
            );
            assert_eq!(
                print(&format!("{word} 41 01 - 013801")),
                "refused 9 at 0 : AA"
            );
        }
    }

    #[test]
    fn a_list_is_what_its_file_is() {
        for (p, full) in [("41", 15), ("53", 8)] {
            for count in [0, 1, full, full + 1, 24, 25, 271] {
                let file = file(p, count);
                // Without the marks and the profile.
                let list: String = (0..count)
                    .map(|at| &file[12 * at + 6..12 * at + 12])
                    .collect();
                let list = match count {
                    0 => "-".to_string(),
                    _ => list,
                };
                let answer = "21013A0001000D";
                for (words, rest) in [
                    (["copy", "doorfile", "doorfile"], "0100 02 SHEET"),
                    (["run", "doorrun", "doorrun"], "0200 02 SHEET"),
                    (["sign", "doorsign", "dooroff"], &format!("SHEET {answer}")),
                ] {
                    let of_file = print(&format!(
                        "{} {p} {}",
                        words[0],
                        rest.replace("SHEET", &file)
                    ));
                    for word in &words[1..] {
                        let of_list =
                            print(&format!("{word} {p} {}", rest.replace("SHEET", &list)));
                        assert_eq!(of_list, of_file, "{word} {count}");
                    }
                }
                let of_file = print(&format!("check {p} {file}"));
                let of_list = print(&format!("doorlist {p} {list}"));
                assert!(of_file.starts_with(&of_list), "{count}");
            }
        }
    }

    #[test]
    fn lists_are_signed_off() {
        let over = "00".repeat(60_001);
        for word in ["doorsign", "dooroff"] {
            let sign = |rest: &str| print(&format!("{word} {rest}"));
            assert_eq!(sign("41 013A85 21013A0001850D"), "signed");
            assert_eq!(sign("41 013A85 21013A0001840D"), "not signed");
            assert_eq!(sign("41 013A85 -"), "not signed");
            assert_eq!(sign("41 - -"), "signed");
            assert_eq!(sign("41 013A00 21013A0001800D"), "signed");
            // Denied and refused answers change nothing.
            let denied = "41 013A85 21013A0001850D21013A84000D21013A0001900D";
            assert_eq!(sign(denied), "signed");
            assert_eq!(sign("41 013A85013A80 -"), "refused 7 at 1");
            assert_eq!(sign("41 013A85013A84 -"), "refused 8 at 1");
            // 12, 11, then the list's refusals.
            assert_eq!(sign(&format!("41 013A80 {over}")), "refused 11 at 0");
            assert_eq!(sign(&format!("42 013A80 {over}")), "refused 12 at 0");
            assert_eq!(sign(&format!("41 - {}", &over[2..])), "signed");
        }
    }

    #[test]
    fn cells_through_the_doors() {
        for cell in [
            "41 21013A0001850D 01 3A",
            "41 21013A0001850D 02 3A",
            "53 21010F000206010D 01 0F",
            "41 - 04 3A",
            "42 - 01 3A",
        ] {
            let of_door = print(&format!("doorcell {cell}"));
            assert_eq!(of_door, print(&format!("cell {cell}")));
        }
        let over = format!("doorcell 41 {} 01 3A", "00".repeat(60_001));
        assert_eq!(print(&over), "refused 11");
        assert_eq!(print(&over.replace(" 41 ", " 61 ")), "refused 12");
        for (answer, printed) in [
            ("41 01 3A 00 85", "status 1 3A number -5 ; value 85"),
            ("41 01 3A 00 80", "status 1 3A number 0 ; value 00"),
            ("53 02 3B 00 80", "status 2 3B number 0 ; value 00"),
            ("41 02 39 00 FF", "status 2 39 off ; value FF"),
            ("41 01 37 00 02", "status 1 37 number 2 ; value 02"),
            ("41 07 99 83 -", "denied 7 99 83 : - ; no cell"),
            ("41 01 3A 84 85", "denied 1 3A 84 : 85 ; unknown"),
            ("53 01 0F 00 0601", "status 1 0F input 6 on ; no cell"),
            ("41 01 38 81 02", "refused 5 ; unknown"),
            ("41 01 3A 00 90", "refused 4 ; unknown"),
            ("41 01 3A 00 8585", "refused 3 ; unknown"),
            ("41 01 3B 00 00", "refused 2 ; no cell"),
            ("41 04 3A 00 00", "refused 1 ; no cell"),
            ("41 02 10 00 00", "refused 1 ; no cell"),
            ("42 01 3A 00 85", "refused 12"),
        ] {
            assert_eq!(print(&format!("doorfeed {answer}")), printed);
        }
    }

    #[test]
    fn outcomes_are_counted() {
        let all = Kind::all(&WORDS);
        for (line, outcome) in [
            ("sign 41 - -", "signed"),
            ("doorlist 41 -", "accepted"),
            ("doorlist 42 -", "refused"),
            ("doorfile 41 - - -", "accepted"),
            ("doorrun 41 - 01 -", "refused"),
            ("doorsign 41 013A85 -", "not signed"),
            ("dooroff 41 - -", "signed"),
            ("doorcell 41 - 01 3A", "unknown"),
            ("doorfeed 41 01 3A 00 85", "status"),
            ("doorfeed 41 01 3A 00 90", "refused"),
        ] {
            let mut tally = Tally::default();
            run(line.as_bytes(), &mut String::new(), &mut tally);
            let is_counted =
                |kind: &&Kind| matches!(kind, Kind::Outcome(..)) && tally.of(**kind) > 0;
            let counted: Vec<String> = all.iter().filter(is_counted).map(Kind::to_string).collect();
            let expected = match line.split(' ').next() {
                Some("sign") => format!("sign-off {outcome}"),
                word => format!("operation {}, {outcome}", word.unwrap()),
            };
            assert_eq!(counted, [expected]);
        }
    }
}
