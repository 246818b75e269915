//! Messages: read from what a frame brings, and written as the bytes of a frame.

use crate::frame::{Direction, Frame, DATA_LIMIT};
use crate::rows::{self, Profile, Says, ROWS};

#[derive(Clone, Copy, PartialEq, Eq, Debug)]
pub enum Message<'a> {
    Command {
        zone: u8,
        command: u8,
        says: Says,
    },
    Status {
        zone: u8,
        command: u8,
        says: Says,
    },
    /// As it came, unchecked.
    Denied {
        zone: u8,
        command: u8,
        answer_code: u8,
        data: &'a [u8],
    },
}

/// Zone of the profile, row, zone of the row; gives the row's place in the table.
fn row_of(profile: Profile, zone: u8, command: u8) -> Result<usize, u8> {
    if !profile.has_zone(zone) {
        return Err(1);
    }
    let row = rows::find(profile, command).ok_or(2)?;
    if !ROWS[row].has_zone(zone) {
        return Err(1);
    }
    Ok(row)
}

fn is_denial(answer_code: u8) -> bool {
    (0x82..=0x86).contains(&answer_code)
}

/// The message that these fields are; in a command the answer code is not looked at.
pub fn read<'a>(
    profile: Profile,
    direction: Direction,
    frame: Frame<'a>,
) -> Result<Message<'a>, u8> {
    let Frame {
        zone,
        command,
        answer_code,
        data,
    } = frame;
    if direction == Direction::Answer && answer_code != 0x00 {
        if !is_denial(answer_code) {
            return Err(5);
        }
        if data.len() > DATA_LIMIT {
            return Err(3);
        }
        return Ok(Message::Denied {
            zone,
            command,
            answer_code,
            data,
        });
    }
    let row = row_of(profile, zone, command)?;
    let says = ROWS[row].says(direction, data)?;
    Ok(match direction {
        Direction::Command => Message::Command {
            zone,
            command,
            says,
        },
        Direction::Answer => Message::Status {
            zone,
            command,
            says,
        },
    })
}

/// The frame of a message, checked as in reading.
pub fn bytes(profile: Profile, message: Message) -> Result<Vec<u8>, u8> {
    let (direction, zone, command, says) = match message {
        Message::Command {
            zone,
            command,
            says,
        } => (Direction::Command, zone, command, says),
        Message::Status {
            zone,
            command,
            says,
        } => (Direction::Answer, zone, command, says),
        Message::Denied {
            zone,
            command,
            answer_code,
            data,
        } => {
            if !is_denial(answer_code) {
                return Err(5);
            }
            let frame = Frame {
                zone,
                command,
                answer_code,
                data,
            };
            return frame.bytes(Direction::Answer);
        }
    };
    let row = row_of(profile, zone, command)?;
    let data = ROWS[row].data(direction, says)?;
    let frame = Frame {
        zone,
        command,
        answer_code: 0x00,
        data: &data,
    };
    frame.bytes(direction)
}

#[cfg(test)]
mod tests {
    use super::*;
    use crate::text;
    use Direction::{Answer, Command};
    use Profile::{A, S};

    /// What a bench frame is: what it says, denied, or a refusal.
    enum Is {
        Says(Says),
        Denied,
        Refused(u8),
    }
    use Is::{Denied, Refused};

    fn number(number: i16) -> Is {
        Is::Says(Says::Number(number))
    }

    #[test]
    fn bench_frames() {
        let input_6_on = Says::Input { input: 6, on: true };
        let bench = [
            (A, Command, "21013A01850D", number(-5)),
            (A, Command, "21013A01800D", number(0)),
            (A, Command, "21013901FF0D", Is::Says(Says::LevellerOff)),
            (A, Command, "210139010B0D", Refused(4)),
            (A, Command, "210145018A0D", number(-10)),
            (A, Command, "210145018B0D", number(-11)),
            (A, Command, "21014501A80D", number(-40)),
            (A, Command, "21014501A90D", Refused(4)),
            (A, Command, "2104990200000D", Refused(1)),
            (A, Command, "21021001F00D", Refused(1)),
            (A, Command, "2101380200000D", Refused(3)),
            (S, Command, "21010D010D0D", number(13)),
            (S, Command, "21010D01630D", number(99)),
            (S, Command, "21010D01640D", Refused(4)),
            (S, Command, "21013701F10D", Refused(13)),
            (S, Answer, "21010E0001020D", Refused(4)),
            (S, Answer, "21010F000206010D", Is::Says(input_6_on)),
            (A, Answer, "21079983000D", Denied),
            (A, Answer, "2101388101020D", Refused(5)),
        ];
        for (profile, direction, hex, is) in bench {
            let frame_bytes = text::bytes(hex.as_bytes());
            let frame = Frame::of(direction, &frame_bytes).unwrap();
            let message = read(profile, direction, frame);
            match is {
                Refused(refusal) => assert_eq!(message, Err(refusal), "{hex}"),
                Denied => assert!(matches!(
                    message,
                    Ok(Message::Denied {
                        zone: 7,
                        command: 0x99,
                        answer_code: 0x83,
                        data: []
                    })
                )),
                Is::Says(expected) => match message.unwrap() {
                    Message::Command { says, .. } | Message::Status { says, .. } => {
                        assert_eq!(says, expected, "{hex}")
                    }
                    Message::Denied { .. } => panic!("{hex}"),
                },
            }
            // A message that is written reads back as itself, and 80 as 00.
            if let Ok(message) = message {
                let written = bytes(profile, message).unwrap();
                assert_eq!(text::hex(&written), hex.replace("01800D", "01000D"));
                let back = Frame::of(direction, &written).unwrap();
                assert_eq!(read(profile, direction, back), Ok(message));
            }
        }
    }

    #[test]
    fn minus_zero_is_read_as_0_and_written_as_00() {
        let read = |profile, direction, command, data| {
            let frame = Frame {
                zone: 1,
                command,
                answer_code: 0x00,
                data,
            };
            read(profile, direction, frame)
        };
        for command in [0x3A, 0x45, 0x46] {
            let message = Message::Command {
                zone: 1,
                command,
                says: Says::Number(0),
            };
            assert_eq!(read(A, Command, command, &[0x80]), Ok(message));
            let written = vec![0x21, 0x01, command, 0x01, 0x00, 0x0D];
            assert_eq!(bytes(A, message), Ok(written));
        }
        for (profile, command) in [(A, 0x3A), (A, 0x45), (A, 0x46), (S, 0x3B)] {
            let message = Message::Status {
                zone: 1,
                command,
                says: Says::Number(0),
            };
            assert_eq!(read(profile, Answer, command, &[0x80]), Ok(message));
            let written = vec![0x21, 0x01, command, 0x00, 0x01, 0x00, 0x0D];
            assert_eq!(bytes(profile, message), Ok(written));
        }
        // Balance is only requested, and Leveller is not signed.
        assert_eq!(read(S, Command, 0x3B, &[0x80]), Err(4));
        assert_eq!(read(A, Command, 0x39, &[0x80]), Err(4));
        assert_eq!(read(A, Answer, 0x39, &[0x80]), Err(4));
        assert_eq!(read(A, Command, 0x3A, &[0x80, 0x80]), Err(3));
    }

    #[test]
    fn denied_data_and_raw_frames_keep_80() {
        let frame = Frame {
            zone: 1,
            command: 0x3A,
            answer_code: 0x84,
            data: &[0x80],
        };
        let message = read(A, Answer, frame).unwrap();
        assert!(matches!(message, Message::Denied { data: [0x80], .. }));
        let written = vec![0x21, 0x01, 0x3A, 0x84, 0x01, 0x80, 0x0D];
        assert_eq!(bytes(A, message), Ok(written));
        let written = vec![0x21, 0x01, 0x3A, 0x01, 0x80, 0x0D];
        assert_eq!(frame.bytes(Command), Ok(written));
    }

    #[test]
    fn order_of_the_checks() {
        let frame = |zone, command, answer_code, data| Frame {
            zone,
            command,
            answer_code,
            data,
        };
        let read = |profile, direction, frame| read(profile, direction, frame).err();
        assert_eq!(read(A, Command, frame(4, 0x99, 0, &[])), Some(1));
        assert_eq!(read(A, Command, frame(2, 0x99, 0, &[])), Some(2));
        assert_eq!(read(A, Command, frame(2, 0x10, 0, &[])), Some(1));
        assert_eq!(read(A, Answer, frame(9, 0x99, 0x81, &[])), Some(5));
        assert_eq!(read(A, Command, frame(1, 0x38, 0x81, &[0])), None);
        assert_eq!(read(A, Command, frame(2, 0x99, 0, &[0xF1])), Some(2));
        assert_eq!(read(A, Command, frame(2, 0x10, 0, &[0xF1])), Some(1));
        assert_eq!(read(A, Command, frame(1, 0x38, 0, &[0xF1; 2])), Some(3));
        assert_eq!(read(S, Command, frame(1, 0x0F, 0, &[1])), Some(4));
        assert_eq!(read(S, Answer, frame(1, 0x0F, 0, &[0xF0])), Some(3));
        assert_eq!(read(S, Answer, frame(1, 0x0F, 0, &[4, 1])), Some(4));
        assert_eq!(read(A, Answer, frame(0, 0xFF, 0x82, &[0; 256])), Some(3));
    }

    #[test]
    fn a_step_that_the_row_lacks_is_13_and_other_data_are_4() {
        let read = |profile, direction, command, data| {
            let frame = Frame {
                zone: 1,
                command,
                answer_code: 0x00,
                data,
            };
            read(profile, direction, frame).err()
        };
        assert_eq!(read(A, Command, 0x38, &[0xF1]), Some(13));
        assert_eq!(read(A, Command, 0x38, &[0xF2]), Some(13));
        assert_eq!(read(A, Command, 0x38, &[0xF0]), None);
        assert_eq!(read(A, Command, 0x38, &[0xF3]), Some(4));
        assert_eq!(read(A, Command, 0x38, &[0xFF]), Some(4));
        assert_eq!(read(A, Answer, 0x38, &[0xF1]), Some(4));
        assert_eq!(read(S, Command, 0x0F, &[0xF1]), Some(13));
        assert_eq!(read(S, Command, 0x0F, &[0xEF]), Some(4));
        assert_eq!(read(S, Command, 0x0F, &[0xF1, 0x01]), Some(4));
        assert_eq!(read(S, Command, 0x0F, &[0x01, 0xF1]), Some(4));
        assert_eq!(read(S, Command, 0x0F, &[0xF1, 0xF1]), Some(4));
    }

    #[test]
    fn a_message_that_its_row_cannot_say_is_judged_by_its_data() {
        let command = |profile, command, says| {
            let message = Message::Command {
                zone: 1,
                command,
                says,
            };
            bytes(profile, message)
        };
        let status = |profile, command, says| {
            let message = Message::Status {
                zone: 1,
                command,
                says,
            };
            bytes(profile, message)
        };
        for says in [Says::Up, Says::On, Says::Down, Says::Off] {
            assert_eq!(command(A, 0x38, says), Err(13));
            assert_eq!(command(S, 0x0F, says), Err(13));
            assert_eq!(status(A, 0x38, says), Err(4));
            assert_eq!(status(A, 0x37, says), Err(4));
            assert_eq!(status(A, 0x39, says), Err(4));
        }
        assert_eq!(command(A, 0x38, Says::Number(241)), Err(13));
        assert_eq!(command(S, 0x3B, Says::Number(-113)), Err(13));
        // The row has the byte and says another thing by it.
        assert_eq!(command(A, 0x37, Says::Up), Err(4));
        assert_eq!(command(A, 0x39, Says::On), Err(4));
        assert_eq!(command(A, 0x39, Says::Number(241)), Err(4));
        assert_eq!(command(A, 0x38, Says::Number(240)), Err(4));
        assert_eq!(command(A, 0x3A, Says::Number(-112)), Err(4));
        assert_eq!(command(A, 0x39, Says::Number(255)), Err(4));
        assert_eq!(command(S, 0x0E, Says::Number(2)), Err(4));
        // The row lacks the byte, or the number has none.
        assert_eq!(command(A, 0x38, Says::LevellerOff), Err(4));
        assert_eq!(command(S, 0x0F, Says::Number(300)), Err(4));
        assert_eq!(status(S, 0x0F, Says::Number(300)), Err(3));
        let input = Says::Input {
            input: 0xF1,
            on: true,
        };
        assert_eq!(command(S, 0x0F, input), Err(4));
        assert_eq!(command(A, 0x38, input), Err(3));
    }
}
