//! The frame and its reader.

pub const OPENING: u8 = 0x21;
pub const END: u8 = 0x0D;
pub const DATA_LIMIT: usize = 255;
pub const CAPTURE_LIMIT: usize = 60_000;

/// The direction that a reader is made for.
#[derive(Clone, Copy, PartialEq, Eq, PartialOrd, Ord, Debug)]
pub enum Direction {
    Command,
    Answer,
}

impl Direction {
    pub fn from_letter(letter: u8) -> Option<Direction> {
        match letter {
            b'C' => Some(Direction::Command),
            b'R' => Some(Direction::Answer),
            _ => None,
        }
    }

    pub fn letter(self) -> u8 {
        match self {
            Direction::Command => b'C',
            Direction::Answer => b'R',
        }
    }

    /// How many bytes stand before the data: `21 Zn Cc Dl`, or `21 Zn Cc Ac Dl`.
    pub fn header(self) -> usize {
        match self {
            Direction::Command => 4,
            Direction::Answer => 5,
        }
    }
}

/// The reader's answer to one byte.
#[derive(Clone, Copy, PartialEq, Eq, Debug)]
pub enum Step {
    Waiting,
    Noise,
    Frame(usize),
    Broken(usize),
}

/// Takes one byte at a time.
#[derive(Clone, Debug)]
pub struct Reader {
    header: usize,
    /// Bytes taken of the open frame; 0 is outside.
    taken: usize,
    data_length: usize,
}

impl Reader {
    /// A fresh reader, outside any frame.
    pub fn new(direction: Direction) -> Reader {
        Reader {
            header: direction.header(),
            taken: 0,
            data_length: 0,
        }
    }

    pub fn take(&mut self, byte: u8) -> Step {
        if self.taken == 0 {
            if byte != OPENING {
                return Step::Noise;
            }
            self.taken = 1;
            return Step::Waiting;
        }
        if self.taken < self.header {
            // The last place of the header is Dl.
            if self.taken + 1 == self.header {
                self.data_length = usize::from(byte);
            }
            self.taken += 1;
            return Step::Waiting;
        }
        if self.taken < self.header + self.data_length {
            self.taken += 1;
            return Step::Waiting;
        }
        // The end place.
        let before = self.taken;
        self.taken = 0;
        match byte {
            END => Step::Frame(before + 1),
            OPENING => {
                // It opens the next frame and is not part of the broken one.
                self.taken = 1;
                Step::Broken(before)
            }
            _ => Step::Broken(before + 1),
        }
    }
}

/// What a stretch of a capture is.
#[derive(Clone, Copy, PartialEq, Eq, PartialOrd, Ord, Debug)]
pub enum Stretch {
    Frame,
    Broken,
    Noise,
    Pending,
}

impl Stretch {
    pub const ALL: [Stretch; 4] = [
        Stretch::Frame,
        Stretch::Broken,
        Stretch::Noise,
        Stretch::Pending,
    ];

    pub fn name(self) -> &'static str {
        match self {
            Stretch::Frame => "frame",
            Stretch::Broken => "broken",
            Stretch::Noise => "noise",
            Stretch::Pending => "pending",
        }
    }
}

#[derive(Clone, Copy, PartialEq, Eq, Debug)]
pub struct Event {
    pub place: usize,
    pub length: usize,
    pub stretch: Stretch,
}

impl Event {
    /// The bytes of the capture that the event is about.
    pub fn bytes<'a>(&self, capture: &'a [u8]) -> &'a [u8] {
        &capture[self.place..self.place + self.length]
    }
}

/// All events of a capture: one reader goes over all its bytes.
pub fn events(direction: Direction, capture: &[u8]) -> Vec<Event> {
    let mut reader = Reader::new(direction);
    let mut events = Vec::new();
    let mut place = 0;
    for &byte in capture {
        let (length, stretch) = match reader.take(byte) {
            Step::Waiting => continue,
            Step::Noise => (1, Stretch::Noise),
            Step::Frame(length) => (length, Stretch::Frame),
            Step::Broken(length) => (length, Stretch::Broken),
        };
        events.push(Event {
            place,
            length,
            stretch,
        });
        place += length;
    }
    if place < capture.len() {
        events.push(Event {
            place,
            length: capture.len() - place,
            stretch: Stretch::Pending,
        });
    }
    events
}

/// The first event of a fresh reader from a place on; none at or past the end.
pub fn first_event(direction: Direction, capture: &[u8], place: usize) -> Option<Event> {
    let rest = capture.get(place..)?;
    if rest.is_empty() {
        return None;
    }
    let mut reader = Reader::new(direction);
    let mut found = (rest.len(), Stretch::Pending);
    for &byte in rest {
        found = match reader.take(byte) {
            Step::Waiting => continue,
            Step::Noise => (1, Stretch::Noise),
            Step::Frame(length) => (length, Stretch::Frame),
            Step::Broken(length) => (length, Stretch::Broken),
        };
        break;
    }
    Some(Event {
        place,
        length: found.0,
        stretch: found.1,
    })
}

/// How many bytes of a capture belong to each kind of stretch.
#[derive(Clone, Copy, Default, PartialEq, Eq, Debug)]
pub struct Totals {
    pub frame: usize,
    pub broken: usize,
    pub noise: usize,
    pub pending: usize,
}

impl Totals {
    pub fn of(events: &[Event]) -> Totals {
        let mut totals = Totals::default();
        for event in events {
            *match event.stretch {
                Stretch::Frame => &mut totals.frame,
                Stretch::Broken => &mut totals.broken,
                Stretch::Noise => &mut totals.noise,
                Stretch::Pending => &mut totals.pending,
            } += event.length;
        }
        totals
    }
}

/// Refusal 11 for a capture over the limit.
pub fn check_capture(capture: &[u8]) -> Result<(), u8> {
    if capture.len() > CAPTURE_LIMIT {
        return Err(11);
    }
    Ok(())
}

/// What a frame brings.
#[derive(Clone, Copy, PartialEq, Eq, Debug)]
pub struct Frame<'a> {
    pub zone: u8,
    pub command: u8,
    /// 00 in a command.
    pub answer_code: u8,
    pub data: &'a [u8],
}

impl<'a> Frame<'a> {
    /// The frame that the bytes are, if they are exactly one.
    pub fn of(direction: Direction, bytes: &'a [u8]) -> Option<Frame<'a>> {
        let header = direction.header();
        if bytes.len() <= header || bytes[0] != OPENING || bytes[bytes.len() - 1] != END {
            return None;
        }
        if bytes.len() != header + usize::from(bytes[header - 1]) + 1 {
            return None;
        }
        Some(Frame {
            zone: bytes[1],
            command: bytes[2],
            answer_code: match direction {
                Direction::Command => 0x00,
                Direction::Answer => bytes[3],
            },
            data: &bytes[header..bytes.len() - 1],
        })
    }

    /// The bytes of a raw frame: only 3 is checked.
    pub fn bytes(&self, direction: Direction) -> Result<Vec<u8>, u8> {
        if self.data.len() > DATA_LIMIT {
            return Err(3);
        }
        let mut bytes = vec![OPENING, self.zone, self.command];
        if direction == Direction::Answer {
            bytes.push(self.answer_code);
        }
        bytes.push(self.data.len() as u8);
        bytes.extend_from_slice(self.data);
        bytes.push(END);
        Ok(bytes)
    }
}

/// Writes bytes into a lent buffer from a place on, or refuses with 9 and changes none.
pub fn put(buffer: &mut [u8], place: u64, bytes: &[u8]) -> Result<usize, u8> {
    let place = usize::try_from(place).map_err(|_| 9)?;
    let rest = buffer.get_mut(place..).ok_or(9)?;
    let target = rest.get_mut(..bytes.len()).ok_or(9)?;
    target.copy_from_slice(bytes);
    Ok(bytes.len())
}

#[cfg(test)]
mod tests {
    use super::*;

    #[test]
    fn a_broken_frame_does_not_hold_the_next_opening() {
        let mut reader = Reader::new(Direction::Command);
        let steps: Vec<Step> = [0x21, 0x01, 0x0D, 0x00, 0x21]
            .iter()
            .map(|&byte| reader.take(byte))
            .collect();
        assert_eq!(steps[4], Step::Broken(4));
        assert_eq!(reader.taken, 1);
    }

    #[test]
    fn sixty_thousand_openings_are_stretches_of_37() {
        let capture = vec![OPENING; CAPTURE_LIMIT];
        let events = events(Direction::Command, &capture);
        assert_eq!(events[0].length, 37);
        assert_eq!(events[1].place, 37);
        assert_eq!(Totals::of(&events).frame, 0);
    }

    #[test]
    fn events_are_the_first_events_one_after_another() {
        let capture: Vec<u8> = (0..5000u32)
            .map(|n| [0x21, 0x01, 0x0D, 0x02, 0x00][(n * n / 7 % 5) as usize])
            .collect();
        for direction in [Direction::Command, Direction::Answer] {
            let mut place = 0;
            for event in events(direction, &capture) {
                assert_eq!(first_event(direction, &capture, place), Some(event));
                place += event.length;
            }
            assert_eq!(first_event(direction, &capture, place), None);
        }
    }

    #[test]
    fn the_longest_broken_answer_has_261_bytes() {
        let mut reader = Reader::new(Direction::Answer);
        for byte in [0x21, 0, 0, 0, 255] {
            reader.take(byte);
        }
        for _ in 0..255 {
            assert_eq!(reader.take(0x0D), Step::Waiting);
        }
        assert_eq!(reader.clone().take(0x0D), Step::Frame(261));
        assert_eq!(reader.clone().take(0x21), Step::Broken(260));
        assert_eq!(reader.take(0x00), Step::Broken(261));
    }

    /// A reader of commands that has taken so many bytes of an old frame with that Dl.
    fn stopped(data_length: usize, taken: usize) -> Reader {
        let mut reader = Reader::new(Direction::Command);
        let header = [OPENING, END, OPENING, data_length as u8];
        let old = header.into_iter().chain([END, OPENING].into_iter().cycle());
        for byte in old.take(taken) {
            assert_eq!(reader.take(byte), Step::Waiting);
        }
        reader
    }

    #[test]
    fn zeros_fill_an_old_frame_and_break_it_at_its_end_place() {
        for data_length in 0..=DATA_LIMIT {
            // Zeros fill the header's places too, and then Dl is 0: these come once.
            let first = match data_length {
                0 => 0,
                _ => 4,
            };
            for taken in first..=4 + data_length {
                let mut reader = stopped(data_length, taken);
                let waits = match taken {
                    0 => 0,
                    _ => 4 + data_length - taken,
                };
                for zeros in 0..=256 {
                    let mut next = reader.clone();
                    next.take(OPENING);
                    // Outside or at the end place, 21 opens the next frame.
                    assert_eq!(
                        next.taken == 1,
                        zeros >= waits,
                        "{data_length} {taken} {zeros}"
                    );
                    let step = match zeros {
                        _ if taken == 0 || zeros > waits => Step::Noise,
                        _ if zeros < waits => Step::Waiting,
                        _ => Step::Broken(5 + data_length),
                    };
                    assert_eq!(reader.take(0x00), step, "{data_length} {taken} {zeros}");
                }
                assert_eq!(reader.taken, 0);
                // The longest wait: 254 zeros are too few, 255 are enough.
                assert_eq!(waits > 254, (data_length, taken) == (255, 4));
                assert!(waits <= 255);
            }
        }
    }

    #[test]
    fn a_place_past_the_end_is_9() {
        let mut buffer = [0xAA; 4];
        assert_eq!(put(&mut buffer, 4, &[]), Ok(0));
        assert_eq!(put(&mut buffer, 5, &[]), Err(9));
        assert_eq!(put(&mut buffer, u64::MAX, &[1]), Err(9));
        assert_eq!(put(&mut buffer, 3, &[1, 2]), Err(9));
        assert_eq!(buffer, [0xAA; 4]);
        assert_eq!(put(&mut buffer, 2, &[1, 2]), Ok(2));
        assert_eq!(buffer, [0xAA, 0xAA, 1, 2]);
    }
}
