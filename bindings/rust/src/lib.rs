//! SDTI lines (ITU-R BT.1381-2) written, read and checked: safe calls over libsdti.a, which `./lib` builds. include/sdti.h says what each call does and answers; here every
//! buffer has its length by its type, so that the borrow checker owes what the C caller owes.
//!
//! A line is bytes, two for each word, low byte first, [`line_bytes`] of them. Lines of any other length are refused with 1.
mod raw;

use std::fmt;

pub const STATE: usize = 80;
pub const ROOM: usize = 32768;
const SETTINGS: usize = 41;
const EVENT: usize = 32;
const HEADER: usize = 43;
const LISTED: usize = 16;
const GAP_MAX: usize = 646;
const UNFINISHED: u32 = 256;

/// The number of a refusal, as include/sdti.h has them.
#[derive(Clone, Copy, Debug, PartialEq, Eq, Hash)]
pub struct Refusal(pub u8);

impl fmt::Display for Refusal {
    fn fmt(&self, f: &mut fmt::Formatter<'_>) -> fmt::Result {
        write!(f, "refused with {}", self.0)
    }
}

impl std::error::Error for Refusal {}

/// What a reading call reports.
#[derive(Clone, Copy, Debug, PartialEq, Eq)]
pub enum Event {
    /// The line is refused; the reader goes on with the next.
    Refused { refusal: Refusal, dropped: bool },
    /// The line is begun. The jump is how many lines are missing before it, below 0 how many it is behind; none where that is not known.
    Begun { number: u16, jump: Option<i32>, dropped: bool },
    /// A block of so many values stands in the room.
    Block { kind: u8, length: usize },
    /// The open block was dropped, for a reason of 1 to 7.
    Drop { reason: u8 },
    /// The line is over.
    End,
    /// The allowance is used up, and nothing was met.
    Paused,
}

/// What a line is opened with, and what stands in the header of a line that was begun or checked.
#[derive(Clone, Copy, Debug, Default, PartialEq, Eq)]
pub struct Settings {
    pub code: u8,
    pub aai: u8,
    pub destination: [u8; 16],
    pub source: [u8; 16],
    pub block: u8,
    pub flag: u8,
    pub reserved: [u8; 5],
}

/// Whether a block is finished, or goes on in the next line.
#[derive(Clone, Copy, Debug, PartialEq, Eq)]
pub enum Laid {
    Finished,
    Unfinished,
}

/// A packet in a line's gap.
#[derive(Clone, Debug, PartialEq, Eq)]
pub struct Packet {
    pub did: u8,
    pub second: u8,
    pub values: Vec<u16>,
}

/// The bytes of a system's line; 0 where there is no such system.
pub fn line_bytes(system: u8) -> usize {
    [3432, 3456, 4576, 4608].get(system as usize).copied().unwrap_or(0)
}

fn gap_bytes(system: u8) -> usize {
    [430, 454, 614, GAP_MAX].get(system as usize).copied().unwrap_or(0)
}

fn done(answer: u32) -> Result<(), Refusal> {
    match answer {
        0 => Ok(()),
        n => Err(Refusal(n as u8)),
    }
}

fn laid(answer: u32) -> Result<Laid, Refusal> {
    match answer {
        UNFINISHED => Ok(Laid::Unfinished),
        n => done(n).map(|()| Laid::Finished),
    }
}

fn number(bytes: &[u8]) -> u64 {
    bytes.iter().rev().fold(0, |n, b| n << 8 | u64::from(*b))
}

fn bytes_of(words: &[u16]) -> Vec<u8> {
    words.iter().flat_map(|w| w.to_le_bytes()).collect()
}

fn words_of(bytes: &[u8]) -> impl Iterator<Item = u16> + '_ {
    bytes.chunks_exact(2).map(|b| u16::from_le_bytes([b[0], b[1]]))
}

impl Settings {
    fn from_bytes(b: &[u8]) -> Settings {
        let mut s = Settings { code: b[0], aai: b[1], block: b[34], flag: b[35], ..Settings::default() };
        s.destination.copy_from_slice(&b[2..18]);
        s.source.copy_from_slice(&b[18..34]);
        s.reserved.copy_from_slice(&b[36..41]);
        s
    }

    fn to_bytes(self) -> [u8; SETTINGS] {
        let mut b = [0; SETTINGS];
        (b[0], b[1], b[34], b[35]) = (self.code, self.aai, self.block, self.flag);
        b[2..18].copy_from_slice(&self.destination);
        b[18..34].copy_from_slice(&self.source);
        b[36..41].copy_from_slice(&self.reserved);
        b
    }
}

impl Event {
    fn from_bytes(b: &[u8; EVENT]) -> Event {
        let n = number(&b[4..8]) as u16;
        let size = number(&b[8..12]) as i64;
        let jump = if b[3] == 0 { size } else { -size };
        match b[0] {
            0 => Event::Refused { refusal: Refusal(n as u8), dropped: b[1] != 0 },
            1 => Event::Begun { number: n, jump: (b[2] != 0).then_some(jump as i32), dropped: b[1] != 0 },
            2 => Event::Block { kind: b[12], length: number(&b[16..24]) as usize },
            3 => Event::Drop { reason: n as u8 },
            4 => Event::End,
            _ => Event::Paused,
        }
    }
}

/// A reader, with its assembly room.
#[derive(Clone)]
pub struct Reader {
    state: [u8; STATE],
    room: Box<[u8; ROOM]>,
}

impl Reader {
    /// A fresh reader of a system, 0 to 3, and a mode, 8 or 9. Other numbers are refused with 1 by each call.
    pub fn new(system: u8, mode: u8) -> Reader {
        let mut reader = Reader { state: [0; STATE], room: Box::new([0; ROOM]) };
        // SAFETY: the buffer has the length that is said.
        unsafe { raw::sdti_reader(system, mode, reader.state.as_mut_ptr(), STATE) };
        reader
    }

    /// A reader whose image and room were kept. Any bytes are taken: those that are no image of a possible state are refused with 2 by each call.
    pub fn with(state: [u8; STATE], room: [u8; ROOM]) -> Reader {
        Reader { state, room: Box::new(room) }
    }

    /// The image of its state.
    pub fn image(&self) -> &[u8; STATE] {
        &self.state
    }

    /// The room: two bytes a value, low byte first.
    pub fn room(&self) -> &[u8; ROOM] {
        &self.room
    }

    /// The values of a block that was reported, by its length.
    pub fn values(&self, length: usize) -> impl Iterator<Item = u16> + '_ {
        words_of(&self.room[..]).take(length)
    }

    /// The settings of the line that was begun last.
    pub fn settings(&self) -> Settings {
        Settings::from_bytes(&self.state[37..78])
    }

    /// Reads on in a line, which is lent until its end or its refusal is reported. 1 and 2 are an `Err`, and change nothing.
    pub fn read(&mut self, line: &[u8]) -> Result<Event, Refusal> {
        let mut event = [0; EVENT];
        // SAFETY: each buffer has the length that is said, and none overlaps another.
        let answer = unsafe { raw::sdti_read(self.state.as_mut_ptr(), STATE, line.as_ptr(), line.len(), self.room.as_mut_ptr(), ROOM, event.as_mut_ptr(), EVENT) };
        match answer {
            1 | 2 => Err(Refusal(answer as u8)),
            _ => Ok(Event::from_bytes(&event)),
        }
    }

    /// The same under an allowance of words (fixed lines: of places); and how many were consumed.
    pub fn read_within(&mut self, allowance: u64, line: &[u8]) -> Result<(Event, u64), Refusal> {
        let mut event = [0; EVENT];
        // SAFETY: as in read.
        let answer =
            unsafe { raw::sdti_read_within(self.state.as_mut_ptr(), STATE, allowance, line.as_ptr(), line.len(), self.room.as_mut_ptr(), ROOM, event.as_mut_ptr(), EVENT) };
        match answer {
            1 | 2 => Err(Refusal(answer as u8)),
            _ => Ok((Event::from_bytes(&event), number(&event[24..32]))),
        }
    }
}

/// A writer.
#[derive(Clone)]
pub struct Writer {
    state: [u8; STATE],
}

impl Writer {
    /// A fresh writer of a system, 0 to 3, and a mode, 8 or 9. Other numbers are refused with 1 by each call.
    pub fn new(system: u8, mode: u8) -> Writer {
        let mut writer = Writer { state: [0; STATE] };
        // SAFETY: the buffer has the length that is said.
        unsafe { raw::sdti_writer(system, mode, writer.state.as_mut_ptr(), STATE) };
        writer
    }

    /// A writer whose image was kept. Any bytes are taken, as in [`Reader::with`].
    pub fn with(state: [u8; STATE]) -> Writer {
        Writer { state }
    }

    /// The image of its state.
    pub fn image(&self) -> &[u8; STATE] {
        &self.state
    }

    /// Opens a line.
    pub fn open(&mut self, f: bool, v: bool, number: u32, settings: &Settings, line: &mut [u8]) -> Result<(), Refusal> {
        let b = settings.to_bytes();
        // SAFETY: each buffer has the length that is said, and none overlaps another; so below.
        done(unsafe { raw::sdti_open(self.state.as_mut_ptr(), STATE, f, v, number, b.as_ptr(), SETTINGS, line.as_mut_ptr(), line.len()) })
    }

    /// Adds a block. One that is unfinished is lent again after the next line is opened.
    pub fn add(&mut self, kind: u32, values: &[u16], line: &mut [u8]) -> Result<Laid, Refusal> {
        let b = bytes_of(values);
        laid(unsafe { raw::sdti_add(self.state.as_mut_ptr(), STATE, kind, b.as_ptr(), b.len(), line.as_mut_ptr(), line.len()) })
    }

    /// Adds many blocks: type, number of values and values of each. How many were finished, and why it stopped.
    pub fn add_many(&mut self, blocks: &[u16], line: &mut [u8]) -> (u64, Result<Laid, Refusal>) {
        let (b, mut finished) = (bytes_of(blocks), 0);
        let answer = unsafe { raw::sdti_add_many(self.state.as_mut_ptr(), STATE, b.as_ptr(), b.len(), line.as_mut_ptr(), line.len(), &mut finished) };
        (finished, laid(answer))
    }

    /// Adds a packet in the gap.
    pub fn packet(&mut self, did: u8, second: u8, values: &[u16], line: &mut [u8]) -> Result<(), Refusal> {
        let b = bytes_of(values);
        done(unsafe { raw::sdti_packet(self.state.as_mut_ptr(), STATE, did, second, b.as_ptr(), b.len(), line.as_mut_ptr(), line.len()) })
    }

    /// Closes the line.
    pub fn close(&mut self, line: &mut [u8]) -> Result<(), Refusal> {
        done(unsafe { raw::sdti_close(self.state.as_mut_ptr(), STATE, line.as_mut_ptr(), line.len()) })
    }
}

/// Checks a line: its number and settings.
pub fn check(system: u8, mode: u8, line: &[u8]) -> Result<(u16, Settings), Refusal> {
    let mut header = [0; HEADER];
    // SAFETY: each buffer has the length that is said, and none overlaps another; so below.
    done(unsafe { raw::sdti_check(system, mode, line.as_ptr(), line.len(), header.as_mut_ptr(), HEADER) })?;
    Ok((number(&header[..2]) as u16, Settings::from_bytes(&header[2..])))
}

/// The packets in the gap of a line that the check accepts; and why a bad packet ended the list, if one did: 21, 22 or 23.
pub fn packets(system: u8, mode: u8, line: &[u8]) -> Result<(Vec<Packet>, Option<Refusal>), Refusal> {
    let (mut out, mut listed) = ([0; GAP_MAX], [0; LISTED]);
    done(unsafe { raw::sdti_list(system, mode, line.as_ptr(), line.len(), out.as_mut_ptr(), gap_bytes(system), listed.as_mut_ptr(), LISTED) })?;
    let mut words = words_of(&out).take(number(&listed[4..8]) as usize);
    let mut found = Vec::new();
    while let (Some(did), Some(second), Some(count)) = (words.next(), words.next(), words.next()) {
        found.push(Packet { did: did as u8, second: second as u8, values: words.by_ref().take(count as usize).collect() });
    }
    let stop = number(&listed[12..]) as u8;
    Ok((found, (stop != 0).then_some(Refusal(stop))))
}
