//! Strips: recorded lists of session calls, and the runs that answer them.

use crate::ciphers::{Register, Snow2, Snow3g};
use crate::generator::{Generator, LONGEST};
use crate::layers::{EveryOther, Pair};
use crate::session::{Refusal, Session};

/// Strips and sheets are at most this long, in bytes.
pub const LONGEST_STRIP: usize = 64_000;

/// The first word of a sheet names a generator by its low bits.
pub const SHEET_MARK: u32 = 0x9000_0000;

/// The reply to an origin is judged by that of the longest key and IV.
const ORIGIN_ROOM: usize = 4 + 2 + 2 * LONGEST;

pub mod kind {
    pub const END: u32 = 0;
    pub const OPEN: u32 = 1;
    pub const APPLY: u32 = 2;
    pub const SKIP: u32 = 3;
    pub const STEP_BACK: u32 = 4;
    pub const POSITION: u32 = 5;
    pub const ORIGIN: u32 = 6;
    pub const CLOSE: u32 = 7;
    pub const REFUSED: u32 = 15;
}

/// Why a run ended before an end.
#[derive(Clone, Copy, PartialEq, Eq, Debug)]
pub enum Stop {
    BadLength,
    CutShort,
    BadWord,
    NoRoom,
    UnknownGenerator,
}

impl Stop {
    pub fn number(self) -> u64 {
        match self {
            Stop::BadLength => 14,
            Stop::CutShort => 15,
            Stop::BadWord => 16,
            Stop::NoRoom => 17,
            Stop::UnknownGenerator => 18,
        }
    }
}

/// What a run came to: the number of its stop or 0, the words of finished
/// orders, the reply bytes written, and the orders that the session refused.
#[derive(Clone, Copy, PartialEq, Eq, Debug, Default)]
pub struct Report {
    pub number: u64,
    pub words: u64,
    pub bytes: u64,
    pub refused: u64,
}

enum Order<'a> {
    End,
    Open {
        limit: u32,
        key: &'a [u8],
        iv: &'a [u8],
    },
    Apply(&'a [u8]),
    Skip(u32),
    StepBack(u32),
    Position,
    Origin,
    Close,
}

impl Order<'_> {
    fn kind(&self) -> u32 {
        match self {
            Order::End => kind::END,
            Order::Open { .. } => kind::OPEN,
            Order::Apply(_) => kind::APPLY,
            Order::Skip(_) => kind::SKIP,
            Order::StepBack(_) => kind::STEP_BACK,
            Order::Position => kind::POSITION,
            Order::Origin => kind::ORIGIN,
            Order::Close => kind::CLOSE,
        }
    }

    /// How many bytes the reply would have if the order were accepted.
    fn room(&self) -> usize {
        match self {
            Order::Apply(payload) => 4 + filled(payload.len()),
            Order::Position => 4 + 8,
            Order::Origin => ORIGIN_ROOM,
            _ => 4,
        }
    }
}

/// A length in bytes, rounded up to whole words.
fn filled(length: usize) -> usize {
    length.next_multiple_of(4)
}

/// A strip, read word by word from the front.
struct Reader<'a> {
    strip: &'a [u8],
    at: usize,
}

impl<'a> Reader<'a> {
    fn word(&mut self) -> Result<u32, Stop> {
        let four = self.strip[self.at..]
            .first_chunk::<4>()
            .ok_or(Stop::CutShort)?;
        self.at += 4;
        Ok(u32::from_be_bytes(*four))
    }

    /// Bytes with their filling, which is not judged yet.
    fn bytes(&mut self, length: usize) -> Result<(&'a [u8], &'a [u8]), Stop> {
        let whole = self.strip[self.at..]
            .get(..filled(length))
            .ok_or(Stop::CutShort)?;
        self.at += filled(length);
        Ok(whole.split_at(length))
    }

    fn order(&mut self) -> Result<Order<'a>, Stop> {
        let first = self.word()?;
        let low = first & 0x0FFF_FFFF;
        match first >> 28 {
            kind::END if low == 0 => Ok(Order::End),
            kind::OPEN if low & 0xFFF == 0 => self.open(low),
            kind::APPLY => self.apply(low),
            kind::SKIP => Ok(Order::Skip(low)),
            kind::STEP_BACK => Ok(Order::StepBack(low)),
            kind::POSITION if low == 0 => Ok(Order::Position),
            kind::ORIGIN if low == 0 => Ok(Order::Origin),
            kind::CLOSE if low == 0 => Ok(Order::Close),
            _ => Err(Stop::BadWord),
        }
    }

    fn open(&mut self, low: u32) -> Result<Order<'a>, Stop> {
        let limit = self.word()?;
        let (key, key_filling) = self.bytes((low >> 20 & 0xFF) as usize)?;
        let (iv, iv_filling) = self.bytes((low >> 12 & 0xFF) as usize)?;
        // The whole order must be there before its filling is judged.
        check_filling(key_filling)?;
        check_filling(iv_filling)?;
        Ok(Order::Open { limit, key, iv })
    }

    fn apply(&mut self, low: u32) -> Result<Order<'a>, Stop> {
        let (payload, filling) = self.bytes(low as usize)?;
        check_filling(filling)?;
        Ok(Order::Apply(payload))
    }
}

fn check_filling(filling: &[u8]) -> Result<(), Stop> {
    if filling.iter().all(|&byte| byte == 0) {
        Ok(())
    } else {
        Err(Stop::BadWord)
    }
}

/// A reply buffer, written from the front.
struct Writer<'a> {
    replies: &'a mut [u8],
    at: usize,
}

impl Writer<'_> {
    fn left(&self) -> usize {
        self.replies.len() - self.at
    }

    fn word(&mut self, word: u32) {
        self.replies[self.at..self.at + 4].copy_from_slice(&word.to_be_bytes());
        self.at += 4;
    }

    /// Writes the first word of an accepted reply and zero bytes for its body,
    /// which is handed back.
    fn accepted(&mut self, kind: u32, count: usize) -> &mut [u8] {
        self.word(kind << 28 | count as u32);
        let start = self.at;
        self.at += filled(count);
        let body = &mut self.replies[start..self.at];
        body[count..].fill(0);
        &mut body[..count]
    }

    fn refused(&mut self, number: u64, member: u64, place: usize) {
        let number = (number as u32) << 20;
        let member = (member as u32) << 16;
        self.word(kind::REFUSED << 28 | number | member | place as u32);
    }

    /// A stop writes one refusal, save where there is no room.
    fn stopped(&mut self, stop: Stop, place: usize) {
        if stop != Stop::NoRoom {
            self.refused(stop.number(), 0, place);
        }
    }
}

/// Puts an order to the session, and writes the reply if it is accepted.
fn answer<G: Generator>(
    session: &mut Session<G>,
    order: &Order,
    replies: &mut Writer,
) -> Result<(), Refusal> {
    match *order {
        Order::End => {}
        Order::Open { limit, key, iv } => {
            session.open(&mut key.to_vec(), iv, u64::from(limit))?;
        }
        Order::Apply(payload) => return answer_apply(session, payload, replies),
        Order::Skip(n) => session.skip(u64::from(n))?,
        Order::StepBack(n) => session.step_back(u64::from(n))?,
        Order::Position => {
            let position = session.position()?.to_be_bytes();
            replies
                .accepted(kind::POSITION, 8)
                .copy_from_slice(&position);
            return Ok(());
        }
        Order::Origin => return answer_origin(session, replies),
        Order::Close => session.close()?,
    }
    replies.accepted(order.kind(), 0);
    Ok(())
}

fn answer_apply<G: Generator>(
    session: &mut Session<G>,
    payload: &[u8],
    replies: &mut Writer,
) -> Result<(), Refusal> {
    // Worked on in a copy: the session may refuse, and then nothing but the
    // refusal may show in the reply buffer.
    let mut bytes = payload.to_vec();
    session.apply_keystream(&mut bytes, 0, payload.len())?;
    replies
        .accepted(kind::APPLY, bytes.len())
        .copy_from_slice(&bytes);
    Ok(())
}

fn answer_origin<G: Generator>(session: &Session<G>, replies: &mut Writer) -> Result<(), Refusal> {
    let (mut key, mut iv) = ([0; LONGEST], [0; LONGEST]);
    let lengths = session.origin(&mut key, &mut iv)?;
    let body = replies.accepted(kind::ORIGIN, 2 + lengths.key + lengths.iv);
    body[0] = lengths.key as u8;
    body[1] = lengths.iv as u8;
    body[2..2 + lengths.key].copy_from_slice(&key[..lengths.key]);
    body[2 + lengths.key..].copy_from_slice(&iv[..lengths.iv]);
    Ok(())
}

/// The order at the reader's place, if its reply has room.
fn next_order<'a>(strip: &mut Reader<'a>, left: usize) -> Result<Order<'a>, Stop> {
    if left < 4 {
        return Err(Stop::NoRoom);
    }
    let order = strip.order()?;
    if order.room() > left {
        return Err(Stop::NoRoom);
    }
    Ok(order)
}

fn check_lengths(strip: &[u8], replies: &[u8]) -> Result<(), Stop> {
    if replies.len() < 4 {
        Err(Stop::NoRoom)
    } else if !strip.len().is_multiple_of(4) || strip.len() > LONGEST_STRIP {
        Err(Stop::BadLength)
    } else {
        Ok(())
    }
}

/// The report of a stop before the first order.
fn stopped_at_once(stop: Stop, replies: &mut [u8]) -> Report {
    let mut replies = Writer { replies, at: 0 };
    replies.stopped(stop, 0);
    Report {
        number: stop.number(),
        bytes: replies.at as u64,
        ..Report::default()
    }
}

/// Runs a strip on a session of its own.
pub fn run<G: Generator>(strip: &[u8], replies: &mut [u8]) -> Report {
    if let Err(stop) = check_lengths(strip, replies) {
        return stopped_at_once(stop, replies);
    }
    let mut session = Session::<G>::new();
    let mut reader = Reader { strip, at: 0 };
    let mut writer = Writer { replies, at: 0 };
    let mut report = Report::default();
    loop {
        let place = reader.at / 4;
        let order = match next_order(&mut reader, writer.left()) {
            Ok(order) => order,
            Err(stop) => {
                writer.stopped(stop, place);
                report.number = stop.number();
                break;
            }
        };
        if let Err(refusal) = answer(&mut session, &order, &mut writer) {
            writer.refused(refusal.number(), refusal.member(), place);
            report.refused += 1;
        }
        report.words = reader.at as u64 / 4;
        if matches!(order, Order::End) {
            break;
        }
    }
    report.bytes = writer.at as u64;
    report
}

fn check_sheet(sheet: &[u8], replies: &[u8]) -> Result<u32, Stop> {
    check_lengths(sheet, replies)?;
    Reader {
        strip: sheet,
        at: 0,
    }
    .word()
}

/// Runs a sheet: a word that names the generator, and a strip.
pub fn answer_sheet(sheet: &[u8], replies: &mut [u8]) -> Report {
    let name = match check_sheet(sheet, replies) {
        Ok(name) => name,
        Err(stop) => return stopped_at_once(stop, replies),
    };
    let strip = &sheet[4..];
    match name ^ SHEET_MARK {
        0 => run::<Snow2>(strip, replies),
        1 => run::<Snow3g>(strip, replies),
        2 => run::<Register>(strip, replies),
        3 => run::<Pair<Snow2, Snow3g>>(strip, replies),
        4 => run::<EveryOther<Snow2>>(strip, replies),
        _ => stopped_at_once(Stop::UnknownGenerator, replies),
    }
}

#[cfg(test)]
mod tests {
    use super::*;

    fn bytes(words: &[u32]) -> Vec<u8> {
        words.iter().flat_map(|word| word.to_be_bytes()).collect()
    }

    /// The example of the documentation.
    fn example() -> Vec<u8> {
        let mut words = vec![0x9000_0002, 0x1400_0000, 0x10];
        words.extend([0; 15]);
        words.extend([0x0102_0304, 0x2000_0005, 0xFFFF_FFFF, 0xFF00_0000]);
        words.extend([0x4000_0002, 0x5000_0000, 0x3000_0064, 0]);
        bytes(&words)
    }

    const EXAMPLE_REPLIES: [u32; 10] = [
        0x1000_0000,
        0x2000_0005,
        0xFEFD_FCFB,
        0xFF00_0000,
        0x4000_0000,
        0x5000_0008,
        0,
        3,
        0xF070_0017,
        0,
    ];

    #[test]
    fn the_example_is_answered_as_documented() {
        let file = concat!(env!("CARGO_MANIFEST_DIR"), "/../examples/register.strip");
        assert_eq!(std::fs::read(file).unwrap(), example());
        let mut replies = [0x77; 64];
        let report = answer_sheet(&example(), &mut replies);
        assert_eq!(
            report,
            Report {
                number: 0,
                words: 25,
                bytes: 40,
                refused: 1
            }
        );
        assert_eq!(replies[..40], bytes(&EXAMPLE_REPLIES));
        assert_eq!(replies[40..], [0x77; 24]);
    }

    fn stopped(sheet: &[u32], room: usize) -> (Report, Vec<u8>) {
        let mut replies = vec![0x55; room];
        let report = answer_sheet(&bytes(sheet), &mut replies);
        replies.truncate(report.bytes as usize);
        (report, replies)
    }

    fn refusal(word: u32) -> Vec<u8> {
        word.to_be_bytes().to_vec()
    }

    #[test]
    fn stops_come_in_their_order() {
        assert_eq!(stopped(&[], 3).0.number, 17);
        assert_eq!(stopped(&[0; 16_001], 4).1, refusal(0xF0E0_0000));
        assert_eq!(stopped(&[], 4).1, refusal(0xF0F0_0000));
        assert_eq!(stopped(&[0x9000_0005], 4).1, refusal(0xF120_0000));
        assert_eq!(stopped(&[0x9000_0001], 4).1, refusal(0xF0F0_0000));
        assert_eq!(stopped(&[0x9000_0001, 1], 4).1, refusal(0xF100_0000));
        assert_eq!(
            stopped(&[0x9000_0001, 0x1010_1001], 4).1,
            refusal(0xF100_0000)
        );
        assert_eq!(
            stopped(&[0x9000_0001, 0x1010_1000], 4).1,
            refusal(0xF0F0_0000)
        );
        // Bad filling of the key, but the IV is cut short.
        let cut = [0x9000_0001, 0x1010_1000, 1, 0x0000_0001];
        assert_eq!(stopped(&cut, 4).1, refusal(0xF0F0_0000));
        let filling = [0x9000_0001, 0x1010_1000, 1, 0x0000_0001, 0];
        assert_eq!(stopped(&filling, 4).1, refusal(0xF100_0000));
        assert_eq!(stopped(&[0x9000_0001, 0x6000_0000], 515).0.number, 17);
        let (report, replies) = stopped(&[0x9000_0001, 0x6000_0000], 516);
        assert_eq!(
            report,
            Report {
                number: 15,
                words: 1,
                bytes: 8,
                refused: 1
            }
        );
        assert_eq!(replies, bytes(&[0xF050_0000, 0xF0F0_0001]));
    }
}
