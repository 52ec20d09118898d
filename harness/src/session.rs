//! A session takes a message through a generator under one key and IV.

use crate::generator::{Fault, Generator, Origin, LONGEST};

const MOST_WORDS: u64 = 1 << 50;
const FARTHEST_TRACE: u64 = 1 << 20;

#[derive(Clone, Copy, PartialEq, Eq, Debug)]
pub enum Refusal {
    AlreadyOpen,
    BadLimit,
    Load(Fault),
    NotOpen,
    PastBuffer,
    PastLimit,
    BeforeStart,
    ShortBuffer,
    NoOrigin,
    TooFar,
}

impl Refusal {
    pub fn number(self) -> u64 {
        match self {
            Refusal::AlreadyOpen => 1,
            Refusal::BadLimit => 2,
            Refusal::Load(fault) => fault.number(),
            Refusal::NotOpen => 5,
            Refusal::PastBuffer => 6,
            Refusal::PastLimit => 7,
            Refusal::BeforeStart => 8,
            Refusal::ShortBuffer => 9,
            Refusal::NoOrigin => 10,
            Refusal::TooFar => 11,
        }
    }

    pub fn member(self) -> u64 {
        match self {
            Refusal::Load(fault) => fault.member(),
            _ => 0,
        }
    }
}

/// The lengths of a key and an IV that were written.
#[derive(Clone, Copy, PartialEq, Eq, Debug)]
pub struct Lengths {
    pub key: usize,
    pub iv: usize,
}

/// Position and limit count bytes of keystream. A limit of 0 is a closed
/// session, whose generator is zero words. The generator always stands
/// position / 4 steps after the load.
pub struct Session<G> {
    generator: G,
    position: u64,
    limit: u64,
}

impl<G: Generator> Session<G> {
    pub fn new() -> Self {
        Session {
            generator: G::zeroed(),
            position: 0,
            limit: 0,
        }
    }

    /// Wipes the key buffer, accepted or not.
    pub fn open(&mut self, key: &mut [u8], iv: &[u8], limit: u64) -> Result<(), Refusal> {
        let opened = self.open_by(key, iv, limit);
        key.fill(0);
        opened
    }

    fn open_by(&mut self, key: &[u8], iv: &[u8], limit: u64) -> Result<(), Refusal> {
        if self.limit != 0 {
            return Err(Refusal::AlreadyOpen);
        }
        if limit == 0 || limit > MOST_WORDS {
            return Err(Refusal::BadLimit);
        }
        self.generator.load(key, iv).map_err(Refusal::Load)?;
        self.position = 0;
        self.limit = 4 * limit;
        Ok(())
    }

    fn check_open(&self) -> Result<(), Refusal> {
        if self.limit == 0 {
            Err(Refusal::NotOpen)
        } else {
            Ok(())
        }
    }

    fn check_room(&self, count: u64) -> Result<(), Refusal> {
        if count > self.limit - self.position {
            Err(Refusal::PastLimit)
        } else {
            Ok(())
        }
    }

    pub fn apply_keystream(
        &mut self,
        buffer: &mut [u8],
        start: usize,
        count: usize,
    ) -> Result<(), Refusal> {
        self.check_open()?;
        let window = start
            .checked_add(count)
            .and_then(|end| buffer.get_mut(start..end))
            .ok_or(Refusal::PastBuffer)?;
        self.check_room(count as u64)?;
        self.join(window);
        Ok(())
    }

    /// Joins bytes with keystream: the rest of a begun word, whole words, and
    /// the beginning of one more.
    fn join(&mut self, window: &mut [u8]) {
        let begun = (self.position % 4) as usize;
        self.position += window.len() as u64;
        let head = window.len().min((4 - begun) % 4);
        let (head, rest) = window.split_at_mut(head);
        if !head.is_empty() {
            join_bytes(head, &self.generator.word().to_be_bytes()[begun..]);
            if begun + head.len() == 4 {
                self.generator.forward();
            }
        }
        let mut words = rest.chunks_exact_mut(4);
        for four in &mut words {
            join_bytes(four, &self.generator.word().to_be_bytes());
            self.generator.forward();
        }
        join_bytes(words.into_remainder(), &self.generator.word().to_be_bytes());
    }

    pub fn skip(&mut self, n: u64) -> Result<(), Refusal> {
        self.check_open()?;
        self.check_room(n)?;
        let after = self.position + n;
        for _ in self.position / 4..after / 4 {
            self.generator.forward();
        }
        self.position = after;
        Ok(())
    }

    pub fn step_back(&mut self, n: u64) -> Result<(), Refusal> {
        self.check_open()?;
        let after = self.position.checked_sub(n).ok_or(Refusal::BeforeStart)?;
        for _ in after / 4..self.position / 4 {
            self.generator.backward();
        }
        self.position = after;
        Ok(())
    }

    pub fn position(&self) -> Result<u64, Refusal> {
        self.check_open()?;
        Ok(self.position)
    }

    /// Writes the key and the IV of the opening to the front of two buffers.
    pub fn origin(&self, key: &mut [u8], iv: &mut [u8]) -> Result<Lengths, Refusal> {
        self.check_open()?;
        check_buffers(key, iv)?;
        let origin = origin_before(&self.generator, self.position / 4).ok_or(Refusal::NoOrigin)?;
        Ok(write_origin(&origin, key, iv))
    }

    pub fn close(&mut self) -> Result<(), Refusal> {
        self.check_open()?;
        *self = Session::new();
        Ok(())
    }
}

impl<G: Generator> Default for Session<G> {
    fn default() -> Self {
        Session::new()
    }
}

#[inline]
fn join_bytes(bytes: &mut [u8], keystream: &[u8]) {
    for (byte, key) in bytes.iter_mut().zip(keystream) {
        *byte ^= key;
    }
}

fn check_buffers(key: &[u8], iv: &[u8]) -> Result<(), Refusal> {
    if key.len() < LONGEST || iv.len() < LONGEST {
        Err(Refusal::ShortBuffer)
    } else {
        Ok(())
    }
}

/// The origin of the state that the generator had n words before.
fn origin_before<G: Generator>(generator: &G, n: u64) -> Option<Origin> {
    let mut before = generator.clone();
    for _ in 0..n {
        before.backward();
    }
    before.origin()
}

fn write_origin(origin: &Origin, key: &mut [u8], iv: &mut [u8]) -> Lengths {
    key[..origin.key.len()].copy_from_slice(&origin.key);
    iv[..origin.iv.len()].copy_from_slice(&origin.iv);
    Lengths {
        key: origin.key.len(),
        iv: origin.iv.len(),
    }
}

/// Writes the key and the IV that reach the generator's state in n words.
pub fn trace<G: Generator>(
    generator: &G,
    n: u64,
    key: &mut [u8],
    iv: &mut [u8],
) -> Result<Lengths, Refusal> {
    check_buffers(key, iv)?;
    if n > FARTHEST_TRACE {
        return Err(Refusal::TooFar);
    }
    let origin = origin_before(generator, n).ok_or(Refusal::NoOrigin)?;
    Ok(write_origin(&origin, key, iv))
}

#[cfg(test)]
mod tests {
    use super::*;
    use crate::ciphers::{Register, Snow2, Snow3g};
    use crate::random::Random;

    fn opened<G: Generator>(key: &[u8], iv: &[u8], limit: u64) -> Session<G> {
        let mut session = Session::new();
        let mut key = key.to_vec();
        assert_eq!(session.open(&mut key, iv, limit), Ok(()));
        assert!(key.iter().all(|&byte| byte == 0));
        session
    }

    #[test]
    fn pieces_make_the_same_keystream_as_one() {
        let mut random = Random::new(8);
        let (key, iv) = (random.bytes(32), random.bytes(16));
        let mut whole = [0; 200];
        opened::<Snow3g>(&key, &iv, 50)
            .apply_keystream(&mut whole, 0, 200)
            .unwrap();
        let mut pieces = [0; 200];
        let mut session = opened::<Snow3g>(&key, &iv, 50);
        let mut start = 0;
        while start < 200 {
            let count = random.index(12).min(200 - start);
            session.apply_keystream(&mut pieces, start, count).unwrap();
            start += count;
            assert_eq!(session.position(), Ok(start as u64));
        }
        assert_eq!(pieces, whole);
        assert_eq!(session.apply_keystream(&mut pieces, 0, 0), Ok(()));
        assert_eq!(
            session.apply_keystream(&mut pieces, 0, 1),
            Err(Refusal::PastLimit)
        );
    }

    #[test]
    fn skipping_and_stepping_back_meet_the_same_bytes() {
        let mut random = Random::new(9);
        let (key, iv) = (random.bytes(16), random.bytes(16));
        let mut whole = [0; 200];
        let mut session = opened::<Snow2>(&key, &iv, 50);
        session.apply_keystream(&mut whole, 0, 200).unwrap();
        for _ in 0..500 {
            let (start, end) = (random.index(150), 150 + random.index(50));
            session.step_back(session.position).unwrap();
            session.skip(199).unwrap();
            session.step_back(199 - start as u64).unwrap();
            let mut piece = [0; 200];
            session
                .apply_keystream(&mut piece, start, end - start)
                .unwrap();
            assert_eq!(piece[start..end], whole[start..end]);
            let (mut k, mut i) = ([7; 255], [7; 256]);
            assert_eq!(
                session.origin(&mut k, &mut i),
                Ok(Lengths { key: 16, iv: 16 })
            );
            assert_eq!((&k[..16], k[16]), (&key[..], 7));
            assert_eq!((&i[..16], i[16]), (&iv[..], 7));
        }
    }

    #[test]
    fn refusals_come_in_their_order() {
        let mut session = Session::<Register>::new();
        let mut buffer = [0; 8];
        assert_eq!(
            session.apply_keystream(&mut buffer, 9, 9),
            Err(Refusal::NotOpen)
        );
        assert_eq!(session.close(), Err(Refusal::NotOpen));
        assert_eq!(session.open(&mut [0; 3], &[], 0), Err(Refusal::BadLimit));
        assert_eq!(
            session.open(&mut [0; 3], &[], (1 << 50) + 1),
            Err(Refusal::BadLimit)
        );
        let fault = Err(Refusal::Load(Fault::Key(0)));
        assert_eq!(session.open(&mut [0; 3], &[1], 1), fault);
        assert_eq!(session.open(&mut [0; 64], &[], 1), Ok(()));
        assert_eq!(session.open(&mut [0; 3], &[], 0), Err(Refusal::AlreadyOpen));
        let past = session.apply_keystream(&mut buffer, usize::MAX, 2);
        assert_eq!(past, Err(Refusal::PastBuffer));
        assert_eq!(
            session.apply_keystream(&mut buffer, 4, 5),
            Err(Refusal::PastBuffer)
        );
        assert_eq!(
            session.apply_keystream(&mut buffer, 0, 5),
            Err(Refusal::PastLimit)
        );
        assert_eq!(session.skip(u64::MAX), Err(Refusal::PastLimit));
        assert_eq!(session.step_back(1), Err(Refusal::BeforeStart));
        let short = session.origin(&mut [0; 254], &mut [0; 255]);
        assert_eq!(short, Err(Refusal::ShortBuffer));
    }

    #[test]
    fn trace_finds_what_reaches_a_state() {
        let mut random = Random::new(10);
        let (key, iv) = (random.bytes(32), random.bytes(16));
        let mut generator = Snow2::zeroed();
        generator.load(&key, &iv).unwrap();
        for _ in 0..100 {
            generator.forward();
        }
        let (mut k, mut i) = ([0; 255], [0; 255]);
        assert_eq!(
            trace(&generator, 99, &mut k, &mut i),
            Err(Refusal::NoOrigin)
        );
        assert_eq!(
            trace(&generator, (1 << 20) + 1, &mut k, &mut i),
            Err(Refusal::TooFar)
        );
        assert_eq!((k, i), ([0; 255], [0; 255]));
        assert_eq!(
            trace(&generator, 100, &mut k, &mut i),
            Ok(Lengths { key: 32, iv: 16 })
        );
        assert_eq!((&k[..32], &i[..16]), (&key[..], &iv[..]));
    }
}
