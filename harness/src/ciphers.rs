//! The register, SNOW 2.0 (ISO/IEC 18033-4) and SNOW 3G with 256-bit keys
//! (ETSI/SAGE).

use crate::fields::{over_alpha, s1, s1_inverse, s2, s2_inverse, times_alpha};
use crate::generator::{Fault, Generator, Origin, WrongCount};

const REGISTER_WORDS: usize = 16;
const FEED_STEPS: usize = 32;
const IV_BYTES: usize = 16;

/// Which register word each IV word is joined to, IV0 first.
const IV_PLACES: [usize; 4] = [15, 12, 10, 9];

/// Sixteen words in a ring: a step replaces one word and moves the start.
#[derive(Clone, PartialEq, Eq, Debug)]
pub struct Register {
    ring: [u32; REGISTER_WORDS],
    start: usize,
}

impl Register {
    pub fn new(words: [u32; REGISTER_WORDS]) -> Self {
        Register {
            ring: words,
            start: 0,
        }
    }

    /// Word a_i.
    #[inline]
    fn at(&self, i: usize) -> u32 {
        self.ring[(self.start + i) % REGISTER_WORDS]
    }

    fn words(&self) -> [u32; REGISTER_WORDS] {
        std::array::from_fn(|i| self.at(i))
    }

    /// A step that joins v to the new word.
    #[inline]
    fn step(&mut self, v: u32) {
        let new = times_alpha(self.at(0)) ^ self.at(2) ^ over_alpha(self.at(11)) ^ v;
        self.ring[self.start % REGISTER_WORDS] = new;
        self.start = (self.start + 1) % REGISTER_WORDS;
    }

    /// Undoes a step that joined v.
    #[inline]
    fn unstep(&mut self, v: u32) {
        let old = over_alpha(self.at(15) ^ v ^ self.at(1) ^ over_alpha(self.at(10)));
        self.start = (self.start + REGISTER_WORDS - 1) % REGISTER_WORDS;
        self.ring[self.start] = old;
    }
}

/// Bytes as words, most significant byte first, the last four being word 0.
fn numbered<const N: usize>(bytes: &[u8]) -> [u32; N] {
    let mut words = [0; N];
    for (word, four) in words.iter_mut().zip(bytes.rchunks_exact(4)) {
        *word = u32::from_be_bytes([four[0], four[1], four[2], four[3]]);
    }
    words
}

/// Words as the bytes that they are numbered from.
fn unnumbered(words: &[u32]) -> Vec<u8> {
    words
        .iter()
        .rev()
        .flat_map(|word| word.to_be_bytes())
        .collect()
}

/// The register before the first step, under a key of 16 or 32 bytes.
pub fn start_register(key: &[u8], iv: &[u8]) -> [u32; REGISTER_WORDS] {
    let mut words = if key.len() == 16 {
        let k: [u32; 4] = numbered(key);
        std::array::from_fn(|i| if i / 4 % 2 == 0 { !k[i % 4] } else { k[i % 4] })
    } else {
        let k: [u32; 8] = numbered(key);
        std::array::from_fn(|i| if i < 8 { !k[i] } else { k[i - 8] })
    };
    let iv: [u32; 4] = numbered(iv);
    for (place, word) in IV_PLACES.into_iter().zip(iv) {
        words[place] ^= word;
    }
    words
}

/// The key of `key_bytes` bytes and the IV that put these words into the
/// register, if they do.
fn read_off(words: &[u32; REGISTER_WORDS], key_bytes: usize) -> Option<Origin> {
    // No IV word is joined to the inverses, so they give the key away.
    let key_words: Vec<u32> = words[..key_bytes / 4].iter().map(|word| !word).collect();
    let key = unnumbered(&key_words);
    let bare = start_register(&key, &[0; IV_BYTES]);
    let iv = unnumbered(&IV_PLACES.map(|place| words[place] ^ bare[place]));
    (start_register(&key, &iv) == *words).then_some(Origin { key, iv })
}

fn first_sixteen(words: &[u32]) -> [u32; REGISTER_WORDS] {
    std::array::from_fn(|i| words[i])
}

/// The bare register as a generator: its words are a0 of each state.
impl Generator for Register {
    const SIZE: usize = REGISTER_WORDS;

    fn zeroed() -> Self {
        Register::new([0; REGISTER_WORDS])
    }

    fn load(&mut self, key: &[u8], iv: &[u8]) -> Result<(), Fault> {
        self.clear();
        if key.len() != 4 * REGISTER_WORDS {
            return Err(Fault::Key(0));
        }
        if !iv.is_empty() {
            return Err(Fault::Iv(0));
        }
        *self = Register::new(numbered(key));
        Ok(())
    }

    #[inline]
    fn forward(&mut self) {
        self.step(0);
    }

    #[inline]
    fn backward(&mut self) {
        self.unstep(0);
    }

    #[inline]
    fn word(&self) -> u32 {
        self.at(0)
    }

    fn origin(&self) -> Option<Origin> {
        Some(Origin {
            key: unnumbered(&self.words()),
            iv: Vec::new(),
        })
    }

    fn fill(&mut self, words: &[u32]) -> Result<(), WrongCount> {
        *self = Register::new(words.try_into().map_err(|_| WrongCount)?);
        Ok(())
    }

    fn state(&self) -> Vec<u32> {
        self.words().to_vec()
    }
}

#[derive(Clone, PartialEq, Eq, Debug)]
pub struct Snow2 {
    register: Register,
    b1: u32,
    b2: u32,
}

impl Snow2 {
    #[inline]
    fn machine(&self) -> u32 {
        self.register.at(15).wrapping_add(self.b1) ^ self.b2
    }

    #[inline]
    fn step(&mut self, v: u32) {
        let b2 = s1(self.b1);
        self.b1 = self.b2.wrapping_add(self.register.at(5));
        self.b2 = b2;
        self.register.step(v);
    }

    /// Undoes a plain step, or a step that joined the machine's output.
    #[inline]
    fn unstep(&mut self, feed: bool) {
        let b1 = s1_inverse(self.b2);
        let b2 = self.b1.wrapping_sub(self.register.at(4));
        let v = self.register.at(14).wrapping_add(b1) ^ b2;
        self.b1 = b1;
        self.b2 = b2;
        self.register.unstep(if feed { v } else { 0 });
    }

    /// A step that joins the machine's output to the register.
    pub fn feed(&mut self) {
        self.step(self.machine());
    }

    /// The steps between the loaded register and the first keystream word.
    pub fn run_in(&mut self) {
        for _ in 0..FEED_STEPS {
            self.feed();
        }
        self.step(0);
    }

    fn run_out(&mut self) {
        self.unstep(false);
        for _ in 0..FEED_STEPS {
            self.unstep(true);
        }
    }
}

impl Generator for Snow2 {
    const SIZE: usize = REGISTER_WORDS + 2;

    fn zeroed() -> Self {
        Snow2 {
            register: Register::zeroed(),
            b1: 0,
            b2: 0,
        }
    }

    fn load(&mut self, key: &[u8], iv: &[u8]) -> Result<(), Fault> {
        self.clear();
        if key.len() != 16 && key.len() != 32 {
            return Err(Fault::Key(0));
        }
        if iv.len() != IV_BYTES {
            return Err(Fault::Iv(0));
        }
        self.register = Register::new(start_register(key, iv));
        self.run_in();
        Ok(())
    }

    #[inline]
    fn forward(&mut self) {
        self.step(0);
    }

    #[inline]
    fn backward(&mut self) {
        self.unstep(false);
    }

    #[inline]
    fn word(&self) -> u32 {
        self.machine() ^ self.register.at(0)
    }

    fn origin(&self) -> Option<Origin> {
        let mut start = self.clone();
        start.run_out();
        if start.b1 != 0 || start.b2 != 0 {
            return None;
        }
        let words = start.register.words();
        read_off(&words, 16).or_else(|| read_off(&words, 32))
    }

    fn fill(&mut self, words: &[u32]) -> Result<(), WrongCount> {
        if words.len() != Self::SIZE {
            return Err(WrongCount);
        }
        let register = Register::new(first_sixteen(words));
        *self = Snow2 {
            register,
            b1: words[16],
            b2: words[17],
        };
        Ok(())
    }

    fn state(&self) -> Vec<u32> {
        let mut words = self.register.state();
        words.extend([self.b1, self.b2]);
        words
    }
}

#[derive(Clone, PartialEq, Eq, Debug)]
pub struct Snow3g {
    register: Register,
    r1: u32,
    r2: u32,
    r3: u32,
}

impl Snow3g {
    #[inline]
    fn machine(&self) -> u32 {
        self.register.at(15).wrapping_add(self.r1) ^ self.r2
    }

    #[inline]
    fn step(&mut self, v: u32) {
        let r1 = self.r2.wrapping_add(self.r3 ^ self.register.at(5));
        self.r3 = s2(self.r2);
        self.r2 = s1(self.r1);
        self.r1 = r1;
        self.register.step(v);
    }

    /// Undoes a plain step, or a step that joined the machine's output.
    #[inline]
    fn unstep(&mut self, feed: bool) {
        let r2 = s2_inverse(self.r3);
        let r1 = s1_inverse(self.r2);
        let r3 = self.r1.wrapping_sub(r2) ^ self.register.at(4);
        let v = self.register.at(14).wrapping_add(r1) ^ r2;
        self.r1 = r1;
        self.r2 = r2;
        self.r3 = r3;
        self.register.unstep(if feed { v } else { 0 });
    }

    /// A step that joins the machine's output to the register.
    pub fn feed(&mut self) {
        self.step(self.machine());
    }

    /// The steps between the loaded register and the first keystream word.
    pub fn run_in(&mut self) {
        for _ in 0..FEED_STEPS {
            self.feed();
        }
        self.step(0);
    }

    fn run_out(&mut self) {
        self.unstep(false);
        for _ in 0..FEED_STEPS {
            self.unstep(true);
        }
    }
}

impl Generator for Snow3g {
    const SIZE: usize = REGISTER_WORDS + 3;

    fn zeroed() -> Self {
        Snow3g {
            register: Register::zeroed(),
            r1: 0,
            r2: 0,
            r3: 0,
        }
    }

    fn load(&mut self, key: &[u8], iv: &[u8]) -> Result<(), Fault> {
        self.clear();
        if key.len() != 32 {
            return Err(Fault::Key(0));
        }
        if iv.len() != IV_BYTES {
            return Err(Fault::Iv(0));
        }
        self.register = Register::new(start_register(key, iv));
        self.run_in();
        Ok(())
    }

    #[inline]
    fn forward(&mut self) {
        self.step(0);
    }

    #[inline]
    fn backward(&mut self) {
        self.unstep(false);
    }

    #[inline]
    fn word(&self) -> u32 {
        self.machine() ^ self.register.at(0)
    }

    fn origin(&self) -> Option<Origin> {
        let mut start = self.clone();
        start.run_out();
        if start.r1 != 0 || start.r2 != 0 || start.r3 != 0 {
            return None;
        }
        read_off(&start.register.words(), 32)
    }

    fn fill(&mut self, words: &[u32]) -> Result<(), WrongCount> {
        if words.len() != Self::SIZE {
            return Err(WrongCount);
        }
        let register = Register::new(first_sixteen(words));
        *self = Snow3g {
            register,
            r1: words[16],
            r2: words[17],
            r3: words[18],
        };
        Ok(())
    }

    fn state(&self) -> Vec<u32> {
        let mut words = self.register.state();
        words.extend([self.r1, self.r2, self.r3]);
        words
    }
}

#[cfg(test)]
mod tests {
    use super::*;
    use crate::random::Random;

    fn returns<G: Generator>(random: &mut Random) {
        let mut generator = G::zeroed();
        let state = random.words(G::SIZE);
        generator.fill(&state).unwrap();
        for _ in 0..50 {
            generator.forward();
        }
        for _ in 0..90 {
            generator.backward();
        }
        for _ in 0..40 {
            generator.forward();
        }
        assert_eq!(generator.state(), state);
    }

    fn names_its_origin<G: Generator>(random: &mut Random, key_bytes: usize, iv_bytes: usize) {
        let (key, iv) = (random.bytes(key_bytes), random.bytes(iv_bytes));
        let mut generator = G::zeroed();
        generator.load(&key, &iv).unwrap();
        assert_eq!(generator.origin(), Some(Origin { key, iv }));
    }

    #[test]
    fn stepping_back_undoes_stepping() {
        let mut random = Random::new(3);
        for _ in 0..100 {
            returns::<Register>(&mut random);
            returns::<Snow2>(&mut random);
            returns::<Snow3g>(&mut random);
        }
    }

    #[test]
    fn a_load_names_its_origin() {
        let mut random = Random::new(4);
        for _ in 0..100 {
            names_its_origin::<Register>(&mut random, 64, 0);
            names_its_origin::<Snow2>(&mut random, 16, 16);
            names_its_origin::<Snow2>(&mut random, 32, 16);
            names_its_origin::<Snow3g>(&mut random, 32, 16);
        }
    }

    #[test]
    fn random_states_have_no_origin() {
        let mut random = Random::new(5);
        let mut snow2 = Snow2::zeroed();
        let mut snow3g = Snow3g::zeroed();
        for _ in 0..100 {
            snow2.fill(&random.words(18)).unwrap();
            snow3g.fill(&random.words(19)).unwrap();
            assert_eq!(snow2.origin(), None);
            assert_eq!(snow3g.origin(), None);
        }
    }
}
