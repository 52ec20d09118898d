//! Generators made of generators.

use crate::generator::{Fault, Generator, Origin, WrongCount, LONGEST};

/// Two generators side by side, their words joined.
#[derive(Clone, PartialEq, Eq, Debug)]
pub struct Pair<A, B> {
    first: A,
    second: B,
}

/// A byte m, m bytes for the first, and the rest for the second.
fn split(bytes: &[u8]) -> Option<(&[u8], &[u8])> {
    if bytes.len() > LONGEST {
        return None;
    }
    let (&m, rest) = bytes.split_first()?;
    rest.split_at_checked(usize::from(m))
}

/// Undoes `split`, where the result is not too long.
fn joined(first: &[u8], second: &[u8]) -> Option<Vec<u8>> {
    let m = u8::try_from(first.len()).ok()?;
    let bytes = [&[m], first, second].concat();
    (bytes.len() <= LONGEST).then_some(bytes)
}

impl<A: Generator, B: Generator> Pair<A, B> {
    fn load_parts(&mut self, key: &[u8], iv: &[u8]) -> Result<(), Fault> {
        let (first_key, second_key) = split(key).ok_or(Fault::Key(0))?;
        let (first_iv, second_iv) = split(iv).ok_or(Fault::Iv(0))?;
        self.first
            .load(first_key, first_iv)
            .map_err(|fault| fault.of_member(1))?;
        self.second
            .load(second_key, second_iv)
            .map_err(|fault| fault.of_member(2))
    }
}

impl<A: Generator, B: Generator> Generator for Pair<A, B> {
    const SIZE: usize = A::SIZE + B::SIZE;

    fn zeroed() -> Self {
        Pair {
            first: A::zeroed(),
            second: B::zeroed(),
        }
    }

    fn load(&mut self, key: &[u8], iv: &[u8]) -> Result<(), Fault> {
        let loaded = self.load_parts(key, iv);
        if loaded.is_err() {
            self.clear();
        }
        loaded
    }

    #[inline]
    fn forward(&mut self) {
        self.first.forward();
        self.second.forward();
    }

    #[inline]
    fn backward(&mut self) {
        self.first.backward();
        self.second.backward();
    }

    #[inline]
    fn word(&self) -> u32 {
        self.first.word() ^ self.second.word()
    }

    fn origin(&self) -> Option<Origin> {
        let first = self.first.origin()?;
        let second = self.second.origin()?;
        Some(Origin {
            key: joined(&first.key, &second.key)?,
            iv: joined(&first.iv, &second.iv)?,
        })
    }

    fn fill(&mut self, words: &[u32]) -> Result<(), WrongCount> {
        if words.len() != Self::SIZE {
            return Err(WrongCount);
        }
        let (first, second) = words.split_at(A::SIZE);
        self.first.fill(first)?;
        self.second.fill(second)
    }

    fn state(&self) -> Vec<u32> {
        [self.first.state(), self.second.state()].concat()
    }
}

/// Steps two words at a time, so that every other word comes out.
#[derive(Clone, PartialEq, Eq, Debug)]
pub struct EveryOther<G> {
    below: G,
}

impl<G: Generator> Generator for EveryOther<G> {
    const SIZE: usize = G::SIZE;

    fn zeroed() -> Self {
        EveryOther { below: G::zeroed() }
    }

    fn load(&mut self, key: &[u8], iv: &[u8]) -> Result<(), Fault> {
        self.below.load(key, iv)
    }

    #[inline]
    fn forward(&mut self) {
        self.below.forward();
        self.below.forward();
    }

    #[inline]
    fn backward(&mut self) {
        self.below.backward();
        self.below.backward();
    }

    #[inline]
    fn word(&self) -> u32 {
        self.below.word()
    }

    fn origin(&self) -> Option<Origin> {
        self.below.origin()
    }

    fn fill(&mut self, words: &[u32]) -> Result<(), WrongCount> {
        self.below.fill(words)
    }

    fn state(&self) -> Vec<u32> {
        self.below.state()
    }
}

#[cfg(test)]
mod tests {
    use super::*;
    use crate::ciphers::{Register, Snow2, Snow3g};
    use crate::random::Random;

    #[test]
    fn a_pair_joins_both_keystreams() {
        let mut random = Random::new(6);
        let (k2, k3) = (random.bytes(16), random.bytes(32));
        let (iv2, iv3) = (random.bytes(16), random.bytes(16));
        let (mut snow2, mut snow3g) = (Snow2::zeroed(), Snow3g::zeroed());
        snow2.load(&k2, &iv2).unwrap();
        snow3g.load(&k3, &iv3).unwrap();
        let mut pair = Pair::<Snow2, Snow3g>::zeroed();
        let (key, iv) = (joined(&k2, &k3).unwrap(), joined(&iv2, &iv3).unwrap());
        pair.load(&key, &iv).unwrap();
        assert_eq!(pair.origin(), Some(Origin { key, iv }));
        for _ in 0..20 {
            assert_eq!(pair.word(), snow2.word() ^ snow3g.word());
            pair.forward();
            snow2.forward();
            snow3g.forward();
        }
    }

    #[test]
    fn faults_of_a_pair_name_the_member() {
        let mut pair = Pair::<Snow2, Snow3g>::zeroed();
        let iv = joined(&[0; 16], &[0; 16]).unwrap();
        let key = joined(&[0; 32], &[0; 32]).unwrap();
        let cases: [(Vec<u8>, Vec<u8>, Fault); 8] = [
            (vec![], iv.clone(), Fault::Key(0)),
            (vec![5, 1, 2], iv.clone(), Fault::Key(0)),
            (vec![0; 256], vec![], Fault::Key(0)),
            (vec![0], vec![], Fault::Iv(0)),
            (vec![0], iv.clone(), Fault::Key(1)),
            (key.clone(), vec![0], Fault::Iv(1)),
            (joined(&[0; 16], &[]).unwrap(), iv.clone(), Fault::Key(2)),
            (key, joined(&[0; 16], &[]).unwrap(), Fault::Iv(2)),
        ];
        for (key, iv, fault) in cases {
            assert_eq!(pair.load(&key, &iv), Err(fault));
            assert_eq!(pair, Pair::zeroed());
        }
    }

    #[test]
    fn too_long_an_origin_is_none() {
        // Four registers have 1 + 1 + 64 + 64 + 1 + 64 + 64 bytes of key, which
        // is above the longest.
        type Two = Pair<Register, Register>;
        assert!(Two::zeroed().origin().is_some());
        assert_eq!(Pair::<Two, Two>::zeroed().origin(), None);
    }

    #[test]
    fn every_other_word_is_left_out() {
        let mut random = Random::new(7);
        let (key, iv) = (random.bytes(32), random.bytes(16));
        let (mut snow2, mut every_other) = (Snow2::zeroed(), EveryOther::<Snow2>::zeroed());
        snow2.load(&key, &iv).unwrap();
        every_other.load(&key, &iv).unwrap();
        for _ in 0..20 {
            assert_eq!(every_other.word(), snow2.word());
            every_other.forward();
            snow2.forward();
            snow2.forward();
        }
    }
}
