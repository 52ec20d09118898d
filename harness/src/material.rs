//! Random generators, keys, IVs and states to build calls from.

use plain::random::Random;

/// How many words a state has, by generator.
pub const STATE_WORDS: [usize; 5] = [18, 19, 16, 37, 18];

/// One of the five generators, or now and then a number that names none.
pub fn generator(random: &mut Random, unknown_once_in: u64) -> u32 {
    if random.one_in(unknown_once_in) {
        let other = random.word().max(5);
        random.pick(&[5, 6, 255, 256, 0x9000_0000, u32::MAX, other])
    } else {
        random.index(5) as u32
    }
}

/// Bytes that are random, or all zeros, or all ones.
pub fn bytes(random: &mut Random, length: usize) -> Vec<u8> {
    match random.below(12) {
        0 => vec![0; length],
        1 => vec![0xFF; length],
        _ => random.bytes(length),
    }
}

/// The two parts of a pair's key or IV, as it takes them.
pub fn joined(first: &[u8], second: &[u8]) -> Vec<u8> {
    [&[first.len() as u8], first, second].concat()
}

fn cipher_key(random: &mut Random) -> Vec<u8> {
    let length = random.pick(&[16, 32]);
    bytes(random, length)
}

pub fn valid_key(random: &mut Random, generator: u32) -> Vec<u8> {
    match generator {
        1 => bytes(random, 32),
        2 => bytes(random, 64),
        3 => {
            let first = cipher_key(random);
            joined(&first, &bytes(random, 32))
        }
        _ => cipher_key(random),
    }
}

pub fn valid_iv(random: &mut Random, generator: u32) -> Vec<u8> {
    match generator {
        2 => Vec::new(),
        3 => {
            let first = bytes(random, 16);
            joined(&first, &bytes(random, 16))
        }
        _ => bytes(random, 16),
    }
}

/// A length near those that generators take, or any up to `longest`.
fn some_length(random: &mut Random, longest: usize) -> usize {
    let length = match random.below(4) {
        0 => random.pick(&[0, 1, 15, 16, 17, 31, 32, 33, 63, 64, 65]),
        1 => random.pick(&[66, 127, 128, 254, 255, 256, 257, 300]),
        _ => random.index(longest + 1),
    };
    length.min(longest)
}

/// A key or an IV that is joined for a pair in a wrong way: with a first byte
/// that does not fit, with parts of other lengths, cut short, or too long.
fn wrong_join(random: &mut Random, valid: Vec<u8>, longest: usize) -> Vec<u8> {
    let mut wrong = valid;
    match random.below(5) {
        0 => wrong[0] = random.byte(),
        1 => wrong[0] = random.pick(&[0, 15, 16, 17, 31, 32, 33, 48, 64, 65, 254, 255]),
        2 => wrong.truncate(random.index(wrong.len())),
        3 => {
            let longer = random.pick(&[1, 16, 150, 190, 222, 223, 300]);
            wrong.extend(random.bytes(longer));
        }
        _ => {
            let (first, second) = (random.index(70), random.index(70));
            wrong = joined(&random.bytes(first), &random.bytes(second));
        }
    }
    wrong.truncate(longest);
    wrong
}

fn wrong(random: &mut Random, generator: u32, valid: Vec<u8>, longest: usize) -> Vec<u8> {
    if generator == 3 && !random.one_in(4) {
        wrong_join(random, valid, longest)
    } else {
        let length = some_length(random, longest);
        bytes(random, length)
    }
}

/// A key of at most `longest` bytes that the generator mostly refuses.
pub fn wrong_key(random: &mut Random, generator: u32, longest: usize) -> Vec<u8> {
    let valid = valid_key(random, generator);
    wrong(random, generator, valid, longest)
}

/// An IV of at most `longest` bytes that the generator mostly refuses.
pub fn wrong_iv(random: &mut Random, generator: u32, longest: usize) -> Vec<u8> {
    let valid = valid_iv(random, generator);
    wrong(random, generator, valid, longest)
}

/// A state of random words, or one of few different words.
pub fn state(random: &mut Random, words: usize) -> Vec<u32> {
    match random.below(16) {
        0 => vec![0; words],
        1 => vec![u32::MAX; words],
        2 => (0..words)
            .map(|_| random.pick(&[0, 1, u32::MAX, 1 << 31]))
            .collect(),
        _ => random.words(words),
    }
}

/// How many words a state is handed in with: mostly as many as it has.
pub fn state_words(random: &mut Random, generator: u32) -> usize {
    let right = STATE_WORDS.get(generator as usize).copied().unwrap_or(18);
    match random.below(24) {
        0 => random.pick(&[0, 15, 16, 17, 18, 19, 20, 35, 36, 37, 38]),
        1 => random.index(80),
        _ => right,
    }
}
