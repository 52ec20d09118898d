//! Keystream words from filled states, forwards and after stepping back.

use plain::random::Random;

use super::Tally;
use crate::calls::WordsCall;
use crate::guarded::Guarded;
use crate::material;

fn some_call(random: &mut Random) -> WordsCall {
    let generator = material::generator(random, 40);
    let size = material::state_words(random, generator);
    let back = match random.below(8) {
        0..=2 => 0,
        3..=6 => random.below(64),
        _ => random.below(2_000),
    };
    let count = match random.below(20) {
        0 => random.index(3_000),
        1 => 0,
        _ => random.index(80),
    };
    WordsCall {
        generator,
        state: Guarded::new(&material::state(random, size)),
        back,
        words: Guarded::new(&random.words(count)),
    }
}

pub fn compare(seed: u64, count: u64) -> Tally {
    let mut tally = Tally::new("words of filled states", seed);
    for case in 0..count {
        let mut random = Random::for_case(seed, 2, case);
        tally.compare(case, &some_call(&mut random));
    }
    tally
}
