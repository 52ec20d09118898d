//! The calls of the boundary as values: each can be put to the plain
//! implementation and to the proved library, and is altered in place.

use std::fmt;

use plain::ciphers::{Register, Snow2, Snow3g};
use plain::generator::{Generator, WrongCount};
use plain::labels::label;
use plain::layers::{EveryOther, Pair};
use plain::session::{trace, Refusal, Session};
use plain::strips::{answer_sheet, Report};

use crate::guarded::Guarded;
use crate::library::{self, Names, Opening, Outcome, Part};

pub const GENERATORS: [&str; 5] = ["SNOW 2.0", "SNOW 3G", "register", "pair", "every other"];

pub type PairOfSnows = Pair<Snow2, Snow3g>;
pub type EveryOtherSnow2 = EveryOther<Snow2>;

const UNKNOWN_GENERATOR: u64 = 18;

/// A call that both sides can be asked.
pub trait Call: Clone + PartialEq + fmt::Display {
    type Answer: PartialEq + fmt::Debug;

    fn plain(&mut self) -> Self::Answer;

    fn proved(&mut self) -> Self::Answer;

    /// The refusal in an answer, or 0.
    fn number(answer: &Self::Answer) -> u64;
}

#[derive(Clone, PartialEq)]
pub struct KeystreamCall {
    pub generator: u32,
    pub key: Guarded<u8>,
    pub iv: Guarded<u8>,
    pub limit: u64,
    pub skipped: u64,
    pub buffer: Guarded<u8>,
    pub start: usize,
    pub count: usize,
}

impl KeystreamCall {
    fn over<G: Generator>(&mut self) -> Outcome {
        match self.through(Session::<G>::new()) {
            Ok(()) => Outcome {
                number: 0,
                member: 0,
            },
            Err(refusal) => Outcome {
                number: refusal.number(),
                member: refusal.member(),
            },
        }
    }

    fn through<G: Generator>(&mut self, mut session: Session<G>) -> Result<(), Refusal> {
        session.open(&mut self.key, &self.iv, self.limit)?;
        session.skip(self.skipped)?;
        session.apply_keystream(&mut self.buffer, self.start, self.count)
    }
}

impl Call for KeystreamCall {
    type Answer = Outcome;

    fn plain(&mut self) -> Outcome {
        match self.generator {
            0 => self.over::<Snow2>(),
            1 => self.over::<Snow3g>(),
            2 => self.over::<Register>(),
            3 => self.over::<PairOfSnows>(),
            4 => self.over::<EveryOtherSnow2>(),
            _ => {
                self.key.fill(0);
                Outcome {
                    number: UNKNOWN_GENERATOR,
                    member: 0,
                }
            }
        }
    }

    fn proved(&mut self) -> Outcome {
        let opening = Opening {
            key: &mut self.key,
            iv: &self.iv,
            limit: self.limit,
            skipped: self.skipped,
        };
        library::keystream(
            self.generator,
            opening,
            &mut self.buffer,
            self.start,
            self.count,
        )
    }

    fn number(answer: &Outcome) -> u64 {
        answer.number
    }
}

impl fmt::Display for KeystreamCall {
    fn fmt(&self, f: &mut fmt::Formatter) -> fmt::Result {
        writeln!(
            f,
            "generator {} limit {} skipped {}",
            self.generator, self.limit, self.skipped
        )?;
        writeln!(f, "key {}\niv {}", self.key, self.iv)?;
        write!(
            f,
            "start {} count {} buffer {}",
            self.start, self.count, self.buffer
        )
    }
}

#[derive(Clone, PartialEq)]
pub struct TraceCall {
    pub generator: u32,
    pub state: Guarded<u32>,
    pub n: u64,
    pub key: Guarded<u8>,
    pub iv: Guarded<u8>,
}

impl TraceCall {
    fn over<G: Generator>(&mut self) -> Names {
        let mut generator = G::zeroed();
        let refused = |number| Names {
            number,
            key: 0,
            iv: 0,
        };
        if generator.fill(&self.state).is_err() {
            return refused(WrongCount::NUMBER);
        }
        match trace(&generator, self.n, &mut self.key, &mut self.iv) {
            Ok(lengths) => Names {
                number: 0,
                key: lengths.key as u64,
                iv: lengths.iv as u64,
            },
            Err(refusal) => refused(refusal.number()),
        }
    }
}

impl Call for TraceCall {
    type Answer = Names;

    fn plain(&mut self) -> Names {
        match self.generator {
            0 => self.over::<Snow2>(),
            1 => self.over::<Snow3g>(),
            2 => self.over::<Register>(),
            3 => self.over::<PairOfSnows>(),
            4 => self.over::<EveryOtherSnow2>(),
            _ => Names {
                number: UNKNOWN_GENERATOR,
                key: 0,
                iv: 0,
            },
        }
    }

    fn proved(&mut self) -> Names {
        library::trace(
            self.generator,
            &self.state,
            self.n,
            &mut self.key,
            &mut self.iv,
        )
    }

    fn number(answer: &Names) -> u64 {
        answer.number
    }
}

impl fmt::Display for TraceCall {
    fn fmt(&self, f: &mut fmt::Formatter) -> fmt::Result {
        writeln!(
            f,
            "generator {} n {} state {}",
            self.generator, self.n, self.state
        )?;
        write!(f, "key buffer {}\niv buffer {}", self.key, self.iv)
    }
}

#[derive(Clone, PartialEq)]
pub struct WordsCall {
    pub generator: u32,
    pub state: Guarded<u32>,
    pub back: u64,
    pub words: Guarded<u32>,
}

impl WordsCall {
    fn over<G: Generator>(&mut self) -> u64 {
        let mut generator = G::zeroed();
        if generator.fill(&self.state).is_err() {
            return WrongCount::NUMBER;
        }
        for _ in 0..self.back {
            generator.backward();
        }
        for word in self.words.iter_mut() {
            *word = generator.word();
            generator.forward();
        }
        0
    }
}

impl Call for WordsCall {
    type Answer = u64;

    fn plain(&mut self) -> u64 {
        match self.generator {
            0 => self.over::<Snow2>(),
            1 => self.over::<Snow3g>(),
            2 => self.over::<Register>(),
            3 => self.over::<PairOfSnows>(),
            4 => self.over::<EveryOtherSnow2>(),
            _ => UNKNOWN_GENERATOR,
        }
    }

    fn proved(&mut self) -> u64 {
        library::words(self.generator, &self.state, self.back, &mut self.words)
    }

    fn number(answer: &u64) -> u64 {
        *answer
    }
}

impl fmt::Display for WordsCall {
    fn fmt(&self, f: &mut fmt::Formatter) -> fmt::Result {
        writeln!(
            f,
            "generator {} back {} state {}",
            self.generator, self.back, self.state
        )?;
        write!(f, "words {}", self.words)
    }
}

#[derive(Clone, PartialEq)]
pub struct LabelCall {
    pub key: Guarded<u8>,
    pub iv: Guarded<u8>,
    pub number: u64,
}

impl Call for LabelCall {
    type Answer = Part;

    fn plain(&mut self) -> Part {
        match label(&self.key, &self.iv, self.number) {
            Ok(bytes) => {
                let word = bytes
                    .iter()
                    .fold(0, |word, &byte| word << 8 | u64::from(byte));
                Part { number: 0, word }
            }
            Err(fault) => Part {
                number: fault.number(),
                word: 0,
            },
        }
    }

    fn proved(&mut self) -> Part {
        library::label(&self.key, &self.iv, self.number)
    }

    fn number(answer: &Part) -> u64 {
        answer.number
    }
}

impl fmt::Display for LabelCall {
    fn fmt(&self, f: &mut fmt::Formatter) -> fmt::Result {
        write!(
            f,
            "number {}\nkey {}\niv {}",
            self.number, self.key, self.iv
        )
    }
}

#[derive(Clone, PartialEq)]
pub struct SheetCall {
    pub input: Guarded<u8>,
    pub replies: Guarded<u8>,
}

impl Call for SheetCall {
    type Answer = Report;

    fn plain(&mut self) -> Report {
        answer_sheet(&self.input, &mut self.replies)
    }

    fn proved(&mut self) -> Report {
        library::sheet(&self.input, &mut self.replies)
    }

    fn number(answer: &Report) -> u64 {
        answer.number
    }
}

impl fmt::Display for SheetCall {
    fn fmt(&self, f: &mut fmt::Formatter) -> fmt::Result {
        write!(f, "sheet {}\nreplies {}", self.input, self.replies)
    }
}
