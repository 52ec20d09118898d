//! Makes random sheets: orders that follow the session they are meant for,
//! with values at the borders, and damage done to whole sheets.

use plain::random::Random;
use plain::strips::{kind, LONGEST_STRIP, SHEET_MARK};

use crate::material;

/// Accepted skips step word by word, so with a high limit they stay below this.
const LONGEST_SKIP: u64 = 5_000;

/// A sheet in the making. Position and limit are those that the session has
/// if it accepts what is meant to be accepted.
pub struct Maker<'a> {
    random: &'a mut Random,
    generator: u32,
    sheet: Vec<u8>,
    open: bool,
    position: u64,
    limit: u64,
}

impl<'a> Maker<'a> {
    pub fn new(random: &'a mut Random, generator: u32) -> Self {
        let sheet = (SHEET_MARK | generator).to_be_bytes().to_vec();
        Maker {
            random,
            generator,
            sheet,
            open: false,
            position: 0,
            limit: 0,
        }
    }

    /// A sheet of so many orders, mostly with an end behind them.
    pub fn make(mut self, orders: usize) -> Vec<u8> {
        if !self.random.one_in(8) {
            self.open();
        }
        for _ in 0..orders {
            self.order();
        }
        if !self.random.one_in(12) {
            self.first_word(kind::END, 0);
        }
        if self.random.one_in(12) {
            let behind = 4 * self.random.index(6);
            self.sheet.extend(self.random.bytes(behind));
        }
        self.sheet
    }

    fn first_word(&mut self, kind: u32, low: u64) {
        self.word(kind << 28 | low as u32 & 0x0FFF_FFFF);
    }

    fn word(&mut self, word: u32) {
        self.sheet.extend(word.to_be_bytes());
    }

    /// Bytes filled to whole words, now and then with what is not zero.
    fn filled(&mut self, bytes: &[u8]) {
        self.sheet.extend(bytes);
        while !self.sheet.len().is_multiple_of(4) {
            let byte = if self.random.one_in(200) {
                self.random.byte()
            } else {
                0
            };
            self.sheet.push(byte);
        }
    }

    fn order(&mut self) {
        match self.random.below(40) {
            0..=12 => self.apply(),
            13..=18 => self.skip(),
            19..=25 => self.step_back(),
            26..=29 => self.first_word(kind::POSITION, 0),
            30..=32 => self.first_word(kind::ORIGIN, 0),
            33 | 34 => self.close(),
            35..=37 if self.open => self.apply(),
            39 if self.random.one_in(4) => {
                let word = self.random.word();
                self.word(word);
            }
            _ => self.open(),
        }
    }

    fn open(&mut self) {
        let (key_fits, iv_fits) = (!self.random.one_in(10), !self.random.one_in(10));
        let key = match key_fits {
            true => material::valid_key(self.random, self.generator),
            false => material::wrong_key(self.random, self.generator, 255),
        };
        let iv = match iv_fits {
            true => material::valid_iv(self.random, self.generator),
            false => material::wrong_iv(self.random, self.generator, 255),
        };
        let limit = match self.random.below(12) {
            0 => 0,
            1 => self.random.pick(&[1, 2, u32::MAX]),
            2..=5 => self.random.between(1, 40) as u32,
            _ => self.random.between(1, 2_000) as u32,
        };
        self.first_word(kind::OPEN, (key.len() << 20 | iv.len() << 12) as u64);
        self.word(limit);
        self.filled(&key);
        self.filled(&iv);
        if !self.open && key_fits && iv_fits && limit != 0 {
            self.open = true;
            self.position = 0;
            self.limit = 4 * u64::from(limit);
        }
    }

    fn left(&self) -> u64 {
        self.limit - self.position
    }

    fn apply(&mut self) {
        let count = match self.random.below(24) {
            0 => 0,
            1 if self.left() <= 3_000 => self.left() + self.random.below(2),
            2 => self.random.below(2_000),
            _ => self.random.below(20),
        };
        self.apply_to(count as usize);
    }

    pub fn apply_to(&mut self, count: usize) {
        let payload = self.random.bytes(count);
        self.first_word(kind::APPLY, count as u64);
        self.filled(&payload);
        if self.open && count as u64 <= self.left() {
            self.position += count as u64;
        }
    }

    fn skip(&mut self) {
        let mut count = match self.random.below(8) {
            0 => self.left() + self.random.below(2),
            1 => self.random.pick(&[0, 100_000, (1 << 28) - 1]),
            2 => self.random.below(self.left() + 1),
            _ => self.random.below(30),
        };
        if self.left() > 100_000 {
            count = count.min(self.random.below(LONGEST_SKIP));
        }
        self.first_word(kind::SKIP, count);
        if self.open && count <= self.left() {
            self.position += count;
        }
    }

    fn step_back(&mut self) {
        let count = match self.random.below(8) {
            0 => self.position + self.random.below(2),
            1 => self.random.pick(&[0, 100_000, (1 << 28) - 1]),
            2 => self.random.below(self.position + 1),
            _ => self.random.below(12),
        };
        self.first_word(kind::STEP_BACK, count);
        if self.open && count <= self.position {
            self.position -= count;
        }
    }

    fn close(&mut self) {
        self.first_word(kind::CLOSE, 0);
        self.open = false;
        self.position = 0;
        self.limit = 0;
    }
}

/// A sheet whose orders or replies come near to the most that there may be.
pub fn long_sheet(random: &mut Random, generator: u32) -> Vec<u8> {
    let payload = random.pick(&[30_000, 60_000, 63_000, 63_800]);
    let mut maker = Maker::new(random, generator);
    maker.open();
    let mut sheet = match maker.random.below(4) {
        0 => {
            maker.apply_to(payload);
            maker.make(4)
        }
        1 => maker.make(3_000),
        _ => {
            // Orders of one word each, answered by a word each.
            let order = maker
                .random
                .pick(&[kind::SKIP, kind::STEP_BACK, kind::CLOSE]);
            while maker.sheet.len() < LONGEST_STRIP - 4 {
                maker.first_word(order, 0);
            }
            maker.first_word(kind::END, 0);
            maker.sheet
        }
    };
    let longest = random.pick(&[63_996, 64_000, 64_000, 64_000, 64_001, 64_004]);
    sheet.truncate(longest);
    sheet
}

/// A word that is no order, or that has a bit set where its kind has none.
fn bad_word(random: &mut Random) -> u32 {
    match random.below(3) {
        0 => ((random.between(8, 15) as u32) << 28) | (random.word() >> 4),
        1 => random.pick(&[0, 5, 6, 7]) << 28 | 1 << random.index(28),
        _ => 0x1000_0000 | 1 << random.index(12),
    }
}

/// A place between words, the first word being the generator's.
fn word_place(random: &mut Random, sheet: &[u8]) -> usize {
    4 * random.index(sheet.len() / 4 + 1)
}

fn insert(random: &mut Random, sheet: &mut Vec<u8>, word: u32) {
    let place = word_place(random, sheet);
    sheet.splice(place..place, word.to_be_bytes());
}

fn flip_bits(random: &mut Random, sheet: &mut [u8]) {
    for _ in 0..random.between(1, 3) {
        if !sheet.is_empty() {
            let place = random.index(sheet.len());
            sheet[place] ^= 1 << random.index(8);
        }
    }
}

/// Puts a length at the borders, by cutting or by words that are ends.
fn change_length(random: &mut Random, sheet: &mut Vec<u8>) {
    let border = LONGEST_STRIP + random.index(9) - 4;
    let short = random.index(12);
    let length = random.pick(&[border, LONGEST_STRIP, 70_000, short, 0]);
    sheet.resize(length, 0);
}

fn wrong_name(random: &mut Random) -> u32 {
    let any = random.word();
    random.pick(&[
        0x9000_0005,
        0x9000_00FF,
        0x9100_0000,
        0x8000_0000,
        0,
        1,
        any,
    ])
}

/// Does one damage to a sheet.
pub fn damage(random: &mut Random, sheet: &mut Vec<u8>) {
    match random.below(9) {
        0 | 1 => flip_bits(random, sheet),
        2 => sheet.truncate(word_place(random, sheet)),
        3 => sheet.truncate(random.index(sheet.len() + 1)),
        4 => {
            let word = random.word();
            insert(random, sheet, word);
        }
        5 => {
            let word = bad_word(random);
            insert(random, sheet, word);
        }
        6 => {
            let odd = random.index(3) + 1;
            sheet.extend(random.bytes(odd));
        }
        7 => change_length(random, sheet),
        _ => {
            let name = wrong_name(random).to_be_bytes();
            let shared = sheet.len().min(4);
            sheet[..shared].copy_from_slice(&name[..shared]);
        }
    }
}

/// A random sheet, short or long, whole or damaged.
pub fn some_sheet(random: &mut Random) -> Vec<u8> {
    let generator = random.index(5) as u32;
    let mut sheet = match random.below(60) {
        0 => long_sheet(random, generator),
        1..=4 => Maker::new(random, generator).make(100),
        _ => {
            let orders = random.index(24);
            Maker::new(random, generator).make(orders)
        }
    };
    if random.one_in(3) {
        for _ in 0..random.between(1, 2) {
            damage(random, &mut sheet);
        }
    }
    sheet
}
