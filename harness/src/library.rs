//! The proved library, through the functions that it exports. A slice crosses
//! as a pointer and a length.

use plain::strips::Report;

/// Nothing that the library answers looks like this, so a field that it leaves
/// alone shows.
const UNWRITTEN: u64 = 0xDEAD_DEAD_DEAD_DEAD;

/// The number of a refusal, or 0, and the member that refused.
#[repr(C)]
#[derive(Clone, Copy, PartialEq, Eq, Debug)]
pub struct Outcome {
    pub number: u64,
    pub member: u64,
}

/// The number of a refusal, or 0, and the lengths of a key and an IV.
#[repr(C)]
#[derive(Clone, Copy, PartialEq, Eq, Debug)]
pub struct Names {
    pub number: u64,
    pub key: u64,
    pub iv: u64,
}

/// The number of a refusal, or 0, and a word of a key or an IV.
#[repr(C)]
#[derive(Clone, Copy, PartialEq, Eq, Debug)]
pub struct Part {
    pub number: u64,
    pub word: u64,
}

#[repr(C)]
struct SheetReport {
    number: u64,
    words: u64,
    bytes: u64,
    refused: u64,
}

extern "C" {
    fn jorumdell_sheet(
        input: *const u8,
        input_len: usize,
        replies: *mut u8,
        replies_len: usize,
        report: *mut SheetReport,
    );

    fn jorumdell_keystream(
        generator: u32,
        key: *mut u8,
        key_len: usize,
        iv: *const u8,
        iv_len: usize,
        limit: u64,
        skipped: u64,
        buffer: *mut u8,
        buffer_len: usize,
        start: usize,
        count: usize,
        outcome: *mut Outcome,
    );

    fn jorumdell_trace(
        generator: u32,
        state: *const u32,
        state_len: usize,
        n: u64,
        key: *mut u8,
        key_len: usize,
        iv: *mut u8,
        iv_len: usize,
        names: *mut Names,
    );

    fn jorumdell_words(
        generator: u32,
        state: *const u32,
        state_len: usize,
        back: u64,
        words: *mut u32,
        words_len: usize,
    ) -> u64;

    fn jorumdell_label(
        key: *const u8,
        key_len: usize,
        iv: *const u8,
        iv_len: usize,
        number: u64,
        part: *mut Part,
    );

    fn jorumdell_table(table: u32, entry: u8) -> u32;

    fn jorumdell_box(which: u32, word: u32) -> u32;
}

pub fn sheet(input: &[u8], replies: &mut [u8]) -> Report {
    let mut report = SheetReport {
        number: UNWRITTEN,
        words: UNWRITTEN,
        bytes: UNWRITTEN,
        refused: UNWRITTEN,
    };
    // SAFETY: both slices and the report are valid for their lengths, and the
    // mutable ones are borrowed by this call alone.
    unsafe {
        jorumdell_sheet(
            input.as_ptr(),
            input.len(),
            replies.as_mut_ptr(),
            replies.len(),
            &mut report,
        );
    }
    let SheetReport {
        number,
        words,
        bytes,
        refused,
    } = report;
    Report {
        number,
        words,
        bytes,
        refused,
    }
}

/// What is asked of a new session: to open, skip, and apply keystream.
pub struct Opening<'a> {
    pub key: &'a mut [u8],
    pub iv: &'a [u8],
    pub limit: u64,
    pub skipped: u64,
}

pub fn keystream(
    generator: u32,
    opening: Opening,
    buffer: &mut [u8],
    start: usize,
    count: usize,
) -> Outcome {
    let Opening {
        key,
        iv,
        limit,
        skipped,
    } = opening;
    let mut outcome = Outcome {
        number: UNWRITTEN,
        member: UNWRITTEN,
    };
    // SAFETY: as in `sheet`.
    unsafe {
        jorumdell_keystream(
            generator,
            key.as_mut_ptr(),
            key.len(),
            iv.as_ptr(),
            iv.len(),
            limit,
            skipped,
            buffer.as_mut_ptr(),
            buffer.len(),
            start,
            count,
            &mut outcome,
        );
    }
    outcome
}

pub fn trace(generator: u32, state: &[u32], n: u64, key: &mut [u8], iv: &mut [u8]) -> Names {
    let mut names = Names {
        number: UNWRITTEN,
        key: UNWRITTEN,
        iv: UNWRITTEN,
    };
    // SAFETY: as in `sheet`.
    unsafe {
        jorumdell_trace(
            generator,
            state.as_ptr(),
            state.len(),
            n,
            key.as_mut_ptr(),
            key.len(),
            iv.as_mut_ptr(),
            iv.len(),
            &mut names,
        );
    }
    names
}

pub fn words(generator: u32, state: &[u32], back: u64, words: &mut [u32]) -> u64 {
    // SAFETY: as in `sheet`.
    unsafe {
        jorumdell_words(
            generator,
            state.as_ptr(),
            state.len(),
            back,
            words.as_mut_ptr(),
            words.len(),
        )
    }
}

pub fn label(key: &[u8], iv: &[u8], number: u64) -> Part {
    let mut part = Part {
        number: UNWRITTEN,
        word: UNWRITTEN,
    };
    // SAFETY: as in `sheet`.
    unsafe {
        jorumdell_label(
            key.as_ptr(),
            key.len(),
            iv.as_ptr(),
            iv.len(),
            number,
            &mut part,
        );
    }
    part
}

pub fn table(table: u32, entry: u8) -> u32 {
    // SAFETY: no memory crosses.
    unsafe { jorumdell_table(table, entry) }
}

pub fn box_of(which: u32, word: u32) -> u32 {
    // SAFETY: no memory crosses.
    unsafe { jorumdell_box(which, word) }
}
