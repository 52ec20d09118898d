//! How fast keystream and sheets are, proved and plain, in the same run.

use std::hint::black_box;
use std::time::Instant;

use plain::random::Random;
use plain::strips::{kind, LONGEST_STRIP, SHEET_MARK};

use crate::calls::{Call, KeystreamCall, SheetCall, GENERATORS};
use crate::guarded::Guarded;
use crate::material::{valid_iv, valid_key};

const RUNS: usize = 7;
const BUFFER_BYTES: usize = 16 << 20;
const PAYLOAD_BYTES: usize = 60_000;
const SHEETS_A_RUN: usize = 100;

/// Millions of bytes in a second.
fn rate(bytes: usize, seconds: f64) -> f64 {
    bytes as f64 / seconds / 1e6
}

fn print_row(what: &str, proved: f64, plain: f64) {
    println!(
        "    {what:<14}{proved:>10.1}{plain:>10.1}{:>10.3}",
        proved / plain
    );
}

/// The seconds that one keystream call takes. Before it the buffer is cleared
/// and the key put back, which is not timed.
fn time_keystream(
    call: &mut KeystreamCall,
    key: &[u8],
    run: fn(&mut KeystreamCall) -> crate::library::Outcome,
) -> f64 {
    call.key.copy_from_slice(key);
    call.buffer.fill(0);
    let begun = Instant::now();
    let outcome = run(black_box(call));
    let seconds = begun.elapsed().as_secs_f64();
    assert_eq!(outcome.number, 0, "the keystream call is accepted");
    black_box(&call.buffer[..]);
    seconds
}

fn keystream_row(generator: u32) {
    let mut random = Random::new(u64::from(generator));
    let key = valid_key(&mut random, generator);
    let mut call = KeystreamCall {
        generator,
        key: Guarded::new(&key),
        iv: Guarded::new(&valid_iv(&mut random, generator)),
        limit: 1 << 50,
        skipped: 0,
        buffer: Guarded::new(&vec![0; BUFFER_BYTES]),
        start: 0,
        count: BUFFER_BYTES,
    };
    let (mut proved, mut plain) = (f64::MAX, f64::MAX);
    for _ in 0..RUNS {
        proved = proved.min(time_keystream(&mut call, &key, KeystreamCall::proved));
        plain = plain.min(time_keystream(&mut call, &key, KeystreamCall::plain));
    }
    let name = GENERATORS[generator as usize];
    print_row(name, rate(BUFFER_BYTES, proved), rate(BUFFER_BYTES, plain));
}

/// A sheet that opens, applies keystream to one long payload, and ends.
fn speed_sheet(generator: u32) -> Vec<u8> {
    let mut random = Random::new(u64::from(generator));
    let (key, iv) = (
        valid_key(&mut random, generator),
        valid_iv(&mut random, generator),
    );
    let open = kind::OPEN << 28 | (key.len() << 20 | iv.len() << 12) as u32;
    let mut sheet = Vec::new();
    for word in [SHEET_MARK | generator, open, 1 << 20] {
        sheet.extend(word.to_be_bytes());
    }
    for bytes in [key, iv] {
        sheet.extend(bytes);
        sheet.resize(sheet.len().next_multiple_of(4), 0);
    }
    sheet.extend((kind::APPLY << 28 | PAYLOAD_BYTES as u32).to_be_bytes());
    sheet.extend(random.bytes(PAYLOAD_BYTES));
    sheet.extend((kind::END << 28).to_be_bytes());
    sheet
}

/// The seconds that many answers to one sheet take, in a reply buffer that is
/// cleared before the first and not between them.
fn time_sheets(call: &mut SheetCall, run: fn(&mut SheetCall) -> plain::strips::Report) -> f64 {
    call.replies.fill(0);
    let begun = Instant::now();
    for _ in 0..SHEETS_A_RUN {
        let report = run(black_box(&mut *call));
        assert_eq!(report.number, 0, "the sheet is answered to its end");
    }
    black_box(&call.replies[..]);
    begun.elapsed().as_secs_f64()
}

fn sheet_row(generator: u32) {
    let mut call = SheetCall {
        input: Guarded::new(&speed_sheet(generator)),
        replies: Guarded::new(&[0; LONGEST_STRIP]),
    };
    let (mut proved, mut plain) = (f64::MAX, f64::MAX);
    for _ in 0..RUNS {
        proved = proved.min(time_sheets(&mut call, SheetCall::proved));
        plain = plain.min(time_sheets(&mut call, SheetCall::plain));
    }
    let bytes = SHEETS_A_RUN * PAYLOAD_BYTES;
    print_row(
        GENERATORS[generator as usize],
        rate(bytes, proved),
        rate(bytes, plain),
    );
}

fn print_head() {
    println!(
        "    {:<14}{:>10}{:>10}{:>10}",
        "MB/s", "proved", "plain", "ratio"
    );
}

pub fn measure() {
    println!("speed, in millions of bytes a second; ratio is proved / plain");
    println!("keystream applied to one buffer of {BUFFER_BYTES} bytes by a session, best of {RUNS} runs;");
    println!("the buffer is cleared before each run, outside of the time");
    print_head();
    (0..5).for_each(keystream_row);
    println!("{SHEETS_A_RUN} answers to a sheet with one payload of {PAYLOAD_BYTES} bytes, best of {RUNS} runs;");
    println!("the reply buffer is cleared before each run, outside of the time");
    print_head();
    (0..5).for_each(sheet_row);
}
