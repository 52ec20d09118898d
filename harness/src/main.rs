//! Compares the proved library with the plain implementation on many random
//! inputs, and then how fast both are.

mod calls;
mod compare;
mod guarded;
mod library;
mod material;
mod speed;
mod strip_maker;

use std::path::PathBuf;
use std::process::ExitCode;
use std::time::Instant;

use compare::Tally;

const USAGE: &str = "harness --sheet PROGRAM [--seed N] [--cases N] [--strips N] [--no-speed]
  --sheet PROGRAM  the program sheet, to be run on strips
  --seed N         the number that all random inputs are made from (default 1)
  --cases N        random inputs through the library (default 300000)
  --strips N       strips for the program (default 3000)
  --no-speed       compare only";

struct Options {
    sheet: PathBuf,
    seed: u64,
    cases: u64,
    strips: u64,
    speed: bool,
}

fn number(value: Option<String>) -> Result<u64, String> {
    let value = value.ok_or("a number is missing")?;
    value.parse().map_err(|_| format!("{value} is no number"))
}

fn options(mut arguments: impl Iterator<Item = String>) -> Result<Options, String> {
    let mut options = Options {
        sheet: PathBuf::new(),
        seed: 1,
        cases: 300_000,
        strips: 3_000,
        speed: true,
    };
    while let Some(argument) = arguments.next() {
        match argument.as_str() {
            "--sheet" => options.sheet = arguments.next().unwrap_or_default().into(),
            "--seed" => options.seed = number(arguments.next())?,
            "--cases" => options.cases = number(arguments.next())?,
            "--strips" => options.strips = number(arguments.next())?,
            "--no-speed" => options.speed = false,
            _ => return Err(format!("{argument} is no option")),
        }
    }
    if options.sheet.as_os_str().is_empty() && options.strips > 0 {
        return Err("the program sheet is missing".into());
    }
    Ok(options)
}

/// All comparisons, printed one by one. The shares of the cases are by how
/// much there is to go wrong.
fn compare_all(options: &Options) -> Vec<Tally> {
    let Options {
        seed,
        cases,
        strips,
        ..
    } = *options;
    let share = |percent: u64| cases * percent / 100;
    let comparisons: [(&dyn Fn() -> Tally, &str); 7] = [
        (&|| compare::fields::compare_tables(seed), "all"),
        (
            &|| compare::fields::compare_boxes(seed, share(20).max(20_000)),
            "random",
        ),
        (&|| compare::words::compare(seed, share(20)), "random"),
        (&|| compare::keystream::compare(seed, share(30)), "random"),
        (&|| compare::trace::compare(seed, share(15)), "random"),
        (
            &|| compare::labels::compare(seed, share(10)),
            "all small, and random",
        ),
        (&|| compare::sheets::compare(seed, share(25)), "random"),
    ];
    let mut tallies = Vec::new();
    for (comparison, inputs) in comparisons {
        let begun = Instant::now();
        let tally = comparison();
        tally.print();
        println!(
            "    {inputs} inputs, {:.1} s",
            begun.elapsed().as_secs_f64()
        );
        tallies.push(tally);
    }
    if strips > 0 {
        let tally = compare::program::compare(seed, strips, &options.sheet);
        tally.print();
        tallies.push(tally);
    }
    tallies
}

fn main() -> ExitCode {
    let options = match options(std::env::args().skip(1)) {
        Ok(options) => options,
        Err(problem) => {
            eprintln!("{problem}\n{USAGE}");
            return ExitCode::from(2);
        }
    };
    println!("seed {}, {} cases", options.seed, options.cases);
    let tallies = compare_all(&options);
    let cases: u64 = tallies.iter().map(Tally::cases).sum();
    let differences: u64 = tallies.iter().map(Tally::differences).sum();
    println!("in all: {cases} compared, {differences} differences");
    if options.speed {
        speed::measure();
    }
    ExitCode::from(u8::from(differences > 0))
}
