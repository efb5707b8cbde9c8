//! The subcommands; see README.md.

#![deny(unsafe_code)]

use independent::{compare, model, vectors};
use std::io::Read;
use std::process::ExitCode;
use std::time::{SystemTime, UNIX_EPOCH};

const USAGE: &str = "usage: independent vectors
       independent compare [--seed N] [--seconds S]
       independent listing < TRANSPORT-PACKETS
       independent compare-listing PROGRAM [WORD..] [--seed N] [--seconds S]";

fn main() -> ExitCode {
    let arguments: Vec<String> = std::env::args().skip(1).collect();
    let words: Vec<&str> = arguments.iter().map(String::as_str).collect();
    let outcome = match words.as_slice() {
        ["vectors"] => Ok(vectors::text()),
        ["compare", options @ ..] => timed(options, compare::compare),
        ["listing"] => listing(),
        ["compare-listing", words @ ..] => compare_listing(words),
        _ => Err(USAGE.to_string()),
    };
    match outcome {
        Ok(text) => {
            print!("{text}");
            ExitCode::SUCCESS
        }
        Err(report) => {
            eprintln!("{report}");
            ExitCode::FAILURE
        }
    }
}

/// What the listing program must print for the standard input.
fn listing() -> Result<String, String> {
    let mut input = Vec::new();
    let read = std::io::stdin().lock().read_to_end(&mut input);
    read.map_err(|error| error.to_string())?;
    Ok(model::listing::text(&input))
}

/// The program is called by all words up to the first option.
fn compare_listing(words: &[&str]) -> Result<String, String> {
    let is_option = |word: &&str| word.starts_with("--");
    let end = words.iter().position(is_option).unwrap_or(words.len());
    let (program, options) = words.split_at(end);
    if program.is_empty() {
        return Err(USAGE.to_string());
    }
    timed(options, |seed, seconds| {
        compare::listing::compare(program, seed, seconds)
    })
}

/// A comparison with a seed, which is printed first, and a time.
fn timed(
    options: &[&str],
    comparison: impl Fn(u64, u64) -> Result<String, String>,
) -> Result<String, String> {
    let seed = option(options, "--seed")?.unwrap_or_else(seed_from_clock);
    let seconds = option(options, "--seconds")?.unwrap_or(60);
    println!("seed {seed}");
    let counts = comparison(seed, seconds)?;
    Ok(counts + "compared: no mismatch\n")
}

/// The number after `name` among `--name N` pairs; none where it is not there.
fn option(options: &[&str], name: &str) -> Result<Option<u64>, String> {
    let mut found = None;
    for pair in options.chunks(2) {
        match pair {
            [key, value] if ["--seed", "--seconds"].contains(key) => {
                let number = value.parse().map_err(|_| USAGE.to_string())?;
                if *key == name {
                    found = Some(number);
                }
            }
            _ => return Err(USAGE.to_string()),
        }
    }
    Ok(found)
}

fn seed_from_clock() -> u64 {
    let since = SystemTime::now().duration_since(UNIX_EPOCH);
    since.map_or(0, |duration| duration.as_nanos() as u64)
}
