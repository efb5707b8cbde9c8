//! The listing program: its output against the model's text.
//!
//! It is a program of its own, so it is run for each input; it needs no group of
//! the library.

use super::inputs;
use super::ways::{self, Cutter};
use super::{hex, over, Outcome};
use crate::model::carry::TRANSPORT;
use crate::model::listing;
use crate::model::packet::compose;
use crate::prng::Prng;
use std::io::Write;
use std::process::{Command, Stdio};
use std::thread;
use std::time::{Duration, Instant};

const PID: u16 = 0x1000;

/// More than three blocks of the program's input, and the lines that a long listing has
/// at least.
const LONG: usize = 600_000;
const LONG_LINES: usize = 3_000;

/// What must each be met in a run.
const WANTED: [&str; 4] = ["refused 20", "refused 21", "refused 22", "gaps 1\n"];

/// Runs the program, which is called by these words, on inputs for so many
/// seconds; gives how many there were.
pub fn compare(program: &[&str], seed: u64, seconds: u64) -> Result<String, String> {
    let mut prng = Prng::new(seed);
    let until = Instant::now() + Duration::from_secs(seconds);
    let mut met = [0; WANTED.len()];
    let mut inputs = fixed_inputs(&mut prng);
    let mut runs = 0;
    while runs < inputs.len() || !over(until) {
        if runs == inputs.len() {
            inputs.push(any_input(&mut prng));
        }
        let expected = listing::text(&inputs[runs]);
        one_run(program, &inputs[runs], usize::MAX, &expected)
            .map_err(|text| format!("{text}, seed {seed}"))?;
        for (times, wanted) in met.iter_mut().zip(WANTED) {
            *times += usize::from(expected.contains(wanted));
        }
        runs += 1;
    }
    let lines = long_runs(program, &mut prng).map_err(|text| format!("{text}, seed {seed}"))?;
    match met.iter().position(|times| *times == 0) {
        Some(missing) => Err(format!("UNSEEN in the listing: {:?}", WANTED[missing])),
        None => Ok(format!(
            "listing runs {runs}, long ones with {lines} lines\n"
        )),
    }
}

/// Long inputs, in writes of odd sizes; gives how many lines they have in all.
fn long_runs(program: &[&str], prng: &mut Prng) -> Result<usize, String> {
    let small = small_packets();
    let mixed = mixed_packets(prng);
    // One byte at a time is slow: a tenth of it.
    let runs = [
        (&small[..], 65_537),
        (&small[..], 1_000),
        (&mixed[..], 187),
        (&mixed[..], usize::MAX),
        (&small[..LONG / 10], 1),
    ];
    let mut lines = 0;
    for (input, size) in runs {
        let expected = listing::text(input);
        let count = expected.lines().count();
        if count < LONG_LINES && input.len() >= LONG {
            return Err(format!("a long listing has {count} lines"));
        }
        one_run(program, input, size, &expected)?;
        lines += count;
    }
    Ok(lines)
}

/// Feeds the program the input in writes of this size.
fn one_run(program: &[&str], input: &[u8], size: usize, expected: &str) -> Outcome {
    let (succeeded, printed) = run(program, input, size)?;
    if succeeded && printed == expected.as_bytes() {
        return Ok(());
    }
    if input.len() > LONG / 20 {
        let mut pairs = printed.iter().zip(expected.as_bytes());
        let at = pairs.position(|(printed, wanted)| printed != wanted);
        return Err(format!(
            "success {succeeded}, writes of {size}, {} bytes and not {}, the first wrong at {at:?}: MISMATCH in a long listing",
            printed.len(),
            expected.len()
        ));
    }
    Err(format!(
        "{}model:\n{expected}program (success: {succeeded}):\n{}MISMATCH in the listing",
        hex("input", input),
        String::from_utf8_lossy(&printed)
    ))
}

/// Whether the program ended well, and what it printed.
fn run(program: &[&str], input: &[u8], size: usize) -> Result<(bool, Vec<u8>), String> {
    let fault = |error: std::io::Error| format!("{}: {error}", program.join(" "));
    let (name, words) = program.split_first().ok_or("no program to run")?;
    let mut child = Command::new(name)
        .args(words)
        .stdin(Stdio::piped())
        .stdout(Stdio::piped())
        .spawn()
        .map_err(fault)?;
    let mut stdin = child.stdin.take().ok_or("no standard input")?;
    let input = input.to_vec();
    // In a thread, for the program may print before it has read all. If it ends
    // early its output tells more than the broken pipe.
    let feeder =
        thread::spawn(move || input.chunks(size).all(|part| stdin.write_all(part).is_ok()));
    let output = child.wait_with_output().map_err(fault)?;
    feeder.join().map_err(|_| "the feeding thread failed")?;
    Ok((output.status.success(), output.stdout))
}

/// No input, every cut piece, 01's example, each refusal of a reading.
fn fixed_inputs(prng: &mut Prng) -> Vec<Vec<u8>> {
    let mut count = 0;
    let mut stamp = vec![0xFF; 11];
    stamp[0] = 4;
    let example = [
        compose(0x20, 5, 0x10, 0, 88, &stamp),
        compose(0x12, 6, 0x10, 0, 40, &[0; 5]),
    ];
    let example = ways::written(PID, &mut count, &example).concat();
    let refused = [
        compose(0x00, 1, 0x01, 0x00, 0, &[]),
        compose(0x03, 2, 0x00, 0x00, 0, &[]),
        compose(0x00, 3, 0x00, 0x00, 1, &[0x41]),
    ];
    count = 5;
    let refused = ways::written(PID, &mut count, &refused).concat();
    // One packet is missing between the two.
    let both = [&example[..], &refused[..]].concat();
    let mut inputs = vec![vec![], example, refused, both];
    for len in [1, 187, 188, 189, 375, 376] {
        inputs.push(prng.bytes(len));
    }
    inputs
}

/// Packets of 10 bytes, eighteen in a transport packet: many lines for few bytes.
fn small_packets() -> Vec<u8> {
    let mut carried = 0;
    let mut input = Vec::new();
    let mut next = 0u32;
    while input.len() < LONG {
        let packets: Vec<_> = (next..next + 1_800)
            .map(|n| compose(0x12, n as u8, (n / 256 % 16 * 16) as u8, 0, 0, &[]))
            .collect();
        input.extend(ways::written(PID, &mut carried, &packets).concat());
        next += 1_800;
    }
    input
}

/// Packets of any kind, with small ones between them.
fn mixed_packets(prng: &mut Prng) -> Vec<u8> {
    let small = small_packets();
    let mut input = Vec::new();
    while input.len() < LONG {
        input.extend(any_input(prng));
        // Not always on a boundary: the reader finds its step again, or does not.
        input.truncate(input.len() / TRANSPORT * TRANSPORT);
        input.extend_from_slice(&small[..TRANSPORT * prng.between(1, 20)]);
    }
    input.extend(prng.bytes(100));
    input
}

/// A journey on the listing's PID, of our writer's making or others', with a
/// cut piece at the end.
fn any_input(prng: &mut Prng) -> Vec<u8> {
    let mut cutter = Cutter {
        pid: PID,
        count: prng.below(16) as u8,
        short: prng.pick(&[0, 3]),
        wrong: prng.pick(&[0, 20]),
    };
    let one_loss_in = prng.pick(&[10, 50, 10_000]);
    let is_ours = prng.one_in(2);
    let mut input = Vec::new();
    for _ in 0..prng.between(1, 12) {
        let packets = ways::packets(prng, !is_ours);
        let sent = if is_ours {
            ways::written(PID, &mut cutter.count, &packets)
        } else {
            cutter.cut(prng, &packets)
        };
        input.extend(ways::on_the_way(prng, &sent, one_loss_in).concat());
    }
    let piece = prng.below(TRANSPORT);
    input.extend(prng.bytes(piece));
    if prng.one_in(20) {
        inputs::change_length(prng, &mut input);
    }
    input
}
