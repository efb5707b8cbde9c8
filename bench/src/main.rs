//! How fast the proved library gathers, beside an obvious Rust program on the same feed in memory. Ours is called as a
//! user calls it: each packet that a call hands out is cut out by the library's own length.
//!
//!     bench                  64 MiB, 9 rounds
//!     bench --quick          8 MiB, 3 rounds
//!     bench --once ours 10   gathers one feed of 10-byte packets once, for a profiler (or `plain`)

#![forbid(unsafe_code)]

mod feed;
mod plain;

use std::hint::black_box;
use std::time::Instant;
use wasukpelon::sfn::{self, Reader, TRANSPORT};

/// The sizes of T2-MI packets, from the least to the most that 01 has.
const SIZES: [usize; 4] = [10, 100, 1000, 8202];

/// What a run handed out: packets and bytes.
type Handed = (u64, u64);

fn gather_ours(feed: &[u8], mut hand_out: impl FnMut(&[u8])) {
    let mut reader = Reader::start(feed::PID).expect("the PID was refused");
    for transport in feed.chunks(TRANSPORT) {
        if let Ok(gathered) = reader.gather(transport) {
            gathered.packets.for_each(&mut hand_out);
        }
    }
}

fn gather_plain(feed: &[u8], mut hand_out: impl FnMut(&[u8])) {
    let mut gatherer = plain::Gatherer::new(feed::PID);
    for transport in feed.chunks(TRANSPORT) {
        gatherer.take(transport, &mut hand_out);
    }
}

/// Counts what is handed out: as little work as a caller can have with a packet.
fn counted(handed: &mut Handed) -> impl FnMut(&[u8]) + '_ {
    |packet| {
        handed.0 += 1;
        handed.1 += packet.len() as u64;
    }
}

fn count_ours(feed: &[u8]) -> Handed {
    let mut handed = (0, 0);
    gather_ours(feed, counted(&mut handed));
    handed
}

fn count_plain(feed: &[u8]) -> Handed {
    let mut handed = (0, 0);
    gather_plain(feed, counted(&mut handed));
    handed
}

/// Packets and a sum over every byte and every packet's end, so that other packets give another sum (FNV, 64 bits).
#[derive(Debug, PartialEq)]
struct Sum {
    packets: u64,
    sum: u64,
}

impl Sum {
    fn new() -> Sum {
        Sum {
            packets: 0,
            sum: 0xcbf2_9ce4_8422_2325,
        }
    }

    fn add(&mut self, packet: &[u8]) {
        let bytes = packet.iter().map(|byte| u64::from(*byte));
        for item in bytes.chain([256]) {
            self.sum = (self.sum ^ item).wrapping_mul(0x100_0000_01b3);
        }
        self.packets += 1;
    }
}

/// Both give the same packets, or there is nothing to compare.
fn check_same(feed: &[u8], what: &str) {
    let (mut ours, mut plain) = (Sum::new(), Sum::new());
    gather_ours(feed, |packet| ours.add(packet));
    gather_plain(feed, |packet| plain.add(packet));
    assert_eq!(ours, plain, "{what}: the two give other packets");
    assert!(ours.packets > 0, "{what}: no packets came out");
}

fn seconds<T>(work: impl FnOnce() -> T) -> f64 {
    let start = Instant::now();
    black_box(work());
    start.elapsed().as_secs_f64()
}

fn median(mut times: Vec<f64>) -> f64 {
    times.sort_by(f64::total_cmp);
    times[times.len() / 2]
}

/// What a line of the table is about: so many bytes, in so many packets or buffers.
struct Line {
    name: String,
    bytes: usize,
    pieces: usize,
}

/// Runs the two in turn and prints a line: the median speed of each, ours as a part of the other, and each one's time
/// for a piece.
fn compare<T>(line: Line, rounds: usize, ours: impl Fn() -> T, plain: impl Fn() -> T) {
    let pairs = (0..rounds).map(|_| (seconds(&ours), seconds(&plain)));
    let (ours, plain): (Vec<f64>, Vec<f64>) = pairs.unzip();
    let (ours, plain) = (median(ours), median(plain));
    let speed = |time| line.bytes as f64 / time / 1e6;
    let each = |time| time / line.pieces as f64 * 1e9;
    println!(
        "{:<24} {:>8.0} {:>8.0} {:>7.2} {:>12.0} {:>12.0}",
        line.name,
        speed(ours),
        speed(plain),
        plain / ours,
        each(ours),
        each(plain)
    );
}

fn bench_gathering(len: usize, rounds: usize) {
    for size in SIZES {
        let feed = feed::feed(size, len);
        check_same(&feed, "the feed");
        check_same(&feed::damaged(&feed), "the damaged feed");
        let line = Line {
            name: format!("gather, packets of {size}"),
            bytes: feed.len(),
            pieces: count_ours(&feed).0 as usize,
        };
        compare(line, rounds, || count_ours(&feed), || count_plain(&feed));
    }
}

/// The CRCs of all buffers of a size, folded into one number.
fn crcs(bytes: &[u8], size: usize, crc: impl Fn(&[u8]) -> u32) -> u32 {
    bytes.chunks(size).fold(0, |all, buffer| all ^ crc(buffer))
}

fn bench_crc(len: usize, rounds: usize) {
    let bytes = feed::Numbers(0xc4c).bytes(len);
    for size in SIZES.into_iter().chain([len]) {
        let ours = || crcs(&bytes, size, sfn::crc);
        let plain = || crcs(&bytes, size, plain::crc);
        assert_eq!(ours(), plain(), "the two give other CRCs");
        let line = Line {
            name: format!("CRC, buffers of {size}"),
            bytes: len,
            pieces: len.div_ceil(size),
        };
        compare(line, rounds, ours, plain);
    }
}

fn main() {
    let words: Vec<String> = std::env::args().skip(1).collect();
    let words: Vec<&str> = words.iter().map(String::as_str).collect();
    let (mib, rounds) = match words[..] {
        [] => (64, 9),
        ["--quick"] => (8, 3),
        ["--once", side, size] => {
            let feed = feed::feed(size.parse().expect("a size from 10 to 8202"), 8 << 20);
            let gather = if side == "ours" {
                count_ours
            } else {
                count_plain
            };
            println!("packets and bytes {:?}", black_box(gather(&feed)));
            return;
        }
        _ => {
            eprintln!("usage: bench [--quick | --once ours|plain SIZE]");
            std::process::exit(2);
        }
    };
    println!("{mib} MiB in memory, {rounds} rounds in turn, medians; each: per packet or buffer");
    println!(
        "{:<24} {:>8} {:>8} {:>7} {:>12} {:>12}",
        "", "ours", "plain", "ratio", "ours each", "plain each"
    );
    println!(
        "{:<24} {:>8} {:>8} {:>7} {:>12} {:>12}",
        "", "MB/s", "MB/s", "", "ns", "ns"
    );
    bench_gathering(mib << 20, rounds);
    bench_crc(mib << 20, rounds);
}
