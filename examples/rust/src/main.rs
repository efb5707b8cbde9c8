//! What one transmitter hears in a feed of T2-MI in transport packets: the timestamps, and the functions addressed to
//! it.
//!
//!     site TRANSMITTER [FILE]      the identifier in decimal or 0x..; without FILE, from standard input
//!
//! The same as `examples/c/site.c`, over the safe module `sfn`.

#![forbid(unsafe_code)]

use std::fs::File;
use std::io::{self, Read, Write};
use std::process::ExitCode;
use wasukpelon::sfn::{
    addressing_read, function_read, functions, packet_read, stamp_read, Function, Gathered, Packet,
    Reader, Refusal, StampKind, TRANSPORT,
};

const PID: u16 = 0x1000;

/// What is counted over the whole feed.
#[derive(Default)]
struct Tally {
    transport: usize,
    refused: usize,
    packets: usize,
    losses: usize,
    misfits: usize,
    crcs: usize,
}

impl Tally {
    fn count(&mut self, answer: &Result<Gathered, Refusal>) {
        self.transport += 1;
        match answer {
            Err(_) => self.refused += 1,
            Ok(g) => {
                self.packets += g.count;
                self.losses += usize::from(g.loss);
                self.misfits += usize::from(g.misfit);
                self.crcs += usize::from(g.crc);
            }
        }
    }
}

fn print_stamp(payload: &[u8], to: &mut impl Write) -> io::Result<()> {
    let (s, kind) = match stamp_read(payload) {
        Ok(read) => read,
        Err(refusal) => return writeln!(to, "stamp {refusal}"),
    };
    let kind = match kind {
        StampKind::Absolute => "absolute",
        StampKind::Relative => "relative",
        StampKind::Null => "null",
    };
    let (bw, seconds, subseconds, utco) = (s.bw, s.seconds, s.subseconds, s.utco);
    writeln!(
        to,
        "stamp bw {bw} seconds {seconds} subseconds {subseconds} utco {utco} {kind}"
    )
}

/// Bytes in hexadecimal, a space before each.
fn hex(bytes: &[u8]) -> String {
    bytes.iter().map(|byte| format!(" {byte:02x}")).collect()
}

fn words(f: Function) -> String {
    match f {
        Function::TimeOffset(value) => format!("time offset {value}"),
        Function::FrequencyOffset(value) => format!("frequency offset {value}"),
        Function::Power(value) => format!("power {value}"),
        Function::Private(body) => format!("private{}", hex(body)),
        Function::Cell { id, wait, reserved } => {
            format!("cell {id} wait {} reserved {reserved}", u8::from(wait))
        }
        Function::Enabled(body) => format!("enabled{}", hex(body)),
        Function::Bandwidth { value, wait } => format!("bandwidth {value} wait {}", u8::from(wait)),
        Function::Passed { body, .. } => format!("passed through{}", hex(body)),
    }
}

fn print_functions(payload: &[u8], transmitter: u16, to: &mut impl Write) -> io::Result<()> {
    let data = match addressing_read(payload) {
        Ok(data) => data,
        Err(refusal) => return writeln!(to, "addressing {refusal}"),
    };
    for step in functions(data, transmitter) {
        let read = step.and_then(|(tag, body)| Ok((tag, function_read(tag, body)?)));
        match read {
            Ok((tag, f)) => writeln!(to, "function {tag} {}", words(f))?,
            Err(refusal) => writeln!(to, "function {refusal}")?, // cannot be: the data is judged
        }
    }
    Ok(())
}

fn print_packet(packet: &[u8], transmitter: u16, to: &mut impl Write) -> io::Result<()> {
    match packet_read(packet) {
        Err(refusal) => writeln!(to, "packet {refusal}"),
        Ok(Packet { header, payload }) => match header.kind {
            0x20 => print_stamp(payload, to),
            0x21 => print_functions(payload, transmitter, to),
            _ => Ok(()),
        },
    }
}

/// Reads until the piece is full or the feed ends, and gives how much there was.
fn read_piece(feed: &mut impl Read, piece: &mut [u8]) -> io::Result<usize> {
    let mut len = 0;
    while len < piece.len() {
        match feed.read(&mut piece[len..])? {
            0 => break,
            n => len += n,
        }
    }
    Ok(len)
}

/// Goes through the feed and gives the length of a cut last piece, which is set aside.
fn hear(
    mut feed: impl Read,
    transmitter: u16,
    tally: &mut Tally,
    to: &mut impl Write,
) -> io::Result<usize> {
    let mut reader = Reader::start(PID).map_err(io::Error::other)?;
    let mut transport = [0; TRANSPORT];
    loop {
        let len = read_piece(&mut feed, &mut transport)?;
        if len < TRANSPORT {
            return Ok(len);
        }
        let answer = reader.gather(&transport);
        tally.count(&answer);
        for packet in answer.into_iter().flat_map(|gathered| gathered.packets) {
            print_packet(packet, transmitter, to)?;
        }
    }
}

fn print_tally(t: &Tally, cut: usize, to: &mut impl Write) -> io::Result<()> {
    writeln!(
        to,
        "transport packets {} refused {}",
        t.transport, t.refused
    )?;
    let (packets, losses, misfits, crcs) = (t.packets, t.losses, t.misfits, t.crcs);
    writeln!(
        to,
        "packets {packets} losses {losses} misfits {misfits} crcs {crcs}"
    )?;
    if cut != 0 {
        writeln!(to, "set aside: a cut last piece of {cut} bytes")?;
    }
    Ok(())
}

/// An identifier of 16 bits, in decimal or with 0x.
fn identifier(text: &str) -> Option<u16> {
    let (digits, radix) = match text.strip_prefix("0x") {
        Some(digits) => (digits, 16),
        None => (text, 10),
    };
    // from_str_radix would take a sign too
    let plain = digits.chars().all(|digit| digit.is_digit(radix));
    plain.then(|| u16::from_str_radix(digits, radix).ok())?
}

fn report(feed: impl Read, transmitter: u16) -> io::Result<()> {
    let mut to = io::BufWriter::new(io::stdout().lock());
    let mut tally = Tally::default();
    let cut = hear(io::BufReader::new(feed), transmitter, &mut tally, &mut to)?;
    print_tally(&tally, cut, &mut to)?;
    to.flush()
}

fn main() -> ExitCode {
    let words: Vec<String> = std::env::args().skip(1).collect();
    let transmitter = words.first().and_then(|word| identifier(word));
    let (Some(transmitter), 1..=2) = (transmitter, words.len()) else {
        eprintln!(
            "usage: site TRANSMITTER [FILE]   (TRANSMITTER from 0 to 65535, or 0x0000 to 0xffff)"
        );
        return ExitCode::from(2);
    };
    let done = match words.get(1) {
        None => report(io::stdin().lock(), transmitter),
        Some(file) => File::open(file)
            .map_err(|error| io::Error::new(error.kind(), format!("{file}: {error}")))
            .and_then(|feed| report(feed, transmitter)),
    };
    match done {
        Ok(()) => ExitCode::SUCCESS,
        Err(error) => {
            eprintln!("site: {error}");
            ExitCode::FAILURE
        }
    }
}
