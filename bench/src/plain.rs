//! The obvious program: what a Rust programmer would write for the same rules, without a thought for proofs. The CRC
//! goes by table, byte by byte; unfinished packets wait in a `Vec`; packets are handed to a closure where they lie.

/// The CRC's polynomial without its top bit: exponents 26, 23, 22, 16, 12, 11, 10, 8, 7, 5, 4, 2, 1, 0 (01, "CRC").
const POLYNOMIAL: u32 = 0x04c1_1db7;

static TABLE: [u32; 256] = table();

const fn table() -> [u32; 256] {
    let mut table = [0; 256];
    let mut k = 0;
    while k < 256 {
        let mut register = (k as u32) << 24;
        let mut bit = 0;
        while bit < 8 {
            let carry = register >> 31;
            register = (register << 1) ^ (carry * POLYNOMIAL);
            bit += 1;
        }
        table[k] = register;
        k += 1;
    }
    table
}

pub fn crc(bytes: &[u8]) -> u32 {
    bytes.iter().fold(!0, |register, byte| {
        (register << 8) ^ TABLE[usize::from((register >> 24) as u8 ^ byte)]
    })
}

/// The packet at the front of the bytes, where all of it is there.
fn whole(bytes: &[u8]) -> Option<&[u8]> {
    let bits = usize::from(u16::from_be_bytes([*bytes.get(4)?, *bytes.get(5)?]));
    bytes.get(..10 + bits.div_ceil(8))
}

/// What a transport packet brings: whether a packet starts in it, its count, and its payload.
struct Transport<'a> {
    start: bool,
    count: u8,
    payload: &'a [u8],
}

/// None where 01 refuses the transport packet (1, 5 to 11).
fn transport_of(bytes: &[u8], pid: u16) -> Option<Transport<'_>> {
    if bytes.len() != 188 || bytes[0] != 0x47 || bytes[1] & 0x80 != 0 || bytes[3] & 0xc0 != 0 {
        return None;
    }
    if u16::from_be_bytes([bytes[1] & 0x1f, bytes[2]]) != pid {
        return None;
    }
    let payload = match bytes[3] >> 4 & 3 {
        1 => &bytes[4..],
        3 if bytes[4] <= 182 => &bytes[5 + usize::from(bytes[4])..],
        _ => return None,
    };
    let start = bytes[1] & 0x40 != 0;
    if start && usize::from(payload[0]) + 1 >= payload.len() {
        return None;
    }
    Some(Transport {
        start,
        count: bytes[3] & 15,
        payload,
    })
}

pub struct Gatherer {
    pid: u16,
    last: Option<u8>,
    in_step: bool,
    waiting: Vec<u8>,
}

impl Gatherer {
    pub fn new(pid: u16) -> Gatherer {
        Gatherer {
            pid,
            last: None,
            in_step: false,
            waiting: Vec::new(),
        }
    }

    /// Takes one transport packet and hands out what it finishes (01, "Carriage: the reader").
    pub fn take(&mut self, bytes: &[u8], mut hand_out: impl FnMut(&[u8])) {
        let Some(transport) = transport_of(bytes, self.pid) else {
            return;
        };
        match self.last {
            Some(last) if last == transport.count => return,
            Some(last) if (last + 1) % 16 != transport.count => self.lose_step(),
            _ => {}
        }
        self.last = Some(transport.count);
        if transport.start {
            let pointer = usize::from(transport.payload[0]);
            let (before, after) = transport.payload[1..].split_at(pointer);
            self.go_on(before, &mut hand_out);
            self.follow(after, &mut hand_out);
        } else {
            self.go_on(transport.payload, &mut hand_out);
        }
    }

    fn lose_step(&mut self) {
        self.in_step = false;
        self.waiting.clear();
    }

    /// Bytes of the packet under way. It may end with them; more than its end does not fit (rules 2 and 4).
    fn go_on(&mut self, bytes: &[u8], hand_out: &mut impl FnMut(&[u8])) {
        if !self.in_step {
            return;
        }
        if self.waiting.is_empty() {
            self.in_step = bytes.is_empty();
            return;
        }
        self.waiting.extend_from_slice(bytes);
        if let Some(packet) = whole(&self.waiting) {
            let good = crc(packet) == 0;
            if good {
                hand_out(packet);
            }
            self.in_step = good && packet.len() == self.waiting.len();
            self.waiting.clear();
        }
    }

    /// From a start on: packet after packet, and the last one waits (rules 3 and 4).
    fn follow(&mut self, mut bytes: &[u8], hand_out: &mut impl FnMut(&[u8])) {
        self.lose_step();
        while let Some(packet) = whole(bytes) {
            if crc(packet) != 0 {
                return;
            }
            hand_out(packet);
            bytes = &bytes[packet.len()..];
        }
        self.waiting.extend_from_slice(bytes);
        self.in_step = true;
    }
}
