//! A made-up feed in memory: T2-MI packets of one size, carried by the library's own writers.

use wasukpelon::sfn::{carry, carry_room, packet_write, Header, BATCH_MOST, TRANSPORT};

pub const PID: u16 = 0x1000;

/// Numbers that look random and are the same in every run.
pub struct Numbers(pub u64);

impl Numbers {
    pub fn next(&mut self) -> u64 {
        self.0 ^= self.0 << 13;
        self.0 ^= self.0 >> 7;
        self.0 ^= self.0 << 17;
        self.0
    }

    pub fn bytes(&mut self, len: usize) -> Vec<u8> {
        (0..len).map(|_| self.next() as u8).collect()
    }
}

/// The packet of `size` bytes under a count: 10 of its own, and the payload. The longest one has a payload_len of
/// 65,535 bits and so one pad bit.
fn packet(size: usize, count: u8, numbers: &mut Numbers) -> Vec<u8> {
    let mut payload = numbers.bytes(size - 10);
    let bits = u16::try_from(8 * payload.len()).unwrap_or(u16::MAX);
    if usize::from(bits) < 8 * payload.len() {
        *payload.last_mut().expect("bits without bytes") &= 0xfe;
    }
    let header = Header {
        kind: 0x00,
        count,
        frame: 0,
        stream: 0,
        bits,
    };
    let mut out = vec![0; size];
    packet_write(header, &payload, &mut out).expect("a packet of the feed was refused");
    out
}

/// A batch as full as packets of this size make it.
fn batch(size: usize, numbers: &mut Numbers) -> Vec<u8> {
    let packets = BATCH_MOST / size;
    (0..packets)
        .flat_map(|n| packet(size, n as u8, numbers))
        .collect()
}

/// Whole transport packets of about `len` bytes in all, with T2-MI packets of `size` bytes.
pub fn feed(size: usize, len: usize) -> Vec<u8> {
    let mut numbers = Numbers(0x5eed_0fa1);
    let batches: Vec<Vec<u8>> = (0..4).map(|_| batch(size, &mut numbers)).collect();
    let mut room = vec![0; carry_room(BATCH_MOST)];
    let mut feed = Vec::with_capacity(len + room.len());
    let mut count = 0;
    for batch in batches.iter().cycle() {
        let carried = carry(PID, count, batch, &mut room).expect("a batch was refused");
        count = carried.next_count;
        feed.extend_from_slice(&room[..TRANSPORT * carried.packets]);
        if feed.len() >= len {
            break;
        }
    }
    feed
}

/// The same feed after a bad link: about one transport packet in fifty is gone, and one in fifty has a bit turned.
pub fn damaged(feed: &[u8]) -> Vec<u8> {
    let mut numbers = Numbers(0xbad_11c5);
    let mut arrived = Vec::with_capacity(feed.len());
    for transport in feed.chunks(TRANSPORT) {
        match numbers.next() % 50 {
            0 => continue,
            1 => {
                let mut turned = transport.to_vec();
                turned[numbers.next() as usize % TRANSPORT] ^= 1 << (numbers.next() % 8);
                arrived.extend(turned);
            }
            _ => arrived.extend_from_slice(transport),
        }
    }
    arrived
}
