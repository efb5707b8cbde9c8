//! Individual addressing: the payload (type 0x21), its data, the walk for one
//! transmitter, and the bodies of functions. 01, "Timestamp and addressing
//! payloads"; 002, clause 5.2.8; 000, clauses 6 and 6.1.

use super::answers::{Addressing, Function, Walked, Written};
use super::write_at_start;

/// The length byte of the payload counts no more.
pub const MOST_DATA: usize = 255;
/// function_length counts the tag and itself too (01's house rule).
pub const MOST_BODY: usize = 253;
/// tx_identifier and function_loop_length.
const GROUP_HEADER: usize = 3;
/// tag and function_length.
const FUNCTION_HEADER: usize = 2;
/// Addresses all transmitters.
const BROADCAST: u16 = 0x0000;

/// A function of the data: whose it is, where its tag stands, where it ends.
#[derive(Clone, Copy, Debug, PartialEq)]
struct Placed {
    identifier: u16,
    at: usize,
    end: usize,
}

/// All functions of the data in byte order, or the refusal of the first bad
/// place: a group header (26) or a function (27, 28, 29).
fn functions(data: &[u8]) -> Result<Vec<Placed>, u32> {
    let mut found = Vec::new();
    let mut at = 0;
    while at < data.len() {
        if data.len() - at < GROUP_HEADER {
            return Err(26);
        }
        let identifier = u16::from_be_bytes([data[at], data[at + 1]]);
        let loop_start = at + GROUP_HEADER;
        let loop_end = loop_start + usize::from(data[at + 2]);
        if loop_end > data.len() {
            return Err(26);
        }
        at = loop_start;
        while at < loop_end {
            let end = function_end(data, at, loop_end)?;
            found.push(Placed {
                identifier,
                at,
                end,
            });
            at = end;
        }
    }
    Ok(found)
}

/// The end of the function at this place of its loop, or the place's refusal.
fn function_end(data: &[u8], at: usize, loop_end: usize) -> Result<usize, u32> {
    let left = loop_end - at;
    if left < FUNCTION_HEADER {
        return Err(27);
    }
    let length = usize::from(data[at + 1]);
    if length < FUNCTION_HEADER || length > left {
        return Err(27);
    }
    let end = at + length;
    match refusal_of_body(data[at], &data[at + FUNCTION_HEADER..end]) {
        0 => Ok(end),
        refusal => Err(refusal),
    }
}

/// 28 and 29 for a tag and its body. Lengths as in 01's table, less the two
/// bytes of tag and length.
fn refusal_of_body(tag: u8, body: &[u8]) -> u32 {
    let fits = match tag {
        0 => body.len() == 2,
        1 => body.len() == 3,
        2 => body.len() == 2,
        4 => body.len() == 3,
        6 => body.len() == 1,
        _ => true, // 3, 5 and those passed through: any length
    };
    if !fits {
        return 28;
    }
    // Seven bits of bandwidth, of which only 0 (5 MHz) has a meaning.
    if tag == 6 && body[0] >> 1 != 0 {
        return 29;
    }
    0
}

/// The refusal of addressing data, or 0: the walk that payloads and MIPs need.
pub fn check(data: &[u8]) -> u32 {
    match functions(data) {
        Ok(_) => 0,
        Err(refusal) => refusal,
    }
}

/// Reads a payload; its data is `payload[2 ..]`.
/// Order of 01: 23, 20, then the data.
pub fn read(payload: &[u8]) -> Addressing {
    let refusal = refusal_of_reading(payload);
    if refusal != 0 {
        return Addressing { refusal, bytes: 0 };
    }
    Addressing {
        refusal: 0,
        bytes: (payload.len() - 2) as u32,
    }
}

fn refusal_of_reading(payload: &[u8]) -> u32 {
    if payload.len() < 2 || payload.len() != 2 + usize::from(payload[1]) {
        return 23;
    }
    if payload[0] != 0 {
        return 20;
    }
    check(&payload[2..])
}

/// Writes a payload of this data into a buffer with the contents `out`.
/// Order of 01: 38, the same walk, 16.
pub fn write(data: &[u8], out: &[u8]) -> (Written, Vec<u8>) {
    let refusal = refusal_of_writing(data, out.len());
    if refusal != 0 {
        return (Written { refusal, bytes: 0 }, out.to_vec());
    }
    let mut whole = vec![0, data.len() as u8];
    whole.extend_from_slice(data);
    let bytes = whole.len() as u32;
    (Written { refusal: 0, bytes }, write_at_start(out, &whole))
}

fn refusal_of_writing(data: &[u8], room: usize) -> u32 {
    if data.len() > MOST_DATA {
        return 38;
    }
    let refusal = check(data);
    if refusal != 0 {
        return refusal;
    }
    if room < 2 + data.len() {
        return 16;
    }
    0
}

/// One step of the walk for a transmitter, from a place of the data.
/// Order of 01: 38 (over 255 bytes), 26 to 29, 38 (a place it never reaches).
pub fn walk(data: &[u8], transmitter: u16, place: u32) -> Walked {
    if data.len() > MOST_DATA {
        return walk_refused(38);
    }
    let all = match functions(data) {
        Ok(all) => all,
        Err(refusal) => return walk_refused(refusal),
    };
    let own = |each: &&Placed| [transmitter, BROADCAST].contains(&each.identifier);
    let given: Vec<Placed> = all.iter().filter(own).copied().collect();
    let place = place as usize;
    if !is_reached(data, &given, place) {
        return walk_refused(38);
    }
    match given.iter().find(|each| each.at >= place) {
        Some(function) => walked(data, function),
        None => Walked {
            next: data.len() as u32,
            ..Walked::default()
        },
    }
}

/// 01: 0, the place just after each function given, and the data's end.
fn is_reached(data: &[u8], given: &[Placed], place: usize) -> bool {
    place == 0 || place == data.len() || given.iter().any(|each| each.end == place)
}

fn walk_refused(refusal: u32) -> Walked {
    Walked {
        refusal,
        ..Walked::default()
    }
}

fn walked(data: &[u8], function: &Placed) -> Walked {
    let start = function.at + FUNCTION_HEADER;
    Walked {
        refusal: 0,
        start: start as u32,
        body: (function.end - start) as u32,
        next: function.end as u32,
        given: 1,
        tag: data[function.at],
    }
}

/// Reads a tag and a body into fields. Order of 01: 38, 28, 29.
pub fn function_read(tag: u8, body: &[u8]) -> Function {
    let refusal = if body.len() > MOST_BODY {
        38
    } else {
        refusal_of_body(tag, body)
    };
    if refusal != 0 {
        return Function {
            refusal,
            ..Function::default()
        };
    }
    let mut fields = Function {
        kind: tag.min(7),
        tag,
        ..Function::default()
    };
    match tag {
        0 => fields.value = signed(body),
        1 => fields.value = signed(body),
        2 => fields.value = unsigned(body),
        4 => {
            fields.value = unsigned(&body[..2]);
            fields.wait = body[2] >> 7;
            fields.reserved = body[2] & 0x7F;
        }
        6 => {
            fields.value = i32::from(body[0] >> 1);
            fields.wait = body[0] & 1;
        }
        _ => {} // the body itself is all there is
    }
    fields
}

/// Two or three bytes as a number without sign.
fn unsigned(body: &[u8]) -> i32 {
    body.iter()
        .fold(0, |before, byte| before * 256 + i32::from(*byte))
}

/// Two or three bytes in two's complement: with the top bit set, the number
/// less two to the power of its width.
fn signed(body: &[u8]) -> i32 {
    let number = unsigned(body);
    if body[0] >= 0x80 {
        number - (1 << (8 * body.len()))
    } else {
        number
    }
}

/// Writes fields as a body into a buffer with the contents `out`; `bytes` is
/// the body of the kinds 3, 5 and 7. Order of 01: 38, 29, 16.
pub fn function_write(
    kind: u8,
    tag: u8,
    value: i32,
    wait: u8,
    reserved: u8,
    bytes: &[u8],
    out: &[u8],
) -> (Written, Vec<u8>) {
    let refused = |refusal| (Written { refusal, bytes: 0 }, out.to_vec());
    if is_too_wide(kind, tag, value, wait, reserved, bytes) {
        return refused(38);
    }
    if kind == 6 && value != 0 {
        return refused(29);
    }
    let body = body_of(kind, value, wait, reserved, bytes);
    if out.len() < body.len() {
        return refused(16);
    }
    let bytes = body.len() as u32;
    (Written { refusal: 0, bytes }, write_at_start(out, &body))
}

/// Refusal 38. A field that the kind does not have is not looked at, save
/// `bytes`, which `sfn.h` asks to be empty where the kind has none.
fn is_too_wide(kind: u8, tag: u8, value: i32, wait: u8, reserved: u8, bytes: &[u8]) -> bool {
    let tag_is_right = match kind {
        0..=6 => tag == kind,
        7 => tag >= 7,
        _ => false,
    };
    let fields_fit = match kind {
        0 => (-32_768..=32_767).contains(&value),
        1 => (-8_388_608..=8_388_607).contains(&value),
        2 => (0..=65_535).contains(&value),
        4 => (0..=65_535).contains(&value) && wait <= 1 && reserved <= 127,
        6 => (0..=127).contains(&value) && wait <= 1,
        _ => true,
    };
    let bytes_fit = match kind {
        3 | 5 | 7 => bytes.len() <= MOST_BODY,
        _ => bytes.is_empty(),
    };
    !(tag_is_right && fields_fit && bytes_fit)
}

/// The body of fields that fit (01's table; 000, tables 7 to 13).
fn body_of(kind: u8, value: i32, wait: u8, reserved: u8, bytes: &[u8]) -> Vec<u8> {
    // The low bytes of an i32 are the two's complement of each narrower width.
    let wide = value.to_be_bytes();
    match kind {
        0 | 2 => wide[2..].to_vec(),
        1 => wide[1..].to_vec(),
        4 => vec![wide[2], wide[3], wait << 7 | reserved],
        6 => vec![wide[3] << 1 | wait],
        _ => bytes.to_vec(),
    }
}

#[cfg(test)]
mod tests {
    use super::*;

    /// Laid out by hand: broadcast with a time offset of -32,768 (places 3 to 7);
    /// transmitter 0x0102 with an empty loop (7 to 10); transmitter 0x0203 with
    /// a frequency offset of -1 Hz (13 to 18) and an unknown function (18 to 20).
    const DATA: [u8; 20] = [
        0, 0, 4, 0, 4, 0x80, 0, // broadcast
        1, 2, 0, // 0x0102
        2, 3, 7, 1, 5, 0xFF, 0xFF, 0xFF, 0x99, 2, // 0x0203
    ];

    fn given(start: u32, body: u32, next: u32, tag: u8) -> Walked {
        Walked {
            refusal: 0,
            start,
            body,
            next,
            given: 1,
            tag,
        }
    }

    fn none(next: u32) -> Walked {
        Walked {
            next,
            ..Walked::default()
        }
    }

    #[test]
    fn walk_of_each_transmitter() {
        assert_eq!(walk(&DATA, 0x0203, 0), given(5, 2, 7, 0));
        assert_eq!(walk(&DATA, 0x0203, 7), given(15, 3, 18, 1));
        assert_eq!(walk(&DATA, 0x0203, 18), given(20, 0, 20, 0x99));
        assert_eq!(walk(&DATA, 0x0203, 20), none(20));
        assert_eq!(walk(&DATA, 0x0102, 7), none(20));
        assert_eq!(walk(&DATA, 0x0000, 0), given(5, 2, 7, 0));
        assert_eq!(walk(&DATA, 0x0000, 7), none(20));
    }

    /// 18 is reached by the owner of that function only; 3 and 13 stand before
    /// functions, not after; 10 ends a loop without functions.
    #[test]
    fn places_never_reached() {
        for (transmitter, place) in [
            (0x0102, 18),
            (0x0203, 3),
            (0x0203, 13),
            (0x0102, 10),
            (0x0203, 21),
            (0, u32::MAX),
        ] {
            assert_eq!(walk(&DATA, transmitter, place), walk_refused(38));
        }
    }

    #[test]
    fn no_data_at_all() {
        assert_eq!(walk(&[], 5, 0), none(0));
        assert_eq!(walk(&[], 5, 1), walk_refused(38));
        assert_eq!(read(&[0, 0]), Addressing::default());
    }

    #[test]
    fn payload_of_the_data() {
        let mut payload = vec![0, 20];
        payload.extend_from_slice(&DATA);
        assert_eq!(
            read(&payload),
            Addressing {
                refusal: 0,
                bytes: 20
            }
        );
        let (written, out) = write(&DATA, &[0xAA; 23]);
        assert_eq!((written.refusal, written.bytes), (0, 22));
        assert_eq!((&out[..22], out[22]), (&payload[..], 0xAA));
        assert_eq!(write(&DATA, &[0; 21]).0.refusal, 16);
        payload[0] = 0x80;
        assert_eq!(read(&payload).refusal, 20);
        payload.pop();
        assert_eq!(read(&payload).refusal, 23);
        assert_eq!(read(&[0]).refusal, 23);
        assert_eq!(write(&[0; 256], &[0; 300]).0.refusal, 38);
    }

    /// The first bad place in byte order decides, whatever its number.
    #[test]
    fn bad_places() {
        assert_eq!(check(&[0, 0]), 26);
        assert_eq!(check(&[0, 0, 1]), 26);
        assert_eq!(check(&[0, 0, 1, 3]), 27);
        assert_eq!(check(&[0, 0, 2, 3, 1]), 27);
        assert_eq!(check(&[0, 0, 2, 3, 3, 0]), 27);
        assert_eq!(check(&[0, 0, 3, 0, 3, 0]), 28);
        assert_eq!(check(&[0, 0, 3, 6, 3, 0x02]), 29);
        assert_eq!(check(&[0, 0, 3, 6, 3, 0x01]), 0);
        assert_eq!(check(&[0, 0, 3, 6, 3, 0x02, 0]), 29);
        assert_eq!(check(&[0, 0, 3, 6, 3, 0x00, 0]), 26);
    }

    /// 01, bench examples, and the ends of each signed width.
    #[test]
    fn signed_values() {
        let value = |tag, body: &[u8]| function_read(tag, body).value;
        assert_eq!(value(0, &[0x80, 0x00]), -32_768);
        assert_eq!(value(0, &[0xFF, 0xFF]), -1);
        assert_eq!(value(0, &[0x7F, 0xFF]), 32_767);
        assert_eq!(value(1, &[0x80, 0, 0]), -8_388_608);
        assert_eq!(value(1, &[0xFF, 0xFF, 0xFF]), -1);
        assert_eq!(value(1, &[0x7F, 0xFF, 0xFF]), 8_388_607);
        assert_eq!(value(2, &[0xFF, 0xFF]), 65_535);
    }

    /// 000, tables 11 and 13, bit by bit.
    #[test]
    fn cell_and_bandwidth() {
        let cell = Function {
            refusal: 0,
            value: 0x1234,
            kind: 4,
            tag: 4,
            wait: 1,
            reserved: 0x2A,
        };
        assert_eq!(function_read(4, &[0x12, 0x34, 0xAA]), cell);
        let (written, out) = function_write(4, 4, 0x1234, 1, 0x2A, &[], &[0; 4]);
        assert_eq!((written.bytes, &out[..]), (3, &[0x12, 0x34, 0xAA, 0][..]));
        let bandwidth = function_read(6, &[0x01]);
        assert_eq!((bandwidth.value, bandwidth.wait), (0, 1));
        assert_eq!(function_read(6, &[0x02]).refusal, 29);
        assert_eq!(function_read(6, &[]).refusal, 28);
        assert_eq!(function_read(6, &[0; 254]).refusal, 38);
    }

    #[test]
    fn written_functions() {
        let refusal = |kind, tag, value, bytes: &[u8]| {
            function_write(kind, tag, value, 0, 0, bytes, &[0; 3])
                .0
                .refusal
        };
        assert_eq!(refusal(0, 0, -32_769, &[]), 38);
        assert_eq!(refusal(0, 1, 0, &[]), 38);
        assert_eq!(refusal(7, 6, 0, &[]), 38);
        assert_eq!(refusal(8, 8, 0, &[]), 38);
        assert_eq!(refusal(2, 2, -1, &[]), 38);
        assert_eq!(refusal(6, 6, 128, &[]), 38);
        assert_eq!(refusal(6, 6, 127, &[]), 29);
        assert_eq!(refusal(6, 6, 0, &[0]), 38);
        assert_eq!(refusal(7, 7, 99, &[1, 2, 3]), 0);
        assert_eq!(refusal(3, 3, 0, &[1, 2, 3, 4]), 16);
        assert_eq!(refusal(5, 5, 0, &[0; 254]), 38);
        let (_, out) = function_write(1, 1, -2, 0, 0, &[], &[0; 3]);
        assert_eq!(out, [0xFF, 0xFF, 0xFE]);
    }
}
