//! Addressing data for the comparisons, good and damaged: for payloads, for the
//! walk and for MIPs.

use super::inputs;
use crate::prng::Prng;

/// Data with one bad place, for each way in which a place can be bad: 26 (five),
/// 27 (five), 28 (one for each tag with a length of its own, too short and too
/// long), 29 (its ends).
pub const BAD: [&[u8]; 22] = [
    &[0],
    &[0, 0],
    &[0, 1, 1],
    &[0, 1, 3, 3, 2],
    &[0, 1, 0, 0, 1],
    &[0, 1, 1, 3],
    &[0, 1, 2, 3, 0],
    &[0, 1, 2, 3, 1],
    &[0, 1, 2, 3, 3],
    &[0, 1, 3, 3, 2, 3],
    &[0, 1, 3, 0, 3, 0],
    &[0, 1, 5, 0, 5, 0, 0, 0],
    &[0, 1, 4, 1, 4, 0, 0],
    &[0, 1, 6, 1, 6, 0, 0, 0, 0],
    &[0, 1, 3, 2, 3, 0],
    &[0, 1, 5, 2, 5, 0, 0, 0],
    &[0, 1, 4, 4, 4, 0, 0],
    &[0, 1, 6, 4, 6, 0, 0, 0, 0],
    &[0, 1, 2, 6, 2],
    &[0, 1, 4, 6, 4, 0, 0],
    &[0, 1, 3, 6, 3, 0x02],
    &[0, 1, 3, 6, 3, 0xFF],
];

/// A body length that fits the tag, of at most `most` bytes; none where the
/// tag's own length does not fit.
fn body_length(prng: &mut Prng, tag: u8, most: usize) -> Option<usize> {
    let length = match tag {
        0 | 2 => 2,
        1 | 4 => 3,
        6 => 1,
        _ if prng.one_in(8) => prng.between(0, most),
        _ => prng.between(0, most.min(6)),
    };
    (length <= most).then_some(length)
}

/// A good function of at most `most` bytes, which must be 2 or more.
fn function(prng: &mut Prng, most: usize) -> Vec<u8> {
    let mut tag = match prng.below(3) {
        0 => prng.byte(),
        _ => prng.below(9) as u8,
    };
    let mut length = body_length(prng, tag, most - 2);
    if length.is_none() {
        // An empty private function always fits.
        (tag, length) = (3, Some(0));
    }
    let mut body = prng.bytes(length.unwrap_or(0));
    if tag == 6 {
        body[0] &= 1;
    }
    let mut function = vec![tag, (body.len() + 2) as u8];
    function.extend(body);
    function
}

/// Identifiers that often meet: broadcast, two that differ in one byte, others.
pub fn identifier(prng: &mut Prng) -> u16 {
    match prng.below(6) {
        0 | 1 => 0x0000,
        2 => 0x0001,
        3 => 0x0100,
        4 => 0x0101,
        _ => prng.number() as u16,
    }
}

/// A good group of at most `most` bytes, which must be 3 or more.
fn group(prng: &mut Prng, most: usize) -> Vec<u8> {
    let mut functions = Vec::new();
    let room = (most - 3).min(255);
    for _ in 0..prng.below(5) {
        if room - functions.len() >= 2 {
            let left = room - functions.len();
            functions.extend(function(prng, left));
        }
    }
    let mut group = identifier(prng).to_be_bytes().to_vec();
    group.push(functions.len() as u8);
    group.extend(functions);
    group
}

/// Good data of at most `most` bytes.
pub fn good_data(prng: &mut Prng, most: usize) -> Vec<u8> {
    let mut data = Vec::new();
    for _ in 0..prng.below(12) {
        if most - data.len() >= 3 {
            let left = most - data.len();
            data.extend(group(prng, left));
        }
    }
    data
}

/// A group is 3 bytes long, or has room for a function.
fn can_be(length: usize) -> bool {
    length == 0 || length == 3 || length >= 5
}

/// Good data of exactly so many bytes. There is none of 1, 2 or 4 bytes; for
/// these lengths any bytes are given.
pub fn good_data_of_length(prng: &mut Prng, length: usize) -> Vec<u8> {
    if !can_be(length) {
        return prng.bytes(length);
    }
    let mut data = Vec::new();
    while data.len() < length {
        let left = length - data.len();
        let take = match left {
            0..=20 => left,
            _ => prng.between(3, left.min(258)),
        };
        if can_be(take) && can_be(left - take) {
            data.extend(filled_group(prng, take));
        }
    }
    data
}

/// A group of exactly so many bytes, filled with one private function.
fn filled_group(prng: &mut Prng, length: usize) -> Vec<u8> {
    let loop_length = length - 3;
    let mut group = identifier(prng).to_be_bytes().to_vec();
    group.push(loop_length as u8);
    if loop_length > 0 {
        group.extend([3, loop_length as u8]);
        group.extend(prng.bytes(loop_length - 2));
    }
    group
}

/// Data with a few faults: bits, lengths, ends.
pub fn damaged(prng: &mut Prng, data: &[u8]) -> Vec<u8> {
    let mut data = data.to_vec();
    for _ in 0..prng.between(1, 3) {
        match prng.below(4) {
            0 => inputs::change_length(prng, &mut data),
            1 if !data.is_empty() => {
                let at = prng.below(data.len());
                data[at] = prng.below(8) as u8;
            }
            _ => inputs::flip_any_bit(prng, &mut data),
        }
    }
    data
}

#[cfg(test)]
mod tests {
    use super::*;
    use crate::model::addressing::check;

    #[test]
    fn bad_data_is_bad() {
        let refusals: Vec<u32> = BAD.iter().map(|data| check(data)).collect();
        let mut expected = vec![26; 5];
        expected.extend([27; 5]);
        expected.extend([28; 10]);
        expected.extend([29; 2]);
        assert_eq!(refusals, expected);
    }

    #[test]
    fn good_data_is_good() {
        let mut prng = Prng::new(5);
        for _ in 0..500 {
            let data = good_data(&mut prng, 255);
            assert_eq!((check(&data), data.len() <= 255), (0, true));
        }
    }

    #[test]
    fn data_of_each_length() {
        let mut prng = Prng::new(6);
        for length in 0..600 {
            let data = good_data_of_length(&mut prng, length);
            let good = check(&data) == 0;
            assert_eq!((data.len(), good), (length, can_be(length)));
        }
    }
}
