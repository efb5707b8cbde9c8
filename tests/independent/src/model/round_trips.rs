//! Demand 2, tried on the model alone: accepted fields written and read are those
//! fields, and what was accepted in reading is written to the same bytes.

use super::{addressing, mip, packet, stamp};
use crate::compare::{groups, inputs};
use crate::prng::Prng;

#[test]
fn packets() {
    let mut prng = Prng::new(21);
    for _ in 0..500 {
        let bits = prng.below(400) as u32;
        let bytes = inputs::packet(&mut prng, bits);
        let read = packet::read(&bytes);
        assert_eq!((read.refusal, read.bits), (0, bits));
        let payload = &bytes[6..bytes.len() - 4];
        let (kind, count) = (read.packet_type, read.count);
        let out = vec![0; bytes.len()];
        let (_, again) = packet::write(kind, count, read.frame, read.stream, bits, payload, &out);
        assert_eq!(again, bytes);
    }
}

#[test]
fn stamps() {
    let mut prng = Prng::new(22);
    for _ in 0..5_000 {
        let mut payload = prng.bytes(11);
        payload[0] = prng.below(6) as u8;
        // So that 5 MHz is accepted as well now and then.
        payload[6] >>= prng.below(4);
        let read = stamp::read(&payload);
        if read.refusal == 0 {
            let (_, again) =
                stamp::write(read.bw, read.seconds, read.subseconds, read.utco, &[0; 11]);
            assert_eq!(again, payload);
        }
    }
}

#[test]
fn functions_of_a_walk() {
    let mut prng = Prng::new(23);
    for _ in 0..500 {
        let data = groups::good_data(&mut prng, 255);
        let mut walked = addressing::walk(&data, 0x0001, 0);
        while walked.given == 1 {
            let (start, length) = (walked.start as usize, walked.body as usize);
            let body = &data[start..start + length];
            let read = addressing::function_read(walked.tag, body);
            assert_eq!((read.refusal, read.tag), (0, walked.tag));
            let bytes = if [3, 5, 7].contains(&read.kind) {
                body
            } else {
                &[]
            };
            let out = vec![0; length];
            let (written, again) = addressing::function_write(
                read.kind,
                read.tag,
                read.value,
                read.wait,
                read.reserved,
                bytes,
                &out,
            );
            assert_eq!((written.refusal, &again[..]), (0, body));
            walked = addressing::walk(&data, 0x0001, walked.next);
        }
        assert_eq!((walked.refusal, walked.next as usize), (0, data.len()));
    }
}

#[test]
fn mips() {
    let mut prng = Prng::new(24);
    for _ in 0..500 {
        let data = groups::good_data(&mut prng, 163);
        let (count, pointer) = (prng.below(16) as u8, prng.number() as u16);
        let (periodic, future) = (prng.below(2) as u8, prng.below(0x8000) as u16);
        let (stamp, delay) = (prng.below(10_000_000) as u32, prng.below(10_000_000) as u32);
        let tps = prng.number() as u32;
        let out = [0; 188];
        let (written, bytes) = mip::write(
            count, pointer, periodic, future, stamp, delay, tps, &data, &out,
        );
        assert_eq!((written.refusal, written.bytes), (0, 188));
        let read = mip::read(&bytes);
        assert_eq!(
            (read.refusal, read.count, read.pointer),
            (0, count, pointer)
        );
        assert_eq!((read.periodic, read.future), (periodic, future));
        assert_eq!((read.stamp, read.delay, read.tps), (stamp, delay, tps));
        assert_eq!(bytes[21..21 + read.addressing as usize], data);
    }
}
