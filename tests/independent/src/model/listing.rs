//! The listing program's text: 01, "Listing program".

use super::answers::Packet;
use super::carry::TRANSPORT;
use super::gather::{gather, start, LEAST_GATHERING, LEAST_OUTPUT};
use super::packet::{self, own_length};

const PID: u16 = 0x1000;
const HEADER: &str = "type count frame stream bits\n";

/// What the program prints for these bytes on its input. A cut last piece is
/// set aside, as are transport packets that the reader refuses.
pub fn text(input: &[u8]) -> String {
    let mut reader = start(PID).reader;
    let mut gathering = vec![0; LEAST_GATHERING];
    let mut text = HEADER.to_string();
    let (mut packets, mut gaps) = (0, 0);
    for transport in input.chunks_exact(TRANSPORT) {
        let output = vec![0; LEAST_OUTPUT];
        let (answer, after, handed_out) = gather(reader, transport, &gathering, &output);
        (reader, gathering) = (answer.reader, after);
        text += &lines(&handed_out[..answer.bytes as usize]);
        packets += answer.packets;
        gaps += u32::from(answer.loss);
    }
    text + &format!("packets {packets} gaps {gaps}\n")
}

/// A line for each of the packets, which stand back to back.
fn lines(handed_out: &[u8]) -> String {
    let mut text = String::new();
    let mut rest = handed_out;
    while !rest.is_empty() {
        let (packet, behind) = rest.split_at(own_length(rest));
        text += &line(packet::read(packet));
        rest = behind;
    }
    text
}

fn line(packet: Packet) -> String {
    if packet.refusal != 0 {
        return format!("refused {}\n", packet.refusal);
    }
    format!(
        "{} {} {} {} {}\n",
        packet.packet_type, packet.count, packet.frame, packet.stream, packet.bits
    )
}

#[cfg(test)]
mod tests {
    use super::*;
    use crate::model::carry::carry;
    use crate::model::packet::compose;
    use crate::vectors::VECTORS;

    /// The vector of this name.
    fn vector(name: &str) -> Vec<u8> {
        let found = VECTORS.iter().find(|(each, _)| *each == name);
        found.unwrap().1.to_vec()
    }

    fn carried(count: u8, batch: &[u8]) -> Vec<u8> {
        let (answer, mut out) = carry(PID, count, batch, &[0; 1_000]);
        assert_eq!(answer.refusal, 0);
        out.truncate(answer.packets as usize * TRANSPORT);
        out
    }

    /// 01's example, to the byte, with a cut piece behind it.
    #[test]
    fn the_example_of_01() {
        let mut batch = vector("timestamp-packet");
        batch.extend(vector("balancing-packet"));
        let mut input = carried(0, &batch);
        input.extend([0x47; 187]);
        let expected = "type count frame stream bits\n32 5 1 0 88\n18 6 1 0 40\npackets 2 gaps 0\n";
        assert_eq!(text(&input), expected);
    }

    #[test]
    fn refused_packets_and_gaps() {
        let mut input = carried(0, &compose(0x03, 0, 0, 0, 0, &[]));
        input.extend(carried(2, &compose(0x03, 0, 1, 0, 0, &[])));
        input.extend(carried(3, &compose(0x00, 0, 0, 0, 1, &[1])));
        let expected =
            "type count frame stream bits\nrefused 21\nrefused 20\nrefused 22\npackets 3 gaps 1\n";
        assert_eq!(text(&input), expected);
    }

    #[test]
    fn no_input_at_all() {
        assert_eq!(
            text(&[]),
            "type count frame stream bits\npackets 0 gaps 0\n"
        );
    }
}
