/* sfn.h: Wasukpelon as C and C++ programs see it. Link libsfn.a (-lsfn), which `tests/library` makes and
 * `./install` puts in place. What it does is proved; the archive is for x86-64.
 *
 * Answers. Each call but sfn_crc and sfn_packet_length gives a struct by value. Its `refusal` is 0 where the call did
 * its work. Otherwise it is a number of document 01 (each function lists its own in the order in which they are
 * looked for; the first that holds is told), all other fields are 0, and no lent byte has changed. sfn_gather alone
 * gives more with a refusal: the reader, as it was. docs/REFUSALS.md has all numbers and orders.
 *
 * Lending. Bytes are lent as a pointer and a length, for the time of the call; nothing is kept, nothing is allocated,
 * and there is no state but what the caller holds. A `const` slice is only read. An `out` slice is written from its
 * front, exactly as far as the answer says; what lies beyond stays.
 *
 * What may be handed in. Any bytes, any numbers, any lengths, any state: no check is needed before a call. C's own
 * rules remain: each pointer is good for its length and not null (also with length 0), and a slice that is written
 * overlaps no other slice of the same call. Calls on different memory may run at the same time.
 *
 * What it needs. Of C's library memset, and nothing else; no heap, no thread, no file. A call takes at most SFN_STACK
 * bytes of stack, those of memset aside (tests/stack reads it off the compiled code).
 */
#ifndef SFN_H
#define SFN_H

#include <stddef.h>
#include <stdint.h>

#define SFN_VERSION "0.1.0"

/* ---- constants ------------------------------------------------------------------------------------------------- */

#define SFN_TRANSPORT 188      /* bytes of a transport packet, and so of a MIP */
#define SFN_PACKET_MOST 8202   /* bytes of the longest T2-MI packet; the shortest has 10 */
#define SFN_GATHERING 8202     /* bytes that the gathering buffer of a reader has at least */
#define SFN_OUTPUT 8385        /* bytes that the output of a reader has at least */
#define SFN_BATCH_MOST 65536   /* bytes of a batch at most */
#define SFN_NONE 255           /* sfn_reader.last: no count was taken yet */
#define SFN_STACK 2048         /* bytes of stack that a call takes at most (312 measured) */

/* sfn_stamp.kind */
#define SFN_STAMP_ABSOLUTE 0
#define SFN_STAMP_RELATIVE 1
#define SFN_STAMP_NULL 2

/* sfn_function.kind */
#define SFN_TIME_OFFSET 0
#define SFN_FREQUENCY_OFFSET 1
#define SFN_POWER 2
#define SFN_PRIVATE 3
#define SFN_CELL 4
#define SFN_ENABLE 5
#define SFN_BANDWIDTH 6
#define SFN_PASSED 7

/* the numbers of document 01, by name */
#define SFN_REFUSED_TRANSPORT_NOT_188 1
#define SFN_REFUSED_GATHERING_BUFFER_SHORT 2
#define SFN_REFUSED_READER_OUTPUT_SHORT 3
#define SFN_REFUSED_PID_OUT_OF_RANGE 4
#define SFN_REFUSED_SYNC_BYTE_WRONG 5
#define SFN_REFUSED_TRANSPORT_ERROR_MARKED 6
#define SFN_REFUSED_ANOTHER_PID 7
#define SFN_REFUSED_SCRAMBLED 8
#define SFN_REFUSED_NO_PAYLOAD 9
#define SFN_REFUSED_ADAPTATION_FIELD_LONG 10
#define SFN_REFUSED_POINTER_BEYOND_PAYLOAD 11
#define SFN_REFUSED_COUNT_REPEATED 12
#define SFN_REFUSED_BATCH_CUT 13
#define SFN_REFUSED_CRC_WRONG 14
#define SFN_REFUSED_BATCH_LONG 15
#define SFN_REFUSED_OUTPUT_SHORT 16
#define SFN_REFUSED_FIRST_COUNT_OVER_15 17
#define SFN_REFUSED_SLICE_UNDER_10 18
#define SFN_REFUSED_LENGTH_UNLIKE_PAYLOAD_LEN 19
#define SFN_REFUSED_RESERVED_BIT_SET 20
#define SFN_REFUSED_RESERVED_TYPE 21
#define SFN_REFUSED_PAD_BITS_SET 22
#define SFN_REFUSED_PAYLOAD_SIZE_WRONG 23
#define SFN_REFUSED_BANDWIDTH_CODE_OVER_5 24
#define SFN_REFUSED_SUBSECONDS_OVER_A_SECOND 25
#define SFN_REFUSED_GROUP_CUT 26
#define SFN_REFUSED_FUNCTION_CUT 27
#define SFN_REFUSED_FUNCTION_LENGTH_WRONG 28
#define SFN_REFUSED_BANDWIDTH_VALUE_RESERVED 29
#define SFN_REFUSED_MIP_HEADER_WRONG 30
#define SFN_REFUSED_SYNCHRONIZATION_ID_WRONG 31
#define SFN_REFUSED_SECTION_LENGTH_WRONG 32
#define SFN_REFUSED_TIME_STAMP_OVER 33
#define SFN_REFUSED_MAXIMUM_DELAY_OVER 34
#define SFN_REFUSED_STUFFING_NOT_FF 35
#define SFN_REFUSED_MIP_ADDRESSING_OVER_163 36
#define SFN_REFUSED_RECEPTION_TIME_OVER 37
#define SFN_REFUSED_TOO_WIDE_OR_UNFIT_STATE 38

#ifdef __cplusplus
extern "C" {
#endif

/* The CRC of 01 over `len` bytes: top bit first, all ones before the first byte, nothing done at the end. Over bytes
 * that end with their own CRC it is 0. Never refused; of no bytes it is 0xFFFFFFFF. */
uint32_t sfn_crc(const uint8_t *bytes, size_t len);

/* What a writing call gives: it wrote out[0 .. bytes]. */
struct sfn_written {
    uint32_t refusal;
    uint32_t bytes;
};

/* ---- T2-MI packets: 10 to 8,202 bytes, of which 6 are header and the last 4 CRC -------------------------------- */

/* The header of a packet. `bits` is payload_len: the payload is slice[6 .. 6 + (bits + 7) / 8] of the slice that was
 * read, and 0 to 7 zero bits fill its last byte. `frame` is superframe_idx and `stream` t2mi_stream_id. */
struct sfn_packet {
    uint32_t refusal;
    uint32_t bits;
    uint8_t type;
    uint8_t count;
    uint8_t frame;
    uint8_t stream;
};

/* The length of the packet at the front of `bytes`, 10 to 8,202 by its own payload_len; 0 where the bytes do not hold
 * all of it. Nothing else of the packet is judged. Of packets back to back, the next begins so many bytes further. */
uint32_t sfn_packet_length(const uint8_t *bytes, size_t len);

/* Reads the one packet that fills `slice` from end to end.
 * Refused, in this order: 18 (under 10 bytes), 19 (length unlike payload_len), 14 (CRC), 20 (reserved bit), 21
 * (type), 22 (pad bit). */
struct sfn_packet sfn_packet_read(const uint8_t *slice, size_t len);

/* Writes a packet: header, payload, CRC; 10 + payload_len bytes. `payload_len` counts bytes and must be `bits`
 * rounded up to bytes; the bits of the last byte that `bits` leaves over must be 0.
 * Refused, in this order: 21 (type), 38 (frame over 15, stream over 7, bits over 65,535), 19 (payload_len unlike
 * bits), 22 (pad bit), 16 (out too short). */
struct sfn_written sfn_packet_write(uint8_t type, uint8_t count, uint8_t frame, uint8_t stream, uint32_t bits,
                                    const uint8_t *payload, size_t payload_len, uint8_t *out, size_t out_len);

/* ---- carriage: T2-MI packets into transport packets of 188 bytes, and out of them again ------------------------ */

/* What carrying a batch gives: it wrote `packets` transport packets, 188 bytes each, to the front of out.
 * `next_count` is the continuity count to begin the next batch with. */
struct sfn_carried {
    uint32_t refusal;
    uint32_t packets;
    uint8_t next_count;
};

/* Carries a batch, whole T2-MI packets one after another and at most 65,536 bytes, on one PID. An empty batch gives
 * no transport packets and needs no room. Room for 188 * (batch_len / 183 + 1) bytes is always enough.
 * Refused, in this order: 4 (PID outside 0x0020 to 0x1FFE), 17 (first_count over 15), 15 (batch over 65,536 bytes),
 * then packet by packet 13 (not whole) and 14 (CRC), then 16 (out too short). */
struct sfn_carried sfn_carry(uint16_t pid, uint8_t first_count, const uint8_t *batch, size_t batch_len, uint8_t *out,
                             size_t out_len);

/* What a gathering reader remembers between two calls. The caller holds it: with each transport packet goes the state
 * that the call before gave. `last` is the continuity count of the last packet taken, or 255 while there is none.
 * `in_step` is 1 where the reader knows at which byte the next T2-MI packet begins, else 0. `waiting` is how many
 * bytes of an unfinished packet lie at the front of the gathering buffer. */
struct sfn_reader {
    uint16_t pid;
    uint8_t last;
    uint8_t in_step;
    uint32_t waiting;
};

/* What a start gives. With a refusal the reader is all zeros, and gathering with it is refused (38). */
struct sfn_started {
    uint32_t refusal;
    struct sfn_reader reader;
};

/* A fresh reader for one PID. Refused: 4 (PID outside 0x0020 to 0x1FFE). */
struct sfn_started sfn_start(uint16_t pid);

/* What gathering one transport packet gives. `reader` is the state for the next call (with a refusal, the one handed
 * in). out[0 .. bytes] holds `packets` T2-MI packets back to back; sfn_packet_length tells each one's length. Lengths
 * and CRCs are right; all else in them is not judged here. A mark is 1 or 0. `loss`: transport packets are missing
 * before this one. `misfit`: bytes were dropped that belong to no packet, or to one that was unfinished where the
 * next began. `crc`: a packet with a wrong CRC was dropped.
 *
 * What `loss` cannot tell. Counts go from 0 to 15. With 15 packets lost in a row the next one has the last one's
 * count and is refused as a repeat (12), and the one behind it is taken as if nothing were missing; with 16 lost the
 * next one is; and so on by sixteens. Other numbers are marked. After such a gap bytes may be joined that do not
 * belong together. Then it is the CRC that keeps the packet back: `crc` or `misfit` may be set where `loss` is not. */
struct sfn_gathered {
    uint32_t refusal;
    struct sfn_reader reader;
    uint32_t bytes;
    uint32_t packets;
    uint8_t loss;
    uint8_t misfit;
    uint8_t crc;
};

/* Takes one transport packet (`transport_len` is 188). `gathering` has at least 8,202 bytes; what waits lies in it,
 * so it is handed in again as it was left (other contents are safe, but are taken for what waits). `out` has at least
 * 8,385 bytes, whatever they hold. Bytes that join a waiting packet, and those that wait afterwards, are written to
 * `gathering`; finished packets are written to `out`.
 * Refused, in this order: 38 (a state that no accepted call gives: in_step over 1, PID outside 0x0020 to 0x1FFE, last
 * from 16 to 254, over 8,201 waiting, any waiting out of step), 1 (not 188 bytes), 2 (gathering too short), 3 (out
 * too short), 5 (first byte), 6 (error mark), 7 (another PID), 8 (scrambled), 9 (no payload), 10 (adaptation field
 * too long), 11 (pointer beyond the payload), 12 (same count again). A feed with other PIDs in it meets 7 all the
 * time: the reader is not disturbed by any refusal. */
struct sfn_gathered sfn_gather(struct sfn_reader reader, const uint8_t *transport, size_t transport_len,
                               uint8_t *gathering, size_t gathering_len, uint8_t *out, size_t out_len);

/* ---- timestamps: the payload of T2-MI type 0x20, 11 bytes ------------------------------------------------------- */

/* A stamp. `seconds` since 2000 have 40 bits, `utco` has 13. `bw` is the bandwidth code, 0 to 5; a second has 131,
 * 40, 48, 56, 64 or 80 million `subseconds` by that code (27 bits). `kind` is 0 for an absolute stamp, 1 for a
 * relative one (seconds of 0) and 2 for the null stamp (all ones in the three fields). */
struct sfn_stamp {
    uint64_t seconds;
    uint32_t refusal;
    uint32_t subseconds;
    uint16_t utco;
    uint8_t bw;
    uint8_t kind;
};

/* Reads a payload of type 0x20.
 * Refused, in this order: 23 (not 11 bytes), 20 (reserved bit), 24 (bw over 5), 25 (subseconds of a second or more,
 * and not null). */
struct sfn_stamp sfn_stamp_read(const uint8_t *payload, size_t len);

/* Writes a payload of type 0x20: 11 bytes, 88 bits.
 * Refused, in this order: 24 (bw over 5), 38 (seconds, subseconds or utco too wide), 25 (subseconds of a second or
 * more, and not null), 16 (out under 11 bytes). */
struct sfn_written sfn_stamp_write(uint8_t bw, uint64_t seconds, uint32_t subseconds, uint16_t utco, uint8_t *out,
                                   size_t out_len);

/* ---- individual addressing: the payload of T2-MI type 0x21, and the data in it and in a MIP --------------------- */

/* What reading an addressing payload gives: its data is payload[2 .. 2 + bytes]. */
struct sfn_addressing {
    uint32_t refusal;
    uint32_t bytes;
};

/* Reads a payload of type 0x21 and checks all of its data. Data is groups, each a transmitter identifier (2 bytes),
 * the length of its loop (1) and its functions; a function is a tag, a length that counts these two bytes too, and a
 * body.
 * Refused, in this order: 23 (under 2 bytes, or not 2 more than the length byte says), 20 (first byte not 0), then
 * the first bad place of the data: 26 (group), 27 (function), 28 (length of a known tag) or 29 (bandwidth 1 to 127). */
struct sfn_addressing sfn_addressing_read(const uint8_t *payload, size_t len);

/* Writes a payload of type 0x21 around `data`: 2 + len bytes.
 * Refused, in this order: 38 (data over 255 bytes), the first bad place of the data (26 to 29, as above), 16 (out too
 * short). */
struct sfn_written sfn_addressing_write(const uint8_t *data, size_t len, uint8_t *out, size_t out_len);

/* A step of a walk. With a function `given` is 1, `tag` is its tag and data[start .. start + body] its body. `given`
 * is 0 where no more functions come. `next` is the place for the next step; at the end it is the data's length. */
struct sfn_walked {
    uint32_t refusal;
    uint32_t start;
    uint32_t body;
    uint32_t next;
    uint8_t given;
    uint8_t tag;
};

/* The next function that one transmitter is to obey: those of its own identifier and those of broadcast (0x0000), in
 * the order of the data. Begin with place 0 and go on with `next` until `given` is 0. `data` is the addressing data
 * alone (payload[2 ..] or packet[21 ..]). All of it is judged at every step.
 * Refused, in this order: 38 (data over 255 bytes), the first bad place of the data (26 to 29, as above), 38 (a place
 * that this walk does not come to). */
struct sfn_walked sfn_walk(const uint8_t *data, size_t len, uint16_t transmitter, uint32_t place);

/* A function by its fields. What a kind does not have is 0.
 *
 *   kind              value                                    also
 *   0  time offset    in 100 ns, -32,768 to 32,767             -
 *   1  frequency      offset in Hz, -8,388,608 to 8,388,607    -
 *   2  power          in 0.1 dBm, 0 to 65,535                  -
 *   3  private        0                                        its body
 *   4  cell           identifier, 0 to 65,535                  wait (0 or 1), reserved (0 to 127, kept as read)
 *   5  enabled tags   0                                        its body
 *   6  bandwidth      0 is 5 MHz, 1 to 127 are refused (29)    wait (0 or 1)
 *   7  any other tag  0                                        its body
 *
 * `tag` is the kind for 0 to 6, and from 7 to 255 for kind 7. */
struct sfn_function {
    uint32_t refusal;
    int32_t value;
    uint8_t kind;
    uint8_t tag;
    uint8_t wait;
    uint8_t reserved;
};

/* The fields of a function's body, as sfn_walk gives tag and body. A body of kind 3, 5 or 7 stays with the caller.
 * Refused, in this order: 38 (body over 253 bytes), 28 (length unlike the tag's), 29 (bandwidth 1 to 127). */
struct sfn_function sfn_function_read(uint8_t tag, const uint8_t *body, size_t len);

/* Writes the body of a function, 0 to 253 bytes, without tag and length. `bytes` is the body of kinds 3, 5 and 7, and
 * empty for the others.
 * Refused, in this order: 38 (kind over 7, a tag unlike the kind, bytes with a kind that has none, a value that does
 * not fit, wait over 1, reserved over 127, over 253 bytes; a field that the kind does not have is not looked at), 29
 * (bandwidth 1 to 127), 16 (out too short). */
struct sfn_written sfn_function_write(uint8_t kind, uint8_t tag, int32_t value, uint8_t wait, uint8_t reserved,
                                      const uint8_t *bytes, size_t len, uint8_t *out, size_t out_len);

/* ---- Mega-frame Initialization Packets, and the timing of a site ------------------------------------------------ */

/* A MIP. `stamp` and `delay` (maximum delay) are in steps of 100 ns, 0 to 9,999,999. Its addressing data is packet[21
 * .. 21 + addressing] of the packet that was read, to be walked by sfn_walk. `pointer` says how many transport
 * packets lie between this one and the next mega-frame, and `periodic` is 1 where that never changes, else 0. `count`
 * is the continuity count; `future` (15 bits) and `tps` (32 bits) are kept as read. */
struct sfn_mip {
    uint32_t refusal;
    uint32_t stamp;
    uint32_t delay;
    uint32_t tps;
    uint32_t addressing;
    uint16_t pointer;
    uint16_t future;
    uint8_t count;
    uint8_t periodic;
};

/* Reads a MIP: one transport packet of 188 bytes.
 * Refused, in this order: 1 (not 188 bytes), 5 (first byte), 30 (header bits), 31 (synchronization_id), 32 (section
 * length), 14 (CRC), 33 (stamp over 9,999,999), 34 (delay over 9,999,999), 35 (stuffing), then the first bad place of
 * the addressing data (26 to 29, as above). */
struct sfn_mip sfn_mip_read(const uint8_t *packet, size_t len);

/* Writes a MIP: 188 bytes, with at most 163 of addressing data.
 * Refused, in this order: 36 (addressing over 163 bytes), 38 (count over 15, periodic over 1, future over 32,767,
 * stamp or delay of 2^24 or more), 33 (stamp over 9,999,999), 34 (delay over 9,999,999), the first bad place of the
 * addressing data (26 to 29, as above), 16 (out under 188 bytes). */
struct sfn_written sfn_mip_write(uint8_t count, uint16_t pointer, uint8_t periodic, uint16_t future, uint32_t stamp,
                                 uint32_t delay, uint32_t tps, const uint8_t *addressing, size_t addressing_len,
                                 uint8_t *out, size_t out_len);

/* A time within a second: 0 to 9,999,999 steps of 100 ns. */
struct sfn_time {
    uint32_t refusal;
    uint32_t steps;
};

/* When a mega-frame leaves the antenna: stamp, maximum delay and the site's time offset summed, modulo one second.
 * Refused, in this order: 38 (offset beyond signed 16 bits), 33 (stamp over 9,999,999), 34 (delay over 9,999,999). */
struct sfn_time sfn_emission(uint32_t stamp, uint32_t delay, int32_t offset);

/* How long a site holds back what it received at `reception`: the emission time less that, modulo one second.
 * Refused, in this order: 38, 33, 34 as above, 37 (reception over 9,999,999). */
struct sfn_time sfn_extra_delay(uint32_t stamp, uint32_t delay, int32_t offset, uint32_t reception);

#ifdef __cplusplus
}
#endif

#endif
