/* Calls every function of sfn.h once with values that differ from field to field, so that an argument or a field that
 * the library has in another place shows. It is no test of the rules (tests/independent is): only of the boundary. */
#include "sfn.h"

#include <stdio.h>
#include <string.h>

static int failures = 0;

static void expect(const char *what, long long got, long long want) {
    if (got != want) {
        printf("%s: %lld and not %lld\n", what, got, want);
        failures++;
    }
}

/* A timestamp packet of 21 bytes, written to `out`. */
static size_t stamp_packet(uint8_t *out, size_t room) {
    uint8_t payload[11];
    struct sfn_written w = sfn_stamp_write(4, 0x0123456789, 0x01234567, 0x1234, payload, sizeof payload);
    expect("stamp_write.refusal", w.refusal, 0);
    expect("stamp_write.bytes", w.bytes, 11);
    w = sfn_packet_write(0x20, 0xC5, 9, 3, 88, payload, sizeof payload, out, room);
    expect("packet_write.refusal", w.refusal, 0);
    expect("packet_write.bytes", w.bytes, 21);
    return w.bytes;
}

static void packets_and_stamps(void) {
    uint8_t packet[32];
    size_t len = stamp_packet(packet, sizeof packet);
    struct sfn_packet p = sfn_packet_read(packet, len);
    expect("packet.refusal", p.refusal, 0);
    expect("packet.bits", p.bits, 88);
    expect("packet.type", p.type, 0x20);
    expect("packet.count", p.count, 0xC5);
    expect("packet.frame", p.frame, 9);
    expect("packet.stream", p.stream, 3);
    struct sfn_stamp s = sfn_stamp_read(packet + 6, 11);
    expect("stamp.refusal", s.refusal, 0);
    expect("stamp.seconds", (long long)s.seconds, 0x0123456789);
    expect("stamp.subseconds", s.subseconds, 0x01234567);
    expect("stamp.utco", s.utco, 0x1234);
    expect("stamp.bw", s.bw, 4);
    expect("stamp.kind", s.kind, SFN_STAMP_ABSOLUTE);
    packet[20] ^= 1;
    p = sfn_packet_read(packet, len);
    expect("packet.refusal, CRC", p.refusal, SFN_REFUSED_CRC_WRONG);
    expect("packet.bits, refused", p.bits, 0);
}

/* Two packets back to back, of 10 bytes (no payload) and of 21. */
static void lengths(void) {
    const uint8_t none[1] = {0};
    uint8_t packets[31];
    struct sfn_written w = sfn_packet_write(0x12, 1, 2, 3, 0, none, 0, packets, sizeof packets);
    expect("packet_write.bytes, no payload", w.bytes, 10);
    stamp_packet(packets + 10, sizeof packets - 10);
    expect("packet_length, alone", sfn_packet_length(packets, 10), 10);
    expect("packet_length, a byte missing", sfn_packet_length(packets, 9), 0);
    expect("packet_length, no bytes", sfn_packet_length(packets, 0), 0);
    expect("packet_length, the first of two", sfn_packet_length(packets, sizeof packets), 10);
    expect("packet_length, the second of two", sfn_packet_length(packets + 10, sizeof packets - 10), 21);
    expect("packet_length, the second cut", sfn_packet_length(packets + 10, sizeof packets - 11), 0);
}

/* The kind of a stamp that is written with bandwidth 4 and read. */
static int kind_of(uint64_t seconds, uint32_t subseconds, uint16_t utco) {
    uint8_t payload[11];
    expect("stamp_write.refusal", sfn_stamp_write(4, seconds, subseconds, utco, payload, sizeof payload).refusal, 0);
    return sfn_stamp_read(payload, sizeof payload).kind;
}

static void kinds_of_stamps(void) {
    uint8_t damaged[11] = {0x14}; /* a reserved bit */
    expect("stamp.kind, absolute", kind_of(1, 7, 8), SFN_STAMP_ABSOLUTE);
    expect("stamp.kind, relative", kind_of(0, 7, 8), SFN_STAMP_RELATIVE);
    expect("stamp.kind, null", kind_of(0xFFFFFFFFFF, 0x7FFFFFF, 0x1FFF), SFN_STAMP_NULL);
    struct sfn_stamp s = sfn_stamp_read(damaged, sizeof damaged);
    expect("stamp.refusal, reserved bit", s.refusal, SFN_REFUSED_RESERVED_BIT_SET);
    expect("stamp.kind, refused", s.kind, 0); /* its seconds are 0, and yet it is not called relative */
}

/* One transport packet with the stamp packet, under a continuity count. */
static void carried(uint8_t count, uint8_t *transport) {
    uint8_t packet[32];
    size_t len = stamp_packet(packet, sizeof packet);
    struct sfn_carried c = sfn_carry(0x1000, count, packet, len, transport, SFN_TRANSPORT);
    expect("carried.refusal", c.refusal, 0);
    expect("carried.packets", c.packets, 1);
    expect("carried.next_count", c.next_count, (count + 1) % 16);
}

static void marks(const char *what, struct sfn_gathered g, int loss, int misfit, int crc) {
    printf("%s\n", what);
    expect("gathered.refusal", g.refusal, 0);
    expect("gathered.loss", g.loss, loss);
    expect("gathered.misfit", g.misfit, misfit);
    expect("gathered.crc", g.crc, crc);
}

static void carriage(void) {
    static uint8_t gathering[SFN_GATHERING], out[SFN_OUTPUT];
    uint8_t transport[SFN_TRANSPORT];
    struct sfn_started s = sfn_start(0x1000);
    expect("started.refusal", s.refusal, 0);
    expect("started.pid", s.reader.pid, 0x1000);
    expect("started.last", s.reader.last, SFN_NONE);
    carried(15, transport);
    struct sfn_gathered g =
        sfn_gather(s.reader, transport, sizeof transport, gathering, sizeof gathering, out, sizeof out);
    marks("gather: the first", g, 0, 0, 0);
    expect("gathered.last", g.reader.last, 15);
    expect("gathered.in_step", g.reader.in_step, 1);
    expect("gathered.bytes", g.bytes, 21);
    expect("gathered.packets", g.packets, 1);
    g = sfn_gather(g.reader, transport, sizeof transport, gathering, sizeof gathering, out, sizeof out);
    expect("gathered.refusal, again", g.refusal, SFN_REFUSED_COUNT_REPEATED);
    carried(3, transport);
    g = sfn_gather(g.reader, transport, sizeof transport, gathering, sizeof gathering, out, sizeof out);
    marks("gather: after a gap", g, 1, 0, 0);
    carried(4, transport);
    transport[187] ^= 1; /* the last byte of the packet's CRC: the adaptation field stands before */
    g = sfn_gather(g.reader, transport, sizeof transport, gathering, sizeof gathering, out, sizeof out);
    marks("gather: damaged", g, 0, 0, 1);
    struct sfn_reader waits = {0x1000, 2, 1, 7};
    memset(gathering, 0, sizeof gathering);
    carried(3, transport);
    g = sfn_gather(waits, transport, sizeof transport, gathering, sizeof gathering, out, sizeof out);
    marks("gather: unfinished", g, 0, 1, 0);
}

static void addressing(void) {
    /* broadcast: bandwidth 0 with the wait flag; 0x0102: cell 0x1234, wait, reserved 5 */
    const uint8_t data[] = {0, 0, 3, 6, 3, 1, 1, 2, 5, 4, 5, 0x12, 0x34, 0x85};
    uint8_t payload[32], body[3];
    struct sfn_written w = sfn_addressing_write(data, sizeof data, payload, sizeof payload);
    expect("addressing_write.refusal", w.refusal, 0);
    expect("addressing_write.bytes", w.bytes, 16);
    struct sfn_addressing a = sfn_addressing_read(payload, w.bytes);
    expect("addressing.refusal", a.refusal, 0);
    expect("addressing.bytes", a.bytes, 14);
    struct sfn_walked step = sfn_walk(data, sizeof data, 0x0102, 6);
    expect("walked.refusal", step.refusal, 0);
    expect("walked.start", step.start, 11);
    expect("walked.body", step.body, 3);
    expect("walked.next", step.next, 14);
    expect("walked.given", step.given, 1);
    expect("walked.tag", step.tag, 4);
    struct sfn_function f = sfn_function_read(step.tag, data + step.start, step.body);
    expect("function.refusal", f.refusal, 0);
    expect("function.value", f.value, 0x1234);
    expect("function.kind", f.kind, SFN_CELL);
    expect("function.tag", f.tag, 4);
    expect("function.wait", f.wait, 1);
    expect("function.reserved", f.reserved, 5);
    w = sfn_function_write(SFN_CELL, 4, 0x1234, 1, 5, data, 0, body, sizeof body);
    expect("function_write.refusal", w.refusal, 0);
    expect("function_write.bytes", w.bytes, 3);
    expect("function_write, body", memcmp(body, data + 11, 3), 0);
}

static void site(void) {
    const uint8_t data[] = {1, 2, 4, 0, 4, 0xFF, 0xFE}; /* 0x0102: a time offset of -2 */
    uint8_t packet[SFN_TRANSPORT];
    struct sfn_written w =
        sfn_mip_write(11, 0x2345, 1, 0x6789, 9000001, 2000002, 0x89ABCDEF, data, sizeof data, packet, sizeof packet);
    expect("mip_write.refusal", w.refusal, 0);
    expect("mip_write.bytes", w.bytes, 188);
    struct sfn_mip m = sfn_mip_read(packet, sizeof packet);
    expect("mip.refusal", m.refusal, 0);
    expect("mip.stamp", m.stamp, 9000001);
    expect("mip.delay", m.delay, 2000002);
    expect("mip.tps", m.tps, 0x89ABCDEF);
    expect("mip.addressing", m.addressing, sizeof data);
    expect("mip.pointer", m.pointer, 0x2345);
    expect("mip.future", m.future, 0x6789);
    expect("mip.count", m.count, 11);
    expect("mip.periodic", m.periodic, 1);
    struct sfn_function f = sfn_function_read(0, packet + 26, 2);
    expect("function.value, negative", f.value, -2);
    struct sfn_time t = sfn_emission(m.stamp, m.delay, f.value);
    expect("emission.refusal", t.refusal, 0);
    expect("emission.steps", t.steps, 1000001);
    t = sfn_extra_delay(m.stamp, m.delay, f.value, 1000004);
    expect("extra_delay.refusal", t.refusal, 0);
    expect("extra_delay.steps", t.steps, 9999997);
    t = sfn_extra_delay(m.stamp, m.delay, 40000, 0);
    expect("extra_delay.refusal, offset", t.refusal, SFN_REFUSED_TOO_WIDE_OR_UNFIT_STATE);
}

int main(void) {
    expect("crc", sfn_crc((const uint8_t *)"123456789", 9), 0x0376E6E7); /* a published check value */
    packets_and_stamps();
    lengths();
    kinds_of_stamps();
    carriage();
    addressing();
    site();
    printf("%d failures\n", failures);
    return failures != 0;
}
