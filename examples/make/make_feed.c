/* Writes the recorded feed of examples/ to standard output: T2-MI packets made and carried by the library's own
 * writers, then a link that loses, repeats and damages some of the transport packets. Nothing here depends on time or
 * chance: each run writes the same bytes. examples/README.md says what is in them. */
#include "sfn.h"

#include <stdio.h>
#include <stdlib.h>
#include <string.h>

enum {
    PID = 0x1000,
    ROOM = SFN_TRANSPORT * (SFN_BATCH_MOST / 183 + 1), /* enough for every batch, as sfn.h says at sfn_carry */
    FRAMES = 8
};

/* ---- T2-MI packets, one behind the other in a batch ---- */

static uint8_t batch[SFN_BATCH_MOST];
static size_t batch_len = 0;
static uint8_t packet_count = 250; /* it goes on from 255 to 0 within the feed */

static void must(uint32_t refusal, const char *what) {
    if (refusal != 0) {
        fprintf(stderr, "make_feed: %s was refused with %u\n", what, (unsigned)refusal);
        exit(1);
    }
}

static void add_packet(uint8_t type, uint8_t frame, uint32_t bits, const uint8_t *payload) {
    struct sfn_written w = sfn_packet_write(type, packet_count, frame, 0, bits, payload, (bits + 7) / 8,
                                            batch + batch_len, sizeof batch - batch_len);
    must(w.refusal, "a T2-MI packet");
    batch_len += w.bytes;
    packet_count++;
}

/* Bytes that look like coded data: a linear congruence, always from the same seed. */
static void fill(uint8_t *bytes, size_t len) {
    static uint32_t seed = 2026;
    for (size_t i = 0; i < len; i++) {
        seed = seed * 1664525u + 1013904223u;
        bytes[i] = (uint8_t)(seed >> 24);
    }
}

/* A baseband frame (type 0x00) or L1 data (0x10): contents that the library does not read. */
static void add_filled(uint8_t type, uint8_t frame, uint32_t bits) {
    static uint8_t payload[8192];
    size_t len = (bits + 7) / 8;
    fill(payload, len);
    if (bits % 8 != 0) {
        payload[len - 1] &= (uint8_t)(0xFF << (8 - bits % 8)); /* pad bits are zero (01, refusal 22) */
    }
    add_packet(type, frame, bits, payload);
}

static void add_stamp(uint8_t frame, uint8_t bw, uint64_t seconds, uint32_t subseconds, uint16_t utco) {
    uint8_t payload[11];
    must(sfn_stamp_write(bw, seconds, subseconds, utco, payload, sizeof payload).refusal, "a timestamp");
    add_packet(0x20, frame, 88, payload);
}

/* ---- addressing data: groups of functions ---- */

static uint8_t data[255];
static size_t data_len = 0, loop_at = 0;

static void begin_group(uint16_t transmitter) {
    data[data_len++] = (uint8_t)(transmitter >> 8);
    data[data_len++] = (uint8_t)transmitter;
    loop_at = data_len++;
    data[loop_at] = 0;
}

static void add_function(uint8_t kind, uint8_t tag, int32_t value, uint8_t wait, const uint8_t *bytes, size_t len) {
    uint8_t *at = data + data_len;
    size_t room = sizeof data - data_len - 2;
    struct sfn_written w = sfn_function_write(kind, tag, value, wait, 0, bytes, len, at + 2, room);
    must(w.refusal, "a function");
    at[0] = tag;
    at[1] = (uint8_t)(2 + w.bytes); /* the house rule: the length counts tag and length too */
    data[loop_at] = (uint8_t)(data[loop_at] + at[1]);
    data_len += at[1];
}

static void add_addressing(uint8_t frame) {
    uint8_t payload[257];
    struct sfn_written w = sfn_addressing_write(data, data_len, payload, sizeof payload);
    must(w.refusal, "an addressing payload");
    add_packet(0x21, frame, 8 * w.bytes, payload);
    data_len = 0;
}

static const uint8_t NONE[1] = {0};

static void add_first_addressing(uint8_t frame) {
    const uint8_t enabled[] = {0, 1, 2, 4, 6}, secret[] = {0xC0, 0xFF, 0xEE};
    begin_group(0x0000);
    add_function(SFN_ENABLE, 5, 0, 0, enabled, sizeof enabled);
    add_function(SFN_BANDWIDTH, 6, 0, 1, NONE, 0);
    begin_group(0x0101);
    add_function(SFN_TIME_OFFSET, 0, -120, 0, NONE, 0);
    add_function(SFN_FREQUENCY_OFFSET, 1, 250, 0, NONE, 0);
    add_function(SFN_POWER, 2, 601, 0, NONE, 0);
    begin_group(0x0202);
    add_function(SFN_TIME_OFFSET, 0, 32767, 0, NONE, 0);
    add_function(SFN_PRIVATE, 3, 0, 0, secret, sizeof secret);
    add_addressing(frame);
}

static void add_second_addressing(uint8_t frame) {
    const uint8_t unknown[] = {0xDE, 0xAD};
    begin_group(0x0202);
    add_function(SFN_FREQUENCY_OFFSET, 1, -8388608, 0, NONE, 0);
    begin_group(0x0101);
    add_function(SFN_CELL, 4, 0x1234, 1, NONE, 0);
    add_function(SFN_PASSED, 9, 0, 0, unknown, sizeof unknown);
    add_addressing(frame);
}

/* ---- what each frame of 200 ms has ---- */

/* 8 MHz has 64 units in a microsecond (01): a frame is 12,800,000 of them, and a second 64,000,000. */
static void add_frame_stamp(uint8_t frame) {
    uint32_t units = 6400000u + 12800000u * frame;
    if (frame == 3) {
        add_stamp(frame, 4, 0xFFFFFFFFFF, 0x7FFFFFF, 0x1FFF); /* null */
    } else if (frame == 6) {
        add_stamp(frame, 4, 0, 640000, 5); /* relative */
    } else {
        add_stamp(frame, 4, 845000000 + units / 64000000u, units % 64000000u, 5);
    }
}

static void make_frame(uint8_t frame) {
    static const uint32_t bits[3] = {2403, 9600, 21000};
    add_frame_stamp(frame);
    add_filled(0x10, frame, 355);
    if (frame == 1 || frame == 7) {
        add_first_addressing(frame);
    }
    if (frame == 5) {
        add_second_addressing(frame);
    }
    for (int i = 0; i < 3; i++) {
        add_filled(0x00, frame, bits[i] + 8u * frame);
    }
}

/* ---- the link ---- */

static void put(const uint8_t *bytes, size_t len) {
    if (fwrite(bytes, 1, len, stdout) != len) {
        fprintf(stderr, "make_feed: the feed cannot be written\n");
        exit(1);
    }
}

/* A packet of another PID, as other services have them in the same stream. */
static void put_other(uint16_t pid, unsigned number) {
    uint8_t packet[SFN_TRANSPORT] = {0x47, (uint8_t)(pid >> 8), (uint8_t)pid, (uint8_t)(0x10 | (number & 15))};
    memset(packet + 4, 0xFF, sizeof packet - 4);
    put(packet, sizeof packet);
}

/* Makes the first T2-MI packet that begins here say that it is 32 bytes longer than it is. It stands behind the header
 * (4), the pointer (1) and as many bytes as the pointer says; the higher byte of payload_len is its fifth. */
static void lengthen(uint8_t *packet) {
    packet[4 + 1 + packet[4] + 4]++;
}

/* Transport packet `number` of ours goes over the link. */
static void pass_on(uint8_t *packet, unsigned number) {
    int lost = (number >= 20 && number <= 22) || (number >= 91 && number <= 97);
    if (number == 45) {
        packet[1] |= 0x80; /* the error mark */
    }
    if (number == 63) {
        packet[100] ^= 0x10; /* damaged, and nobody marked it */
    }
    if (number == 104) {
        lengthen(packet);
    }
    if (!lost) {
        put(packet, SFN_TRANSPORT);
    }
    if (number == 33) {
        put(packet, SFN_TRANSPORT); /* again */
    }
    if (number % 9 == 4) {
        put_other(0x0100, number / 9);
    }
    if (number % 25 == 24) {
        put_other(0x1FFF, 0);
    }
}

int main(void) {
    static uint8_t out[ROOM];
    uint8_t next_count = 0;
    unsigned number = 0;
    for (uint8_t frame = 0; frame < FRAMES; frame++) {
        batch_len = 0;
        make_frame(frame);
        struct sfn_carried c = sfn_carry(PID, next_count, batch, batch_len, out, sizeof out);
        must(c.refusal, "a batch");
        next_count = c.next_count;
        for (uint32_t i = 0; i < c.packets; i++) {
            pass_on(out + SFN_TRANSPORT * i, number++);
        }
    }
    put(out, 77); /* the recording stopped in the midst of a transport packet */
    return fflush(stdout) != 0;
}
