/* What one transmitter hears in a feed of T2-MI in transport packets: the timestamps, and the functions addressed to
 * it.
 *
 *     site TRANSMITTER [FILE]      the identifier in decimal or 0x..; without FILE, from standard input
 *
 * Once `./install` has put the library in place: cc site.c $(pkg-config --cflags --libs sfn) -o site. It shows the
 * calls in their order: sfn_start once, sfn_gather for each 188 bytes, sfn_packet_length to cut what it handed out
 * into packets, sfn_packet_read for each of them, then the reader of its payload. */
#include "sfn.h"

#include <errno.h>
#include <stdio.h>
#include <stdlib.h>
#include <string.h>

enum { PID = 0x1000 };

/* What is counted over the whole feed. */
struct tally {
    unsigned long transport, refused, packets, losses, misfits, crcs;
};

static const char *stamp_word(uint8_t kind) {
    switch (kind) {
    case SFN_STAMP_RELATIVE: return "relative";
    case SFN_STAMP_NULL: return "null";
    default: return "absolute";
    }
}

static void print_stamp(const uint8_t *payload, size_t len) {
    struct sfn_stamp s = sfn_stamp_read(payload, len);
    if (s.refusal != 0) {
        printf("stamp refused %u\n", (unsigned)s.refusal);
        return;
    }
    printf("stamp bw %u seconds %llu subseconds %u utco %u %s\n", s.bw, (unsigned long long)s.seconds,
           (unsigned)s.subseconds, s.utco, stamp_word(s.kind));
}

static void print_body(const char *name, const uint8_t *body, size_t len) {
    printf("%s", name);
    for (size_t i = 0; i < len; i++) {
        printf(" %02x", body[i]);
    }
    printf("\n");
}

static void print_function(uint8_t tag, const uint8_t *body, size_t len) {
    struct sfn_function f = sfn_function_read(tag, body, len);
    if (f.refusal != 0) { /* cannot be: the walk has judged tag and body already */
        printf("function refused %u\n", (unsigned)f.refusal);
        return;
    }
    printf("function %u ", f.tag);
    switch (f.kind) {
    case SFN_TIME_OFFSET: printf("time offset %d\n", (int)f.value); break;
    case SFN_FREQUENCY_OFFSET: printf("frequency offset %d\n", (int)f.value); break;
    case SFN_POWER: printf("power %d\n", (int)f.value); break;
    case SFN_PRIVATE: print_body("private", body, len); break;
    case SFN_CELL: printf("cell %d wait %u reserved %u\n", (int)f.value, f.wait, f.reserved); break;
    case SFN_ENABLE: print_body("enabled", body, len); break;
    case SFN_BANDWIDTH: printf("bandwidth %d wait %u\n", (int)f.value, f.wait); break;
    default: print_body("passed through", body, len); break;
    }
}

/* A walk goes from place to place through the data, which begins behind the payload's first two bytes. */
static void print_functions(const uint8_t *payload, size_t len, uint16_t transmitter) {
    struct sfn_addressing a = sfn_addressing_read(payload, len);
    if (a.refusal != 0) {
        printf("addressing refused %u\n", (unsigned)a.refusal);
        return;
    }
    const uint8_t *data = payload + 2;
    struct sfn_walked step = sfn_walk(data, a.bytes, transmitter, 0);
    while (step.given) {
        print_function(step.tag, data + step.start, step.body);
        step = sfn_walk(data, a.bytes, transmitter, step.next);
    }
}

static void print_packet(const uint8_t *packet, size_t len, uint16_t transmitter) {
    struct sfn_packet p = sfn_packet_read(packet, len);
    const uint8_t *payload = packet + 6; /* payload and length as sfn.h says at struct sfn_packet */
    size_t payload_len = (p.bits + 7) / 8;
    if (p.refusal != 0) {
        printf("packet refused %u\n", (unsigned)p.refusal);
    } else if (p.type == 0x20) {
        print_stamp(payload, payload_len);
    } else if (p.type == 0x21) {
        print_functions(payload, payload_len, transmitter);
    }
}

/* Packets handed out lie back to back; the length of each says where the next begins, and is 0 behind the last. */
static void print_packets(const uint8_t *out, size_t bytes, uint16_t transmitter) {
    size_t at = 0;
    size_t len = sfn_packet_length(out, bytes);
    while (len != 0) {
        print_packet(out + at, len, transmitter);
        at += len;
        len = sfn_packet_length(out + at, bytes - at);
    }
}

static void count(struct tally *t, const struct sfn_gathered *g) {
    t->transport++;
    t->refused += g->refusal != 0;
    t->packets += g->packets;
    t->losses += g->loss;
    t->misfits += g->misfit;
    t->crcs += g->crc;
}

/* Goes through the feed and gives the length of a cut last piece, which is set aside. */
static size_t hear(FILE *feed, uint16_t transmitter, struct tally *t) {
    static uint8_t gathering[SFN_GATHERING], out[SFN_OUTPUT];
    uint8_t transport[SFN_TRANSPORT];
    struct sfn_reader reader = sfn_start(PID).reader; /* 0x1000 is never refused */
    size_t len = fread(transport, 1, sizeof transport, feed);
    while (len == sizeof transport) {
        struct sfn_gathered g = sfn_gather(reader, transport, len, gathering, sizeof gathering, out, sizeof out);
        reader = g.reader; /* also after a refusal: then it is the old one */
        count(t, &g);
        print_packets(out, g.bytes, transmitter);
        len = fread(transport, 1, sizeof transport, feed);
    }
    return len;
}

static void print_tally(const struct tally *t, size_t cut) {
    printf("transport packets %lu refused %lu\n", t->transport, t->refused);
    printf("packets %lu losses %lu misfits %lu crcs %lu\n", t->packets, t->losses, t->misfits, t->crcs);
    if (cut != 0) {
        printf("set aside: a cut last piece of %zu bytes\n", cut);
    }
}

/* An identifier of 16 bits; -1 for any other text. */
static long identifier(const char *text) {
    char *end = NULL;
    int hexadecimal = strncmp(text, "0x", 2) == 0;
    const char *digits = hexadecimal ? text + 2 : text;
    size_t len = strspn(digits, hexadecimal ? "0123456789abcdefABCDEF" : "0123456789");
    if (len == 0 || digits[len] != '\0') {
        return -1;
    }
    long number = strtol(digits, &end, hexadecimal ? 16 : 10);
    return number > 0xFFFF ? -1 : number;
}

int main(int argc, char **argv) {
    struct tally t = {0, 0, 0, 0, 0, 0};
    long transmitter = argc == 2 || argc == 3 ? identifier(argv[1]) : -1;
    if (transmitter < 0) {
        fprintf(stderr, "usage: site TRANSMITTER [FILE]   (TRANSMITTER from 0 to 65535, or 0x0000 to 0xffff)\n");
        return 2;
    }
    FILE *feed = argc == 3 ? fopen(argv[2], "rb") : stdin;
    if (feed == NULL) {
        fprintf(stderr, "site: %s: %s\n", argv[2], strerror(errno));
        return 1;
    }
    size_t cut = hear(feed, (uint16_t)transmitter, &t);
    if (ferror(feed)) {
        fprintf(stderr, "site: the feed cannot be read to its end: %s\n", strerror(errno));
        return 1;
    }
    print_tally(&t, cut);
    return fflush(stdout) != 0;
}
