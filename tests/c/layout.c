/* Where each field of sfn.h lies, in bytes, as the library's own structs have it (`repr(C)` on x86-64), what each
 * function takes, and what the constants are. It is compiled as C11 and as C++11 and never run: what moves stops the
 * compiler. */
#include "sfn.h"

#include <assert.h>

#define SIZE(name, bytes) static_assert(sizeof(struct name) == (bytes), #name " has another size")
#define FIELD(name, field, place, bytes)                                                                               \
    static_assert(offsetof(struct name, field) == (place) && sizeof(((struct name *)0)->field) == (bytes),             \
                  #name "." #field " lies elsewhere")

SIZE(sfn_written, 8);
FIELD(sfn_written, refusal, 0, 4);
FIELD(sfn_written, bytes, 4, 4);

SIZE(sfn_packet, 12);
FIELD(sfn_packet, refusal, 0, 4);
FIELD(sfn_packet, bits, 4, 4);
FIELD(sfn_packet, type, 8, 1);
FIELD(sfn_packet, count, 9, 1);
FIELD(sfn_packet, frame, 10, 1);
FIELD(sfn_packet, stream, 11, 1);

SIZE(sfn_carried, 12);
FIELD(sfn_carried, refusal, 0, 4);
FIELD(sfn_carried, packets, 4, 4);
FIELD(sfn_carried, next_count, 8, 1);

SIZE(sfn_reader, 8);
FIELD(sfn_reader, pid, 0, 2);
FIELD(sfn_reader, last, 2, 1);
FIELD(sfn_reader, in_step, 3, 1);
FIELD(sfn_reader, waiting, 4, 4);

SIZE(sfn_started, 12);
FIELD(sfn_started, refusal, 0, 4);
FIELD(sfn_started, reader, 4, 8);

SIZE(sfn_gathered, 24);
FIELD(sfn_gathered, refusal, 0, 4);
FIELD(sfn_gathered, reader, 4, 8);
FIELD(sfn_gathered, bytes, 12, 4);
FIELD(sfn_gathered, packets, 16, 4);
FIELD(sfn_gathered, loss, 20, 1);
FIELD(sfn_gathered, misfit, 21, 1);
FIELD(sfn_gathered, crc, 22, 1);

SIZE(sfn_stamp, 24);
FIELD(sfn_stamp, seconds, 0, 8);
FIELD(sfn_stamp, refusal, 8, 4);
FIELD(sfn_stamp, subseconds, 12, 4);
FIELD(sfn_stamp, utco, 16, 2);
FIELD(sfn_stamp, bw, 18, 1);
FIELD(sfn_stamp, kind, 19, 1);

SIZE(sfn_addressing, 8);
FIELD(sfn_addressing, refusal, 0, 4);
FIELD(sfn_addressing, bytes, 4, 4);

SIZE(sfn_walked, 20);
FIELD(sfn_walked, refusal, 0, 4);
FIELD(sfn_walked, start, 4, 4);
FIELD(sfn_walked, body, 8, 4);
FIELD(sfn_walked, next, 12, 4);
FIELD(sfn_walked, given, 16, 1);
FIELD(sfn_walked, tag, 17, 1);

SIZE(sfn_function, 12);
FIELD(sfn_function, refusal, 0, 4);
FIELD(sfn_function, value, 4, 4);
FIELD(sfn_function, kind, 8, 1);
FIELD(sfn_function, tag, 9, 1);
FIELD(sfn_function, wait, 10, 1);
FIELD(sfn_function, reserved, 11, 1);

SIZE(sfn_mip, 28);
FIELD(sfn_mip, refusal, 0, 4);
FIELD(sfn_mip, stamp, 4, 4);
FIELD(sfn_mip, delay, 8, 4);
FIELD(sfn_mip, tps, 12, 4);
FIELD(sfn_mip, addressing, 16, 4);
FIELD(sfn_mip, pointer, 20, 2);
FIELD(sfn_mip, future, 22, 2);
FIELD(sfn_mip, count, 24, 1);
FIELD(sfn_mip, periodic, 25, 1);

SIZE(sfn_time, 8);
FIELD(sfn_time, refusal, 0, 4);
FIELD(sfn_time, steps, 4, 4);

/* The constants, as document 01 has the numbers; the kinds are for `switch`, so they must be constants to C. */
#define VALUE(name, number) static_assert((name) == (number), #name " is another number")

VALUE(SFN_TRANSPORT, 188);
VALUE(SFN_PACKET_MOST, 8202);
VALUE(SFN_GATHERING, 8202);
VALUE(SFN_OUTPUT, 8385);
VALUE(SFN_BATCH_MOST, 65536);
VALUE(SFN_NONE, 255);

VALUE(SFN_STAMP_ABSOLUTE, 0);
VALUE(SFN_STAMP_RELATIVE, 1);
VALUE(SFN_STAMP_NULL, 2);

VALUE(SFN_TIME_OFFSET, 0);
VALUE(SFN_FREQUENCY_OFFSET, 1);
VALUE(SFN_POWER, 2);
VALUE(SFN_PRIVATE, 3);
VALUE(SFN_CELL, 4);
VALUE(SFN_ENABLE, 5);
VALUE(SFN_BANDWIDTH, 6);
VALUE(SFN_PASSED, 7);

/* Of the refusals the first, the last and some between; tests/header compares all of them with the proved code. */
VALUE(SFN_REFUSED_TRANSPORT_NOT_188, 1);
VALUE(SFN_REFUSED_COUNT_REPEATED, 12);
VALUE(SFN_REFUSED_CRC_WRONG, 14);
VALUE(SFN_REFUSED_OUTPUT_SHORT, 16);
VALUE(SFN_REFUSED_PAYLOAD_SIZE_WRONG, 23);
VALUE(SFN_REFUSED_BANDWIDTH_VALUE_RESERVED, 29);
VALUE(SFN_REFUSED_TOO_WIDE_OR_UNFIT_STATE, 38);

/* The functions once more, by types alone: another declaration than the header's is an error. */
#ifdef __cplusplus
extern "C" {
#endif
uint32_t sfn_crc(const uint8_t *, size_t);
uint32_t sfn_packet_length(const uint8_t *, size_t);
struct sfn_packet sfn_packet_read(const uint8_t *, size_t);
struct sfn_written sfn_packet_write(uint8_t, uint8_t, uint8_t, uint8_t, uint32_t, const uint8_t *, size_t, uint8_t *,
                                    size_t);
struct sfn_carried sfn_carry(uint16_t, uint8_t, const uint8_t *, size_t, uint8_t *, size_t);
struct sfn_started sfn_start(uint16_t);
struct sfn_gathered sfn_gather(struct sfn_reader, const uint8_t *, size_t, uint8_t *, size_t, uint8_t *, size_t);
struct sfn_stamp sfn_stamp_read(const uint8_t *, size_t);
struct sfn_written sfn_stamp_write(uint8_t, uint64_t, uint32_t, uint16_t, uint8_t *, size_t);
struct sfn_addressing sfn_addressing_read(const uint8_t *, size_t);
struct sfn_written sfn_addressing_write(const uint8_t *, size_t, uint8_t *, size_t);
struct sfn_walked sfn_walk(const uint8_t *, size_t, uint16_t, uint32_t);
struct sfn_function sfn_function_read(uint8_t, const uint8_t *, size_t);
struct sfn_written sfn_function_write(uint8_t, uint8_t, int32_t, uint8_t, uint8_t, const uint8_t *, size_t, uint8_t *,
                                      size_t);
struct sfn_mip sfn_mip_read(const uint8_t *, size_t);
struct sfn_written sfn_mip_write(uint8_t, uint16_t, uint8_t, uint16_t, uint32_t, uint32_t, uint32_t, const uint8_t *,
                                 size_t, uint8_t *, size_t);
struct sfn_time sfn_emission(uint32_t, uint32_t, int32_t);
struct sfn_time sfn_extra_delay(uint32_t, uint32_t, int32_t, uint32_t);
#ifdef __cplusplus
}
#endif
