/*
 * The wire encoding under Turgamysk's codecs: single reads from a position of lent bytes, and single writes into lent
 * bytes from an offset on (crates/capi/src/wire.rt). A user of the codecs does not need it. What turgamysk.h says of
 * every entry holds here too.
 */
#ifndef TURGAMYSK_WIRE_H
#define TURGAMYSK_WIRE_H

#include "turgamysk.h"

#ifdef __cplusplus
extern "C" {
#endif

/* A number that was read (`stop.number` 0), or the refusal. Unused parts are zeros. */
typedef struct {
    turgamysk_stop stop;
    uint64_t value;
} turgamysk_number_answer;

/* The same for bytes: they are `length` from `start` on. */
typedef struct {
    turgamysk_stop stop;
    size_t start;
    size_t length;
} turgamysk_span_answer;

/* How many of the `length` bytes stand after `position`. */
size_t turgamysk_remaining(const uint8_t *source, size_t length, size_t position);

/* The number of 1, 2, 4 or 8 bytes, the lowest first, at `position` of the `length` bytes. */
turgamysk_number_answer turgamysk_read_u8(const uint8_t *source, size_t length, size_t position);
turgamysk_number_answer turgamysk_read_u16_le(const uint8_t *source, size_t length, size_t position);
turgamysk_number_answer turgamysk_read_u32_le(const uint8_t *source, size_t length, size_t position);
turgamysk_number_answer turgamysk_read_u64_le(const uint8_t *source, size_t length, size_t position);

/* The compact size there; and one of at most `maximum`. */
turgamysk_number_answer turgamysk_read_compact_size(const uint8_t *source, size_t length, size_t position);
turgamysk_number_answer turgamysk_read_compact_usize(const uint8_t *source, size_t length, size_t position, size_t maximum);

/*
 * The next `size` bytes; the same, of which there may be at most `maximum`; and as many as a compact size of at most
 * `maximum` says.
 */
turgamysk_span_answer turgamysk_read_slice(const uint8_t *source, size_t length, size_t position, size_t size);
turgamysk_span_answer turgamysk_read_bounded(const uint8_t *source, size_t length, size_t position, size_t size, size_t maximum);
turgamysk_span_answer turgamysk_read_varbytes(const uint8_t *source, size_t length, size_t position, size_t maximum);

/* The next 32 bytes, into the 32 bytes at `array`: zeros where they are refused. */
turgamysk_stop turgamysk_read_array(const uint8_t *source, size_t length, size_t position, uint8_t *array);

/* Whether no bytes stand after `position`. */
turgamysk_stop turgamysk_finish(const uint8_t *source, size_t length, size_t position);

/*
 * `value` in 1, 2, 4 or 8 bytes, the lowest first, into the `dest_length` bytes at `dest` from `at` on: all of it, or
 * nothing.
 */
turgamysk_write_answer turgamysk_put_u8(uint8_t *dest, size_t dest_length, size_t at, uint8_t value);
turgamysk_write_answer turgamysk_put_u16_le(uint8_t *dest, size_t dest_length, size_t at, uint16_t value);
turgamysk_write_answer turgamysk_put_u32_le(uint8_t *dest, size_t dest_length, size_t at, uint32_t value);
turgamysk_write_answer turgamysk_put_u64_le(uint8_t *dest, size_t dest_length, size_t at, uint64_t value);

/* The same for `length` bytes, for a compact size in its shortest form, and for bytes after their length. */
turgamysk_write_answer turgamysk_put_bytes(uint8_t *dest, size_t dest_length, size_t at, const uint8_t *value, size_t length);
turgamysk_write_answer turgamysk_put_compact_size(uint8_t *dest, size_t dest_length, size_t at, uint64_t value);
turgamysk_write_answer turgamysk_put_varbytes(uint8_t *dest, size_t dest_length, size_t at, const uint8_t *value, size_t length);

/* How many bytes a compact size takes. */
size_t turgamysk_compact_size_len(uint64_t value);

#ifdef __cplusplus
}
#endif

#endif
