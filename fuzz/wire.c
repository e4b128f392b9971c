/*
 * Reads and writes of the wire: numbers, compact sizes, spans and outpoints, from any position of any bytes and to any
 * offset of any room.
 */
#include "ground.h"

#include <string.h>

enum { LONGEST_WRITE = 1 << 16, OUTPOINT_SIZE = 36 };

static region source_region, destination_region, array_region, value_region;

void prepare(void) {
    make_input_region(&source_region, LONGEST_PAYLOAD);
    make_input_region(&value_region, LONGEST_WRITE);
    make_output_region(&destination_region, LONGEST_WRITE);
    make_output_region(&array_region, OUTPOINT_SIZE);
}

/* Lent bytes, and where a read begins. */
typedef struct {
    const uint8_t *bytes;
    size_t length;
    size_t position;
    layout where;
} reading;

static size_t bytes_left(reading from) {
    return from.position <= from.length ? from.length - from.position : 0;
}

/* What document 01 says of a read of `size` bytes that does not fit; `fits` is number 0. */
static verdict slice_verdict(reading from, size_t size) {
    if (from.position > from.length) {
        return (verdict){1, from.position, from.position - from.length, 0};
    }
    if (size <= bytes_left(from)) {
        return (verdict){0, 0, 0, 0};
    }
    if (size > SIZE_MAX - from.position) {
        return (verdict){2, SIZE_MAX, bytes_left(from), 0};
    }
    return (verdict){1, from.position, size - bytes_left(from), 0};
}

/* ---- reads */

static void check_number(entry by, reading from, turgamysk_number_answer answer) {
    answered(by, VERDICT(answer.stop));
    witness(answer.stop.position);
    witness(answer.value);
    REQUIRE(answer.stop.number == 0 || answer.value == 0);
    REQUIRE(answer.stop.number != 0 || answer.stop.position <= from.length);
    REQUIRE(answer.stop.position >= from.position);
}

/* A number of fixed width: an unfinished read stays at its start. */
static void check_fixed(entry by, reading from, size_t size, turgamysk_number_answer answer) {
    check_number(by, from, answer);
    verdict expected = slice_verdict(from, size);
    REQUIRE(same_verdict(VERDICT(answer.stop), expected));
    REQUIRE(answer.stop.position == from.position + (expected.number == 0 ? size : 0));
    REQUIRE(expected.number != 0 || answer.value == little_endian(from.bytes + from.position, size));
}

static void check_fixed_numbers(reading from) {
    check_fixed(ENTRY_read_u8, from, 1, turgamysk_read_u8(from.bytes, from.length, from.position));
    check_fixed(ENTRY_read_u16_le, from, 2, turgamysk_read_u16_le(from.bytes, from.length, from.position));
    check_fixed(ENTRY_read_u32_le, from, 4, turgamysk_read_u32_le(from.bytes, from.length, from.position));
    check_fixed(ENTRY_read_u64_le, from, 8, turgamysk_read_u64_le(from.bytes, from.length, from.position));
}

/* An accepted compact size is the shortest form: written again it gives the same bytes. */
static void check_compact_bytes(reading from, turgamysk_number_answer answer) {
    size_t size = answer.stop.position - from.position;
    REQUIRE(size == turgamysk_compact_size_len(answer.value));
    uint8_t *again = lend_output(&destination_region, from.where, size);
    turgamysk_write_answer written = turgamysk_put_compact_size(again, size, 0, answer.value);
    REQUIRE(written.number == 0 && written.written == size);
    REQUIRE(untouched_from(&destination_region, size));
    REQUIRE(memcmp(again, from.bytes + from.position, size) == 0);
}

/* A compact size that was refused for its form has been passed. */
static void check_longer_form(reading from, turgamysk_number_answer answer) {
    REQUIRE(answer.stop.position == from.position + 1 + answer.stop.first / 8);
}

static void check_compact_size(reading from, size_t maximum) {
    turgamysk_number_answer answer = turgamysk_read_compact_size(from.bytes, from.length, from.position);
    check_number(ENTRY_read_compact_size, from, answer);
    if (answer.stop.number == 0) {
        check_compact_bytes(from, answer);
    }
    if (answer.stop.number == 4) {
        check_longer_form(from, answer);
    }
    turgamysk_number_answer bounded = turgamysk_read_compact_usize(from.bytes, from.length, from.position, maximum);
    check_number(ENTRY_read_compact_usize, from, bounded);
    REQUIRE(bounded.stop.position == answer.stop.position);
    bool above = answer.stop.number == 0 && answer.value > maximum;
    verdict expected = above ? (verdict){2, answer.value, maximum, 0} : VERDICT(answer.stop);
    REQUIRE(same_verdict(VERDICT(bounded.stop), expected));
    REQUIRE(bounded.value == (above ? 0 : answer.value));
}

static void check_span(entry by, reading from, turgamysk_span_answer answer) {
    answered(by, VERDICT(answer.stop));
    witness(answer.stop.position);
    witness(answer.start);
    witness(answer.length);
    if (answer.stop.number != 0) {
        REQUIRE(answer.start == 0 && answer.length == 0);
        return;
    }
    REQUIRE(answer.start >= from.position && answer.start <= from.length);
    REQUIRE(answer.length <= from.length - answer.start);
    REQUIRE(answer.stop.position == answer.start + answer.length);
}

static void check_slices(reading from, size_t size, size_t maximum) {
    verdict expected = slice_verdict(from, size);
    turgamysk_span_answer slice = turgamysk_read_slice(from.bytes, from.length, from.position, size);
    check_span(ENTRY_read_slice, from, slice);
    REQUIRE(same_verdict(VERDICT(slice.stop), expected));
    REQUIRE(slice.stop.number != 0 || (slice.start == from.position && slice.length == size));
    REQUIRE(slice.stop.number == 0 || slice.stop.position == from.position);
    turgamysk_span_answer bounded = turgamysk_read_bounded(from.bytes, from.length, from.position, size, maximum);
    check_span(ENTRY_read_bounded, from, bounded);
    bool above = size > maximum && from.position <= from.length;
    REQUIRE(same_verdict(VERDICT(bounded.stop), above ? (verdict){2, size, maximum, 0} : expected));
}

static void check_varbytes(reading from, size_t maximum) {
    turgamysk_span_answer span = turgamysk_read_varbytes(from.bytes, from.length, from.position, maximum);
    check_span(ENTRY_read_varbytes, from, span);
    turgamysk_number_answer size = turgamysk_read_compact_usize(from.bytes, from.length, from.position, maximum);
    if (size.stop.number != 0) {
        REQUIRE(same_stop(span.stop, size.stop));
        return;
    }
    turgamysk_span_answer slice = turgamysk_read_slice(from.bytes, from.length, size.stop.position, size.value);
    REQUIRE(same_stop(span.stop, slice.stop));
    REQUIRE(span.start == slice.start && span.length == slice.length);
}

static void check_array(reading from) {
    static const uint8_t zeros[HASH_SIZE];
    uint8_t *array = lend_output(&array_region, from.where, HASH_SIZE);
    turgamysk_stop answer = turgamysk_read_array(from.bytes, from.length, from.position, array);
    answered(ENTRY_read_array, VERDICT(answer));
    REQUIRE(untouched_from(&array_region, HASH_SIZE));
    REQUIRE(same_verdict(VERDICT(answer), slice_verdict(from, HASH_SIZE)));
    REQUIRE(answer.position == from.position + (answer.number == 0 ? HASH_SIZE : 0));
    REQUIRE(memcmp(array, answer.number == 0 ? from.bytes + from.position : zeros, HASH_SIZE) == 0);
}

static void check_ends(reading from) {
    size_t left = turgamysk_remaining(from.bytes, from.length, from.position);
    observed(ENTRY_remaining, 0, left, from.position);
    REQUIRE(left == bytes_left(from));
    turgamysk_stop answer = turgamysk_finish(from.bytes, from.length, from.position);
    answered(ENTRY_finish, VERDICT(answer));
    REQUIRE(answer.position == from.position);
    verdict expected = left == 0 ? slice_verdict(from, 0) : (verdict){3, left, 0, 0};
    REQUIRE(same_verdict(VERDICT(answer), expected));
}

/* ---- outpoints */

static void check_outpoint_bytes(reading from, turgamysk_outpoint outpoint) {
    uint8_t *encoded = lend_output(&array_region, from.where, OUTPOINT_SIZE);
    turgamysk_outpoint_encode(outpoint, encoded);
    REQUIRE(untouched_from(&array_region, OUTPOINT_SIZE));
    REQUIRE(memcmp(encoded, from.bytes + from.position, OUTPOINT_SIZE) == 0);
    REQUIRE(turgamysk_outpoint_same(outpoint, outpoint));
    turgamysk_outpoint other = outpoint;
    other.transaction_hash[outpoint.index % HASH_SIZE] ^= 1;
    REQUIRE(!turgamysk_outpoint_same(outpoint, other));
    other = outpoint;
    other.index ^= 1;
    REQUIRE(!turgamysk_outpoint_same(outpoint, other));
}

static void check_outpoint(reading from) {
    static const turgamysk_outpoint zeros;
    static const turgamysk_outpoint null = {.index = UINT32_MAX};
    turgamysk_outpoint_answer answer = turgamysk_outpoint_decode(from.bytes, from.length, from.position);
    answered(ENTRY_outpoint_decode, VERDICT(answer.stop));
    witness(answer.stop.position);
    witness(answer.outpoint.index);
    witness_bytes(answer.outpoint.transaction_hash, HASH_SIZE);
    REQUIRE(turgamysk_outpoint_is_null(answer.outpoint) == (memcmp(&answer.outpoint, &null, sizeof null) == 0));
    if (answer.stop.number == 0) {
        REQUIRE(answer.stop.position == from.position + OUTPOINT_SIZE);
        check_outpoint_bytes(from, answer.outpoint);
    } else {
        REQUIRE(memcmp(&answer.outpoint, &zeros, sizeof zeros) == 0);
    }
}

/* ---- amounts */

static void check_amount(entry by, turgamysk_amount_answer answer, uint8_t outcome, uint64_t value) {
    observed(by, answer.outcome, answer.value, 0);
    REQUIRE(answer.outcome == outcome);
    REQUIRE(answer.value == (outcome == 0 ? value : 0));
}

static void check_amounts(uint64_t amount, uint64_t other) {
    bool overflows = amount > UINT64_MAX - other;
    check_amount(ENTRY_checked_add, turgamysk_checked_add(amount, other), overflows ? 1 : 0, amount + other);
    check_amount(ENTRY_checked_sub, turgamysk_checked_sub(amount, other), amount < other ? 2 : 0, amount - other);
}

/* ---- writes */

/* Room for a write, and where in it the bytes are to go. */
typedef struct {
    uint8_t *bytes;
    size_t length;
    size_t at;
} room;

static room lend_room(layout where, choices *choose, size_t near) {
    room lent = {.length = choose_byte(choose) + (size_t)choose_byte(choose) / 128 * near};
    lent.at = choose_number(choose, lent.length);
    lent.bytes = lend_output(&destination_region, where, lent.length);
    return lent;
}

/* The bytes before `at` and after what was written are as they were; all of them, where nothing was. */
static bool only_written(room lent, const uint8_t *before, size_t written) {
    size_t start = written == 0 ? 0 : lent.at;
    return memcmp(lent.bytes, before, start) == 0 && untouched_from(&destination_region, start + written);
}

static void check_write(entry by, room lent, const uint8_t *before, turgamysk_write_answer answer, const uint8_t *value, size_t size) {
    answered(by, VERDICT(answer));
    bool fits = lent.at <= lent.length && size <= lent.length - lent.at;
    verdict expected = fits ? (verdict){0, 0, 0, 0} : (verdict){29, size, 0, 0};
    REQUIRE(same_verdict(VERDICT(answer), expected));
    REQUIRE(answer.written == (fits ? size : 0));
    REQUIRE(only_written(lent, before, answer.written));
    REQUIRE(!fits || memcmp(lent.bytes + lent.at, value, size) == 0);
}

static void check_number_writes(layout where, choices *choose, uint64_t value) {
    static uint8_t before[LONGEST_WRITE];
    uint8_t expected[sizeof value];
    memcpy(expected, &value, sizeof value);
    room lent = lend_room(where, choose, 0);
    memcpy(before, lent.bytes, lent.length);
    check_write(ENTRY_put_u8, lent, before, turgamysk_put_u8(lent.bytes, lent.length, lent.at, (uint8_t)value), expected, 1);
    lend_output(&destination_region, where, lent.length);
    check_write(ENTRY_put_u16_le, lent, before, turgamysk_put_u16_le(lent.bytes, lent.length, lent.at, (uint16_t)value), expected, 2);
    lend_output(&destination_region, where, lent.length);
    check_write(ENTRY_put_u32_le, lent, before, turgamysk_put_u32_le(lent.bytes, lent.length, lent.at, (uint32_t)value), expected, 4);
    lend_output(&destination_region, where, lent.length);
    check_write(ENTRY_put_u64_le, lent, before, turgamysk_put_u64_le(lent.bytes, lent.length, lent.at, value), expected, 8);
}

/* A compact size by document 01's sentence. */
static size_t spell_compact(uint64_t value, uint8_t *spelled) {
    static const uint64_t below[] = {253, 65536, UINT64_C(1) << 32};
    static const uint8_t sizes[] = {1, 3, 5, 9};
    size_t form = 0;
    while (form < 3 && value >= below[form]) {
        form++;
    }
    spelled[0] = form == 0 ? (uint8_t)value : (uint8_t)(252 + form);
    memcpy(spelled + 1, &value, sizes[form] - 1u);
    return sizes[form];
}

static void check_compact_write(layout where, choices *choose, uint64_t value) {
    static uint8_t before[LONGEST_WRITE];
    uint8_t expected[9];
    size_t size = spell_compact(value, expected);
    REQUIRE(turgamysk_compact_size_len(value) == size);
    room lent = lend_room(where, choose, 0);
    memcpy(before, lent.bytes, lent.length);
    turgamysk_write_answer answer = turgamysk_put_compact_size(lent.bytes, lent.length, lent.at, value);
    check_write(ENTRY_put_compact_size, lent, before, answer, expected, size);
}

static void check_byte_writes(layout where, choices *choose, const uint8_t *value, size_t length) {
    static uint8_t before[LONGEST_WRITE], expected[LONGEST_WRITE];
    const uint8_t *lent_value = lend_input(&value_region, where, value, length);
    room lent = lend_room(where, choose, length);
    memcpy(before, lent.bytes, lent.length);
    check_write(ENTRY_put_bytes, lent, before, turgamysk_put_bytes(lent.bytes, lent.length, lent.at, lent_value, length), value, length);
    lend_output(&destination_region, where, lent.length);
    size_t prefix = spell_compact(length, expected);
    memcpy(expected + prefix, value, length);
    turgamysk_write_answer answer = turgamysk_put_varbytes(lent.bytes, lent.length, lent.at, lent_value, length);
    check_write(ENTRY_put_varbytes, lent, before, answer, expected, prefix + length);
}

void play(test_case given) {
    size_t position = choose_number(&given.choose, given.length);
    size_t size = choose_number(&given.choose, given.length - position);
    size_t maximum = choose_number(&given.choose, size);
    const uint8_t *bytes = lend_input(&source_region, given.where, given.payload, given.length);
    reading from = {bytes, given.length, position, given.where};
    check_fixed_numbers(from);
    check_compact_size(from, maximum);
    check_slices(from, size, maximum);
    check_varbytes(from, maximum);
    check_array(from);
    check_ends(from);
    check_outpoint(from);
    uint64_t value = little_endian(given.payload, given.length < 8 ? given.length : 8);
    check_amounts(value, choose_number(&given.choose, (size_t)value));
    check_amounts(value, choose_number(&given.choose, (size_t)(UINT64_MAX - value)));
    check_number_writes(given.where, &given.choose, value);
    check_compact_write(given.where, &given.choose, value >> (choose_byte(&given.choose) & 63));
    check_byte_writes(given.where, &given.choose, given.payload, given.length < LONGEST_WRITE / 2 ? given.length : LONGEST_WRITE / 2);
}
