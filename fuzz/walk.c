#include "walk.h"

enum { MOST_RECORDS = 1023, WHERE_IT_ENDS = 0x8000 };

size_t transaction_length(test_case *given) {
    size_t high = choose_byte(&given->choose);
    size_t chosen = high << 8 | choose_byte(&given->choose);
    if (chosen < WHERE_IT_ENDS) {
        return chosen < given->length ? chosen : given->length;
    }
    turgamysk_sheet_answer whole = turgamysk_judge_transaction(given->payload, given->length);
    return whole.stop.number == 3 ? given->length - whole.stop.first : given->length;
}

size_t record_count(const sheet *of) {
    return of->side == TRANSACTION ? of->answer.outputs : of->answer.inputs;
}

/*
 * The output's fields, its hash and its covenant, from `start` on; every read is within the sheet, since its judge
 * accepted it.
 */
static place place_at(const sheet *of, size_t start) {
    place found = {.start = start, .hash = start + OUTPUT_FIELDS_SIZE};
    REQUIRE(found.hash <= of->length);
    uint8_t last = of->bytes[found.hash - 1];
    REQUIRE(last < 64);
    found.hash_length = last;
    found.covenant = found.hash + found.hash_length;
    REQUIRE(found.covenant <= of->length);
    turgamysk_covenant_answer covenant = turgamysk_covenant_read(of->bytes, of->length, found.covenant, LARGEST_COVENANT);
    REQUIRE(covenant.stop.number == 0);
    found.kind = covenant.kind;
    found.end = covenant.stop.position;
    return found;
}

/* Inputs come before outputs; a coin's outpoint comes before its output. */
place record_place(const sheet *of, size_t index) {
    size_t between = of->side == COINS ? OUTPOINT_SIZE : 0;
    size_t first = HEAD_SIZE + (of->side == TRANSACTION ? of->answer.inputs * OUTPOINT_SIZE : 0);
    place found = place_at(of, first + between);
    for (size_t i = 0; i < index; i++) {
        found = place_at(of, found.end + between);
    }
    return found;
}

size_t outpoint_position(const sheet *of, size_t index) {
    if (of->side == TRANSACTION) {
        return HEAD_SIZE + index * OUTPOINT_SIZE;
    }
    return record_place(of, index).start - OUTPOINT_SIZE;
}

/* Document 01's head: version 4 bits, side 2, inputs or coins 10, outputs 10, spare 6. */
static void check_head(const sheet *of) {
    REQUIRE(of->length >= HEAD_SIZE);
    uint64_t head = big_endian(of->bytes, HEAD_SIZE);
    REQUIRE(head >> 28 == 1 && (head >> 26 & 3) == of->side && (head & 63) == 0);
    REQUIRE(of->answer.inputs == (head >> 16 & MOST_RECORDS));
    REQUIRE(of->answer.outputs == (head >> 6 & MOST_RECORDS));
    REQUIRE(of->side == TRANSACTION || of->answer.outputs == 0);
}

/* The last record ends where the sheet does. */
static void check_end(const sheet *of) {
    size_t count = record_count(of);
    size_t inputs_end = HEAD_SIZE + (of->side == TRANSACTION ? of->answer.inputs * OUTPOINT_SIZE : 0);
    REQUIRE((count == 0 ? inputs_end : record_place(of, count - 1).end) == of->length);
}

static void check_refused(const sheet *of) {
    turgamysk_sheet_answer answer = of->answer;
    REQUIRE(answer.side == of->side && answer.inputs == 0 && answer.outputs == 0);
    REQUIRE((answer.stop.number != 27 && answer.stop.number != 28) || answer.stop.first == of->side);
    REQUIRE((answer.stop.number == 28) == (of->length > LARGEST_SHEET));
    REQUIRE(answer.stop.number != 28 || answer.stop.second == of->length);
    REQUIRE(answer.stop.number != 27 || answer.stop.second < of->length);
}

sheet judge(region *to, layout where, const uint8_t *bytes, size_t length, uint8_t side) {
    sheet made = {.bytes = lend_input(to, where, bytes, length), .length = length, .side = side, .where = where};
    made.answer = side == TRANSACTION ? turgamysk_judge_transaction(made.bytes, length) : turgamysk_judge_coins(made.bytes, length);
    answered(side == TRANSACTION ? ENTRY_judge_transaction : ENTRY_judge_coins, VERDICT(made.answer.stop));
    witness(made.answer.inputs);
    witness(made.answer.outputs);
    REQUIRE(made.answer.stop.position == 0);
    if (made.answer.stop.number != 0) {
        check_refused(&made);
        return made;
    }
    REQUIRE(made.answer.side == 0);
    check_head(&made);
    check_end(&made);
    return made;
}
