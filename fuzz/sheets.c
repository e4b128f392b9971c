/* Sheets: judged whole, their records read one by one, and their items viewed. */
#include "walk.h"

#include <string.h>

enum { RECORDS_CHECKED = 4, ITEMS_CHECKED = 5 };

static region transaction_region, coins_region, changed_region;

/*
 * A sheet above its size is refused for that first, and one of its size is not; too long for a payload, so it is tried
 * once.
 */
static void check_longest(uint8_t side) {
    static const uint8_t zeros[LARGEST_SHEET + 1];
    static region longest_region;
    make_input_region(&longest_region, sizeof zeros);
    sheet longest = judge(&longest_region, AGAINST_END, zeros, LARGEST_SHEET, side);
    REQUIRE(same_verdict(VERDICT(longest.answer.stop), (verdict){27, side, 0, 0}));
    sheet longer = judge(&longest_region, AGAINST_END, zeros, LARGEST_SHEET + 1, side);
    REQUIRE(same_verdict(VERDICT(longer.answer.stop), (verdict){28, side, LARGEST_SHEET + 1, 0}));
}

void prepare(void) {
    make_input_region(&transaction_region, LONGEST_PAYLOAD);
    make_input_region(&coins_region, LONGEST_PAYLOAD);
    make_input_region(&changed_region, LONGEST_PAYLOAD + 1);
    check_longest(TRANSACTION);
    check_longest(COINS);
}

/* An accepted sheet without its last bytes is cut off, and with one more has a trailing byte. */
static void check_changed_length(const sheet *of, const uint8_t *payload, uint8_t chosen) {
    static uint8_t longer[LONGEST_PAYLOAD + 1];
    size_t left = of->length - 1 - chosen % of->length;
    sheet cut = judge(&changed_region, of->where, payload, left, of->side);
    REQUIRE(cut.answer.stop.number == 1);
    memcpy(longer, payload, of->length);
    longer[of->length] = chosen;
    sheet more = judge(&changed_region, of->where, longer, of->length + 1, of->side);
    REQUIRE(same_verdict(VERDICT(more.answer.stop), (verdict){3, 1, 0, 0}));
}

/* ---- single records */

static bool outpoint_stands_at(const sheet *of, size_t position, turgamysk_outpoint outpoint) {
    const uint8_t *bytes = of->bytes + position;
    return memcmp(outpoint.transaction_hash, bytes, HASH_SIZE) == 0 && outpoint.index == big_endian(bytes + HASH_SIZE, 4);
}

/* Any 36 bytes are an input; fewer are refused. */
static void check_input_at(const sheet *of, size_t position) {
    static const turgamysk_outpoint zeros;
    turgamysk_outpoint_answer answer = turgamysk_sheet_input_at(of->bytes, of->length, position);
    answered(ENTRY_sheet_input_at, VERDICT(answer.stop));
    witness(answer.stop.position);
    bool inside = position <= of->length;
    bool there = inside && OUTPOINT_SIZE <= of->length - position;
    REQUIRE((answer.stop.number == 0) == there);
    REQUIRE(answer.stop.position == position + (there ? OUTPOINT_SIZE : 0));
    if (there) {
        REQUIRE(outpoint_stands_at(of, position, answer.outpoint));
        return;
    }
    REQUIRE(answer.stop.first == position && answer.stop.second == position + (inside ? OUTPOINT_SIZE : 0) - of->length);
    REQUIRE(memcmp(&answer.outpoint, &zeros, sizeof zeros) == 0);
}

static bool same_place(turgamysk_place_answer one, turgamysk_place_answer other) {
    return same_stop(one.stop, other.stop) && one.value == other.value && one.version == other.version &&
           one.start == other.start && one.size == other.size && one.covenant == other.covenant && one.kind == other.kind;
}

/* The parts of an output follow each other, and its covenant is the one that the reader gives there. */
static void check_accepted_place(const sheet *of, size_t position, turgamysk_place_answer answer) {
    const uint8_t *fields = of->bytes + position;
    REQUIRE(answer.value == big_endian(fields, 8) && answer.version == fields[8] && answer.size == fields[9]);
    REQUIRE(answer.start == position + OUTPUT_FIELDS_SIZE && answer.covenant == answer.start + answer.size);
    turgamysk_covenant_answer covenant = turgamysk_covenant_read(of->bytes, of->length, answer.covenant, LARGEST_COVENANT);
    REQUIRE(covenant.stop.number == 0 && covenant.kind == answer.kind && covenant.stop.position == answer.stop.position);
}

static turgamysk_place_answer check_place_at(const sheet *of, size_t position) {
    turgamysk_place_answer answer = turgamysk_sheet_place_at(of->bytes, of->length, position, of->side);
    answered(ENTRY_sheet_place_at, VERDICT(answer.stop));
    witness(answer.stop.position);
    REQUIRE(answer.stop.position >= position);
    if (answer.stop.number == 0) {
        check_accepted_place(of, position, answer);
        return answer;
    }
    turgamysk_place_answer zeros = {.stop = answer.stop};
    REQUIRE(same_place(answer, zeros));
    REQUIRE(answer.stop.number != 27 || (answer.stop.first == of->side && answer.stop.second == position + 9 && of->bytes[position + 9] >= 64));
    if (position > of->length) {
        REQUIRE(same_verdict(VERDICT(answer.stop), (verdict){1, position, position - of->length, 0}));
    }
    return answer;
}

/* The side is what 27 carries, and nothing else. */
static void check_other_side(const sheet *of, size_t position, uint8_t side) {
    turgamysk_place_answer expected = check_place_at(of, position);
    expected.stop.first = expected.stop.number == 27 ? side : expected.stop.first;
    REQUIRE(same_place(turgamysk_sheet_place_at(of->bytes, of->length, position, side), expected));
}

/* A judged sheet's records stand where a walk finds them. */
static void check_records(const sheet *of) {
    for (size_t i = 0; i < RECORDS_CHECKED && i < of->answer.inputs; i++) {
        check_input_at(of, outpoint_position(of, i));
    }
    for (size_t i = 0; i < RECORDS_CHECKED && i < record_count(of); i++) {
        place record = record_place(of, i);
        turgamysk_place_answer answer = check_place_at(of, record.start);
        REQUIRE(answer.stop.number == 0 && answer.covenant == record.covenant && answer.stop.position == record.end);
    }
}

static void check_any_record(const sheet *of, size_t position, uint8_t side) {
    check_input_at(of, position);
    check_other_side(of, position, side);
    if (of->answer.stop.number == 0) {
        check_records(of);
    }
}

/* ---- the viewer */

static turgamysk_view_answer view(const sheet *transaction, const sheet *coins, uint8_t side, size_t index, size_t item) {
    turgamysk_view_answer answer = turgamysk_view_item(transaction->bytes, transaction->length, coins->bytes, coins->length, side, index, item);
    observed(ENTRY_view_item, answer.exists, answer.offset, answer.length);
    witness(answer.exists);
    witness(answer.offset);
    witness(answer.length);
    REQUIRE(answer.exists || (answer.offset == 0 && answer.length == 0));
    return answer;
}

/* What the viewer gives is inside the sheet, and is what the covenant has there. */
static void check_view(const sheet *transaction, const sheet *coins, const sheet *of, size_t index, size_t item) {
    turgamysk_view_answer answer = view(transaction, coins, of->side, index, item);
    if (index >= record_count(of)) {
        REQUIRE(!answer.exists);
        return;
    }
    place record = record_place(of, index);
    turgamysk_view_answer found = turgamysk_covenant_find(of->bytes, of->length, record.covenant, item);
    REQUIRE(answer.exists == found.exists && answer.offset == found.offset && answer.length == found.length);
    REQUIRE(!answer.exists || (record.covenant < answer.offset && answer.offset + answer.length <= record.end));
}

static void check_views(const sheet *transaction, const sheet *coins, const sheet *of, size_t index, size_t item) {
    check_view(transaction, coins, of, index, item);
    for (size_t i = 0; i < RECORDS_CHECKED && i <= record_count(of); i++) {
        for (size_t j = 0; j < ITEMS_CHECKED; j++) {
            check_view(transaction, coins, of, i, j);
        }
    }
}

/* There is none on another side, or if either sheet is refused. */
static void check_no_view(const sheet *transaction, const sheet *coins, size_t index, size_t item, uint8_t chosen) {
    REQUIRE(!view(transaction, coins, chosen < 2 ? 2 : chosen, index, item).exists);
    if (transaction->answer.stop.number != 0 || coins->answer.stop.number != 0) {
        REQUIRE(!view(transaction, coins, TRANSACTION, index % 4, item % 4).exists);
        REQUIRE(!view(transaction, coins, COINS, index % 4, item % 4).exists);
    }
}

void play(test_case given) {
    size_t split = transaction_length(&given);
    uint8_t chosen = choose_byte(&given.choose);
    size_t index = choose_number(&given.choose, 1023);
    size_t item = choose_number(&given.choose, DIRECTORY_SLOTS);
    sheet transaction = judge(&transaction_region, given.where, given.payload, split, TRANSACTION);
    sheet coins = judge(&coins_region, given.where, given.payload + split, given.length - split, COINS);
    if (transaction.answer.stop.number == 0) {
        check_changed_length(&transaction, given.payload, chosen);
    }
    if (coins.answer.stop.number == 0) {
        check_changed_length(&coins, given.payload + split, chosen);
    }
    if (transaction.answer.stop.number == 0 && coins.answer.stop.number == 0) {
        check_views(&transaction, &coins, &transaction, index, item);
        check_views(&transaction, &coins, &coins, index, item);
    }
    check_no_view(&transaction, &coins, index, item, chosen);
    check_any_record(&transaction, choose_number(&given.choose, split), chosen);
    check_any_record(&coins, choose_number(&given.choose, given.length - split), chosen);
}
