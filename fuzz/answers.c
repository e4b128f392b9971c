/*
 * Where answers are put: an answer of more than 16 bytes goes to memory that the caller lends unseen (x86-64, System
 * V). Each entry is declared a second time here with that argument in the open, so that the answer stands between guard
 * pages too: an archive whose answers are larger than the header's writes past them.
 */
#include "ground.h"

#include <string.h>

enum { ROOM = 1024 };

typedef const uint8_t *bytes;
typedef const size_t *numbers;

#define PLACED(name, answer, ...) void *placed_##name(answer *place, __VA_ARGS__) __asm__("turgamysk_" #name)

PLACED(read_u8, turgamysk_number_answer, bytes, size_t, size_t);
PLACED(read_u64_le, turgamysk_number_answer, bytes, size_t, size_t);
PLACED(read_compact_size, turgamysk_number_answer, bytes, size_t, size_t);
PLACED(read_compact_usize, turgamysk_number_answer, bytes, size_t, size_t, size_t);
PLACED(read_slice, turgamysk_span_answer, bytes, size_t, size_t, size_t);
PLACED(read_bounded, turgamysk_span_answer, bytes, size_t, size_t, size_t, size_t);
PLACED(read_varbytes, turgamysk_span_answer, bytes, size_t, size_t, size_t);
PLACED(read_array, turgamysk_stop, bytes, size_t, size_t, uint8_t *);
PLACED(finish, turgamysk_stop, bytes, size_t, size_t);
PLACED(outpoint_decode, turgamysk_outpoint_answer, bytes, size_t, size_t);
PLACED(put_u64_le, turgamysk_write_answer, uint8_t *, size_t, size_t, uint64_t);
PLACED(put_varbytes, turgamysk_write_answer, uint8_t *, size_t, size_t, bytes, size_t);
PLACED(covenant_read, turgamysk_covenant_answer, bytes, size_t, size_t, size_t);
PLACED(covenant_decode, turgamysk_covenant_answer, bytes, size_t, size_t *, size_t *);
PLACED(covenant_decode_from, turgamysk_covenant_answer, bytes, size_t, size_t, size_t, size_t *, size_t *);
PLACED(covenant_encode, turgamysk_write_answer, uint8_t *, size_t, uint8_t, bytes, size_t, numbers, numbers, size_t);
PLACED(covenant_encoded_size, turgamysk_write_answer, bytes, size_t, numbers, numbers, size_t);
PLACED(covenant_run_next, turgamysk_step_answer, bytes, size_t, size_t, size_t);
PLACED(covenant_run_next_with_limit, turgamysk_step_answer, bytes, size_t, size_t, size_t, size_t);
PLACED(covenant_read_run, turgamysk_run_answer, bytes, size_t);
PLACED(covenant_read_run_with_limit, turgamysk_run_answer, bytes, size_t, size_t);
PLACED(covenant_import_archive, turgamysk_run_answer, bytes, size_t);
PLACED(covenant_find, turgamysk_view_answer, bytes, size_t, size_t, size_t);
PLACED(covenant_item, turgamysk_view_answer, bytes, size_t, numbers, numbers, size_t, size_t);
PLACED(name_state_decode, turgamysk_state_answer, bytes, bytes, size_t);
PLACED(name_state_encode, turgamysk_write_answer, turgamysk_name_state, uint8_t *, size_t);
PLACED(name_state_encoded_size, turgamysk_write_answer, turgamysk_name_state);
PLACED(name_state_null, turgamysk_name_state, bytes);
PLACED(name_state_owner_outpoint, turgamysk_owner_answer, turgamysk_name_state);
PLACED(name_line, turgamysk_write_answer, bytes, size_t, uint8_t *, size_t);
PLACED(judge_transaction, turgamysk_sheet_answer, bytes, size_t);
PLACED(judge_coins, turgamysk_sheet_answer, bytes, size_t);
PLACED(sheet_input_at, turgamysk_outpoint_answer, bytes, size_t, size_t);
PLACED(sheet_place_at, turgamysk_place_answer, bytes, size_t, size_t, uint8_t);
PLACED(link_line, turgamysk_write_answer, bytes, size_t, bytes, size_t, uint8_t *, size_t);
PLACED(view_item, turgamysk_view_answer, bytes, size_t, bytes, size_t, uint8_t, size_t, size_t);
PLACED(verify_covenant_links, turgamysk_links_answer, bytes, size_t, bytes, size_t);

/* An answer that reads begins with its stop. */
#define BEGINS_WITH_STOP(answer) _Static_assert(offsetof(answer, stop) == 0, #answer)

BEGINS_WITH_STOP(turgamysk_number_answer);
BEGINS_WITH_STOP(turgamysk_span_answer);
BEGINS_WITH_STOP(turgamysk_outpoint_answer);
BEGINS_WITH_STOP(turgamysk_covenant_answer);
BEGINS_WITH_STOP(turgamysk_step_answer);
BEGINS_WITH_STOP(turgamysk_run_answer);
BEGINS_WITH_STOP(turgamysk_state_answer);
BEGINS_WITH_STOP(turgamysk_sheet_answer);
BEGINS_WITH_STOP(turgamysk_place_answer);
BEGINS_WITH_STOP(turgamysk_links_answer);

static region source_region, key_region, answer_region, destination_region, starts_region, lens_region;

void prepare(void) {
    make_input_region(&source_region, LONGEST_PAYLOAD);
    make_input_region(&key_region, HASH_SIZE);
    make_output_region(&answer_region, sizeof(turgamysk_state_answer));
    make_output_region(&destination_region, ROOM);
    make_output_region(&starts_region, DIRECTORY_SIZE);
    make_output_region(&lens_region, DIRECTORY_SIZE);
}

/* What the entries are called with. */
typedef struct {
    layout where;
    bytes source;
    size_t length;
    bytes key;
    size_t position;
    size_t limit;
    uint8_t *room;
    size_t *starts;
    size_t *lens;
} arguments;

static void *lend_place(layout where, size_t size) {
    return lend_output(&answer_region, where, size);
}

/*
 * The entry hands back the place that it was given, and has written nothing beside it; every answer begins with a
 * number, a yes or no, or a key.
 */
static void check_place(entry by, const uint8_t *returned, size_t size) {
    REQUIRE(returned == lent_by(&answer_region));
    REQUIRE(untouched_from(&answer_region, size));
    observed(by, returned[0], size, 0);
    witness(returned[0]);
}

#define CHECK(name, answer, ...) check_place(ENTRY_##name, placed_##name(lend_place(with->where, sizeof(answer)), __VA_ARGS__), sizeof(answer))

static void check_wire(const arguments *with) {
    CHECK(read_u8, turgamysk_number_answer, with->source, with->length, with->position);
    CHECK(read_u64_le, turgamysk_number_answer, with->source, with->length, with->position);
    CHECK(read_compact_size, turgamysk_number_answer, with->source, with->length, with->position);
    CHECK(read_compact_usize, turgamysk_number_answer, with->source, with->length, with->position, with->limit);
    CHECK(read_slice, turgamysk_span_answer, with->source, with->length, with->position, with->limit);
    CHECK(read_bounded, turgamysk_span_answer, with->source, with->length, with->position, with->limit, with->length);
    CHECK(read_varbytes, turgamysk_span_answer, with->source, with->length, with->position, with->limit);
    CHECK(read_array, turgamysk_stop, with->source, with->length, with->position, with->room);
    CHECK(finish, turgamysk_stop, with->source, with->length, with->position);
    CHECK(outpoint_decode, turgamysk_outpoint_answer, with->source, with->length, with->position);
    CHECK(put_u64_le, turgamysk_write_answer, with->room, ROOM, with->position, with->limit);
    CHECK(put_varbytes, turgamysk_write_answer, with->room, ROOM, with->position, with->source, with->length);
}

static void check_covenants(const arguments *with) {
    CHECK(covenant_read, turgamysk_covenant_answer, with->source, with->length, with->position, with->limit);
    CHECK(covenant_decode, turgamysk_covenant_answer, with->source, with->length, with->starts, with->lens);
    CHECK(covenant_decode_from, turgamysk_covenant_answer, with->source, with->length, with->position, with->limit, with->starts, with->lens);
    CHECK(covenant_encode, turgamysk_write_answer, with->room, ROOM, 1, with->source, with->length, with->starts, with->lens, with->limit);
    CHECK(covenant_encoded_size, turgamysk_write_answer, with->source, with->length, with->starts, with->lens, with->limit);
    CHECK(covenant_run_next, turgamysk_step_answer, with->source, with->length, with->position, with->limit);
    CHECK(covenant_run_next_with_limit, turgamysk_step_answer, with->source, with->length, with->limit, with->position, with->limit);
    CHECK(covenant_read_run, turgamysk_run_answer, with->source, with->length);
    CHECK(covenant_read_run_with_limit, turgamysk_run_answer, with->source, with->length, with->limit);
    CHECK(covenant_import_archive, turgamysk_run_answer, with->source, with->length);
    CHECK(covenant_find, turgamysk_view_answer, with->source, with->length, with->position, with->limit);
    CHECK(covenant_item, turgamysk_view_answer, with->source, with->length, with->starts, with->lens, with->limit, with->position);
}

/* The state that is written is the one that was read. */
static void check_states(const arguments *with) {
    turgamysk_name_state state = turgamysk_name_state_decode(with->key, with->source, with->length).state;
    CHECK(name_state_decode, turgamysk_state_answer, with->key, with->source, with->length);
    CHECK(name_state_encode, turgamysk_write_answer, state, with->room, ROOM);
    CHECK(name_state_encoded_size, turgamysk_write_answer, state);
    CHECK(name_state_owner_outpoint, turgamysk_owner_answer, state);
    CHECK(name_line, turgamysk_write_answer, with->source, with->length, with->room, ROOM);
    REQUIRE(placed_name_state_null(lend_place(with->where, sizeof state), with->key) == lent_by(&answer_region));
    REQUIRE(untouched_from(&answer_region, sizeof state));
}

static void check_sheets(const arguments *with) {
    CHECK(judge_transaction, turgamysk_sheet_answer, with->source, with->length);
    CHECK(judge_coins, turgamysk_sheet_answer, with->source, with->length);
    CHECK(sheet_input_at, turgamysk_outpoint_answer, with->source, with->length, with->position);
    CHECK(sheet_place_at, turgamysk_place_answer, with->source, with->length, with->position, 0);
    CHECK(link_line, turgamysk_write_answer, with->source, with->length, with->source, with->length, with->room, ROOM);
    CHECK(view_item, turgamysk_view_answer, with->source, with->length, with->source, with->length, 0, with->position, with->limit);
    CHECK(verify_covenant_links, turgamysk_links_answer, with->source, with->length, with->source, with->length);
}

void play(test_case given) {
    uint8_t key[HASH_SIZE] = {0};
    memcpy(key, given.payload, given.length < HASH_SIZE ? given.length : HASH_SIZE);
    arguments with = {.where = given.where, .length = given.length};
    with.position = choose_number(&given.choose, given.length);
    with.limit = choose_number(&given.choose, given.length);
    with.source = lend_input(&source_region, given.where, given.payload, given.length);
    with.key = lend_input(&key_region, given.where, key, HASH_SIZE);
    with.room = lend_output(&destination_region, given.where, ROOM);
    with.starts = (size_t *)(void *)lend_output(&starts_region, given.where, DIRECTORY_SIZE);
    with.lens = (size_t *)(void *)lend_output(&lens_region, given.where, DIRECTORY_SIZE);
    check_wire(&with);
    check_covenants(&with);
    check_states(&with);
    check_sheets(&with);
}
