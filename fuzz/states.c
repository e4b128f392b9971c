/*
 * Names, name states and hashes: records read under a key, states written, compared, told of and reported, and states
 * that no reader made.
 */
#include "lines.h"

#include <string.h>

enum { NAME_SLOTS = 63, RESOURCE_SLOTS = 512, COMMITTED_SIZE = 40 };

static region key_region, record_region, changed_region, destination_region, digest_region, message_region, file_region, line_region;

void prepare(void) {
    make_input_region(&key_region, HASH_SIZE);
    make_input_region(&record_region, LONGEST_PAYLOAD);
    make_input_region(&changed_region, LARGEST_STATE + 1);
    make_input_region(&message_region, LONGEST_PAYLOAD);
    make_output_region(&destination_region, LARGEST_STATE * 2);
    make_output_region(&digest_region, HASH_SIZE);
    make_input_region(&file_region, HASH_SIZE + LONGEST_PAYLOAD);
    make_output_region(&line_region, 2 * LONGEST_LINE);
}

/* ---- names and hashes */

static bool is_letter_or_digit(uint8_t byte) {
    return ('0' <= byte && byte <= '9') || ('a' <= byte && byte <= 'z');
}

static bool is_reserved(const uint8_t *name, size_t length) {
    static const char *const reserved[] = {"example", "invalid", "local", "localhost", "test"};
    for (size_t i = 0; i < sizeof reserved / sizeof *reserved; i++) {
        if (strlen(reserved[i]) == length && memcmp(reserved[i], name, length) == 0) {
            return true;
        }
    }
    return false;
}

/* Document 01: 1 to 63 bytes of 0-9, a-z, with - and _ neither first nor last; not one of five words. */
static bool is_name(const uint8_t *name, size_t length) {
    if (length < 1 || length > NAME_SLOTS) {
        return false;
    }
    for (size_t i = 0; i < length; i++) {
        bool inside = 0 < i && i < length - 1;
        bool mark = name[i] == '-' || name[i] == '_';
        if (!is_letter_or_digit(name[i]) && !(mark && inside)) {
            return false;
        }
    }
    return !is_reserved(name, length);
}

static const uint8_t *sha3(layout where, const uint8_t *message, size_t length) {
    uint8_t *digest = lend_output(&digest_region, where, HASH_SIZE);
    turgamysk_sha3_256(message, length, digest);
    REQUIRE(untouched_from(&digest_region, HASH_SIZE));
    witness_bytes(digest, HASH_SIZE);
    return digest;
}

static void check_name(layout where, const uint8_t *payload, size_t length) {
    const uint8_t *name = lend_input(&message_region, where, payload, length);
    verdict valid = {.number = turgamysk_validate_name(name, length)};
    answered(ENTRY_validate_name, valid);
    REQUIRE(valid.number == (is_name(payload, length) ? 0 : 6));
    uint8_t expected[HASH_SIZE] = {0};
    if (valid.number == 0) {
        memcpy(expected, sha3(where, name, length), HASH_SIZE);
    }
    uint8_t *digest = lend_output(&digest_region, where, HASH_SIZE);
    verdict hashed = {.number = turgamysk_hash_name(name, length, digest)};
    answered(ENTRY_hash_name, hashed);
    REQUIRE(hashed.number == valid.number);
    REQUIRE(untouched_from(&digest_region, HASH_SIZE));
    REQUIRE(memcmp(digest, expected, HASH_SIZE) == 0);
}

/* Three ways to a commitment: of value and nonce, of the 40 bytes, and by its name. */
static void check_commitment(layout where, const uint8_t *committed) {
    uint64_t value;
    uint8_t expected[HASH_SIZE];
    memcpy(&value, committed, sizeof value);
    uint8_t *digest = lend_output(&digest_region, where, HASH_SIZE);
    turgamysk_blake2b_256(lend_input(&message_region, where, committed, COMMITTED_SIZE), COMMITTED_SIZE, digest);
    REQUIRE(untouched_from(&digest_region, HASH_SIZE));
    memcpy(expected, digest, HASH_SIZE);
    const uint8_t *nonce = lend_input(&message_region, where, committed + sizeof value, HASH_SIZE);
    lend_output(&digest_region, where, HASH_SIZE);
    turgamysk_blake2b_256_value_nonce(value, nonce, digest);
    REQUIRE(untouched_from(&digest_region, HASH_SIZE) && memcmp(digest, expected, HASH_SIZE) == 0);
    lend_output(&digest_region, where, HASH_SIZE);
    turgamysk_blind_bid(value, nonce, digest);
    REQUIRE(untouched_from(&digest_region, HASH_SIZE) && memcmp(digest, expected, HASH_SIZE) == 0);
}

static void check_hashes(layout where, const uint8_t *payload, size_t length) {
    const uint8_t *message = lend_input(&message_region, where, payload, length);
    sha3(where, message, length);
    uint8_t *digest = lend_output(&digest_region, where, HASH_SIZE);
    turgamysk_blake2b_256(message, length, digest);
    REQUIRE(untouched_from(&digest_region, HASH_SIZE));
    witness_bytes(digest, HASH_SIZE);
    if (length >= COMMITTED_SIZE) {
        check_commitment(where, payload);
    }
}

/* ---- states */

static bool all_zeros(const uint8_t *bytes, size_t length) {
    for (size_t i = 0; i < length; i++) {
        if (bytes[i] != 0) {
            return false;
        }
    }
    return true;
}

static bool owner_is_null(const turgamysk_name_state *state) {
    return state->owner.index == UINT32_MAX && all_zeros(state->owner.transaction_hash, HASH_SIZE);
}

/* Document 01: every field but key and name is zero, empty, unset or the null outpoint. */
static bool is_null(const turgamysk_name_state *state) {
    bool numbers = (state->height | state->renewal | state->transfer | state->revoked | state->claimed | state->renewals) == 0;
    bool amounts = (state->value | state->highest) == 0;
    bool flags = state->registered || state->expired || state->weak;
    return state->resource_length == 0 && numbers && amounts && !flags && owner_is_null(state);
}

static void check_class(const turgamysk_name_state *state) {
    uint8_t class = turgamysk_name_state_class(*state);
    bool null = turgamysk_name_state_is_null(*state);
    observed(ENTRY_name_state_class, class, state->name_length, state->resource_length);
    witness(class);
    REQUIRE(class <= 2);
    REQUIRE(null == is_null(state));
    REQUIRE(class == (null ? 0 : owner_is_null(state) ? 2 : 1));
}

static void check_owner(const turgamysk_name_state *state) {
    static const turgamysk_outpoint zeros;
    turgamysk_owner_answer answer = turgamysk_name_state_owner_outpoint(*state);
    observed(ENTRY_name_state_owner_outpoint, answer.held, answer.outpoint.index, 0);
    REQUIRE(answer.held == !owner_is_null(state));
    REQUIRE(memcmp(&answer.outpoint, answer.held ? &state->owner : &zeros, sizeof zeros) == 0);
}

/* Document 01: "present fields by bit". */
static void check_bitmap(const turgamysk_name_state *state) {
    const bool present[] = {
        !owner_is_null(state), state->value != 0,    state->highest != 0, state->transfer != 0, state->revoked != 0,
        state->claimed != 0,   state->renewals != 0, state->registered,   state->expired,       state->weak,
    };
    uint16_t expected = 0;
    for (size_t bit = 0; bit < sizeof present / sizeof *present; bit++) {
        expected |= (uint16_t)(present[bit] << bit);
    }
    uint16_t bitmap = turgamysk_name_state_bitmap(*state);
    observed(ENTRY_name_state_bitmap, (uint8_t)(bitmap % 32), bitmap, 0);
    REQUIRE(bitmap == expected);
}

/* Document 01: "unless null, 6 or 9". */
static uint8_t expected_binding(const turgamysk_name_state *state) {
    uint8_t hash[HASH_SIZE];
    if (is_null(state)) {
        return 0;
    }
    if (!is_name(state->name, state->name_length)) {
        return 6;
    }
    turgamysk_sha3_256(state->name, state->name_length, hash);
    return memcmp(hash, state->name_hash, HASH_SIZE) == 0 ? 0 : 9;
}

/* What is told of any state. */
static void check_told(const turgamysk_name_state *state) {
    check_class(state);
    check_owner(state);
    check_bitmap(state);
    verdict binding = {.number = turgamysk_name_state_validate_key_binding(*state)};
    answered(ENTRY_name_state_validate_key_binding, binding);
    REQUIRE(binding.number == expected_binding(state));
}

static void witness_state(const turgamysk_name_state *state) {
    witness_bytes(state->name_hash, HASH_SIZE);
    witness_bytes(state->name, NAME_SLOTS);
    witness(state->name_length);
    witness(state->resource_length);
    witness((uint64_t)state->height << 32 | state->renewal);
    witness_bytes(state->owner.transaction_hash, HASH_SIZE);
    witness(state->owner.index);
    witness(state->value);
    witness(state->highest);
    witness((uint64_t)state->transfer << 32 | state->revoked);
    witness((uint64_t)state->claimed << 32 | state->renewals);
    witness((uint64_t)state->registered << 2 | (uint64_t)state->expired << 1 | state->weak);
}

/* Bytes past either length are ignored by the writer and by every comparison; every other field counts. */
static void check_comparisons(const turgamysk_name_state *state, uint8_t chosen) {
    turgamysk_name_state other = *state;
    if (state->name_length < NAME_SLOTS) {
        other.name[NAME_SLOTS - 1] ^= chosen;
    }
    if (state->resource_length < RESOURCE_SLOTS) {
        other.resource_data[RESOURCE_SLOTS - 1] ^= chosen;
    }
    REQUIRE(turgamysk_name_state_same(*state, other) && turgamysk_name_state_same(other, *state));
    other = *state;
    other.name_hash[chosen % HASH_SIZE] ^= 1;
    REQUIRE(!turgamysk_name_state_same(*state, other));
    other = *state;
    other.weak = !other.weak;
    REQUIRE(!turgamysk_name_state_same(*state, other));
    other = *state;
    other.renewals ^= UINT32_C(1) << chosen % 32;
    REQUIRE(!turgamysk_name_state_same(*state, other));
    other = *state;
    other.owner.index ^= UINT32_C(1) << chosen % 32;
    REQUIRE(!turgamysk_name_state_same(*state, other));
}

/*
 * Writes into so much room, and gives how many bytes were written: all, or none. `size` is the whole record's, or 0 if
 * it cannot be written.
 */
static size_t check_encode(const turgamysk_name_state *state, layout where, size_t room, size_t *size) {
    turgamysk_write_answer whole = turgamysk_name_state_encoded_size(*state);
    answered(ENTRY_name_state_encoded_size, VERDICT(whole));
    REQUIRE(whole.number == 0 ? whole.written <= LARGEST_STATE : whole.written == 0);
    uint8_t *record = lend_output(&destination_region, where, room);
    turgamysk_write_answer answer = turgamysk_name_state_encode(*state, record, room);
    answered(ENTRY_name_state_encode, VERDICT(answer));
    bool too_short = whole.number == 0 && room < whole.written;
    verdict expected = too_short ? (verdict){29, whole.written, 0, 0} : VERDICT(whole);
    REQUIRE(same_verdict(VERDICT(answer), expected));
    REQUIRE(answer.written == (answer.number == 0 ? whole.written : 0));
    REQUIRE(untouched_from(&destination_region, answer.written));
    *size = whole.written;
    return answer.written;
}

/* ---- records */

/* Every byte of the texts too, which a comparison of states would pass over. */
static bool is_zeros(const turgamysk_name_state *state) {
    static const turgamysk_name_state zeros;
    bool texts = all_zeros(state->name, NAME_SLOTS) && all_zeros(state->resource_data, RESOURCE_SLOTS);
    return texts && turgamysk_name_state_same(*state, zeros);
}

static turgamysk_state_answer decode(const uint8_t *key, const uint8_t *record, size_t length) {
    turgamysk_state_answer answer = turgamysk_name_state_decode(key, record, length);
    answered(ENTRY_name_state_decode, VERDICT(answer.stop));
    witness(answer.stop.position);
    witness_state(&answer.state);
    REQUIRE(answer.stop.position <= length);
    if (answer.stop.number == 0) {
        REQUIRE(length <= LARGEST_STATE && answer.stop.position == length);
        return answer;
    }
    REQUIRE(is_zeros(&answer.state));
    return answer;
}

static void check_changed_length(const uint8_t *key, layout where, const uint8_t *payload, size_t length, uint8_t chosen) {
    static uint8_t longer[LARGEST_STATE + 1];
    size_t left = length - 1 - chosen % length;
    turgamysk_state_answer cut = decode(key, lend_input(&changed_region, where, payload, left), left);
    REQUIRE(cut.stop.number == 1);
    memcpy(longer, payload, length);
    longer[length] = chosen;
    turgamysk_state_answer more = decode(key, lend_input(&changed_region, where, longer, length + 1), length + 1);
    bool within = length < LARGEST_STATE;
    REQUIRE(same_verdict(VERDICT(more.stop), within ? (verdict){3, 1, 0, 0} : (verdict){5, length + 1, LARGEST_STATE, 0}));
}

/* An accepted record is what the writer gives of its state. */
static void check_accepted(const turgamysk_name_state *state, const uint8_t *key, test_case given, uint8_t chosen) {
    size_t size;
    REQUIRE(memcmp(state->name_hash, key, HASH_SIZE) == 0);
    REQUIRE(state->name_length <= NAME_SLOTS && state->resource_length <= RESOURCE_SLOTS);
    REQUIRE(all_zeros(state->name + state->name_length, NAME_SLOTS - state->name_length));
    REQUIRE(all_zeros(state->resource_data + state->resource_length, RESOURCE_SLOTS - state->resource_length));
    REQUIRE(is_null(state) || is_name(state->name, state->name_length));
    check_told(state);
    check_comparisons(state, chosen);
    REQUIRE(check_encode(state, given.where, given.length + chosen % 3, &size) == given.length);
    REQUIRE(memcmp(lent_by(&destination_region), given.payload, given.length) == 0);
    REQUIRE(check_encode(state, given.where, given.length - 1, &size) == 0 && size == given.length);
    check_changed_length(key, given.where, given.payload, given.length, chosen);
    size_t bitmap = 1 + state->name_length + 2 + state->resource_length + 8;
    REQUIRE(little_endian(given.payload + bitmap, 2) == turgamysk_name_state_bitmap(*state));
}

/* ---- the report */

static void check_name_line(layout where, const uint8_t *bytes, size_t length, size_t room, line expected) {
    const uint8_t *file = lend_input(&file_region, where, bytes, length);
    uint8_t *out = lend_output(&line_region, where, room);
    check_line(ENTRY_name_line, &line_region, room, turgamysk_name_line(file, length, out, room), expected);
}

/* The line is about what the reader gave of the same key and record; a file without a whole key is refused by 1. */
static void check_report(test_case given, const uint8_t *key, turgamysk_state_answer answer, size_t room) {
    static uint8_t file[HASH_SIZE + LONGEST_PAYLOAD];
    memcpy(file, key, HASH_SIZE);
    memcpy(file + HASH_SIZE, given.payload, given.length);
    uint8_t class = turgamysk_name_state_class(answer.state);
    line expected = answer.stop.number == 0 ? state_line(class, answer.state.name_length, given.length) : refused_line(answer.stop.number);
    check_name_line(given.where, file, HASH_SIZE + given.length, room, expected);
    check_name_line(given.where, file, room % HASH_SIZE, room, refused_line(1));
}

/* The key is the hash of the name that the record begins with, or (by choice) bytes of the payload. */
static const uint8_t *lend_key(test_case given, uint8_t chosen) {
    uint8_t key[HASH_SIZE] = {0};
    size_t name_length = given.length == 0 ? 0 : given.payload[0];
    if (chosen % 8 != 7 && name_length < given.length) {
        turgamysk_sha3_256(given.payload + 1, name_length, key);
    } else {
        memcpy(key, given.payload, given.length < HASH_SIZE ? given.length : HASH_SIZE);
    }
    return lend_input(&key_region, given.where, key, HASH_SIZE);
}

static void check_record(test_case given, const uint8_t *key, uint8_t chosen) {
    const uint8_t *record = lend_input(&record_region, given.where, given.payload, given.length);
    turgamysk_state_answer answer = decode(key, record, given.length);
    if (given.length > LARGEST_STATE) {
        REQUIRE(same_verdict(VERDICT(answer.stop), (verdict){5, given.length, LARGEST_STATE, 0}) && answer.stop.position == 0);
    }
    check_report(given, key, answer, chosen % (2 * LONGEST_LINE));
    if (answer.stop.number == 0) {
        check_accepted(&answer.state, key, given, chosen);
    }
}

/* ---- states that no reader made */

/* A state out of the payload, with lengths as they may be wrong. */
static turgamysk_name_state spell_state(test_case given, const uint8_t *key, choices *choose) {
    turgamysk_name_state made = {.owner.index = UINT32_MAX};
    uint8_t spelled[64] = {0};
    memcpy(spelled, given.payload, given.length < sizeof spelled ? given.length : sizeof spelled);
    uint8_t present = choose_byte(choose);
    memcpy(made.name_hash, key, HASH_SIZE);
    made.name_length = choose_number(choose, NAME_SLOTS);
    made.resource_length = (present & 1) != 0 ? choose_number(choose, RESOURCE_SLOTS) : 0;
    memcpy(made.name, given.payload + (given.length > 0), given.length > NAME_SLOTS ? NAME_SLOTS : given.length - (given.length > 0));
    memset(made.resource_data, spelled[0], RESOURCE_SLOTS);
    if ((present & 2) != 0) {
        memcpy(&made.owner, spelled + 24, sizeof made.owner);
    }
    memcpy(&made.value, spelled + 16, (present & 4) != 0 ? sizeof made.value : 0);
    memcpy(&made.highest, spelled + 24, (present & 8) != 0 ? sizeof made.highest - 1 : 0);
    memcpy(&made.height, spelled + 32, (present & 16) != 0 ? sizeof made.height : 0);
    memcpy(&made.transfer, spelled + 36, (present & 32) != 0 ? sizeof made.transfer : 0);
    memcpy(&made.renewals, spelled + 40, (present & 64) != 0 ? sizeof made.renewals : 0);
    made.registered = present >= 128;
    return made;
}

/* Under its own name's hash, where it has a name. */
static void bind(turgamysk_name_state *state, uint8_t chosen) {
    if (chosen % 4 != 3 && state->name_length <= NAME_SLOTS) {
        turgamysk_sha3_256(state->name, state->name_length, state->name_hash);
    }
}

/* What was written reads back as the same state. */
static void check_made(const turgamysk_name_state *state, layout where, size_t room) {
    size_t size;
    size_t written = check_encode(state, where, room, &size);
    check_told(state);
    REQUIRE(turgamysk_name_state_same(*state, *state));
    if (written == 0) {
        return;
    }
    uint8_t record[LARGEST_STATE];
    memcpy(record, lent_by(&destination_region), written);
    const uint8_t *key = lend_input(&key_region, where, state->name_hash, HASH_SIZE);
    turgamysk_state_answer back = decode(key, lend_input(&changed_region, where, record, written), written);
    REQUIRE(back.stop.number == 0);
    REQUIRE(turgamysk_name_state_same(back.state, *state));
}

/* The null state is written as 13 zeros, whatever its key. */
static void check_null(const uint8_t *key, layout where) {
    static const uint8_t zeros[13];
    size_t size;
    turgamysk_name_state null = turgamysk_name_state_null(key);
    REQUIRE(memcmp(null.name_hash, key, HASH_SIZE) == 0 && null.name_length == 0);
    check_told(&null);
    REQUIRE(turgamysk_name_state_is_null(null));
    REQUIRE(check_encode(&null, where, sizeof zeros, &size) == sizeof zeros);
    REQUIRE(memcmp(lent_by(&destination_region), zeros, sizeof zeros) == 0);
}

void play(test_case given) {
    uint8_t chosen = choose_byte(&given.choose);
    uint8_t name_start = choose_byte(&given.choose);
    const uint8_t *key = lend_key(given, chosen);
    check_null(key, given.where);
    check_record(given, key, chosen);
    turgamysk_name_state made = spell_state(given, key, &given.choose);
    bind(&made, chosen);
    check_made(&made, given.where, LARGEST_STATE - name_start % 16);
    size_t skipped = name_start < given.length ? name_start : 0;
    check_name(given.where, given.payload + skipped, given.length - skipped);
    check_hashes(given.where, given.payload, given.length);
}
