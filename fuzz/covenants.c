/* Covenants: read, decoded into a directory, written from one, found item by item, and back to back in a run. */
#include "ground.h"

#include <string.h>

enum { ITEMS_ALL_CHECKED = 24, STEPS_CHECKED = 2048 };

static region source_region, changed_region, destination_region, hash_region;
static region made_starts_region, made_lens_region, starts_region, lens_region;

void prepare(void) {
    make_input_region(&source_region, LONGEST_PAYLOAD);
    make_input_region(&changed_region, LONGEST_PAYLOAD + 1);
    make_output_region(&destination_region, LONGEST_PAYLOAD);
    make_output_region(&hash_region, HASH_SIZE);
    make_output_region(&made_starts_region, DIRECTORY_SIZE);
    make_output_region(&made_lens_region, DIRECTORY_SIZE);
    make_input_region(&starts_region, DIRECTORY_SIZE);
    make_input_region(&lens_region, DIRECTORY_SIZE);
}

/* Lent bytes. */
typedef struct {
    const uint8_t *bytes;
    size_t length;
    layout where;
} lent_bytes;

/* A directory over lent bytes. */
typedef struct {
    lent_bytes source;
    const size_t *starts;
    const size_t *lens;
    size_t count;
} directory;

/* ---- one covenant at a position */

static void check_covenant_answer(entry by, turgamysk_covenant_answer answer) {
    answered(by, VERDICT(answer.stop));
    witness(answer.stop.position);
    witness(answer.kind);
    witness(answer.count);
    witness(answer.used);
    if (answer.stop.number != 0) {
        REQUIRE(answer.kind == 0 && answer.count == 0 && answer.used == 0);
        return;
    }
    REQUIRE(answer.count <= DIRECTORY_SLOTS);
    REQUIRE(2 <= answer.used && answer.used <= LARGEST_COVENANT);
}

static bool same_covenant(turgamysk_covenant_answer one, turgamysk_covenant_answer other) {
    return same_stop(one.stop, other.stop) && one.kind == other.kind && one.count == other.count && one.used == other.used;
}

/* The bytes used up are the covenant's size: an allowance of as many is enough, and one less is not. */
static void check_allowance(lent_bytes source, size_t position, turgamysk_covenant_answer accepted) {
    turgamysk_covenant_answer enough = turgamysk_covenant_read(source.bytes, source.length, position, accepted.used);
    REQUIRE(same_covenant(enough, accepted));
    turgamysk_covenant_answer less = turgamysk_covenant_read(source.bytes, source.length, position, accepted.used - 1);
    check_covenant_answer(ENTRY_covenant_read, less);
    REQUIRE(less.stop.number == 5 && less.stop.second == accepted.used - 1);
}

/* What stands after the covenant does not matter to it, and of it no byte may be missing. */
static void check_cut_read(lent_bytes source, size_t position, turgamysk_covenant_answer accepted, uint8_t missing) {
    const uint8_t *exact = lend_input(&changed_region, source.where, source.bytes, accepted.stop.position);
    REQUIRE(same_covenant(turgamysk_covenant_read(exact, accepted.stop.position, position, SIZE_MAX), accepted));
    size_t left = accepted.stop.position - 1 - missing % accepted.used;
    const uint8_t *cut = lend_input(&changed_region, source.where, source.bytes, left);
    turgamysk_covenant_answer refused = turgamysk_covenant_read(cut, left, position, SIZE_MAX);
    check_covenant_answer(ENTRY_covenant_read, refused);
    REQUIRE(refused.stop.number == 1);
}

static bool zeros_from(const size_t *numbers, size_t from) {
    static const size_t zeros[DIRECTORY_SLOTS];
    return memcmp(numbers + from, zeros, (DIRECTORY_SLOTS - from) * sizeof *zeros) == 0;
}

/* Items follow each other, each after its length, from the covenant's start to its end. */
static void check_directory(const size_t *starts, const size_t *lens, size_t count, size_t start, size_t end) {
    size_t position = start + 1 + turgamysk_compact_size_len(count);
    for (size_t i = 0; i < count; i++) {
        position += turgamysk_compact_size_len(lens[i]);
        REQUIRE(starts[i] == position);
        REQUIRE(lens[i] <= LARGEST_ITEM);
        position += lens[i];
    }
    REQUIRE(position == end);
}

/* With a directory the same is read; zeros stand after its items, and zeros alone where nothing was read. */
static void check_decode_from(lent_bytes source, size_t position, size_t limit, turgamysk_covenant_answer read) {
    size_t *starts = (size_t *)(void *)lend_output(&made_starts_region, source.where, DIRECTORY_SIZE);
    size_t *lens = (size_t *)(void *)lend_output(&made_lens_region, source.where, DIRECTORY_SIZE);
    turgamysk_covenant_answer answer = turgamysk_covenant_decode_from(source.bytes, source.length, position, limit, starts, lens);
    check_covenant_answer(ENTRY_covenant_decode_from, answer);
    REQUIRE(same_covenant(answer, read));
    REQUIRE(untouched_from(&made_starts_region, DIRECTORY_SIZE) && untouched_from(&made_lens_region, DIRECTORY_SIZE));
    REQUIRE(zeros_from(starts, answer.count) && zeros_from(lens, answer.count));
    if (answer.stop.number == 0) {
        check_directory(starts, lens, answer.count, position, answer.stop.position);
    }
}

static void check_read(lent_bytes source, size_t position, size_t limit, uint8_t missing) {
    turgamysk_covenant_answer answer = turgamysk_covenant_read(source.bytes, source.length, position, limit);
    check_covenant_answer(ENTRY_covenant_read, answer);
    check_decode_from(source, position, limit, answer);
    REQUIRE(answer.stop.position >= position);
    REQUIRE(answer.stop.position <= source.length || answer.stop.position == position);
    if (position > source.length) {
        REQUIRE(same_verdict(VERDICT(answer.stop), (verdict){1, position, position - source.length, 0}));
    } else if (limit < 2) {
        REQUIRE(same_verdict(VERDICT(answer.stop), (verdict){5, 2, limit, 0}) && answer.stop.position == position);
    }
    if (answer.stop.number == 0) {
        REQUIRE(answer.used <= limit);
        REQUIRE(answer.stop.position == position + answer.used);
        check_allowance(source, position, answer);
        check_cut_read(source, position, answer, missing);
    }
}

/* ---- single items */

static void check_item_number(entry by, turgamysk_item_answer answer, lent_bytes source, turgamysk_view_answer item, size_t width) {
    bool expected = item.exists && item.length == width;
    observed(by, answer.exists, answer.value, 0);
    REQUIRE(answer.exists == expected);
    REQUIRE(answer.value == (expected ? little_endian(source.bytes + item.offset, width) : 0));
}

static void check_item_hash(directory of, size_t index, turgamysk_view_answer item) {
    static const uint8_t zeros[HASH_SIZE];
    lent_bytes source = of.source;
    uint8_t *hash = lend_output(&hash_region, source.where, HASH_SIZE);
    bool found = turgamysk_covenant_item_name_hash(source.bytes, source.length, of.starts, of.lens, of.count, index, hash);
    observed(ENTRY_covenant_item_name_hash, found, 0, 0);
    REQUIRE(untouched_from(&hash_region, HASH_SIZE));
    REQUIRE(found == (item.exists && item.length == HASH_SIZE));
    REQUIRE(memcmp(hash, found ? source.bytes + item.offset : zeros, HASH_SIZE) == 0);
}

/* An item past the count or the 1,000th, or outside the source, is absent. */
static bool item_is_there(directory of, size_t index) {
    size_t size = of.source.length;
    return index < of.count && index < DIRECTORY_SLOTS && of.starts[index] <= size && of.lens[index] <= size - of.starts[index];
}

static turgamysk_view_answer check_item(directory of, size_t index) {
    lent_bytes source = of.source;
    turgamysk_view_answer item = turgamysk_covenant_item(source.bytes, source.length, of.starts, of.lens, of.count, index);
    observed(ENTRY_covenant_item, item.exists, item.offset, item.length);
    witness(item.exists);
    witness(item.offset);
    witness(item.length);
    bool expected = item_is_there(of, index);
    REQUIRE(item.exists == expected);
    REQUIRE(item.offset == (expected ? of.starts[index] : 0) && item.length == (expected ? of.lens[index] : 0));
    turgamysk_item_answer number = turgamysk_covenant_item_u8(source.bytes, source.length, of.starts, of.lens, of.count, index);
    check_item_number(ENTRY_covenant_item_u8, number, source, item, 1);
    number = turgamysk_covenant_item_u32(source.bytes, source.length, of.starts, of.lens, of.count, index);
    check_item_number(ENTRY_covenant_item_u32, number, source, item, 4);
    number = turgamysk_covenant_item_u64(source.bytes, source.length, of.starts, of.lens, of.count, index);
    check_item_number(ENTRY_covenant_item_u64, number, source, item, 8);
    check_item_hash(of, index, item);
    return item;
}

static turgamysk_view_answer find(lent_bytes source, size_t position, size_t index) {
    turgamysk_view_answer found = turgamysk_covenant_find(source.bytes, source.length, position, index);
    observed(ENTRY_covenant_find, found.exists, found.offset, found.length);
    witness(found.exists);
    witness(found.offset);
    witness(found.length);
    REQUIRE(found.exists || (found.offset == 0 && found.length == 0));
    REQUIRE(!found.exists || (found.offset <= source.length && found.length <= source.length - found.offset));
    return found;
}

static void check_both_ways(directory of, size_t index) {
    turgamysk_view_answer item = check_item(of, index);
    turgamysk_view_answer found = find(of.source, 0, index);
    REQUIRE(found.exists == item.exists && found.offset == item.offset && found.length == item.length);
}

/* All items, or where there are many the first, the last and a chosen one; and one too many. */
static void check_items(directory of, size_t chosen) {
    size_t all = of.count < ITEMS_ALL_CHECKED ? of.count : ITEMS_ALL_CHECKED;
    for (size_t i = 0; i < all; i++) {
        check_both_ways(of, i);
    }
    check_both_ways(of, of.count);
    check_both_ways(of, of.count - 1);
    check_both_ways(of, chosen);
}

/* ---- writing */

static void check_size(directory of, turgamysk_write_answer size) {
    answered(ENTRY_covenant_encoded_size, VERDICT(size));
    witness(size.written);
    REQUIRE(size.number == 0 || size.written == 0);
    if (of.count > DIRECTORY_SLOTS) {
        REQUIRE(same_verdict(VERDICT(size), (verdict){5, of.count, DIRECTORY_SLOTS, 0}));
    }
    REQUIRE(size.number != 30 || !item_is_there(of, size.first));
}

/* Writes into so much room, and gives what was written: all of it, or nothing. */
static const uint8_t *check_encode(directory of, uint8_t kind, size_t room) {
    lent_bytes source = of.source;
    turgamysk_write_answer size = turgamysk_covenant_encoded_size(source.bytes, source.length, of.starts, of.lens, of.count);
    check_size(of, size);
    uint8_t *written = lend_output(&destination_region, source.where, room);
    turgamysk_write_answer answer = turgamysk_covenant_encode(written, room, kind, source.bytes, source.length, of.starts, of.lens, of.count);
    answered(ENTRY_covenant_encode, VERDICT(answer));
    bool too_short = size.number == 0 && room < size.written;
    verdict expected = too_short ? (verdict){29, size.written, 0, 0} : VERDICT(size);
    REQUIRE(same_verdict(VERDICT(answer), expected));
    REQUIRE(answer.written == (answer.number == 0 ? size.written : 0));
    REQUIRE(untouched_from(&destination_region, answer.written));
    return answer.number == 0 ? written : NULL;
}

/* ---- a covenant that is all of the bytes */

static turgamysk_covenant_answer decode_changed(lent_bytes changed) {
    size_t *starts = (size_t *)(void *)lend_output(&made_starts_region, changed.where, DIRECTORY_SIZE);
    size_t *lens = (size_t *)(void *)lend_output(&made_lens_region, changed.where, DIRECTORY_SIZE);
    turgamysk_covenant_answer answer = turgamysk_covenant_decode(changed.bytes, changed.length, starts, lens);
    check_covenant_answer(ENTRY_covenant_decode, answer);
    REQUIRE(untouched_from(&made_starts_region, DIRECTORY_SIZE) && untouched_from(&made_lens_region, DIRECTORY_SIZE));
    REQUIRE(zeros_from(starts, answer.count) && zeros_from(lens, answer.count));
    return answer;
}

/* An accepted covenant without its last bytes is cut off, and with one more has a trailing byte. */
static void check_changed_length(lent_bytes source, const uint8_t *payload, uint8_t missing) {
    size_t left = source.length - 1 - missing % source.length;
    lent_bytes cut = {lend_input(&changed_region, source.where, payload, left), left, source.where};
    REQUIRE(decode_changed(cut).stop.number == 1);
    static uint8_t longer[LONGEST_PAYLOAD + 1];
    size_t length = source.length + 1;
    memcpy(longer, payload, source.length);
    longer[source.length] = missing;
    lent_bytes extended = {lend_input(&changed_region, source.where, longer, length), length, source.where};
    turgamysk_covenant_answer refused = decode_changed(extended);
    bool within = length <= LARGEST_COVENANT;
    REQUIRE(same_verdict(VERDICT(refused.stop), within ? (verdict){3, 1, 0, 0} : (verdict){5, length, LARGEST_COVENANT, 0}));
}

static directory lend_directory(lent_bytes source, const size_t *starts, const size_t *lens, size_t count) {
    const void *lent_starts = lend_input(&starts_region, source.where, (const uint8_t *)starts, DIRECTORY_SIZE);
    const void *lent_lens = lend_input(&lens_region, source.where, (const uint8_t *)lens, DIRECTORY_SIZE);
    return (directory){source, lent_starts, lent_lens, count};
}

static void check_accepted(directory of, turgamysk_covenant_answer answer, const uint8_t *payload, choices *choose) {
    lent_bytes source = of.source;
    uint8_t missing = choose_byte(choose);
    REQUIRE(answer.used == source.length && answer.stop.position == source.length);
    check_directory(of.starts, of.lens, of.count, 0, source.length);
    check_items(of, choose_byte(choose) * 4u);
    const uint8_t *again = check_encode(of, answer.kind, source.length + missing % 3);
    REQUIRE(again != NULL && memcmp(again, source.bytes, source.length) == 0);
    REQUIRE(check_encode(of, answer.kind, source.length - 1) == NULL);
    check_changed_length(source, payload, missing);
}

static void check_decode(lent_bytes source, const uint8_t *payload, choices *choose) {
    turgamysk_covenant_answer answer = decode_changed(source);
    const size_t *starts = (const void *)lent_by(&made_starts_region);
    const size_t *lens = (const void *)lent_by(&made_lens_region);
    if (answer.stop.number == 0) {
        check_accepted(lend_directory(source, starts, lens, answer.count), answer, payload, choose);
    }
    turgamysk_covenant_answer read = turgamysk_covenant_read(source.bytes, source.length, 0, LARGEST_COVENANT);
    if (answer.stop.number == 3) {
        REQUIRE(read.stop.number == 0 && read.used == source.length - answer.stop.first);
    } else if (source.length <= LARGEST_COVENANT) {
        REQUIRE(same_covenant(read, answer));
    }
}

/* ---- directories that no reader made */

/* Numbers out of the payload, four bytes for a slot: small ones, and some that no source reaches. */
static void spell_directory(const uint8_t *payload, size_t length, size_t *starts, size_t *lens) {
    memset(starts, 0, DIRECTORY_SIZE);
    memset(lens, 0, DIRECTORY_SIZE);
    for (size_t i = 0; i < DIRECTORY_SLOTS && i * 4 + 4 <= length; i++) {
        const uint8_t *slot = payload + i * 4;
        starts[i] = slot[1] >= 0xf0 ? SIZE_MAX - slot[0] : slot[0];
        lens[i] = slot[3] >= 0xf0 ? SIZE_MAX - slot[2] : slot[2] + (slot[3] >= 0xe0 ? (size_t)LARGEST_ITEM - 128 : 0);
    }
}

/* What was written reads back as the same items. */
static void check_written_items(directory of, const uint8_t *written, size_t length, uint8_t kind) {
    size_t *starts = (size_t *)(void *)lend_output(&made_starts_region, of.source.where, DIRECTORY_SIZE);
    size_t *lens = (size_t *)(void *)lend_output(&made_lens_region, of.source.where, DIRECTORY_SIZE);
    turgamysk_covenant_answer answer = turgamysk_covenant_decode(written, length, starts, lens);
    REQUIRE(answer.stop.number == 0 && answer.kind == kind && answer.count == of.count);
    for (size_t i = 0; i < of.count; i++) {
        REQUIRE(lens[i] == of.lens[i]);
        REQUIRE(memcmp(written + starts[i], of.source.bytes + of.starts[i], lens[i]) == 0);
    }
}

static void check_made_directory(lent_bytes source, const uint8_t *payload, choices *choose) {
    static size_t starts[DIRECTORY_SLOTS], lens[DIRECTORY_SLOTS];
    uint8_t kind = choose_byte(choose);
    size_t count = choose_number(choose, DIRECTORY_SLOTS);
    size_t room = choose_byte(choose) * 8u;
    spell_directory(payload, source.length, starts, lens);
    directory of = lend_directory(source, starts, lens, count);
    check_item(of, choose_number(choose, count));
    const uint8_t *written = check_encode(of, kind, room);
    if (written != NULL) {
        turgamysk_write_answer size = turgamysk_covenant_encoded_size(source.bytes, source.length, of.starts, of.lens, count);
        check_written_items(of, written, size.written, kind);
    }
}

/* ---- runs */

static void check_kind(uint8_t kind) {
    REQUIRE(turgamysk_is_name(kind) == (1 <= kind && kind <= 11));
    REQUIRE(turgamysk_is_linked(kind) == (4 <= kind && kind <= 11));
    REQUIRE(turgamysk_is_unspendable(kind) == (kind == 11));
}

static turgamysk_step_answer check_step(lent_bytes source, size_t limit, size_t position, size_t count) {
    turgamysk_step_answer step = turgamysk_covenant_run_next_with_limit(source.bytes, source.length, limit, position, count);
    answered(ENTRY_covenant_run_next_with_limit, VERDICT(step.stop));
    witness(step.stop.position);
    bool covenant = step.stop.number == 0 && !step.ended;
    REQUIRE(step.ended == (position == source.length));
    REQUIRE(step.covenants == count + covenant);
    REQUIRE(covenant || (step.kind == 0 && step.count == 0 && step.used == 0));
    REQUIRE(!step.ended || (step.stop.number == 0 && step.stop.position == 0));
    check_kind(step.kind);
    if (!step.ended) {
        turgamysk_covenant_answer read = turgamysk_covenant_read(source.bytes, source.length, position, limit);
        REQUIRE(same_stop(step.stop, read.stop));
        REQUIRE(step.kind == read.kind && step.count == read.count && step.used == read.used);
    }
    return step;
}

/* The default's step is the one under the largest allowance. */
static void check_default_step(lent_bytes source, size_t position, size_t count) {
    turgamysk_step_answer step = turgamysk_covenant_run_next(source.bytes, source.length, position, count);
    answered(ENTRY_covenant_run_next, VERDICT(step.stop));
    turgamysk_step_answer same = check_step(source, LARGEST_COVENANT, position, count);
    REQUIRE(same_stop(step.stop, same.stop) && step.ended == same.ended);
    REQUIRE(step.kind == same.kind && step.count == same.count && step.used == same.used && step.covenants == same.covenants);
}

static void check_default_run(turgamysk_run_answer run, turgamysk_run_answer same) {
    REQUIRE(same_stop(run.stop, same.stop) && run.covenants == same.covenants);
}

/* So are its runs, and the archive's. */
static void check_default_runs(lent_bytes source) {
    turgamysk_run_answer run = turgamysk_covenant_read_run(source.bytes, source.length);
    answered(ENTRY_covenant_read_run, VERDICT(run.stop));
    turgamysk_run_answer archive = turgamysk_covenant_import_archive(source.bytes, source.length);
    answered(ENTRY_covenant_import_archive, VERDICT(archive.stop));
    turgamysk_run_answer same = turgamysk_covenant_read_run_with_limit(source.bytes, source.length, LARGEST_COVENANT);
    check_default_run(run, same);
    check_default_run(archive, same);
}

/* Step by step to the end; a run of more covenants than can be read in good time is left. */
static void check_run(lent_bytes source, size_t limit) {
    turgamysk_step_answer step = check_step(source, limit, 0, 0);
    while (step.stop.number == 0 && !step.ended && step.covenants < STEPS_CHECKED) {
        step = check_step(source, limit, step.stop.position, step.covenants);
    }
    turgamysk_run_answer run = turgamysk_covenant_read_run_with_limit(source.bytes, source.length, limit);
    answered(ENTRY_covenant_read_run_with_limit, VERDICT(run.stop));
    witness(run.covenants);
    if (step.stop.number == 0 && !step.ended) {
        REQUIRE(run.covenants >= step.covenants);
        return;
    }
    REQUIRE(same_stop(run.stop, step.stop) && run.covenants == step.covenants);
}

void play(test_case given) {
    lent_bytes source = {lend_input(&source_region, given.where, given.payload, given.length), given.length, given.where};
    size_t position = choose_number(&given.choose, given.length);
    size_t limit = choose_number(&given.choose, given.length);
    uint8_t missing = choose_byte(&given.choose);
    check_read(source, position, limit, missing);
    check_read(source, 0, SIZE_MAX, missing);
    check_run(source, limit);
    check_run(source, SIZE_MAX);
    check_default_runs(source);
    check_step(source, limit, position, SIZE_MAX - missing);
    check_default_step(source, position, SIZE_MAX - missing);
    find(source, position, missing);
    check_decode(source, given.payload, &given.choose);
    check_made_directory(source, given.payload, &given.choose);
}
