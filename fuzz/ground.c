#define _GNU_SOURCE
#include "ground.h"

#include <stdio.h>
#include <stdlib.h>
#include <string.h>
#include <sys/mman.h>
#include <unistd.h>

/* ---- claims */

static layout current_layout;

void claim_broken(const char *claim, const char *file, int line) {
    static const char *const names[LAYOUTS] = {"guard after", "guard before, zeros after", "guard before, 0xff after"};
    fprintf(stderr, "%s:%d: does not hold (%s): %s\n", file, line, names[current_layout], claim);
    abort();
}

/* ---- memory between guard pages */

enum { PATTERN_SIZE = LONGEST_PAYLOAD + 2 * MARGIN };

static uint8_t pattern[PATTERN_SIZE];

static void make_pattern(void) {
    for (size_t i = 0; i < PATTERN_SIZE; i++) {
        pattern[i] = (uint8_t)(i * 167 + i / 251 + 13);
    }
}

static void *mapped(void *result) {
    if (result == MAP_FAILED) {
        perror("mmap");
        exit(2);
    }
    return result;
}

static void make_region(region *made, size_t longest, int access) {
    size_t page = (size_t)sysconf(_SC_PAGESIZE);
    size_t capacity = (longest + MARGIN + page - 1) / page * page;
    int file = memfd_create("region", 0);
    if (file < 0 || ftruncate(file, (off_t)capacity) != 0) {
        perror("memfd_create");
        exit(2);
    }
    made->capacity = capacity;
    made->writable = mapped(mmap(NULL, capacity, PROT_READ | PROT_WRITE, MAP_SHARED, file, 0));
    uint8_t *fence = mapped(mmap(NULL, capacity + 2 * page, PROT_NONE, MAP_PRIVATE | MAP_ANONYMOUS, -1, 0));
    made->guarded = mapped(mmap(fence + page, capacity, access, MAP_SHARED | MAP_FIXED, file, 0));
    close(file);
}

void make_input_region(region *made, size_t longest) {
    make_region(made, longest, PROT_READ);
}

void make_output_region(region *made, size_t longest) {
    make_region(made, longest, PROT_READ | PROT_WRITE);
}

static void place(region *to, layout where, size_t length) {
    if (length + MARGIN > to->capacity) {
        fprintf(stderr, "a region of %zu bytes is too small for %zu\n", to->capacity, length);
        exit(2);
    }
    to->where = where;
    to->length = length;
    to->offset = where == AGAINST_END ? to->capacity - length : 0;
}

uint8_t *lent_by(const region *lender) {
    return lender->guarded + lender->offset;
}

const uint8_t *lend_input(region *to, layout where, const uint8_t *bytes, size_t length) {
    place(to, where, length);
    uint8_t *start = to->writable + to->offset;
    if (length != 0) {
        memcpy(start, bytes, length);
    }
    if (where == AGAINST_END) {
        memset(start - MARGIN, 0x5a, MARGIN);
    } else {
        memset(start + length, where == AGAINST_START_ZEROS ? 0 : 0xff, MARGIN);
    }
    return lent_by(to);
}

/* The first watched byte: where the guard page comes after, the margin stands before the bytes. */
static uint8_t *watched(const region *lent) {
    return lent->writable + lent->offset - (lent->where == AGAINST_END ? MARGIN : 0);
}

uint8_t *lend_output(region *to, layout where, size_t length) {
    place(to, where, length);
    memcpy(watched(to), pattern, length + MARGIN);
    return lent_by(to);
}

bool untouched_from(const region *lent, size_t from) {
    const uint8_t *bytes = watched(lent);
    size_t before = lent->where == AGAINST_END ? MARGIN : 0;
    size_t rest = before + from;
    return memcmp(bytes, pattern, before) == 0 && memcmp(bytes + rest, pattern + rest, lent->length + MARGIN - rest) == 0;
}

/* ---- what libFuzzer is told */

enum { NUMBERS = 32, CLASSES = 8 };

/*
 * libFuzzer takes a byte of this section that is not zero for code that ran: so a new answer of the archive counts as
 * new coverage.
 */
static uint8_t seen[ENTRY_COUNT][NUMBERS][CLASSES][CLASSES] __attribute__((section("__libfuzzer_extra_counters"), used));

static uint64_t tally[ENTRY_COUNT][NUMBERS];

/* How large a number is, roughly. */
static uint8_t size_class(size_t value) {
    static const size_t below[CLASSES - 1] = {1, 2, 16, 256, 65536, 1000000, UINT64_C(1) << 32};
    uint8_t steps = 0;
    while (steps < CLASSES - 1 && value >= below[steps]) {
        steps++;
    }
    return steps;
}

void distinguished(entry by, uint8_t outcome, size_t first, size_t second) {
    seen[by][outcome % NUMBERS][size_class(first)][size_class(second)] = 1;
}

void observed(entry by, uint8_t outcome, size_t first, size_t second) {
    distinguished(by, outcome, first, second);
    tally[by][outcome % NUMBERS]++;
}

/* ---- the same answers in every layout */

enum { LONGEST_TRANSCRIPT = 1 << 16 };

static uint64_t transcript[LONGEST_TRANSCRIPT];
static size_t spoken;

void witness(uint64_t value) {
    if (spoken == LONGEST_TRANSCRIPT) {
        return;
    }
    if (current_layout == 0) {
        transcript[spoken] = value;
    }
    bool answer_is_the_same_in_every_layout = transcript[spoken] == value;
    REQUIRE(answer_is_the_same_in_every_layout);
    spoken++;
}

void witness_bytes(const uint8_t *bytes, size_t length) {
    for (size_t i = 0; i < length; i++) {
        witness(bytes[i]);
    }
}

/* ---- answers */

enum { LAST_REFUSAL = 30 };

static const char *const entry_names[] = {
#define ENTRY_NAME(name, refusals) #name,
    ENTRIES(ENTRY_NAME)};

static const uint32_t entry_refusals[] = {
#define ENTRY_REFUSALS(name, refusals) (refusals),
    ENTRIES(ENTRY_REFUSALS)};

/* How many values a refusal carries: document 01's table. The outpoints of 12 stand elsewhere. */
static size_t carried_values(uint8_t number) {
    static const uint8_t values[LAST_REFUSAL + 1] = {0, 2, 2, 1, 1, 2, 0, 1, 0, 0, 0, 2, 1, 2, 3, 2, 1, 1, 1, 1, 1, 1, 1, 1, 1, 2, 2, 2, 2, 1, 1};
    return values[number];
}

/* The first value, where a number allows only some. */
static bool first_value_is_possible(verdict given) {
    switch (given.number) {
    case 3:
        return given.first > 0;
    case 4:
        return given.first == 16 || given.first == 32 || given.first == 64;
    case 7:
        return 1 <= given.first && given.first <= 6;
    case 27:
    case 28:
        return given.first <= 1;
    case 30:
        return given.first < DIRECTORY_SLOTS;
    default:
        return true;
    }
}

/* The same for the others. */
static bool other_values_are_possible(verdict given) {
    switch (given.number) {
    case 1:
        return given.second > 0;
    case 2:
    case 5:
        return given.first > given.second;
    case 11:
        return given.first != given.second;
    case 13:
    case 26:
        return given.second <= 11;
    case 14:
        return given.second <= 11 && given.third <= 255;
    case 15:
        return 1 <= given.second && given.second <= 8;
    case 25:
        return 1 <= given.second && given.second <= 11;
    default:
        return true;
    }
}

void answered(entry by, verdict given) {
    REQUIRE(given.number <= LAST_REFUSAL);
    bool entry_may_give_the_number = given.number == 0 || (entry_refusals[by] & REFUSAL(given.number)) != 0;
    REQUIRE(entry_may_give_the_number);
    size_t carried = carried_values(given.number);
    REQUIRE(carried >= 1 || given.first == 0);
    REQUIRE(carried >= 2 || given.second == 0);
    REQUIRE(carried >= 3 || given.third == 0);
    REQUIRE(first_value_is_possible(given));
    REQUIRE(other_values_are_possible(given));
    observed(by, given.number, given.first, given.second);
    witness(given.number);
    witness(given.first);
    witness(given.second);
    witness(given.third);
}

bool same_verdict(verdict one, verdict other) {
    return one.number == other.number && one.first == other.first && one.second == other.second && one.third == other.third;
}

bool same_stop(turgamysk_stop one, turgamysk_stop other) {
    return same_verdict(VERDICT(one), VERDICT(other)) && one.position == other.position;
}

/* How often an entry gave each number. */
static void print_entry_tally(const char *name, const uint64_t *counts) {
    fprintf(stderr, "answers %s", name);
    for (size_t number = 0; number < NUMBERS; number++) {
        if (counts[number] != 0) {
            fprintf(stderr, " %zu:%lu", number, counts[number]);
        }
    }
    fputs("\n", stderr);
}

static bool was_met(const uint64_t *counts) {
    for (size_t number = 0; number < NUMBERS; number++) {
        if (counts[number] != 0) {
            return true;
        }
    }
    return false;
}

static void print_tally(void) {
    for (size_t by = 0; by < ENTRY_COUNT; by++) {
        if (was_met(tally[by])) {
            print_entry_tally(entry_names[by], tally[by]);
        }
    }
}

/* ---- numbers in bytes */

uint64_t little_endian(const uint8_t *bytes, size_t size) {
    uint64_t value = 0;
    for (size_t i = size; i > 0; i--) {
        value = value << 8 | bytes[i - 1];
    }
    return value;
}

uint64_t big_endian(const uint8_t *bytes, size_t size) {
    uint64_t value = 0;
    for (size_t i = 0; i < size; i++) {
        value = value << 8 | bytes[i];
    }
    return value;
}

/* ---- cases */

uint8_t choose_byte(choices *from) {
    return from->bytes[from->next++ % CHOICES];
}

size_t choose_number(choices *from, size_t near) {
    uint8_t form = choose_byte(from);
    uint8_t step = choose_byte(from);
    switch (form % 4) {
    case 0:
        return step;
    case 1:
        return near + (size_t)(int8_t)step;
    case 2:
        return ((size_t)1 << form / 4) + (size_t)(int8_t)step;
    default:
        return SIZE_MAX - step;
    }
}

static uint8_t payload[LONGEST_PAYLOAD];

/*
 * Set by TURGAMYSK_STRETCH: every payload is made about as long as the longest covenant, whose limits are out of reach
 * otherwise.
 */
static bool stretched;

/*
 * The payload is repeated bytes after its own: the first two choices are the byte and how far it goes past 1,000,000.
 */
static size_t stretch(choices *choose, size_t length) {
    uint8_t filler = choose_byte(choose);
    size_t whole = LARGEST_ITEM + (size_t)choose_byte(choose);
    memset(payload + length, filler, whole > length ? whole - length : 0);
    return whole > length ? whole : length;
}

/* The input in two parts; choices that are not there are zeros. */
static test_case parted(const uint8_t *data, size_t size) {
    test_case made = {.payload = payload};
    size_t chosen = size < CHOICES ? size : CHOICES;
    size_t left = size - chosen < LONGEST_PAYLOAD ? size - chosen : LONGEST_PAYLOAD;
    if (size != 0) {
        memcpy(made.choose.bytes, data, chosen);
        memcpy(payload, data + chosen, left);
    }
    made.length = stretched ? stretch(&made.choose, left) : left;
    return made;
}

int LLVMFuzzerInitialize(int *argument_count, char ***arguments);
int LLVMFuzzerTestOneInput(const uint8_t *data, size_t size);

int LLVMFuzzerInitialize(int *argument_count, char ***arguments) {
    (void)argument_count;
    (void)arguments;
    stretched = getenv("TURGAMYSK_STRETCH") != NULL;
    make_pattern();
    prepare();
    atexit(print_tally);
    return 0;
}

int LLVMFuzzerTestOneInput(const uint8_t *data, size_t size) {
    test_case given = parted(data, size);
    size_t first_spoken = 0;
    for (size_t where = 0; where < LAYOUTS; where++) {
        given.where = current_layout = (layout)where;
        spoken = 0;
        play(given);
        first_spoken = where == 0 ? spoken : first_spoken;
        REQUIRE(spoken == first_spoken);
    }
    return 0;
}
