/*
 * What the targets stand on: memory between guard pages, claims, the refusals that each entry may give, and what
 * libFuzzer is told of the answers.
 */
#ifndef GROUND_H
#define GROUND_H

#include "turgamysk.h"
#include "turgamysk_wire.h"

#include <stdbool.h>
#include <stddef.h>
#include <stdint.h>

/* ---- claims */

/* A sentence of document 01 (or of the header) that must hold; where it does not, the input is a finding. */
#define REQUIRE(claim) ((claim) ? (void)0 : claim_broken(#claim, __FILE__, __LINE__))

void claim_broken(const char *claim, const char *file, int line) __attribute__((noreturn));

/* ---- layouts: every case is played once in each, and every answer must be the same in all */

typedef enum {
    AGAINST_END,         /* the guard page is right after the last byte */
    AGAINST_START_ZEROS, /* the guard page is right before the first byte, and zeros follow the last */
    AGAINST_START_ONES,  /* the same with bytes 0xff */
    LAYOUTS
} layout;

/* ---- memory between guard pages */

enum {
    MARGIN = 128,           /* bytes that are watched, or changed from layout to layout, on the side that has no guard page */
    DIRECTORY_SLOTS = 1000, /* a directory has so many starts and lengths */
    DIRECTORY_SIZE = DIRECTORY_SLOTS * sizeof(size_t),
    HASH_SIZE = 32,
    LARGEST_COVENANT = 1000009,
    LARGEST_ITEM = 1000000,
    LARGEST_STATE = 668,
    LONGEST_PAYLOAD = LARGEST_COVENANT + 32768,
};

/* Pages seen twice: `writable` by the harness, `guarded` by the entries, between two pages that nobody may touch. */
typedef struct {
    uint8_t *writable;
    uint8_t *guarded;
    size_t capacity;
    size_t offset;
    size_t length;
    layout where;
} region;

/* A region for what an entry reads: it cannot be written through `guarded`. And one for what an entry writes. */
void make_input_region(region *made, size_t longest);
void make_output_region(region *made, size_t longest);

/* The bytes, for an entry to read. */
const uint8_t *lend_input(region *to, layout where, const uint8_t *bytes, size_t length);

/*
 * So many bytes of a pattern, for an entry to write; and whether the pattern still stands from byte number `from` on,
 * and beside the bytes.
 */
uint8_t *lend_output(region *to, layout where, size_t length);
bool untouched_from(const region *lent, size_t from);

/* The bytes that were lent last. */
uint8_t *lent_by(const region *lender);

/* ---- answers */

#define REFUSAL(number) (UINT32_C(1) << (number))
#define REFUSALS_READ (REFUSAL(1) | REFUSAL(2))
#define REFUSALS_COMPACT (REFUSAL(1) | REFUSAL(4))
#define REFUSALS_COVENANT (REFUSAL(1) | REFUSAL(2) | REFUSAL(4) | REFUSAL(5))
#define REFUSALS_SHEET (REFUSALS_COVENANT | REFUSAL(3) | REFUSAL(27) | REFUSAL(28))
#define REFUSALS_STATE_SIZE (REFUSAL(5) | REFUSAL(6) | REFUSAL(7) | REFUSAL(9))
#define REFUSALS_LINKS (UINT32_C(0x07fffc00) | REFUSALS_SHEET)

/* The entries, each with the refusals that docs/REFUSALS.md lets it give; those that give yes or no have none. */
#define ENTRIES(ENTRY)                                                                                                                               \
    ENTRY(remaining, 0)                                                                                                                              \
    ENTRY(read_u8, REFUSAL(1))                                                                                                                       \
    ENTRY(read_u16_le, REFUSAL(1))                                                                                                                   \
    ENTRY(read_u32_le, REFUSAL(1))                                                                                                                   \
    ENTRY(read_u64_le, REFUSAL(1))                                                                                                                   \
    ENTRY(read_compact_size, REFUSALS_COMPACT)                                                                                                       \
    ENTRY(read_compact_usize, REFUSALS_COMPACT | REFUSAL(2))                                                                                         \
    ENTRY(read_slice, REFUSALS_READ)                                                                                                                 \
    ENTRY(read_bounded, REFUSALS_READ)                                                                                                               \
    ENTRY(read_varbytes, REFUSALS_READ | REFUSALS_COMPACT)                                                                                           \
    ENTRY(read_array, REFUSALS_READ)                                                                                                                 \
    ENTRY(finish, REFUSAL(1) | REFUSAL(3))                                                                                                           \
    ENTRY(put_u8, REFUSAL(29))                                                                                                                       \
    ENTRY(put_u16_le, REFUSAL(29))                                                                                                                   \
    ENTRY(put_u32_le, REFUSAL(29))                                                                                                                   \
    ENTRY(put_u64_le, REFUSAL(29))                                                                                                                   \
    ENTRY(put_bytes, REFUSAL(29))                                                                                                                    \
    ENTRY(put_compact_size, REFUSAL(29))                                                                                                             \
    ENTRY(put_varbytes, REFUSAL(29))                                                                                                                 \
    ENTRY(outpoint_decode, REFUSALS_READ)                                                                                                            \
    ENTRY(checked_add, 0)                                                                                                                            \
    ENTRY(checked_sub, 0)                                                                                                                            \
    ENTRY(validate_name, REFUSAL(6))                                                                                                                 \
    ENTRY(hash_name, REFUSAL(6))                                                                                                                     \
    ENTRY(name_state_decode, REFUSAL(1) | REFUSAL(3) | REFUSAL(4) | REFUSALS_STATE_SIZE | REFUSAL(8))                                                \
    ENTRY(name_state_encode, REFUSALS_STATE_SIZE | REFUSAL(29))                                                                                      \
    ENTRY(name_state_encoded_size, REFUSALS_STATE_SIZE)                                                                                              \
    ENTRY(name_state_class, 0)                                                                                                                       \
    ENTRY(name_state_owner_outpoint, 0)                                                                                                              \
    ENTRY(name_state_bitmap, 0)                                                                                                                      \
    ENTRY(name_state_validate_key_binding, REFUSAL(6) | REFUSAL(9))                                                                                  \
    ENTRY(name_line, REFUSAL(29))                                                                                                                    \
    ENTRY(covenant_read, REFUSALS_COVENANT)                                                                                                          \
    ENTRY(covenant_decode, REFUSALS_COVENANT | REFUSAL(3))                                                                                           \
    ENTRY(covenant_decode_from, REFUSALS_COVENANT)                                                                                                   \
    ENTRY(covenant_encode, REFUSAL(5) | REFUSAL(29) | REFUSAL(30))                                                                                   \
    ENTRY(covenant_encoded_size, REFUSAL(5) | REFUSAL(30))                                                                                           \
    ENTRY(covenant_run_next, REFUSALS_COVENANT)                                                                                                      \
    ENTRY(covenant_run_next_with_limit, REFUSALS_COVENANT)                                                                                           \
    ENTRY(covenant_read_run, REFUSALS_COVENANT)                                                                                                      \
    ENTRY(covenant_read_run_with_limit, REFUSALS_COVENANT)                                                                                           \
    ENTRY(covenant_import_archive, REFUSALS_COVENANT)                                                                                                \
    ENTRY(covenant_find, 0)                                                                                                                          \
    ENTRY(covenant_item, 0)                                                                                                                          \
    ENTRY(covenant_item_u8, 0)                                                                                                                       \
    ENTRY(covenant_item_u32, 0)                                                                                                                      \
    ENTRY(covenant_item_u64, 0)                                                                                                                      \
    ENTRY(covenant_item_name_hash, 0)                                                                                                                \
    ENTRY(judge_transaction, REFUSALS_SHEET)                                                                                                         \
    ENTRY(judge_coins, REFUSALS_SHEET)                                                                                                               \
    ENTRY(sheet_input_at, REFUSAL(1))                                                                                                                \
    ENTRY(sheet_place_at, REFUSALS_COVENANT | REFUSAL(27))                                                                                           \
    ENTRY(view_item, 0)                                                                                                                              \
    ENTRY(link_line, REFUSAL(29))                                                                                                                    \
    ENTRY(verify_covenant_links, REFUSALS_LINKS)

#define ENTRY_NUMBER(name, refusals) ENTRY_##name,
typedef enum { ENTRIES(ENTRY_NUMBER) ENTRY_COUNT } entry;

/* What every answer that can refuse begins with; where it reads, the position follows. */
typedef struct {
    uint8_t number;
    size_t first;
    size_t second;
    size_t third;
} verdict;

#define VERDICT(answer) ((verdict){(answer).number, (answer).first, (answer).second, (answer).third})

/*
 * The verdict is one that the entry may give, and carries what its number says and zeros besides; libFuzzer is told of
 * it.
 */
void answered(entry by, verdict given);

bool same_verdict(verdict one, verdict other);
bool same_stop(turgamysk_stop one, turgamysk_stop other);

/* Tells libFuzzer of an answer without a number; and of more values of an answer that was counted. */
void observed(entry by, uint8_t outcome, size_t first, size_t second);
void distinguished(entry by, uint8_t outcome, size_t first, size_t second);

/* A part of an answer: it must be the same in every layout. */
void witness(uint64_t value);
void witness_bytes(const uint8_t *bytes, size_t length);

/* ---- numbers in bytes */

uint64_t little_endian(const uint8_t *bytes, size_t size);
uint64_t big_endian(const uint8_t *bytes, size_t size);

/* ---- cases */

enum { CHOICES = 16 };

/* The first bytes of an input choose arguments; the others are the payload. */
typedef struct {
    uint8_t bytes[CHOICES];
    size_t next;
} choices;

typedef struct {
    layout where;
    choices choose;
    const uint8_t *payload;
    size_t length;
} test_case;

/* The next byte; and a number that is small, around `near`, around a power of two or close to the largest. */
uint8_t choose_byte(choices *from);
size_t choose_number(choices *from, size_t near);

/* What a target has: it makes its regions, and plays one case in one layout. */
void prepare(void);
void play(test_case given);

#endif
