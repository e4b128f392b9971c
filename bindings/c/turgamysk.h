/*
 * Turgamysk's C entries: crates/capi, by way of crates/capi_c, as `bindings/build` builds it (x86-64 Linux:
 * target/lib/libturgamysk.a).
 *
 * Every entry is total, makes no allocation and no system call, keeps nothing between calls, and writes only where its
 * comment says. The caller sees to it that each pointer leads to as many bytes or numbers as stated, that nothing else
 * writes them during the call, and that what is written does not lie over what is read. No pointer may be null, not
 * even to no bytes.
 *
 * A destination has a length of its own, and a refused write changes no byte of it. An array of a fixed length that an
 * entry fills (the 32 bytes of a hash, the 1,000 starts and lengths of a directory) is no destination but a part of the
 * answer, for which C has no other place: it is filled on every call, with zeros where the answer is a refusal, as
 * every unused part of an answer is.
 */
#ifndef TURGAMYSK_H
#define TURGAMYSK_H

#include <stdbool.h>
#include <stddef.h>
#include <stdint.h>

/* ---- constants (written by tools/make_header.py: from here) */

/*
 * What `number` says: nothing was refused; or the refusal's number in docs/REFUSALS.md. `first`, `second` and `third`
 * are what it carries, in the order that is told here.
 */
#define TURGAMYSK_ACCEPTED 0

/*
 * Carries `offset`, `needed`. A fixed read or slice is cut off: where it begins, and how many bytes are missing. A
 * cursor beyond its slice: its position, and how far beyond it is.
 */
#define TURGAMYSK_REFUSAL_UNEXPECTED_END 1

/*
 * Carries `actual`, `maximum`. A length is above its maximum; or a slice's end would pass 2^64 - 1, with actual
 * 2^64 - 1 and the remaining length as maximum.
 */
#define TURGAMYSK_REFUSAL_LENGTH_EXCEEDS_BOUND 2

/* Carries `remaining`. Bytes are left where none may be. */
#define TURGAMYSK_REFUSAL_TRAILING_BYTES 3

/* Carries `width`. A compact size in a longer form than it needs: 16, 32 or 64 bits. */
#define TURGAMYSK_REFUSAL_INVALID_VALUE 4

/*
 * Carries `actual`, `maximum`. More bytes or items than a covenant may have, or than its allowance; a record over
 * 668 bytes; a name over 63 or a resource over 512 bytes to be written.
 */
#define TURGAMYSK_REFUSAL_TOO_LARGE 5

/* The bytes are not a name. */
#define TURGAMYSK_REFUSAL_INVALID_NAME 6

/*
 * Carries `reason`. 1 name over 63, 2 resource over 512, 3 unknown bits, 4 owner index, 5 renewal count, 6 safe
 * integer.
 */
#define TURGAMYSK_REFUSAL_INVALID_NAME_STATE 7

/* The writer would not give the same bytes. */
#define TURGAMYSK_REFUSAL_NON_CANONICAL_NAME_STATE 8

/* The key is not the name's hash. */
#define TURGAMYSK_REFUSAL_NAME_STATE_HASH_MISMATCH 9

/* The first input is null. */
#define TURGAMYSK_REFUSAL_COINBASE_REQUIRES_ISSUANCE_VERIFIER 10

/* Carries `transaction`, `coins`. Inputs and coins differ in number. */
#define TURGAMYSK_REFUSAL_INPUT_COUNT_MISMATCH 11

/*
 * Carries `input`. A coin is not the one the input names; both outpoints stand beside the refusal in the verifier's
 * answer.
 */
#define TURGAMYSK_REFUSAL_COIN_OUTPOINT_MISMATCH 12

/* Carries `input`, `kind`. The spent kind needs a partner. */
#define TURGAMYSK_REFUSAL_MISSING_LINKED_OUTPUT 13

/* Carries `input`, `from`, `to`. The partner's kind does not follow the spent one. */
#define TURGAMYSK_REFUSAL_INVALID_TRANSITION 14

/*
 * Carries `input`, `field`. An item is absent or of another width: 1 spent name, 2 created name, 3 spent start,
 * 4 created start, 5 reveal nonce, 6 bid commitment, 7 transfer version, 8 transfer hash.
 */
#define TURGAMYSK_REFUSAL_MALFORMED_COVENANT 15

/* Carries `input`. Items 0 differ. */
#define TURGAMYSK_REFUSAL_NAME_HASH_MISMATCH 16

/* Carries `input`. Items 1 differ. */
#define TURGAMYSK_REFUSAL_START_HEIGHT_MISMATCH 17

/* Carries `input`. The bid's commitment is not the one of value and nonce. */
#define TURGAMYSK_REFUSAL_BLIND_COMMITMENT_MISMATCH 18

/* Carries `input`. The revealed value is above the coin's. */
#define TURGAMYSK_REFUSAL_BID_VALUE_INFLATION 19

/* Carries `input`. A Claim may not be redeemed. */
#define TURGAMYSK_REFUSAL_CLAIM_CANNOT_REDEEM 20

/* Carries `input`. Coin and partner differ in address. */
#define TURGAMYSK_REFUSAL_ADDRESS_MISMATCH 21

/* Carries `input`. Coin and partner differ in value. */
#define TURGAMYSK_REFUSAL_LOCKED_VALUE_MISMATCH 22

/* Carries `input`. A Finalize goes to another address than the Transfer named. */
#define TURGAMYSK_REFUSAL_TRANSFER_DESTINATION_MISMATCH 23

/* Carries `input`. A revoked name's coin may not be spent. */
#define TURGAMYSK_REFUSAL_REVOKED_COIN_SPENT 24

/* Carries `input`, `to`. A coin of an unknown kind may not have a partner of kind 1 to 11. */
#define TURGAMYSK_REFUSAL_UNKNOWN_COVENANT_CREATES_NAME 25

/* Carries `output`, `kind`. An output of kind 4 to 11 may not stand past the inputs. */
#define TURGAMYSK_REFUSAL_UNPAIRED_LINKED_OUTPUT 26

/* Carries `side`, `offset`. A fixed field of a sheet is wrong, and the byte where it begins. */
#define TURGAMYSK_REFUSAL_SHEET_FIELD 27

/* Carries `side`, `length`. A sheet is above its size. */
#define TURGAMYSK_REFUSAL_SHEET_TOO_LONG 28

/* Carries `needed`. All other checks passed, and the destination is shorter than the bytes to be written. */
#define TURGAMYSK_REFUSAL_NO_ROOM 29

/* Carries `item`. An item of a directory or table lies outside its source. */
#define TURGAMYSK_REFUSAL_BAD_ITEM 30

/* The `reason` that 7 carries. */
#define TURGAMYSK_REASON_NAME_OVER 1
#define TURGAMYSK_REASON_RESOURCE_OVER 2
#define TURGAMYSK_REASON_UNKNOWN_BITS 3
#define TURGAMYSK_REASON_OWNER_INDEX 4
#define TURGAMYSK_REASON_RENEWAL_COUNT 5
#define TURGAMYSK_REASON_SAFE_INTEGER 6

/* The `field` that 15 carries. */
#define TURGAMYSK_FIELD_SPENT_NAME 1
#define TURGAMYSK_FIELD_CREATED_NAME 2
#define TURGAMYSK_FIELD_SPENT_START 3
#define TURGAMYSK_FIELD_CREATED_START 4
#define TURGAMYSK_FIELD_REVEAL_NONCE 5
#define TURGAMYSK_FIELD_BID_COMMITMENT 6
#define TURGAMYSK_FIELD_TRANSFER_VERSION 7
#define TURGAMYSK_FIELD_TRANSFER_HASH 8

/* The kinds of covenants; every other byte is an unknown one. */
#define TURGAMYSK_KIND_NONE 0
#define TURGAMYSK_KIND_CLAIM 1
#define TURGAMYSK_KIND_OPEN 2
#define TURGAMYSK_KIND_BID 3
#define TURGAMYSK_KIND_REVEAL 4
#define TURGAMYSK_KIND_REDEEM 5
#define TURGAMYSK_KIND_REGISTER 6
#define TURGAMYSK_KIND_UPDATE 7
#define TURGAMYSK_KIND_RENEW 8
#define TURGAMYSK_KIND_TRANSFER 9
#define TURGAMYSK_KIND_FINALIZE 10
#define TURGAMYSK_KIND_REVOKE 11

/* The classes of name states. */
#define TURGAMYSK_CLASS_NULL 0
#define TURGAMYSK_CLASS_HELD 1
#define TURGAMYSK_CLASS_FREE 2

/* The sides: of a transaction's sheet, and of its coins'. */
#define TURGAMYSK_SIDE_TRANSACTION 0
#define TURGAMYSK_SIDE_COINS 1

/* Why two amounts have no sum, or no difference. */
#define TURGAMYSK_OVERFLOW 1
#define TURGAMYSK_UNDERFLOW 2

/* The bytes of a hash. */
#define TURGAMYSK_HASH_SIZE 32

/* The most bytes of a name. */
#define TURGAMYSK_MAX_NAME_SIZE 63

/* The most bytes of a resource. */
#define TURGAMYSK_MAX_RESOURCE_SIZE 512

/* The most bytes of a name state's record. */
#define TURGAMYSK_MAX_RECORD_SIZE 668

/* The largest amount in a record, 2^53 - 1. */
#define TURGAMYSK_MAX_SAFE_INTEGER 9007199254740991

/* The most items of a covenant. */
#define TURGAMYSK_MAX_ITEMS 1000

/* The most bytes of an item. */
#define TURGAMYSK_MAX_ITEM_SIZE 1000000

/* The most bytes of a covenant. */
#define TURGAMYSK_MAX_COVENANT_SIZE 1000009

/* The numbers at `starts`, and at `lens`, of a directory. */
#define TURGAMYSK_DIRECTORY_SIZE 1000

/* The bytes that a run allows each covenant, where no limit is given. */
#define TURGAMYSK_RUN_ALLOWANCE 1000009

/* The bytes of an encoded outpoint. */
#define TURGAMYSK_OUTPOINT_SIZE 36

/* The most bytes of a sheet. */
#define TURGAMYSK_MAX_SHEET_SIZE 16777216

/* The most bytes of a sheet of which the link report tells. */
#define TURGAMYSK_MAX_REPORT_SHEET_SIZE 32768

/* The most bytes of a line of the link report. */
#define TURGAMYSK_MAX_LINK_LINE_SIZE 89

/* The most bytes of a line of the name report. */
#define TURGAMYSK_MAX_NAME_LINE_SIZE 64

/* ---- constants (to here) */

#ifdef __cplusplus
extern "C" {
#endif

/* SHA3-256 (FIPS 202) of the `length` bytes at `message`, into the 32 bytes at `digest`. */
void turgamysk_sha3_256(const uint8_t *message, size_t length, uint8_t *digest);

/*
 * BLAKE2b with a result of 32 bytes and no key (RFC 7693) of the `length` bytes at `message`, into the 32 bytes at
 * `digest`.
 */
void turgamysk_blake2b_256(const uint8_t *message, size_t length, uint8_t *digest);

/*
 * BLAKE2b as above of 40 bytes: `value`, the lowest byte first, and the 32 bytes at `nonce`; into the 32 bytes at
 * `digest`.
 */
void turgamysk_blake2b_256_value_nonce(uint64_t value, const uint8_t *nonce, uint8_t *digest);

/*
 * The number of this interface, and of the archive's: what breaks the interface raises it. A program compares the two
 * before it calls anything else; where they differ, this header is not the archive's.
 */
#define TURGAMYSK_VERSION 1
uint32_t turgamysk_version(void);

/*
 * What every answer that reads begins with: 0, or the refusal's number in the table of docs/REFUSALS.md and up to three
 * of what it carries; and where the reader then stands. A read without a value has it as its answer. Unused parts are
 * zeros.
 */
typedef struct {
    uint8_t number;
    size_t first;
    size_t second;
    size_t third;
    size_t position;
} turgamysk_stop;

/*
 * A covenant that was read (`stop.number` 0), or the refusal. `used` is the bytes used up from the allowance. Unused
 * parts are zeros.
 */
typedef struct {
    turgamysk_stop stop;
    uint8_t kind;
    size_t count;
    size_t used;
} turgamysk_covenant_answer;

/*
 * How many bytes were written (`number` 0), or the refusal's number and what it carries, as above; then nothing was
 * written.
 */
typedef struct {
    uint8_t number;
    size_t first;
    size_t second;
    size_t third;
    size_t written;
} turgamysk_write_answer;

/*
 * The covenant at `position` of the `length` bytes, under an allowance of `limit` bytes: accepted or refused, without a
 * directory.
 */
turgamysk_covenant_answer turgamysk_covenant_read(const uint8_t *bytes, size_t length, size_t position, size_t limit);

/*
 * The covenant that is all of the `length` bytes. Its items' starts and lengths go into the 1,000 numbers at `starts`
 * and at `lens`, with zeros after them, and zeros alone where it is refused.
 */
turgamysk_covenant_answer turgamysk_covenant_decode(const uint8_t *bytes, size_t length, size_t *starts, size_t *lens);

/*
 * The covenant at `position` of the `length` bytes, under an allowance of `limit` bytes, with its directory as above.
 */
turgamysk_covenant_answer turgamysk_covenant_decode_from(const uint8_t *bytes, size_t length, size_t position, size_t limit, size_t *starts,
                                                         size_t *lens);

/*
 * A covenant of `kind` with the first `count` of the items that the 1,000 starts and lengths name in the
 * `source_length` bytes at `source`, into the first of the `dest_length` bytes at `dest`: all of it, or nothing.
 */
turgamysk_write_answer turgamysk_covenant_encode(uint8_t *dest, size_t dest_length, uint8_t kind, const uint8_t *source, size_t source_length,
                                                 const size_t *starts, const size_t *lens, size_t count);

/* ---- names and name states (crates/capi/src/states.rt) */

/* Whether the `length` bytes at `name` are a name: 0, or the refusal's number, which is 6. */
uint8_t turgamysk_validate_name(const uint8_t *name, size_t length);

/*
 * The hash of the name that the `length` bytes at `name` are, into the 32 bytes at `digest`: 0; or 6, and 32 zero
 * bytes.
 */
uint8_t turgamysk_hash_name(const uint8_t *name, size_t length, uint8_t *digest);

/* The commitment of a bid of `value` under the 32 bytes at `nonce`, into the 32 bytes at `digest`. */
void turgamysk_blind_bid(uint64_t value, const uint8_t *nonce, uint8_t *digest);

/*
 * A transaction's output, by the transaction's hash and the output's number. The null outpoint is zeros and 4294967295.
 */
typedef struct {
    uint8_t transaction_hash[32];
    uint32_t index;
} turgamysk_outpoint;

/*
 * The state of a name under its key `name_hash`. The name is the first `name_length` bytes of `name`, the resource the
 * first `resource_length` of `resource_data`; what stands after them is not looked at. A length may be any number:
 * bytes past the array count as zeros, and the writer refuses it.
 */
typedef struct {
    uint8_t name_hash[32];
    uint8_t name[63];
    size_t name_length;
    uint8_t resource_data[512];
    size_t resource_length;
    uint32_t height;
    uint32_t renewal;
    turgamysk_outpoint owner;
    uint64_t value;
    uint64_t highest;
    uint32_t transfer;
    uint32_t revoked;
    uint32_t claimed;
    uint32_t renewals;
    bool registered;
    bool expired;
    bool weak;
} turgamysk_name_state;

/* A state that was read (`stop.number` 0), or the refusal, and then a state all of zeros. */
typedef struct {
    turgamysk_stop stop;
    turgamysk_name_state state;
} turgamysk_state_answer;

/* The state whose record is all of the `length` bytes, under the 32 bytes at `key`. */
turgamysk_state_answer turgamysk_name_state_decode(const uint8_t *key, const uint8_t *bytes, size_t length);

/* The record of a state, into the first of the `dest_length` bytes at `dest`: all of it, or nothing. */
turgamysk_write_answer turgamysk_name_state_encode(turgamysk_name_state state, uint8_t *dest, size_t dest_length);

/* How many bytes the record of a state takes, as `written`, or why it is not written; nothing is. */
turgamysk_write_answer turgamysk_name_state_encoded_size(turgamysk_name_state state);

/* 0 for a null state, 1 for one whose owner is not the null outpoint, 2 for the others. */
uint8_t turgamysk_name_state_class(turgamysk_name_state state);

/* The outpoint of the owner that a state has (`held`); zeros where it has none. */
typedef struct {
    bool held;
    turgamysk_outpoint outpoint;
} turgamysk_owner_answer;

/* The owner of a state: there is one unless it is the null outpoint. */
turgamysk_owner_answer turgamysk_name_state_owner_outpoint(turgamysk_name_state state);

/*
 * Which fields the record of a state shows, by bit: 0 owner, 1 value, 2 highest, 3 transfer, 4 revoked, 5 claimed,
 * 6 renewals, 7 registered, 8 expired, 9 weak.
 */
uint16_t turgamysk_name_state_bitmap(turgamysk_name_state state);

/*
 * Whether the key of a state is the hash of its name, or nothing binds them because the state is null: 0; or the
 * refusal's number: 6 where the name is no name, 9 where the key is not its hash.
 */
uint8_t turgamysk_name_state_validate_key_binding(turgamysk_name_state state);

/* Whether all but the key and the name is zero, empty, unset or the null outpoint. */
bool turgamysk_name_state_is_null(turgamysk_name_state state);

/* The null state, with no name, of the 32 bytes at `key`. */
turgamysk_name_state turgamysk_name_state_null(const uint8_t *key);

/* Whether two states are the same: key, name, resource and every other field. */
bool turgamysk_name_state_same(turgamysk_name_state state, turgamysk_name_state other);

/* ---- outpoints (crates/capi/src/wire.rt) */

/* An outpoint that was read (`stop.number` 0), or the refusal, and then an outpoint all of zeros. */
typedef struct {
    turgamysk_stop stop;
    turgamysk_outpoint outpoint;
} turgamysk_outpoint_answer;

/*
 * The outpoint in 36 bytes at `position`; those bytes, into the 36 at `encoded`; whether two are the same; whether one
 * is the null outpoint.
 */
turgamysk_outpoint_answer turgamysk_outpoint_decode(const uint8_t *source, size_t length, size_t position);
void turgamysk_outpoint_encode(turgamysk_outpoint outpoint, uint8_t *encoded);
bool turgamysk_outpoint_same(turgamysk_outpoint outpoint, turgamysk_outpoint other);
bool turgamysk_outpoint_is_null(turgamysk_outpoint outpoint);

/* ---- amounts (crates/capi/src/amounts.rt) */

/*
 * A sum or a difference (`outcome` 0), or why there is none: 1 for an overflow, 2 for an underflow, and then `value`
 * is 0.
 */
typedef struct {
    uint8_t outcome;
    uint64_t value;
} turgamysk_amount_answer;

/* The sum of two amounts, which is an overflow from 2^64 on; and their difference, which is an underflow below 0. */
turgamysk_amount_answer turgamysk_checked_add(uint64_t amount, uint64_t other);
turgamysk_amount_answer turgamysk_checked_sub(uint64_t amount, uint64_t other);

/* ---- sheets (crates/capi/src/sheet.rt) */

/*
 * How many inputs, or coins, and outputs a sheet has (`stop.number` 0), or the refusal and the side of the sheet: 0
 * transaction, 1 coins. No position is told of a sheet that is judged whole: `stop.position` is always 0. Unused parts
 * are zeros.
 */
typedef struct {
    turgamysk_stop stop;
    uint8_t side;
    size_t inputs;
    size_t outputs;
} turgamysk_sheet_answer;

/* Where an item stands: `length` bytes from `offset` on. Zeros where there is none. */
typedef struct {
    bool exists;
    size_t offset;
    size_t length;
} turgamysk_view_answer;

/*
 * An output that was read (`stop.number` 0): its value, its address's version, its address's hash, which is `size`
 * bytes from `start` on, where its covenant begins, and its covenant's kind; or the refusal. Unused parts are zeros.
 */
typedef struct {
    turgamysk_stop stop;
    uint64_t value;
    uint8_t version;
    size_t start;
    size_t size;
    size_t covenant;
    uint8_t kind;
} turgamysk_place_answer;

/*
 * The input, or the outpoint of the coin, at `position` of the `length` bytes of a sheet; its index has the highest
 * byte first.
 */
turgamysk_outpoint_answer turgamysk_sheet_input_at(const uint8_t *sheet, size_t length, size_t position);

/*
 * The output, or what follows the outpoint of the coin, at `position` of the `length` bytes of a sheet. `side` is what
 * a refusal by 27 carries.
 */
turgamysk_place_answer turgamysk_sheet_place_at(const uint8_t *sheet, size_t length, size_t position, uint8_t side);

/* The transaction sheet that is all of the `length` bytes, judged whole. */
turgamysk_sheet_answer turgamysk_judge_transaction(const uint8_t *sheet, size_t length);

/* The coin sheet that is all of the `length` bytes, judged whole; `inputs` is the number of coins, and `outputs` 0. */
turgamysk_sheet_answer turgamysk_judge_coins(const uint8_t *sheet, size_t length);

/*
 * The item of the covenant of output number `index` of the transaction sheet at `tx` (`side` 0), or of coin number
 * `index` of the coin sheet at `coins` (`side` 1), within that sheet. There is none on another side, or if either sheet
 * is refused.
 */
turgamysk_view_answer turgamysk_view_item(const uint8_t *tx, size_t tx_length, const uint8_t *coins, size_t coins_length, uint8_t side,
                                          size_t index, size_t item);

/* ---- runs, items and kinds (crates/capi/src/items.rt) */

/*
 * A covenant of a run (`stop.number` 0), and then `stop.position` is after it; or the end: no bytes are left (`ended`),
 * or the refusal. `covenants` is how many there were up to here. Unused parts are zeros.
 */
typedef struct {
    turgamysk_stop stop;
    bool ended;
    uint8_t kind;
    size_t count;
    size_t used;
    size_t covenants;
} turgamysk_step_answer;

/*
 * How a run ended: no bytes are left (`stop.number` 0, and `stop.position` 0), or the refusal; and how many covenants
 * it had.
 */
typedef struct {
    turgamysk_stop stop;
    size_t covenants;
} turgamysk_run_answer;

/* The number that an item spells, where it has the width; else zeros. */
typedef struct {
    bool exists;
    uint64_t value;
} turgamysk_item_answer;

/* The next covenant of a run, from `position` on and after `count` covenants; 1,000,009 bytes are allowed for it.
 * A run starts at 0, 0. */
turgamysk_step_answer turgamysk_covenant_run_next(const uint8_t *source, size_t length, size_t position, size_t count);

/* The same under an allowance of `limit` bytes. */
turgamysk_step_answer turgamysk_covenant_run_next_with_limit(const uint8_t *source, size_t length, size_t limit, size_t position, size_t count);

/* The whole run, read to its end, 1,000,009 bytes allowed for each covenant. */
turgamysk_run_answer turgamysk_covenant_read_run(const uint8_t *source, size_t length);

/* The same under an allowance of `limit` bytes for each covenant. */
turgamysk_run_answer turgamysk_covenant_read_run_with_limit(const uint8_t *source, size_t length, size_t limit);

/* An archive, which is a run of covenants, read to its end, 1,000,009 bytes allowed for each covenant. */
turgamysk_run_answer turgamysk_covenant_import_archive(const uint8_t *source, size_t length);

/* Item number `index` of the covenant at `position`, found without a directory. */
turgamysk_view_answer turgamysk_covenant_find(const uint8_t *source, size_t length, size_t position, size_t index);

/*
 * Item number `index` of the first `count` that the 1,000 starts and lengths name in the `length` bytes: where it
 * stands; the number that it spells, where it has 1, 4 or 8 bytes; and its bytes, into the 32 at `hash`, where it has
 * 32 (else false, and zeros).
 */
turgamysk_view_answer turgamysk_covenant_item(const uint8_t *source, size_t length, const size_t *starts, const size_t *lens, size_t count,
                                              size_t index);
turgamysk_item_answer turgamysk_covenant_item_u8(const uint8_t *source, size_t length, const size_t *starts, const size_t *lens, size_t count,
                                                 size_t index);
turgamysk_item_answer turgamysk_covenant_item_u32(const uint8_t *source, size_t length, const size_t *starts, const size_t *lens, size_t count,
                                                  size_t index);
turgamysk_item_answer turgamysk_covenant_item_u64(const uint8_t *source, size_t length, const size_t *starts, const size_t *lens, size_t count,
                                                  size_t index);
bool turgamysk_covenant_item_name_hash(const uint8_t *source, size_t length, const size_t *starts, const size_t *lens, size_t count, size_t index,
                                       uint8_t *hash);

/* How many bytes the covenant of those items takes, as `written`, or why it is not written; nothing is. */
turgamysk_write_answer turgamysk_covenant_encoded_size(const uint8_t *source, size_t length, const size_t *starts, const size_t *lens,
                                                       size_t count);

/* Whether a kind is a known one but None; one of Reveal to Revoke; Revoke. */
bool turgamysk_is_name(uint8_t kind);
bool turgamysk_is_linked(uint8_t kind);
bool turgamysk_is_unspendable(uint8_t kind);

/*
 * The summary of two sheets that keep the link rules (`stop.number` 0), or the refusal: of a sheet, with its `side` (0
 * transaction, 1 coins), or of a rule; `stop.position` is always 0. In 12 `expected` is the input's outpoint and
 * `actual` the coin's. Unused parts are zeros.
 */
typedef struct {
    turgamysk_stop stop;
    uint8_t side;
    size_t inputs_checked;
    size_t linked_outputs;
    size_t name_inputs;
    turgamysk_outpoint expected;
    turgamysk_outpoint actual;
} turgamysk_links_answer;

/*
 * Whether the transaction of the `tx_length` bytes at `tx` and the coins of the `coins_length` bytes at `coins` keep
 * the link rules.
 */
turgamysk_links_answer turgamysk_verify_covenant_links(const uint8_t *tx, size_t tx_length, const uint8_t *coins, size_t coins_length);

/* ---- report lines (crates/capi/src/lines.rt) */

/*
 * The line that the link report prints of two sheets, its newline with it, into the first of the `out_length` bytes at
 * `out`: all of it, or nothing. As in the report, a sheet of more than 32,768 bytes is refused by 28. A line has at
 * most 89 bytes.
 */
turgamysk_write_answer turgamysk_link_line(const uint8_t *tx, size_t tx_length, const uint8_t *coins, size_t coins_length, uint8_t *out,
                                           size_t out_length);

/*
 * The line that the name report prints of the `length` bytes at `file`, which are a key of 32 bytes and then a record,
 * its newline with it, into the first of the `out_length` bytes at `out`: all of it, or nothing. A line has at most
 * 64 bytes.
 */
turgamysk_write_answer turgamysk_name_line(const uint8_t *file, size_t length, uint8_t *out, size_t out_length);

#ifdef __cplusplus
}
#endif

#endif
