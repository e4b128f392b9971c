/*
 * What a program in C does with the entries: it compares the versions, hashes, adds amounts, reads and writes a
 * covenant and the state of a name, judges sheets and makes the lines of the reports.
 *
 *     cc -I bindings/c bindings/c/example.c target/lib/libturgamysk.a -o example && ./example
 *
 * c/example.out has what it prints.
 */
#include "turgamysk.h"
#include "turgamysk_wire.h"

#include <stdio.h>
#include <string.h>

static void print_bytes(const char *label, const uint8_t *bytes, size_t length) {
    printf("%s ", label);
    for (size_t i = 0; i < length; i++) {
        printf("%02x", bytes[i]);
    }
    printf("\n");
}

static void print_stop(const char *label, turgamysk_stop stop) {
    printf("%s refused %u {%zu, %zu} at %zu\n", label, stop.number, stop.first, stop.second, stop.position);
}

static void print_unwritten(const char *label, turgamysk_write_answer answer) {
    printf("%s refused %u {%zu, %zu}\n", label, answer.number, answer.first, answer.second);
}

/* The header and the archive are of one interface. */
static bool check_version(void) {
    uint32_t version = turgamysk_version();
    printf("interface %u, the header's %u\n", version, TURGAMYSK_VERSION);
    return version == TURGAMYSK_VERSION;
}

static void hash(void) {
    uint8_t digest[32];
    const uint8_t nonce[32] = {7};
    turgamysk_sha3_256((const uint8_t *)"abc", 3, digest);
    print_bytes("sha3_256", digest, 32);
    turgamysk_blake2b_256((const uint8_t *)"abc", 3, digest);
    print_bytes("blake2b_256", digest, 32);
    turgamysk_blake2b_256_value_nonce(1000000, nonce, digest);
    print_bytes("blake2b_256_value_nonce", digest, 32);
}

static void print_amount(const char *label, turgamysk_amount_answer answer) {
    const char *const outcomes[] = {"", " overflow", " underflow"};
    printf("%s %llu%s\n", label, (unsigned long long)answer.value, outcomes[answer.outcome]);
}

static void add_amounts(void) {
    print_amount("sum", turgamysk_checked_add(UINT64_MAX - 1, 1));
    print_amount("sum", turgamysk_checked_add(UINT64_MAX, 1));
    print_amount("difference", turgamysk_checked_sub(7, 5));
    print_amount("difference", turgamysk_checked_sub(5, 7));
}

static void read_covenant(const uint8_t *bytes, size_t length) {
    /* The directory takes 16 kB; it is lent, so it may live anywhere. */
    static size_t starts[1000], lens[1000];
    turgamysk_covenant_answer answer = turgamysk_covenant_decode(bytes, length, starts, lens);
    if (answer.stop.number != 0) {
        print_stop("covenant", answer.stop);
        return;
    }
    printf("covenant of kind %u with %zu items in %zu bytes\n", answer.kind, answer.count, answer.used);
    for (size_t i = 0; i < answer.count; i++) {
        print_bytes("  item", bytes + starts[i], lens[i]);
    }
    uint8_t again[64];
    turgamysk_write_answer written = turgamysk_covenant_encode(again, sizeof again, answer.kind, bytes, length, starts, lens, answer.count);
    print_bytes("written", again, written.written);
    written = turgamysk_covenant_encode(again, 2, answer.kind, bytes, length, starts, lens, answer.count);
    print_unwritten("written", written);
}

static void read_covenants(void) {
    const uint8_t good[] = {9, 3, 1, 5, 0, 2, 0xaa, 0xbb};
    const uint8_t longer_form[] = {0, 0xfd, 0xfc, 0};
    read_covenant(good, sizeof good);
    read_covenant(good, 7);
    read_covenant(longer_form, sizeof longer_form);
    turgamysk_covenant_answer answer = turgamysk_covenant_read(good, sizeof good, 4, 3);
    printf("read at 4 under 3: number %u, kind %u, %zu items, %zu bytes\n", answer.stop.number, answer.kind, answer.count, answer.used);
    answer = turgamysk_covenant_read(good, sizeof good, 9, 1000009);
    print_stop("read at 9", answer.stop);
    const uint8_t inside[] = {0xff, 9, 1, 1, 5, 0xff};
    static size_t starts[1000], lens[1000];
    answer = turgamysk_covenant_decode_from(inside, sizeof inside, 1, 4, starts, lens);
    printf("decoded at 1 under 4: kind %u, its %zu item has %zu byte at %zu\n", answer.kind, answer.count, lens[0], starts[0]);
    answer = turgamysk_covenant_decode_from(inside, sizeof inside, 1, 3, starts, lens);
    print_stop("decoded at 1 under 3", answer.stop);
}

static void read_state(const uint8_t *key, const uint8_t *record, size_t length) {
    turgamysk_state_answer answer = turgamysk_name_state_decode(key, record, length);
    if (answer.stop.number != 0) {
        print_stop("state", answer.stop);
        return;
    }
    uint8_t again[668];
    turgamysk_write_answer written = turgamysk_name_state_encode(answer.state, again, sizeof again);
    printf("state of class %u, name %.*s, height %u\n", turgamysk_name_state_class(answer.state), (int)answer.state.name_length,
           (const char *)answer.state.name, answer.state.height);
    print_bytes("written", again, written.written);
    turgamysk_owner_answer owner = turgamysk_name_state_owner_outpoint(answer.state);
    printf("bitmap %u, %s", turgamysk_name_state_bitmap(answer.state), owner.held ? "output" : "no owner");
    if (owner.held) {
        printf(" %u", owner.outpoint.index);
    }
    answer.state.height++;
    printf(", with another height bound by %u\n", turgamysk_name_state_validate_key_binding(answer.state));
}

static void read_states(void) {
    const uint8_t zeros[13] = {0};
    const uint8_t open[] = {4, 'd', 'e', 's', 'k', 0, 0, 100, 0, 0, 0, 100, 0, 0, 0, 0, 0};
    uint8_t key[32] = {0};
    read_state(key, zeros, sizeof zeros);
    read_state(key, open, sizeof open);
    printf("a reserved word: %u\n", turgamysk_hash_name((const uint8_t *)"localhost", 9, key));
    printf("a name: %u\n", turgamysk_hash_name((const uint8_t *)"desk", 4, key));
    print_bytes("key", key, 32);
    read_state(key, open, sizeof open);
    read_state(key, open, 3);
}

static void print_sheet(const char *label, turgamysk_sheet_answer answer) {
    if (answer.stop.number != 0) {
        printf("%s refused %u {%zu, %zu} on side %u\n", label, answer.stop.number, answer.stop.first, answer.stop.second, answer.side);
        return;
    }
    printf("%s has %zu inputs, %zu outputs\n", label, answer.inputs, answer.outputs);
}

static void judge_sheets(void) {
    /* No inputs, and one output: value 1, address of version 0 and no hash, a Bid with two items. */
    const uint8_t tx[] = {0x10, 0, 0, 0x40, 0, 0, 0, 0, 0, 0, 0, 1, 0, 0, 3, 2, 1, 0xaa, 2, 0xbb, 0xcc};
    const uint8_t coins[] = {0x14, 0, 0, 0};
    print_sheet("transaction", turgamysk_judge_transaction(tx, sizeof tx));
    print_sheet("coins", turgamysk_judge_coins(coins, sizeof coins));
    print_sheet("coins as transaction", turgamysk_judge_transaction(coins, sizeof coins));
    turgamysk_view_answer view = turgamysk_view_item(tx, sizeof tx, coins, sizeof coins, 0, 0, 1);
    print_bytes("item", tx + view.offset, view.length);
    view = turgamysk_view_item(tx, sizeof tx, coins, sizeof coins, 1, 0, 1);
    printf("on the other side: %s\n", view.exists ? "an item" : "none");
    turgamysk_place_answer place = turgamysk_sheet_place_at(tx, sizeof tx, 4, 0);
    printf("output of %llu, kind %u, covenant at %zu, end at %zu\n", (unsigned long long)place.value, place.kind, place.covenant, place.stop.position);
    turgamysk_outpoint_answer input = turgamysk_sheet_input_at(tx, sizeof tx, 4);
    print_stop("input", input.stop);
}

static void print_line(turgamysk_write_answer written, const uint8_t *line) {
    printf("%zu bytes: %.*s", written.written, (int)written.written, (const char *)line);
}

static void print_lines(void) {
    const uint8_t tx[] = {0x10, 0, 0, 0};
    const uint8_t coins[] = {0x14, 0, 0, 0};
    const uint8_t file[45] = {0};
    uint8_t line[89];
    print_line(turgamysk_link_line(tx, sizeof tx, coins, sizeof coins, line, sizeof line), line);
    print_line(turgamysk_link_line(coins, sizeof coins, coins, sizeof coins, line, sizeof line), line);
    print_line(turgamysk_name_line(file, sizeof file, line, sizeof line), line);
    turgamysk_write_answer written = turgamysk_name_line(file, sizeof file, line, 26);
    print_unwritten("line", written);
}

static void read_numbers(void) {
    const uint8_t bytes[] = {0xfd, 0xfd, 0, 0xfd, 0xfc, 0};
    turgamysk_number_answer answer = turgamysk_read_compact_size(bytes, sizeof bytes, 0);
    printf("compact size %llu, then at %zu\n", (unsigned long long)answer.value, answer.stop.position);
    answer = turgamysk_read_compact_size(bytes, sizeof bytes, answer.stop.position);
    print_stop("compact size", answer.stop);
}

int main(void) {
    if (!check_version()) {
        return 1;
    }
    hash();
    add_amounts();
    read_numbers();
    read_covenants();
    read_states();
    judge_sheets();
    print_lines();
    return 0;
}
