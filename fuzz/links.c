/* The link verifier over two sheets: its summary, that the ground of each refusal is there, and the report's line. */
#include "lines.h"
#include "walk.h"

#include <string.h>

enum { START_SIZE = 4, LARGEST_REPORTED = 32768 };

static region transaction_region, coins_region, line_region;

void prepare(void) {
    make_input_region(&transaction_region, LONGEST_PAYLOAD);
    make_input_region(&coins_region, LONGEST_PAYLOAD);
    make_output_region(&line_region, 2 * LONGEST_LINE);
}

typedef struct {
    const sheet *transaction;
    const sheet *coins;
    turgamysk_links_answer answer;
} verified;

/* ---- what the sheets have */

static bool is_outpoint_at(const sheet *of, size_t position, turgamysk_outpoint outpoint) {
    const uint8_t *bytes = of->bytes + position;
    return memcmp(outpoint.transaction_hash, bytes, HASH_SIZE) == 0 && outpoint.index == big_endian(bytes + HASH_SIZE, 4);
}

static bool first_input_is_null(const sheet *transaction) {
    static const turgamysk_outpoint null = {.index = UINT32_MAX};
    return transaction->answer.inputs != 0 && is_outpoint_at(transaction, HEAD_SIZE, null);
}

static uint64_t value_of(const sheet *of, place record) {
    return big_endian(of->bytes + record.start, 8);
}

/* Version and hash, which the spare bits and the hash's length stand between. */
static bool same_address(const sheet *one, place first, const sheet *other, place second) {
    const uint8_t *left = one->bytes + first.start + 8;
    const uint8_t *right = other->bytes + second.start + 8;
    return first.hash_length == second.hash_length && memcmp(left, right, 2 + first.hash_length) == 0;
}

/* Whether both records have the item in the width, with the same bytes. */
static bool same_item(const sheet *one, place first, const sheet *other, place second, size_t item, size_t width) {
    turgamysk_view_answer left = turgamysk_covenant_find(one->bytes, one->length, first.covenant, item);
    turgamysk_view_answer right = turgamysk_covenant_find(other->bytes, other->length, second.covenant, item);
    return left.length == width && right.length == width && memcmp(one->bytes + left.offset, other->bytes + right.offset, width) == 0;
}

/* The spent kinds that need a partner: rows Bid to Transfer. */
static bool needs_partner(uint8_t kind) {
    return kind == 1 || kind == 3 || kind == 4 || (6 <= kind && kind <= 10);
}

/* ---- accepted */

/* Inputs; partners accepted in rows Bid to Transfer; spent kinds 1 to 11. */
static void check_summary(const verified *of) {
    turgamysk_links_answer answer = of->answer;
    size_t inputs = of->transaction->answer.inputs;
    size_t linked = 0;
    size_t names = 0;
    for (size_t i = 0; i < inputs; i++) {
        uint8_t kind = record_place(of->coins, i).kind;
        linked += needs_partner(kind);
        names += turgamysk_is_name(kind);
        REQUIRE(kind != 11);
        REQUIRE(!needs_partner(kind) || i < of->transaction->answer.outputs);
    }
    REQUIRE(answer.inputs_checked == inputs && inputs == of->coins->answer.inputs);
    REQUIRE(answer.linked_outputs == linked);
    REQUIRE(answer.name_inputs == names);
}

/* The rows of the table, but for names, starts, the commitment and the Transfer's destination. */
static bool pair_is_allowed(const verified *of, place spent, place created) {
    uint64_t coin = value_of(of->coins, spent);
    uint64_t output = value_of(of->transaction, created);
    bool address = same_address(of->coins, spent, of->transaction, created);
    uint8_t to = created.kind;
    switch (spent.kind) {
    case 0:
    case 2:
    case 5:
        return to == 0 || to == 2 || to == 3;
    case 1:
        return to == 6 && address;
    case 3:
        return to == 4 && output <= coin;
    case 4:
        return to == 5 || (to == 6 && address);
    case 6:
    case 7:
    case 8:
    case 10:
        return coin == output && address && (to == 7 || to == 8 || to == 9 || to == 11);
    case 9:
        return coin == output && (to == 10 || (address && (to == 7 || to == 8 || to == 11)));
    default:
        return spent.kind >= 12 && !turgamysk_is_name(to);
    }
}

/*
 * Accepted pairs keep their row, and in a linked one have the same name and start; outputs past the inputs are not
 * linked.
 */
static void check_pairs(const verified *of) {
    const sheet *coins = of->coins;
    const sheet *transaction = of->transaction;
    for (size_t i = 0; i < transaction->answer.outputs; i++) {
        place created = record_place(transaction, i);
        if (i >= transaction->answer.inputs) {
            REQUIRE(!turgamysk_is_linked(created.kind));
            continue;
        }
        place spent = record_place(coins, i);
        REQUIRE(pair_is_allowed(of, spent, created));
        if (needs_partner(spent.kind)) {
            REQUIRE(same_item(coins, spent, transaction, created, 0, HASH_SIZE));
            REQUIRE(same_item(coins, spent, transaction, created, 1, START_SIZE));
        }
    }
}

/* ---- refused by a rule */

/* Both outpoints of 12 are the sheets', and differ; beside other answers they are zeros. */
static void check_outpoints(const verified *of) {
    static const turgamysk_outpoint zeros;
    turgamysk_links_answer answer = of->answer;
    if (answer.stop.number != 12) {
        REQUIRE(memcmp(&answer.expected, &zeros, sizeof zeros) == 0 && memcmp(&answer.actual, &zeros, sizeof zeros) == 0);
        return;
    }
    REQUIRE(answer.stop.first < of->transaction->answer.inputs);
    REQUIRE(is_outpoint_at(of->transaction, outpoint_position(of->transaction, answer.stop.first), answer.expected));
    REQUIRE(is_outpoint_at(of->coins, outpoint_position(of->coins, answer.stop.first), answer.actual));
    REQUIRE(memcmp(&answer.expected, &answer.actual, sizeof zeros) != 0);
}

/* The kinds that a refusal of a spent coin allows. */
static bool spent_kind_fits(uint8_t number, uint8_t kind) {
    switch (number) {
    case 13:
        return needs_partner(kind);
    case 14:
        return kind <= 10;
    case 15:
    case 16:
    case 17:
        return needs_partner(kind);
    case 18:
    case 19:
        return kind == 3;
    case 20:
        return kind == 1;
    case 21:
    case 22:
        return needs_partner(kind) && kind != 3;
    case 23:
        return kind == 9;
    case 24:
        return kind == 11;
    default:
        return kind >= 12;
    }
}

/* A refusal by a pair that is there tells of a fault that is there. */
static bool pair_has_fault(const verified *of, place spent, place created) {
    const sheet *coins = of->coins;
    const sheet *transaction = of->transaction;
    turgamysk_links_answer answer = of->answer;
    switch (answer.stop.number) {
    case 14:
        return answer.stop.second == spent.kind && answer.stop.third == created.kind;
    case 16:
        return !same_item(coins, spent, transaction, created, 0, HASH_SIZE);
    case 17:
        return !same_item(coins, spent, transaction, created, 1, START_SIZE);
    case 19:
        return value_of(transaction, created) > value_of(coins, spent);
    case 21:
        return !same_address(coins, spent, transaction, created);
    case 22:
        return value_of(transaction, created) != value_of(coins, spent);
    case 25:
        return answer.stop.second == created.kind;
    default:
        return true;
    }
}

static void check_spent(const verified *of) {
    turgamysk_links_answer answer = of->answer;
    REQUIRE(answer.stop.first < of->transaction->answer.inputs);
    place spent = record_place(of->coins, answer.stop.first);
    REQUIRE(spent_kind_fits(answer.stop.number, spent.kind));
    bool partner = answer.stop.first < of->transaction->answer.outputs;
    REQUIRE(answer.stop.number != 13 || (!partner && answer.stop.second == spent.kind));
    REQUIRE(answer.stop.number == 13 || answer.stop.number == 24 || partner);
    REQUIRE(!partner || pair_has_fault(of, spent, record_place(of->transaction, answer.stop.first)));
}

static void check_unpaired(const verified *of) {
    turgamysk_links_answer answer = of->answer;
    REQUIRE(of->transaction->answer.inputs <= answer.stop.first && answer.stop.first < of->transaction->answer.outputs);
    uint8_t kind = record_place(of->transaction, answer.stop.first).kind;
    REQUIRE(kind == answer.stop.second && turgamysk_is_linked(kind));
}

static void check_rule(const verified *of) {
    turgamysk_links_answer answer = of->answer;
    size_t inputs = of->transaction->answer.inputs;
    size_t coins = of->coins->answer.inputs;
    REQUIRE(answer.side == 0);
    REQUIRE(answer.stop.number == 0 || (10 <= answer.stop.number && answer.stop.number <= 26));
    REQUIRE((answer.stop.number == 10) == first_input_is_null(of->transaction));
    REQUIRE(answer.stop.number == 10 || (answer.stop.number == 11) == (inputs != coins));
    REQUIRE(answer.stop.number != 11 || (answer.stop.first == inputs && answer.stop.second == coins));
    check_outpoints(of);
    if (answer.stop.number == 0) {
        check_summary(of);
        check_pairs(of);
    } else if (answer.stop.number == 26) {
        check_unpaired(of);
    } else if (answer.stop.number > 12) {
        check_spent(of);
    }
}

/* ---- both */

/* The transaction sheet is judged whole, then the coin sheet: their refusals are the verifier's. */
static void check_sheet_refusal(const verified *of, const sheet *refused) {
    REQUIRE(same_verdict(VERDICT(of->answer.stop), VERDICT(refused->answer.stop)));
    REQUIRE(of->answer.side == refused->side);
    check_outpoints(of);
}

static verified verify(const sheet *transaction, const sheet *coins) {
    verified made = {.transaction = transaction, .coins = coins};
    made.answer = turgamysk_verify_covenant_links(transaction->bytes, transaction->length, coins->bytes, coins->length);
    turgamysk_links_answer answer = made.answer;
    answered(ENTRY_verify_covenant_links, VERDICT(answer.stop));
    distinguished(ENTRY_verify_covenant_links, answer.stop.number, answer.linked_outputs, answer.name_inputs);
    witness(answer.side);
    witness(answer.inputs_checked);
    witness(answer.linked_outputs);
    witness(answer.name_inputs);
    REQUIRE(answer.stop.position == 0);
    REQUIRE(answer.stop.number == 0 || (answer.inputs_checked == 0 && answer.linked_outputs == 0 && answer.name_inputs == 0));
    return made;
}

/* ---- the report */

/*
 * "at" gives the index for 12 to 26; each sheet is refused by 28 before it is judged where it is too long for the
 * report.
 */
static line expected_line(const verified *of) {
    turgamysk_links_answer answer = of->answer;
    if (of->transaction->length > LARGEST_REPORTED) {
        return refused_line(28);
    }
    if (of->transaction->answer.stop.number != 0) {
        return refused_line(of->transaction->answer.stop.number);
    }
    if (of->coins->length > LARGEST_REPORTED) {
        return refused_line(28);
    }
    if (answer.stop.number == 0) {
        return summary_line(answer);
    }
    uint8_t number = answer.stop.number;
    return 12 <= number && number <= 26 ? refused_line_at(number, answer.stop.first) : refused_line(number);
}

static void check_link_line(const verified *of, layout where, size_t room) {
    const sheet *transaction = of->transaction;
    const sheet *coins = of->coins;
    uint8_t *out = lend_output(&line_region, where, room);
    turgamysk_write_answer answer = turgamysk_link_line(transaction->bytes, transaction->length, coins->bytes, coins->length, out, room);
    check_line(ENTRY_link_line, &line_region, room, answer, expected_line(of));
}

void play(test_case given) {
    size_t split = transaction_length(&given);
    sheet transaction = judge(&transaction_region, given.where, given.payload, split, TRANSACTION);
    sheet coins = judge(&coins_region, given.where, given.payload + split, given.length - split, COINS);
    verified answer = verify(&transaction, &coins);
    check_link_line(&answer, given.where, LONGEST_LINE);
    check_link_line(&answer, given.where, choose_byte(&given.choose) % LONGEST_LINE);
    if (transaction.answer.stop.number != 0) {
        check_sheet_refusal(&answer, &transaction);
    } else if (coins.answer.stop.number != 0) {
        check_sheet_refusal(&answer, &coins);
    } else {
        check_rule(&answer);
    }
}
