/* A walk over a sheet that was judged, by document 01's sentences and the archive's covenant reader. */
#ifndef WALK_H
#define WALK_H

#include "ground.h"

enum { HEAD_SIZE = 4, OUTPOINT_SIZE = 36, OUTPUT_FIELDS_SIZE = 10, LARGEST_SHEET = 16777216, TRANSACTION = 0, COINS = 1 };

/* A lent sheet; the counts are what its judge gave. */
typedef struct {
    const uint8_t *bytes;
    size_t length;
    uint8_t side;
    layout where;
    turgamysk_sheet_answer answer;
} sheet;

/* Where an output, or a coin's, begins, where its parts stand, and where it ends. */
typedef struct {
    size_t start;
    size_t hash;
    size_t hash_length;
    size_t covenant;
    size_t end;
    uint8_t kind;
} place;

/* Judges the bytes, lent in the region, as a sheet of the side, and checks the answer. */
sheet judge(region *to, layout where, const uint8_t *bytes, size_t length, uint8_t side);

/* How many records with a covenant an accepted sheet has: outputs, or coins. */
size_t record_count(const sheet *of);

/* The place of a record of an accepted sheet. */
place record_place(const sheet *of, size_t index);

/* Where the outpoint of an input, or of a coin, stands. */
size_t outpoint_position(const sheet *of, size_t index);

/*
 * How much of the payload is the transaction's sheet: a chosen number of bytes, or (from 0x8000 on) as many as it
 * takes; the rest is the coins'.
 */
size_t transaction_length(test_case *given);

#endif
