/* The lines of the reports, as document 01 has them. */
#ifndef LINES_H
#define LINES_H

#include "ground.h"

enum { LONGEST_LINE = 89 };

typedef struct {
    char text[LONGEST_LINE + 1];
    size_t length;
} line;

/* "refused NUMBER"; and with " at INDEX". */
line refused_line(uint8_t number);
line refused_line_at(uint8_t number, size_t index);

/* The line of an accepted state, of a class and a record of so many bytes; and of two accepted sheets. */
line state_line(uint8_t class, size_t name_length, size_t record_length);
line summary_line(turgamysk_links_answer summary);

/* What was answered and written in so much of the lent room is the line, all of it or nothing. */
void check_line(entry by, const region *lent, size_t room, turgamysk_write_answer answer, line expected);

#endif
