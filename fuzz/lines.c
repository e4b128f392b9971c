#include "lines.h"

#include <stdarg.h>
#include <stdio.h>
#include <string.h>

static line printed(const char *form, ...) __attribute__((format(printf, 1, 2)));

static line printed(const char *form, ...) {
    line made;
    va_list values;
    va_start(values, form);
    int length = vsnprintf(made.text, sizeof made.text, form, values);
    va_end(values);
    REQUIRE(0 < length && length <= LONGEST_LINE);
    made.length = (size_t)length;
    return made;
}

line refused_line(uint8_t number) {
    return printed("refused %u\n", number);
}

line refused_line_at(uint8_t number, size_t index) {
    return printed("refused %u at %zu\n", number, index);
}

line state_line(uint8_t class, size_t name_length, size_t record_length) {
    static const char *const classes[] = {"null", "held", "free"};
    return printed("state %s name=%zu bytes=%zu\n", classes[class], name_length, record_length);
}

line summary_line(turgamysk_links_answer summary) {
    return printed("links inputs=%zu linked=%zu names=%zu\n", summary.inputs_checked, summary.linked_outputs, summary.name_inputs);
}

void check_line(entry by, const region *lent, size_t room, turgamysk_write_answer answer, line expected) {
    answered(by, VERDICT(answer));
    bool fits = expected.length <= room;
    REQUIRE(same_verdict(VERDICT(answer), fits ? (verdict){0, 0, 0, 0} : (verdict){29, expected.length, 0, 0}));
    REQUIRE(answer.written == (fits ? expected.length : 0));
    REQUIRE(!fits || memcmp(lent_by(lent), expected.text, expected.length) == 0);
    REQUIRE(untouched_from(lent, answer.written));
}
