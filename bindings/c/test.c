/* Plays rule set E of the specification, its sheet and some refusals through the three calls. One row is one call: what
 * is handed in, and what must come back. The expected values are worked out by hand from the specification. */
#include "rules.h"

#include <stdio.h>
#include <string.h>

/* The prototypes once more: the compiler refuses a header that has others. */
size_t rules_analyse(const uint8_t *, size_t, uint16_t *, size_t, uint8_t *, size_t, uint8_t *, size_t, uint8_t *, size_t,
                     size_t *, size_t *, size_t *, size_t *);
size_t rules_write(const uint8_t *, size_t, uint16_t *, size_t, uint8_t *, size_t, uint8_t *, size_t, uint8_t *, size_t,
                   uint8_t *, size_t, size_t *, size_t *, size_t *, size_t *, size_t *);
size_t rules_check(const uint8_t *, size_t, const uint8_t *, size_t, uint8_t *, size_t, uint8_t *, size_t, size_t *);

enum call { ANALYSE, WRITE, CHECK };

struct bytes { const uint8_t *at; size_t len; };
#define ALL(array) { array, sizeof array }
#define PART(array, len) { array, len }

/* Rule files. */

#define E_START /* z/0, s/1; even, odd; even to z, even to s(odd), odd to s(even); p/1; p(z); p(s(s(X))) if p(X) */ \
    0x01, 0, 2, 0x00, 0x7A,  0x01, 0, 2, 0x01, 0x73,  0x02, 0, 4, 0x65, 0x76, 0x65, 0x6E,  0x02, 0, 3, 0x6F, 0x64, 0x64, \
    0x03, 0, 2, 0x00, 0x00,  0x03, 0, 3, 0x00, 0x01, 0x01,  0x03, 0, 3, 0x01, 0x01, 0x00,  0x04, 0, 2, 0x01, 0x70, \
    0x05, 0, 4, 0x00, 0x00, 0x00, 0x00,  0x05, 0, 8, 0x01, 0x01, 0x00, 0x01, 0x01, 0x80, 0x00, 0x80
#define E_QUERIES /* p(X), X not even; p(X), X not odd */ \
    0x06, 0, 4, 0x01, 0x80, 0x00, 0x80,  0x06, 0, 4, 0x01, 0x81, 0x00, 0x80

static const uint8_t e[] = { E_START, E_QUERIES };
/* E with a third clause, p(s(z)): two atoms in one round, so that no two counts can be mistaken for each other. */
static const uint8_t e_more[] = { E_START, 0x05, 0, 5, 0x00, 0x00, 0x00, 0x01, 0x00, E_QUERIES };
static const uint8_t cut_file[] = { 0x01, 0, 2 };
static const uint8_t wrong_tag[] = { 0x07, 0, 0 };
static const uint8_t arity_3[] = { 0x01, 0, 2, 0x03, 0x7A };
static const uint8_t z_twice[] = { 0x01, 0, 2, 0x00, 0x7A, 0x01, 0, 2, 0x01, 0x7A };
static const uint8_t too_long[32769];

/* Sheets. */

#define STATES 0x10, 0, 2, 0, 1, 0x10, 0, 2, 0, 2
#define P0 0x11, 0, 2, 0, 0
#define P1 0x11, 0, 2, 0, 1

static const uint8_t sheet_e[] = { STATES, P0 };
static const uint8_t sheet_g[] = { STATES, P0, P1 };
static const uint8_t only_p1[] = { STATES, P1 };
static const uint8_t one_state[] = { 0x10, 0, 2, 0, 1, P0 };
static const uint8_t wrong_state[] = { 0x10, 0, 2, 0, 1, 0x10, 0, 2, 0, 3, P0 };
static const uint8_t extra_state[] = { STATES, 0x10, 0, 2, 0, 3, P0 };
static const uint8_t p0_twice[] = { STATES, P0, P0 };
static const uint8_t state_2[] = { STATES, 0x11, 0, 2, 0, 2 };
static const uint8_t predicate_1[] = { STATES, 0x11, 0, 2, 1, 0 };
static const uint8_t state_last[] = { STATES, P0, 0x10, 0, 2, 0, 3 };

/* What the buffers hold afterwards: so many elements from their start; all others keep the filling. */
struct contents {
    size_t states_len, tables_len, marks_len, verdicts_len, sheet_len;
    uint16_t states[2];
    uint8_t tables[3], marks[2], verdicts[2], sheet[15];
};

#define E_TABLES { 0, 1, 0 } /* z is of state 0; s maps 0 to 1, 1 to 0 */
static const struct contents untouched = { 0, 0, 0, 0, 0, { 0 }, { 0 }, { 0 }, { 0 }, { 0 } };
static const struct contents filled = { 2, 3, 2, 2, 0, { 1, 2 }, E_TABLES, { 1, 0 }, { 0, 1 }, { 0 } };
static const struct contents filled_more = { 2, 3, 2, 2, 0, { 1, 2 }, E_TABLES, { 1, 1 }, { 1, 1 }, { 0 } };
static const struct contents written = { 2, 3, 2, 2, 15, { 1, 2 }, E_TABLES, { 1, 0 }, { 0, 1 }, { STATES, P0 } };
static const struct contents checked = { 0, 3, 2, 0, 0, { 0 }, E_TABLES, { 0, 0 }, { 0 }, { 0 } };

/* Number, place and counts. U: the call does not hand this count back. */
#define U SIZE_MAX
struct answer { size_t number, place, states, atoms, rounds, bytes; };

struct lengths { size_t states, tables, marks, verdicts, sheet; };

struct row {
    const char *name;
    enum call call;
    struct bytes file, sheet; /* the sheet that is checked */
    struct lengths lent;
    struct answer answer;
    const struct contents *after;
};

#define NONE PART(e, 0)

static const struct row rows[] = {
    { "analyse, exact", ANALYSE, ALL(e), NONE, { 2, 3, 2, 2, 0 }, { 0, 0, 2, 1, 1, U }, &filled },
    { "analyse, longer", ANALYSE, ALL(e), NONE, { 5, 7, 4, 6, 0 }, { 0, 0, 2, 1, 1, U }, &filled },
    { "analyse, two atoms", ANALYSE, ALL(e_more), NONE, { 2, 3, 2, 2, 0 }, { 0, 0, 2, 2, 1, U }, &filled_more },
    { "analyse, states short", ANALYSE, ALL(e), NONE, { 1, 3, 2, 2, 0 }, { 9, 0, 0, 0, 0, U }, &untouched },
    { "analyse, tables short", ANALYSE, ALL(e), NONE, { 2, 2, 2, 2, 0 }, { 9, 0, 0, 0, 0, U }, &untouched },
    { "analyse, marks short", ANALYSE, ALL(e), NONE, { 2, 3, 1, 2, 0 }, { 9, 0, 0, 0, 0, U }, &untouched },
    { "analyse, verdicts short", ANALYSE, ALL(e), NONE, { 2, 3, 2, 1, 0 }, { 9, 0, 0, 0, 0, U }, &untouched },
    { "analyse, file too long", ANALYSE, ALL(too_long), NONE, { 5, 7, 4, 6, 0 }, { 1, 0, 0, 0, 0, U }, &untouched },
    { "analyse, cut field", ANALYSE, ALL(cut_file), NONE, { 5, 7, 4, 6, 0 }, { 2, 0, 0, 0, 0, U }, &untouched },
    { "analyse, cut last field", ANALYSE, PART(e, sizeof e - 1), NONE, { 5, 7, 4, 6, 0 }, { 2, 11, 0, 0, 0, U }, &untouched },
    { "analyse, wrong tag", ANALYSE, ALL(wrong_tag), NONE, { 5, 7, 4, 6, 0 }, { 3, 0, 0, 0, 0, U }, &untouched },
    { "analyse, symbol of arity 3", ANALYSE, ALL(arity_3), NONE, { 5, 7, 4, 6, 0 }, { 4, 0, 0, 0, 0, U }, &untouched },
    { "analyse, name twice", ANALYSE, ALL(z_twice), NONE, { 5, 7, 4, 6, 0 }, { 5, 1, 0, 0, 0, U }, &untouched },
    { "analyse, empty file", ANALYSE, NONE, NONE, { 5, 7, 4, 6, 0 }, { 7, 0, 0, 0, 0, U }, &untouched },
    { "analyse, 7 before 9", ANALYSE, NONE, NONE, { 0, 0, 0, 0, 0 }, { 7, 0, 0, 0, 0, U }, &untouched },

    { "write, exact", WRITE, ALL(e), NONE, { 2, 3, 2, 2, 15 }, { 0, 0, 2, 1, 1, 15 }, &written },
    { "write, longer", WRITE, ALL(e), NONE, { 5, 7, 4, 6, 20 }, { 0, 0, 2, 1, 1, 15 }, &written },
    { "write, states short", WRITE, ALL(e), NONE, { 1, 3, 2, 2, 15 }, { 9, 0, 0, 0, 0, 0 }, &untouched },
    { "write, tables short", WRITE, ALL(e), NONE, { 2, 2, 2, 2, 15 }, { 9, 0, 0, 0, 0, 0 }, &untouched },
    { "write, marks short", WRITE, ALL(e), NONE, { 2, 3, 1, 2, 15 }, { 9, 0, 0, 0, 0, 0 }, &untouched },
    { "write, verdicts short", WRITE, ALL(e), NONE, { 2, 3, 2, 1, 15 }, { 9, 0, 0, 0, 0, 0 }, &untouched },
    { "write, sheet short", WRITE, ALL(e), NONE, { 2, 3, 2, 2, 14 }, { 14, 0, 0, 0, 0, 0 }, &filled },
    { "write, no sheet", WRITE, ALL(e), NONE, { 5, 7, 4, 6, 0 }, { 14, 0, 0, 0, 0, 0 }, &filled },
    { "write, 9 before 14", WRITE, ALL(e), NONE, { 2, 3, 2, 1, 14 }, { 9, 0, 0, 0, 0, 0 }, &untouched },
    { "write, empty file", WRITE, NONE, NONE, { 5, 7, 4, 6, 20 }, { 7, 0, 0, 0, 0, 0 }, &untouched },
    { "write, cut field", WRITE, ALL(cut_file), NONE, { 5, 7, 4, 6, 20 }, { 2, 0, 0, 0, 0, 0 }, &untouched },

    { "check F, exact", CHECK, ALL(e), ALL(sheet_e), { 0, 3, 2, 0, 0 }, { 0, 0, U, U, U, U }, &checked },
    { "check F, longer", CHECK, ALL(e), ALL(sheet_e), { 0, 7, 4, 0, 0 }, { 0, 0, U, U, U, U }, &checked },
    { "check F, tables short", CHECK, ALL(e), ALL(sheet_e), { 0, 2, 2, 0, 0 }, { 9, 0, U, U, U, U }, &untouched },
    { "check F, marks short", CHECK, ALL(e), ALL(sheet_e), { 0, 3, 1, 0, 0 }, { 9, 0, U, U, U, U }, &untouched },
    { "check G", CHECK, ALL(e), ALL(sheet_g), { 0, 3, 2, 0, 0 }, { 0, 0, U, U, U, U }, &checked },
    { "check H", CHECK, ALL(e), PART(sheet_e, 10), { 0, 3, 2, 0, 0 }, { 13, 0, U, U, U, U }, &checked },
    { "check, p(1) alone", CHECK, ALL(e), ALL(only_p1), { 0, 7, 4, 0, 0 }, { 13, 0, U, U, U, U }, &checked },
    { "check, clause 2", CHECK, ALL(e_more), ALL(sheet_e), { 0, 3, 2, 0, 0 }, { 13, 2, U, U, U, U }, &checked },
    { "check, cut sheet", CHECK, ALL(e), PART(sheet_e, 14), { 0, 3, 2, 0, 0 }, { 10, 2, U, U, U, U }, &checked },
    { "check, 9 before 10", CHECK, ALL(e), PART(sheet_e, 14), { 0, 3, 1, 0, 0 }, { 9, 0, U, U, U, U }, &untouched },
    { "check, predicate 1", CHECK, ALL(e), ALL(predicate_1), { 0, 3, 2, 0, 0 }, { 10, 2, U, U, U, U }, &checked },
    { "check, state after atom", CHECK, ALL(e), ALL(state_last), { 0, 3, 2, 0, 0 }, { 10, 3, U, U, U, U }, &checked },
    { "check, empty sheet", CHECK, ALL(e), NONE, { 0, 3, 2, 0, 0 }, { 11, 0, U, U, U, U }, &checked },
    { "check, missing state", CHECK, ALL(e), ALL(one_state), { 0, 3, 2, 0, 0 }, { 11, 1, U, U, U, U }, &checked },
    { "check, wrong state", CHECK, ALL(e), ALL(wrong_state), { 0, 7, 4, 0, 0 }, { 11, 1, U, U, U, U }, &checked },
    { "check, extra state", CHECK, ALL(e), ALL(extra_state), { 0, 3, 2, 0, 0 }, { 11, 2, U, U, U, U }, &checked },
    { "check, atom twice", CHECK, ALL(e), ALL(p0_twice), { 0, 7, 4, 0, 0 }, { 12, 3, U, U, U, U }, &checked },
    { "check, state 2 of 2", CHECK, ALL(e), ALL(state_2), { 0, 3, 2, 0, 0 }, { 12, 2, U, U, U, U }, &checked },
    { "check, empty file", CHECK, NONE, ALL(sheet_e), { 0, 7, 4, 0, 0 }, { 7, 0, U, U, U, U }, &untouched },
    { "check, cut field", CHECK, ALL(cut_file), ALL(sheet_e), { 0, 7, 4, 0, 0 }, { 2, 0, U, U, U, U }, &untouched },
};

/* Each buffer starts at GUARD; what is before it and behind its length must stay as it was filled. */
enum { GUARD = 8, SIZE = GUARD + 20 + GUARD, FILLING = 0xA5 };

struct buffers {
    uint16_t states[SIZE];
    uint8_t tables[SIZE], marks[SIZE], verdicts[SIZE], sheet[SIZE];
};

static struct answer play(const struct row *row, struct buffers *b)
{
    struct answer a = { U, U, U, U, U, U };
    const struct lengths *n = &row->lent;
    switch (row->call) {
    case ANALYSE:
        a.number = rules_analyse(row->file.at, row->file.len, b->states + GUARD, n->states, b->tables + GUARD, n->tables,
                                 b->marks + GUARD, n->marks, b->verdicts + GUARD, n->verdicts,
                                 &a.place, &a.states, &a.atoms, &a.rounds);
        break;
    case WRITE:
        a.number = rules_write(row->file.at, row->file.len, b->states + GUARD, n->states, b->tables + GUARD, n->tables,
                               b->marks + GUARD, n->marks, b->verdicts + GUARD, n->verdicts, b->sheet + GUARD, n->sheet,
                               &a.place, &a.states, &a.atoms, &a.rounds, &a.bytes);
        break;
    case CHECK:
        a.number = rules_check(row->file.at, row->file.len, row->sheet.at, row->sheet.len, b->tables + GUARD, n->tables,
                               b->marks + GUARD, n->marks, &a.place);
        break;
    }
    return a;
}

static void expect(const struct contents *c, struct buffers *b)
{
    memset(b, FILLING, sizeof *b);
    memcpy(b->states + GUARD, c->states, c->states_len * sizeof c->states[0]);
    memcpy(b->tables + GUARD, c->tables, c->tables_len);
    memcpy(b->marks + GUARD, c->marks, c->marks_len);
    memcpy(b->verdicts + GUARD, c->verdicts, c->verdicts_len);
    memcpy(b->sheet + GUARD, c->sheet, c->sheet_len);
}

/* Each of these prints a difference, and hands back how many there are. */

static int differs(const struct row *row, const char *what, size_t expected, size_t found)
{
    if (expected == found)
        return 0;
    printf("%s: %s: expected %zu, found %zu\n", row->name, what, expected, found);
    return 1;
}

static int differ(const struct row *row, const char *what, const void *expected, const void *found, size_t element)
{
    const uint8_t *x = expected, *y = found;
    int count = 0;
    for (size_t i = 0; i < SIZE * element; i++) {
        if (x[i] == y[i])
            continue;
        printf("%s: %s, byte %ld: expected %02x, found %02x\n", row->name, what, (long)i - (long)(GUARD * element), x[i], y[i]);
        count++;
    }
    return count;
}

static int differences(const struct row *row)
{
    struct buffers expected, found;
    struct answer x = row->answer, y;
    expect(row->after, &expected);
    memset(&found, FILLING, sizeof found);
    y = play(row, &found);
    return differs(row, "number", x.number, y.number)
        + differs(row, "place", x.place, y.place)
        + differs(row, "count of states", x.states, y.states)
        + differs(row, "count of atoms", x.atoms, y.atoms)
        + differs(row, "count of rounds", x.rounds, y.rounds)
        + differs(row, "count of bytes", x.bytes, y.bytes)
        + differ(row, "states", expected.states, found.states, sizeof expected.states[0])
        + differ(row, "tables", expected.tables, found.tables, 1)
        + differ(row, "marks", expected.marks, found.marks, 1)
        + differ(row, "verdicts", expected.verdicts, found.verdicts, 1)
        + differ(row, "sheet", expected.sheet, found.sheet, 1);
}

/* The header's names, against the specification's numbers. */
static int names_differ(void)
{
    static const int names[] = {
        RULES_ACCEPTED, RULES_FILE_TOO_LONG, RULES_FIELD_CUT, RULES_WRONG_TAG, RULES_MALFORMED, RULES_NAME_TAKEN,
        RULES_TOO_MANY, RULES_NO_CONSTANT, RULES_TOO_MANY_STATES, RULES_BUFFER_TOO_SHORT, RULES_SHEET_MISPLACED,
        RULES_SHEET_STATES_DIFFER, RULES_SHEET_WRONG_ATOM, RULES_SHEET_NOT_CLOSED, RULES_SHEET_BUFFER_TOO_SHORT,
    };
    static const struct row row = { .name = "names" };
    int count = differs(&row, "CLEAR", 0, RULES_CLEAR) + differs(&row, "OPEN", 1, RULES_OPEN)
        + differs(&row, "RULES_MAX_STATES", 16, RULES_MAX_STATES)
        + differs(&row, "RULES_MAX_TABLES", 6144, RULES_MAX_TABLES)
        + differs(&row, "RULES_MAX_MARKS", 65536, RULES_MAX_MARKS)
        + differs(&row, "RULES_MAX_VERDICTS", 32, RULES_MAX_VERDICTS)
        + differs(&row, "RULES_MAX_SHEET", 458832, RULES_MAX_SHEET);
    for (size_t i = 0; i < sizeof names / sizeof names[0]; i++)
        count += differs(&row, "number", i, (size_t)names[i]);
    return count;
}

int main(void)
{
    size_t passed = 0, failed = 0;
    if (names_differ()) failed++; else passed++;
    for (size_t i = 0; i < sizeof rows / sizeof rows[0]; i++)
        if (differences(&rows[i])) failed++; else passed++;
    printf("%zu passed, %zu failed\n", passed, failed);
    return passed != 0 && failed == 0 ? 0 : 1;
}
