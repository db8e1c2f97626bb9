/* Reads a rule file from the path given, or from standard input, and prints each query's number and verdict, or the
 * refusal's number and place. Then it writes the file's sheet and checks it. */
#include "rules.h"

#include <stdio.h>
#include <string.h>

/* One byte more than a file may have: a longer file is cut to this, and refused with 1 all the same. */
static uint8_t file[32768 + 1];

/* Buffers of the largest sizes: no call can answer 9 or 14. They are static, since half a megabyte is much for a stack. */
static uint16_t states[RULES_MAX_STATES];
static uint8_t tables[RULES_MAX_TABLES];
static uint8_t marks[RULES_MAX_MARKS];
static uint8_t verdicts[RULES_MAX_VERDICTS];
static uint8_t sheet[RULES_MAX_SHEET];

/* Neither CLEAR nor OPEN. Elements past the needed ones keep their values, so this marks where the verdicts end. */
enum { NO_VERDICT = 0xFF };

/* Reads at most sizeof file bytes. */
static int read_file(const char *path, size_t *length)
{
    FILE *in = path ? fopen(path, "rb") : stdin;
    int failed;
    if (!in)
        return 0;
    *length = fread(file, 1, sizeof file, in);
    failed = ferror(in);
    if (path)
        fclose(in);
    return !failed;
}

static int refused(size_t number, size_t place)
{
    printf("refused %zu at %zu\n", number, place);
    return 1;
}

static int analyse(size_t length)
{
    size_t place, state_count, atom_count, round_count;
    size_t number;

    memset(verdicts, NO_VERDICT, sizeof verdicts);
    number = rules_analyse(file, length, states, RULES_MAX_STATES, tables, RULES_MAX_TABLES, marks, RULES_MAX_MARKS,
                           verdicts, RULES_MAX_VERDICTS, &place, &state_count, &atom_count, &round_count);
    if (number != RULES_ACCEPTED)
        return refused(number, place);
    for (size_t i = 0; i < RULES_MAX_VERDICTS && verdicts[i] != NO_VERDICT; i++)
        printf("%zu %s\n", i, verdicts[i] == RULES_CLEAR ? "CLEAR" : "OPEN");
    return 0;
}

static int write_and_check(size_t length)
{
    size_t place, state_count, atom_count, round_count, byte_count;
    size_t number;

    number = rules_write(file, length, states, RULES_MAX_STATES, tables, RULES_MAX_TABLES, marks, RULES_MAX_MARKS,
                         verdicts, RULES_MAX_VERDICTS, sheet, RULES_MAX_SHEET,
                         &place, &state_count, &atom_count, &round_count, &byte_count);
    if (number != RULES_ACCEPTED)
        return refused(number, place);

    /* The check reads the sheet's first byte_count bytes. It needs no states and no verdicts. */
    number = rules_check(file, length, sheet, byte_count, tables, RULES_MAX_TABLES, marks, RULES_MAX_MARKS, &place);
    if (number != RULES_ACCEPTED)
        return refused(number, place);
    printf("sheet of %zu bytes passes\n", byte_count);
    return 0;
}

int main(int argc, char **argv)
{
    size_t length;
    if (argc > 2 || !read_file(argc == 2 ? argv[1] : NULL, &length)) {
        fprintf(stderr, "usage: example [FILE], a rule file that can be read\n");
        return 2;
    }
    if (analyse(length))
        return 1;
    return write_and_check(length);
}
