/* Prints how much stack the calls take: each is made on a thread whose stack was filled with a pattern, and the lowest
 * byte that has another value afterwards tells how far down the call went. The files are those of the command line, and
 * one made here whose terms are nested as deep as a content allows. */
#define _POSIX_C_SOURCE 200809L
#include "rules.h"

#include <pthread.h>
#include <stdio.h>
#include <stdlib.h>
#include <string.h>

enum { STACK = 4 * 1024 * 1024, FILE_MAX = 32768, PATTERN = 0x5A };

static uint8_t file[FILE_MAX];
static size_t file_len;
static uint16_t states[RULES_MAX_STATES];
static uint8_t tables[RULES_MAX_TABLES], marks[RULES_MAX_MARKS], verdicts[RULES_MAX_VERDICTS], sheet[RULES_MAX_SHEET];
static size_t place, state_count, atom_count, round_count, byte_count;

static size_t number;   /* of the last call */
static uint8_t *top;    /* where the stack stood before it */

static void *analyse(void *none)
{
    uint8_t here = 0;
    top = &here;
    number = rules_analyse(file, file_len, states, RULES_MAX_STATES, tables, RULES_MAX_TABLES, marks, RULES_MAX_MARKS,
                           verdicts, RULES_MAX_VERDICTS, &place, &state_count, &atom_count, &round_count);
    return none;
}

static void *write_sheet(void *none)
{
    uint8_t here = 0;
    top = &here;
    number = rules_write(file, file_len, states, RULES_MAX_STATES, tables, RULES_MAX_TABLES, marks, RULES_MAX_MARKS,
                         verdicts, RULES_MAX_VERDICTS, sheet, RULES_MAX_SHEET, &place, &state_count, &atom_count,
                         &round_count, &byte_count);
    return none;
}

/* The sheet is the one that was written before. */
static void *check(void *none)
{
    uint8_t here = 0;
    top = &here;
    number = rules_check(file, file_len, sheet, byte_count, tables, RULES_MAX_TABLES, marks, RULES_MAX_MARKS, &place);
    return none;
}

static size_t depth(void *(*call)(void *))
{
    uint8_t *stack;
    pthread_attr_t attributes;
    pthread_t thread;
    size_t i = 0;
    if (posix_memalign((void **)&stack, 4096, STACK) != 0) {
        exit(2);
    }
    memset(stack, PATTERN, STACK);
    if (pthread_attr_init(&attributes) != 0 || pthread_attr_setstack(&attributes, stack, STACK) != 0
        || pthread_create(&thread, &attributes, call, NULL) != 0 || pthread_join(thread, NULL) != 0) {
        exit(2);
    }
    while (stack + i < top && stack[i] == PATTERN) {
        i++;
    }
    i = (size_t)(top - (stack + i));
    pthread_attr_destroy(&attributes);
    free(stack);
    return i;
}

/* z/0, s/1, p/1, the clause p(s(..s(z)..)) and the query p(s(..s(z)..)), each with a content of 250 bytes. */
static void make_deep(void)
{
    static const uint8_t start[] = { 1, 0, 2, 0, 'z', 1, 0, 2, 1, 's', 4, 0, 2, 1, 'p', 5, 0, 250, 0, 0, 0 };
    static const uint8_t query[] = { 6, 0, 250, 0, 0 };
    memcpy(file, start, sizeof start);
    file_len = sizeof start;
    memset(file + file_len, 1, 246);
    file_len += 246;
    file[file_len++] = 0;
    memcpy(file + file_len, query, sizeof query);
    file_len += sizeof query;
    memset(file + file_len, 1, 247);
    file_len += 247;
    file[file_len++] = 0;
}

static int read_file(const char *path)
{
    FILE *in = fopen(path, "rb");
    if (in == NULL) {
        return 0;
    }
    file_len = fread(file, 1, FILE_MAX, in);
    fclose(in);
    return 1;
}

static void measure(const char *name, size_t most[3])
{
    void *(*const calls[3])(void *) = { analyse, write_sheet, check };
    int i;
    printf("%-28s", name);
    for (i = 0; i < 3; i++) {
        size_t used = depth(calls[i]);
        most[i] = used > most[i] ? used : most[i];
        printf(" %9zu", used);
    }
    printf("   answer %zu\n", number);
}

int main(int argc, char **argv)
{
    size_t most[3] = { 0, 0, 0 };
    int i;
    printf("bytes of stack                 analyse     write     check\n");
    make_deep();
    measure("(terms nested deep)", most);
    for (i = 1; i < argc; i++) {
        if (!read_file(argv[i])) {
            fprintf(stderr, "%s can't be read\n", argv[i]);
            return 1;
        }
        measure(strrchr(argv[i], '/') == NULL ? argv[i] : strrchr(argv[i], '/') + 1, most);
    }
    printf("%-28s %9zu %9zu %9zu\n", "most", most[0], most[1], most[2]);
    return 0;
}
