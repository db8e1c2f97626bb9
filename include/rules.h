/* A proved analyser of rule files: the three public calls, for C and C++.
 *
 * Link with libexports.a (`make library` writes target/staticlib/libexports.a, for x86-64 Linux). The library
 * allocates nothing, keeps nothing between calls, and calls no foreign function but memcpy and memset. It may be used by
 * several threads at once, each with buffers of its own.
 *
 * Stack. Give each call 256 kB of stack. How much a call needs was measured, 205 kB at most, and is not proved. On a
 * stack that is too small a call faults: the program dies, and no number is handed back. That takes a page without
 * access below the stack, as systems put below the main thread's and, by default, below a POSIX thread's; without one,
 * what lies below the stack is overwritten.
 *
 * Slices. A pair `x, x_len` is a slice: x_len elements that start at x. x must not be null, also where x_len is 0, must
 * be aligned for its type, and x_len counts elements, not bytes. `file` and, in rules_check, `sheet` are read and never
 * written. No buffer may overlap another buffer, the file, the sheet that is checked, or one of the numbers that the
 * results are put into; nor may two of these numbers be the same. `file` and `sheet` may overlap each other.
 *
 * Answers. Each call hands back a number (enum rules_number), and puts its place into *place; every count is 0 with a
 * refusal.
 *
 *   number  place            given when                                                       buffers after
 *   0       0                accepted                                                         filled
 *   1       0                the file has more than 32,768 bytes                              untouched
 *   2       field            under 3 bytes are left, or the length passes the end             untouched
 *   3       field            the tag is not 1 to 6, or below the one before                   untouched
 *   4       field            the content is not as laid out                                   untouched
 *   5       field            the name is already used in its kind                             untouched
 *   6       field            one more than the most of its kind                               untouched
 *   7       field count      no symbol of arity 0                                             untouched
 *   8       field count      more than 16 states exist                                        untouched
 *   9       0                a buffer other than the sheet written is shorter than needed     untouched
 *   10      sheet field      cut, tag not 16 or 17, 16 after 17, wrong length, no predicate   needed marks zero
 *   11      position         first place where the sheet's states and the file's differ       needed marks zero
 *   12      sheet field      a state number not below m, or an atom for the second time       needed marks zero
 *   13      clause           lowest clause with its body in the sheet and its head not        needed marks zero
 *   14      0                the buffer for the written sheet is too short                    sheet untouched, the others filled
 *
 * Needed lengths, for m states: m states; for each symbol m to its arity table cells; for each predicate m to its arity
 * marks; one verdict for each query; 5m and, for each atom of the model, 4 and its arity bytes of a sheet. These are
 * always enough: RULES_MAX_STATES, RULES_MAX_TABLES, RULES_MAX_MARKS, RULES_MAX_VERDICTS, RULES_MAX_SHEET. Elements past
 * the needed ones keep their values.
 */
#ifndef RULES_H
#define RULES_H

#include <stddef.h>
#include <stdint.h>

/* The largest sizes, in elements. */
#define RULES_MAX_STATES 16
#define RULES_MAX_TABLES (24 * 16 * 16)              /* 6,144: 24 symbols of arity 2 */
#define RULES_MAX_MARKS (16 * 16 * 16 * 16)          /* 65,536: 16 predicates of arity 3 */
#define RULES_MAX_VERDICTS 32
#define RULES_MAX_SHEET (5 * RULES_MAX_STATES + 7 * RULES_MAX_MARKS) /* 458,832: 5 bytes a state, 7 an atom of arity 3 */

/* The numbers that the calls hand back; the table above says when. rules_analyse hands back 0 to 9, rules_write these
 * and 14, rules_check 0 to 13. */
enum rules_number {
    RULES_ACCEPTED = 0,
    RULES_FILE_TOO_LONG = 1,
    RULES_FIELD_CUT = 2,
    RULES_WRONG_TAG = 3,
    RULES_MALFORMED = 4,
    RULES_NAME_TAKEN = 5,
    RULES_TOO_MANY = 6,
    RULES_NO_CONSTANT = 7,
    RULES_TOO_MANY_STATES = 8,
    RULES_BUFFER_TOO_SHORT = 9,
    RULES_SHEET_MISPLACED = 10,
    RULES_SHEET_STATES_DIFFER = 11,
    RULES_SHEET_WRONG_ATOM = 12,
    RULES_SHEET_NOT_CLOSED = 13,
    RULES_SHEET_BUFFER_TOO_SHORT = 14
};

/* The verdict bytes. CLEAR: no ground instance of the query that meets the query's conditions is derivable, at any
 * height of its terms. OPEN: some states that meet the conditions put the query's atom in the model; this does not claim
 * that an instance is derivable. */
enum rules_verdict {
    RULES_CLEAR = 0,
    RULES_OPEN = 1
};

#ifdef __cplusplus
extern "C" {
#endif

/* Analyses a rule file. With 0: the states in rising order, bit t of each for type t; the table cells, symbol after
 * symbol; the marks, predicate after predicate, 1 for an atom of the model and 0 for any other; the verdicts, RULES_OPEN
 * or RULES_CLEAR; and the counts of states, of the model's atoms and of rounds. */
size_t rules_analyse(const uint8_t *file, size_t file_len,
                     uint16_t *states, size_t states_len,
                     uint8_t *tables, size_t tables_len,
                     uint8_t *marks, size_t marks_len,
                     uint8_t *verdicts, size_t verdicts_len,
                     size_t *place, size_t *state_count,
                     size_t *atom_count, size_t *round_count);

/* The same, and with 0 the file's sheet, of *byte_count bytes. With 14 the other buffers are filled as for 0. */
size_t rules_write(const uint8_t *file, size_t file_len,
                   uint16_t *states, size_t states_len,
                   uint8_t *tables, size_t tables_len,
                   uint8_t *marks, size_t marks_len,
                   uint8_t *verdicts, size_t verdicts_len,
                   uint8_t *sheet, size_t sheet_len,
                   size_t *place, size_t *state_count,
                   size_t *atom_count, size_t *round_count,
                   size_t *byte_count);

/* Checks a sheet for a rule file, whoever wrote it. With 0 and 10 to 13 the needed table cells hold the file's tables,
 * and the needed marks are zero. */
size_t rules_check(const uint8_t *file, size_t file_len,
                   const uint8_t *sheet, size_t sheet_len,
                   uint8_t *tables, size_t tables_len,
                   uint8_t *marks, size_t marks_len,
                   size_t *place);

#ifdef __cplusplus
}
#endif

#endif
