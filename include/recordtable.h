/* The table of a C header: sizes of its types, places of its members, values of its enums.
 *
 * Link crates/recordtable_c/out/librecordtable_c.a, which `rt lib` in crates/recordtable_c builds (x86-64 Linux).
 *
 * Every function takes slices as a pointer and a count of elements. What a caller must see to:
 *   - each pointer is not null, also where the count is 0, is aligned for its element, and that many elements can be read there and, but for
 *     the text's, written;
 *   - no two of the slices overlap;
 *   - the calling thread has RECORDTABLE_STACK bytes of stack left.
 * All else is answered: any bytes as text, any model, any count. Nothing is kept between calls, so calls on different slices may run at once.
 *
 * Slices that are longer than the lengths below are fine; shorter ones are refusal 1. What stood in `words`, `wides` and `signeds` does not
 * matter, but for the two functions named .._in_zeros: after a call each of their elements is a number of the table, or 0, and after a refusal all are 0.
 */
#ifndef RECORDTABLE_H
#define RECORDTABLE_H

#include <stddef.h>
#include <stdint.h>

#ifdef __cplusplus
extern "C" {
#endif

/* Data models. */
#define RECORDTABLE_LP64 0u
#define RECORDTABLE_ILP32 1u
#define RECORDTABLE_LLP64 2u

/* Limits. */
#define RECORDTABLE_MAX_TEXT 32768u /* bytes */
#define RECORDTABLE_MAX_ROWS 1024u
#define RECORDTABLE_MAX_MEMBERS 4096u
#define RECORDTABLE_MAX_VALUES 4096u
#define RECORDTABLE_MAX_PARAMETERS 4096u
#define RECORDTABLE_MAX_DECLARATIONS 1024u
#define RECORDTABLE_MAX_NAMES 16384u

/* Lengths of the lent slices, in elements. */
#define RECORDTABLE_WORDS 78848u  /* uint32_t */
#define RECORDTABLE_WIDES 9216u   /* uint64_t */
#define RECORDTABLE_SIGNEDS 4096u /* int64_t */
#define RECORDTABLE_ANSWER 6u     /* uint64_t */

/* Stack that a call may use, in bytes; the most found, on nested parameter lists, was some 1,864,000. With less, the process ends at the guard page. */
#define RECORDTABLE_STACK 2097152u

/* The answer of an accepted text: how many there are. */
#define RECORDTABLE_ACCEPTED 0u
#define RECORDTABLE_COUNT_ROWS 0 /* answer[0]: type rows, row 0 (void) counted */
#define RECORDTABLE_COUNT_MEMBERS 1 /* answer[1]: member entries */
#define RECORDTABLE_COUNT_VALUES 2 /* answer[2]: enumerators */
#define RECORDTABLE_COUNT_PARAMETERS 3 /* answer[3]: parameter entries */
#define RECORDTABLE_COUNT_DECLARATIONS 4 /* answer[4] */
#define RECORDTABLE_COUNT_NAMES 5 /* answer[5]: spellings */

/* The answer of a refused text: where. answer[3] to answer[5] are 0. */
#define RECORDTABLE_OFFSET 0 /* answer[0]: bytes before the place, from 0 */
#define RECORDTABLE_LINE 1   /* answer[1]: from 1 */
#define RECORDTABLE_COLUMN 2 /* answer[2]: from 1 */

/* `words`: where each kind of entry begins, and how many numbers an entry has. Entry i stands at FROM + i * EACH. */
#define RECORDTABLE_ROWS_FROM 0u /* kind, target row, flags, name, first entry, count of entries */
#define RECORDTABLE_ROWS_EACH 6u
#define RECORDTABLE_MEMBERS_FROM 6144u /* row or 0, type row, name, width (0 for a plain member, else 1 + width) */
#define RECORDTABLE_MEMBERS_EACH 4u
#define RECORDTABLE_VALUES_FROM 22528u /* row or 0, name */
#define RECORDTABLE_VALUES_EACH 2u
#define RECORDTABLE_PARAMETERS_FROM 30720u /* row or 0, type row, name */
#define RECORDTABLE_PARAMETERS_EACH 3u
#define RECORDTABLE_DECLARATIONS_FROM 43008u /* storage, type row, name */
#define RECORDTABLE_DECLARATIONS_EACH 3u
#define RECORDTABLE_NAMES_FROM 46080u /* offset in the text, length; sorted by offset, each spelling once */
#define RECORDTABLE_NAMES_EACH 2u

/* `wides`: a number for each row, two for each member. */
#define RECORDTABLE_ROW_WIDES_FROM 0u /* bytes (int, float, enum; struct and union with a body), or bound (array) */
#define RECORDTABLE_ROW_WIDES_EACH 1u
#define RECORDTABLE_MEMBER_WIDES_FROM 1024u /* byte offset, first bit */
#define RECORDTABLE_MEMBER_WIDES_EACH 2u

/* `signeds`: the value of each enumerator. */

/* A name in an entry is 65,536 times its length plus its offset in the text, or 0 for none. */
#define RECORDTABLE_NAME_OFFSET(name) ((name) % 65536u)
#define RECORDTABLE_NAME_LENGTH(name) ((name) / 65536u)

/* Kinds of rows. The entries of a struct, union, enum or function are, from its first entry on, the first so many that carry its row. */
#define RECORDTABLE_VOID 0u
#define RECORDTABLE_INT 1u       /* flag 1: signed */
#define RECORDTABLE_FLOAT 2u
#define RECORDTABLE_BOOL 3u
#define RECORDTABLE_POINTER 4u   /* target row */
#define RECORDTABLE_ARRAY 5u     /* target row: the element's; flag 1: it has a bound */
#define RECORDTABLE_STRUCT 6u    /* flag 1: it has a body; members */
#define RECORDTABLE_UNION 7u     /* flag 1: it has a body; members */
#define RECORDTABLE_ENUM 8u      /* values */
#define RECORDTABLE_FUNCTION 9u  /* flag 1: it returns the target row; flag 2: it takes `...`; parameters */
#define RECORDTABLE_TYPEDEF 10u  /* target row */
#define RECORDTABLE_QUALIFIED 11u /* target row; flag 1: const; 2: volatile; 4: restrict */

/* Storage of a declaration. */
#define RECORDTABLE_NO_STORAGE 0u
#define RECORDTABLE_TYPEDEF_STORAGE 1u
#define RECORDTABLE_EXTERN_STORAGE 2u
#define RECORDTABLE_STATIC_STORAGE 3u
#define RECORDTABLE_AUTO_STORAGE 4u

/* Reads a whole header into the three lent slices. Returns 0 where it is accepted, else the refusal's number, 1 to 27 (docs/REFUSALS.md).
 * The numbers beside it are written into `answer`; where that has fewer than RECORDTABLE_ANSWER elements, those that fit. */
uint32_t recordtable_unit(const uint8_t *text, size_t text_length, uint32_t model,
                          uint32_t *words, size_t words_length, uint64_t *wides, size_t wides_length,
                          int64_t *signeds, size_t signeds_length, uint64_t *answer, size_t answer_length);

/* The same of a single declaration. */
uint32_t recordtable_declaration(const uint8_t *text, size_t text_length, uint32_t model,
                                 uint32_t *words, size_t words_length, uint64_t *wides, size_t wides_length,
                                 int64_t *signeds, size_t signeds_length, uint64_t *answer, size_t answer_length);

/* The same two for slices that hold zeros, as calloc gives them and as a refusal leaves them: they are not cleared first, which for a short text
 * takes longer than reading it. Besides what is said above, a caller must see to it that every element of `words`, `wides` and `signeds` is 0.
 * After a table was read it is enough to clear its entries: of each kind, from FROM on, so many times EACH as the answer counts. */
uint32_t recordtable_unit_in_zeros(const uint8_t *text, size_t text_length, uint32_t model,
                                   uint32_t *words, size_t words_length, uint64_t *wides, size_t wides_length,
                                   int64_t *signeds, size_t signeds_length, uint64_t *answer, size_t answer_length);

uint32_t recordtable_declaration_in_zeros(const uint8_t *text, size_t text_length, uint32_t model,
                                          uint32_t *words, size_t words_length, uint64_t *wides, size_t wides_length,
                                          int64_t *signeds, size_t signeds_length, uint64_t *answer, size_t answer_length);

/* Reads a whole header as recordtable_unit does, and writes its listing, or the line of its refusal, into `out`. Returns the length of it,
 * which may be more than out_length: then out holds as much of its beginning as fits. No 0 byte is written after it. */
size_t recordtable_unit_report(const uint8_t *text, size_t text_length, uint32_t model,
                               uint32_t *words, size_t words_length, uint64_t *wides, size_t wides_length,
                               int64_t *signeds, size_t signeds_length, uint8_t *out, size_t out_length);

/* The same of a single declaration. */
size_t recordtable_declaration_report(const uint8_t *text, size_t text_length, uint32_t model,
                                      uint32_t *words, size_t words_length, uint64_t *wides, size_t wides_length,
                                      int64_t *signeds, size_t signeds_length, uint8_t *out, size_t out_length);

#ifdef __cplusplus
}
#endif

#endif
