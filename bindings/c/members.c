/* Prints the members of every struct and union of the header on standard input: where each begins, and its name. */
#include <stdio.h>
#include <stdlib.h>

#include "recordtable.h"

static uint8_t text[RECORDTABLE_MAX_TEXT + 1];
static uint32_t words[RECORDTABLE_WORDS];
static uint64_t wides[RECORDTABLE_WIDES];
static int64_t signeds[RECORDTABLE_SIGNEDS];

int main(void)
{
    uint64_t answer[RECORDTABLE_ANSWER];
    size_t length = fread(text, 1, sizeof text, stdin);
    uint32_t refusal = recordtable_unit(text, length, RECORDTABLE_LP64, words, RECORDTABLE_WORDS, wides, RECORDTABLE_WIDES,
                                        signeds, RECORDTABLE_SIGNEDS, answer, RECORDTABLE_ANSWER);
    if (refusal != RECORDTABLE_ACCEPTED) {
        fprintf(stderr, "refusal %u at line %llu, column %llu\n", (unsigned)refusal,
                (unsigned long long)answer[RECORDTABLE_LINE], (unsigned long long)answer[RECORDTABLE_COLUMN]);
        return EXIT_FAILURE;
    }
    for (uint64_t i = 0; i < answer[RECORDTABLE_COUNT_MEMBERS]; i++) {
        const uint32_t *member = words + RECORDTABLE_MEMBERS_FROM + i * RECORDTABLE_MEMBERS_EACH;
        const uint64_t *place = wides + RECORDTABLE_MEMBER_WIDES_FROM + i * RECORDTABLE_MEMBER_WIDES_EACH;
        uint32_t name = member[2];
        printf("row %u: byte %llu: %.*s\n", (unsigned)member[0], (unsigned long long)place[0],
               (int)RECORDTABLE_NAME_LENGTH(name), (const char *)text + RECORDTABLE_NAME_OFFSET(name));
    }
    return EXIT_SUCCESS;
}
