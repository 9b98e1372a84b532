/* Calls with texts of every length and byte, and slices of every wrong length that hold noise. Each is made twice: in blocks of exactly that
 * length, where valgrind sees a read or write outside, and between guard bytes, which are compared afterwards. */
#include <stdio.h>
#include <stdlib.h>
#include <string.h>

#include "recordtable.h"

#define NOISE 0xa5
#define GUARD 64

static const char *const texts[] = {
    "", "int a;", "struct T{char d;short m[6];};", "enum{A=1,B=-7/2};", "int f(int a,...);", "int @;", "/*", "\xc8", "foo a;",
};
static const size_t shorter[] = {0, 1};
static const size_t lengths[] = {0, 1, 32767, 32768, 32769, 10000000};

static int ok = 1;

static void expect(int holds, const char *what)
{
    if (!holds) {
        printf("WRONG: %s\n", what);
        ok = 0;
    }
}

/* Memory of some bytes with `guard` more on both sides, all noise. */
struct block {
    unsigned char *all;
    size_t guard, bytes;
};

static struct block block(size_t bytes, size_t guard)
{
    size_t size = bytes + 2 * guard;
    struct block b = {malloc(size > 0 ? size : 1), guard, bytes}; /* also an empty slice has a pointer that is not null */
    if (b.all == NULL) {
        abort();
    }
    memset(b.all, NOISE, size);
    return b;
}

static void *inner(struct block b)
{
    return b.all + b.guard;
}

static int all_are(const unsigned char *p, size_t bytes, unsigned char value)
{
    while (bytes > 0 && p[bytes - 1] == value) {
        bytes--;
    }
    return bytes == 0;
}

static int is_zero(struct block b)
{
    return all_are(inner(b), b.bytes, 0);
}

static void release(struct block b)
{
    expect(all_are(b.all, b.guard, NOISE) && all_are(b.all + b.guard + b.bytes, b.guard, NOISE), "a byte beside a slice was written");
    free(b.all);
}

/* The lengths of the lent slices. */
struct lengths {
    size_t words, wides, signeds, rest;
};

static const struct lengths full = {RECORDTABLE_WORDS, RECORDTABLE_WIDES, RECORDTABLE_SIGNEDS, RECORDTABLE_ANSWER};

static void call_between(const void *bytes, size_t length, uint32_t model, struct lengths n, size_t guard)
{
    struct block text = block(length, guard), words = block(n.words * 4, guard), wides = block(n.wides * 8, guard),
                 signeds = block(n.signeds * 8, guard), answer = block(n.rest * 8, guard), out = block(n.rest, guard);
    memcpy(inner(text), bytes, length);
    int enough = n.words >= full.words && n.wides >= full.wides && n.signeds >= full.signeds && model <= RECORDTABLE_LLP64;
    uint32_t unit = recordtable_unit(inner(text), length, model, inner(words), n.words, inner(wides), n.wides, inner(signeds), n.signeds,
                                     inner(answer), n.rest);
    expect((unit == 1) != enough, "refusal 1");
    expect(!enough || (unit == 2) == (length > RECORDTABLE_MAX_TEXT), "refusal 2");
    expect(unit == 0 || (is_zero(words) && is_zero(wides) && is_zero(signeds)), "a number was left after a refusal");
    recordtable_declaration(inner(text), length, model, inner(words), n.words, inner(wides), n.wides, inner(signeds), n.signeds, inner(answer),
                            n.rest);
    recordtable_unit_report(inner(text), length, model, inner(words), n.words, inner(wides), n.wides, inner(signeds), n.signeds, inner(out),
                            n.rest);
    recordtable_declaration_report(inner(text), length, model, inner(words), n.words, inner(wides), n.wides, inner(signeds), n.signeds,
                                   inner(out), n.rest);
    memset(inner(words), 0, words.bytes), memset(inner(wides), 0, wides.bytes), memset(inner(signeds), 0, signeds.bytes);
    uint32_t again = recordtable_unit_in_zeros(inner(text), length, model, inner(words), n.words, inner(wides), n.wides, inner(signeds),
                                               n.signeds, inner(answer), n.rest);
    expect(again == unit, "another answer in zeros");
    expect(again == 0 || (is_zero(words) && is_zero(wides) && is_zero(signeds)), "a number was left in zeros after a refusal");
    memset(inner(words), 0, words.bytes), memset(inner(wides), 0, wides.bytes), memset(inner(signeds), 0, signeds.bytes);
    recordtable_declaration_in_zeros(inner(text), length, model, inner(words), n.words, inner(wides), n.wides, inner(signeds), n.signeds,
                                     inner(answer), n.rest);
    expect(memcmp(inner(text), bytes, length) == 0, "the text was written");
    release(text), release(words), release(wides), release(signeds), release(answer), release(out);
}

static void call(const void *bytes, size_t length, uint32_t model, struct lengths n)
{
    call_between(bytes, length, model, n, 0);
    call_between(bytes, length, model, n, GUARD);
}

static void slices_of_wrong_length(const char *text)
{
    size_t length = strlen(text);
    for (size_t rest = 0; rest <= 7; rest++) {
        call(text, length, RECORDTABLE_LP64, (struct lengths){full.words, full.wides, full.signeds, rest});
    }
    for (size_t k = 0; k < 2; k++) {
        size_t s = shorter[k];
        call(text, length, RECORDTABLE_LP64, (struct lengths){full.words - s, full.wides, full.signeds, 6});
        call(text, length, RECORDTABLE_LP64, (struct lengths){full.words, full.wides - s, full.signeds, 6});
        call(text, length, RECORDTABLE_LP64, (struct lengths){full.words, full.wides, full.signeds - s, 6});
        call(text, length, RECORDTABLE_LP64, (struct lengths){s, s, s, 6});
    }
    call(text, length, RECORDTABLE_LLP64, (struct lengths){full.words + 5, full.wides + 5, full.signeds + 5, 6});
    call(text, length, 3, full);
    call(text, length, UINT32_MAX, full);
}

static void texts_of_every_length(void)
{
    static const unsigned char fillers[] = {' ', ';', 'a', '*', '(', 0, 200};
    for (size_t i = 0; i < sizeof lengths / sizeof *lengths; i++) {
        unsigned char *text = malloc(lengths[i] + 1);
        if (text == NULL) {
            abort();
        }
        for (size_t k = 0; k < sizeof fillers; k++) {
            memset(text, fillers[k], lengths[i]);
            call(text, lengths[i], RECORDTABLE_LP64, full);
        }
        free(text);
    }
}

/* Each byte alone, and all of them in order from each. */
static void every_byte(void)
{
    unsigned char bytes[512];
    for (size_t i = 0; i < sizeof bytes; i++) {
        bytes[i] = (unsigned char)i;
    }
    for (size_t first = 0; first < 256; first++) {
        call(bytes + first, 1, RECORDTABLE_ILP32, full);
        call(bytes + first, 256, RECORDTABLE_ILP32, full);
    }
}

int main(void)
{
    for (size_t i = 0; i < sizeof texts / sizeof *texts; i++) {
        slices_of_wrong_length(texts[i]);
    }
    texts_of_every_length();
    every_byte();
    puts(ok ? "ok" : "WRONG");
    return ok ? EXIT_SUCCESS : EXIT_FAILURE;
}
