/* The tables of a CPU node's properties that A13 of document 02 changes or adds: the library and plain C. */
#include <stdio.h>
#include <stdlib.h>
#include <string.h>

#include "timing.h"
#include "yebkuzan.h"

enum { RUNS = 401, TIMES = 1000, LONGEST = 2 + YEBKUZAN_MOST_BYTES, CHANGES = 200000 };

/* A value of ibm,pa-features in an edition, or of radix encodings. */
struct question {
    const char *name;
    uint8_t value[LONGEST];
    size_t length;
    uint32_t edition;
    int radix;
};

/* Plain C, each answer filled where its caller has it (one object, returned at every end). They are not put into their callers, as the
   library's functions are not. */
static __attribute__((noinline, noclone)) YebkuzanPaFeatures c_pa_features(const uint8_t *value, size_t length, uint32_t edition)
{
    YebkuzanPaFeatures pa;
    YebkuzanPaTable *t = &pa.table;
    const uint8_t *bytes = NULL;
    size_t many = 0, found = 0;

    memset(&pa, 0, sizeof pa);
    pa.number = YEBKUZAN_REFUSAL_LEVEL;
    if (edition > YEBKUZAN_EDITION_LATER)
        return pa;
    pa.number = YEBKUZAN_REFUSAL_PROPERTY_FORM;
    if (length == 0)
        return pa;
    for (size_t at = 0; at < length; at += 2 + (size_t)value[at]) {
        if (length - at < 2)
            return pa;
        if (value[at] == 0 || value[at] > YEBKUZAN_MOST_BYTES) {
            pa.number = YEBKUZAN_REFUSAL_OUT_OF_RANGE;
            return pa;
        }
        if (length - at - 2 < value[at])
            return pa;
        if (value[at + 1] == 0) {
            found++;
            bytes = value + at + 2;
            many = value[at];
        }
    }
    pa.number = found == 0 ? YEBKUZAN_REFUSAL_NOT_FOUND : found == 1 ? 0 : YEBKUZAN_REFUSAL_REPEATED;
    if (found != 1)
        return pa;
    if (edition == YEBKUZAN_EDITION_FIRST && many > 24)
        many = 24;
#define TOP(k) ((k) < many ? bytes[k] >> 7 : 0)
    memcpy(t->raw, bytes, many < 6 ? many : 6);
    t->data_streams = TOP(6), t->vector = TOP(16), t->vector_scalar = TOP(18), t->vector_crypto = TOP(20);
    t->transactional_memory = TOP(22), t->copy_paste = TOP(38), t->radix_translation = TOP(40), t->second_watchpoint = TOP(64);
    for (size_t k = 8; k < 16; k++)
        t->coprocessor = t->coprocessor << 8 | (k < many ? bytes[k] : 0);
    if (many > 24)
        memcpy(t->raw_later, bytes + 24, many - 24);
    return pa;
}

static __attribute__((noinline, noclone)) YebkuzanRadixEncodings c_radix_encodings(const uint8_t *value, size_t length)
{
    YebkuzanRadixEncodings r;
    uint32_t least = 0;

    memset(&r, 0, sizeof r);
    r.number = length == 0 || length % 4 != 0 ? YEBKUZAN_REFUSAL_PROPERTY_FORM : YEBKUZAN_REFUSAL_TOO_MANY;
    if (length == 0 || length % 4 != 0 || length / 4 > YEBKUZAN_MOST_SIZES)
        return r;
    r.number = 0;
    for (size_t i = 0; i < length / 4; i++) {
        const uint8_t *at = value + 4 * i;
        uint32_t cell = (uint32_t)at[0] << 24 | (uint32_t)at[1] << 16 | (uint32_t)at[2] << 8 | at[3];
        uint32_t exponent = cell & 0x1fffffff;
        if (exponent > YEBKUZAN_LARGEST_EXPONENT || exponent < least) {
            memset(&r, 0, sizeof r);
            r.number = exponent > YEBKUZAN_LARGEST_EXPONENT ? YEBKUZAN_REFUSAL_OUT_OF_RANGE : YEBKUZAN_REFUSAL_NOT_ASCENDING;
            return r;
        }
        r.table.encodings[i] = (YebkuzanRadixEncoding){ cell >> 29, exponent };
        least = exponent + 1;
    }
    r.table.count = (uint32_t)(length / 4);
    return r;
}

static int same_pa(const YebkuzanPaFeatures *a, const YebkuzanPaFeatures *b)
{
    const YebkuzanPaTable *t = &a->table, *u = &b->table;
    return a->number == b->number && memcmp(t->raw, u->raw, sizeof t->raw) == 0 && t->data_streams == u->data_streams
        && t->vector == u->vector && t->vector_scalar == u->vector_scalar && t->vector_crypto == u->vector_crypto
        && t->transactional_memory == u->transactional_memory && t->copy_paste == u->copy_paste
        && t->radix_translation == u->radix_translation && t->second_watchpoint == u->second_watchpoint
        && t->coprocessor == u->coprocessor && memcmp(t->raw_later, u->raw_later, sizeof t->raw_later) == 0;
}

/* Whether the answers are the same; the answer of radix encodings is cells alone, without padding. */
static int same(const struct question *q, size_t length, uint32_t edition)
{
    if (q->radix) {
        YebkuzanRadixEncodings a = yebkuzan_radix_encodings(q->value, length), b = c_radix_encodings(q->value, length);
        return memcmp(&a, &b, sizeof a) == 0;
    }
    YebkuzanPaFeatures a = yebkuzan_pa_features(q->value, length, edition), b = c_pa_features(q->value, length, edition);
    return same_pa(&a, &b);
}

/* The answers are the same for every length of the value, and with up to three of its bytes changed, in editions 0 to 2. */
static void compare(const struct question *q)
{
    struct question changed;
    unsigned chance = 1;

    for (int k = 0; k < CHANGES; k++) {
        changed = *q;
        for (int j = 0; j < 3; j++) {
            chance = chance * 1103515245u + 12345u;
            changed.value[(chance >> 8) % q->length] = (uint8_t)(chance >> 24);
        }
        if (!same(q, (size_t)k % (q->length + 1), (uint32_t)k % 3) || !same(&changed, q->length - (size_t)k % 2, (uint32_t)k % 3)) {
            fprintf(stderr, "%s: the answers differ\n", q->name);
            exit(1);
        }
    }
}

static volatile uint32_t kept;

static double run(const struct question *q, int library)
{
    double start = now();
    for (int k = 0; k < TIMES; k++)
        if (q->radix)
            kept = library ? yebkuzan_radix_encodings(q->value, q->length).table.count : c_radix_encodings(q->value, q->length).table.count;
        else
            kept = library ? yebkuzan_pa_features(q->value, q->length, q->edition).table.vector
                           : c_pa_features(q->value, q->length, q->edition).table.vector;
    return (now() - start) / TIMES;
}

/* Short runs of both in turn: the medians, and that of the ratios of a turn. */
static void measure(const struct question *q)
{
    double library[RUNS], plain[RUNS], ratio[RUNS];

    for (int k = 0; k < RUNS; k++) {
        library[k] = run(q, 1);
        plain[k] = run(q, 0);
        ratio[k] = library[k] / plain[k];
    }
    printf("%-42s%9.1f%9.1f%9.2f\n", q->name, median(library, RUNS), median(plain, RUNS), median(ratio, RUNS));
}

int main(void)
{
    static struct question questions[] = {
        { "pa-features of 66 bytes, edition 0", { 66, 0, 0xf6, 0x3f, 0xc7, 0xc0, 0x80, 0xf0, 0x80 }, 68, YEBKUZAN_EDITION_FIRST, 0 },
        { "pa-features of 66 bytes, edition 1", { 66, 0, 0xf6, 0x3f, 0xc7, 0xc0, 0x80, 0xf0, 0x80 }, 68, YEBKUZAN_EDITION_LATER, 0 },
        { "pa-features of 254 bytes, edition 1", { 254, 0, 0xf6, 0x3f, 0xc7, 0xc0, 0x80, 0xf0, 0x80 }, 256, YEBKUZAN_EDITION_LATER, 0 },
        { "radix encodings of a POWER9", { 0, 0, 0, 12, 0xa0, 0, 0, 16, 0x20, 0, 0, 21, 0x40, 0, 0, 30 }, 16, 0, 1 },
        { "radix encodings, 16 cells", { 0 }, 64, 0, 1 },
    };
    size_t n = sizeof questions / sizeof *questions;

    for (size_t k = 0; k < 16; k++)
        questions[n - 1].value[4 * k + 3] = (uint8_t)(12 + k);
    for (size_t k = 0; k < n; k++)
        compare(&questions[k]);
    printf("answers: the library's are those of C for every length of the values and with bytes of them changed, in three editions\n");
    printf("figures: medians of %d runs in turn, nanoseconds a call\n\n", RUNS);
    printf("%-42s%9s%9s%9s\n", "value", "library", "C", "R/C");
    for (size_t k = 0; k < n; k++)
        measure(&questions[k]);
    return 0;
}
