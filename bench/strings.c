/* The place of a string in a list: the library, libfdt's fdt_stringlist_search, and plain C with memchr and memcmp. */
#include <libfdt.h>
#include <stdio.h>
#include <stdlib.h>
#include <string.h>

#include "timing.h"
#include "yebkuzan.h"

enum { RUNS = 401, NANOSECONDS_A_RUN = 40000, LONGEST = 1024, TREE = 4096 };

/* A list and a text; and a tree whose root has the list as its only property, `compatible`. */
struct question {
    const char *name;
    uint8_t list[LONGEST];
    size_t list_length;
    const char *text;
    size_t text_length;
    uint8_t tree[TREE];
};

static const char *const two_names[] = { "ibm,power9-cpu-features", "ibm,powerpc-cpu-features" };

/* Names of features: 11 characters on average. */
static const char *const feature_names[] = { "smt", "vector", "wait-v3", "idle-stop", "mmu-radix", "vector-v3", "big-endian", "copy-paste",
    "hypervisor", "no-execute", "mmu-hash-v3", "little-endian", "vector-crypto", "branch-tracing", "fixed-point-v3", "floating-point",
    "decimal-integer", "vector-binary16", "control-register", "debug-facilities", "timer-facilities", "vector-binary128",
    "vector-scalar-v3", "floating-point-v3", "decimal-integer-v3", "event-based-branch", "darn", "scv", "stop", "vsx2", "vsx2-newinsns",
    "vector-scalar" };

static void fail(const struct question *q, const char *why)
{
    fprintf(stderr, "%s: %s\n", q->name, why);
    exit(1);
}

/* The names one behind the other, each with its zero byte; the text is the last. */
static struct question *list_of(const char *name, const char *const *names, size_t many)
{
    struct question *q = calloc(1, sizeof *q);
    if (q == NULL)
        exit(2);
    q->name = name;
    for (size_t k = 0; k < many; k++) {
        size_t length = strlen(names[k]) + 1;
        if (length > LONGEST - q->list_length)
            fail(q, "too long");
        memcpy(q->list + q->list_length, names[k], length);
        q->list_length += length;
    }
    q->text = names[many - 1];
    q->text_length = strlen(q->text);
    if (fdt_create(q->tree, TREE) != 0 || fdt_finish_reservemap(q->tree) != 0 || fdt_begin_node(q->tree, "") != 0
        || fdt_property(q->tree, "compatible", q->list, (int)q->list_length) != 0 || fdt_end_node(q->tree) != 0
        || fdt_finish(q->tree) != 0)
        fail(q, "no tree");
    return q;
}

/* Plain C. It is not put into its caller, as the library's function is not. */
static __attribute__((noinline, noclone)) YebkuzanStringPlace c_string_place(
    const uint8_t *list, size_t list_length, const uint8_t *text, size_t text_length)
{
    const uint8_t *end = list + list_length;
    size_t place = 0;

    if (list_length == 0 || end[-1] != 0)
        return (YebkuzanStringPlace){ YEBKUZAN_REFUSAL_NOT_FOUND, 0 };
    while (list < end) {
        const uint8_t *zero = memchr(list, 0, (size_t)(end - list));
        if ((size_t)(zero - list) == text_length && memcmp(list, text, text_length) == 0)
            return (YebkuzanStringPlace){ 0, place };
        list = zero + 1;
        place++;
    }
    return (YebkuzanStringPlace){ YEBKUZAN_REFUSAL_NOT_FOUND, 0 };
}

/* Who answers; libfdt also finds the property in its node, and the length of the text. */
enum who { LIBRARY, LIBFDT, PLAIN, WHO };

static size_t answer(const struct question *q, enum who who)
{
    switch (who) {
    case LIBRARY: return yebkuzan_string_place(q->list, q->list_length, (const uint8_t *)q->text, q->text_length).place;
    case LIBFDT: return (size_t)fdt_stringlist_search(q->tree, 0, "compatible", q->text);
    default: return c_string_place(q->list, q->list_length, (const uint8_t *)q->text, q->text_length).place;
    }
}

static void compare_one(const struct question *q, size_t list_length, const uint8_t *text, size_t text_length)
{
    YebkuzanStringPlace a = yebkuzan_string_place(q->list, list_length, text, text_length);
    YebkuzanStringPlace b = c_string_place(q->list, list_length, text, text_length);
    if (a.number != b.number || a.place != b.place)
        fail(q, "the answers differ");
}

/* The library's answers are those of C: texts are the parts of the list of up to 30 bytes, lists are the list cut short at every byte.
   libfdt finds the text at the same place. */
static void compare(const struct question *q)
{
    for (size_t length = 0; length <= q->list_length; length++)
        for (size_t at = 0; at <= q->list_length; at++)
            for (size_t end = at; end <= q->list_length && end <= at + 30; end++)
                compare_one(q, length, q->list + at, end - at);
    YebkuzanStringPlace found = yebkuzan_string_place(q->list, q->list_length, (const uint8_t *)q->text, q->text_length);
    int place = fdt_stringlist_search(q->tree, 0, "compatible", q->text);
    if (found.number != 0 || place < 0 || found.place != (size_t)place)
        fail(q, "the text is not found at one place");
}

static volatile size_t kept;

static double run(const struct question *q, enum who who, long times)
{
    double start = now();
    for (long k = 0; k < times; k++)
        kept += answer(q, who);
    return (now() - start) / (double)times;
}

/* Short runs of all in turn, so that a slow spell of the machine meets all: the medians, and those of the ratios of a turn. */
static void measure(const struct question *q)
{
    double values[WHO][RUNS], libfdt[RUNS], plain[RUNS];
    long times[WHO];

    for (enum who who = LIBRARY; who < WHO; who++)
        times[who] = 1 + (long)(NANOSECONDS_A_RUN / run(q, who, 1000));
    for (int k = 0; k < RUNS; k++) {
        for (enum who who = LIBRARY; who < WHO; who++)
            values[who][k] = run(q, who, times[who]);
        libfdt[k] = values[LIBRARY][k] / values[LIBFDT][k];
        plain[k] = values[LIBRARY][k] / values[PLAIN][k];
    }
    printf("%-34s%9.1f%9.1f%9.1f%11.2f%9.2f\n", q->name, median(values[LIBRARY], RUNS), median(values[LIBFDT], RUNS),
        median(values[PLAIN], RUNS), median(libfdt, RUNS), median(plain, RUNS));
}

int main(void)
{
    struct question *questions[] = {
        list_of("(a) 2 names, the second", two_names, sizeof two_names / sizeof *two_names),
        list_of("(b) 32 names, the last", feature_names, sizeof feature_names / sizeof *feature_names),
    };
    size_t n = sizeof questions / sizeof *questions;

    for (size_t k = 0; k < n; k++)
        compare(questions[k]);
    printf("answers: the library's are those of C for parts of the lists as texts, and for the lists cut short at every byte;\n");
    printf("         libfdt finds the text at the same place\n");
    printf("figures: medians of %d runs in turn, nanoseconds a call; libfdt also finds the property, the only one of its node\n\n", RUNS);
    printf("%-34s%9s%9s%9s%11s%9s\n", "list", "library", "libfdt", "C", "R/libfdt", "R/C");
    for (size_t k = 0; k < n; k++) {
        measure(questions[k]);
        free(questions[k]);
    }
    return 0;
}
