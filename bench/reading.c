/* Reads whole trees through the C interface, and with libfdt: reading DIRECTORY, with the trees that trees.py writes. */
#include <libfdt.h>
#include <stdbool.h>
#include <stdio.h>
#include <stdlib.h>
#include <string.h>

#include "resolver.h"
#include "timing.h"
#include "yebkuzan.h"

enum { RUNS = 101, LARGEST = YEBKUZAN_LARGEST_TREE };
#define NANOSECONDS_A_RUN 300000.0

struct tree {
    size_t length;
    uint8_t bytes[LARGEST];
};

static const YebkuzanGrants all_bits = { { { 0 } }, { { 0 } }, ~UINT64_C(0), ~UINT64_C(0) };
static const char *const container_name = "ibm,powerpc-cpu-features";

/* The properties of a feature in the order of the bits of `given`, but for `dependencies`. */
static const char *const property_names[] = { "isa", "usable-privilege", "hv-support", "os-support", "hfscr-bit-nr", "fscr-bit-nr",
    "hwcap-bit-nr", "phandle" };

static void load(struct tree *t, const char *directory, const char *name)
{
    char path[4096];
    snprintf(path, sizeof path, "%s/%s.dtb", directory, name);
    FILE *f = fopen(path, "rb");
    if (f == NULL) {
        perror(path);
        exit(2);
    }
    t->length = fread(t->bytes, 1, sizeof t->bytes, f);
    fclose(f);
}

/* The same tree without a container: it is walked whole, and then refused with 10. */
static void without_container(struct tree *t)
{
    int node = -1;
    while ((node = fdt_next_node(t->bytes, node, NULL)) >= 0) {
        int length;
        const char *name = fdt_get_name(t->bytes, node, &length);
        if (name != NULL && strcmp(name, container_name) == 0) {
            t->bytes[name - (const char *)t->bytes] = 'j';
            return;
        }
    }
}

/* With libfdt: the nodes, their properties, the phandles of their dependencies. A record in which something does not fit is refused. */

static int find_container(const void *fdt)
{
    int node = -1, depth = 0;
    while ((node = fdt_next_node(fdt, node, &depth)) >= 0) {
        const char *name = fdt_get_name(fdt, node, NULL);
        if (name != NULL && strcmp(name, container_name) == 0)
            return node;
    }
    return -1;
}

static bool text_is(const void *fdt, int node, const char *property, const char *text)
{
    int length;
    const char *value = fdt_getprop(fdt, node, property, &length);
    return value != NULL && (size_t)length == strlen(text) + 1 && memcmp(value, text, (size_t)length) == 0;
}

static uint32_t *cell_of(YebkuzanFeature *f, int property)
{
    uint32_t *cells[] = { &f->isa, &f->usable_privilege, &f->hv_support, &f->os_support, &f->hfscr_bit_nr, &f->fscr_bit_nr,
        &f->hwcap_bit_nr, &f->phandle };
    return cells[property];
}

static bool read_cells(const void *fdt, int node, YebkuzanFeature *f)
{
    for (int p = 0; p < 8; p++) {
        int length;
        const fdt32_t *value = fdt_getprop(fdt, node, property_names[p], &length);
        if (value == NULL)
            continue;
        if (length != 4)
            return false;
        f->given |= UINT32_C(1) << p;
        *cell_of(f, p) = fdt32_ld(value);
    }
    return (f->given & 3) == 3;
}

static bool read_dependencies(const void *fdt, int node, const int *nodes, YebkuzanRecord *r, uint32_t i)
{
    YebkuzanFeature *f = &r->features[i];
    int length;
    const fdt32_t *cells = fdt_getprop(fdt, node, "dependencies", &length);
    if (cells == NULL)
        return true;
    if (length % 4 != 0 || length > 64)
        return false;
    f->given |= YEBKUZAN_GIVEN_DEPENDENCIES;
    f->dependencies = (uint32_t)length / 4;
    for (uint32_t j = 0; j < f->dependencies; j++) {
        int found = fdt_node_offset_by_phandle(fdt, fdt32_ld(&cells[j]));
        uint32_t k = 0;
        while (k < r->count && nodes[k] != found)
            k++;
        if (k == r->count)
            return false;
        r->slots[YEBKUZAN_MOST_DEPENDENCIES * i + j] = (uint16_t)k;
    }
    return true;
}

static bool libfdt_read(const void *fdt, YebkuzanRecord *r)
{
    int nodes[YEBKUZAN_MOST_FEATURES], node, length;

    memset(r, 0, sizeof *r);
    int container = find_container(fdt);
    if (container < 0)
        return false;
    if (!text_is(fdt, container, "device_type", "cpu-features") && !text_is(fdt, container, "device_type", container_name))
        return false;
    if (fdt_stringlist_search(fdt, container, "compatible", container_name) < 0)
        return false;
    const fdt32_t *isa = fdt_getprop(fdt, container, "isa", &length);
    if (isa == NULL || length != 4)
        return false;
    r->isa = fdt32_ld(isa);
    fdt_for_each_subnode(node, fdt, container)
    {
        if (r->count == YEBKUZAN_MOST_FEATURES)
            return false;
        nodes[r->count] = node;
        r->features[r->count].offset = (uint32_t)(node + fdt_off_dt_struct(fdt));
        if (!read_cells(fdt, node, &r->features[r->count]))
            return false;
        r->count++;
    }
    for (uint32_t i = 0; i < r->count; i++)
        if (!read_dependencies(fdt, nodes[i], nodes, r, i))
            return false;
    return true;
}

/* What is timed; each answers a number that depends on its work. */

static uint64_t validate(const struct tree *t)
{
    YebkuzanRead read = yebkuzan_read(t->bytes, t->length);
    return read.number + read.place;
}

static uint64_t validate_libfdt(const struct tree *t)
{
    return (uint64_t)fdt_check_full(t->bytes, t->length);
}

static uint64_t enable(const struct tree *t)
{
    YebkuzanRead read = yebkuzan_read(t->bytes, t->length);
    return yebkuzan_enable(read.record, YEBKUZAN_LEVEL_USER, all_bits).set.words[0];
}

static uint64_t enable_libfdt(const struct tree *t)
{
    YebkuzanRecord r;
    if (!libfdt_read(t->bytes, &r))
        return 0;
    return c_enable(&r, YEBKUZAN_LEVEL_USER, &all_bits, false).set.words[0];
}

static volatile uint64_t kept;

typedef uint64_t work(const struct tree *t);

static double run(work *w, const struct tree *t, long times)
{
    double start = now();
    for (long k = 0; k < times; k++)
        kept += w(t);
    return (now() - start) / (double)times;
}

static long times_of(work *w, const struct tree *t)
{
    return 1 + (long)(NANOSECONDS_A_RUN / run(w, t, 3));
}

/* The medians of times, in microseconds, and that of the ratios of each turn. */
static void print(size_t length, const char *what, const double *ours, const double *theirs, double goal)
{
    double x[RUNS], y[RUNS], ratio[RUNS];

    for (int k = 0; k < RUNS; k++) {
        x[k] = ours[k];
        y[k] = theirs[k];
        ratio[k] = x[k] / y[k];
    }
    printf("%6zu bytes: %-30s%10.1f%10.1f%8.2f%7.2f\n", length, what, median(x, RUNS) / 1000, median(y, RUNS) / 1000, median(ratio, RUNS), goal);
}

static double alone(work *w, const struct tree *t)
{
    double x[RUNS];
    long m = 1 + (long)(NANOSECONDS_A_RUN / run(w, t, 1));
    for (int k = 0; k < RUNS; k++)
        x[k] = run(w, t, m);
    return median(x, RUNS) / 1000;
}

/* Both sides read the same record. */
static void same_record(const struct tree *t, const char *name)
{
    YebkuzanRecord r;
    YebkuzanRead read = yebkuzan_read(t->bytes, t->length);
    bool theirs = libfdt_read(t->bytes, &r);
    if (read.number != 0 || !theirs || memcmp(&r, &read.record, sizeof r) != 0 || fdt_check_full(t->bytes, t->length) != 0) {
        printf("%s: the two sides differ (number %u at %u)\n", name, read.number, read.place);
        exit(1);
    }
}

/* Short runs of all in turn, so that a slow spell of the machine meets all. The library's read always validates: what features and
   enabled set cost is its whole time less that of the validation. */
static void whole(const char *directory, const char *name)
{
    static struct tree t, walked;
    double ours[3][RUNS], theirs[3][RUNS];

    load(&t, directory, name);
    same_record(&t, name);
    walked = t;
    without_container(&walked);
    if (yebkuzan_read(walked.bytes, walked.length).number != YEBKUZAN_REFUSAL_NOT_FOUND)
        exit(1);
    long v = times_of(validate, &walked), e = times_of(enable, &t), w = times_of(validate_libfdt, &t), f = times_of(enable_libfdt, &t);
    for (int k = 0; k < RUNS; k++) {
        ours[0][k] = run(validate, &walked, v);
        theirs[0][k] = run(validate_libfdt, &t, w);
        ours[2][k] = run(enable, &t, e);
        theirs[1][k] = run(enable_libfdt, &t, f);
        ours[1][k] = ours[2][k] - ours[0][k];
        theirs[2][k] = theirs[0][k] + theirs[1][k];
    }
    print(t.length, "(a) validation", ours[0], theirs[0], 1.0);
    print(t.length, "(b) features and enabled set", ours[1], theirs[1], 0.25);
    print(t.length, "(c) both", ours[2], theirs[2], 0.3);
}

int main(int argc, char **argv)
{
    static struct tree t;
    static const char *const sizes[] = { "size-04", "size-08", "size-16", "size-32", "size-64" };

    if (argc != 2)
        return 2;
    printf("answers: both sides read the same records\n");
    printf("buffers: trees are not copied or cleared between calls; caches warm\n");
    printf("figures: medians of %d runs in turn, microseconds a call; the library's (b) is its (c), one read and one call, less its (a)\n\n", RUNS);
    printf("%-44s%10s%10s%8s%7s\n", "tree", "library", "libfdt", "ratio", "goal");
    whole(argv[1], "26");
    whole(argv[1], "64");
    printf("\n%-44s%10s%11s\n", "time against size: read and enabled set", "library", "ns a byte");
    for (size_t k = 0; k < sizeof sizes / sizeof *sizes; k++) {
        load(&t, argv[1], sizes[k]);
        same_record(&t, sizes[k]);
        double time = alone(enable, &t);
        printf("%6zu bytes%42.1f%11.2f\n", t.length, time, 1000 * time / (double)t.length);
    }
    load(&t, argv[1], "worst");
    printf("\nthe worst tree, one node of distinct property names, %zu bytes: %.0f microseconds (fdt_check_full %.0f)\n", t.length,
        alone(validate, &t), alone(validate_libfdt, &t));
    return 0;
}
