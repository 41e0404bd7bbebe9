/* Runs the library and the same in C on the same records, compares the answers, and prints medians in nanoseconds. */
#include <stdio.h>
#include <stdlib.h>
#include <string.h>

#include "resolver.h"
#include "timing.h"

enum { RUNS = 401, NANOSECONDS_A_RUN = 40000, REFUSED = 6, WITHOUT_CAPABILITY_BIT = 4 };

struct graph {
    const char *name;
    YebkuzanRecord r;
    YebkuzanRows table;
    YebkuzanGrants g;
    uint32_t position;
};

static const uint32_t LEVEL = 0;

/* Where the calls put their answers: what the library answers, and what C does. */
static YebkuzanEnabled enabled[2];
static YebkuzanReach reach[2];
static YebkuzanWritten chain[2];
static uint8_t bytes[2][YEBKUZAN_MOST_FEATURES];
static uint32_t form[2];

/* Who answers: the library, C with a test of the record's form, C without one. */
enum who { LIBRARY, TESTED, PLAIN };

static void well_formed(const struct graph *t, enum who who)
{
    if (who == LIBRARY)
        form[0] = yebkuzan_well_formed(t->r);
    else
        form[1] = c_well_formed(&t->r);
}

static void enable(const struct graph *t, enum who who)
{
    if (who == LIBRARY)
        enabled[0] = yebkuzan_enable(t->r, LEVEL, t->g);
    else
        enabled[1] = c_enable(&t->r, LEVEL, &t->g, who == TESTED);
}

static void reach_table(const struct graph *t, enum who who)
{
    if (who == LIBRARY)
        reach[0] = yebkuzan_reach_table(t->r);
    else
        reach[1] = c_reach_table(&t->r, who == TESTED);
}

static void by_table(const struct graph *t, enum who who)
{
    if (who == LIBRARY)
        enabled[0] = yebkuzan_enable_by_table(t->r, t->table, LEVEL, t->g);
    else
        enabled[1] = c_enable_by_table(&t->r, &t->table, LEVEL, &t->g, who == TESTED);
}

static void chain_of(const struct graph *t, enum who who)
{
    if (who == LIBRARY)
        chain[0] = yebkuzan_chain(t->r, LEVEL, t->g, t->position, bytes[0], YEBKUZAN_MOST_FEATURES);
    else
        chain[1] = c_chain(&t->r, LEVEL, &t->g, t->position, bytes[1], YEBKUZAN_MOST_FEATURES, who == TESTED);
}

struct call {
    const char *name;
    void (*run)(const struct graph *, enum who);
    double goal;
};

static const struct call calls[] = {
    { "enabled set", enable, 1.0 },
    { "reach table", reach_table, 1.2 },
    { "by the table", by_table, 1.2 },
    { "chain", chain_of, 1.2 },
    { "well formed", well_formed, 0 },
};

static void fail(const struct graph *t, const char *call)
{
    fprintf(stderr, "%s, %s: the answers differ\n", t->name, call);
    exit(1);
}

/* Every answer of the library is that of C, for each level, each position and a short buffer. */
static void compare(struct graph *t)
{
    reach_table(t, LIBRARY);
    reach_table(t, TESTED);
    if (reach[0].number != reach[1].number || memcmp(&reach[0].rows, &reach[1].rows, sizeof(YebkuzanRows)) != 0)
        fail(t, "reach table");
    t->table = reach[0].rows;
    if (yebkuzan_well_formed(t->r) != c_well_formed(&t->r))
        fail(t, "well formed");
    for (uint32_t level = 0; level <= 3; level++) {
        YebkuzanEnabled e = yebkuzan_enable(t->r, level, t->g);
        YebkuzanEnabled b = yebkuzan_enable_by_table(t->r, t->table, level, t->g);
        YebkuzanEnabled c = c_enable(&t->r, level, &t->g, true);
        YebkuzanEnabled d = c_enable_by_table(&t->r, &t->table, level, &t->g, true);
        if (memcmp(&e, &c, sizeof e) != 0 || memcmp(&b, &d, sizeof b) != 0 || memcmp(&e, &b, sizeof e) != 0)
            fail(t, "enabled set");
        for (uint32_t i = 0; i <= t->r.count; i++)
            for (size_t size = 0; size <= YEBKUZAN_MOST_FEATURES; size++) {
                memset(bytes, 255, sizeof bytes);
                YebkuzanWritten x = yebkuzan_chain(t->r, level, t->g, i, bytes[0], size);
                YebkuzanWritten y = c_chain(&t->r, level, &t->g, i, bytes[1], size, true);
                if (memcmp(&x, &y, sizeof x) != 0 || memcmp(bytes[0], bytes[1], YEBKUZAN_MOST_FEATURES) != 0)
                    fail(t, "chain");
            }
    }
}

/* The same of records that are not well formed, each by one fault: the last two lack a register's bit number where it is required. */
static void compare_refused(const struct graph *t)
{
    for (int fault = 0; fault < REFUSED; fault++) {
        struct graph x = *t;
        YebkuzanFeature *f = &x.r.features[21];
        switch (fault) {
        case 0: x.r.count = YEBKUZAN_MOST_FEATURES + 1; break;
        case 1: f->dependencies = YEBKUZAN_MOST_DEPENDENCIES + 1; break;
        case 2: x.r.slots[YEBKUZAN_MOST_DEPENDENCIES * 21] = (uint16_t)x.r.count; break;
        case 3: f->hwcap_bit_nr = 64; break;
        case 4: f->given = (f->given | YEBKUZAN_GIVEN_HV_SUPPORT) & ~(uint32_t)YEBKUZAN_GIVEN_HFSCR_BIT_NR; break;
        case 5: f->given = (f->given | YEBKUZAN_GIVEN_OS_SUPPORT) & ~(uint32_t)YEBKUZAN_GIVEN_FSCR_BIT_NR; break;
        }
        if (c_well_formed(&x.r) != 14)
            fail(t, "refusal");
        compare(&x);
    }
}

/* The same of records with a user feature that has no capability bit, whatever number stands in its cell: these are well formed. */
static void compare_without_capability_bit(const struct graph *t)
{
    static const uint32_t numbers[WITHOUT_CAPABILITY_BIT] = { 0, 63, 64, UINT32_MAX };

    for (int k = 0; k < WITHOUT_CAPABILITY_BIT; k++) {
        struct graph x = *t;
        YebkuzanFeature *f = &x.r.features[21];
        f->given &= ~(uint32_t)YEBKUZAN_GIVEN_HWCAP_BIT_NR;
        f->hwcap_bit_nr = numbers[k];
        if (c_well_formed(&x.r) != 0)
            fail(t, "acceptance");
        compare(&x);
    }
}

static double run(const struct call *c, const struct graph *t, enum who who, long times)
{
    double start = now();
    for (long k = 0; k < times; k++)
        c->run(t, who);
    return (now() - start) / times;
}

/* Many short runs of each, in turn, so that a slow spell of the machine meets all three: the medians, and those of the ratios of a turn. */
static void measure(const struct graph *t, const struct call *c)
{
    double values[3][RUNS], tested[RUNS], plain[RUNS];
    long times[3];

    for (enum who who = LIBRARY; who <= PLAIN; who++)
        times[who] = 1 + (long)(NANOSECONDS_A_RUN / run(c, t, who, 1000));
    for (int k = 0; k < RUNS; k++) {
        for (enum who who = LIBRARY; who <= PLAIN; who++)
            values[who][k] = run(c, t, who, times[who]);
        tested[k] = values[LIBRARY][k] / values[TESTED][k];
        plain[k] = values[LIBRARY][k] / values[PLAIN][k];
    }
    printf("%-26s%-14s%9.0f%9.0f%9.0f%9.2f%9.2f", t->name, c->name, median(values[LIBRARY], RUNS), median(values[TESTED], RUNS),
        median(values[PLAIN], RUNS), median(tested, RUNS), median(plain, RUNS));
    if (c->goal != 0)
        printf("%7.1f", c->goal);
    printf("\n");
}

/* A record of n features with every property given; those of the set `without` are not usable by users. */
static struct graph *start(const char *name, uint32_t n, uint64_t without, uint32_t position)
{
    struct graph *t = calloc(1, sizeof *t);
    if (t == NULL)
        exit(2);
    t->name = name;
    t->position = position;
    t->g = (YebkuzanGrants){ { { 0 } }, { { 0 } }, ~UINT64_C(0), ~UINT64_C(0) };
    t->r.isa = 3000;
    t->r.count = n;
    for (uint32_t i = 0; i < n; i++) {
        YebkuzanFeature *f = &t->r.features[i];
        f->offset = 100 * i;
        f->given = YEBKUZAN_GIVEN_ISA | YEBKUZAN_GIVEN_USABLE_PRIVILEGE | YEBKUZAN_GIVEN_HV_SUPPORT | YEBKUZAN_GIVEN_OS_SUPPORT
            | YEBKUZAN_GIVEN_HFSCR_BIT_NR | YEBKUZAN_GIVEN_FSCR_BIT_NR | YEBKUZAN_GIVEN_HWCAP_BIT_NR | YEBKUZAN_GIVEN_PHANDLE;
        f->isa = 3000;
        f->usable_privilege = without >> i & 1 ? 6 : 7;
        f->hv_support = 1;
        f->os_support = 1;
        f->hfscr_bit_nr = i;
        f->fscr_bit_nr = i;
        f->hwcap_bit_nr = i;
        f->phandle = i + 1;
    }
    return t;
}

static void need(struct graph *t, uint32_t i, uint32_t d)
{
    YebkuzanFeature *f = &t->r.features[i];
    f->given |= YEBKUZAN_GIVEN_DEPENDENCIES;
    t->r.slots[YEBKUZAN_MOST_DEPENDENCIES * i + f->dependencies] = (uint16_t)d;
    f->dependencies++;
}

/* A chain of 64, upwards: position i needs i + 1, and the last is not permitted; or downwards. */
static struct graph *chain_graph(bool up)
{
    struct graph *t = up ? start("chain of 64, up", 64, UINT64_C(1) << 63, 0) : start("chain of 64, down", 64, 1, 63);
    for (uint32_t i = 0; i < 63; i++)
        if (up)
            need(t, i, i + 1);
        else
            need(t, i + 1, i);
    return t;
}

/* 64 features of sixteen dependencies each: all permitted, or all but position 40. */
static struct graph *dense_graph(bool all)
{
    struct graph *t = all ? start("dense, all permitted", 64, 0, 7) : start("dense, one not permitted", 64, UINT64_C(1) << 40, 7);
    for (uint32_t i = 0; i < 64; i++)
        for (uint32_t j = 0; j < YEBKUZAN_MOST_DEPENDENCIES; j++)
            need(t, i, (i * 7 + j * j + 3 * j + 1) % 64);
    return t;
}

/* 50 features with fifteen dependencies in all; two are not permitted. A third of the features have no hypervisor's support, a third no
   system's. */
static struct graph *typical_graph(void)
{
    static const uint8_t pairs[15][2] = { { 5, 4 }, { 9, 8 }, { 12, 9 }, { 13, 9 }, { 14, 12 }, { 17, 3 }, { 20, 12 }, { 21, 12 },
        { 21, 20 }, { 26, 25 }, { 30, 14 }, { 33, 30 }, { 38, 2 }, { 41, 38 }, { 47, 33 } };
    struct graph *t = start("typical, 50 features", 50, UINT64_C(1) << 8 | UINT64_C(1) << 25, 47);
    for (uint32_t i = 0; i < 50; i++) {
        YebkuzanFeature *f = &t->r.features[i];
        if (i % 3 == 0)
            f->given &= ~(uint32_t)(YEBKUZAN_GIVEN_HV_SUPPORT | YEBKUZAN_GIVEN_HFSCR_BIT_NR);
        if (i % 3 == 1)
            f->given &= ~(uint32_t)(YEBKUZAN_GIVEN_OS_SUPPORT | YEBKUZAN_GIVEN_FSCR_BIT_NR);
    }
    for (uint32_t k = 0; k < 15; k++)
        need(t, pairs[k][0], pairs[k][1]);
    return t;
}

int main(void)
{
    struct graph *graphs[] = { chain_graph(true), chain_graph(false), dense_graph(true), dense_graph(false), typical_graph() };
    size_t n = sizeof graphs / sizeof *graphs;

    for (size_t i = 0; i < n; i++)
        compare(graphs[i]);
    compare_refused(graphs[n - 1]);
    compare_without_capability_bit(graphs[n - 1]);
    printf("answers: the library's are those of C on every graph, at each level, for each position and each length of the buffer,\n");
    printf("         on %d records that are not well formed, and on %d without a capability bit\n", REFUSED, WITHOUT_CAPABILITY_BIT);
    printf("buffers: not cleared between calls; caches warm\n");
    printf("figures: medians of %d runs in turn, nanoseconds a call; C with a test of the record's form, and without\n\n", RUNS);
    printf("%-26s%-14s%9s%9s%9s%9s%9s%7s\n", "graph", "call", "Rattle", "C test", "C no", "R/test", "R/no", "goal");
    for (size_t c = 0; c < sizeof calls / sizeof *calls; c++)
        for (size_t i = 0; i < n; i++)
            measure(graphs[i], &calls[c]);
    for (size_t i = 0; i < n; i++)
        free(graphs[i]);
    return 0;
}
