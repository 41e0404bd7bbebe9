/* The resolver as a user would write it in plain C. */
#include "resolver.h"

static bool given(const YebkuzanFeature *f, uint32_t property)
{
    return (f->given & property) != 0;
}

static uint32_t dependency_count(const YebkuzanFeature *f)
{
    return given(f, YEBKUZAN_GIVEN_DEPENDENCIES) ? f->dependencies : 0;
}

static bool member(uint64_t s, uint32_t i)
{
    return (s >> i & 1) != 0;
}

/* A register's bit number is in range where given, and given where bit 0 of its support is set. */
static bool bit_fits(const YebkuzanFeature *f, uint32_t support, uint32_t value, uint32_t property, uint32_t number)
{
    if (given(f, property))
        return number <= 63;
    return !(given(f, support) && (value & 1));
}

static bool feature_fits(const YebkuzanRecord *r, uint32_t i)
{
    const YebkuzanFeature *f = &r->features[i];
    uint32_t n = dependency_count(f);

    if (!bit_fits(f, YEBKUZAN_GIVEN_HV_SUPPORT, f->hv_support, YEBKUZAN_GIVEN_HFSCR_BIT_NR, f->hfscr_bit_nr)
        || !bit_fits(f, YEBKUZAN_GIVEN_OS_SUPPORT, f->os_support, YEBKUZAN_GIVEN_FSCR_BIT_NR, f->fscr_bit_nr)
        || (given(f, YEBKUZAN_GIVEN_HWCAP_BIT_NR) && f->hwcap_bit_nr > 63) || n > YEBKUZAN_MOST_DEPENDENCIES)
        return false;
    for (uint32_t j = 0; j < n; j++)
        if (r->slots[YEBKUZAN_MOST_DEPENDENCIES * i + j] >= r->count)
            return false;
    return true;
}

uint32_t c_well_formed(const YebkuzanRecord *r)
{
    if (r->count > YEBKUZAN_MOST_FEATURES)
        return 14;
    for (uint32_t i = 0; i < r->count; i++)
        if (!feature_fits(r, i))
            return 14;
    return 0;
}

static uint32_t asked(const YebkuzanRecord *r, uint32_t level, bool test)
{
    if (test && c_well_formed(r) != 0)
        return 14;
    return level > 2 ? 15 : 0;
}

/* Whether the support that the level `upper` gives permits a feature at a level. */
static bool supported(uint32_t upper, uint32_t level, bool asked, uint32_t support, bool numbered, uint32_t number, uint64_t mask, bool own)
{
    if (level >= upper || !asked || own)
        return true;
    return (support & 1) && numbered && number < 64 && member(mask, number);
}

static uint64_t permitted_set(const YebkuzanRecord *r, uint32_t level, const YebkuzanGrants *g)
{
    uint64_t s = 0;

    for (uint32_t i = 0; i < r->count; i++) {
        const YebkuzanFeature *f = &r->features[i];
        if (given(f, YEBKUZAN_GIVEN_USABLE_PRIVILEGE) && member(f->usable_privilege, level)
            && supported(2, level, given(f, YEBKUZAN_GIVEN_HV_SUPPORT), f->hv_support, given(f, YEBKUZAN_GIVEN_HFSCR_BIT_NR),
                f->hfscr_bit_nr, g->hfscr, member(g->hypervisor.words[0], i))
            && supported(1, level, given(f, YEBKUZAN_GIVEN_OS_SUPPORT), f->os_support, given(f, YEBKUZAN_GIVEN_FSCR_BIT_NR),
                f->fscr_bit_nr, g->fscr, member(g->system.words[0], i)))
            s |= UINT64_C(1) << i;
    }
    return s;
}

static YebkuzanEnabled counted(uint64_t s)
{
    return (YebkuzanEnabled){ 0, (uint32_t)__builtin_popcountll(s), { { s } } };
}

static bool all_in(const uint16_t *slots, uint32_t n, uint64_t s)
{
    for (uint32_t j = 0; j < n; j++)
        if (!member(s, slots[j]))
            return false;
    return true;
}

/* The fixpoint over the slots: until nothing changes, each member with a dependency that is not one is taken out. */
YebkuzanEnabled c_enable(const YebkuzanRecord *r, uint32_t level, const YebkuzanGrants *g, bool test)
{
    uint32_t number = asked(r, level, test);
    if (number != 0)
        return (YebkuzanEnabled){ number, 0, { { 0 } } };
    uint64_t s = permitted_set(r, level, g);
    bool changed;
    do {
        changed = false;
        for (uint32_t i = 0; i < r->count; i++) {
            if (member(s, i) && !all_in(&r->slots[YEBKUZAN_MOST_DEPENDENCIES * i], dependency_count(&r->features[i]), s)) {
                s &= ~(UINT64_C(1) << i);
                changed = true;
            }
        }
    } while (changed);
    return counted(s);
}

/* A row of its dependencies for each feature; the rows from the count on are not touched. */
static void needs(const YebkuzanRecord *r, uint64_t *rows)
{
    for (uint32_t i = 0; i < r->count; i++) {
        const uint16_t *slots = &r->slots[YEBKUZAN_MOST_DEPENDENCIES * i];
        uint32_t n = dependency_count(&r->features[i]);
        uint64_t row = 0;
        for (uint32_t j = 0; j < n; j++)
            row |= UINT64_C(1) << slots[j];
        rows[i] = row;
    }
}

/* Warshall over rows. */
YebkuzanReach c_reach_table(const YebkuzanRecord *r, bool test)
{
    YebkuzanReach t = { 0 };

    if (test && c_well_formed(r) != 0) {
        t.number = 14;
        return t;
    }
    uint32_t n = r->count;
    uint64_t *rows = t.rows.words;
    needs(r, rows);
    for (uint32_t i = 0; i < n; i++)
        rows[i] |= UINT64_C(1) << i;
    for (uint32_t k = 0; k < n; k++)
        for (uint32_t i = 0; i < n; i++)
            if (member(rows[i], k))
                rows[i] |= rows[k];
    return t;
}

YebkuzanEnabled c_enable_by_table(const YebkuzanRecord *r, const YebkuzanRows *table, uint32_t level, const YebkuzanGrants *g, bool test)
{
    uint32_t number = asked(r, level, test);
    if (number != 0)
        return (YebkuzanEnabled){ number, 0, { { 0 } } };
    uint64_t p = permitted_set(r, level, g);
    uint64_t s = 0;
    for (uint32_t i = 0; i < r->count; i++)
        if ((table->words[i] & ~p) == 0)
            s |= UINT64_C(1) << i;
    return counted(s);
}

/* The members of a set whose rows are inside it. */
static uint64_t layer(const uint64_t *rows, uint32_t n, uint64_t s)
{
    uint64_t t = 0;

    for (uint32_t i = 0; i < n; i++)
        if (member(s, i) && (rows[i] & ~s) == 0)
            t |= UINT64_C(1) << i;
    return t;
}

/* The layers that hold a position, and then from each position the smallest dependency outside the layer below. */
YebkuzanWritten c_chain(
    const YebkuzanRecord *r, uint32_t level, const YebkuzanGrants *g, uint32_t position, uint8_t *out, size_t size, bool test)
{
    uint64_t rows[YEBKUZAN_MOST_FEATURES], layers[YEBKUZAN_MOST_FEATURES];
    uint32_t number = asked(r, level, test);
    if (number != 0)
        return (YebkuzanWritten){ number, 0 };
    if (position >= r->count)
        return (YebkuzanWritten){ 16, 0 };
    uint64_t s = permitted_set(r, level, g);
    uint32_t k = 0;
    needs(r, rows);
    while (member(s, position)) {
        uint64_t t = layer(rows, r->count, s);
        if (t == s)
            return (YebkuzanWritten){ 17, 0 };
        layers[k++] = s;
        s = t;
    }
    if (size < k + 1)
        return (YebkuzanWritten){ 18, 0 };
    uint32_t length = 0;
    uint32_t at = position;
    while (k > 0) {
        out[length++] = (uint8_t)at;
        k--;
        at = (uint32_t)__builtin_ctzll(rows[at] & ~layers[k]);
    }
    out[length++] = (uint8_t)at;
    return (YebkuzanWritten){ 0, length };
}
