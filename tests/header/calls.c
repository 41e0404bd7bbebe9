/* Calls every function of the archive from C, on the tree of document 01's "Both sides" and on small values, and looks at each field. */
#include <stdio.h>
#include <string.h>

#include "yebkuzan.h"

static int failures;

#define EXPECT(condition) expect(condition, #condition, __LINE__)

static void expect(int holds, const char *text, int line)
{
    if (!holds) {
        fprintf(stderr, "tests/header/calls.c:%d: not so: %s\n", line, text);
        failures++;
    }
}

static void sizes(void)
{
    static const uint8_t value[] = { 0, 0, 0, 12, 0, 0, 0, 16, 0, 0, 0, 24 };
    static const uint8_t twice[] = { 0, 0, 0, 12, 0, 0, 0, 12 };
    YebkuzanSizes p = yebkuzan_page_sizes(value, sizeof value);
    YebkuzanSizes s = yebkuzan_segment_sizes(value, 8);

    EXPECT(p.number == 0 && p.table.count == 3);
    EXPECT(p.table.exponents[0] == 12 && p.table.exponents[1] == 16 && p.table.exponents[2] == 24 && p.table.exponents[3] == 0);
    EXPECT(s.number == 0 && s.table.count == 2 && s.table.exponents[1] == 16 && s.table.exponents[2] == 0);
    p = yebkuzan_page_sizes(twice, sizeof twice);
    EXPECT(p.number == YEBKUZAN_REFUSAL_NOT_ASCENDING && p.table.count == 0 && p.table.exponents[0] == 0);
    EXPECT(yebkuzan_segment_sizes(value, 0).number == YEBKUZAN_REFUSAL_PROPERTY_FORM);
}

static void segments(void)
{
    static const uint8_t value[] = { 0, 0, 0, 12, 0, 0, 0, 1, 0, 0, 0, 1, 0, 0, 0, 16, 0, 0, 0, 7 };
    YebkuzanSegments s = yebkuzan_segment_page_sizes(value, sizeof value);
    const YebkuzanDescriptor *d = &s.table.descriptors[0];

    EXPECT(s.number == 0 && s.table.count == 1);
    EXPECT(d->base == 12 && d->encoding == 1 && d->count == 1 && d->pages[0].exponent == 16 && d->pages[0].encoding == 7);
    EXPECT(s.table.descriptors[7].count == 0 && s.table.descriptors[7].pages[7].encoding == 0);
    EXPECT(yebkuzan_segment_page_sizes(value, sizeof value - 1).number == YEBKUZAN_REFUSAL_PROPERTY_FORM);
}

static void radix(void)
{
    static const uint8_t value[] = { 0, 0, 0, 12, 0xa0, 0, 0, 16, 0x20, 0, 0, 21, 0x40, 0, 0, 30 };
    static const uint8_t ones[] = { 0xff, 0xff, 0xff, 0xff };
    static const uint8_t equal[] = { 0, 0, 0, 12, 0x20, 0, 0, 12 };
    YebkuzanRadixEncodings r = yebkuzan_radix_encodings(value, sizeof value);

    EXPECT(r.number == 0 && r.table.count == 4);
    EXPECT(r.table.encodings[0].ap == 0 && r.table.encodings[0].exponent == 12);
    EXPECT(r.table.encodings[1].ap == 5 && r.table.encodings[1].exponent == 16);
    EXPECT(r.table.encodings[2].ap == 1 && r.table.encodings[2].exponent == 21);
    EXPECT(r.table.encodings[3].ap == 2 && r.table.encodings[3].exponent == 30);
    EXPECT(r.table.encodings[4].ap == 0 && r.table.encodings[4].exponent == 0 && r.table.encodings[15].exponent == 0);
    r = yebkuzan_radix_encodings(equal, sizeof equal);
    EXPECT(r.number == YEBKUZAN_REFUSAL_NOT_ASCENDING && r.table.count == 0 && r.table.encodings[0].exponent == 0);
    EXPECT(yebkuzan_radix_encodings(ones, sizeof ones).number == YEBKUZAN_REFUSAL_OUT_OF_RANGE);
    EXPECT(yebkuzan_radix_encodings(value, 15).number == YEBKUZAN_REFUSAL_PROPERTY_FORM);
    EXPECT(yebkuzan_radix_encodings(value, 0).number == YEBKUZAN_REFUSAL_PROPERTY_FORM);
}

/* Bytes from 24 on, in both editions and in another one. */
static void editions(void)
{
    uint8_t value[2 + YEBKUZAN_MOST_BYTES] = { YEBKUZAN_MOST_BYTES, 0 };
    YebkuzanPaFeatures pa;
    unsigned k;

    value[2 + 24] = 0xf0;
    value[2 + 38] = 0x81;
    value[2 + 40] = 0x7f;
    value[2 + 64] = 0x80;
    value[2 + 253] = 0x0f;
    pa = yebkuzan_pa_features(value, sizeof value, YEBKUZAN_EDITION_LATER);
    EXPECT(pa.number == 0 && pa.table.copy_paste == 1 && pa.table.radix_translation == 0 && pa.table.second_watchpoint == 1);
    EXPECT(memcmp(pa.table.raw_later, value + 2 + 24, YEBKUZAN_LATER_BYTES) == 0);
    EXPECT(pa.table.raw[0] == 0 && pa.table.vector == 0 && pa.table.coprocessor == 0);
    pa = yebkuzan_pa_features(value, sizeof value, YEBKUZAN_EDITION_FIRST);
    EXPECT(pa.number == 0 && pa.table.copy_paste == 0 && pa.table.radix_translation == 0 && pa.table.second_watchpoint == 0);
    for (k = 0; k < YEBKUZAN_LATER_BYTES; k++)
        EXPECT(pa.table.raw_later[k] == 0);
    value[0] = 41;
    value[2 + 40] = 0x80;
    pa = yebkuzan_pa_features(value, 2 + 41, YEBKUZAN_EDITION_LATER);
    EXPECT(pa.number == 0 && pa.table.copy_paste == 1 && pa.table.radix_translation == 1 && pa.table.second_watchpoint == 0);
    EXPECT(pa.table.raw_later[16] == 0x80 && pa.table.raw_later[40] == 0 && pa.table.raw_later[229] == 0);
    pa = yebkuzan_pa_features(value, 2 + 41, 2);
    EXPECT(pa.number == YEBKUZAN_REFUSAL_LEVEL && pa.table.copy_paste == 0 && pa.table.raw_later[14] == 0);
    EXPECT(yebkuzan_pa_features(value, 0, UINT32_MAX).number == YEBKUZAN_REFUSAL_LEVEL);
    EXPECT(yebkuzan_pa_features(value, 0, YEBKUZAN_EDITION_LATER).number == YEBKUZAN_REFUSAL_PROPERTY_FORM);
}

static void attributes(void)
{
    uint8_t value[26] = { 24, 0, 1, 2, 3, 4, 5, 6, 0x80, 0, 8, 9, 10, 11, 12, 13, 14, 15 };
    static const uint8_t frequency[] = { 0, 0, 0, 1, 0, 0, 0, 2 };
    YebkuzanPaFeatures pa;
    YebkuzanPiFeatures pi;
    YebkuzanBusFrequency bus = yebkuzan_bus_frequency(frequency, sizeof frequency);

    value[2 + 18] = 0x80;
    value[2 + 22] = 0xff;
    pa = yebkuzan_pa_features(value, sizeof value, YEBKUZAN_EDITION_FIRST);
    pi = yebkuzan_pi_features(value, sizeof value);
    EXPECT(pa.number == 0 && pa.table.raw[0] == 1 && pa.table.raw[5] == 6);
    EXPECT(pa.table.data_streams == 1 && pa.table.vector == 0 && pa.table.vector_scalar == 1);
    EXPECT(pa.table.vector_crypto == 0 && pa.table.transactional_memory == 1);
    EXPECT(pa.table.coprocessor == UINT64_C(0x08090a0b0c0d0e0f));
    EXPECT(pi.number == 0 && pi.table.count == 24 && memcmp(pi.table.bytes, value + 2, 24) == 0 && pi.table.bytes[253] == 0);
    value[1] = 1;
    EXPECT(yebkuzan_pa_features(value, sizeof value, YEBKUZAN_EDITION_FIRST).number == YEBKUZAN_REFUSAL_NOT_FOUND);
    pi = yebkuzan_pi_features(value, 1);
    EXPECT(pi.number == YEBKUZAN_REFUSAL_PROPERTY_FORM && pi.table.count == 0 && pi.table.bytes[0] == 0);
    EXPECT(bus.number == 0 && bus.frequency == UINT64_C(0x100000002));
    EXPECT(yebkuzan_bus_frequency(frequency, 7).number == YEBKUZAN_REFUSAL_PROPERTY_FORM);
}

static void unit_text(void)
{
    uint8_t out[4] = { 'x', 'x', 'x', 'x' };
    YebkuzanUnit u = yebkuzan_read_unit((const uint8_t *)"00fF", 4);
    YebkuzanWritten w = yebkuzan_write_unit(255, out, sizeof out);

    EXPECT(u.number == 0 && u.unit == 255);
    EXPECT(w.number == 0 && w.length == 2 && memcmp(out, "ffxx", 4) == 0);
    u = yebkuzan_read_unit((const uint8_t *)"100000000", 9);
    EXPECT(u.number == YEBKUZAN_REFUSAL_OUT_OF_RANGE && u.unit == 0);
    EXPECT(yebkuzan_read_unit(out, 0).number == YEBKUZAN_REFUSAL_UNIT_TEXT);
    w = yebkuzan_write_unit(YEBKUZAN_LARGEST_UNIT, out, sizeof out);
    EXPECT(w.number == YEBKUZAN_REFUSAL_BUFFER_LENGTH && w.length == 0 && memcmp(out, "ffxx", 4) == 0);
}

static void string_lists(void)
{
    static const uint8_t list[] = "ibm,power9\0\0ibm,powerpc\0ibm,power9";
    const uint8_t *text = list;
    YebkuzanStringPlace p = yebkuzan_string_place(list, sizeof list, text + 12, 11);

    EXPECT(p.number == 0 && p.place == 2);
    p = yebkuzan_string_place(list, sizeof list, text, 10);
    EXPECT(p.number == 0 && p.place == 0);
    p = yebkuzan_string_place(list, sizeof list, text, 0);
    EXPECT(p.number == 0 && p.place == 1);
    p = yebkuzan_string_place(list + 11, sizeof list - 11, text, 10);
    EXPECT(p.number == 0 && p.place == 2);
    p = yebkuzan_string_place(list, sizeof list, text + 12, 9);
    EXPECT(p.number == YEBKUZAN_REFUSAL_NOT_FOUND && p.place == 0);
    p = yebkuzan_string_place(list, sizeof list, text + 12, 12);
    EXPECT(p.number == YEBKUZAN_REFUSAL_NOT_FOUND && p.place == 0);
    p = yebkuzan_string_place(list, sizeof list - 1, text + 12, 11);
    EXPECT(p.number == YEBKUZAN_REFUSAL_NOT_FOUND && p.place == 0);
    p = yebkuzan_string_place(list, 0, text, 0);
    EXPECT(p.number == YEBKUZAN_REFUSAL_NOT_FOUND && p.place == 0);
}

static void properties(void)
{
    static const uint8_t strings[] = "a\0bc";
    static const uint8_t cpu[] = { 0, 0, 0, 4, 0, 0, 0, 3, 0, 0, 0, 4, 0, 0, 0, 2, 1, 2, 3, 4 };
    static const uint8_t parent[] = { 0, 0, 0, 3, 0, 0, 0, 1, 0, 0, 0, 0, 9, 0, 0, 0 };
    const uint8_t *name = strings;
    YebkuzanProperty p = yebkuzan_find_property(cpu, sizeof cpu, parent, sizeof parent, strings, sizeof strings, name + 2, 2);

    EXPECT(p.number == 0 && p.block == YEBKUZAN_CPU_BLOCK && p.offset == 4 && p.length == YEBKUZAN_PROPERTY_HEAD + 4);
    p = yebkuzan_find_property(cpu, sizeof cpu, parent, sizeof parent, strings, sizeof strings, name, 1);
    EXPECT(p.number == 0 && p.block == YEBKUZAN_PARENT_BLOCK && p.offset == 0 && p.length == YEBKUZAN_PROPERTY_HEAD + 1);
    EXPECT(yebkuzan_lookup_reason(cpu, sizeof cpu, parent, sizeof parent, strings, sizeof strings, name, 1) == 0);
    p = yebkuzan_find_property(cpu, sizeof cpu, cpu, sizeof cpu, strings, sizeof strings, name, 1);
    EXPECT(p.number == YEBKUZAN_REFUSAL_NOT_FOUND && p.block == 0 && p.offset == 0 && p.length == 0);
    p = yebkuzan_find_property(cpu, sizeof cpu, parent, 13, strings, sizeof strings, name + 2, 2);
    EXPECT(p.number == YEBKUZAN_REFUSAL_TOKEN && p.block == 0);
    EXPECT(yebkuzan_lookup_reason(cpu, sizeof cpu, parent, sizeof parent, strings, 1, name, 1) == YEBKUZAN_REFUSAL_NAME);
}

/* Names of 32 and of 63 characters are found, and one of 64 is no name. */
static void long_names(void)
{
    static uint8_t cpu[] = { 0, 0, 0, 3, 0, 0, 0, 0, 0, 0, 0, 32 };
    uint8_t strings[65];
    YebkuzanProperty p;

    memset(strings, 'p', 64);
    strings[64] = 0;
    p = yebkuzan_find_property(cpu, sizeof cpu, cpu, 0, strings, sizeof strings, strings, 32);
    EXPECT(p.number == 0 && p.block == YEBKUZAN_CPU_BLOCK && p.offset == 0 && p.length == YEBKUZAN_PROPERTY_HEAD);
    cpu[11] = 1;
    p = yebkuzan_find_property(cpu, sizeof cpu, cpu, 0, strings, sizeof strings, strings, YEBKUZAN_MOST_PROPERTY_NAME);
    EXPECT(p.number == 0 && p.block == YEBKUZAN_CPU_BLOCK);
    EXPECT(yebkuzan_lookup_reason(cpu, sizeof cpu, cpu, 0, strings, sizeof strings, strings, 64) == YEBKUZAN_REFUSAL_NOT_FOUND);
    cpu[11] = 0;
    EXPECT(yebkuzan_lookup_reason(cpu, sizeof cpu, cpu, 0, strings, sizeof strings, strings, 64) == YEBKUZAN_REFUSAL_NAME);
}

static void resolver(YebkuzanRecord record)
{
    const YebkuzanGrants grants = { { { 0 } }, { { 0 } }, UINT64_MAX, UINT64_MAX };
    const YebkuzanGrants none = { { { 0 } }, { { 4 } }, 0, 0 };
    uint8_t out[4] = { 9, 9, 9, 9 };
    YebkuzanPermitted p = yebkuzan_permitted(record, YEBKUZAN_LEVEL_USER, grants);
    YebkuzanEnabled e = yebkuzan_enable(record, YEBKUZAN_LEVEL_USER, grants);
    YebkuzanReach t = yebkuzan_reach_table(record);
    YebkuzanWords w = yebkuzan_words(record, YEBKUZAN_LEVEL_USER, grants);
    YebkuzanWritten c = yebkuzan_chain(record, YEBKUZAN_LEVEL_USER, grants, 3, out, sizeof out);

    EXPECT(yebkuzan_well_formed(record) == 0);
    EXPECT(p.number == 0 && p.set.words[0] == 11);
    EXPECT(yebkuzan_permitted(record, YEBKUZAN_LEVEL_USER, none).set.words[0] == 13);
    EXPECT(e.number == 0 && e.count == 2 && e.set.words[0] == 3);
    EXPECT(t.number == 0 && t.rows.words[0] == 1 && t.rows.words[3] == 15 && t.rows.words[4] == 16 && t.rows.words[5] == 0);
    EXPECT(w.number == 0 && w.hwcap_first == 4 && w.hwcap_second == 8 && w.fscr == 0x200 && w.hfscr == 0);
    EXPECT(c.number == 0 && c.length == 2 && out[0] == 3 && out[1] == 2 && out[2] == 9);
    e = yebkuzan_enable_by_table(record, t.rows, YEBKUZAN_LEVEL_HYPERVISOR, none);
    EXPECT(e.number == 0 && e.count == 5 && e.set.words[0] == 31);
    EXPECT(yebkuzan_chain(record, YEBKUZAN_LEVEL_USER, grants, 5, out, 4).number == YEBKUZAN_REFUSAL_POSITION);
    EXPECT(yebkuzan_chain(record, YEBKUZAN_LEVEL_USER, grants, 0, out, 4).number == YEBKUZAN_REFUSAL_FEATURE_ENABLED);
    out[0] = 7;
    c = yebkuzan_chain(record, YEBKUZAN_LEVEL_USER, grants, 3, out, 1);
    EXPECT(c.number == YEBKUZAN_REFUSAL_BUFFER_LENGTH && c.length == 0 && out[0] == 7);
    EXPECT(yebkuzan_words(record, 3, grants).number == YEBKUZAN_REFUSAL_LEVEL);
    record.count = YEBKUZAN_MOST_FEATURES + 1;
    EXPECT(yebkuzan_well_formed(record) == YEBKUZAN_REFUSAL_RECORD_FORM);
    EXPECT(yebkuzan_permitted(record, 3, grants).number == YEBKUZAN_REFUSAL_RECORD_FORM);
    t = yebkuzan_reach_table(record);
    EXPECT(t.number == YEBKUZAN_REFUSAL_RECORD_FORM && t.rows.words[0] == 0);
    e = yebkuzan_enable_by_table(record, t.rows, YEBKUZAN_LEVEL_USER, grants);
    EXPECT(e.number == YEBKUZAN_REFUSAL_RECORD_FORM && e.count == 0 && e.set.words[0] == 0);
}

static void tree(const char *path)
{
    static uint8_t bytes[YEBKUZAN_LARGEST_TREE];
    FILE *file = fopen(path, "rb");
    size_t length = file == NULL ? 0 : fread(bytes, 1, sizeof bytes, file);
    YebkuzanRead read = yebkuzan_read(bytes, length);
    const YebkuzanFeature *bravo = &read.record.features[1];

    EXPECT(read.number == 0 && read.place == 0 && read.record.isa == 3000 && read.record.count == 5);
    EXPECT(strcmp((const char *)bytes + bravo->offset + 4, "bravo") == 0);
    EXPECT(bravo->given == 0x1eb && bravo->isa == 3000 && bravo->usable_privilege == 7 && bravo->hv_support == 0);
    EXPECT(bravo->os_support == 1 && bravo->hfscr_bit_nr == 0 && bravo->fscr_bit_nr == 9 && bravo->hwcap_bit_nr == 35);
    EXPECT(bravo->phandle == 2 && bravo->dependencies == 1 && read.record.slots[16] == 0);
    EXPECT(read.record.slots[48] == 1 && read.record.slots[49] == 2);
    resolver(read.record);
    read = yebkuzan_read(bytes, length - 1);
    EXPECT(read.number == YEBKUZAN_REFUSAL_TREE_LENGTH && read.place == 4 && read.record.count == 0 && read.record.features[0].offset == 0);
}

int main(int argc, char **argv)
{
    if (argc != 2)
        return 2;
    tree(argv[1]);
    sizes();
    segments();
    radix();
    attributes();
    editions();
    string_lists();
    unit_text();
    properties();
    long_names();
    return failures != 0;
}
