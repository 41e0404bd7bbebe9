/*
 * The differential test over the C interface: reads cases from standard input, calls the library, and compares every answer, field by
 * field, with the expected one.
 *
 *     harness < CASES              every lent buffer stands between guard bytes
 *     harness --exact < CASES      every lent buffer is an allocation of its own length, for a memory checker
 *
 * A case is its kind (one byte), a length (four bytes) and that many bytes: the inputs, then the expected answers. Numbers have 4 or 8
 * bytes, the lowest first; a run of bytes has its length before it; a record and a table are the bytes of their structs, which have no
 * padding. tests/differential/generate.py writes them.
 *
 * Each case is run twice, between different guard bytes, at an address of another alignment: neither may make a difference. After each
 * call the guard bytes are as before, what was lent for reading too, and what was lent for writing is as expected in all its bytes.
 *
 * The exit status is 0 where all answers are as expected, every function was called, and every number that it can give was expected.
 */
#include <inttypes.h>
#include <stdio.h>
#include <stdlib.h>
#include <string.h>

#include "yebkuzan.h"

#define GUARD 64
#define SHOWN 3
#define MOST_SHOWN_BYTES 6000
#define NUMBERS 21
#define NO_PLACE SIZE_MAX

_Static_assert(sizeof(YebkuzanRecord) == 4872, "a record has no padding");
_Static_assert(sizeof(YebkuzanRows) == 512, "a table has no padding");

/* The functions, and the numbers that each can give, a bit each. */

enum {
    READ, WELL_FORMED, PERMITTED, ENABLE, REACH_TABLE, ENABLE_BY_TABLE, WORDS, CHAIN, FIND_PROPERTY, LOOKUP_REASON, PAGE_SIZES,
    SEGMENT_SIZES, SEGMENT_PAGE_SIZES, RADIX_ENCODINGS, PA_FEATURES, PI_FEATURES, BUS_FREQUENCY, STRING_PLACE, READ_UNIT, WRITE_UNIT,
    FUNCTIONS
};

static const struct {
    const char *name;
    uint32_t numbers;
} functions[FUNCTIONS] = {
    { "read", 0x3fff },
    { "well_formed", 1 | 1 << 14 },
    { "permitted", 1 | 1 << 14 | 1 << 15 },
    { "enable", 1 | 1 << 14 | 1 << 15 },
    { "reach_table", 1 | 1 << 14 },
    { "enable_by_table", 1 | 1 << 14 | 1 << 15 },
    { "words", 1 | 1 << 14 | 1 << 15 },
    { "chain", 1 | 0x1f << 14 },
    { "find_property", 1 | 1 << 6 | 1 << 7 | 1 << 9 | 1 << 10 },
    { "lookup_reason", 1 | 1 << 6 | 1 << 7 | 1 << 9 | 1 << 10 },
    { "page_sizes", 1 | 1 << 8 | 1 << 11 | 1 << 12 | 1 << 19 },
    { "segment_sizes", 1 | 1 << 8 | 1 << 11 | 1 << 12 | 1 << 19 },
    { "segment_page_sizes", 1 | 1 << 8 | 1 << 11 | 1 << 12 },
    { "radix_encodings", 1 | 1 << 8 | 1 << 11 | 1 << 12 | 1 << 19 },
    { "pa_features", 1 | 1 << 9 | 1 << 10 | 1 << 11 | 1 << 12 | 1 << 15 },
    { "pi_features", 1 | 1 << 9 | 1 << 10 | 1 << 11 | 1 << 12 },
    { "bus_frequency", 1 | 1 << 11 },
    { "string_place", 1 | 1 << 10 },
    { "read_unit", 1 | 1 << 12 | 1 << 20 },
    { "write_unit", 1 | 1 << 18 },
};

static unsigned long expected_numbers[FUNCTIONS][NUMBERS];
static unsigned long different_cases[FUNCTIONS];

/* The case that is run */

static unsigned long cases;
static uint8_t *data;
static size_t data_length, at;
static char kind;
static int round_number;
static int differs[FUNCTIONS];

static void fail(const char *why)
{
    fprintf(stderr, "harness: case %lu: %s\n", cases, why);
    exit(1);
}

static const uint8_t *take(size_t length)
{
    const uint8_t *bytes = data + at;

    if (length > data_length - at)
        fail("ends early");
    at += length;
    return bytes;
}

static uint32_t take32(void)
{
    uint32_t number;

    memcpy(&number, take(sizeof number), sizeof number);
    return number;
}

static uint64_t take64(void)
{
    uint64_t number;

    memcpy(&number, take(sizeof number), sizeof number);
    return number;
}

/* Differences */

static void print_case(void)
{
    size_t i;

    printf("case %lu, kind %c (generate.py --case %lu writes it), bytes ", cases, kind, cases);
    for (i = 0; i < data_length && i < MOST_SHOWN_BYTES; i++)
        printf("%02x", data[i]);
    printf("%s\n", i < data_length ? ".." : "");
}

/* A difference at a place of some field of a function's answer. The first cases of each function are printed, once each. */
static void different(int function, const char *field, size_t place, uint64_t got, uint64_t expected)
{
    if (differs[function])
        return;
    differs[function] = 1;
    if (different_cases[function]++ < SHOWN) {
        printf("%s: %s", functions[function].name, field);
        if (place != NO_PLACE)
            printf(" %zu", place);
        printf(" is %" PRIu64 ", expected %" PRIu64 "\n  ", got, expected);
        print_case();
    }
}

static void same(int function, const char *field, uint64_t got, uint64_t expected)
{
    if (got != expected)
        different(function, field, NO_PLACE, got, expected);
}

static void same_bytes(int function, const char *field, const void *got, const void *expected, size_t length)
{
    const uint8_t *a = got, *b = expected;
    size_t i;

    for (i = 0; i < length; i++) {
        if (a[i] != b[i]) {
            different(function, field, i, a[i], b[i]);
            return;
        }
    }
}

/* The number that is expected of a function. */
static uint32_t take_number(int function)
{
    uint32_t number = take32();

    if (number >= NUMBERS)
        fail("no refusal number");
    if (round_number == 0)
        expected_numbers[function][number]++;
    return number;
}

/* What is lent */

typedef struct Lent {
    uint8_t *block; /* the allocation */
    uint8_t *bytes; /* what is lent of it */
    size_t before, length, behind;
} Lent;

static int exact;
static unsigned long shift; /* of the next buffer that is lent, from an aligned address */

static uint8_t guard_byte(size_t place)
{
    return (uint8_t)((place * 37 + 11) ^ (round_number == 0 ? 0 : 0xff));
}

static Lent lend(const uint8_t *bytes, size_t length)
{
    Lent lent = { NULL, NULL, 0, length, 0 };
    size_t i;

    if (!exact) {
        lent.before = GUARD + shift++ % 8;
        lent.behind = GUARD;
    }
    lent.block = malloc(lent.before + length + lent.behind + (exact && length == 0));
    if (lent.block == NULL)
        fail("no memory");
    lent.bytes = lent.block + lent.before;
    for (i = 0; i < lent.before; i++)
        lent.block[i] = guard_byte(i);
    if (length > 0)
        memcpy(lent.bytes, bytes, length);
    for (i = 0; i < lent.behind; i++)
        lent.bytes[length + i] = guard_byte(i);
    return lent;
}

static Lent lend_run(void)
{
    size_t length = take32();

    return lend(take(length), length);
}

/* The guard bytes are as before, and what was lent is as expected; it is given back. */
static void give_back(int function, Lent lent, const uint8_t *expected)
{
    size_t i;

    for (i = 0; i < lent.before; i++) {
        if (lent.block[i] != guard_byte(i))
            different(function, "guard byte in front of the buffer", i, lent.block[i], guard_byte(i));
    }
    for (i = 0; i < lent.behind; i++) {
        if (lent.bytes[lent.length + i] != guard_byte(i))
            different(function, "guard byte behind the buffer", i, lent.bytes[lent.length + i], guard_byte(i));
    }
    same_bytes(function, "byte of the buffer", lent.bytes, expected, lent.length);
    free(lent.block);
}

/* Trees */

static void run_tree(void)
{
    uint32_t length = take32();
    const uint8_t *tree = take(length);
    Lent lent = lend(tree, length);
    YebkuzanRead read = yebkuzan_read(lent.bytes, lent.length);

    give_back(READ, lent, tree);
    same(READ, "number", read.number, take_number(READ));
    same(READ, "place", read.place, take32());
    same_bytes(READ, "byte of the record", &read.record, take(sizeof read.record), sizeof read.record);
}

/* Records */

static void run_table(YebkuzanRecord record, uint32_t level, YebkuzanGrants grants)
{
    YebkuzanRows rows;
    YebkuzanEnabled enabled;

    memcpy(&rows, take(sizeof rows), sizeof rows);
    enabled = yebkuzan_enable_by_table(record, rows, level, grants);
    same(ENABLE_BY_TABLE, "number", enabled.number, take_number(ENABLE_BY_TABLE));
    same(ENABLE_BY_TABLE, "set", enabled.set.words[0], take64());
    same(ENABLE_BY_TABLE, "count", enabled.count, take32());
}

static void run_chain(YebkuzanRecord record, uint32_t level, YebkuzanGrants grants)
{
    uint32_t position = take32();
    Lent lent = lend_run();
    YebkuzanWritten written = yebkuzan_chain(record, level, grants, position, lent.bytes, lent.length);

    same(CHAIN, "number", written.number, take_number(CHAIN));
    same(CHAIN, "length", written.length, take32());
    give_back(CHAIN, lent, take(lent.length));
}

static void run_query(YebkuzanRecord record)
{
    uint32_t level = take32(), many;
    YebkuzanGrants grants;
    YebkuzanPermitted permitted;
    YebkuzanEnabled enabled;
    YebkuzanWords words;

    grants.hypervisor.words[0] = take64();
    grants.system.words[0] = take64();
    grants.hfscr = take64();
    grants.fscr = take64();
    permitted = yebkuzan_permitted(record, level, grants);
    same(PERMITTED, "number", permitted.number, take_number(PERMITTED));
    same(PERMITTED, "set", permitted.set.words[0], take64());
    enabled = yebkuzan_enable(record, level, grants);
    same(ENABLE, "number", enabled.number, take_number(ENABLE));
    same(ENABLE, "set", enabled.set.words[0], take64());
    same(ENABLE, "count", enabled.count, take32());
    words = yebkuzan_words(record, level, grants);
    same(WORDS, "number", words.number, take_number(WORDS));
    same(WORDS, "first capability word", words.hwcap_first, take32());
    same(WORDS, "second capability word", words.hwcap_second, take32());
    same(WORDS, "HFSCR", words.hfscr, take64());
    same(WORDS, "FSCR", words.fscr, take64());
    for (many = take32(); many > 0; many--)
        run_table(record, level, grants);
    for (many = take32(); many > 0; many--)
        run_chain(record, level, grants);
}

static void run_record(void)
{
    YebkuzanRecord record;
    YebkuzanReach reach;
    uint32_t many;

    memcpy(&record, take(sizeof record), sizeof record);
    same(WELL_FORMED, "number", yebkuzan_well_formed(record), take_number(WELL_FORMED));
    reach = yebkuzan_reach_table(record);
    same(REACH_TABLE, "number", reach.number, take_number(REACH_TABLE));
    same_bytes(REACH_TABLE, "byte of the rows", &reach.rows, take(sizeof reach.rows), sizeof reach.rows);
    for (many = take32(); many > 0; many--)
        run_query(record);
}

/* Properties of a CPU node */

static void run_lookup(void)
{
    size_t start = at;
    Lent cpu = lend_run(), parent = lend_run(), strings = lend_run(), name = lend_run();
    Lent lent[] = { cpu, parent, strings, name };
    YebkuzanProperty found = yebkuzan_find_property(
        cpu.bytes, cpu.length, parent.bytes, parent.length, strings.bytes, strings.length, name.bytes, name.length);
    uint32_t reason = yebkuzan_lookup_reason(
        cpu.bytes, cpu.length, parent.bytes, parent.length, strings.bytes, strings.length, name.bytes, name.length);
    size_t i;

    same(FIND_PROPERTY, "number", found.number, take_number(FIND_PROPERTY));
    same(FIND_PROPERTY, "block", found.block, take32());
    same(FIND_PROPERTY, "offset", found.offset, take64());
    same(FIND_PROPERTY, "length", found.length, take64());
    same(LOOKUP_REASON, "number", reason, take_number(LOOKUP_REASON));
    at = start;
    for (i = 0; i < 4; i++) {
        uint32_t length = take32();

        give_back(FIND_PROPERTY, lent[i], take(length));
    }
    at = data_length;
}

/* Tables: each answer as a run of numbers, in the order of the struct */

static uint64_t values[1 + YEBKUZAN_MOST_BYTES];
static size_t values_count;

static void value(uint64_t number)
{
    values[values_count++] = number;
}

static uint32_t sizes(YebkuzanSizes answer)
{
    size_t i;

    value(answer.table.count);
    for (i = 0; i < YEBKUZAN_MOST_SIZES; i++)
        value(answer.table.exponents[i]);
    return answer.number;
}

static uint32_t page_sizes(const uint8_t *bytes, size_t length)
{
    return sizes(yebkuzan_page_sizes(bytes, length));
}

static uint32_t segment_sizes(const uint8_t *bytes, size_t length)
{
    return sizes(yebkuzan_segment_sizes(bytes, length));
}

static uint32_t segment_page_sizes(const uint8_t *bytes, size_t length)
{
    YebkuzanSegments answer = yebkuzan_segment_page_sizes(bytes, length);
    size_t i, j;

    value(answer.table.count);
    for (i = 0; i < YEBKUZAN_MOST_DESCRIPTORS; i++) {
        const YebkuzanDescriptor *descriptor = &answer.table.descriptors[i];

        value(descriptor->base);
        value(descriptor->encoding);
        value(descriptor->count);
        for (j = 0; j < YEBKUZAN_MOST_PAGES; j++) {
            value(descriptor->pages[j].exponent);
            value(descriptor->pages[j].encoding);
        }
    }
    return answer.number;
}

static uint32_t radix_encodings(const uint8_t *bytes, size_t length)
{
    YebkuzanRadixEncodings answer = yebkuzan_radix_encodings(bytes, length);
    size_t i;

    value(answer.table.count);
    for (i = 0; i < YEBKUZAN_MOST_SIZES; i++) {
        value(answer.table.encodings[i].ap);
        value(answer.table.encodings[i].exponent);
    }
    return answer.number;
}

static uint32_t edition; /* stands before the bytes in a case of this function */

static uint32_t pa_features(const uint8_t *bytes, size_t length)
{
    YebkuzanPaFeatures answer = yebkuzan_pa_features(bytes, length, edition);
    size_t i;

    for (i = 0; i < sizeof answer.table.raw; i++)
        value(answer.table.raw[i]);
    value(answer.table.data_streams);
    value(answer.table.vector);
    value(answer.table.vector_scalar);
    value(answer.table.vector_crypto);
    value(answer.table.transactional_memory);
    value(answer.table.copy_paste);
    value(answer.table.radix_translation);
    value(answer.table.second_watchpoint);
    value(answer.table.coprocessor);
    for (i = 0; i < YEBKUZAN_LATER_BYTES; i++)
        value(answer.table.raw_later[i]);
    return answer.number;
}

static uint32_t pi_features(const uint8_t *bytes, size_t length)
{
    YebkuzanPiFeatures answer = yebkuzan_pi_features(bytes, length);
    size_t i;

    value(answer.table.count);
    for (i = 0; i < YEBKUZAN_MOST_BYTES; i++)
        value(answer.table.bytes[i]);
    return answer.number;
}

static uint32_t bus_frequency(const uint8_t *bytes, size_t length)
{
    YebkuzanBusFrequency answer = yebkuzan_bus_frequency(bytes, length);

    value(answer.frequency);
    return answer.number;
}

static uint32_t read_unit(const uint8_t *bytes, size_t length)
{
    YebkuzanUnit answer = yebkuzan_read_unit(bytes, length);

    value(answer.unit);
    return answer.number;
}

/* A function that is given bytes and answers with a number and values. */
static void run_bytes(int function, uint32_t (*call)(const uint8_t *, size_t))
{
    uint32_t length = take32(), number, many;
    const uint8_t *bytes = take(length);
    Lent lent = lend(bytes, length);
    size_t i;

    values_count = 0;
    number = call(lent.bytes, lent.length);
    give_back(function, lent, bytes);
    same(function, "number", number, take_number(function));
    many = take32();
    same(function, "number of values", values_count, many);
    for (i = 0; i < many && i < values_count; i++) {
        uint64_t expected = take64();

        if (values[i] != expected)
            different(function, "value", i, values[i], expected);
    }
}

/* String lists */

static void run_string_place(void)
{
    size_t start = at;
    Lent list = lend_run(), text = lend_run();
    YebkuzanStringPlace found = yebkuzan_string_place(list.bytes, list.length, text.bytes, text.length);

    same(STRING_PLACE, "number", found.number, take_number(STRING_PLACE));
    same(STRING_PLACE, "place", found.place, take64());
    at = start + sizeof(uint32_t);
    give_back(STRING_PLACE, list, take(list.length));
    at += sizeof(uint32_t);
    give_back(STRING_PLACE, text, take(text.length));
    at = data_length;
}

/* Unit text */

static void run_write_unit(void)
{
    uint32_t unit = take32();
    Lent lent = lend_run();
    YebkuzanWritten written = yebkuzan_write_unit(unit, lent.bytes, lent.length);

    same(WRITE_UNIT, "number", written.number, take_number(WRITE_UNIT));
    same(WRITE_UNIT, "length", written.length, take32());
    give_back(WRITE_UNIT, lent, take(lent.length));
}

/* Cases */

static void run_case(void)
{
    at = 0;
    shift = cases + (unsigned long)round_number;
    switch (kind) {
    case 't': run_tree(); break;
    case 'r': run_record(); break;
    case 'l': run_lookup(); break;
    case 'p': run_bytes(PAGE_SIZES, page_sizes); break;
    case 's': run_bytes(SEGMENT_SIZES, segment_sizes); break;
    case 'g': run_bytes(SEGMENT_PAGE_SIZES, segment_page_sizes); break;
    case 'x': run_bytes(RADIX_ENCODINGS, radix_encodings); break;
    case 'a': edition = take32(); run_bytes(PA_FEATURES, pa_features); break;
    case 'i': run_bytes(PI_FEATURES, pi_features); break;
    case 'f': run_bytes(BUS_FREQUENCY, bus_frequency); break;
    case 'm': run_string_place(); break;
    case 'u': run_bytes(READ_UNIT, read_unit); break;
    case 'w': run_write_unit(); break;
    default: fail("no such kind");
    }
    if (at != data_length)
        fail("goes on");
}

static int next_case(void)
{
    uint8_t head[5];
    uint32_t length;
    size_t got = fread(head, 1, sizeof head, stdin);

    if (got == 0)
        return 0;
    memcpy(&length, head + 1, sizeof length);
    free(data);
    data = malloc((size_t)length + 1);
    if (got != sizeof head || data == NULL || fread(data, 1, length, stdin) != length)
        fail("the input ends in it");
    kind = (char)head[0];
    data_length = length;
    cases++;
    return 1;
}

/* How often each number was expected of a function; 0 where one of those that it can give never was. */
static int print_function(int function)
{
    unsigned long calls = 0;
    int number, complete = 1;

    for (number = 0; number < NUMBERS; number++)
        calls += expected_numbers[function][number];
    printf("%-18s %7lu calls %6lu cases differ ", functions[function].name, calls, different_cases[function]);
    for (number = 0; number < NUMBERS; number++) {
        unsigned long times = expected_numbers[function][number];

        if (functions[function].numbers >> number & 1) {
            printf(" %d:%lu", number, times);
            complete = complete && times > 0;
        } else if (times > 0) {
            printf(" %d:%lu?", number, times);
            complete = 0;
        }
    }
    printf("%s\n", complete ? "" : "  NOT EACH NUMBER THAT IT CAN GIVE, AND NO OTHER");
    return complete;
}

int main(int argc, char **argv)
{
    unsigned long differ = 0;
    int complete = 1, function;

    exact = argc == 2 && strcmp(argv[1], "--exact") == 0;
    if (argc > 2 || (argc == 2 && !exact)) {
        fprintf(stderr, "usage: harness [--exact] < CASES\n");
        return 2;
    }
    while (next_case()) {
        memset(differs, 0, sizeof differs);
        for (round_number = 0; round_number < 2; round_number++)
            run_case();
    }
    free(data);
    for (function = 0; function < FUNCTIONS; function++) {
        complete = print_function(function) && complete;
        differ += different_cases[function];
    }
    printf("%lu cases, %lu differ\n", cases, differ);
    return differ > 0 || !complete;
}
