/* The deepest stack use of each function of the C interface: each is called on a stack filled with a pattern. For x86-64. */
#include <stdio.h>
#include <stdlib.h>
#include <string.h>

#include "yebkuzan.h"

enum { STACK = 1 << 20, LARGEST = YEBKUZAN_LARGEST_TREE, MOST = 65536, MOST_WRITE_UNIT = 64 };

static uint8_t tree[LARGEST];
static size_t tree_length;
static YebkuzanRecord full;
static YebkuzanRows rows;
static const YebkuzanGrants all_bits = { { { 0 } }, { { 0 } }, ~UINT64_C(0), ~UINT64_C(0) };
static uint8_t out[YEBKUZAN_MOST_FEATURES];
static const uint8_t cells[64];
static const uint8_t encodings[] = { 0, 0, 0, 12, 0xa0, 0, 0, 16, 0x20, 0, 0, 21, 0x40, 0, 0, 30 };
static const uint8_t attributes[2 + YEBKUZAN_MOST_BYTES] = { YEBKUZAN_MOST_BYTES };
static const uint8_t names[] = "ibm,power9-cpu-features\0ibm,powerpc-cpu-features";

/* Each call keeps its arguments and its answer in its own frame, as a caller's does. */
static volatile uint32_t kept;

static void nothing(void) {}
static void read_tree(void) { kept = yebkuzan_read(tree, tree_length).number; }
static void well_formed(void) { kept = yebkuzan_well_formed(full); }
static void permitted(void) { kept = yebkuzan_permitted(full, 0, all_bits).number; }
static void enable(void) { kept = yebkuzan_enable(full, 0, all_bits).number; }
static void reach_table(void) { kept = yebkuzan_reach_table(full).number; }
static void by_table(void) { kept = yebkuzan_enable_by_table(full, rows, 0, all_bits).number; }
static void chain(void) { kept = yebkuzan_chain(full, 0, all_bits, 0, out, sizeof out).number; }
static void words(void) { kept = yebkuzan_words(full, 0, all_bits).number; }
static void find_property(void) { kept = yebkuzan_find_property(cells, 64, cells, 64, cells, 64, cells, 4).number; }
static void reason(void) { kept = yebkuzan_lookup_reason(cells, 64, cells, 64, cells, 64, cells, 4); }
static void page_sizes(void) { kept = yebkuzan_page_sizes(cells, 64).number; }
static void segment_pages(void) { kept = yebkuzan_segment_page_sizes(cells, 64).number; }
static void radix(void) { kept = yebkuzan_radix_encodings(encodings, sizeof encodings).number; }
static void pa_features(void) { kept = yebkuzan_pa_features(attributes, sizeof attributes, 1).number; }
static void pi_features(void) { kept = yebkuzan_pi_features(cells, 64).number; }
static void bus_frequency(void) { kept = yebkuzan_bus_frequency(cells, 8).number; }
static void string_place(void) { kept = yebkuzan_string_place(names, sizeof names, names + 24, 24).number; }
static void read_unit(void) { kept = yebkuzan_read_unit(cells, 8).number; }
static void write_unit(void) { kept = yebkuzan_write_unit(255, out, sizeof out).number; }

/* Makes a call on another stack, given by its top. */
void call_on(void (*call)(void), uint8_t *top);
__asm__(".text\n"
        "call_on:\n"
        "    push %rbp\n"
        "    mov %rsp, %rbp\n"
        "    mov %rsi, %rsp\n"
        "    call *%rdi\n"
        "    mov %rbp, %rsp\n"
        "    pop %rbp\n"
        "    ret\n");

static _Alignas(4096) uint8_t stack[STACK];

static size_t depth_by(void (*call)(void), uint8_t pattern)
{
    size_t k = 0;

    memset(stack, pattern, STACK);
    call_on(call, stack + STACK);
    while (k < STACK && stack[k] == pattern)
        k++;
    return STACK - k;
}

/* By two patterns: a byte that happens to be written with the one differs from the other. */
static size_t depth(void (*call)(void))
{
    size_t a = depth_by(call, 0xa5), b = depth_by(call, 0x5a);
    return a > b ? a : b;
}

static void load(const char *path)
{
    FILE *f = fopen(path, "rb");
    if (f == NULL) {
        perror(path);
        exit(2);
    }
    tree_length = fread(tree, 1, sizeof tree, f);
    fclose(f);
}

/* A chain of 64 features, the last of which is not permitted. */
static void fill(void)
{
    full.count = YEBKUZAN_MOST_FEATURES;
    for (uint32_t i = 0; i < YEBKUZAN_MOST_FEATURES; i++) {
        YebkuzanFeature *f = &full.features[i];
        f->given = YEBKUZAN_GIVEN_USABLE_PRIVILEGE | YEBKUZAN_GIVEN_HWCAP_BIT_NR;
        f->usable_privilege = i == 63 ? 6 : 7;
        if (i < 63) {
            f->given |= YEBKUZAN_GIVEN_DEPENDENCIES;
            f->dependencies = 1;
            full.slots[YEBKUZAN_MOST_DEPENDENCIES * i] = (uint16_t)(i + 1);
        }
    }
}

/* Prints the depth of a call, and says whether it is within a bound. */
static int within(const char *read, const char *name, void (*call)(void), size_t bound)
{
    size_t used = depth(call) - depth(nothing);

    printf("  %s%-*s %7zu, of at most %5zu\n", read, 45 - (int)strlen(read), name, used, bound);
    return used <= bound;
}

int main(int argc, char **argv)
{
    static const struct {
        const char *name;
        void (*call)(void);
    } calls[] = { { "well_formed", well_formed }, { "permitted", permitted }, { "enable", enable }, { "reach_table", reach_table },
        { "enable_by_table", by_table }, { "chain", chain }, { "words", words }, { "find_property", find_property },
        { "lookup_reason", reason }, { "page_sizes", page_sizes }, { "segment_page_sizes", segment_pages }, { "radix_encodings", radix },
        { "pa_features", pa_features }, { "pi_features", pi_features }, { "bus_frequency", bus_frequency },
        { "string_place", string_place }, { "read_unit", read_unit } };
    int good = 1;

    if (argc < 2)
        return 2;
    fill();
    printf("deepest stack use, bytes, the caller's arguments and answer included:\n");
    for (int k = 1; k < argc; k++) {
        load(argv[k]);
        good &= within("read ", strrchr(argv[k], '/') == NULL ? argv[k] : strrchr(argv[k], '/') + 1, read_tree, MOST);
    }
    for (size_t k = 0; k < sizeof calls / sizeof *calls; k++)
        good &= within("", calls[k].name, calls[k].call, MOST);
    good &= within("", "write_unit", write_unit, MOST_WRITE_UNIT);
    return good ? 0 : 1;
}
