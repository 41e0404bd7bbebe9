/*
 * The list of document 01, "Both sides", through the C interface: which features of a tree a user may use, and why the others are off.
 * Every HFSCR and FSCR bit is granted, and no feature is supported by own code.
 *
 *     list < TREE
 *     list TREE
 */
#include <stdio.h>

#include "yebkuzan.h"

static uint8_t tree[YEBKUZAN_LARGEST_TREE];

/* A larger tree is refused by its header, so the first bytes of it are enough. */
static size_t read_tree(const char *path)
{
    FILE *file = path == NULL ? stdin : fopen(path, "rb");
    size_t length;

    if (file == NULL) {
        perror(path);
        return (size_t)-1;
    }
    length = fread(tree, 1, sizeof tree, file);
    if (ferror(file)) {
        perror(path == NULL ? "standard input" : path);
        length = (size_t)-1;
    }
    if (file != stdin)
        fclose(file);
    return length;
}

/* The name of a feature: 4 bytes behind its begin token, up to a zero byte. */
static const char *name_of(const YebkuzanRecord *record, uint32_t position)
{
    return (const char *)tree + record->features[position].offset + 4;
}

static int is_member(YebkuzanSet set, uint32_t position)
{
    return (set.words[position / 64] >> position % 64 & 1) != 0;
}

/* The chain of a feature that is off; a buffer of as many bytes as there may be features is never too short. */
static void print_chain(const YebkuzanRecord *record, uint32_t level, YebkuzanGrants grants, uint32_t position)
{
    uint8_t positions[YEBKUZAN_MOST_FEATURES];
    YebkuzanWritten chain = yebkuzan_chain(*record, level, grants, position, positions, sizeof positions);
    uint32_t i;

    for (i = 0; i < chain.length; i++)
        printf("%s%s", i == 0 ? "" : ">", name_of(record, positions[i]));
}

static void print_list(const YebkuzanRecord *record, uint32_t level, YebkuzanGrants grants)
{
    YebkuzanEnabled enabled = yebkuzan_enable(*record, level, grants);
    YebkuzanWords words = yebkuzan_words(*record, level, grants);
    uint32_t i;

    printf("isa %lu features %lu enabled %lu\n", (unsigned long)record->isa, (unsigned long)record->count, (unsigned long)enabled.count);
    for (i = 0; i < record->count; i++) {
        printf("%lu %s ", (unsigned long)i, name_of(record, i));
        if (is_member(enabled.set, i)) {
            printf("on");
        } else {
            printf("off ");
            print_chain(record, level, grants, i);
        }
        printf("\n");
    }
    printf("hwcap %08lx %08lx fscr %016llx hfscr %016llx\n", (unsigned long)words.hwcap_first, (unsigned long)words.hwcap_second,
        (unsigned long long)words.fscr, (unsigned long long)words.hfscr);
}

int main(int argc, char **argv)
{
    const YebkuzanGrants all_bits = { { { 0 } }, { { 0 } }, UINT64_MAX, UINT64_MAX };
    size_t length = read_tree(argc > 1 ? argv[1] : NULL);
    YebkuzanRead read;

    if (length == (size_t)-1)
        return 2;
    read = yebkuzan_read(tree, length);
    if (read.number != YEBKUZAN_REFUSAL_NONE) {
        printf("refused %lu at %lu\n", (unsigned long)read.number, (unsigned long)read.place);
        return 1;
    }
    print_list(&read.record, YEBKUZAN_LEVEL_USER, all_bits);
    return 0;
}
