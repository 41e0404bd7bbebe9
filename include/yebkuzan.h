/*
 * Yebkuzan: which CPU features of a Power machine a guest may use, from its device tree.
 *
 * The library is the archive libcapi.a that ./archive writes (docs/LINKING.md). The code behind every function here is proved
 * to give the answer that its definition says, for all input; `tests/header` holds this file to that code.
 *
 * Answers. Each answer begins with `number`: 0, or the number of a refusal, YEBKUZAN_REFUSAL_.. below. Where it is not 0, every other
 * field is zero (the place of a read apart) and every buffer that was to be written keeps its bytes. Several faults may meet: each
 * function says which comes first. Padding bytes of an answer hold anything: compare fields, not memory.
 *
 * What a caller keeps to.
 *   - A pointer comes with the number of bytes behind it, in the parameter after it. All those bytes can be read, and written where the
 *     pointer is not const, until the call returns.
 *   - No pointer is NULL, not even with the length 0: pass the address of any byte then.
 *   - A buffer to be written shares no byte with any other argument. Buffers that are only read may overlap.
 *   - Nobody else writes the bytes of any argument, and nobody reads or writes those of a buffer to be written, during the call.
 *   - The stack has room for the structs, which are passed and returned by value; a YebkuzanRecord has 4,872 bytes.
 * No alignment is asked of a pointer. No value of a number or of a struct is forbidden: what is wrong is refused.
 *
 * No function keeps a pointer, allocates, or has a state between calls: any may be called again, also while another call runs. The
 * library calls memcpy and memset, and nothing else.
 */
#ifndef YEBKUZAN_H
#define YEBKUZAN_H

#include <stddef.h>
#include <stdint.h>

#ifdef __cplusplus
extern "C" {
#endif

/* Refusals */

#define YEBKUZAN_REFUSAL_NONE 0u            /* no refusal */
#define YEBKUZAN_REFUSAL_TREE_LENGTH 1u     /* fewer than 40 bytes lent; or total size below 40 or above the lent length */
#define YEBKUZAN_REFUSAL_MAGIC 2u           /* the first cell is not 0xd00dfeed */
#define YEBKUZAN_REFUSAL_TREE_SIZE 3u       /* total size above YEBKUZAN_LARGEST_TREE */
#define YEBKUZAN_REFUSAL_VERSION 4u         /* version below 17, or last compatible version above 17 */
#define YEBKUZAN_REFUSAL_BLOCK_BOUNDS 5u    /* structure or strings block out of bounds, or the structure block not in whole cells */
#define YEBKUZAN_REFUSAL_TOKEN 6u           /* a token unknown, out of place or cut short */
#define YEBKUZAN_REFUSAL_NAME 7u            /* the name of a node or of a property is not a good one, or does not end in its block */
#define YEBKUZAN_REFUSAL_TOO_MANY 8u        /* too many levels, features or dependencies, or above a table's own maximum */
#define YEBKUZAN_REFUSAL_REPEATED 9u        /* a thing given twice */
#define YEBKUZAN_REFUSAL_NOT_FOUND 10u      /* nothing of that name or type */
#define YEBKUZAN_REFUSAL_PROPERTY_FORM 11u  /* a property missing, of a wrong length, or not of the strings required */
#define YEBKUZAN_REFUSAL_OUT_OF_RANGE 12u   /* a number outside its range */
#define YEBKUZAN_REFUSAL_UNKNOWN_PHANDLE 13u /* a dependency on a phandle that no feature carries */
#define YEBKUZAN_REFUSAL_RECORD_FORM 14u    /* a feature record that is not well formed */
#define YEBKUZAN_REFUSAL_LEVEL 15u          /* a level other than the three below, or an edition other than the two */
#define YEBKUZAN_REFUSAL_POSITION 16u       /* a position not below the count of features */
#define YEBKUZAN_REFUSAL_FEATURE_ENABLED 17u /* a chain asked of an enabled feature */
#define YEBKUZAN_REFUSAL_BUFFER_LENGTH 18u  /* the buffer is shorter than what is to be written */
#define YEBKUZAN_REFUSAL_NOT_ASCENDING 19u  /* cells that do not ascend strictly */
#define YEBKUZAN_REFUSAL_UNIT_TEXT 20u      /* no unit text: empty, above 16 characters, or a character that is no hex digit */

/* Limits */

#define YEBKUZAN_HEADER_BYTES 40u       /* bytes of a tree's header */
#define YEBKUZAN_LARGEST_TREE 65536u    /* the largest total size of a tree */
#define YEBKUZAN_MOST_LEVELS 16u        /* levels of nodes; the root is level 1 */
#define YEBKUZAN_MOST_NODE_NAME 63u     /* characters of a node's name */
#define YEBKUZAN_MOST_PROPERTY_NAME 63u /* characters of a property's name */
#define YEBKUZAN_MOST_FEATURES 64u      /* features of a record; positions are below it */
#define YEBKUZAN_MOST_DEPENDENCIES 16u  /* dependencies of a feature */
#define YEBKUZAN_SLOTS 1024u            /* dependency slots of a record: 16 to a feature */
#define YEBKUZAN_HIGHEST_HFSCR_BIT 63u  /* the highest hfscr-bit-nr of a feature */
#define YEBKUZAN_HIGHEST_FSCR_BIT 63u   /* the highest fscr-bit-nr of a feature */
#define YEBKUZAN_HIGHEST_HWCAP_BIT 63u  /* the highest hwcap-bit-nr of a feature */
#define YEBKUZAN_WORDS 1u               /* words of a set of positions */
#define YEBKUZAN_TABLE_WORDS 64u        /* words of the rows of a reach table */
#define YEBKUZAN_MOST_SIZES 16u         /* page or segment sizes, or radix encodings, of a table */
#define YEBKUZAN_LARGEST_EXPONENT 63u   /* exponent of a size */
#define YEBKUZAN_NO_SIZE 4294967295u    /* in the place of an exponent of segment sizes: no size here */
#define YEBKUZAN_MOST_DESCRIPTORS 8u    /* segment descriptors of a table */
#define YEBKUZAN_MOST_PAGES 8u          /* pages of a segment descriptor */
#define YEBKUZAN_MOST_BYTES 254u        /* bytes of an attribute descriptor */
#define YEBKUZAN_LATER_BYTES 230u       /* bytes 24 to 253 of an attribute descriptor */
#define YEBKUZAN_MOST_DIGITS 16u        /* characters of a unit text that is read */
#define YEBKUZAN_LARGEST_UNIT 4294967295u /* the largest unit number */
#define YEBKUZAN_UNIT_TEXT_BYTES 8u     /* a buffer of so many bytes is long enough for every unit text that is written */

/* Levels */

#define YEBKUZAN_LEVEL_USER 0u
#define YEBKUZAN_LEVEL_SYSTEM 1u
#define YEBKUZAN_LEVEL_HYPERVISOR 2u

/* Editions of ibm,pa-features. Newer hosts fill it past byte 23: name the later edition for those. */

#define YEBKUZAN_EDITION_FIRST 0u /* bytes 0 to 23 have a meaning; those from 24 are ignored */
#define YEBKUZAN_EDITION_LATER 1u /* bytes 24 to 253 too */

/*
 * The bits of a feature's `given`: which of its properties the tree has. Absent and zero differ. In a record that does not come from
 * yebkuzan_read, a property whose bit is clear is absent, whatever number stands in its cell.
 */

#define YEBKUZAN_GIVEN_ISA 0x001u
#define YEBKUZAN_GIVEN_USABLE_PRIVILEGE 0x002u
#define YEBKUZAN_GIVEN_HV_SUPPORT 0x004u
#define YEBKUZAN_GIVEN_OS_SUPPORT 0x008u
#define YEBKUZAN_GIVEN_HFSCR_BIT_NR 0x010u
#define YEBKUZAN_GIVEN_FSCR_BIT_NR 0x020u
#define YEBKUZAN_GIVEN_HWCAP_BIT_NR 0x040u
#define YEBKUZAN_GIVEN_PHANDLE 0x080u
#define YEBKUZAN_GIVEN_DEPENDENCIES 0x100u

/* Blocks in which a property is found, and the bytes of a property that come before its value: token, length, name's offset. */

#define YEBKUZAN_CPU_BLOCK 1u
#define YEBKUZAN_PARENT_BLOCK 2u
#define YEBKUZAN_PROPERTY_HEAD 12u

/* What is handed in and out */

/*
 * A feature. The cells of its properties are as in the tree, and 0 where the property is absent; `dependencies` is their number.
 *
 * Its name is in the tree, not here: it starts 4 bytes behind the begin token at `offset`, at tree[offset + 4], and ends in a zero byte.
 * In a tree that was read without refusal that zero byte is there, within YEBKUZAN_MOST_NODE_NAME + 1 bytes.
 */
typedef struct YebkuzanFeature {
    uint32_t offset; /* of its begin token, in bytes from the start of the tree */
    uint32_t given;  /* YEBKUZAN_GIVEN_.. */
    uint32_t isa;
    uint32_t usable_privilege; /* bit 0 user, 1 system, 2 hypervisor */
    uint32_t hv_support;       /* bit 0: by the HFSCR bit hfscr_bit_nr */
    uint32_t os_support;       /* bit 0: by the FSCR bit fscr_bit_nr */
    uint32_t hfscr_bit_nr;
    uint32_t fscr_bit_nr;
    uint32_t hwcap_bit_nr; /* a feature may have none: then YEBKUZAN_GIVEN_HWCAP_BIT_NR is clear, and 0 here is not bit 0 */
    uint32_t phandle;
    uint32_t dependencies;
} YebkuzanFeature;

/*
 * A feature record: the features of a tree by position, in tree order. The feature at position i needs the features at the positions
 * slots[16 * i], slots[16 * i + 1], .., as many as its `dependencies` says. What is not used is zero.
 */
typedef struct YebkuzanRecord {
    uint32_t isa;   /* of the container */
    uint32_t count; /* of features */
    YebkuzanFeature features[YEBKUZAN_MOST_FEATURES];
    uint16_t slots[YEBKUZAN_SLOTS];
} YebkuzanRecord;

/* A set of positions: position i is in it where bit i % 64 (bit 0 is the lowest) of words[i / 64] is set. */
typedef struct YebkuzanSet {
    uint64_t words[YEBKUZAN_WORDS];
} YebkuzanSet;

/* What is granted. Positions at or above the count of a record are ignored. */
typedef struct YebkuzanGrants {
    YebkuzanSet hypervisor; /* the features that the hypervisor supports by its own code */
    YebkuzanSet system;     /* the same of the system */
    uint64_t hfscr;         /* the HFSCR bits that may be set; bit number 0 is the lowest bit */
    uint64_t fscr;          /* the same of FSCR */
} YebkuzanGrants;

/* The rows of a reach table: row i, the set at words[YEBKUZAN_WORDS * i], has position i and all that it needs, directly or not. */
typedef struct YebkuzanRows {
    uint64_t words[YEBKUZAN_TABLE_WORDS];
} YebkuzanRows;

/*
 * Exponents of powers of two, ascending, one for each of `count` cells in its place; in segment sizes a place may hold YEBKUZAN_NO_SIZE
 * instead. Places past the count are 0.
 */
typedef struct YebkuzanSizeTable {
    uint32_t count;
    uint32_t exponents[YEBKUZAN_MOST_SIZES];
} YebkuzanSizeTable;

/* A page size, as an exponent, and its encoding in a page table entry. */
typedef struct YebkuzanPage {
    uint32_t exponent;
    uint32_t encoding;
} YebkuzanPage;

/* A base page size, as an exponent, its SLB encoding, and `count` page sizes. */
typedef struct YebkuzanDescriptor {
    uint32_t base;
    uint32_t encoding;
    uint32_t count;
    YebkuzanPage pages[YEBKUZAN_MOST_PAGES];
} YebkuzanDescriptor;

typedef struct YebkuzanSegmentTable {
    uint32_t count;
    YebkuzanDescriptor descriptors[YEBKUZAN_MOST_DESCRIPTORS];
} YebkuzanSegmentTable;

/* How the page size of an exponent is encoded in radix translation. */
typedef struct YebkuzanRadixEncoding {
    uint32_t ap; /* 0 to 7 */
    uint32_t exponent;
} YebkuzanRadixEncoding;

/* `count` encodings, by ascending exponents. Places past the count are zero. */
typedef struct YebkuzanRadixTable {
    uint32_t count;
    YebkuzanRadixEncoding encodings[YEBKUZAN_MOST_SIZES];
} YebkuzanRadixTable;

/*
 * The attributes of ibm,pa-features: bytes 0 to 5 raw, eight flags, each 0 or 1, the coprocessor word, byte 8 highest, and the bytes from
 * 24 raw: raw_later[k] is byte 24 + k. Bytes that are not supplied are zero. In the first edition copy_paste, radix_translation,
 * second_watchpoint and raw_later are zero, whatever is supplied.
 */
typedef struct YebkuzanPaTable {
    uint8_t raw[6];
    uint8_t data_streams;
    uint8_t vector;
    uint8_t vector_scalar;
    uint8_t vector_crypto;
    uint8_t transactional_memory;
    uint8_t copy_paste;
    uint8_t radix_translation;
    uint8_t second_watchpoint;
    uint64_t coprocessor;
    uint8_t raw_later[YEBKUZAN_LATER_BYTES];
} YebkuzanPaTable;

/* The bytes of ibm,pi-features: `count` of them, and zeros. */
typedef struct YebkuzanPiTable {
    uint32_t count;
    uint8_t bytes[YEBKUZAN_MOST_BYTES];
} YebkuzanPiTable;

/* Answers */

typedef struct YebkuzanRead {
    uint32_t number;
    uint32_t place; /* of a refusal: a byte offset in the tree; 0 where there is none */
    YebkuzanRecord record;
} YebkuzanRead;

typedef struct YebkuzanPermitted {
    uint32_t number;
    YebkuzanSet set;
} YebkuzanPermitted;

typedef struct YebkuzanEnabled {
    uint32_t number;
    uint32_t count; /* of the set's members */
    YebkuzanSet set;
} YebkuzanEnabled;

typedef struct YebkuzanReach {
    uint32_t number;
    YebkuzanRows rows;
} YebkuzanReach;

typedef struct YebkuzanWords {
    uint32_t number;
    uint32_t hwcap_first;  /* hwcap-bit-nr 0 to 31 of the features that have one */
    uint32_t hwcap_second; /* hwcap-bit-nr 32 to 63 */
    uint64_t hfscr;
    uint64_t fscr;
} YebkuzanWords;

typedef struct YebkuzanWritten {
    uint32_t number;
    uint32_t length; /* how many bytes were put into the front of the buffer */
} YebkuzanWritten;

typedef struct YebkuzanProperty {
    uint32_t number;
    uint32_t block; /* YEBKUZAN_CPU_BLOCK or YEBKUZAN_PARENT_BLOCK */
    size_t offset;  /* of the property's token in that block */
    size_t length;  /* from its token to its value's last byte */
} YebkuzanProperty;

typedef struct YebkuzanSizes {
    uint32_t number;
    YebkuzanSizeTable table;
} YebkuzanSizes;

typedef struct YebkuzanSegments {
    uint32_t number;
    YebkuzanSegmentTable table;
} YebkuzanSegments;

typedef struct YebkuzanRadixEncodings {
    uint32_t number;
    YebkuzanRadixTable table;
} YebkuzanRadixEncodings;

typedef struct YebkuzanPaFeatures {
    uint32_t number;
    YebkuzanPaTable table;
} YebkuzanPaFeatures;

typedef struct YebkuzanPiFeatures {
    uint32_t number;
    YebkuzanPiTable table;
} YebkuzanPiFeatures;

typedef struct YebkuzanBusFrequency {
    uint32_t number;
    uint64_t frequency;
} YebkuzanBusFrequency;

typedef struct YebkuzanStringPlace {
    uint32_t number;
    size_t place; /* of a string in its list: 0 for the first, 1 for the next; no byte offset */
} YebkuzanStringPlace;

typedef struct YebkuzanUnit {
    uint32_t number;
    uint32_t unit;
} YebkuzanUnit;

/* The tree */

/*
 * The feature record of a flattened device tree: the node `ibm,powerpc-cpu-features` and its direct children. The `device_type` of that
 * node is one string, `cpu-features` or `ibm,powerpc-cpu-features`, with its zero byte and nothing more; its `compatible` is a list of
 * strings that has `ibm,powerpc-cpu-features` at any place; its `isa` is one cell. All else is 11, a missing one too.
 *
 * The bytes may be more than the tree's total size; what is behind it is not read. In this order, with place:
 *   header: 1 at 0, 2 at 0, 3 at 4, 1 at 4, 4 at 20, 4 at 24, 5 at 8, 5 at 12;
 *   the structure block's first faulty token, at its offset: 6, 7, 8 (levels), 9 (a property given twice);
 *   the container: 10 at the structure block's start, 9 at the begin token of a second one, 11 at its own;
 *   the features: 8 at the 65th, 9 at the first that has the name of an earlier one;
 *   then each feature, at its begin token, property by property: 11, 12, 9 (a phandle given twice), 8 (dependencies);
 *   last 13, at the feature that depends on the phandle.
 */
YebkuzanRead yebkuzan_read(const uint8_t *tree, size_t tree_length);

/* The resolver. A record may come from yebkuzan_read, or from anywhere else: one that is not well formed is refused. */

/*
 * Whether a record is well formed: 0, or 14. A record that was read without refusal is. It is not where the count is above 64, or where a
 * feature below it has a given bit number above 63, no hfscr_bit_nr (fscr_bit_nr) though bit 0 of hv_support (os_support) is set, more
 * than 16 dependencies, or one that is not below the count. A hwcap_bit_nr may be missing.
 */
uint32_t yebkuzan_well_formed(YebkuzanRecord record);

/* The features that are permitted at a level. 14, 15. */
YebkuzanPermitted yebkuzan_permitted(YebkuzanRecord record, uint32_t level, YebkuzanGrants grants);

/* The enabled features: the largest set of permitted features that has each member's dependencies among its members. 14, 15. */
YebkuzanEnabled yebkuzan_enable(YebkuzanRecord record, uint32_t level, YebkuzanGrants grants);

/* The reach table of a record, for yebkuzan_enable_by_table; it depends on the record alone. 14. */
YebkuzanReach yebkuzan_reach_table(YebkuzanRecord record);

/*
 * The features whose row in a table holds permitted features only. With the table of the same record these are the enabled features;
 * with any other the answer says nothing of dependencies. 14, 15.
 */
YebkuzanEnabled yebkuzan_enable_by_table(YebkuzanRecord record, YebkuzanRows table, uint32_t level, YebkuzanGrants grants);

/*
 * Why a feature is not enabled: a shortest chain from its position, each next one a dependency of the one before, to one that is not
 * permitted; among several the one with the smallest positions from the front. A byte a position, into the front of `out`; its later
 * bytes stay. YEBKUZAN_MOST_FEATURES bytes are always enough. 14, 15, 16, 17, 18.
 */
YebkuzanWritten yebkuzan_chain(
    YebkuzanRecord record, uint32_t level, YebkuzanGrants grants, uint32_t position, uint8_t *out, size_t out_length);

/*
 * The words of the enabled features: at user level the two capability words, to which a feature without a hwcap_bit_nr adds nothing;
 * below hypervisor HFSCR, and at user level FSCR, with the granted bits of enabled features whose support bit 0 is set. Zero elsewhere.
 * 14, 15.
 */
YebkuzanWords yebkuzan_words(YebkuzanRecord record, uint32_t level, YebkuzanGrants grants);

/*
 * Properties of a CPU node
 *
 * A node's block of properties is a part of the tree: the property and NOP tokens between the node's name and its first child, or its
 * end where it has none. To find it, walk the structure block. Its offset in the tree is the cell (four bytes, big-endian) at 8 of the
 * tree, its size the cell at 36. A token is a cell:
 *   1  begin node: the name follows, with its zero byte and padding to a multiple of four; level one deeper
 *   2  end node
 *   3  property: a cell with the length of its value, a cell with the offset of its name in the strings block, then the value with
 *      padding to a multiple of four
 *   4  NOP
 *   9  end
 * The block begins behind the padded name of the node and ends at the next token 1 or 2. `/cpus` is the child `cpus` of the root, and
 * CPU nodes are its children. The strings block is the part of the tree at the offset in the cell at 12, of the size in the cell at 32.
 * Walk only a tree of which yebkuzan_read gave 0 or 10 to 13: then the header and every token are good.
 */

/*
 * Where a property is: in the CPU node's block, else in that of its parent, `/cpus`. `name` has the characters without a zero byte.
 *
 * The property begins at `offset` of that block with its token; its value begins YEBKUZAN_PROPERTY_HEAD bytes later and has `length`
 * minus YEBKUZAN_PROPERTY_HEAD bytes. Both blocks are read to their ends first: 6, 7 or 9 where the CPU node's does not read as
 * properties, by its first faulty token; then the same of the parent's; 10 where neither has the property.
 */
YebkuzanProperty yebkuzan_find_property(const uint8_t *cpu, size_t cpu_length, const uint8_t *parent, size_t parent_length,
    const uint8_t *strings, size_t strings_length, const uint8_t *name, size_t name_length);

/* The number alone: 0 where the property is found, else the reason, as above. */
uint32_t yebkuzan_lookup_reason(const uint8_t *cpu, size_t cpu_length, const uint8_t *parent, size_t parent_length,
    const uint8_t *strings, size_t strings_length, const uint8_t *name, size_t name_length);

/* Tables, each from the bytes of a property's value */

/* ibm,processor-page-sizes. 11 for no bytes or no whole cells, 8 for more than 16 cells; then cell by cell 12, 19. */
YebkuzanSizes yebkuzan_page_sizes(const uint8_t *value, size_t value_length);

/*
 * ibm,processor-segment-sizes. The same, but a cell of all ones is no size: its place is kept, and YEBKUZAN_NO_SIZE stands there in the
 * table. 19 is against the last size before, such places passed over; 11 after all cells where none of them is a size.
 */
YebkuzanSizes yebkuzan_segment_sizes(const uint8_t *value, size_t value_length);

/*
 * ibm,segment-page-sizes. 11 for no bytes; then descriptor by descriptor: 8 for a ninth, 11 for a header cut short, 12 for no pages, 8
 * for more than 8 pages, 11 for pages cut short, 12 for an exponent above 63 or below the base.
 */
YebkuzanSegments yebkuzan_segment_page_sizes(const uint8_t *value, size_t value_length);

/*
 * ibm,processor-radix-AP-encodings: a cell's top three bits are the AP, the other 29 the exponent. 11 for no bytes or no whole cells, 8
 * for more than 16 cells; then cell by cell 12 for an exponent above 63, 19 where the exponents do not ascend. The AP may be any, also
 * one given before; a cell of all ones is 12.
 */
YebkuzanRadixEncodings yebkuzan_radix_encodings(const uint8_t *value, size_t value_length);

/*
 * ibm,pa-features: the one descriptor of type 0, as an edition has it. 15 for an edition other than the two, before all else; 11 for no
 * bytes; then descriptor by descriptor: 11 for a header cut short, 12 for a length of 0 or 255, 11 for bytes cut short; last 10 for none
 * of type 0, 9 for several.
 */
YebkuzanPaFeatures yebkuzan_pa_features(const uint8_t *value, size_t value_length, uint32_t edition);

/* ibm,pi-features: the one descriptor of type 0; there are no editions. 11, 12, 10, 9 as there. */
YebkuzanPiFeatures yebkuzan_pi_features(const uint8_t *value, size_t value_length);

/* ibm,extended-bus-frequency: two cells, high first. 11 for any length but 8. */
YebkuzanBusFrequency yebkuzan_bus_frequency(const uint8_t *value, size_t value_length);

/* String lists */

/*
 * At which place of a list a string first stands, counted from 0. A list is strings one behind the other, each ended by a zero byte, as
 * the value of `compatible` is in a node of a tree; this is the way to ask for a name there. A list whose last string lacks its zero byte
 * contains nothing, and neither does one of no bytes; a zero byte alone is a list of one empty string.
 *
 * `text` has the characters without a zero byte, and may be empty: one with a zero byte in it, also at its end, stands nowhere. It is
 * compared with whole strings, byte by byte. 10, and no other number, where it does not stand in the list.
 */
YebkuzanStringPlace yebkuzan_string_place(const uint8_t *list, size_t list_length, const uint8_t *text, size_t text_length);

/* Unit text of a CPU */

/* The unit number of a text in hex, of either case, without a zero byte. 20, then 12 for a number of 2^32 or more. */
YebkuzanUnit yebkuzan_read_unit(const uint8_t *text, size_t text_length);

/*
 * The shortest lower-case text of a unit number, without a zero byte, into the front of `out`; its later bytes stay. 18 where `out` is
 * shorter than the text; YEBKUZAN_UNIT_TEXT_BYTES bytes are always enough. Each digit goes straight into `out`: the call keeps no array
 * of its own, and on x86-64 it uses at most 64 bytes of stack, its return address included.
 */
YebkuzanWritten yebkuzan_write_unit(uint32_t unit, uint8_t *out, size_t out_length);

#ifdef __cplusplus
}
#endif

#endif
