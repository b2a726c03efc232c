/*
 * The calls of the static library `exports`, for C and C++.
 *
 * A slice is a pointer and a length in bytes. A slice that is written (work, output, report, answer)
 * must not overlap any other slice of the call. No pointer may be null, not even with a length of 0.
 * Bytes need no alignment. The library keeps no pointer, allocates nothing and has no state: calls
 * with slices of their own may run at the same time.
 *
 * Every input is answered. What breaks the format is refused by a number; then no output changes,
 * and a report buffer, where the call has one, is zeroed. docs/SPECIFICATION.md has the formats and
 * the rules; all numbers in streams are little-endian.
 *
 * Stack: merging and asking types for support recurse. 640 KiB was enough for the deepest calls
 * that are known; this is measured, not proved.
 *
 * Time: every call ends, and the placings of a merge are bounded, but not the questions that its
 * layout test asks of types. A table with dynamic elements inside of dynamic elements can make them
 * double with each level (3.1 s at 26 nodes, 12 s at 28, 46 s at 30). Run a call on tables or
 * usages from strangers where it can be stopped; docs/PERFORMANCE.md says what was found to grow.
 *
 *     cc program.c -I bindings/c -L target/staticlib -lexports
 */
#ifndef USAGE_MERGER_H
#define USAGE_MERGER_H

#include <stddef.h>
#include <stdint.h>

#ifdef __cplusplus
extern "C" {
#endif

/* The bytes of work area that every call but receiver asks for, at least. What they hold before and
 * afterwards is of no matter. */
#define QPTR_WORK_AREA 49152

/* The most nodes (commands 00 to 04) that the streams of one call may have together. */
#define QPTR_MOST_NODES 512

/* No usage that is written is longer than this: a top, and 14 bytes for each node. */
#define QPTR_LONGEST_OUTPUT (1 + 14 * QPTR_MOST_NODES)

/* No report is longer than this: 14 bytes for each pairing, of which there are at most as many as
 * pairs of nodes. Most are empty. */
#define QPTR_LONGEST_REPORT (14 * (QPTR_MOST_NODES * (QPTR_MOST_NODES - 1) / 2))

/* Where in an answer each of its numbers stands. */
enum qptr_answer {
    QPTR_NUMBER,        /* 0 if answered, else a refusal */
    QPTR_YES,           /* the 1 or 0 of qptr_supports and qptr_sound; 0 if refused */
    QPTR_USAGE_LENGTH,  /* the bytes of the output that are the usage; 0 if refused */
    QPTR_REPORT_LENGTH, /* the bytes of the report buffer that are the report; 0 if refused */
    QPTR_PAIRINGS,      /* the placings made; 0 if refused */
    QPTR_ANSWER_LENGTH
};

/* Refusals, in the order in which they are tested. */
enum qptr_refusal {
    QPTR_SHORT_WORK_AREA = 1, /* under 49,152 bytes */
    QPTR_BAD_TABLE = 2,       /* the table breaks the table rules */
    QPTR_BAD_FIRST = 3,       /* the first stream or the list breaks the stream rules */
    QPTR_BAD_SECOND = 4,      /* the second stream does */
    QPTR_UNKNOWN_TYPE = 5,    /* a type number that is not in the table */
    QPTR_NOT_CONCRETE = 6,    /* support asked of a handle or failed type */
    QPTR_TOO_MANY_NODES = 7,  /* over 512 in all streams together */
    QPTR_OUTGROWN = 8,        /* the receiving usage would have to grow */
    QPTR_PAST_32_BITS = 9,    /* an offset and a size exceed 4,294,967,295 */
    QPTR_OUTPUT_SHORT = 10,   /* the usage is longer than the output */
    QPTR_REPORT_SHORT = 11    /* the report is longer than its buffer */
};

/* Commands of streams and tables. */
enum qptr_command {
    QPTR_UNUSED = 0x00,          /* size */
    QPTR_STRICTLY_TYPED = 0x01,  /* size, type (4) */
    QPTR_DIRECT_ACCESS = 0x02,   /* size, type (4) */
    QPTR_OFFSET_BASE = 0x03,     /* size, count (2), then an offset (4) and a node each */
    QPTR_DYN_OFFSET_BASE = 0x04, /* size, stride (4), element node */
    QPTR_OPAQUE = 0x08,          /* type (4) */
    QPTR_BUFFER = 0x09,          /* node */
    QPTR_MEMORY = 0x0a,          /* node */
    QPTR_LIST = 0x0b,            /* count (2), nodes */
    QPTR_SCALAR = 0x20,          /* size (4), dynamic stride (4) */
    QPTR_ELEMENTS = 0x21,        /* size (4), dynamic stride (4), stride (4), type (4), length (4) */
    QPTR_FIELDS = 0x22,          /* size (4), dynamic stride (4), count (2), offset (4), type (4) each */
    QPTR_HANDLE = 0x23,          /* nothing */
    QPTR_FAILED = 0x24           /* nothing */
};

/* Commands of reports. Operands have 4 bytes, but for the last. A report says where a group begins
 * and not where it ends. */
enum qptr_report {
    QPTR_CONFLICTS = 0x30,         /* a group begins: one or more of the next */
    QPTR_AT_OFFSET = 0x31,         /* an entry's offset, and its conflict */
    QPTR_CONFLICT_TYPE = 0x32,     /* no type supports the other usage */
    QPTR_CONFLICT_HANDLE = 0x33,   /* a handle type was asked */
    QPTR_CONFLICT_FAILED = 0x34,   /* type: its layout failed */
    QPTR_CONFLICT_STRIDE = 0x35,   /* stride of the array that the usage does not go into */
    QPTR_CONFLICT_STRADDLE = 0x36, /* the entry's offset, the usage's offset */
    QPTR_CONFLICT_UNLIKE = 0x37,   /* unlike tops */
    QPTR_AT_NODE = 0x38            /* a list's node (2 bytes, from 0), and its conflict */
};

/* What the calls named `_with` can be asked to do otherwise than the Rust: each choice is a bit, and
 * `choices` is the sum of those that are wanted. 0 is the Rust's behaviour, and that of the calls
 * without `_with`. Bits that no choice has are not looked at. */
enum qptr_choice {
    /* Of two usages that tie, being equally large and equally strict, the first receives and not the
     * second; at every level. First is, of two streams, the one given first; in a fold, the usage so
     * far, so that the first declared receives; in an array, the element that is there. Of two
     * entries of maps at one offset it is the one that is being put in, so inside of maps what was
     * declared first need not stay. */
    QPTR_TIES_TO_FIRST = 1,

    /* At the index that is its length, one past its last element, an array type contains nothing. In
     * the Rust it contains an element of size 0 there, and so may support a usage of size 0, or of
     * dynamic size, which counts as 0 in this lookup. All else is contained as before: what is in the
     * last element, up to its end; whatever is in an array without a length (0 in the table); and in
     * a struct what is at a field's end. A type is looked up where it is asked whether it supports a
     * usage: by qptr_supports, and in merging where a typed leaf receives. So merging may report more
     * conflicts of types (32). The usage, the pairings and what is refused are the same, but for 11: a
     * buffer that suffices for the lenient report may be too short for the longer one, and then, as
     * with any refusal, nothing is written. QPTR_LONGEST_REPORT bytes always suffice. */
    QPTR_STRICT_LOOKUP = 2
};

/* Which of two Memory streams receives the other: 1 the first, 2 the second, 0 where one of them is
 * bad or both have too many nodes. The larger does; of equally large ones the stricter (an Unused or
 * a map is least strict, then an array, then a typed leaf); on a tie of both the second. */
uint32_t qptr_receiver(const uint8_t *first, size_t first_length,
                       const uint8_t *second, size_t second_length);

/* Whether a type supports the usage of a Memory stream at an offset. Answers are remembered on the
 * way, so that small questions are quick; see "Time" above for where that does not help. */
void qptr_supports(const uint8_t *table, size_t table_length, uint8_t *work, size_t work_length,
                   uint32_t type, uint32_t offset, const uint8_t *stream, size_t stream_length,
                   uint64_t answer[QPTR_ANSWER_LENGTH]);

/* Whether the usage of a Memory stream is sound. */
void qptr_sound(const uint8_t *table, size_t table_length, uint8_t *work, size_t work_length,
                const uint8_t *stream, size_t stream_length, uint64_t answer[QPTR_ANSWER_LENGTH]);

/* The next three write the usage, a top, to the start of the output and keep the rest of it; and the
 * report to the start of its buffer, followed by zeros. */

/* Places the second Memory stream's usage into the first's, at an offset. */
void qptr_place(const uint8_t *table, size_t table_length, uint8_t *work, size_t work_length,
                const uint8_t *first, size_t first_length, uint32_t offset,
                const uint8_t *second, size_t second_length,
                uint8_t *output, size_t output_length, uint8_t *report, size_t report_length,
                uint64_t answer[QPTR_ANSWER_LENGTH]);

/* Merges two tops. */
void qptr_merge(const uint8_t *table, size_t table_length, uint8_t *work, size_t work_length,
                const uint8_t *first, size_t first_length,
                const uint8_t *second, size_t second_length,
                uint8_t *output, size_t output_length, uint8_t *report, size_t report_length,
                uint64_t answer[QPTR_ANSWER_LENGTH]);

/* Folds the nodes of a list. A list of sound usages is never refused with 8 or 9, and the usage
 * written is then sound, as large as the largest, and of at most as many nodes as the list. */
void qptr_fold(const uint8_t *table, size_t table_length, uint8_t *work, size_t work_length,
               const uint8_t *list, size_t list_length,
               uint8_t *output, size_t output_length, uint8_t *report, size_t report_length,
               uint64_t answer[QPTR_ANSWER_LENGTH]);

/* The same calls with choices. Formats, what the refusals mean and their order, how buffers are
 * written, the work area, and what is promised of sound usages are as without. What is chosen may
 * change the answer, and so whether it is refused: ties to the first with 8 to 11, the strict lookup
 * with 11 alone. Buffers of QPTR_LONGEST_OUTPUT and QPTR_LONGEST_REPORT bytes suffice with any
 * choices. With choices 0 they give the same answers. qptr_sound has no such twin, since nothing
 * that can be chosen touches it. */

/* The tie rule touches it. The lookup does not: no type is asked. */
uint32_t qptr_receiver_with(uint32_t choices, const uint8_t *first, size_t first_length,
                            const uint8_t *second, size_t second_length);

/* The lookup touches it. The tie rule does not: nothing is merged. */
void qptr_supports_with(uint32_t choices, const uint8_t *table, size_t table_length,
                        uint8_t *work, size_t work_length, uint32_t type, uint32_t offset,
                        const uint8_t *stream, size_t stream_length,
                        uint64_t answer[QPTR_ANSWER_LENGTH]);

/* Both choices touch this call and the next two. Here the first receives in any case; ties are met
 * where usages inside of the two are merged. */
void qptr_place_with(uint32_t choices, const uint8_t *table, size_t table_length,
                     uint8_t *work, size_t work_length,
                     const uint8_t *first, size_t first_length, uint32_t offset,
                     const uint8_t *second, size_t second_length,
                     uint8_t *output, size_t output_length, uint8_t *report, size_t report_length,
                     uint64_t answer[QPTR_ANSWER_LENGTH]);

void qptr_merge_with(uint32_t choices, const uint8_t *table, size_t table_length,
                     uint8_t *work, size_t work_length,
                     const uint8_t *first, size_t first_length,
                     const uint8_t *second, size_t second_length,
                     uint8_t *output, size_t output_length, uint8_t *report, size_t report_length,
                     uint64_t answer[QPTR_ANSWER_LENGTH]);

void qptr_fold_with(uint32_t choices, const uint8_t *table, size_t table_length,
                    uint8_t *work, size_t work_length, const uint8_t *list, size_t list_length,
                    uint8_t *output, size_t output_length, uint8_t *report, size_t report_length,
                    uint64_t answer[QPTR_ANSWER_LENGTH]);

#ifdef __cplusplus
}
#endif

#endif
