/*
 * All six calls, three of them with ties to the first and two with the strict lookup, on document 01's
 * bench table. Usages stand in comments as document 01 writes them.
 */
#include "usage_merger.h"

#include <inttypes.h>
#include <stdio.h>

/* 0 and 1 scalars of 4 bytes, 2 a struct of both, 3 an array of four of type 0, 4 a handle. */
static const uint8_t table[] = {
    5, 0,
    QPTR_SCALAR, 4, 0, 0, 0, 0, 0, 0, 0,
    QPTR_SCALAR, 4, 0, 0, 0, 0, 0, 0, 0,
    QPTR_FIELDS, 8, 0, 0, 0, 0, 0, 0, 0, 2, 0, 0, 0, 0, 0, 0, 0, 0, 0, 4, 0, 0, 0, 1, 0, 0, 0,
    QPTR_ELEMENTS, 16, 0, 0, 0, 0, 0, 0, 0, 4, 0, 0, 0, 0, 0, 0, 0, 4, 0, 0, 0,
    QPTR_HANDLE,
};

/* O8[0:D4,1]: four bytes of type 1 at offset 0. */
static const uint8_t wrong_field[] = {
    QPTR_MEMORY, QPTR_OFFSET_BASE, 1, 8, 0, 0, 0, 1, 0,
    0, 0, 0, 0, QPTR_DIRECT_ACCESS, 1, 4, 0, 0, 0, 1, 0, 0, 0,
};

/* D8,2: the struct as a whole. */
static const uint8_t whole[] = {QPTR_MEMORY, QPTR_DIRECT_ACCESS, 1, 8, 0, 0, 0, 2, 0, 0, 0};

/* D4,1: four bytes of type 1. */
static const uint8_t field[] = {QPTR_MEMORY, QPTR_DIRECT_ACCESS, 1, 4, 0, 0, 0, 1, 0, 0, 0};

/* D4,0: four bytes of type 0, as large and as strict as D4,1. */
static const uint8_t other_field[] = {QPTR_MEMORY, QPTR_DIRECT_ACCESS, 1, 4, 0, 0, 0, 0, 0, 0, 0};

/* D4,0 and then D4,1, as a list. */
static const uint8_t declared[] = {
    QPTR_LIST, 2, 0,
    QPTR_DIRECT_ACCESS, 1, 4, 0, 0, 0, 0, 0, 0, 0,
    QPTR_DIRECT_ACCESS, 1, 4, 0, 0, 0, 1, 0, 0, 0,
};

/* D16,3: the array as a whole. */
static const uint8_t array[] = {QPTR_MEMORY, QPTR_DIRECT_ACCESS, 1, 16, 0, 0, 0, 3, 0, 0, 0};

/* D0,0: no bytes, of the array's element type. */
static const uint8_t empty[] = {QPTR_MEMORY, QPTR_DIRECT_ACCESS, 1, 0, 0, 0, 0, 0, 0, 0, 0};

/* O16[16:D0,0]: the same at offset 16, one past the array's last element. */
static const uint8_t past_end[] = {
    QPTR_MEMORY, QPTR_OFFSET_BASE, 1, 16, 0, 0, 0, 1, 0,
    16, 0, 0, 0, QPTR_DIRECT_ACCESS, 1, 0, 0, 0, 0, 0, 0, 0, 0,
};

/* U8, D4,0 and D8,2, as a list. The unused 8 bytes become D8,0, which the struct does not support: the
 * report has a conflict of node 2. */
static const uint8_t list[] = {
    QPTR_LIST, 3, 0,
    QPTR_UNUSED, 1, 8, 0, 0, 0,
    QPTR_DIRECT_ACCESS, 1, 4, 0, 0, 0, 0, 0, 0, 0,
    QPTR_DIRECT_ACCESS, 1, 8, 0, 0, 0, 2, 0, 0, 0,
};

static uint8_t work[QPTR_WORK_AREA];
static uint8_t output[QPTR_LONGEST_OUTPUT];
static uint8_t report[1024];
static uint64_t answer[QPTR_ANSWER_LENGTH];

static void show_bytes(const char *name, const uint8_t *bytes, uint64_t length)
{
    printf(", %s ", name);
    if (length == 0)
        printf("-");
    for (uint64_t i = 0; i < length; i++)
        printf("%02x", bytes[i]);
}

static void show_answer(const char *name)
{
    if (answer[QPTR_NUMBER] != 0) {
        printf("%s: refusal %" PRIu64 "\n", name, answer[QPTR_NUMBER]);
        return;
    }
    printf("%s: pairings %" PRIu64, name, answer[QPTR_PAIRINGS]);
    show_bytes("usage", output, answer[QPTR_USAGE_LENGTH]);
    show_bytes("report", report, answer[QPTR_REPORT_LENGTH]);
    printf("\n");
}

static void show_verdict(const char *name)
{
    if (answer[QPTR_NUMBER] != 0)
        printf("%s: refusal %" PRIu64 "\n", name, answer[QPTR_NUMBER]);
    else
        printf("%s: %s\n", name, answer[QPTR_YES] ? "yes" : "no");
}

/* Where two tie, the choice decides who receives, and so which type is kept. */
static void show_ties(uint32_t choices, const char *ties)
{
    printf("with %s:\n", ties);
    printf("receiver of D4,0 and D4,1: %" PRIu32 "\n",
           qptr_receiver_with(choices, other_field, sizeof other_field, field, sizeof field));

    qptr_merge_with(choices, table, sizeof table, work, sizeof work, other_field,
                    sizeof other_field, field, sizeof field, output, sizeof output,
                    report, sizeof report, answer);
    show_answer("merge D4,0 with D4,1");

    qptr_fold_with(choices, table, sizeof table, work, sizeof work, declared, sizeof declared,
                   output, sizeof output, report, sizeof report, answer);
    show_answer("fold D4,0, D4,1");
}

/* Whether the array contains a place of no bytes one past its last element. */
static void show_lookup(uint32_t choices, const char *lookup)
{
    printf("with %s:\n", lookup);
    qptr_supports_with(choices, table, sizeof table, work, sizeof work, 3, 16, empty, sizeof empty,
                       answer);
    show_verdict("type 3 supports D0,0 at 16");

    qptr_merge_with(choices, table, sizeof table, work, sizeof work, past_end, sizeof past_end,
                    array, sizeof array, output, sizeof output, report, sizeof report, answer);
    show_answer("merge O16[16:D0,0] with D16,3");
}

int main(void)
{
    qptr_merge(table, sizeof table, work, sizeof work, wrong_field, sizeof wrong_field,
               whole, sizeof whole, output, sizeof output, report, sizeof report, answer);
    show_answer("merge O8[0:D4,1] with D8,2");

    qptr_place(table, sizeof table, work, sizeof work, whole, sizeof whole, 4, field, sizeof field,
               output, sizeof output, report, sizeof report, answer);
    show_answer("place D4,1 in D8,2 at 4");

    qptr_place(table, sizeof table, work, sizeof work, whole, sizeof whole, 6, field, sizeof field,
               output, sizeof output, report, sizeof report, answer);
    show_answer("place D4,1 in D8,2 at 6");

    qptr_fold(table, sizeof table, work, sizeof work, list, sizeof list,
              output, sizeof output, report, sizeof report, answer);
    show_answer("fold U8, D4,0, D8,2");

    qptr_supports(table, sizeof table, work, sizeof work, 2, 4, field, sizeof field, answer);
    show_verdict("type 2 supports D4,1 at 4");

    qptr_supports(table, sizeof table, work, sizeof work, 4, 0, field, sizeof field, answer);
    show_verdict("type 4, a handle, supports D4,1 at 0");

    qptr_sound(table, sizeof table, work, sizeof work, wrong_field, sizeof wrong_field, answer);
    show_verdict("O8[0:D4,1] is sound");

    printf("receiver of O8[0:D4,1] and D8,2: %" PRIu32 "\n",
           qptr_receiver(wrong_field, sizeof wrong_field, whole, sizeof whole));

    show_ties(0, "ties to the second, as in the Rust");
    show_ties(QPTR_TIES_TO_FIRST, "ties to the first");
    show_lookup(0, "the lenient lookup, as in the Rust");
    show_lookup(QPTR_STRICT_LOOKUP, "the strict lookup");
    return 0;
}
