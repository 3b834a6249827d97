/* Lists the pairs of document 01's case a, chooses the plan of the last one, and prints both as the program `plan` does.
 *
 *    cc -I include examples/plan_a.c crates/capi/out/libcapi.a -o plan_a && ./plan_a
 */
#include <inttypes.h>
#include <stdio.h>
#include <stdlib.h>

#include "joshkamber.h"

static const char case_a[] =
    "G,60\n"
    "W,0,100\n"
    "W,150,200\n"
    "T,1,30\n"
    "T,2,20\n"
    "O,A,0,60,1\n"
    "O,B,40,60,3\n"
    "O,C,90,200,1\n";

static const uint8_t *const text = (const uint8_t *)case_a;

enum { LENGTH = sizeof case_a - 1 };

/* Long enough for every sheet. */
static uint8_t train_of_order[JOSHKAMBER_MOST_ORDERS];
static uint32_t times[3 * JOSHKAMBER_MOST_TRAINS];

static int refused(joshkamber_cause cause) {
    if (cause.number != 0)
        printf("E,%zu,%zu\n", cause.number, cause.returned);
    return cause.number != 0;
}

/* Lists, chooses and prints; gives 1 where something is refused. */
static int plan(const joshkamber_window_sheet *sheet, int64_t *pairs, size_t length) {
    joshkamber_listing list = joshkamber_list_windows(*sheet, pairs, length);
    if (refused(list.cause))
        return 1;
    uint32_t last_arrival = (uint32_t)pairs[2 * (list.pairs - 1)];
    joshkamber_choice choice = joshkamber_choose_windows(*sheet, last_arrival, train_of_order, sizeof train_of_order, times,
                                                         sizeof times / sizeof *times);
    if (refused(choice.cause))
        return 1;

    for (size_t k = 0; k < list.pairs; k++)
        printf("P,%" PRId64 ",%" PRId64 "\n", pairs[2 * k], pairs[2 * k + 1]);
    for (size_t i = 0; i < sheet->train_count; i++)
        printf("D,%zu,%" PRIu32 ",%" PRIu32 ",%" PRIu32 "\n", i + 1, times[3 * i], times[3 * i + 1], times[3 * i + 2]);
    for (size_t j = 0; j < sheet->order_count; j++) {
        joshkamber_name_place name = joshkamber_name_in_windows(text, LENGTH, j + 1);
        printf("L,%.*s,%u\n", (int)name.length, case_a + name.start, train_of_order[j]);
    }
    printf("R,%zu\n", list.rounds);
    return 0;
}

int main(void) {
    joshkamber_windows_read read = joshkamber_read_windows(text, LENGTH);
    if (refused(read.cause))
        return 1;
    joshkamber_bound bound = joshkamber_bound_windows(read.sheet);
    if (refused(bound.cause))
        return 1;
    size_t length = 2 * bound.most; /* just what the list may need */
    int64_t *pairs = malloc(length * sizeof *pairs);
    int status = pairs == NULL ? 1 : plan(&read.sheet, pairs, length);

    free(pairs);
    return status;
}
