/* Lists the pairs of document 01's case a, and chooses the plan of each of them.
 *
 *    cc -I include examples/choose_a.c crates/capi/out/libcapi.a -o choose_a && ./choose_a
 */
#include <inttypes.h>
#include <stdio.h>
#include <stdlib.h>

#include "joshkamber.h"

enum { ORDERS = 3, TRAINS = 2 };

static const joshkamber_window_sheet case_a = {
    .gap = 60,
    .window_count = 2, .window_from = {0, 150}, .window_to = {100, 200},
    .train_count = TRAINS, .capacity = {1, 2}, .running = {30, 20},
    .order_count = ORDERS, .release = {0, 40, 90}, .due = {60, 60, 200}, .weight = {1, 3, 1},
};

/* Chooses by a wished arrival and prints what is given. */
static void choose(uint32_t wish) {
    uint8_t train_of_order[ORDERS];
    uint32_t times[3 * TRAINS];
    joshkamber_choice choice = joshkamber_choose_windows(case_a, wish, train_of_order, ORDERS, times, 3 * TRAINS);

    if (choice.cause.number != 0) {
        printf("wished %" PRIu32 ": refused with %zu\n", wish, choice.cause.number);
        return;
    }
    printf("wished %" PRIu32 ": given %" PRIu32 ",%" PRId64 "\n", wish, choice.last, choice.worst);
    for (int i = 0; i < TRAINS; i++) {
        printf("  train %d leaves at %" PRIu32 " in window %" PRIu32 ", is there at %" PRIu32 ", and carries", i + 1, times[3 * i],
               times[3 * i + 2], times[3 * i + 1]);
        for (int j = 0; j < ORDERS; j++)
            if (train_of_order[j] == i + 1)
                printf(" %c", 'A' + j);
        printf("\n");
    }
}

/* Picks each listed pair in turn, and then an arrival that is too early. */
static int pick(int64_t *pairs, size_t length) {
    joshkamber_listing list = joshkamber_list_windows(case_a, pairs, length);

    if (list.cause.number != 0)
        return 1;
    for (size_t k = 0; k < list.pairs; k++) {
        printf("picked %" PRId64 ",%" PRId64 "\n", pairs[2 * k], pairs[2 * k + 1]);
        choose((uint32_t)pairs[2 * k]);
    }
    choose((uint32_t)pairs[0] - 1);
    return 0;
}

int main(void) {
    size_t length = 2 * joshkamber_bound_windows(case_a).most; /* just what the list may need */
    int64_t *pairs = malloc(length * sizeof *pairs);
    int status = pairs == NULL ? 1 : pick(pairs, length);

    free(pairs);
    return status;
}
