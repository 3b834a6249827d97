/* Plans document 01's case a anew after its first train has left: an order D came in, and a third train is put on for it.
 *
 *    cc -I include examples/replan_a.c crates/capi/out/libcapi.a -o replan_a && ./replan_a
 */
#include <inttypes.h>
#include <stdio.h>
#include <stdlib.h>

#include "joshkamber.h"

enum { ORDERS = 4, TRAINS = 3, MOST_GONE = 3, A = 1, B, C, D };

/* The whole day: case a's trains and orders, and behind them what is new. */
static const joshkamber_window_sheet day = {
    .gap = 60,
    .window_count = 2, .window_from = {0, 150}, .window_to = {100, 200},
    .train_count = TRAINS, .capacity = {1, 2, 1}, .running = {30, 20, 20},
    .order_count = ORDERS, .release = {0, 40, 90, 95}, .due = {60, 60, 200, 130}, .weight = {1, 3, 1, 5},
};

/* Trains that have left by a minute, and their orders. */
typedef struct {
    const char *name;
    uint32_t minute;
    size_t trains;
    uint32_t departures[MOST_GONE];
    size_t orders;
    joshkamber_row rows[MOST_GONE];
} gone;

static const gone with_a = {"train 1 left at 0 with A, minute 70", 70, 1, {0}, 1, {{A, 1}}};

static const gone others[] = {
    {"the same, minute 100", 100, 1, {0}, 1, {{A, 1}}},
    {"the same, minute 101", 101, 1, {0}, 1, {{A, 1}}},
    {"train 1 left at 40 with B, minute 40", 40, 1, {40}, 1, {{B, 1}}},
    {"train 1 left at 40 with B, minute 39", 39, 1, {40}, 1, {{B, 1}}},
    {"train 1 left at 0 with B", 70, 1, {0}, 1, {{B, 1}}},
    {"train 1 left at 40 with A and B", 70, 1, {40}, 2, {{A, 1}, {B, 1}}},
    {"train 1 left at 0 with A, and D on train 2", 70, 1, {0}, 2, {{A, 1}, {D, 2}}},
    {"train 2 left a minute too close", 70, 2, {0, 59}, 1, {{A, 1}}},
    {"all trains have left", 155, 3, {0, 95, 155}, 1, {{A, 1}}},
    {"train 1 left empty", 70, 1, {0}, 0, {{A, 1}}},
};

static joshkamber_windows_at at(const gone *left) {
    joshkamber_windows_at at = {day, left->minute};

    return at;
}

/* Lists anew and prints the pairs; gives how many there are. */
static size_t relist(const gone *left, int64_t *pairs, size_t length) {
    joshkamber_listing list =
        joshkamber_relist_windows(at(left), left->departures, left->trains, left->rows, left->orders, pairs, length);

    printf("%s:", left->name);
    if (list.cause.number != 0)
        printf(" refused with %zu", list.cause.number);
    for (size_t k = 0; k < list.pairs; k++)
        printf(" %" PRId64 ",%" PRId64, pairs[2 * k], pairs[2 * k + 1]);
    if (list.cause.number == 0)
        printf(" in %zu rounds", list.rounds);
    printf("\n");
    return list.pairs;
}

/* Chooses anew by a wished arrival and prints the whole plan, of the trains that have left too. */
static void rechoose(const gone *left, uint32_t wish) {
    uint8_t train_of_order[ORDERS];
    uint32_t times[3 * TRAINS];
    joshkamber_choice choice = joshkamber_rechoose_windows(at(left), wish, left->departures, left->trains, left->rows, left->orders,
                                                           train_of_order, ORDERS, times, 3 * TRAINS);

    if (choice.cause.number != 0) {
        printf("wished %" PRIu32 ": refused with %zu\n", wish, choice.cause.number);
        return;
    }
    printf("wished %" PRIu32 ": given %" PRIu32 ",%" PRId64 "\n", wish, choice.last, choice.worst);
    for (size_t i = 0; i < TRAINS; i++) {
        printf("  train %zu %s at %" PRIu32 " in window %" PRIu32 ", is there at %" PRIu32 ", and carries", i + 1,
               i < left->trains ? "left" : "leaves", times[3 * i], times[3 * i + 2], times[3 * i + 1]);
        for (int j = 0; j < ORDERS; j++)
            if (train_of_order[j] == i + 1)
                printf(" %c", 'A' + j);
        printf("\n");
    }
}

/* Picks each pair in turn and then an arrival that is too early; then lists behind other trains, some of them no beginning of a schedule. */
static int replan(int64_t *pairs, size_t length) {
    size_t count = relist(&with_a, pairs, length);

    if (count == 0)
        return 1;
    for (size_t k = 0; k < count; k++)
        rechoose(&with_a, (uint32_t)pairs[2 * k]);
    rechoose(&with_a, (uint32_t)pairs[0] - 1);
    for (size_t k = 0; k < sizeof others / sizeof *others; k++)
        relist(&others[k], pairs, length);
    return 0;
}

int main(void) {
    size_t length = 2 * joshkamber_bound_windows(day).most; /* just what the list may need */
    int64_t *pairs = malloc(length * sizeof *pairs);
    int status = pairs == NULL ? 1 : replan(pairs, length);

    free(pairs);
    return status;
}
