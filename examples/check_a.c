/* Checks plans that were brought for document 01's case a, as an instructor does with those on the board: is it a plan, how good is it, and is
 * there a better one.
 *
 *    cc -I include examples/check_a.c crates/capi/out/libcapi.a -o check_a && ./check_a
 */
#include <inttypes.h>
#include <stdio.h>
#include <stdlib.h>

#include "joshkamber.h"

enum { ORDERS = 3, TRAINS = 2 };

static const joshkamber_window_sheet case_a = {
    .gap = 60,
    .window_count = 2, .window_from = {0, 150}, .window_to = {100, 200},
    .train_count = TRAINS, .capacity = {1, 2}, .running = {30, 20},
    .order_count = ORDERS, .release = {0, 40, 90}, .due = {60, 60, 200}, .weight = {1, 3, 1},
};

enum { A = 1, B = 2, C = 3 };

typedef struct {
    const char *name;
    uint32_t departures[TRAINS];
    joshkamber_row rows[ORDERS];
} plan;

static const plan plans[] = {
    {"by release", {0, 90}, {{A, 1}, {B, 2}, {C, 2}}},
    {"the same with its rows in another order", {0, 90}, {{C, 2}, {A, 1}, {B, 2}}},
    {"the heavy order first", {40, 100}, {{A, 2}, {B, 1}, {C, 2}}},
    {"by release with time to spare", {10, 95}, {{A, 1}, {B, 2}, {C, 2}}},
    {"the heavy order first and in two windows", {40, 150}, {{A, 2}, {B, 1}, {C, 2}}},
    {"train 2 a minute before C's release", {0, 89}, {{A, 1}, {B, 2}, {C, 2}}},
    {"train 2 a minute too close", {40, 99}, {{A, 2}, {B, 1}, {C, 2}}},
    {"train 2 between the windows", {40, 101}, {{A, 2}, {B, 1}, {C, 2}}},
    {"train 1 too full and train 2 not full", {40, 100}, {{A, 1}, {B, 1}, {C, 2}}},
    {"B twice and C left out", {0, 90}, {{A, 1}, {B, 2}, {B, 2}}},
    {"C on a train 3", {0, 90}, {{A, 1}, {B, 2}, {C, 3}}},
};

/* Of the listed pairs, one that is at least as good as the plan's on both counts; after a yes there is one. */
static const int64_t *as_good(joshkamber_check check, const int64_t *pairs) {
    for (size_t k = 0; k < check.pairs; k++)
        if (pairs[2 * k] <= check.last && pairs[2 * k + 1] <= check.worst)
            return &pairs[2 * k];
    return NULL;
}

/* Says of a plan what the call says; fails if a schedule is not listed and the area has no better pair. */
static int check(const plan *brought, int64_t *pairs, size_t length) {
    joshkamber_check check = joshkamber_check_windows(case_a, brought->departures, TRAINS, brought->rows, ORDERS, pairs, length);

    printf("%s: ", brought->name);
    if (check.cause.number != 0) {
        printf("refused with %zu\n", check.cause.number);
        return 0;
    }
    printf("yes: %" PRIu32 ",%" PRId64 ", %s (%zu pairs in %zu rounds)\n", check.last, check.worst, check.listed ? "listed" : "not listed",
           check.pairs, check.rounds);
    if (check.listed)
        return 0;
    const int64_t *pair = as_good(check, pairs);
    if (pair == NULL)
        return 1;
    printf("  a listed pair is at least as good: %" PRId64 ",%" PRId64 ", %" PRId64 " minutes earlier and %" PRId64 " less late\n", pair[0],
           pair[1], check.last - pair[0], check.worst - pair[1]);
    return 0;
}

int main(void) {
    size_t length = 2 * joshkamber_bound_windows(case_a).most; /* just what the list may need */
    int64_t *pairs = malloc(length * sizeof *pairs);
    int status = pairs == NULL;

    for (size_t k = 0; status == 0 && k < sizeof plans / sizeof *plans; k++)
        status = check(&plans[k], pairs, length);
    free(pairs);
    return status;
}
