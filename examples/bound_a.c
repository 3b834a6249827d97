/* Asks how long the list of document 01's case a may be, lends just so much, and lists. One number less is refused, and so is a sheet that has a fault.
 *
 *    cc -I include examples/bound_a.c crates/capi/out/libcapi.a -o bound_a && ./bound_a
 */
#include <inttypes.h>
#include <stdio.h>
#include <stdlib.h>

#include "joshkamber.h"

static const joshkamber_window_sheet case_a = {
    .gap = 60,
    .window_count = 2, .window_from = {0, 150}, .window_to = {100, 200},
    .train_count = 2, .capacity = {1, 2}, .running = {30, 20},
    .order_count = 3, .release = {0, 40, 90}, .due = {60, 60, 200}, .weight = {1, 3, 1},
};

/* Lends so many numbers, and prints the list or the refusal. */
static void list(int64_t *pairs, size_t length) {
    joshkamber_listing list = joshkamber_list_windows(case_a, pairs, length);

    printf("lent %zu numbers: ", length);
    if (list.cause.number != 0) {
        printf("refused with %zu\n", list.cause.number);
        return;
    }
    printf("%zu pairs in %zu rounds\n", list.pairs, list.rounds);
    for (size_t k = 0; k < list.pairs; k++)
        printf("  %" PRId64 ",%" PRId64 "\n", pairs[2 * k], pairs[2 * k + 1]);
}

/* Prints how long the list of a sheet may be, and gives it; 0 if the sheet is refused. */
static size_t bound(const char *name, joshkamber_window_sheet sheet) {
    joshkamber_bound bound = joshkamber_bound_windows(sheet);

    if (bound.cause.number != 0)
        printf("%s: refused with %zu\n", name, bound.cause.number);
    else
        printf("%s: at most %zu pairs, in at most %zu rounds\n", name, bound.most, bound.most);
    return bound.most;
}

int main(void) {
    size_t most = bound("case a", case_a);
    int64_t *pairs = malloc(2 * most * sizeof *pairs); /* a pair takes two numbers */

    if (most == 0 || pairs == NULL)
        return 1;
    list(pairs, 2 * most);
    list(pairs, 2 * most - 1);
    free(pairs);

    joshkamber_window_sheet roomy = case_a, narrow = case_a;
    roomy.capacity[0] = 64;
    bound("with places to spare on train 1", roomy);
    narrow.capacity[1] = 1;
    bound("with a place too few", narrow);
    return 0;
}
