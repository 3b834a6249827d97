/* Watches the search on a sheet of the window form while it runs: shows each pair as it comes, and what replaced it by the time it is final.
 *
 *    cc -I include examples/watch_hard.c crates/capi/out/libcapi.a -o watch_hard
 *    ./watch_hard crates/stored/data/509-ladder-moving-shuffled-window.sheet
 */
#include <inttypes.h>
#include <stdio.h>
#include <stdlib.h>

#include "joshkamber.h"

/* Long enough for every sheet. */
enum {
    TEXT_LENGTH = 65536,
    TRAINS_LENGTH = JOSHKAMBER_MOST_ORDERS,
    TIMES_LENGTH = 3 * JOSHKAMBER_MOST_TRAINS
};

static uint8_t text[TEXT_LENGTH];
static uint8_t train_of_order[TRAINS_LENGTH];
static uint32_t times[TIMES_LENGTH];

/* Just long enough for the sheet. */
static int64_t *pairs;
static size_t pairs_length;

/* What is shown of the list: how many pairs, and the last one's lateness and how often it was replaced. */
typedef struct {
    size_t pairs;
    int64_t worst;
    size_t replaced;
} shown;

/* The last pair that is shown is final: a further one stands behind it, or the search has ended. */
static void show_final(const shown *list) {
    if (list->replaced > 0)
        printf("  replaced %zu times, at last by %" PRId64 ",%" PRId64 "\n", list->replaced, pairs[2 * (list->pairs - 1)], list->worst);
}

/* Looks at the list after a round. */
static void show_round(shown *list, joshkamber_state state) {
    size_t seen = joshkamber_look(state, pairs, pairs_length);

    if (seen == 0)
        return;
    const int64_t *last = &pairs[2 * (seen - 1)];
    if (seen > list->pairs) {
        show_final(list);
        printf("round %zu: pair %zu is %" PRId64 ",%" PRId64 "\n", state.rounds, seen, last[0], last[1]);
        *list = (shown){seen, last[1], 0};
    } else if (last[1] < list->worst) {
        list->worst = last[1];
        list->replaced++;
    }
}

/* How many bytes of the file were read; 0 if there is none. */
static size_t read_file(const char *path) {
    FILE *file = fopen(path, "rb");

    if (file == NULL)
        return 0;
    size_t length = fread(text, 1, TEXT_LENGTH, file);
    fclose(file);
    return length;
}

static int refused(joshkamber_cause cause) {
    if (cause.number != 0)
        printf("refused with %zu (%zu)\n", cause.number, cause.returned);
    return cause.number != 0;
}

/* Makes the whole search, and gives 1 where it is refused. */
static int watch(const joshkamber_window_sheet *sheet) {
    joshkamber_start start = joshkamber_start_windows(*sheet, pairs, pairs_length, train_of_order, TRAINS_LENGTH, times, TIMES_LENGTH);
    if (refused(start.cause))
        return 1;

    shown list = {0, 0, 0};
    joshkamber_round round = {.state = start.state};
    while (!round.ended) {
        round = joshkamber_round_windows(round.state, *sheet, pairs, pairs_length, train_of_order, TRAINS_LENGTH, times, TIMES_LENGTH);
        show_round(&list, round.state);
    }
    if (refused(round.cause))
        return 1;
    show_final(&list);
    printf("ended with %zu pairs after %zu rounds\n", round.pairs, round.rounds);
    return 0;
}

int main(int count, char **arguments) {
    if (count != 2) {
        fprintf(stderr, "usage: watch_hard SHEET\n");
        return 2;
    }
    joshkamber_windows_read read = joshkamber_read_windows(text, read_file(arguments[1]));
    if (refused(read.cause))
        return 1;
    joshkamber_bound bound = joshkamber_bound_windows(read.sheet);
    if (refused(bound.cause))
        return 1;
    pairs_length = 2 * bound.most;
    pairs = malloc(pairs_length * sizeof *pairs);
    int status = pairs == NULL ? 1 : watch(&read.sheet);

    free(pairs);
    return status;
}
