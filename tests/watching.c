/* Searches that are watched, as a caller from C may have them: lists of calls in areas of exactly the length that the library says beforehand, in too
 * short ones, from damaged states and on damaged sheets, of both forms, with and without places to spare. Each call must return, keep to the areas, and
 * answer as include/joshkamber.h says. The areas are malloced, or lie against a page that may not be touched: the library itself is not built for the
 * sanitisers.
 *
 *    cc -g -fsanitize=address,undefined -I include tests/watching.c crates/capi/out/libcapi.a -o watching && ./watching
 *
 * The last line counts what was met; the exit status is 0 only if all of it held.
 */
#define _DEFAULT_SOURCE /* for mmap */
#include <stdio.h>
#include <stdlib.h>
#include <string.h>
#include <sys/mman.h>
#include <unistd.h>

#include "joshkamber.h"

enum { MOST_WINDOWS = JOSHKAMBER_MOST_WINDOWS, MOST_TRAINS = JOSHKAMBER_MOST_TRAINS, MOST_ORDERS = JOSHKAMBER_MOST_ORDERS };

/* The numbers of the refusals. */
enum { OUT_OF_RANGE = 2, TOO_MANY = 4, TOO_FEW_PLACES = 7, NO_SCHEDULE = 8, AREA_TOO_SHORT = 10 };

/* A train has no more places. */
enum { MOST_CAPACITY = 64 };

/* ---- what must hold */

static void wrong(int line, const char *what) {
    printf("watching: line %d does not hold: %s\n", line, what);
    exit(1);
}

#define MUST(holds) ((holds) ? (void)0 : wrong(__LINE__, #holds))

/* What was met, to be told at the end. */
static struct {
    size_t sheets, to_spare, empty_train, calls, bounds, bounds_refused, looks, going, ended, refused, no_search, starts_refused, too_few_places;
    size_t unknown, overfull, out_of_order, not_full, orderly, none; /* damaged trains, of states that all else would let pass */
} met;

/* ---- drawn numbers: splitmix64 with a fixed seed */

static uint64_t seed = 4;

static uint64_t bits(void) {
    uint64_t z = seed += UINT64_C(0x9e3779b97f4a7c15);
    z = (z ^ (z >> 30)) * UINT64_C(0xbf58476d1ce4e5b9);
    z = (z ^ (z >> 27)) * UINT64_C(0x94d049bb133111eb);
    return z ^ (z >> 31);
}

static uint32_t within(uint32_t low, uint32_t high) {
    return low + (uint32_t)(bits() % ((uint64_t)(high - low) + 1));
}

static bool one_in(uint32_t times) {
    return within(1, times) == 1;
}

/* ---- sheets of both forms */

typedef struct {
    bool fixed; /* of the timetable form */
    joshkamber_window_sheet windows;
    joshkamber_timetable_sheet timetable;
} sheet;

static size_t orders_of(const sheet *s) {
    return s->fixed ? s->timetable.order_count : s->windows.order_count;
}

static size_t trains_of(const sheet *s) {
    return s->fixed ? s->timetable.train_count : s->windows.train_count;
}

static const uint32_t *capacities_of(const sheet *s) {
    return s->fixed ? s->timetable.capacity : s->windows.capacity;
}

static const uint32_t *releases_of(const sheet *s) {
    return s->fixed ? s->timetable.release : s->windows.release;
}

/* The places of the first `trains` trains, which are no more than allowed. */
static size_t places_to(const sheet *s, size_t trains) {
    size_t places = 0;

    for (size_t i = 0; i < trains; i++)
        places += capacities_of(s)[i];
    return places;
}

/* How long the list may be, added up here: 1 and, for each train but the last, the places up to it, or the orders if these are fewer. */
static size_t figure_of(const sheet *s) {
    size_t figure = 1, n = orders_of(s);

    for (size_t i = 1; i < trains_of(s); i++)
        figure += places_to(s, i) < n ? places_to(s, i) : n;
    return figure;
}

/* A number at an end of some range of a sheet, or beside one. */
static size_t edge(const sheet *s) {
    size_t n = orders_of(s), q = trains_of(s), most = figure_of(s);
    const size_t edges[] = {0, 1, n - 1, n, n + 1, q - 1, q, q + 1, most - 1, most, most + 1, n * q, MOST_TRAINS, MOST_TRAINS + 1, MOST_WINDOWS,
                            MOST_WINDOWS + 1, MOST_ORDERS, MOST_ORDERS + 1, UINT8_MAX, UINT8_MAX + 1, UINT32_MAX, (size_t)UINT32_MAX + 1,
                            (size_t)UINT32_MAX + 1 + n, SIZE_MAX / 2, SIZE_MAX / 2 + 1, SIZE_MAX / 16, SIZE_MAX - 1, SIZE_MAX};
    return edges[bits() % (sizeof edges / sizeof *edges)];
}

/* What the library says of it. */
static joshkamber_bound bound(const sheet *s) {
    joshkamber_bound said = s->fixed ? joshkamber_bound_timetable(s->timetable) : joshkamber_bound_windows(s->windows);
    size_t number = said.cause.number;

    MUST(number == 0 || number == OUT_OF_RANGE || (number >= TOO_MANY && number <= TOO_FEW_PLACES));
    MUST(said.cause.returned == 0);
    MUST(said.most == (number == 0 ? figure_of(s) : 0));
    met.bounds++;
    met.bounds_refused += number != 0;
    return said;
}

static void draw_capacities(uint32_t *capacity, size_t places, size_t q) {
    for (size_t i = 0; i < q; i++)
        capacity[i] = 1;
    for (size_t rest = places - q; rest > 0;) {
        size_t i = bits() % q;
        if (capacity[i] < MOST_CAPACITY) {
            capacity[i]++;
            rest--;
        }
    }
}

/* Numbers behind the counts are not read: they are out of every range. */
static void draw_windows(joshkamber_window_sheet *s, size_t n, size_t q, size_t places) {
    uint32_t instant = within(0, 3), widest = one_in(2) ? 5 : 50;

    memset(s, 0xff, sizeof *s);
    s->gap = within(1, one_in(2) ? 2 : 12);
    s->window_count = within(1, 6);
    for (size_t m = 0; m < s->window_count; m++) {
        s->window_from[m] = instant;
        s->window_to[m] = m + 1 == s->window_count && !one_in(8) ? 5000 : instant + within(0, widest);
        instant = s->window_to[m] + within(1, 4);
    }
    s->train_count = q;
    draw_capacities(s->capacity, places, q);
    for (size_t i = 0; i < q; i++)
        s->running[i] = within(1, 9);
    s->order_count = n;
    for (size_t j = 0; j < n; j++) {
        s->release[j] = within(0, one_in(2) ? 3 : 24);
        s->due[j] = within(0, 60);
        s->weight[j] = within(1, 5);
    }
}

static void draw_timetable(joshkamber_timetable_sheet *s, size_t n, size_t q, size_t places) {
    uint32_t departure = within(0, 30), arrival = departure;

    memset(s, 0xff, sizeof *s);
    s->train_count = q;
    draw_capacities(s->capacity, places, q);
    for (size_t i = 0; i < q; i++) {
        departure += within(1, 4);
        arrival = (arrival > departure ? arrival : departure) + within(1, 4);
        s->departure[i] = departure;
        s->arrival[i] = arrival;
    }
    s->order_count = n;
    for (size_t j = 0; j < n; j++) {
        s->release[j] = within(0, 20);
        s->due[j] = within(0, 60);
        s->weight[j] = within(1, 5);
    }
}

/* Of up to `most` orders; every fourth of the greatest size. Every second one has places to spare: a few, or many. */
static void draw_sheet(sheet *s, uint32_t most) {
    uint32_t n = one_in(4) ? most : within(1, most);
    uint32_t places = one_in(2) ? n : n + within(1, one_in(2) ? 3 : 2 * n);
    uint32_t least = (places + MOST_CAPACITY - 1) / MOST_CAPACITY, greatest = places < MOST_TRAINS ? places : MOST_TRAINS;
    uint32_t q = one_in(4) ? greatest : within(least, greatest);

    s->fixed = one_in(2);
    draw_windows(&s->windows, n, q, places);
    draw_timetable(&s->timetable, n, q, places);
    met.sheets++;
    met.to_spare += places > n;
}

/* ---- areas */

enum { PAIRS, TRAINS, TIMES, AREAS };

static const size_t element[AREAS] = {sizeof(int64_t), sizeof(uint8_t), sizeof(uint32_t)};

/* Stands in each byte that no call has written. */
enum { GUARD = 0xa5 };

typedef struct {
    unsigned char *bytes, *found; /* as they are, and as the last call found them */
    size_t size;
    unsigned char *block; /* the pages where they lie, if they are not malloced */
    size_t block_size;
    size_t length; /* what calls are told, in elements */
} area;

typedef struct {
    area of[AREAS];
} areas;

/* Bytes against a page that may not be touched, behind them or before them. */
static void map_pages(area *a) {
    size_t page = (size_t)sysconf(_SC_PAGESIZE), inner = (a->size + page - 1) / page * page;

    a->block_size = inner + 2 * page;
    a->block = mmap(NULL, a->block_size, PROT_NONE, MAP_PRIVATE | MAP_ANONYMOUS, -1, 0);
    MUST(a->block != MAP_FAILED);
    MUST(inner == 0 || mprotect(a->block + page, inner, PROT_READ | PROT_WRITE) == 0);
    a->bytes = a->block + page + (one_in(2) ? inner - a->size : 0);
}

static void lend(area *a, size_t length, size_t size_of_element) {
    *a = (area){.size = length * size_of_element, .length = length};
    if (one_in(2))
        map_pages(a);
    else
        a->bytes = malloc(a->size);
    a->found = malloc(a->size);
    MUST(a->bytes != NULL && a->found != NULL);
    memset(a->bytes, GUARD, a->size);
}

static void give_back(area *a) {
    free(a->found);
    if (a->block == NULL)
        free(a->bytes);
    else
        MUST(munmap(a->block, a->block_size) == 0);
}

/* The length that a sheet needs. */
static size_t needed(int k, const sheet *s) {
    return k == PAIRS ? 2 * bound(s).most : k == TRAINS ? orders_of(s) : 3 * trains_of(s);
}

static void lend_all(areas *lent, const sheet *s) {
    for (int k = 0; k < AREAS; k++)
        lend(&lent->of[k], needed(k, s), element[k]);
}

static bool have_room(const areas *lent, const sheet *s) {
    bool room = true;

    for (int k = 0; k < AREAS; k++)
        room = lent->of[k].length >= needed(k, s) && room;
    return room;
}

static void give_back_all(areas *lent) {
    for (int k = 0; k < AREAS; k++)
        give_back(&lent->of[k]);
}

static void clear(areas *lent) {
    for (int k = 0; k < AREAS; k++)
        memset(lent->of[k].bytes, GUARD, lent->of[k].size);
}

static void keep(areas *lent) {
    for (int k = 0; k < AREAS; k++)
        memcpy(lent->of[k].found, lent->of[k].bytes, lent->of[k].size);
}

/* Nothing from this element on was changed by the last call. */
static bool as_found_from(const area *a, size_t from, size_t size_of_element) {
    size_t start = from * size_of_element;
    return start >= a->size || memcmp(a->bytes + start, a->found + start, a->size - start) == 0;
}

static bool as_found(const areas *lent) {
    bool same = true;

    for (int k = 0; k < AREAS; k++)
        same = as_found_from(&lent->of[k], 0, element[k]) && same;
    return same;
}

static int64_t *pairs_in(const areas *lent) {
    return (int64_t *)lent->of[PAIRS].bytes;
}

static uint8_t *trains_in(const areas *lent) {
    return lent->of[TRAINS].bytes;
}

static uint32_t *times_in(const areas *lent) {
    return (uint32_t *)lent->of[TIMES].bytes;
}

/* ---- states */

static bool same_state(const joshkamber_state *a, const joshkamber_state *b) {
    return a->pairs == b->pairs && a->rounds == b->rounds && a->limit == b->limit && a->last == b->last && a->ended == b->ended &&
           memcmp(a->train, b->train, MOST_ORDERS) == 0 && memcmp(a->latest, b->latest, MOST_ORDERS) == 0;
}

static const joshkamber_state no_state; /* noughts */

/* No order has a train, and each may ride the last one. */
static bool is_first_state(const joshkamber_state *state, const sheet *s) {
    bool first = state->pairs == 0 && state->rounds == 0 && state->ended == 0;

    for (size_t j = 0; j < MOST_ORDERS; j++)
        first = first && state->train[j] == 0 && state->latest[j] == trains_of(s);
    return first;
}

/* What is wrong with trains from which no loading begins. */
enum { UNKNOWN = 1, OVERFULL = 2, OUT_OF_ORDER = 4, NOT_FULL = 8 };

/* Whether order y has a train and could ride train i, a later one. */
static bool could_ride(size_t y, size_t i, const joshkamber_state *state) {
    return 1 <= state->train[y] && state->train[y] < i && i <= state->latest[y];
}

/* Whether order y, on an earlier train, could ride the train of x and is not below x by release and number. */
static bool is_passed_over(size_t y, size_t x, const joshkamber_state *state, const sheet *s) {
    const uint32_t *release = releases_of(s);
    bool below = release[y] < release[x] || (release[y] == release[x] && y < x);

    return could_ride(y, state->train[x], state) && !below;
}

/* The faults of the trains, on an admitted sheet; 0 if they are orderly. */
static int faults_of(const joshkamber_state *state, const sheet *s) {
    size_t n = orders_of(s), q = trains_of(s), riders[UINT8_MAX + 1] = {0};
    int faults = 0;

    for (size_t x = 0; x < n; x++) {
        riders[state->train[x]]++;
        faults |= state->train[x] > q ? UNKNOWN : 0;
        for (size_t y = 0; y < n; y++)
            faults |= is_passed_over(y, x, state, s) ? OUT_OF_ORDER : 0;
    }
    for (size_t i = 1; i <= q; i++) {
        size_t places = capacities_of(s)[i - 1];
        faults |= riders[i] > places ? OVERFULL : 0;
        for (size_t y = 0; y < n; y++)
            faults |= riders[i] != places && could_ride(y, i, state) ? NOT_FULL : 0;
    }
    return faults;
}

/* Whether the latest trains are the sheet's, and no more orders have one up to train i than there are places up to it. */
static bool leave_places(const joshkamber_state *state, const sheet *s) {
    size_t n = orders_of(s), q = trains_of(s), orders = 0, last[UINT8_MAX + 1] = {0};

    for (size_t j = 0; j < n; j++)
        last[state->latest[j]]++;
    for (size_t i = 0; i <= q; i++) {
        orders += last[i];
        if (orders > places_to(s, i))
            return false;
    }
    return orders == n;
}

/* Whether a round call takes the state for one of a search on this sheet, if its trains are orderly. */
static bool may_be_taken(const joshkamber_state *state, const sheet *s) {
    size_t most = figure_of(s);
    bool counts = state->pairs <= state->rounds && state->rounds <= most;

    return counts && (state->ended != 0 || (state->rounds < most && leave_places(state, s)));
}

/* Told where state, sheet and areas are seen not to be those of one search. */
static bool is_no_search(const joshkamber_round *said) {
    return said->ended && said->cause.number == 0 && said->pairs == 0 && said->rounds == 0;
}

/* ---- the calls, each with all that is promised whatever it is given */

static joshkamber_start start(const sheet *s, areas *lent) {
    const area *a = lent->of;

    keep(lent);
    joshkamber_start begun =
        s->fixed ? joshkamber_start_timetable(s->timetable, pairs_in(lent), a[PAIRS].length, trains_in(lent), a[TRAINS].length,
                                              times_in(lent), a[TIMES].length)
                 : joshkamber_start_windows(s->windows, pairs_in(lent), a[PAIRS].length, trains_in(lent), a[TRAINS].length, times_in(lent),
                                            a[TIMES].length);
    size_t number = begun.cause.number, of_sheet = bound(s).cause.number;
    MUST(as_found(lent));
    MUST(number == (of_sheet != 0 ? of_sheet : have_room(lent, s) ? 0 : AREA_TOO_SHORT));
    MUST(begun.cause.returned == 0);
    MUST(number == 0 ? is_first_state(&begun.state, s) : same_state(&begun.state, &no_state));
    if (number == 0 || number == TOO_FEW_PLACES || number == AREA_TOO_SHORT)
        MUST((number == TOO_FEW_PLACES) == (places_to(s, trains_of(s)) < orders_of(s)));
    met.calls++;
    met.starts_refused += number != 0;
    met.too_few_places += number == TOO_FEW_PLACES;
    return begun;
}

/* Only the front of the pairs area is written, and nothing where the call refuses. */
static joshkamber_listing list(const sheet *s, areas *lent) {
    const area *a = &lent->of[PAIRS];

    keep(lent);
    joshkamber_listing said = s->fixed ? joshkamber_list_timetable(s->timetable, pairs_in(lent), a->length)
                                       : joshkamber_list_windows(s->windows, pairs_in(lent), a->length);
    MUST(said.cause.returned == 0);
    MUST(said.cause.number == 0 || (said.pairs == 0 && said.rounds == 0 && as_found(lent)));
    MUST(said.pairs <= said.rounds && 2 * said.pairs <= a->length);
    MUST(as_found_from(a, 2 * said.pairs, element[PAIRS]));
    met.calls++;
    return said;
}

static joshkamber_round call_round(joshkamber_state state, const sheet *s, const areas *lent) {
    const area *a = lent->of;

    return s->fixed ? joshkamber_round_timetable(state, s->timetable, pairs_in(lent), a[PAIRS].length, trains_in(lent), a[TRAINS].length,
                                                 times_in(lent), a[TIMES].length)
                    : joshkamber_round_windows(state, s->windows, pairs_in(lent), a[PAIRS].length, trains_in(lent), a[TRAINS].length,
                                               times_in(lent), a[TIMES].length);
}

static void check_said(const joshkamber_round *said, const areas *lent) {
    MUST(said->cause.number == 0 || said->cause.number == NO_SCHEDULE);
    MUST(said->cause.returned == 0);
    MUST(said->cause.number == 0 || (said->ended && said->pairs == 0 && said->rounds == 0));
    MUST(said->ended || (said->pairs == 0 && said->rounds == 0));
    MUST(said->ended == (said->state.ended != 0) || is_no_search(said));
    MUST(said->pairs <= lent->of[PAIRS].length / 2);
}

/* Of each area only the front is written, within the length told. */
static void check_written(const joshkamber_round *said, const sheet *s, const areas *lent) {
    const area *a = lent->of;

    for (int k = 0; k < AREAS; k++)
        MUST(as_found_from(&a[k], a[k].length, element[k]));
    if (as_found(lent))
        return;
    MUST(said->state.pairs <= a[PAIRS].length / 2);
    MUST(as_found_from(&a[PAIRS], 2 * said->state.pairs, element[PAIRS]));
    MUST(as_found_from(&a[TRAINS], orders_of(s), element[TRAINS]));
    MUST(as_found_from(&a[TIMES], 3 * trains_of(s), element[TIMES]));
}

/* A round that is made leaves the trains of the plan that it writes, and behind the sheet's orders what was there. Where step 2 stops it, which is an end
 * that leaves enough places, trains and latest trains stay as they were. */
static void check_kept(const joshkamber_state *before, const joshkamber_state *after, const sheet *s, const areas *lent) {
    size_t n = orders_of(s), from = after->ended != 0 && leave_places(after, s) ? 0 : n;

    MUST(after->rounds == before->rounds + 1 && after->pairs <= before->pairs + 1);
    MUST(memcmp(after->train + from, before->train + from, MOST_ORDERS - from) == 0);
    MUST(memcmp(after->latest + from, before->latest + from, MOST_ORDERS - from) == 0);
    MUST(as_found(lent) || memcmp(after->train, trains_in(lent), n) == 0);
}

static joshkamber_round make_round(joshkamber_state state, const sheet *s, areas *lent) {
    keep(lent);
    joshkamber_round said = call_round(state, s, lent);
    bool no_search = is_no_search(&said);

    check_said(&said, lent);
    check_written(&said, s, lent);
    if (state.ended != 0 || no_search)
        MUST(as_found(lent) && same_state(&said.state, &state));
    else
        check_kept(&state, &said.state, s, lent);
    if (state.pairs > state.rounds)
        MUST(no_search);
    met.calls++;
    met.no_search += no_search;
    met.going += !said.ended;
    met.ended += said.ended && !no_search;
    met.refused += said.cause.number != 0;
    return said;
}

static size_t look(joshkamber_state state, areas *lent) {
    size_t length = lent->of[PAIRS].length;

    keep(lent);
    size_t seen = joshkamber_look(state, pairs_in(lent), length);
    MUST(as_found(lent));
    MUST(seen == (state.pairs <= length / 2 ? state.pairs : 0));
    met.calls++;
    met.looks++;
    return seen;
}

/* ---- a search as it is meant */

/* What the last round did to the pairs that were seen before it: all but the last are final. */
static void check_final(size_t before, size_t seen, const areas *lent) {
    const int64_t *now = pairs_in(lent), *read = (const int64_t *)lent->of[PAIRS].found;

    MUST(before <= seen && seen <= before + 1);
    if (before == 0)
        return;
    size_t last = 2 * (before - 1);
    MUST(memcmp(now, read, last * sizeof *now) == 0);
    MUST(now[last] == read[last] && now[last + 1] <= read[last + 1]);
}

/* Every order of the plan rides a train, and no train has more orders than places. Gives whether a train is empty. */
static bool check_loads(const sheet *s, const uint8_t *train_of_order) {
    size_t load[MOST_TRAINS] = {0};
    bool empty = false;

    for (size_t j = 0; j < orders_of(s); j++) {
        MUST(train_of_order[j] >= 1 && train_of_order[j] <= trains_of(s));
        load[train_of_order[j] - 1]++;
    }
    for (size_t i = 0; i < trains_of(s); i++) {
        MUST(load[i] <= capacities_of(s)[i]);
        empty = empty || load[i] == 0;
    }
    return empty;
}

/* The areas hold what listing, and choosing by the last listed arrival, write. */
static void check_end(const joshkamber_round *said, const sheet *s, const areas *lent) {
    areas own;
    lend_all(&own, s);
    area *a = own.of;
    joshkamber_listing listed = list(s, &own);

    MUST(said->cause.number == listed.cause.number && said->pairs == listed.pairs && said->rounds == listed.rounds);
    if (listed.pairs > 0) {
        uint32_t wish = (uint32_t)pairs_in(&own)[2 * (listed.pairs - 1)];
        joshkamber_choice choice =
            s->fixed
                ? joshkamber_choose_timetable(s->timetable, wish, trains_in(&own), a[TRAINS].length, times_in(&own), a[TIMES].length)
                : joshkamber_choose_windows(s->windows, wish, trains_in(&own), a[TRAINS].length, times_in(&own), a[TIMES].length);
        MUST(choice.cause.number == 0 && choice.last == wish);
        met.empty_train += check_loads(s, trains_in(&own));
    }
    for (int k = 0; k < AREAS; k++)
        MUST(memcmp(a[k].bytes, lent->of[k].bytes, a[k].size) == 0);
    give_back_all(&own);
}

/* Rounds with looks between, to the end and further. The end does not depend on the trains from which a round begins: now and then they are lost. */
static void whole_search(const sheet *s, areas *lent) {
    joshkamber_start begun = start(s, lent);
    joshkamber_round said = {.state = begun.state};
    size_t rounds = 0, before = 0, most = bound(s).most;

    MUST(begun.cause.number == 0 && look(begun.state, lent) == 0);
    while (!said.ended) {
        said = make_round(said.state, s, lent);
        check_final(before, said.state.pairs, lent);
        before = said.state.pairs;
        MUST(said.state.rounds == ++rounds && rounds <= most);
        if (one_in(3))
            MUST(look(said.state, lent) == before);
        if (one_in(4))
            memset(said.state.train, 0, orders_of(s));
    }
    MUST(!is_no_search(&said));
    check_end(&said, s, lent);
    for (uint32_t more = within(1, 3); more > 0; more--) {
        joshkamber_round again = make_round(said.state, s, lent);
        MUST(again.ended && again.cause.number == said.cause.number && again.pairs == said.pairs && again.rounds == said.rounds);
    }
}

/* A state of a search on this sheet, in these areas, after some rounds. */
static joshkamber_state some_state(const sheet *s, areas *lent) {
    clear(lent);
    joshkamber_state state = start(s, lent).state;

    for (uint32_t rounds = within(0, 6); rounds > 0; rounds--)
        state = make_round(state, s, lent).state;
    return state;
}

/* ---- areas that are too short */

static void check_short(joshkamber_state state, const sheet *s, areas *lent) {
    joshkamber_round said = make_round(state, s, lent);

    MUST(is_no_search(&said) && start(s, lent).cause.number == AREA_TOO_SHORT);
    MUST((list(s, lent).cause.number == AREA_TOO_SHORT) == (lent->of[PAIRS].length < needed(PAIRS, s)));
    look(state, lent);
}

/* One area is told to be shorter than needed, with memory behind what is told; then it is as short as told. */
static void short_areas(const sheet *s, areas *lent) {
    for (int k = 0; k < AREAS; k++) {
        size_t whole = lent->of[k].length, lengths[] = {0, whole - 1, bits() % whole};

        for (size_t at = 0; at < sizeof lengths / sizeof *lengths; at++) {
            joshkamber_state state = some_state(s, lent);
            areas shorter = *lent;
            shorter.of[k].length = lengths[at];
            check_short(state, s, &shorter);
            lend(&shorter.of[k], lengths[at], element[k]);
            check_short(state, s, &shorter);
            give_back(&shorter.of[k]);
        }
    }
}

/* ---- damaged states */

static void damage_field(joshkamber_state *state, const sheet *s) {
    size_t j = bits() % orders_of(s), value = edge(s);

    switch (within(0, 6)) {
    case 0: state->pairs = value; break;
    case 1: state->rounds = value; break;
    case 2: state->limit = one_in(2) ? (int64_t)value : (int64_t)within(0, 400) - 200; break;
    case 3: state->last = (uint32_t)value; break;
    case 4: state->ended = (uint8_t)value; break;
    case 5: state->train[j] = (uint8_t)value; break;
    default: state->latest[j] = (uint8_t)value; break;
    }
}

static void damage_bytes(joshkamber_state *state, size_t count) {
    for (unsigned char *bytes = (unsigned char *)state; count > 0; count--)
        bytes[bits() % sizeof *state] = (unsigned char)bits();
}

/* Each order before train i loses its train or rides i. */
static void raise_to(uint8_t i, joshkamber_state *state, size_t n) {
    for (size_t j = 0; j < n; j++)
        if (state->train[j] < i)
            state->train[j] = one_in(2) ? i : 0;
}

/* Other trains for one order, for two, for those before train i or for all, each of the sheet or none; or one train that is not on it. */
static void damage_trains(joshkamber_state *state, const sheet *s) {
    size_t n = orders_of(s), j = bits() % n, other = bits() % n;
    uint32_t q = (uint32_t)trains_of(s);
    uint8_t i = (uint8_t)within(1, q), of_j = state->train[j];

    switch (within(0, 8)) {
    case 0: state->train[j] = 0; break;
    case 1: state->train[j] = i; break;
    case 2: case 3: state->train[j] = state->train[other], state->train[other] = of_j; break;
    case 4: memset(state->train, 0, n); break;
    case 5: case 6: raise_to(i, state, n); break;
    case 7: state->train[j] = (uint8_t)within(q + 1, UINT8_MAX); break;
    default:
        for (j = 0; j < n; j++)
            state->train[j] = (uint8_t)within(0, q);
    }
}

/* A state from which a round can be made if the latest trains leave enough places, but none of this search: trains and latest trains, limit, counts and
 * last arrival are changed, and what stands behind the sheet's orders. */
static void damage_unseen(joshkamber_state *state, const sheet *s) {
    state->rounds = bits() % figure_of(s);
    state->pairs = state->rounds == 0 ? 0 : bits() % (state->rounds + 1);
    state->limit = one_in(3) ? INT64_MAX : one_in(2) ? INT64_MIN : (int64_t)within(0, 400) - 200;
    state->last = one_in(2) ? (uint32_t)bits() : state->last;
    state->ended = 0;
    memset(state->train, (int)within(0, UINT8_MAX), MOST_ORDERS);
    memset(state->train, 0, orders_of(s));
    memset(state->latest, one_in(2) ? (int)trains_of(s) : state->latest[0], MOST_ORDERS);
}

/* `other` is a state of another sheet. */
static void damage(joshkamber_state *state, const joshkamber_state *other, const sheet *s) {
    switch (within(0, 11)) {
    case 0: damage_bytes(state, 20 * sizeof *state); break;
    case 1: *state = no_state; break;
    case 2: *state = *other; break;
    case 3: damage_bytes(state, within(1, 4)); break;
    case 4: damage_unseen(state, s); break;
    case 5: case 6: case 7: case 8: damage_trains(state, s); break;
    case 9: damage_field(state, s); /* two fields */
    /* fall through */
    default: damage_field(state, s); break;
    }
}

/* Whether a round call takes a damaged state, in areas that are long enough. */
static bool is_taken(const joshkamber_state *state, const sheet *s) {
    if (!may_be_taken(state, s))
        return false;
    if (state->ended != 0)
        return true;
    int faults = faults_of(state, s);
    met.unknown += faults == UNKNOWN;
    met.overfull += faults == OVERFULL;
    met.out_of_order += faults == OUT_OF_ORDER;
    met.not_full += faults == NOT_FULL;
    return faults == 0;
}

/* Calls go on from a damaged state, if it is taken, and come to an end. */
static void damaged_states(const sheet *s, areas *lent, const joshkamber_state *other) {
    size_t most = bound(s).most;

    for (int turn = 0; turn < 24; turn++) {
        joshkamber_state sound = some_state(s, lent), state = sound;
        damage(&state, other, s);
        bool taken = is_taken(&state, s), orderly = taken && state.ended == 0 && memcmp(state.train, sound.train, orders_of(s)) != 0;
        met.orderly += orderly;
        met.none += orderly && memcmp(state.train, no_state.train, orders_of(s)) == 0;
        look(state, lent);
        joshkamber_round said = make_round(state, s, lent);
        MUST(is_no_search(&said) == !taken);
        for (size_t rounds = 1; !said.ended; rounds++) {
            bool too_many = said.state.rounds == most;
            look(said.state, lent);
            said = make_round(said.state, s, lent);
            MUST(is_no_search(&said) == too_many && rounds <= most);
        }
    }
}

/* ---- damaged sheets */

static void damage_windows(joshkamber_window_sheet *s, size_t value) {
    size_t at = bits() % 32;

    switch (within(0, 9)) {
    case 0: s->gap = (uint32_t)value; break;
    case 1: case 2: s->window_count = value; break;
    case 3: case 4: s->train_count = value; break;
    case 5: case 6: s->order_count = value; break;
    case 7: s->window_to[at % s->window_count] = (uint32_t)value; break;
    case 8: s->capacity[at % s->train_count] = (uint32_t)value; break;
    default: s->release[at % s->order_count] = (uint32_t)value; break;
    }
}

static void damage_timetable(joshkamber_timetable_sheet *s, size_t value) {
    size_t at = bits() % 32;

    switch (within(0, 7)) {
    case 0: case 1: s->train_count = value; break;
    case 2: case 3: s->order_count = value; break;
    case 4: s->capacity[at % s->train_count] = (uint32_t)value; break;
    case 5: s->arrival[at % s->train_count] = (uint32_t)value; break;
    case 6: s->departure[at % s->train_count] = (uint32_t)value; break;
    default: s->weight[at % s->order_count] = (uint32_t)value; break;
    }
}

/* A round on a sheet that a start refuses is told as no search. */
static void damaged_sheets(const sheet *s, areas *lent, const joshkamber_state *other) {
    for (int turn = 0; turn < 16; turn++) {
        joshkamber_state state = some_state(s, lent);
        sheet spoiled = *s;
        if (s->fixed)
            damage_timetable(&spoiled.timetable, edge(s));
        else
            damage_windows(&spoiled.windows, edge(s));
        if (one_in(4))
            damage(&state, other, s);
        bool refused = start(&spoiled, lent).cause.number != 0;
        joshkamber_round said = make_round(state, &spoiled, lent);
        MUST(is_no_search(&said) || !refused);
        look(said.state, lent);
    }
}

/* ---- */

static void check_layout(void) {
    MUST(sizeof(joshkamber_state) == 432);
    MUST(offsetof(joshkamber_state, pairs) == 0 && offsetof(joshkamber_state, rounds) == 8 && offsetof(joshkamber_state, limit) == 16);
    MUST(offsetof(joshkamber_state, last) == 24 && offsetof(joshkamber_state, ended) == 28);
    MUST(offsetof(joshkamber_state, train) == 29 && offsetof(joshkamber_state, latest) == 229);
    MUST(sizeof no_state.train + sizeof no_state.latest == 2 * MOST_ORDERS); /* two bytes an order */
    MUST(sizeof(joshkamber_bound) == 24 && offsetof(joshkamber_bound, most) == 16);
    MUST(sizeof(joshkamber_start) == 448 && offsetof(joshkamber_start, state) == 16);
    MUST(sizeof(joshkamber_round) == 472 && offsetof(joshkamber_round, ended) == 16 && offsetof(joshkamber_round, pairs) == 24);
    MUST(offsetof(joshkamber_round, rounds) == 32 && offsetof(joshkamber_round, state) == 40);
}

static void check_sheet(uint32_t most_orders) {
    static joshkamber_state other;
    sheet s;
    areas lent;

    draw_sheet(&s, most_orders);
    lend_all(&lent, &s);
    whole_search(&s, &lent);
    short_areas(&s, &lent);
    damaged_states(&s, &lent, &other);
    damaged_sheets(&s, &lent, &other);
    other = some_state(&s, &lent);
    give_back_all(&lent);
}

int main(void) {
    alarm(300); /* a call that does not return ends the program */
    check_layout();
    for (int turn = 0; turn < 600; turn++)
        check_sheet(9);
    for (int turn = 0; turn < 60; turn++)
        check_sheet(40);
    for (int turn = 0; turn < 6; turn++)
        check_sheet(MOST_ORDERS);
    printf("watching: %zu calls on %zu sheets (%zu with places to spare, %zu with an empty train in the last plan): %zu looks, %zu starts refused (%zu "
           "for want of places), %zu rounds that go on, %zu ends (%zu without a schedule), %zu told as no search; asked %zu times how long the list may "
           "be, %zu of them refused; damaged trains: %zu unknown, %zu overfull, %zu out of order, %zu not full, %zu orderly (%zu without any train)\n",
           met.calls, met.sheets, met.to_spare, met.empty_train, met.looks, met.starts_refused, met.too_few_places, met.going, met.ended, met.refused,
           met.no_search, met.bounds, met.bounds_refused, met.unknown, met.overfull, met.out_of_order, met.not_full, met.orderly, met.none);
    MUST(met.going > 10000 && met.ended > 1000 && met.refused > 100 && met.no_search > 10000 && met.starts_refused > 1000);
    MUST(4 * met.to_spare > met.sheets && 4 * (met.sheets - met.to_spare) > met.sheets && 10 * met.empty_train > met.sheets);
    MUST(met.too_few_places > 100 && met.bounds > 10000 && met.bounds_refused > 1000);
    MUST(met.unknown > 100 && met.overfull > 100 && met.out_of_order > 100 && met.not_full > 100);
    MUST(met.orderly > 1000 && met.none > 100 && met.orderly - met.none > 100);
    return 0;
}
