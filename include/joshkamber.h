/* Joshkamber's calls for C. Link with libcapi.a, which `rt lib` in crates/capi writes to crates/capi/out (x86-64 Linux).
 *
 * Every call returns, asks nothing of its arguments but valid memory, and keeps nothing between calls: a search that is moved round by round has
 * its place in a state, which each of its calls gives back and the caller hands to the next. What each call promises is stated and proved in
 * crates/capi/src.
 *
 * Lent memory does not overlap and is not touched by others during a call. A pointer is never null, not even with length 0.
 */
#ifndef JOSHKAMBER_H
#define JOSHKAMBER_H

#include <stdbool.h>
#include <stddef.h>
#include <stdint.h>

#ifdef __cplusplus
extern "C" {
#endif

enum {
    JOSHKAMBER_MOST_WINDOWS = 64,
    JOSHKAMBER_MOST_TRAINS = 32,
    JOSHKAMBER_MOST_ORDERS = 200
};

/* Why an input is refused; number 0: it is not.
 *
 *    1  a line of no known form, or no final byte 10      8  there is no schedule
 *    2  a value outside its range                         9  not used
 *    3  a kind of line earlier than the line above       10  a lent area is too short
 *    4  one more of a kind than allowed                  11  the wished arrival is before the first listed one
 *    5  a kind is missing                                12  a plan has not one departure for each train and one row for each order
 *    6  windows, departures or arrivals out of order     13  a plan breaks a rule: it is no schedule
 *    7  the capacities add up to less than the number    21  of the gone trains a row is wrong, a rule is broken or one left after the
 *       of orders                                            minute, or no train remains
 *
 * `returned` is the line, from 1, where a reading call refuses with 1, 2, 3, 4 or 6, and else 0. */
typedef struct {
    size_t number;
    size_t returned;
} joshkamber_cause;

/* A sheet of the window form, in columns. The first `order_count` elements of each order column are orders, and so with trains and windows; what
 * stands behind them is not read. Times are whole minutes. A train carries at most as many orders as its capacity, and may leave with empty places;
 * every train of the sheet runs, an empty one too, and the last arrival is that of the last train. */
typedef struct {
    uint32_t gap;
    size_t window_count;
    uint32_t window_from[JOSHKAMBER_MOST_WINDOWS];
    uint32_t window_to[JOSHKAMBER_MOST_WINDOWS];
    size_t train_count;
    uint32_t capacity[JOSHKAMBER_MOST_TRAINS];
    uint32_t running[JOSHKAMBER_MOST_TRAINS];
    size_t order_count;
    uint32_t release[JOSHKAMBER_MOST_ORDERS];
    uint32_t due[JOSHKAMBER_MOST_ORDERS];
    uint32_t weight[JOSHKAMBER_MOST_ORDERS];
} joshkamber_window_sheet;

/* A sheet of the timetable form. */
typedef struct {
    size_t train_count;
    uint32_t capacity[JOSHKAMBER_MOST_TRAINS];
    uint32_t departure[JOSHKAMBER_MOST_TRAINS];
    uint32_t arrival[JOSHKAMBER_MOST_TRAINS];
    size_t order_count;
    uint32_t release[JOSHKAMBER_MOST_ORDERS];
    uint32_t due[JOSHKAMBER_MOST_ORDERS];
    uint32_t weight[JOSHKAMBER_MOST_ORDERS];
} joshkamber_timetable_sheet;

/* What reading gives: the sheet, or the cause beside an empty sheet. */
typedef struct {
    joshkamber_cause cause;
    joshkamber_window_sheet sheet;
} joshkamber_windows_read;

typedef struct {
    joshkamber_cause cause;
    joshkamber_timetable_sheet sheet;
} joshkamber_timetable_read;

/* Where a name starts in the text, and how many bytes it has; 0 and 0 if the text is refused or has no such order. */
typedef struct {
    size_t start;
    size_t length;
} joshkamber_name_place;

/* What a bound call gives: `most`, so that no search of the sheet lists more pairs and none makes more rounds; or the cause beside 0. */
typedef struct {
    joshkamber_cause cause;
    size_t most;
} joshkamber_bound;

/* What listing gives: how many pairs are listed and how many rounds were made, or the cause beside 0 and 0. */
typedef struct {
    joshkamber_cause cause;
    size_t pairs;
    size_t rounds;
} joshkamber_listing;

/* What choosing gives: last arrival and worst weighted lateness of the chosen pair, or the cause beside 0 and 0. */
typedef struct {
    joshkamber_cause cause;
    uint32_t last;
    int64_t worst;
} joshkamber_choice;

/* A row of a plan made elsewhere: an order and its train, numbered from 1 as on the sheet. */
typedef struct {
    uint32_t order;
    uint32_t train;
} joshkamber_row;

/* What checking a plan gives: the plan's last arrival and worst weighted lateness, whether that pair is listed, how many pairs are and how many
 * rounds were made; or the cause beside false and noughts. */
typedef struct {
    joshkamber_cause cause;
    uint32_t last;
    int64_t worst;
    bool listed;
    size_t pairs;
    size_t rounds;
} joshkamber_check;

/* A sheet of the window form that is planned anew at a minute, when some of its first trains have left. */
typedef struct {
    joshkamber_window_sheet sheet;
    uint32_t minute;
} joshkamber_windows_at;

/* Where a search that is moved round by round stands between two calls. The caller holds it by value. `pairs`, how many pairs are recorded so far,
 * `rounds`, how many rounds were made, and `ended`, which is 0 while the search goes on, may be read; the rest is the search's own. It keeps two bytes
 * for each order: `train`, its train in the last round (0 for none, as before the first), and `latest`, the last train that it may ride in the next. */
typedef struct {
    size_t pairs;
    size_t rounds;
    int64_t limit;
    uint32_t last;
    uint8_t ended;
    uint8_t train[JOSHKAMBER_MOST_ORDERS];
    uint8_t latest[JOSHKAMBER_MOST_ORDERS];
} joshkamber_state;

/* What a start gives: the state before the first round, or the cause beside noughts. */
typedef struct {
    joshkamber_cause cause;
    joshkamber_state state;
} joshkamber_start;

/* What a round call gives: the next state, and whether the search has ended; then how many pairs are listed and how many rounds were made, or the
 * cause beside 0 and 0. */
typedef struct {
    joshkamber_cause cause;
    bool ended;
    size_t pairs;
    size_t rounds;
    joshkamber_state state;
} joshkamber_round;

/* Reads a text. Refusals 1 to 7. */
joshkamber_windows_read joshkamber_read_windows(const uint8_t *text, size_t length);
joshkamber_timetable_read joshkamber_read_timetable(const uint8_t *text, size_t length);

/* The place of an order's name in a text; orders are numbered from 1. */
joshkamber_name_place joshkamber_name_in_windows(const uint8_t *text, size_t length, size_t order);
joshkamber_name_place joshkamber_name_in_timetable(const uint8_t *text, size_t length, size_t order);

/* How long a pairs area must be, known before any round is made: for n orders and q trains
 *
 *    most = 1 + min(n, k_1) + min(n, k_1 + k_2) + .. + min(n, k_1 + .. + k_(q-1))
 *
 * where k_i is the capacity of train i. No search of the sheet lists more pairs, and none makes more rounds; there are sheets that reach it. It is
 * never more than 5985. Wherever a pairs area is lent below, 2 most elements are enough, and with one less the call refuses with 10. Tests the sheet
 * first: refusals 2 and 4 to 7. */
joshkamber_bound joshkamber_bound_windows(joshkamber_window_sheet sheet);
joshkamber_bound joshkamber_bound_timetable(joshkamber_timetable_sheet sheet);

/* Lists the pairs of a sheet of n orders and q trains, and tests the sheet first: refusals 2, 4 to 8 and 10. The lent area, with its length in
 * elements:
 *
 *    pairs            at least 2 most   last arrival and worst weighted lateness of each listed pair, by rising arrival
 *
 * where most is what the bound call gives. Only its front is written (2 elements for each listed pair), and nothing where the call refuses. */
joshkamber_listing joshkamber_list_windows(joshkamber_window_sheet sheet, int64_t *pairs, size_t pairs_length);
joshkamber_listing joshkamber_list_timetable(joshkamber_timetable_sheet sheet, int64_t *pairs, size_t pairs_length);

/* Chooses the last listed pair that is not later than the wished arrival, and gives its plan; the wish may be any number. Where it is the arrival
 * of a listed pair, that very pair is chosen. No schedule that arrives by the wish has a smaller worst lateness. Tests as listing does, and last
 * that the first listed pair is not later than the wish: refusals 2, 4 to 8, 10 and 11. The lent areas, with their lengths in elements:
 *
 *    train_of_order   at least n        the train, from 1, of each order
 *    times            at least 3 q      departure, arrival and window of each train, of an empty one too
 *
 * Windows count from 1 in the order of the sheet, and a train's window is the one that contains its departure; in the timetable form it is 0.
 * A train that no order rides waits only for its gap and window. No train is needlessly late: every schedule of the sheet whose worst lateness is no
 * greater than this plan's has each train, an empty one too, leave no earlier and arrive no earlier.
 *
 * Only the front of each area is written (n and 3 q elements), and nothing where the call refuses. */
joshkamber_choice joshkamber_choose_windows(joshkamber_window_sheet sheet, uint32_t wish, uint8_t *train_of_order,
                                            size_t train_of_order_length, uint32_t *times, size_t times_length);
joshkamber_choice joshkamber_choose_timetable(joshkamber_timetable_sheet sheet, uint32_t wish, uint8_t *train_of_order,
                                              size_t train_of_order_length, uint32_t *times, size_t times_length);

/* Checks a plan made elsewhere: says yes (number 0) exactly if it is a schedule, with its pair and whether that is listed. The plan is lent to be
 * read, with its lengths in elements; it may hold any numbers:
 *
 *    departures       q                 the departure of each train, in the order of the sheet, of an empty one too
 *    rows             n                 each order with its train; the rows stand in any order
 *
 * Arrivals are not asked for: they follow from the departures, as in our own plans. Tests the sheet and the pairs area as listing does, and then
 *
 *    12  if there are not q departures, not n rows, an order is met twice or is not one of 1 to n, or a train is not one of 1 to q;
 *    13  if a train, be it empty or not, has more orders than places, leaves before the release of one of them, outside the windows, or less than
 *        the gap behind the train ahead; in the timetable form, if one of the departures is not the sheet's.
 *
 * So the refusals are 2, 4 to 7, 10, 12 and 13. There is no 8, since a plan that passes is a schedule.
 *
 * After a yes the pairs area (at least 2 most elements) is as listing leaves it. If the plan's pair is not listed, a listed one is at least as good
 * on both counts and better on one, and choosing by its arrival gives its plan. Nothing is written where the call refuses. */
joshkamber_check joshkamber_check_windows(joshkamber_window_sheet sheet, const uint32_t *departures, size_t departures_length,
                                          const joshkamber_row *rows, size_t rows_length, int64_t *pairs, size_t pairs_length);
joshkamber_check joshkamber_check_timetable(joshkamber_timetable_sheet sheet, const uint32_t *departures, size_t departures_length,
                                            const joshkamber_row *rows, size_t rows_length, int64_t *pairs, size_t pairs_length);

/* Planning anew: at a minute some first trains of the sheet have left, and the others are planned once more, with orders that came in since. There is
 * one call that lists, and one that chooses. The sheet has every train and every order, the gone ones too. What has gone is lent to be read, with its
 * lengths in elements; it may hold any numbers, and so may the minute:
 *
 *    departures       m                 the departure of each gone train: of trains 1 to m, of an empty one too
 *    rows             any number        each order that has gone with its train, numbered from 1; the rows stand in any order
 *
 * Among all schedules that begin with the gone trains (their departures, these orders and no others aboard) and whose other trains leave no earlier
 * than the minute, behind the last gone train by the gap and the rule for arrivals, the listed pairs are the best, as in listing; the worst lateness
 * counts the gone orders too. `rounds` counts the rounds over the other trains; one in which no order is later than the worst of the gone orders is
 * the last. Where no train has gone and the minute is 0, both calls answer as listing and choosing do.
 *
 * Both test the sheet as listing and choosing do, each the areas that it fills, for the whole sheet, and then
 *
 *    21  if a row has an order that is met twice or is not one of 1 to n, or a train that is not one of 1 to m; if a gone train has more orders than
 *        places, left before the release of one of them, outside the windows, less than the gap behind the gone train ahead, or after the minute
 *        (at the minute is good); or if no train remains;
 *     8  if no schedule begins with the gone trains and has the others keep to the minute, as where the orders left outnumber the other trains' places.
 *
 * All return 0, and nothing is written where a call refuses. Lists anew: refusals 2, 4 to 8, 10 and 21. The area is that of listing, and `most` is what
 * the bound call gives for the whole sheet. */
joshkamber_listing joshkamber_relist_windows(joshkamber_windows_at at, const uint32_t *departures, size_t departures_length,
                                             const joshkamber_row *rows, size_t rows_length, int64_t *pairs, size_t pairs_length);

/* Chooses anew, by the last pair of that list which is not later than the wished arrival: refusals 2, 4 to 8, 10, 21 and, last, 11. The areas are those
 * of choosing, and take the whole plan: the train of each order, and departure, arrival and window of each train, the gone ones included. No train that
 * had not gone is needlessly late: every schedule that begins with the gone trains, has the others keep to the minute, and has a worst lateness no greater
 * than this plan's has each train leave no earlier and arrive no earlier. One that no order rides waits only for gap, window and minute. */
joshkamber_choice joshkamber_rechoose_windows(joshkamber_windows_at at, uint32_t wish, const uint32_t *departures, size_t departures_length,
                                              const joshkamber_row *rows, size_t rows_length, uint8_t *train_of_order,
                                              size_t train_of_order_length, uint32_t *times, size_t times_length);

/* A search that is watched: it is started, moved by one round a call, and looked at between rounds. In the end it has listed what listing lists,
 * and given the plan that choosing gives for the last listed arrival.
 *
 * Who owns what. The state is the caller's: it goes into a call by value and comes back by value, and between calls nobody but the caller touches
 * it. The sheet and the three areas belong to one search from its start to its last call: each call is given the same ones, and the state that the
 * call before gave back. Between calls the caller may read the areas, and writes nothing there. Searches with areas of their own may take turns.
 *
 * The areas, for n orders and q trains, with their lengths in elements:
 *
 *    pairs            at least 2 most   last arrival and worst weighted lateness of each pair recorded so far, by rising arrival
 *    train_of_order   at least n        the train, from 1, of each order in the plan of the pair recorded last
 *    times            at least 3 q      departure, arrival and window of each train in that plan
 *
 * Once a pair is recorded, no train of that plan is needlessly late, as in choosing: also while the search goes on.
 *
 * Only round calls write, and only the front of each area (2 elements for each pair, n and 3 q). Nothing outside the given areas is ever written,
 * whatever a call is given. */

/* Starts a search: tests the sheet and the lengths of all three areas, makes no round and changes nothing. Refusals 2, 4 to 7 and 10. */
joshkamber_start joshkamber_start_windows(joshkamber_window_sheet sheet, const int64_t *pairs, size_t pairs_length,
                                          const uint8_t *train_of_order, size_t train_of_order_length, const uint32_t *times,
                                          size_t times_length);
joshkamber_start joshkamber_start_timetable(joshkamber_timetable_sheet sheet, const int64_t *pairs, size_t pairs_length,
                                            const uint8_t *train_of_order, size_t train_of_order_length, const uint32_t *times,
                                            size_t times_length);

/* Moves a search by one round. If the round finds a better plan, its pair is written behind the others, or over the last one if that has the same
 * arrival, and the plan over the one before; else nothing is written. What is said:
 *
 *    not `ended`                  the search goes on
 *    `ended`, cause number 0      it has ended, with `pairs` and `rounds` as listing gives them; the areas hold the list and the last pair's plan
 *    `ended`, cause number 8      there is no schedule: the first round says so, and the areas are as they were lent
 *
 * The call that makes the last round says that the search has ended, within as many calls as the bound call gives. A further call changes nothing
 * and says the end again. There is no other refusal.
 *
 * If state, sheet and areas are not those of one search, the call returns all the same. It tells by a sheet or an area that fails the tests of a
 * start, by counts that are none of a search on this sheet and, while `state.ended` is 0, by latest trains that leave too few places and by trains
 * from which no loading begins:
 *
 *    a train that is not on this sheet, or has more orders than places
 *    an order on an earlier train than another, though it may ride that one's train and is released later (or at the same time, with a greater number)
 *    an order on a train, though it may ride a later one that is not full
 *
 * Then it says that the search has ended with 0 pairs after 0 rounds and cause number 0, as no search ends; it gives the state back unchanged and
 * changes no area. Where it cannot tell, it makes a round or says an end, of which nothing is promised but that the pairs told of lie in the area. */
joshkamber_round joshkamber_round_windows(joshkamber_state state, joshkamber_window_sheet sheet, int64_t *pairs, size_t pairs_length,
                                          uint8_t *train_of_order, size_t train_of_order_length, uint32_t *times, size_t times_length);
joshkamber_round joshkamber_round_timetable(joshkamber_state state, joshkamber_timetable_sheet sheet, int64_t *pairs, size_t pairs_length,
                                            uint8_t *train_of_order, size_t train_of_order_length, uint32_t *times, size_t times_length);

/* How many pairs are recorded so far, for either form: they are the first ones of the pairs area. All pairs seen but the last are final. The last
 * may yet be replaced, by one with the same arrival and a smaller lateness. A look changes nothing. It gives 0 if the state counts more pairs than
 * the area holds. */
size_t joshkamber_look(joshkamber_state state, const int64_t *pairs, size_t pairs_length);

#ifdef __cplusplus
}
#endif

#endif
