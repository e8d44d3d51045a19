/* What a unit's firmware does: reads plans, with closed tracks too, labels gates, prints a route leg by leg, asks one block a few calls, and its
 * index for the least of a row. */
#include <stdio.h>
#include <string.h>

#include "rabdzhine.h"

static const char PLAN[] =
    "     5     1\n"
    "     4     1     2     3     4\n"
    "     0     3     7     5\n"
    "     3     0     4     6\n"
    "     7     4     0     2\n"
    "     5     6     2     0\n"
    "     1\n";

/* two districts that share gate 2, and a question with a target: from gate 1 to gate 3 */
static const char ROUTE_PLAN[] =
    "     3     2\n"
    "     2     1     2\n"
    "     0     5\n"
    "     6     0\n"
    "     2     2     3\n"
    "     0     7\n"
    "     8     0\n"
    "     1     3\n";

/* the same with the track from gate 2 to gate 3 closed, and no target */
static const char CLOSED_PLAN[] =
    "     3     2\n"
    "     2     1     2\n"
    "     0     5\n"
    "     6     0\n"
    "     2     2     3\n"
    "     0     -\n"
    "     8     0\n"
    "     1\n";

/* static: a small stack need not hold them */
static uint32_t sizes[RABDZHINE_SIZES], vertices[RABDZHINE_VERTICES], lengths[RABDZHINE_LENGTHS], labels[RABDZHINE_LABELS];
static uint32_t arcs[RABDZHINE_ROUTE_PLACES];
static uint32_t rectangle[RABDZHINE_RECTANGLE], calls[RABDZHINE_CALLS], answers[RABDZHINE_ANSWERS], intervals[RABDZHINE_INTERVALS];
static uint8_t block_index[RABDZHINE_INDEX];
static uint8_t listing[RABDZHINE_LISTING];

static rabdzhine_read_answer read_plan(const char *text) {
    rabdzhine_read_answer plan = rabdzhine_read_text((const uint8_t *)text, strlen(text), sizes, RABDZHINE_SIZES,
                                                     vertices, RABDZHINE_VERTICES, lengths, RABDZHINE_LENGTHS);
    if (plan.number != 0) {
        printf("refused %u\n", (unsigned)plan.number);
    }
    return plan;
}

static int label_plan(const char *text) {
    rabdzhine_read_answer plan = read_plan(text);
    if (plan.number != 0) {
        return 1;
    }
    rabdzhine_label_answer done = rabdzhine_label_network(plan.n, plan.p, sizes, RABDZHINE_SIZES, vertices, RABDZHINE_VERTICES,
                                                          lengths, RABDZHINE_LENGTHS, plan.source, labels, RABDZHINE_LABELS);
    printf("%u gates, %u districts, from gate %u\n", (unsigned)plan.n, (unsigned)plan.p, (unsigned)plan.source);
    printf("number %u, %u gates reached, %u takes, %u brought in\n", (unsigned)done.number, (unsigned)done.reached,
           (unsigned)done.extracted, (unsigned)done.inserted);
    for (uint32_t v = 1; v <= plan.n; v++) {
        if (labels[v - 1] == RABDZHINE_UNREACHED) {
            printf("gate %u: no run\n", (unsigned)v);
        } else {
            printf("gate %u: %u m\n", (unsigned)v, (unsigned)labels[v - 1]);
        }
    }
    return 0;
}

static int print_route(void) {
    rabdzhine_read_answer plan = read_plan(ROUTE_PLAN);
    if (plan.number != 0) {
        return 1;
    }
    rabdzhine_route_answer done = rabdzhine_route_network(plan.n, plan.p, sizes, RABDZHINE_SIZES, vertices, RABDZHINE_VERTICES,
                                                          lengths, RABDZHINE_LENGTHS, plan.source, plan.target,
                                                          arcs, RABDZHINE_ROUTE_PLACES);
    printf("number %u, gate %u to gate %u: %u m, %u legs\n", (unsigned)done.number, (unsigned)plan.source, (unsigned)plan.target,
           (unsigned)done.label, (unsigned)done.arcs);
    for (uint32_t k = 0; k < done.arcs; k++) {
        const uint32_t *arc = arcs + RABDZHINE_ARC_SIZE * k;
        printf("gate %u to gate %u in district %u: %u m\n", (unsigned)arc[0], (unsigned)arc[1], (unsigned)arc[2], (unsigned)arc[3]);
    }
    return 0;
}

/* the depot's first block, [5 7; 6 4] */
static void fill_block(void) {
    rectangle[0] = 5, rectangle[1] = 7, rectangle[24] = 6, rectangle[25] = 4;
}

/* four calls on the block */
static void run_calls(const uint32_t script[12]) {
    memcpy(calls, script, 12 * sizeof script[0]);
    rabdzhine_session_answer done = rabdzhine_run_session(2, 2, 4, rectangle, RABDZHINE_RECTANGLE, calls, RABDZHINE_CALLS,
                                                          answers, RABDZHINE_ANSWERS, intervals, RABDZHINE_INTERVALS);
    printf("number %u, %u brought in, %u dropped\n", (unsigned)done.number, (unsigned)done.inserted, (unsigned)done.removed);
    for (int j = 0; j < 4; j++) {
        printf("code %u, column %u, sum %u\n", (unsigned)answers[3 * j], (unsigned)answers[3 * j + 1], (unsigned)answers[3 * j + 2]);
    }
    for (int k = 0; k < RABDZHINE_INTERVALS && intervals[k] != RABDZHINE_UNUSED; k += RABDZHINE_INTERVAL_SIZE) {
        printf("row %u owns columns %u to %u, best column %u, sum %u\n", (unsigned)intervals[k], (unsigned)intervals[k + 1],
               (unsigned)intervals[k + 2], (unsigned)intervals[k + 3], (unsigned)intervals[k + 4]);
    }
}

/* no run leads from row 0 to column 1: there is nothing to take until row 1 is told */
static void run_calls_on_closed(void) {
    static const uint32_t script[12] = {1, 0, 0, 2, 0, 0, 2, 0, 0, 1, 1, 5};
    rectangle[1] = RABDZHINE_NO_PATH;
    run_calls(script);
}

/* both rows whole, one column of the first, and a stretch that leaves the row */
static void ask_block(void) {
    static const uint32_t questions[4][3] = {{0, 0, 2}, {1, 0, 2}, {0, 1, 2}, {0, 1, 3}};
    uint32_t number = rabdzhine_build_index(2, 2, rectangle, RABDZHINE_RECTANGLE, block_index, RABDZHINE_INDEX);
    printf("index %u: row 0 holds %u, row 1 holds %u\n", (unsigned)number, (unsigned)block_index[0],
           (unsigned)block_index[RABDZHINE_INDEX_ROW]);
    for (int j = 0; j < 4; j++) {
        const uint32_t *asked = questions[j];
        rabdzhine_least_answer least = rabdzhine_ask_index(2, 2, rectangle, RABDZHINE_RECTANGLE, block_index, RABDZHINE_INDEX,
                                                           asked[0], asked[1], asked[2]);
        printf("row %u from column %u up to %u: code %u, column %u\n", (unsigned)asked[0], (unsigned)asked[1], (unsigned)asked[2],
               (unsigned)least.code, (unsigned)least.column);
    }
}

int main(void) {
    static const uint32_t script[12] = {1, 0, 0, 1, 1, 2, 2, 0, 0, 1, 1, 9};
    uint32_t value = 0;
    uint8_t line[RABDZHINE_LINE + 1] = "                                    ";
    if (label_plan(PLAN) != 0) {
        return 1;
    }
    fill_block();
    run_calls(script);
    ask_block();
    run_calls_on_closed();
    printf("check %u\n", (unsigned)rabdzhine_check_network(5, 1, sizes, RABDZHINE_SIZES, vertices, RABDZHINE_VERTICES, lengths,
                                                           RABDZHINE_LENGTHS));
    printf("field %u", (unsigned)rabdzhine_read_field((const uint8_t *)PLAN, strlen(PLAN), 37, &value, 1));
    printf(" %u\n", (unsigned)value);
    printf("place 2: %u, place 4: %u, line [", (unsigned)rabdzhine_write_field(line, RABDZHINE_LINE, 2, 42),
           (unsigned)rabdzhine_write_field(line, RABDZHINE_LINE, 4, 42));
    printf("%s]\n", (const char *)line);
    if (print_route() != 0 || label_plan(CLOSED_PLAN) != 0) {
        return 1;
    }
    size_t written = rabdzhine_write_listing((const uint8_t *)PLAN, strlen(PLAN), listing, RABDZHINE_LISTING);
    fwrite(listing, 1, written, stdout);
    return 0;
}
