/*
 * Rabdzhine: track metres from district tables. The proved library for C.
 *
 * Build it with `rt lib` in crates/exports; link crates/exports/out/libexports.a (x86-64).
 *
 * Every entry accepts every input. What it cannot serve it refuses by a number and leaves or fills the lent buffers as said below.
 * A buffer is lent as a pointer and the number of its elements, which must be readable (and writable unless const) for the call.
 * A pointer is never null. A buffer that an entry writes overlaps no other of that call. Nothing is kept after a call, nothing is allocated.
 *
 * The library needs memcpy and memset of whoever links it, and a stack of the size stated below for the entry that is called. It has no
 * memory of its own that can be written, so entries may be called at the same time, each on its own stack and buffers.
 *
 * Words: a vertex is a gate, a piece is a district, an arc is a leg, to activate is to tell, to extract is to take, a parent is an owner,
 * inserted is brought in, removed is dropped.
 *
 * Refusals:
 *   0   accepted
 *   1   a lent buffer is not of the stated size
 *   2   the text is over 60,000 bytes
 *   3   the text is not in the layout
 *   4   a size (n, p, m, rows, columns), how many calls there are, or a field's place is out of bounds
 *   5   a gate is not one of 1 to n, or its district lists it twice
 *   6   a length is above 999,999 (no field of a text is) and is not no path, or a diagonal is not 0
 *   7   a block fails its check
 *   8   the source is outside 1 to n
 *   12  the target is outside 1 to n
 * and in the answer to one call of a session:
 *   9   kind is not 1 or 2, or the told row is out of range
 *   10  the row is already told
 *   11  the value is above 254,999,745, or less than the sum of the latest take
 *   50  a take has nothing to hand out (no refusal); also the answer to a question to an index for a stretch that is not there
 */
#ifndef RABDZHINE_H
#define RABDZHINE_H

#include <stddef.h>
#include <stdint.h>

#ifdef __cplusplus
extern "C" {
#endif

/* The sizes of the lent buffers, in elements. */
#define RABDZHINE_SIZES 16           /* gates of each district */
#define RABDZHINE_VERTICES 384       /* 24 gates for each district */
#define RABDZHINE_LENGTHS 9216       /* 24 rows of 24 lengths for each district */
#define RABDZHINE_LABELS 256         /* label of gate v at v - 1 */
#define RABDZHINE_ROUTE_PLACES 1020  /* the numbers of 255 legs */
#define RABDZHINE_RECTANGLE 576      /* 24 rows of 24 lengths */
#define RABDZHINE_INDEX 552          /* 24 rows of 23 columns */
#define RABDZHINE_CALLS 192          /* kind, row, value of each of 64 calls */
#define RABDZHINE_ANSWERS 192        /* code, column, sum of each answer */
#define RABDZHINE_INTERVALS 120      /* the numbers of 24 intervals */
#define RABDZHINE_LINE 36            /* bytes of a line: four fields of nine columns */
#define RABDZHINE_LISTING 9472       /* bytes of the longest listing, that of 255 legs */

/* The numbers of an interval: owner, first column, last column, best column (the lowest one of least sum in it), best sum (that sum). */
#define RABDZHINE_INTERVAL_SIZE 5

/* What every place of an unused interval holds. A best sum may be 255 too, but no owner is: an unused interval is known by its owner. */
#define RABDZHINE_UNUSED UINT32_C(255)

/* The places of the index of one row: one fewer than the columns that a row has room for. */
#define RABDZHINE_INDEX_ROW 23

/* The code where there is no column: of a take that has nothing to hand out, and of a question for a stretch that is not there. */
#define RABDZHINE_NOTHING UINT32_C(50)

/* The most legs of a route: it passes no gate twice. */
#define RABDZHINE_MAX_ARCS 255

/* The numbers of a leg: from gate, to gate, district (from 1), metres. */
#define RABDZHINE_ARC_SIZE 4

/* The target that the reader returns where the question has none. */
#define RABDZHINE_NO_TARGET UINT32_C(4294967295)

/* The label of a gate that no run reaches, and of a place above n. */
#define RABDZHINE_UNREACHED UINT32_C(4294967295)

/* In place of a length, where no run exists inside the district: `-` in a length field of a text. It is never on the diagonal, above every number, and
 * plus anything no path. */
#define RABDZHINE_NO_PATH UINT32_C(4294967295)

/* The largest length, in metres: it fills a field of a text. */
#define RABDZHINE_MAX_LENGTH UINT32_C(999999)

/* The largest label, and the largest value of a tell: a run of 255 such lengths. A take's sum may be RABDZHINE_MAX_LENGTH more. */
#define RABDZHINE_MAX_LABEL UINT32_C(254999745)

/*
 * The stack that a call of each entry may take, in bytes: a third to a half above what was measured, and at least 128. With one page of 4,096 bytes below
 * the stack that cannot be touched, a stack that is too small ends in a fault there, and nothing below is written. An interrupt handler
 * leaves the 128 bytes below the stack pointer as they are (System V ABI), or has a stack of its own.
 */
#define RABDZHINE_STACK_READ_FIELD 128
#define RABDZHINE_STACK_WRITE_FIELD 128
#define RABDZHINE_STACK_READ_TEXT 2048
#define RABDZHINE_STACK_CHECK_NETWORK 1792
#define RABDZHINE_STACK_LABEL_NETWORK 188416
#define RABDZHINE_STACK_ROUTE_NETWORK 188416
#define RABDZHINE_STACK_RUN_SESSION 8704
#define RABDZHINE_STACK_BUILD_INDEX 7680
#define RABDZHINE_STACK_ASK_INDEX 640
#define RABDZHINE_STACK_WRITE_LISTING 245760

/* On a refusal `number` is its number and all else is 0. */
typedef struct {
    uint32_t number;
    uint32_t n;      /* gates */
    uint32_t p;      /* districts */
    uint32_t source;
    uint32_t target; /* RABDZHINE_NO_TARGET if the question has none */
} rabdzhine_read_answer;

typedef struct {
    uint32_t number;
    uint32_t reached;   /* gates with a label, the source too */
    uint32_t extracted; /* takes */
    uint32_t inserted;  /* intervals brought in */
} rabdzhine_label_answer;

typedef struct {
    uint32_t number;
    uint32_t label; /* metres from the source to the target, or RABDZHINE_UNREACHED */
    uint32_t arcs;  /* legs */
} rabdzhine_route_answer;

typedef struct {
    uint32_t number;
    uint32_t inserted; /* intervals brought in */
    uint32_t removed;  /* intervals dropped */
} rabdzhine_session_answer;

typedef struct {
    uint32_t code;   /* 0, RABDZHINE_NOTHING, or the number of the refusal */
    uint32_t column; /* 0 where there is none */
} rabdzhine_least_answer;

/*
 * Reads the field of six bytes that starts at place `at` of the text, any place.
 * Returns 0 with the number in value[0]; 1 if value_len is not 1, value left; 3 if no field stands there, value[0] then 0.
 */
uint32_t rabdzhine_read_field(const uint8_t *text, size_t text_len, size_t at, uint32_t *value, size_t value_len);

/*
 * Writes x into the nine columns of place 0 to 3 of a line of 36 bytes, right-justified, `-` if above 999,999,999. The other columns stay.
 * Returns 0; 1 if line_len is not 36; 4 if place is above 3. A refusal leaves the line.
 */
uint32_t rabdzhine_write_field(uint8_t *line, size_t line_len, size_t place, uint32_t x);

/*
 * Reads a plan: 16 sizes, 384 gates, 9,216 lengths, RABDZHINE_NO_PATH for a length that is `-`, unused places 0.
 * Returns 0 with n, p, the source and the target. 1 and 2 leave the buffers; 3 to 8 and 12 leave 0 in every place of them.
 */
rabdzhine_read_answer rabdzhine_read_text(const uint8_t *text, size_t text_len,
                                          uint32_t *sizes, size_t sizes_len,
                                          uint32_t *vertices, size_t vertices_len,
                                          uint32_t *lengths, size_t lengths_len);

/*
 * Judges a network in buffers as the reader fills them. Places that its sizes do not use are not read. A block passes its check if every two
 * rows and every two columns of it do, neighbours or not.
 * Returns 0, or 1, 4, 5, 6 or 7.
 */
uint32_t rabdzhine_check_network(uint32_t n, uint32_t p,
                                 const uint32_t *sizes, size_t sizes_len,
                                 const uint32_t *vertices, size_t vertices_len,
                                 const uint32_t *lengths, size_t lengths_len);

/*
 * Labels every gate with the metres of the shortest run from the source; no leg of a run is no path. It judges the network again, then the
 * source.
 * Returns 0 with gates reached, takes and intervals brought in; labels then holds the label of gate v at v - 1, and
 * RABDZHINE_UNREACHED where no run leads and behind gate n. A refusal, 1 or 4 to 8, leaves labels.
 */
rabdzhine_label_answer rabdzhine_label_network(uint32_t n, uint32_t p,
                                               const uint32_t *sizes, size_t sizes_len,
                                               const uint32_t *vertices, size_t vertices_len,
                                               const uint32_t *lengths, size_t lengths_len,
                                               uint32_t source,
                                               uint32_t *labels, size_t labels_len);

/*
 * Finds the shortest run from the source to the target, leg by leg. It judges the network again, then the source, then the target.
 * Returns 0 with the target's label and the number of legs; arcs then holds the legs in order, each as from gate, to gate, district,
 * metres, unused places 0. They join up, pass no gate twice, and their metres add up to the label. To a target that no run reaches,
 * and to the source itself, there are none. A refusal, 1, 4 to 8 or 12, leaves arcs.
 */
rabdzhine_route_answer rabdzhine_route_network(uint32_t n, uint32_t p,
                                               const uint32_t *sizes, size_t sizes_len,
                                               const uint32_t *vertices, size_t vertices_len,
                                               const uint32_t *lengths, size_t lengths_len,
                                               uint32_t source, uint32_t target,
                                               uint32_t *arcs, size_t arcs_len);

/*
 * Runs 0 to 64 calls on the heap of one block of 1 to 24 rows and columns, from a fresh heap. Row i of the rectangle starts at place 24 * i.
 * A call is kind (1 tell, 2 take), row, value; its answer is code (0, 50 or 9 to 11), column, sum. A column that no told row has a path to
 * is in no interval and never handed out. A tell brings in at most three intervals, and one more for each column that is all no path.
 * Returns 0 with intervals brought in and dropped; answers then holds an answer for each call, unused places 0, and intervals the kept
 * intervals by rising first column, each as owner, first column, last column, best column, best sum, unused places 255. For the counts
 * two intervals are the same if their first three numbers are. A refusal, 1, 4, 6 or 7, leaves both.
 */
rabdzhine_session_answer rabdzhine_run_session(uint32_t rows, uint32_t cols, uint32_t count,
                                               const uint32_t *lengths, size_t lengths_len,
                                               const uint32_t *calls, size_t calls_len,
                                               uint32_t *answers, size_t answers_len,
                                               uint32_t *intervals, size_t intervals_len);

/*
 * Builds the index of one block of 1 to 24 rows and columns. Row i of the rectangle starts at place 24 * i, its index at place 23 * i: for the
 * stretch of all columns, then for its first half with all halves of that, then for its second, the lowest column of least length. Of an odd
 * number of columns the second half has one more; a single column has no place. Unused places are 0.
 * Returns 0, or 1, 4, 6 or 7, as for a session; a refusal leaves index.
 */
uint32_t rabdzhine_build_index(uint32_t rows, uint32_t cols,
                               const uint32_t *lengths, size_t lengths_len,
                               uint8_t *index, size_t index_len);

/*
 * Asks an index for a stretch of a row: the columns from `first` up to the one before `end`, counted from 0.
 * Returns 0 with the lowest column of least length there, if the index was built from these lengths: the lowest of all, if the stretch is all no
 * path. A row that is not there, a stretch that is empty and one that leaves the row get RABDZHINE_NOTHING. Refused are 1 and 4; lengths and
 * the inequality are not judged once more.
 * An index may hold any bytes: a number that is no column of its stretch counts as the first one of it, so that the answer is always a
 * column of what was asked for.
 */
rabdzhine_least_answer rabdzhine_ask_index(uint32_t rows, uint32_t cols,
                                           const uint32_t *lengths, size_t lengths_len,
                                           const uint8_t *index, size_t index_len,
                                           uint32_t row, uint32_t first, uint32_t end);

/*
 * Writes what the program `labels` writes for this text, the line of a refusal included, to the front of out: the labels of all gates, or
 * the route if the question has a target. Returns how many bytes it wrote; the bytes after them stay. If out_len is not 9,472 it
 * returns 0 and leaves out.
 */
size_t rabdzhine_write_listing(const uint8_t *text, size_t text_len, uint8_t *out, size_t out_len);

#ifdef __cplusplus
}
#endif

#endif
