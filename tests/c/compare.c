/* Compares the library with the reference on random inputs, on the largest, on jobs with fields of many
 * lengths and with counts and blocks in many places, and on exact inputs and tables for a shortest list with
 * every choice of refusals: every field of the answers, every place of the buffers, and the places before and
 * behind them. Of the windows of copies, which are free, it looks whether they fit; and no floor of the same
 * list may be above their number. Of a shortest list, which is free too, it looks whether it fits and
 * overshoots; and the table check has to say of the table what goes with the answer, with no shorter list.
 *
 *     compare [SEED [ROUNDS]]
 *
 * A round is 12 images, 6 tables, 3 tables for a shortest list, 9 jobs, 3 sweeps and 3 exact inputs, with a
 * sweep and a job of the list of each that is accepted. A job goes to the operation that its fourth byte tells,
 * one in three to both. */
#define _DEFAULT_SOURCE /* for MAP_ANONYMOUS */

#include <stdio.h>
#include <stdlib.h>
#include <string.h>
#include <sys/mman.h>

#include "assignment.h"
#include "inputs.h"
#include "overshooting.h"
#include "reference.h"

enum { DEFAULT_SEED = 1, DEFAULT_ROUNDS = 50000 };
enum { NUMBERS = WINDOWFLOOR_LAST_REFUSAL + 1, STEPS = WINDOWFLOOR_MOST_STEPS + 1 };
enum { MOST_PRINTED = 16384 }; /* bytes of an input: all of a sweep */

/* Jobs are told apart by their fourth byte. A job counts for the operation that takes it (the floor
 * operation, if the byte is no kind) or, asked of the other one, for that. Numbers that name a row are
 * counted once more. For 18, which goes before 8 to 11, what the table check says of the table is counted,
 * for each kind. Refusals for a field of tag 7 or 8 are counted for each kind. Jobs with counts are counted
 * once more, and so is what has a count of 0; and jobs with blocks, and with wrong ones. For 22, and for 6
 * where there are not as many counts as sizes, what the same input would give with ones is counted; for 23,
 * what the job would give without its tag 8; for 7 of a shortest list, what the table would give with buffers
 * of the least places. */
enum tally {
    IMAGE, TABLE, SHORTEST, FLOOR_JOB, CUT_JOB, ROWS_JOB, SWEEP, EXACT, OPERATIONS,
    FLOOR_TO_CUT = OPERATIONS, NO_KIND_TO_CUT, CUT_TO_FLOOR, ROWS_TO_FLOOR,
    ROW_1, LATER_ROW, BEHIND_18, LAST_BEHIND_18 = BEHIND_18 + 2,
    AT_TAG_7, LAST_AT_TAG_7 = AT_TAG_7 + 3, AT_TAG_8, LAST_AT_TAG_8 = AT_TAG_8 + 3,
    COUNTED_JOB, COUNT_0_IN_JOB, COUNT_0_IN_SWEEP, COUNT_0_IN_EXACT, BEHIND_22_OF_JOB, BEHIND_22_OF_SWEEP,
    BEHIND_22_OF_EXACT, FEWER_COUNTS, MORE_COUNTS, FEWER_COUNTS_OF_EXACT, MORE_COUNTS_OF_EXACT,
    JOB_IN_BLOCKS, WRONG_BLOCKS, BEHIND_23, BEHIND_7_OF_SHORTEST, TALLIES
};

static const char *const names[TALLIES] = {
    "image", "table check", "shortest list", "floor", "cut", "cut of rows", "sweep", "exact",
    "  floor, to cut", "  no kind, to cut", "  cut, to floor", "  rows, to floor",
    "  in row 1", "  later row",
    "  floor", "  cut", "  rows", "  floor", "  cut", "  rows", "  no kind",
    "  floor", "  cut", "  rows", "  no kind", "  all", "  job", "  sweep", "  exact",
    "  job", "  sweep", "  exact", "  fewer", "  more", "  fewer", "  more", "  all", "  wrong", "  job",
    "  shortest list",
};

/* Accepted jobs: those of several rows by what the steps make of the right sides. */
enum shape { FLOOR, CUT, ONE_ROW, NO_STEP, SAME_SCALES, OTHER_SCALES, MOST_ROWS, SHAPES };

static const char *const shape_names[SHAPES] = {
    "floor", "cut", "one row", "rows without steps", "with the same scale", "with several scales",
    "64 rows",
};

/* Quotients that are rounded up, by what their remainder is. */
enum quotient { OF_FAMILY_4, OF_FAMILY_6, OF_FAMILY_7, OF_JOB, OF_BLOCK, OF_SWEEP, QUOTIENTS };
enum remainder { NONE, ONE, ONE_SHORT, ANOTHER, REMAINDERS };

static const char *const quotient_names[QUOTIENTS] = {
    "  family 4 ", "  family 6 ", "  family 7 ", "  floor    ", "  block    ", "  sweep    ",
};
static const char *const remainder_names[REMAINDERS] = {"0", "1", "divisor less 1", "another"};

/* Accepted jobs with counts, and sweeps. One can be of several sorts. */
enum sort { NO_SIZE, ALL_1, OVER_255, COUNT_65535, SUM_OVER_32_BITS, GREATEST_SUM, SORTS };

static const char *const sort_names[SORTS] = {
    "no size", "all 1", "over 255", "65,535", "sum over 32 bits", "greatest sum",
};

/* Accepted jobs with blocks. One can be of several sorts; the total is told of two blocks or more. */
enum block_sort {
    NO_BLOCK, ONE_BLOCK, BLOCKS_64, SIZES_OVER_255, COUNTS_OVER_255, WITH_TABLE, FLOOR_0,
    TOTAL_IS_FLOOR, TOTAL_OVER_FLOOR, BLOCK_SORTS
};

static const char *const block_sort_names[BLOCK_SORTS] = {
    "none", "one", "64", "of over 255 sizes", "counts over 255", "a table", "a floor of 0",
    "total as floor", "total over floor",
};

/* Jobs refused with 23, by what is wrong with their blocks: what is named, and nothing else. */
enum wrong {
    BLOCK_OF_0, OVER_64_BLOCKS, NO_BLOCKS, SUM_UNDER_N, SUM_OVER_N, SUM_OVER_BY_65536, SEVERAL, WRONGS,
    RIGHT = WRONGS
};

static const char *const wrong_names[WRONGS] = {
    "a block of 0", "over 64", "none", "sum under n", "sum over n", "over by 65,536", "several",
};

/* The operations that jobs go to, and what each counts a job of a kind as. */
enum job_operation { TO_FLOOR, TO_CUT, JOB_OPERATIONS };
enum kind { KIND_FLOOR, KIND_CUT, KIND_ROWS, NO_KIND, KINDS };

static const char *const operation_names[JOB_OPERATIONS] = {"  floor", "  cut  "};
static const char *const kind_names[KINDS] = {"floor", "cut", "rows", "no kind"};
static const enum tally tally_of[JOB_OPERATIONS][KINDS] = {
    [TO_FLOOR] = {FLOOR_JOB, CUT_TO_FLOOR, ROWS_TO_FLOOR, FLOOR_JOB},
    [TO_CUT] = {FLOOR_TO_CUT, CUT_JOB, ROWS_JOB, NO_KIND_TO_CUT},
};

/* Jobs refused with 7 for one buffer alone, by operation; if it is the operation's own, by kind too. */
enum buffer { IMAGES, WORKING, LIST, OWN, BUFFERS };

static const char *const buffer_names[BUFFERS] = {"images", "working", "list", "own"};

/* Jobs that the cut operation refuses with 21 and the floor operation with 16. */
enum bad_rows { NO_ROW, MANY_ROWS, MANY_COEFFICIENTS, BAD_ROWS };

static const char *const bad_rows_names[BAD_ROWS] = {"no row", "over 64", "over 2,048 coefficients"};

/* Shortest lists that are shown, by length: these are due. */
enum { TOLD_LENGTHS = 18 };

static const char *const length_names[TOLD_LENGTHS] = {
    "1", "2", "3", "4", "5", "6", "7", "8", "9", "15", "16", "17", "31", "32", "33", "63", "64", "65",
};
static const uint64_t told_lengths[TOLD_LENGTHS] = {
    1, 2, 3, 4, 5, 6, 7, 8, 9, 15, 16, 17, 31, 32, 33, 63, 64, 65,
};

/* The same by sort, beside the list of the table check, and by what the sizes and images total: one can be of
 * several sorts. As long as the capacity, from 3 on, is a list of ones alone. */
enum shortest_sort {
    ODD_LENGTH, EVEN_LENGTH, ONES_OF_CAPACITY, ONES_OF_2047, AS_LONG_AS_CHECK, SHORTER, A_TENTH, OTHER_SIZES,
    ONE_SIZE_REPEATED, CAPACITY_LEFT, NO_CAPACITY_LEFT, ONE_OVER_LAST, IMAGES_OVER_32_BITS, SHORTEST_SORTS
};

static const char *const shortest_sort_names[SHORTEST_SORTS] = {
    "odd", "even", "ones alone", "2,047 ones", "as long as the check's", "shorter", "by ten times",
    "several sizes", "one repeated", "capacity left", "none left", "one over the last", "images over 32 bits",
};

/* Buffers of a shortest list: which one alone is too short, and how many places those of an accepted one have. */
enum shortest_buffer { FIRST_WORKING, SECOND_WORKING, SHOWN_LIST, SHORTEST_BUFFERS };
enum extent { LEAST, ONE_MORE, A_FEW_MORE, MANY_MORE, EXTENTS };

static const char *const shortest_buffer_names[SHORTEST_BUFFERS] = {"  working", "  second ", "  list   "};
static const char *const extent_names[EXTENTS] = {"least", "1 more", "up to 20 more", "over 100 more"};

/* Tables refused with 10: whether, but for the limit, they are dual-feasible. */
enum behind_10 { OVERSHOT_BEHIND_10, FEASIBLE_BEHIND_10, BEHIND_10 };

static const char *const behind_10_names[BEHIND_10] = {"overshot", "dual-feasible"};

/* Accepted exact inputs: one can be of several sorts. First fit puts each copy into the first window that has
 * room; decreasing, it takes the larger copies first. */
enum exact_sort {
    COPIES_BY_SIZES, COPIES_BY_COUNTS, ALL_WINDOWS_FULL, FEWEST_OVER_TOTAL, FIRST_FIT_OVER, DECREASING_OVER,
    TOTAL_OVER_32_BITS, LEAST_PLACES, MORE_PLACES, EXACT_SORTS
};

static const char *const exact_sort_names[EXACT_SORTS] = {
    "by sizes", "by counts", "full windows", "over the total", "under first fit", "under decreasing",
    "total over 32 bits", "10 places", "more places",
};

/* Exact inputs refused with 24: one copy too many, or so many that 16 bits would have 10 or fewer; with a
 * buffer that is long enough or too short. */
enum too_many { ELEVEN, FEW_IN_16_BITS, LONG_BUFFER, ALSO_SHORT_BUFFER, TOO_MANY };

static const char *const too_many_names[TOO_MANY] = {"11", "few in 16 bits", "long buffer", "short buffer"};

/* Floors of a list whose fewest windows are known. */
enum floor_of { FLOOR_OF_SWEEP, FLOOR_OF_JOB, FLOORS };
enum floor_is { FLOOR_BELOW, FLOOR_REACHED, FLOOR_IS };

static const char *const floor_names[FLOORS] = {"  sweep", "  job  "};
static const char *const floor_is_names[FLOOR_IS] = {"below", "reached"};

/* Thresholds whose 2 * p is the capacity + 1, by where they are accepted, and images that are refused with a
 * p one over. */
enum half { IN_IMAGE, IN_FIRST_STEP, IN_LATER_STEP, IN_SWEEP, ONE_OVER, HALVES };

static const char *const half_names[HALVES] = {
    "image", "first step", "later step", "sweep", "one over",
};

/* Accepted images by family: what is over the old limit, sizes that twice are over 32 bits, and products:
 * of family 2 over 32 bits, of families 4 and 6 over the square of the old limit. */
enum wide {
    WIDE_CAPACITY, WIDE_P, WIDE_Q, WIDE_SCALE, WIDE_IMAGE, WIDE_TWICE_SIZE, WIDE_PRODUCT, WIDES
};

static const char *const wide_names[WIDES] = {"capacity", "p", "q", "scale", "image", "2 x", "product"};
static const unsigned char wide_due[WINDOWFLOOR_FAMILIES + 1][WIDES] = {
    [1] = {1, 1, 0, 1, 1, 1, 0}, [2] = {1, 1, 0, 1, 1, 1, 1}, [3] = {1, 1, 0, 1, 1, 1, 0},
    [4] = {1, 1, 0, 1, 1, 1, 1}, [5] = {1, 1, 0, 1, 1, 1, 0}, [6] = {1, 1, 1, 1, 1, 1, 1},
    [7] = {1, 1, 1, 1, 1, 1, 0},
};

/* Images refused with 3 that would be legal if 2 * p were cut to 32 bits, and with 4 by their scale. */
enum refused_wide { TWICE_P, SCALE_IN_32_BITS, SCALE_OVER_32_BITS, SCALE_OVER_63_BITS, REFUSED_WIDES };

static const char *const refused_wide_names[REFUSED_WIDES] = {
    "3 for 2 p", "4 within 32 bits", "4 over 32 bits", "4 over 63 bits",
};
static const unsigned char refused_wide_due[WINDOWFLOOR_FAMILIES + 1][REFUSED_WIDES] = {
    [1] = {1, 0, 0, 0}, [2] = {0, 1, 1, 1}, [3] = {1, 1, 1, 0}, [4] = {0, 1, 1, 0}, [6] = {0, 1, 1, 1},
    [7] = {0, 1, 1, 1},
};

/* What is over the old limit in accepted jobs, by kind, a capacity that a step leaves to another among it;
 * in accepted tables; and, by family, in accepted sweeps. Of a table refused with 11, best over 32 bits. */
enum wide_in_job { FIRST_CAPACITY, LATER_CAPACITY, JOB_IMAGE, WIDES_IN_JOB };
enum wide_in_table { TABLE_SCALE, BEST_OVER_32_BITS, WIDES_IN_TABLE };
enum wide_in_sweep { SWEEP_CAPACITY, SWEEP_P, WIDES_IN_SWEEP };

static const char *const wide_job_names[WIDES_IN_JOB] = {"capacity", "later capacity", "image"};
static const char *const wide_table_names[WIDES_IN_TABLE] = {"scale", "11 with best over 32 bits"};
static const char *const wide_sweep_names[WIDES_IN_SWEEP] = {"capacity", "p"};

/* What the limit bounds, at the numbers about the limit and at the last of 32 bits, and which number of
 * refusal is due there. The greatest legal q has a scale over the limit. */
enum bounded {
    CAPACITY_OF_IMAGE, CAPACITY_OF_LIST, RIGHT_SIDE, CAPACITY_OF_SWEEP, CAPACITY_OF_EXACT,
    P_OF_IMAGE, Q_OF_IMAGE, SCALE_OF_IMAGE, P_OF_STEP_1, Q_OF_STEP_1, SCALE_OF_STEP_1,
    P_OF_LATER_STEP, Q_OF_LATER_STEP, SCALE_OF_LATER_STEP, P_OF_SWEEP,
    ENTRY_OF_TABLE, ENTRY_OF_SHORTEST, ENTRY_OF_STEP_1, ENTRY_OF_LATER_STEP, BOUNDED
};
enum border { ONE_UNDER_LIMIT, AT_LIMIT, ONE_OVER_LIMIT, LAST_OF_32_BITS, BORDERS };

static const char *const border_names[BORDERS] = {"limit - 1", "limit", "limit + 1", "2^32 - 1"};
static const uint64_t borders[BORDERS] = {
    WINDOWFLOOR_LIMIT - 1, WINDOWFLOOR_LIMIT, WINDOWFLOOR_LIMIT + 1, UINT32_MAX,
};
static const struct {
    const char *name;
    uint64_t numbers[BORDERS];
} bounded[BOUNDED] = {
    [CAPACITY_OF_IMAGE] = {"  capacity of an image   ", {0, 0, 1, 1}},
    [CAPACITY_OF_LIST] = {"  capacity of a list     ", {0, 0, 1, 1}},
    [RIGHT_SIDE] = {"  right side of a row    ", {0, 0, 1, 1}},
    [CAPACITY_OF_SWEEP] = {"  capacity of a sweep    ", {0, 0, 1, 1}},
    [CAPACITY_OF_EXACT] = {"  capacity, exact        ", {0, 0, 1, 1}},
    [P_OF_IMAGE] = {"  p of an image          ", {0, 0, 3, 3}},
    [Q_OF_IMAGE] = {"  q of an image          ", {0, 4, 3, 3}},
    [SCALE_OF_IMAGE] = {"  scale of an image      ", {0, 0, 4, 4}},
    [P_OF_STEP_1] = {"  p of a first step      ", {0, 0, 3, 3}},
    [Q_OF_STEP_1] = {"  q of a first step      ", {0, 4, 3, 3}},
    [SCALE_OF_STEP_1] = {"  scale of a first step  ", {0, 0, 4, 4}},
    [P_OF_LATER_STEP] = {"  p of a later step      ", {0, 0, 3, 3}},
    [Q_OF_LATER_STEP] = {"  q of a later step      ", {0, 4, 3, 3}},
    [SCALE_OF_LATER_STEP] = {"  scale of a later step  ", {0, 0, 4, 4}},
    [P_OF_SWEEP] = {"  p of a sweep           ", {0, 0, 20, 20}},
    [ENTRY_OF_TABLE] = {"  entry of a table       ", {0, 0, 10, 10}},
    [ENTRY_OF_SHORTEST] = {"  entry, shortest list   ", {0, 0, 10, 10}},
    [ENTRY_OF_STEP_1] = {"  entry of a first step  ", {0, 0, 10, 10}},
    [ENTRY_OF_LATER_STEP] = {"  entry of a later step  ", {0, 0, 10, 10}},
};

static const char *const family_names[WINDOWFLOOR_FAMILIES + 1] = {
    "", "  family 1", "  family 2", "  family 3", "  family 4", "  family 5", "  family 6", "  family 7",
};

/* What was seen: how often each number came from each operation, and from how many steps a job, or a job
 * of rows, got through, or at which it was refused. */
static unsigned long seen[TALLIES][NUMBERS];
static unsigned long before_rounds[OPERATIONS][NUMBERS]; /* of seen, when the random inputs begin */
static unsigned long accepted_steps[2][STEPS], refused_step[2][STEPS];
static unsigned long accepted_shapes[SHAPES];
static unsigned long rounded[QUOTIENTS][REMAINDERS];
static unsigned long counted[2][SORTS]; /* jobs, sweeps */
static unsigned long in_blocks[BLOCK_SORTS], wrong_blocks[WRONGS];
static unsigned long short_buffers[JOB_OPERATIONS][BUFFERS], short_own[JOB_OPERATIONS][KINDS];
static unsigned long beside_21[BAD_ROWS];
static unsigned long halves[HALVES];
static unsigned long wide_images[WINDOWFLOOR_FAMILIES + 1][WIDES];
static unsigned long refused_wide_images[WINDOWFLOOR_FAMILIES + 1][REFUSED_WIDES];
static unsigned long wide_jobs[KINDS][WIDES_IN_JOB], wide_tables[WIDES_IN_TABLE];
static unsigned long wide_sweeps[WINDOWFLOOR_SWEEP_FAMILIES + 1][WIDES_IN_SWEEP];
static unsigned long at_borders[BOUNDED][BORDERS];
static unsigned long shortest_lengths[TOLD_LENGTHS], shortest_sorts[SHORTEST_SORTS];
static unsigned long shortest_extents[SHORTEST_BUFFERS][EXTENTS], shortest_alone[SHORTEST_BUFFERS];
static unsigned long tables_behind_10[BEHIND_10];
static unsigned long fewest_windows[WINDOWFLOOR_MOST_COPIES + 1];
static unsigned long numbers_of_copies[WINDOWFLOOR_MOST_COPIES + 1];
static unsigned long exact_sorts[EXACT_SORTS], too_many_copies[TOO_MANY];
static unsigned long floors_of_lists[FLOORS][FLOOR_IS];

/* Inputs lie right before memory that cannot be read, so that a read past their end is a crash. Two edges
 * are for the sizes and the counts of a list. */

static uint8_t *first_edge, *second_edge;

static uint8_t *new_edge(void)
{
    uint8_t *memory = mmap(NULL, 2 * ROOM_BYTES, PROT_READ | PROT_WRITE,
                           MAP_PRIVATE | MAP_ANONYMOUS, -1, 0);
    if (memory == MAP_FAILED || mprotect(memory + ROOM_BYTES, ROOM_BYTES, PROT_NONE) != 0) {
        perror("compare: memory");
        exit(2);
    }
    return memory + ROOM_BYTES;
}

static void *at_edge(uint8_t *edge, const void *input, size_t bytes)
{
    return memcpy(edge - bytes, input, bytes);
}

/* A list that lies there, and what it is a copy of. */
struct laid_list {
    const struct counted_list *from;
    const uint32_t *sizes;
    const uint16_t *counts;
};

static struct laid_list lay(const struct counted_list *list)
{
    struct laid_list laid = {list, at_edge(first_edge, list->sizes, list->n * sizeof *list->sizes),
                             at_edge(second_edge, list->counts, list->counts_length * sizeof *list->counts)};
    return laid;
}

static int stays(const struct laid_list *laid)
{
    const struct counted_list *from = laid->from;
    return memcmp(laid->sizes, from->sizes, from->n * sizeof *from->sizes) == 0
        && memcmp(laid->counts, from->counts, from->counts_length * sizeof *from->counts) == 0;
}

/* A buffer, lent once to the library and once to the reference. Both start out the same. */

enum { MARGIN = 16, ROOM_PLACES = 2 * MARGIN + 2048 + 32, PATTERN_BYTES = 8 * 2 * ROOM_PLACES };

struct lent {
    size_t width, places;
    uint64_t library[ROOM_PLACES], reference[ROOM_PLACES];
};

struct lent_to_job {
    struct lent images, working, list, own;
};

static uint64_t pattern[PATTERN_BYTES / 8];

static void make_pattern(void)
{
    for (size_t i = 0; i < PATTERN_BYTES / 8; i++)
        pattern[i] = any_number();
}

static void lend(struct lent *buffer, size_t width, size_t places)
{
    size_t bytes = (places + 2 * MARGIN) * width;
    const uint64_t *start = pattern + below(ROOM_PLACES);
    buffer->width = width;
    buffer->places = places;
    memcpy(buffer->library, start, bytes);
    memcpy(buffer->reference, start, bytes);
}

static void *library_places(struct lent *buffer)
{
    return (uint8_t *)buffer->library + MARGIN * buffer->width;
}

static void *reference_places(struct lent *buffer)
{
    return (uint8_t *)buffer->reference + MARGIN * buffer->width;
}

static int same_places(const struct lent *buffer, size_t from, size_t places)
{
    size_t start = from * buffer->width, bytes = places * buffer->width;
    return memcmp((const uint8_t *)buffer->library + start,
                  (const uint8_t *)buffer->reference + start, bytes) == 0;
}

static int same_buffers(const struct lent *buffer)
{
    return same_places(buffer, 0, buffer->places + 2 * MARGIN);
}

static int same_margins(const struct lent *buffer)
{
    return same_places(buffer, 0, MARGIN)
        && same_places(buffer, MARGIN + buffer->places, MARGIN);
}

/* Verdicts. An answer is an array of 64-bit numbers, the first of which is the refusal. */

static void print_answer(const char *who, const uint64_t *answer, size_t fields)
{
    printf("%s:", who);
    for (size_t i = 0; i < fields; i++)
        printf(" %llu", (unsigned long long)answer[i]);
    printf("\n");
}

static void print_bytes(const void *input, size_t bytes)
{
    printf("input, %zu bytes:", bytes);
    for (size_t i = 0; i < bytes && i < MOST_PRINTED; i++)
        printf(" %02x", ((const uint8_t *)input)[i]);
    printf("\n");
}

/* Why an input fails, or NULL: what differs, or that a number is none of the header's. */
static const char *fault_of(const void *library, const void *reference, size_t answer_bytes,
                            int rest_same)
{
    if (!rest_same)
        return "differs in a buffer";
    if (memcmp(library, reference, answer_bytes) != 0)
        return "differs in the answer";
    return *(const uint64_t *)library < NUMBERS ? NULL : "gives a number past the last refusal";
}

/* Counts the input if all is the same; else prints it and ends. */
static void judge(enum tally operation, const void *library, const void *reference,
                  size_t answer_bytes, int rest_same, const void *input, size_t input_bytes)
{
    const char *fault = fault_of(library, reference, answer_bytes, rest_same);
    if (fault == NULL) {
        seen[operation][*(const uint64_t *)library]++;
        return;
    }
    printf("%s %s\n", names[operation], fault);
    print_answer("library", library, answer_bytes / 8);
    print_answer("reference", reference, answer_bytes / 8);
    print_bytes(input, input_bytes);
    exit(1);
}

static void count_rounded(enum quotient quotient, uint64_t a, uint64_t b)
{
    uint64_t left = a % b;
    rounded[quotient][left == 0 ? NONE : left == 1 ? ONE : left == b - 1 ? ONE_SHORT : ANOTHER]++;
}

static uint64_t lesser(uint64_t a, uint64_t b)
{
    return a < b ? a : b;
}

/* Family 1, with 2 * p so much more than the capacity. */
static int is_threshold(uint64_t capacity, uint8_t family, uint64_t p, uint64_t more)
{
    return family == 1 && p <= capacity && 2 * p == capacity + more;
}

static void count_border(enum bounded what, uint64_t value, uint64_t number)
{
    for (int border = 0; border < BORDERS; border++)
        at_borders[what][border] += value == borders[border] && number == bounded[what].numbers[border];
}

/* The step of an image or of a job: p, q and scale, counted from `p_of` on. A p or q over the limit counts
 * where the limit would be legal in its place, and a scale over 32 bits as the last of them. */
static void count_step_borders(enum bounded p_of, const struct image_input *in, uint64_t number)
{
    uint64_t p = lesser(in->p, WINDOWFLOOR_LIMIT), q = lesser(in->q, WINDOWFLOOR_LIMIT);
    if (reference_image(in->capacity, in->family, p, q, 0).number == WINDOWFLOOR_BAD_PARAMETER)
        return;
    count_border(p_of, in->p, number);
    count_border(p_of + 1, in->q, number);
    if (number == 0 || number == WINDOWFLOOR_SCALE_TOO_LARGE)
        count_border(p_of + 2, lesser(reference_scale(in->capacity, in->family, p, q), UINT32_MAX), number);
}

/* What an accepted image of family 4, 6 or 7 divides and rounds up; 0 if it divides nothing. */
static uint64_t dividend_of(const struct image_input *in)
{
    uint64_t side = lesser(in->x, in->capacity - in->x);
    if (in->family == 4)
        return in->p * side;
    uint64_t r = in->capacity % in->p, a = (in->family == 6 ? side : in->x) % in->p;
    return a > r ? (a - r) * in->q : 0;
}

static void count_dividend(const struct image_input *in, enum quotient quotient, uint64_t divisor)
{
    uint64_t dividend = dividend_of(in);
    if (dividend > 0)
        count_rounded(quotient, dividend, divisor);
    wide_images[in->family][WIDE_PRODUCT] += dividend > (uint64_t)OLD_LIMIT * OLD_LIMIT;
}

/* Of an accepted image: a threshold at half, and products. */
static void count_formula(const struct image_input *in)
{
    halves[IN_IMAGE] += is_threshold(in->capacity, in->family, in->p, 1);
    switch (in->family) {
    case 2: wide_images[2][WIDE_PRODUCT] += in->x * (in->p + 1) > UINT32_MAX; break;
    case 4: count_dividend(in, OF_FAMILY_4, in->capacity); break;
    case 6: count_dividend(in, OF_FAMILY_6, in->p - in->capacity % in->p); break;
    case 7: count_dividend(in, OF_FAMILY_7, in->p - in->capacity % in->p); break;
    }
}

static void count_accepted_image(const struct image_input *in, const struct windowfloor_image_answer *answer)
{
    unsigned long *wide = wide_images[in->family];
    count_formula(in);
    wide[WIDE_CAPACITY] += in->capacity > OLD_LIMIT;
    wide[WIDE_P] += in->p > OLD_LIMIT;
    wide[WIDE_Q] += in->q > OLD_LIMIT;
    wide[WIDE_SCALE] += answer->scale > OLD_LIMIT;
    wide[WIDE_IMAGE] += answer->image > OLD_LIMIT;
    wide[WIDE_TWICE_SIZE] += 2 * in->x > UINT32_MAX;
}

/* Family 1 or 3: whether 2 * p, cut to 32 bits, is legal. */
static int is_legal_if_cut(const struct image_input *in)
{
    if ((in->family != 1 && in->family != 3) || in->p == 0 || in->p > WINDOWFLOOR_LIMIT || in->q != 0)
        return 0;
    return (uint32_t)(2 * in->p) <= in->capacity + (in->family == 1);
}

static void count_refused_image(const struct image_input *in, uint64_t number)
{
    if (number == WINDOWFLOOR_BAD_PARAMETER) {
        halves[ONE_OVER] += in->q == 0 && is_threshold(in->capacity, in->family, in->p, 2);
        refused_wide_images[in->family][TWICE_P] += is_legal_if_cut(in);
    }
    if (number == WINDOWFLOOR_SCALE_TOO_LARGE) {
        uint64_t scale = reference_scale(in->capacity, in->family, in->p, in->q);
        refused_wide_images[in->family][scale <= UINT32_MAX  ? SCALE_IN_32_BITS
                                        : scale <= INT64_MAX ? SCALE_OVER_32_BITS
                                                             : SCALE_OVER_63_BITS]++;
    }
}

static void count_image(const struct image_input *in, const struct windowfloor_image_answer *answer)
{
    if (answer->number == 0)
        count_accepted_image(in, answer);
    else
        count_refused_image(in, answer->number);
    count_border(CAPACITY_OF_IMAGE, in->capacity, answer->number);
    count_step_borders(P_OF_IMAGE, in, answer->number);
}

static void compare_image(void)
{
    struct image_input in;
    memset(&in, 0, sizeof in);
    random_image(&in);
    struct windowfloor_image_answer library =
        windowfloor_image(in.capacity, in.family, in.p, in.q, in.x);
    struct windowfloor_image_answer reference =
        reference_image(in.capacity, in.family, in.p, in.q, in.x);
    judge(IMAGE, &library, &reference, sizeof library, 1, &in, sizeof in);
    count_image(&in, &library);
}

static uint32_t greatest(const uint32_t *numbers, size_t n)
{
    uint32_t most = 0;
    for (size_t i = 0; i < n; i++)
        most = numbers[i] > most ? numbers[i] : most;
    return most;
}

/* Of a table check, which writes best to `working`. */
static void count_table(const struct table_input *in, uint64_t number, const uint64_t *working)
{
    if (number == 0)
        wide_tables[TABLE_SCALE] += in->entries[in->count - 1] > OLD_LIMIT;
    if (number == WINDOWFLOOR_NOT_DUAL_FEASIBLE)
        wide_tables[BEST_OVER_32_BITS] += working[in->count - 1] > UINT32_MAX;
    if (number == 0 || number == WINDOWFLOOR_ENTRY_TOO_LARGE)
        count_border(ENTRY_OF_TABLE, greatest(in->entries, in->count), number);
}

static void compare_table(void)
{
    static struct table_input in;
    static struct lent working, list;
    random_table(&in);
    size_t bytes = in.count * sizeof *in.entries;
    const uint32_t *table = at_edge(first_edge, in.entries, bytes);
    lend(&working, sizeof(uint64_t), in.working_places);
    lend(&list, sizeof(uint32_t), in.list_places);
    struct windowfloor_table_answer library =
        windowfloor_table_check(table, in.count, library_places(&working), in.working_places,
                                library_places(&list), in.list_places);
    struct windowfloor_table_answer reference =
        reference_table_check(table, in.count, reference_places(&working), in.working_places,
                              reference_places(&list), in.list_places);
    judge(TABLE, &library, &reference, sizeof library,
          same_buffers(&working) && same_buffers(&list) && memcmp(table, in.entries, bytes) == 0,
          in.entries, bytes);
    count_table(&in, library.number, library_places(&working));
}

/* A table for a shortest list: what the library's table check says of it, with the same places. */
static struct windowfloor_table_answer checked(const struct shortest_input *in, const uint32_t *table)
{
    static uint64_t working[ROOM_PLACES];
    static uint32_t list[ROOM_PLACES];
    return windowfloor_table_check(table, in->count, working, lesser(in->working_places, in->second_places), list,
                                   in->list_places);
}

/* Whether the two answers go together. */
static int goes_with_check(const struct windowfloor_shortest_answer *shortest,
                           const struct windowfloor_table_answer *check)
{
    switch (shortest->number) {
    case 0: return check->number == WINDOWFLOOR_NOT_DUAL_FEASIBLE && shortest->length <= check->length;
    case WINDOWFLOOR_DUAL_FEASIBLE: return check->number == 0;
    default: return shortest->number == check->number;
    }
}

static uint64_t images_of(const uint32_t *table, const uint32_t *list, uint64_t length)
{
    uint64_t images = 0;
    for (uint64_t i = 0; i < length; i++)
        images += table[list[i]];
    return images;
}

static int all_same(const uint32_t *numbers, size_t n)
{
    for (size_t i = 1; i < n; i++)
        if (numbers[i] != numbers[0])
            return 0;
    return 1;
}

static uint64_t total_of(const uint32_t *numbers, size_t n)
{
    uint64_t total = 0;
    for (size_t i = 0; i < n; i++)
        total += numbers[i];
    return total;
}

static void count_shown(const struct shortest_input *in, const uint32_t *list, uint64_t length,
                        uint64_t check_length)
{
    unsigned long *sorts = shortest_sorts;
    size_t capacity = in->count - 1;
    uint64_t total = total_of(list, length), images = images_of(in->entries, list, length);
    for (int i = 0; i < TOLD_LENGTHS; i++)
        shortest_lengths[i] += length == told_lengths[i];
    sorts[length % 2 == 0 ? EVEN_LENGTH : ODD_LENGTH]++;
    sorts[ONES_OF_CAPACITY] += length == capacity && capacity > 2;
    sorts[ONES_OF_2047] += length == 2047;
    sorts[length < check_length ? SHORTER : AS_LONG_AS_CHECK]++;
    sorts[A_TENTH] += 10 * length <= check_length;
    sorts[OTHER_SIZES] += !all_same(list, length);
    sorts[ONE_SIZE_REPEATED] += length > 1 && all_same(list, length);
    sorts[total < capacity ? CAPACITY_LEFT : NO_CAPACITY_LEFT]++;
    sorts[ONE_OVER_LAST] += images == in->entries[capacity] + (uint64_t)1;
    sorts[IMAGES_OVER_32_BITS] += images > UINT32_MAX;
}

/* How many places more than the least, or fewer, the buffers have. */
static void read_extra(const struct shortest_input *in, long extra[SHORTEST_BUFFERS])
{
    extra[FIRST_WORKING] = (long)in->working_places - (long)in->count;
    extra[SECOND_WORKING] = (long)in->second_places - (long)in->count;
    extra[SHOWN_LIST] = (long)in->list_places - (long)in->count + 1;
}

static void count_extents(const struct shortest_input *in)
{
    long extra[SHORTEST_BUFFERS];
    read_extra(in, extra);
    for (int buffer = 0; buffer < SHORTEST_BUFFERS; buffer++) {
        unsigned long *extents = shortest_extents[buffer];
        extents[LEAST] += extra[buffer] == 0;
        extents[ONE_MORE] += extra[buffer] == 1;
        extents[A_FEW_MORE] += extra[buffer] > 1 && extra[buffer] <= 20;
        extents[MANY_MORE] += extra[buffer] > 100;
    }
}

/* Of a table refused with 7: which buffer is short, and what the table would give if none were. */
static void count_short_shortest(const struct shortest_input *in)
{
    static uint64_t working[ROOM_PLACES];
    static uint32_t list[ROOM_PLACES];
    long extra[SHORTEST_BUFFERS];
    int all = 0;
    read_extra(in, extra);
    for (int buffer = 0; buffer < SHORTEST_BUFFERS; buffer++)
        all += extra[buffer] < 0;
    for (int buffer = 0; buffer < SHORTEST_BUFFERS; buffer++)
        shortest_alone[buffer] += all == 1 && extra[buffer] < 0;
    seen[BEHIND_7_OF_SHORTEST][reference_shortest(in->entries, in->count, working, in->count, working, in->count,
                                                  list, in->count - 1).number]++;
}

static void count_behind_10(const struct shortest_input *in)
{
    static uint64_t best[ROOM_PLACES];
    size_t capacity = in->count - 1;
    reference_bests(in->entries, capacity, best);
    tables_behind_10[best[capacity] > in->entries[capacity] ? OVERSHOT_BEHIND_10 : FEASIBLE_BEHIND_10]++;
}

static void count_shortest(const struct shortest_input *in, const struct windowfloor_shortest_answer *answer,
                           const uint32_t *list, uint64_t check_length)
{
    switch (answer->number) {
    case 0:
        count_shown(in, list, answer->length, check_length);
        count_extents(in);
        break;
    case WINDOWFLOOR_SHORT_BUFFER: count_short_shortest(in); break;
    case WINDOWFLOOR_ENTRY_TOO_LARGE: count_behind_10(in); break;
    }
    if (answer->number == 0 || answer->number == WINDOWFLOOR_ENTRY_TOO_LARGE)
        count_border(ENTRY_OF_SHORTEST, greatest(in->entries, in->count), answer->number);
}

/* The buffers that are lent for a shortest list. */
struct lent_to_shortest {
    struct lent working, second, list;
};

/* Whether they are as they have to be after this number. Refusals 6 to 10 leave the working buffers, and else
 * those are free; which list is shown is free too, so that the reference's places become the library's. */
static int right_after(struct lent_to_shortest *lent, const struct shortest_input *in, const uint32_t *table,
                       const struct windowfloor_shortest_answer *reference)
{
    int accepted = reference->number == 0, working_free = accepted || reference->number == WINDOWFLOOR_DUAL_FEASIBLE;
    uint32_t *shown = library_places(&lent->list), *places = reference_places(&lent->list);
    if (accepted && !is_overshooting(table, in->count, shown, reference->length))
        return 0;
    memcpy(places, shown, reference->length * sizeof *shown);
    if (working_free)
        return same_buffers(&lent->list) && same_margins(&lent->working) && same_margins(&lent->second);
    return same_buffers(&lent->list) && same_buffers(&lent->working) && same_buffers(&lent->second);
}

static void judge_check(const struct shortest_input *in, const struct windowfloor_shortest_answer *shortest,
                        const struct windowfloor_table_answer *check)
{
    if (goes_with_check(shortest, check))
        return;
    printf("%s does not go with the table check\n", names[SHORTEST]);
    print_answer("shortest list", (const uint64_t *)shortest, 2);
    print_answer("table check", (const uint64_t *)check, 2);
    print_bytes(in->entries, in->count * sizeof *in->entries);
    exit(1);
}

static void compare_shortest(const struct shortest_input *in)
{
    static struct lent_to_shortest lent;
    size_t bytes = in->count * sizeof *in->entries;
    const uint32_t *table = at_edge(first_edge, in->entries, bytes);
    lend(&lent.working, sizeof(uint64_t), in->working_places);
    lend(&lent.second, sizeof(uint64_t), in->second_places);
    lend(&lent.list, sizeof(uint32_t), in->list_places);
    struct windowfloor_shortest_answer library =
        windowfloor_shortest(table, in->count, library_places(&lent.working), in->working_places,
                             library_places(&lent.second), in->second_places, library_places(&lent.list),
                             in->list_places);
    struct windowfloor_shortest_answer reference =
        reference_shortest(table, in->count, reference_places(&lent.working), in->working_places,
                           reference_places(&lent.second), in->second_places, reference_places(&lent.list),
                           in->list_places);
    int right = right_after(&lent, in, table, &reference) && memcmp(table, in->entries, bytes) == 0;
    judge(SHORTEST, &library, &reference, sizeof library, right, in->entries, bytes);
    struct windowfloor_table_answer check = checked(in, table);
    judge_check(in, &library, &check);
    count_shortest(in, &library, library_places(&lent.list), check.length);
}

static enum kind kind_of(const struct job_input *in)
{
    switch (in->length > 3 ? in->bytes[3] : 0) {
    case WINDOWFLOOR_KIND_FLOOR: return KIND_FLOOR;
    case WINDOWFLOOR_KIND_CUT: return KIND_CUT;
    case WINDOWFLOOR_KIND_ROWS: return KIND_ROWS;
    default: return NO_KIND;
    }
}

static int is_rows(const struct job_input *in)
{
    return kind_of(in) == KIND_ROWS;
}

/* The operation that takes the job. */
static enum job_operation taker_of(const struct job_input *in)
{
    return tally_of[TO_FLOOR][kind_of(in)] == FLOOR_JOB ? TO_FLOOR : TO_CUT;
}

static size_t value_bytes(const struct job_input *in, size_t at)
{
    return (size_t)in->bytes[at + 1] * 256 + in->bytes[at + 2];
}

/* How many fields of an accepted job have a tag from first to last. */
static size_t fields_of(const struct job_input *in, uint8_t first, uint8_t last)
{
    size_t fields = 0;
    for (size_t at = 0; at < in->length; at += 3 + value_bytes(in, at))
        fields += in->bytes[at] >= first && in->bytes[at] <= last;
    return fields;
}

static size_t steps_of(const struct job_input *in)
{
    return fields_of(in, WINDOWFLOOR_TAG_FAMILY, WINDOWFLOOR_TAG_TABLE);
}

/* The answer of a cut has what both answers have. */
static struct windowfloor_cut_answer part_of(const struct windowfloor_floor_answer *answer)
{
    struct windowfloor_cut_answer part = {answer->number, answer->n,      answer->scale,
                                          answer->step,   answer->length, answer->row};
    return part;
}

static void count_step(const struct job_input *in, const struct windowfloor_cut_answer *answer)
{
    int accepted = answer->number == 0;
    unsigned long *counts = accepted ? accepted_steps[is_rows(in)] : refused_step[is_rows(in)];
    uint64_t steps = accepted ? steps_of(in) : answer->step;
    if (steps >= STEPS) {
        printf("job is accepted with too many steps, or refused at one past the last\n");
        print_bytes(in->bytes, in->length);
        exit(1);
    }
    counts[steps]++;
}

static enum shape shape_of(const struct job_input *in, const uint32_t *scales, size_t rows)
{
    if (!is_rows(in))
        return in->bytes[3] == WINDOWFLOOR_KIND_FLOOR ? FLOOR : CUT;
    if (rows == 1)
        return ONE_ROW;
    if (steps_of(in) == 0)
        return NO_STEP;
    return all_same(scales, rows) ? SAME_SCALES : OTHER_SCALES;
}

static void count_shape(const struct job_input *in, const uint32_t *scales)
{
    size_t rows = fields_of(in, WINDOWFLOOR_TAG_ROW, WINDOWFLOOR_TAG_ROW);
    accepted_shapes[shape_of(in, scales, rows)]++;
    accepted_shapes[MOST_ROWS] += rows == WINDOWFLOOR_MOST_ROWS;
}

/* Where the field of a tag starts in a job whose fields are in order; 0 if it has none. Tag 1, which
 * starts there, is not asked for. */
static size_t field_at(const struct job_input *in, uint8_t tag)
{
    for (size_t at = 0; at < in->length; at += 3 + value_bytes(in, at))
        if (in->bytes[at] == tag)
            return at;
    return 0;
}

/* The numbers of two bytes of the field that starts there. */
static size_t read_numbers(const struct job_input *in, size_t at, uint16_t *numbers)
{
    size_t n = value_bytes(in, at) / 2;
    for (size_t i = 0; i < n; i++)
        numbers[i] = (uint16_t)(in->bytes[at + 3 + 2 * i] * 256 + in->bytes[at + 4 + 2 * i]);
    return n;
}

/* Counts, or numbers of sizes of blocks. */
static int some_number(const uint16_t *numbers, size_t n, uint16_t least, uint16_t most)
{
    for (size_t i = 0; i < n; i++)
        if (numbers[i] >= least && numbers[i] <= most)
            return 1;
    return 0;
}

/* The counts of a floor job with n sizes, whose fields are in order. */
static void read_counts(const struct job_input *in, size_t n, uint16_t *counts)
{
    size_t at = field_at(in, WINDOWFLOOR_TAG_COUNTS);
    for (size_t i = 0; i < n; i++)
        counts[i] = 1;
    if (at > 0)
        read_numbers(in, at, counts);
}

static void count_sorts(unsigned long *sorts, const uint16_t *counts, size_t n, uint64_t sum)
{
    sorts[NO_SIZE] += n == 0;
    sorts[ALL_1] += n > 0 && !some_number(counts, n, 2, WINDOWFLOOR_MOST_COUNT);
    sorts[OVER_255] += some_number(counts, n, 256, WINDOWFLOOR_MOST_COUNT);
    sorts[COUNT_65535] += some_number(counts, n, WINDOWFLOOR_MOST_COUNT, WINDOWFLOOR_MOST_COUNT);
    sorts[SUM_OVER_32_BITS] += sum > UINT32_MAX;
    sorts[GREATEST_SUM] +=
        sum == (uint64_t)WINDOWFLOOR_MOST_SIZES * WINDOWFLOOR_MOST_COUNT * WINDOWFLOOR_LIMIT;
}

/* The number that the reference gives for a floor job. */
static uint64_t number_of(const uint8_t *job, size_t bytes)
{
    static uint64_t working[WINDOWFLOOR_JOB_WORKING];
    static uint32_t images[WINDOWFLOOR_JOB_IMAGES], list[WINDOWFLOOR_JOB_LIST],
        blocks[WINDOWFLOOR_JOB_BLOCKS];
    return reference_floor(job, bytes, images, WINDOWFLOOR_JOB_IMAGES, working, WINDOWFLOOR_JOB_WORKING,
                           list, WINDOWFLOOR_JOB_LIST, blocks, WINDOWFLOOR_JOB_BLOCKS).number;
}

/* What the job's number would be if each of its counts, which start there, were 1. */
static uint64_t job_with_ones(const struct job_input *in, size_t at)
{
    static uint8_t bytes[ROOM_BYTES];
    memcpy(bytes, in->bytes, in->length);
    for (size_t i = 0; i < value_bytes(in, at); i++)
        bytes[at + 3 + i] = i % 2;
    return number_of(bytes, in->length);
}

/* What it would be without the field that starts there. */
static uint64_t job_without(const struct job_input *in, size_t at)
{
    static uint8_t bytes[ROOM_BYTES];
    size_t end = at + 3 + value_bytes(in, at);
    memcpy(bytes, in->bytes, at);
    memcpy(bytes + at, in->bytes + end, in->length - end);
    return number_of(bytes, in->length - (end - at));
}

static void count_counted(const struct job_input *in, const struct windowfloor_floor_answer *answer)
{
    static uint16_t counts[WINDOWFLOOR_MOST_SIZES];
    size_t at = field_at(in, WINDOWFLOOR_TAG_COUNTS);
    if (at == 0)
        return;
    size_t n = read_numbers(in, at, counts);
    seen[COUNTED_JOB][answer->number]++;
    if (some_number(counts, n, 0, 0))
        seen[COUNT_0_IN_JOB][answer->number]++;
    if (answer->number == WINDOWFLOOR_COUNT_0)
        seen[BEHIND_22_OF_JOB][job_with_ones(in, at)]++;
    if (answer->number == 0)
        count_sorts(counted[0], counts, n, answer->sum);
}

static enum wrong wrong_of(const uint16_t *blocks, size_t count, size_t n)
{
    size_t sum = 0;
    for (size_t i = 0; i < count; i++)
        sum += blocks[i];
    int empty = some_number(blocks, count, 0, 0), many = count > WINDOWFLOOR_MOST_BLOCKS;
    if (empty + many + (sum != n) > 1)
        return SEVERAL;
    if (empty)
        return BLOCK_OF_0;
    if (many)
        return OVER_64_BLOCKS;
    if (sum <= n)
        return sum == n ? RIGHT : count == 0 ? NO_BLOCKS : SUM_UNDER_N;
    return (sum - n) % 65536 == 0 ? SUM_OVER_BY_65536 : SUM_OVER_N;
}

static void count_blocks(const struct job_input *in, uint64_t number)
{
    static uint16_t blocks[ROOM_BYTES / 2];
    size_t at = field_at(in, WINDOWFLOOR_TAG_BLOCKS);
    if (at == 0)
        return;
    size_t count = read_numbers(in, at, blocks);
    enum wrong wrong = wrong_of(blocks, count, value_bytes(in, field_at(in, WINDOWFLOOR_TAG_SIZES)) / 4);
    seen[JOB_IN_BLOCKS][number]++;
    if (number == WINDOWFLOOR_BAD_BLOCKS)
        seen[BEHIND_23][job_without(in, at)]++;
    if (wrong == RIGHT)
        return;
    seen[WRONG_BLOCKS][number]++;
    wrong_blocks[wrong] += number == WINDOWFLOOR_BAD_BLOCKS;
}

static void count_refused_field(const struct job_input *in, uint64_t number)
{
    unsigned tag = reference_refused_tag(in->bytes, in->length);
    if (tag == WINDOWFLOOR_TAG_COUNTS)
        seen[AT_TAG_7 + kind_of(in)][number]++;
    if (tag == WINDOWFLOOR_TAG_BLOCKS)
        seen[AT_TAG_8 + kind_of(in)][number]++;
}

static void count_short_buffer(enum job_operation operation, const struct job_input *in)
{
    const int is_short[BUFFERS] = {
        in->images_places < WINDOWFLOOR_JOB_IMAGES, in->working_places < WINDOWFLOOR_JOB_WORKING,
        in->list_places < WINDOWFLOOR_JOB_LIST,
        in->own_places < (operation == TO_FLOOR ? WINDOWFLOOR_JOB_BLOCKS : WINDOWFLOOR_JOB_SCALES),
    };
    int all = 0, last = 0;
    for (int buffer = 0; buffer < BUFFERS; buffer++) {
        all += is_short[buffer];
        last = is_short[buffer] ? buffer : last;
    }
    if (all > 1)
        return;
    short_buffers[operation][last]++;
    if (last == OWN)
        short_own[operation][kind_of(in)]++;
}

static int is_of_field(uint64_t number)
{
    return number >= WINDOWFLOOR_PAST_THE_END && number <= WINDOWFLOOR_BAD_LENGTH;
}

/* Whether the number is told before the kind is asked for. */
static int is_early(uint64_t number)
{
    return number == WINDOWFLOOR_JOB_TOO_LONG || number == WINDOWFLOOR_SHORT_BUFFER || is_of_field(number);
}

/* Where a step starts, counted from 1, in a job that has so many. */
static size_t step_at(const struct job_input *in, uint64_t step)
{
    size_t at = 0;
    for (;; at += 3 + value_bytes(in, at)) {
        step -= in->bytes[at] == WINDOWFLOOR_TAG_FAMILY || in->bytes[at] == WINDOWFLOOR_TAG_TABLE;
        if (step == 0)
            return at;
    }
}

/* The scale of the accepted step that starts there. */
static uint64_t scale_of(const struct job_input *in, size_t at, uint64_t capacity)
{
    size_t value = at + 3;
    if (in->bytes[at] == WINDOWFLOOR_TAG_TABLE)
        return read_number(in, value + value_bytes(in, at) - 4);
    return reference_image(capacity, in->bytes[value], read_number(in, value + 1),
                           read_number(in, value + 5), 0).scale;
}

/* The capacity of a job, or in a job of rows the right side of this row, counted from 1. */
static uint64_t first_capacity(const struct job_input *in, uint64_t row)
{
    size_t at = 4;
    for (; row > 1; row--)
        at += 3 + value_bytes(in, at);
    return read_number(in, at + 3);
}

/* The capacity that a step gets, where the steps before it are accepted. */
static uint64_t capacity_at(const struct job_input *in, uint64_t first, uint64_t step)
{
    for (uint64_t before = 1; before < step; before++)
        first = scale_of(in, step_at(in, before), first);
    return first;
}

/* The family step that starts there. */
static struct image_input read_step(const struct job_input *in, size_t at, uint64_t capacity)
{
    struct image_input s = {capacity, read_number(in, at + 4), read_number(in, at + 8), 0, in->bytes[at + 3]};
    return s;
}

/* The entries of the table that starts there; answers how many. */
static size_t read_entries(const struct job_input *in, size_t at, uint32_t *entries)
{
    size_t count = value_bytes(in, at) / 4;
    for (size_t x = 0; x < count; x++)
        entries[x] = (uint32_t)read_number(in, at + 3 + 4 * x);
    return count;
}

static void count_table_borders(const struct job_input *in, uint64_t step, uint64_t number)
{
    static uint32_t entries[WINDOWFLOOR_MOST_ENTRIES];
    size_t count = read_entries(in, step_at(in, step), entries);
    count_border(step == 1 ? ENTRY_OF_STEP_1 : ENTRY_OF_LATER_STEP, greatest(entries, count), number);
}

static void count_family_borders(const struct job_input *in, uint64_t step, uint64_t capacity,
                                 uint64_t number)
{
    struct image_input s = read_step(in, step_at(in, step), capacity);
    count_step_borders(step == 1 ? P_OF_STEP_1 : P_OF_LATER_STEP, &s, number);
    halves[step == 1 ? IN_FIRST_STEP : IN_LATER_STEP] +=
        number == 0 && is_threshold(s.capacity, s.family, s.p, 1);
}

/* Of an accepted job; if it has rows, of the first. */
static void count_steps(const struct job_input *in)
{
    uint64_t capacity = first_capacity(in, 1);
    size_t steps = steps_of(in);
    for (size_t step = 1; step <= steps; step++) {
        size_t at = step_at(in, step);
        wide_jobs[kind_of(in)][LATER_CAPACITY] += step > 1 && capacity > OLD_LIMIT;
        if (in->bytes[at] == WINDOWFLOOR_TAG_TABLE)
            count_table_borders(in, step, 0);
        else
            count_family_borders(in, step, capacity, 0);
        capacity = scale_of(in, at, capacity);
    }
}

static void count_capacity_border(const struct job_input *in, uint64_t row, uint64_t number)
{
    count_border(is_rows(in) ? RIGHT_SIDE : CAPACITY_OF_LIST, first_capacity(in, row), number);
}

/* Of a job that is refused for the limit, or for p or q. */
static void count_refused_border(const struct job_input *in, const struct windowfloor_cut_answer *answer)
{
    switch (answer->number) {
    case WINDOWFLOOR_BAD_CAPACITY:
        count_capacity_border(in, answer->row, answer->number);
        break;
    case WINDOWFLOOR_ENTRY_TOO_LARGE:
        count_table_borders(in, answer->step, answer->number);
        break;
    case WINDOWFLOOR_BAD_PARAMETER: case WINDOWFLOOR_SCALE_TOO_LARGE:
        count_family_borders(in, answer->step,
                             capacity_at(in, first_capacity(in, answer->row), answer->step),
                             answer->number);
        break;
    }
}

static void count_wide_job(const struct job_input *in, const uint32_t *images, size_t n)
{
    wide_jobs[kind_of(in)][FIRST_CAPACITY] += first_capacity(in, 1) > OLD_LIMIT;
    wide_jobs[kind_of(in)][JOB_IMAGE] += greatest(images, n) > OLD_LIMIT;
}

/* A block: its images and counts, and its floor. */
static void count_block(const uint32_t *images, const uint16_t *counts, size_t n, uint64_t scale,
                        uint32_t floor)
{
    uint64_t sum = 0;
    for (size_t i = 0; i < n; i++)
        sum += (uint64_t)counts[i] * images[i];
    count_rounded(OF_BLOCK, sum, scale);
    in_blocks[FLOOR_0] += floor == 0;
    in_blocks[SIZES_OVER_255] += n > 255;
}

static void count_each_block(const uint16_t *blocks, size_t count, struct lent_to_job *lent,
                             const uint16_t *counts, uint64_t scale)
{
    const uint32_t *images = library_places(&lent->images), *floors = library_places(&lent->own);
    for (size_t i = 0; i < count; i++) {
        count_block(images, counts, blocks[i], scale, floors[i]);
        images += blocks[i];
        counts += blocks[i];
    }
}

static void count_accepted_blocks(const struct job_input *in, const struct windowfloor_floor_answer *answer,
                                  struct lent_to_job *lent)
{
    static uint16_t blocks[WINDOWFLOOR_MOST_BLOCKS], counts[WINDOWFLOOR_MOST_SIZES];
    size_t at = field_at(in, WINDOWFLOOR_TAG_BLOCKS);
    if (at == 0)
        return;
    size_t count = read_numbers(in, at, blocks);
    read_counts(in, answer->n, counts);
    count_each_block(blocks, count, lent, counts, answer->scale);
    in_blocks[NO_BLOCK] += count == 0;
    in_blocks[ONE_BLOCK] += count == 1;
    in_blocks[BLOCKS_64] += count == 64;
    in_blocks[COUNTS_OVER_255] += some_number(counts, answer->n, 256, WINDOWFLOOR_MOST_COUNT);
    in_blocks[WITH_TABLE] += field_at(in, WINDOWFLOOR_TAG_TABLE) > 0;
    in_blocks[TOTAL_IS_FLOOR] += count > 1 && answer->total == answer->floor;
    in_blocks[TOTAL_OVER_FLOOR] += count > 1 && answer->total > answer->floor;
}

static void count_accepted(const struct job_input *in, const struct windowfloor_cut_answer *answer,
                           struct lent_to_job *lent)
{
    count_shape(in, library_places(&lent->own));
    count_capacity_border(in, 1, 0);
    count_steps(in);
    count_wide_job(in, library_places(&lent->images), answer->n);
}

/* What the table check says of the table that this step is. */
static uint64_t check_step(const struct job_input *in, uint64_t step)
{
    static uint32_t entries[WINDOWFLOOR_MOST_ENTRIES], list[WINDOWFLOOR_JOB_LIST];
    static uint64_t working[WINDOWFLOOR_JOB_WORKING];
    size_t count = read_entries(in, step_at(in, step), entries);
    return reference_table_check(entries, count, working, WINDOWFLOOR_JOB_WORKING, list,
                                 WINDOWFLOOR_JOB_LIST).number;
}

static void count_refusal(const struct job_input *in, const struct windowfloor_cut_answer *answer)
{
    if (is_of_field(answer->number))
        count_refused_field(in, answer->number);
    if (answer->row > 0)
        seen[answer->row == 1 ? ROW_1 : LATER_ROW][answer->number]++;
    if (answer->number == WINDOWFLOOR_OTHER_CAPACITY)
        seen[BEHIND_18 + kind_of(in)][check_step(in, answer->step)]++;
    count_refused_border(in, answer);
}

/* Lends the buffers, and answers where the job lies. */
static const uint8_t *lend_to_job(struct lent_to_job *lent, const struct job_input *in)
{
    lend(&lent->images, sizeof(uint32_t), in->images_places);
    lend(&lent->working, sizeof(uint64_t), in->working_places);
    lend(&lent->list, sizeof(uint32_t), in->list_places);
    lend(&lent->own, sizeof(uint32_t), in->own_places);
    return at_edge(first_edge, in->bytes, in->length);
}

static int same_after_job(const struct lent_to_job *lent)
{
    return same_buffers(&lent->images) && same_margins(&lent->working) && same_buffers(&lent->list)
        && same_buffers(&lent->own);
}

/* A job that lies there. */
static void judge_job(enum job_operation operation, const struct job_input *in, const uint8_t *job,
                      const struct lent_to_job *lent, const void *library, const void *reference,
                      size_t answer_bytes)
{
    judge(tally_of[operation][kind_of(in)], library, reference, answer_bytes,
          same_after_job(lent) && memcmp(job, in->bytes, in->length) == 0, in->bytes, in->length);
}

/* The other operation tells no more of a job than its number, and which buffer is short. */
static void count_job(enum job_operation operation, const struct job_input *in,
                      const struct windowfloor_cut_answer *answer, struct lent_to_job *lent)
{
    if (answer->number == WINDOWFLOOR_SHORT_BUFFER)
        count_short_buffer(operation, in);
    if (operation != taker_of(in))
        return;
    count_step(in, answer);
    if (answer->number == 0)
        count_accepted(in, answer, lent);
    else
        count_refusal(in, answer);
}

/* What only the floor operation tells, of a job that it takes. */
static void count_floor(const struct job_input *in, const struct windowfloor_floor_answer *answer,
                        struct lent_to_job *lent)
{
    if (is_early(answer->number))
        return;
    count_counted(in, answer);
    count_blocks(in, answer->number);
    if (answer->number != 0)
        return;
    count_rounded(OF_JOB, answer->sum, answer->scale);
    count_accepted_blocks(in, answer, lent);
}

static struct windowfloor_floor_answer compare_floor_job(const struct job_input *in)
{
    static struct lent_to_job lent;
    const uint8_t *job = lend_to_job(&lent, in);
    struct windowfloor_floor_answer library =
        windowfloor_floor(job, in->length, library_places(&lent.images), in->images_places,
                          library_places(&lent.working), in->working_places,
                          library_places(&lent.list), in->list_places,
                          library_places(&lent.own), in->own_places);
    struct windowfloor_floor_answer reference =
        reference_floor(job, in->length, reference_places(&lent.images), in->images_places,
                        reference_places(&lent.working), in->working_places,
                        reference_places(&lent.list), in->list_places,
                        reference_places(&lent.own), in->own_places);
    struct windowfloor_cut_answer part = part_of(&library);
    judge_job(TO_FLOOR, in, job, &lent, &library, &reference, sizeof library);
    count_job(TO_FLOOR, in, &part, &lent);
    if (taker_of(in) == TO_FLOOR)
        count_floor(in, &library, &lent);
    return library;
}

static struct windowfloor_cut_answer compare_cut_job(const struct job_input *in)
{
    static struct lent_to_job lent;
    const uint8_t *job = lend_to_job(&lent, in);
    struct windowfloor_cut_answer library =
        windowfloor_cut(job, in->length, library_places(&lent.images), in->images_places,
                        library_places(&lent.working), in->working_places,
                        library_places(&lent.list), in->list_places,
                        library_places(&lent.own), in->own_places);
    struct windowfloor_cut_answer reference =
        reference_cut(job, in->length, reference_places(&lent.images), in->images_places,
                      reference_places(&lent.working), in->working_places,
                      reference_places(&lent.list), in->list_places,
                      reference_places(&lent.own), in->own_places);
    judge_job(TO_CUT, in, job, &lent, &library, &reference, sizeof library);
    count_job(TO_CUT, in, &library, &lent);
    return library;
}

/* By the operation that takes it. */
static void compare_job(const struct job_input *in)
{
    if (taker_of(in) == TO_FLOOR)
        compare_floor_job(in);
    else
        compare_cut_job(in);
}

/* Whether the numbers of the two operations go together: what is told before the kind is asked for is the
 * same, and of the kind one gives 16, or both. */
static int go_together(enum kind kind, uint64_t floor, uint64_t cut)
{
    if (is_early(floor) || is_early(cut))
        return floor == cut;
    return (floor == WINDOWFLOOR_BAD_KIND) == (kind != KIND_FLOOR)
        && (cut == WINDOWFLOOR_BAD_KIND) == (kind == KIND_FLOOR || kind == NO_KIND);
}

static void count_bad_rows(const struct job_input *in)
{
    size_t rows = fields_of(in, WINDOWFLOOR_TAG_ROW, WINDOWFLOOR_TAG_ROW);
    beside_21[rows == 0 ? NO_ROW : rows > WINDOWFLOOR_MOST_ROWS ? MANY_ROWS : MANY_COEFFICIENTS]++;
}

static void compare_both(const struct job_input *in)
{
    uint64_t floor = compare_floor_job(in).number, cut = compare_cut_job(in).number;
    if (!go_together(kind_of(in), floor, cut)) {
        printf("the floor operation gives %lu and the cut operation %lu\n", (unsigned long)floor,
               (unsigned long)cut);
        print_bytes(in->bytes, in->length);
        exit(1);
    }
    if (cut == WINDOWFLOOR_BAD_ROWS)
        count_bad_rows(in);
}

/* Of the floor that a sweep has found: its quotient and counts, and its p. */
static void count_sweep(const struct sweep_input *in, uint64_t p)
{
    const struct counted_list *list = &in->list;
    uint64_t sum = 0;
    for (size_t i = 0; i < list->n; i++)
        sum += list->counts[i] * reference_image(in->capacity, in->family, p, 0, list->sizes[i]).image;
    count_rounded(OF_SWEEP, sum, reference_image(in->capacity, in->family, p, 0, 0).scale);
    count_sorts(counted[1], list->counts, list->n, sum);
    halves[IN_SWEEP] += is_threshold(in->capacity, in->family, p, 1);
    wide_sweeps[in->family][SWEEP_CAPACITY] += in->capacity > OLD_LIMIT;
    wide_sweeps[in->family][SWEEP_P] += p > OLD_LIMIT;
}

/* A list with the sizes of another and a one for each. */
static const struct counted_list *with_ones(const struct counted_list *list)
{
    static struct counted_list ones;
    ones = *list;
    ones.counts_length = list->n;
    for (size_t i = 0; i < list->n; i++)
        ones.counts[i] = 1;
    return &ones;
}

/* The numbers that a sweep and an exact input would have with these lists. */
static uint64_t number_of_sweep(const struct sweep_input *in, const struct counted_list *list)
{
    return reference_sweep(in->capacity, in->family, list->sizes, list->n, list->counts, list->counts_length,
                           in->low, in->high).number;
}

static uint64_t number_of_exact(const struct exact_input *in, const struct counted_list *list)
{
    uint32_t windows[WINDOWFLOOR_MOST_COPIES];
    return reference_exact(in->capacity, list->sizes, list->n, list->counts, list->counts_length, windows,
                           in->windows_places).number;
}

/* Of a refused list: a count of 0, and the number with ones behind 22 and behind 6. */
static void count_refused_list(const struct counted_list *list, uint64_t number, uint64_t number_with_ones,
                               enum tally count_0, enum tally behind_22, enum tally fewer)
{
    if (some_number(list->counts, list->counts_length, 0, 0))
        seen[count_0][number]++;
    if (number == WINDOWFLOOR_COUNT_0)
        seen[behind_22][number_with_ones]++;
    if (number == WINDOWFLOOR_BAD_COUNT && list->counts_length != list->n)
        seen[list->counts_length < list->n ? fewer : fewer + 1][number_with_ones]++;
}

/* Answers the floor. */
static uint64_t compare_sweep(const struct sweep_input *in)
{
    size_t n = in->list.n, counts_length = in->list.counts_length;
    struct laid_list laid = lay(&in->list);
    struct windowfloor_sweep_answer library =
        windowfloor_sweep(in->capacity, in->family, laid.sizes, n, laid.counts, counts_length, in->low,
                          in->high);
    struct windowfloor_sweep_answer reference =
        reference_sweep(in->capacity, in->family, laid.sizes, n, laid.counts, counts_length, in->low,
                        in->high);
    judge(SWEEP, &library, &reference, sizeof library, stays(&laid), in, sizeof *in);
    count_border(CAPACITY_OF_SWEEP, in->capacity, library.number);
    count_border(P_OF_SWEEP, library.number == 0 ? library.p : in->low, library.number);
    if (library.number == 0)
        count_sweep(in, library.p);
    else
        count_refused_list(&in->list, library.number, number_of_sweep(in, with_ones(&in->list)),
                           COUNT_0_IN_SWEEP, BEHIND_22_OF_SWEEP, FEWER_COUNTS);
    return library.floor;
}

/* The windows of first fit. */
static unsigned first_fit(uint64_t capacity, const uint32_t *copies, size_t n)
{
    uint64_t loads[WINDOWFLOOR_MOST_COPIES] = {0};
    unsigned used = 0;
    for (size_t i = 0; i < n; i++) {
        unsigned window = 0;
        while (loads[window] + copies[i] > capacity)
            window++;
        loads[window] += copies[i];
        used = window == used ? used + 1 : used;
    }
    return used;
}

static int by_falling_size(const void *a, const void *b)
{
    uint32_t first = *(const uint32_t *)a, second = *(const uint32_t *)b;
    return (first < second) - (first > second);
}

static void count_accepted_exact(const struct exact_input *in, uint32_t *copies, size_t n, uint64_t fewest)
{
    uint64_t total = total_of(copies, n);
    fewest_windows[fewest]++;
    numbers_of_copies[n]++;
    exact_sorts[n == in->list.n ? COPIES_BY_SIZES : COPIES_BY_COUNTS]++;
    exact_sorts[ALL_WINDOWS_FULL] += n > 0 && total == fewest * in->capacity;
    exact_sorts[FEWEST_OVER_TOTAL] += total <= (fewest - (n > 0)) * in->capacity;
    exact_sorts[FIRST_FIT_OVER] += first_fit(in->capacity, copies, n) > fewest;
    qsort(copies, n, sizeof *copies, by_falling_size);
    exact_sorts[DECREASING_OVER] += first_fit(in->capacity, copies, n) > fewest;
    exact_sorts[TOTAL_OVER_32_BITS] += total > UINT32_MAX;
    exact_sorts[in->windows_places == WINDOWFLOOR_EXACT_WINDOWS ? LEAST_PLACES : MORE_PLACES]++;
}

static void count_too_many(const struct exact_input *in)
{
    uint64_t total = 0;
    for (size_t i = 0; i < in->list.n; i++)
        total += in->list.counts[i];
    too_many_copies[ELEVEN] += total == WINDOWFLOOR_MOST_COPIES + 1;
    too_many_copies[FEW_IN_16_BITS] += (uint16_t)total <= WINDOWFLOOR_MOST_COPIES;
    too_many_copies[in->windows_places < WINDOWFLOOR_EXACT_WINDOWS ? ALSO_SHORT_BUFFER : LONG_BUFFER]++;
}

static void count_refused_exact(const struct exact_input *in, uint64_t number)
{
    count_refused_list(&in->list, number, number_of_exact(in, with_ones(&in->list)), COUNT_0_IN_EXACT,
                       BEHIND_22_OF_EXACT, FEWER_COUNTS_OF_EXACT);
    if (number == WINDOWFLOOR_TOO_MANY_COPIES)
        count_too_many(in);
}

static void compare_floor(const struct exact_input *in, enum floor_of what, uint64_t floor, uint64_t fewest)
{
    if (floor > fewest) {
        printf("exact gives fewer windows, %lu, than the floor of a %s, %lu\n", (unsigned long)fewest,
               what == FLOOR_OF_SWEEP ? "sweep" : "job", (unsigned long)floor);
        print_bytes(in, sizeof *in);
        exit(1);
    }
    if (floor > 0) /* else it may be a refusal's */
        floors_of_lists[what][floor == fewest ? FLOOR_REACHED : FLOOR_BELOW]++;
}

/* A sweep and a job of the list. */
static void compare_floors(const struct exact_input *in, uint64_t fewest)
{
    static struct sweep_input sweep;
    static struct job_input job;
    memset(&sweep, 0, sizeof sweep);
    sweep_of_list(&sweep, in->capacity, &in->list);
    compare_floor(in, FLOOR_OF_SWEEP, compare_sweep(&sweep), fewest);
    job_of_list(&job, in->capacity, &in->list);
    compare_floor(in, FLOOR_OF_JOB, compare_floor_job(&job).floor, fewest);
}

/* Whether the library shows an assignment. Which it is is free, so its places become the reference's. */
static int take_assignment(const struct exact_input *in, const uint32_t *copies, size_t n, uint64_t fewest,
                           struct lent *windows)
{
    int fits = is_assignment(in->capacity, copies, n, library_places(windows), fewest);
    memcpy(library_places(windows), reference_places(windows), n * sizeof(uint32_t));
    return fits;
}

/* Of copies of 7, 3, 5 and 5 and a capacity of 10, what is an assignment to two windows and what is none: too
 * full, a number past the last, a window without a copy, one too many. */
static void check_assignments(void)
{
    static const uint32_t copies[] = {7, 3, 5, 5};
    static const struct { uint32_t windows[4]; int right; } shown[] = {
        {{0, 0, 1, 1}, 1}, {{1, 1, 0, 0}, 1}, {{0, 1, 1, 0}, 0}, {{0, 0, 2, 2}, 0}, {{1, 1, 2, 2}, 0},
        {{0, 0, 0, 0}, 0}, {{0, 0, 1, 2}, 0}, {{UINT32_MAX, UINT32_MAX, 0, 0}, 0},
    };
    for (size_t i = 0; i < sizeof shown / sizeof *shown; i++)
        if (is_assignment(10, copies, 4, shown[i].windows, 2) != shown[i].right) {
            printf("is_assignment is wrong about the windows at %zu\n", i);
            exit(1);
        }
}

/* Of a table of 5 entries what overshoots, and what does not: the same total as the last entry, too large a total,
 * a size 0, a size past the last, sizes that overshoot only with one more. */
static void check_overshooting(void)
{
    static const uint32_t table[] = {0, 1, 3, 3, 5};
    static const struct { uint32_t list[3]; uint64_t length; int right; } shown[] = {
        {{2, 2}, 2, 1},    {{1, 1, 2}, 3, 0},  {{3, 2}, 2, 0}, {{2, 2, 0}, 3, 0}, {{4}, 1, 0},
        {{5}, 1, 0},       {{2}, 1, 0},        {{1}, 0, 0},    {{UINT32_MAX, 2, 2}, 3, 0},
        {{2, 2, 1}, 3, 0}, {{2, 2, 1}, 2, 1},
    };
    for (size_t i = 0; i < sizeof shown / sizeof *shown; i++)
        if (is_overshooting(table, 5, shown[i].list, shown[i].length) != shown[i].right) {
            printf("is_overshooting is wrong about the list at %zu\n", i);
            exit(1);
        }
}

static void compare_exact(const struct exact_input *in)
{
    static struct lent windows;
    uint32_t copies[WINDOWFLOOR_MOST_COPIES];
    size_t n = 0;
    struct laid_list laid = lay(&in->list);
    lend(&windows, sizeof(uint32_t), in->windows_places);
    struct windowfloor_exact_answer library =
        windowfloor_exact(in->capacity, laid.sizes, in->list.n, laid.counts, in->list.counts_length,
                          library_places(&windows), in->windows_places);
    struct windowfloor_exact_answer reference =
        reference_exact(in->capacity, laid.sizes, in->list.n, laid.counts, in->list.counts_length,
                        reference_places(&windows), in->windows_places);
    if (reference.number == 0)
        n = write_copies(laid.sizes, in->list.n, laid.counts, copies);
    int fits = take_assignment(in, copies, n, reference.fewest, &windows);
    judge(EXACT, &library, &reference, sizeof library, fits && same_buffers(&windows) && stays(&laid), in,
          sizeof *in);
    count_border(CAPACITY_OF_EXACT, in->capacity, library.number);
    if (library.number != 0) {
        count_refused_exact(in, library.number);
        return;
    }
    count_accepted_exact(in, copies, n, library.fewest);
    compare_floors(in, library.fewest);
}

static void compare_lengths(unsigned kind, size_t from, size_t to)
{
    static struct job_input job;
    for (unsigned tag = WINDOWFLOOR_TAG_KIND; tag <= WINDOWFLOOR_TAG_BLOCKS; tag++)
        for (size_t length = from; length <= to; length++) {
            job_of_length(&job, kind, tag, length);
            compare_both(&job);
        }
}

/* Rows about the most of rows and of coefficients, and as many as a job has bytes for; 21 comes behind the
 * refusals of all fields. */
static void compare_rows(void)
{
    static const size_t shapes[][2] = {{0, 0},   {1, 0},     {1, 2047}, {1, 2048}, {1, 2049}, {2, 1024},
                                       {2, 1025}, {1, 16381}, {64, 0},   {64, 32},  {64, 33},  {65, 0},
                                       {65, 1},   {256, 0},   {320, 0},  {9361, 0}};
    static const unsigned faults[] = {0, 13, 14, 15};
    static struct job_input job;
    for (size_t i = 0; i < sizeof shapes / sizeof *shapes; i++)
        for (size_t k = 0; k < sizeof faults / sizeof *faults; k++) {
            job_of_rows(&job, shapes[i][0], shapes[i][1], faults[k]);
            compare_both(&job);
        }
}

/* Fields of tag 7 in their place and out of it, of n and of nearly n counts, whole and cut. */
static void compare_counts(unsigned kind, size_t n)
{
    static const char *const orders[] = {"1237", "12374", "12377", "123747", "12347",
                                         "1273", "1723",  "7123",  "127",    "17",
                                         "7",    "167",   "1674",  "1647",   "176"};
    const size_t less = n > 0;
    const size_t lengths[] = {0, n, 2 * (n - less), 2 * n - less, 2 * n, 2 * n + 1, 2 * (n + 1), 4 * n};
    static struct job_input job;
    for (size_t i = 0; i < sizeof orders / sizeof *orders; i++)
        for (size_t k = 0; k < sizeof lengths / sizeof *lengths; k++) {
            job_of_tags(&job, orders[i], kind, n, lengths[k], 0);
            compare_both(&job);
            job.length--;
            compare_both(&job);
        }
}

static void compare_all_counts(void)
{
    static const size_t numbers[] = {0, 1, 2, 3, 127, 128, 129, 2047, 2048};
    for (size_t i = 0; i < sizeof numbers / sizeof *numbers; i++)
        compare_counts(WINDOWFLOOR_KIND_FLOOR, numbers[i]);
    for (unsigned kind = 0; kind < 5; kind++)
        compare_counts(kind, 2);
}

/* Jobs of these orders of tags, with n and nearly n blocks of one size each, whole and cut. */
static void compare_orders(const char *const *orders, unsigned kind, size_t n)
{
    const size_t less = n > 0;
    const size_t lengths[] = {0, 1, 2 * (n - less), 2 * n - less, 2 * n, 2 * n + 1, 2 * (n + 1)};
    static struct job_input job;
    for (; *orders != NULL; orders++)
        for (size_t k = 0; k < sizeof lengths / sizeof *lengths; k++) {
            job_of_tags(&job, *orders, kind, n, 2 * n, lengths[k]);
            compare_both(&job);
            job.length--;
            compare_both(&job);
        }
}

/* Fields of tag 8 in their place and out of it. */
static void compare_places_of_blocks(void)
{
    static const char *const in_place[] = {"1238", "12378", "12384", "123784", NULL};
    static const char *const out_of_place[] = {"12388", "123788", "12387", "12348", "123748", "12838",
                                               "1283",  "1823",   "8123",  "128",   "18",     "8",
                                               "168",   "1684",   "1648",  "186",   NULL};
    static const size_t numbers[] = {0, 1, 63, 64, 65, 127, 128, 2048};
    for (size_t i = 0; i < sizeof numbers / sizeof *numbers; i++)
        compare_orders(in_place, WINDOWFLOOR_KIND_FLOOR, numbers[i]);
    for (unsigned kind = 0; kind < 5; kind++) {
        compare_orders(in_place, kind, 2);
        compare_orders(out_of_place, kind, 2);
    }
}

/* Numbers of sizes that add up to n, or do not. */
static void compare_numbers_of_blocks(void)
{
    static const struct { size_t n, count; uint16_t blocks[3]; } lists[] = {
        {0, 1, {0}},          {0, 1, {1}},        {0, 2, {65535, 1}},      {0, 2, {32768, 32768}},
        {1, 2, {65535, 2}},   {5, 3, {2, 2, 1}},  {5, 3, {0, 2, 3}},       {5, 3, {2, 0, 3}},
        {5, 3, {2, 3, 0}},    {5, 2, {2, 2}},     {5, 2, {2, 4}},          {5, 3, {65535, 5, 1}},
        {5, 2, {4, 0}},       {256, 1, {256}},    {256, 1, {1}},           {256, 2, {255, 1}},
        {2048, 1, {2048}},    {2048, 1, {8}},     {2048, 2, {2047, 1}},    {2048, 1, {2047}},
        {2048, 2, {1, 2048}}, {2048, 1, {65535}}, {2048, 2, {1792, 256}},  {2048, 2, {65535, 2049}},
    };
    static struct job_input job;
    for (size_t i = 0; i < sizeof lists / sizeof *lists; i++) {
        job_of_blocks(&job, lists[i].n, lists[i].blocks, lists[i].count);
        compare_both(&job);
    }
}

/* As many blocks as a job has bytes for. */
static void compare_longest_blocks(void)
{
    static struct job_input job;
    for (size_t length = 65516; length <= 65519; length++) {
        job_of_tags(&job, "1238", WINDOWFLOOR_KIND_FLOOR, 0, 0, length);
        compare_both(&job);
    }
}

static void compare_largest_blocks(void)
{
    static const size_t numbers[] = {1, 2, 63, 64};
    static struct job_input job;
    largest_job_of_blocks(&job);
    compare_both(&job);
    longest_chain_of_blocks(&job);
    compare_both(&job);
    for (size_t i = 0; i < sizeof numbers / sizeof *numbers; i++) {
        greatest_sum(&job, numbers[i]);
        compare_both(&job);
    }
}

/* Every choice of the six refusals, and numbers of sizes, of counts and of places about their limits. */
static void compare_exact_edges(void)
{
    static const size_t numbers[] = {0, 1, 9, 10, 11, 2047, 2048, 2049}, places[] = {0, 1, 9, 10, 11, 40};
    static struct exact_input in;
    for (unsigned faults = 0; faults < 1u << EXACT_FAULTS; faults++) {
        exact_of_faults(&in, faults);
        compare_exact(&in);
    }
    for (size_t i = 0; i < sizeof numbers / sizeof *numbers; i++)
        for (size_t k = 0; k < sizeof places / sizeof *places; k++)
            for (size_t more = numbers[i] == 0; more < 3; more++) {
                exact_of_lengths(&in, numbers[i], numbers[i] + more - 1, places[k]);
                compare_exact(&in);
            }
}

/* Every choice of the refusals. */
static void compare_shortest_refusals(void)
{
    static struct shortest_input in;
    for (unsigned faults = 0; faults < 1u << SHORTEST_FAULTS; faults++) {
        shortest_of_faults(&in, faults);
        compare_shortest(&in);
    }
}

/* Buffers of about the least places, and of many more. */
static void compare_shortest_places(void)
{
    static const size_t entries[] = {2, 3, 4, 129, 2047, 2048};
    static const int more[] = {-1, 0, 1, 32}, many[] = {2000, 2000, 2000, 1800, 33, 32};
    static struct shortest_input in;
    for (size_t i = 0; i < sizeof entries / sizeof *entries; i++) {
        for (int choice = 0; choice < 64; choice++) {
            shortest_of_places(&in, entries[i], more[choice % 4], more[choice / 4 % 4], more[choice / 16]);
            compare_shortest(&in);
        }
        shortest_of_places(&in, entries[i], many[i], many[i], many[i]);
        compare_shortest(&in);
    }
}

/* From two sizes to as many as the capacity, where only ones overshoot, and one more, which none do. */
static void compare_lengths_of_shortest(void)
{
    static const size_t capacities[] = {2, 3, 4, 5, 7, 8, 9, 15, 16, 17, 64, 65, 70};
    static struct shortest_input in;
    for (size_t i = 0; i < sizeof capacities / sizeof *capacities; i++) {
        for (size_t fewest = 2; fewest <= capacities[i] + 1; fewest++) {
            shortest_of_fewest(&in, capacities[i], fewest);
            compare_shortest(&in);
        }
        shortest_of_ones(&in, capacities[i]);
        compare_shortest(&in);
    }
    shortest_of_ones(&in, 2047);
    compare_shortest(&in);
    shortest_of_fewest(&in, 300, 255);
    compare_shortest(&in);
}

static void compare_chains_at_limit(void)
{
    static struct job_input job;
    for (unsigned kind = WINDOWFLOOR_KIND_FLOOR; kind <= WINDOWFLOOR_KIND_ROWS; kind++) {
        chain_at_limit(&job, kind);
        compare_both(&job);
    }
}

/* Of every kind, and of none: jobs that are too long, and own buffers about the least. */
static void compare_early(void)
{
    static const size_t places[] = {0, 1, 63, 64, 65};
    static struct job_input job;
    for (unsigned kind = 0; kind < 5; kind++) {
        largest_job(&job, WINDOWFLOOR_MOST_JOB_BYTES + 1);
        job.bytes[3] = (uint8_t)kind;
        compare_both(&job);
        for (size_t i = 0; i < sizeof places / sizeof *places; i++) {
            job_of_length(&job, kind, WINDOWFLOOR_TAG_KIND, 1);
            job.own_places = places[i];
            compare_both(&job);
        }
    }
}

static void compare_largest(void)
{
    static struct job_input job;
    static struct sweep_input sweep;
    memset(&sweep, 0, sizeof sweep);
    for (size_t bytes = 65534; bytes <= 65536; bytes++) {
        largest_job(&job, bytes);
        compare_both(&job);
    }
    largest_counted_job(&job);
    compare_both(&job);
    largest_rows(&job);
    compare_both(&job);
    for (int with_counts = 0; with_counts < 2; with_counts++) {
        longest_chain(&job, with_counts);
        compare_both(&job);
    }
    longest_chain_of_rows(&job);
    compare_both(&job);
    greatest_sum(&job, 0);
    compare_both(&job);
    for (uint8_t family = 1; family <= WINDOWFLOOR_SWEEP_FAMILIES; family++) {
        largest_sweep(&sweep, family);
        compare_sweep(&sweep);
        greatest_swept_sum(&sweep, family);
        compare_sweep(&sweep);
    }
}

static void compare_round(void)
{
    static struct shortest_input shortest;
    static struct job_input job;
    static struct sweep_input sweep;
    static struct exact_input exact;
    for (int i = 0; i < 12; i++)
        compare_image();
    for (int i = 0; i < 6; i++)
        compare_table();
    for (int i = 0; i < 3; i++) {
        random_shortest(&shortest);
        compare_shortest(&shortest);
    }
    for (int i = 0; i < 9; i++) {
        random_job(&job);
        if (below(3) == 0)
            compare_both(&job);
        else
            compare_job(&job);
    }
    for (int i = 0; i < 3; i++) {
        random_sweep(&sweep);
        compare_sweep(&sweep);
    }
    for (int i = 0; i < 3; i++) {
        random_exact(&exact);
        compare_exact(&exact);
    }
}

/* Coverage: the numbers that each operation has to have given. In a later row there is no 2 and no 8 to
 * 11: they do not depend on the row, and row 1 has got through every step. */

static const unsigned char due[TALLIES][NUMBERS] = {
    [IMAGE] = {[0] = 1, [1] = 1, [2] = 1, [3] = 1, [4] = 1, [5] = 1},
    [TABLE] = {[0] = 1, [6] = 1, [7] = 1, [8] = 1, [9] = 1, [10] = 1, [11] = 1},
    [SHORTEST] = {[0] = 1, [6] = 1, [7] = 1, [8] = 1, [9] = 1, [10] = 1, [25] = 1},
    [FLOOR_JOB] = {[0] = 1, [1] = 1, [2] = 1, [3] = 1, [4] = 1, [7] = 1, [8] = 1, [9] = 1, [10] = 1,
                   [11] = 1, [12] = 1, [13] = 1, [14] = 1, [15] = 1, [16] = 1, [17] = 1, [18] = 1, [22] = 1,
                   [23] = 1},
    [CUT_JOB] = {[0] = 1, [1] = 1, [2] = 1, [3] = 1, [4] = 1, [7] = 1, [8] = 1, [9] = 1, [10] = 1,
                 [11] = 1, [12] = 1, [13] = 1, [14] = 1, [15] = 1, [17] = 1, [18] = 1},
    [ROWS_JOB] = {[0] = 1, [1] = 1, [2] = 1, [3] = 1, [4] = 1, [7] = 1, [8] = 1, [9] = 1, [10] = 1,
                  [11] = 1, [12] = 1, [13] = 1, [14] = 1, [15] = 1, [17] = 1, [18] = 1, [21] = 1},
    [FLOOR_TO_CUT] = {[7] = 1, [12] = 1, [13] = 1, [14] = 1, [15] = 1, [16] = 1},
    [NO_KIND_TO_CUT] = {[7] = 1, [12] = 1, [13] = 1, [14] = 1, [15] = 1, [16] = 1},
    [CUT_TO_FLOOR] = {[7] = 1, [12] = 1, [13] = 1, [14] = 1, [15] = 1, [16] = 1},
    [ROWS_TO_FLOOR] = {[7] = 1, [12] = 1, [13] = 1, [14] = 1, [15] = 1, [16] = 1},
    [SWEEP] = {[0] = 1, [1] = 1, [2] = 1, [6] = 1, [17] = 1, [19] = 1, [20] = 1, [22] = 1},
    [EXACT] = {[0] = 1, [1] = 1, [6] = 1, [7] = 1, [17] = 1, [22] = 1, [24] = 1},
    [ROW_1] = {[1] = 1, [2] = 1, [3] = 1, [4] = 1, [8] = 1, [9] = 1, [10] = 1, [11] = 1, [17] = 1,
               [18] = 1},
    [LATER_ROW] = {[1] = 1, [3] = 1, [4] = 1, [17] = 1, [18] = 1},
    [BEHIND_18] = {[0] = 1, [8] = 1, [9] = 1, [10] = 1, [11] = 1},
    [BEHIND_18 + 1] = {[0] = 1, [8] = 1, [9] = 1, [10] = 1, [11] = 1},
    [BEHIND_18 + 2] = {[0] = 1, [8] = 1, [9] = 1, [10] = 1, [11] = 1},
    [AT_TAG_7] = {[13] = 1, [14] = 1, [15] = 1},
    [AT_TAG_7 + 1] = {[13] = 1, [14] = 1},
    [AT_TAG_7 + 2] = {[13] = 1, [14] = 1},
    [AT_TAG_7 + 3] = {[13] = 1, [14] = 1},
    [AT_TAG_8] = {[13] = 1, [14] = 1, [15] = 1},
    [AT_TAG_8 + 1] = {[13] = 1, [14] = 1},
    [AT_TAG_8 + 2] = {[13] = 1, [14] = 1},
    [AT_TAG_8 + 3] = {[13] = 1, [14] = 1},
    [COUNTED_JOB] = {[0] = 1, [1] = 1, [2] = 1, [3] = 1, [4] = 1, [8] = 1, [9] = 1, [10] = 1, [11] = 1,
                     [17] = 1, [18] = 1, [22] = 1},
    [COUNT_0_IN_JOB] = {[1] = 1, [17] = 1, [22] = 1},
    [COUNT_0_IN_SWEEP] = {[1] = 1, [2] = 1, [6] = 1, [17] = 1, [22] = 1},
    [COUNT_0_IN_EXACT] = {[1] = 1, [6] = 1, [17] = 1, [22] = 1},
    [BEHIND_22_OF_JOB] = {[0] = 1, [3] = 1, [4] = 1, [8] = 1, [9] = 1, [11] = 1, [18] = 1},
    [BEHIND_22_OF_SWEEP] = {[0] = 1, [19] = 1, [20] = 1},
    [BEHIND_22_OF_EXACT] = {[0] = 1, [7] = 1, [24] = 1},
    [FEWER_COUNTS] = {[0] = 1, [17] = 1, [19] = 1, [20] = 1},
    [MORE_COUNTS] = {[0] = 1, [17] = 1, [19] = 1, [20] = 1},
    [FEWER_COUNTS_OF_EXACT] = {[0] = 1, [7] = 1, [17] = 1, [24] = 1},
    [MORE_COUNTS_OF_EXACT] = {[0] = 1, [7] = 1, [17] = 1, [24] = 1},
    [JOB_IN_BLOCKS] = {[0] = 1, [1] = 1, [2] = 1, [3] = 1, [4] = 1, [8] = 1, [9] = 1, [10] = 1, [11] = 1,
                       [17] = 1, [18] = 1, [22] = 1, [23] = 1},
    [WRONG_BLOCKS] = {[1] = 1, [17] = 1, [22] = 1, [23] = 1},
    [BEHIND_23] = {[0] = 1, [3] = 1, [4] = 1, [8] = 1, [9] = 1, [11] = 1, [18] = 1},
    [BEHIND_7_OF_SHORTEST] = {[0] = 1, [8] = 1, [9] = 1, [10] = 1, [25] = 1},
};

/* Prints the counts of a tally; answers its inputs. */
static unsigned long report(enum tally tally, int *lacking)
{
    unsigned long inputs = 0;
    printf("%-17s", names[tally]);
    for (int number = 0; number < NUMBERS; number++) {
        unsigned long count = seen[tally][number];
        inputs += count;
        if (count > 0)
            printf("  %d:%lu", number, count);
        if (due[tally][number] && count == 0)
            *lacking = printf("  %d: MISSING", number);
    }
    printf("\n");
    return inputs;
}

/* Of the random inputs of each operation, a quarter has to be accepted. */
static int few_accepted(enum tally operation)
{
    unsigned long inputs = 0, accepted = seen[operation][0] - before_rounds[operation][0];
    for (int number = 0; number < NUMBERS; number++)
        inputs += seen[operation][number] - before_rounds[operation][number];
    return 4 * accepted < inputs;
}

static unsigned long report_operations(int *lacking)
{
    unsigned long inputs = 0;
    for (enum tally operation = IMAGE; operation < OPERATIONS; operation++) {
        inputs += report(operation, lacking);
        if (few_accepted(operation))
            *lacking = printf("%s: TOO FEW accepted\n", names[operation]);
    }
    return inputs;
}

/* Each number from 0 is due. */
static void report_each(const char *what, const unsigned long *counts, int numbers, int *lacking)
{
    printf("%s", what);
    for (int number = 0; number < numbers; number++) {
        printf("  %d:%lu", number, counts[number]);
        if (counts[number] == 0)
            *lacking = printf(" MISSING");
    }
    printf("\n");
}

/* Each of these that is due has to have been seen; the others cannot be. */
static void report_due(const char *what, const char *const *names_of, const unsigned long *counts,
                       const unsigned char *is_due, int kinds, int *lacking)
{
    printf("%s", what);
    for (int kind = 0; kind < kinds; kind++) {
        if (is_due != NULL && !is_due[kind])
            continue;
        printf("  %s:%lu", names_of[kind], counts[kind]);
        if (counts[kind] == 0)
            *lacking = printf(" MISSING");
    }
    printf("\n");
}

/* Each of these is due. */
static void report_named(const char *what, const char *const *names_of, const unsigned long *counts,
                         int kinds, int *lacking)
{
    report_due(what, names_of, counts, NULL, kinds, lacking);
}

static void report_rounded(int *lacking)
{
    printf("quotients rounded up by their remainder\n");
    for (int quotient = 0; quotient < QUOTIENTS; quotient++)
        report_named(quotient_names[quotient], remainder_names, rounded[quotient], REMAINDERS, lacking);
}

static void report_wide_images(int *lacking)
{
    printf("accepted images over the old limit, or over 32 bits\n");
    for (unsigned family = 1; family <= WINDOWFLOOR_FAMILIES; family++)
        report_due(family_names[family], wide_names, wide_images[family], wide_due[family], WIDES, lacking);
}

/* Family 5 has no such images: its p is not doubled, and its scale is within the capacity. */
static void report_refused_wide_images(int *lacking)
{
    printf("images refused with 3 that 2 * p in 32 bits would accept, and with 4 by their scale\n");
    for (unsigned family = 1; family <= WINDOWFLOOR_FAMILIES; family++)
        if (family != 5)
            report_due(family_names[family], refused_wide_names, refused_wide_images[family],
                       refused_wide_due[family], REFUSED_WIDES, lacking);
}

static void report_wide_jobs(int *lacking)
{
    printf("accepted jobs over the old limit\n");
    for (enum kind kind = KIND_FLOOR; kind < NO_KIND; kind++) {
        printf("  %-5s", kind_names[kind]);
        report_named("", wide_job_names, wide_jobs[kind], WIDES_IN_JOB, lacking);
    }
}

static void report_wide_sweeps(int *lacking)
{
    printf("accepted sweeps over the old limit\n");
    for (unsigned family = 1; family <= WINDOWFLOOR_SWEEP_FAMILIES; family++)
        report_named(family_names[family], wide_sweep_names, wide_sweeps[family], WIDES_IN_SWEEP, lacking);
}

static void report_borders(int *lacking)
{
    printf("numbers about the limit, accepted or refused as is due\n");
    for (enum bounded what = 0; what < BOUNDED; what++)
        report_named(bounded[what].name, border_names, at_borders[what], BORDERS, lacking);
}

static void report_tallies(const char *what, enum tally first, enum tally last, int *lacking)
{
    printf("%s\n", what);
    for (enum tally tally = first; tally <= last; tally++)
        report(tally, lacking);
}

static void report_shortest(int *lacking)
{
    report_tallies("tables refused with 7 for a shortest list by the number with longer buffers",
                   BEHIND_7_OF_SHORTEST, BEHIND_7_OF_SHORTEST, lacking);
    report_named("  for one buffer", shortest_buffer_names, shortest_alone, SHORTEST_BUFFERS, lacking);
    report_named("  refused with 10 for it, but", behind_10_names, tables_behind_10, BEHIND_10, lacking);
    report_named("shortest lists by length", length_names, shortest_lengths, TOLD_LENGTHS, lacking);
    report_named("  by sort", shortest_sort_names, shortest_sorts, SHORTEST_SORTS, lacking);
    printf("  by places of their buffers\n");
    for (int buffer = 0; buffer < SHORTEST_BUFFERS; buffer++)
        report_named(shortest_buffer_names[buffer], extent_names, shortest_extents[buffer], EXTENTS, lacking);
}

static void report_exact(int *lacking)
{
    const int most = WINDOWFLOOR_MOST_COPIES + 1;
    report_named("exact inputs refused with 24", too_many_names, too_many_copies, TOO_MANY, lacking);
    report_each("accepted exact inputs by copies ", numbers_of_copies, most, lacking);
    report_each("  by fewest windows             ", fewest_windows, most, lacking);
    report_named("  by sort", exact_sort_names, exact_sorts, EXACT_SORTS, lacking);
    printf("floors of their lists by the fewest windows\n");
    for (int what = 0; what < FLOORS; what++)
        report_named(floor_names[what], floor_is_names, floors_of_lists[what], FLOOR_IS, lacking);
}

static void report_short_buffers(int *lacking)
{
    printf("refused with 7 for one buffer\n");
    for (int operation = 0; operation < JOB_OPERATIONS; operation++) {
        report_named(operation_names[operation], buffer_names, short_buffers[operation], BUFFERS, lacking);
        report_named("    own  ", kind_names, short_own[operation], KINDS, lacking);
    }
}

static void report_steps(int *lacking)
{
    report_named("accepted jobs by shape", shape_names, accepted_shapes, SHAPES, lacking);
    report_each("accepted jobs by steps  ", accepted_steps[0], STEPS, lacking);
    report_each("  of rows               ", accepted_steps[1], STEPS, lacking);
    report_each("refused jobs by step    ", refused_step[0], STEPS, lacking);
    report_each("  of rows               ", refused_step[1], STEPS, lacking);
}

static unsigned long report_all(int *lacking)
{
    printf("inputs by number of refusal (0: accepted)\n");
    unsigned long inputs = report_operations(lacking);
    report_tallies("jobs given to the operation that does not take them by number", FLOOR_TO_CUT,
                   ROWS_TO_FLOOR, lacking);
    report_named("refused with 21 by cut and with 16 by floor", bad_rows_names, beside_21, BAD_ROWS, lacking);
    report_tallies("refused jobs of rows by number", ROW_1, LATER_ROW, lacking);
    report_tallies("tables refused with 18 by what the table check says", BEHIND_18, LAST_BEHIND_18,
                   lacking);
    report_tallies("jobs refused for a field of tag 7 by number", AT_TAG_7, LAST_AT_TAG_7, lacking);
    report_tallies("jobs refused for a field of tag 8 by number", AT_TAG_8, LAST_AT_TAG_8, lacking);
    report_tallies("jobs with counts by number", COUNTED_JOB, COUNTED_JOB, lacking);
    report_tallies("a count of 0 by number", COUNT_0_IN_JOB, COUNT_0_IN_EXACT, lacking);
    report_tallies("refused with 22 by the number with ones", BEHIND_22_OF_JOB, BEHIND_22_OF_EXACT,
                   lacking);
    report_tallies("sweeps refused for their number of counts by the number with ones", FEWER_COUNTS,
                   MORE_COUNTS, lacking);
    report_tallies("exact inputs refused for it by the number with ones", FEWER_COUNTS_OF_EXACT,
                   MORE_COUNTS_OF_EXACT, lacking);
    report_tallies("jobs with blocks by number", JOB_IN_BLOCKS, WRONG_BLOCKS, lacking);
    report_tallies("refused with 23 by the number without tag 8", BEHIND_23, BEHIND_23, lacking);
    report_named("refused with 23 by blocks", wrong_names, wrong_blocks, WRONGS, lacking);
    report_short_buffers(lacking);
    report_named("accepted jobs by blocks  ", block_sort_names, in_blocks, BLOCK_SORTS, lacking);
    report_named("accepted jobs by counts  ", sort_names, counted[0], SORTS, lacking);
    report_named("accepted sweeps by counts", sort_names, counted[1], SORTS, lacking);
    report_named("thresholds at half of an odd capacity", half_names, halves, HALVES, lacking);
    report_rounded(lacking);
    report_wide_images(lacking);
    report_refused_wide_images(lacking);
    report_named("tables over the old limit", wide_table_names, wide_tables, WIDES_IN_TABLE, lacking);
    report_wide_jobs(lacking);
    report_wide_sweeps(lacking);
    report_shortest(lacking);
    report_exact(lacking);
    report_borders(lacking);
    report_steps(lacking);
    return inputs;
}

static void compare_all(unsigned long rounds)
{
    for (unsigned kind = 0; kind < 5; kind++) {
        compare_lengths(kind, 0, 20);
        compare_lengths(kind, 8180, 8204); /* about the most of sizes, of a table and of a row */
    }
    compare_rows();
    compare_early();
    compare_all_counts();
    compare_places_of_blocks();
    compare_numbers_of_blocks();
    compare_longest_blocks();
    compare_largest();
    compare_largest_blocks();
    compare_chains_at_limit();
    compare_exact_edges();
    compare_shortest_refusals();
    compare_shortest_places();
    compare_lengths_of_shortest();
    memcpy(before_rounds, seen, sizeof before_rounds);
    for (unsigned long i = 0; i < rounds; i++)
        compare_round();
}

int main(int argc, char **argv)
{
    uint64_t seed = argc > 1 ? strtoull(argv[1], NULL, 0) : DEFAULT_SEED;
    unsigned long rounds = argc > 2 ? strtoul(argv[2], NULL, 0) : DEFAULT_ROUNDS;
    int lacking = 0;
    printf("compare: seed %llu, %lu rounds\n", (unsigned long long)seed, rounds);
    fflush(stdout);
    seed_inputs(seed);
    first_edge = new_edge();
    second_edge = new_edge();
    make_pattern();
    check_assignments();
    check_overshooting();
    compare_all(rounds);
    unsigned long inputs = report_all(&lacking);
    printf("compare: %lu inputs, all the same%s\n", inputs, lacking ? ", but too narrow" : "");
    return lacking ? 1 : 0;
}
