/* The library against plain and tuned C, in one run: the three are measured in turns, all rows in
 * several rounds, and the medians are printed as a table in Markdown. Results are compared before
 * they are timed. */
#define _POSIX_C_SOURCE 199309L /* for clock_gettime */

#include <stdio.h>
#include <stdlib.h>
#include <string.h>
#include <time.h>

#include "common.h"

#ifdef __clang__
#define COMPILER __VERSION__ /* names itself */
#else
#define COMPILER "gcc " __VERSION__
#endif

enum { LIBRARY, PLAIN, TUNED, CONTENDERS };
enum { IMAGES = 65536, ROUNDS = 4, MOST_SAMPLES = 150, LEAST_SAMPLES = 3 }; /* samples of a round */

static const double SECONDS_OF_A_ROW = 0.15, SECONDS_OF_A_SAMPLE = 20e-6; /* a row of a round */

static const struct contender {
    const char *name;
    image_function *image;
    const struct parts *parts; /* the library has none */
} contenders[CONTENDERS] = {
    {"this library", windowfloor_image, NULL},
    {"plain C", plain_image, &plain_parts},
    {"tuned C", tuned_image, &tuned_parts},
};

/* Inputs and outputs of the row that is measured */

static uint64_t capacity;
static uint8_t family;
static uint32_t image_inputs[IMAGES][3]; /* p, q, x; too many for branches on them to be learnt */
static uint32_t table[WINDOWFLOOR_MOST_ENTRIES];
static size_t entries;
static uint8_t job[WINDOWFLOOR_MOST_JOB_BYTES];
static size_t job_bytes;
static uint32_t sizes[WINDOWFLOOR_MOST_SIZES];
static uint16_t counts[WINDOWFLOOR_MOST_SIZES];
static uint64_t low, high;

enum { SHORT_LISTS = 256, COPIES = WINDOWFLOOR_MOST_COPIES };

static struct short_list {
    uint32_t capacity;
    size_t n;
    uint32_t sizes[COPIES]; /* each counts once */
} short_lists[SHORT_LISTS];
static size_t lists;

static uint64_t second[WINDOWFLOOR_MOST_ENTRIES]; /* not compared: free */
static uint32_t windows[SHORT_LISTS][WINDOWFLOOR_EXACT_WINDOWS]; /* not compared: there may be several */

static struct {
    uint64_t answer[9];
    uint64_t fewest[SHORT_LISTS];
    uint64_t image_answers[IMAGES];
    uint64_t working[WINDOWFLOOR_JOB_WORKING];
    uint32_t images[WINDOWFLOOR_JOB_IMAGES], list[WINDOWFLOOR_JOB_LIST];
    uint32_t scales[WINDOWFLOOR_JOB_SCALES], blocks[WINDOWFLOOR_JOB_BLOCKS];
} out;

/* One call of each operation */

static void run_images(const struct contender *who)
{
    for (size_t i = 0; i < IMAGES; i++) {
        const uint32_t *in = image_inputs[i];
        struct windowfloor_image_answer answer =
            who->image(capacity, family, in[0], in[1], in[2]);
        out.image_answers[i] = answer.image + (answer.scale << 32) + answer.number;
    }
}

static void run_table_check(const struct contender *who)
{
    struct windowfloor_table_answer answer =
        who->parts == NULL
            ? windowfloor_table_check(table, entries, out.working, WINDOWFLOOR_JOB_WORKING, out.list,
                                      WINDOWFLOOR_JOB_LIST)
            : check_table(who->parts, table, entries, out.working, WINDOWFLOOR_JOB_WORKING, out.list,
                          WINDOWFLOOR_JOB_LIST);
    memcpy(out.answer, &answer, sizeof answer);
}

static void run_one_shortest(const struct contender *who)
{
    struct windowfloor_shortest_answer answer =
        who->parts == NULL
            ? windowfloor_shortest(table, entries, out.working, WINDOWFLOOR_JOB_WORKING, second,
                                   WINDOWFLOOR_MOST_ENTRIES, out.list, WINDOWFLOOR_JOB_LIST)
            : run_shortest(who->parts, table, entries, out.working, WINDOWFLOOR_JOB_WORKING, second,
                           WINDOWFLOOR_MOST_ENTRIES, out.list, WINDOWFLOOR_JOB_LIST);
    memcpy(out.answer, &answer, sizeof answer);
}

static void run_one_floor(const struct contender *who)
{
    struct windowfloor_floor_answer answer =
        who->parts == NULL
            ? windowfloor_floor(job, job_bytes, out.images, WINDOWFLOOR_JOB_IMAGES, out.working,
                                WINDOWFLOOR_JOB_WORKING, out.list, WINDOWFLOOR_JOB_LIST, out.blocks,
                                WINDOWFLOOR_JOB_BLOCKS)
            : run_floor(who->parts, job, job_bytes, out.images, WINDOWFLOOR_JOB_IMAGES, out.working,
                        WINDOWFLOOR_JOB_WORKING, out.list, WINDOWFLOOR_JOB_LIST, out.blocks,
                        WINDOWFLOOR_JOB_BLOCKS);
    memcpy(out.answer, &answer, sizeof answer);
}

static void run_one_cut(const struct contender *who)
{
    struct windowfloor_cut_answer answer =
        who->parts == NULL
            ? windowfloor_cut(job, job_bytes, out.images, WINDOWFLOOR_JOB_IMAGES, out.working,
                              WINDOWFLOOR_JOB_WORKING, out.list, WINDOWFLOOR_JOB_LIST, out.scales,
                              WINDOWFLOOR_JOB_SCALES)
            : run_cut(who->parts, job, job_bytes, out.images, WINDOWFLOOR_JOB_IMAGES, out.working,
                      WINDOWFLOOR_JOB_WORKING, out.list, WINDOWFLOOR_JOB_LIST, out.scales,
                      WINDOWFLOOR_JOB_SCALES);
    memcpy(out.answer, &answer, sizeof answer);
}

static void run_one_sweep(const struct contender *who)
{
    struct windowfloor_sweep_answer answer =
        who->parts == NULL
            ? windowfloor_sweep(capacity, family, sizes, WINDOWFLOOR_MOST_SIZES, counts,
                                WINDOWFLOOR_MOST_SIZES, low, high)
            : run_sweep(who->parts, capacity, family, sizes, WINDOWFLOOR_MOST_SIZES, counts,
                        WINDOWFLOOR_MOST_SIZES, low, high);
    memcpy(out.answer, &answer, sizeof answer);
}

static struct windowfloor_exact_answer run_one_exact(const struct contender *who, size_t i)
{
    static const uint16_t ones[COPIES] = {1, 1, 1, 1, 1, 1, 1, 1, 1, 1};
    const struct short_list *list = &short_lists[i];
    return who->parts == NULL
               ? windowfloor_exact(list->capacity, list->sizes, list->n, ones, list->n, windows[i],
                                   WINDOWFLOOR_EXACT_WINDOWS)
               : run_exact(who->parts, list->capacity, list->sizes, list->n, ones, list->n, windows[i],
                           WINDOWFLOOR_EXACT_WINDOWS);
}

static void run_exacts(const struct contender *who)
{
    for (size_t i = 0; i < lists; i++) {
        struct windowfloor_exact_answer answer = run_one_exact(who, i);
        out.answer[0] |= answer.number;
        out.fewest[i] = answer.fewest;
    }
}

/* Inputs */

static uint32_t below(uint32_t n)
{
    static uint64_t state = 1;
    state = state * 6364136223846793005u + 1442695040888963407u;
    return (uint32_t)((state >> 32) % n);
}

/* Parameters that are accepted, and a size. Family 2 has no p above LIMIT / C. */
static void draw_image(uint32_t *in)
{
    do {
        in[0] = 1 + below((uint32_t)(family == 2 ? LIMIT / capacity : capacity / 2));
        uint32_t r = (uint32_t)capacity % in[0];
        in[1] = family < 6 || r == 0 ? 0 : (in[0] - 1) / r + below(3);
        in[2] = below((uint32_t)capacity + 1);
    } while (windowfloor_image(capacity, family, in[0], in[1], in[2]).number != 0);
}

static void prepare_images(uint32_t of_capacity, uint32_t of_family)
{
    capacity = of_capacity;
    family = (uint8_t)of_family;
    for (size_t i = 0; i < IMAGES; i++)
        draw_image(image_inputs[i]);
}

/* Entries that never pass their size's share of the scale: every list that fits has images that fit. */
static void draw_table(uint32_t scale)
{
    uint32_t share = scale / ((uint32_t)entries - 1);
    for (uint32_t x = 0; x < entries; x++)
        table[x] = share * x - below(share * x / 8 + 1);
    table[entries - 1] = scale;
}

static void prepare_table(uint32_t of_capacity, uint32_t scale)
{
    entries = (size_t)of_capacity + 1;
    draw_table(scale);
}

/* Entries that rise from each size to the next, by uneven distances, and so that one size or two are enough to
 * overshoot. */
static void prepare_few(uint32_t of_capacity, uint32_t fewest)
{
    uint32_t most = 0;
    entries = (size_t)of_capacity + 1;
    table[0] = 0;
    for (uint32_t x = 1; x < of_capacity; x++)
        table[x] = table[x - 1] + 1 + x * 7919 % 1000;
    for (uint32_t x = 1; x < of_capacity; x++) {
        uint32_t total = table[x] + (fewest == 1 ? 0 : table[of_capacity - x]);
        most = total > most ? total : most;
    }
    table[of_capacity] = most - 1;
}

/* Entries that rise at the first multiples of a width, by 3 behind the first. Lists of k sizes total at most k, and 3
 * for each time that the capacity has the width: so this many are the fewest that overshoot. */
static void draw_rises(uint32_t of_capacity, uint32_t width, uint32_t rises, uint32_t fewest)
{
    entries = (size_t)of_capacity + 1;
    for (uint32_t x = 0; x < entries; x++) {
        uint32_t risen = x / width < rises ? x / width : rises;
        table[x] = risen == 0 ? 0 : 3 * risen + 1;
    }
    table[of_capacity] = 3 * (of_capacity / width) + fewest - 1;
}

static void prepare_64_rises(uint32_t of_capacity, uint32_t width)
{
    draw_rises(of_capacity, width, 64, 109);
}

static void prepare_all_rise(uint32_t of_capacity, uint32_t fewest)
{
    draw_rises(of_capacity, 1, of_capacity, fewest);
}

/* That of the row before. */
static void keep_table(uint32_t of_capacity, uint32_t with)
{
    (void)of_capacity;
    (void)with;
}

/* Whether the list that is shown fits and overshoots. */
static int list_holds(void)
{
    uint64_t total = 0, images = 0;
    for (uint64_t i = 0; i < out.answer[1]; i++) {
        if (i >= entries - 1 || out.list[i] < 1 || out.list[i] >= entries)
            return 0;
        total += out.list[i];
        images += table[out.list[i]];
    }
    return total < entries && images > table[entries - 1];
}

static void put(uint64_t number, int bytes)
{
    while (bytes-- > 0)
        job[job_bytes++] = (uint8_t)(number >> 8 * bytes);
}

static void put_header(unsigned tag, size_t length)
{
    put(tag, 1);
    put(length, 2);
}

static void put_kind(uint8_t kind)
{
    job_bytes = 0;
    put_header(WINDOWFLOOR_TAG_KIND, 1);
    put(kind, 1);
}

static void put_sizes(uint32_t of_capacity, size_t n)
{
    while (n-- > 0)
        put(1 + below(of_capacity), 4);
}

static void put_list(uint32_t of_capacity, size_t n)
{
    put_kind(WINDOWFLOOR_KIND_FLOOR);
    put_header(WINDOWFLOOR_TAG_CAPACITY, 4);
    put(of_capacity, 4);
    put_header(WINDOWFLOOR_TAG_SIZES, 4 * n);
    put_sizes(of_capacity, n);
}

static uint32_t draw_count(void)
{
    return 1 + below(WINDOWFLOOR_MOST_COUNT);
}

static void put_counts(size_t n)
{
    put_header(WINDOWFLOOR_TAG_COUNTS, 2 * n);
    while (n-- > 0)
        put(draw_count(), 2);
}

/* n sizes in so many blocks of equal length. */
static void put_blocks(size_t blocks, size_t n)
{
    put_header(WINDOWFLOOR_TAG_BLOCKS, 2 * blocks);
    for (size_t i = 0; i < blocks; i++)
        put(n / blocks, 2);
}

/* Rows of n coefficients in all; each right side is that of the row before, less a distance. */
static void put_rows(size_t rows, size_t n, uint32_t right_side, uint32_t distance)
{
    put_kind(WINDOWFLOOR_KIND_ROWS);
    for (size_t i = 0; i < rows; i++) {
        put_header(WINDOWFLOOR_TAG_ROW, 4 + 4 * (n / rows));
        put(right_side, 4);
        put_sizes(right_side, n / rows);
        right_side -= distance;
    }
}

/* The steps of a job from a capacity of 1,000,000 on: family, p, q. */
static const uint32_t chain[][3] = {{5, 700, 0}, {2, 3, 0},  {3, 1000, 0}, {4, 300, 0},
                                    {1, 100, 0}, {6, 7, 10}, {7, 13, 10},  {2, 50, 0}};

/* From the limit on. Each capacity is near it but that of the last step: near it family 2 has p = 1 alone. */
static const uint32_t chain_at_limit[][3] = {{1, 100000000, 0}, {3, 2, 0},     {4, 2000000001, 0},
                                             {5, 999, 0},       {6, 249, 124}, {7, 60, 5},
                                             {3, 4000, 0},      {2, 2000, 0}};

static void put_families(uint32_t of_capacity, uint32_t steps)
{
    const uint32_t(*step)[3] = of_capacity == WINDOWFLOOR_LIMIT ? chain_at_limit : chain;
    for (uint32_t i = 0; i < steps; i++) {
        put_header(WINDOWFLOOR_TAG_FAMILY, 9);
        put(step[i][0], 1);
        put(step[i][1], 4);
        put(step[i][2], 4);
    }
}

static void put_table(void)
{
    put_header(WINDOWFLOOR_TAG_TABLE, 4 * entries);
    for (size_t x = 0; x < entries; x++)
        put(table[x], 4);
}

/* Tables whose scale is their capacity. */
static void put_tables(uint32_t of_capacity, uint32_t tables)
{
    while (tables-- > 0) {
        prepare_table(of_capacity, of_capacity);
        put_table();
    }
}

static void prepare_family_job(uint32_t of_capacity, uint32_t steps)
{
    put_list(of_capacity, WINDOWFLOOR_MOST_SIZES);
    put_families(of_capacity, steps);
}

static void prepare_counted_job(uint32_t of_capacity, uint32_t steps)
{
    put_list(of_capacity, WINDOWFLOOR_MOST_SIZES);
    put_counts(WINDOWFLOOR_MOST_SIZES);
    put_families(of_capacity, steps);
}

static void prepare_blocked_job(uint32_t of_capacity, uint32_t steps)
{
    put_list(of_capacity, WINDOWFLOOR_MOST_SIZES);
    put_blocks(WINDOWFLOOR_MOST_BLOCKS, WINDOWFLOOR_MOST_SIZES);
    put_families(of_capacity, steps);
}

static void prepare_counted_blocked_job(uint32_t of_capacity, uint32_t steps)
{
    put_list(of_capacity, WINDOWFLOOR_MOST_SIZES);
    put_counts(WINDOWFLOOR_MOST_SIZES);
    put_blocks(WINDOWFLOOR_MOST_BLOCKS, WINDOWFLOOR_MOST_SIZES);
    put_families(of_capacity, steps);
}

/* 2,039 sizes: with them and seven tables of 2,048 entries the job has 65,535 bytes. */
static void prepare_table_job(uint32_t of_capacity, uint32_t tables)
{
    put_list(of_capacity, 2039);
    put_tables(of_capacity, tables);
}

/* The last table has an entry too few for the capacity that it gets. */
static void prepare_short_table(uint32_t of_capacity, uint32_t tables)
{
    prepare_table_job(of_capacity, tables - 1);
    put_tables(of_capacity - 1, 1);
}

/* Right sides with the same remainder by 700: the first step, of family 5, leaves them enough for the
 * others. */
static void prepare_family_rows(uint32_t right_side, uint32_t of_rows)
{
    put_rows(of_rows, WINDOWFLOOR_MOST_SIZES, right_side, 700);
    put_families(right_side, 8);
}

/* 1,920 coefficients: 64 rows of 30 leave room for seven tables. */
static void prepare_table_rows(uint32_t right_side, uint32_t of_rows)
{
    put_rows(of_rows, 1920, right_side, 0);
    put_tables(right_side, 7);
}

static uint64_t least_accepted_p(void)
{
    uint64_t p = 1;
    while (windowfloor_image(capacity, family, p, 0, 0).number != 0)
        p++;
    return p;
}

/* From the least p on that is accepted; at the capacities of the rows 4,096 are, without a gap. Each size
 * counts once. */
static void prepare_sweep(uint32_t of_capacity, uint32_t of_family)
{
    capacity = of_capacity;
    family = (uint8_t)of_family;
    low = least_accepted_p();
    high = low + WINDOWFLOOR_MOST_SPAN;
    for (size_t i = 0; i < WINDOWFLOOR_MOST_SIZES; i++) {
        sizes[i] = 1 + below(of_capacity);
        counts[i] = 1;
    }
}

static void prepare_counted_sweep(uint32_t of_capacity, uint32_t of_family)
{
    prepare_sweep(of_capacity, of_family);
    for (size_t i = 0; i < WINDOWFLOOR_MOST_SIZES; i++)
        counts[i] = (uint16_t)draw_count();
}

/* Short lists */

static void draw_list(struct short_list *list, uint32_t of_capacity, size_t copies, uint32_t least,
                      uint32_t most)
{
    list->capacity = of_capacity;
    list->n = copies;
    for (size_t i = 0; i < copies; i++)
        list->sizes[i] = least + below(most - least + 1);
}

static void prepare_short_lists(uint32_t of_capacity, uint32_t copies)
{
    for (lists = 0; lists < SHORT_LISTS; lists++)
        draw_list(&short_lists[lists], of_capacity, copies, 1, of_capacity);
}

/* Of sizes within a twentieth of the capacity from its half, third or fourth part. */
static void prepare_near_part(uint32_t of_capacity, uint32_t part)
{
    uint32_t middle = of_capacity / part, distance = of_capacity / 20;
    for (lists = 0; lists < SHORT_LISTS; lists++)
        draw_list(&short_lists[lists], of_capacity, COPIES, middle - distance, middle + distance);
}

/* The floor without a step. */
static uint64_t floor_of(const struct short_list *list)
{
    uint64_t sum = 0;
    for (size_t i = 0; i < list->n; i++)
        sum += list->sizes[i];
    return round_up(sum, list->capacity);
}

static void prepare_above_floor(uint32_t of_capacity, uint32_t copies)
{
    for (lists = 0; lists < SHORT_LISTS; lists++)
        do
            draw_list(&short_lists[lists], of_capacity, copies, 1, of_capacity);
        while (run_one_exact(&contenders[TUNED], lists).fewest == floor_of(&short_lists[lists]));
}

/* Found by random changes that make a search in list order longer, where it asks for each number of windows
 * whether it is enough; the last five, that make it longer beside plain C, as several numbers are not. */
static const struct short_list hardest[] = {
    {1000, 10, {320, 289, 292, 307, 345, 254, 301, 190, 622, 860}},
    {10, 10, {3, 3, 3, 3, 3, 3, 3, 3, 5, 9}},
    {10, 10, {4, 3, 3, 2, 3, 3, 3, 3, 6, 10}},
    {1000000, 10, {357386, 258032, 254744, 293405, 331925, 261695, 239596, 272580, 621354, 844395}},
    {4000000000, 10,
     {1009490743, 1163230867, 1116641701, 1239343236, 1377164887, 1176674582, 1006842660, 1047615451,
      2355925002, 3661294048}},
    {1000, 10, {258, 254, 256, 142, 225, 210, 435, 461, 698, 972}},
    {1000, 10, {319, 268, 255, 11, 262, 283, 360, 262, 926, 1000}},
    {1000, 10, {236, 223, 227, 288, 245, 227, 198, 386, 856, 858}},
    {1000, 10, {8, 31, 29, 98, 683, 1, 620, 513, 512, 490}},
    {1000, 10, {121, 88, 418, 100, 100, 434, 413, 412, 876, 958}},
    {1000, 10, {94, 336, 1, 338, 81, 428, 362, 365, 719, 897}},
    {1000000, 10, {167119, 164127, 175130, 149056, 194146, 148892, 610224, 543543, 710913, 923878}},
    {1000, 10, {454, 401, 425, 628, 656, 684, 646, 770, 641, 631}},
    {1000, 10, {371, 388, 544, 493, 519, 679, 709, 708, 930, 655}},
    {1000, 10, {265, 363, 319, 343, 837, 742, 835, 737, 745, 737}},
    {1000, 10, {62, 505, 101, 521, 540, 805, 521, 539, 846, 524}},
    {1000, 10, {7, 530, 11, 105, 512, 544, 790, 905, 1000, 552}},
};

enum { HARDEST = 12, BESIDE_PLAIN = sizeof hardest / sizeof *hardest - HARDEST };

static void prepare_hardest(uint32_t first, uint32_t many)
{
    for (lists = 0; lists < many; lists++)
        short_lists[lists] = hardest[first + lists];
}

/* Whether the windows of a list are below the fewest, and none has more than the capacity. */
static int windows_hold(size_t i)
{
    uint64_t loads[WINDOWFLOOR_EXACT_WINDOWS] = {0};
    for (size_t copy = 0; copy < short_lists[i].n; copy++) {
        uint32_t window = windows[i][copy];
        if (window >= out.fewest[i])
            return 0;
        loads[window] += short_lists[i].sizes[copy];
        if (loads[window] > short_lists[i].capacity)
            return 0;
    }
    return 1;
}

static int all_windows_hold(void)
{
    for (size_t i = 0; i < lists; i++)
        if (!windows_hold(i))
            return 0;
    return 1;
}

/* Rows */

struct row {
    const char *name;
    void (*prepare)(uint32_t of_capacity, uint32_t with);
    uint32_t of_capacity, with;
    void (*run)(const struct contender *who);
    const char *unit;
    double per_second; /* units */
    double inputs;     /* of one call */
    double at_most;    /* this many times an earlier row; 0: no such goal */
    int back;          /* that row is so many rows before */
    uint64_t number;   /* that refuses it, or 0 */
    int plain_once;    /* plain C takes so long that it runs once */
};

#define IMAGE_ROW(c, with, name) \
    {"image, " name, prepare_images, c, with, run_images, "ns", 1e9, IMAGES, 0, 0, 0, 0}
#define IMAGE_ROWS(c, where)                                     \
    IMAGE_ROW(c, 1, "family 1 (threshold)" where),               \
    IMAGE_ROW(c, 2, "family 2 (rounding)" where),                \
    IMAGE_ROW(c, 3, "family 3 (mirrored quotient)" where),       \
    IMAGE_ROW(c, 4, "family 4 (mirrored Vanderbeck)" where),     \
    IMAGE_ROW(c, 5, "family 5 (Burdett-Johnson)" where),         \
    IMAGE_ROW(c, 6, "family 6 (mirrored Letchford-Lodi)" where), \
    IMAGE_ROW(c, 7, "family 7 (Dash-Günlük)" where)
#define TABLE_ROW(c, scale, what) \
    {"table check, C = " what, prepare_table, c, scale, run_table_check, "µs", 1e6, 1, 0, 0, 0, 0}
/* A table that is refused: the table check, and a shortest list. */
#define SHORTEST_ROWS(prepare, with, what, at_most, plain_once)                                          \
    {"table check, C = 2,047, " what, prepare, 2047, with, run_table_check, "µs", 1e6, 1, 0, 0,          \
     WINDOWFLOOR_NOT_DUAL_FEASIBLE, 0},                                                                  \
    {"shortest list, C = 2,047, " what, keep_table, 2047, with, run_one_shortest, "µs", 1e6, 1, at_most, \
     1, 0, plain_once}
#define JOB_ROW(prepare, c, with, what, at_most) \
    {"job, " what, prepare, c, with, run_one_floor, "µs", 1e6, 1, at_most, 1, 0, 0}
#define CUT_ROW(prepare, c, with, what, at_most) \
    {"job, " what, prepare, c, with, run_one_cut, "µs", 1e6, 1, at_most, 1, 0, 0}
/* Two rows behind the one without blocks. */
#define BLOCKS_ROW(prepare, c, with, what, at_most) \
    {"job, " what, prepare, c, with, run_one_floor, "µs", 1e6, 1, at_most, 2, 0, 0}
#define SHORT_TABLE_ROW(c, with, what, at_most) \
    {"job, " what, prepare_short_table, c, with, run_one_floor, "µs", 1e6, 1, at_most, 1, \
     WINDOWFLOOR_OTHER_CAPACITY, 0}
#define SWEEP_ROW(c, with, name) \
    {"sweep, 4,096 p × 2,048 sizes, " name, prepare_sweep, c, with, run_one_sweep, "ms", 1e3, 1, 0, 0, 0, 0}
#define COUNTED_SWEEP_ROW(c, with, name) \
    {"sweep, 4,096 p × 2,048 sizes with counts, " name, prepare_counted_sweep, c, with, run_one_sweep, \
     "ms", 1e3, 1, 0, 0, 0, 0}
#define EXACT_ROW(prepare, c, with, lists, what) \
    {"exact, " what, prepare, c, with, run_exacts, "µs", 1e6, lists, 0, 0, 0, 0}
#define AT_LIMIT ", C = 4 × 10^9"

enum { MILLION = 1000000, SWEPT = 100003 }; /* capacities */

static const struct row rows[] = {
    IMAGE_ROWS(MILLION, ""),
    TABLE_ROW(255, 255, "255"),
    TABLE_ROW(1023, 1023, "1,023"),
    TABLE_ROW(2047, 2047, "2,047"),
    SHORTEST_ROWS(prepare_few, 1, "1 size", 1.3, 0),
    SHORTEST_ROWS(prepare_few, 2, "2 sizes", 1.3, 0),
    SHORTEST_ROWS(prepare_64_rises, 18, "109 sizes, 64 of use, to 1,152", 6, 1),
    SHORTEST_ROWS(prepare_64_rises, 1, "109 sizes, 64 of use, to 64", 100, 1),
    SHORTEST_ROWS(prepare_all_rise, 600, "600 sizes", 100, 1),
    SHORTEST_ROWS(prepare_all_rise, 1023, "1,023 sizes", 100, 1),
    SHORTEST_ROWS(prepare_all_rise, 2047, "2,047 sizes", 100, 1),
    JOB_ROW(prepare_family_job, MILLION, 0, "2,048 sizes, no step", 0),
    JOB_ROW(prepare_family_job, MILLION, 1, "2,048 sizes, 1 family step", 0),
    JOB_ROW(prepare_family_job, MILLION, 8, "2,048 sizes, 8 family steps", 0),
    JOB_ROW(prepare_counted_job, MILLION, 8, "2,048 sizes with counts, 8 family steps", 1.15),
    BLOCKS_ROW(prepare_blocked_job, MILLION, 8, "2,048 sizes in 64 blocks, 8 family steps", 1.1),
    BLOCKS_ROW(prepare_counted_blocked_job, MILLION, 8,
               "2,048 sizes with counts in 64 blocks, 8 family steps", 1.1),
    JOB_ROW(prepare_table_job, 2047, 7, "2,039 sizes, 7 tables of 2,048 entries", 0),
    JOB_ROW(prepare_table_job, 2047, 1, "2,039 sizes, 1 table of 2,048 entries", 0),
    SHORT_TABLE_ROW(2047, 2, "2,039 sizes, 1 table of 2,048 entries, then one refused with 18", 1.3),
    SHORT_TABLE_ROW(2047, 1, "2,039 sizes, the first table refused with 18", 0.05),
    CUT_ROW(prepare_family_rows, MILLION, 1, "1 row of 2,048 coefficients, 8 family steps", 0),
    CUT_ROW(prepare_family_rows, MILLION, 64, "64 rows of 32 coefficients, 8 family steps", 1.5),
    CUT_ROW(prepare_table_rows, 2047, 1, "1 row of 1,920 coefficients, 7 tables of 2,048 entries", 0),
    CUT_ROW(prepare_table_rows, 2047, 64, "64 rows of 30 coefficients, 7 tables of 2,048 entries", 1.3),
    SWEEP_ROW(SWEPT, 1, "family 1"),
    SWEEP_ROW(SWEPT, 2, "family 2"),
    SWEEP_ROW(SWEPT, 3, "family 3"),
    SWEEP_ROW(SWEPT, 4, "family 4"),
    SWEEP_ROW(SWEPT, 5, "family 5"),
    COUNTED_SWEEP_ROW(SWEPT, 1, "family 1"),
    COUNTED_SWEEP_ROW(SWEPT, 2, "family 2"),
    COUNTED_SWEEP_ROW(SWEPT, 3, "family 3"),
    COUNTED_SWEEP_ROW(SWEPT, 4, "family 4"),
    COUNTED_SWEEP_ROW(SWEPT, 5, "family 5"),
    EXACT_ROW(prepare_short_lists, MILLION, 6, SHORT_LISTS, "6 copies up to C"),
    EXACT_ROW(prepare_short_lists, MILLION, 10, SHORT_LISTS, "10 copies up to C"),
    EXACT_ROW(prepare_near_part, MILLION, 2, SHORT_LISTS, "10 copies near C / 2"),
    EXACT_ROW(prepare_near_part, MILLION, 3, SHORT_LISTS, "10 copies near C / 3"),
    EXACT_ROW(prepare_near_part, MILLION, 4, SHORT_LISTS, "10 copies near C / 4"),
    EXACT_ROW(prepare_above_floor, MILLION, 10, SHORT_LISTS, "10 copies up to C, the floor below the fewest"),
    EXACT_ROW(prepare_hardest, 0, HARDEST, HARDEST, "10 copies, the hardest lists known"),
    EXACT_ROW(prepare_hardest, 0, 1, 1, "10 copies, one of the hardest lists"),
    EXACT_ROW(prepare_hardest, HARDEST, BESIDE_PLAIN, BESIDE_PLAIN,
              "10 copies, the hardest lists beside plain C"),
    IMAGE_ROWS(WINDOWFLOOR_LIMIT, AT_LIMIT),
    TABLE_ROW(2047, WINDOWFLOOR_LIMIT, "2,047, entries up to 4 × 10^9"),
    JOB_ROW(prepare_family_job, WINDOWFLOOR_LIMIT, 8, "2,048 sizes, 8 family steps" AT_LIMIT, 0),
    JOB_ROW(prepare_counted_job, WINDOWFLOOR_LIMIT, 8, "2,048 sizes with counts, 8 family steps" AT_LIMIT,
            1.15),
    SWEEP_ROW(WINDOWFLOOR_LIMIT, 1, "family 1" AT_LIMIT),
    SWEEP_ROW(WINDOWFLOOR_LIMIT / 4096, 2, "family 2, C = 976,562"), /* at the limit p = 1 alone */
    SWEEP_ROW(WINDOWFLOOR_LIMIT, 3, "family 3" AT_LIMIT),
    SWEEP_ROW(WINDOWFLOOR_LIMIT, 4, "family 4" AT_LIMIT),
    SWEEP_ROW(WINDOWFLOOR_LIMIT, 5, "family 5" AT_LIMIT),
    EXACT_ROW(prepare_short_lists, WINDOWFLOOR_LIMIT, 10, SHORT_LISTS, "10 copies up to C" AT_LIMIT),
};

/* Comparing and measuring */

static uint64_t digest(void)
{
    const uint8_t *byte = (const uint8_t *)&out;
    uint64_t sum = 0;
    for (size_t i = 0; i < sizeof out; i++)
        sum = (sum ^ byte[i]) * 1099511628211u;
    return sum;
}

/* Whether what is free holds; it is cleared if it is compared otherwise. (A job's working buffer is free, windows
 * need only hold their copies, and a shortest list need only fit and overshoot.) */
static int free_holds(const struct row *row)
{
    int held = 1;
    if (row->run == run_exacts)
        held = all_windows_hold();
    if (row->run == run_one_shortest) {
        held = list_holds();
        memset(out.list, 0, held ? out.answer[1] * sizeof *out.list : 0);
    }
    if (row->run == run_one_floor || row->run == run_one_cut || row->run == run_one_shortest)
        memset(out.working, 0, sizeof out.working);
    return held;
}

/* Time of this process alone: other work on the machine counts less. */
static double now(void)
{
    struct timespec t;
    clock_gettime(CLOCK_PROCESS_CPUTIME_ID, &t);
    return (double)t.tv_sec + 1e-9 * (double)t.tv_nsec;
}

static double seconds(const struct row *row, int who, int calls)
{
    double start = now();
    for (int i = 0; i < calls; i++)
        row->run(&contenders[who]);
    return now() - start;
}

struct samples {
    int calls, count[CONTENDERS];                      /* calls of one sample; samples so far */
    double seconds[CONTENDERS][ROUNDS * MOST_SAMPLES]; /* of one call */
};

static void add_sample(struct samples *samples, int who, double of_one_call)
{
    samples->seconds[who][samples->count[who]++] = of_one_call;
}

/* Where plain C runs once, that is when results are first compared. */
static int is_due(const struct row *row, int who, const struct samples *samples)
{
    return !(row->plain_once && who == PLAIN && samples->count[PLAIN] > 0);
}

/* All three accept, or refuse by the row's number, and leave the same answers and buffers, but for what is free. */
static void compare(const struct row *row, struct samples *samples)
{
    uint64_t results[CONTENDERS];
    for (int who = 0; who < CONTENDERS; who++) {
        if (!is_due(row, who, samples))
            continue;
        memset(&out, 0, sizeof out);
        memset(windows, 0xff, sizeof windows);
        double taken = seconds(row, who, 1);
        if (row->plain_once && who == PLAIN)
            add_sample(samples, who, taken);
        int held = free_holds(row);
        results[who] = digest();
        if (out.answer[0] != row->number || results[who] != results[LIBRARY] || !held) {
            fprintf(stderr, "bench: %s: %s has another number or differs\n", row->name, contenders[who].name);
            exit(1);
        }
    }
}

static int calls_of_a_sample(const struct row *row)
{
    int calls = 1;
    while (seconds(row, LIBRARY, calls) < SECONDS_OF_A_SAMPLE)
        calls *= 2;
    return calls;
}

static void measure(const struct row *row, struct samples *samples)
{
    double end = now() + SECONDS_OF_A_ROW;
    if (samples->calls == 0)
        samples->calls = calls_of_a_sample(row);
    for (int i = 0; i < LEAST_SAMPLES || (i < MOST_SAMPLES && now() < end); i++)
        for (int who = 0; who < CONTENDERS; who++)
            if (is_due(row, who, samples))
                add_sample(samples, who, seconds(row, who, samples->calls) / samples->calls);
}

static int ascending(const void *a, const void *b)
{
    double x = *(const double *)a, y = *(const double *)b;
    return (x > y) - (x < y);
}

/* The median of one input, in the row's unit. */
static double median(const struct row *row, struct samples *samples, int who)
{
    double *sorted = samples->seconds[who];
    qsort(sorted, (size_t)samples->count[who], sizeof *sorted, ascending);
    return sorted[samples->count[who] / 2] * row->per_second / row->inputs;
}

static void print_row(const struct row *row, struct samples *samples)
{
    double medians[CONTENDERS];
    printf("| %s |", row->name);
    for (int who = 0; who < CONTENDERS; who++) {
        medians[who] = median(row, samples, who);
        printf(" %.2f %s |", medians[who], row->unit);
    }
    printf(" %.2f | %.2f |\n", medians[LIBRARY] / medians[PLAIN], medians[LIBRARY] / medians[TUNED]);
}

/* What a row costs, in times of an earlier one. */
static void print_times(const struct row *row, struct samples *samples)
{
    const struct row *other = row - row->back;
    printf("| %s | %s |", row->name, other->name);
    for (int who = 0; who < CONTENDERS; who++)
        printf(" %.3f |", median(row, samples, who) / median(other, samples - row->back, who));
    printf(" %.2f |\n", row->at_most);
}

static void print_head(const char *first, const char *last, const char *rule)
{
    printf("|%s |", first);
    for (int who = 0; who < CONTENDERS; who++)
        printf(" %s |", contenders[who].name);
    printf(" %s |\n%s\n", last, rule);
}

enum { ROWS = sizeof rows / sizeof *rows };

static void print_tables(struct samples *samples)
{
    printf("C compiled by %s, -O3; medians of %d rounds\n\n", COMPILER, ROUNDS);
    print_head("", "to plain | to tuned", "|---|---:|---:|---:|---:|---:|");
    for (int i = 0; i < ROWS; i++)
        print_row(&rows[i], &samples[i]);
    printf("\n");
    print_head(" | in times of", "at most", "|---|---|---:|---:|---:|---:|");
    for (int i = 0; i < ROWS; i++)
        if (rows[i].at_most > 0)
            print_times(&rows[i], &samples[i]);
    printf("\n");
}

int main(void)
{
    static struct samples samples[ROWS];
    for (int round = 0; round < ROUNDS; round++)
        for (int i = 0; i < ROWS; i++) {
            rows[i].prepare(rows[i].of_capacity, rows[i].with);
            compare(&rows[i], &samples[i]);
            measure(&rows[i], &samples[i]);
        }
    print_tables(samples);
    return 0;
}
