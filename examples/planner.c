/* The best floor for a list of sizes, and the cut that the same step makes of them as a row; of a list in
 * blocks, which share no windows, also the floor of each block and their total; or the cuts that the steps
 * given make of all rows of a model, in one job.
 *
 * Of a list of at most 10 copies in all it also prints the fewest windows and the sizes in each of them: of
 * the whole list, as if it had no blocks, and where it has some, of each block too.
 *
 *     planner CAPACITY SIZE[xCOUNT]... [/ SIZE[xCOUNT]...]...
 *                                             5x300 is a size of 5 with 300 copies; without a count, one.
 *                                             A / ends a block: 7 5 / 7 5 / 5 is three of them
 *     planner FILE                            the same words, in a file
 *     planner --rows FILE [FAMILY P Q]...     each line of the file is a row: right side, coefficients
 *
 * Exit status: 1 if the library refuses, 2 if the numbers cannot be read or the answer not written.
 */
#include <inttypes.h>
#include <stdio.h>
#include <stdlib.h>
#include <string.h>

#include "reading.h"
#include "windowfloor.h"

const char *const program = "planner";

static const char usage[] = "planner CAPACITY SIZE[xCOUNT]... [/ SIZE[xCOUNT]...]..."
                            " | planner FILE | planner --rows FILE [FAMILY P Q]...";

static const char *const families[] = {
    "no step", "threshold", "rounding", "mirrored quotient", "mirrored Vanderbeck", "Burdett-Johnson",
};

struct list {
    int has_capacity;
    uint64_t capacity;
    size_t n;
    uint32_t sizes[WINDOWFLOOR_MOST_SIZES];
    uint16_t counts[WINDOWFLOOR_MOST_SIZES];
    size_t ended; /* the blocks that a / has ended; there is one more, or without any / none */
    uint16_t block_sizes[WINDOWFLOOR_MOST_BLOCKS];
};

struct step {
    uint8_t family; /* 0: no step */
    uint64_t p, q, floor;
};

struct row {
    uint32_t right_side;
    size_t first, n; /* the place of its first coefficient among those of all rows, and how many */
};

struct model {
    size_t rows, n, steps;
    struct row row[WINDOWFLOOR_MOST_ROWS];
    uint32_t coefficients[WINDOWFLOOR_MOST_SIZES];
    struct step step[WINDOWFLOOR_MOST_STEPS];
};

/* The row and the step where the answer names them. */
static void stop_if_refused(const char *operation, uint64_t number, uint64_t row, uint64_t step)
{
    if (number == WINDOWFLOOR_ACCEPTED)
        return;
    printf("%s refused, number %" PRIu64, operation, number);
    if (row > 0)
        printf(", row %" PRIu64, row);
    if (step > 0)
        printf(", step %" PRIu64, step);
    printf(": %s\n", windowfloor_refusal_text(number));
    exit(1);
}

/* Reading: a size may have a count behind it, and among the sizes a / is a word too. */

/* Why it is none of the sizes of the list. A count of 0 is for the library to refuse, like a size of 0. */
static const char *fault_in_list(const struct word *word, const struct list *list)
{
    if (list->n == WINDOWFLOOR_MOST_SIZES)
        return "more sizes than a job can have";
    if (word->number.value > UINT32_MAX)
        return "a size of more than 32 bits";
    if (word->count.too_large || word->count.value > WINDOWFLOOR_MOST_COUNT)
        return "a count of more than 16 bits";
    return NULL;
}

/* Why it is none of the model. */
static const char *fault_in_row(const struct word *word, const struct model *model, int starts_row)
{
    if (starts_row && model->rows == WINDOWFLOOR_MOST_ROWS)
        return "more rows than a job can have";
    if (!starts_row && model->n == WINDOWFLOOR_MOST_SIZES)
        return "more coefficients than a job can have";
    return word->number.value > UINT32_MAX ? "a number of more than 32 bits" : NULL;
}

static void add_size(struct list *list, const struct word *word, const struct place *place)
{
    stop_if(fault_in_list(word, list), place, word);
    list->sizes[list->n] = (uint32_t)word->number.value;
    list->counts[list->n] = word->has_x ? (uint16_t)word->count.value : 1;
    list->block_sizes[list->ended]++;
    list->n++;
}

static int is_slash(const struct word *word)
{
    return word->length == 1 && word->start[0] == '/';
}

/* A block without sizes is for the library to refuse. */
static void end_block(struct list *list, const struct word *word, const struct place *place)
{
    if (list->ended + 1 == WINDOWFLOOR_MOST_BLOCKS)
        stop_at_word(place, "more blocks than a job can have", word);
    list->ended++;
}

static void add_word(struct list *list, const struct word *word, const struct place *place)
{
    if (list->has_capacity && is_slash(word)) {
        end_block(list, word, place);
        return;
    }
    stop_if(fault_of(word, list->has_capacity), place, word);
    if (list->has_capacity) {
        add_size(list, word, place);
    } else {
        list->capacity = word->number.value;
        list->has_capacity = 1;
    }
}

/* The first word of a line is a right side, the others are coefficients. */
static void add_to_model(struct model *model, const struct word *word, const struct place *place,
                         int starts_row)
{
    stop_if(fault_of(word, 0), place, word);
    stop_if(fault_in_row(word, model, starts_row), place, word);
    if (starts_row) {
        struct row row = {(uint32_t)word->number.value, model->n, 0};
        model->row[model->rows++] = row;
    } else {
        model->coefficients[model->n++] = (uint32_t)word->number.value;
        model->row[model->rows - 1].n++;
    }
}

static void read_file(struct list *list, const char *name)
{
    struct place place = {name, 1};
    struct word word;
    FILE *file = open_file(name);
    while (read_word(file, &place, &word))
        add_word(list, &word, &place);
    if (!list->has_capacity)
        stop_at(&place, "the file ends before a capacity");
    fclose(file);
}

static void read_rows(struct model *model, const char *name)
{
    struct place place = {name, 1};
    struct word word;
    unsigned long line_of_row = 0;
    FILE *file = open_file(name);
    while (read_word(file, &place, &word)) {
        add_to_model(model, &word, &place, place.count != line_of_row);
        line_of_row = place.count;
    }
    fclose(file);
}

static void read_list(struct list *list, int argc, char **argv)
{
    if (argc == 2) {
        read_file(list, argv[1]);
        return;
    }
    for (int i = 1; i < argc; i++) {
        struct place place = {NULL, (unsigned long)i};
        struct word word = word_of(argv[i]);
        add_word(list, &word, &place);
    }
}

/* A number of a step: the family has a byte, the others have 32 bits. */
static uint32_t step_number(char **argv, int i, uint32_t most)
{
    struct place place = {NULL, (unsigned long)i};
    struct word word = word_of(argv[i]);
    stop_if(fault_of(&word, 0), &place, &word);
    if (word.number.value > most)
        stop_at_word(&place, "a number too large for a step", &word);
    return (uint32_t)word.number.value;
}

static void read_model(struct model *model, int argc, char **argv)
{
    enum { FIRST_STEP = 3, NUMBERS = 3 };
    if (argc < FIRST_STEP || (argc - FIRST_STEP) % NUMBERS != 0
        || argc - FIRST_STEP > NUMBERS * (int)WINDOWFLOOR_MOST_STEPS)
        stop_with_usage(usage);
    for (int i = FIRST_STEP; i < argc; i += NUMBERS) {
        struct step *step = &model->step[model->steps++];
        step->family = (uint8_t)step_number(argv, i, UINT8_MAX);
        step->p = step_number(argv, i + 1, UINT32_MAX);
        step->q = step_number(argv, i + 2, UINT32_MAX);
    }
    read_rows(model, argv[2]);
}

/* Writing a job: fields of a tag, a two-byte length and a value, numbers high byte first */

struct job {
    size_t length;
    uint8_t bytes[WINDOWFLOOR_MOST_JOB_BYTES];
};

static void put(struct job *job, uint64_t number, int bytes)
{
    while (bytes-- > 0)
        job->bytes[job->length++] = (uint8_t)(number >> 8 * bytes);
}

static void put_header(struct job *job, uint8_t tag, size_t length)
{
    put(job, tag, 1);
    put(job, length, 2);
}

static void put_list(struct job *job, const uint32_t *numbers, size_t n)
{
    for (size_t i = 0; i < n; i++)
        put(job, numbers[i], 4);
}

static void put_step(struct job *job, struct step step)
{
    put_header(job, WINDOWFLOOR_TAG_FAMILY, 9);
    put(job, step.family, 1);
    put(job, step.p, 4);
    put(job, step.q, 4);
}

static void start_job(struct job *job, uint8_t kind)
{
    job->length = 0;
    put_header(job, WINDOWFLOOR_TAG_KIND, 1);
    put(job, kind, 1);
}

static int has_counts(const struct list *list)
{
    for (size_t i = 0; i < list->n; i++)
        if (list->counts[i] != 1)
            return 1;
    return 0;
}

static void put_counts(struct job *job, const struct list *list)
{
    put_header(job, WINDOWFLOOR_TAG_COUNTS, 2 * list->n);
    for (size_t i = 0; i < list->n; i++)
        put(job, list->counts[i], 2);
}

static int has_blocks(const struct list *list)
{
    return list->ended > 0;
}

static void put_blocks(struct job *job, const struct list *list)
{
    put_header(job, WINDOWFLOOR_TAG_BLOCKS, 2 * (list->ended + 1));
    for (size_t i = 0; i <= list->ended; i++)
        put(job, list->block_sizes[i], 2);
}

/* Counts and blocks are for floors: a cut is of the row of sizes, whatever these are. */
static void write_list(struct job *job, uint8_t kind, const struct list *list, struct step step)
{
    start_job(job, kind);
    put_header(job, WINDOWFLOOR_TAG_CAPACITY, 4);
    put(job, list->capacity, 4);
    put_header(job, WINDOWFLOOR_TAG_SIZES, 4 * list->n);
    put_list(job, list->sizes, list->n);
    if (kind == WINDOWFLOOR_KIND_FLOOR && has_counts(list))
        put_counts(job, list);
    if (kind == WINDOWFLOOR_KIND_FLOOR && has_blocks(list))
        put_blocks(job, list);
    if (step.family != 0)
        put_step(job, step);
}

static void write_model(struct job *job, const struct model *model)
{
    start_job(job, WINDOWFLOOR_KIND_ROWS);
    for (size_t i = 0; i < model->rows; i++) {
        struct row row = model->row[i];
        put_header(job, WINDOWFLOOR_TAG_ROW, 4 + 4 * row.n);
        put(job, row.right_side, 4);
        put_list(job, model->coefficients + row.first, row.n);
    }
    for (size_t i = 0; i < model->steps; i++)
        put_step(job, model->step[i]);
}

/* Running a job */

/* What an accepted job leaves: the images, and the answer and the buffer of the operation that took it. */
struct result {
    struct windowfloor_floor_answer floor;
    struct windowfloor_cut_answer cut;
    uint32_t images[WINDOWFLOOR_JOB_IMAGES];
    uint32_t blocks[WINDOWFLOOR_JOB_BLOCKS], scales[WINDOWFLOOR_JOB_SCALES];
};

static uint64_t working[WINDOWFLOOR_JOB_WORKING];
static uint32_t counterexample[WINDOWFLOOR_JOB_LIST];

static void run_floor(const struct job *job, struct result *result)
{
    result->floor =
        windowfloor_floor(job->bytes, job->length, result->images, WINDOWFLOOR_JOB_IMAGES, working,
                          WINDOWFLOOR_JOB_WORKING, counterexample, WINDOWFLOOR_JOB_LIST, result->blocks,
                          WINDOWFLOOR_JOB_BLOCKS);
    stop_if_refused("job", result->floor.number, result->floor.row, result->floor.step);
}

static void run_cut(const struct job *job, struct result *result)
{
    result->cut =
        windowfloor_cut(job->bytes, job->length, result->images, WINDOWFLOOR_JOB_IMAGES, working,
                        WINDOWFLOOR_JOB_WORKING, counterexample, WINDOWFLOOR_JOB_LIST, result->scales,
                        WINDOWFLOOR_JOB_SCALES);
    stop_if_refused("job", result->cut.number, result->cut.row, result->cut.step);
}

/* The fourth byte of a job is its kind: 2 and 3 are for the cut operation, all else for the floor operation. */
static void run_job(const struct job *job, struct result *result)
{
    uint8_t kind = job->bytes[3];
    if (kind == WINDOWFLOOR_KIND_CUT || kind == WINDOWFLOOR_KIND_ROWS)
        run_cut(job, result);
    else
        run_floor(job, result);
}

static const struct result *run_list(uint8_t kind, const struct list *list, struct step step)
{
    static struct job job;
    static struct result result;
    write_list(&job, kind, list, step);
    run_job(&job, &result);
    return &result;
}

/* The sweeps. From 1 on, the p of a family that are legal with a scale within the limit are one run of
 * numbers that begins with 1 or 2, or there are none. So the first range without any is behind the last
 * of them. p = 0, legal in family 1 alone, is the identity: no step. */

enum { MOST_RANGES = 16 }; /* of a family; with 2,048 sizes all families take about a second */

struct swept {
    struct step best; /* p = 0: there is no legal p */
    uint64_t tried;   /* the last p of the ranges that had a legal one */
    int all;          /* there is none behind it */
};

static int is_legal(const struct list *list, uint8_t family, uint64_t p)
{
    return windowfloor_image(list->capacity, family, p, 0, 0).number == WINDOWFLOOR_ACCEPTED;
}

static struct swept sweep_family(const struct list *list, uint8_t family)
{
    struct swept swept = {{family, 0, 0, 0}, 0, 0};
    for (int range = 0; range < MOST_RANGES; range++) {
        uint64_t low = swept.tried + 1, high = low + WINDOWFLOOR_MOST_SPAN;
        struct windowfloor_sweep_answer answer =
            windowfloor_sweep(list->capacity, family, list->sizes, list->n, list->counts, list->n, low,
                              high);
        if (answer.number == WINDOWFLOOR_NO_LEGAL_P)
            break;
        stop_if_refused("sweep", answer.number, 0, 0);
        if (swept.best.p == 0 || answer.floor > swept.best.floor) {
            swept.best.p = answer.p;
            swept.best.floor = answer.floor;
        }
        swept.tried = high;
    }
    swept.all = !is_legal(list, family, swept.tried + 1);
    return swept;
}

static void print_swept(const struct swept *swept)
{
    printf("  %-19s ", families[swept->best.family]);
    if (swept->best.p == 0) {
        printf("no legal p from 1 on\n");
        return;
    }
    printf("p = %-5" PRIu64 " floor %" PRIu64, swept->best.p, swept->best.floor);
    if (swept->all)
        printf(", all legal p tried\n");
    else
        printf(", legal p up to %" PRIu64 " tried, there are more\n", swept->tried);
}

/* The best of all sweeps and of no step at all. */
static struct step best_step(const struct list *list, uint64_t floor_without)
{
    struct step best = {0, 0, 0, floor_without};
    for (uint8_t family = 1; family <= WINDOWFLOOR_SWEEP_FAMILIES; family++) {
        struct swept swept = sweep_family(list, family);
        print_swept(&swept);
        if (swept.best.floor > best.floor)
            best = swept.best;
    }
    return best;
}

static void print_best(struct step best)
{
    printf("best floor %" PRIu64 ": %s", best.floor, families[best.family]);
    if (best.family != 0)
        printf(", p = %" PRIu64, best.p);
    printf("\n");
}

static void print_row(const uint32_t *coefficients, size_t n, uint64_t right_side)
{
    for (size_t i = 0; i < n; i++)
        printf("%s %" PRIu32 " x%zu", i > 0 ? " +" : "", coefficients[i], i + 1);
    printf(" <= %" PRIu64 "\n", right_side);
}

/* What one more size of half a window would add. */
static void print_half(const struct list *list, struct step step)
{
    uint64_t half = (list->capacity + 1) / 2;
    struct windowfloor_image_answer answer =
        windowfloor_image(list->capacity, step.family, step.p, 0, half);
    stop_if_refused("image", answer.number, 0, 0);
    printf("one more size of %" PRIu64 " would add %" PRIu64 " to a sum that is divided by %" PRIu64
           "\n", half, answer.image, answer.scale);
}

static void print_block(const struct list *list, size_t first, size_t n)
{
    for (size_t i = first; i < first + n; i++)
        print_size(list->sizes[i], list->counts[i]);
}

/* As they can be read again. */
static void print_sizes(const struct list *list)
{
    size_t first = 0;
    for (size_t i = 0; i <= list->ended; i++) {
        printf("%s", i > 0 ? " /" : "");
        print_block(list, first, list->block_sizes[i]);
        first += list->block_sizes[i];
    }
}

static void print_list(const struct list *list)
{
    printf("capacity %" PRIu64 ", %zu sizes", list->capacity, list->n);
    if (has_blocks(list))
        printf(", %zu blocks", list->ended + 1);
    if (has_counts(list)) {
        printf(":");
        print_sizes(list);
    }
    printf("\n");
}

static void print_floors(const uint32_t *floors, size_t blocks, uint64_t total)
{
    printf("blocks:");
    for (size_t i = 0; i < blocks; i++)
        printf(" %" PRIu32, floors[i]);
    printf(", total %" PRIu64 "\n", total);
}

/* The exact answer */

static int is_short(const struct list *list)
{
    uint64_t copies = 0;
    for (size_t i = 0; i < list->n; i++)
        copies += list->counts[i];
    return copies <= WINDOWFLOOR_MOST_COPIES;
}

/* The sizes of the copies that have this window, of n sizes from the first on. */
static void print_window(const struct list *list, size_t first, size_t n, const uint32_t *windows,
                         uint64_t window)
{
    printf("  window %" PRIu64 ":", window + 1);
    for (size_t i = first; i < first + n; i++)
        for (uint16_t copy = 0; copy < list->counts[i]; copy++)
            if (*windows++ == window)
                printf(" %" PRIu32, list->sizes[i]);
    printf("\n");
}

static uint64_t print_fewest(const struct list *list, size_t first, size_t n)
{
    uint32_t windows[WINDOWFLOOR_EXACT_WINDOWS];
    struct windowfloor_exact_answer answer =
        windowfloor_exact(list->capacity, list->sizes + first, n, list->counts + first, n, windows,
                          WINDOWFLOOR_EXACT_WINDOWS);
    stop_if_refused("exact", answer.number, 0, 0);
    printf("fewest windows: %" PRIu64 "\n", answer.fewest);
    for (uint64_t window = 0; window < answer.fewest; window++)
        print_window(list, first, n, windows, window);
    return answer.fewest;
}

static void print_fewest_of_blocks(const struct list *list)
{
    uint64_t total = 0;
    size_t first = 0;
    for (size_t i = 0; i <= list->ended; i++) {
        printf("block %zu, ", i + 1);
        total += print_fewest(list, first, list->block_sizes[i]);
        first += list->block_sizes[i];
    }
    printf("fewest windows of all blocks: %" PRIu64 "\n", total);
}

/* The cut that the step makes of the sizes as a row. */
static void print_cut(const struct list *list, struct step step)
{
    const struct result *result = run_list(WINDOWFLOOR_KIND_CUT, list, step);
    printf("cut:");
    print_row(result->images, result->cut.n, result->cut.scale);
}

static void plan_list(const struct list *list)
{
    struct step none = {0, 0, 0, 0};
    if (list->capacity > UINT32_MAX)
        stop_if_refused("job", WINDOWFLOOR_BAD_CAPACITY, 0, 0); /* a job has four bytes for it */
    uint64_t without = run_list(WINDOWFLOOR_KIND_FLOOR, list, none)->floor.floor;
    print_list(list);
    printf("  %-19s           floor %" PRIu64 "\n", families[0], without);
    struct step best = best_step(list, without);
    print_best(best);
    if (is_short(list))
        print_fewest(list, 0, list->n);
    if (has_blocks(list)) {
        const struct result *result = run_list(WINDOWFLOOR_KIND_FLOOR, list, best);
        print_floors(result->blocks, list->ended + 1, result->floor.total);
        if (is_short(list))
            print_fewest_of_blocks(list);
    }
    print_cut(list, best);
    if (best.family != 0)
        print_half(list, best);
}

/* The images of a row lie where its coefficients lay, and the right side of its cut has the row's place. */
static void plan_model(const struct model *model)
{
    static struct job job;
    static struct result result;
    write_model(&job, model);
    run_job(&job, &result);
    printf("%zu rows, %zu steps\n", model->rows, model->steps);
    for (size_t i = 0; i < model->rows; i++) {
        struct row row = model->row[i];
        printf("row %zu:", i + 1);
        print_row(model->coefficients + row.first, row.n, row.right_side);
        printf("  cut:");
        print_row(result.images + row.first, row.n, result.scales[i]);
    }
}

int main(int argc, char **argv)
{
    static struct list list;
    static struct model model;
    if (argc < 2)
        stop_with_usage(usage);
    if (strcmp(argv[1], "--rows") == 0) {
        read_model(&model, argc, argv);
        plan_model(&model);
    } else {
        read_list(&list, argc, argv);
        plan_list(&list);
    }
    return end_answer(0);
}
