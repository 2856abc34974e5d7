/* windowfloor: floors (lower bounds on the windows that a list of sizes needs) and cuts, by
 * dual-feasible functions. Link libwindowfloor.a; no other library is needed.
 *
 * Every operation ends, is defined for all numbers and lengths, keeps no state and allocates
 * nothing. An answer's `number` is 0 when the call is accepted, else the number of its refusal;
 * fields that a refusal does not name are 0.
 *
 * A buffer is a pointer and a number of places. The pointer is never null, also where the number of
 * places is 0; it is aligned for its type, and that many places can be read and, unless const,
 * written. The buffers of one call do not overlap. Places that are not said to be written keep
 * what they hold. */
#ifndef WINDOWFLOOR_H
#define WINDOWFLOOR_H

#include <stddef.h>
#include <stdint.h>

#ifdef __cplusplus
extern "C" {
#endif

/* The version of this header and of the library: CHANGELOG.md says what came with it. */
#define WINDOWFLOOR_VERSION "5.1.0"

/* Limits: unsigned constants. Twice the first of them takes 64 bits. */
#define WINDOWFLOOR_LIMIT 4000000000u     /* the greatest capacity, parameter, scale and table entry */
#define WINDOWFLOOR_FAMILIES 7u           /* families are 1 to 7 */
#define WINDOWFLOOR_SWEEP_FAMILIES 5u     /* those without q, 1 to 5, can be swept */
#define WINDOWFLOOR_MOST_ENTRIES 2048u    /* entries of a table; its capacity is one less */
#define WINDOWFLOOR_MOST_SIZES 2048u      /* sizes of a list, coefficients of all rows */
#define WINDOWFLOOR_MOST_COUNT 65535u     /* copies of a size; the least is 1 */
#define WINDOWFLOOR_MOST_COPIES 10u       /* copies in all of a list whose fewest windows are asked */
#define WINDOWFLOOR_MOST_ROWS 64u         /* rows of a job of kind 3 */
#define WINDOWFLOOR_MOST_BLOCKS 64u       /* blocks of a job of kind 1 */
#define WINDOWFLOOR_MOST_STEPS 8u         /* steps of a job */
#define WINDOWFLOOR_MOST_JOB_BYTES 65535u /* bytes of a job */
#define WINDOWFLOOR_MOST_SPAN 4095u       /* high - low of a sweep */
#define WINDOWFLOOR_JOB_IMAGES 2048u      /* least places of a job's image buffer, whatever the job */
#define WINDOWFLOOR_JOB_WORKING 2048u     /* least places of a job's working buffer */
#define WINDOWFLOOR_JOB_LIST 2047u        /* least places of a job's list buffer */
#define WINDOWFLOOR_JOB_SCALES 64u        /* least places of a cut's buffer for scales */
#define WINDOWFLOOR_JOB_BLOCKS 64u        /* least places of a floor's buffer for block floors */
#define WINDOWFLOOR_EXACT_WINDOWS 10u     /* least places of the buffer for each copy's window */

/* The bytes of a job: fields of a tag, a two-byte length and a value. Tags 1, 2, 3 once each in this
 * order, in kind 1 then a tag 7 or none and a tag 8 or none, then 0 to 8 steps; in kind 3 tag 1, then 1 to
 * 64 rows (tag 6), then the steps. Numbers are unsigned, high byte first. */
enum {
    WINDOWFLOOR_TAG_KIND = 1,     /* length 1: one of the kinds below */
    WINDOWFLOOR_TAG_CAPACITY = 2, /* length 4 */
    WINDOWFLOOR_TAG_SIZES = 3,    /* length 4n, n up to 2,048: sizes, or the coefficients of a row */
    WINDOWFLOOR_TAG_FAMILY = 4,   /* length 9: a step: family byte, p, q */
    WINDOWFLOOR_TAG_TABLE = 5,    /* length 8 to 8,192, a multiple of 4: a step: its entries */
    WINDOWFLOOR_TAG_ROW = 6,      /* length 4 or more, a multiple of 4: right side, coefficients */
    WINDOWFLOOR_TAG_COUNTS = 7,   /* length 2n, n as in tag 3: counts of the sizes; without it each is 1 */
    WINDOWFLOOR_TAG_BLOCKS = 8,   /* length 2b: the number of sizes of each of b blocks, in list order */

    WINDOWFLOOR_KIND_FLOOR = 1, /* for windowfloor_floor */
    WINDOWFLOOR_KIND_CUT = 2,   /* for windowfloor_cut, as 3 is */
    WINDOWFLOOR_KIND_ROWS = 3   /* a cut of each row of a model, by the same steps */
};

/* The numbers of refusal. windowfloor_refusal_text has the words; its "limit" is WINDOWFLOOR_LIMIT, and a
 * row's "capacity" is its right side, its "sizes" are its coefficients. */
enum {
    WINDOWFLOOR_ACCEPTED = 0,
    WINDOWFLOOR_BAD_CAPACITY = 1,
    WINDOWFLOOR_BAD_FAMILY = 2,
    WINDOWFLOOR_BAD_PARAMETER = 3,
    WINDOWFLOOR_SCALE_TOO_LARGE = 4,
    WINDOWFLOOR_SIZE_OVER_CAPACITY = 5,
    WINDOWFLOOR_BAD_COUNT = 6, /* of a table's entries, or outside of a job of a list's sizes or counts */
    WINDOWFLOOR_SHORT_BUFFER = 7,
    WINDOWFLOOR_FIRST_ENTRY_NOT_0 = 8,
    WINDOWFLOOR_LAST_ENTRY_0 = 9,
    WINDOWFLOOR_ENTRY_TOO_LARGE = 10,
    WINDOWFLOOR_NOT_DUAL_FEASIBLE = 11, /* the list buffer shows it */
    WINDOWFLOOR_JOB_TOO_LONG = 12,
    WINDOWFLOOR_PAST_THE_END = 13, /* a field's header or value */
    WINDOWFLOOR_BAD_TAG = 14,      /* out of place or unknown, a ninth step, or no tag 3 */
    WINDOWFLOOR_BAD_LENGTH = 15,
    WINDOWFLOOR_BAD_KIND = 16, /* one that the operation does not take */
    WINDOWFLOOR_BAD_SIZE = 17, /* a row may have coefficients 0 */
    WINDOWFLOOR_OTHER_CAPACITY = 18,
    WINDOWFLOOR_BAD_RANGE = 19,
    WINDOWFLOOR_NO_LEGAL_P = 20,
    WINDOWFLOOR_BAD_ROWS = 21, /* of kind 3: none, too many, or too many coefficients in all */
    WINDOWFLOOR_COUNT_0 = 22,
    WINDOWFLOOR_BAD_BLOCKS = 23,
    WINDOWFLOOR_TOO_MANY_COPIES = 24,
    WINDOWFLOOR_DUAL_FEASIBLE = 25 /* so no list shows otherwise */
};
#define WINDOWFLOOR_LAST_REFUSAL 25u /* the greatest of them */

/* A number of refusal in words, for messages; defined for every number. */
static inline const char *windowfloor_refusal_text(uint64_t number)
{
    static const char *const texts[] = {
        "accepted",
        "the capacity is 0 or over the limit",
        "the family is not 1 to 7, or in a sweep not 1 to 5",
        "p or q is not legal for the family",
        "the scale would pass the limit",
        "the size is over the capacity",
        "a table has too few or too many entries, or a list too many sizes or not as many counts",
        "a lent buffer is too short",
        "the table's first entry is not 0",
        "the table's last entry is 0",
        "a table entry is over the limit",
        "the table is not dual-feasible",
        "the job has too many bytes",
        "a field runs past the end of the job",
        "a tag is out of place or unknown, or the job ends before its sizes",
        "a field has a wrong length",
        "the kind is not one that the operation takes: 1 for a floor, 2 or 3 (rows) for a cut",
        "a size is 0 in a list, or over the capacity",
        "a table step is of another capacity than the present one",
        "the range of p is empty or too wide",
        "no p of the range is legal with a scale within the limit",
        "a job of rows has no row, too many rows, or too many coefficients",
        "a count is 0",
        "a block has no sizes, there are too many blocks, or they do not add up to the sizes",
        "the list has more than 10 copies in all",
        "the table is dual-feasible: no list that fits overshoots"
    };
    return number < sizeof texts / sizeof *texts ? texts[number] : "unknown number of refusal";
}

/* The image of a size under one family. q is 0 for families 1 to 5.
 * Refusals, in order: 1, 2, 3, 4, 5. */
struct windowfloor_image_answer {
    uint64_t number;
    uint64_t image;
    uint64_t scale; /* the image of the capacity */
};

struct windowfloor_image_answer windowfloor_image(uint64_t capacity, uint8_t family, uint64_t p,
                                                  uint64_t q, uint64_t x);

/* Whether a table of images is dual-feasible. Entry x is the image of x; the capacity C is
 * entries - 1. `working` has at least `entries` places, `list` at least C.
 * Refusals, in order: 6, 7, 8, 9, 10, 11. Refusals 6 to 10 write nothing. Acceptance and 11 write the
 * greatest totals best(0) to best(C) to the first C + 1 places of `working`. 11 also writes
 * `length` sizes to `list`: they total at most C, and their images total more than the last entry. */
struct windowfloor_table_answer {
    uint64_t number;
    uint64_t length;
};

struct windowfloor_table_answer windowfloor_table_check(const uint32_t *table, size_t entries,
                                                        uint64_t *working, size_t working_places,
                                                        uint32_t *list, size_t list_places);

/* A shortest list that shows that a table is not dual-feasible: of all lists of sizes that total at most C and
 * whose images total more than the last entry, one with the fewest sizes. The list of the table check may
 * have hundreds of sizes where a few are enough. `working` and `second` each have at least `entries` places,
 * `list` at least C.
 * Refusals, in order: 6, 7, 8, 9, 10, 25. Refusals 6 to 10 write nothing. 25, the table is dual-feasible, comes
 * for just the tables that the table check accepts, and leaves `list` as it was. Accepted: the first `length`
 * places of `list` hold the sizes, none of them 0. There may be several shortest lists; which of them is
 * shown may change from release to release. After acceptance and 25 `working` and `second` may hold anything. */
struct windowfloor_shortest_answer {
    uint64_t number;
    uint64_t length; /* the fewest sizes, at least 1 and at most C; 0 on a refusal */
};

struct windowfloor_shortest_answer windowfloor_shortest(const uint32_t *table, size_t entries,
                                                        uint64_t *working, size_t working_places,
                                                        uint64_t *second, size_t second_places,
                                                        uint32_t *list, size_t list_places);

/* A job: sizes taken through its steps. Its kind tells which operation takes it: windowfloor_floor kind 1,
 * windowfloor_cut kinds 2 and 3. Both read the fields of every job in the same way, whatever its kind, and
 * so, where no buffer is too short, give the same 13, 14 and 15; then each gives 16 for a kind that it does
 * not take. The buffers of each have at least the places named above, whatever the job.
 * A refusal leaves `images`, `blocks` and `scales` as they were. `list` is written for 11 alone, as in the
 * table check. Afterwards `working` may hold anything.
 *
 * For callers of windowfloor_job, of version 4 and before, which these two replace: where the fourth byte of
 * a job is 2 or 3, call windowfloor_cut, and for all other jobs, those of under four bytes too,
 * windowfloor_floor. The arguments stay in their order, but windowfloor_floor has no `scales` and
 * windowfloor_cut no `blocks`. So do the fields of struct windowfloor_job_answer: a floor answer has all of
 * them, its `row` always 0; a cut answer has no `floor`, `sum` and `total`. Called so, they give the numbers,
 * fields and buffers of windowfloor_job of version 4.2.0, except that 7 does not come from a buffer that is no
 * argument any more. Called with the other's kind, they give 16 where windowfloor_job went on. */

/* The floor of a list: kind 1. Each size stands for as many copies as its count says, and tag 8 divides the
 * sizes into blocks that share no windows; all copies of a size are in its block.
 * Refusals, in order: 12, 7; for each field 13, 14, 15; then 16; then 1, 17, 22, 23; then for each step
 * 2, 3, 4 of a family, or 18, 8, 9, 10, 11 of a table.
 * Accepted: the first n places of `images` hold the images, one for each size whatever its count. With tag 8
 * the first places of `blocks`, one for each block, hold the block floors: of each block the sum of count
 * times image, divided by `scale` and rounded up. Their sum, `total`, is never above the windows of an
 * assignment that keeps the blocks separate, so that no window has copies of two; and `floor` is never above
 * `total`. Jobs without tag 8 leave `blocks` as it was. */
struct windowfloor_floor_answer {
    uint64_t number;
    uint64_t n;      /* the number of sizes */
    uint64_t floor;  /* no assignment of the copies uses fewer windows */
    uint64_t sum;    /* the sum of count times image */
    uint64_t scale;  /* the image of the capacity; `sum` divided by it and rounded up is `floor` */
    uint64_t step;   /* the place, 1 to 8, of the step that is refused */
    uint64_t length; /* at 11, the number of sizes in `list` */
    uint64_t row;    /* always 0: a job of kind 1 has no rows */
    uint64_t total;  /* the sum of the block floors; without tag 8 it is `floor` */
};

struct windowfloor_floor_answer windowfloor_floor(const uint8_t *job, size_t bytes,
                                                  uint32_t *images, size_t images_places,
                                                  uint64_t *working, size_t working_places,
                                                  uint32_t *list, size_t list_places,
                                                  uint32_t *blocks, size_t blocks_places);

/* The cut of a row, kind 2, or of each row of a model, kind 3. The row says that the sizes total at most the
 * capacity, or the row's right side; its cut, that their images total at most the scale. However many of each
 * size there are, 0 or more: where they satisfy the row, they satisfy its cut.
 * Refusals, in order: 12, 7; for each field 13, 14, 15; then 16, 21; then 1, 17; then for each step as in a
 * floor. In kind 3 all from 1 on is asked of row 1, then of row 2, and so on.
 * Accepted: the first n places of `images` hold the images, which are the coefficients of the cut; in kind 3
 * those of a row lie behind those of the row before, and the first places of `scales`, one for each row, hold
 * the right sides of the cuts. Kind 2 leaves `scales` as it was. */
struct windowfloor_cut_answer {
    uint64_t number;
    uint64_t n;      /* the number of sizes, or of the coefficients of all rows */
    uint64_t scale;  /* the right side of the cut; 0 in kind 3 */
    uint64_t step;   /* the place, 1 to 8, of the step that is refused */
    uint64_t length; /* at 11, the number of sizes in `list` */
    uint64_t row;    /* in kind 3, the place, 1 to 64, of the row that is refused */
};

struct windowfloor_cut_answer windowfloor_cut(const uint8_t *job, size_t bytes,
                                              uint32_t *images, size_t images_places,
                                              uint64_t *working, size_t working_places,
                                              uint32_t *list, size_t list_places,
                                              uint32_t *scales, size_t scales_places);

/* The largest floor that one step of a family (1 to 5) gives, over all p from low to high that are
 * legal with a scale within the limit, and the least p that gives it. `counts` has one count for each size,
 * so counts_length is n; a caller without counts passes ones.
 * Refusals, in order: 1, 2, 6, 17, 22, 19, 20. */
struct windowfloor_sweep_answer {
    uint64_t number;
    uint64_t floor;
    uint64_t p;
};

struct windowfloor_sweep_answer windowfloor_sweep(uint64_t capacity, uint8_t family,
                                                  const uint32_t *sizes, size_t n,
                                                  const uint16_t *counts, size_t counts_length,
                                                  uint64_t low, uint64_t high);

/* The fewest windows that a short list needs, at most 10 copies in all, and an assignment that uses no more.
 * `counts` has one count for each size, as in a sweep. `windows` has at least WINDOWFLOOR_EXACT_WINDOWS
 * places, whatever the list.
 * Refusals, in order: 1, 6, 17, 22, 24, 7.
 * Accepted: the first places of `windows`, one for each copy in list order, all copies of a size before the
 * next size, hold the copy's window: numbers from 0 on and below `fewest`, each of them used. No window has
 * copies of more than the capacity, and every other assignment of which that is true uses at least `fewest`
 * windows; which of the best is shown may change from release to release. The empty list needs 0 windows.
 * No floor, of a job or of a sweep, of the same list and capacity is above `fewest`. A refusal leaves
 * `windows` as it was. */
struct windowfloor_exact_answer {
    uint64_t number;
    uint64_t fewest;
};

struct windowfloor_exact_answer windowfloor_exact(uint64_t capacity,
                                                  const uint32_t *sizes, size_t n,
                                                  const uint16_t *counts, size_t counts_length,
                                                  uint32_t *windows, size_t windows_places);

#ifdef __cplusplus
}
#endif

#endif
