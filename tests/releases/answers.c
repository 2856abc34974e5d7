/* Runs the library on cases and prints its answers.
 *
 * A case is a line of standard input: an operation, then words NAME=VALUE. A value is a number, numbers
 * with commas between, or bytes in hexadecimal. The answer is a line of such words: the answer's fields,
 * then each lent buffer with the places that changed, or `same`. A buffer has as many places as the
 * case says (NAME_places), or else the least that the operation asks for. */
#define _POSIX_C_SOURCE 200809L /* for getline */

#include <inttypes.h>
#include <stdio.h>
#include <stdlib.h>
#include <string.h>

#include "../c/assignment.h"
#include "../c/overshooting.h"
#include "windowfloor.h"

enum { ROOM_BYTES = 2 * 65536, ROOM_PLACES = 4096, MARGIN = 16 };

static void fail(const char *why, const char *what)
{
    fprintf(stderr, "answers: %s: %s\n", why, what);
    exit(2);
}

/* What the case gives */

static char *line;

/* The text of the value of NAME or, with an end, of NAMEEND; NULL if the case does not have it. */
static const char *find(const char *name, const char *end)
{
    size_t length = strlen(name), more = strlen(end);
    for (const char *at = strchr(line, ' '); at != NULL; at = strchr(at, ' ')) {
        at++;
        if (strncmp(at, name, length) == 0 && strncmp(at + length, end, more) == 0
            && at[length + more] == '=')
            return at + length + more + 1;
    }
    return NULL;
}

static const char *given(const char *name)
{
    const char *text = find(name, "");
    if (text == NULL)
        fail("the case does not give", name);
    return text;
}

static uint64_t number(const char *name)
{
    return strtoull(given(name), NULL, 10);
}

static size_t numbers(const char *name, uint32_t *out)
{
    const char *at = given(name);
    size_t count = 0;
    while (*at >= '0' && *at <= '9') {
        char *end;
        if (count == ROOM_PLACES)
            fail("too many numbers", name);
        out[count++] = (uint32_t)strtoull(at, &end, 10);
        at = *end == ',' ? end + 1 : end;
    }
    return count;
}

static unsigned digit(char c)
{
    return (unsigned)(c >= 'a' ? c - 'a' + 10 : c - '0');
}

static size_t bytes(const char *name, uint8_t *out)
{
    const char *at = given(name);
    size_t count = 0;
    for (; *at >= '0' && at[1] >= '0'; at += 2) {
        if (count == ROOM_BYTES)
            fail("too many bytes", name);
        out[count++] = (uint8_t)(16 * digit(at[0]) + digit(at[1]));
    }
    return count;
}

/* Lent buffers: place i starts out with 4,294,000,000 + i or, in 64 bits, 2^63 + i, which no operation
 * writes. */

struct lent {
    const char *name;
    size_t width, places;
    uint64_t memory[ROOM_PLACES + 2 * MARGIN];
};

static uint64_t untouched(const struct lent *buffer, size_t at)
{
    return (buffer->width == 4 ? 4294000000u : (uint64_t)1 << 63) + at - MARGIN;
}

static uint64_t held(const struct lent *buffer, size_t at)
{
    return buffer->width == 4 ? ((const uint32_t *)buffer->memory)[at] : buffer->memory[at];
}

/* A buffer of so many places of 4 or 8 bytes, with a margin on both sides. */
static void *lend(struct lent *buffer, const char *name, size_t width, size_t least)
{
    const char *places = find(name, "_places");
    buffer->name = name;
    buffer->width = width;
    buffer->places = places == NULL ? least : strtoull(places, NULL, 10);
    if (buffer->places > ROOM_PLACES)
        fail("too many places", name);
    for (size_t at = 0; at < buffer->places + 2 * MARGIN; at++) {
        if (width == 4)
            ((uint32_t *)buffer->memory)[at] = (uint32_t)untouched(buffer, at);
        else
            buffer->memory[at] = untouched(buffer, at);
    }
    return (uint8_t *)buffer->memory + MARGIN * width;
}

static int changed(const struct lent *buffer, size_t at)
{
    return held(buffer, at) != untouched(buffer, at);
}

/* As NAME=PLACE:NUMBER,NUMBER;PLACE:NUMBER with the places from 0, one part for places in a row. */
static void print_buffer(const struct lent *buffer)
{
    size_t end = MARGIN + buffer->places, parts = 0;
    printf(" %s=", buffer->name);
    for (size_t at = 0; at < end + MARGIN; at++) {
        if (!changed(buffer, at))
            continue;
        if (at < MARGIN || at >= end)
            fail("a place outside was written", buffer->name);
        if (at > MARGIN && changed(buffer, at - 1))
            printf(",%" PRIu64, held(buffer, at));
        else
            printf("%s%zu:%" PRIu64, parts++ > 0 ? ";" : "", at - MARGIN, held(buffer, at));
    }
    if (parts == 0)
        printf("same");
}

#define PRINT(answer, field) printf(" " #field "=%" PRIu64, (answer).field)

/* The operations */

static void image(void)
{
    struct windowfloor_image_answer answer =
        windowfloor_image(number("capacity"), (uint8_t)number("family"), number("p"), number("q"),
                          number("x"));
    PRINT(answer, number);
    PRINT(answer, image);
    PRINT(answer, scale);
}

static void table(void)
{
    static uint32_t entries[ROOM_PLACES];
    static struct lent working, list;
    size_t count = numbers("entries", entries);
    uint64_t *lent_working = lend(&working, "working", 8, count);
    uint32_t *lent_list = lend(&list, "list", 4, count > 0 ? count - 1 : 0);
    struct windowfloor_table_answer answer =
        windowfloor_table_check(entries, count, lent_working, working.places, lent_list, list.places);
    PRINT(answer, number);
    PRINT(answer, length);
    print_buffer(&working);
    print_buffer(&list);
}

static uint32_t *places(struct lent *buffer)
{
    return (uint32_t *)buffer->memory + MARGIN;
}

/* Whether the first places show a list that overshoots; they then are as before the call, since which
 * shortest list it is is free. */
static int take_list(struct lent *list, const uint32_t *entries, size_t count, uint64_t length)
{
    uint32_t *shown = places(list);
    if (length > list->places)
        return 0;
    int right = is_overshooting(entries, count, shown, length);
    for (size_t i = 0; i < length; i++)
        shown[i] = (uint32_t)untouched(list, MARGIN + i);
    return right;
}

/* The places of the list are told as `right` alone, 0 if refused. The working buffers are free after
 * acceptance and 25, and are not printed then. */
static void shortest(void)
{
    static uint32_t entries[ROOM_PLACES];
    static struct lent working, second, list;
    size_t count = numbers("entries", entries);
    uint64_t *lent_working = lend(&working, "working", 8, count);
    uint64_t *lent_second = lend(&second, "second", 8, count);
    uint32_t *lent_list = lend(&list, "list", 4, count > 0 ? count - 1 : 0);
    struct windowfloor_shortest_answer answer =
        windowfloor_shortest(entries, count, lent_working, working.places, lent_second, second.places,
                             lent_list, list.places);
    PRINT(answer, number);
    PRINT(answer, length);
    printf(" right=%d", answer.number == 0 && take_list(&list, entries, count, answer.length));
    print_buffer(&list);
    if (answer.number != 0 && answer.number != WINDOWFLOOR_DUAL_FEASIBLE) {
        print_buffer(&working);
        print_buffer(&second);
    }
}

/* What both operations over a job get: `own` is the buffer that the other one does not have. The working
 * buffer is free afterwards, and is not printed. */
struct job {
    uint8_t data[ROOM_BYTES];
    size_t count;
    struct lent images, working, list, own;
};

static void lend_to_job(struct job *job, const char *own)
{
    job->count = bytes("job", job->data);
    lend(&job->images, "images", 4, 2048);
    lend(&job->working, "working", 8, 2048);
    lend(&job->list, "list", 4, 2047);
    lend(&job->own, own, 4, 64);
}

static void print_buffers(const struct job *job)
{
    print_buffer(&job->images);
    print_buffer(&job->list);
    print_buffer(&job->own);
}

static void floor_of_job(void)
{
    static struct job job;
    lend_to_job(&job, "blocks");
    struct windowfloor_floor_answer answer =
        windowfloor_floor(job.data, job.count, places(&job.images), job.images.places,
                          job.working.memory + MARGIN, job.working.places, places(&job.list),
                          job.list.places, places(&job.own), job.own.places);
    PRINT(answer, number);
    PRINT(answer, n);
    PRINT(answer, floor);
    PRINT(answer, sum);
    PRINT(answer, scale);
    PRINT(answer, step);
    PRINT(answer, length);
    PRINT(answer, row);
    PRINT(answer, total);
    print_buffers(&job);
}

static void cut_of_job(void)
{
    static struct job job;
    lend_to_job(&job, "scales");
    struct windowfloor_cut_answer answer =
        windowfloor_cut(job.data, job.count, places(&job.images), job.images.places,
                        job.working.memory + MARGIN, job.working.places, places(&job.list),
                        job.list.places, places(&job.own), job.own.places);
    PRINT(answer, number);
    PRINT(answer, n);
    PRINT(answer, scale);
    PRINT(answer, step);
    PRINT(answer, length);
    PRINT(answer, row);
    print_buffers(&job);
}

static size_t given_counts(uint16_t *out)
{
    static uint32_t wide[ROOM_PLACES];
    size_t count = numbers("counts", wide);
    for (size_t i = 0; i < count; i++) {
        if (wide[i] > UINT16_MAX)
            fail("over 16 bits", "counts");
        out[i] = (uint16_t)wide[i];
    }
    return count;
}

static size_t ones(uint16_t *out, size_t count)
{
    for (size_t i = 0; i < count; i++)
        out[i] = 1;
    return count;
}

/* The list of a sweep or of an exact case. Without counts there is a one for each size. */

struct list {
    uint32_t sizes[ROOM_PLACES];
    uint16_t counts[ROOM_PLACES];
    size_t n, counted;
};

static void read_list(struct list *list)
{
    list->n = numbers("sizes", list->sizes);
    list->counted = find("counts", "") != NULL ? given_counts(list->counts) : ones(list->counts, list->n);
}

static void sweep(void)
{
    static struct list list;
    read_list(&list);
    struct windowfloor_sweep_answer answer =
        windowfloor_sweep(number("capacity"), (uint8_t)number("family"), list.sizes, list.n, list.counts,
                          list.counted, number("low"), number("high"));
    PRINT(answer, number);
    PRINT(answer, floor);
    PRINT(answer, p);
}

/* Whether the first places show an assignment of the copies; they then are as before the call, since which
 * it is is free. */
static int take_assignment(struct lent *windows, const struct list *list, uint64_t capacity, uint64_t fewest)
{
    uint32_t copies[WINDOWFLOOR_MOST_COPIES], *shown = places(windows);
    size_t n = write_copies(list->sizes, list->n, list->counts, copies);
    int fits = is_assignment(capacity, copies, n, shown, fewest);
    for (size_t i = 0; i < n; i++)
        shown[i] = (uint32_t)untouched(windows, MARGIN + i);
    return fits;
}

/* The places of the copies are told as `fits` alone, 0 if refused. */
static void exact(void)
{
    static struct list list;
    static struct lent windows;
    uint64_t capacity = number("capacity");
    read_list(&list);
    uint32_t *lent_windows = lend(&windows, "windows", 4, 10);
    struct windowfloor_exact_answer answer =
        windowfloor_exact(capacity, list.sizes, list.n, list.counts, list.counted, lent_windows,
                          windows.places);
    PRINT(answer, number);
    PRINT(answer, fewest);
    printf(" fits=%d", answer.number == 0 && take_assignment(&windows, &list, capacity, answer.fewest));
    print_buffer(&windows);
}

static const struct {
    const char *name;
    void (*run)(void);
} operations[] = {{"image", image}, {"table", table}, {"shortest", shortest}, {"floor", floor_of_job},
                  {"cut", cut_of_job}, {"sweep", sweep}, {"exact", exact}};

static void run_line(void)
{
    size_t length = strcspn(line, " \n");
    for (size_t i = 0; i < sizeof operations / sizeof *operations; i++) {
        if (strlen(operations[i].name) == length && memcmp(operations[i].name, line, length) == 0) {
            operations[i].run();
            printf("\n");
            return;
        }
    }
    fail("no such operation", line);
}

int main(void)
{
    size_t room = 0;
    while (getline(&line, &room, stdin) > 0)
        run_line();
    free(line);
    return ferror(stdin) || fflush(stdout) != 0;
}
