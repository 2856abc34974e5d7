/* Whether a table of images is dual-feasible; for one that is not, two lists of sizes that show it: the table
 * check's, which may have hundreds of sizes, and one with the fewest.
 *
 *     tables check FILE    the file has nothing but numbers: the images of the sizes 0, 1, 2 and so on
 *
 * The sizes of either list total at most the last size of the table, and their images more than the last entry.
 * They are printed in rising order: 5x300 is a size of 5, 300 times.
 *
 * Exit status: 0 if the table is dual-feasible; 1 if it is not, or if the library refuses it for another reason;
 * 2 if the arguments are wrong, the file cannot be read as a table, or the answer cannot be written.
 */
#include <inttypes.h>
#include <stdio.h>
#include <string.h>

#include "reading.h"
#include "windowfloor.h"

const char *const program = "tables";

struct table {
    size_t entries;
    uint32_t images[WINDOWFLOOR_MOST_ENTRIES];
    unsigned long lines[WINDOWFLOOR_MOST_ENTRIES]; /* in the file, from 1 */
};

/* The least places that serve for every table. */
static uint64_t working[WINDOWFLOOR_MOST_ENTRIES], second[WINDOWFLOOR_MOST_ENTRIES];
static uint32_t list[WINDOWFLOOR_MOST_ENTRIES - 1];

/* Why it is not the next entry. One over the limit is for the library to refuse. */
static const char *fault_in_table(const struct word *word, const struct table *table)
{
    if (table->entries == WINDOWFLOOR_MOST_ENTRIES)
        return "more entries than a table can have";
    return word->number.value > UINT32_MAX ? "a number of more than 32 bits" : NULL;
}

static void add_entry(struct table *table, const struct word *word, const struct place *place)
{
    stop_if(fault_of(word, 0), place, word);
    stop_if(fault_in_table(word, table), place, word);
    table->images[table->entries] = (uint32_t)word->number.value;
    table->lines[table->entries] = place->count;
    table->entries++;
}

static void read_table(struct table *table, const char *name)
{
    struct place place = {name, 1};
    struct word word;
    FILE *file = open_file(name);
    while (read_word(file, &place, &word))
        add_entry(table, &word, &place);
    if (table->entries == 0)
        stop_at(&place, "the file ends before an entry");
    fclose(file);
}

static void print_table(const struct table *table, const char *verdict)
{
    size_t capacity = table->entries - 1;
    printf("table of capacity %zu, last entry %" PRIu32 ": %s\n", capacity, table->images[capacity], verdict);
}

/* The list in the buffer. */
static void print_list(const char *name, const struct table *table, uint64_t length)
{
    uint64_t counts[WINDOWFLOOR_MOST_ENTRIES] = {0}, total = 0, images = 0;
    size_t capacity = table->entries - 1;
    for (size_t i = 0; i < length; i++) {
        counts[list[i]]++;
        total += list[i];
        images += table->images[list[i]];
    }
    printf("  %-12s %" PRIu64 " size%s, total %" PRIu64 " of %zu, images %" PRIu64 " over %" PRIu32 ":", name, length,
           length == 1 ? "" : "s", total, capacity, images, table->images[capacity]);
    for (size_t size = 0; size <= capacity; size++)
        if (counts[size] > 0)
            print_size((uint32_t)size, counts[size]);
    printf("\n");
}

/* The size whose image is refused: the first over the limit, or else the first or the last of all. */
static size_t refused_size(const struct table *table, uint64_t number)
{
    size_t size = 0, capacity = table->entries - 1;
    if (number == WINDOWFLOOR_LAST_ENTRY_0)
        return capacity;
    while (number == WINDOWFLOOR_ENTRY_TOO_LARGE && size < capacity && table->images[size] <= WINDOWFLOOR_LIMIT)
        size++;
    return size;
}

static void print_refusal(const char *operation, const struct table *table, uint64_t number)
{
    size_t size = refused_size(table, number);
    printf("%s refused, number %" PRIu64, operation, number);
    if (number == WINDOWFLOOR_BAD_COUNT)
        printf(", 1 entry"); /* too many are not read */
    else if (number >= WINDOWFLOOR_FIRST_ENTRY_NOT_0 && number <= WINDOWFLOOR_ENTRY_TOO_LARGE)
        printf(", image %" PRIu32 " of size %zu in line %lu", table->images[size], size, table->lines[size]);
    printf(": %s\n", windowfloor_refusal_text(number));
}

/* Of a table that is not dual-feasible. The second call writes over the first list. */
static void print_lists(const struct table *table, uint64_t length)
{
    print_table(table, "not dual-feasible");
    print_list("table check:", table, length);
    struct windowfloor_shortest_answer answer =
        windowfloor_shortest(table->images, table->entries, working, WINDOWFLOOR_MOST_ENTRIES, second,
                             WINDOWFLOOR_MOST_ENTRIES, list, WINDOWFLOOR_MOST_ENTRIES - 1);
    if (answer.number == WINDOWFLOOR_ACCEPTED)
        print_list("shortest:", table, answer.length);
    else
        print_refusal("shortest", table, answer.number);
}

/* Answers the exit status. */
static int check_table(const struct table *table)
{
    struct windowfloor_table_answer answer =
        windowfloor_table_check(table->images, table->entries, working, WINDOWFLOOR_MOST_ENTRIES, list,
                                WINDOWFLOOR_MOST_ENTRIES - 1);
    if (answer.number == WINDOWFLOOR_ACCEPTED) {
        print_table(table, "dual-feasible");
        return 0;
    }
    if (answer.number == WINDOWFLOOR_NOT_DUAL_FEASIBLE)
        print_lists(table, answer.length);
    else
        print_refusal("table", table, answer.number);
    return 1;
}

int main(int argc, char **argv)
{
    static struct table table;
    if (argc != 3 || strcmp(argv[1], "check") != 0)
        stop_with_usage("tables check FILE");
    read_table(&table, argv[2]);
    return end_answer(check_table(&table));
}
