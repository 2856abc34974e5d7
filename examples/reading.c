#include <ctype.h>
#include <errno.h>
#include <inttypes.h>
#include <stdlib.h>
#include <string.h>

#include "reading.h"

static void print_place(const struct place *place)
{
    if (place->file == NULL)
        fprintf(stderr, "%s: argument %lu: ", program, place->count);
    else
        fprintf(stderr, "%s: %s, line %lu: ", program, place->file, place->count);
}

void stop_at(const struct place *place, const char *why)
{
    print_place(place);
    fprintf(stderr, "%s\n", why);
    exit(2);
}

void stop_at_word(const struct place *place, const char *why, const struct word *word)
{
    print_place(place);
    fprintf(stderr, "%s%s", why, word->length > 0 ? ": " : "");
    for (size_t i = 0; i < word->length && i < SHOWN; i++)
        fprintf(stderr, isprint(word->start[i]) ? "%c" : "\\x%02x", word->start[i]);
    fprintf(stderr, "%s\n", word->length > SHOWN ? "..." : "");
    exit(2);
}

void stop_with_usage(const char *usage)
{
    fprintf(stderr, "%s: usage: %s\n", program, usage);
    exit(2);
}

void stop_if(const char *fault, const struct place *place, const struct word *word)
{
    if (fault != NULL)
        stop_at_word(place, fault, word);
}

static void start_word(struct word *word)
{
    static const struct digits none = {0, 0, 0};
    word->length = 0;
    word->has_x = 0;
    word->all_digits = 1;
    word->number = word->count = none;
}

static void add_digit(struct digits *digits, uint64_t digit)
{
    digits->length++;
    if (digits->value > (UINT64_MAX - digit) / 10)
        digits->too_large = 1;
    else
        digits->value = 10 * digits->value + digit;
}

static void add_character(struct word *word, unsigned char c)
{
    if (word->length < SHOWN)
        word->start[word->length] = c;
    word->length++;
    if (isdigit(c))
        add_digit(word->has_x ? &word->count : &word->number, (uint64_t)(c - '0'));
    else if (c == 'x' && !word->has_x)
        word->has_x = 1;
    else
        word->all_digits = 0;
}

const char *fault_of(const struct word *word, int may_have_count)
{
    if (word->length > 0 && (word->start[0] == '-' || word->start[0] == '+'))
        return "starts with a sign";
    if (!word->all_digits || word->number.length == 0)
        return "not a number";
    if (word->has_x && (!may_have_count || word->count.length == 0))
        return "not a number";
    return word->number.too_large ? "a number of more than 64 bits" : NULL;
}

struct word word_of(const char *argument)
{
    struct word word;
    start_word(&word);
    for (; *argument != '\0'; argument++)
        add_character(&word, (unsigned char)*argument);
    return word;
}

FILE *open_file(const char *name)
{
    FILE *file = fopen(name, "r");
    if (file == NULL) {
        fprintf(stderr, "%s: %s: %s\n", program, name, strerror(errno));
        exit(2);
    }
    return file;
}

int read_word(FILE *file, struct place *place, struct word *word)
{
    int c = getc(file);
    for (; isspace(c); c = getc(file))
        place->count += c == '\n';
    start_word(word);
    for (; c != EOF && !isspace(c); c = getc(file))
        add_character(word, (unsigned char)c);
    if (ferror(file))
        stop_at(place, strerror(errno));
    ungetc(c, file); /* a line's end counts when the next word is read */
    return word->length > 0;
}

void print_size(uint32_t size, uint64_t count)
{
    printf(" %" PRIu32, size);
    if (count != 1)
        printf("x%" PRIu64, count);
}

int end_answer(int status)
{
    if (fflush(stdout) != 0 || ferror(stdout)) {
        fprintf(stderr, "%s: the answer cannot be written\n", program);
        return 2;
    }
    return status;
}
