/* What the examples in C share: words read strictly, sizes printed so that they can be read again, and the end of
 * a program.
 *
 * A word is a number, digits alone, in a file or as an argument; where a program allows it an x and a count may
 * stand behind the number, as in 5x300. The first word that is wrong ends the program, which tells its place. */
#ifndef READING_H
#define READING_H

#include <stddef.h>
#include <stdint.h>
#include <stdio.h>

/* The name that begins each message. Each program defines it. */
extern const char *const program;

enum { SHOWN = 20 }; /* characters of a wrong word that are shown */

struct digits {
    size_t length;
    int too_large; /* for 64 bits */
    uint64_t value;
};

struct word {
    size_t length;
    int has_x, all_digits;       /* all but one x */
    struct digits number, count; /* before the x, and behind it */
    unsigned char start[SHOWN];
};

struct place {
    const char *file;    /* NULL: the arguments */
    unsigned long count; /* of lines or of arguments, from 1 */
};

/* The end of the program with status 2 and a message on standard error. */
void stop_at(const struct place *place, const char *why);
void stop_at_word(const struct place *place, const char *why, const struct word *word);
void stop_with_usage(const char *usage);

/* The same, if there is a fault. */
void stop_if(const char *fault, const struct place *place, const struct word *word);

/* Why the word is no number, nor a number with a count where it may have one; NULL if it is. */
const char *fault_of(const struct word *word, int may_have_count);

struct word word_of(const char *argument);

/* A file that cannot be opened ends the program. */
FILE *open_file(const char *name);

/* The next word of the file, and the line that it is in; 0 if there is none. */
int read_word(FILE *file, struct place *place, struct word *word);

/* A space and the size, with its count where this is not 1. */
void print_size(uint32_t size, uint64_t count);

/* Behind the last that is printed: the status, or 2 and a message if not all could be written. */
int end_answer(int status);

#endif
