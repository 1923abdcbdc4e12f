/* Lines of standard input or of a file, for the examples that are told line by line what to do. What is wrong with a
   line is reported on standard error, with the program's name, the file's and the line's number, and 0 is answered. */
#ifndef LINES_H
#define LINES_H

#include "text.h"

#include <gateway.h>

#include <stddef.h>
#include <stdint.h>
#include <stdio.h>
#include <stdlib.h>
#include <string.h>

/* The characters of a line that are shown where it is wrong. */
enum { SHOWN = 64 };

struct line {
    const char *program;
    const char *name; /* of the file, if it is to be told */
    FILE *file;       /* NULL is standard input */
    char *text;       /* its first characters and a zero */
    size_t most;      /* so many are kept */
    size_t length;    /* how many it has, also where not all are kept */
    unsigned long number;
};

/* Reads the next line; 0 if there is none. */
static inline int read_line(struct line *line)
{
    FILE *const file = line->file == NULL ? stdin : line->file;
    int c = getc(file);
    if (c == EOF)
        return 0;
    line->number++;
    for (line->length = 0; c != EOF && c != '\n'; c = getc(file), line->length++)
        if (line->length < line->most)
            line->text[line->length] = (char)c;
    line->text[line->length < line->most ? line->length : line->most] = '\0';
    return 1;
}

static inline int at_end(const struct line *line, const char *at)
{
    return (size_t)(at - line->text) == line->length;
}

/* The program's name, and the file's. */
static inline void say_where(const struct line *line)
{
    fprintf(stderr, "%s: ", line->program);
    if (line->name != NULL) {
        quote_text(line->name, strlen(line->name));
        fprintf(stderr, line->number > 0 ? ", " : ": ");
    }
}

/* Says what the line is not, and up to where it might have been. */
static inline int unreadable(const struct line *line, const char *wanted, const char *at)
{
    say_where(line);
    fprintf(stderr, "line %lu, character %lu: not %s: ", line->number, (unsigned long)(at - line->text) + 1, wanted);
    show_text(line->text, line->length < SHOWN ? line->length : SHOWN);
    return 0;
}

/* Whether a call was accepted, of a line or before the first. */
static inline int accepted(const struct line *line, uint32_t refusal)
{
    if (refusal == GATEWAY_OK)
        return 1;
    say_where(line);
    if (line->number > 0)
        fprintf(stderr, "line %lu: ", line->number);
    fprintf(stderr, "refused, number %u: %s\n", (unsigned)refusal, gateway_refusal_text(refusal));
    return 0;
}

/* Does every line, each before the next is read; answers the exit status, a failure if any was wrong. */
static inline int do_lines(struct line *line, int (*do_line)(void))
{
    int status = EXIT_SUCCESS;
    while (read_line(line)) {
        if (!do_line())
            status = EXIT_FAILURE;
        fflush(stdout);
    }
    if (ferror(stdin)) {
        fprintf(stderr, "%s: standard input cannot be read\n", line->program);
        status = EXIT_FAILURE;
    }
    if (ferror(stdout)) {
        fprintf(stderr, "%s: standard output cannot be written\n", line->program);
        status = EXIT_FAILURE;
    }
    return status;
}

#endif
