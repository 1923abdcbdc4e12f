/* What the tests in C share: what is not right is told, and the program goes on. */
#ifndef CHECK_H
#define CHECK_H

#include <stdio.h>

static int wrong;

static void check(int right, const char *file, const char *what)
{
    if (!right) {
        fprintf(stderr, "%s: %s\n", file, what);
        wrong = 1;
    }
}

#define CHECK(right) check(right, __FILE__, #right)

#endif
