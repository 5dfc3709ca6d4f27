/* Comparisons for the C test programs, field by field: each difference is printed and counted. */
#ifndef CHECK_H
#define CHECK_H

#include "tesolvagna.h"

#include <stdio.h>

static int differences;

static void check(const char *name, const char *field, uint64_t found, uint64_t expected)
{
    if (found == expected)
        return;
    printf("%s: %s is %llu, not %llu\n", name, field, (unsigned long long)found, (unsigned long long)expected);
    differences++;
}

/* The exit status: 0 if nothing differed. */
static int verdict(void)
{
    return differences == 0 ? 0 : 1;
}

#endif
