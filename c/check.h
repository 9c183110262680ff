/* What the tests share: checks that are counted, and a last line that says how many failed. */
#ifndef CHECK_H
#define CHECK_H

#include <stdio.h>

static int passed, failed;

/* Counts a check, and says where it failed. */
#define CHECK(holds) \
    do { \
        if (holds) { \
            passed++; \
        } else { \
            failed++; \
            fprintf(stderr, "%s:%d: failed: %s\n", __FILE__, __LINE__, #holds); \
        } \
    } while (0)

/* Prints the counts; answers the exit status. */
static int report(const char *name)
{
    printf("%s: %d passed, %d failed\n", name, passed, failed);
    return failed != 0;
}

#endif
