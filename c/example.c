/*
 * example [FILE]: runs the text in the file, or the one on standard input, and writes what it prints to standard output.
 */
#include <stdio.h>

#include "noskjerf.h"

/* One byte more than a text may have, so that a longer text is seen to be too long. */
static uint8_t text[NOSKJERF_MAX_TEXT + 1];

static uint8_t page[NOSKJERF_ROOM];

/* Writes the page of the text whose first `length` bytes were read; answers 0, or 1 where it could not. */
static int print(size_t length)
{
    int64_t count = noskjerf_run(text, length, page, sizeof page);
    if (count < 0) {
        fprintf(stderr, "example: the page is too small\n");
        return 1;
    }
    if (fwrite(page, 1, (size_t)count, stdout) != (size_t)count || fflush(stdout) != 0) {
        perror("example: standard output");
        return 1;
    }
    return 0;
}

/* Reads a text and prints its page; answers the exit status. */
static int run(FILE *file, const char *name)
{
    size_t length = fread(text, 1, sizeof text, file);
    if (ferror(file)) {
        perror(name);
        return 1;
    }
    return print(length);
}

int main(int argc, char **argv)
{
    FILE *file;
    int status;

    if (argc < 2) {
        return run(stdin, "standard input");
    }
    file = fopen(argv[1], "rb");
    if (file == NULL) {
        perror(argv[1]);
        return 1;
    }
    status = run(file, argv[1]);
    fclose(file);
    return status;
}
