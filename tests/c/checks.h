/* Counts the checks that hold, prints those that don't, and prints and counts what is skipped. */
#ifndef CHECKS_H
#define CHECKS_H

#include <stdarg.h>
#include <stdio.h>

static long passed, failed, skipped;

static void check(int holds, const char *format, ...) {
    if (holds) {
        passed++;
        return;
    }
    failed++;
    va_list arguments;
    va_start(arguments, format);
    fputs("FAILED ", stdout);
    vprintf(format, arguments);
    putchar('\n');
    va_end(arguments);
}

/* Says what this machine can't try. */
static inline void skip(const char *format, ...) {
    skipped++;
    va_list arguments;
    va_start(arguments, format);
    fputs("skipped: ", stdout);
    vprintf(format, arguments);
    putchar('\n');
    va_end(arguments);
}

/* The last line of a program, and its exit status. */
static int counted(void) {
    printf("%ld passed, %ld failed", passed, failed);
    if (skipped != 0) printf(", %ld skipped", skipped);
    putchar('\n');
    return failed != 0;
}

#endif
