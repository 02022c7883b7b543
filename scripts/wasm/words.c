/* The part of sprintf that bindings/sizes.h calls: %s and %lu. */
#include <stddef.h>
#include <stdio.h>

static char *write_number(char *at, unsigned long number) {
    char digits[20];
    int count = 0;
    do digits[count++] = (char)('0' + number % 10);
    while ((number /= 10) != 0);
    while (count > 0) *at++ = digits[--count];
    return at;
}

static char *write_text(char *at, const char *text) {
    while (*text != 0) *at++ = *text++;
    return at;
}

int sprintf(char *to, const char *form, ...) {
    char *at = to;
    __builtin_va_list values;
    __builtin_va_start(values, form);
    for (; *form != 0; form++) {
        if (*form != '%') {
            *at++ = *form;
        } else if (*++form == 's') {
            at = write_text(at, __builtin_va_arg(values, const char *));
        } else {
            at = write_number(at, __builtin_va_arg(values, unsigned long));
            form++;
        }
    }
    __builtin_va_end(values);
    return (int)(at - to);
}
