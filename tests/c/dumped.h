/* What the library says of a source, its tokens, its canonical text and its errors, as JSON. dump.c has its form. */
#ifndef DUMPED_H
#define DUMPED_H

#include "../../include/firthnapkin.h"
#include <stdio.h>
#include <stdlib.h>
#include <string.h>

enum { LONG = 10000, LAST = 100 };

static int is_utf_16;

/* The first of so many tokens or nodes that is written. */
static size_t first_written(size_t length, size_t count) {
    return length > LONG && count > LAST ? count - LAST : 0;
}

/* ---- JSON */

/* The characters that JSON writes as a backslash and a letter, and those letters. */
static const char SHORT[] = "\"\\\b\f\n\r\t", LETTERS[] = "\"\\bfnrt";

static void quoted(const void *text, size_t length) {
    const uint8_t *bytes = text;
    putchar('"');
    for (size_t i = 0; i < length; i++)
        if (bytes[i] != 0 && strchr(SHORT, bytes[i]) != NULL)
            printf("\\%c", LETTERS[strchr(SHORT, bytes[i]) - SHORT]);
        else if (bytes[i] < 0x20)
            printf("\\u%04x", bytes[i]);
        else
            putchar(bytes[i]);
    putchar('"');
}

static void word(const char *text) {
    quoted(text, strlen(text));
}

/* The part of a text from one byte to another. */
static void between(const uint8_t *text, size_t start, size_t end) {
    quoted(text + start, end - start);
}

static void *room(size_t count, size_t size) {
    void *block = calloc(count + 1, size);
    if (block == NULL) abort();
    return block;
}

/* Of each byte of the source that is looked at: how many characters before it take two units of UTF-16, and where its line begins. */
static uint32_t *pairs, *lines;

static void look_at(const uint8_t *source, size_t length) {
    pairs = room(length, sizeof *pairs);
    lines = room(length, sizeof *lines);
    for (size_t i = 0; i < length; i++) {
        pairs[i + 1] = pairs[i] + (is_utf_16 && source[i] >= 0xF0);
        lines[i + 1] = source[i] == '\n' ? (uint32_t)i + 1 : lines[i];
    }
}

static void look_away(void) {
    free(pairs);
    free(lines);
}

static uint32_t column_of(firthnapkin_position p) {
    return p.column + pairs[p.byte] - pairs[lines[p.byte]];
}

static void position(firthnapkin_position p) {
    printf("[%u,%u,%u,%u]", p.index + pairs[p.byte], p.line, column_of(p), p.byte);
}

/* ---- errors */

typedef uint32_t writing(const uint8_t *, size_t, const firthnapkin_error *, uint8_t *, size_t, size_t *);

static void words(writing *write, const uint8_t *source, size_t length, const firthnapkin_error *error) {
    size_t capacity = 16 * length + 1000, found = 0;
    uint8_t *buffer = room(capacity, 1);
    if (write(source, length, error, buffer, capacity, &found) != FIRTHNAPKIN_OK) abort();
    quoted(buffer, found);
    free(buffer);
}

static void excerpt(const uint8_t *source, size_t length, firthnapkin_position start) {
    firthnapkin_error at = {.start = start};
    words(firthnapkin_excerpt, source, length, &at);
}

static void error_of(const uint8_t *source, size_t length, const firthnapkin_error *error) {
    printf("{\"kind\":");
    word(firthnapkin_error_kind_name(error->kind));
    printf(",\"detail\":");
    if (error->detail == FIRTHNAPKIN_DETAIL_NONE)
        printf("null");
    else
        word(firthnapkin_error_detail_name(error->detail));
    printf(",\"character\":%u,\"message\":", error->character);
    words(firthnapkin_message, source, length, error);
    printf(",\"start\":");
    position(error->start);
    printf(",\"end\":");
    position(error->end);
    printf(",\"line\":%u,\"column\":%u,\"excerpt\":", error->start.line + 1, column_of(error->start) + 1);
    excerpt(source, length, error->start);
    putchar('}');
}

/* ---- tokens and canonical texts */

static void tokens(const uint8_t *source, size_t length) {
    firthnapkin_token *found = room(length + 1, sizeof *found);
    firthnapkin_error error;
    size_t count;
    if (firthnapkin_tokens(source, length, UINT32_MAX, found, length + 1, &count, &error) != FIRTHNAPKIN_OK) {
        error_of(source, length, &error);
    } else {
        size_t first = first_written(length, count);
        for (size_t i = first; i < count; i++) {
            printf("%s[", i == first ? "[" : ",");
            word(firthnapkin_token_kind_name(found[i].kind));
            putchar(',');
            position(found[i].start);
            putchar(',');
            position(found[i].end);
            printf(",%u,%u,", found[i].start.line + 1, column_of(found[i].start) + 1);
            between(source, found[i].start.byte, found[i].end.byte);
            putchar(',');
            between(source, found[i].start.byte + found[i].quotes, found[i].end.byte - found[i].quotes);
            putchar(']');
        }
        putchar(']');
    }
    free(found);
}

static void canonical(const uint8_t *source, size_t length) {
    uint8_t *buffer = room(2 * length, 1);
    firthnapkin_error error;
    size_t count;
    if (firthnapkin_canonical(source, length, buffer, 2 * length, &count, &error) == FIRTHNAPKIN_OK)
        quoted(buffer, count);
    else
        error_of(source, length, &error);
    free(buffer);
}

#endif
