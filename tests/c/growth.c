/* One call on the text of standard input: growth parse, few, complexities, value, type, message, excerpt, count, tokens, or canonical;
 * few is a parse of no more than ten tokens, and the error that a message and an excerpt are given is one at the source's end. Without a word it makes none. The
 * first line that is written says that the call comes now, the second what it returns. */
#include "../../include/firthnapkin.h"
#include <stdio.h>
#include <stdlib.h>
#include <string.h>
#include <unistd.h>

/* All of standard input. */
static uint8_t *input(size_t *length) {
    size_t capacity = 1 << 16;
    uint8_t *source = malloc(capacity);
    *length = 0;
    while (source != NULL) {
        size_t count = fread(source + *length, 1, capacity - *length, stdin);
        if (count == 0) return source;
        *length += count;
        if (*length == capacity) source = realloc(source, capacity *= 2);
    }
    abort();
}

int main(int argc, char **argv) {
    size_t length, nodes_length, texts_length, complexities_length;
    uint8_t *source = input(&length);
    firthnapkin_error error;
    /* Memory that nothing is written to costs nothing. */
    uint8_t *texts = malloc(2 * length + 1);
    firthnapkin_node *nodes = malloc((length + 1) * sizeof *nodes);
    firthnapkin_token *tokens = malloc((length + 1) * sizeof *tokens);
    firthnapkin_complexity *complexities = malloc((length + 1) * sizeof *complexities);
    if (texts == NULL || nodes == NULL || tokens == NULL || complexities == NULL || argc < 2) return 0;
    if (write(STDOUT_FILENO, "calling\n", 8) != 8) return 1;
    uint32_t status;
    firthnapkin_limits limits = FIRTHNAPKIN_LIMITS_DEFAULT;
    if (strcmp(argv[1], "few") == 0) limits.tokens = 10;
    firthnapkin_error end = {
        .kind = FIRTHNAPKIN_ERROR_UNEXPECTED_TOKEN, .start.byte = (uint32_t)length, .text_end = (uint32_t)length};
    if (strcmp(argv[1], "parse") == 0 || strcmp(argv[1], "few") == 0)
        status = firthnapkin_parse(source, length, &limits, nodes, length, &nodes_length, texts, length, &texts_length, &error);
    else if (strcmp(argv[1], "complexities") == 0)
        status = firthnapkin_parse_complexities(source, length, &limits, nodes, length, &nodes_length, texts, length,
                                                &texts_length, complexities, length, &complexities_length, &error);
    else if (strcmp(argv[1], "value") == 0)
        status = firthnapkin_parse_value(source, length, 0, &limits, nodes, length, &nodes_length, texts, length, &texts_length,
                                         &error);
    else if (strcmp(argv[1], "type") == 0)
        status =
            firthnapkin_parse_type(source, length, &limits, nodes, length, &nodes_length, texts, length, &texts_length, &error);
    else if (strcmp(argv[1], "message") == 0)
        status = firthnapkin_message(source, length, &end, texts, 2 * length, &texts_length);
    else if (strcmp(argv[1], "excerpt") == 0)
        status = firthnapkin_excerpt(source, length, &end, texts, 2 * length, &texts_length);
    else if (strcmp(argv[1], "tokens") == 0)
        status = firthnapkin_tokens(source, length, UINT32_MAX, tokens, length + 1, &nodes_length, &error);
    else if (strcmp(argv[1], "canonical") == 0)
        status = firthnapkin_canonical(source, length, texts, 2 * length, &texts_length, &error);
    else
        status = firthnapkin_count(source, length, UINT32_MAX, &error);
    printf("%u\n", (unsigned)status);
    return 0;
}
