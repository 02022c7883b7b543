/* Each call of the library on each text of a corpus, as tests/corpus.py writes one: shapes CORPUS. scripts/shapes counts the
 * instructions from the end of one call to the end of the next, so the order is that of its list of calls. */
#include "../../include/firthnapkin.h"
#include <stdio.h>
#include <stdlib.h>

/* The buffers of all calls on one text. Memory that nothing is written to costs nothing. */
typedef struct {
    uint8_t *source, *texts;
    size_t length, nodes_length, texts_length, complexities_length;
    firthnapkin_node *nodes;
    firthnapkin_token *tokens;
    firthnapkin_complexity *complexities;
} buffers;

static buffers with_room(size_t length) {
    buffers b = {.source = malloc(length + 1), .texts = malloc(2 * length + 1), .length = length};
    b.nodes = malloc((length + 1) * sizeof *b.nodes);
    b.tokens = malloc((length + 1) * sizeof *b.tokens);
    b.complexities = malloc((length + 1) * sizeof *b.complexities);
    if (b.source == NULL || b.texts == NULL || b.nodes == NULL || b.tokens == NULL || b.complexities == NULL) abort();
    return b;
}

static void drop(buffers *b) {
    free(b->source);
    free(b->texts);
    free(b->nodes);
    free(b->tokens);
    free(b->complexities);
}

/* Makes each call, and returns what a parse does, or a parse of a value or of a type where the text is one. */
static uint32_t call_each(buffers *b) {
    firthnapkin_limits limits = FIRTHNAPKIN_LIMITS_DEFAULT;
    limits.depth = FIRTHNAPKIN_MAX_DEPTH;
    firthnapkin_error error,
        end = {.kind = FIRTHNAPKIN_ERROR_UNEXPECTED_TOKEN, .start.byte = (uint32_t)b->length, .text_end = (uint32_t)b->length};
    firthnapkin_version();
    uint32_t status = firthnapkin_parse(b->source, b->length, &limits, b->nodes, b->length, &b->nodes_length, b->texts,
                                        b->length, &b->texts_length, &error);
    /* Without room, as a check is made. */
    firthnapkin_parse(b->source, b->length, &limits, NULL, 0, &b->nodes_length, NULL, 0, &b->texts_length, &error);
    firthnapkin_parse_complexities(b->source, b->length, &limits, b->nodes, b->length, &b->nodes_length, b->texts, b->length,
                                   &b->texts_length, b->complexities, b->length, &b->complexities_length, &error);
    uint32_t of_value = firthnapkin_parse_value(b->source, b->length, 0, &limits, b->nodes, b->length, &b->nodes_length,
                                                b->texts, b->length, &b->texts_length, &error);
    uint32_t of_type = firthnapkin_parse_type(b->source, b->length, &limits, b->nodes, b->length, &b->nodes_length, b->texts,
                                              b->length, &b->texts_length, &error);
    firthnapkin_message(b->source, b->length, &end, b->texts, 2 * b->length, &b->texts_length);
    firthnapkin_excerpt(b->source, b->length, &end, b->texts, 2 * b->length, &b->texts_length);
    firthnapkin_count(b->source, b->length, UINT32_MAX, &error);
    firthnapkin_tokens(b->source, b->length, UINT32_MAX, b->tokens, b->length + 1, &b->nodes_length, &error);
    firthnapkin_canonical(b->source, b->length, b->texts, 2 * b->length, &b->texts_length, &error);
    return of_value == FIRTHNAPKIN_OK || of_type == FIRTHNAPKIN_OK ? FIRTHNAPKIN_OK : status;
}

int main(int argc, char **argv) {
    FILE *corpus = argc == 2 ? fopen(argv[1], "rb") : NULL;
    size_t length;
    if (corpus == NULL) return 2;
    for (int number = 0; fscanf(corpus, "%zu", &length) == 1; number++) {
        buffers b = with_room(length);
        if (fgetc(corpus) != '\n' || fread(b.source, 1, length, corpus) != length) return 2;
        uint32_t status = call_each(&b);
        if (status != FIRTHNAPKIN_OK) printf("%d: %u\n", number, (unsigned)status);
        drop(&b);
    }
    return 0;
}
