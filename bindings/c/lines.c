/* Writes the nodes of standard input: each node's depth, its kind, its name.
 *
 *     cc lines.c $(pkg-config --cflags --libs firthnapkin) -o lines
 */
#include <firthnapkin.h>
#include <stdio.h>
#include <stdlib.h>

static uint8_t *all(FILE *file, size_t *length) {
    size_t capacity = 1 << 16;
    uint8_t *bytes = malloc(capacity);
    *length = 0;
    while (bytes != NULL) {
        *length += fread(bytes + *length, 1, capacity - *length, file);
        if (*length < capacity) return bytes;
        uint8_t *more = realloc(bytes, capacity *= 2);
        if (more == NULL) free(bytes);
        bytes = more;
    }
    return NULL;
}

/* Writes a node, and those of the parts in it. */
static size_t write_node(const uint8_t *source, const firthnapkin_node *nodes, size_t i, int depth) {
    firthnapkin_node n = nodes[i];
    size_t end = i + 1 + n.descendants;
    const char *name = (const char *)source + n.name_start;
    printf("%*s%s %.*s\n", 2 * depth, "", firthnapkin_kind_name(n.kind), (int)(n.name_end - n.name_start), name);
    for (i++; i < end;) i = write_node(source, nodes, i, depth + 1);
    return end;
}

/* Writes words or lines on an error: the first call returns how many bytes they have. */
static uint32_t write_words(uint32_t (*call)(const uint8_t *, size_t, const firthnapkin_error *, uint8_t *, size_t, size_t *),
                            const uint8_t *source, size_t length, const firthnapkin_error *error) {
    size_t words_length;
    uint32_t status = call(source, length, error, NULL, 0, &words_length);
    if (status != FIRTHNAPKIN_BUFFER_TOO_SMALL) return status;
    uint8_t *words = malloc(words_length);
    if (words == NULL) return FIRTHNAPKIN_OUT_OF_MEMORY;
    status = call(source, length, error, words, words_length, &words_length);
    fwrite(words, 1, words_length, stdout);
    putchar('\n');
    free(words);
    return status;
}

/* Writes why a source isn't a document, and its lines around that. */
static uint32_t write_error(const uint8_t *source, size_t length, const firthnapkin_error *error) {
    uint32_t status = write_words(firthnapkin_message, source, length, error);
    return status == FIRTHNAPKIN_OK ? write_words(firthnapkin_excerpt, source, length, error) : status;
}

int main(void) {
    size_t length, nodes_length, texts_length;
    uint8_t *source = all(stdin, &length);
    if (source == NULL) return FIRTHNAPKIN_OUT_OF_MEMORY;
    /* Buffers as long as the source always suffice. */
    firthnapkin_node *nodes = malloc((length + 1) * sizeof *nodes);
    uint8_t *texts = malloc(length + 1);
    uint32_t status = FIRTHNAPKIN_OUT_OF_MEMORY;
    firthnapkin_error error;
    const firthnapkin_limits limits = FIRTHNAPKIN_LIMITS_DEFAULT;
    if (nodes != NULL && texts != NULL)
        status = firthnapkin_parse(source, length, &limits, nodes, length, &nodes_length, texts, length, &texts_length, &error);
    if (status == FIRTHNAPKIN_OK)
        for (size_t i = 0; i < nodes_length;) i = write_node(source, nodes, i, 0);
    if (status == FIRTHNAPKIN_SYNTAX_ERROR || status == FIRTHNAPKIN_TOO_DEEP) {
        uint32_t written = write_error(source, length, &error);
        if (written != FIRTHNAPKIN_OK) status = written;
    }
    free(source);
    free(nodes);
    free(texts);
    return (int)status;
}
