/* How many bytes of stack the calls take, in each way of nesting: at most half of what the header says, so that another compiler,
 * processor or C library has room. Each call is made in a thread whose stack is painted before. The line before the last says how
 * much the most was. */
#define _GNU_SOURCE
#include "../../include/firthnapkin.h"
#include "checks.h"
#include "memory.h"

enum { CAPACITY = 60000, FEW = 100, MANY = 990 };

/* A way of nesting: what begins the source, what opens a level in its outer half, what is between the halves, what opens a level in
 * the inner half, what is innermost, what closes all this, what ends the source, and how many levels of the limit each opening
 * takes. */
typedef struct {
    const char *name, *begin, *outer, *between, *inner, *innermost, *inner_end, *after, *outer_end, *end;
    uint32_t levels;
} shape;

#define SAME(name, begin, open, innermost, close, end, levels)                                                                 \
    { name, begin, open, "", open, innermost, close, "", close, end, levels }

static const shape shapes[] = {
    SAME("fields", "", "{a", "", "}", "", 1),
    SAME("fields with aliases", "query Q", "{b:a", "", "}", "", 1),
    SAME("fields after others", "", "{b c{d}a", "", "}", "", 1),
    SAME("fields with arguments", "", "{a(b:1)@c(d:[1])", "", "}", "", 1),
    SAME("fields with strings", "", "{a(b:\"\\u00e9\",c:\"\"\"\n x\n\"\"\")", "", "}", "", 1),
    SAME("fields of a mutation", "mutation M($a:T=1)", "{a(b:$a)", "", "}", "", 1),
    SAME("fields of a subscription", "subscription", "{a", "", "}", "", 1),
    SAME("fields of a fragment", "{a}fragment F on T", "{a", "", "}", "", 1),
    SAME("fields beside spreads", "", "{...F a", "", "}", "fragment F on T{b}", 1),
    SAME("inline fragments", "", "{...", "{a}", "}", "", 1),
    SAME("inline fragments on a type", "", "{...on T", "{a}", "}", "", 1),
    SAME("inline fragments with directives", "", "{...@c(d:{e:1})", "{a}", "}", "", 1),
    SAME("inline fragments on a type, with directives", "", "{b ...on T@c", "{a}", "}", "", 1),
    SAME("fields and inline fragments", "", "{a{...", "{a}", "}}", "", 2),
    SAME("lists", "{a(b:", "[", "1", "]", ")}", 1),
    SAME("lists after others", "{a(b:", "[1[2]\"c\"", "1", "]", ")}", 1),
    SAME("objects", "{a(b:", "{k:", "1", "}", ")}", 1),
    SAME("objects after others", "{a(b:", "{j:[]k:", "$v", "}", ")}", 1),
    SAME("lists and objects", "{a(b:", "[{k:", "1.5", "}]", ")}", 2),
    SAME("a field's directive, lists", "{a@b(c:", "[", "1", "]", ")}", 1),
    SAME("a field's directive, objects", "{a@b(c:", "{k:", "1", "}", ")}", 1),
    SAME("a second directive", "{a@b@b(c:1 d:", "{k:[", "1", "]}", ")}", 2),
    SAME("an operation's directive", "query@b(c:", "[", "1", "]", "){a}", 1),
    SAME("an operation's directive, objects", "query@b(c:", "{k:", "1", "}", "){a}", 1),
    SAME("a fragment's directive", "fragment F on T@b(c:", "[{k:", "1", "}]", "){a}", 2),
    SAME("an inline fragment's directive", "{...@b(c:", "[{k:", "1", "}]", "){a}}", 2),
    SAME("a spread's directive", "{...F@b(c:", "[{k:", "1", "}]", ")}fragment F on T{a}", 2),
    SAME("a variable's directive", "query($a:T@b(c:", "[{k:", "1", "}]", ")){a}", 2),
    SAME("a default, lists", "query($a:T=", "[", "1", "]", "){a}", 1),
    SAME("a default, objects", "query($a:T=", "{k:", "1", "}", "){a}", 1),
    SAME("a default, lists and objects", "query($b:T $a:T=", "{k:[", "1", "]}", "){a}", 2),
    SAME("list types", "query($a:", "[", "T", "]", "){a}", 1),
    SAME("list types that aren't null", "query($a:", "[", "T!", "]!", "){a}", 1),
    {"fields around inline fragments", "", "{a", "", "{...on T", "{a}", "}", "", "}", "", 1},
    {"inline fragments around fields", "", "{...", "", "{a", "", "}", "", "}", "", 1},
    {"fields around lists", "", "{a", "(b:", "[", "1", "]", ")", "}", "", 1},
    {"fields around objects", "", "{a", "(b:", "{k:", "1", "}", ")", "}", "", 1},
    {"inline fragments around lists", "", "{...", "{a(b:", "[", "1", "]", ")}", "}", "", 1},
    {"inline fragments around objects of a directive", "", "{...on T", "@a(b:", "{k:", "1", "}", "){a}", "}", "", 1},
    {"fields around a spread's directive", "", "{a", "{...F@a(b:", "[", "1", "]", ")}", "}", "fragment F on T{b}", 1},
    {"lists around objects", "{a(b:", "[", "", "{k:", "E", "}", "", "]", ")}", 1},
    {"objects around lists", "query($a:T=", "{k:", "", "[", "null", "]", "", "}", "){a}", 1},
};

/* Sources that are one value, and those that are one type. */
static const shape values[] = {
    SAME("a value, lists", "", "[", "1", "]", "", 1),
    SAME("a value, lists after others", "", "[1[2]\"c\"", "$v", "]", "", 1),
    SAME("a value, objects", "", "{k:", "1", "}", "", 1),
    SAME("a value, objects after others", "", "{j:[]k:", "E", "}", "", 1),
    SAME("a value, lists and objects", "", "[{k:", "\"\"\"\n x\n\"\"\"", "}]", "", 2),
    {"a value, lists around objects", "", "[", "", "{k:", "\"\\u00e9\"", "}", "", "]", "", 1},
};

static const shape constants[] = {
    SAME("a constant, lists", "", "[", "1", "]", "", 1),
    SAME("a constant, objects", "", "{k:", "1", "}", "", 1),
    {"a constant, objects around lists", "", "{k:", "", "[", "null", "]", "", "}", "", 1},
};

static const shape types[] = {
    SAME("a type, lists", "", "[", "T", "]", "", 1),
    SAME("a type, lists that aren't null", "", "[", "T!", "]!", "", 1),
};

/* The shapes of each kind of source. */
enum { FLAT, DOCUMENTS, VALUES, CONSTANTS, TYPES, KINDS };

static const struct {
    const shape *shapes;
    size_t count;
} made[KINDS] = {
    [DOCUMENTS] = {shapes, sizeof shapes / sizeof *shapes},
    [VALUES] = {values, sizeof values / sizeof *values},
    [CONSTANTS] = {constants, sizeof constants / sizeof *constants},
    [TYPES] = {types, sizeof types / sizeof *types},
};

static char source[1 << 17];
static firthnapkin_node nodes[CAPACITY];
static firthnapkin_token tokens[CAPACITY];
static firthnapkin_complexity complexities[4];
static uint8_t texts[2 * CAPACITY];

/* What a call gets, and what it returns. */
static firthnapkin_limits limits;
static firthnapkin_error error, found;
static uint32_t status;

static void parse(size_t length) {
    size_t n, t;
    status = firthnapkin_parse((uint8_t *)source, length, &limits, nodes, CAPACITY, &n, texts, CAPACITY, &t, &error);
}

static void parse_complexities(size_t length) {
    size_t n, t, c;
    status = firthnapkin_parse_complexities((uint8_t *)source, length, &limits, nodes, CAPACITY, &n, texts, CAPACITY, &t,
                                            complexities, 4, &c, &error);
}

static void parse_value(size_t length) {
    size_t n, t;
    status = firthnapkin_parse_value((uint8_t *)source, length, 0, &limits, nodes, CAPACITY, &n, texts, CAPACITY, &t, &error);
}

static void parse_constant(size_t length) {
    size_t n, t;
    status = firthnapkin_parse_value((uint8_t *)source, length, 1, &limits, nodes, CAPACITY, &n, texts, CAPACITY, &t, &error);
}

static void parse_type(size_t length) {
    size_t n, t;
    status = firthnapkin_parse_type((uint8_t *)source, length, &limits, nodes, CAPACITY, &n, texts, CAPACITY, &t, &error);
}

static void check_alone(size_t length) {
    size_t n, t;
    status = firthnapkin_parse((uint8_t *)source, length, &limits, NULL, 0, &n, NULL, 0, &t, &error);
}

static void check_complexities(size_t length) {
    size_t n, t, c;
    status = firthnapkin_parse_complexities((uint8_t *)source, length, &limits, NULL, 0, &n, NULL, 0, &t, complexities, 4, &c,
                                            &error);
}

static void count(size_t length) {
    status = firthnapkin_count((uint8_t *)source, length, UINT32_MAX, &error);
}

static void cut(size_t length) {
    size_t n;
    status = firthnapkin_tokens((uint8_t *)source, length, UINT32_MAX, tokens, CAPACITY, &n, &error);
}

static void canonical(size_t length) {
    size_t n;
    status = firthnapkin_canonical((uint8_t *)source, length, texts, sizeof texts, &n, &error);
}

static void message(size_t length) {
    size_t n;
    status = firthnapkin_message((uint8_t *)source, length, &found, texts, sizeof texts, &n);
}

static void excerpt(size_t length) {
    size_t n;
    status = firthnapkin_excerpt((uint8_t *)source, length, &found, texts, sizeof texts, &n);
}

/* A call, and the kind of the sources that nest in it. What doesn't nest takes FIRTHNAPKIN_STACK_SIZE(0), as each call does whose
 * status is that of an error before its first token. */
static const struct {
    const char *name;
    void (*run)(size_t);
    int nests;
} calls[] = {{"parse", parse, DOCUMENTS},
             {"parse_complexities", parse_complexities, DOCUMENTS},
             {"a check", check_alone, DOCUMENTS},
             {"a check of complexities", check_complexities, DOCUMENTS},
             {"a value", parse_value, VALUES},
             {"a constant value", parse_value, CONSTANTS},
             {"a constant", parse_constant, CONSTANTS},
             {"a type", parse_type, TYPES},
             {"count", count, FLAT},
             {"tokens", cut, FLAT},
             {"canonical", canonical, FLAT},
             {"message", message, FLAT},
             {"excerpt", excerpt, FLAT}};

enum { CALLS = sizeof calls / sizeof *calls, MESSAGE = CALLS - 2 };

/* A call in a thread of its own, the lowest address of its stack, and how many bytes below its first frame the call wrote to. */
typedef struct {
    int call;
    uint8_t *stack;
    size_t taken;
} task;

/* Paints the stack below this frame before the call, since what began the thread wrote there, too. A few bytes are left for what
 * paints, and count as the call's. */
static void *run(void *argument) {
    enum { GAP = 256 };
    task *it = argument;
    uint8_t here, *top = &here - GAP, *lowest = it->stack;
    memset(it->stack, CANARY, (size_t)(top - it->stack));
    calls[it->call].run(strlen(source));
    while (lowest < top && *lowest == CANARY) lowest++;
    it->taken = (size_t)(&here - lowest);
    return NULL;
}

/* How many bytes a call takes in a thread that has as much stack as the header says for this depth, and some more. */
static size_t used(int call, uint32_t depth) {
    size_t size = whole_pages(FIRTHNAPKIN_STACK_SIZE(depth) + (1 << 18));
    task it = {call, mmap(NULL, size, PROT_READ | PROT_WRITE, MAP_PRIVATE | MAP_ANONYMOUS, -1, 0), 0};
    pthread_attr_t attributes;
    pthread_t thread;
    if (it.stack == MAP_FAILED || pthread_attr_init(&attributes) || pthread_attr_setstack(&attributes, it.stack, size)
        || pthread_create(&thread, &attributes, run, &it) || pthread_join(thread, NULL))
        abort();
    pthread_attr_destroy(&attributes);
    munmap(it.stack, size);
    return it.taken;
}

static void put(const char *part, uint32_t times) {
    for (char *end = source + strlen(source); times > 0; times--, end += strlen(part)) strcpy(end, part);
}

/* How a source of this shape ends: as a document, within its levels, or with a token there that none can be. */
enum { WHOLE, UNCLOSED, WRONG, TOO_DEEP, ENDINGS };

static const char *const endings[ENDINGS] = {"whole", "unclosed", "with a wrong token", "too deep"};

/* Writes the source, with so many levels at most. */
static void nest(const shape *it, uint32_t levels, int ending) {
    uint32_t outer = levels / it->levels / 2, inner = levels / it->levels - outer;
    source[0] = 0;
    put(it->begin, 1), put(it->outer, outer), put(it->between, 1), put(it->inner, inner);
    if (ending == WRONG) put("!", 1);
    if (ending == UNCLOSED || ending == WRONG) return;
    put(it->innermost, 1), put(it->inner_end, inner), put(it->after, 1), put(it->outer_end, outer), put(it->end, 1);
}

/* The most that was seen: of a call that nests, of one that doesn't, and of a level. */
static size_t most, most_flat;
static double most_level;

/* How much stack this call takes, which may be half of what the header says for this depth. */
static size_t taken(const char *name, int call, uint32_t depth) {
    size_t size = used(call, depth);
    check(2 * size <= FIRTHNAPKIN_STACK_SIZE(depth), "%s, %s: %zu bytes of stack, and %zu are asked for", name,
          calls[call].name, size, FIRTHNAPKIN_STACK_SIZE(depth));
    return size;
}

static void try_flat(const char *name, int call) {
    size_t size = taken(name, call, 0);
    if (size > most_flat) most_flat = size;
}

/* The words on the error that the last call returned. */
static void try_words(const char *name) {
    found = error;
    for (int call = MESSAGE; call < CALLS; call++) {
        try_flat(name, call);
        check(status == FIRTHNAPKIN_OK, "%s: %s returns %u", name, calls[call].name, status);
    }
}

static uint32_t wanted_status(int ending, int call) {
    if (ending == TOO_DEEP) return FIRTHNAPKIN_TOO_DEEP;
    if (ending != WHOLE) return FIRTHNAPKIN_SYNTAX_ERROR;
    return calls[call].run == check_alone || calls[call].run == check_complexities ? FIRTHNAPKIN_BUFFER_TOO_SMALL
                                                                                   : FIRTHNAPKIN_OK;
}

/* The calls that nest, with few levels and with many: each level takes the same. */
static void try_nested(const shape *it, int ending, int call) {
    size_t size[2];
    for (int i = 0; i < 2; i++) {
        uint32_t levels = i == 0 ? FEW : MANY;
        nest(it, levels, ending);
        limits = (firthnapkin_limits){ending == TOO_DEEP ? levels - 4 : levels + 10, UINT32_MAX, {0}};
        size[i] = taken(it->name, call, levels);
        check(status == wanted_status(ending, call), "%s, %s, %s: status %u", it->name, endings[ending], calls[call].name,
              status);
    }
    double level = ((double)size[1] - (double)size[0]) / (MANY - FEW);
    if (level > most_level) most_level = level;
    if (size[1] > most) most = size[1];
}

/* Sources of one level, with errors whose words differ. */
static void try_errors(void) {
    static const char *const wrong[] = {
        "{a(b:\"\\q\")}", "{a(b:\"\\u12\")}", "{a(b:\"",  "{a(b:\"\"\"", "{a(b:01)}", "{a(b:1.)}", "{a(b:1e)}",
        "{a(b:1x)}",      "{a ..b}",          "{a \x7f}", "{a %}",       "",          "{",         "query",
        "{a} b",          "{a(b:)}"};
    limits = (firthnapkin_limits)FIRTHNAPKIN_LIMITS_DEFAULT;
    for (size_t i = 0; i < sizeof wrong / sizeof *wrong; i++) {
        strcpy(source, wrong[i]);
        for (int call = 0; call < MESSAGE; call++) try_flat(wrong[i], call);
        parse(strlen(source));
        try_words(wrong[i]);
    }
}

/* Each call that reads sources of this kind, and those that don't nest, on one of these sources. */
static void try_shape(const shape *it, int kind) {
    for (int ending = 0; ending < ENDINGS; ending++)
        for (int call = 0; call < MESSAGE; call++) {
            if (calls[call].nests == kind) {
                try_nested(it, ending, call);
                if (ending != WHOLE && calls[call].run == parse) try_words(it->name);
            } else if (ending == WHOLE && calls[call].nests == FLAT) {
                nest(it, MANY, ending);
                try_flat(it->name, call);
            }
        }
}

int main(void) {
    for (int kind = DOCUMENTS; kind < KINDS; kind++)
        for (size_t i = 0; i < made[kind].count; i++) try_shape(&made[kind].shapes[i], kind);
    try_errors();
    printf("stack: %zu bytes at most for %d levels, %.0f a level, and %zu for what doesn't nest\n", most, MANY, most_level,
           most_flat);
    return counted();
}
