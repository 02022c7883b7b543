/* The calls of the library for bindings. They run on as much stack as they may take, whatever the caller's thread has left. */
#ifndef FIRTHNAPKIN_CALLS_H
#define FIRTHNAPKIN_CALLS_H

#ifndef _GNU_SOURCE
#error "_GNU_SOURCE is to be defined before the first header: a thread is asked for its stack"
#endif

#include "firthnapkin.h"
#include <pthread.h>
#include <signal.h>
#include <unistd.h>

/* How many bytes of this thread's stack are left: 0 if that isn't known, as on a stack that the program made itself. */
static inline size_t stack_left(void) {
    static __thread char *lowest, *highest;
    char here;
    if (highest == NULL) {
        pthread_attr_t attributes;
        void *start;
        size_t size;
        if (pthread_getattr_np(pthread_self(), &attributes) != 0) return 0;
        if (pthread_attr_getstack(&attributes, &start, &size) == 0) {
            lowest = start;
            highest = lowest + size;
        }
        pthread_attr_destroy(&attributes);
    }
    return lowest < &here && &here < highest ? (size_t)(&here - lowest) : 0;
}

/* A call that takes at most so many bytes of stack. */
typedef struct {
    void (*run)(void *);
    void *argument;
    size_t size;
    int has_run;
} stack_call;

/* The beginning of a thread: makes the call if the stack suffices. */
static inline void *stack_begin(void *argument) {
    stack_call *call = argument;
    if (stack_left() >= call->size) {
        call->run(call->argument);
        call->has_run = 1;
    }
    return NULL;
}

/* Runs a thread with a stack of so many bytes, and waits for its end. It gets no signals, since their handlers may take any
 * stack. */
static inline void run_thread(size_t bytes, stack_call *call) {
    pthread_attr_t attributes;
    pthread_t thread;
    sigset_t all, before;
    if (pthread_attr_init(&attributes) != 0) return;
    if (pthread_attr_setstacksize(&attributes, bytes) == 0) {
        sigfillset(&all);
        pthread_sigmask(SIG_SETMASK, &all, &before);
        int is_made = pthread_create(&thread, &attributes, stack_begin, call) == 0;
        pthread_sigmask(SIG_SETMASK, &before, NULL);
        if (is_made) pthread_join(thread, NULL);
    }
    pthread_attr_destroy(&attributes);
}

/* Makes the call in a thread of its own, if one can be made. A thread's stack also has its thread-local variables, and only the
 * thread knows how much they leave. So one that has too little ends, and another has a larger margin. Memory that is not written
 * to costs nothing. */
static inline void run_in_thread(stack_call call) {
    enum { LEAST_MARGIN = 1 << 16, MOST_MARGIN = 1 << 28 };
    size_t page = (size_t)sysconf(_SC_PAGESIZE);
    for (size_t margin = LEAST_MARGIN; margin <= MOST_MARGIN && !call.has_run; margin *= 16)
        run_thread((call.size + margin) / page * page, &call);
}

/* Makes a call that takes at most so many bytes of stack: on this thread's if enough is left, otherwise in a thread of its
 * own. If no thread can be made, the call isn't made either. */
static inline void run_on_stack(size_t size, void (*run)(void *), void *argument) {
    if (stack_left() >= size)
        run(argument);
    else
        run_in_thread((stack_call){run, argument, size, 0});
}

/* The stack that a call takes; one that refuses its depth takes next to nothing. */
static inline size_t stack_for(uint32_t depth) {
    return FIRTHNAPKIN_STACK_SIZE(depth <= FIRTHNAPKIN_MAX_DEPTH ? depth : 0);
}

/* A call that runs on such a stack: its arguments and its result. For firthnapkin_message, firthnapkin_excerpt and
 * firthnapkin_canonical the buffer, its capacity and its length are those of the texts. */
typedef struct {
    const uint8_t *source;
    size_t length;
    const firthnapkin_limits *limits;
    const firthnapkin_error *given;
    uint32_t max_tokens, constant, status;
    firthnapkin_node *nodes;
    size_t nodes_capacity, *nodes_length;
    firthnapkin_token *tokens;
    size_t tokens_capacity, *tokens_length;
    uint8_t *texts;
    size_t texts_capacity, *texts_length;
    firthnapkin_complexity *complexities;
    size_t complexities_capacity, *complexities_length;
    firthnapkin_error *error;
} whole_call;

static inline void run_parse(void *call) {
    whole_call *c = call;
    c->status = firthnapkin_parse(c->source, c->length, c->limits, c->nodes, c->nodes_capacity, c->nodes_length, c->texts,
                                  c->texts_capacity, c->texts_length, c->error);
}

static inline void run_parse_complexities(void *call) {
    whole_call *c = call;
    c->status = firthnapkin_parse_complexities(c->source, c->length, c->limits, c->nodes, c->nodes_capacity, c->nodes_length,
                                               c->texts, c->texts_capacity, c->texts_length, c->complexities,
                                               c->complexities_capacity, c->complexities_length, c->error);
}

static inline void run_parse_value(void *call) {
    whole_call *c = call;
    c->status = firthnapkin_parse_value(c->source, c->length, c->constant, c->limits, c->nodes, c->nodes_capacity,
                                        c->nodes_length, c->texts, c->texts_capacity, c->texts_length, c->error);
}

static inline void run_parse_type(void *call) {
    whole_call *c = call;
    c->status = firthnapkin_parse_type(c->source, c->length, c->limits, c->nodes, c->nodes_capacity, c->nodes_length, c->texts,
                                       c->texts_capacity, c->texts_length, c->error);
}

static inline void run_message(void *call) {
    whole_call *c = call;
    c->status = firthnapkin_message(c->source, c->length, c->given, c->texts, c->texts_capacity, c->texts_length);
}

static inline void run_excerpt(void *call) {
    whole_call *c = call;
    c->status = firthnapkin_excerpt(c->source, c->length, c->given, c->texts, c->texts_capacity, c->texts_length);
}

static inline void run_tokens(void *call) {
    whole_call *c = call;
    c->status = firthnapkin_tokens(c->source, c->length, c->max_tokens, c->tokens, c->tokens_capacity, c->tokens_length, c->error);
}

static inline void run_canonical(void *call) {
    whole_call *c = call;
    c->status = firthnapkin_canonical(c->source, c->length, c->texts, c->texts_capacity, c->texts_length, c->error);
}

/* A call that writes nodes; FIRTHNAPKIN_OUT_OF_MEMORY if no stack can be made. */
static inline uint32_t nodes_on_stack(void (*run)(void *), const uint8_t *source, size_t length, uint32_t constant,
                                      const firthnapkin_limits *limits, firthnapkin_node *nodes, size_t nodes_capacity,
                                      size_t *nodes_length, uint8_t *texts, size_t texts_capacity, size_t *texts_length,
                                      firthnapkin_error *error) {
    whole_call call = {.source = source, .length = length, .limits = limits, .constant = constant,
                       .status = FIRTHNAPKIN_OUT_OF_MEMORY, .nodes = nodes, .nodes_capacity = nodes_capacity,
                       .nodes_length = nodes_length, .texts = texts, .texts_capacity = texts_capacity,
                       .texts_length = texts_length, .error = error};
    *nodes_length = *texts_length = 0;
    run_on_stack(stack_for(limits->depth), run, &call);
    return call.status;
}

/* firthnapkin_parse, in the same way. */
static inline uint32_t parse_on_stack(const uint8_t *source, size_t length, const firthnapkin_limits *limits,
                                      firthnapkin_node *nodes, size_t nodes_capacity, size_t *nodes_length, uint8_t *texts,
                                      size_t texts_capacity, size_t *texts_length, firthnapkin_error *error) {
    return nodes_on_stack(run_parse, source, length, 0, limits, nodes, nodes_capacity, nodes_length, texts, texts_capacity,
                          texts_length, error);
}

/* firthnapkin_parse_value, in the same way. */
static inline uint32_t parse_value_on_stack(const uint8_t *source, size_t length, uint32_t constant,
                                            const firthnapkin_limits *limits, firthnapkin_node *nodes, size_t nodes_capacity,
                                            size_t *nodes_length, uint8_t *texts, size_t texts_capacity, size_t *texts_length,
                                            firthnapkin_error *error) {
    return nodes_on_stack(run_parse_value, source, length, constant, limits, nodes, nodes_capacity, nodes_length, texts,
                          texts_capacity, texts_length, error);
}

/* firthnapkin_parse_type, in the same way. */
static inline uint32_t parse_type_on_stack(const uint8_t *source, size_t length, const firthnapkin_limits *limits,
                                           firthnapkin_node *nodes, size_t nodes_capacity, size_t *nodes_length, uint8_t *texts,
                                           size_t texts_capacity, size_t *texts_length, firthnapkin_error *error) {
    return nodes_on_stack(run_parse_type, source, length, 0, limits, nodes, nodes_capacity, nodes_length, texts, texts_capacity,
                          texts_length, error);
}

/* firthnapkin_parse_complexities, in the same way. */
static inline uint32_t parse_complexities_on_stack(const uint8_t *source, size_t length, const firthnapkin_limits *limits,
                                                   firthnapkin_node *nodes, size_t nodes_capacity, size_t *nodes_length,
                                                   uint8_t *texts, size_t texts_capacity, size_t *texts_length,
                                                   firthnapkin_complexity *complexities, size_t complexities_capacity,
                                                   size_t *complexities_length, firthnapkin_error *error) {
    whole_call call = {.source = source, .length = length, .limits = limits, .status = FIRTHNAPKIN_OUT_OF_MEMORY, .nodes = nodes,
                       .nodes_capacity = nodes_capacity, .nodes_length = nodes_length, .texts = texts,
                       .texts_capacity = texts_capacity, .texts_length = texts_length, .complexities = complexities,
                       .complexities_capacity = complexities_capacity, .complexities_length = complexities_length,
                       .error = error};
    *nodes_length = *texts_length = *complexities_length = 0;
    run_on_stack(stack_for(limits->depth), run_parse_complexities, &call);
    return call.status;
}

/* A call that writes words on an error into a buffer, in the same way. */
static inline uint32_t words_on_stack(void (*run)(void *), const uint8_t *source, size_t length, const firthnapkin_error *error,
                                      uint8_t *buffer, size_t buffer_capacity, size_t *buffer_length) {
    whole_call call = {.source = source, .length = length, .given = error, .status = FIRTHNAPKIN_OUT_OF_MEMORY,
                       .texts = buffer, .texts_capacity = buffer_capacity, .texts_length = buffer_length};
    *buffer_length = 0;
    run_on_stack(stack_for(0), run, &call);
    return call.status;
}

/* firthnapkin_message, in the same way. */
static inline uint32_t message_on_stack(const uint8_t *source, size_t length, const firthnapkin_error *error, uint8_t *buffer,
                                        size_t buffer_capacity, size_t *buffer_length) {
    return words_on_stack(run_message, source, length, error, buffer, buffer_capacity, buffer_length);
}

/* firthnapkin_excerpt, in the same way. */
static inline uint32_t excerpt_on_stack(const uint8_t *source, size_t length, const firthnapkin_error *error, uint8_t *buffer,
                                        size_t buffer_capacity, size_t *buffer_length) {
    return words_on_stack(run_excerpt, source, length, error, buffer, buffer_capacity, buffer_length);
}

/* firthnapkin_tokens, in the same way. */
static inline uint32_t tokens_on_stack(const uint8_t *source, size_t length, uint32_t max_tokens, firthnapkin_token *tokens,
                                       size_t tokens_capacity, size_t *tokens_length, firthnapkin_error *error) {
    whole_call call = {.source = source, .length = length, .max_tokens = max_tokens, .status = FIRTHNAPKIN_OUT_OF_MEMORY,
                       .tokens = tokens, .tokens_capacity = tokens_capacity, .tokens_length = tokens_length, .error = error};
    *tokens_length = 0;
    run_on_stack(stack_for(0), run_tokens, &call);
    return call.status;
}

/* firthnapkin_canonical, in the same way. */
static inline uint32_t canonical_on_stack(const uint8_t *source, size_t length, uint8_t *buffer, size_t buffer_capacity,
                                          size_t *buffer_length, firthnapkin_error *error) {
    whole_call call = {.source = source, .length = length, .status = FIRTHNAPKIN_OUT_OF_MEMORY, .texts = buffer,
                       .texts_capacity = buffer_capacity, .texts_length = buffer_length, .error = error};
    *buffer_length = 0;
    run_on_stack(stack_for(0), run_canonical, &call);
    return call.status;
}

#endif
