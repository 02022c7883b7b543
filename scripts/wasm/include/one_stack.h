/* Replaces bindings/calls.h: a WebAssembly module has one stack, whose size the linker sets, and no threads. */
#ifndef FIRTHNAPKIN_CALLS_H
#define FIRTHNAPKIN_CALLS_H
#include "firthnapkin.h"
#define parse_on_stack firthnapkin_parse
#define parse_complexities_on_stack firthnapkin_parse_complexities
#define parse_value_on_stack firthnapkin_parse_value
#define parse_type_on_stack firthnapkin_parse_type
#define message_on_stack firthnapkin_message
#define excerpt_on_stack firthnapkin_excerpt
#define tokens_on_stack firthnapkin_tokens
#define canonical_on_stack firthnapkin_canonical
#endif
