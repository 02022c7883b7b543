/* The header's types as this compiler lays them out: a line for each field, with its offset and size, and one for each
 * type, with its size. */
#include "../../include/firthnapkin.h"
#include <stdio.h>

#define FIELD(type, field) printf(#type " " #field " %zu %zu\n", offsetof(type, field), sizeof(((type *)0)->field))
#define SIZE(type) printf(#type " %zu\n", sizeof(type))

int main(void) {
    FIELD(firthnapkin_position, index);
    FIELD(firthnapkin_position, line);
    FIELD(firthnapkin_position, column);
    FIELD(firthnapkin_position, byte);
    SIZE(firthnapkin_position);
    FIELD(firthnapkin_node, kind);
    FIELD(firthnapkin_node, descendants);
    FIELD(firthnapkin_node, start);
    FIELD(firthnapkin_node, end);
    FIELD(firthnapkin_node, name_start);
    FIELD(firthnapkin_node, name_end);
    FIELD(firthnapkin_node, value);
    FIELD(firthnapkin_node, value_length);
    SIZE(firthnapkin_node);
    FIELD(firthnapkin_token, kind);
    FIELD(firthnapkin_token, quotes);
    FIELD(firthnapkin_token, start);
    FIELD(firthnapkin_token, end);
    SIZE(firthnapkin_token);
    FIELD(firthnapkin_complexity, definition);
    FIELD(firthnapkin_complexity, fields);
    FIELD(firthnapkin_complexity, aliases);
    FIELD(firthnapkin_complexity, directives);
    FIELD(firthnapkin_complexity, root_fields);
    FIELD(firthnapkin_complexity, depth);
    SIZE(firthnapkin_complexity);
    FIELD(firthnapkin_error, kind);
    FIELD(firthnapkin_error, detail);
    FIELD(firthnapkin_error, character);
    FIELD(firthnapkin_error, start);
    FIELD(firthnapkin_error, end);
    FIELD(firthnapkin_error, text_start);
    FIELD(firthnapkin_error, text_end);
    SIZE(firthnapkin_error);
    FIELD(firthnapkin_limits, depth);
    FIELD(firthnapkin_limits, tokens);
    FIELD(firthnapkin_limits, reserved);
    SIZE(firthnapkin_limits);
    return 0;
}
