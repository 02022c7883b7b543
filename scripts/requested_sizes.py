"""What scripts/want-of-memory knows of the requests for memory of a size: how each is written, and what its size is made of."""

# What the size of a request is made of.
EACH = "one for each part of which it makes one"
ONE = "one more than there are"
BYTES = "at most one for each byte that it reads"
TOLD = "its caller says how many"
FIXED = "the same for each input"
GUESS = "what most inputs need; a list that is full requests more"

# file, function: each request for memory of a size, as `sizes` writes it, and what its size is made of.
SIZES = {
    ("juniper_parser/src/parser/lists.rt", "grow"): [
        ("items.reserve_exact(expected) | if items.is_empty() {", GUESS),
        ("items.reserve(1)", ONE),
    ],
    ("juniper_parser/src/parser/lists.rt", "expected_items"): [("if is_last { 1 } else { FEW } | const FEW: usize = 3;", GUESS)],
    ("juniper_parser/src/parser/selection.rt", "expected_selections"): [
        (
            "if next_is(tokens, Kind::CurlyClose) { 1 } else if tokens.expected() < MANY_TOKENS { 3 } else { 6 } | const MANY_TOKENS: usize = 128;",
            GUESS,
        )
    ],
    ("juniper_answers/src/copy.rt", "copy_items"): [("Vec::with_capacity(alloc, items.len())", EACH)],
    ("juniper_answers/src/copy.rt", "copy_object"): [("Object::with_capacity(alloc, object.field_count())", EACH)],
    ("juniper_answers/src/entries.rt", "with_capacity"): [
        ("IndexSet::with_capacity(alloc, size) | Ok(Entries {", TOLD),
        ("Vec::with_capacity(alloc, size) | Ok(Entries {", TOLD),
    ],
    ("juniper_answers/src/entries.rt", "append"): [("self.keys.reserve(1)", ONE)],
    ("juniper_answers/src/inputs.rt", "input_items"): [("Vec::with_capacity(alloc, items.len())", EACH)],
    ("juniper_answers/src/inputs.rt", "input_fields"): [("Vec::with_capacity(alloc, object.field_count())", EACH)],
    ("juniper_answers/src/map_scalars.rt", "map_items"): [("Vec::with_capacity(alloc, items.len())", EACH)],
    ("juniper_answers/src/map_scalars.rt", "map_object"): [("Object::with_capacity(alloc, object.field_count())", EACH)],
    ("juniper_answers/src/value.rt", "with_capacity"): [("Entries::with_capacity(alloc, size) | Ok(Object {", TOLD)],
    ("juniper_answers/src/value.rt", "from_iter"): [("Object::with_capacity(alloc, 0)", FIXED)],
    ("juniper_canonical/src/text.rt", "canonical_text"): [("String::with_capacity(alloc, source.len())", BYTES)],
    ("firthnapkin_results/src/byte_table.rt", "new"): [("Vec::with_capacity(alloc, source.len())", BYTES)],
    ("juniper_outlines/src/operations.rt", "first_states"): [("Vec::with_capacity(alloc, definitions.len())", EACH)],
    ("juniper_tokens/src/cursor.rt", "expected"): [
        ("if M::IS_STREAM { self.stream.expected() } else { self.records.expected(self.taken) }", GUESS)
    ],
    ("juniper_tokens/src/line_table.rt", "new"): [("list_with_capacity(alloc, text.len() / 8 + 1)", GUESS)],
    ("juniper_tokens/src/lists.rt", "list_with_capacity"): [("Vec::with_capacity(alloc, capacity)", TOLD)],
    ("juniper_tokens/src/parser.rt", "new_within"): [
        (
            "list_with_capacity(alloc, expected_ranges(source, most)) | let alloc = lexer.allocator(); | let source = lexer.source();",
            GUESS,
        )
    ],
    ("juniper_tokens/src/parser.rt", "expected_ranges"): [
        ("let expected = source.len() / 4 + 16; if most < expected { most + 1 } else { expected }", GUESS)
    ],
    ("juniper_tokens/src/records.rt", "expected"): [("self.ranges.len().saturating_sub(taken)", GUESS)],
    ("juniper_tokens/src/stream.rt", "expected"): [("self.lexer.bytes_left() / 4", GUESS)],
    ("juniper_values/src/block_string.rt", "block_value"): [("String::with_capacity(alloc, text.len())", BYTES)],
    ("juniper_values/src/escapes.rt", "unescape"): [("String::with_capacity(alloc, text.len())", BYTES)],
    ("juniper_values/src/input_value/copies.rt", "copy_items"): [("Vec::with_capacity(alloc, items.len())", EACH)],
    ("juniper_values/src/input_value/copies.rt", "copy_fields"): [("Vec::with_capacity(alloc, fields.len())", EACH)],
    ("juniper_values/src/input_value/make.rt", "list"): [("Vec::with_capacity(alloc, items.len())", EACH)],
    ("juniper_values/src/input_value/make.rt", "object"): [("Vec::with_capacity(alloc, fields.len())", EACH)],
    ("juniper_values/src/input_value/maps.rt", "fields_by_key"): [("IndexMap::with_capacity(alloc, fields.len())", EACH)],
    ("juniper_values/src/input_value/maps.rt", "items_alone"): [("Vec::with_capacity(alloc, items.len())", EACH)],
    ("juniper_values/src/input_value/resolve.rt", "constant_items"): [("Vec::with_capacity(alloc, items.len())", EACH)],
    ("juniper_values/src/input_value/resolve.rt", "constant_fields"): [("Vec::with_capacity(alloc, fields.len())", EACH)],
    ("juniper_values/src/type_literal.rt", "grown"): [("Vec::with_capacity(alloc, inner.len() + 1)", EACH)],
    ("test_harness/src/calls.rt", "tell_answers"): [
        ("String::with_capacity(rt.alloc(), ROOM) | const ROOM: usize = 65536;", FIXED)
    ],
    ("guide/src/executor.rt", "executed"): [("Object::with_capacity(alloc, operation.selection_set.len())", EACH)],
    ("guide/src/executor.rt", "constant_items"): [("Vec::with_capacity(alloc, items.len())", EACH)],
    ("guide/src/executor.rt", "constant_fields"): [("Object::with_capacity(alloc, fields.len())", EACH)],
    ("test_harness/src/kinds/answers.rt", "empty"): [
        ("Object::with_capacity( alloc, number.parse::<usize>().unwrap_or(0), )", TOLD)
    ],
}
