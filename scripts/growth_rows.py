"""What scripts/growth calls: the texts and the values, by their size in bytes, and the calls on them."""

# How many times as much an input of twice the size may take.
LINEAR = 2.3
SQUARE = 4.6

# ---- texts of about n bytes


def times(n, part):
    """A part over and over. A `№` in it is replaced by its number."""
    count = max(1, n // len(part.encode()))
    return part * count if "№" not in part else "".join(part.replace("№", f"{i:06}") for i in range(count))


def repeated(before, part, after=""):
    """The texts, by their size, of a part over and over between two others."""
    return lambda n: before + times(n, part) + after


def nested(n, opening, inner, closing, depth=198):
    return times(n, opening * depth + inner + closing * depth + " ")


TEXTS = {
    "fields": repeated("{", "a ", "}"),
    "fields in fields": lambda n: "{" + nested(n, "a{", "a", "}") + "}",
    "inline fragments in each other": lambda n: "{" + nested(n, "...{", "a", "}") + "}",
    "definitions": repeated("", "query Q {a} "),
    "fragments": repeated("", "fragment F№ on T {...F№} "),
    "a long name": repeated("{", "a", "}"),
    "long names": repeated("{", "a" * 500 + " ", "}"),
    "a long string": repeated('{a(b:"', "x", '")}'),
    "strings": repeated("{a(b:[", '"x y" ', "])}"),
    "escapes": repeated('{a(b:"', r"\u00e9\n", '")}'),
    "strings of escapes": repeated("{a(b:[", r'"\\" ', "])}"),
    "a block string of many lines": repeated('{a(b:"""', "\n  line", '""")}'),
    "a block string of empty lines": repeated('{a(b:"""a', "\n", 'b""")}'),
    "a block string, deep indents": repeated('{a(b:"""', "\n" + " " * 500 + "a", '""")}'),
    "a block string, one deep indent": repeated('{a(b:"""\n', " ", 'a""")}'),
    "a block string of carriage returns": repeated('{a(b:"""', "\r\na", '""")}'),
    "a block string of quotes": repeated('{a(b:"""', '\\"""', '""")}'),
    "block strings": repeated("{a(b:[", '"""x""" ', "])}"),
    "a long comment": repeated("#", "c", "\n{a}"),
    "comments": repeated("{a", "#\n", "}"),
    "spaces": repeated("{a", " ", "}"),
    "line feeds": repeated("{a", "\n", "}"),
    "byte order marks": repeated("{a", "\ufeff", "}"),
    "commas": repeated("{a", ",\r\n\t", "}"),
    "variables": repeated("query(", "$v№: T = 1 ", "){a}"),
    "types in types": lambda n: "query(" + nested(n, "$a:" + "[" * 197, "T", "]" * 197 + "!", 1) + "){a}",
    "arguments": repeated("{a(", "b№: 1 ", ")}"),
    "a list": repeated("{a(b:[", "1 ", "])}"),
    "lists in lists": lambda n: "{a(b:[" + nested(n, "[", "", "]", 190) + "])}",
    "an object of many fields": repeated("{a(b:{", "k№: E ", "})}"),
    "objects in objects": lambda n: "{a(b:[" + nested(n, "{k:", "1", "}", 190) + "])}",
    "directives": repeated("{a ", "@d(x: $v) ", "}"),
    "aliases": repeated("{", "a: b ", "}"),
    "spreads": repeated("{", "...F ", "}"),
    "a long Int": repeated("{a(b:", "1", ")}"),
    "a long Float": repeated("{a(b:1.", "1", ")}"),
    "a long exponent": repeated("{a(b:1e", "1", ")}"),
    "text past ASCII": lambda n: "#" + times(n, "мир, ") + '\n{a(b:"' + times(n, "𝄞é") + '")}',
    "tokens past text past ASCII": repeated("#é\n{", "a(b:1)\n", "}"),
    "a fault at the end": repeated("{", "a ", ")"),
    "an end that comes too soon": repeated("{", "a "),
    "a lexical fault at the end": repeated("{", "a ", "?"),
    "a string without an end": repeated('{a(b:"', "x"),
    "a block string without an end": repeated('{a(b:"""', "x"),
    "an unknown escape, at the end": repeated('{a(b:"', "x", r'\q")}'),
    "a long token that is refused": repeated('{ "', "x\\\\", '" }'),
    "too deep at the end": repeated("{", "a ", "a{" * 201),
    "brackets without an end": repeated("", "{a"),
    "lists without an end": repeated("{a(b:", "["),
    "keys without an end": repeated("{a(b:", "{k:"),
}

# The texts that each program reads in a bounded run. C's call reads all of them.
SOME = {
    "fields",
    "fields in fields",
    "definitions",
    "types in types",
    "a long string",
    "an object of many fields",
    "a fault at the end",
}

# A value in a value, and so on, deeper for a larger size. The second has two fields of one key on each level.
CHAIN = lambda n: "{k:" * (n // 200) + "1" + "}" * (n // 200)
DOUBLED = lambda n: "{k:1 k:" * (n // 200) + "1" + "}" * (n // 200)
# The same with a list on each level, a hundred levels deep in ten thousand bytes. The shorter list comes first.
LISTED = lambda n: "{k:[1 1 1] k:[1 " * (n // 100) + "1" + "]}" * (n // 100)
LISTS = lambda part: repeated("[", part, "]")
OBJECT = lambda part: repeated("{", part, "}")
WORDS = lambda part: repeated("", part)
TOKEN = lambda kind, part: repeated(kind + " ", part)


def chain(n, part, last):
    """Fragments of some n bytes, each of which spreads the next one as the part says."""
    count = max(1, n // len(part("000000", "000000")))
    return "".join(part(f"{i:06}", f"{i + 1:06}") for i in range(count)) + f"fragment F{count:06} on T {{a {last}}}"


CHAINED = lambda last: lambda n: "{...F000000}" + chain(n, lambda i, next: f"fragment F{i} on T {{a{{...F{next}}}}}", last)
DOUBLINGS = lambda n: "{...F000000}" + chain(n, lambda i, next: f"fragment F{i} on T {{a ...F{next} ...F{next}}}", "")
OPERATIONS = lambda n: times(n // 2, "query Q№ {...F000000} ") + chain(
    n // 2, lambda i, next: f"fragment F{i} on T {{...F{next}}}", ""
)
# With nine definitions more, since up to eight are looked through, and the names of more are in a map.
LONG_NAMES = (
    lambda n: "{"
    + times(n // 2, "..." + "F" * 1000 + "№" + " " * 19)
    + "}"
    + times(n // 2, "fragment " + "F" * 1000 + "№ on T {a} ")
    + "fragment A on T {a} " * 9
)
FEW_LONG_NAMES = (
    lambda n: "{"
    + times(n, "..." + "F" * 1000 + "7 ")
    + "}"
    + "".join("fragment " + "F" * 1000 + f"{i} on T {{a}} " for i in range(1, 8))
)

# The calls of `run_calls calls`: the kind, the call if the kind has any, its input, and how many times as much twice the
# size may take. `unlocated_eq` compares the value with itself.
VALUES = [
    (call, name, text, LINEAR)
    for call in ("try_clone", "convert", "list", "object", "into_const {a: 1}", "referenced_variables")
    for name, text in (
        ("scalars", LISTS("1 ")),
        ("texts", LISTS('"x" ')),
        ("objects in objects", lambda n: "[" + nested(n, "{k:", "1", "}", 100) + "]"),
        ("variables", LISTS("$a ")),
        ("distinct keys", OBJECT("k№: $a ")),
    )
] + [
    ("to_list_value", "scalars", LISTS("1 "), LINEAR),
    ("to_object_value", "distinct keys", OBJECT("k№: 1 "), LINEAR),
    ("to_object_value", "one key", OBJECT("k: 1 "), LINEAR),
    ("unlocated_eq", "scalars", LISTS("1 "), LINEAR),
    ("unlocated_eq", "texts", LISTS('"x" '), LINEAR),
    ("unlocated_eq", "distinct keys", OBJECT("k№: 1 "), SQUARE),
    ("unlocated_eq", "a chain of objects", CHAIN, LINEAR),
    ("unlocated_eq", "a chain of doubled keys", DOUBLED, SQUARE),
    ("unlocated_eq", "lists under doubled keys", LISTED, SQUARE),
]
CALLS = [(("input_value", call), name, text, most) for call, name, text, most in VALUES] + [
    (("arguments", "get v"), "objects in a list", repeated("{v: [", "{k: [1]} ", "]}"), LINEAR),
    (("pushed",), "definitions", TEXTS["definitions"], LINEAR),
    (("complexities",), "fields", TEXTS["fields"], LINEAR),
    (("complexities",), "fields in fields", TEXTS["fields in fields"], LINEAR),
    (("complexities",), "a chain of fragments", CHAINED(""), LINEAR),
    (("complexities",), "a cycle of fragments", CHAINED("...F000000"), LINEAR),
    (("complexities",), "fragments that are spread twice", DOUBLINGS, LINEAR),
    (("complexities",), "operations over a chain", OPERATIONS, LINEAR),
    (("complexities",), "long names with one beginning", LONG_NAMES, LINEAR),
    (("complexities",), "seven long names with one beginning", FEW_LONG_NAMES, LINEAR),
    (("requests", "fragment F000000"), "fragments", TEXTS["fragments"], LINEAR),
    (("requests", "fragment F"), "long names with one beginning", LONG_NAMES, LINEAR),
    (("requests", "operation_named Q"), "definitions", TEXTS["definitions"], LINEAR),
    (("requests", "variable w"), "variables", TEXTS["variables"], LINEAR),
    (("requests", "with_defaults $v000000 with {}"), "variables", TEXTS["variables"], LINEAR),
    (("arguments", "variable_uses v"), "variables", repeated("{v: [", "$a ", "]}"), LINEAR),
    (("cursor", "rest"), "punctuators", LISTS("a "), LINEAR),
    (("cursor", "delimited_list [ ]"), "names", LISTS("a "), LINEAR),
    (("cursor", "delimited_nonempty_list [ ]"), "names", LISTS("a "), LINEAR),
    (("cursor", "unlocated_delimited_nonempty_list [ ]"), "names", LISTS("a "), LINEAR),
    (("cursor", "parse_value_literal"), "a list", LISTS("1 "), LINEAR),
    (("cursor", "parse_value_literal"), "an object", OBJECT("k№: 1 "), LINEAR),
    (("value_source",), "a list", repeated("9 9999999 [", "1 ", "]"), LINEAR),
    (("value_source",), "an object", repeated("9 9999999 {", "k№: 1 ", "}"), LINEAR),
    (("value_source",), "tokens after a value", repeated("9 9999999 1 ", "1 "), LINEAR),
    (("type_source",), "a long name", repeated("9 9999999 ", "a"), LINEAR),
    (("line_table",), "line feeds", WORDS("a\n"), LINEAR),
    (("line_table",), "text past ASCII", WORDS("é\n"), LINEAR),
    # The byte of each character: by `byte_offset`, which is linear, and by a `ByteTable`, whose look-up is linear in the line.
    (("bytes",), "lines", lambda n: times(n // 10, "é a\n"), SQUARE),
    (("byte_table",), "lines", lambda n: times(n // 10, "é a\n"), LINEAR),
    (("name", "unexpected_token"), "a name", WORDS("a"), LINEAR),
    (("name", "new"), "a long name", WORDS("a"), LINEAR),
    (("scalar", "from_str"), "escapes", TOKEN("String", r"\u00e9\n"), LINEAR),
    (("scalar", "from_str"), "lines", TOKEN("BlockString", "\n  line"), LINEAR),
    (("scalar", "from_str"), "digits", TOKEN("Int", "1"), LINEAR),
    (("odd_scalar", "from_str"), "digits of Literal", TOKEN("Literal Int", "1"), LINEAR),
    (("odd_scalar", "from_str"), "a fraction of Literal", repeated("Literal Float 1.", "1"), LINEAR),
    (("odd_scalar", "from_str"), "a fraction of Thousandths", repeated("Thousandths Float ", "1", ".5"), LINEAR),
    (("odd_scalar", "try_clone"), "escapes of Literal", TOKEN("Literal String", r"\u00e9\n"), LINEAR),
    (("object", "from_iter"), "distinct keys", OBJECT('k№: ["k" null] '), LINEAR),
    (("object", "from_iter"), "one key", OBJECT('k: ["k" null] '), LINEAR),
    (("answer", "try_clone"), "distinct keys", OBJECT('k№: ["k" null] '), LINEAR),
    (("answer", "map_scalar_value"), "distinct keys", OBJECT('k№: ["k" null] '), LINEAR),
    (("answer", "to_input_value"), "distinct keys", OBJECT('k№: ["k" null] '), LINEAR),
    (("parse", "into"), "definitions", TEXTS["definitions"], LINEAR),
    (("parse", "200"), "definitions", TEXTS["definitions"], LINEAR),
]

# The calls from C on sources that are one value or one type, or begin with one.
LITERALS = [
    ("value", "a list alone", LISTS("1 ")),
    ("value", "an object alone", OBJECT("k№: E ")),
    ("value", "objects in objects alone", lambda n: "[" + nested(n, "{k:", "1", "}", 190) + "]"),
    ("value", "escapes alone", repeated('"', r"\u00e9\n", '"')),
    ("value", "a block string of many lines alone", repeated('"""', "\n  line", '"""')),
    ("value", "strings past ASCII alone", LISTS('"мир" ')),
    ("value", "a list without an end", repeated("[", "1 ")),
    ("value", "tokens after a value", WORDS("1 ")),
    ("type", "a long name alone", WORDS("a")),
    ("type", "a long name in brackets", lambda n: "[" * 190 + times(n, "a") + "!]" * 190),
    ("type", "comments past ASCII in a type", repeated("[", "#é\n", "T]")),
    ("type", "tokens after a type", WORDS("T ")),
]

# The inputs of which it is measured how many bytes each call requests. Lists and selection sets have two and seven parts, since
# short ones have capacity at once by their length.
REQUESTING = {
    "lists of two": repeated("{a(b:[", "[1 1] ", "])}"),
    "lists of seven": repeated("{a(b:[", "[1 1 1 1 1 1 1] ", "])}"),
    "sets of two": repeated("{", "a{b c} ", "}"),
    "sets of seven": repeated("{", "a{b c d e f g h} ", "}"),
    "objects of two fields": repeated("{a(b:[", "{k: 1 l: 1} ", "])}"),
    **{
        name: TEXTS[name]
        for name in (
            "an object of many fields",
            "a block string of many lines",
            "a block string of quotes",
            "line feeds",
            "definitions",
        )
    },
    **{
        name: TEXTS[name]
        for name in ("a long name", "escapes", "text past ASCII", "a fault at the end", "a lexical fault at the end")
    },
}

# The sizes at which it is measured how the requested bytes grow: each number of a few parts, and then each power of two.
SWEPT_SIZES = [*range(2, 16, 2), *(2**power + half for power in range(4, 9) for half in (0, 2 ** (power - 1)))]
SWEPT_SIZES += [2**power for power in range(9, 21)]
# What is read at each size: by gqlcheck, which builds trees, and by each call from C and gqlcanon.
SWEPT_IN_TREES = (
    "fields",
    "fragments",
    "definitions",
    "variables",
    "arguments",
    "a list",
    "an object of many fields",
    "directives",
)
SWEPT_ELSEWHERE = ("fields", "definitions", "text past ASCII", "a fault at the end")
# How many times as many bytes may be requested for a larger input, beyond how much larger it is, and for a smaller one than for it.
STEP, FALL = 1.6, 1.3


def jumps(sizes, requested, slack, step=STEP):
    """Where more bytes are requested than the next smaller or the next larger size says: growth is linear, from so many bytes on."""
    found = []
    for m, n, before, after in zip(sizes, sizes[1:], requested, requested[1:]):
        if after > step * before * n / m + slack or before > FALL * after + slack:
            found.append(f"{before} bytes for {m}, {after} for {n}")
    return "; ".join(found)


# The texts on which the system calls of each program are counted: one is long when read, the other when written, too.
SPREAD = ("spaces", "fields")

# Of calls on texts of 1.2 MB: the least and the most bytes that they may hold for each byte of the text. A call that builds the
# whole tree holds more than is allowed to one that passes on each definition. The library for C holds four bytes for each byte of
# a text past ASCII, a canonical text, an error's words and what it notes of each operation, and else nothing but what the program
# that calls it writes its lines with.
HELD = [
    (["run_calls", "calls", "parse", "into"], "definitions", 0, 0.01),
    (["run_calls", "calls", "parse", "200"], "definitions", 60, 80),
    (["c", "parse"], "definitions", 0, 0.01),
    (["c", "parse"], "fields in fields", 0, 0.01),
    (["c", "parse"], "types in types", 0, 0.01),
    (["c", "parse"], "strings", 0, 0.01),
    (["c", "parse"], "a long string", 0, 0.01),
    (["c", "parse"], "escapes", 0, 0.01),
    (["c", "parse"], "a block string of many lines", 0, 0.01),
    (["c", "parse"], "text past ASCII", 4, 4.01),
    (["c", "parse"], "tokens past text past ASCII", 4, 4.01),
    (["c", "parse"], "a fault at the end", 0, 0.01),
    (["c", "parse"], "brackets without an end", 0, 0.01),
    (["c", "complexities"], "definitions", 4, 10.51),
    (["c", "complexities"], "fields", 0, 0.01),
    (["c", "value"], "an object alone", 0, 0.01),
    (["c", "value"], "escapes alone", 0, 0.01),
    (["c", "value"], "strings past ASCII alone", 4, 4.01),
    (["c", "type"], "a long name in brackets", 0, 0.01),
    (["c", "tokens"], "definitions", 0, 0.01),
    (["c", "tokens"], "text past ASCII", 4, 4.01),
    (["c", "count"], "definitions", 0, 0.01),
    (["c", "count"], "text past ASCII", 0, 0.01),
    (["c", "canonical"], "definitions", 1, 1.01),
    (["c", "message"], "definitions", 3, 3.01),
]
