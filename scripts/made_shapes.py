"""Makes the shapes that scripts/shapes measures calls on: each is a small part, put into itself or repeated as often as is wanted.

A family is a product of a few choices, and each of its members has a name and a function of a number, which returns a text. No
shape is listed by hand, so one that nobody has thought of is there, too, if its choices are.
"""

from itertools import product

# What stands beside a part that is put into itself: nothing, a part of the same name, or one of another; before it or after it.
BESIDE = [(None, None), *product(("equal", "distinct"), ("first", "last"))]


def named(*words):
    return ", ".join(word for word in words if word)


def numbered(part, i):
    """A part, in which a `№` is its number."""
    return part.replace("№", str(i))


def chain(opening, inner, closing):
    """A part in itself, so often."""
    return (
        lambda n: "".join(numbered(opening, i) for i in range(n))
        + inner
        + "".join(numbered(closing, i) for i in reversed(range(n)))
    )


def repeated(before, part, after):
    """A part over and over, between two others."""
    return lambda n: before + "".join(numbered(part, i) for i in range(n)) + after


# ---- values


def values(inner):
    """Values in values, with this innermost one."""
    found = {}
    for (keys, place), is_listed, beside in product(BESIDE, (False, True), ("1", "[1 1]", '{m: "x"}')):
        if keys is None and beside != "1":
            continue
        other = f"{'k' if keys == 'equal' else 'l'}: {beside} " if keys else ""
        opening, closing = ("[", "]") if is_listed else ("", "")
        before, after = (other, "") if place == "last" else ("", f" {other}")
        found[named("objects", keys and f"{keys} keys", place, is_listed and "with a list", keys and f"beside {beside}")] = chain(
            f"{{{before}k: {opening}", inner, f"{closing}{after}}}"
        )
        if keys != "equal":
            before, after = (f"{beside} ", "") if place == "last" else ("", f" {beside}" if keys else "")
            found[named("lists", place, is_listed and "with a list", keys and f"beside {beside}")] = chain(
                f"[{before}{opening}", inner, f"{closing}{after}]"
            )
    return found


# What a value is part of.
HOLDERS = {
    "an argument": ("$v", "{{a(b: {})}}"),
    "a directive's argument": ("$v", "{{a @d(b: {})}}"),
    "a default value": ("1", "query($v: T = {}) {{a}}"),
}


def values_of_documents():
    for holder, (inner, document) in HOLDERS.items():
        for name, value in values(inner).items():
            yield f"{holder}: {name}", lambda n, value=value, document=document: document.format(value(n))


# ---- selections, types, directives, variables and fragments


def selections():
    kinds = {"fields": "a", "aliases": "b: a", "inline fragments": "...", "inline fragments on T": "... on T"}
    for (kind, opening), (keys, place), more in product(kinds.items(), BESIDE, ("", "@d(x: $v)")):
        other = f"{opening}{{c}}" if keys == "equal" else "z"
        before, after = (f"{other} ", "") if place == "last" else ("", f" {other}" if keys else "")
        yield named(kind, keys, place, more), chain(f"{{{before}{opening} {more}", "{c}", f"{after}}}")


def types():
    for is_needed, (keys, place) in product((False, True), BESIDE):
        other = f"${'v' if keys == 'equal' else 'w'}: T " if keys else ""
        before, after = (other, "") if place == "last" else ("", f" {other}")
        mark = "!" if is_needed else ""
        yield named("types", is_needed and "that aren't null", keys, place), chain_between(
            f"query({before}$v: ", "[", "T", f"]{mark}", f"{after}) {{a}}"
        )


def chain_between(before, opening, inner, closing, after):
    made = chain(opening, inner, closing)
    return lambda n: before + made(n) + after


def directives():
    holders = {
        "an operation": ("query Q ", " {a}"),
        "a variable": ("query($v: T ", ") {a}"),
        "a field": ("{a ", "}"),
        "a spread": ("{...F ", "} fragment F on T {a}"),
        "an inline fragment": ("{... ", "{a}}"),
        "a fragment": ("{...F} fragment F on T ", " {a}"),
    }
    for (holder, (before, after)), number, more in product(holders.items(), ("", "№"), ("", "(x: 1)", "(x: [1] x: 2)")):
        yield named(f"directives of {holder}", number and "distinct", more), repeated(before, f"@d{number}{more} ", after)


def parts():
    """Parts beside each other: variables, arguments, fields, aliases, spreads, fragments, operations."""
    found = {
        "variables": ("query(", "$v{}: T ", ") {{a}}"),
        "variables with more": ("query(", "$v{}: [T!] = [1] @d ", ") {{a}}"),
        "arguments": ("{{a(", "b{}: 1 ", ")}}"),
        "arguments of lists": ("{{a(", "b{}: [1 $v] ", ")}}"),
        "keys": ("{{a(b: {{", "k{}: 1 ", "}})}}"),
        "fields": ("{{", "a{} ", "}}"),
        "fields with more": ("{{", "b{}: a(x: 1) @d {{c}} ", "}}"),
        "aliases": ("{{", "b{}: a ", "}}"),
        "spreads": ("{{", "...F ", "}} fragment F on T {{a}}"),
        "inline fragments": ("{{", "... on T{} {{a}} ", "}}"),
        "fragments": ("{{a}} ", "fragment F{} on T {{a}} ", ""),
        "operations": ("", "query Q{} {{a}} ", ""),
        "operations of a fragment": ("fragment F on T {{a}} ", "query Q{} {{...F}} ", ""),
        "strings": ("{{a(b: [", '"\\n é 𝄞" ', "])}}"),
        "lines": ("{{", "a{}\n", "}}"),
        "characters of two units": ('{{a(b: "', "𝄞", '")}}'),
    }
    for (kind, texts), number in product(found.items(), ("", "№")):
        if number == "" or "{}" in texts[1]:
            yield named(f"{kind} in a row", number and "distinct"), repeated(*(text.format(number) for text in texts))


def fragments():
    """Fragments that spread the next one, once or twice, or another one beside it."""
    inside = {"": "{}", "in a field": "a{{{}}}", "in an inline fragment": "...{{{}}}"}
    for (keys, place), (where, form), is_forward in product(BESIDE, inside.items(), (True, False)):
        yield named("fragments", keys and f"{keys} spreads", place, where, not is_forward and "backwards"), fragment_chain(
            keys, place, form, is_forward
        )


def fragment_chain(keys, place, form, is_forward):
    def text(n):
        made = []
        for i in range(n):
            next_one, other = form.format(f"...F{i + 1:06}"), f"...F{i + 1 if keys == 'equal' else n:06}"
            spreads = [next_one, *([other] if keys else [])]
            made.append(f"fragment F{i:06} on T {{{' '.join(spreads if place == 'first' else reversed(spreads))}}} ")
        made.append(f"fragment F{n:06} on T {{a}} ")
        return "{...F000000} " + "".join(made if is_forward else reversed(made))

    return text


# Shapes by their names. Those of the first are as deep as their number, those of the second as long.
DEEP = {**dict(values_of_documents()), **dict(selections()), **dict(types())}
LONG = {**dict(directives()), **dict(parts()), **dict(fragments())}
# What names of shapes have that are not needed where each part is asked for everything: what differs is in the library alone.
MORE = (
    "beside [", "beside {", "a directive's argument:", "a default value: objects,", "a default value: lists,", "@d(x", "that aren't null",
    "(x: [1]", "backwards",
)  # fmt: skip
# Shapes of which one part is asked for something as large as all of it: they are larger where each part is asked for everything.
LARGER = (
    "an argument: objects", "an argument: lists", "a default value: lists", "keys in a row, distinct", "strings in a row",
    "arguments in a row, distinct",
)  # fmt: skip
VALUES = values("1")
VALUES_OF_VARIABLES = values("$v")
