"""What scripts/definitions compares of sentences: a number in prose that a contract, a definition, the header or a test has, too. Each of
these sentences stands in the documents that its row names and in no other. A sentence with such words is in a row, and so is each number
from 1,000 on, unless it was measured."""

import re
from pathlib import Path

ROOT = Path(__file__).resolve().parent.parent

# For each value the file and the words that have it.
VALUES = {
    "default": ("crates/juniper_documents/src/document/limited.rt", r"DEFAULT_DEPTH: usize = (\d+)"),
    "deepest": ("crates/firthnapkin_results/src/limits.rt", r"MAX_DEPTH: u32 = (\d+)"),
    "stack": ("include/firthnapkin.h", r"STACK_SIZE\(depth\) \(\(size_t\)(\d+)"),
    "level": ("include/firthnapkin.h", r"\(size_t\)(\d+) \* \(depth\)"),
    "node": ("tests/check_header.py", r'"the size of a node", .*, (\d+)\)'),
    "token": ("tests/check_header.py", r'"the size of a token", .*, (\d+)\)'),
    "complexity": ("tests/check_header.py", r'"the size of a complexity", .*, (\d+)\)'),
    "bits": ("crates/firthnapkin_calls/src/count.rt", r"too_long \{ result ≡ SOURCE_TOO_LONG ↔ 2 \^ (\d+) ≤ length source.now"),
    "nodes": (
        "crates/firthnapkin_calls/src/parse.rt",
        r"bounds \{ \(nodes_length\.new ≤ (length) source\.now\) × \(texts_length\.new ≤ length",
    ),
    "complexities": ("crates/firthnapkin_calls/src/parse_complexities.rt", r"\(complexities_length\.new ≤ (length) source\.now\)"),
    "tokens": ("crates/firthnapkin_calls/src/tokens.rt", r"tokens_length\.new ≤ length source\.now \+ (\d+)"),
    "canonical": ("crates/firthnapkin_calls/src/canonical.rt", r"buffer_length\.new ≤ (\d+) \* length source\.now"),
    "long": ("crates/firthnapkin_results/specs/Excerpts.antt", r"is_long line = nat_lt (\d+) "),
    "shown": ("crates/firthnapkin_results/specs/Excerpts.antt", r"then take (\d+) "),
    "before": ("crates/firthnapkin_results/specs/Excerpts.antt", r"then column - (\d+) "),
    "people": ("crates/firthnapkin_results/specs/Excerpts.antt", r"number = at\.line \+ (\d+);"),
    "programs": ("docs/man/gqlcheck.1", r" At (\d):"),
    "made": ("tests/corpus.py", r"MADE = (\d+)"),
    "many": ("tests/corpus.py", r"MANY = ([\d_]+)"),
    "chain": ("tests/complexities.py", r"chain\(([\d_]+)\)"),
    "operations": ("tests/check_complexities.py", r"in made\((\d+)\)"),
    "digits": ("bindings/node/lib/values.js", r"MOST_DIGITS = (\d+)"),
    "kept": ("bindings/kept.h", r"KEPT_SOURCE = 1 << (\d+)"),
    "kept nodes": ("bindings/kept.h", r"KEPT_NODES = 1 << (\d+)"),
    "first part": ("scripts/version", r"= (\d+) \* first"),
    "of a test": ("tests/check_library", r"ulimit -s (\d+)"),
    "of a name": ("crates/juniper_tree/src/items.rt", r"option_copied result ≡ (first)_named name\.now"),
}

# For each number of things the file, and the words of each.
COUNTED = {
    "ways": ("tests/c/stack.c", r"^    (?:SAME\(|\{\")"),
    "kinds": ("crates/graphql_lexical/src/kind.rt", r"^    [A-Z]\w+,$"),
}

# A sentence, with # for each number; the values that it has; and the documents.
SENTENCES = [
    ("rackets (?:may be |to be )?nested # deep", ["default"], "header gqlcheck.1 go rust"),
    ("a depth of # and any number of tokens", ["default"], "FROM_C GUIDE firthnapkin.3"),
    ("limited: to # levels by default, # at most", ["default", "deepest"], "README"),
    ("limit of # runs within|has a limit of #\\.", ["default"], "ASSURANCE"),
    ("nested deeper than # brackets", ["default"], "SPECIFICATION"),
    (r"depth ?= ?#, max|`depth` \(#\), `max", ["default"], "node python"),
    (r"\(d\)` bytes, whatever the source, which is # KiB for #", ["KiB", "default"], "FROM_C"),
    ("depth (?:is )?above #", ["deepest"], "DECISIONS"),
    ("depth is at most #, since|of which there are at most #\\.|depth, from 0 to #,", ["deepest"], "FROM_C go rust"),
    ("Values nested # deep", ["deepest"], "node python rust"),
    (r"MAX_DEPTH` \(#\)", ["deepest"], "node python"),
    ("twice as much: # a level, and #\\.", ["level", "stack"], "MEASUREMENTS"),
    ("where a level takes at most #\\.", ["half"], "header"),
    ("A node takes # bytes|children, and take # bytes each|its nodes: at most # bytes for each", ["node"], "header FROM_C go node"),
    ("Document`: # for each node", ["node"], "rust"),
    ("at most # bytes for each node, at most # for each operation", ["node", "complexity"], "types"),
    ("A token takes # bytes|tokens, # bytes each|`Tokens`: # per token", ["token"], "header FROM_C python"),
    ("asked for: # for each operation|their complexity: at most # bytes for each", ["complexity"], "node rust"),
    ("# GiB or more", ["GiB"], "ASSURANCE SPECIFICATION firthnapkin.3 header python"),
    ("integers up to #|0 to #, or `None`", ["most"], "node python"),
    ("aturate at #\\.", ["largest"], "go node python rust types"),
    ("Buffers of `#` nodes and `#` bytes always suffice", ["nodes", "nodes"], "header"),
    ("An array of `#` complexities always suffices", ["complexities"], "header"),
    ("Buffers as # as the source always suffice", ["nodes"], "ASSURANCE firthnapkin.3"),
    ("nodes and texts \\| `#` each", ["nodes"], "FROM_C"),
    ("array of (?:length \\+ |n \\+ )?#(?: tokens| token more than the source has bytes) always suffices", ["tokens"],
     "DECISIONS firthnapkin.3 header"),
    ("tokens, \\d+ bytes each \\| `length \\+ #`", ["tokens"], "FROM_C"),
    ("A buffer (?:of )?#(?: \\* length bytes| as long as the source) always suffices", ["canonical"], "firthnapkin.3 header"),
    ("canonical text \\| `# \\* length`", ["canonical"], "FROM_C"),
    ("more than # characters (?:the )?#", ["long", "shown"], "SPECIFICATION firthnapkin.3 header"),
    ("from # before the (?:error's )?column", ["before"], "SPECIFICATION header"),
    ("[Nn]umbered from #", ["people"], "firthnapkin.3 header types"),
    ("(?i:`line` and `column`), both counted from #|olumns? for people count from #", ["people"], "go node rust"),
    ("(?:starts?|units), (?:both )?(?:counted )?from #", ["people"], "python types"),
    ("its line and column, both counted from #|bytes of UTF-8. So each is counted from #", ["programs"], "gqlcanon.1 gqlcheck.1 types"),
    ("# made texts, and documents behind # nodes or lines", ["texts", "many"], "ASSURANCE"),
    ("chains of #, and # made documents", ["chain", "operations"], "ASSURANCE"),
    (r"(?:limit of |more than |accepts \()# (?:digits|by default)", ["digits"], "DECISIONS node python types"),
    ("to # (?:source )?bytes and # nodes", ["kept bytes", "kept nodes"], "DECISIONS node"),
    ("first part times #, the second", ["first part"], "header"),
    ("at most # deep\\.", ["deepest"], "go"),
    ("may take # KiB, and", ["KiB"], "DECISIONS"),
    ("with # KiB of stack|runs within # KiB", ["of a test"], "ASSURANCE"),
    ("in the # ways of nesting", ["ways"], "ASSURANCE"),
    ("not for each of the # kinds", ["kinds"], "DECISIONS"),
    ("(?:return|find) the # of a name", ["of a name"], "ASSURANCE go node rust"),
]  # fmt: skip
# Words of such sentences: they stand in a sentence of the table alone.
MARKS = re.compile(
    r"always suffices?\b|rackets [^.]{0,12}nested [\d,]+|a depth of \d+ and|GiB or more|counted from \d|MAX_DEPTH` \(\d"
)
# A number of four digits or more, and what is said of it if it was measured. Some documents have what is measured or computed there.
LARGE = re.compile(r"(?<![\w.,/#-])\d{1,3}(?:,\d{3})+(?!\w)")
MEASURED = re.compile(r"[^.]*microseconds(?:[^.]|\.(?! ))*")
OF_ITS_OWN = ("MEASUREMENTS", "COSTS", "CONTRIBUTING")
WORDS = {"one": "1", "twice": "2", "long": "length"}
NAMED = {"include/firthnapkin.h": "header", "bindings/node/index.d.ts": "types"}


def documents():
    """The documents: for each short name the text, without what begins a comment's or a man page's lines, and its lines joined."""
    for path in [
        *ROOT.glob("*.md"),
        *ROOT.glob("docs/*.md"),
        *ROOT.glob("docs/man/*"),
        *ROOT.glob("bindings/*/README.md"),
        *map(ROOT.joinpath, NAMED),
    ]:
        name = NAMED.get(
            str(path.relative_to(ROOT)),
            path.parent.name if path.parent.parent.name == "bindings" else path.name.removesuffix(".md"),
        )
        if name != "CHANGELOG":
            yield name, " ".join(re.sub(r"^ *(?:/?\*+/?|//+|\.[A-Z]+) ", "", path.read_text(encoding="utf-8"), flags=re.M).split())


def values():
    """The values, each as it is written, and those that follow from them."""
    files = {file: (ROOT / file).read_text(encoding="utf-8") for file, _ in [*VALUES.values(), *COUNTED.values()]}
    found = {name: (re.search(words, files[file]) or [""] * 2)[1].replace("_", "") for name, (file, words) in VALUES.items()}
    found |= {name: str(len(re.findall(words, files[file], re.M))) for name, (file, words) in COUNTED.items()}
    numbers = (int(found[name] or 0) for name in ("stack", "level", "default", "bits", "made", "kept", "kept nodes"))
    stack, level, default, bits, made, kept, kept_nodes = numbers
    # A source that is kept has the word of its length before it, and is shorter than the room for it.
    found |= {"texts": str(2 * made), "kept bytes": str(2**kept - 5), "kept nodes": str(2**kept_nodes)}
    return {**found, "KiB": str((stack + level * default) // 1024), "half": str(level // 2), "GiB": str(2**bits >> 30),
            "most": str(2**bits - 2), "largest": str(2**bits - 1)}  # fmt: skip


def compared():
    """For each value, each row and each document whether it holds, and what is said if it doesn't."""
    texts, wanted = dict(documents()), values()
    for name, value in wanted.items():
        yield value, f"no file has the value of {name}"
    left = texts
    for sentence, names, places in SENTENCES:
        begun = re.compile(sentence.replace("#", r"(\d[\d,]*\d|\d|one|twice|long|length|first|last)"))
        found = {name: [it for found in begun.finditer(text) for it in found.groups() if it] for name, text in texts.items()}
        numbers = {name: [WORDS.get(it, it.replace(",", "")) for it in those] for name, those in found.items() if those}
        yield set(numbers) == set(places.split()), f"'{sentence}' is in {' '.join(sorted(numbers))}"
        for name, those in numbers.items():
            allowed = [wanted[it] for it in names]
            yield those == allowed * (len(those) // len(allowed)), f"{name}: '{sentence}' has {those}, not {allowed}"
        left = {name: begun.sub("", text) for name, text in left.items()}
    for name, text in left.items():
        found = MARKS.search(text) or (LARGE.search(MEASURED.sub("", text)) if name not in OF_ITS_OWN else None)
        yield not found, f"{name}: this is in no row of scripts/sentences.py: {found and found.string[max(0, found.start() - 60) : found.end() + 30]}"
