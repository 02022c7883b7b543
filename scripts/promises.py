"""What scripts/definitions compares of the header: what it says of a call, of a status, of a type, and of all calls. Each of these
sentences stands, word for word, in a comment directly above each clause of a call's contract that states it:

    // header: FIRTHNAPKIN_NOT_UTF8: the source is not UTF-8.
    ensures not_utf8 { result ≡ NOT_UTF8 → ¬ IsUtf8 source.now }

Where no clause states it alone, it stands in scripts/unstated_promises, with a test, a law or a definition, by words that its file has
once. Each clause has such a comment, and names what the comment's sentences name: statuses and parameters. The clause `statuses` has
those that the header names of the call. What tables.toml makes, and what is said of macros, scripts/tables, scripts/version and
scripts/sentences.py compare."""

import re
from pathlib import Path

ROOT = Path(__file__).resolve().parent.parent
ALL = "all"
# The contract of a call, and a clause of one with the comments above it.
CONTRACT = re.compile(r'^pub extern "C" fn firthnapkin_(\w+)(.*?)^\{', re.S | re.M)
CLAUSE = re.compile(r"((?:^    // .*\n)*)^    ensures (\w* ?)\{(.*(?:\n     .*)*)", re.M)
# A comment of the header that isn't of a macro, and the call that it is of, with its parameters.
COMMENT = re.compile(r"/\*((?:(?!\*/|tables\.toml:).)*)\*/(?!\n#define )(?:\nuint32_t firthnapkin_(\w+)\(([^)]*))?", re.S)


def one_line(text):
    return " ".join(text.split())


def sentences(comment):
    """The sentences of a comment of the header, without its pictures. A line of its table is one, and a few words are none."""
    for paragraph in re.split(r"\n \*\n(?: \* - )?|\n \* - |\n(?= \* +\d+\. )", comment):
        lines = [re.sub(r"^ *\* ?", "", line) for line in paragraph.strip().split("\n")]
        words = one_line(" ".join(line for line in lines if not line.startswith("    ")))
        found = re.split(r"(?<!^\d\.)(?<!^\d\d\.)(?<=\.) (?=[A-Z`])", words)
        yield from (it for it in found if re.search(r"[.:]$|^\d+\. ", it))


class Header:
    """What is said of each call, and of all or of none; each call's parameters; and each status with its number."""

    def __init__(self, text):
        statuses = text.partition("enum firthnapkin_status {")[2].partition("}")[0]
        rows = re.findall(r"^    FIRTHNAPKIN_(\w+) = (\d+),? +/\* (.*?) \*/$", statuses, re.M)
        self.statuses = {name: int(number) for name, number, _ in rows}
        self.said, self.parameters = {ALL: [f"FIRTHNAPKIN_{name}: {words}." for name, _, words in rows]}, {}
        for comment, call, those in COMMENT.findall(text):
            self.parameters[call or ALL] = re.findall(r"(\w+)(?:,|$)", those)
            self.said.setdefault(call or ALL, []).extend(sentences(comment))

    def named(self, text):
        return {it for it in re.findall(r"FIRTHNAPKIN_(\w+)", text) if it in self.statuses}

    def returned(self, call):
        """The numbers of the statuses that are named of a call, with those of a call whose statuses it is said to return."""
        text = " ".join(self.said.get(call, []))
        found = {self.statuses[it] for it in self.named(text)}
        return found.union(*(self.returned(it) for it in re.findall(r"statuses (?:are those )?of firthnapkin_(\w+)", text)))

    def needed(self, call, sentence):
        """What the clauses have to name that state a sentence."""
        names = {it for it in re.findall(r"`(\w+)`", sentence) if it in self.parameters.get(call, [])}
        return self.named(sentence) | {"source" if it == "length" else it.removesuffix("_capacity") for it in names}

    def quoted(self, call, words):
        """The sentences of which a comment above a clause of a call consists, each with what it is said of, which is None of no
        sentence of the header."""
        known = [(whose, it) for whose in (call, ALL) for it in self.said.get(whose, [])]
        while words:
            whose, sentence = max((it for it in known if words.startswith(it[1])), key=lambda it: len(it[1]), default=(None, words))
            yield whose, sentence
            words = words[len(sentence) :].strip()


def contracts():
    """Of each call the clauses: of each the name, the text, and the comments above it that quote the header."""
    for path in sorted((ROOT / "crates/firthnapkin_calls/src").glob("*.rt")):
        for call, head in CONTRACT.findall(path.read_text(encoding="utf-8")):
            found = []
            for above, name, text in CLAUSE.findall(head):
                comments = re.split(r"^    // header: ", above, flags=re.M)[1:]
                found.append((name.strip(), text, [one_line(re.sub(r"^    // ", "", it, flags=re.M)) for it in comments]))
            yield call, found


def definitions():
    """The definitions of firthnapkin_results, each by its name."""
    files = [path.read_text(encoding="utf-8") for path in (ROOT / "crates/firthnapkin_results/specs").glob("*.antt")]
    parts = [part for text in files for part in text.split("\n\n")]
    return {name: part for part in parts for name in re.findall(r"^(?:abbrev|pub|record| )+(\w+)", part, re.M)}


def holding(definition):
    """The numbers of which a definition holds, as of `IsStatus n = n ≤ 8`."""
    python = (re.search(r" n = (.*)", definition) or ["", "False"])[1]
    for sign, word in {"≤": "<=", "≡": "==", "⊎": "or", "×": "and"}.items():
        python = python.replace(sign, word)
    return {n for n in range(99) if eval(python, {"n": n})}


def unstated():
    """The rows of the list: a call, a sentence, and the file and its words by which a test is found, or 'trusted'."""
    rows = re.findall(r"^([a-z_ ]+): (.*)\n  (\S+)(.*)$", (ROOT / "scripts/unstated_promises").read_text(encoding="utf-8"), re.M)
    return [(call, sentence, file, words.strip()) for call, sentence, file, words in rows]


def of_clause(header, call, clause, known, stated):
    """For a clause and each sentence above it whether it holds, and what is said if it doesn't. `stated` gets the clause's words."""
    name, text, comments = clause
    yield len(comments) == 1, f"{call}, {name}: there is not one comment `// header: ..` directly above the clause"
    text += " ".join(known[it] for it in re.findall(r"[A-Z]\w+", text) if it in known)
    # A definition may be another one with arguments.
    text += " ".join(known[it] for it in re.findall(r"^ *\w+ = (\w+)", text, re.M) if it in known)
    has = set(re.findall(r"\w+", text))
    for whose, sentence in header.quoted(call, " ".join(comments)):
        yield whose is not None, f"{call}, {name}: the header doesn't say of this call: {sentence}"
        needed = header.needed(call, sentence)
        has_all = name == "statuses" or not needed or needed & has
        yield has_all, f"{call}, {name}: the clause names none of {', '.join(sorted(needed))}, as the header does: {sentence}"
        stated.setdefault((whose, sentence), set()).update(needed if name == "statuses" else has)
    if name == "statuses":
        found, wanted = holding(known.get(text.split()[0], "")), header.returned(call)
        yield found == wanted, f"{call}: the statuses are {sorted(found)}, in the header {sorted(wanted)}"


def compared():
    """For each clause and each sentence whether it holds, and what is said if it doesn't."""
    header, known, stated = Header((ROOT / "include/firthnapkin.h").read_text(encoding="utf-8")), definitions(), {}
    calls = dict(contracts())
    yield {ALL, *calls} == set(header.said), f"crates/firthnapkin_calls has the calls {', '.join(calls)}, not the header's"
    for call, clauses in calls.items():
        yield len({name for name, *_ in clauses}) == len(clauses) > 0, f"{call}: clauses have one name, or there are none"
        for clause in clauses:
            yield from of_clause(header, call, clause, known, stated)
    quotes = sum(path.read_text(encoding="utf-8").count("// header:") for path in (ROOT / "crates").glob("*/src/**/*.rt"))
    found = sum(len(comments) for clauses in calls.values() for *_, comments in clauses)
    yield quotes == found, f"of {quotes} comments `// header: ..` {found} are directly above a clause of a call"
    rows = unstated()
    for call, sentences_of in header.said.items():
        for sentence in sentences_of:
            times = ((call, sentence) in stated) + [it[:2] for it in rows].count((call, sentence))
            yield times == 1, f"the header says of {call}, and {'no clause' if not times else 'more than one place'} has: {sentence}"
            missing = header.needed(call, sentence) - stated.get((call, sentence), header.needed(call, sentence))
            yield not missing, f"{call}: no clause below this names {', '.join(sorted(missing))}: {sentence}"
    for call, sentence, file, words in rows:
        yield sentence in header.said.get(call, []), f"scripts/unstated_promises: the header doesn't say of {call}: {sentence}"
        text = (ROOT / file).read_text(encoding="utf-8") if (ROOT / file).is_file() else ""
        yield file == "trusted" or words and text.count(words) == 1, f"scripts/unstated_promises: {file} has no {words}"
