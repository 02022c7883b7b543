"""What scripts/definitions reads of documents: links, the headings that they lead to, diagrams."""

import re

LINK = re.compile(r"\]\(([^()\s]+)\)")
# Words at which a reader stops: a document says the same in others.
WORN = re.compile(
    r"\b(?:but for|as many as|one too many|is that one|no such|of one's own|cut into tokens|hand(?:s|ed|ing)?(?: \w+)? (?:over|back)"
    r"|len(?:ds?|t|ding)|doubled|answered|answering|answers? (?:with|by|what|whether|how)"
    r"|(?:call|function|parser|library|program|script|server|test)s? answers?"
    r"|(?:to|it|that|which|who|they|we|you|can|may|must|should|will|would|not|\w+n't) answers?)\b",
    re.I,
)


def outside_fences(text):
    return re.sub(r"^```.*?^```$", "", text, flags=re.S | re.M)


def worn(text):
    """The words of WORN in a document's own sentences: not in code, and not in quotations."""
    quoted = r"``.*?``|`[^`\n]*`|\"[^\"\n]*\"|^ {4}.*$|^>.*$"
    return WORN.findall(" ".join(re.sub(quoted, " ", outside_fences(text), flags=re.M).split()))


def fences(text):
    """The blocks between fences, each with the word after its first fence."""
    return re.findall(r"^```(\S*)\n(.*?)^```$", text, re.S | re.M)


def unfenced_code(text):
    """The indented lines outside fences that are code of the prover: they have a sign or a word that nothing else has."""
    signs = re.compile(r"[≡≢→·∷λ◌↔×]|^ +(?:abbrev|data|record|ensures|requires|ghost)\b")
    return [line.strip() for line in outside_fences(text).split("\n") if line.startswith("    ") and signs.search(line)]


def clauses(text):
    """The pieces of code in a line of text that have a sign of a clause and are no mere form, as `P ↔ Q`."""
    pieces = re.findall(r"`([^`\n]{20,})`", outside_fences(text))
    return [it for it in pieces if re.search("[≡→↔×⊎¬λ∷]", it)]


def links(text):
    """The files of the repository that a document links to, each with the heading or an empty text."""
    for target in LINK.findall(outside_fences(text)):
        if "://" not in target:
            file, _, heading = target.partition("#")
            yield file, heading


def headings(text):
    """The words by which a link names a heading, as code hosts make them. Of equal ones a host gives all but the first a
    number, so each is in the list."""
    titles = re.findall(r"^#+ (.*)$", outside_fences(text), re.M)
    return [re.sub(r"[^\w -]", "", title.lower()).replace(" ", "-") for title in titles]


def conditional(text):
    """The public functions of a file of code that have a condition, each after its type or trait and `::` if it has one."""
    found, around, in_public, name = [], None, False, None
    for line in text.split("\n"):
        head = re.match(r"(pub )?(?:trait|impl(?:<[^>]*>)?(?: .* for)?) (\w+)", line)
        begun = re.match(r"\s*(pub )?(?:final )?fn (\w+)", line)
        if head or line == "}":
            around, in_public = (head[2], bool(head[1])) if head else (None, False)
        elif begun:
            name = (f"{around}::" if around else "") + begun[2] if begun[1] or in_public else None
        elif re.match(r"\s*(\{|.*;)$", line):
            name = None
        elif name and re.match(r"\s+requires\b", line):
            found.append(name)
            name = None
    return found


def diagrams(text):
    return re.findall(r"^```mermaid\n(.*?)^```$", text, re.S | re.M)


def direct(below):
    """Of each crate those that it depends on and reaches by no other crate. What isn't a crate of the list is left out."""

    def reached(name):
        return {name}.union(*(reached(it) for it in below[name] if it in below))

    crates = {name: [it for it in names if it in below] for name, names in below.items()}
    return {
        name: {it for it in names if not any(it in reached(other) for other in names if other != it)}
        for name, names in crates.items()
    }


def items(diagram):
    """The items of crates that a diagram names, as `juniper::parse_document_source`: the crate and the item."""
    return re.findall(r"\b([a-z]\w*)::(\w+)", diagram)
