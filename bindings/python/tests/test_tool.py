"""The tool for people, `python -m firthnapkin`, as a process: what it writes, and its exit statuses."""

import errno
import json
import os
import pty
import subprocess
import sys
import tempfile
import unicodedata
import unittest
from typing import Any, Dict, List, Tuple, Union

import firthnapkin
from firthnapkin._reports import plain

GOOD, BAD, SCHEMA = b"{ a }", b"{\n  a )\n}", b"type A { b: C }"
REFUSED = 'bad.graphql:2:5: Unexpected ")"\n1 | {\n2 |   a )\n  |     ^\n3 | }\n'

# What changes the order in which a text is shown.
DIRECTIONS = "LRE RLE LRO RLO PDF LRI RLI FSI PDI".split()


class Tool(unittest.TestCase):
    def setUp(self) -> None:
        folder = tempfile.TemporaryDirectory()
        self.addCleanup(folder.cleanup)
        self.folder = folder.name
        for name, written in (("good.graphql", GOOD), ("bad.graphql", BAD), ("schema.graphql", SCHEMA)):
            self.write(name, written)

    def write(self, name: str, written: bytes) -> str:
        path = os.path.join(self.folder, name)
        os.makedirs(os.path.dirname(path), exist_ok=True)
        with open(path, "wb") as file:
            file.write(written)
        return name

    def run_tool(
        self, *words: Union[str, bytes], given: bytes = b"", encoding: str = "utf-8", stderr: int = subprocess.PIPE
    ) -> "subprocess.CompletedProcess[bytes]":
        return subprocess.run(
            [sys.executable, "-m", "firthnapkin", *words], cwd=self.folder, input=given, stdout=subprocess.PIPE, stderr=stderr,
            env={**os.environ, "PYTHONIOENCODING": encoding}, timeout=60, check=False,
        )  # fmt: skip

    def tool(self, *words: Union[str, bytes], given: bytes = b"") -> Tuple[int, str]:
        """The exit status, and what is on standard output. Nothing else is written to standard error."""
        found = self.run_tool(*words, given=given)
        self.assertEqual(found.stderr, b"")
        return found.returncode, found.stdout.decode()

    def objects(self, *words: str, given: bytes = b"") -> Tuple[int, List[Dict[str, Any]]]:
        status, written = self.tool("--json", *words, given=given)
        return status, [json.loads(line) for line in written.splitlines()]


class Checks(Tool):
    def test_passes(self) -> None:
        self.assertEqual(self.tool("check", "good.graphql"), (0, ""))
        self.assertEqual(self.tool("check", "-", given=GOOD), (0, ""))

    def test_fails(self) -> None:
        """The file, the line and the column from 1, the message without its position, and the excerpt."""
        self.assertEqual(self.tool("check", "bad.graphql"), (1, REFUSED))
        self.assertEqual(self.tool("check", "-", given=BAD), (1, REFUSED.replace("bad.graphql", "<stdin>")))
        path = os.path.join(self.folder, "bad.graphql")
        self.assertEqual(self.tool("check", path), (1, REFUSED.replace("bad.graphql", path)))
        for text, place, message in [
            ("", "1:1", "Unexpected end of input"), ("# é𝄞\n  𝄞", "2:3", 'Unknown character "𝄞"'), ("{ é𝄞 }", "1:3", 'Unknown character "é"'),
            ('{ a(b: "𝄞é") ) }', "1:14", 'Unexpected ")"'), ("\ufeff{ a ) }", "1:6", 'Unexpected ")"'),
        ]:  # fmt: skip
            status, written = self.tool("check", "-", given=text.encode())
            self.assertEqual((status, written.split("\n")[0]), (1, f"<stdin>:{place}: {message}"))

    def test_each_literal(self) -> None:
        """Floats and large Ints are read."""
        text = b"query ($v: T = 1.5) { a(b: 1e999, c: 99999999999999999999, d: -0.0, e: " + b"9" * 5000 + b") }"
        for command in ("check", "nodes", "tokens", "canonical"):
            for words in ((), ("--json",)):
                status, written = self.tool(command, "-", *words, given=text)
                self.assertEqual((status, "1e999" in written), (0, command != "check"))

    def test_not_utf8(self) -> None:
        self.write("latin.graphql", "{ é }\n{ 𝄞 ".encode() + b"\xe9 }")
        excerpt = "1 | { é }\n2 | { 𝄞 \ufffd }\n  |     ^\n"
        self.assertEqual(self.tool("check", "latin.graphql"), (1, "latin.graphql:2:5: Not UTF-8\n" + excerpt))
        for given, place in ((b"\xff", "1:1"), (b"{ a }\n\xed\xa0\x80", "2:1"), (b"{a} #\xc3", "1:6")):
            self.assertEqual(self.tool("check", "-", given=given)[1].split("\n")[0], f"<stdin>:{place}: Not UTF-8")

    def test_several(self) -> None:
        found = self.run_tool("check", "good.graphql", "bad.graphql", "good.graphql")
        self.assertEqual((found.returncode, found.stdout.decode()), (1, REFUSED))
        self.assertEqual(found.stderr, b"3 files: 2 passed, 1 failed, 0 skipped as schemas, 0 not read\n")

    def test_limits(self) -> None:
        for words, status in [
            (("--depth", "1"), 0), (("--depth", "0"), 1), (("--max-tokens", "3"), 0), (("--max-tokens", "2"), 1), (("--max-tokens", "0"), 1),
            (("--max-tokens", "9" * 5000), 0), (("--max-tokens", "0" * 30 + "2"), 1), (("--depth=1000", "--max-tokens=3"), 0),
        ]:  # fmt: skip
            for command in ("check", "canonical", "nodes", "tokens"):
                self.assertEqual(self.tool(command, "good.graphql", *words)[0], status, (command, words))
        deep = b"{a" * 201 + b"}" * 201
        self.assertEqual(self.tool("check", "-", given=deep)[1].split("\n")[0], "<stdin>:1:401: Too deeply nested")
        self.assertEqual(self.tool("check", "-", "--depth", "201", given=deep), (0, ""))
        self.assertEqual(self.tool("check", "-", given=deep[2:-1]), (0, ""))
        many = self.tool("check", "good.graphql", "--max-tokens", "2")[1]
        self.assertEqual(many, "good.graphql:1:5: Too many tokens\n1 | { a }\n  |     ^\n")

    def test_wrong_arguments(self) -> None:
        """Each is an error before a file is read: the status is 2, and a line says which argument it is."""
        for words, named in [
            ((), "FILE"), (("check",), "FILE"), (("checks", "good.graphql"), "checks"), (("good.graphql",), "good.graphql"),
            *((("check", "bad.graphql", "--depth", it), "--depth") for it in ("-1", "1001", "9" * 5000, "1.5", "nan", "", " 5", "1_0", "٣")),
            *((("check", "bad.graphql", "--max-tokens", it), "--max-tokens") for it in ("-1", "1e3", "x", "")),
            (("check", "bad.graphql", "--strictly"), "--strictly"), (("check", "bad.graphql", "--dep", "5"), "--dep"),
            (("check", "bad.graphql", "--depth"), "--depth"), (("check", "bad.graphql", "--json=1"), "--json"),
        ]:  # fmt: skip
            with self.subTest(words=words):
                found = self.run_tool(*words)
                self.assertEqual((found.returncode, found.stdout), (2, b""))
                self.assertIn(named, found.stderr.decode().splitlines()[-1])

    def test_order_of_arguments(self) -> None:
        for words in (
            ("--depth", "1", "check", "bad.graphql"),
            ("check", "--depth", "1", "bad.graphql"),
            ("check", "--", "bad.graphql"),
        ):
            self.assertEqual(self.tool(*words), (1, REFUSED))
        found = self.run_tool("check", "good.graphql", "--depth", "1", "bad.graphql")
        self.assertEqual((found.returncode, found.stdout.decode()), (1, REFUSED))

    def test_help_and_version(self) -> None:
        """Both are written to standard output, wherever they are, and no file is read."""
        for words in (("--version",), ("check", "--version", "bad.graphql"), ("--json", "--version")):
            self.assertEqual(self.tool(*words), (0, f"firthnapkin {firthnapkin.__version__}\n"))
        for words in (("--help",), ("-h",), ("check", "missing", "--help")):
            status, written = self.tool(*words)
            self.assertEqual((status, written.split(" [")[0]), (0, "usage: python -m firthnapkin"))
            for word in (
                "check",
                "canonical",
                "nodes",
                "tokens",
                "--depth",
                "--max-root-fields",
                "--json",
                "--strict",
                "--version",
            ):
                self.assertIn(f"\n  {word} ", written)


class Schemas(Tool):
    def test_skipped(self) -> None:
        """A file in which a definition is a schema's, with a description or without, is skipped and counted, in each command."""
        for word in "type schema extend directive scalar interface union enum input".split():
            self.write(f"schemas/{word}.graphql", f"# A\n{{ a }}\n{word} A {{ b: C }}".encode())
        self.write("schemas/described.graphql", b'"A" type B { c: D }')
        self.write("schemas/long.graphql", b'"""A\n"""\ntype B { c: D }')
        for command in ("check", "canonical", "nodes", "tokens"):
            found = self.run_tool(command, "schemas", "good.graphql")
            lines = found.stderr.decode().splitlines()
            self.assertEqual((found.returncode, len(lines)), (0, 12))
            self.assertIn("schemas/type.graphql: skipped, since it is a schema", lines)
            self.assertEqual(lines[-1], "12 files: 1 passed, 0 failed, 11 skipped as schemas, 0 not read")
            self.assertNotIn(b"schemas", found.stdout)
        found = self.run_tool("check", "schema.graphql")
        self.assertEqual((found.returncode, found.stdout), (0, b""))
        self.assertEqual(found.stderr.decode(), "schema.graphql: skipped, since it is a schema\n"
                         "1 file: 0 passed, 0 failed, 1 skipped as schemas, 0 not read\n")  # fmt: skip

    def test_described_requests(self) -> None:
        """A file with a description before a request is no schema: it is reported."""
        words = "a description before a request isn't in the specification of October 2021"
        self.write("described.graphql", b'"A" query { a }')
        self.write("shorthand.graphql", b'{ a }\n"""A\n"""\n{ b }')
        self.write("nothing.graphql", b'"A"')
        for name, shown in [
            ("described", f'1:1: Unexpected ""A"": {words}\n1 | "A" query {{ a }}\n  | ^\n'),
            ("shorthand", f'2:1: Unexpected """"A\n"""": {words}\n1 | {{ a }}\n2 | """A\n  | ^\n3 | """\n'),
            ("nothing", '1:1: Unexpected ""A""\n1 | "A"\n  | ^\n'),
        ]:
            self.assertEqual(self.tool("check", f"{name}.graphql"), (1, f"{name}.graphql:{shown}"))
        status, found = self.objects("check", "described.graphql")
        self.assertEqual((status, found[0]["status"], found[0]["message"]), (1, "failed", f'Unexpected ""A"": {words}'))

    def test_strict(self) -> None:
        self.assertEqual(self.tool("check", "schema.graphql", "--strict"), (
            1, "schema.graphql:1:1: Unexpected \"type\": this is a schema's definition, not a request's\n1 | type A { b: C }\n  | ^\n"))  # fmt: skip
        self.assertEqual(self.tool("check", "good.graphql", "--strict"), (0, ""))

    def test_other_files(self) -> None:
        """The same words elsewhere are errors like others."""
        for text in (b"query type { a } }", b"{ a } types A", b"query Q type A"):
            self.assertEqual(self.tool("check", "-", given=text)[0], 1)


class Files(Tool):
    def test_unreadable(self) -> None:
        self.write("empty/a.txt", b"{ a }")
        os.symlink("nowhere", os.path.join(self.folder, "dangling"))
        for name, why in (("missing", "No such file or directory"), ("empty", "there are no .graphql files below it"), ("", "No such file or directory"),
                          ("dangling", "No such file or directory"), ("good.graphql/a", "Not a directory")):  # fmt: skip
            found = self.run_tool("check", name)
            self.assertEqual((found.returncode, found.stdout, found.stderr.decode()), (2, b"", f"{name}: {why}\n"))
        found = self.run_tool("check", "missing", "bad.graphql", "good.graphql")
        self.assertEqual((found.returncode, found.stdout.decode()), (2, REFUSED))
        self.assertEqual(found.stderr.decode().splitlines()[-1], "3 files: 1 passed, 1 failed, 0 skipped as schemas, 1 not read")

    def test_folders(self) -> None:
        """The files with this ending below a folder, in the order of names, and the same name twice is read twice."""
        for name in (
            "f/b.graphql",
            "f/a.graphql",
            "f/c.gql",
            "f/d.graphql.txt",
            "f/.graphql",
            "f/x.graphql/c.graphql",
            "f/a/z.graphql",
        ):
            self.write(name, BAD)
        wanted = ["f/.graphql", "f/a.graphql", "f/b.graphql", "f/a/z.graphql", "f/x.graphql/c.graphql"]
        status, found = self.objects("check", "f")
        self.assertEqual((status, [it["file"] for it in found]), (1, wanted))
        status, found = self.objects("check", "f/a.graphql", "f/a")
        self.assertEqual([it["file"] for it in found], ["f/a.graphql", "f/a/z.graphql"])

    def test_links_and_pipes(self) -> None:
        """A link to a folder is not followed, so that a loop of links ends; what isn't a regular file is not waited for."""
        self.write("f/a.graphql", GOOD)
        os.symlink("..", os.path.join(self.folder, "f/loop.graphql"))
        os.symlink("a.graphql", os.path.join(self.folder, "f/link.graphql"))
        os.mkfifo(os.path.join(self.folder, "f/pipe.graphql"))
        os.symlink("nowhere", os.path.join(self.folder, "f/z.graphql"))
        status, found = self.objects("check", "f")
        self.assertEqual([(it["file"], it["status"], it.get("message")) for it in found],
                         [("f/a.graphql", "passed", None), ("f/link.graphql", "passed", None),
                          ("f/pipe.graphql", "unreadable", "it is no regular file"),
                          ("f/z.graphql", "unreadable", "No such file or directory")])  # fmt: skip
        self.assertEqual(status, 2)

    def nest(self, depth: int) -> None:
        """Makes a file in folders nested so deep, each named d."""
        # Some of Python's releases can't remove them.
        self.addCleanup(subprocess.call, ["rm", "-r", os.path.join(self.folder, "d")])
        here = os.open(self.folder, os.O_RDONLY)
        try:
            for _ in range(depth):
                os.mkdir("d", dir_fd=here)
                there = os.open("d", os.O_RDONLY, dir_fd=here)
                os.close(here)
                here = there
            with open(os.open("a.graphql", os.O_WRONLY | os.O_CREAT, dir_fd=here), "wb") as file:
                file.write(BAD)
        finally:
            os.close(here)

    def test_a_deep_folder(self) -> None:
        """Folders nested deeper than Python's limit on recursion."""
        self.nest(1200)
        status, written = self.tool("check", "d")
        self.assertEqual((status, written.split(":")[0]), (1, "d/" * 1200 + "a.graphql"))

    def test_a_folder_that_is_too_deep(self) -> None:
        """Folders whose names together are longer than the system takes: that one can't be read is reported."""
        self.nest(2100)
        found = self.run_tool("check", "d")
        self.assertEqual((found.returncode, found.stdout), (2, b""))
        self.assertTrue(found.stderr.startswith(b"d/d/d/"))
        self.assertTrue(found.stderr.endswith(f"d: {os.strerror(errno.ENAMETOOLONG)}\n".encode()))

    def test_standard_input(self) -> None:
        found = self.run_tool("check", "-", "-", given=BAD)
        self.assertEqual((found.returncode, found.stdout.decode()), (2, REFUSED.replace("bad.graphql", "<stdin>")))
        self.assertIn(b"<stdin>: it is named twice\n", found.stderr)
        found = subprocess.run(
            ["bash", "-c", f"exec {sys.executable} -m firthnapkin check - <&-"], capture_output=True, check=False
        )
        self.assertEqual((found.returncode, found.stderr), (2, b"<stdin>: standard input is closed\n"))
        with open(self.folder + "/good.graphql", "rb") as file:
            self.assertEqual(self.run_tool("check", "/dev/stdin", given=file.read()).returncode, 0)

    def test_names(self) -> None:
        """Any name is shown in one line, and a character that the output's encoding lacks ends nothing."""
        self.write("a\nb\x1b[31m.graphql", BAD)
        self.assertEqual(
            self.tool("check", "a\nb\x1b[31m.graphql")[1].split("\n")[0], 'a\ufffdb\ufffd[31m.graphql:2:5: Unexpected ")"'
        )
        self.write("a\nb\x1b[31m.graphqls", SCHEMA)
        for name, words in (
            ("c\nd\x1b[31m", "No such file or directory"),
            ("a\nb\x1b[31m.graphqls", "skipped, since it is a schema"),
        ):
            shown = name.translate({10: "\ufffd", 27: "\ufffd"})
            self.assertEqual(self.run_tool("check", name).stderr.decode().split("\n")[0], f"{shown}: {words}")
        with open(os.path.join(os.fsencode(self.folder), b"\xff.graphql"), "wb") as file:
            file.write("{ é }".encode())
        found = self.run_tool("check", b"\xff.graphql", encoding="ascii")
        self.assertEqual(found.stdout.split(b"\n")[0], b'\\udcff.graphql:1:3: Unknown character "\\xe9"')
        status, objects = self.objects("check", ".")
        self.assertIn("./\udcff.graphql", [it["file"] for it in objects])


class Outputs(Tool):
    TEXT = 'query Q($v: [T ! ] = null) @d {\n  a: b(c: [1, "é\\n", E, $v, 1.5, true], d: {k: """\n x"""}) { ...F } }\nfragment F on T { ... on U { x } }'

    def test_canonical(self) -> None:
        self.assertEqual(self.tool("canonical", "good.graphql"), (0, "{a}\n"))
        found = self.run_tool("canonical", "good.graphql", "bad.graphql", "-", given=b"{ a, b # c\n }")
        self.assertEqual((found.returncode, found.stdout.decode()), (1, "{a}\n" + REFUSED + "{a b}\n"))

    def test_nodes(self) -> None:
        status, written = self.tool("nodes", "-", given=self.TEXT.encode())
        self.assertEqual(status, 0)
        self.assertEqual([line.replace("<stdin>:", "") for line in written.splitlines()], [
            "1:1: QUERY Q", "1:8: VARIABLE_DEFINITIONS", "1:9: VARIABLE_DEFINITION v", "1:13: TYPE [T!]", "1:22: NULL null", "1:28: DIRECTIVE d",
            "2:3: FIELD b", "2:3: ALIAS a", "2:7: ARGUMENTS", "2:8: ARGUMENT c", "2:11: LIST", "2:12: INT 1", '2:15: STRING "é\\n"', "2:22: ENUM E",
            "2:25: VARIABLE v", "2:29: FLOAT 1.5", "2:34: BOOLEAN true", "2:41: ARGUMENT d", "2:44: OBJECT", "2:45: OBJECT_FIELD k",
            '2:48: BLOCK_STRING "x"', "3:11: FRAGMENT_SPREAD F", "4:1: FRAGMENT_DEFINITION F on T", "4:19: INLINE_FRAGMENT U", "4:30: FIELD x",
        ])  # fmt: skip

    def test_tokens(self) -> None:
        status, written = self.tool("tokens", "-", given=b'{ a(b: "c\\n") ...F }\nfragment F on T { x(y: """\nz""") }')
        self.assertEqual(status, 0)
        lines = written.splitlines()
        self.assertEqual(lines[:6], ["<stdin>:1:1: CURLY_OPEN {", "<stdin>:1:3: NAME a", "<stdin>:1:4: PAREN_OPEN (", "<stdin>:1:5: NAME b",
                                     "<stdin>:1:6: COLON :", '<stdin>:1:8: STRING "\\"c\\\\n\\""'])  # fmt: skip
        self.assertEqual(lines[-3:], ["<stdin>:3:5: PAREN_CLOSE )", "<stdin>:3:7: CURLY_CLOSE }", "<stdin>:3:8: END_OF_FILE"])

    def test_a_file_that_fails(self) -> None:
        """Nothing is written of it but its error."""
        for command in ("canonical", "nodes", "tokens"):
            self.assertEqual(self.tool(command, "bad.graphql"), (1, REFUSED))

    def test_json(self) -> None:
        status, found = self.objects("check", "good.graphql", "bad.graphql", "schema.graphql", "missing")
        self.assertEqual((status, found), (2, [
            {"file": "good.graphql", "status": "passed"},
            {"file": "bad.graphql", "status": "failed", "line": 2, "column": 5, "kind": "UNEXPECTED_TOKEN", "message": 'Unexpected ")"',
             "excerpt": "1 | {\n2 |   a )\n  |     ^\n3 | }"},
            {"file": "schema.graphql", "status": "schema"},
            {"file": "missing", "status": "unreadable", "message": "No such file or directory"},
        ]))  # fmt: skip
        self.assertEqual(self.objects("check", "-", given=b"{ \xff")[1], [
            {"file": "<stdin>", "status": "failed", "line": 1, "column": 3, "kind": "NOT_UTF8", "message": "Not UTF-8", "excerpt": "1 | { \ufffd\n  |   ^"},
        ])  # fmt: skip
        self.assertEqual(self.objects("check", "good.graphql", "schema.graphql")[0], 0)
        self.assertEqual(self.objects("check", "schema.graphql", "--strict")[0], 1)
        self.assertEqual(
            self.objects("canonical", "good.graphql"), (0, [{"file": "good.graphql", "status": "passed", "canonical": "{a}"}])
        )

    def test_json_of_parts(self) -> None:
        text = '{ a(b: 1e999, c: 99999999999, d: "é\ud83d") }'.encode("utf-8", "replace")
        status, (found,) = self.objects("nodes", "-", given=text)
        self.assertEqual((status, found["file"], found["status"]), (0, "<stdin>", "passed"))
        self.assertEqual(found["nodes"][:2], [
            {"kind": "QUERY", "line": 1, "column": 1, "start": 0, "end": 40, "name": None, "value": None, "descendants": 8},
            {"kind": "FIELD", "line": 1, "column": 3, "start": 2, "end": 38, "name": "a", "value": None, "descendants": 7},
        ])  # fmt: skip
        values = [(it["kind"], it["value"], it["text"]) for it in found["nodes"] if "text" in it]
        self.assertEqual(values, [("FLOAT", None, "1e999"), ("LARGE_INT", 99999999999, "99999999999"), ("STRING", "é?", '"é?"')])
        status, (found,) = self.objects("tokens", "-", given=b"{ a }")
        self.assertEqual(found["tokens"][1], {"kind": "NAME", "line": 1, "column": 3, "start": 2, "end": 3, "text": "a"})
        self.assertEqual(len(found["tokens"]), 4)

    def test_controls(self) -> None:
        """What a terminal might obey is not shown as it is, and each character takes one place, so that the caret is right."""
        every = "".join(map(chr, range(sys.maxunicode + 1)))
        obeyed = {it for it in every if unicodedata.category(it) == "Cc" or unicodedata.bidirectional(it) in DIRECTIONS} - {
            "\t",
            "\n",
        }
        self.assertEqual(plain(every), "".join("\ufffd" if it in obeyed else it for it in every))
        status, written = self.tool("check", "-", given="{ # \u202e\x9b\n a \x1b[31m }".encode())
        self.assertEqual((status, written), (1, '<stdin>:2:4: Unknown character "\ufffd"\n'
                         "1 | { # \ufffd\ufffd\n2 |  a \ufffd[31m }\n  |    ^\n"))  # fmt: skip

    def test_closed_outputs(self) -> None:
        """A reader that goes, a full device and a closed output end the run with its own status, and nothing is shown twice."""
        self.write("many.graphql", b"{" + b"a " * 100_000 + b"}")
        # With this variable each line is written at once.
        tool = f"env -u PYTHONUNBUFFERED {sys.executable} -m firthnapkin nodes"
        command, full = f"{tool} many.graphql", b"python -m firthnapkin: the output can't be written: No space left on device\n"
        for line, wanted in [
            (f"{command} | head -n 1; exit ${{PIPESTATUS[0]}}", (2, b"many.graphql:1:1: QUERY\n", b"")),
            (f"{command} > /dev/full", (2, b"", full)),
            (f"{tool} good.graphql > /dev/full", (2, b"", full)),
            (f"{command} >&-", (2, b"", b"python -m firthnapkin: standard output is closed\n")),
            *((f"{tool} {word} > /dev/full", (2, b"", full)) for word in ("--help", "--version")),
            *((f"{tool} {word} >&-", (2, b"", b"python -m firthnapkin: standard output is closed\n")) for word in ("--help", "--version")),
        ]:  # fmt: skip
            found = subprocess.run(["bash", "-c", line], cwd=self.folder, capture_output=True, check=False)
            self.assertEqual((found.returncode, found.stdout, found.stderr), wanted)

    def test_large_and_deep(self) -> None:
        """A million tokens, and brackets nested 1,000 deep."""
        status, written = self.tool("check", "-", given=b"{" + b"a " * 1_000_000 + b") }")
        self.assertEqual((status, written.split("\n")[0]), (1, '<stdin>:1:2000002: Unexpected ")"'))
        self.assertLess(len(written), 300)
        status, written = self.tool("nodes", "-", "--depth", "1000", "--json", given=b"{a" * 1000 + b"}" * 1000)
        self.assertEqual((status, len(json.loads(written)["nodes"])), (0, 1001))
        self.assertLess(len(written), 200_000)


class Exits(Tool):
    def forced(self, name: str, error: str, command: str) -> Tuple[int, str, str]:
        """The exit status and both outputs of a run in which a function of the tool raises an error."""
        code = (
            "import sys, firthnapkin.__main__ as tool\n"
            f"def fails(*_, **__): raise {error}\n"
            f"tool.{name} = fails\n"
            f"sys.exit(tool.main(['{command}', 'good.graphql']))\n"
        )
        found = subprocess.run([sys.executable, "-c", code], cwd=self.folder, capture_output=True, timeout=60, check=False)
        return found.returncode, found.stdout.decode(), found.stderr.decode()

    def test_each(self) -> None:
        """Ctrl-C, memory that runs out, and an output that fails, wherever they happen."""
        for name, command in (("read", "check"), ("check", "check"), ("canonical", "canonical"), ("files_of", "check")):
            self.assertEqual(self.forced(name, "KeyboardInterrupt", command), (130, "", ""))
        for name, command in (("read", "check"), ("check", "nodes")):
            self.assertEqual(self.forced(name, "MemoryError", command), (2, "", "good.graphql: memory ran out\n"))
        self.assertEqual(self.forced("check", "ValueError('4 GiB')", "check"), (2, "", "good.graphql: 4 GiB\n"))
        for name, command in (("canonical", "canonical"), ("parse", "nodes"), ("tokens", "tokens"), ("files_of", "check")):
            self.assertEqual(self.forced(name, "MemoryError", command), (2, "", "python -m firthnapkin: memory ran out\n"))
        full = "python -m firthnapkin: the output can't be written: No space left on device\n"
        self.assertEqual(self.forced("canonical", "OSError(28, 'No space left on device')", "canonical"), (2, "", full))
        self.assertEqual(self.forced("canonical", "BrokenPipeError", "canonical"), (2, "", ""))


class Progress(Tool):
    def on_terminal(self, *words: str) -> Tuple[int, str, str]:
        """The exit status, what is on a terminal that is standard error, and what is on standard output."""
        leader, follower = pty.openpty()
        try:
            found = self.run_tool(*words, stderr=follower)
            os.write(follower, b"END")
            shown = b""
            while not shown.endswith(b"END"):
                shown += os.read(leader, 4096)
        finally:
            os.close(leader)
            os.close(follower)
        return found.returncode, shown[:-3].decode(), found.stdout.decode()

    def test_many(self) -> None:
        """On a terminal a line says how many of many files are done, and is removed before others; elsewhere there is none."""
        for i in range(60):
            self.write(f"many/{i:02}.graphql", GOOD)
        status, shown, written = self.on_terminal("check", "many")
        self.assertEqual((status, written), (0, ""))
        self.assertTrue(shown.startswith("\r0 of 60 files"), shown)
        self.assertTrue(shown.endswith("\r\x1b[K60 files: 60 passed, 0 failed, 0 skipped as schemas, 0 not read\r\n"), shown)
        self.assertEqual(
            self.run_tool("check", "many").stderr, b"60 files: 60 passed, 0 failed, 0 skipped as schemas, 0 not read\n"
        )
        self.write("many/00.graphql", SCHEMA)
        status, shown, written = self.on_terminal("check", "many")
        self.assertIn("\r0 of 60 files\r\x1b[Kmany/00.graphql: skipped", shown)

    def test_few(self) -> None:
        self.assertEqual(self.on_terminal("check", "good.graphql"), (0, "", ""))
