"""Several interpreters in one process. From Python 3.12 on each has a lock of its own, so that they run at the same time. Each test
is in a process of its own, which some releases of Python abort when an interpreter ends that graphql-core was loaded in."""

import importlib.util
import subprocess
import sys
import unittest

from helpers import require_graphql_core

MODULES = [name for name in ("_interpreters", "_xxsubinterpreters") if importlib.util.find_spec(name)]
SECONDS = 120

# Each of these runs a line of statements in new interpreters, and prints how many of them came to the end of it.
PROGRAM = """
import os, threading
import {module} as interpreters

def run(line, work, count):
    reader, writer = os.pipe()
    made = [interpreters.create() for _ in range(count)]
    work(made, line + f"; import os; os.write({{writer}}, b'.')")
    os.close(writer)
    print(len(os.read(reader, count + 1)), flush=True)
    os.close(reader)
    return made

def in_turn(made, line):
    for it in made:
        interpreters.run_string(it, line)

def at_once(made, line):
    threads = [threading.Thread(target=interpreters.run_string, args=(it, line)) for it in made]
    for thread in threads:
        thread.start()
    for thread in threads:
        thread.join()

def end(made):
    for it in made:
        interpreters.destroy(it)

"""

RESULTS = (
    "import firthnapkin as f; assert f.parse('{a(b: 1)}').operations[0].selections[0].argument('b').value == 1; "
    "assert f.canonical('{ a, b }') == '{a b}'; assert len(f.tokens('{a}')) == 4"
)
MANY = "import firthnapkin as f; assert all([it.name for it in f.parse('{a b}')] == [None, 'a', 'b'] for _ in range(3000))"
IN_PLACE = (
    "from firthnapkin import graphql_core as g; g.install(); import graphql, pickle; d = graphql.parse('{a(b: 1)}'); "
    "assert g.parse is graphql.parse and d == g.own_parse('{a(b: 1)}') == pickle.loads(pickle.dumps(d)); g.uninstall()"
)


@unittest.skipUnless(MODULES, "this Python has no module that makes interpreters")
class Interpreters(unittest.TestCase):
    def prints(self, program: str, wanted: str) -> None:
        command = [sys.executable, "-c", PROGRAM.format(module=MODULES[0]) + program]
        found = subprocess.run(command, capture_output=True, check=False, timeout=SECONDS)
        self.assertEqual((found.stdout.decode(), found.stderr.decode(), found.returncode), (wanted, "", 0))

    def test_one_after_another(self) -> None:
        """The package is loaded in each, whether another one has it or not, and whether others have ended."""
        self.prints(f"end(run({RESULTS!r}, in_turn, 2))\n{RESULTS}\nend(run({RESULTS!r}, in_turn, 2))", "2\n2\n")

    def test_in_the_place_of_graphql_core(self) -> None:
        require_graphql_core()
        self.prints(f"{IN_PLACE}\nrun({IN_PLACE!r}, in_turn, 2)\nos._exit(0)", "2\n")

    def test_at_once(self) -> None:
        if sys.version_info < (3, 12):
            self.skipTest(f"all interpreters of Python {sys.version_info[0]}.{sys.version_info[1]} have one lock")
        self.prints(f"end(run({MANY!r}, at_once, 4))", "4\n")
