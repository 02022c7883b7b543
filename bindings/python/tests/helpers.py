"""What the tests of several calls share."""

import os
import resource
import struct
import subprocess
import sys
import threading
import time
import unittest
from typing import Any, Callable, List, Tuple

# Arguments of the wrong type, for a source and for a limit, and limits that are too low.
NO_SOURCES = (None, b"{a}", bytearray(b"{a}"), b"\xff{", 5, 1.5, ["{a}"], object())
NO_LIMITS = (1.0, float("nan"), "5", b"5", [], object())
LOW_LIMITS = (-1, -(2**63), -(10**30))
# Limits that no text of the tests exceeds, around the largest numbers of 32 and 64 bits.
LARGE_LIMITS = (None, 2**32 - 2, 2**32 - 1, 2**32, 2**32 + 5, 2**64 + 5, 10**30)


class Text(str):
    """A str with an `encode` of its own, which no call may use."""

    def encode(self, *_: Any) -> bytes:
        return b"\xff"


# The words of no limits on sizes.
NO_SIZES = (2**32 - 1,) * 5


def words_of(limits: bytes) -> Tuple[int, ...]:
    """The words of limits, as the extensions take them: eight, and then those on sizes."""
    return struct.unpack("=13I", limits)


# Skips a test that limits the memory of a process: under qemu-user that of qemu would be limited, too.
limits_memory = unittest.skipIf("FIRTHNAPKIN_IS_EMULATED" in os.environ, "under qemu-user the memory of qemu would be limited")


def process(program: str) -> "subprocess.CompletedProcess[bytes]":
    """A run of another Python on a program."""
    here = os.path.dirname(os.path.abspath(__file__))
    return subprocess.run([sys.executable, "-c", program], cwd=here, capture_output=True, check=False)


def resident() -> int:
    """How many bytes of memory this process has, if /proc says it."""
    with open("/proc/self/statm", encoding="ascii") as file:
        return int(file.read().split()[1]) * resource.getpagesize()


def on_stack(size: int, work: Callable[[], None]) -> None:
    """Runs in a thread whose stack has this many bytes."""
    before = threading.stack_size(size)
    try:
        thread = threading.Thread(target=work)
        thread.start()
        thread.join()
    finally:
        threading.stack_size(before)


def in_threads(result: Callable[[], object], times: int) -> List[bool]:
    """Four threads compute a result this many times each. Returns, for each time, whether it is the one computed here."""
    wanted = result()
    found: List[bool] = []

    def work() -> None:
        for _ in range(times):
            found.append(result() == wanted)

    threads = [threading.Thread(target=work) for _ in range(4)]
    for thread in threads:
        thread.start()
    for thread in threads:
        thread.join()
    return found


def longest_wait(call: Callable[[], object]) -> float:
    """The longest time that another thread waits during a call, as a part of the call's time: the least of five tries, since on a
    busy machine a thread may wait for others, too."""
    return min(one_wait(call) for _ in range(5))


def one_wait(call: Callable[[], object]) -> float:
    """The same of one try."""
    times: List[float] = []
    is_done = threading.Event()

    def count() -> None:
        while not is_done.is_set():
            times.append(time.monotonic())
            time.sleep(0.001)

    thread = threading.Thread(target=count)
    thread.start()
    begin = time.monotonic()
    call()
    end = time.monotonic()
    is_done.set()
    thread.join()
    within = [begin, *(moment for moment in times if begin < moment < end), end]
    return max(b - a for a, b in zip(within, within[1:])) / (end - begin)


def require_graphql_core() -> None:
    """Skips, with the reason, if graphql-core 3.2 is not installed."""
    try:
        import graphql
    except ImportError as error:
        raise unittest.SkipTest(f"no graphql-core 3.2: {error}") from None
    # graphql-core 2 has no version_info.
    if getattr(graphql, "version_info", ())[:2] != (3, 2):
        raise unittest.SkipTest(f"no graphql-core 3.2, but {getattr(graphql, '__version__', 'one without a version')}")
