"""Builds the package with the library included, on the stable ABI: the wheel works with Python 3.9 and later.

There is no pyproject.toml. With one, each release of pip fetches setuptools from a registry even if it is installed, unless
it gets --no-build-isolation. Without one only the newer releases do.
"""

import os
import platform
import re
import struct
import subprocess
import sys
import sysconfig
from pathlib import Path

from setuptools import Extension, setup
from setuptools.command.build_py import build_py

HERE = Path(__file__).resolve().parent
ROOT = HERE.parent.parent
# A source distribution has the archives, the headers and the version inside, and the changes beside this file.
INSIDE = HERE / "native"
IS_RELEASE = INSIDE.exists()
# _PYTHON_HOST_PLATFORM=linux-aarch64 makes Python build for that processor on another one.
PROCESSOR = "aarch64" if sysconfig.get_platform() == "linux-aarch64" else ""
LIBRARY = (INSIDE if IS_RELEASE else ROOT / "out") / PROCESSOR / "libfirthnapkin.a"
HEADERS = [INSIDE] if IS_RELEASE else [ROOT / "include", ROOT / "bindings"]
# The C libraries that it works with, each with the first version.
FIRST_VERSIONS = {"glibc": [2, 17], "musl": [1, 2]}
VERSION = (INSIDE if IS_RELEASE else ROOT) / "VERSION"
CHANGES = (HERE if IS_RELEASE else ROOT) / "CHANGELOG.md"


def loader_of(program):
    """The path of the loader that a program of 64 bits names; '' if it names none."""
    with open(program, "rb") as file:
        header = file.read(64)
        if not header.startswith(b"\x7fELF\2\1"):
            return ""
        (start,), (size, count) = struct.unpack_from("<Q", header, 32), struct.unpack_from("<HH", header, 54)
        for number in range(count):
            file.seek(start + number * size)
            kind, offset, length = struct.unpack("<I4xQ16xQ", file.read(40))
            if kind == 3:
                file.seek(offset)
                return os.fsdecode(file.read(length).rstrip(b"\0"))
    return ""


def c_library():
    """The C library of this Python with its version, such as glibc 2.36 or musl 1.2.3; '' if it is another one."""
    try:
        glibc = os.confstr("CS_GNU_LIBC_VERSION") or ""
    except (AttributeError, ValueError, OSError):
        glibc = ""
    if glibc:
        return glibc
    try:
        loader = loader_of(sys.executable)
        # musl's loader writes its version where it is run without a program.
        lines = subprocess.run([loader], stderr=subprocess.PIPE, text=True, check=False).stderr if "ld-musl-" in loader else ""
    except (OSError, struct.error):
        return ""
    version = re.search(r"^Version ([0-9.]+)", lines, re.MULTILINE)
    return f"musl {version[1]}" if version else ""


def machine():
    """This machine's system, processor and C library, and whether the archive is for it."""
    library = c_library()
    bits = "" if sys.maxsize > 2**32 else ", with a Python of 32 bits"
    name = f"{platform.system()} on {platform.machine()} with {library or 'a C library that is neither glibc nor musl'}{bits}"
    family, _, version = library.partition(" ")
    is_known = name.startswith(("Linux on x86_64 with ", "Linux on aarch64 with ")) and family in FIRST_VERSIONS
    return name, is_known and not bits and [int(part) for part in version.split(".")[:2]] >= FIRST_VERSIONS[family]


found, is_supported = machine()
if not is_supported:
    sys.exit(
        f"firthnapkin is for Linux on x86-64 or aarch64 with glibc 2.17 or later, or musl 1.2 or later, and this machine is {found}"
    )
if not LIBRARY.exists():
    target = f" --target {PROCESSOR}" if PROCESSOR else ""
    sys.exit(f"{LIBRARY} is not there: ./c-library{target} builds it, in the repository's folder")


def extension(name):
    return Extension(
        f"firthnapkin.{name}",
        [f"src/firthnapkin/{name}.c"],
        define_macros=[("Py_LIMITED_API", "0x03090000")],
        include_dirs=[str(folder) for folder in HEADERS],
        extra_objects=[str(LIBRARY)],
        extra_compile_args=["-pthread"],
        extra_link_args=["-pthread"],
        depends=[str(LIBRARY), *(str(path) for folder in [*HEADERS, HERE / "src/firthnapkin"] for path in folder.glob("*.h"))],
        py_limited_api=True,
    )


class BuildWithChanges(build_py):
    """Builds the modules, with the list of changes among them."""

    def run(self):
        super().run()
        self.copy_file(str(CHANGES), os.path.join(self.build_lib, "firthnapkin", CHANGES.name))


setup(
    cmdclass={"build_py": BuildWithChanges},
    version=VERSION.read_text(encoding="utf-8").strip(),
    ext_modules=[extension("_parser"), extension("_graphql_core")],
)
