"""What an installed package says of itself: its licence, its pages, and the Pythons that it is for."""

import os
import unittest
from importlib.metadata import metadata

import firthnapkin


class Metadata(unittest.TestCase):
    def test_pages(self) -> None:
        """Each page that a registry shows is at an address below that of the homepage."""
        found = metadata("firthnapkin")
        homepage = found["Home-page"]
        self.assertRegex(homepage, r"^https://[^/\s]+\S*[^/\s]$")
        pages = dict(line.split(", ") for line in found.get_all("Project-URL") or [])
        wanted = {"Changelog": "/changelog", "Issues": "/issues", "Source": "/source"}
        self.assertEqual(pages, {name: homepage + page for name, page in wanted.items()})

    def test_what_it_is(self) -> None:
        found = metadata("firthnapkin")
        names = ("Name", "Version", "License", "Requires-Python")
        self.assertEqual([found[name] for name in names], ["firthnapkin", firthnapkin.__version__, "BSD-2-Clause", ">=3.9"])
        self.assertIsNone(found.get_all("Requires-Dist"))

    def test_changes(self) -> None:
        """The package has the list of changes, of which the first are those of its version."""
        with open(os.path.join(os.path.dirname(firthnapkin.__file__), "CHANGELOG.md"), encoding="utf-8") as file:
            self.assertTrue(file.read().startswith(f"# Changelog\n\n## {firthnapkin.__version__}"))
