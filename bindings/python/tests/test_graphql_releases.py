"""In graphql-core's place: what is said if another release than one of 3.2 is installed, or one with other nodes."""

import unittest

from helpers import process, require_graphql_core


class OtherReleases(unittest.TestCase):
    """Another release, or one with other nodes, is reported when firthnapkin.graphql_core is imported."""

    def import_error(self, before: str) -> str:
        """The error of the import, after a program's first lines."""
        found = process(
            f"{before}\ntry: import firthnapkin.graphql_core\nexcept ImportError as error: print(error)\nelse: print('imported')\n"
        )
        self.assertEqual((found.returncode, found.stderr), (0, b""))
        return found.stdout.decode().strip()

    def test_other_versions(self) -> None:
        """graphql-core 2 has neither version_info nor most of the names that are used of 3.2."""
        for attributes, version in [
            ("__version__='2.3.2', VERSION=(2, 3, 2, 'final', 0)", "2.3.2"),
            ("__version__='3.1.7', version_info=(3, 1, 7)", "3.1.7"),
            ("__version__='3.3.0a6', version_info=(3, 3, 0)", "3.3.0a6"),
            ("", "a package without a version"),
        ]:
            fake = f"import sys, types\nsys.modules['graphql'] = types.ModuleType('graphql')\nvars(sys.modules['graphql']).update({attributes})"
            self.assertEqual(self.import_error(fake), f"firthnapkin.graphql_core is for graphql-core 3.2, not {version}")

    def test_no_version_at_all(self) -> None:
        self.assertIn("graphql", self.import_error("import sys\nsys.modules['graphql'] = None"))

    def test_other_attributes(self) -> None:
        """Further attributes that a request's nodes don't have are None. Others, and missing ones, are reported."""
        require_graphql_core()
        import graphql

        begin = "from graphql.language import ast\nnode = ast.FieldNode\nclass Five:\n    def __set__(self, it, value): pass\n"
        begin += "    def __get__(self, it, owner=None): return 5\n"
        known = f"firthnapkin.graphql_core does not know the nodes of graphql-core {graphql.version}: FieldNode"
        for change, wanted in [
            ("node.nullability = None; node.keys += ('nullability',)", "imported"),
            ("node.nullability = Five(); node.keys += ('nullability',)", f"{known} has nullability"),
            ("node.keys = tuple(key for key in node.keys if key not in ('alias', 'arguments'))", f"{known} lacks alias, arguments"),
        ]:
            with self.subTest(change=change):
                self.assertEqual(self.import_error(begin + change), wanted)

    def test_further_attributes_are_none(self) -> None:
        require_graphql_core()
        found = process(
            "from graphql.language import ast, parse\n"
            "for node in (ast.FieldNode, ast.DocumentNode, ast.NonNullTypeNode):\n"
            "    node.nullability, node.more = None, None\n"
            "    node.keys += ('nullability', 'more')\n"
            "from firthnapkin import graphql_core\n"
            "text = 'query($a: Int!) { a }'\n"
            "found = graphql_core.parse(text)\n"
            "nodes = found, found.definitions[0].selection_set.selections[0], found.definitions[0].variable_definitions[0].type\n"
            "print(found == parse(text), hash(found) == hash(parse(text)), [vars(node)['more'] for node in nodes])\n"
        )
        self.assertEqual((found.stdout, found.stderr), (b"True True [None, None, None]\n", b""))

    def test_unknown_count(self) -> None:
        require_graphql_core()
        import graphql

        change = "from graphql.language.parser import Parser\nown = Parser.parse_document\ndef parse(self):\n    found = own(self)\n"
        change += "    found.token_count = 4\n    return found\nParser.parse_document = parse"
        wanted = f"firthnapkin.graphql_core does not know how graphql-core {graphql.version} counts tokens"
        self.assertEqual(self.import_error(change), wanted)
