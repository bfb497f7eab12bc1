"""What the modules of the bridge know of one another."""
import ast
import re
import unittest
from pathlib import Path

SOURCES = Path(__file__).resolve().parents[1] / "ocpi_bridge"
LISTENERS = re.compile(r"\.(before|after)_(commit|opening)\b")


class ModulesTest(unittest.TestCase):
    def test_only_the_application_knows_of_admin(self) -> None:
        for path in SOURCES.rglob("*.py"):
            if path.name != "application.py" and path.parent.name != "admin":
                found = [node.module for node in ast.walk(ast.parse(path.read_text()))
                         if isinstance(node, ast.ImportFrom) and "admin" in (node.module or "").split(".")]
                self.assertEqual([], found, path)

    def test_the_application_alone_says_who_is_told_of_the_node_and_in_which_order(self) -> None:
        found = {str(path.relative_to(SOURCES)) for path in SOURCES.rglob("*.py")
                 if LISTENERS.search(path.read_text()) and path.parent.name != "node"}
        self.assertEqual({"application.py"}, found)


if __name__ == "__main__":
    unittest.main()
