"""Says which files, functions and lines of the bridge are larger than is wanted, and how large it is as a whole.

As a whole its lines of code count: those that are neither empty nor a comment nor a docstring.
"""
import ast
import io
import sys
import tokenize
from collections.abc import Iterator
from pathlib import Path

BRIDGE = Path(__file__).resolve().parents[1]
MOST_LINES_OF_FILE = 299
MOST_LINES_OF_FUNCTION = 39
MOST_CHARACTERS = 120
MOST_CODE_WITHOUT_TESTS = 6000
NO_CODE = (tokenize.COMMENT, tokenize.NL, tokenize.NEWLINE, tokenize.INDENT, tokenize.DEDENT, tokenize.ENDMARKER)


def python_files() -> list[Path]:
    """The bridge's Python files, programs without an ending among them."""
    programs = [path for path in BRIDGE.iterdir() if path.is_file() and not path.suffix and is_python(path)]
    return sorted([*BRIDGE.rglob("*.py"), *programs])


def is_python(path: Path) -> bool:
    try:
        ast.parse(path.read_text())
    except SyntaxError:
        return False
    return True


def faults_of(path: Path) -> Iterator[str]:
    """What is too large in a file."""
    name = path.relative_to(BRIDGE)
    lines = path.read_text().splitlines()
    if len(lines) > MOST_LINES_OF_FILE:
        yield f"{name}: {len(lines)} lines"
    for number, line in enumerate(lines, 1):
        if len(line) > MOST_CHARACTERS:
            yield f"{name}:{number}: {len(line)} characters"
    for node in ast.walk(ast.parse("\n".join(lines))):
        if isinstance(node, (ast.FunctionDef, ast.AsyncFunctionDef)):
            length = (node.end_lineno or node.lineno) - node.lineno + 1
            if length > MOST_LINES_OF_FUNCTION:
                yield f"{name}:{node.lineno}: {node.name} has {length} lines"


def lines_of_code(path: Path) -> int:
    """How many lines of a file are neither empty nor a comment nor a docstring."""
    text = path.read_text()
    lines = {line for token in tokenize.generate_tokens(io.StringIO(text).readline) if token.type not in NO_CODE
             for line in range(token.start[0], token.end[0] + 1)}
    for node in ast.walk(ast.parse(text)):
        if isinstance(node, (ast.Module, ast.ClassDef, ast.FunctionDef, ast.AsyncFunctionDef)):
            if ast.get_docstring(node) is not None:
                lines -= set(range(node.body[0].lineno, (node.body[0].end_lineno or 0) + 1))
    return len(lines)


def main() -> int:
    """Writes each fault, and how large the bridge is without its tests. The status is 1 where there are faults."""
    files = python_files()
    faults = [fault for path in files for fault in faults_of(path)]
    counted = sum(lines_of_code(path) for path in files if BRIDGE / "tests" not in path.parents)
    if counted > MOST_CODE_WITHOUT_TESTS:
        faults.append(f"{counted} lines of code without tests, and not at most {MOST_CODE_WITHOUT_TESTS}")
    print("\n".join([*faults, f"{counted} lines of code without tests"]))
    return 1 if faults else 0


if __name__ == "__main__":
    sys.exit(main())
