"""Says which of the tests that an earlier commit had not fail over its sources.

    python3 -m tests.fails_before COMMIT [MODULE..]

Where modules are named, as test_reload, it looks at these alone. It is run in the folder `bridge`, and the variable
OCPI_NODES names the built program. In a copy of the commit stand today's tests, of which each that is new since then is
run. A line for each says whether it fails there, and by what. A test that cannot even be loaded there, since it wants a
module or a name that was not there, fails by that.
"""
import ast
import io
import json
import os
import subprocess
import sys
import tarfile
import tempfile
import unittest
from collections import defaultdict
from collections.abc import Iterator
from concurrent.futures import ThreadPoolExecutor
from pathlib import Path

from .running import end_with_parent

BRIDGE = Path(__file__).resolve().parents[1]
# The seconds that the tests of a class may take, and how many classes are run at once.
MOST_SECONDS = 600
AT_ONCE = 4


def tests_of(module: str, source: str) -> Iterator[tuple[str, str, str]]:
    """Module, class and name of each test of a source, but of those that its classes inherit. Names are compared
    alone, since tests move."""
    for node in ast.parse(source).body:
        if isinstance(node, ast.ClassDef):
            yield from ((module, node.name, each.name) for each in node.body
                        if isinstance(each, (ast.FunctionDef, ast.AsyncFunctionDef)) and each.name.startswith("test_"))


def tests_in(tests: Path) -> set[tuple[str, str, str]]:
    return {found for file in tests.glob("test_*.py") for found in tests_of(file.stem, file.read_text())}


def reason_of(text: str) -> str:
    """What a traceback says in its last line that says something."""
    lines = [line for line in text.splitlines() if line.strip()]
    return lines[-1][:200] if lines else "nothing is told"


def run_here(names: list[str]) -> int:
    """Runs tests in this process, and writes what came of each as soon as it is known."""
    for name in names:
        result = unittest.TestResult()
        unittest.defaultTestLoader.loadTestsFromName(name).run(result)
        faults = [reason_of(text) for _, text in (*result.failures, *result.errors)]
        print(json.dumps([name, "skipped" if result.skipped else "fails" if faults else "passes",
                          faults[0] if faults else ""]), flush=True)
    return 0


def run_class(names: list[str], bridge: Path) -> list[list[str]]:
    """Runs tests in a process of its own over a bridge: of each its name, what came of it, and why."""
    with tempfile.TemporaryFile("w+") as told, open(os.devnull, "w") as nothing:
        process = subprocess.Popen([sys.executable, "-m", "tests.fails_before", "--run", *names], cwd=bridge,
                                   stdout=told, stderr=nothing, start_new_session=True, preexec_fn=end_with_parent)
        try:
            process.wait(MOST_SECONDS)
        except subprocess.TimeoutExpired:
            process.kill()
            process.wait()
        told.seek(0)
        came: list[list[str]] = [json.loads(line) for line in told if line.startswith('["tests.')]
    missing = [name for name in names if name not in {each[0] for each in came}]
    return came + [[name, "fails", f"no end within {MOST_SECONDS} s of its class"] for name in missing]


def main(commit: str, modules: list[str]) -> int:
    with tempfile.TemporaryDirectory() as folder:
        archive = subprocess.check_output(["git", "archive", commit], cwd=BRIDGE.parent)
        tarfile.open(fileobj=io.BytesIO(archive)).extractall(folder)
        bridge = Path(folder) / "bridge"
        before = {test for _, _, test in tests_in(bridge / "tests")}
        new = sorted(found for found in tests_in(BRIDGE / "tests") if found[2] not in before
                     and (not modules or found[0] in modules))
        subprocess.run(["rm", "-r", bridge / "tests"], check=True)
        subprocess.run(["cp", "-r", BRIDGE / "tests", bridge / "tests"], check=True)
        classes: dict[str, list[str]] = defaultdict(list)
        for module, name, test in new:
            classes[f"tests.{module}.{name}"].append(f"tests.{module}.{name}.{test}")
        with ThreadPoolExecutor(AT_ONCE) as pool:
            came = [each for found in pool.map(lambda names: run_class(names, bridge), classes.values())
                    for each in found]
    for name, word, reason in came:
        print(f"{word}: {name}{f': {reason}' if reason else ''}")
    words = [word for _, word, _ in came]
    print(f"{len(came)} new tests since {commit}: {words.count('fails')} fail there, {words.count('passes')} pass, "
          f"{words.count('skipped')} are skipped")
    return 0


if __name__ == "__main__":
    sys.exit(run_here(sys.argv[2:]) if sys.argv[1] == "--run" else main(sys.argv[1], sys.argv[2:]))
