"""Runs all tests of the bridge side by side, a process for each class of tests, and tells what came of them.

Beside them it runs `mypy --strict` of the bridge and of its tests, and looks at sizes (sizes.py). Two runs on one
machine wait for one another, since tests wait in real time. For the same reason a class that fails beside others is run
once more when these have ended, and only what fails by itself too has failed.
"""
import fcntl
import json
import os
import signal
import subprocess
import sys
import tempfile
import time
import unittest
from collections.abc import Iterator
from concurrent.futures import ThreadPoolExecutor
from dataclasses import dataclass, field
from pathlib import Path

from .running import end_with_parent

BRIDGE = Path(__file__).resolve().parents[1]
# The seconds that a process may take, and the lines of one that failed which are shown.
MOST_SECONDS = 900
MOST_LINES = 60
# Tests mostly wait, so more of them run at once than there are processors.
AT_ONCE = 2 * (os.cpu_count() or 1)
# The modules whose tests take longest begin first.
LONGEST = ("tests.test_promise", "tests.test_page", "tests.test_demo", "tests.test_hostile", "tests.test_ocpp_stops")


@dataclass
class Came:
    """What came of a process: how many tests passed and failed, why others were skipped, and what was written."""

    name: str
    passed: int = 0
    failed: int = 0
    skipped: list[str] = field(default_factory=list)
    text: str = ""
    seconds: float = 0.0


def cases(suite: unittest.TestSuite) -> Iterator[unittest.TestCase]:
    """Each test of a suite."""
    for test in suite:
        if isinstance(test, unittest.TestSuite):
            yield from cases(test)
        elif isinstance(test, unittest.TestCase):
            yield test


def class_of(test: unittest.TestCase) -> str:
    """The name of a test's class, or that of its module where the module cannot be imported."""
    name, _, method = test.id().rpartition(".")
    return f"tests.{method}" if name.startswith("unittest.loader.") else name


def classes() -> list[str]:
    """The names of all classes that have tests, those that take longest first."""
    found = unittest.defaultTestLoader.discover(str(BRIDGE / "tests"), top_level_dir=str(BRIDGE))
    names = {class_of(test) for test in cases(found)}
    return sorted(names, key=lambda name: (not name.startswith(LONGEST), name))


def run_one(name: str, report: Path) -> int:
    """Runs the tests of one class in this process, and writes what came of them to a file."""
    suite = unittest.defaultTestLoader.loadTestsFromName(name)
    count = suite.countTestCases()
    result = unittest.TextTestRunner(stream=sys.stdout, verbosity=2).run(suite)
    failed = len({test.id().partition(" ")[0] for test, _ in (*result.failures, *result.errors)})
    skipped = [reason for _, reason in result.skipped]
    if result.testsRun == 0 and skipped:
        skipped = skipped[:1] * count
    passed = max(0, count - failed - len(skipped))
    report.write_text(json.dumps({"passed": passed, "failed": failed, "skipped": skipped}))
    return 0


def run_process(name: str, words: list[str]) -> tuple[int, str]:
    """Runs a process in the folder of the bridge: its status, or -1 where it took too long, and what it wrote."""
    with tempfile.TemporaryFile("w+", errors="replace") as written:
        process = subprocess.Popen([sys.executable, *words], cwd=BRIDGE, stdin=subprocess.DEVNULL, stdout=written,
                                   stderr=subprocess.STDOUT, start_new_session=True, preexec_fn=end_with_parent)
        try:
            status = process.wait(MOST_SECONDS)
        except subprocess.TimeoutExpired:
            os.killpg(process.pid, signal.SIGKILL)
            process.wait()
            status = -1
            written.write(f"{name} took longer than {MOST_SECONDS} s\n")
        written.seek(0)
        return status, written.read()


def run_class(name: str) -> Came:
    """Runs the tests of a class in a process of its own."""
    begun = time.monotonic()
    with tempfile.TemporaryDirectory() as folder:
        report = Path(folder) / "report"
        _, text = run_process(name, ["-m", "tests.suite", "--one", name, str(report)])
        came = json.loads(report.read_text()) if report.exists() else {"failed": 1}
    return Came(name, **came, text=text, seconds=time.monotonic() - begun)


def run_check(name: str, words: list[str]) -> Came:
    """Runs a check of the sources, which counts as one test."""
    begun = time.monotonic()
    if words[:2] == ["-m", "mypy"] and run_process(name, ["-c", "import mypy"])[0] != 0:
        return Came(name, skipped=["this python3 has no mypy"])
    status, text = run_process(name, words)
    return Came(name, int(status == 0), int(status != 0), [], text, time.monotonic() - begun)


def show(came: Came) -> None:
    """Writes a line about a process, and what it wrote where it failed."""
    print(f"{came.name}: {came.passed} passed, {came.failed} failed, {len(came.skipped)} skipped, {came.seconds:.0f} s",
          flush=True)
    if came.failed:
        print("\n".join("    " + line for line in came.text.splitlines()[-MOST_LINES:]), flush=True)


def lock() -> int:
    """Waits until no other run of the tests is under way on this machine. The lock ends with this process."""
    opened = os.open(f"/tmp/ocpi_bridge_tests_{os.getuid()}.lock", os.O_CREAT | os.O_RDWR, 0o600)
    fcntl.flock(opened, fcntl.LOCK_EX)
    return opened


def main() -> int:
    """Runs everything. The status is 0 where nothing failed."""
    lock()
    checks = [("mypy of the bridge", ["-m", "mypy", "--strict", "ocpi_bridge"]),
              ("mypy of the tests", ["-m", "mypy", "--strict", "tests"]), ("sizes", ["-m", "tests.sizes"])]
    with ThreadPoolExecutor(AT_ONCE) as pool:
        running = [pool.submit(run_class, name) for name in classes()]
        running += [pool.submit(run_check, name, words) for name, words in checks]
        came = [each.result() for each in running]
    names = set(classes())
    for place, each in enumerate(came):
        if each.failed and each.name in names:
            show(each)
            print(f"{each.name}: once more, by itself", flush=True)
            came[place] = run_class(each.name)
    for each in came:
        show(each)
    skipped = [reason for each in came for reason in each.skipped]
    for reason in skipped:
        print(f"skipped: {reason}")
    failed = sum(each.failed for each in came)
    print(f"{sum(each.passed for each in came)} passed, {failed} failed, {len(skipped)} skipped")
    return 1 if failed else 0


if __name__ == "__main__":
    sys.exit(run_one(sys.argv[2], Path(sys.argv[3])) if sys.argv[1:2] == ["--one"] else main())
