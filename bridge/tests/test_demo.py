"""The demonstration: what it prints, to the byte, and that nothing of it runs on."""
import os
import signal
import subprocess
import tempfile
import unittest
from pathlib import Path

from .running import PROGRAM, REPOSITORY

DEMO = REPOSITORY / "bridge" / "demo"
# One charge of 12 kWh, at the 0.25 EUR a kWh of examples/play/charge/in.jsonl.
PRINTED = """\
The operator BE/BEC runs: a bridge and its node.
The provider NL/TNM runs likewise.
Charge point CP1 is connected to BE/BEC.
NL/TNM has given a driver the token AA01, and BE/BEC knows it.
NL/TNM orders a session at EVSE E1, and it begins.
The car is full: 12.0000 kWh, 3.0000 EUR.
NL/TNM orders it to stop. The session is COMPLETED.
NL/TNM has the bill: 12.0000 kWh, 3.0000 EUR.
"""
SETTLED = """\
The store of BE/BEC says: owed BE/BEC EUR 3.0000
The store of NL/TNM says: owed BE/BEC EUR 3.0000
"""


class DemoTest(unittest.TestCase):
    def setUp(self) -> None:
        folder = tempfile.TemporaryDirectory()
        self.addCleanup(folder.cleanup)
        self.folder = Path(folder.name)

    def start(self, *words: str) -> "subprocess.Popen[str]":
        """Starts it with a folder for temporary files of its own, in which its processes can be told by their words."""
        process = subprocess.Popen([DEMO, *words], stdout=subprocess.PIPE, text=True,
                                   env={**os.environ, "OCPI_NODES": str(PROGRAM), "TMPDIR": str(self.folder)})
        self.addCleanup(process.kill)
        return process

    def left(self) -> list[str]:
        """What it left: files, and processes that have its folder in their words."""
        processes = [path.parent.name for path in Path("/proc").glob("[0-9]*/cmdline") if self.is_of_demo(path)]
        return [*(path.name for path in self.folder.iterdir()), *processes]

    def is_of_demo(self, words: Path) -> bool:
        try:
            return str(self.folder).encode() in words.read_bytes()
        except OSError:
            return False

    def test_a_charge_is_told_to_the_byte(self) -> None:
        self.try_charge()
        self.try_charge("--ocpp", "2.0.1")

    def try_charge(self, *words: str) -> None:
        """What it prints is what the page of operations shows."""
        process = self.start(*words)
        printed, _ = process.communicate(timeout=150)
        self.assertEqual((printed, process.returncode), (PRINTED + SETTLED, 0))
        self.assertIn(f"```\n{printed}```\n", (REPOSITORY / "bridge" / "README.md").read_text())
        self.assertEqual(self.left(), [])

    def test_it_stays_until_it_is_interrupted(self) -> None:
        process = self.start("--stay")
        assert process.stdout is not None
        printed = [process.stdout.readline() for _ in range(9)]
        self.assertEqual("".join(printed[:8]), PRINTED)
        self.assertRegex(printed[8], r"^The pages are http://127\.0\.0\.1:\d+/ and http://127\.0\.0\.1:\d+/\.")
        self.assertNotEqual(self.left(), [])
        process.send_signal(signal.SIGINT)
        printed_last, _ = process.communicate(timeout=60)
        self.assertEqual((printed_last, process.returncode), (SETTLED, 0))
        self.assertEqual(self.left(), [])

    def test_other_words_are_refused(self) -> None:
        done = subprocess.run([DEMO, "--go"], capture_output=True, timeout=30)
        self.assertEqual((done.returncode, done.stdout), (2, b""))


if __name__ == "__main__":
    unittest.main()
