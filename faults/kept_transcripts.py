"""The transcript that a node keeps in a file, cut as a power cut may leave it, for faults/kill_node.py."""

import json
import os
import random
import subprocess

HERE = os.path.dirname(os.path.realpath(__file__))
OPENED = b'{"done":"opened"'


def make_noter(folder):
    """The object that notes what of a file was synced (faults/note_syncs.c)."""
    path = os.path.join(folder, "note_syncs.so")
    subprocess.run(["cc", "-shared", "-fPIC", "-o", path, f"{HERE}/note_syncs.c", "-ldl"], check=True)
    return path


class Transcript:
    """The file of the transcript of one node, which `weave` must read behind each stop.

    Behind a stop the file is cut where the last sync of it ended well, or at any byte behind that. The store stays as
    it was left, so it may have all that the file lost.
    """

    def __init__(self, program, folder, others, seed):
        self.program, self.others, self.draw, self.noter = program, others, random.Random(seed), make_noter(folder)
        self.file, self.noted = os.path.join(folder, "node.transcript"), os.path.join(folder, "synced")
        self.wrong, self.cuts, self.at_syncs, self.lost, self.unmade = [], 0, 0, 0, 0

    def words(self):
        return ["--transcript", self.file]

    def environment(self):
        return {**os.environ, "LD_PRELOAD": self.noter, "NOTED_FILE": self.file, "NOTED_LENGTH": self.noted}

    def synced(self):
        """How many of its bytes were synced."""
        if not os.path.exists(self.noted):
            return 0
        with open(self.noted, "rb") as file:
            return int.from_bytes(file.read(), "little")

    def text(self):
        with open(self.file, "rb") as file:
            return file.read()

    def cut(self):
        """Cuts the file, and looks whether it is read."""
        if not os.path.exists(self.file):
            self.unmade += 1
            return
        size, synced = os.path.getsize(self.file), self.synced()
        is_at_sync = self.draw.random() < 0.5
        left = synced if is_at_sync else self.draw.randint(synced, size)
        os.truncate(self.file, left)
        self.cuts, self.at_syncs, self.lost = self.cuts + 1, self.at_syncs + (left == synced), self.lost + size - left
        self.weave()

    def weave(self):
        """The events of the run that is woven of the file, where a run in it was opened."""
        if not any(line.startswith(OPENED) and line.endswith(b"}") for line in self.text().split(b"\n")):
            return []
        given = [word for party in self.others for word in ("--given", party)]
        ran = subprocess.run([self.program, "weave", *given, self.file], capture_output=True, check=False)
        if ran.returncode != 0:
            self.wrong.append(f"the transcript is refused: {(ran.stdout + ran.stderr).decode()[:500]}")
        return [json.loads(line) for line in ran.stdout.splitlines()[1:]]

    def end(self, wanted):
        """Looks at the whole file: its mode, whether it is read, and whether it has these events in their order."""
        if os.stat(self.file).st_mode & 0o777 != 0o600:
            self.wrong.append("the transcript is not its owner's alone")
        woven = iter(self.weave())
        for place, event in enumerate(wanted):
            if not any(event == it for it in woven):
                self.wrong.append(f"the transcript has not event {place} of {len(wanted)} that did something: {event}")
                return


def told_of(transcripts):
    """What was done to these transcripts."""
    cuts, at_syncs, lost, unmade = (sum(getattr(it, name) for it in transcripts)
                                    for name in ("cuts", "at_syncs", "lost", "unmade"))
    return (f"{len(transcripts)} transcripts were cut {cuts} times, {at_syncs} of them where they were synced last; "
            f"{lost} bytes were lost, and {unmade} stops came before there was a file")
