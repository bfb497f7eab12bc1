"""Stands between a bridge and the real program, and stops both at a point that a file beside the store names.

The file `STORE.stop` has a point and what stops, at the next line with an event that is no tick, or behind so many of
them as it says, too. The points: `before` the program has the line, `silent` once it has answered and nobody has seen
that, `torn` within the first line that it gives, `begun` where only that is seen, `cut` within its `done`, and `after`
all of it. What stops is the `node`, or the `bridge`: then nothing more is answered, until the input ends.

While there is a file `STORE.hold` no line is handed on. `STORE.fed` has each line that the program was fed.
"""
import json
import os
import signal
import subprocess
import sys
import time
from pathlib import Path


def main() -> None:
    """Hands lines on, one at a time."""
    words = sys.argv[1:]
    program = os.environ["OCPI_NODES"]
    store = words[words.index("--store") + 1]
    node = subprocess.Popen([program, *words], stdin=subprocess.PIPE, stdout=subprocess.PIPE)
    assert node.stdin is not None and node.stdout is not None
    for line in sys.stdin.buffer:
        while Path(store + ".hold").exists():
            time.sleep(0.01)
        point, stops = planned(Path(store + ".stop"), line)
        if point == "before":
            stop(node, stops)
        with open(store + ".fed", "ab") as fed:
            fed.write(line)
        node.stdin.write(line)
        node.stdin.flush()
        given = [node.stdout.readline()]
        while given[-1] and (not given[-1].startswith(b'{"done"') or "event" in json.loads(given[-1])):
            given.append(node.stdout.readline())
        if point not in ("", "after"):
            seen: dict[str, list[bytes]] = {"silent": [], "torn": [given[0][:9]], "begun": given[:1],
                                            "cut": [*given[:-1], given[-1][:9]]}
            given = seen[point]
        sys.stdout.buffer.write(b"".join(given))
        sys.stdout.buffer.flush()
        if point:
            stop(node, stops)
    node.stdin.close()
    sys.exit(node.wait())


def planned(plan: Path, line: bytes) -> tuple[str, str]:
    """The point at which a line is stopped, and what stops there. Both are empty where nothing does."""
    if not has_event(line) or not plan.exists():
        return "", ""
    point, stops, *behind = plan.read_text().split()
    if behind and int(behind[0]) > 0:
        plan.write_text(f"{point} {stops} {int(behind[0]) - 1}")
        return "", ""
    plan.unlink()
    return point, stops


def has_event(line: bytes) -> bool:
    """Whether some event of a line is no tick. The setup has none."""
    given = json.loads(line)
    events = given if isinstance(given, list) else [given]
    return any(event.get("event", "tick") != "tick" for event in events)


def stop(node: "subprocess.Popen[bytes]", stops: str) -> None:
    """Kills the program and this process; where the bridge is to be stopped, only when the input ends."""
    if stops == "bridge":
        sys.stdin.buffer.read()
    node.kill()
    node.wait()
    os.kill(os.getpid(), signal.SIGKILL)


if __name__ == "__main__":
    main()
