"""Restores the backup of a party whose node has changed nothing since, as its owner would."""
import asyncio
import shutil
import sqlite3
from contextlib import closing
from pathlib import Path

from ..running import RunningBridge

# How often a backup is made anew, since something was changed behind it.
MOST_BACKUPS = 20
REFUSED = 3


async def restore(bridge: RunningBridge, folder: Path) -> None:
    """Makes a backup in a folder, ends the bridge, and starts it over the copies. Raises AssertionError."""
    for number in range(MOST_BACKUPS):
        backup = folder / f"{bridge.folder.name}-{number}"
        answer = await bridge.admin_post("/backup", {"to": str(backup)})
        assert answer["status"] == 200, answer
        status = await bridge.stop()
        assert status in (0, 1), f"{bridge.party} ended with status {status}"
        if last_seen(backup / "state.db") == last_seen(bridge.folder / "bridge.db"):
            break
        await bridge.start()
    else:
        raise AssertionError(f"{bridge.party} does not rest")
    for copy, place in ((backup / "store.db", bridge.store), (backup / "state.db", bridge.folder / "bridge.db")):
        file = place.resolve()
        for beside in file.parent.glob(f"{file.name}*"):
            beside.unlink()
        shutil.copy(copy, file)
    bridge.begin()
    status = await bridge.ended()
    assert status == REFUSED, f"{bridge.party} starts over a backup without a word, status {status}"
    bridge.words = ["--restored"]
    await bridge.start()
    bridge.words = []
    await asyncio.to_thread(shutil.rmtree, backup)


def last_seen(state: Path) -> list[str]:
    """The last line that took hold in a bridge's node, and the serial of its last packet."""
    with closing(sqlite3.connect(f"file:{state.resolve()}?mode=ro", uri=True)) as connection:
        return [value for value, in connection.execute(
            "SELECT value FROM value_of WHERE name IN ('node.number', 'node.serial') ORDER BY name")]
