"""Backups, which have the store and the state together, what may be restored, and a state that was lost."""
import shutil
import sqlite3
from contextlib import closing
from pathlib import Path

from .cases import OperatorCase, ProviderCase
from .charge_point_frames import ChargePoint
from .ocpi_objects import start_session
from .ocpi_party import now
from .running import Members, RunningBridge, eventually


async def status_of_start(bridge: RunningBridge) -> int:
    """The status of a bridge that does not go on."""
    bridge.begin()
    return await bridge.ended()


async def put_back(backup: Path, bridge: RunningBridge) -> None:
    """Kills a bridge, and puts the files of a backup in the places of those that stand there."""
    async def running() -> Path | None:
        try:
            return Path(f"/proc/{bridge.node_pid()}")
        except (AssertionError, OSError):
            return None
    node = await eventually(running, "the node runs")
    bridge.kill()

    async def has_ended() -> bool:
        return not (node / "cmdline").exists() or not (node / "cmdline").read_bytes()
    await eventually(has_ended, "the node ends behind its bridge")
    for file in bridge.folder.glob("*.db*"):
        file.unlink()
    shutil.copy(backup / "store.db", bridge.store)
    shutil.copy(backup / "state.db", bridge.folder / "bridge.db")


class OperatorRestore(OperatorCase):
    """A charge begins before the backup, and ends behind the restore."""

    async def asyncSetUp(self) -> None:
        await super().asyncSetUp()
        self.backup = self.make_folder() / "backup"

    async def back_up(self) -> Members:
        made = await self.bridge.admin_post("/backup", {"to": str(self.backup)})
        self.assertEqual(200, made["status"], made)
        return dict(made["answer"])

    async def begin_charge(self) -> tuple[ChargePoint, int]:
        """A car that charges since a START_SESSION: the charge point, and the transaction."""
        charge_point = await self.begin_charge_point()
        await self.provider.put_token(self.token)
        await self.provider.command("START_SESSION", start_session(self.token, self.response_url("first")))
        identifier, _ = await charge_point.asked("RemoteStartTransaction")
        await charge_point.give(identifier, {"status": "Accepted"})
        started = await charge_point.call("StartTransaction", {
            "connectorId": 1, "idTag": "AA01", "meterStart": 1000, "timestamp": now()})
        await self.version("ACTIVE")
        return charge_point, int(started["transactionId"])

    async def test_a_backup_has_both_files_and_is_for_its_owner_alone(self) -> None:
        made = await self.back_up()
        files = {file.name: file for file in self.backup.iterdir()}
        self.assertEqual({"store.db", "state.db"}, files.keys())
        self.assertEqual(made["bytes"], sum(file.stat().st_size for file in files.values()))
        self.assertEqual({0o600}, {file.stat().st_mode & 0o777 for file in files.values()})
        self.assertEqual(0o700, self.backup.stat().st_mode & 0o777)
        self.assertEqual([self.backup], list(self.backup.parent.iterdir()))

    async def test_a_backup_is_refused_and_where_it_is_restored_the_charge_is_billed_whole(self) -> None:
        charge_point, transaction = await self.begin_charge()
        await self.back_up()
        # What happens now, and no node sees it, is as if it had not.
        await charge_point.call("MeterValues", {"connectorId": 1, "transactionId": transaction, "meterValue": [
            {"timestamp": now(), "sampledValue": [{"value": "1500"}]}]})
        await charge_point.close()
        await put_back(self.backup, self.bridge)
        for _ in range(2):
            self.assertEqual(3, await status_of_start(self.bridge))
        self.assertIn("bridge.db: this is a backup, made at 20", self.bridge.log())
        self.assertIn("--restored", self.bridge.log())
        self.bridge.words = ["--restored"]
        await self.bridge.start()
        await self.provider.command("UNLOCK_CONNECTOR", {
            "response_url": self.response_url("none"), "location_id": "LOC1", "evse_uid": "E3", "connector_id": "1"})
        charge_point = await self.begin_charge_point(statuses=())
        other = await charge_point.call("StartTransaction", {
            "connectorId": 2, "idTag": "NOBODY", "meterStart": 0, "timestamp": now()})
        self.assertGreater(other["transactionId"], transaction + 1_000_000)
        await charge_point.call("StopTransaction", {
            "transactionId": transaction, "meterStop": 1700, "timestamp": now()})
        bill = await self.provider.came("cdrs")
        self.assertEqual(0.7, bill.body["total_energy"])
        self.assertRegex(bill.headers["X-Correlation-ID"], r"^BE/BEC/\d+/\d{10}$")
        self.assertRegex(bill.headers["X-Request-ID"], r"^BE/BEC/\d+/\d{10}$")
        # The word may stay: what was restored once is no backup any more.
        self.assertEqual(0, await self.bridge.stop())
        self.bridge.words = []
        await self.bridge.start()

    async def test_a_backup_is_restored_with_its_own_store_alone(self) -> None:
        await self.back_up()
        await self.begin_charge()
        self.assertEqual(0, await self.bridge.stop())
        (self.bridge.folder / "bridge.db").unlink()
        shutil.copy(self.backup / "state.db", self.bridge.folder / "bridge.db")
        self.bridge.words = ["--restored"]
        for _ in range(2):
            self.assertEqual(3, await status_of_start(self.bridge))
        self.assertIn("the store is not the one that was copied", self.bridge.log())

    async def test_a_new_state_beside_a_store_with_rows_is_refused_and_gives_no_old_answer(self) -> None:
        await self.provider.put_token(self.token)
        self.assertEqual(0, await self.bridge.stop())
        for file in self.bridge.folder.glob("bridge.db*"):
            file.unlink()
        for _ in range(2):
            self.assertEqual(3, await status_of_start(self.bridge))
        self.assertIn("--new-state", self.bridge.log())
        self.bridge.words = ["--new-state"]
        await self.bridge.start()
        blocked = {**self.token, "valid": False, "last_updated": "2025-02-01T10:00:00Z"}
        self.assert_status(await self.provider.put_token(blocked), 200, 1000)
        # The node's own rows say whether it is blocked, and not what the bridge shows.
        self.assertEqual(0, await self.bridge.stop())
        self.assertEqual([False], [valid for valid, in self.rows("json_extract(body, '$.valid')", "token")])
        self.bridge.words = []
        await self.bridge.start()

    def rows(self, what: str, kind: str) -> list[tuple[object, ...]]:
        """What the rows of a kind in the store have."""
        with closing(sqlite3.connect(self.bridge.store)) as store:
            return store.execute(f"SELECT {what} FROM row_text WHERE kind = ?", (kind,)).fetchall()


class ProviderRestore(ProviderCase):
    """The operator that registered goes on by its token, and numbers of requests go on."""

    async def test_tokens_that_were_registered_go_on(self) -> None:
        url = await self.operator.endpoint("credentials", "SENDER")
        changed = await self.operator.ask("PUT", url, self.operator.credentials())
        backup = self.make_folder() / "backup"
        self.operator.bridge_token = changed.data["token"]
        self.assert_status(await self.operator.ask("GET", url), 200, 1000)
        await self.bridge.admin_post("/backup", {"to": str(backup)})
        await put_back(backup, self.bridge)
        self.bridge.words = ["--restored"]
        await self.bridge.start()
        self.assert_status(await self.operator.ask("GET", url), 200, 1000)
