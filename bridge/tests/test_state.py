"""The state: files of earlier bridges, what is forgotten, and a disk that is slow."""
import asyncio
import os
import shutil
import sqlite3
import tempfile
import threading
import time
import unittest
from contextlib import closing
from pathlib import Path
from unittest import mock

from ocpi_bridge.clock import Clock
from ocpi_bridge.configuration import NodeSettings, PartnerSettings
from ocpi_bridge.events import Events, Packet
from ocpi_bridge.metrics import Metrics
from ocpi_bridge.node.revocable import RevocableFeeder
from ocpi_bridge.ocpi.exchange import Exchange
from ocpi_bridge.ocpi.partners import Partner, Partners
from ocpi_bridge.ocpi.requests import Requests, SentOnce
from ocpi_bridge.state import State, WrongState

from .client_cases import configuration
from .ocpi_party import OcpiParty
from .running import PROGRAM
from .test_feeder import SETUP, charge_of_a_car, within

BEFORE = Path(__file__).with_name("state_of_before.sql")
# What a bridge of before kept, of NL/TNM and its operators.
ROWS = """
INSERT INTO value_of VALUES ('last_request', '12'), ('node.serial', '40'), ('sent BE/BEC/7', ''),
    ('sent BE/BEC/8', '{"from":"BE/BEC"}'), ('pulled sessions of BE/BEC', '1700000000000'),
    ('partner BE/BEC', '{"offer":null,"token":"given","their_token":"theirs","versions_url":"http://be/versions",'
     || '"former":"older","used":"ours","details_of":"http://be/versions",'
     || '"endpoints":[["commands","RECEIVER","http://be/commands"]]}'),
    ('partner DE/OTR', '{"offer":"offered"}'), ('ocpp.status E1', 'Faulted'), ('ocpp.service E1', 'owner'),
    ('ocpp.service E2', 'in'), ('ocpp.uid 0123456789ABCDEF0123', 'a long uid of a token');
INSERT INTO request_number VALUES ('BE/BEC', 'old', 3), ('BE/BEC', 'both', 4);
INSERT INTO request_digest VALUES ('BE/BEC', 'both', x'01', 5);
INSERT INTO response_url VALUES ('BE/BEC', 9, 'http://be/results/9');
INSERT INTO ocpp_command (provider, number, kind) VALUES ('BE/BEC', 1, 'start_session');
"""


def packet(request: int, kind: str = "start_session") -> Packet:
    return Packet("NL/TNM", "BE/BEC", request, request, kind, {})


class FilesOfBefore(unittest.TestCase):
    """Today's file is made of each of them, with all that they have."""

    def setUp(self) -> None:
        folder = tempfile.TemporaryDirectory()
        self.addCleanup(folder.cleanup)
        self.folder = Path(folder.name)

    def opened(self, name: str) -> State:
        state = State(self.folder / name)
        self.addCleanup(state.close)
        return state

    def before(self, *statements: str) -> State:
        """The state of a file of before, in which some statements were carried out, too."""
        with closing(sqlite3.connect(self.folder / "before.db")) as connection:
            connection.executescript(BEFORE.read_text() + ROWS + ";".join(statements))
        return self.opened("before.db")

    def test_what_was_kept_is_there(self) -> None:
        state = self.before()
        settings = PartnerSettings("BE/BEC", "ocpi", "ours", None, None)
        partners = Partners(configuration(self.folder, False, settings), state)
        self.assertEqual(["BE/BEC"], [partner.party for partner in partners.sharing("older")])
        partner, = partners.sharing("given")
        self.assertEqual(("theirs", "http://be/versions", {("commands", "RECEIVER"): "http://be/commands"}, True),
                         (partner.their_token, partner.versions_url, partner.endpoints, partner.is_registered))
        self.assertEqual([], partners.sharing("ours"))
        self.assertEqual([("DE/OTR", 0, "offered")],
                         state.query("SELECT party, is_decided, offer FROM registration WHERE party = 'DE/OTR'"))
        sent, requests = SentOnce(state), Requests(state)
        self.assertEqual(["", '{"from":"BE/BEC"}', None], [sent.answer(packet(number)) for number in (7, 8, 9)])
        self.assertEqual([3, 5, 13], [requests.number("BE/BEC", *key) for key in (
            ("old", b"\2"), ("both", b"\1"), ("both", b"\2"))])
        self.assertEqual("http://be/results/9", requests.url("BE/BEC", 9))
        self.assertEqual([("BE/BEC", "sessions", 1_700_000_000_000)],
                         state.query("SELECT party, module, latest FROM list_pulled"))
        self.assertEqual([("E1", "Faulted", "owner"), ("E2", None, "in")],
                         state.query("SELECT evse_uid, status, service FROM ocpp_evse ORDER BY 1"))
        self.assertEqual([("0123456789ABCDEF0123", "a long uid of a token")],
                         state.query("SELECT id_tag, token_uid FROM ocpp_id_tag"))
        self.assertEqual([("last_request",), ("node.serial",)], state.query("SELECT name FROM value_of ORDER BY name"))

    def test_it_has_the_tables_of_a_new_file(self) -> None:
        new, states = self.opened("new.db"), [self.before("ALTER TABLE ocpp_command DROP COLUMN until")]
        with closing(sqlite3.connect(self.folder / "older.db")) as connection:
            # One that lacks tables, too.
            connection.executescript("CREATE TABLE value_of (name TEXT PRIMARY KEY, value TEXT NOT NULL)")
        states.append(self.opened("older.db"))
        tables = [name for name, in new.query("SELECT name FROM sqlite_master ORDER BY name")]
        for state in states:
            self.assertEqual(tables, [name for name, in state.query("SELECT name FROM sqlite_master ORDER BY name")])
            self.assertEqual(new.query("PRAGMA user_version"), state.query("PRAGMA user_version"))
            for name in tables:
                wanted, found = ([row[1:] for row in each.query(f"PRAGMA table_info({name})")] for each in (new, state))
                self.assertEqual(wanted, found, name)

    def test_a_table_that_is_new_needs_no_other_version(self) -> None:
        state = self.opened("new.db")
        state.query("DROP TABLE answer_given")
        state.close()
        self.assertEqual([], self.opened("new.db").query("SELECT key FROM answer_given"))

    def test_a_file_is_brought_on_whole_or_not_at_all(self) -> None:
        with self.assertRaises(sqlite3.IntegrityError):
            self.before("CREATE TRIGGER no BEFORE DELETE ON value_of BEGIN SELECT RAISE(ABORT, 'no'); END")
        with closing(sqlite3.connect(self.folder / "before.db")) as connection:
            self.assertEqual([(0,)], connection.execute("PRAGMA user_version").fetchall())
            self.assertEqual([(2,)], connection.execute("SELECT count(*) FROM request_number").fetchall())

    def test_a_file_of_a_later_bridge_is_refused(self) -> None:
        state = self.opened("new.db")
        state.query("PRAGMA user_version = 3")
        state.close()
        with self.assertRaisesRegex(WrongState, "a later bridge made this file: its version is 3"):
            State(self.folder / "new.db")

    def test_what_is_settled_for_30_days_goes(self) -> None:
        state, now = self.opened("new.db"), time.time()
        requests, day = Requests(state), 86_400
        requests.number("BE/BEC", "one", b"\1")
        for number in (1, 2):
            requests.keep_url("NL/TNM", number, "http://nl/results")
        state.query("INSERT INTO push_that_waits (receiver, subject, request)"
                    " VALUES ('NL/TNM', 'command_result HTTPS://NODE.INVALID/NL/TNM/2', 5)")
        SentOnce(state).keep(packet(7), "")
        self.assertFalse(requests.forget(now + 29 * day))
        self.assertTrue(requests.forget(now + 31 * day))
        self.assertFalse(requests.forget(now + 31 * day))
        self.assertEqual([], state.query("SELECT number FROM request_digest"))
        self.assertEqual([(2,)], state.query("SELECT number FROM response_url"))
        self.assertEqual("", SentOnce(state).answer(packet(7)))


class SlowDisk(unittest.IsolatedAsyncioTestCase):
    """Each time that something has to be on the disk takes seconds."""

    async def asyncSetUp(self) -> None:
        folder = tempfile.TemporaryDirectory()
        self.addCleanup(folder.cleanup)
        self.folder = Path(folder.name)
        asyncio.get_running_loop().set_debug(False)
        self.state = State(self.folder / "state.db")
        self.addCleanup(self.state.close)

    async def test_all_else_goes_on_while_a_line_is_kept(self) -> None:
        settings = NodeSettings(PROGRAM, "BE/BEC", SETUP, self.folder / "node.db", self.folder / "node.transcript")
        feeder = RevocableFeeder(settings, Events("BE/BEC", Clock()), self.state, Metrics())
        opened, synced = asyncio.Event(), os.fdatasync
        feeder.after_opening.append(opened.set)
        running = asyncio.create_task(feeder.run())
        await within(opened.wait())
        longest = last = 0.0

        async def watch() -> None:
            nonlocal longest, last
            last = time.monotonic()
            while True:
                await asyncio.sleep(0.01)
                longest, last = max(longest, time.monotonic() - last), time.monotonic()

        def sync_slowly(file: int) -> None:
            time.sleep(3)
            synced(file)
        watching = asyncio.create_task(watch())
        with mock.patch.object(os, "fdatasync", sync_slowly):
            began = time.monotonic()
            self.assertEqual("stepped", (await within(feeder.feed(charge_of_a_car()[0]))).word)
            self.assertGreater(time.monotonic() - began, 2.9)
        watching.cancel()
        self.assertLess(longest, 1.5)
        await feeder.stop()
        await within(running)

    async def test_no_request_leaves_before_what_it_rests_on_is_on_the_disk(self) -> None:
        party = OcpiParty("BE/BEC", "CPO", "token")
        await party.start()
        self.addAsyncCleanup(party.close)
        exchange = Exchange(Clock(), Metrics(), self.state.synced)
        self.addAsyncCleanup(exchange.close)
        partner = Partner("BE/BEC", "ocpi", their_token="token", versions_url=party.versions_url)
        may_go, synced = threading.Event(), os.fdatasync

        def sync(file: int) -> None:
            may_go.wait(60)
            synced(file)
        with mock.patch.object(os, "fdatasync", sync):
            SentOnce(self.state).keep(packet(7), "")
            asking = asyncio.create_task(exchange.ask(partner, "GET", party.versions_url))
            await asyncio.sleep(0.5)
            self.assertEqual([], party.requests)
            may_go.set()
            self.assertEqual(200, (await within(asking)).status)
        # Nothing was changed since, so nothing is waited for.
        with mock.patch.object(os, "fdatasync", side_effect=AssertionError):
            self.assertEqual(200, (await within(exchange.ask(partner, "GET", party.versions_url))).status)

    async def test_the_log_is_copied_into_the_file_now_and_then(self) -> None:
        for number in range(1200):
            self.state.set_value(f"value {number}", "x" * 1000)
            if number % 100 == 99:
                await self.state.synced()
        await self.state.synced()
        copy = self.folder / "copy.db"
        shutil.copy(self.folder / "state.db", copy)
        with closing(sqlite3.connect(copy)) as connection:
            self.assertGreaterEqual(connection.execute("SELECT count(*) FROM value_of").fetchall()[0][0], 500)
        self.assertLess((self.folder / "state.db-wal").stat().st_size, 8_000_000)
