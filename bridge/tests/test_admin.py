"""The admin addresses of a provider and an operator."""
import asyncio
import json
import os
import random
import re
import signal
import subprocess
import tempfile
import unittest
from pathlib import Path
from typing import Any

import aiohttp

from ocpi_bridge.admin.feeding import EVENTS
from ocpi_bridge.json_text import Members
from ocpi_bridge.metrics import METRICS

from .running import PROGRAM, REPOSITORY, RunningBridge, charge_point, eventually, operator, partner, provider

SETUP = [operator("BE/BEC", ["E1", "E2"]), provider("NL/TNM")]
NOBODY = "http://127.0.0.1:9/ocpi/versions"
TOKEN = {"country_code": "NL", "party_id": "TNM", "uid": "AA01", "type": "RFID", "contract_id": "NL-TNM-000001",
         "issuer": "TNM", "valid": True, "whitelist": "ALWAYS", "last_updated": "2025-01-01T09:00:00Z"}
START = {"operator": "BE/BEC", "order": "start_session", "token_uid": "AA01", "token_type": "RFID",
         "location_id": "LOC1", "evse_uid": "E1"}


class AdminTest(unittest.IsolatedAsyncioTestCase):
    """One bridge whose partner is never there."""

    party = "NL/TNM"

    async def asyncSetUp(self) -> None:
        folder = tempfile.TemporaryDirectory()
        self.addCleanup(folder.cleanup)
        self.folder = Path(folder.name)
        other = "BE/BEC" if self.party == "NL/TNM" else "NL/TNM"
        points = [charge_point("CP1", ["E1", "E2"])] if self.party == "BE/BEC" else None
        self.bridge = RunningBridge(self.folder / "bridge", SETUP, self.party,
                                    [partner(other, "node", "theirs", "ours", NOBODY)], points)
        self.addCleanup(self.bridge.kill)
        await self.bridge.start()

    async def get_metric(self, name: str) -> float:
        """The number of a metric that has no labels."""
        text = await self.bridge.admin_get("/metrics")
        return float([line.split()[1] for line in text.splitlines() if line.startswith(name + " ")][0])

    async def status_of(self, method: str, path: str, **request: Any) -> int:
        """The status of a request that is refused. Each refusal says why, in JSON."""
        async with aiohttp.ClientSession() as session:
            async with session.request(method, self.bridge.admin_url + path, **request) as response:
                self.assertTrue((await response.json())["error"])
                return response.status

    async def next_event(self, events: aiohttp.ClientResponse) -> Members:
        while True:
            line = await asyncio.wait_for(events.content.readline(), 10)
            if line.startswith(b"data: "):
                told: Members = json.loads(line[6:])
                return told


class ProviderTest(AdminTest):
    async def test_tokens_and_orders_are_fed_and_shown(self) -> None:
        saved = await self.bridge.admin_post("/tokens", TOKEN)
        self.assertEqual(saved["status"], 200)
        self.assertEqual([saved["answer"]["done"]["done"], saved["answer"]["done"]["packets"]], ["stepped", 1])
        self.assertEqual(saved["answer"]["packets"][0]["kind"], "put_token")
        ordered = await self.bridge.admin_post("/orders", {**START, "event": "credit", "at": "1970-01-01T00:00:00Z"})
        packet = ordered["answer"]["packets"][0]
        self.assertEqual((packet["kind"], packet["to"], packet["request"]), ("start_session", "BE/BEC", 2))
        self.assertEqual([token["uid"] for token in await self.bridge.admin_get("/tokens")], ["AA01"])
        commands = await self.bridge.admin_get("/commands")
        self.assertEqual([(command["kind"], command["response"], command["result"]) for command in commands],
                         [("start_session", None, None)])
        self.assertEqual(await self.get_metric("ocpi_open_commands"), 1)
        self.assertEqual(await self.get_metric("ocpi_unacknowledged_pushes"), 1)
        told = (await self.bridge.admin_get("/partners"))[0]
        self.assertIn((told.pop("state"), told.pop("waiting")), [
            (state, waiting) for state in ("FAILING", "ANSWERING") for waiting in range(3)])
        self.assertEqual(told, {"party": "BE/BEC", "kind": "node", "registered": True, "versions_url": NOBODY})
        self.assertRegex(commands[0]["at"], r"^20\d\d-\d\d-\d\dT.*Z$")
        self.assertEqual([await self.bridge.admin_get(path) for path in ("/sessions", "/cdrs", "/charge_points")],
                         [[], [], []])

    async def test_no_order_is_lost_or_given_twice_where_the_node_is_killed(self) -> None:
        """Each is answered 200, or 504 where what came of it was lost; after either it was given once."""
        await self.bridge.admin_post("/tokens", TOKEN)
        drawn = random.Random(7)

        async def kill_node() -> bool:
            try:
                await self.bridge.admin_get("/health")
                os.kill(self.bridge.node_pid(), signal.SIGKILL)
            except (AssertionError, ProcessLookupError):
                return False
            return True

        async def kill_nodes() -> None:
            for _ in range(6):
                await asyncio.sleep(drawn.uniform(0.05, 0.5))
                await eventually(kill_node, "the node is open")

        killing = asyncio.create_task(kill_nodes())
        statuses: list[int] = []
        while not killing.done() or len(statuses) < 20:
            statuses.append((await self.bridge.admin_post("/orders", START))["status"])
        await killing
        self.assertLessEqual(set(statuses), {200, 504})
        self.assertGreaterEqual(await self.get_metric("ocpi_node_restarts_total"), 5)

        async def all_given() -> bool:
            return len(await self.bridge.admin_get("/commands")) >= len(statuses)
        await eventually(all_given, "each order is in the list")
        numbers = [command["number"] for command in await self.bridge.admin_get("/commands")]
        self.assertEqual(numbers, list(range(len(statuses) + 1, 1, -1)))

    async def test_what_the_node_refuses_changes_nothing(self) -> None:
        for body, status, name in ((START, 409, "UnknownToken"),
                                   ({**START, "operator": "DE/XXX"}, 409, "UnknownOperator"),
                                   ({"operator": "BE/BEC", "order": "start_session"}, 400, "Missing")):
            refused = await self.bridge.admin_post("/orders", body)
            self.assertEqual((refused["status"], refused["answer"]["done"]["name"]), (status, name))
            self.assertIn(name, refused["answer"]["error"])
        refused = await self.bridge.admin_post("/tokens", {**TOKEN, "party_id": "XXX"})
        self.assertEqual((refused["status"], refused["answer"]["done"]["name"]), (409, "NotForMe"))
        self.assertEqual(await self.bridge.admin_get("/tokens"), [])
        self.assertEqual(await self.get_metric("ocpi_open_commands"), 0)

    async def test_requests_of_other_sites_and_wrong_forms(self) -> None:
        url = self.bridge.admin_url
        for host in ("attacker.example", "127.0.0.1.attacker.example:80", "[::1", "10.0.0.1"):
            self.assertEqual(await self.status_of("GET", "/tokens", headers={"Host": host}), 403)
        for host in ("localhost:8103", "[::1]:8103", "127.0.0.1"):
            async with aiohttp.ClientSession() as session:
                async with session.get(url + "/tokens", headers={"Host": host}) as response:
                    self.assertEqual(response.status, 200)
        for origin in ("http://attacker.example", "null", url.replace("http", "https")):
            self.assertEqual(await self.status_of("POST", "/tokens", json=TOKEN, headers={"Origin": origin}), 403)
        # As a partner's bridge sends it, to whom this address was told as its partner's.
        of_bridge = {"Authorization": "Token c2VjcmV0"}
        self.assertEqual(await self.status_of("POST", "/tokens", json=TOKEN, headers=of_bridge), 403)
        self.assertEqual(await self.status_of("POST", "/tokens", data=json.dumps(TOKEN)), 415)
        json_type = {"Content-Type": "application/json"}
        for body in ("", "{", "[]", "[" * 5000, "\xff"):
            sent = body.encode("latin-1")
            self.assertEqual(await self.status_of("POST", "/tokens", data=sent, headers=json_type), 400)
        self.assertEqual(await self.status_of("POST", "/tokens", data="[" * 2_000_000, headers=json_type), 413)
        self.assertEqual(await self.status_of("POST", "/credits", json={"session_id": "S"}), 409)
        self.assertEqual(await self.status_of("POST", "/service", json={"evse_uid": "E1", "in_service": False}), 409)
        self.assertEqual(await self.status_of("GET", "/nothing"), 404)
        self.assertEqual(await self.status_of("GET", "/orders"), 405)
        self.assertEqual(await self.bridge.admin_get("/tokens"), [])
        async with aiohttp.ClientSession() as session:
            async with session.post(url + "/tokens", json=TOKEN, headers={"Origin": url}) as response:
                self.assertEqual(response.status, 200)

    async def test_the_page_is_told_at_once_and_when_something_changed(self) -> None:
        async with aiohttp.ClientSession() as session:
            async with session.get(self.bridge.admin_url + "/") as page:
                policy = page.headers["Content-Security-Policy"]
                self.assertIn("default-src 'none'", policy)
                self.assertNotIn("unsafe", policy)
            async with session.get(self.bridge.admin_url + "/events") as events:
                told = await self.next_event(events)
                self.assertEqual(told["tokens"], [])
                self.assertEqual(list(told), ["party", "is_operator", "sessions", "cdrs", "partners", "operators",
                                              "offers", "tokens", "commands", "owed"])
                await self.bridge.admin_post("/tokens", TOKEN)
                self.assertEqual((await self.next_event(events))["tokens"][0]["uid"], "AA01")
                self.assertEqual(await self.bridge.stop(), 0)


class OperatorTest(AdminTest):
    party = "BE/BEC"

    async def test_backup_waits_for_nothing_and_is_whole(self) -> None:
        """The copy is made of a node that has ended: one file of the store, which `settle` reads."""
        await self.bridge.admin_post("/service", {"evse_uid": "E1", "in_service": False})
        copy = self.folder / "copy"
        made, fed = await asyncio.gather(
            self.bridge.admin_post("/backup", {"to": str(copy)}),
            self.bridge.admin_post("/service", {"evse_uid": "E2", "in_service": False}))
        self.assertEqual((made["status"], fed["status"]), (200, 200))
        before = (copy / "store.db").read_bytes()
        settled = subprocess.run([PROGRAM, "settle", copy / "store.db"], capture_output=True, timeout=30)
        self.assertEqual((settled.returncode, settled.stdout), (0, b""))
        for to, status in ((copy, 409), (copy / "store.db", 409), (self.folder / "none" / "a", 409), ("copy", 400)):
            self.assertEqual(await self.status_of("POST", "/backup", json={"to": str(to)}), status)
        self.assertEqual((copy / "store.db").read_bytes(), before)
        self.assertEqual(sorted(path.name for path in self.folder.iterdir()), ["bridge", "copy"])
        credited = await self.bridge.admin_post("/credits", {"session_id": "S"})
        self.assertEqual((credited["status"], credited["answer"]["done"]["done"]), (404, "idle"))

    async def test_the_page_is_told_all(self) -> None:
        async with aiohttp.ClientSession() as session:
            async with session.get(self.bridge.admin_url + "/events") as events:
                told = await self.next_event(events)
        self.assertEqual(list(told), ["party", "is_operator", "sessions", "cdrs", "partners", "evses", "charge_points",
                                      "warnings", "commands"])
        self.assertEqual([(one["party"], one["state"], one["waiting"]) for one in told["partners"]],
                         [("NL/TNM", "ANSWERING", 0)])
        connector = {"connector_id": "1", "status": None, "error": None, "in_service": True}
        self.assertEqual(told["charge_points"], [
            {"id": "CP1", "connected": False, "last_message": None, "error": None, "connectors": [
                {"connector": 1, "evse_uid": "E1", **connector}, {"connector": 2, "evse_uid": "E2", **connector}]}])
        self.assertEqual(await self.status_of("GET", "/totals?date_from=2025-01-01T00:00:00Z"), 400)
        self.assertEqual(await self.status_of("GET", "/totals?date_from=a&date_to=b"), 400)

    async def test_service_orders_metrics_and_health(self) -> None:
        told = await self.bridge.admin_post("/service", {"evse_uid": "E1", "in_service": False})
        self.assertEqual((told["status"], told["answer"]["done"]["done"]), (200, "stepped"))
        again = await self.bridge.admin_post("/service", {"evse_uid": "E1", "in_service": False})
        self.assertEqual(again["answer"]["done"]["done"], "idle")
        self.assertEqual(await self.status_of("POST", "/service", json={"evse_uid": "E1"}), 400)
        self.assertEqual(await self.status_of("POST", "/orders", json=START), 409)
        self.assertEqual(await self.status_of("POST", "/tokens", json=TOKEN), 409)
        self.assertEqual([point["id"] for point in await self.bridge.admin_get("/charge_points")], ["CP1"])
        text = await self.bridge.admin_get("/metrics")
        for name, (kind, *_) in METRICS.items():
            self.assertIn(f"# TYPE {name} {kind}\n", text)
        self.assertIn('ocpi_lines_total{done="stepped"} 1.0\n', text)
        health = await self.bridge.admin_get("/health")
        self.assertEqual([True, "open"], [health["healthy"], health["node"]])
        newest = re.search(r"^## (.+)$", (REPOSITORY / "CHANGELOG.md").read_text(), re.MULTILINE)
        self.assertEqual(newest and newest[1], health["version"])
        self.assertEqual(["store", "state", "transcript"], list(health["free_bytes"]))
        self.assertGreater(min(health["free_bytes"].values()), 0)

    async def test_each_address_stands_in_the_openapi_page(self) -> None:
        """Each that the server has a route for, and no other one."""
        page = await self.bridge.admin_get("/openapi.json")
        listed = {(method.upper(), path) for path, methods in page["paths"].items() for method in methods}
        source = (REPOSITORY / "bridge" / "ocpi_bridge" / "admin" / "server.py").read_text()
        routed = {(method.upper(), path) for method, path in re.findall(r'web\.(get|post)\("(/[\w.]*)"', source)}
        lists = ("/cdrs", "/charge_points", "/commands", "/locations", "/partners", "/sessions", "/tariffs", "/tokens")
        self.assertEqual({*routed, *(("POST", path) for path in EVENTS), *(("GET", path) for path in lists)}, listed)
        names = set(re.findall(r'"#/components/schemas/(\w+)"', json.dumps(page)))
        self.assertEqual(set(page["components"]["schemas"]), names)
        async with aiohttp.ClientSession() as session:
            for method, path in listed:
                async with session.request(method, self.bridge.admin_url + path) as response:
                    self.assertNotIn(response.status, (404, 405), path)


if __name__ == "__main__":
    unittest.main()
