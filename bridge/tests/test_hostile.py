"""Hostile input: many requests at once, slow ones, large and broken ones, and parties that answer as none should."""
import asyncio
import json

from .cases import OperatorCase, ProviderCase
from .ocpi_objects import cdr, session, start_session, token
from .ocpi_party import OcpiParty, Reply, gathered


async def held_tokens(party: OcpiParty, uids: list[str]) -> set[str]:
    """Which of these tokens of a party the bridge of an operator holds."""
    url = await party.endpoint("tokens", "RECEIVER")
    replies = await gathered([party.ask("GET", f"{url}/{party.party}/{uid}") for uid in uids])
    return {uid for uid, reply in zip(uids, replies) if reply.http_status == 200 and reply.data["uid"] == uid}


class ManyAtOnce(OperatorCase):
    """Hundreds of requests at the same time."""

    async def test_500_requests_are_all_answered_and_kept(self) -> None:
        uids = [f"T{number}" for number in range(500)]
        await self.provider.endpoint("tokens", "RECEIVER")
        replies = await gathered([self.provider.put_token(token(self.provider.party, uid)) for uid in uids])
        self.assertEqual({1000}, {reply.status_code for reply in replies})
        self.assert_memory()
        self.bridge.kill()
        await self.bridge.start()
        self.assertEqual(set(uids), await held_tokens(self.provider, uids))

    async def test_100_starts_of_one_evse_start_once(self) -> None:
        charge_point = await self.begin_charge_point()
        starts = [start_session(self.token, self.response_url("start")) for _ in range(100)]
        await self.provider.endpoint("commands", "RECEIVER")
        replies = await gathered([self.provider.command("START_SESSION", start) for start in starts])
        self.assertEqual({1000}, {reply.status_code for reply in replies})
        identifier, _ = await charge_point.asked("RemoteStartTransaction")
        await charge_point.give(identifier, {"status": "Accepted"})
        await self.version("PENDING")
        self.assertTrue(charge_point.was_not_asked())
        self.assertEqual(1, len(await self.bridge.admin_get("/sessions")))
        self.assert_memory()

    async def test_requests_of_all_kinds_at_once(self) -> None:
        url = await self.provider.endpoint("tokens", "RECEIVER")
        sessions = await self.provider.endpoint("sessions", "SENDER")
        asked = [self.provider.ask("GET", sessions, token="unknown") for _ in range(100)]
        asked += [self.provider.ask("PUT", f"{url}/NL/PLN/AA01", data=b"{" * 500_000) for _ in range(100)]
        asked += [self.provider.ask("PUT", f"{url}/NL/PLN/AA01", data=b" " * 2_000_000) for _ in range(100)]
        asked += [self.provider.put_token(self.token) for _ in range(200)]
        statuses = [reply.http_status for reply in await gathered(asked)]
        self.assertEqual({401}, set(statuses[:100]))
        self.assertEqual({400}, set(statuses[100:200]))
        self.assertEqual({413}, set(statuses[200:300]))
        self.assertLessEqual(set(statuses[300:]), {200, 201})
        self.assert_memory()

    async def test_large_bodies_at_once(self) -> None:
        """Bodies that take many times their size once they are read."""
        url = await self.provider.endpoint("tokens", "RECEIVER")
        large = [b"[" + b"{}," * 260_000 + b"{}]", b"[" * 100 + b"1," * 400_000 + b"1" + b"]" * 100]
        asked = [self.provider.ask("PUT", f"{url}/NL/PLN/AA01", data=body) for body in large for _ in range(40)]
        asked += [self.provider.put_token({**self.token, "x": "y" * 800_000}) for _ in range(20)]
        replies = await gathered(asked)
        self.assertEqual([2001] * 80 + [1000] * 20, [reply.status_code for reply in replies])
        self.assert_memory()


class ManyBills(ProviderCase):
    """Hundreds of sessions and bills at the same time."""

    async def test_what_was_answered_is_held(self) -> None:
        party = self.operator.party
        sessions = [session(party, self.token, status="COMPLETED", end_date_time="2025-01-01T10:30:00Z")
                    for _ in range(250)]
        bills = [cdr(party, self.token, each["id"]) for each in sessions]
        url = await self.operator.endpoint("cdrs", "RECEIVER")
        asked = [self.operator.put_session(each) for each in sessions]
        replies = await gathered(asked + [self.operator.ask("POST", url, bill) for bill in bills])
        self.assertEqual({1000}, {reply.status_code for reply in replies})
        self.assert_memory()
        self.bridge.kill()
        await self.bridge.start()
        for path, pushed in (("/sessions", sessions), ("/cdrs", bills)):
            held = [each["id"] for each in await self.bridge.admin_get(path)]
            self.assertEqual(sorted(each["id"] for each in pushed), sorted(held))
        await self.bridge.stop()
        self.assertEqual("owed BE/PLO EUR 750.0000\n", self.settle(self.bridge))


class Slow(OperatorCase):
    """Requests that come slowly or never whole. Others are answered meanwhile."""

    async def begin(self, text: bytes) -> tuple[asyncio.StreamReader, asyncio.StreamWriter]:
        """A connection on which this was sent and nothing more."""
        host, _, port = self.bridge.ocpi_url.removeprefix("http://").partition(":")
        reader, writer = await asyncio.open_connection(host, int(port))
        self.addCleanup(writer.close)
        writer.write(text)
        await writer.drain()
        return reader, writer

    async def test_slow_headers_and_bodies(self) -> None:
        headers = "\r\n".join(f"{name}: {value}" for name, value in self.provider.headers().items())
        begun = f"PUT /ocpi/2.2.1/receiver/tokens/NL/PLN/AA01 HTTP/1.1\r\nHost: localhost\r\n{headers}\r\n"
        body = json.dumps(self.token)
        whole = f"{begun}Content-Type: application/json\r\nContent-Length: {len(body)}\r\n\r\n{body}".encode()
        cut = [b"", b"P", whole[:40], whole[:200], whole[:-len(body)], whole[:-10]]
        connections = [await self.begin(part) for part in cut for _ in range(20)]
        for _ in range(5):
            reply = await asyncio.wait_for(self.provider.put_token(self.token), 10)
            self.assert_status(reply, 200, 1000)
        # One that comes in parts, but comes, is answered as any.
        reader, writer = await self.begin(whole[:-10])
        await asyncio.sleep(1)
        writer.write(whole[-10:])
        self.assertIn(b" 200 ", await asyncio.wait_for(reader.readline(), 10))

        async def read(reader: asyncio.StreamReader) -> bytes:
            try:
                return await reader.read()
            except ConnectionError:
                return b""
        # The rest is ended, at the latest, soon after thirty seconds.
        ended = await asyncio.wait_for(asyncio.gather(*(read(reader) for reader, _ in connections[20:])), 90)
        self.assertFalse([answer for answer in ended if b" 200 " in answer])
        self.assert_memory()

    async def test_large_headers(self) -> None:
        for text in (b"GET /ocpi/versions HTTP/1.1\r\nHost: a\r\nX-Large: " + b"x" * 100_000 + b"\r\n\r\n",
                     b"GET /" + b"x" * 100_000 + b" HTTP/1.1\r\nHost: a\r\n\r\n",
                     b"\x16\x03\x01\x02\x00\x01\x00\x01\xfc\x03\x03\r\n\r\n"):
            reader, _ = await self.begin(text)
            self.assertIn(b" 400 ", await asyncio.wait_for(reader.readline(), 20), text[:30])

    async def test_a_large_body_without_a_length(self) -> None:
        headers = "\r\n".join(f"{name}: {value}" for name, value in self.provider.headers().items())
        begun = f"PUT /ocpi/2.2.1/receiver/tokens/NL/PLN/AA01 HTTP/1.1\r\nHost: a\r\n{headers}\r\n" \
                "Transfer-Encoding: chunked\r\n\r\n"
        reader, writer = await self.begin(begun.encode())
        answer = asyncio.create_task(reader.readline())
        chunk = b"10000\r\n" + b" " * 0x10000 + b"\r\n"
        for _ in range(1600):
            if answer.done() or writer.is_closing():
                break
            writer.write(chunk)
            try:
                await asyncio.wait_for(writer.drain(), 5)
            except (ConnectionError, asyncio.TimeoutError):
                break
        self.assertIn(b" 413 ", await asyncio.wait_for(answer, 20))
        self.assert_memory()


class Broken(OperatorCase):
    """Texts that are no JSON, or are more than anybody reads, and ids with characters that paths and headers end at."""

    async def put(self, path: str, data: bytes) -> Reply:
        url = await self.provider.endpoint("tokens", "RECEIVER")
        return await self.provider.ask("PUT", f"{url}/{path}", data=data)

    async def test_deep_and_broken_json(self) -> None:
        usual = json.dumps(self.token)
        broken = [b"[" * 400_000, b"[" * 60_000 + b"]" * 60_000, b'{"a":' * 100_000 + b"1" + b"}" * 100_000,
                  usual.replace("DF0001", "\x00").encode(), usual.replace("DF0001", "\\ud800\\").encode(),
                  usual.replace("DF0001", "@").encode().replace(b"@", b"\xff"),
                  usual.replace("DF0001", "@").encode().replace(b"@", b"\xed\xa0\x80"), usual.encode("utf-16"),
                  usual[:-1].encode(), usual.encode() + b"}", b"1" * 900_000 + b"e"]
        for text in broken:
            with self.subTest(text=text[:60]):
                self.assert_status(await self.put("NL/PLN/AA01", text), 400, 2001)
        for member in ('"x":' + "1" * 500_000, '"x":1e999999999', '"x":-1e-999999999', '"x":"' + "y" * 900_000 + '"'):
            with self.subTest(member=member[:30]):
                reply = await self.put("NL/PLN/AA01", (usual[:-1] + "," + member + "}").encode())
                self.assertIn(reply.status_code, (1000, 2001))
                self.assertIn(reply.http_status, (200, 201, 400))
        self.assertEqual(1000, (await self.provider.put_token(self.token)).status_code)
        self.assert_memory()

    async def test_ids_in_paths(self) -> None:
        url = await self.provider.endpoint("tokens", "RECEIVER")
        for segment in ("%00", "A%00B", "%0d%0aX-Evil:%20yes", "%0A", "%", "%zz", "%ff%fe", "%C3%A9", "%2e%2e", "..",
                        "..%2f..%2fadmin", "A%2FB", "%3Ftype=APP_USER", "a%20b", "%25", "x" * 5000, "'%20OR%201=1", ""):
            with self.subTest(segment=segment[:40]):
                read = await self.provider.ask("GET", f"{url}/NL/PLN/{segment}")
                self.assertNotIn("X-Evil", read.headers)
                self.assertIn(read.http_status, (200, 400, 404, 405))
                self.assertNotEqual(1000, read.status_code)
                put = await self.provider.ask("PUT", f"{url}/NL/PLN/{segment}", self.token)
                self.assertNotIn("X-Evil", put.headers)
                self.assertIn(put.http_status, (200, 400, 404, 405))
                self.assertNotEqual(1000, put.status_code)
        self.assertEqual([], await self.bridge.admin_get("/tokens"))

    async def test_ids_in_bodies(self) -> None:
        for uid in ("A\r\nX-Evil: yes", "A\u0000", "\u00e9", "x" * 37, "A\nB"):
            with self.subTest(uid=uid):
                self.assert_status(await self.provider.put_token(token(self.provider.party, uid)), 200, 2001)
        for url in ("http://127.0.0.1:9/\r\nX-Evil: yes", "http://127.0.0.1:9/" + "x" * 256):
            start = start_session(self.token, url)
            self.assert_refused(await self.provider.command("START_SESSION", start), 2001)

    async def test_response_urls_that_cannot_be_used(self) -> None:
        urls = ("no address", "file:///etc/passwd", "http://", "gopher://a/", "http://[::1", "/")
        for number, url in enumerate(urls):
            body = {"response_url": url, "reservation_id": f"R{number}"}
            reply = await self.provider.command("CANCEL_RESERVATION", body)
            self.assertLess(reply.http_status, 500)
        reply = await self.provider.command("CANCEL_RESERVATION", {
            "response_url": self.response_url("last"), "reservation_id": "R"})
        self.assertEqual("ACCEPTED", reply.data["result"])
        self.assertEqual("UNKNOWN_RESERVATION", await self.result("last"))

    async def test_ids_in_headers(self) -> None:
        for correlation in ("x" * 3000, "\u00e9", "NL/PLN/1", "' OR 1=1", "1\t2"):
            with self.subTest(correlation=correlation[:20]):
                reply = await self.provider.put_token(self.token, correlation=correlation)
                self.assertIn(reply.status_code, (1000, 2001))


class Strangers(OperatorCase):
    """A party that is known, and does what only another may."""

    async def test_what_is_anothers(self) -> None:
        charge_point = await self.begin_charge_point()
        await self.provider.put_token(self.token)
        await charge_point.call("StartTransaction", {
            "connectorId": 1, "idTag": "AA01", "meterStart": 0, "timestamp": "2025-01-01T10:00:00Z"})
        active = await self.version("ACTIVE")
        reply = await self.other.command("STOP_SESSION", {
            "response_url": self.other.url + "/results/stop", "session_id": active["id"]})
        self.assertEqual("UNKNOWN_SESSION", reply.data["result"])
        self.assert_refused(await self.other.put_token(self.token), 2001)
        tokens = await self.other.endpoint("tokens", "RECEIVER")
        read = await self.other.ask("GET", f"{tokens}/NL/PLN/AA01")
        self.assertNotEqual(1000, read.status_code)
        change = {"valid": False, "last_updated": "2098-01-01T00:00:00Z"}
        self.assertNotEqual(1000, (await self.other.ask("PATCH", f"{tokens}/NL/PLN/AA01", change)).status_code)
        start = start_session(self.token, self.other.url + "/results/start", "E2")
        self.assert_refused(await self.other.command("START_SESSION", start), 2001)
        await asyncio.sleep(1)
        self.assertTrue(charge_point.was_not_asked())
        held = (await self.provider.ask("GET", f"{tokens}/NL/PLN/AA01")).data
        self.assertIs(True, held["valid"])
