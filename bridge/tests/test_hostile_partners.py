"""Partners that answer too much, never, or nothing that fits: the others are served, and nothing is lost."""
import asyncio

from aiohttp import web

from .cases import BridgeCase, OperatorCase, ProviderCase
from .ocpi_objects import session
from .ocpi_party import Answer, Received, answered
from .running import RunningBridge, eventually, operator, partner, provider


async def ten_megabytes(received: Received) -> web.StreamResponse:
    """A success whose `data` has 10 MB."""
    return answered("x" * 10_000_000)


async def never(received: Received) -> web.StreamResponse:
    await asyncio.sleep(600)
    return answered()


async def elsewhere(received: Received) -> web.StreamResponse:
    return web.Response(status=307, headers={"Location": "/elsewhere"})


def text(body: str, status: int = 200) -> Answer:
    """Answers with a text that is called JSON."""
    async def give(received: Received) -> web.StreamResponse:
        return web.Response(text=body, status=status, content_type="application/json")
    return give


class WrongAnswers(OperatorCase):
    """A provider that answers what it is sent as none should. The clock goes five times as fast."""

    clock_factor = 5.0

    async def unacknowledged(self) -> int:
        """How many pushes wait to be acknowledged."""
        lines = (await self.bridge.admin_get("/metrics")).splitlines()
        return round(float(next(line.split()[1] for line in lines if line.startswith("ocpi_unacknowledged_pushes "))))

    async def assert_lost_and_sent_again(self, answer: Answer) -> None:
        """A session's pushes are answered so. Others are served meanwhile, and the push comes again."""
        self.provider.answers["sessions"] = answer
        charge_point = await self.begin_charge_point()
        await self.provider.put_token(self.token)
        begun = await charge_point.call("StartTransaction", {
            "connectorId": 1, "idTag": "AA01", "meterStart": 0, "timestamp": "2025-01-01T10:00:00Z"})
        await self.version("ACTIVE")
        for number in range(3):
            command = {"response_url": f"{self.other.url}/results/{number}", "reservation_id": f"R{number}"}
            reply = await asyncio.wait_for(self.other.command("CANCEL_RESERVATION", command), 10)
            self.assert_status(reply, 200, 1000)
            await self.other.came("results", within=10)
        await charge_point.call("StopTransaction", {
            "transactionId": begun["transactionId"], "meterStop": 2000, "timestamp": "2025-01-01T10:30:00Z"})
        first = await self.version("COMPLETED")
        self.assertEqual(first, await self.version("COMPLETED"))
        self.assertGreater(await self.unacknowledged(), 0)
        del self.provider.answers["sessions"]

        async def all_came() -> bool:
            return await self.unacknowledged() == 0
        await eventually(all_came, "no push that waits", 40)
        self.assert_memory()

    async def test_ten_megabytes(self) -> None:
        await self.assert_lost_and_sent_again(ten_megabytes)

    async def test_never(self) -> None:
        await self.assert_lost_and_sent_again(never)

    async def test_elsewhere(self) -> None:
        await self.assert_lost_and_sent_again(elsewhere)
        self.assertEqual([], [request for request in self.provider.requests if request.module == "elsewhere"])

    async def test_nothing_that_fits(self) -> None:
        bodies = ["", "hello", "[]", "7", "{}", '{"status_code":"many"}', '{"status_code":1000', "[" * 100_000,
                  '{"status_code":1e999999}']
        given = iter([text(body) for body in bodies] * 3)

        async def each(received: Received) -> web.StreamResponse:
            return await next(given, text("{}"))(received)
        await self.assert_lost_and_sent_again(each)


class EndlessLists(ProviderCase):
    """An operator whose list never ends, and whose pages are too large."""

    async def prepare(self) -> None:
        async def endless(received: Received) -> web.StreamResponse:
            self.assertEqual("GET", received.method)
            url = f"{self.operator.url}/2.2.1/sessions?offset=0"
            return answered([], headers={"Link": f'<{url}>; rel="next"', "X-Total-Count": "1000000"})
        self.operator.answers["sessions"] = endless
        self.operator.answers["cdrs"] = ten_megabytes

    async def test_it_serves_on(self) -> None:
        await asyncio.sleep(5)
        del self.operator.answers["sessions"]
        active = session(self.operator.party, self.token)
        self.assertEqual(1000, (await asyncio.wait_for(self.operator.put_session(active), 10)).status_code)
        await self.order("unlock_connector", location_id="LOC1", evse_uid="E1", connector_id="1")
        await self.operator.came("commands", within=10)
        self.assert_memory()


class LinksElsewhere(ProviderCase):
    """A list whose next page is at another host must not be given the token that is for the operator."""

    async def prepare(self) -> None:
        self.stranger = await self.begin_party("FR/STR", "CPO")

        async def linked(received: Received) -> web.StreamResponse:
            return answered([], headers={"Link": f'<{self.stranger.url}/2.2.1/sessions>; rel="next"'})
        self.operator.answers["sessions"] = linked

    async def test_no_token_goes_there(self) -> None:
        await self.operator.came("sessions")
        await asyncio.sleep(2)
        self.assertEqual([], self.stranger.requests)


class RegistrationWithTooMuch(BridgeCase):
    """A party that registers with an address that answers 10 MB, never, or leads elsewhere."""

    clock_factor = 5.0

    async def test_it_is_refused_and_can_be_begun_again(self) -> None:
        party = await self.begin_party("NL/PLN", "EMSP")
        self.bridge = await self.begin_bridge(
            RunningBridge(self.make_folder(), [operator("BE/BEC", ["E1"]), provider("NL/PLN")], "BE/BEC",
                          [partner("NL/PLN", "ocpi", party.bridge_token)], [], self.clock_factor), [party])
        url = self.bridge.ocpi_url + "/ocpi/2.2.1/credentials"
        for answer in (ten_megabytes, never, elsewhere, text("[" * 100_000), text("{}"), text("", 500)):
            party.answers["versions"] = answer
            reply = await asyncio.wait_for(party.ask("POST", url, party.credentials()), 60)
            self.assert_refused(reply, 3001)
        del party.answers["versions"]
        self.assert_status(await party.ask("POST", url, party.credentials()), 200, 1000)
        self.assert_memory()
