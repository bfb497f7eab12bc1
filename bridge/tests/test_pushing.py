"""What an operator pushes to a provider: tariffs and locations once, and then what changes, as it is by then."""
import asyncio
from collections.abc import Sequence

from aiohttp import web

from ocpi_bridge.ocpi.locations import Locations
from ocpi_bridge.ocpi.objects import Objects
from ocpi_bridge.ocpi.pushing import CONNECTED_WITHIN, Pushing
from ocpi_bridge.records import Site

from .client_cases import ClientCase, fails
from .ocpi_party import Answer, Received, answered
from .running import Members, eventually, operator

TARIFF, LOCATION = "/2.2.1/tariffs/BE/BEC/ENERGY", "/2.2.1/locations/BE/BEC/LOC1"
FIRST = [("PUT", TARIFF, ""), ("PUT", LOCATION, "")]


def gives(status_code: int) -> Answer:
    """An answer of a status of OCPI."""
    async def give(received: Received) -> web.StreamResponse:
        return answered(None, status_code)
    return give


class PushCase(ClientCase):
    """BE/BEC with the EVSEs E1 and E2, whose statuses a test sets, and a provider that takes locations and tariffs."""

    is_operator = True
    takes: Sequence[str] = ("locations", "tariffs")

    async def asyncSetUp(self) -> None:
        self.statuses: dict[str, str] = {}
        self.site: Site = operator("BE/BEC", ["E1", "E2"])["site"]
        await super().asyncSetUp()
        self.party.interfaces.update({module: "RECEIVER" for module in self.takes})

    def begin(self) -> None:
        """Begins to push, as a bridge does that starts over the same state."""
        super().begin()
        self.locations = Locations(self.state, self.client.events.clock, Objects(self.state), "BE/BEC", self.site,
                                   lambda evse_uid: self.statuses.get(evse_uid))
        # The statuses are not in the state: another number of connections tells that something has changed.
        self.changed = 0
        self.pushing = Pushing(self.client, self.locations, self.state, lambda: self.changed)
        self.running = asyncio.create_task(self.pushing.run())
        self.addCleanup(self.running.cancel)

    async def begin_again(self) -> None:
        """Ends it where it stands, and begins over the same state."""
        self.running.cancel()
        await asyncio.wait([self.running])
        self.begin()

    def set(self, evse_uid: str, status: str) -> None:
        self.statuses[evse_uid] = status
        self.changed += 1

    def pushes(self) -> list[tuple[str, str, str]]:
        """Method, path and status of each push that came."""
        return [(received.method, received.path, (received.body or {}).get("status", ""))
                for received in self.asked("locations", "tariffs")]

    async def come(self, *wanted: tuple[str, str, str]) -> list[Members]:
        """Waits for pushes, behind which no other comes, and gives what each carried. They are forgotten."""
        async def have() -> bool:
            return len(self.pushes()) >= len(wanted) and await self.is_settled()
        await eventually(have, f"{wanted}")
        self.assertEqual(list(wanted), self.pushes())
        bodies = [dict(received.body or {}) for received in self.asked("locations", "tariffs")]
        self.party.requests.clear()
        return bodies

    async def is_settled(self) -> bool:
        """Whether the provider was told all that holds."""
        return self.pushing._settled == {"NL/TNM": self.pushing._version}

    def patch(self, evse_uid: str, status: str) -> tuple[str, str, str]:
        return "PATCH", f"{LOCATION}/{evse_uid}", status


class Pushes(PushCase):
    async def test_all_of_it_at_the_first_contact_and_then_the_status_that_changed(self) -> None:
        tariff, location = await self.come(*FIRST)
        self.assertEqual([{"price_components": [{"type": "ENERGY", "price": 0.25, "step_size": 1}]}],
                         tariff["elements"])
        self.assertEqual([["ENERGY"]] * 2, [evse["connectors"][0]["tariff_ids"] for evse in location["evses"]])
        self.assertEqual(["AVAILABLE"] * 2, [evse["status"] for evse in location["evses"]])
        self.set("E2", "BLOCKED")
        change, = await self.come(self.patch("E2", "BLOCKED"))
        self.assertEqual({"status", "last_updated"}, set(change))
        self.assertGreater(change["last_updated"], location["last_updated"])

    async def test_the_newest_state_alone_and_in_order(self) -> None:
        await self.come(*FIRST)
        came, goes_on = asyncio.Event(), asyncio.Event()

        async def waits(received: Received) -> web.StreamResponse:
            came.set()
            await goes_on.wait()
            return answered()
        self.party.answers["locations"] = waits
        self.set("E1", "INOPERATIVE")
        await came.wait()
        for status in ("BLOCKED", "INOPERATIVE", "BLOCKED"):
            self.set("E1", status)
            self.set("E2", status)
            before = self.pushing._version
            await eventually(lambda: self.is_seen(before), "it was looked at")
        goes_on.set()
        await self.come(*(self.patch(*each) for each in (
            ("E1", "INOPERATIVE"), ("E1", "BLOCKED"), ("E2", "BLOCKED"))))

    async def is_seen(self, version: int) -> bool:
        return self.pushing._version > version

    async def test_a_push_that_is_lost_is_made_again_as_it_is_by_then(self) -> None:
        await self.come(*FIRST)
        ends = asyncio.Event()

        async def late(received: Received) -> web.StreamResponse:
            await ends.wait()
            return answered()
        for lost in (fails(503), gives(3000), late):
            self.party.answers["locations"] = lost
            self.set("E1", "INOPERATIVE")
            await self.party.came("locations")
            self.set("E1", "BLOCKED")
            # It may have been on its way once more as it was.
            await self.party.came("locations", lambda received: bool(received.body["status"] == "BLOCKED"))
            self.party.answers.clear()
            self.party.requests.clear()
            await eventually(self.is_settled, "it is known that it was taken")
            self.assertEqual({self.patch("E1", "BLOCKED")}, set(self.pushes()))
            self.party.requests.clear()
            self.set("E1", "AVAILABLE")
            await self.come(self.patch("E1", "AVAILABLE"))
        ends.set()

    async def test_a_new_start_tells_what_has_changed_alone(self) -> None:
        await self.come(*FIRST)
        await self.begin_again()
        await self.come()
        self.running.cancel()
        self.statuses["E2"] = "INOPERATIVE"
        await self.begin_again()
        await self.come(self.patch("E2", "INOPERATIVE"))

    async def test_charge_points_may_connect_again_behind_a_start(self) -> None:
        await self.come(*FIRST)
        self.statuses["E1"] = "OUTOFORDER"
        await self.begin_again()
        self.set("E2", "INOPERATIVE")
        await self.come(self.patch("E2", "INOPERATIVE"))
        self.pushing._began -= CONNECTED_WITHIN
        self.changed += 1
        await eventually(self.is_told, "the charge point is away")
        await self.come(self.patch("E1", "OUTOFORDER"))

    async def is_told(self) -> bool:
        return len(self.pushes()) > 0

    async def test_what_is_refused_is_sent_as_a_whole_and_then_not_again(self) -> None:
        await self.come(*FIRST)
        for refused in (fails(404), fails(405), gives(2003)):
            self.party.answers["locations"] = refused
            self.set("E1", "INOPERATIVE")
            with self.assertLogs("ocpi_bridge.ocpi.pushing"):
                await self.come(self.patch("E1", "INOPERATIVE"), FIRST[1])
            self.party.answers.clear()
            self.set("E1", "AVAILABLE")
            await self.come(self.patch("E1", "AVAILABLE"))

    async def test_all_of_it_again_behind_a_restore_and_a_new_registration(self) -> None:
        _, before = await self.come(*FIRST)
        self.state.restore()
        await self.begin_again()
        _, restored = await self.come(*FIRST)
        self.assertGreater(restored["last_updated"], before["last_updated"])
        self.party.token = "another"
        self.client.partners.register("NL/TNM", "our-token", "another", self.party.versions_url, {})
        await self.come(*FIRST)

    async def test_what_comes_and_goes_with_another_setup(self) -> None:
        await self.come(*FIRST)
        self.locations.take(operator("BE/BEC", ["E2", "E3"], 0.5)["site"])
        self.pushing.tell_again()
        tariff, location = await self.come(*FIRST)
        self.assertEqual(0.5, tariff["elements"][0]["price_components"][0]["price"])
        self.assertEqual(["E2", "E3"], [evse["uid"] for evse in location["evses"]])
        # Without a word of the owner what is no more is told, too, as where the bridge was started over another setup.
        self.site = operator("BE/BEC", ["E3"])["site"]
        await self.begin_again()
        ended, tariff, location = await self.come(self.patch("E2", "REMOVED"), *FIRST)
        self.assertLessEqual(ended["last_updated"], location["last_updated"])
        self.site["locations"][0]["id"], other = "LOC2", LOCATION[:-1] + "2"
        await self.begin_again()
        ended, *_ = await self.come(("PATCH", LOCATION, ""), self.patch("E3", "REMOVED"),
                                    ("PUT", other, ""))
        self.assertIs(ended["publish"], False)
        self.site["locations"][0]["id"] = "LOC1"
        await self.begin_again()
        *_, back = await self.come(("PATCH", other, ""), ("PATCH", f"{other}/E3", "REMOVED"), FIRST[1])
        self.assertGreater(back["last_updated"], ended["last_updated"])


class WithoutReceiver(PushCase):
    takes = ()

    async def test_a_partner_that_takes_nothing_is_sent_nothing_until_it_does(self) -> None:
        await self.come()
        self.set("E1", "BLOCKED")
        await self.come()
        self.party.interfaces["locations"] = "RECEIVER"
        await self.begin_again()
        await self.come(FIRST[1])
