"""A whole bridge: makes its parts, listens once the node is open, and ends all of them."""
import asyncio
import logging
import signal
from collections.abc import Callable
from typing import Any

from .admin.server import Admin
from .clock import Clock
from .configuration import Configuration, OcppSettings, WrongConfiguration
from .events import Events, Outcome
from .listening import Listener
from .metrics import Metrics
from .node.feeder import NodeEnded
from .node.revocable import RevocableFeeder
from .ocpi.client import Client
from .ocpi.credentials import Credentials
from .ocpi.exchange import Exchange
from .ocpi.interfaces import Interfaces
from .ocpi.locations import Locations
from .ocpi.objects import Objects
from .ocpi.orders import Orders
from .ocpi.partners import Partners
from .ocpi.places import Places
from .ocpi.pulling import Pulling
from .ocpi.pushing import Pushing
from .ocpi.receiving import Receiving
from .ocpi.requests import Requests
from .ocpi.server import Server
from .ocpp.central_system import CentralSystem
from .state import State
from .warnings import Warnings

LOG = logging.getLogger("bridge")


class Bridge:
    """One node among its partners and charge points. To be made while the event loop runs."""

    def __init__(self, configuration: Configuration, read_again: Callable[[], Configuration]) -> None:
        self._configuration, self._read_again = configuration, read_again
        self._state = state = _state_of(configuration)
        clock = _clock_of(configuration, state)
        events = Events(configuration.node.party, clock)
        metrics = Metrics()
        self._feeder = feeder = RevocableFeeder(configuration.node, events, state, metrics)
        objects = Objects(state)
        warnings = Warnings(state, objects, clock.seconds())
        partners = Partners(configuration, state)
        self._requests = requests = Requests(state)
        self._exchange = exchange = Exchange(clock, metrics, state.synced)
        orders = Orders(configuration, state, events, objects, requests, feeder.feed)
        ocpp = configuration.ocpp
        self._central_system = central_system = CentralSystem(
            ocpp or OcppSettings("", {}), events, state, feeder, objects, metrics.count)
        self._locations = locations = None if configuration.site is None else Locations(
            state, clock, objects, configuration.node.party, configuration.site,
            central_system.evse_status if ocpp is not None else lambda _: None)
        self._client = client = Client(configuration, state, partners, exchange, requests, events, feeder.feed, orders,
                                       None if locations is None else locations.tariffs)
        places = Places(state)
        self._pulling = Pulling(client, objects, state, configuration.is_operator, places)
        self._pushing = None if locations is None else Pushing(client, locations, state, central_system.connected_count)
        interfaces = Interfaces(
            configuration.ocpi.url, events, objects, requests, locations, feeder.feed, client.takes_orders,
            feeder.revoke, central_system.expect_late if ocpp is not None else lambda party, number: None,
            orders.operator_of)
        server = Server(events, partners, Credentials(configuration, partners, exchange), interfaces, metrics, state,
                        Receiving(clock, places) if locations is None else None)
        admin = Admin(configuration, state, events, feeder, objects, client, metrics, locations, places, central_system,
                      self.reload)
        self._listeners = [Listener("ocpi", configuration.ocpi.listen, server.application()),
                           Listener("admin", configuration.admin, admin.application())]
        if ocpp is not None:
            self._listeners.append(Listener("ocpp", ocpp.listen, central_system.application()))
        self._follow(objects, warnings, orders, admin)

    def _follow(self, objects: Objects, warnings: Warnings, orders: Orders, admin: Admin) -> None:
        """Says who is told of what the node does, and in which order: those that look at the state of another come
        behind it."""
        feeder, central_system = self._feeder, self._central_system
        feeder.before_opening = [orders.note_left, admin.feeding.note_left]
        feeder.before_commit = [objects.note, warnings.note, orders.note, admin.outstanding.note, admin.feeding.note]
        feeder.after_commit = [warnings.act, orders.act, self._send]
        feeder.after_opening = [self._pulling.wake]
        if self._configuration.ocpp is not None:
            feeder.before_commit.append(central_system.note)
            feeder.after_commit.append(central_system.act)
            feeder.after_opening.append(central_system.opened)

    async def reload(self) -> None:
        """Reads the configuration again. Raises WrongConfiguration and NodeEnded, and then nothing has changed."""
        configuration = self._read_again()
        self._configuration.refuse_other(configuration)

        def take() -> None:
            self._configuration.become(configuration)
            if self._locations is not None and configuration.site is not None:
                self._locations.take(configuration.site)
            if self._pushing is not None:
                self._pushing.tell_again()
            if configuration.ocpp is not None:
                self._central_system.take(configuration.ocpp)
        await self._feeder.reload(configuration.node, take)
        LOG.info("the configuration was read again")

    async def _reload_each_time(self, asked: asyncio.Event) -> None:
        """Reads it again whenever that is asked for by a signal, and logs what is wrong."""
        while await asked.wait():
            asked.clear()
            try:
                await self.reload()
            except (WrongConfiguration, NodeEnded) as fault:
                LOG.error("the configuration is as before: %s", str(fault) or "the bridge is ending")

    def _send(self, outcome: Outcome) -> None:
        for packet in outcome.packets:
            if not packet.is_answer:
                self._client.send(packet)

    async def run(self) -> int:
        """Runs until it is told to stop, or its node ends for good. Gives the node's status, or 1 where it is worse."""
        opened, stopping, asked = asyncio.Event(), asyncio.Event(), asyncio.Event()
        self._feeder.after_opening.append(opened.set)
        for number, event in ((signal.SIGTERM, stopping), (signal.SIGINT, stopping), (signal.SIGHUP, asked)):
            asyncio.get_running_loop().add_signal_handler(number, event.set)
        node, serving = asyncio.create_task(self._feeder.run()), asyncio.create_task(self._serve(opened, asked))
        tasks: list[asyncio.Task[Any]] = [node, serving, asyncio.create_task(stopping.wait()),
                                          asyncio.create_task(self._state.room.run())]
        await asyncio.wait(tasks, return_when=asyncio.FIRST_COMPLETED)
        for listener in self._listeners:
            listener.stop()
        for task in tasks[1:]:
            task.cancel()
        await self._feeder.stop()
        await asyncio.wait(tasks)
        await self._exchange.close()
        for listener in self._listeners:
            await listener.close()
        await self._state.synced()
        self._state.close()
        fault = None if serving.cancelled() else serving.exception()
        if fault is not None:
            LOG.error("%s", fault, exc_info=None if isinstance(fault, OSError) else fault)
        return max(await node, 0 if fault is None else 1)

    async def _serve(self, opened: asyncio.Event, asked: asyncio.Event) -> None:
        """Listens once the node is open, and then sends and pulls. Raises OSError."""
        await opened.wait()
        for listener in self._listeners:
            await listener.open()
        async with asyncio.TaskGroup() as group:
            group.create_task(self._client.run())
            group.create_task(self._pulling.run())
            if self._pushing is not None:
                group.create_task(self._pushing.run())
            group.create_task(self._requests.run())
            group.create_task(self._reload_each_time(asked))


def _state_of(configuration: Configuration) -> State:
    """The state. One that is new beside an older store numbers transactions behind those that nobody knows any more."""
    state = State(configuration.state, configuration.is_restored)
    if configuration.node.takes_new_state and state.value("node.was_opened") is None:
        state.renumber_transactions()
    return state


def _clock_of(configuration: Configuration, state: State) -> Clock:
    """The clock. Its origin is kept, so that no new start sets it back."""
    origin = state.value("clock.origin")
    clock = Clock(configuration.clock_factor, None if origin is None else float(origin))
    state.set_value("clock.origin", repr(clock.origin))
    return clock


async def run(configuration: Configuration, read_again: Callable[[], Configuration]) -> int:
    """Runs a bridge. Gives the status with which to end. Raises WrongState."""
    return await Bridge(configuration, read_again).run()
