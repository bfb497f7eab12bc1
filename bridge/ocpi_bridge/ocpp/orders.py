"""Asks charge points for what the node's open commands want, and tells the node what they answered.

A charge point is asked once for each command, and that is kept right before. It is asked one thing at a time: what has
ended when its turn comes is not asked for. Where it has no connection, or loses it before, a start or an unlock is
refused at once, or some seconds behind the start of the bridge; a stop is asked for when it has one again, if that is
still open then. Where it does not answer nothing is fed, and the node ends the command at its time. Where a transaction
starts nevertheless, as behind an answer that a stop of the bridge lost, that is the command's: it is let charge if the
node still takes that the charge point accepted, and stopped if not.
"""
from collections.abc import Callable
from functools import partial

from ..node.feeder import repeated
from .commands import LATE, REFUSED, Command
from .messages import IdToken, Request, Version
from .site import ChargePoint, Place, Site
from .transactions import OVER, STOPPED, Transaction

# Writes a request as a version of OCPP has it.
Writer = Callable[[Version], Request]


class Orders:
    """Carries out commands. `spawn` has each done in a task of its own, that is not under way already."""

    def __init__(self, site: Site, spawn: Callable[..., object]) -> None:
        self._site, self._commands, self._spawn = site, site.commands, spawn

    def begin(self) -> None:
        """Begins with each open command that no charge point was asked for yet, and refuses each that came late."""
        for command in self._commands.unasked():
            self._spawn(self._carry_out, command.provider, command.number)
        for command in self._commands.unasked(LATE):
            self._spawn(self._refuse, command.provider, command.number)

    async def _refuse(self, provider: str, number: int) -> None:
        await repeated(partial(self._site.report, "refuses", provider=provider, number=number))

    async def _carry_out(self, provider: str, number: int) -> None:
        """Asks for a command. A start that names no EVSE is accepted before: only its session tells where it is.
        Where nobody can be asked there, that session ends."""
        command = self._commands.find(provider, number)
        if command.kind == "stop_session":
            return await self._stop_session(command)
        names_evse = command.evse_uid is not None
        if not names_evse:
            command = await repeated(partial(self._site.accept, command))
        place = self._site.place(command.evse_uid)
        write = None if place is None else self._request_for(command, place)
        if names_evse and command.kind == "start_session" and place is not None and self._site.at(place):
            return
        if place is not None and write is not None and await self._ask(command, place.charge_point, write):
            return
        if not names_evse:
            alone = repeated if place is None else place.charge_point.alone
            await alone(partial(self._site.withdraw, command.session_id))
        elif place is None or write is None or self._site.is_away(place.charge_point):
            self._commands.refuse(command)
            await self._refuse(provider, number)

    def _request_for(self, command: Command, place: Place) -> Writer | None:
        """What asks for a start or an unlock at a place. None where that has no such connector."""
        if command.kind == "unlock_connector":
            connector = place.settings.number_of(command.connector_id)
            return None if connector is None else partial(_unlock, place.connector, connector)
        remote_start, token_type = self._commands.remote_start(command)

        def start(version: Version) -> Request:
            token = IdToken(self._site.id_tag_of(str(command.token_uid), version.longest_token), token_type)
            return version.start(place.connector, token, remote_start)
        return start

    async def _stop_session(self, command: Command) -> None:
        """Asks for it. A session without a transaction is ended here: no charge point has anything to stop."""
        session = self._site.living(command.session_id)
        place = self._site.place(session["evse_uid"] if session is not None else None)
        if place is None or place.charge_point.connection is None:
            return
        async with place.charge_point.lock:
            transaction = self._site.transactions.of_session(command.session_id)
            if transaction is None and self._commands.begin(command):
                await repeated(partial(self._end_unused, command))
        if transaction is not None:
            stopped = transaction
            await self._ask(command, place.charge_point, lambda version: version.stop(stopped))

    async def _end_unused(self, command: Command) -> None:
        await self._site.accept(command)
        await self._site.withdraw(command.session_id)

    async def _ask(self, command: Command, charge_point: ChargePoint, write: Writer) -> bool:
        """Asks in the turn of the connection, or of one that takes its place before that. False where the command has
        ended by then, or no connection is left: then it stays as it is."""
        was_asked = False

        def is_wanted() -> bool:
            nonlocal was_asked
            was_asked = charge_point.connection is connection and self._commands.begin(command)
            return was_asked

        while (connection := charge_point.connection) is not None:
            async with connection.asking(*write(connection.version), is_wanted) as answer:
                if answer is not None:
                    await charge_point.alone(partial(self._tell, command, answer.get("status")))
            if was_asked or connection is charge_point.connection:
                break
        return was_asked

    async def _tell(self, command: Command, status: object) -> None:
        """Feeds what a charge point answered. A start that names no EVSE was accepted before, and has a session."""
        if status == "Unlocked" and command.kind == "unlock_connector":
            await self._site.report("unlocked", provider=command.provider, number=command.number)
        elif status == "Accepted" and command.kind != "unlock_connector":
            await self._site.accept(command)
        else:
            self._commands.set_state(command, REFUSED)
            await self._site.report("refuses", provider=command.provider, number=command.number)
            if command.kind == "start_session":
                await self._site.withdraw(command.session_id)

    def stop(self, transaction: Transaction) -> None:
        """Has a transaction stopped that goes on without a session."""
        self._spawn(self._stop_transaction, transaction.charge_point, transaction.number)

    async def _stop_transaction(self, charge_point: str, number: int) -> None:
        def runs() -> bool:
            transaction = self._site.transactions.find(charge_point, number)
            return transaction is not None and transaction.state not in (STOPPED, OVER)

        connection = self._site.by_id[charge_point].connection
        if connection is not None:
            transaction = self._site.transactions.find(charge_point, number)
            if transaction is not None:
                async with connection.asking(*connection.version.stop(transaction), runs):
                    pass


def _unlock(evse: int, connector: int, version: Version) -> Request:
    return version.unlock(evse, connector)
