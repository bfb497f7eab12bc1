"""Answers what charge points report: each call is fed to the node as the events that it is, and answered behind them.
What of transactions that is both versions of OCPP share (charges.py)."""
import logging
from collections.abc import Awaitable, Callable
from functools import partial

from ..clock import moment_of
from ..json_text import Members
from ..state import State
from .charges import Charges
from .frames import check_payload
from .messages import IdToken, MeterReading, StatusReport, Version
from .readings import Readings, meter_readings, number_in
from .site import OUT_OF_SERVICE, ChargePoint, Place, Site
from .transaction_events import TransactionEvents
from .transactions import CHARGING, LOST, NEW, OVER, REFUSED, STOPPED, Transaction
from .version_201 import read_notify_event
from .watch import Watch

LOG = logging.getLogger("ocpp")
HEARTBEAT_EACH = 60
# For how many seconds a token may be used that was shown at a charge point with several connectors.
SHOWN_FOR = 60


class Reports:
    """Answers the calls of charge points. `stop` is called with each transaction that goes on without a session."""

    def __init__(self, site: Site, state: State, readings: Readings, watch: Watch,
                 stop: Callable[[Transaction], None]) -> None:
        self._site, self._transactions, self._commands, self._stop = site, site.transactions, site.commands, stop
        self._readings, self._watch, self._charges = readings, watch, Charges(site, readings, watch)
        events = TransactionEvents(site, state, readings, watch, self._charges, stop)
        # The last transaction of each charge point that stopped, with the connection by which that was told.
        self._stopped: dict[ChargePoint, tuple[int, object]] = {}
        self._handlers: dict[str, Callable[[ChargePoint, Version, Members], Awaitable[Members]]] = {
            "StatusNotification": self._status, "Authorize": self._authorize, "MeterValues": self._meter,
            "StartTransaction": self._start, "StopTransaction": self._end, "TransactionEvent": events.take,
            "NotifyEvent": self._notify_event, "SecurityEventNotification": self._security_event}

    async def answer(self, charge_point: ChargePoint, connection: object, version: Version, action: str,
                     payload: Members) -> Members:
        """What a call is answered that came by a connection.

        Raises CallError, NodeEnded, and EventRefused where the charge point may repeat.
        """
        charge_point.heard = self._site.clock.seconds()
        check_payload(version.name, action, payload)
        self._note_taken(charge_point, connection, action, payload)
        if action in self._handlers:
            answer = await charge_point.alone(partial(self._handlers[action], charge_point, version, payload))
            if action == "StopTransaction":
                self._stopped[charge_point] = payload["transactionId"], connection
            return answer
        if action == "DataTransfer":
            return {"status": "UnknownVendorId"}
        now: Members = {"currentTime": self._site.clock.moment()}
        return now if action == "Heartbeat" else {"status": "Accepted", "interval": HEARTBEAT_EACH, **now}

    def _note_taken(self, charge_point: ChargePoint, connection: object, action: str, payload: Members) -> None:
        """A charge point that calls something else on the same connection has the answer to its StopTransaction."""
        number, before = self._stopped.get(charge_point, (0, None))
        if before is connection and (action, payload.get("transactionId")) != ("StopTransaction", number):
            self._transactions.end(charge_point.settings.id, number)
            del self._stopped[charge_point]

    async def _status(self, charge_point: ChargePoint, version: Version, payload: Members) -> Members:
        await self._take_status(charge_point, version.read_status(payload))
        return {}

    async def _take_status(self, charge_point: ChargePoint, report: StatusReport) -> None:
        """A status of one EVSE, or of each: there one in service only ends one that is not. None puts an EVSE back
        that its owner took out of service."""
        self._note_error(charge_point, report)
        for place in charge_point.places.values():
            if report.evse not in (0, place.connector):
                continue
            status = self._site.status_behind(place, report)
            changes_service = {status, self._site.status(place)} & OUT_OF_SERVICE
            if report.evse or changes_service:
                if changes_service and not self._site.is_kept_out(place):
                    is_in_service = status not in OUT_OF_SERVICE
                    await self._site.report("service", evse_uid=place.settings.evse_uid, in_service=is_in_service)
                if status == "Faulted":
                    await self._fault(place)
                self._site.set_status(place, status)
            if report.evse:
                self._watch.note_status(place, status)

    def _note_error(self, charge_point: ChargePoint, report: StatusReport) -> None:
        if report.evse == 0 or report.evse in charge_point.places:
            charge_point.errors[report.evse] = report.error

    async def _fault(self, place: Place) -> None:
        """Ends what stands at an EVSE where no transaction runs. The end of one comes with its last reading."""
        session = self._site.at(place)
        if session is None or self._transactions.of_session(session["id"]) is None:
            await self._site.report("fault", evse_uid=place.settings.evse_uid)

    async def _notify_event(self, charge_point: ChargePoint, version: Version, payload: Members) -> Members:
        """Takes note of statuses, and of problems: these leave an EVSE in service."""
        for report, is_status in read_notify_event(payload):
            if is_status:
                await self._take_status(charge_point, report)
                continue
            self._note_error(charge_point, report)
            for place in charge_point.places.values():
                if report.evse == place.connector:
                    await self._fault(place)
        return {}

    async def _security_event(self, charge_point: ChargePoint, version: Version, payload: Members) -> Members:
        LOG.warning("%s: security event %r", charge_point.settings.id, payload["type"])
        return {}

    async def _authorize(self, charge_point: ChargePoint, version: Version, payload: Members) -> Members:
        """A token that was shown at no named connector: a swipe where it is clear which one is meant."""
        shown = version.read_token(payload)
        token = IdToken(self._site.uid_of(shown.uid), shown.type)
        places = list(charge_point.places.values())
        shown_at = [place for place in places if len(places) == 1 or self._waits_for_token(place)]
        # It is for the connector at which a car is plugged in soon, and not for another one later.
        expires = None if len(places) == 1 else moment_of(self._site.clock.seconds() + SHOWN_FOR)
        if any(self._is_let_charge(place, token.uid) for place in places):
            return version.token_answer(True, expires)
        if token.type is None or len(shown_at) != 1:
            return version.token_answer(token.type is not None, expires)
        self._commands.forget_asked(shown_at[0].settings.evse_uid)
        await self._site.swipe(shown_at[0], token)
        return version.token_answer(self._is_let_charge(shown_at[0], token.uid), expires)

    def _waits_for_token(self, place: Place) -> bool:
        """Whether a car is plugged in for which no token was shown. Of 2.0.1 one that charges is Occupied too."""
        status = self._site.status(place)
        return status == "Preparing" or status == "Occupied" and all(
            transaction.state == NEW
            for transaction in self._transactions.running(place.charge_point.settings.id, place.connector))

    def _is_let_charge(self, place: Place, uid: str) -> bool:
        """Whether a session or an open start of a token stands at a connector."""
        session = self._site.at(place)
        if session is not None:
            return bool(session["cdr_token"]["uid"].upper() == uid.upper())
        command = self._commands.start_for(place.settings.evse_uid, uid)
        return command is not None and not command.has_ended

    async def _start(self, charge_point: ChargePoint, version: Version, payload: Members) -> Members:
        """A transaction of 1.6 that begins. It is let charge where it is that of a session."""
        transaction = self._transactions.begin(charge_point.settings.id, payload)
        place = charge_point.places.get(transaction.connector)
        self._watch.note_transaction(place)
        if transaction.state == NEW:
            await self._watch.end_lost(charge_point, transaction.connector, payload["timestamp"], transaction.number)
            uid = self._site.uid_of(transaction.identifier)
            command = None if place is None else self._commands.start_for(place.settings.evse_uid, uid)
            transaction = await self._charges.decide(transaction, place, IdToken(uid), command)
        if transaction.state == CHARGING:
            await self._charges.begin(transaction, payload["timestamp"])
        elif transaction.state == STOPPED:
            # The answer to its StopTransaction was lost, and that comes again. Or another one begins just alike.
            word = REFUSED if transaction.session_id is None else CHARGING
            self._stop(self._transactions.update(transaction, word, transaction.session_id))
        else:
            self._stop(transaction)
        is_accepted = transaction.session_id is not None and transaction.state != LOST
        return {**version.token_answer(is_accepted), "transactionId": transaction.number}

    async def _meter(self, charge_point: ChargePoint, version: Version, payload: Members) -> Members:
        """Readings of a transaction of 1.6: in 2.0.1 they are of none. One that goes on without a session is
        stopped."""
        transaction = self._transactions.find(charge_point.settings.id, payload.get("transactionId"))
        if transaction is None or transaction.state in (STOPPED, OVER):
            return {}
        self._watch.note_transaction(charge_point.places.get(transaction.connector))
        if self._site.living(transaction.session_id) is None:
            self._stop(transaction)
        for reading in meter_readings(payload["meterValue"], None):
            await self._readings.take(transaction, reading.timestamp, reading.register)
        return {}

    async def _end(self, charge_point: ChargePoint, version: Version, payload: Members) -> Members:
        """A transaction of 1.6 that ended: its last reading, and the end of its session, whatever that reading is."""
        transaction = self._transactions.find(charge_point.settings.id, payload["transactionId"])
        if transaction is None:
            LOG.warning("%s: StopTransaction of an unknown transaction %d", charge_point.settings.id,
                        payload["transactionId"])
        elif transaction.state not in (STOPPED, OVER):
            timestamp, meter_stop = payload.get("timestamp"), number_in(payload.get("meterStop"))
            if meter_stop is None:
                await self._readings.take(transaction, timestamp, None)
            reading = None if meter_stop is None else MeterReading(timestamp, meter_stop)
            await self._charges.end(transaction, timestamp, reading)
        return {} if payload.get("idTag") is None else version.token_answer(True)
