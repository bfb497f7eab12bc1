"""A charging station of OCPP 2.0.1 over JSON with one EVSE. What it tells of a transaction comes in any order."""
import itertools
import uuid
from collections.abc import Awaitable, Iterator

from .chance import happens
from .charge_point import CONNECTOR, ChargePoint, Payload, Transaction
from .connection import ConnectionLost

EVSE: Payload = {"id": CONNECTOR, "connectorId": CONNECTOR}
# What ended a transaction, as a trigger of OCPP 2.0.1.
TRIGGERS = {"Local": "EVDeparted", "Remote": "RemoteStop", "UnlockCommand": "UnlockCommand",
            "DeAuthorized": "Deauthorized"}
# Samples that are not the register, beside it.
ODD: list[Payload] = [
    {"value": 50.01, "measurand": "Frequency"}, {"value": 7, "phase": "L1", "unitOfMeasure": {"unit": "kWh"}},
    {"value": 230, "measurand": "Voltage", "unitOfMeasure": {"unit": "V", "multiplier": 0}}]
# How often all of a transaction is told behind its end, and how often an event is told behind the next one.
TOLD_LATE = 0.2
OVERTAKEN = 0.3


class ChargingStation(ChargePoint):
    """It charges as a charge point of OCPP 1.6 does, and tells of that by TransactionEvents."""

    subprotocol = "ocpp2.0.1"
    boot: Payload = {"reason": "PowerUp", "chargingStation": {"vendorName": "Trial", "model": "One"}}
    _numbers: Iterator[int]
    # The events of the transaction that runs, which were not told so far.
    _held: list[Payload]

    async def _report_start(self, transaction: Transaction) -> None:
        transaction.number, self._numbers, self._held = str(uuid.uuid4()), itertools.count(), []
        # Nobody says that it may charge, and it does.
        transaction.is_told_late = transaction.ends == "Local" and happens(self._chance, TOLD_LATE)
        shown = {"idToken": transaction.id_tag, "type": "ISO14443"}
        trigger, info = "Authorized", {"chargingState": "EVConnected"}
        if transaction.remote_start is not None:
            trigger, shown["type"] = "RemoteStart", "Central"
        started = self._event(transaction, "Started", trigger, 0, info, "Transaction.Begin", evse=EVSE, idToken=shown)
        if transaction.remote_start is not None:
            started["transactionInfo"]["remoteStartId"] = transaction.remote_start
        charging = self._event(transaction, "Updated", "ChargingStateChanged", None, {"chargingState": "Charging"})
        events = [started, charging]
        if happens(self._chance, OVERTAKEN):
            events.reverse()
        if transaction.is_told_late:
            self._held = events
        else:
            await self._tell(transaction, events)

    def _event(self, transaction: Transaction, kind: str, trigger: str, energy: int | None, info: Payload,
               context: str = "Sample.Periodic", **other: object) -> Payload:
        """A TransactionEvent as of now, with a reading where there is an energy."""
        moment = self._connection.moment()
        event: Payload = {"eventType": kind, "timestamp": moment, "triggerReason": trigger,
                          "seqNo": next(self._numbers), "offline": transaction.is_told_late,
                          "transactionInfo": {"transactionId": transaction.number, **info}, **other}
        if energy is not None:
            sample = self._sample(transaction.meter_start + energy) | {"context": context}
            samples = [*ODD, sample] if happens(self._chance) else [sample]
            event["meterValue"] = [{"timestamp": moment, "sampledValue": samples}]
        return event

    def _sample(self, register: int) -> Payload:
        """The register, in one of the forms that OCPP allows."""
        forms: list[Payload] = [
            {"value": register}, {"value": register / 1000, "unitOfMeasure": {"unit": "kWh"}},
            {"value": register, "measurand": "Energy.Active.Import.Register", "location": "Outlet"},
            {"value": register, "unitOfMeasure": {"unit": "kWh", "multiplier": -3}}]
        return self._chance.choice(forms)

    async def _tell(self, transaction: Transaction, events: list[Payload]) -> None:
        """Reports events, before those of another transaction. What the token of the start came to is taken in."""
        async with self._telling:
            for event in events:
                answer = await self._connection.report("TransactionEvent", event)
                if event["eventType"] == "Started":
                    transaction.status = str(answer["idTokenInfo"]["status"])
                    self._changed.set()

    async def _report_energy(self, transaction: Transaction, energy: int) -> None:
        self._held.append(self._event(transaction, "Updated", "MeterValuePeriodic", energy, {}))
        if not transaction.is_told_late and not happens(self._chance, OVERTAKEN):
            held, self._held = self._held[::-1], []
            await self._tell(transaction, held)

    def _report_end(self, transaction: Transaction) -> Awaitable[None]:
        ended = self._event(transaction, "Ended", TRIGGERS[transaction.reason], transaction.energy,
                            {"stoppedReason": "Local"}, "Transaction.End")
        if happens(self._chance):
            ended["idToken"] = {"idToken": transaction.id_tag, "type": "ISO14443"}
        events = [*self._held, ended]
        if happens(self._chance, OVERTAKEN):
            self._chance.shuffle(events)
        return self._tell(transaction, events)

    async def _is_authorized(self, id_tag: str) -> bool:
        try:
            answer = await self._connection.call("Authorize", {"idToken": {"idToken": id_tag, "type": "ISO14443"}})
        except ConnectionLost:
            return False
        return bool(answer["idTokenInfo"]["status"] == "Accepted")

    async def _notify(self, status: str) -> None:
        told = "Occupied" if status in ("Preparing", "Charging") else status
        try:
            await self._connection.call("StatusNotification", {
                "timestamp": self._connection.moment(), "connectorStatus": told, "evseId": CONNECTOR,
                "connectorId": CONNECTOR})
        except ConnectionLost:
            pass

    async def _answer(self, action: str, payload: Payload) -> Payload | None:
        if action == "RequestStartTransaction":
            return {"status": self._start_from_afar(payload["idToken"]["idToken"], payload["evseId"],
                                                    payload["remoteStartId"])}
        if action == "RequestStopTransaction":
            return {"status": self._end_from_afar("Remote", payload["transactionId"])}
        if action == "GetTransactionStatus":
            return {"ongoingIndicator": self._running is not None and self._running.number == payload["transactionId"],
                    "messagesInQueue": not all(one.is_reported for one in self.transactions)}
        return await super()._answer(action, payload)
