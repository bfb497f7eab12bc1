"""Carries charges out, as drivers and their providers do: asks again for what did not come about, until it did."""
import asyncio
import time
from base64 import b64encode
from collections import Counter
from collections.abc import Mapping
from datetime import datetime, timedelta
from random import Random
from typing import Any

import aiohttp

from ..running import Members, RunningBridge
from .charge_point import ChargePoint, Transaction
from .charges import Charge
from .chance import happens
from .parties import CONNECTOR, LOCATION, Secrets

# In seconds of the machine. A command lasts 2.5 of them, and a question about a token 0.8.
A_START_TAKES = 5.0
A_SWIPE_TAKES = 1.5
A_RESERVATION_TAKES = 3.0
AN_END_TAKES = 2.5
A_REPORT_TAKES = 20.0
A_CHARGE_TAKES = 180.0
# In seconds of the bridges' clocks: 20 of the machine.
A_RESERVATION_LASTS = timedelta(seconds=240)


class NotCarriedOut(Exception):
    """A charge did not come about within its time."""


class Drivers:
    """Asks for charges by the admin addresses of the bridges, and by tokens that are shown at charge points."""

    def __init__(self, bridges: Mapping[str, RunningBridge], charge_points: Mapping[str, ChargePoint],
                 secrets: Secrets, chance: Random) -> None:
        self._bridges = bridges
        self._charge_points = charge_points
        self._secrets = secrets
        self._chance = chance
        self.done: list[tuple[Charge, Transaction]] = []
        self.credited: list[str] = []
        self.posted: Counter[str] = Counter()
        self.answered: Counter[str] = Counter()
        self._tokens: set[str] = set()

    async def carry_out(self, charges: list[Charge]) -> None:
        """Carries out the charges of one place, one after another. Raises NotCarriedOut."""
        for charge in charges:
            try:
                await asyncio.wait_for(self._carry_out(charge), A_CHARGE_TAKES)
            except asyncio.TimeoutError:
                raise NotCarriedOut(f"{charge}") from None

    async def _carry_out(self, charge: Charge) -> None:
        charge_point = self._charge_points[charge.place.charge_point]
        charge_point.ends[charge.token_uid] = charge.ends
        if charge.token_uid not in self._tokens:
            self._tokens.add(charge.token_uid)
            await self._insist(charge.provider, "/tokens", self._token(charge))
        if charge.begins == "reserved":
            await self._reserve(charge)
        transaction = await self._begin(charge, charge_point)
        if charge.ends != "Local":
            await self._end(charge, charge_point, transaction)
        await charge_point.until(lambda: transaction.is_reported, A_REPORT_TAKES)
        if charge.is_credited:
            await self._credit(charge, transaction)
        self.done.append((charge, transaction))

    def _token(self, charge: Charge) -> Members:
        return {"country_code": charge.provider[:2], "party_id": charge.provider[3:], "uid": charge.token_uid,
                "type": "RFID", "contract_id": f"C{charge.number:08}", "issuer": charge.provider, "valid": True,
                "whitelist": charge.whitelist, "last_updated": "2025-01-01T00:00:00Z"}

    async def _begin(self, charge: Charge, charge_point: ChargePoint) -> Transaction:
        """Asks for a charge, or shows the token, until a transaction was let charge for it."""
        while True:
            if charge.begins == "swiped":
                await charge_point.swipe(charge.token_uid, happens(self._chance, 0.5))
                transaction = await charge_point.claim(charge.token_uid, charge.ends, A_SWIPE_TAKES)
            else:
                await self._order(charge, "start_session", **self._token_and_place(charge), connector_id=CONNECTOR)
                transaction = await charge_point.claim(charge.token_uid, charge.ends, A_START_TAKES)
            if transaction is not None:
                return transaction

    async def _reserve(self, charge: Charge) -> None:
        """Reserves the EVSE under one id, again where it is not told to be reserved within some time."""
        while True:
            moment, _ = await self._evse_status(charge)
            expiry = datetime.fromisoformat(moment.rstrip("Z")) + A_RESERVATION_LASTS
            await self._order(charge, "reserve_now", **self._token_and_place(charge),
                              expiry_date=f"{expiry:%Y-%m-%dT%H:%M:%SZ}", reservation_id=f"R{charge.number}")
            end = time.monotonic() + A_RESERVATION_TAKES
            while time.monotonic() < end:
                if (await self._evse_status(charge))[1] == "RESERVED":
                    return
                await asyncio.sleep(0.1)

    async def _end(self, charge: Charge, charge_point: ChargePoint, transaction: Transaction) -> None:
        """Has the provider stop the session or unlock its connector, until the charge point was asked to."""
        while not transaction.asked_to_end.is_set() and not transaction.is_reported:
            living = [session["id"] for session in await self._sessions(charge)
                      if session["status"] in ("PENDING", "ACTIVE")]
            if charge.ends == "UnlockCommand":
                await self._order(charge, "unlock_connector", location_id=LOCATION, evse_uid=charge.place.evse_uid,
                                  connector_id=CONNECTOR)
            elif living:
                await self._order(charge, "stop_session", session_id=living[0])
            await charge_point.until(transaction.asked_to_end.is_set, AN_END_TAKES)

    async def _credit(self, charge: Charge, transaction: Transaction) -> None:
        """Takes the bill of a charge back, at its operator."""
        identifier = await self._completed_session(charge, transaction)
        answer = await self._insist(charge.place.operator, "/credits", {"session_id": identifier})
        if answer["done"]["done"] not in ("stepped", "idle"):
            raise NotCarriedOut(f"credit of {identifier}: {answer}")
        self.credited.append(identifier)

    async def _completed_session(self, charge: Charge, transaction: Transaction) -> str:
        """The id of the session of a transaction, once it is completed at its operator."""
        while True:
            for session in await self._sessions(charge):
                if session["status"] == "COMPLETED" and round(session["kwh"] * 1000) == transaction.energy:
                    return str(session["id"])
            await asyncio.sleep(0.2)

    def _token_and_place(self, charge: Charge) -> dict[str, str]:
        return {"token_uid": charge.token_uid, "token_type": "RFID", "location_id": LOCATION,
                "evse_uid": charge.place.evse_uid}

    async def _order(self, charge: Charge, order: str, **members: str) -> None:
        """Gives an order once. Where the bridge does not answer, nobody knows whether it was given."""
        body: Members = {"operator": charge.place.operator, "order": order, **members}
        self.posted[charge.provider] += 1
        if await self._post(charge.provider, "/orders", body) is not None:
            self.answered[charge.provider] += 1

    async def _sessions(self, charge: Charge) -> list[Members]:
        """The sessions by the token of a charge, as the bridge of its operator tells them."""
        sessions: list[Members] = await self._get("admin", charge.place.operator, "/sessions") or []
        return [session for session in sessions if session["cdr_token"]["uid"] == charge.token_uid]

    async def _evse_status(self, charge: Charge) -> tuple[str, str]:
        """The moment by the operator's clock, and the status of the EVSE of a charge, as its locations tell both."""
        token = b64encode(self._secrets.tokens[charge.provider, charge.place.operator].encode()).decode()
        while True:
            answer = await self._get("ocpi", charge.place.operator, "/ocpi/2.2.1/sender/locations", f"Token {token}")
            if answer is not None:
                return str(answer["timestamp"]), next(
                    str(evse["status"]) for location in answer["data"] for evse in location["evses"]
                    if evse["uid"] == charge.place.evse_uid)
            await asyncio.sleep(0.2)

    async def _insist(self, party: str, path: str, body: Members) -> Members:
        """Posts until there is an answer. What is posted may be carried out more than once."""
        while True:
            answer = await self._post(party, path, body)
            if answer is not None:
                return answer
            await asyncio.sleep(0.2)

    async def _post(self, party: str, path: str, body: Members) -> Members | None:
        """The answer of an admin address, or None where the bridge was killed, or is not open."""
        try:
            answer = await self._bridges[party].admin_post(path, body)
        except (aiohttp.ClientError, OSError, asyncio.TimeoutError, KeyError, ValueError):
            return None
        if answer["status"] in (502, 503, 504):
            return None
        if answer["status"] != 200:
            raise NotCarriedOut(f"{party} POST {path} {body}: {answer}")
        return dict(answer["answer"])

    async def _get(self, listener: str, party: str, path: str, authorization: str = "") -> Any:
        """The JSON at a path of a bridge, or None where the bridge was killed, or is not open."""
        headers = {"Authorization": authorization} if authorization else {}
        try:
            url = f"http://{self._bridges[party].addresses[listener]}{path}"
            async with aiohttp.ClientSession() as session, session.get(url, headers=headers) as response:
                return await response.json() if response.status == 200 else None
        except (aiohttp.ClientError, OSError, asyncio.TimeoutError, KeyError, ValueError):
            return None
