"""What no log may have: tokens, passwords, and lines that somebody else wrote."""
import json
import re

import aiohttp

from .cases import OperatorCase
from .charge_point_frames import ChargePoint
from .ocpi_objects import start_session, token
from .ocpi_party import token_header


class Logs(OperatorCase):
    """Lines of text. (That no token of a partner stands in the log is seen at the end of each case.)"""

    async def provoke(self) -> None:
        """Does what a log may be tempted to tell about."""
        versions = self.bridge.ocpi_url + "/ocpi/versions"
        for value in (token_header("stolen-secret"), "Token stolen-secret", "Basic stolen-secret", "stolen-secret"):
            await self.provider.ask("GET", versions, headers={"Authorization": value})
        await self.provider.ask("GET", versions + "?token=stolen-secret")
        for path in ("%0d%0aERROR%20forged-line", "%0AERROR%20forged-line", "%1b%5b31mforged-line"):
            await self.provider.ask("GET", f"{versions}/{path}")
            await self.provider.ask("PUT", f"{self.bridge.ocpi_url}/ocpi/2.2.1/receiver/tokens/NL/PLN/{path}", {})
        driver = token(self.provider.party, "drivers-token")
        for correlation in ("a\tb", "x" * 1000):
            await self.provider.put_token(driver, correlation=correlation)
        await self.provider.put_token({**driver, "type": "drivers-token"})
        for identifier in ("CP1", "%0d%0aERROR%20forged-line", "stolen-secret"):
            with self.assertRaises(aiohttp.WSServerHandshakeError):
                await ChargePoint(self.bridge.ocpp_url, identifier, "stolen-secret").connect()
        charge_point = await self.begin_charge_point()
        await charge_point.frame('[2,"1","DataTransfer",{"vendorId":"v","data":"one\\nERROR forged-line"}]')
        await charge_point.frame('hello\nERROR forged-line')
        await self.provider.command("START_SESSION", start_session(driver, self.provider.url + "/results/1"))
        identifier, _ = await charge_point.asked("RemoteStartTransaction")
        await charge_point.give(identifier, {"status": "Accepted"})
        await self.version("PENDING")
        await self.bridge.stop()

    def assert_no_secret(self, log: str) -> None:
        for secret in ("stolen-secret", "drivers-token"):
            self.assertNotIn(secret, log)

    async def test_no_secret_and_no_forged_line(self) -> None:
        await self.provoke()
        log = self.bridge.log()
        self.assert_no_secret(log)
        self.assertNotIn("\x1b", log)
        self.assertEqual([], [line for line in log.splitlines() if re.match(r"\W*(ERROR )?forged-line", line)])


class JsonLogs(Logs):
    """The same with `--json-logs`: each line is JSON."""

    words = ("--json-logs",)

    async def test_no_secret_and_no_forged_line(self) -> None:
        await self.provoke()
        log = self.bridge.log()
        self.assert_no_secret(log)
        lines = [json.loads(line) for line in log.splitlines()]
        self.assertTrue(lines)
        self.assertTrue(all(isinstance(line, dict) and "message" in line for line in lines))
